/* Sources for TOPPERS include this. */
#include "toppers.h"
