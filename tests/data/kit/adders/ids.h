#define FIRST 1                         /* tasks */
#define SECOND 2
