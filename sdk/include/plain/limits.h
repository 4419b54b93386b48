/* What GCC's <limits.h> goes on with, which looks for a C library's here. Without one there is nothing more. */
