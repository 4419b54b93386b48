#define PRINT 1                         /* tasks */
