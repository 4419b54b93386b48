#define CHECK 1                         /* tasks */
