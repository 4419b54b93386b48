#define CLERK 1                         /* tasks */
#define METER 2
#define READY 1                         /* semaphores */
