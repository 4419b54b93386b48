#define METER 1                         /* tasks */
#define CLERK 2
#define SAMPLED 1                       /* semaphores */
#define PULSE 3                         /* interrupt lines */
