#define COUNT 1                         /* tasks */
#define PULSED 1                        /* semaphores */
#define PULSE 3                         /* interrupt lines */
