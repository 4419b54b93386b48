#define ALL 1                           /* tasks */
#define OTHER 2
#define DONE 1                          /* semaphores */
#define TOUCHED 5                       /* interrupt lines */
