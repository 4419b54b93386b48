#define FIRST 1                         /* tasks */
#define SECOND 2
#define DONE 1                          /* semaphores */
#define TICKED 3                        /* interrupt lines: on processor 1, on processor 2 */
#define RUNG 4
