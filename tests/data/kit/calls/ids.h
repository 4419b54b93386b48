#define MAIN 1                          /* tasks */
#define LOW 2
#define HIGH 3
#define OTHER 4
#define ONE 1                           /* a semaphore, an event flag, a data queue */
#define DONE 2                          /* semaphores */
#define LINE 31
