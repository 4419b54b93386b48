#define MAIN 1                          /* tasks */
#define WAITER 2
#define OTHER 3
#define ONE 1                           /* an object of each kind */
#define TWO 2                           /* a mutex */
#define LINE 31
