#define MAIN_TASK 1                     /* tasks */
#define SUB_TASK 2
#define MTX_BUS 1                       /* mutexes */
#define MPF_LETTERS 1                   /* fixed memory pools */
#define MBX_POST 1                      /* mailboxes */
#define DTQ_WORDS 1                     /* data queues */
#define SPN_LOCK 1                      /* spin locks */
#define INHNO_TIMER 5                   /* interrupt lines */
