/* The IDs of the kernel's objects, for the programs and their configurations. */
#define FIRST 1                         /* tasks */
#define SECOND 2
#define THIRD 3
#define FOURTH 4
#define EVEN 1                          /* semaphores of barrier.c: of the rounds 0, 2, .., and of all others */
#define ODD 2
#define RECEIVED 3                      /* interrupt lines: of ring.c */

/* How many tasks the barriers have: 3 or 4. */
#ifndef TASKS
#define TASKS 4
#endif
