/* The IDs of the kernel's objects, for firmware.c and firmware.cfg. */
#define MEASURE 1                       /* tasks */
#define SHOW 2
#define WATCH 3
#define BLOCKS 1                        /* fixed memory pools */
#define MESSAGES 1                      /* mailboxes */
#define CONSOLE 1                       /* mutexes */
#define BLOCK_COUNT 3
#define BLOCK_SIZE 16
#define PRIORITIES 2
