/* The IDs of the kernel's objects, for firmware.c and firmware.cfg. */
#define CONTROL 1                       /* tasks */
#define RESCUE 2
#define SAMPLER 1                       /* cyclic handlers */
#define WATCHDOG 1                      /* alarm handlers */
#define LEVELS 1                        /* data queues */
#define BARKED 1                        /* semaphores */
#define VALVE 2
#define PATIENCE 5                      /* ticks */
