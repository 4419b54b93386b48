/* The IDs of the kernel's objects, for firmware.c and firmware.cfg. */
#define RECEIVER 1                      /* tasks */
#define READER 2
#define BYTES 1                         /* data queues */
