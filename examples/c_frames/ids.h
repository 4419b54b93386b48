/* The IDs of the kernel's objects, for firmware.c and firmware.cfg. */
#define READER 1                        /* tasks */
#define ARRIVED 1                       /* semaphores */
#define LINE 3                          /* interrupt lines */
