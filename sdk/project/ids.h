/* The IDs of the kernel's objects, for firmware.c and firmware.cfg. */
#define GREETER 1                       /* tasks */
#define PRESSED 1                       /* semaphores */
#define BUTTON 3                        /* interrupt lines */
