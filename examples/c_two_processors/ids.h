/* The IDs of the kernel's objects, for firmware.c and firmware.cfg. */
#define MEASURE 1                       /* tasks */
#define SHOW 2
#define FINISH 3
#define SAMPLES 1                       /* semaphores: the samples that aren't read yet */
#define READINGS 1                      /* data queues: from MEASURE to SHOW */
#define STATE 1                         /* event flags, and their bits */
#define STOPPED 0x1                     /* the button was pressed */
#define SHOWN 0x2                       /* SHOW has ended */
#define SENSOR 3                        /* interrupt lines */
#define BUTTON 4
