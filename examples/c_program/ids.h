/* The IDs of the kernel's objects, for firmware.c and firmware.cfg. */
#define METER 1                         /* tasks */
#define PULSES 1                        /* semaphores: the pulses that aren't added yet */
#define PULSE 3                         /* interrupt lines */
