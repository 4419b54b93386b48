/* A task of the benchmark for each processor, and its argument: of how many processors, and how many rounds. */
#define FIRST 1                         /* tasks */
#define SECOND 2
#define THIRD 3
#define FOURTH 4
#define PRINTER 1                       /* semaphores */
#define ARGUMENT(processors, rounds) ((processors) << 24 | (rounds))
