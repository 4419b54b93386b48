/* Two tasks in C: a producer that sends five numbers to a data queue, and a consumer that adds them up and writes the sum.
 *
 *   clang --target=mips-linux-gnu -mips32 -Os -ffreestanding -fno-pic -mno-abicalls -G0 -msoft-float -c firmware.c
 *   ld.lld -n -T ../../../examples/firmware.ld -e producer --strip-debug -o image.elf firmware.o
 */
typedef unsigned int word;

enum { EXT_TSK = 3, SND_DTQ = 33, RCV_DTQ = 37, PUT_CHR = 40, EXT_KER = 41 };

/* A service call: its number in $v0, its arguments in $a0 and $a1, its answer in $v0, a second result in $v1. */
static inline int call(word number, word first, word second, word *result)
{
    register word v0 __asm__("$2") = number;
    register word v1 __asm__("$3");
    register word a0 __asm__("$4") = first;
    register word a1 __asm__("$5") = second;
    __asm__ volatile("syscall" : "+r"(v0), "=r"(v1) : "r"(a0), "r"(a1) : "memory");
    if (result)
        *result = v1;
    return (int)v0;
}

static const word numbers[5] = { 3, 5, 7, 11, 16 };
static word sum;

void producer(void)
{
    for (int i = 0; i < 5; i++)
        call(SND_DTQ, 1, numbers[i], 0);
    call(EXT_TSK, 0, 0, 0);
}

static void print(word number)
{
    if (number >= 10)
        print(number / 10);
    call(PUT_CHR, '0' + number % 10, 0, 0);
}

void consumer(void)
{
    for (int i = 0; i < 5; i++) {
        word datum;
        if (call(RCV_DTQ, 1, 0, &datum) == 0)
            sum += datum;
    }
    print(sum);
    call(EXT_KER, 0, 0, 0);
    for (;;)
        ;
}
