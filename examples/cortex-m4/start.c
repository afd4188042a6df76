/*
 * Start-up of a C program on a bare Cortex-M4, here qemu's board mps2-an386.
 * Files, output and the words of the command line go through semihosting; a
 * box has its own drivers for them.
 */
#include <stdint.h>
#include <stdlib.h>

#define STACK_TOP ((void *)0x20400000)
#define HEAP_TOP ((char *)0x22000000)
#define WORDS 8
#define GET_COMMAND_LINE 0x15

extern char end; /* of .bss, by mps2.ld */
void initialise_monitor_handles(void);
void *_sbrk(int bytes);
void _init(void);
void _fini(void);
void Reset(void);
int main(int count, char **words);

/* Asks the debugger or the emulator; the answer is 0 where it succeeds. */
static int semihosted(int operation, void *block)
{
    register int r0 __asm__("r0") = operation;
    register void *r1 __asm__("r1") = block;
    __asm__ volatile("bkpt 0xAB" : "+r"(r0) : "r"(r1) : "memory");
    return r0;
}

/* Splits the command line at its spaces. Returns how many words it has. */
static int split(char *line, char **words)
{
    int count = 0;
    while (*line != '\0' && count < WORDS) {
        words[count++] = line;
        while (*line != '\0' && *line != ' ') {
            line++;
        }
        if (*line == ' ') {
            *line++ = '\0';
        }
    }
    return count;
}

void Reset(void)
{
    static char line[256];
    static char *words[WORDS + 1];
    struct {
        char *buffer;
        int length;
    } block = {line, sizeof line};

    /* Switches the unit for single floats on: the hard-float convention passes doubles in its registers. */
    *(volatile uint32_t *)0xE000ED88 |= 0xFu << 20;
    __asm__ volatile("dsb; isb");
    initialise_monitor_handles();
    if (semihosted(GET_COMMAND_LINE, &block) != 0) {
        line[0] = '\0';
    }
    exit(main(split(line, words), words));
}

/* The vector table begins with the stack's top and the entry point. */
static const struct {
    void *stack_top;
    void (*reset)(void);
} vectors __attribute__((section(".vectors"), used)) = {STACK_TOP, Reset};

void _init(void) {}
void _fini(void) {}

/* Gives newlib's malloc the memory behind .bss. */
void *_sbrk(int bytes)
{
    static char *at = &end;
    char *from = at;
    if (bytes > HEAP_TOP - at) {
        return (void *)-1;
    }
    at += bytes;
    return from;
}
