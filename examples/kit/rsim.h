/* What a C program says to the simulated machine. There is no library beside this and kit/memory.c.

   Every processor runs main. What main returns is the processor's exit status. */
#ifndef RSIM_H
#define RSIM_H

#include <stddef.h>
#include <stdint.h>

/* ---- which processor this is */

register unsigned long rsim_processor __asm__("g6");
register unsigned long rsim_processors __asm__("g7");

/* This processor's number, from 0. */
static inline unsigned processor_number(void) { return rsim_processor; }

/* How many processors the machine has, 1 to 16. */
static inline unsigned processor_count(void) { return rsim_processors; }

/* ---- output and exit: each processor has an output of its own in the report */

/* Puts one byte. */
static inline void put_byte(char byte)
{
    register unsigned long o0 __asm__("o0") = (unsigned char)byte;
    __asm__ volatile("ta 17" : : "r"(o0));
}

/* Puts a text, and no line feed. */
static inline void put_text(const char *text)
{
    while (*text)
        put_byte(*text++);
}

/* Puts a number in decimal, and a line feed. */
static inline void put_number(uint64_t number)
{
    register uint64_t o0 __asm__("o0") = number;
    __asm__ volatile("ta 18" : : "r"(o0));
}

/* Ends this processor; the others run on. */
static inline _Noreturn void exit(int status)
{
    register long o0 __asm__("o0") = status;
    __asm__ volatile("ta 16" : : "r"(o0) : "memory");
    __builtin_unreachable();
}

/* ---- shared memory

   What processors share is volatile, so that the compiler makes each access that is written, and in this order. The order
   in which the machine performs them is another matter: see docs/CONSISTENCY.md. */

/* A line of a cache has at most so many bytes. Variables that are aligned to it never share a line. */
#define LINE_BYTES 128
#define OWN_LINE __attribute__((aligned(LINE_BYTES)))

/* A fence, by the names of the manual: membar("#StoreLoad"), membar("#LoadLoad | #LoadStore"). The compiler moves no
   access across it either. */
#define membar(names) __asm__ volatile("membar " names : : : "memory")

/* Stores desired where memory has expected, at once; answers what was there. */
static inline uint64_t compare_and_swap(volatile uint64_t *at, uint64_t expected, uint64_t desired)
{
    __asm__ volatile("casx [%1], %2, %0" : "+r"(desired) : "r"(at), "r"(expected) : "memory");
    return desired;
}

/* The same for four bytes. */
static inline uint32_t compare_and_swap_32(volatile uint32_t *at, uint32_t expected, uint32_t desired)
{
    __asm__ volatile("cas [%1], %2, %0" : "+r"(desired) : "r"(at), "r"(expected) : "memory");
    return desired;
}

/* Stores a value, and answers what was there, at once. */
static inline uint32_t swap(volatile uint32_t *at, uint32_t value)
{
    __asm__ volatile("swap [%1], %0" : "+r"(value) : "r"(at) : "memory");
    return value;
}

/* Stores 0xFF, and answers the byte that was there, at once. */
static inline uint8_t ldstub(volatile uint8_t *at)
{
    unsigned long found;
    __asm__ volatile("ldstub [%1], %0" : "=r"(found) : "r"(at) : "memory");
    return found;
}

/* Adds to a number at once, and answers what was there. */
static inline uint64_t fetch_and_add(volatile uint64_t *at, uint64_t amount)
{
    uint64_t found;
    do
        found = *at;
    while (compare_and_swap(at, found, found + amount) != found);
    return found;
}

/* Spends some forty cycles without an access. A loop that waits for another processor calls it, so that the line that
   it looks at has time to go to the others: without a pause it would be asked for again and again. */
static inline void relax(void)
{
    for (int i = 0; i < 16; i++)
        __asm__ volatile("");
}

/* ---- a spin lock: begins as zeros, which is free */

typedef struct {
    volatile uint8_t held;
} OWN_LINE spin_lock;

static inline void acquire(spin_lock *lock)
{
    while (ldstub(&lock->held))
        do
            relax();
        while (lock->held);
    membar("#LoadLoad | #LoadStore");       /* nothing of the critical section comes before the lock is had */
}

static inline void release(spin_lock *lock)
{
    membar("#LoadStore | #StoreStore");     /* all of the critical section comes before the lock is free */
    lock->held = 0;
}

/* ---- a barrier of all processors: begins as zeros, and may be used again and again */

typedef struct {
    volatile uint64_t arrived OWN_LINE;     /* how many have come in this round */
    volatile uint64_t round OWN_LINE;       /* how many rounds are done */
} barrier;

/* Waits until every processor has come. What each did before is seen by all afterwards. */
static inline void await_all(barrier *b)
{
    membar("#LoadLoad | #LoadStore | #StoreLoad | #StoreStore");
    uint64_t round = b->round;
    if (fetch_and_add(&b->arrived, 1) + 1 == processor_count()) {
        b->arrived = 0;
        membar("#StoreStore");              /* the next round's count begins before the next round does */
        b->round = round + 1;
    } else {
        while (b->round == round)
            relax();
    }
    membar("#LoadLoad | #LoadStore | #StoreLoad | #StoreStore");
}

#endif
