/* Recursion deeper than the register windows. A processor has eight windows, one a call; where a ninth is needed the oldest
   is stored on the stack, and loaded again on the way back. Each depth adds its number after the call returns, so every
   window must come back as it was: the sum is 100 x 101 / 2. */
#include "rsim.h"

enum { DEPTH = 100 };

static __attribute__((noinline)) long sum_to(long n)
{
    if (n == 0)
        return 0;
    long below = sum_to(n - 1);
    __asm__ volatile("");       /* keeps the compiler from making a loop of the calls */
    return below + n;
}

int main(void)
{
    put_number(sum_to(DEPTH));
    return 0;
}
