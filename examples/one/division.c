/* Division by zero. The machine ends the processor with trap 028, and the report names the address of the instruction:
   sparc64-linux-gnu-objdump -d division.elf shows a udivx there. Nothing is put after it. */
#include "rsim.h"

/* Volatile, so that the compiler does not know the value. */
static volatile unsigned long divisor = 3;

int main(void)
{
    put_number(42 / divisor);
    divisor = 0;
    put_number(42 / divisor);
    return 0;
}
