/* The first program: says hello, and how much 6 times 7 is. */
#include "rsim.h"

int main(void)
{
    put_text("hello from the simulated machine\n6 times 7 is ");
    put_number(6 * 7);
    return 0;
}
