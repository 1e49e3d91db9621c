/* The same counter without a lock that counts right: each processor stores its sum only where the number is still the one
   that it has loaded, and begins again where another came between (fetch_and_add in kit/rsim.h). */
#include "rsim.h"

enum { ROUNDS = 240 };          /* of all processors together */

static barrier done;
static volatile uint64_t counter OWN_LINE;

int main(void)
{
    for (unsigned i = processor_number(); i < ROUNDS; i += processor_count())
        fetch_and_add(&counter, 1);
    await_all(&done);
    if (processor_number() == 0)
        put_number(counter);
    return 0;
}
