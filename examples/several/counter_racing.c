/* The same counter without a lock, and what goes wrong: two processors load the same number, both add one to it, and both
   store the same sum, so that one of the two rounds is lost. Each access by itself is performed as a whole, and every
   consistency model has this order, the strictest too: what is missing is a lock, not a fence.

   On this machine a processor that owns the line makes rounds until the line is called back. The other then loads the
   number, or waits to store its own sum while the first makes more rounds, and stores over all of them. */
#include "rsim.h"

enum { ROUNDS = 240 };          /* of all processors together */

static barrier done;
static volatile uint64_t counter OWN_LINE;

int main(void)
{
    for (unsigned i = processor_number(); i < ROUNDS; i += processor_count())
        counter = counter + 1;
    await_all(&done);
    if (processor_number() == 0)
        put_text(counter < ROUNDS ? "some rounds were lost\n" : "every round was counted\n");
    return 0;
}
