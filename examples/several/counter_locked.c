/* A counter under a lock. Each processor loads it, adds one, and stores it, and no other comes between: none is lost. */
#include "rsim.h"

enum { ROUNDS = 240 };          /* of all processors together */

static spin_lock lock;
static barrier done;
static volatile uint64_t counter OWN_LINE;

int main(void)
{
    for (unsigned i = processor_number(); i < ROUNDS; i += processor_count()) {
        acquire(&lock);
        counter = counter + 1;
        release(&lock);
    }
    await_all(&done);
    if (processor_number() == 0)
        put_number(counter);
    return 0;
}
