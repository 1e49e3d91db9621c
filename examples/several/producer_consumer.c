/* A producer and a consumer with a ring of four slots between them. Processor 1 puts the squares of 1 to 10 into the ring,
   processor 0 takes them out and puts them into its output. The others have nothing to do.

   produced and consumed count for ever; their difference says how many slots are full. Only the producer writes the one,
   only the consumer the other, so no lock is needed, only fences. */
#include "rsim.h"

enum { SLOTS = 4, ITEMS = 10 };

static volatile uint64_t slots[SLOTS] OWN_LINE;
static volatile uint64_t produced OWN_LINE;
static volatile uint64_t consumed OWN_LINE;

static void produce(void)
{
    for (uint64_t i = 0; i < ITEMS; i++) {
        while (i - consumed == SLOTS)
            relax();
        slots[i % SLOTS] = (i + 1) * (i + 1);
        membar("#StoreStore");          /* the item is there before it is told of */
        produced = i + 1;
    }
}

static void consume(void)
{
    for (uint64_t i = 0; i < ITEMS; i++) {
        while (produced == i)
            relax();
        membar("#LoadLoad");            /* the item is looked at after it was told of */
        put_number(slots[i % SLOTS]);
        consumed = i + 1;               /* no model lets a store pass an earlier load */
    }
}

int main(void)
{
    switch (processor_number()) {
    case 0: consume(); break;
    case 1: produce(); break;
    }
    return 0;
}
