/* A barrier between the rounds of a computation: the sums of the first numbers 1, 1 + 2, 1 + 2 + 3 and so on, by doubling.
   In the round of a distance each sum becomes that of itself and the one so far below it. The sums are shared out among
   the processors, and no round may begin before all have done the one before: it reads what others have written there. */
#include "rsim.h"

enum { COUNT = 16 };

static barrier rounds;
static volatile uint64_t sums[2][COUNT] OWN_LINE;

static void add_at_distance(volatile uint64_t *to, volatile uint64_t *from, unsigned distance)
{
    for (unsigned i = processor_number(); i < COUNT; i += processor_count())
        to[i] = i < distance ? from[i] : from[i] + from[i - distance];
}

int main(void)
{
    unsigned now = 0;

    for (unsigned i = processor_number(); i < COUNT; i += processor_count())
        sums[now][i] = i + 1;
    await_all(&rounds);
    for (unsigned distance = 1; distance < COUNT; distance *= 2) {
        add_at_distance(sums[!now], sums[now], distance);
        now = !now;
        await_all(&rounds);
    }
    if (processor_number() == 0)
        for (int i = 0; i < COUNT; i++)
            put_number(sums[now][i]);
    return 0;
}
