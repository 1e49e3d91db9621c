/* Sorts twelve numbers by insertion: each in turn is moved left past the larger ones before it. */
#include "rsim.h"

enum { COUNT = 12 };

static long numbers[COUNT] = { 31, 4, 15, 92, 65, 35, 89, 79, 3, 23, 84, 62 };

static void sort(long *items, int count)
{
    for (int next = 1; next < count; next++) {
        long moved = items[next];
        int place = next;
        for (; place > 0 && items[place - 1] > moved; place--)
            items[place] = items[place - 1];
        items[place] = moved;
    }
}

int main(void)
{
    sort(numbers, COUNT);
    for (int i = 0; i < COUNT; i++)
        put_number(numbers[i]);
    return 0;
}
