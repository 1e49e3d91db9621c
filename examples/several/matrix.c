/* The product of two matrices, its rows shared out among the processors. Nothing is written by two of them, so they need to
   wait only at the end. Where a line of memory has more than one row it still goes from processor to processor.

   left has i + 1 everywhere in row i, right has k + j in row k and column j, so the product has (i + 1) (28 + 8 j). */
#include "rsim.h"

enum { SIZE = 8 };

static uint64_t left[SIZE][SIZE] OWN_LINE, right[SIZE][SIZE] OWN_LINE;
static uint64_t product[SIZE][SIZE] OWN_LINE;
static barrier filled, multiplied;

static void fill(unsigned row)
{
    for (unsigned i = 0; i < SIZE; i++) {
        left[row][i] = row + 1;
        right[row][i] = row + i;
    }
}

static void multiply(unsigned row)
{
    for (unsigned column = 0; column < SIZE; column++) {
        uint64_t sum = 0;
        for (unsigned k = 0; k < SIZE; k++)
            sum += left[row][k] * right[k][column];
        product[row][column] = sum;
    }
}

/* Puts the numbers of the diagonal, and the sum of all. */
static void put_product(void)
{
    uint64_t all = 0;
    for (unsigned i = 0; i < SIZE; i++) {
        put_number(product[i][i]);
        for (unsigned j = 0; j < SIZE; j++)
            all += product[i][j];
    }
    put_number(all);
}

int main(void)
{
    for (unsigned row = processor_number(); row < SIZE; row += processor_count())
        fill(row);
    await_all(&filled);
    for (unsigned row = processor_number(); row < SIZE; row += processor_count())
        multiply(row);
    await_all(&multiplied);
    if (processor_number() == 0)
        put_product();
    return 0;
}
