/* Eight queens: in how many ways eight queens stand on a chessboard so that none attacks another. Row by row, with the
   squares that are attacked as bits: columns, and both diagonals, which move by one column a row. */
#include "rsim.h"

enum { SIZE = 8 };

static int ways(int row, unsigned columns, unsigned rising, unsigned falling)
{
    if (row == SIZE)
        return 1;
    int found = 0;
    unsigned open = ~(columns | rising | falling) & ((1u << SIZE) - 1);
    while (open) {
        unsigned queen = open & -open;
        open ^= queen;
        found += ways(row + 1, columns | queen, (rising | queen) << 1, (falling | queen) >> 1);
    }
    return found;
}

int main(void)
{
    put_number(ways(0, 0, 0, 0));
    return 0;
}
