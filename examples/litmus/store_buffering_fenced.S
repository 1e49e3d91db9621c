! Store buffering with fences: no load goes ahead of the store before it.
#include "litmus.h"

        BEGIN

        PROGRAM(0)
        stx     %g3, [%g1]              ! store 1 to x
        membar  #StoreLoad
        ldx     [%g2], %o1              ! load y
        PUT(%o1)
        FINISH

        PROGRAM(1)
        stx     %g3, [%g2]              ! store 1 to y
        membar  #StoreLoad
        ldx     [%g1], %o1              ! load x
        PUT(%o1)
        FINISH
