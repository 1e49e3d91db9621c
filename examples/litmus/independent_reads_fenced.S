! Independent reads with fences: each reader loads in the order of its program, and both see the stores in one order.
#include "litmus.h"

        BEGIN

        PROGRAM(0)
        stx     %g3, [%g1]              ! store 1 to x
        FINISH

        PROGRAM(1)
        stx     %g3, [%g2]              ! store 1 to y
        FINISH

        PROGRAM(2)
        ldx     [%g1], %o1              ! load x
        membar  #LoadLoad
        ldx     [%g2], %o2              ! load y
        PUT(%o1)
        PUT(%o2)
        FINISH

        PROGRAM(3)
        ldx     [%g2], %o1              ! load y
        membar  #LoadLoad
        ldx     [%g1], %o2              ! load x
        PUT(%o1)
        PUT(%o2)
        FINISH
