! Independent reads of independent writes: may processor 2 find x stored and y not yet, and processor 3 find y stored and
! x not yet, as if they saw the two stores in different orders?
#include "litmus.h"

        BEGIN

        PROGRAM(0)
        stx     %g3, [%g1]              ! store 1 to x
        FINISH

        PROGRAM(1)
        stx     %g3, [%g2]              ! store 1 to y
        FINISH

        PROGRAM(2)
        ldx     [%g1], %o1              ! load x
        ldx     [%g2], %o2              ! load y
        PUT(%o1)
        PUT(%o2)
        FINISH

        PROGRAM(3)
        ldx     [%g2], %o1              ! load y
        ldx     [%g1], %o2              ! load x
        PUT(%o1)
        PUT(%o2)
        FINISH
