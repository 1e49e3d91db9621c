! Coherence of one location: may processor 1 find a newer number in x, and then an older one?
#include "litmus.h"

        BEGIN

        PROGRAM(0)
        mov     2, %o1
        stx     %g3, [%g1]              ! store 1 to x
        stx     %o1, [%g1]              ! store 2 to x
        FINISH

        PROGRAM(1)
        ldx     [%g1], %o1              ! load x
        ldx     [%g1], %o2              ! load x
        PUT(%o1)
        PUT(%o2)
        FINISH
