! Coherence with fences. Every model keeps two stores to one place in order, and two loads too: they change nothing.
#include "litmus.h"

        BEGIN

        PROGRAM(0)
        mov     2, %o1
        stx     %g3, [%g1]              ! store 1 to x
        membar  #StoreStore
        stx     %o1, [%g1]              ! store 2 to x
        FINISH

        PROGRAM(1)
        ldx     [%g1], %o1              ! load x
        membar  #LoadLoad
        ldx     [%g1], %o2              ! load x
        PUT(%o1)
        PUT(%o2)
        FINISH
