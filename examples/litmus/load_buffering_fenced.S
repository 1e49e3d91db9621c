! Load buffering with fences. Every model keeps a store behind an earlier load anyhow, so they change nothing.
#include "litmus.h"

        BEGIN

        PROGRAM(0)
        ldx     [%g1], %o1              ! load x
        membar  #LoadStore
        stx     %g3, [%g2]              ! store 1 to y
        PUT(%o1)
        FINISH

        PROGRAM(1)
        ldx     [%g2], %o1              ! load y
        membar  #LoadStore
        stx     %g3, [%g1]              ! store 1 to x
        PUT(%o1)
        FINISH
