! Load buffering: may both loads find 1, as if each waited until the store behind it had gone ahead?
#include "litmus.h"

        BEGIN

        PROGRAM(0)
        ldx     [%g1], %o1              ! load x
        stx     %g3, [%g2]              ! store 1 to y
        PUT(%o1)
        FINISH

        PROGRAM(1)
        ldx     [%g2], %o1              ! load y
        stx     %g3, [%g1]              ! store 1 to x
        PUT(%o1)
        FINISH
