! Store buffering: may both loads find 0, as if each store waited in a buffer while the load went ahead?
#include "litmus.h"

        BEGIN

        PROGRAM(0)
        stx     %g3, [%g1]              ! store 1 to x
        ldx     [%g2], %o1              ! load y
        PUT(%o1)
        FINISH

        PROGRAM(1)
        stx     %g3, [%g2]              ! store 1 to y
        ldx     [%g1], %o1              ! load x
        PUT(%o1)
        FINISH
