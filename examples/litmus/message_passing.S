! Message passing: x is a message and y a flag that tells of it. May processor 1 find the flag set, and then not the
! message?
#include "litmus.h"

        BEGIN

        PROGRAM(0)
        stx     %g3, [%g1]              ! store 1 to x
        stx     %g3, [%g2]              ! store 1 to y
        FINISH

        PROGRAM(1)
        ldx     [%g2], %o1              ! load y
        ldx     [%g1], %o2              ! load x
        PUT(%o1)
        PUT(%o2)
        FINISH
