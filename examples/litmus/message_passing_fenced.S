! Message passing with fences: the flag is stored after the message, and the message is loaded after the flag.
#include "litmus.h"

        BEGIN

        PROGRAM(0)
        stx     %g3, [%g1]              ! store 1 to x
        membar  #StoreStore
        stx     %g3, [%g2]              ! store 1 to y
        FINISH

        PROGRAM(1)
        ldx     [%g2], %o1              ! load y
        membar  #LoadLoad
        ldx     [%g1], %o2              ! load x
        PUT(%o1)
        PUT(%o2)
        FINISH
