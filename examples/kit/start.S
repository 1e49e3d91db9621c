! Where every processor of the machine begins. It finds its own number in %o0, how many processors there are in %o1, and a
! stack of 64 KiB in %sp. A C program gets these two numbers from rsim.h, which looks for them in %g6 and %g7: the
! compiler leaves both registers alone.
        .register %g6, #ignore
        .register %g7, #ignore

        .section .text.start, "ax"
        .globl  _start
        .type   _start, #function
_start:
        mov     %o0, %g6
        call    main
        mov     %o1, %g7                ! in the delay slot: runs before main does
        ta      16                      ! exits with what main returned, which is in %o0
        .size   _start, . - _start
