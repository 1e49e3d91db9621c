! What the litmus programs share. Each processor runs a program of its own, and all begin it in the same cycle.
!
! x and y are two numbers of eight bytes, 0 at first, at 0x400000 and 0x400080: never in one line.
! BEGIN puts the address of x into %g1, that of y into %g2, and 1 into %g3, and leads processor p to PROGRAM(p).
! PUT(r) puts the number in the register r, FINISH exits with status 0.
!
! A program may begin later, by as many cycles, at most 200: build -DDELAY0=5 delays that of processor 0.
        .register %g2, #scratch
        .register %g3, #scratch

#ifndef DELAY0
#define DELAY0 0
#endif
#ifndef DELAY1
#define DELAY1 0
#endif
#ifndef DELAY2
#define DELAY2 0
#endif
#ifndef DELAY3
#define DELAY3 0
#endif

        .comm   x, 8, 128
        .comm   y, 8, 128

#define BEGIN                               \
        .text;                              \
        .globl  main;                       \
main:   sethi   %hi(x), %g1;                \
        or      %g1, %lo(x), %g1;           \
        sethi   %hi(y), %g2;                \
        or      %g2, %lo(y), %g2;           \
        sethi   %hi(.Lprograms), %o2;       \
        or      %o2, %lo(.Lprograms), %o2;  \
        sllx    %o0, 10, %o0;               \
        jmp     %o2 + %o0;                  \
        mov     1, %g3;                     \
        .align  1024;                       \
.Lprograms:

! Programs stand 1,024 bytes apart.
#define PROGRAM(p)                          \
        .align  1024;                       \
        .rept   DELAY##p;                   \
        nop;                                \
        .endr

#define PUT(r)                              \
        mov     r, %o0;                     \
        ta      18

#define FINISH                              \
        mov     0, %o0;                     \
        ta      16
