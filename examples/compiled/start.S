# The first instructions of a compiled program: they stand at 0x10000, where
# every context begins. All registers are 0 there, so only sp needs a value.
        .section .text.start, "ax", @progbits
        .globl  _start
        .type   _start, @function
_start:
        la      sp, stack_end           # below it is the stack, which grows down
        call    main                    # leaves its results in a0 and a1
        ecall                           # stops the context with cause 8
        .size   _start, . - _start
