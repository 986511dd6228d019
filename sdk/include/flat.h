/* What the kit has beside the C library. */
#ifndef _FLAT_H
#define _FLAT_H
#ifdef __cplusplus
extern "C" {
#endif
/* How many bytes of the stack have been used, from below the environment down to the deepest byte that was written. 0 where
   the stack doesn't stand behind the program, as under qemu-riscv32 with an ELF file. */
unsigned long flat_stack_used(void);
/* How many bytes between the program and that deepest byte were never written; 0 where that isn't known. */
unsigned long flat_stack_left(void);
#ifdef __cplusplus
}
#endif
#endif
