# 220 clone(0x4111, 0, 0, 0, 0): CLONE_VM, CLONE_VFORK and SIGCHLD. The child has the parent's memory and stack until it calls
# execve or _exit, and only then the parent goes on. So this call keeps nothing on the stack: the return address is in ra,
# which each of the two has for itself. It is no inline call, since gcc knows by the name vfork that it returns twice. What the
# child notes of its own descriptors (fcntl.c) isn't true of its parent's, so the parent puts back what stood there.
    .section .text.vfork, "ax"
    .globl vfork
    .type vfork, @function
vfork:
    li a7, 220
    li a0, 0x4111
    li a1, 0
    li a2, 0
    li a3, 0
    li a4, 0
    la t1, __flat_closing
    lw t0, 0(t1)
    ecall
    bltz a0, 1f
    beqz a0, 2f
    sw t0, 0(t1)
2:  ret
1:  tail __flat_answer
    .size vfork, . - vfork
