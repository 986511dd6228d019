/* What stands in the chroot in place of a program: it has qemu-riscv32 run BusyBox's ELF file under this program's name. Both stand
   in /.qemu, which no script lists, with the loader and the libraries of the host. */
#include <stdlib.h>
#include <string.h>
#include <unistd.h>

int main(int count, char **words)
{
    char *head[] = {"ld.so", "--library-path", "/.qemu", "/.qemu/qemu-riscv32", "-0", words[0], "/.qemu/busybox.elf"};
    const size_t size = sizeof head / sizeof *head;
    char **all = calloc(size + count + 1, sizeof *all);
    memcpy(all, head, sizeof head);
    if (count)
        memcpy(all + size, words + 1, (count - 1) * sizeof *all);
    execv("/.qemu/ld.so", all);
    return 126;
}
