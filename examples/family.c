#include "rt.h"
/* Like a shell: starts this very program three times with two arguments, one child after the other, by vfork and execve, waits for
   each, and lists a folder. With -fPIC the globals are reached through the GOT. */
char room[40028]; /* fills the image up to 40,960 bytes */
u32 rounds = 13000;
char *names[] = {"a", "b", "c"};

static inline long wait_for(u32 *info)
{
    register long a0 __asm__("a0") = 0;
    register long a1 __asm__("a1") = 0;
    register long a2 __asm__("a2") = (long)info;
    register long a3 __asm__("a3") = 4;
    register long a4 __asm__("a4") = 0;
    register long a7 __asm__("a7") = 95;
    __asm__ volatile("ecall" : "+r"(a0) : "r"(a1), "r"(a2), "r"(a3), "r"(a4), "r"(a7) : "memory");
    return a0;
}

static int child(const char *name)
{
    u32 sum = 0;
    for (u32 i = 0; i < rounds; i++)
        sum = sum * 31 + i;
    room[0] = (char)sum;
    put(name);
    put("\n");
    return name[0];
}

static void list(const char *path)
{
    long folder = call3(56, -100, (long)path, 0x10000);
    long len;
    while ((len = call3(61, folder, (long)room, 256)) > 0)
        for (char *entry = room; entry < room + len; entry += (u8)entry[16]) {
            put(entry + 19);
            put(" ");
        }
    put("\n");
}

int main(int argc, char **argv)
{
    u32 info[6];
    if (argc == 2)
        return child(argv[1]);
    for (int i = 0; i < 3; i++) {
        char *args[] = {argv[0], names[i], 0};
        if (call3(220, 0x4111, 0, 0) == 0) {
            call3(221, (long)args[0], (long)args, 0);
            call3(93, 127, 0, 0);
        }
        if (wait_for(info) == 0)
            put_hex(info[5]);
    }
    list("/etc");
    return 0;
}
