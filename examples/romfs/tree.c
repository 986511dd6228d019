/* Tells what stands in the root, a line for each entry, folder by folder: its path, `dir` or `file`, of a file the number of its
   bytes and their CRC-32, and its mode where statx tells one. The machine of `flatc run` has no statx. An entry that can't be
   opened has its errno. Then it opens each of its arguments to be written, and tells what comes of that. */
#include "rt.h"

enum {
    IOCTL = 29, OPENAT = 56, CLOSE = 57, GETDENTS64 = 61, READ = 63, STATX = 291,
    HERE = -100, WRITE_ONLY = 1, FOLDER = 0x10000, TYPE_FOLDER = 4
};

static char path[4096];

static long call5(long n, long a, long b, long c, long d, long e)
{
    register long a0 __asm__("a0") = a;
    register long a1 __asm__("a1") = b;
    register long a2 __asm__("a2") = c;
    register long a3 __asm__("a3") = d;
    register long a4 __asm__("a4") = e;
    register long a7 __asm__("a7") = n;
    __asm__ volatile("ecall" : "+r"(a0) : "r"(a1), "r"(a2), "r"(a3), "r"(a4), "r"(a7) : "memory");
    return a0;
}

static void put_number(const char *word, u32 value, u32 base)
{
    char digits[12], *at = digits + sizeof digits;
    *--at = 0;
    do
        *--at = "0123456789abcdef"[value % base];
    while (value /= base);
    put(word);
    put(at);
}

static u32 crc(u32 sum, const u8 *bytes, long len)
{
    for (long i = 0; i < len; i++) {
        sum ^= bytes[i];
        for (int bit = 0; bit < 8; bit++)
            sum = sum >> 1 ^ (0xedb88320 & -(sum & 1));
    }
    return sum;
}

static void tell_bytes(void)
{
    static u8 bytes[4096];
    long file = call3(OPENAT, HERE, (long)path, 0), got;
    u32 size = 0, sum = ~0u;
    if (file < 0)
        return put_number(" errno ", -file, 10);
    while ((got = call3(READ, file, (long)bytes, sizeof bytes)) > 0) {
        size += got;
        sum = crc(sum, bytes, got);
    }
    call3(CLOSE, file, 0, 0);
    put_number(" ", size, 10);
    put_number(" ", ~sum, 16);
}

static void tell_mode(void)
{
    static u32 about[64]; /* the mode is the half word at 28 */
    if (call5(STATX, HERE, (long)path, 0x100, 3, (long)about) == 0)
        put_number(" mode ", about[7] & 0xffff, 8);
}

static void tell_folder(u32 len)
{
    char entries[1024];
    long folder = call3(OPENAT, HERE, (long)(len ? path : "/"), FOLDER), got;
    while ((got = call3(GETDENTS64, folder, (long)entries, sizeof entries)) > 0)
        for (char *entry = entries; entry < entries + got; entry += (u8)entry[16] + 256 * (u8)entry[17]) {
            const char *name = entry + 19;
            u32 end = len;
            if (name[0] == '.' && (!name[1] || (name[1] == '.' && !name[2])))
                continue;
            path[end++] = '/';
            while (*name)
                path[end++] = *name++;
            path[end] = 0;
            put(path);
            put(entry[18] == TYPE_FOLDER ? " dir" : " file");
            if (entry[18] != TYPE_FOLDER)
                tell_bytes();
            tell_mode();
            put("\n");
            if (entry[18] == TYPE_FOLDER)
                tell_folder(end);
            path[len] = 0;
        }
    call3(CLOSE, folder, 0, 0);
}

int main(int count, char **arguments)
{
    tell_folder(0);
    for (int i = 1; i < count; i++) {
        long file = call3(OPENAT, HERE, (long)arguments[i], WRITE_ONLY);
        put(arguments[i]);
        if (file < 0)
            put_number(" errno ", -file, 10);
        else
            put(" may be written");
        put("\n");
    }
    call3(IOCTL, 1, 0x5409, 1); /* TCSBRK: until a serial line has sent all */
    return 0;
}
