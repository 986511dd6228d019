/* Thread-local data of another file, which may be missing: the linker makes sections of a dynamic linker for it. */
extern __thread int own __attribute__((weak));
int main(void)
{
    return own;
}
