// What C++ without exceptions asks of its library: new and delete over malloc, and the end of a call that has no body.
// Debian has no C++ library for this target, so there are no headers of one.
#include <stddef.h>
#include <stdlib.h>

void *operator new(size_t size)
{
    void *at = malloc(size ? size : 1);
    if (!at)
        abort();
    return at;
}
void *operator new[](size_t size) { return operator new(size); }
void operator delete(void *at) noexcept { free(at); }
void operator delete[](void *at) noexcept { free(at); }
void operator delete(void *at, size_t) noexcept { free(at); }
void operator delete[](void *at, size_t) noexcept { free(at); }

extern "C" void __cxa_pure_virtual() { abort(); }
