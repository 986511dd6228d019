/* What gcc calls for atomics where the processor has no A extension. Processes of the machine share no memory, and a child of a
   vfork has it alone, so each is the plain operation. On a processor that runs threads they wouldn't do. */
#include <stdbool.h>

#define BOTH(NAME, TYPE, N, SIGN) \
    TYPE __atomic_fetch_##NAME##_##N(volatile void *at, TYPE value, int order) \
    { \
        (void)order; \
        TYPE before = *(volatile TYPE *)at; \
        *(volatile TYPE *)at = SIGN; \
        return before; \
    } \
    TYPE __atomic_##NAME##_fetch_##N(volatile void *at, TYPE value, int order) \
    { \
        (void)order; \
        TYPE before = *(volatile TYPE *)at; \
        return *(volatile TYPE *)at = SIGN; \
    }

#define OF(TYPE, N) \
    TYPE __atomic_load_##N(const volatile void *at, int order) \
    { \
        (void)order; \
        return *(const volatile TYPE *)at; \
    } \
    void __atomic_store_##N(volatile void *at, TYPE value, int order) \
    { \
        (void)order; \
        *(volatile TYPE *)at = value; \
    } \
    TYPE __atomic_exchange_##N(volatile void *at, TYPE value, int order) \
    { \
        (void)order; \
        TYPE before = *(volatile TYPE *)at; \
        *(volatile TYPE *)at = value; \
        return before; \
    } \
    bool __atomic_compare_exchange_##N(volatile void *at, void *wanted, TYPE value, int order, int other) \
    { \
        (void)order, (void)other; \
        TYPE before = *(volatile TYPE *)at; \
        bool same = before == *(TYPE *)wanted; \
        if (same) \
            *(volatile TYPE *)at = value; \
        else \
            *(TYPE *)wanted = before; \
        return same; \
    } \
    BOTH(add, TYPE, N, before + value) \
    BOTH(sub, TYPE, N, before - value) \
    BOTH(and, TYPE, N, before & value) \
    BOTH(or, TYPE, N, before | value) \
    BOTH(xor, TYPE, N, before ^ value) \
    BOTH(nand, TYPE, N, ~(before & value))

OF(unsigned char, 1)
OF(unsigned short, 2)
OF(unsigned int, 4)
OF(unsigned long long, 8)

bool __atomic_test_and_set(volatile void *at, int order)
{
    return __atomic_exchange_1(at, 1, order);
}

bool __atomic_is_lock_free(unsigned long size, const volatile void *at)
{
    (void)at;
    return size == 1 || size == 2 || size == 4 || size == 8;
}
