/* A loop that goes one too far, and so writes what stands behind the array. No access strays: all of it is the program's own. */
#include <stdio.h>

struct meter {
    int readings[4];
    int limit;
};

struct meter meter = { { 0 }, 100 };

static void take(int number, int value)
{
    meter.readings[number] = value;
}

int main(void)
{
    for (int number = 0; number <= 4; number++)
        take(number, 7 * number);
    printf("limit %d\n", meter.limit);
    return 0;
}
