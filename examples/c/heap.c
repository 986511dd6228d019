/* malloc, calloc, realloc and free over one mapping of __heap_size bytes, which examples/c/real sets to 65536; qsort; strtod. */
#include <errno.h>
#include <stdio.h>
#include <stdlib.h>
#include <string.h>

static int by_value(const void *a, const void *b)
{
    double x = *(const double *)a, y = *(const double *)b;
    return (x > y) - (x < y);
}

int main(void)
{
    char *at = "2.5 -1e3 0x1p-2 inf 7";
    double *values = calloc(5, sizeof *values);
    for (int i = 0; i < 5; i++)
        values[i] = strtod(at, &at);
    qsort(values, 5, sizeof *values, by_value);
    for (int i = 0; i < 5; i++)
        printf("%g\n", values[i]);
    values = realloc(values, 1000);
    printf("%g\n", values[4]);
    free(values);
    void *blocks[128];
    int n = 0;
    for (; n < 128 && (blocks[n] = malloc(1024)); n++)
        memset(blocks[n], n, 1024);
    printf("between 48 and 64 blocks of 1024 bytes: %s, then %s\n", n >= 48 && n < 64 ? "yes" : "no", strerror(errno));
    while (n)
        free(blocks[--n]);
    printf("40960 bytes more: %s\n", malloc(40960) ? "yes" : "no");
    return 0;
}
