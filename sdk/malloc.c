/* malloc over mappings: an area is one mapping, cut into chunks of 16 bytes and their multiples. Where no chunk is large enough
   another area is mapped, of a quarter of what there is at least, and an area that is free as a whole is given back, but for the
   last one. Where the link says -Wl,--defsym=__heap_size=0x40000, there is one area of so many bytes, and no other. Newlib's own
   malloc is over sbrk, which can't grow without an MMU. */
#include <errno.h>
#include <malloc.h>
#include <reent.h>
#include <stdint.h>
#include <stdlib.h>
#include <string.h>
#include <sys/mman.h>

enum { UNIT = 16, HEADER = 8, PAGE = 4096, LEAST_AREA = 0x8000, SMALL_BINS = 32, BINS = 56 };
enum { USED = 1 };

/* What stands before a chunk's bytes, which begin at a multiple of 16; the links are in the bytes of a free one. The last chunk
   of an area has size 0 and is used, and behind the first one of it `before` is 0. */
struct chunk {
    size_t before, size;
    struct chunk *next, *last;
};

struct area {
    struct area *next, *last;
    size_t size, unused[3];
};

static struct area *areas;
static size_t mapped, taken;
static struct chunk *bins[BINS];
static uint64_t filled;

/* A word, so that the symbol, which is a number, is no distance from the code; flat.ld gives 0 where the link doesn't say. */
extern char __heap_size[];
static char *const volatile heap_size = __heap_size;

static size_t size_of(const struct chunk *chunk)
{
    return chunk->size & ~(size_t)USED;
}

static struct chunk *behind(struct chunk *chunk)
{
    return (struct chunk *)((char *)chunk + size_of(chunk));
}

static struct chunk *chunk_of(void *bytes)
{
    return (struct chunk *)((char *)bytes - HEADER);
}

static void *bytes_of(struct chunk *chunk)
{
    return (char *)chunk + HEADER;
}

/* Below 512 a bin holds chunks of one size, and above those between two powers of two. */
static unsigned bin_of(size_t size)
{
    if (size < UNIT * SMALL_BINS)
        return size / UNIT;
    return SMALL_BINS + (31 - __builtin_clz(size)) - 9;
}

static void put(struct chunk *chunk)
{
    unsigned bin = bin_of(chunk->size);
    chunk->last = 0;
    chunk->next = bins[bin];
    if (chunk->next)
        chunk->next->last = chunk;
    bins[bin] = chunk;
    filled |= 1ull << bin;
}

static void take(struct chunk *chunk)
{
    unsigned bin = bin_of(chunk->size);
    if (chunk->next)
        chunk->next->last = chunk->last;
    if (chunk->last)
        chunk->last->next = chunk->next;
    else if (!(bins[bin] = chunk->next))
        filled &= ~(1ull << bin);
}

static struct chunk *found(size_t size)
{
    for (uint64_t left = filled >> bin_of(size) << bin_of(size); left; left &= left - 1)
        for (struct chunk *chunk = bins[__builtin_ctzll(left)]; chunk; chunk = chunk->next)
            if (chunk->size >= size)
                return chunk;
    return 0;
}

/* What is over of a used chunk behind its first `size` bytes becomes a free one. */
static void cut(struct chunk *chunk, size_t size)
{
    size_t over = size_of(chunk) - size;
    if (over < UNIT)
        return;
    struct chunk *end = behind(chunk), *rest = (struct chunk *)((char *)chunk + size);
    chunk->size = size | USED;
    if (!(end->size & USED)) {
        take(end);
        over += end->size;
        end = behind(end);
    }
    rest->before = size;
    rest->size = over;
    end->before = over;
    put(rest);
}

static struct area *map(size_t size)
{
    void *at = mmap(0, size, PROT_READ | PROT_WRITE, MAP_PRIVATE | MAP_ANONYMOUS, -1, 0);
    return at == MAP_FAILED ? 0 : at;
}

/* A free chunk of a new area that has room for `size` bytes. */
static struct chunk *grown(size_t size)
{
    size_t least = (size + sizeof(struct area) + HEADER + PAGE - 1) & ~(size_t)(PAGE - 1);
    size_t only = (size_t)heap_size & ~(size_t)(PAGE - 1);
    size_t wanted = mapped / 4 & ~(size_t)(PAGE - 1);
    wanted = wanted < LEAST_AREA ? LEAST_AREA : wanted;
    wanted = only ? only : wanted < least ? least : wanted;
    if (only && (areas || only < least))
        return 0;
    struct area *area = map(wanted);
    if (!area && wanted > least && !only)
        area = map(wanted = least);
    if (!area)
        return 0;
    mapped += wanted;
    area->size = wanted;
    area->last = 0;
    area->next = areas;
    if (areas)
        areas->last = area;
    areas = area;
    struct chunk *chunk = (struct chunk *)(area + 1);
    chunk->before = 0;
    chunk->size = wanted - sizeof *area - HEADER;
    struct chunk *end = behind(chunk);
    end->before = chunk->size;
    end->size = USED;
    put(chunk);
    return chunk;
}

/* Gives back the area that this free chunk fills. */
static void unmap(struct chunk *chunk)
{
    struct area *area = (struct area *)chunk - 1;
    take(chunk);
    if (area->next)
        area->next->last = area->last;
    if (area->last)
        area->last->next = area->next;
    else
        areas = area->next;
    mapped -= area->size;
    munmap(area, area->size);
}

/* The size of the chunk for so many bytes, or 0 where there is none. */
static size_t chunk_size(size_t count)
{
    if (count > PTRDIFF_MAX - PAGE)
        return 0;
    return count <= UNIT - HEADER ? UNIT : (count + HEADER + UNIT - 1) & ~(size_t)(UNIT - 1);
}

static void *given(size_t count)
{
    size_t size = chunk_size(count);
    struct chunk *chunk = size ? found(size) : 0;
    if (!chunk && size)
        chunk = grown(size);
    if (!chunk) {
        errno = ENOMEM;
        return 0;
    }
    take(chunk);
    chunk->size |= USED;
    cut(chunk, size);
    taken += size_of(chunk);
    return bytes_of(chunk);
}

void *malloc(size_t count)
{
    return given(count);
}

void free(void *bytes)
{
    if (!bytes)
        return;
    struct chunk *chunk = chunk_of(bytes), *next = behind(chunk);
    size_t size = size_of(chunk);
    taken -= size;
    if (!(next->size & USED)) {
        take(next);
        size += next->size;
    }
    struct chunk *before = (struct chunk *)((char *)chunk - chunk->before);
    if (chunk->before && !(before->size & USED)) {
        take(before);
        size += before->size;
        chunk = before;
    }
    chunk->size = size;
    next = behind(chunk);
    next->before = size;
    put(chunk);
    if (!chunk->before && size_of(next) == 0 && areas->next)
        unmap(chunk);
}

void *calloc(size_t count, size_t size)
{
    size_t bytes;
    if (__builtin_mul_overflow(count, size, &bytes)) {
        errno = ENOMEM;
        return 0;
    }
    void *at = malloc(bytes);
    return at ? memset(at, 0, bytes) : 0;
}

/* Whether a used chunk has `size` bytes, if need be with those of a free one behind it. */
static int widened(struct chunk *chunk, size_t size)
{
    struct chunk *next = behind(chunk);
    size_t have = size_of(chunk);
    if (have < size && !(next->size & USED) && have + next->size >= size) {
        take(next);
        have += next->size;
        chunk->size = have | USED;
        behind(chunk)->before = have;
    }
    return have >= size;
}

void *realloc(void *bytes, size_t count)
{
    size_t size = chunk_size(count);
    if (!bytes)
        return malloc(count);
    struct chunk *chunk = chunk_of(bytes);
    size_t have = size_of(chunk);
    if (size && widened(chunk, size)) {
        cut(chunk, size);
        taken += size_of(chunk) - have;
        return bytes;
    }
    void *at = malloc(count);
    if (at) {
        memcpy(at, bytes, (have < size ? have : size) - HEADER);
        free(bytes);
    }
    return at;
}

void *memalign(size_t align, size_t count)
{
    if (align <= UNIT)
        return malloc(count);
    if (align & (align - 1) || align > PTRDIFF_MAX / 2 || count > PTRDIFF_MAX / 2) {
        errno = align & (align - 1) ? EINVAL : ENOMEM;
        return 0;
    }
    char *bytes = given(count + align);
    if (!bytes)
        return 0;
    char *at = (char *)(((uintptr_t)bytes + align - 1) & ~(uintptr_t)(align - 1));
    if (at != bytes) {
        struct chunk *whole = chunk_of(bytes), *chunk = chunk_of(at);
        size_t front = at - bytes;
        chunk->before = front;
        chunk->size = (size_of(whole) - front) | USED;
        behind(chunk)->before = size_of(chunk);
        whole->size = front | USED;
        free(bytes);
    }
    struct chunk *chunk = chunk_of(at);
    size_t have = size_of(chunk);
    cut(chunk, chunk_size(count));
    taken -= have - size_of(chunk);
    return at;
}

void *aligned_alloc(size_t align, size_t count)
{
    return memalign(align, count);
}

int posix_memalign(void **result, size_t align, size_t count)
{
    if (align < sizeof(void *) || align & (align - 1))
        return EINVAL;
    int before = errno;
    void *at = memalign(align, count);
    errno = before;
    if (!at)
        return ENOMEM;
    *result = at;
    return 0;
}

void *valloc(size_t count)
{
    return memalign(PAGE, count);
}

size_t malloc_usable_size(void *bytes)
{
    return bytes ? size_of(chunk_of(bytes)) - HEADER : 0;
}

/* Nothing can be set, and what is free is given back at once. */
int mallopt(int what, int value)
{
    (void)what, (void)value;
    return 0;
}

int malloc_trim(size_t left)
{
    (void)left;
    return 0;
}

struct mallinfo mallinfo(void)
{
    struct mallinfo info = {.arena = mapped, .uordblks = taken, .fordblks = mapped - taken};
    return info;
}

/* Newlib's functions ask by these names. */
void *_malloc_r(struct _reent *reent, size_t count)
{
    (void)reent;
    return malloc(count);
}

void _free_r(struct _reent *reent, void *bytes)
{
    (void)reent;
    free(bytes);
}

void *_calloc_r(struct _reent *reent, size_t count, size_t size)
{
    (void)reent;
    return calloc(count, size);
}

void *_realloc_r(struct _reent *reent, void *bytes, size_t count)
{
    (void)reent;
    return realloc(bytes, count);
}

void *_memalign_r(struct _reent *reent, size_t align, size_t count)
{
    (void)reent;
    return memalign(align, count);
}
