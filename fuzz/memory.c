/* Memory for the fuzz target. Compiled as it is, it comes from malloc, for the address sanitizer. With -DGUARD_PAGES it lies
 * before a page that may not be touched. */
#include "target.h"

#include <stdio.h>
#include <stdlib.h>
#include <sys/mman.h>

#ifdef GUARD_PAGES
#define PAGE ((size_t)4096)

static size_t pages_of(size_t size)
{
    return (size + PAGE - 1) / PAGE * PAGE;
}

void *take(size_t size)
{
    uint8_t *start = mmap(NULL, pages_of(size) + PAGE, PROT_READ | PROT_WRITE, MAP_PRIVATE | MAP_ANONYMOUS, -1, 0);
    if (start == MAP_FAILED || mprotect(start + pages_of(size), PAGE, PROT_NONE) != 0) {
        abort();
    }
    return start + (pages_of(size) - size);
}

void give_back(void *memory, size_t size)
{
    munmap((uint8_t *)memory - (pages_of(size) - size), pages_of(size) + PAGE);
}
#else
void *take(size_t size)
{
    return malloc(size);
}

void give_back(void *memory, size_t size)
{
    (void)size;
    free(memory);
}
#endif

void expect(int holds, const char *what)
{
    if (!holds) {
        fprintf(stderr, "not so: %s\n", what);
        abort();
    }
}

int all(const void *memory, size_t from, size_t to, uint8_t value)
{
    const uint8_t *bytes = memory;
    while (from < to && bytes[from] == value) {
        from++;
    }
    return from >= to;
}
