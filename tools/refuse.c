/* Refuses one allocation of a process: the one whose number, from 1, the environment's REFUSE names. It
   says so on standard error. To be loaded with LD_PRELOAD: the toolchain's own switch builds the tests anew for
   each number. */
#include <stdatomic.h>
#include <stdlib.h>
#include <unistd.h>

void *__libc_malloc(size_t size);
void *__libc_realloc(void *old, size_t size);

static atomic_ulong made;
static unsigned long wanted;

__attribute__((constructor)) static void begin(void)
{
    const char *number = getenv("REFUSE");
    wanted = number ? strtoul(number, NULL, 10) : 0;
}

static int refuses(void)
{
    static const char said[] = "memory was refused\n";
    if (wanted == 0 || atomic_fetch_add(&made, 1) + 1 != wanted)
        return 0;
    return write(2, said, sizeof said - 1) >= 0;
}

void *malloc(size_t size)
{
    return refuses() ? NULL : __libc_malloc(size);
}

void *realloc(void *old, size_t size)
{
    return refuses() ? NULL : __libc_realloc(old, size);
}
