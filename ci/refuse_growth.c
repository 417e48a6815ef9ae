/* Refuses growths of memory of a program that is preloaded with it: of its calls of malloc, calloc and realloc, counted
   from 1, the one whose number is in REFUSE_GROWTH, and with a `+` after the number every later one too. At the first
   that it refuses it says "refused growth" on standard error at once: the program may end without running what is
   registered for its exit. */
#define _GNU_SOURCE
#include <dlfcn.h>
#include <errno.h>
#include <stdatomic.h>
#include <stdlib.h>
#include <unistd.h>

static atomic_long calls;
static long number;
static int persists;
static int words_to;
static void *(*next_malloc)(size_t);
static void *(*next_calloc)(size_t, size_t);
static void *(*next_realloc)(void *, size_t);

/* What dlsym takes by calloc while the C library's own functions are looked for. */
static _Alignas(16) char early[4096];
static size_t early_used;

__attribute__((constructor)) static void begin(void)
{
    const char *text = getenv("REFUSE_GROWTH");
    char *rest = NULL;
    next_malloc = (void *(*)(size_t))dlsym(RTLD_NEXT, "malloc");
    next_calloc = (void *(*)(size_t, size_t))dlsym(RTLD_NEXT, "calloc");
    next_realloc = (void *(*)(void *, size_t))dlsym(RTLD_NEXT, "realloc");
    words_to = dup(2); /* the program may close its own */
    atomic_store(&calls, 0);
    number = text ? strtol(text, &rest, 10) : 0;
    persists = rest && *rest == '+';
}

/* Whether this growth is one to refuse. */
static int refuses(void)
{
    if (number == 0)
        return 0;
    long call = atomic_fetch_add(&calls, 1) + 1;
    if (call < number || (call > number && !persists))
        return 0;
    static const char words[] = "refused growth\n";
    if (call == number && write(words_to, words, sizeof words - 1) < 0)
        _exit(9);
    errno = ENOMEM; /* the C library makes threads by these calls too, and looks at it */
    return 1;
}

void *malloc(size_t size)
{
    if (!next_malloc)
        next_malloc = (void *(*)(size_t))dlsym(RTLD_NEXT, "malloc");
    return refuses() ? NULL : next_malloc(size);
}

void *calloc(size_t count, size_t size)
{
    if (!next_calloc) {
        size_t room = (count * size + 15) / 16 * 16;
        if (room > sizeof early - early_used)
            _exit(9);
        early_used += room;
        return early + early_used - room;
    }
    return refuses() ? NULL : next_calloc(count, size);
}

void *realloc(void *old, size_t size)
{
    if (!next_realloc)
        next_realloc = (void *(*)(void *, size_t))dlsym(RTLD_NEXT, "realloc");
    return refuses() ? NULL : next_realloc(old, size);
}
