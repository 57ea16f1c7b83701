/* A library to preload: it refuses one allocation of a program, or all from one on.
 *
 *   REFUSE_CALL=N     the call that is refused, from 1; 0 refuses none
 *   REFUSE_ALL=1      the calls after it are refused too
 *   REFUSE_MET=PATH   a file that is made once a call was refused
 *
 * What is refused answers as if there were no memory. The programs that it serves have one thread.
 */
#define _GNU_SOURCE
#include <dlfcn.h>
#include <errno.h>
#include <fcntl.h>
#include <stdlib.h>
#include <string.h>
#include <unistd.h>

static unsigned long calls;
static unsigned long first_refused;
static int refuses_all;
static const char *met;

__attribute__((constructor)) static void begin(void)
{
    const char *call = getenv("REFUSE_CALL");
    const char *all = getenv("REFUSE_ALL");

    first_refused = call == NULL ? 0 : strtoul(call, NULL, 10);
    refuses_all = all != NULL && strcmp(all, "1") == 0;
    met = getenv("REFUSE_MET");
    calls = 0;
}

static int is_refused(void)
{
    calls++;
    if (first_refused == 0 || calls < first_refused || (calls > first_refused && !refuses_all))
        return 0;
    if (met != NULL) {
        int file = open(met, O_WRONLY | O_CREAT, 0600);
        if (file >= 0)
            close(file);
    }
    return 1;
}

/* The function of this name in the libraries after this one. */
static void *next_of(const char *name)
{
    void *found = dlsym(RTLD_NEXT, name);
    if (found == NULL)
        _exit(99);
    return found;
}

static void *refusal(void)
{
    errno = ENOMEM;
    return NULL;
}

void *malloc(size_t size)
{
    static void *(*next)(size_t);
    if (next == NULL)
        next = (void *(*)(size_t))next_of("malloc");
    return is_refused() ? refusal() : next(size);
}

void *calloc(size_t count, size_t size)
{
    static void *(*next)(size_t, size_t);
    if (next == NULL)
        next = (void *(*)(size_t, size_t))next_of("calloc");
    return is_refused() ? refusal() : next(count, size);
}

void *realloc(void *old, size_t size)
{
    static void *(*next)(void *, size_t);
    if (next == NULL)
        next = (void *(*)(void *, size_t))next_of("realloc");
    return is_refused() ? refusal() : next(old, size);
}

void *aligned_alloc(size_t alignment, size_t size)
{
    static void *(*next)(size_t, size_t);
    if (next == NULL)
        next = (void *(*)(size_t, size_t))next_of("aligned_alloc");
    return is_refused() ? refusal() : next(alignment, size);
}

int posix_memalign(void **to, size_t alignment, size_t size)
{
    static int (*next)(void **, size_t, size_t);
    if (next == NULL)
        next = (int (*)(void **, size_t, size_t))next_of("posix_memalign");
    return is_refused() ? ENOMEM : next(to, alignment, size);
}
