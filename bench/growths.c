/* An allocator before that of the C library (glibc), for bench/growths and bench/hostile: it counts
   growths, which are calls of malloc and realloc, and the most bytes that are taken at a time.
     GROWTHS_REFUSED=N     the growth of this number, from 1, is refused
     GROWTHS_TOLD=FILE     at the end the numbers of growths and of bytes are written there
   Built by  cc -O2 -shared -fPIC -o growths.so growths.c  and used by LD_PRELOAD. */
#define _GNU_SOURCE
#include <malloc.h>
#include <stdatomic.h>
#include <stdio.h>
#include <stdlib.h>
#include <sys/syscall.h>
#include <unistd.h>

extern void *__libc_malloc(size_t);
extern void *__libc_calloc(size_t, size_t);
extern void *__libc_realloc(void *, size_t);
extern void __libc_free(void *);

static long refused;
static atomic_long growths, taken, most;

__attribute__((constructor)) static void begin(void)
{
    const char *number = getenv("GROWTHS_REFUSED");

    refused = number ? strtol(number, NULL, 10) : 0;
    atomic_store(&growths, 0);
}

/* The programs end by this call. */
void _exit(int status)
{
    const char *path = getenv("GROWTHS_TOLD");
    long count = atomic_load(&growths);
    FILE *out = path ? fopen(path, "w") : NULL;

    if (out) {
        fprintf(out, "%ld %ld\n", count, atomic_load(&most));
        fclose(out);
    }
    for (;;)
        syscall(SYS_exit_group, status);
}

static int is_refused(void)
{
    return atomic_fetch_add(&growths, 1) + 1 == refused;
}

static void *note(void *piece)
{
    long size = piece ? (long)malloc_usable_size(piece) : 0;
    long now = atomic_fetch_add(&taken, size) + size;
    long before = atomic_load(&most);

    while (now > before && !atomic_compare_exchange_weak(&most, &before, now))
        ;
    return piece;
}

static void forget(void *piece)
{
    if (piece)
        atomic_fetch_sub(&taken, (long)malloc_usable_size(piece));
}

void *malloc(size_t size)
{
    return is_refused() ? NULL : note(__libc_malloc(size));
}

void *calloc(size_t count, size_t size)
{
    return note(__libc_calloc(count, size));
}

void *realloc(void *piece, size_t size)
{
    void *grown;

    if (is_refused())
        return NULL;
    forget(piece);
    grown = __libc_realloc(piece, size);
    note(grown ? grown : piece);
    return grown;
}

void free(void *piece)
{
    forget(piece);
    __libc_free(piece);
}
