/* Refuses growths of memory, as a program asks for it: put before the C library by LD_PRELOAD.

       cc -O2 -shared -fPIC -o refuse.so refuse.c

   A growth of REFUSES and n more bytes asks that the n-th growth behind it be refused, or each one where n is 0; one of
   STARVES and n more that all be from the n-th on. One of ENDS bytes ends that; one of TELLS bytes too, and is refused
   itself where another one was (crates/ron_test_rows/src/refused.rt).

   A program that asks for nothing is asked by its environment: REFUSED=n has its n-th growth refused, REFUSED=n+ all from
   the n-th on. Where TOLD names a file, the number of its growths is written there when it ends. */
#define _GNU_SOURCE
#include <dlfcn.h>
#include <errno.h>
#include <stddef.h>
#include <stdio.h>
#include <stdlib.h>

#define REFUSES 40000000u
#define STARVES 41000000u
#define TELLS 39999999u
#define ENDS 39999998u
#define MOST 100000u

void *__libc_malloc(size_t size);
void *__libc_realloc(void *piece, size_t size);
void *__libc_calloc(size_t count, size_t size);
void *__libc_memalign(size_t alignment, size_t size);

static int asked, all, refused;
static size_t left, growths;

__attribute__((constructor)) static void begin(void)
{
    const char *word = getenv("REFUSED");
    char *end;

    if (!word)
        return;
    left = strtoull(word, &end, 10);
    asked = left != 0;
    all = *end == '+';
}

__attribute__((destructor)) static void end(void)
{
    const char *name = getenv("TOLD");
    size_t count = growths;
    FILE *file;

    asked = 0;
    if (name && (file = fopen(name, "w"))) {
        fprintf(file, "%zu\n", count);
        fclose(file);
    }
}

/* Whether a growth of so many bytes is to be refused. */
static int is_refused(size_t size)
{
    growths++;
    if (size == TELLS) {
        int told = refused;
        asked = all = refused = 0;
        return told;
    }
    if (size == ENDS) {
        asked = all = 0;
        return 0;
    }
    if ((size >= REFUSES && size <= REFUSES + MOST) || (size >= STARVES && size <= STARVES + MOST)) {
        all = size >= STARVES || size == REFUSES;
        left = size - (size >= STARVES ? STARVES : REFUSES);
        asked = 1;
        refused = 0;
        return 0;
    }
    if (!asked)
        return 0;
    if (left > 1) {
        left--;
        return 0;
    }
    if (!all)
        asked = 0;
    refused = 1;
    return 1;
}

static void *none(void)
{
    errno = ENOMEM;
    return NULL;
}

void *malloc(size_t size)
{
    return is_refused(size) ? none() : __libc_malloc(size);
}

void *realloc(void *piece, size_t size)
{
    return is_refused(size) ? none() : __libc_realloc(piece, size);
}

void *calloc(size_t count, size_t size)
{
    return is_refused(count * size) ? none() : __libc_calloc(count, size);
}

void *aligned_alloc(size_t alignment, size_t size)
{
    return is_refused(size) ? none() : __libc_memalign(alignment, size);
}

int posix_memalign(void **piece, size_t alignment, size_t size)
{
    if (is_refused(size))
        return ENOMEM;
    *piece = __libc_memalign(alignment, size);
    return *piece ? 0 : ENOMEM;
}
