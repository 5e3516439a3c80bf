/* Loaded before the C library, it refuses one request of a program for memory: the one whose number, counted from 1, stands in
   REFUSED_REQUEST. Then it makes the file whose name stands in REFUSAL_TOLD. tools/as_a_user.py builds it. */
#include <errno.h>
#include <fcntl.h>
#include <stddef.h>
#include <stdlib.h>
#include <unistd.h>

void *__libc_malloc(size_t size);
void *__libc_calloc(size_t count, size_t size);
void *__libc_realloc(void *block, size_t size);
void *__libc_memalign(size_t alignment, size_t size);

static unsigned long asked, refused;

__attribute__((constructor)) static void begin(void)
{
    const char *digit = getenv("REFUSED_REQUEST");
    for (; digit != NULL && *digit != 0; digit++)
        refused = refused * 10 + (unsigned long)(*digit - '0');
    asked = 0;
}

static int is_refused(void)
{
    const char *told = getenv("REFUSAL_TOLD");
    asked += 1;
    if (asked != refused)
        return 0;
    if (told != NULL)
        close(open(told, O_WRONLY | O_CREAT, 0600));
    errno = ENOMEM;
    return 1;
}

void *malloc(size_t size)
{
    return is_refused() ? NULL : __libc_malloc(size);
}

void *calloc(size_t count, size_t size)
{
    return is_refused() ? NULL : __libc_calloc(count, size);
}

void *realloc(void *block, size_t size)
{
    return is_refused() ? NULL : __libc_realloc(block, size);
}

void *aligned_alloc(size_t alignment, size_t size)
{
    return is_refused() ? NULL : __libc_memalign(alignment, size);
}

int posix_memalign(void **block, size_t alignment, size_t size)
{
    *block = aligned_alloc(alignment, size);
    return *block == NULL ? ENOMEM : 0;
}
