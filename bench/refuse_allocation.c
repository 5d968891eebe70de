// Refuses one allocation of the program that it is loaded into: the one of the number in REFUSE, counted from 1 over
// all threads. A byte to file descriptor 3 tells that it came to that.
#include <errno.h>
#include <stdatomic.h>
#include <stddef.h>
#include <stdlib.h>
#include <unistd.h>

extern void *__libc_malloc(size_t);
extern void *__libc_calloc(size_t, size_t);
extern void *__libc_realloc(void *, size_t);

static atomic_long count;
static long refused;

__attribute__((constructor)) static void read_number(void) {
    const char *word = getenv("REFUSE");
    refused = word ? atol(word) : 0;
}

static int is_refused(void) {
    if (refused == 0 || atomic_fetch_add(&count, 1) + 1 != refused) return 0;
    if (write(3, "x", 1) != 1) _exit(99);
    errno = ENOMEM;
    return 1;
}

void *malloc(size_t size) { return is_refused() ? NULL : __libc_malloc(size); }
void *calloc(size_t many, size_t size) { return is_refused() ? NULL : __libc_calloc(many, size); }
void *realloc(void *old, size_t size) { return is_refused() ? NULL : __libc_realloc(old, size); }
