// Refuses memory: loaded before the C library (LD_PRELOAD), it answers a null pointer to the allocation of a number.
//
// HOSTILE_ALLOC_FAIL=N refuses the Nth call of malloc, calloc or realloc, counted from 1 over all threads; with HOSTILE_ALLOC_ON=1 it
// refuses all from the Nth on. HOSTILE_ALLOC_MARK is the name of a file that is made at the first refusal.
#include <errno.h>
#include <fcntl.h>
#include <stdatomic.h>
#include <stdlib.h>
#include <unistd.h>

extern void *__libc_malloc(size_t);
extern void *__libc_calloc(size_t, size_t);
extern void *__libc_realloc(void *, size_t);

static atomic_long calls;

/// Counts a call, and says whether it is refused.
static int refused(void)
{
  const char *which = getenv("HOSTILE_ALLOC_FAIL"), *on = getenv("HOSTILE_ALLOC_ON"), *mark = getenv("HOSTILE_ALLOC_MARK");
  long number = atomic_fetch_add(&calls, 1) + 1, from = which ? atol(which) : 0;
  if (from == 0 || (on ? number < from : number != from))
    return 0;
  if (mark)
    close(open(mark, O_WRONLY | O_CREAT, 0666));
  errno = ENOMEM; // the C library itself supposes this of a refusal (allocate_stack asserts it)
  return 1;
}

void *malloc(size_t size) { return refused() ? NULL : __libc_malloc(size); }
void *calloc(size_t count, size_t size) { return refused() ? NULL : __libc_calloc(count, size); }
void *realloc(void *old, size_t size) { return refused() ? NULL : __libc_realloc(old, size); }
