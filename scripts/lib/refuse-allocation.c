/* Preloaded into a program: refuses the allocation whose number REFUSED_ALLOCATION gives, the first being 1. A byte then goes
   to file 9. To make a block smaller takes no memory, and is no allocation: a program may do without. */
#include <malloc.h>
#include <stdlib.h>
#include <unistd.h>

extern void *__libc_malloc(size_t size);
extern void *__libc_realloc(void *old, size_t size);

/* Whether this allocation is the one to refuse, whichever thread makes it. */
static int is_refused(void) {
  static long made;
  const char *number = getenv("REFUSED_ALLOCATION");
  long this = __atomic_add_fetch(&made, 1, __ATOMIC_SEQ_CST);
  return number && this == atol(number) && write(9, "x", 1) == 1;
}

void *malloc(size_t size) {
  return is_refused() ? NULL : __libc_malloc(size);
}

void *realloc(void *old, size_t size) {
  /* (a block has up to 16 bytes more than were asked for) */
  if (old && size + 16 <= malloc_usable_size(old)) {
    return __libc_realloc(old, size);
  }
  return is_refused() ? NULL : __libc_realloc(old, size);
}
