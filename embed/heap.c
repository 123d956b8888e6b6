/* How the library asks the C library for memory, in place of the kit's own file, which knows malloc alone. What has several
   lines of the cache begins with one: so eight names of ids share a line, and so do the words of eight keys, and what a
   reader has beside its handle takes as few as it can. What has several huge pages asks Linux for these. */
#define _DEFAULT_SOURCE
#include <stdint.h>
#include <stdlib.h>
#include <sys/mman.h>

enum { LINE = 64, HUGE_PAGE = 2 << 20, FEW = 4 };

/* Whether there was memory, and where it is. */
typedef struct {
  uint64_t is_there;
  void *at;
} block;

block rattle_alloc(size_t size, size_t align);
block rattle_realloc(void *old, size_t old_size, size_t size, size_t align);
void rattle_dealloc(void *at, size_t size, size_t align);

static block block_at(void *at) {
  static char nowhere;
  return (block){at != NULL, at ? at : &nowhere};
}

static block aligned(size_t size, size_t align) {
  void *at;
  return block_at(posix_memalign(&at, align, size) ? NULL : at);
}

block rattle_alloc(size_t size, size_t align) {
  if (size < FEW * LINE) return block_at(malloc(size ? size : align));
  if (size < FEW * HUGE_PAGE) return aligned(size, LINE);
  block made = aligned(size, HUGE_PAGE);
  /* Linux may have none to give. */
  if (made.is_there) (void)madvise(made.at, size, MADV_HUGEPAGE);
  return made;
}

block rattle_realloc(void *old, size_t old_size, size_t size, size_t align) {
  (void)old_size;
  return block_at(realloc(old, size ? size : align));
}

void rattle_dealloc(void *at, size_t size, size_t align) {
  (void)size, (void)align;
  free(at);
}
