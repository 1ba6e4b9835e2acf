/* Is loaded before the C library, counts the allocations of a program, and refuses one of them, or all from one on. The file that REFUSE names holds
   four numbers of eight bytes: how many allocations from now the first refused one is (0: none is refused), whether all after it are refused too,
   how many there were, and how many were refused. Whoever runs the program writes the first two while it runs. */
#define _GNU_SOURCE
#include <errno.h>
#include <fcntl.h>
#include <stdlib.h>
#include <sys/mman.h>
#include <unistd.h>

extern void *__libc_malloc(size_t size);
extern void *__libc_realloc(void *at, size_t size);

static long *numbers;

__attribute__((constructor)) static void begin(void) {
  const char *name = getenv("REFUSE");
  int file = name ? open(name, O_RDWR | O_CLOEXEC) : -1;
  if (file < 0) return;
  void *at = mmap(0, 4 * sizeof(long), PROT_READ | PROT_WRITE, MAP_SHARED, file, 0);
  if (at != MAP_FAILED) numbers = at;
  close(file);
}

static int is_refused(void) {
  if (!numbers) return 0;
  __atomic_add_fetch(&numbers[2], 1, __ATOMIC_SEQ_CST);
  long left = __atomic_load_n(&numbers[0], __ATOMIC_SEQ_CST);
  long next;
  do {
    if (left == 0) return 0;
    next = left == 1 && __atomic_load_n(&numbers[1], __ATOMIC_SEQ_CST) ? 1 : left - 1;
  } while (!__atomic_compare_exchange_n(&numbers[0], &left, next, 0, __ATOMIC_SEQ_CST, __ATOMIC_SEQ_CST));
  if (left > 1) return 0;
  __atomic_add_fetch(&numbers[3], 1, __ATOMIC_SEQ_CST);
  errno = ENOMEM;
  return 1;
}

#ifndef ALLOC
#define ALLOC malloc
#define REALLOC realloc
#define ALLOC_FOUND __libc_malloc
#define REALLOC_FOUND __libc_realloc
#endif

void *ALLOC(size_t size) { return is_refused() ? 0 : ALLOC_FOUND(size); }
void *REALLOC(void *at, size_t size) { return is_refused() ? 0 : REALLOC_FOUND(at, size); }
