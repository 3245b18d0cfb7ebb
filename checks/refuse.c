// refuse.c: a library to be preloaded that counts how often memory is asked for and threads are begun, from main on, and refuses. What
// it counts stands in the file that REFUSE_COUNTS names, as two numbers of eight bytes. REFUSE_MEMORY and REFUSE_THREADS are numbers,
// from 1, of the call that is refused; with REFUSE_ON all later ones are refused too.
#define _GNU_SOURCE
#include <dlfcn.h>
#include <errno.h>
#include <fcntl.h>
#include <pthread.h>
#include <stdatomic.h>
#include <stdlib.h>
#include <sys/mman.h>
#include <unistd.h>

extern void *__libc_malloc(size_t);
extern void *__libc_calloc(size_t, size_t);
extern void *__libc_realloc(void *, size_t);

static _Atomic unsigned long *counts;
static unsigned long memory, threads;
static int on;

static unsigned long number(const char *name) {
  const char *text = getenv(name);
  return text ? strtoul(text, 0, 10) : 0;
}

__attribute__((constructor)) static void begin(void) {
  const char *name = getenv("REFUSE_COUNTS");
  int file = name ? open(name, O_RDWR) : -1;
  if (file < 0)
    return;
  memory = number("REFUSE_MEMORY");
  threads = number("REFUSE_THREADS");
  on = getenv("REFUSE_ON") != 0;
  void *place = mmap(0, 16, PROT_READ | PROT_WRITE, MAP_SHARED, file, 0);
  close(file);
  if (place != MAP_FAILED)
    counts = place;
}

static int refused(int which, unsigned long wanted) {
  if (!counts)
    return 0;
  unsigned long call = atomic_fetch_add(counts + which, 1) + 1;
  return wanted && (call == wanted || (on && call > wanted));
}

static void *no_memory(void) {
  errno = ENOMEM;
  return 0;
}

void *malloc(size_t size) { return refused(0, memory) ? no_memory() : __libc_malloc(size); }
void *calloc(size_t many, size_t size) { return refused(0, memory) ? no_memory() : __libc_calloc(many, size); }
void *realloc(void *old, size_t size) { return refused(0, memory) ? no_memory() : __libc_realloc(old, size); }

int pthread_create(pthread_t *thread, const pthread_attr_t *how, void *(*body)(void *), void *with) {
  static int (*next)(pthread_t *, const pthread_attr_t *, void *(*)(void *), void *);
  if (refused(1, threads))
    return EAGAIN;
  if (!next)
    next = dlsym(RTLD_NEXT, "pthread_create");
  return next(thread, how, body, with);
}
