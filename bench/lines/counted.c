/* Counts what a program takes of memory: preloaded, it prints the number of calls of malloc, calloc and realloc at the end. */
#define _GNU_SOURCE
#include <dlfcn.h>
#include <stddef.h>
#include <stdio.h>

static unsigned long calls;

void *malloc(size_t size) {
  static void *(*real)(size_t);
  if (!real) real = (void *(*)(size_t))dlsym(RTLD_NEXT, "malloc");
  calls++;
  return real(size);
}

void *realloc(void *old, size_t size) {
  static void *(*real)(void *, size_t);
  if (!real) real = (void *(*)(void *, size_t))dlsym(RTLD_NEXT, "realloc");
  calls++;
  return real(old, size);
}

__attribute__((destructor)) static void report(void) { fprintf(stderr, "%lu\n", calls); }

/* A program that has threads ends by this call, which runs no destructor. */
void _exit(int status) {
  void (*real)(int) = (void (*)(int))dlsym(RTLD_NEXT, "_exit");
  report();
  real(status);
  __builtin_unreachable();
}
