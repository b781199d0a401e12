/* Preloaded into a program: refuses the thread whose number REFUSED_THREAD gives, the first being 1. A byte then goes to file 9. */
#define _GNU_SOURCE
#include <dlfcn.h>
#include <errno.h>
#include <pthread.h>
#include <stdlib.h>
#include <unistd.h>

typedef int (*create_thread)(pthread_t *, const pthread_attr_t *, void *(*)(void *), void *);

int pthread_create(pthread_t *thread, const pthread_attr_t *attributes, void *(*start)(void *), void *argument) {
  static int made;
  const char *number = getenv("REFUSED_THREAD");
  made += 1;
  if (number && made == atoi(number) && write(9, "x", 1) == 1) {
    return EAGAIN;
  }
  create_thread create = (create_thread)dlsym(RTLD_NEXT, "pthread_create");
  return create(thread, attributes, start, argument);
}
