/* Refuses one request for memory of the program into which it is loaded first (LD_PRELOAD): the one whose number is REFUSE, counted from 1. The count stands in the file
   COUNT, where that is set: a program may end in ways that tell nobody. After the eight bytes of the count it has eight more: once one of them isn't 0, every request of the
   program's first thread is refused. So it refuses the thread whose number is THREAD, and each setting of a socket's option whose number is OPTION. */
#define _GNU_SOURCE
#include <dlfcn.h>
#include <errno.h>
#include <fcntl.h>
#include <pthread.h>
#include <stdlib.h>
#include <sys/mman.h>
#include <sys/socket.h>
#include <unistd.h>

extern void *__libc_malloc(size_t);
extern void *__libc_realloc(void *, size_t);

static unsigned long own[2], refused, *asked = own, threads, refused_thread, refused_option;

__attribute__((constructor)) static void begin(void) {
  const char *number = getenv("REFUSE"), *name = getenv("COUNT");
  int file = name ? open(name, O_RDWR) : -1;
  void *place = file < 0 ? MAP_FAILED : mmap(NULL, sizeof own, PROT_READ | PROT_WRITE, MAP_SHARED, file, 0);
  if (place != MAP_FAILED)
    asked = place;
  asked[0] = asked[1] = 0;
  refused = number ? strtoul(number, NULL, 10) : 0;
  number = getenv("THREAD");
  refused_thread = number ? strtoul(number, NULL, 10) : 0;
  number = getenv("OPTION");
  refused_option = number ? strtoul(number, NULL, 10) : 0;
}

static int is_refused(void) {
  int is_the_one = __atomic_add_fetch(asked, 1, __ATOMIC_RELAXED) == refused;
  if (!is_the_one && !(__atomic_load_n(asked + 1, __ATOMIC_RELAXED) && gettid() == getpid()))
    return 0;
  errno = ENOMEM;
  return 1;
}

void *malloc(size_t size) { return is_refused() ? NULL : __libc_malloc(size); }

void *realloc(void *old, size_t size) { return is_refused() ? NULL : __libc_realloc(old, size); }

int pthread_create(pthread_t *thread, const pthread_attr_t *how, void *(*work)(void *), void *with) {
  int (*next)(pthread_t *, const pthread_attr_t *, void *(*)(void *), void *) = dlsym(RTLD_NEXT, "pthread_create");
  return __atomic_add_fetch(&threads, 1, __ATOMIC_RELAXED) == refused_thread ? EAGAIN : next(thread, how, work, with);
}

int setsockopt(int socket, int level, int option, const void *value, socklen_t size) {
  int (*next)(int, int, int, const void *, socklen_t) = dlsym(RTLD_NEXT, "setsockopt");
  if (level != SOL_SOCKET || !refused_option || option != (int)refused_option)
    return next(socket, level, option, value, size);
  errno = ENOPROTOOPT;
  return -1;
}
