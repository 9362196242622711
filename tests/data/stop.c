/* Kills the program into which it is loaded first (LD_PRELOAD) at its write to a file whose number is STOP, counted from 1: before it, or after half of the bytes where HALF is
   set. */
#define _GNU_SOURCE
#include <dlfcn.h>
#include <signal.h>
#include <stdlib.h>
#include <unistd.h>

static unsigned long stop, writes;

__attribute__((constructor)) static void begin(void) {
  const char *number = getenv("STOP");
  stop = number ? strtoul(number, NULL, 10) : 0;
}

ssize_t pwrite(int file, const void *bytes, size_t size, off_t at) {
  ssize_t (*next)(int, const void *, size_t, off_t) = dlsym(RTLD_NEXT, "pwrite");
  if (++writes != stop)
    return next(file, bytes, size, at);
  if (getenv("HALF") && size > 1)
    next(file, bytes, size / 2, at);
  kill(getpid(), SIGKILL);
  return -1;
}
