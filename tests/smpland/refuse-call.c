/* Preloaded into a program: refuses one call of a kind, the one whose number $REFUSED_CALL gives, the first being 1. A byte then goes to file 9.
   $REFUSED_KIND is what is done, and to what: read-input, write-output, or of the file $NOTED_FILE open, lock, read, write, seek, cut, sync,
   and open-folder and sync-folder of its folder, $NOTED_FOLDER. $REFUSED_HOW is the error with which the call fails, or "short": one byte of what
   it asks for is done, or "half", of a write: half of it is done, and the next write fails for want of room. With $INPUT_PIECE no read of the
   input brings more bytes than that. With SWALLOWS the program is told that this call and all of the kind behind it were made, and they were not. */
#define _GNU_SOURCE
#include <dlfcn.h>
#include <errno.h>
#include <fcntl.h>
#include <stdarg.h>
#include <stdlib.h>
#include <string.h>
#include <unistd.h>

static int file = -1, folder = -1, is_half_done;

static const char *word(const char *name) {
  const char *found = getenv(name);
  return found ? found : "";
}

static int is_how(const char *how) {
  return !strcmp(word("REFUSED_HOW"), how);
}

/* Whether this call is the one to refuse. */
static int is_refused(const char *kind) {
  static long made;
  if (strcmp(kind, word("REFUSED_KIND"))) return 0;
  made += 1;
#ifdef SWALLOWS
  if (made < atol(word("REFUSED_CALL"))) return 0;
#else
  if (made != atol(word("REFUSED_CALL"))) return 0;
#endif
  ssize_t (*pass)(int, const void *, size_t) = dlsym(RTLD_NEXT, "write");
  return pass(9, "x", 1) == 1;
}

/* What a refused call returns. */
static long refusal(long made) {
#ifdef SWALLOWS
  return made;
#endif
  errno = atoi(word("REFUSED_HOW"));
  return -1;
}

static const char *what(int number, const char *of_file, const char *of_folder) {
  return number < 0 ? "" : number == file ? of_file : number == folder ? of_folder : "";
}

int open(const char *path, int flags, ...) {
  va_list rest;
  va_start(rest, flags);
  int mode = flags & O_CREAT ? va_arg(rest, int) : 0;
  va_end(rest);
  int is_file = !strcmp(path, word("NOTED_FILE")), is_folder = !strcmp(path, word("NOTED_FOLDER"));
  if ((is_file && is_refused("open")) || (is_folder && is_refused("open-folder"))) {
    errno = atoi(word("REFUSED_HOW"));
    return -1;
  }
  int (*pass)(const char *, int, ...) = dlsym(RTLD_NEXT, "open");
  int number = pass(path, flags, mode);
  if (number >= 0 && is_file) file = number;
  if (number >= 0 && is_folder) folder = number;
  return number;
}

int flock(int number, int how) {
  if (is_refused(what(number, "lock", ""))) return refusal(0);
  int (*pass)(int, int) = dlsym(RTLD_NEXT, "flock");
  return pass(number, how);
}

off_t lseek(int number, off_t at, int from) {
  off_t (*pass)(int, off_t, int) = dlsym(RTLD_NEXT, "lseek");
  off_t made = pass(number, at, from);
  return is_refused(what(number, "seek", "")) ? refusal(made) : made;
}

ssize_t read(int number, void *bytes, size_t most) {
  ssize_t (*pass)(int, void *, size_t) = dlsym(RTLD_NEXT, "read");
  size_t piece = atol(word("INPUT_PIECE"));
  if (number == 0 && piece && most > piece) most = piece;
  if (!is_refused(number == 0 ? "read-input" : what(number, "read", ""))) return pass(number, bytes, most);
  return is_how("short") ? pass(number, bytes, 1) : refusal(0);
}

ssize_t write(int number, const void *bytes, size_t length) {
  ssize_t (*pass)(int, const void *, size_t) = dlsym(RTLD_NEXT, "write");
  const char *kind = number == 1 ? "write-output" : what(number, "write", "");
  if (is_half_done && *kind) {
    is_half_done = 0;
    errno = ENOSPC;
    return -1;
  }
  if (!is_refused(kind)) return pass(number, bytes, length);
  if (is_how("short")) return pass(number, bytes, 1);
  if (!is_how("half")) return refusal(length);
  is_half_done = 1;
  return pass(number, bytes, length / 2);
}

int ftruncate(int number, off_t length) {
  if (is_refused(what(number, "cut", ""))) return refusal(0);
  int (*pass)(int, off_t) = dlsym(RTLD_NEXT, "ftruncate");
  return pass(number, length);
}

int fsync(int number) {
  if (is_refused(what(number, "sync", "sync-folder"))) return refusal(0);
  int (*pass)(int) = dlsym(RTLD_NEXT, "fsync");
  return pass(number);
}
