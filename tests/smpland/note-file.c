/* Preloaded into a program: notes in the file $NOTES what the program does to the file $NOTED_FILE: what it writes and where, to which length
   it cuts it, and when it has synced it, or the folder $NOTED_FOLDER. From this a test rebuilds what a crash of the machine may leave. At the
   note whose number $KILL_AT gives, the first being 1, the program kills itself: half way in a write, before a cut, and before a sync is noted.
   With FORGETS_SYNCS no sync of the file is noted. */
#include <fcntl.h>
#include <signal.h>
#include <stdarg.h>
#include <stdint.h>
#include <stdlib.h>
#include <string.h>
#include <sys/syscall.h>
#include <unistd.h>

static int noted_file = -1, noted_folder = -1, notes = -1;

/* Whether this note is the one at which the program kills itself. */
static int is_last(void) {
  static long made;
  const char *number = getenv("KILL_AT");
  made += 1;
  return number && made == atol(number);
}

/* Notes that something was done or begun: a write with its bytes, a cut with its length, a sync of the file or of the folder. */
static void note(char kind, uint64_t at, const void *bytes, uint64_t length) {
  if (notes < 0) notes = syscall(SYS_openat, AT_FDCWD, getenv("NOTES"), O_WRONLY | O_APPEND);
  char head[17] = {kind};
  memcpy(head + 1, &at, 8);
  memcpy(head + 9, &length, 8);
  if (syscall(SYS_write, notes, head, sizeof head) != sizeof head) _exit(99);
  if (syscall(SYS_write, notes, bytes, length) != (long)length) _exit(99);
}

static void die(void) {
  kill(getpid(), SIGKILL);
}

int open(const char *path, int flags, ...) {
  va_list rest;
  va_start(rest, flags);
  int mode = flags & O_CREAT ? va_arg(rest, int) : 0;
  va_end(rest);
  int file = syscall(SYS_openat, AT_FDCWD, path, flags, mode);
  if (file >= 0 && !strcmp(path, getenv("NOTED_FILE"))) noted_file = file;
  else if (file >= 0 && !strcmp(path, getenv("NOTED_FOLDER"))) noted_folder = file;
  return file;
}

ssize_t write(int file, const void *bytes, size_t length) {
  if (file != noted_file) return syscall(SYS_write, file, bytes, length);
  note('W', syscall(SYS_lseek, file, 0, SEEK_CUR), bytes, length);
  if (!is_last()) return syscall(SYS_write, file, bytes, length);
  syscall(SYS_write, file, bytes, length / 2);
  die();
  return -1;
}

int ftruncate(int file, off_t length) {
  if (file == noted_file) {
    note('T', length, "", 0);
    if (is_last()) die();
  }
  return syscall(SYS_ftruncate, file, length);
}

int fsync(int file) {
  int done = syscall(SYS_fsync, file);
  if (done == 0 && (file == noted_file || file == noted_folder)) {
    if (is_last()) die();
#ifdef FORGETS_SYNCS
    if (file == noted_file) return done;
#endif
    note(file == noted_file ? 'S' : 'F', 0, "", 0);
  }
  return done;
}
