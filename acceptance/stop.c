/* Loaded before the C library, between the program and its disk.

   STOP=N, of stopped.py: kills the program right after the N-th call that changes a file, brings it to the disk, or
   writes to a stream.

   FAIL=N, of failing.py: the disk fails at the N-th call that changes a file or brings it to the disk, and the program
   goes on. HOW says how: `broken`, this call and all later ones do nothing, and tell EIO; `once`, this one alone; `late`,
   this one is done and tells EIO all the same, and later ones do nothing, reads too; `full`, from then on no file grows,
   which is told by ENOSPC after half of the first write that would; `unread`, nothing is read from the N-th read on, and all
   else goes well. FAILED names a file that is made at the first failure.

   KEPT says what the files are left with, when the program is killed or has ended, of the changes since their last sync:
   `all`, as when the program alone stops; or, as when the power goes, `none`, every second one (`odd`, `even`), the first
   half of each write (`torn`), or other bytes in place of each (`junk`). */
#define _GNU_SOURCE
#include <dlfcn.h>
#include <errno.h>
#include <fcntl.h>
#include <signal.h>
#include <stdlib.h>
#include <string.h>
#include <sys/stat.h>
#include <unistd.h>

#define REAL(name) ((__typeof__(&name))dlsym(RTLD_NEXT, #name))

/* A change since the last sync of a file: the bytes that were written at `at`, or none where it was cut or grown to
   there; the bytes that had stood there, and how long the file had been. A change that met a sync that failed is lost,
   and no later sync brings it to the disk; one after it that is on the disk is still listed. */
static struct change {
  int file;
  off_t at, size;
  size_t length, had;
  char *bytes, *before;
  enum { UNSYNCED, LOST, ON_DISK } state;
} changes[1 << 14];
static size_t listed;
static long calls, tries;
static int is_full, is_gone;

static void *copy_of(size_t length) {
  void *copy = malloc(length + 1);
  if (!copy) abort();
  return copy;
}

/* Notes a write, or a new length where there are no bytes, that is about to be made. */
static void note(int file, off_t at, const void *bytes, size_t length) {
  struct stat found;
  if (listed == sizeof changes / sizeof *changes || fstat(file, &found)) abort();
  size_t over = found.st_size > at ? (size_t)(found.st_size - at) : 0;
  if (bytes && over > length) over = length;
  struct change it = {file, at, found.st_size, length, over, bytes ? copy_of(length) : NULL, copy_of(over), UNSYNCED};
  if (bytes) memcpy(it.bytes, bytes, length);
  if (REAL(pread)(file, it.before, over, at) != (ssize_t)over) abort();
  changes[listed++] = it;
}

/* The changes of a file are on the disk, except lost ones. Changes after a lost one stay in the list. */
static void synced(int file) {
  size_t left = 0;
  int has_lost = 0;
  for (size_t n = 0; n < listed; n++) {
    struct change it = changes[n];
    if (it.file != file) { changes[left++] = it; continue; }
    if (it.state == LOST) has_lost = 1;
    if (!has_lost) { free(it.bytes); free(it.before); continue; }
    if (it.state == UNSYNCED) it.state = ON_DISK;
    changes[left++] = it;
  }
  listed = left;
}

/* A sync of a file has failed: no later one brings to the disk what was changed before. */
static void not_synced(int file) {
  for (size_t n = 0; n < listed; n++)
    if (changes[n].file == file && changes[n].state == UNSYNCED) changes[n].state = LOST;
}

/* A file is closed, and what was changed in it may still be lost. */
static void left_open(int file) {
  int other = -1;
  for (size_t n = 0; n < listed; n++) {
    if (changes[n].file != file) continue;
    if (other < 0 && (other = dup(file)) < 0) abort();
    changes[n].file = other;
  }
}

static void put(int file, const void *bytes, size_t length, off_t at) {
  if (REAL(pwrite)(file, bytes, length, at) != (ssize_t)length) abort();
}

static void resize(int file, off_t size) {
  if (REAL(ftruncate)(file, size)) abort();
}

/* Makes the part of the n-th change that is kept again. */
static void again(size_t n, const char *kept) {
  struct change it = changes[n];
  if (it.state == ON_DISK) kept = "all";
  if (!strcmp(kept, "none") || !strcmp(kept, n % 2 ? "even" : "odd")) return;
  if (!it.bytes) { resize(it.file, it.at); return; }
  if (!strcmp(kept, "junk")) memset(it.bytes, 0xA5, it.length);
  put(it.file, it.bytes, strcmp(kept, "torn") ? it.length : it.length / 2, it.at);
}

/* Takes all changes since the last syncs back, from the last to the first, and makes some again. */
static void lose(const char *kept) {
  for (size_t n = listed; n-- > 0;) {
    put(changes[n].file, changes[n].before, changes[n].had, changes[n].at);
    resize(changes[n].file, changes[n].size);
  }
  for (size_t n = 0; n < listed; n++) again(n, kept);
}

static void lose_all_but(const char *kept) {
  if (kept && strcmp(kept, "all")) lose(kept);
}

static void called(void) {
  const char *stop = getenv("STOP");
  if (!stop || ++calls != atol(stop)) return;
  lose_all_but(getenv("KEPT"));
  kill(getpid(), SIGKILL);
}

/* The program has ended by itself after its disk failed. */
__attribute__((destructor)) static void ended(void) {
  if (getenv("FAIL")) lose_all_but(getenv("KEPT"));
}

static void tell_failed(void) {
  int file = open(getenv("FAILED"), O_CREAT | O_WRONLY, 0600);
  if (file < 0 || REAL(close)(file)) abort();
}

enum outcome { GOES_WELL, IS_HALF_DONE, IS_DONE_AND_FAILS, FAILS };

/* What happens to the next call that changes a file or syncs it. */
static enum outcome next_outcome(int grows) {
  const char *fail = getenv("FAIL"), *how = getenv("HOW");
  if (!fail || !strcmp(how, "unread")) return GOES_WELL;
  long past = ++tries - atol(fail);
  if (past < 0 || (past && !strcmp(how, "once")) || (!grows && !strcmp(how, "full"))) return GOES_WELL;
  tell_failed();
  if (!strcmp(how, "full") && !is_full++) return IS_HALF_DONE;
  if (!strcmp(how, "late") && !is_gone++) return IS_DONE_AND_FAILS;
  return FAILS;
}

static int is_unread(void) {
  const char *fail = getenv("FAIL"), *how = getenv("HOW");
  if (!fail || strcmp(how, "unread") || ++tries < atol(fail)) return is_gone;
  tell_failed();
  return 1;
}

static int failed(void) {
  errno = is_full ? ENOSPC : EIO;
  return -1;
}

/* Whether a file would be longer with something that ends there. */
static int grows(int file, off_t end) {
  struct stat found;
  if (fstat(file, &found)) abort();
  return end > found.st_size;
}

ssize_t write(int file, const void *bytes, size_t length) {
  ssize_t done = REAL(write)(file, bytes, length);
  called();
  return done;
}

ssize_t pread(int file, void *bytes, size_t length, off_t at) {
  return is_unread() ? failed() : REAL(pread)(file, bytes, length, at);
}

ssize_t pwrite(int file, const void *bytes, size_t length, off_t at) {
  enum outcome outcome = next_outcome(grows(file, at + (off_t)length));
  if (outcome == IS_HALF_DONE) length /= 2;
  if (outcome == FAILS || !length) return failed();
  note(file, at, bytes, length);
  ssize_t done = REAL(pwrite)(file, bytes, length, at);
  if (done != (ssize_t)length) abort();
  called();
  return outcome == IS_DONE_AND_FAILS ? failed() : done;
}

int ftruncate(int file, off_t size) {
  enum outcome outcome = next_outcome(grows(file, size));
  if (outcome == FAILS || outcome == IS_HALF_DONE) return failed();
  note(file, size, NULL, 0);
  int done = REAL(ftruncate)(file, size);
  if (done) abort();
  called();
  return outcome == IS_DONE_AND_FAILS ? failed() : done;
}

/* Brings a file to the disk by fsync or fdatasync. */
static int bring(int file, int (*real)(int)) {
  enum outcome outcome = next_outcome(0);
  if (outcome == FAILS) {
    not_synced(file);
    return failed();
  }
  int done = real(file);
  if (!done) synced(file);
  called();
  return outcome == IS_DONE_AND_FAILS ? failed() : done;
}

int fsync(int file) {
  return bring(file, REAL(fsync));
}

int fdatasync(int file) {
  return bring(file, REAL(fdatasync));
}

int close(int file) {
  left_open(file);
  return REAL(close)(file);
}
