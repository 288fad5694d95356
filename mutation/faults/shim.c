/* Loaded before the C library: refuses the FA-th allocation, with LASTS=1 all later ones too; fails the FR-th read or
   the FW-th write; INTR=1 interrupts them instead, SHORT=1 moves one byte. SHOW=1 tells at the end how many of each were
   made. run.sh and acceptance/test_refused.py use it. With EACH=k a copy of the program is made at every k-th allocation,
   which is refused there and goes on to its end; how the copies ended is told at the end, a line for each different end.
   tables.sh uses that. */
#define _GNU_SOURCE
#include <dlfcn.h>
#include <errno.h>
#include <stdio.h>
#include <stdlib.h>
#include <string.h>
#include <sys/mman.h>
#include <sys/wait.h>
#include <unistd.h>
static long na, nr, nw, fa, fr, fw, each, ends;
static int kind = EIO, ready, isshort, lasts;
static void *(*rm)(size_t); static void *(*rr)(void *, size_t);
static ssize_t (*rd)(int, void *, size_t); static ssize_t (*wr)(int, const void *, size_t);
static struct { char text[200]; long count, first; } end[256];
/* What a copy said that begins with `error: ` or `test result: `, and how it ended. */
static void told(int fd, int status, char *text, size_t room) {
  static char said[1 << 16];
  ssize_t n = pread(fd, said, sizeof said - 1, 0); said[n > 0 ? n : 0] = 0;
  size_t at = (size_t)snprintf(text, room, WIFEXITED(status) ? "status %d" : "signal %d", WIFEXITED(status) ? WEXITSTATUS(status) : WTERMSIG(status));
  for (char *line = said; line && *line && at < room; line = strchr(line, '\n'), line += line != 0)
    if (!strncmp(line, "error: ", 7) || !strncmp(line, "test result: ", 13)) {
      int width = (int)strcspn(line, "\n"); at += (size_t)snprintf(text + at, room - at, ", %.*s", width, line);
    }
}
/* Makes a copy: 1 in the copy. */
static int copied(void) {
  int fd = memfd_create("said", 0), status = 0;
  pid_t pid = fork();
  if (pid == 0) { each = 0; dup2(fd, 1); dup2(fd, 2); alarm(60); return 1; }
  waitpid(pid, &status, 0);
  char text[200]; told(fd, status, text, sizeof text); close(fd);
  long at = 0; while (at < ends && strcmp(end[at].text, text)) at++;
  if (at == ends && ends < 255) { strcpy(end[ends].text, text); end[ends++].first = na; }
  end[at].count++;
  return 0;
}
static int refused(void) { return ++na == fa || (lasts && na > fa) || (each && na % each == 0 && copied()); }
static long env(const char *n) { const char *s = getenv(n); return s ? atol(s) : 0; }
__attribute__((constructor)) static void init(void) {
  rm = dlsym(RTLD_NEXT, "malloc"); rr = dlsym(RTLD_NEXT, "realloc");
  rd = dlsym(RTLD_NEXT, "read"); wr = dlsym(RTLD_NEXT, "write");
  fa = env("FA"); fr = env("FR"); fw = env("FW"); each = env("EACH"); if (env("INTR")) kind = EINTR; isshort = env("SHORT"); lasts = fa && env("LASTS");
  na = nr = nw = 0; ready = 1;
}
__attribute__((destructor)) static void fini(void) { if (each) { char b[300]; for (long at = 0; at < ends; at++) { int n = snprintf(b, sizeof b, "%7ld %s (first at %ld)\n", end[at].count, end[at].text, end[at].first); wr(2, b, n); } } if (env("SHOW")) { char b[64]; extern int sprintf(char *, const char *, ...); int n = sprintf(b, "allocs=%ld reads=%ld writes=%ld\n", na, nr, nw); wr(2, b, n); } }
void *malloc(size_t n) { if (!rm) rm = dlsym(RTLD_NEXT, "malloc"); if (ready && refused()) { errno = ENOMEM; return 0; } return rm(n); }
void *realloc(void *p, size_t n) { if (!rr) rr = dlsym(RTLD_NEXT, "realloc"); if (ready && refused()) { errno = ENOMEM; return 0; } return rr(p, n); }
ssize_t read(int fd, void *b, size_t n) { if (++nr == fr) { if (isshort) return rd(fd, b, n > 1 ? 1 : n); errno = kind; return -1; } return rd(fd, b, n); }
ssize_t write(int fd, const void *b, size_t n) { if (++nw == fw) { if (isshort) return wr(fd, b, n > 1 ? 1 : n); errno = kind; return -1; } return wr(fd, b, n); }
ssize_t __write(int fd, const void *b, size_t n) { return write(fd, b, n); }
