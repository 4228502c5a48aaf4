/* Makes calls of a program into the C library go wrong, each at its number. To be preloaded:
 *
 *     FAULTS='fail-memory@17' FAULTS_REPORT=report LD_PRELOAD=./faults.so program ..
 *
 * FAULTS has items WAY-CALL@N, for the N-th call of its kind, or WAY-CALL@N.., for it and all behind it, with blanks
 * between them; of several items for one call the last counts. Calls are counted from 1 and by kind, over all threads:
 *
 *     memory  malloc, calloc, realloc         read   read        thread  pthread_create
 *     open    open                            write  write
 *
 * The ways:
 *
 *     fail       the call fails, as where there is no more memory, no right, no device, or no thread
 *     starve     it fails for want of memory, whatever its kind is
 *     interrupt  it fails since a signal came
 *     short      a read or write moves one byte
 *     nothing    a read or write moves no byte, and says so
 *
 * and those that imitate a faulty program, to see that they are found:
 *
 *     lose       a write takes nothing, and says that it took all
 *     quit       the program ends with status 0
 *     crash      the program ends by a signal
 *     hang       the call does not return
 *
 * As the program ends, it writes to the file that FAULTS_REPORT names a line with a number for each kind, of its calls;
 * for each way and kind of which there were some, of the calls that went this way; and 'late', of the calls for memory
 * behind the first write. With FAULTS_TRACE, 'refused' has the bytes that the first call for memory which went wrong
 * had asked for, and 'next' those of the next such call in its thread; lines 'at' and 'then' have the places of the
 * two: what looks like return addresses, from the call outwards, each as a file and an offset in it. The last line has
 * the name of the file that was opened last. */
#define _GNU_SOURCE
#include <dlfcn.h>
#include <errno.h>
#include <fcntl.h>
#include <pthread.h>
#include <stdarg.h>
#include <stdatomic.h>
#include <stdio.h>
#include <stdlib.h>
#include <string.h>
#include <sys/uio.h>
#include <unistd.h>

/* glibc's own names for what is replaced here; dlsym might itself want memory. */
void *__libc_malloc(size_t size);
void *__libc_calloc(size_t count, size_t size);
void *__libc_realloc(void *block, size_t size);

enum call { MEMORY, OPEN, READ, WRITE, THREAD, CALLS };
enum way { SOUND, FAIL, STARVE, INTERRUPT, SHORT, NOTHING, LOSE, QUIT, CRASH, HANG, WAYS };

static const char *const call_names[CALLS] = {"memory", "open", "read", "write", "thread"};
static const char *const way_names[WAYS] = {"sound", "fail",  "starve", "interrupt", "short",
                                            "nothing", "lose", "quit",   "crash",     "hang"};

/* What goes wrong with the calls of a kind that have these numbers. */
struct fault {
  enum way way;
  enum call call;
  unsigned long first, last;
};

enum { MOST_FAULTS = 8, MOST_PLACES = 24, MOST_WORDS = 1024, MOST_BETWEEN = 64 };

static struct fault faults[MOST_FAULTS];
static int fault_count;
static int is_counting;
static atomic_ulong calls[CALLS], done[WAYS][CALLS], late;
static char last_opened[4096];

/* A call for memory: the bytes that it asks for, and what looks like return addresses on the stack. */
struct site {
  size_t size;
  void *places[MOST_PLACES];
  int count;
};

static int wants_trace;
static atomic_flag is_traced = ATOMIC_FLAG_INIT;
static struct site refused, next;
static _Thread_local int is_next __attribute__((tls_model("initial-exec")));

static int (*real_open)(const char *, int, ...);
static ssize_t (*real_read)(int, void *, size_t);
static ssize_t (*real_write)(int, const void *, size_t);
static int (*real_create)(pthread_t *, const pthread_attr_t *, void *(*)(void *), void *);
static void (*real_exit)(int);

/* The place of a word in a list, or -1. */
static int place_of(const char *word, const char *const *names, int count) {
  for (int i = 0; i < count; i++)
    if (!strcmp(word, names[i]))
      return i;
  return -1;
}

static void stop(const char *why, const char *what) {
  dprintf(2, "faults: %s: %s\n", why, what);
  quick_exit(70);
}

static void read_item(const char *item) {
  char way[16], call[16], dots[3] = "";
  unsigned long first;
  int end = 0;
  if (fault_count == MOST_FAULTS)
    stop("too many", item);
  if (sscanf(item, "%15[a-z]-%15[a-z]@%lu%n%2[.]", way, call, &first, &end, dots) < 3 ||
      strcmp(item + end, dots) || (*dots && strcmp(dots, "..")))
    stop("not understood", item);
  int w = place_of(way, way_names, WAYS), c = place_of(call, call_names, CALLS);
  if (w <= SOUND || c < 0)
    stop("not known", item);
  faults[fault_count++] = (struct fault){w, c, first, *dots ? (unsigned long)-1 : first};
}

static void find_real(void *function, const char *name) {
  void *found = dlsym(RTLD_NEXT, name);
  if (!found)
    stop("not found", name);
  memcpy(function, &found, sizeof found);
}

__attribute__((constructor)) static void begin(void) {
  find_real(&real_open, "open");
  find_real(&real_read, "read");
  find_real(&real_write, "write");
  find_real(&real_create, "pthread_create");
  find_real(&real_exit, "_exit");
  const char *text = getenv("FAULTS");
  char items[512], *rest = items;
  if (text && strlen(text) >= sizeof items)
    stop("too long", text);
  strcpy(items, text ? text : "");
  for (char *item; (item = strsep(&rest, " "));)
    if (*item)
      read_item(item);
  wants_trace = getenv("FAULTS_TRACE") != NULL;
  is_counting = 1;
}

static void report_line(int file, const char *name, unsigned long number) {
  char line[64];
  int length = snprintf(line, sizeof line, "%s %lu\n", name, number);
  real_write(file, line, length);
}

static void report_site(int file, const char *name, const char *place, const struct site *site) {
  report_line(file, name, site->size);
  for (int i = 0; i < site->count; i++) {
    char line[4200];
    Dl_info found;
    if (!dladdr(site->places[i], &found) || !found.dli_fname)
      continue;
    unsigned long offset = (char *)site->places[i] - (char *)found.dli_fbase;
    real_write(file, line, snprintf(line, sizeof line, "%s %s %#lx\n", place, found.dli_fname, offset));
  }
}

static void report(void) {
  const char *name = getenv("FAULTS_REPORT");
  int file = name ? real_open(name, O_WRONLY | O_CREAT | O_TRUNC | O_CLOEXEC, 0666) : -1;
  if (file < 0)
    return;
  for (int c = 0; c < CALLS; c++)
    report_line(file, call_names[c], atomic_load(&calls[c]));
  for (int w = FAIL; w < WAYS; w++)
    for (int c = 0; c < CALLS; c++) {
      char both[40];
      snprintf(both, sizeof both, "%s-%s", way_names[w], call_names[c]);
      if (atomic_load(&done[w][c]))
        report_line(file, both, atomic_load(&done[w][c]));
    }
  report_line(file, "late", atomic_load(&late));
  report_site(file, "refused", "at", &refused);
  report_site(file, "next", "then", &next);
  if (*last_opened) {
    real_write(file, "opened ", 7);
    real_write(file, last_opened, strlen(last_opened));
    real_write(file, "\n", 1);
  }
  close(file);
}

/* A program ends by this call, or by a return of its main function; then destructors are run. */
void _exit(int status) {
  report();
  real_exit(status);
  abort();
}

__attribute__((destructor)) static void end(void) {
  report();
}

/* Whether a call may come back to this address: it lies in code, behind a call. */
static int is_behind_call(const unsigned char *at) {
  Dl_info found;
  return dladdr(at, &found) && found.dli_fbase && (const char *)found.dli_fbase + 64 < (const char *)at &&
         (at[-5] == 0xe8 || (at[-6] == 0xff && at[-5] == 0x15) || (at[-2] == 0xff && (at[-1] & 0xf8) == 0xd0));
}

static void add_place(struct site *site, void *place) {
  if (site->count < MOST_PLACES && is_behind_call(place))
    site->places[site->count++] = place;
}

/* Notes a call for memory. The first frames, as those of C, lie close to one another. Behind them functions need not
 * have frames, so from there on the stack is gone through word by word. */
static void note(struct site *site, size_t size, void **frame) {
  void *words[MOST_WORDS];
  struct iovec to = {words, sizeof words}, from = {frame, sizeof words};
  ssize_t count = process_vm_readv(getpid(), &to, 1, &from, 1, 0) / (ssize_t)sizeof *words;
  ssize_t at = 0;
  site->size = size;
  while (at + 1 < count) {
    ssize_t outer = (void **)words[at] - frame;
    add_place(site, words[at + 1]);
    if (outer <= at || outer > at + MOST_BETWEEN)
      break;
    at = outer;
  }
  for (at += 2; at < count; at++)
    add_place(site, words[at]);
}

/* Notes the first call for memory that goes wrong, and the next one in its thread. */
static void note_refused(enum way way, size_t size, void **frame) {
  if (is_next)
    note(&next, size, frame);
  is_next = way != SOUND && !atomic_flag_test_and_set(&is_traced);
  if (is_next)
    note(&refused, size, frame);
}

/* Counts a call, and answers how it goes. */
static enum way way_of(enum call call) {
  enum way way = SOUND;
  if (!is_counting)
    return way;
  unsigned long number = atomic_fetch_add(&calls[call], 1) + 1;
  if (call == MEMORY && atomic_load(&calls[WRITE]))
    atomic_fetch_add(&late, 1);
  for (int i = 0; i < fault_count; i++)
    if (faults[i].call == call && faults[i].first <= number && number <= faults[i].last)
      way = faults[i].way;
  if (way == SOUND)
    return way;
  atomic_fetch_add(&done[way][call], 1);
  if (way == QUIT)
    exit(0);
  if (way == CRASH)
    abort();
  while (way == HANG)
    pause();
  return way;
}

/* Whether the call is to fail; its cause is then in errno. */
static int has_failed(enum way way, int cause) {
  if (way == FAIL)
    errno = cause;
  else if (way == STARVE)
    errno = ENOMEM;
  else if (way == INTERRUPT)
    errno = EINTR;
  else
    return 0;
  return 1;
}

/* Whether a call for so many bytes is to fail. */
static int is_refused(size_t size, void *frame) {
  enum way way = way_of(MEMORY);
  if (wants_trace)
    note_refused(way, size, frame);
  return has_failed(way, ENOMEM);
}

void *malloc(size_t size) {
  return is_refused(size, __builtin_frame_address(0)) ? NULL : __libc_malloc(size);
}

void *calloc(size_t count, size_t size) {
  return is_refused(count * size, __builtin_frame_address(0)) ? NULL : __libc_calloc(count, size);
}

void *realloc(void *block, size_t size) {
  return is_refused(size, __builtin_frame_address(0)) ? NULL : __libc_realloc(block, size);
}

int open(const char *name, int flags, ...) {
  va_list rest;
  va_start(rest, flags);
  mode_t mode = flags & (O_CREAT | O_TMPFILE) ? va_arg(rest, mode_t) : 0;
  va_end(rest);
  enum way way = way_of(OPEN);
  strncpy(last_opened, name, sizeof last_opened - 1);
  return has_failed(way, EACCES) ? -1 : real_open(name, flags, mode);
}

ssize_t read(int file, void *buffer, size_t size) {
  enum way way = way_of(READ);
  if (has_failed(way, EIO))
    return -1;
  if (way == NOTHING)
    return 0;
  return real_read(file, buffer, way == SHORT && size > 1 ? 1 : size);
}

ssize_t write(int file, const void *bytes, size_t size) {
  enum way way = way_of(WRITE);
  if (has_failed(way, EIO))
    return -1;
  if (way == NOTHING)
    return 0;
  if (way == LOSE)
    return size;
  return real_write(file, bytes, way == SHORT && size > 1 ? 1 : size);
}

int pthread_create(pthread_t *thread, const pthread_attr_t *attributes, void *(*body)(void *), void *argument) {
  int kept = errno;
  if (!has_failed(way_of(THREAD), EAGAIN))
    return real_create(thread, attributes, body, argument);
  int cause = errno;
  errno = kept;
  return cause;
}
