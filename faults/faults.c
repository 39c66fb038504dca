// Preloaded into the built program, refuses some of its calls. FAULT has the kind of call, FAULT_TURN which of them, counted from 1 (0: each of
// them), FAULT_FIRST how many of the first ones (neither: no one), FAULT_COUNT a file that gets how many there were, and FAULT_MARK one that
// is made as soon as a call is refused. With FAULT_SHORT each read gives one byte.
//
//   memory            malloc, calloc, realloc and their like answer that there is no memory
//   thread            no thread is started
//   read, write       standard input can't be read, standard output can't be written
//   file-read         a file that was opened can't be read
//   no-write          nothing is written, and no error told
//   short-read, ..    one byte is read or written
//   stopped-read, ..  a signal came first, and nothing was read or written

typedef unsigned long size;
extern int *__errno_location(void);
extern char *getenv(const char *);
extern int strcmp(const char *, const char *);
extern long strtol(const char *, char **, int);
extern long syscall(long, ...);
extern void *dlsym(void *, const char *);
extern void *__libc_malloc(size), *__libc_calloc(size, size), *__libc_realloc(void *, size), *__libc_memalign(size, size);

enum { READ = 0, WRITE = 1, OPEN = 2, CLOSE = 3, EXIT = 231, INTERRUPTED = 4, INPUT_OUTPUT = 5, AGAIN = 11, NO_MEMORY = 12, INVALID = 22 };

static const char *kind = "", *mark = 0;
static long turn = -1, first = 0, count = 0;
static int is_short = 0;

// What starts a thread: the C library's, which stands behind this file.
typedef int starter(void *, const void *, void *(*)(void *), void *);
static starter *start = 0;

__attribute__((constructor)) static void begin(void) {
  start = (starter *)dlsym((void *)-1, "pthread_create");
  if (getenv("FAULT")) kind = getenv("FAULT");
  if (getenv("FAULT_TURN")) turn = strtol(getenv("FAULT_TURN"), 0, 10);
  if (getenv("FAULT_FIRST")) first = strtol(getenv("FAULT_FIRST"), 0, 10);
  is_short = getenv("FAULT_SHORT") != 0;
  mark = getenv("FAULT_MARK");
}

__attribute__((destructor)) static void end(void) {
  char digits[24], *digit = digits + 24;
  const char *file = getenv("FAULT_COUNT");
  if (!file) return;
  do *--digit = '0' + count % 10; while (count /= 10);
  int to = syscall(OPEN, file, 01101, 0600);
  syscall(WRITE, to, digit, digits + 24 - digit);
  syscall(CLOSE, to);
}

// A program with threads ends here, and no destructor is called.
void _exit(int status) {
  end();
  for (;;) syscall(EXIT, status);
}

// Whether this call is one of that kind, and its turn.
static int chosen(const char *call) {
  if (strcmp(kind, call)) return 0;
  long now = __atomic_add_fetch(&count, 1, __ATOMIC_RELAXED);
  int is = turn == 0 || turn == now || now <= first;
  if (is && mark) syscall(CLOSE, syscall(OPEN, mark, 0101, 0600));
  return is;
}

static long refused(int cause) { *__errno_location() = cause; return -1; }

#define OR_NULL(call) (chosen("memory") ? (refused(NO_MEMORY), (void *)0) : (call))
void *malloc(size n) { return OR_NULL(__libc_malloc(n)); }
void *calloc(size n, size each) { return OR_NULL(__libc_calloc(n, each)); }
void *realloc(void *old, size n) { return OR_NULL(__libc_realloc(old, n)); }
void *aligned_alloc(size align, size n) { return OR_NULL(__libc_memalign(align, n)); }
void *memalign(size align, size n) { return OR_NULL(__libc_memalign(align, n)); }
int posix_memalign(void **to, size align, size n) { return (*to = OR_NULL(__libc_memalign(align, n))) ? 0 : NO_MEMORY; }

int pthread_create(void *thread, const void *how, void *(*work)(void *), void *with) {
  return chosen("thread") ? AGAIN : start(thread, how, work, with);
}

long read(int from, void *bytes, size n) {
  int input = from == 0, file = from > 2;
  if ((input && chosen("read")) || (file && chosen("file-read"))) return refused(INPUT_OUTPUT);
  if ((input && chosen("stopped-read")) || (file && chosen("stopped-file-read"))) return refused(INTERRUPTED);
  int one = (input && (is_short || chosen("short-read"))) || (file && chosen("short-file-read"));
  return syscall(READ, from, bytes, n > 1 && one ? 1 : n);
}

long write(int to, const void *bytes, size n) {
  if (to == 1 && chosen("write")) return refused(INPUT_OUTPUT);
  if (to == 1 && chosen("stopped-write")) return refused(INTERRUPTED);
  if (to == 1 && chosen("no-write")) return 0;
  return syscall(WRITE, to, bytes, n > 1 && to == 1 && chosen("short-write") ? 1 : n);
}
long __write(int to, const void *bytes, size n) { return write(to, bytes, n); }
