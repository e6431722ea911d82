/* A library to preload. It refuses chosen calls that a program makes to the C library, so that a sweep can see what the program does then.

   REFUSE        the calls: growth (malloc, calloc, realloc, aligned_alloc, posix_memalign), thread (pthread_create), read, write
   REFUSE_FIRST  the number of the first call that is refused, counted from 1 over the process
   REFUSE_LAST   the number of the last one
   REFUSE_HOW    for read and write: error (EIO), interrupt (EINTR), none (answers 0), one (moves one byte)
   REFUSE_SHORT  if it is there, a read or write that isn't refused moves one byte
   REFUSE_TELL   a file descriptor, to which '!' goes with the first refusal
   REFUSE_TRACE  if it is there, '.' goes to it with each growth, and '<' and '>' before and after each start of a thread

   Writes to standard error are let through, so that the line of a fault can be seen. It includes no header: the kit's clang has none. */

typedef __SIZE_TYPE__ size_t;
typedef __PTRDIFF_TYPE__ ssize_t;
struct iovec {
  void *base;
  size_t length;
};

extern void *__libc_malloc(size_t), *__libc_calloc(size_t, size_t), *__libc_realloc(void *, size_t), *__libc_memalign(size_t, size_t);
extern ssize_t __read(int, void *, size_t), __write(int, const void *, size_t);
extern void *dlsym(void *, const char *);
extern char *getenv(const char *);
extern long atol(const char *);
extern int strcmp(const char *, const char *), *__errno_location(void);

enum { INTERRUPTED = 4, BROKEN = 5, TRY_AGAIN = 11, NO_MEMORY = 12 }; /* EINTR, EIO, EAGAIN, ENOMEM */
enum call { NOTHING, GROWTH, THREAD, READ, WRITE };
enum how { ERROR, INTERRUPT, NONE, ONE };
static const int STANDARD_ERROR = 2;

static enum call refused_call = NOTHING;
static enum how how = ERROR;
static long first, last, made;
static int tell = -1, all_short, traced;

static int is(const char *value, const char *word) { return value && strcmp(value, word) == 0; }

static long number(const char *name, long otherwise) {
  const char *value = getenv(name);
  return value ? atol(value) : otherwise;
}

__attribute__((constructor)) static void begin(void) {
  const char *call = getenv("REFUSE"), *by = getenv("REFUSE_HOW");
  first = number("REFUSE_FIRST", 0);
  last = number("REFUSE_LAST", first);
  tell = (int)number("REFUSE_TELL", -1);
  all_short = getenv("REFUSE_SHORT") != 0;
  traced = tell >= 0 && getenv("REFUSE_TRACE") != 0;
  how = is(by, "interrupt") ? INTERRUPT : is(by, "none") ? NONE : is(by, "one") ? ONE : ERROR;
  refused_call = is(call, "growth") ? GROWTH : is(call, "thread") ? THREAD : is(call, "read") ? READ : is(call, "write") ? WRITE : NOTHING;
}

static void trace(const char *mark) {
  if (traced) (void)!__write(tell, mark, 1);
}

/* Whether this call is one to refuse. */
static int refused(enum call call) {
  if (call == GROWTH) trace(".");
  if (call != refused_call) return 0;
  long mine = __atomic_add_fetch(&made, 1, __ATOMIC_SEQ_CST);
  if (mine < first || mine > last) return 0;
  if (mine == first && tell >= 0) (void)!__write(tell, "!", 1);
  return 1;
}

static int failed(int error) {
  *__errno_location() = error;
  return -1;
}

static void *no_memory(void) {
  failed(NO_MEMORY);
  return 0;
}

void *malloc(size_t size) { return refused(GROWTH) ? no_memory() : __libc_malloc(size); }

void *calloc(size_t count, size_t size) { return refused(GROWTH) ? no_memory() : __libc_calloc(count, size); }

void *realloc(void *old, size_t size) { return refused(GROWTH) ? no_memory() : __libc_realloc(old, size); }

void *aligned_alloc(size_t alignment, size_t size) { return refused(GROWTH) ? no_memory() : __libc_memalign(alignment, size); }

int posix_memalign(void **made_at, size_t alignment, size_t size) {
  void *made_block = refused(GROWTH) ? 0 : __libc_memalign(alignment, size);
  if (!made_block) return NO_MEMORY;
  *made_at = made_block;
  return 0;
}

typedef int create(void *, const void *, void *(*)(void *), void *);

int pthread_create(void *thread, const void *attributes, void *(*body)(void *), void *argument) {
  if (refused(THREAD)) return TRY_AGAIN;
  create *next = (create *)dlsym((void *)-1L /* RTLD_NEXT */, "pthread_create");
  trace("<");
  int error = next(thread, attributes, body, argument);
  trace(">");
  return error;
}

/* How many of so many bytes move, or -1 where the call fails. */
static ssize_t moved(enum call call, size_t wanted) {
  if (!refused(call)) return all_short && wanted > 1 ? 1 : (ssize_t)wanted;
  switch (how) {
  case ERROR: return failed(BROKEN);
  case INTERRUPT: return failed(INTERRUPTED);
  case NONE: return 0;
  case ONE: return wanted > 0;
  }
  return -1;
}

ssize_t read(int from, void *to, size_t wanted) {
  ssize_t move = moved(READ, wanted);
  return move > 0 ? __read(from, to, (size_t)move) : move;
}

ssize_t write(int to, const void *from, size_t wanted) {
  ssize_t move = to == STANDARD_ERROR ? (ssize_t)wanted : moved(WRITE, wanted);
  return move > 0 ? __write(to, from, (size_t)move) : move;
}

/* Writes a part, as writev may; one call for each of its parts. */
ssize_t writev(int to, const struct iovec *parts, int count) {
  ssize_t whole = 0;
  for (int part = 0; part < count; part++) {
    ssize_t wrote = parts[part].length ? write(to, parts[part].base, parts[part].length) : 0;
    if (wrote < 0) return whole ? whole : -1;
    whole += wrote;
    if ((size_t)wrote < parts[part].length) break;
  }
  return whole;
}
