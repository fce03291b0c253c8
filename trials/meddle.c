// Preloaded into a program that is tried, it refuses memory and threads and moves few bytes a call, as the environment says.
// It has numbers:
//   TRIAL_REFUSE  the allocation that is refused, counted from 1
//   TRIAL_FROM    the allocation from which on all are refused, counted from 1
//   TRIAL_READ    the most bytes that one read moves
//   TRIAL_WRITE   the most bytes that one write moves
//   TRIAL_NO_READ, TRIAL_NO_WRITE  the read, or the write, that fails, counted from 1
//   TRIAL_THREADS  the most threads that start
//   TRIAL_LATE  the threads, counted from the first and 16 at most, that begin 200 milliseconds late
// TRIAL_COUNT, TRIAL_STARTS and TRIAL_SLEEPS name files, which get the numbers of allocations, of threads that were to start, and of
// calls that were to wait for a word of memory to change, at the end.
typedef unsigned long size;

extern void *__libc_malloc(size);
extern void *__libc_calloc(size, size);
extern void *__libc_realloc(void *, size);
extern void *__libc_memalign(size, size);
extern char *getenv(const char *);
extern int *__errno_location(void);
extern void *dlsym(void *, const char *);

enum { READ = 0, WRITE = 1, OPEN = 2, CLOSE = 3, SLEEP = 35, FUTEX = 202, EXIT_GROUP = 231, WRITE_NEW = 01 | 0100 | 01000 };
enum { EIO = 5, EAGAIN = 11, ENOMEM = 12 };

// Of the operations on a word, those that wait.
enum { OPERATION = 127, WAIT = 0, WAIT_BITSET = 9 };

typedef long (*system_call)(long, long, long, long, long, long, long);
typedef int (*thread_start)(void *, const void *, void *(*)(void *), void *);

static size allocations, reads, writes, starts, sleeps;
static size refused, from, read_most, write_most, no_read, no_write, most_threads, late;
static int is_ready, has_most_threads;
static system_call real_syscall;
static thread_start real_start;

static size number(const char *name) {
    const char *text = getenv(name);
    size value = 0;
    for (; text && *text >= '0' && *text <= '9'; text++) value = 10 * value + (size)(*text - '0');
    return value;
}

// The function of this name in the library behind this one.
static void *behind(const char *name) { return dlsym((void *)-1, name); }

long syscall(long call, long a, long b, long c, long d, long e, long f) {
    if (!real_syscall) real_syscall = (system_call)behind("syscall");
    if (call == FUTEX && ((b & OPERATION) == WAIT || (b & OPERATION) == WAIT_BITSET)) __atomic_add_fetch(&sleeps, 1, __ATOMIC_SEQ_CST);
    return real_syscall(call, a, b, c, d, e, f);
}

__attribute__((constructor)) static void begin(void) {
    real_start = (thread_start)behind("pthread_create");
    has_most_threads = getenv("TRIAL_THREADS") != 0;
    most_threads = number("TRIAL_THREADS");
    late = number("TRIAL_LATE");
    refused = number("TRIAL_REFUSE");
    from = number("TRIAL_FROM");
    read_most = number("TRIAL_READ");
    write_most = number("TRIAL_WRITE");
    no_read = number("TRIAL_NO_READ");
    no_write = number("TRIAL_NO_WRITE");
    is_ready = 1;
}

// Writes the count into the file that the setting names.
static void leave(const char *setting, size *count) {
    const char *name = getenv(setting);
    char text[24];
    int at = sizeof text;
    if (!name) return;
    text[--at] = '\n';
    size left = __atomic_load_n(count, __ATOMIC_SEQ_CST);
    do text[--at] = (char)('0' + left % 10); while (left /= 10);
    long file = syscall(OPEN, (long)name, WRITE_NEW, 0644, 0, 0, 0);
    syscall(WRITE, file, (long)(text + at), (long)(sizeof text - at), 0, 0, 0);
    syscall(CLOSE, file, 0, 0, 0, 0, 0);
}

__attribute__((destructor)) static void end(void) {
    leave("TRIAL_COUNT", &allocations);
    leave("TRIAL_STARTS", &starts);
    leave("TRIAL_SLEEPS", &sleeps);
}

// A program that ends at once runs no destructors.
__attribute__((noreturn)) void _exit(int status) {
    end();
    for (;;) syscall(EXIT_GROUP, status, 0, 0, 0, 0, 0);
}

// What a thread that begins late is to run.
enum { MOST_LATE = 16 };
static struct work {
    void *(*run)(void *);
    void *given;
} works[MOST_LATE];

static void *run_late(void *given) {
    struct work *work = given;
    long time[2] = {0, 200000000};
    syscall(SLEEP, (long)time, 0, 0, 0, 0, 0);
    return work->run(work->given);
}

int pthread_create(void *thread, const void *attributes, void *(*run)(void *), void *given) {
    size now = __atomic_add_fetch(&starts, 1, __ATOMIC_SEQ_CST);
    if (has_most_threads && now > most_threads) return EAGAIN;
    if (now > late || now > MOST_LATE) return real_start(thread, attributes, run, given);
    works[now - 1] = (struct work){run, given};
    return real_start(thread, attributes, run_late, &works[now - 1]);
}

// Whether the next allocation is refused.
static int is_refused(void) {
    if (!is_ready) return 0;
    size now = __atomic_add_fetch(&allocations, 1, __ATOMIC_SEQ_CST);
    if (now != refused && !(from && now >= from)) return 0;
    *__errno_location() = ENOMEM;
    return 1;
}

void *malloc(size n) { return is_refused() ? 0 : __libc_malloc(n); }
void *calloc(size n, size each) { return is_refused() ? 0 : __libc_calloc(n, each); }
void *realloc(void *old, size n) { return is_refused() ? 0 : __libc_realloc(old, n); }
void *memalign(size align, size n) { return is_refused() ? 0 : __libc_memalign(align, n); }
void *aligned_alloc(size align, size n) { return memalign(align, n); }

int posix_memalign(void **to, size align, size n) {
    if (is_refused()) return ENOMEM;
    *to = __libc_memalign(align, n);
    return *to ? 0 : ENOMEM;
}

static long move(long call, int file, const void *bytes, size n, size *count, size most, size no) {
    if (__atomic_add_fetch(count, 1, __ATOMIC_SEQ_CST) == no) {
        *__errno_location() = EIO;
        return -1;
    }
    return syscall(call, file, (long)bytes, (long)(most && n > most ? most : n), 0, 0, 0);
}

long read(int file, void *bytes, size n) { return move(READ, file, bytes, n, &reads, read_most, no_read); }
long write(int file, const void *bytes, size n) { return move(WRITE, file, bytes, n, &writes, write_most, no_write); }
long __write(int file, const void *bytes, size n) { return write(file, bytes, n); }
