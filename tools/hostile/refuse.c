// Refuses growths of memory and starts of threads of a program
// that is started with this library in LD_PRELOAD.
//
// REFUSE=N       the Nth growth is refused, counted from 1
// REFUSE=N+      the Nth growth is refused, and all later ones
// REFUSE=T       each start of a thread is refused
// REFUSE_BETWEEN=1     only growths and starts between two marks count. The program sets the marks
//                by writing to standard error: what begins with "[" starts the count, and what
//                begins with "]" ends it
// REFUSE_LOG=FILE      holds three numbers of 8 bytes: growths met, growths refused, and starts of
//                threads refused
#define _GNU_SOURCE
#include <dlfcn.h>
#include <errno.h>
#include <fcntl.h>
#include <pthread.h>
#include <stdatomic.h>
#include <stdlib.h>
#include <string.h>
#include <sys/mman.h>
#include <unistd.h>

enum { MET, REFUSED, UNSTARTED, NUMBERS };
static atomic_long own[NUMBERS];
// The log itself: a program may end without running what the C library runs at its exit,
// and its threads count side by side.
static atomic_long *numbers = own;
static atomic_int counts;
static long first;
static int later, no_threads, between;

static void keep_in(const char *log) {
    int file = open(log, O_CREAT | O_RDWR | O_TRUNC, 0644);
    if (file < 0 || ftruncate(file, sizeof own)) abort();
    numbers = mmap(NULL, sizeof own, PROT_READ | PROT_WRITE, MAP_SHARED, file, 0);
    if (numbers == MAP_FAILED) abort();
    close(file);
}

__attribute__((constructor)) static void begin(void) {
    const char *which = getenv("REFUSE"), *log = getenv("REFUSE_LOG");
    no_threads = which && which[0] == 'T';
    first = which && !no_threads ? atol(which) : 0;
    later = which && strchr(which, '+');
    between = getenv("REFUSE_BETWEEN") != NULL;
    if (log) keep_in(log);
    counts = !between;
}

static void *next(const char *name) { return dlsym(RTLD_NEXT, name); }

static int is_refused(void) {
    if (!counts) return 0;
    long n = ++numbers[MET];
    int is = first > 0 && (n == first || (later && n > first));
    numbers[REFUSED] += is;
    if (is) errno = ENOMEM;
    return is;
}

void *malloc(size_t size) {
    static void *(*real)(size_t);
    if (!real) real = next("malloc");
    return is_refused() ? NULL : real(size);
}

void *realloc(void *old, size_t size) {
    static void *(*real)(void *, size_t);
    if (!real) real = next("realloc");
    return is_refused() ? NULL : real(old, size);
}

void *aligned_alloc(size_t alignment, size_t size) {
    static void *(*real)(size_t, size_t);
    if (!real) real = next("aligned_alloc");
    return is_refused() ? NULL : real(alignment, size);
}

int posix_memalign(void **to, size_t alignment, size_t size) {
    static int (*real)(void **, size_t, size_t);
    if (!real) real = next("posix_memalign");
    return is_refused() ? ENOMEM : real(to, alignment, size);
}

int pthread_create(pthread_t *thread, const pthread_attr_t *how, void *(*run)(void *), void *with) {
    static int (*real)(pthread_t *, const pthread_attr_t *, void *(*)(void *), void *);
    if (!real) real = next("pthread_create");
    if (counts && no_threads) {
        ++numbers[UNSTARTED];
        return EAGAIN;
    }
    return real(thread, how, run, with);
}

ssize_t write(int file, const void *bytes, size_t count) {
    static ssize_t (*real)(int, const void *, size_t);
    if (!real) real = next("write");
    if (between && file == 2 && count > 0 && *(const char *)bytes == ']') counts = 0;
    ssize_t done = real(file, bytes, count);
    if (between && file == 2 && count > 0 && *(const char *)bytes == '[') counts = 1;
    return done;
}
