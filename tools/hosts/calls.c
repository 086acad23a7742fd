// Notes what a program that is started with this library in LD_PRELOAD asks of files, in its order,
// and lets some calls fail or wait.
//
// The calls: open, stat (by a name), look (of an open file), lock, cut, read, write, sync (of a
// file or a folder), rename, unlink. NAME is the last part of the file's name.
//
// CALLS_LOG=FILE    a line is put there as a call begins, and one as it ends: `begin` or `end`, the
//                   call, NAME, and how many bytes; -1 where it failed. A rename has FROM:TO
// CALLS_FAIL=CALL:NAME:N:ERROR,..   the Nth such call on a file of that name fails by that number
// CALLS_HALF=NAME:N                 the Nth write there takes half of its bytes
// CALLS_WAIT=CALL:NAME:N:PIPE       the Nth such call begins once who writes into PIPE has closed
//                                   it
// CALLS_MOVES=FROM:TO               the file FROM is renamed to TO before the first lock
// CALLS_TWINS=1     each file has the number 7, and differs from others by its device alone
// CALLS_SLOW=COUNT  each sync takes so many microseconds more
#define _GNU_SOURCE
#include <dlfcn.h>
#include <errno.h>
#include <fcntl.h>
#include <pthread.h>
#include <stdarg.h>
#include <stdio.h>
#include <stdlib.h>
#include <string.h>
#include <sys/file.h>
#include <sys/stat.h>
#include <sys/syscall.h>
#include <unistd.h>

// A call that is to fail or to wait, and how many of its kind are still to come before.
struct rule {
    char call[16], name[128], rest[256];
    long left;
};

static int log_file = -1, twins;
static struct rule fails[8], half, waits;
static useconds_t slow;
static char *from, *to;
static pthread_mutex_t counting = PTHREAD_MUTEX_INITIALIZER;

__attribute__((constructor)) static void begin(void) {
    const char *log = getenv("CALLS_LOG"), *how = getenv("CALLS_SLOW"), *it;
    char *list = getenv("CALLS_FAIL"), *rest;
    if (log) log_file = open(log, O_CREAT | O_WRONLY | O_APPEND, 0644);
    list = list ? strtok_r(strdup(list), ",", &rest) : NULL;
    for (struct rule *rule = fails; list; list = strtok_r(NULL, ",", &rest), rule++)
        if (sscanf(list, "%15[^:]:%127[^:]:%ld:%255s", rule->call, rule->name, &rule->left,
                   rule->rest) != 4)
            abort();
    if ((it = getenv("CALLS_HALF")) && sscanf(it, "%127[^:]:%ld", half.name, &half.left) != 2)
        abort();
    if ((it = getenv("CALLS_WAIT")) && sscanf(it, "%15[^:]:%127[^:]:%ld:%255s", waits.call,
                                              waits.name, &waits.left, waits.rest) != 4)
        abort();
    if ((from = getenv("CALLS_MOVES")) && (to = strchr(from, ':'))) *to++ = 0;
    strcpy(half.call, "write");
    twins = getenv("CALLS_TWINS") != NULL;
    if (how) slow = atoi(how);
}

static void *next(const char *name) { return dlsym(RTLD_NEXT, name); }

static const char *last_of(const char *path) {
    const char *last = strrchr(path, '/');
    return last && last[1] ? last + 1 : path;
}

// The last part of the name of an open file.
static const char *name_of(int file, char *text, size_t size) {
    char path[64];
    snprintf(path, sizeof path, "/proc/self/fd/%d", file);
    ssize_t n = readlink(path, text, size - 1);
    text[n < 0 ? 0 : n] = 0;
    // A pipe or a socket has its kind for a name.
    char *number = strstr(text, ":[");
    if (number) *number = 0;
    return last_of(text);
}

static void note(const char *when, const char *call, const char *name, long count) {
    char text[600];
    int n = snprintf(text, sizeof text, "%s %s %s %ld\n", when, call, *name ? name : "-", count),
        was = errno;
    if (log_file >= 0 && syscall(SYS_write, log_file, text, n) < 0) abort();
    errno = was;
}

static int is_due(struct rule *rule, const char *call, const char *name) {
    if (strcmp(rule->call, call) || strcmp(rule->name, name)) return 0;
    pthread_mutex_lock(&counting);
    int is = --rule->left == 0;
    pthread_mutex_unlock(&counting);
    return is;
}

// Notes that a call begins, after it has waited, and says whether it fails.
static int begins(const char *call, const char *name, long count) {
    if (is_due(&waits, call, name)) {
        int pipe = syscall(SYS_openat, AT_FDCWD, waits.rest, O_RDONLY);
        char byte;
        while (syscall(SYS_read, pipe, &byte, 1) > 0) {
        }
        close(pipe);
    }
    note("begin", call, name, count);
    int error = 0;
    for (struct rule *rule = fails; rule < fails + 8; rule++)
        if (is_due(rule, call, name)) error = atoi(rule->rest);
    if (error) note("end", call, name, -1), errno = error;
    return error;
}

static long ends(const char *call, const char *name, long done) {
    note("end", call, name, done);
    return done;
}

int open(const char *path, int flags, ...) {
    static int (*real)(const char *, int, ...);
    va_list more;
    va_start(more, flags);
    int mode = flags & O_CREAT ? va_arg(more, int) : 0;
    va_end(more);
    if (!real) real = next("open");
    if (begins("open", last_of(path), 0)) return -1;
    return ends("open", last_of(path), real(path, flags, mode));
}

int statx(int folder, const char *path, int flags, unsigned mask, struct statx *to) {
    static int (*real)(int, const char *, int, unsigned, struct statx *);
    char text[4096];
    const char *name = *path ? last_of(path) : name_of(folder, text, sizeof text),
               *call = *path ? "stat" : "look";
    if (!real) real = next("statx");
    if (begins(call, name, 0)) return -1;
    int done = real(folder, path, flags, mask, to);
    if (done == 0 && twins) to->stx_dev_minor = to->stx_ino, to->stx_ino = 7;
    return ends(call, name, done);
}

int flock(int file, int how) {
    static int (*real)(int, int);
    char text[4096];
    const char *name = name_of(file, text, sizeof text);
    if (!real) real = next("flock");
    if (begins("lock", name, 0)) return -1;
    if (to && rename(from, to) == 0) to = NULL;
    return ends("lock", name, real(file, how));
}

int ftruncate(int file, off_t size) {
    static int (*real)(int, off_t);
    char text[4096];
    const char *name = name_of(file, text, sizeof text);
    if (!real) real = next("ftruncate");
    if (begins("cut", name, size)) return -1;
    return ends("cut", name, real(file, size));
}

ssize_t read(int file, void *bytes, size_t count) {
    static ssize_t (*real)(int, void *, size_t);
    char text[4096];
    const char *name = name_of(file, text, sizeof text);
    if (!real) real = next("read");
    if (begins("read", name, count)) return -1;
    return ends("read", name, real(file, bytes, count));
}

ssize_t write(int file, const void *bytes, size_t count) {
    static ssize_t (*real)(int, const void *, size_t);
    char text[4096];
    const char *name = name_of(file, text, sizeof text);
    if (!real) real = next("write");
    if (begins("write", name, count)) return -1;
    return ends("write", name, real(file, bytes, is_due(&half, "write", name) ? count / 2 : count));
}

static int sync_so(const char *how, int file) {
    int (*real)(int) = next(how);
    char text[4096];
    const char *name = name_of(file, text, sizeof text);
    if (begins("sync", name, 0)) return -1;
    if (slow) usleep(slow);
    return ends("sync", name, real(file));
}

int fsync(int file) { return sync_so("fsync", file); }

int fdatasync(int file) { return sync_so("fdatasync", file); }

int rename(const char *old, const char *new) {
    static int (*real)(const char *, const char *);
    char names[600];
    snprintf(names, sizeof names, "%.250s:%.250s", last_of(old), last_of(new));
    if (!real) real = next("rename");
    if (begins("rename", last_of(old), 0)) return -1;
    return ends("rename", names, real(old, new));
}

int unlink(const char *path) {
    static int (*real)(const char *);
    if (!real) real = next("unlink");
    if (begins("unlink", last_of(path), 0)) return -1;
    return ends("unlink", last_of(path), real(path));
}
