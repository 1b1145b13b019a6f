/* A library to be preloaded, that sees the calls which a program makes on its image file, fails or breaks off one of them, and may
   keep a model of the disk below the file. `watch.py` builds it, and sets what it reads from the environment:

   SHIM_IMAGE   the image's path as the program gets it; PATH.new and the folder are watched too
   SHIM_LOG     a file to which each call is told behind it: a line "OP WHICH OFFSET LENGTH RESULT ERRNO COUNT", and COUNT bytes;
                the result is -2 where it was done and told as failed
   SHIM_ONLY    the letters of the calls that are counted; where it is absent all are
   SHIM_KILL    N:b, N:a, N:pK: SIGKILL before or behind the Nth call, or when the first K bytes of a write are done
   SHIM_FAIL    N:E:ERRNO: the Nth call isn't done and fails; N:X:ERRNO: then the program is killed too; N:F:ERRNO: it is done and
                told as failed; N:S:K: its first K bytes alone are done; N+ in place of N: so do all later calls of its kind
   SHIM_DISK    PATH of the model. PATH has the bytes that are on the disk, PATH.dirty a 1 for each page of 4,096 that isn't there
                as it is read, and PATH.listed stands there where the folder's entry of the image is on the disk
   SHIM_LEAVES  of a sync that fails: page P comes to the disk where bit P modulo 64 is set. All pages count as written behind it

   Letters: o open, s stat, f fcntl, l flock, r pread, w pwrite, d fdatasync, y fsync, t ftruncate, n rename, k link,
   u unlink, c close, O a write to standard output, T pthread_create. Which: 1 the image, 2 PATH.new, 3 the folder.

   The model is that of Linux's page cache. The file itself holds what reads give. A write makes its pages dirty. A sync that is
   done brings each dirty page to the disk; one that failed forgets all of them, and leaves each old or new there, unless it was
   interrupted. A folder's entry comes to the disk with a sync of the folder that is done, also where an earlier one failed. */
#define _GNU_SOURCE
#include <dlfcn.h>
#include <errno.h>
#include <fcntl.h>
#include <pthread.h>
#include <signal.h>
#include <stdarg.h>
#include <stdint.h>
#include <stdio.h>
#include <stdlib.h>
#include <string.h>
#include <sys/file.h>
#include <sys/stat.h>
#include <sys/syscall.h>
#include <unistd.h>

enum { NONE, IMAGE, BESIDE, FOLDER, PAGE = 4096, MOST = 1024 };

static pthread_mutex_t lock = PTHREAD_MUTEX_INITIALIZER;
static int begun, log_file = -1;
static char image[4096], beside[4096], disk[4096], only[64];
static unsigned char which_of[MOST];
static uint64_t leaves;
static long count, kill_at = -1, kill_part = -1;
static char kill_mode;
static struct { long at, value; int from_on; char mode, op; } failing;

static void set(char *to, size_t size, const char *name, const char *behind) {
    const char *it = getenv(name);
    if (it) snprintf(to, size, "%s%s", it, behind);
}

static void begin(void) {
    if (begun) return;
    begun = 1;
    set(image, sizeof image, "SHIM_IMAGE", "");
    set(beside, sizeof beside, "SHIM_IMAGE", ".new");
    set(disk, sizeof disk, "SHIM_DISK", "");
    set(only, sizeof only, "SHIM_ONLY", "");
    char *it = getenv("SHIM_LEAVES");
    if (it) leaves = strtoull(it, 0, 0);
    if ((it = getenv("SHIM_LOG"))) {
        int file = syscall(SYS_openat, AT_FDCWD, it, O_WRONLY | O_CREAT | O_APPEND | O_CLOEXEC, 0644);
        log_file = syscall(SYS_fcntl, file, F_DUPFD_CLOEXEC, 900);
        syscall(SYS_close, file);
    }
    if ((it = getenv("SHIM_KILL"))) {
        kill_at = strtol(it, &it, 10);
        kill_mode = it[1];
        if (kill_mode == 'p') kill_part = atol(it + 2);
    }
    if ((it = getenv("SHIM_FAIL"))) {
        failing.at = strtol(it, &it, 10);
        if (*it == '+') failing.from_on = 1, it++;
        failing.mode = it[1];
        failing.value = strtol(it + 3, 0, 10);
    }
}

static void tell(char op, int which, int64_t offset, int64_t length, int64_t result, int error, const void *data, size_t size) {
    char head[128];
    if (log_file < 0) return;
    int n = snprintf(head, sizeof head, "%c %d %lld %lld %lld %d %zu\n", op, which, (long long)offset, (long long)length,
                     (long long)result, error, size);
    syscall(SYS_write, log_file, head, n);
    if (size) syscall(SYS_write, log_file, data, size);
}

static void end_by_kill(void) {
    syscall(SYS_kill, getpid(), SIGKILL);
    for (;;) pause();
}

/* What is done with the next call of a kind: 0 nothing, 'E', 'X', 'F' or 'S' a failure, 'a' or 'p' a kill. */
static char plan(char op, long *value) {
    if (only[0] && !strchr(only, op)) return 0;
    count++;
    if (count == kill_at) {
        if (kill_mode == 'b') end_by_kill();
        *value = kill_part;
        return kill_mode;
    }
    if (count == failing.at) failing.op = op;
    if (count == failing.at || (failing.from_on && failing.op == op && count > failing.at)) {
        *value = failing.value;
        return failing.mode;
    }
    return 0;
}

/* The model. Its files are opened at each use, so that they are right whenever the program ends. */

static int model(const char *behind, int flags) {
    char path[4200];
    snprintf(path, sizeof path, "%s%s", disk, behind);
    return syscall(SYS_openat, AT_FDCWD, path, flags | O_CREAT | O_CLOEXEC, 0644);
}

static off_t size_of(int file) {
    struct stat it;
    return syscall(SYS_fstat, file, &it) ? 0 : it.st_size;
}

static void copy_page(int from, int to, long page, off_t size) {
    char bytes[PAGE];
    off_t at = (off_t)page * PAGE;
    size_t most = size - at < PAGE ? size - at : PAGE;
    memset(bytes, 0, sizeof bytes);
    syscall(SYS_pread64, from, bytes, most, at);
    syscall(SYS_pwrite64, to, bytes, most, at);
}

static void note_written(off_t offset, size_t length) {
    if (!disk[0] || !length) return;
    int dirty = model(".dirty", O_RDWR);
    for (long page = offset / PAGE; page <= (long)((offset + length - 1) / PAGE); page++)
        syscall(SYS_pwrite64, dirty, "\1", 1, page);
    syscall(SYS_close, dirty);
}

static int is_dirty(int dirty, long page) {
    char it = 0;
    return syscall(SYS_pread64, dirty, &it, 1, page) == 1 && it;
}

static void bring(int file, int all) {
    if (!disk[0]) return;
    int dirty = model(".dirty", O_RDWR), below = model("", O_RDWR);
    off_t size = size_of(file);
    for (long page = 0; page * PAGE < size; page++)
        if (is_dirty(dirty, page) && (all || leaves >> page % 64 & 1)) copy_page(file, below, page, size);
    syscall(SYS_ftruncate, below, size);
    syscall(SYS_ftruncate, dirty, 0);
    syscall(SYS_close, below);
    syscall(SYS_close, dirty);
}

static void cut_model(off_t size) {
    if (!disk[0]) return;
    int below = model("", O_RDWR);
    syscall(SYS_ftruncate, below, size);
    syscall(SYS_close, below);
    below = model(".dirty", O_RDWR);
    if (size_of(below) * PAGE > size) syscall(SYS_ftruncate, below, (size + PAGE - 1) / PAGE);
    syscall(SYS_close, below);
}

static void note_listed(void) {
    if (disk[0] && !syscall(SYS_access, image, F_OK)) syscall(SYS_close, model(".listed", O_RDWR));
}

/* The calls. DO is what is done, PART the same of the first VALUE bytes; both give a result and set errno. */

#define REAL(name) static __typeof__(name) *real; if (!real) real = (__typeof__(name) *)dlsym(RTLD_NEXT, #name)
#define UNWATCHED(is, call) begin(); if (!image[0] || !(is)) return call
#define WATCHED(op, which, offset, length, data, size, DO, PART, FAILED) do { \
    pthread_mutex_lock(&lock); \
    long value = 0; int64_t result; int error = 0; char how = plan(op, &value); \
    errno = 0; \
    if (how == 'E' || how == 'X') { result = -1; error = value; FAILED; } \
    else if (how == 'S' || how == 'p') { result = PART; error = errno; } \
    else { result = DO; error = errno; } \
    int done = how == 'F' && result >= 0; \
    if (done) { result = -1; error = value; } \
    tell(op, which, offset, length, done ? -2 : result, result < 0 ? error : 0, data, size); \
    if (how == 'a' || how == 'p' || how == 'X') end_by_kill(); \
    pthread_mutex_unlock(&lock); errno = error; return result; } while (0)
#define LEAST(n, most) ((size_t)(n) < (most) ? (size_t)(n) : (most))

static int which_is(int file) { return file >= 0 && file < MOST ? which_of[file] : NONE; }

static int watched_file(int which) { return which == IMAGE || which == BESIDE; }

static int64_t note_opened(int file, int which, int flags) {
    if (file >= 0 && file < MOST) which_of[file] = which;
    if (file >= 0 && watched_file(which) && flags & O_TRUNC) cut_model(0);
    return file;
}

static int is_folder(const char *path) {
    struct stat it;
    return !syscall(SYS_newfstatat, AT_FDCWD, path, &it, 0) && S_ISDIR(it.st_mode);
}

static int open_watched(const char *path, int flags, int mode, int (*real)(const char *, int, ...)) {
    int which = !strcmp(path, image) ? IMAGE : !strcmp(path, beside) ? BESIDE :
                (flags & O_ACCMODE) == O_RDONLY && is_folder(path) ? FOLDER : NONE;
    if (!which) return real(path, flags, mode);
    WATCHED('o', which, flags, 0, 0, 0, note_opened(real(path, flags, mode), which, flags), -1, );
}
#define OPEN(name) int name(const char *path, int flags, ...) { \
    va_list it; va_start(it, flags); int mode = va_arg(it, int); va_end(it); \
    REAL(name); UNWATCHED(1, real(path, flags, mode)); return open_watched(path, flags, mode, real); }
OPEN(open)
OPEN(open64)

static int64_t note_copied(int file, int which, int command) {
    if (file >= 0 && file < MOST && (command == F_DUPFD || command == F_DUPFD_CLOEXEC)) which_of[file] = which;
    return file;
}
int fcntl(int file, int command, ...) {
    va_list it; va_start(it, command); void *more = va_arg(it, void *); va_end(it);
    REAL(fcntl); int which = which_is(file); UNWATCHED(which, real(file, command, more));
    WATCHED('f', which, 0, 0, 0, 0, note_copied(real(file, command, more), which, command), -1, );
}

int close(int file) {
    REAL(close); int which = which_is(file); UNWATCHED(which, real(file));
    which_of[file] = NONE;
    WATCHED('c', which, 0, 0, 0, 0, real(file), real(file), real(file));
}

int flock(int file, int how_) {
    REAL(flock); int which = which_is(file); UNWATCHED(which, real(file, how_));
    WATCHED('l', which, how_, 0, 0, 0, real(file, how_), -1, );
}

#define PREAD(name) ssize_t name(int file, void *to, size_t size, off_t at) { \
    REAL(name); int which = which_is(file); UNWATCHED(watched_file(which), real(file, to, size, at)); \
    WATCHED('r', which, at, size, 0, 0, real(file, to, size, at), real(file, to, LEAST(value, size), at), ); }
PREAD(pread)
PREAD(pread64)

static int64_t note_write(int64_t result, off_t at) {
    int error = errno;
    if (result > 0) note_written(at, result);
    errno = error;
    return result;
}
#define PWRITE(name) ssize_t name(int file, const void *from, size_t size, off_t at) { \
    REAL(name); int which = which_is(file); UNWATCHED(watched_file(which), real(file, from, size, at)); \
    WATCHED('w', which, at, size, from, size, note_write(real(file, from, size, at), at), \
            note_write(real(file, from, LEAST(value, size), at), at), ); }
PWRITE(pwrite)
PWRITE(pwrite64)

/* (no bytes go to the real disk: what counts is what stands in the files) */
static int64_t synced(int file, int which) {
    if (which == FOLDER) note_listed(); else bring(file, 1);
    errno = 0;
    return 0;
}
/* (one that was interrupted forgets nothing) */
static void sync_failed(int file, int which, int error) { if (which != FOLDER && error != EINTR) bring(file, 0); }
#define SYNC(name, op) int name(int file) { \
    REAL(name); int which = which_is(file); UNWATCHED(which, real(file)); \
    WATCHED(op, which, 0, 0, 0, 0, synced(file, which), synced(file, which), sync_failed(file, which, error)); }
SYNC(fdatasync, 'd')
SYNC(fsync, 'y')

static int64_t note_cut(int result, off_t size) {
    if (!result) cut_model(size);
    return result;
}
#define TRUNCATE(name) int name(int file, off_t size) { \
    REAL(name); int which = which_is(file); UNWATCHED(watched_file(which), real(file, size)); \
    WATCHED('t', which, size, 0, 0, 0, note_cut(real(file, size), size), -1, ); }
TRUNCATE(ftruncate)
TRUNCATE(ftruncate64)

int rename(const char *from, const char *to) {
    REAL(rename); UNWATCHED(!strcmp(to, image), real(from, to));
    WATCHED('n', IMAGE, 0, 0, 0, 0, real(from, to), -1, );
}
int link(const char *from, const char *to) {
    REAL(link); UNWATCHED(!strcmp(to, image), real(from, to));
    WATCHED('k', IMAGE, 0, 0, 0, 0, real(from, to), -1, );
}
int unlink(const char *path) {
    REAL(unlink); UNWATCHED(!strcmp(path, image) || !strcmp(path, beside), real(path));
    WATCHED('u', strcmp(path, image) ? BESIDE : IMAGE, 0, 0, 0, 0, real(path), -1, );
}

int statx(int folder, const char *restrict path, int flags, unsigned mask, struct statx *restrict to) {
    REAL(statx);
    int which = !*path ? which_is(folder) : !strcmp(path, image) ? IMAGE : !strcmp(path, beside) ? BESIDE : NONE;
    UNWATCHED(which, real(folder, path, flags, mask, to));
    WATCHED('s', which, 0, 0, 0, 0, real(folder, path, flags, mask, to), -1, );
}

ssize_t write(int file, const void *from, size_t size) {
    REAL(write); UNWATCHED(file == 1, real(file, from, size));
    WATCHED('O', NONE, 0, size, 0, 0, real(file, from, size), real(file, from, LEAST(value, size)), );
}

int pthread_create(pthread_t *restrict thread, const pthread_attr_t *restrict how_, void *(*run)(void *), void *restrict with) {
    REAL(pthread_create); UNWATCHED(1, real(thread, how_, run, with));
    pthread_mutex_lock(&lock);
    long value = 0;
    char how = plan('T', &value);
    tell('T', NONE, 0, 0, 0, 0, 0, 0);
    pthread_mutex_unlock(&lock);
    int result = how == 'E' ? value : real(thread, how_, run, with);
    if (how == 'a' || how == 'p') end_by_kill();
    return result;
}
