/* A library to be preloaded: it makes calls of a save fail. It counts the calls of the C library that a child of the host makes: the saver's
 * from the moment that it has its name on; the keeper's from the order that tells it of a save to its next pause. It obeys these variables:
 *   FAULT_IN=NAME    the child, bidi-saver or bidi-keeper; the first one without it
 *   FAULT_AT=N       the call of this number, from 1, fails, once in all runs that share FAULT_LOG
 *   FAULT_CALL=NAME  in its place, the first call of this name
 *   FAULT_ERROR=N    with this errno; 0 kills the process before the call, -1 after it
 *   FAULT_WHOM=WORD  which process is killed: `host` for the host in place of the child, `all` for all of the host's job
 *   FAULT_LOG=PATH   the names of the calls are appended there, a line each; `FAULT` after the one that failed, `PAUSE` at the keeper's pause
 *   LACKS=WORDS      calls that the system or the file system does not have: tmpfile, exchange, noreplace, link, sync, lock, lists,
 *                    statx, close_range; and proc, for paths below /proc, which the driver has at its start as the host does
 */
#include <dlfcn.h>
#include <errno.h>
#include <fcntl.h>
#include <linux/fs.h>
#include <poll.h>
#include <signal.h>
#include <stdarg.h>
#include <stdbool.h>
#include <stdio.h>
#include <stdlib.h>
#include <string.h>
#include <sys/file.h>
#include <sys/prctl.h>
#include <sys/stat.h>
#include <sys/statvfs.h>
#include <sys/syscall.h>
#include <sys/vfs.h>
#include <sys/xattr.h>
#include <unistd.h>

/* Calls count; the fault was made; it was made by this process, which is the keeper. */
static bool is_on, is_done, is_hit, is_keeper;
static long count, fault_at, fault_error;
static const char *log_path, *lacks = "", *child = "bidi-saver", *whom = "", *call_name = "";

static long real_syscall(long number, long a, long b, long c, long d, long e) {
    static long (*call)(long, ...);
    if (!call) *(void **)&call = dlsym(RTLD_NEXT, "syscall");
    return call(number, a, b, c, d, e);
}

static void note(const char *text) {
    int file = (int)real_syscall(SYS_openat, AT_FDCWD, (long)log_path, O_WRONLY | O_APPEND | O_CREAT, 0600, 0);
    if (file < 0) return;
    real_syscall(SYS_write, file, (long)text, (long)strlen(text), 0, 0);
    real_syscall(SYS_close, file, 0, 0, 0, 0);
}

__attribute__((constructor)) static void read_variables(void) {
    log_path = getenv("FAULT_LOG");
    lacks = getenv("LACKS") ? getenv("LACKS") : "";
    const char *at = getenv("FAULT_AT"), *error = getenv("FAULT_ERROR");
    fault_at = at ? atol(at) : 0;
    fault_error = error ? atol(error) : 0;
    if (getenv("FAULT_IN")) child = getenv("FAULT_IN");
    if (getenv("FAULT_WHOM")) whom = getenv("FAULT_WHOM");
    if (getenv("FAULT_CALL")) call_name = getenv("FAULT_CALL");
}

static void kill_them(void) {
    real_syscall(SYS_kill, strcmp(whom, "all") == 0 ? 0 : strcmp(whom, "host") == 0 ? getppid() : getpid(), SIGKILL, 0, 0, 0);
}

static bool is_lacking(const char *word) {
    return strstr(lacks, word);
}

/* Whether the fault was made by a run before. */
static bool was_made(void) {
    static char text[1 << 16];
    int file = (int)real_syscall(SYS_openat, AT_FDCWD, (long)log_path, O_RDONLY, 0, 0);
    long length = file < 0 ? 0 : real_syscall(SYS_read, file, (long)text, sizeof text - 1, 0, 0);
    if (file >= 0) real_syscall(SYS_close, file, 0, 0, 0, 0);
    text[length > 0 ? length : 0] = 0;
    return strstr(text, "FAULT");
}

/* Counts a call. Returns whether it is to fail; it dies at -1 once it was made. */
static bool fails(const char *name) {
    if (!is_on) return false;
    count++;
    if (log_path) note(name), note("\n");
    if (is_done || (count != fault_at && strcmp(name, call_name) != 0)) return false;
    is_done = is_hit = true;
    if (log_path) note("FAULT\n");
    if (fault_error == 0) kill_them();
    errno = (int)fault_error;
    return fault_error > 0;
}

/* After a call: dies where it is asked to. */
static void after(void) {
    if (is_hit && fault_error < 0) kill_them();
    is_hit = false;
}

int prctl(int what, ...) {
    va_list rest;
    va_start(rest, what);
    unsigned long first = va_arg(rest, unsigned long);
    va_end(rest);
    if (what == PR_SET_NAME && strcmp((const char *)first, child) == 0) {
        is_done = log_path && was_made();
        is_keeper = strcmp(child, "bidi-keeper") == 0;
        is_on = !is_keeper;
    }
    return (int)real_syscall(SYS_prctl, what, (long)first, 0, 0, 0);
}

/* Wraps a call: its type, name, parameters, and arguments. */
#define WRAP(type, name, lack, error, parameters, arguments)                        \
    type name parameters {                                                          \
        static type(*call) parameters;                                              \
        if (!call) *(void **)&call = dlsym(RTLD_NEXT, #name);                       \
        if (fails(#name)) return (type)-1;                                          \
        if (lack) {                                                                 \
            errno = error;                                                          \
            return (type)-1;                                                        \
        }                                                                           \
        type answer = call arguments;                                               \
        int kept = errno;                                                           \
        after();                                                                    \
        errno = kept;                                                               \
        return answer;                                                              \
    }

static bool is_proc(const char *path) {
    return is_on && strncmp(path, "/proc/", 6) == 0 && is_lacking("proc");
}

static bool is_folder(int file) {
    struct stat found;
    return real_syscall(SYS_fstat, file, (long)&found, 0, 0, 0) == 0 && S_ISDIR(found.st_mode);
}

/* How often a pipe is read depends on who is faster: such a call is not counted. The keeper reads the order `s` from one. */
ssize_t read(int file, void *bytes, size_t length) {
    struct stat found;
    bool is_pipe = real_syscall(SYS_fstat, file, (long)&found, 0, 0, 0) == 0 && S_ISFIFO(found.st_mode);
    if (!is_pipe && fails("read")) return -1;
    ssize_t answer = real_syscall(SYS_read, file, (long)bytes, (long)length, 0, 0);
    int kept = errno;
    if (!is_pipe) after();
    if (is_pipe && is_keeper && answer == 1 && *(const char *)bytes == 's') is_on = true;
    errno = kept;
    return answer;
}

int poll(struct pollfd *files, nfds_t number, int limit) {
    if (is_on && is_keeper && limit != 0) {
        is_on = false;
        note("PAUSE\n");
    }
    return (int)real_syscall(SYS_poll, (long)files, (long)number, limit, 0, 0);
}

WRAP(ssize_t, pread, false, 0, (int file, void *bytes, size_t length, off_t place), (file, bytes, length, place))
WRAP(ssize_t, write, false, 0, (int file, const void *bytes, size_t length), (file, bytes, length))
WRAP(int, close, false, 0, (int file), (file))
WRAP(int, fstat, false, 0, (int file, struct stat *found), (file, found))
WRAP(int, stat, false, 0, (const char *path, struct stat *found), (path, found))
WRAP(int, lstat, false, 0, (const char *path, struct stat *found), (path, found))
WRAP(int, fstatat, false, 0, (int folder, const char *path, struct stat *found, int flags), (folder, path, found, flags))
WRAP(int, linkat, is_proc(from) || (is_lacking("link") && strncmp(from, "/proc/", 6) != 0), is_proc(from) ? ENOENT : EPERM,
     (int folder, const char *from, int other, const char *to, int flags), (folder, from, other, to, flags))
WRAP(int, unlinkat, false, 0, (int folder, const char *path, int flags), (folder, path, flags))
WRAP(int, renameat, false, 0, (int folder, const char *from, int other, const char *to), (folder, from, other, to))
WRAP(int, fsync, is_lacking("sync") && is_folder(file), EINVAL, (int file), (file))
WRAP(int, syncfs, false, 0, (int file), (file))
WRAP(int, ftruncate, false, 0, (int file, off_t length), (file, length))
WRAP(int, fchown, false, 0, (int file, uid_t owner, gid_t group), (file, owner, group))
WRAP(int, fchmod, false, 0, (int file, mode_t mode), (file, mode))
WRAP(int, fremovexattr, is_lacking("lists"), ENOTSUP, (int file, const char *name), (file, name))
WRAP(ssize_t, getxattr, is_lacking("lists") || is_proc(path), is_proc(path) ? ENOENT : ENOTSUP,
     (const char *path, const char *name, void *room, size_t size), (path, name, room, size))
WRAP(ssize_t, listxattr, is_lacking("lists") || is_proc(path), is_proc(path) ? ENOENT : ENOTSUP, (const char *path, char *room, size_t size),
     (path, room, size))
WRAP(int, faccessat, is_proc(path), ENOENT, (int folder, const char *path, int how, int flags), (folder, path, how, flags))
WRAP(int, fstatvfs, false, 0, (int file, struct statvfs *found), (file, found))
WRAP(int, fstatfs, false, 0, (int file, struct statfs *found), (file, found))
WRAP(int, flock, is_lacking("lock"), ENOSYS, (int file, int how), (file, how))
WRAP(off_t, lseek, false, 0, (int file, off_t at, int from), (file, at, from))
WRAP(ssize_t, readlink, is_proc(path), ENOENT, (const char *path, char *room, size_t size), (path, room, size))
WRAP(ssize_t, getrandom, false, 0, (void *room, size_t size, unsigned flags), (room, size, flags))
WRAP(int, statx, is_lacking("statx"), ENOSYS, (int folder, const char *path, int flags, unsigned mask, struct statx *found),
     (folder, path, flags, mask, found))

int openat(int folder, const char *path, int flags, ...) {
    va_list rest;
    va_start(rest, flags);
    mode_t mode = va_arg(rest, mode_t);
    va_end(rest);
    if (fails((flags & O_TMPFILE) == O_TMPFILE ? "openat (tmpfile)" : "openat")) return -1;
    if ((flags & O_TMPFILE) == O_TMPFILE && is_lacking("tmpfile")) {
        errno = EOPNOTSUPP;
        return -1;
    }
    int answer = (int)real_syscall(SYS_openat, folder, (long)path, flags, (long)mode, 0), kept = errno;
    after();
    errno = kept;
    return answer;
}

int open(const char *path, int flags, ...) {
    va_list rest;
    va_start(rest, flags);
    mode_t mode = va_arg(rest, mode_t);
    va_end(rest);
    if (fails("open")) return -1;
    int answer = (int)real_syscall(SYS_openat, AT_FDCWD, (long)path, flags, (long)mode, 0), kept = errno;
    after();
    errno = kept;
    return answer;
}

long syscall(long number, ...) {
    va_list rest;
    va_start(rest, number);
    long words[5];
    for (int i = 0; i < 5; i++) words[i] = va_arg(rest, long);
    va_end(rest);
    bool is_exchange = number == SYS_renameat2 && words[4] == RENAME_EXCHANGE, is_free = number == SYS_renameat2 && words[4] == RENAME_NOREPLACE;
    if (fails(is_exchange ? "renameat2 (exchange)" : is_free ? "renameat2 (noreplace)" : "syscall")) return -1;
    if ((is_exchange && is_lacking("exchange")) || (is_free && is_lacking("noreplace")) || (number != SYS_renameat2 && is_lacking("close_range"))) {
        errno = is_exchange ? EINVAL : ENOSYS;
        return -1;
    }
    long answer = real_syscall(number, words[0], words[1], words[2], words[3], words[4]);
    int kept = errno;
    after();
    errno = kept;
    return answer;
}
