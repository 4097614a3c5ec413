/* Small functions for all of the host: descriptors, paths, copies of files, locks. util.h says what each one promises. */
#include "util.h"

#include <errno.h>
#include <fcntl.h>
#include <poll.h>
#include <stdarg.h>
#include <stdio.h>
#include <stdlib.h>
#include <string.h>
#include <sys/file.h>
#include <sys/ioctl.h>
#include <sys/random.h>
#include <sys/stat.h>
#include <sys/syscall.h>
#include <unistd.h>

/* PIECE: bytes that are read or copied at a time. MOST_FILES: numbers of files that are closed one by one where the system cannot
 * close all of them at once. MOST_LETTERS: of a random name. */
enum { PIECE = 65536, LARGEST_COPY = 1 << 30, MOST_FILES = 1024, MOST_LETTERS = 16 };

void close_one(int *file) {
    if (*file >= 0) close(*file);
    *file = -1;
}

/* Closes all descriptors from one to another. On an old system, only those below MOST_FILES. */
static void close_range_of(unsigned first, unsigned last) {
    if (first > last) return;
#ifdef SYS_close_range
    if (syscall(SYS_close_range, first, last, 0) == 0) return;
#endif
    for (unsigned file = first; file <= last && file < MOST_FILES; file++) close((int)file);
}

void close_others(const int *kept, size_t count) {
    unsigned from = STDERR_FILENO + 1;
    int nothing = open("/dev/null", O_RDWR | O_CLOEXEC);
    for (int number = STDIN_FILENO; nothing >= 0 && number <= STDERR_FILENO; number++) dup2(nothing, number);
    for (;;) {
        unsigned next = INT_MAX;
        for (size_t at = 0; at < count; at++)
            if (kept[at] >= 0 && (unsigned)kept[at] >= from && (unsigned)kept[at] < next) next = (unsigned)kept[at];
        close_range_of(from, next - 1);
        if (next == INT_MAX) return;
        from = next + 1;
    }
}

int open_folder(int above, const char *path) {
    return openat(above, path, O_PATH | O_DIRECTORY | O_CLOEXEC);
}

int open_itself(int folder, const char *name) {
    return openat(folder, name, O_PATH | O_NOFOLLOW | O_CLOEXEC);
}

bool is_folder(const char *path) {
    struct stat look;
    return stat(path, &look) == 0 && S_ISDIR(look.st_mode);
}

struct link link_of(int file) {
    struct link link;
    snprintf(link.path, sizeof link.path, "/proc/self/fd/%d", file);
    return link;
}

bool put_path(char path[PATH_MAX], const char *format, ...) {
    va_list words;
    va_start(words, format);
    int length = vsnprintf(path, PATH_MAX, format, words);
    va_end(words);
    if (length >= 0 && length < PATH_MAX) return true;
    path[0] = '\0';
    return false;
}

const char *before_slash(const char *folder) {
    return strcmp(folder, "/") == 0 ? "" : folder;
}

const char *variable(const char *name) {
    const char *value = getenv(name);
    return value && *value ? value : NULL;
}

int write_bytes(int file, const void *bytes, size_t size) {
    const char *rest = bytes;
    while (size > 0) {
        ssize_t count = write(file, rest, size);
        if (count < 0 && errno == EINTR) continue;
        if (count <= 0) return count < 0 ? errno : EIO;
        rest += count;
        size -= (size_t)count;
    }
    return 0;
}

ssize_t read_all(int file, char *bytes, size_t room) {
    size_t length = 0;
    for (ssize_t count = 1; count > 0 && length < room; length += (size_t)count) {
        count = read(file, bytes + length, room - length);
        if (count < 0) return -1;
    }
    return (ssize_t)length;
}

int read_pieces(int file, off_t place, void (*read)(void *, const char *, size_t), void *context) {
    static char piece[PIECE];
    for (;;) {
        ssize_t count = pread(file, piece, sizeof piece, place);
        if (count < 0 && errno == EINTR) continue;
        if (count <= 0) return count < 0 ? errno : 0;
        read(context, piece, (size_t)count);
        place += count;
    }
}

/* For read_pieces: appends to a file, whose first fault is kept. */
struct copying {
    int to, error;
};

static void copy_piece(void *context, const char *bytes, size_t size) {
    struct copying *copying = context;
    if (!copying->error) copying->error = write_bytes(copying->to, bytes, size);
}

int copy_file(int from, off_t place, int to) {
    enum { CLONE = 0x40049409 }; /* FICLONE: the blocks are shared where the disk can do that */
    ssize_t count;
    if (place == 0 && ioctl(to, CLONE, from) == 0) return 0;
    do {
        count = copy_file_range(from, &place, to, NULL, LARGEST_COPY, 0);
    } while (count > 0);
    /* a system that copies no further may still read */
    struct copying copying = {.to = to};
    int error = read_pieces(from, place, copy_piece, &copying);
    return error ? error : copying.error;
}

int part_open(int folder, const char *name, int flags) {
    return openat(folder, name, flags | O_NOFOLLOW | O_NONBLOCK | O_CLOEXEC, 0600);
}

char *read_short(int folder, const char *name, size_t *size) {
    static char bytes[MOST_SHORT + 1];
    int file = part_open(folder, name, O_RDONLY);
    ssize_t length = file < 0 ? -1 : read_all(file, bytes, MOST_SHORT);
    close_one(&file);
    if (length < 0 || length == MOST_SHORT) return NULL;
    bytes[length] = '\0';
    if (size) *size = (size_t)length;
    return bytes;
}

DIR *open_entries(int folder) {
    int again = openat(folder, ".", O_RDONLY | O_DIRECTORY | O_CLOEXEC);
    DIR *entries = again < 0 ? NULL : fdopendir(again);
    if (!entries) close_one(&again);
    return entries;
}

const char *next_entry(DIR *entries) {
    const struct dirent *entry;
    errno = 0;
    do {
        entry = readdir(entries);
    } while (entry && (strcmp(entry->d_name, ".") == 0 || strcmp(entry->d_name, "..") == 0));
    return entry ? entry->d_name : NULL;
}

char process_state(pid_t process) {
    char path[64], look[512];
    snprintf(path, sizeof path, "/proc/%ld/stat", (long)process);
    int file = open(path, O_RDONLY | O_CLOEXEC);
    ssize_t length = file < 0 ? 0 : read(file, look, sizeof look - 1);
    close_one(&file);
    look[length > 0 ? length : 0] = 0;
    /* after its name, which may have any letters */
    const char *at = strrchr(look, ')');
    return at && at[1] == ' ' && at[2] ? at[2] : 'Z';
}

bool is_unsupported(int error) {
    return error == ENOSYS || error == EINVAL || error == EOPNOTSUPP;
}

int lock_file(int file, int tries, int milliseconds) {
    for (; tries > 0; tries--) {
        if (flock(file, LOCK_EX | LOCK_NB) == 0) return 0;
        if (errno == EINTR) continue;
        if (errno != EWOULDBLOCK) return errno;
        poll(NULL, 0, milliseconds);
    }
    return EWOULDBLOCK;
}

int sync_file(int file) {
    return fsync(file) == 0 || is_unsupported(errno) ? 0 : errno;
}

bool make_letters(char *letters, size_t count, const char *alphabet) {
    unsigned char bytes[MOST_LETTERS];
    if (count > sizeof bytes || getrandom(bytes, count, 0) != (ssize_t)count) return false;
    for (size_t at = 0; at < count; at++) letters[at] = alphabet[bytes[at] % strlen(alphabet)];
    letters[count] = '\0';
    return true;
}
