/* Small functions for all of the host. Those that return `int` return 0 or an errno, unless their comment says otherwise. */
#ifndef UTIL_H
#define UTIL_H

#include <dirent.h>
#include <limits.h>
#include <stdbool.h>
#include <stddef.h>
#include <sys/types.h>

/* Closes a file, if it is open, and notes that it is not. */
void close_one(int *file);

/* In a child: closes all descriptors but these, and puts /dev/null in place of the standard ones. So nobody waits for the child to
 * close a pipe or terminal, and messages of the C library get into no file. */
void close_others(const int *kept, size_t count);

/* Opens a folder without reading it; opens what has a name, a link itself and not its target. Both by O_PATH; -1 at a fault. */
int open_folder(int above, const char *path);
int open_itself(int folder, const char *name);

bool is_folder(const char *path);

/* Opens a file of a folder, never following a link or waiting for a pipe. A new file is the user's alone. */
int part_open(int folder, const char *name, int flags);

/* A short file as a string, which the next call overwrites; NULL if it does not exist or cannot be read. `size` may be NULL. */
enum { MOST_SHORT = 65536 };
char *read_short(int folder, const char *name, size_t *size);

/* The path of an open file, for calls that take no O_PATH and for other programs. */
struct link {
    char path[32];
};
struct link link_of(int file);

/* Puts a path together; false, and an empty path, where it is too long. */
bool put_path(char path[PATH_MAX], const char *format, ...) __attribute__((format(printf, 2, 3)));

/* A folder's path to put before `/NAME`: empty for the root. */
const char *before_slash(const char *folder);

/* A variable of the environment; NULL where it is not set or empty. */
const char *variable(const char *name);

/* Writes all bytes at the file's position; copies all of a file from `place` on to the position of another file, as fast as the disk can: it may
 * share blocks. */
int write_bytes(int file, const void *bytes, size_t size);
int copy_file(int from, off_t place, int to);

/* Reads what an open file has from its position on, as far as there is room. Returns the number of bytes; -1 at a fault. */
ssize_t read_all(int file, char *bytes, size_t room);

/* Calls `read` with the bytes of an open file, piece by piece, from a place on. */
int read_pieces(int file, off_t place, void (*read)(void *, const char *, size_t), void *context);

/* Opens an open folder to list its names; NULL at a fault. The next name, without `.` and `..`; NULL after the last one, and at a
 * fault, which errno tells. */
DIR *open_entries(int folder);
const char *next_entry(DIR *entries);

/* The state of a process as the kernel names it: S or D is asleep, R at work, T stopped; Z if it has ended. */
char process_state(pid_t process);

/* Whether a call failed because the system or the file system does not have it. */
bool is_unsupported(int error);

/* Locks an open file. Tries so many times, and waits so long after each try. Returns 0, EWOULDBLOCK if another process had the lock all the
 * time, or an errno. */
int lock_file(int file, int tries, int milliseconds);

/* Syncs a file or folder to the disk. Where the file system has no such call, nothing fails. */
int sync_file(int file);

/* Makes a string of so many letters of an alphabet, chosen at random so that nobody can guess them. */
bool make_letters(char *letters, size_t count, const char *alphabet);

#endif
