/* Lets each call of the system fail in turn while a session begins, is filled, goes on, and is removed. What is said has
 * to be so: a session that counts as kept is found whole by a later start; one that is removed is not found; one that is not removed is
 * whole; and no text is ever another one. Linked with --wrap for each of these calls. Prints `N passed, M failed`. */
#include <errno.h>
#include <fcntl.h>
#include <stdarg.h>
#include <stdio.h>
#include <stdlib.h>
#include <string.h>
#include <sys/mman.h>
#include <sys/stat.h>
#include <sys/wait.h>
#include <unistd.h>

#include "../../host/save.h"
#include "../../host/session.h"
#include "../../host/util.h"

enum { TEXT_SIZE = 4 };

/* The calls so far, of this process and its children; the one that fails, and how; whether calls are counted. */
static struct counter {
    long count, fails_at;
    int error;
    bool is_on;
    char name[32];
} *counter;

/* Counts a call of the system, and tells whether it is the one that fails. Then errno is set. */
static bool fails(const char *name) {
    if (!counter || !counter->is_on || __sync_add_and_fetch(&counter->count, 1) != counter->fails_at) return false;
    snprintf(counter->name, sizeof counter->name, "%s", name);
    errno = counter->error;
    return true;
}

#define WRAP(type, name, failed, types, names) \
    type __real_##name types;                  \
    type __wrap_##name types;                  \
    type __wrap_##name types { return fails(#name) ? (failed) : __real_##name names; }

WRAP(int, mkdirat, -1, (int folder, const char *name, mode_t mode), (folder, name, mode))
WRAP(int, mkdir, -1, (const char *name, mode_t mode), (name, mode))
WRAP(int, unlinkat, -1, (int folder, const char *name, int flags), (folder, name, flags))
WRAP(int, renameat, -1, (int from, const char *name, int to, const char *new_name), (from, name, to, new_name))
WRAP(int, linkat, -1, (int from, const char *name, int to, const char *new_name, int flags), (from, name, to, new_name, flags))
WRAP(ssize_t, write, -1, (int file, const void *bytes, size_t size), (file, bytes, size))
WRAP(ssize_t, read, -1, (int file, void *bytes, size_t size), (file, bytes, size))
WRAP(ssize_t, pread, -1, (int file, void *bytes, size_t size, off_t place), (file, bytes, size, place))
WRAP(int, fsync, -1, (int file), (file))
WRAP(int, ftruncate, -1, (int file, off_t size), (file, size))
WRAP(off_t, lseek, -1, (int file, off_t place, int from), (file, place, from))
WRAP(int, flock, -1, (int file, int how), (file, how))
WRAP(pid_t, fork, -1, (void), ())
WRAP(int, pipe2, -1, (int *ends, int flags), (ends, flags))
WRAP(int, memfd_create, -1, (const char *name, unsigned flags), (name, flags))
WRAP(ssize_t, getrandom, -1, (void *bytes, size_t size, unsigned flags), (bytes, size, flags))
WRAP(void *, malloc, NULL, (size_t size), (size))
WRAP(int, fstat, -1, (int file, struct stat *found), (file, found))
WRAP(int, fstatat, -1, (int folder, const char *name, struct stat *found, int flags), (folder, name, found, flags))
WRAP(int, stat, -1, (const char *name, struct stat *found), (name, found))
WRAP(int, lstat, -1, (const char *name, struct stat *found), (name, found))

int __real_openat(int folder, const char *name, int flags, ...);
int __wrap_openat(int folder, const char *name, int flags, ...);
int __wrap_openat(int folder, const char *name, int flags, ...) {
    va_list more;
    va_start(more, flags);
    mode_t mode = (flags & O_CREAT) ? va_arg(more, mode_t) : 0;
    va_end(more);
    return fails("openat") ? -1 : __real_openat(folder, name, flags, mode);
}

int __real_fcntl(int file, int command, ...);
int __wrap_fcntl(int file, int command, ...);
int __wrap_fcntl(int file, int command, ...) {
    va_list more;
    va_start(more, command);
    int value = va_arg(more, int);
    va_end(more);
    return fails("fcntl") ? -1 : __real_fcntl(file, command, value);
}

/* ---- a session's life, with one fault */

static char top[PATH_MAX];
static const char *fault;

/* Ends the process of this point; the message tells where. */
static void require(bool is_right, const char *what) {
    if (is_right) return;
    counter->is_on = false;
    printf("failed: %s, where call %ld (%s) fails by %s\n", what, counter->fails_at, counter->name, strerror(counter->error));
    fflush(stdout);
    _exit(1);
}

/* Appends keys to the journal, as the program does; without a fault. */
static void type_keys(const struct session *session, const char *keys) {
    counter->is_on = false;
    require(write_bytes(session->journal, keys, strlen(keys)) == 0, "keys");
    counter->is_on = true;
}

/* Minds the session until nothing is due. */
static enum keeping mind(struct session *session) {
    enum keeping keeping = session_mind(session);
    for (int tries = 0; tries < 10; tries++) keeping = session_mind(session);
    return keeping;
}

/* Whether a file of the session has this text, or begins with it. */
static bool has_text(const struct session *session, const char *name, const char *text) {
    const char *found = read_short(session->folder, name, NULL);
    return found && strncmp(found, text, strlen(text)) == 0;
}

/* FILE `note` in the top folder, and the place of its sessions: without a fault, since it would be another place. */
static void find_file(struct sessions *sessions, struct target *target, char path[PATH_MAX]) {
    int folder = open(top, O_PATH | O_CLOEXEC);
    snprintf(path, PATH_MAX, "%.*s/note", PATH_MAX - 8, top);
    sessions_find(sessions);
    target_look(target, path, folder, "note");
}

/* Begins a session of FILE as the host does. */
static bool begin(struct session *session, const struct sessions *sessions, const struct target *target) {
    int file = open(target->path, O_RDONLY | O_CLOEXEC);
    static struct about about;
    about_clear(&about);
    put_path(about.path, "%s", target->path);
    about.has_begin = about.has_process = true;
    about.begin = (struct begin){.rows = 24, .cols = 80, .direction = "auto"};
    about.process = *this_process();
    enum cause cause = session_begin(session, sessions, &about, file);
    close(file);
    return cause == CAUSE_NONE;
}

/* What a later start finds; without a fault. */
static void find_later(struct found *found, struct sessions *sessions, struct target *target, char path[PATH_MAX]) {
    counter->is_on = false;
    find_file(sessions, target, path);
    sessions_of(found, sessions, target);
}

/* A session begins, is filled, is typed into, and ends. What is said of it must be so. */
static void live_and_end(void) {
    struct sessions sessions;
    struct session session;
    struct target target;
    struct found found;
    char path[PATH_MAX];
    bool is_kept = false;
    find_file(&sessions, &target, path);
    session_clear(&session);
    counter->is_on = true;
    if (sessions_make(&sessions) && begin(&session, &sessions, &target)) {
        char opened[8] = "";
        counter->is_on = false;
        require(session.source >= 0 && pread(session.source, opened, sizeof opened, 0) == TEXT_SIZE && strcmp(opened, "text") == 0, "what is opened");
        type_keys(&session, "ab");
        mind(&session);
        type_keys(&session, "c");
        enum keeping keeping = mind(&session);
        is_kept = session_complete(&session, true);
        require(is_kept || keeping != KEEPS || counter->count >= counter->fails_at, "a session that is kept is so at the end");
    }
    session_close(&session);
    sessions_close(&sessions);
    find_later(&found, &sessions, &target, path);
    if (is_kept) {
        require(!session_is_none(&found.unfinished), "a kept session is found");
        require(has_text(&found.unfinished, JOURNAL_NAME, "abc"), "the keys of a kept session");
        require(found.unfinished.about.has_begin && !session_damage(&found.unfinished), "the facts of a kept session");
    }
    if (!session_is_none(&found.unfinished) && found.unfinished.about.has_text)
        require(has_text(&found.unfinished, TEXT_NAME, "text"), "the text of a session that is found");
    found_close(&found);
    sessions_close(&sessions);
}

/* Takes a session over that was left, and removes it. */
static void go_on_and_remove(void) {
    struct sessions sessions;
    struct session session;
    struct target target;
    struct found found;
    char path[PATH_MAX];
    find_file(&sessions, &target, path);
    session_clear(&session);
    counter->is_on = true;
    sessions_of(&found, &sessions, &target);
    session_move(&session, &found.unfinished);
    found_close(&found);
    bool is_removed = false;
    if (!session_is_none(&session) && session_lock(&session) == LOCK_TAKEN) {
        session_go_on(&session, NULL, true);
        session_resume(&session, 24, 80);
        mind(&session);
        is_removed = session_remove(&session) == CAUSE_NONE;
    }
    session_close(&session);
    sessions_close(&sessions);
    find_later(&found, &sessions, &target, path);
    require(session_is_none(&found.unfinished) == is_removed, "a session is removed, or found");
    if (!is_removed) {
        require(has_text(&found.unfinished, JOURNAL_NAME, "abc"), "the keys of a session that is not removed");
        require(has_text(&found.unfinished, TEXT_NAME, "text"), "the text of a session that is not removed");
        require(!session_damage(&found.unfinished), "the sums of a session that is not removed");
    }
    found_close(&found);
    sessions_close(&sessions);
}

/* Runs a command of the shell in the top folder. */
static void run(const char *command) {
    char line[2 * PATH_MAX];
    snprintf(line, sizeof line, "cd '%s' && %s", top, command);
    if (system(line) != 0) printf("not done: %s\n", command);
}

/* Runs a life in a process of its own. Returns whether all was right; `is_reached`, whether there is a call of this number. */
static bool try_point(void (*life)(void), long fails_at, int error, bool *is_reached) {
    int status;
    *counter = (struct counter){.fails_at = fails_at, .error = error};
    fflush(stdout);
    pid_t child = fork();
    if (child == 0) {
        life();
        fflush(stdout);
        _exit(0);
    }
    waitpid(child, &status, 0);
    *is_reached = counter->name[0] != '\0';
    if (!WIFEXITED(status)) printf("failed: %s crashed, where call %ld (%s) fails\n", fault, fails_at, counter->name);
    return WIFEXITED(status) && WEXITSTATUS(status) == 0;
}

/* FILE as at first, and no session. */
static void leave_nothing(void) {
    run("rm -rf state && printf text >note");
}

/* A session that was left, without a fault. */
static void leave_session(void) {
    bool is_reached;
    leave_nothing();
    if (!try_point(live_and_end, 0, 0, &is_reached)) abort();
}

/* Lets each call of a life fail in turn, as often as there are calls. Adds those that were right and those that were wrong. */
static void try_all(void (*life)(void), void (*prepare)(void), int error, int counts[2]) {
    bool is_reached = true;
    for (long at = 1; is_reached; at++) {
        prepare();
        counts[!try_point(life, at, error, &is_reached)]++;
    }
}

int main(void) {
    static const int errors[] = {ENOSPC, EIO};
    int counts[2] = {0};
    counter = mmap(NULL, sizeof *counter, PROT_READ | PROT_WRITE, MAP_SHARED | MAP_ANONYMOUS, -1, 0);
    if (counter == MAP_FAILED || !getcwd(top, sizeof top)) abort();
    size_t length = strlen(top);
    snprintf(top + length, sizeof top - length, "/points.XXXXXX");
    if (!mkdtemp(top)) abort();
    char state[PATH_MAX + 8];
    snprintf(state, sizeof state, "%s/state", top);
    setenv("XDG_STATE_HOME", state, 1);
    for (size_t at = 0; at < sizeof errors / sizeof *errors; at++) {
        fault = "a session's life";
        try_all(live_and_end, leave_nothing, errors[at], counts);
        fault = "a session that goes on";
        try_all(go_on_and_remove, leave_session, errors[at], counts);
    }
    run("rm -rf state note");
    rmdir(top);
    printf("%d passed, %d failed\n", counts[0], counts[1]);
    return counts[1] > 0;
}
