/* The scene of sessions on a disk; sessions_scene.h says what each function does. */
#include "sessions_scene.h"

#include <fcntl.h>
#include <poll.h>
#include <stdarg.h>
#include <stdio.h>
#include <stdlib.h>
#include <string.h>
#include <sys/stat.h>
#include <sys/wait.h>
#include <unistd.h>

char top[PATH_MAX];
int passed, failed;

void check(bool is_right, const char *what) {
    if (is_right) {
        passed++;
        return;
    }
    failed++;
    printf("failed: %s\n", what);
}

void check_in_child(void (*checks)(void), const char *what) {
    int counts[2] = {0}, report[2];
    fflush(stdout);
    if (pipe(report) != 0) abort();
    pid_t child = fork();
    if (child == 0) {
        passed = failed = 0;
        checks();
        fflush(stdout);
        counts[0] = passed;
        counts[1] = failed;
        write_bytes(report[1], counts, sizeof counts);
        _exit(0);
    }
    close(report[1]);
    waitpid(child, NULL, 0);
    check(read(report[0], counts, sizeof counts) == (ssize_t)sizeof counts, what);
    close(report[0]);
    passed += counts[0];
    failed += counts[1];
}

void begin_scene(void) {
    if (!getcwd(top, sizeof top)) abort();
    size_t length = strlen(top);
    snprintf(top + length, sizeof top - length, "/sessions.XXXXXX");
    if (!mkdtemp(top)) abort();
    setenv("XDG_STATE_HOME", path_in("state"), 1);
    unsetenv("TMPDIR");
}

int end_scene(void) {
    if (rmdir(top) != 0) printf("not removed: %s\n", top);
    printf("%d passed, %d failed\n", passed, failed);
    return failed > 0;
}

/* ---- files */

char *path_in(const char *format, ...) {
    static char paths[8][PATH_MAX];
    static size_t next;
    char *path = paths[next++ % 8];
    size_t length = (size_t)snprintf(path, PATH_MAX, "%s/", top);
    va_list words;
    va_start(words, format);
    vsnprintf(path + length, PATH_MAX - length, format, words);
    va_end(words);
    return path;
}

void write_file(const char *path, const char *text, size_t size) {
    int file = open(path, O_WRONLY | O_CREAT | O_TRUNC | O_CLOEXEC, 0644);
    if (file < 0 || write_bytes(file, text, size) != 0) abort();
    close(file);
}

void write_text(const char *path, const char *text) {
    write_file(path, text, strlen(text));
}

const char *read_text(const char *path) {
    static char text[4096];
    int file = open(path, O_RDONLY | O_CLOEXEC);
    ssize_t length = file < 0 ? 0 : read(file, text, sizeof text - 1);
    if (file >= 0) close(file);
    text[length > 0 ? length : 0] = '\0';
    return text;
}

void make_old(const char *path) {
    struct timespec times[2];
    clock_gettime(CLOCK_REALTIME, &times[0]);
    times[0].tv_sec -= 10000;
    times[1] = times[0];
    utimensat(AT_FDCWD, path, times, AT_SYMLINK_NOFOLLOW);
}

bool is_there(const char *path) {
    struct stat found;
    return lstat(path, &found) == 0;
}

void run(const char *command) {
    char line[3 * PATH_MAX];
    snprintf(line, sizeof line, "cd '%s' && %s", top, command);
    if (system(line) != 0) printf("not done: %s\n", command);
}

void clear_top(void) {
    run("find . -mindepth 1 -maxdepth 1 -exec rm -rf {} +");
}

/* ---- sessions */

void make_sessions(struct sessions *sessions) {
    sessions_find(sessions);
    check(sessions_make(sessions), "the folder of sessions is made");
}

void look_at(struct target *target, const char *name) {
    static char paths[4][PATH_MAX];
    static size_t next;
    char *path = paths[next++ % 4];
    snprintf(path, PATH_MAX, "%s", path_in("%s", name));
    if (target->folder > 0) close(target->folder);
    char folder[PATH_MAX];
    snprintf(folder, sizeof folder, "%s", path);
    *strrchr(folder, '/') = '\0';
    target_look(target, path, open(folder, O_PATH | O_CLOEXEC), strrchr(path, '/') + 1);
}

enum cause begin(struct session *session, const struct sessions *sessions, const struct target *target) {
    static struct about about;
    int file = open(target->path, O_RDONLY | O_CLOEXEC);
    about_clear(&about);
    put_path(about.path, "%s", target->path);
    about.has_id = target->is_there;
    about.id = target->id;
    about.mode = 0644;
    about.has_begin = about.has_process = true;
    about.begin = (struct begin){.rows = 24, .cols = 80, .direction = "auto"};
    about.process = *this_process();
    snprintf(about.versions, sizeof about.versions, "bidi-edit 1");
    enum cause cause = session_begin(session, sessions, &about, file);
    if (file >= 0) close(file);
    return cause;
}

enum keeping mind(struct session *session) {
    enum keeping keeping = session_mind(session);
    for (int tries = 0; session_is_due(session) && tries < 10; tries++) keeping = session_mind(session);
    return keeping;
}

void fill(struct session *session) {
    check(mind(session) == KEEPS, "the session is filled");
}

void begin_filled(struct session *session, struct sessions *sessions, struct target *target, const char *keys) {
    write_text(path_in("note"), "text");
    make_sessions(sessions);
    look_at(target, "note");
    check(begin(session, sessions, target) == CAUSE_NONE, "the session begins");
    fill(session);
    check(write_bytes(session->journal, keys, strlen(keys)) == 0, "keys are journaled");
}

const char *part_text(const struct session *session, const char *name) {
    char path[PATH_MAX];
    session_path_of(session, name, path);
    return read_text(path);
}

const char *kinds(const struct sessions *sessions, const struct target *target) {
    static char letters[8];
    struct found found;
    sessions_of(&found, sessions, target);
    snprintf(letters, sizeof letters, "%s%s%s%s", session_is_none(&found.live) ? "" : "l", session_is_none(&found.elsewhere) ? "" : "e",
             session_is_none(&found.unfinished) ? "" : "u", session_is_none(&found.dropped) ? "" : "d");
    found_close(&found);
    return letters;
}

void check_kinds(const struct sessions *sessions, const struct target *target, const char *wanted, const char *what) {
    const char *found = kinds(sessions, target);
    if (strcmp(found, wanted) != 0) printf("%s: found \"%s\", wanted \"%s\"\n", what, found, wanted);
    check(strcmp(found, wanted) == 0, what);
}

void leave(struct session *session, struct sessions *sessions) {
    session_close(session);
    sessions_close(sessions);
    clear_top();
}
