/* The watcher: a child of the host that restores the terminal if the host is killed, and ends the program and its save. terminal.h says what
 * each call promises. */
#include <errno.h>
#include <fcntl.h>
#include <limits.h>
#include <poll.h>
#include <pthread.h>
#include <signal.h>
#include <stdio.h>
#include <string.h>
#include <sys/ioctl.h>
#include <sys/mman.h>
#include <sys/prctl.h>
#include <termios.h>
#include <unistd.h>

#include "signals.h"
#include "terminal.h"
#include "util.h"

/* Milliseconds. SAVE_MS: how long a save may go on after the host's death. TTY_RESTORE_MS: how long the terminal may take to accept what
 * restores it. WATCH_MS: between two looks at a process. */
enum { SAVE_MS = 4500, TTY_RESTORE_MS = 1000, WATCH_MS = 50 };

pid_t watcher;

/* The program's name in the command line, and a copy of it. */
static char *own_word, own_name[PATH_MAX];
static size_t own_room;

void note_own_argument(char *word) {
    own_word = word;
    own_room = word ? strnlen(word, sizeof own_name - 1) : 0;
    for (size_t i = 0; i < own_room; i++) own_name[i] = word[i];
}

/* Gives this process a name, also in its command line, within the room there. */
static void take_name(const char *name, const char *word) {
    size_t length = strlen(word);
    prctl(PR_SET_NAME, name);
    for (size_t i = 0; i < own_room; i++) own_word[i] = i < length ? word[i] : 0;
}

/* Reads and drops bytes until the end of a pipe. Returns whether that came before the time `end`. */
static bool ends_before(int file, int64_t end) {
    char bytes[512];
    while (now() < end) {
        struct pollfd wanted = {.fd = file, .events = POLLIN};
        if (poll(&wanted, 1, (int)(end - now())) <= 0) continue;
        ssize_t count = read(file, bytes, sizeof bytes);
        if (count == 0 || (count < 0 && errno != EAGAIN && errno != EINTR)) return true;
    }
    return false;
}

/* Whether the program has painted all that it will paint: it has read all of its input, painted before, and does not wait for a save. */
static bool has_painted_all(void) {
    char path[64];
    int unread = 0;
    if (!watched->has_read || watched->saver > 0) return false;
    snprintf(path, sizeof path, "/proc/%ld/fd/0", (long)watched->program);
    int input = open(path, O_RDONLY | O_NONBLOCK | O_CLOEXEC);
    if (input < 0) return watched->program == 0 || errno == ENOENT;
    bool is_read = ioctl(input, FIONREAD, &unread) == 0 && unread == 0;
    close(input);
    return is_read;
}

/* Restores the screen, and says the line. A shell that has taken the terminal meanwhile has asked for marked pastes, and keeps them. */
static void restore(bool is_left_to_shell) {
    restore_screen(TTY_RESTORE_MS, !is_left_to_shell);
    write_within(terminal_line, watched->line, strnlen(watched->line, sizeof watched->line), TTY_RESTORE_MS, true);
}

/* The watcher's life: waits for the host's end, then restores the terminal if the host did not, and ends the program and its save. A shell
 * shows its prompt at the same time: if no painting can follow, the screen is restored at once, so that the prompt mostly comes behind
 * that. */
static _Noreturn void watch(int frames, pid_t host) {
    /* the kernel releases a dead process's lock before it tells the parent; without a lock, this looks for the host again and again */
    if (pthread_mutex_lock(&watched->life) != EOWNERDEAD)
        while (getppid() == host) poll(NULL, 0, WATCH_MS);
    int64_t start = now();
    bool is_paste = watched->paste.is_under_way, is_changed = watched->is_changed, is_quiet = is_changed && !is_paste && has_painted_all();
    /* output is suspended, so that a shell stops at its prompt and reads none of the paste */
    if (is_changed && is_paste) tcflow(terminal_line, TCOOFF);
    if (is_changed) drain_paste(&watched->paste, PASTE_MS);
    bool is_ours = is_changed && is_raw();
    /* at once, since a shell sets its own settings now; if it has, they stay */
    if (is_ours) restore_settings();
    if (is_quiet) restore(!is_ours && has_other_settings());
    if (is_paste) tcflow(terminal_line, TCOON);
    if (!ends_before(frames, start + GRACE_MS) && watched->program > 0) kill(watched->program, SIGKILL);
    if (is_changed && !is_quiet) restore(has_other_settings());
    /* a save ends soon, since its pipe has ended with the program */
    while (watched->saver > 0 && now() < start + SAVE_MS && kill(watched->saver, 0) == 0) poll(NULL, 0, WATCH_MS);
    if (watched->saver > 0) kill(watched->saver, SIGKILL);
    _exit(0);
}

/* Makes the shared memory, with a lock that the host holds as long as it lives. */
static bool share(void) {
    pthread_mutexattr_t attributes;
    void *shared = mmap(NULL, sizeof *watched, PROT_READ | PROT_WRITE, MAP_SHARED | MAP_ANONYMOUS, -1, 0);
    if (shared == MAP_FAILED) return false;
    watched = shared;
    return pthread_mutexattr_init(&attributes) == 0 && pthread_mutexattr_setpshared(&attributes, PTHREAD_PROCESS_SHARED) == 0 &&
           pthread_mutexattr_setrobust(&attributes, PTHREAD_MUTEX_ROBUST) == 0 && pthread_mutex_init(&watched->life, &attributes) == 0 &&
           pthread_mutex_lock(&watched->life) == 0;
}

/* Becomes the watcher. It closes all descriptors that it does not need, since others may wait for the end of a pipe or for FILE to be closed. No
 * signal but SIGKILL can end it. */
static _Noreturn void become_watcher(int frames, const int held[2], pid_t host) {
    const int kept[] = {frames, terminal_line, held[0], held[1]};
    sigset_t mask;
    sigfillset(&mask);
    sigprocmask(SIG_SETMASK, &mask, NULL);
    setpgid(0, 0);
    /* a process without a controlling terminal is never stopped for being in the background */
    ioctl(terminal_line, TIOCNOTTY);
    close_others(kept, sizeof kept / sizeof *kept);
    watch(frames, host);
}

void put_last_line(const char *file) {
    snprintf(watched->line, sizeof watched->line, "bidi-edit was killed: bidi-edit --recover%s restores unsaved text\n", file);
}

/* Users kill processes by the host's name, so the watcher never has that name. */
bool start_watcher(int frames, const int held[2], const char *file) {
    static const char name[] = "bidi-watcher";
    char before[16];
    pid_t host = getpid();
    if (!share()) return false;
    if (file) put_last_line(file);
    prctl(PR_GET_NAME, before);
    take_name(name, name);
    watcher = fork();
    if (watcher == 0) become_watcher(frames, held, host);
    take_name(before, own_name);
    if (watcher < 0) watcher = 0;
    /* in a process group of its own before the terminal changes, so that a kill of the whole job spares it */
    return watcher > 0 && (setpgid(watcher, watcher) == 0 || errno == EACCES);
}

void end_watcher(void) {
    kill_child(&watcher);
}
