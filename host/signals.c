/* Signals, the time, and calls with a time limit. A handler only sets flags, which the host reads where it waits. signals.h says what
 * each call promises. */
#include "signals.h"

#include <errno.h>
#include <fcntl.h>
#include <sys/stat.h>
#include <sys/wait.h>
#include <time.h>
#include <unistd.h>

#include "util.h"

/* A wait for a child looks for its end at least every LOOK_MS. WRITE_PIECE: a pipe that is ready takes so many bytes at once. WRITE_TRIES: how
 * often a write or wait that fails is tried. */
enum { LOOK_MS = 50, WRITE_PIECE = 4096, WRITE_TRIES = 3 };

volatile sig_atomic_t end_signal, is_resized, is_continued, is_stop_asked;
/* When it came. */
static volatile int64_t end_time;

/* The signals that were blocked when the host was started, and those that are blocked while it waits. */
static sigset_t first_mask, waiting_mask;
static bool was_pipe_ignored, was_size_ignored, is_stop_ignored;

/* Signals that ask the host to end. Others that end a process do so at once, and the watcher restores the terminal. */
static const int ending[] = {SIGHUP, SIGINT, SIGQUIT, SIGTERM, SIGUSR1, SIGUSR2};
static const int waking[] = {SIGWINCH, SIGCONT, SIGCHLD};
/* The signal that asks for a stop, before which the terminal is restored. */
static const int stopping[] = {SIGTSTP};

enum { ENDING = sizeof ending / sizeof *ending, WAKING = sizeof waking / sizeof *waking };

int64_t now(void) {
    struct timespec at = {0, 0};
    clock_gettime(CLOCK_MONOTONIC, &at);
    return (int64_t)at.tv_sec * 1000 + at.tv_nsec / 1000000;
}

void note_end_at(int number, int64_t time) {
    if (end_signal) return;
    end_signal = number;
    end_time = time;
}

void note_end(int number) {
    note_end_at(number, now());
}

/* The handlers only set flags, so that they may come at any moment. */
static void note_waking(int number) {
    if (number == SIGWINCH) is_resized = 1;
    if (number == SIGCONT) is_continued = 1;
    if (number == SIGTSTP) is_stop_asked = 1;
}

/* Has a signal handled by this function from now on. No call is begun again that it interrupts. Returns whether the caller of the host ignored it,
 * which stays so unless it only wakes the host. */
static bool handle(int number, void (*handler)(int)) {
    struct sigaction action = {.sa_handler = handler}, before;
    sigemptyset(&action.sa_mask);
    bool is_ignored = sigaction(number, &action, &before) == 0 && before.sa_handler == SIG_IGN;
    if (is_ignored && number != SIGCHLD && number != SIGCONT && number != SIGWINCH) sigaction(number, &before, NULL);
    return is_ignored;
}

/* Blocks signals except while the host waits (`waiting_mask`). */
static void block(const int *numbers, size_t count) {
    sigset_t mask;
    sigemptyset(&mask);
    for (size_t i = 0; i < count; i++) {
        sigaddset(&mask, numbers[i]);
        sigdelset(&waiting_mask, numbers[i]);
    }
    sigprocmask(SIG_BLOCK, &mask, NULL);
}

void set_first_signals(void) {
    static const int child[] = {SIGCHLD};
    sigprocmask(SIG_SETMASK, NULL, &first_mask);
    waiting_mask = first_mask;
    block(child, 1);
    handle(SIGCHLD, note_waking);
    /* a write to a pipe without a reader, or beyond a size limit, fails */
    was_pipe_ignored = signal(SIGPIPE, SIG_IGN) == SIG_IGN;
    was_size_ignored = signal(SIGXFSZ, SIG_IGN) == SIG_IGN;
}

void catch_signals(void) {
    block(ending, ENDING);
    block(waking, WAKING);
    for (size_t i = 0; i < ENDING; i++) handle(ending[i], note_end);
    for (size_t i = 0; i < WAKING; i++) handle(waking[i], note_waking);
    is_stop_ignored = handle(SIGTSTP, note_waking);
    if (!is_stop_ignored) block(stopping, 1);
}

void let_stops_in(void) {
    sigset_t mask;
    if (is_stop_ignored) return;
    signal(SIGTSTP, SIG_DFL);
    if (is_stop_asked) kill(getpid(), SIGTSTP);
    is_stop_asked = 0;
    sigemptyset(&mask);
    sigaddset(&mask, SIGTSTP);
    sigprocmask(SIG_UNBLOCK, &mask, NULL);
}

void stop_here(void) {
    is_stop_asked = 1;
    let_stops_in();
    block(stopping, 1);
    handle(SIGTSTP, note_waking);
}

void give_back_signals(void) {
    if (!was_pipe_ignored) signal(SIGPIPE, SIG_DFL);
    if (!was_size_ignored) signal(SIGXFSZ, SIG_DFL);
    sigprocmask(SIG_SETMASK, &first_mask, NULL);
}

_Noreturn void die_from(int number) {
    sigset_t mask;
    signal(number, SIG_DFL);
    sigemptyset(&mask);
    sigaddset(&mask, number);
    sigprocmask(SIG_UNBLOCK, &mask, NULL);
    kill(getpid(), number);
    _exit(128 + number);
}

int64_t last_moment(void) {
    return end_signal ? end_time + END_MS : 0;
}

int64_t within(int64_t limit) {
    int64_t left = last_moment() - now();
    if (!end_signal || left > limit) return limit;
    return left > LEAST_MS ? left : LEAST_MS;
}

int wait_for(struct pollfd *files, nfds_t count, int64_t end) {
    int64_t left = end - now();
    if (left < 0) left = 0;
    struct timespec limit = {.tv_sec = (time_t)(left / 1000), .tv_nsec = (long)(left % 1000) * 1000000};
    return ppoll(files, count, end == 0 ? NULL : &limit, &waiting_mask);
}

void listen_once(void) {
    /* 1 is a time in the past; 0 would wait forever */
    wait_for(NULL, 0, 1);
}

/* Opens a terminal or pipe once more, so that no write blocks; gives the file itself where that is not needed or fails. After su, the device
 * of the terminal is another user's, but not /dev/tty. */
static int without_blocking(int file) {
    struct stat look;
    if (fstat(file, &look) != 0 || (!S_ISCHR(look.st_mode) && !S_ISFIFO(look.st_mode)) || fcntl(file, F_GETFL) & O_NONBLOCK) return file;
    int again = open(link_of(file).path, O_WRONLY | O_NONBLOCK | O_NOCTTY | O_CLOEXEC);
    if (again < 0 && isatty(file)) again = open("/dev/tty", O_WRONLY | O_NONBLOCK | O_NOCTTY | O_CLOEXEC);
    return again < 0 ? file : again;
}

void write_within(int file, const char *text, size_t length, int64_t limit, bool is_last) {
    int64_t end = limit == 0 ? 0 : now() + (is_last ? within(limit) : limit);
    int to = without_blocking(file), tries = WRITE_TRIES;
    while (length > 0 && tries > 0 && (is_last || !end_signal)) {
        struct pollfd wanted = {.fd = to, .events = POLLOUT};
        int64_t left = end - now();
        /* the last writes handle no signals */
        int ready = is_last ? poll(&wanted, 1, left > 0 ? (int)left : 0) : wait_for(&wanted, 1, end);
        if (ready > 0 && wanted.revents & POLLNVAL) break;
        ssize_t count = ready > 0 ? write(to, text, length < WRITE_PIECE ? length : WRITE_PIECE) : 0;
        if (count > 0) text += count, length -= (size_t)count;
        if ((ready < 0 || count < 0) && errno != EINTR && errno != EAGAIN) tries--;
        if (count <= 0 && end != 0 && now() >= end) break;
    }
    if (to != file) close(to);
}

bool wait_for_child(pid_t *child, int *status, int64_t end) {
    for (;;) {
        if (*child > 0 && waitpid(*child, status, WNOHANG) == *child) *child = 0;
        int64_t start = now(), next = start + LOOK_MS;
        if (*child <= 0 || (end != 0 && start >= end)) return *child <= 0;
        /* the end of a child wakes the wait */
        wait_for(NULL, 0, end == 0 || next < end ? next : end);
    }
}

void kill_child(pid_t *child) {
    int status = 0;
    if (*child <= 0) return;
    /* what fails once is tried again, since nothing else ends the child */
    if (kill(*child, SIGKILL) != 0) kill(*child, SIGKILL);
    wait_for_child(child, &status, now() + DYING_MS);
}

int shell_status(int status) {
    return WIFSIGNALED(status) ? 128 + WTERMSIG(status) : WEXITSTATUS(status);
}
