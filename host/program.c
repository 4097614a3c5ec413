/* The program as a child of the host: its pipes, its arguments, its start, and what it says. run.c starts it in the terminal, ending.c
 * without one. run.h says what each call promises. */
#include "run.h"

#include <errno.h>
#include <fcntl.h>
#include <signal.h>
#include <stdio.h>
#include <string.h>
#include <sys/prctl.h>
#include <sys/stat.h>
#include <unistd.h>

#include "say.h"
#include "signals.h"
#include "terminal.h"
#include "util.h"

/* The most bytes that wait in the program's input: few, since the program obeys all of them before it ends. */
enum { INPUT_ROOM = 16384 };
/* Milliseconds that standard error may take to accept the program's text outside frames, without and with a signal. */
enum { FOREIGN_MS = 1000, FOREIGN_BY_SIGNAL_MS = 200 };

void close_pipes(struct pipes *pipes) {
    close_one(&pipes->keys);
    close_one(&pipes->frames);
    close_one(&pipes->requests);
    close_one(&pipes->answers);
}

/* Opens a pipe. O_CLOEXEC: the program gets only the ends that are handed on. */
static bool open_pipe(int *reading, int *writing) {
    int ends[2];
    if (pipe2(ends, O_CLOEXEC) != 0) return false;
    *reading = ends[0];
    *writing = ends[1];
    return true;
}

bool open_pipes(struct pipes *pipes, struct pipes *ends) {
    *pipes = *ends = (struct pipes){-1, -1, -1, -1};
    bool is_open = open_pipe(&pipes->frames, &ends->frames) && open_pipe(&ends->keys, &pipes->keys) && open_pipe(&pipes->requests, &ends->requests) &&
                   open_pipe(&ends->answers, &pipes->answers) && fcntl(pipes->frames, F_SETFL, O_NONBLOCK) == 0 &&
                   fcntl(pipes->keys, F_SETFL, O_NONBLOCK) == 0;
    /* if this fails, a larger pipe does as well */
    if (is_open) fcntl(pipes->keys, F_SETPIPE_SZ, INPUT_ROOM);
    return is_open;
}

const char *handed_path(struct run *run, int file) {
    run->handed[run->handed_count++] = file;
    return text_of("%s", link_of(file).path);
}

void make_arguments(struct arguments *arguments, const struct run *run, const struct pipes *ends, unsigned rows, unsigned columns) {
    add_argument(arguments, run->program);
    add_argument(arguments, "--frames");
    add_option(arguments, "--saves", text_of("%d,%d", ends->requests, ends->answers));
    add_option(arguments, "--before", first_sequences());
    add_option(arguments, "--rows", text_of("%u", rows));
    add_option(arguments, "--cols", text_of("%u", columns));
    add_option(arguments, "--erase", text_of("%02x", (unsigned)erase_character()));
    if (run->has_clipboard && bears_clips()) add_argument(arguments, "--clipboard");
    for (char *const *word = run->arguments; *word; word++) add_argument(arguments, *word);
}

/* Becomes the program: the last step of both ways to start it, with standard files and the open files that its command line names. It ignores
 * SIGXFSZ, so that a write beyond the limit of a file's size fails and does not kill it. A fault goes to the pipe of standard error, and
 * the host shows it at its end (tell_foreign). */
static _Noreturn void become(const struct run *run, char *const *arguments, const int standard[3]) {
    for (int number = 0; number < 3; number++)
        if (dup2(standard[number], number) < 0) _exit(126);
    for (size_t i = 0; i < run->handed_count; i++)
        if (run->handed[i] >= 0) fcntl(run->handed[i], F_SETFD, 0);
    umask(umask(0) | (mode_t)run->mask);
    give_back_signals();
    signal(SIGXFSZ, SIG_IGN);
    execv(arguments[0], arguments);
    dprintf(STDERR_FILENO, "bidi-edit: %s cannot be started: %s\n", arguments[0], strerror(errno));
    _exit(127);
}

pid_t start_program(const struct run *run, const struct pipes *ends, const struct arguments *arguments) {
    pid_t program = fork();
    if (program != 0) return program;
    /* it ends at its input's end; the host manages stops of the job */
    signal(SIGHUP, SIG_IGN);
    signal(SIGTSTP, SIG_IGN);
    watched->program = getpid();
    fcntl(ends->requests, F_SETFD, 0);
    fcntl(ends->answers, F_SETFD, 0);
    become(run, arguments->arguments, (const int[]){ends->keys, terminal_screen, ends->frames});
}

/* Takes in one frame of the program. `whose` is the struct run. */
static void hear_frame(const struct frame *frame, void *whose) {
    struct run *run = whose;
    struct said *said = &run->said;
    const char *text = (const char *)frame->bytes;
    switch (frame->letter) {
    case FRAME_OPENED:
        said->is_opened = true;
        if (run->on_opened) run->on_opened(run->whose);
        break;
    case FRAME_JOURNAL:
        if (run->on_journal) run->on_journal(run->whose, strcmp(text, "kept") == 0);
        break;
    case FRAME_FAULT: snprintf(said->fault, sizeof said->fault, "%s", text); break;
    case FRAME_REPLAYED: snprintf(said->replayed, sizeof said->replayed, "%s", text); break;
    case FRAME_END: said->end = end_frame_of(text); break;
    default: break;
    }
}

bool read_frames_of(struct run *run, struct frame_reader *reader, int frames) {
    unsigned char bytes[4096];
    ssize_t count = 0;
    while ((count = read(frames, bytes, sizeof bytes)) > 0) take_frames(reader, bytes, (size_t)count, hear_frame, run);
    if (count < 0 && (errno == EAGAIN || errno == EINTR)) return true;
    end_frames(reader);
    return false;
}

void tell_foreign(const struct frame_reader *reader) {
    char letters[FOREIGN_MOST + 1];
    size_t count = 0;
    for (; count < reader->foreign_length; count++) {
        char letter = reader->foreign[count];
        bool is_control = (unsigned char)letter < ' ' || letter == 127;
        letters[count] = '?';
        if (!is_control || letter == '\n') letters[count] = letter;
    }
    if (count > 0 && letters[count - 1] != '\n') letters[count++] = '\n';
    write_within(STDERR_FILENO, letters, count, end_signal ? FOREIGN_BY_SIGNAL_MS : FOREIGN_MS, true);
}

int run_aside(struct run *run, char *const *arguments, int64_t limit) {
    int reading = -1, writing = -1, status = 0, none = open("/dev/null", O_RDWR | O_CLOEXEC);
    int64_t end = limit == 0 ? 0 : now() + limit;
    pid_t host = getpid();
    struct frame_reader reader = {.length = 0};
    run->said = (struct said){.end = END_NONE};
    if (none < 0 || !open_pipe(&reading, &writing)) return -1;
    pid_t child = fcntl(reading, F_SETFL, O_NONBLOCK) == 0 ? fork() : -1;
    if (child == 0) {
        /* the kernel kills it when the host dies */
        if (prctl(PR_SET_PDEATHSIG, SIGKILL) != 0 || getppid() != host) _exit(1);
        become(run, arguments, (const int[]){none, none, writing});
    }
    close(writing);
    close(none);
    while (child > 0 && read_frames_of(run, &reader, reading)) {
        int64_t last = last_moment();
        if (end == 0 || (last != 0 && last < end)) end = last;
        if (end != 0 && now() >= end) break;
        wait_for(&(struct pollfd){.fd = reading, .events = POLLIN}, 1, end);
    }
    tell_foreign(&reader);
    close(reading);
    bool is_ended = child > 0 && wait_for_child(&child, &status, end);
    kill_child(&child);
    return is_ended ? shell_status(status) : -1;
}
