/* A run of the program in the terminal: the loop that waits for typed bytes, frames, saves and signals, and serves each without using a
 * disk. run.h says what each call promises. */
#include "run.h"

#include <errno.h>
#include <signal.h>
#include <stdio.h>
#include <string.h>
#include <sys/ioctl.h>
#include <sys/syscall.h>
#include <sys/wait.h>
#include <unistd.h>

#include "save.h"
#include "signals.h"
#include "terminal.h"
#include "util.h"

/* Milliseconds.
 * DEATH_MS: how long to wait for a killed program to end.
 * RESTORE_MS, RESTORE_BY_SIGNAL_MS: how long the terminal may take to accept what restores it; after a signal.
 * IDLE_MS: if nothing follows typed bytes for so long, a key is complete.
 * SILENCE_MS: a program that sends nothing for so long during a save waits for the host's answer.
 * HOLD_MS, LOOK_MS: how long to wait until the program is stopped, and how often to look.
 * STOP_MS: how long the terminal may take to be restored before the host stops.
 * LATE_MS: after so long without an answer from the program, the user is told what is waited for. */
enum {
    DEATH_MS = 1000,
    RESTORE_MS = 10000,
    RESTORE_BY_SIGNAL_MS = 1000,
    IDLE_MS = 50,
    SECOND_MS = 1000,
    SILENCE_MS = 1000,
    HOLD_MS = 200,
    STOP_MS = 1000,
    LATE_MS = 2000,
    LOOK_MS = 5
};

/* The byte of Ctrl-C. */
enum { CTRL_C = 3 };

/* The state of the run; there is only one. A process number is 0 if there is no such process. */
static struct {
    struct pipes pipes;
    pid_t program, saver;
    int program_status;
    struct frame_reader reader;
    /* How many bytes the program was given, and how many of them it has read. */
    size_t given, taken;
    /* The program is to be told the window's size; the terminal has hung up; what did not end in time was killed; bytes were typed
     * since the last call of was_typed. */
    bool is_size_owed, is_hung_up, is_killed, is_typed;
    /* The last row says what a program waits for that has read nothing for some time; the hint is shown; the message of a failed save is. */
    bool is_late, is_hinted, is_failure_shown;
    /* The notice that is to be given; is_noticed: there is one. */
    enum notice notice;
    bool is_noticed;
    /* Times, 0 for never. `idle`: when to send the idle frame. `second`: the next tick. `answered`: when the program last read something, or
     * had nothing to read. `dropped`: when a save whose child was killed is refused, the rest of it having been thrown away. `left`:
     * when a save that was given up is left even if its child does not end. `stop`: when the host stops. `end`: until when a program that is
     * to end may run. */
    int64_t idle, second, answered, dropped, left, stop, end;
} live = {.pipes = {-1, -1, -1, -1}};

int leave_run(void) {
    close_pipes(&live.pipes);
    return (int)syscall(SYS_pidfd_open, live.program, 0);
}

bool was_typed(void) {
    bool is_typed = live.is_typed;
    live.is_typed = false;
    return is_typed;
}

/* ---- the program */

/* A notice of nothing only makes the program try its journal again. */
void give_notice(enum notice notice) {
    if (notice != NOTICE_NONE || !live.is_noticed) live.notice = notice;
    live.is_noticed = true;
}

/* The bytes that the program was given and has not read. */
static size_t unread(void) {
    int waiting = 0;
    return live.pipes.keys >= 0 && ioctl(live.pipes.keys, FIONREAD, &waiting) == 0 ? (size_t)waiting : 0;
}

/* Reads the program's frames, and closes the pipe at its end. */
static void hear_frames(struct run *run) {
    if (live.pipes.frames >= 0 && !read_frames_of(run, &live.reader, live.pipes.frames)) close_one(&live.pipes.frames);
}

/* Closes the program's input, which asks it to end. From then on no size is owed to it, and no pause. */
static void close_input(void) {
    close_one(&live.pipes.keys);
    live.is_size_owed = false;
    live.idle = 0;
}

/* Whether the program's input has room for a frame. */
static bool has_room(void) {
    struct pollfd input = {.fd = live.pipes.keys, .events = POLLOUT};
    return live.pipes.keys >= 0 && poll(&input, 1, 0) > 0;
}

/* Whether the terminal is read now: not while the program's input is full, but always during an end, for which what is typed is dropped. */
static bool takes_typing(void) {
    return !live.is_hung_up && (live.end != 0 || has_room());
}

/* Gives the program a frame. Returns false if its input has no room. A program that reads no more gets no more. */
static bool give(enum frame_letter letter, const void *bytes, size_t length) {
    if (live.pipes.keys < 0) return false;
    bool is_given = write_frame(live.pipes.keys, letter, bytes, length);
    if (is_given) live.given += FRAME_HEAD + length;
    else if (errno != EAGAIN) close_input();
    return is_given;
}

/* Gives the program what is owed to it: that no byte follows those that were typed, the window's size, and a notice. Bytes that came while the
 * host was stopped still belong to what was typed before. The size waits until the terminal has taken what must precede the
 * repainting; a notice waits while the message of a failed save is shown. */
static void mind_owed(void) {
    struct pollfd wanted = {.fd = terminal_line, .events = POLLIN};
    struct size size;
    unsigned char number = (unsigned char)live.notice;
    if (live.idle != 0 && now() >= live.idle && takes_typing() && poll(&wanted, 1, 0) == 0 && give(FRAME_IDLE, NULL, 0)) live.idle = 0;
    if (live.is_size_owed && !is_showing() && measure(&size)) {
        const unsigned char bytes[] = {(unsigned char)(size.rows >> 8), (unsigned char)size.rows, (unsigned char)(size.columns >> 8),
                                       (unsigned char)size.columns};
        live.is_size_owed = !give(FRAME_SIZE, bytes, sizeof bytes);
    }
    if (live.is_noticed && !live.is_failure_shown) live.is_noticed = !give(FRAME_NOTICE, &number, 1);
}

/* What the program waits for that does not answer. */
static const char *cause_of_waiting(void) {
    if (live.saver > 0) return "still saving: the disk does not respond (^C gives up the save)";
    return strchr("SD", process_state(live.program)) ? "waiting for the disk that keeps unsaved text" : "the editor is at work";
}

/* Tells the user what is waited for, where the program reads nothing that it was given; once it does, it paints anew. Before its first
 * painting it has read nothing. It may also wait for the terminal, in the midst of a sequence. */
static void mind_answer(const struct run *run) {
    struct pollfd output = {.fd = terminal_line, .events = POLLOUT};
    size_t taken = live.given - unread();
    if (taken != live.taken || (taken == live.given && live.saver <= 0)) {
        live.taken = taken;
        live.answered = now();
        if (live.is_late) live.is_size_owed = true;
        live.is_late = false;
    }
    watched->has_read = taken > 0;
    if (run->hint && !live.is_hinted && taken > 0 && taken == live.given) {
        live.is_hinted = true;
        show_last_row(run->hint, run->hint_column, true);
    }
    if (live.is_late || live.end != 0 || taken == 0 || now() < live.answered + LATE_MS) return;
    if (poll(&output, 1, 0) <= 0 || output.revents != POLLOUT) return;
    live.is_late = true;
    show_last_row(cause_of_waiting(), 1, false);
}

/* ---- saves */

/* Tells what came of a save. The message of a failed one stays until a key is pressed. */
static void tell_save(struct run *run) {
    live.is_failure_shown = saver_cause(run->saver) != 0;
    if (run->on_saved) run->on_saved(run->whose);
}

/* Notes which children have ended. The end of a saver ends its save: it is answered, or if it was killed, the rest of it is dropped. */
static void reap(struct run *run) {
    int status = 0;
    if (live.program > 0 && waitpid(live.program, &live.program_status, WNOHANG) == live.program) live.program = watched->program = 0;
    if (live.saver > 0 && waitpid(live.saver, &status, WNOHANG) == live.saver) {
        live.saver = watched->saver = 0;
        if (saver_finish(run->saver)) tell_save(run);
        else live.dropped = now() + SILENCE_MS;
    }
    if (watcher > 0 && waitpid(watcher, &status, WNOHANG) == watcher) watcher = 0;
}

/* Starts a child for the save that the program begins. After a child that was killed or could not be made, it throws away what the program
 * still sends. */
static void mind_request(struct run *run) {
    char bytes[4096];
    int waiting = 0;
    /* without bytes this is the end of the program, not a request */
    if (ioctl(live.pipes.requests, FIONREAD, &waiting) != 0 || waiting == 0) {
        close_one(&live.pipes.requests);
        return;
    }
    pid_t child = live.dropped == 0 ? saver_start(run->saver, live.pipes.requests, live.pipes.answers) : 0;
    if (child > 0) live.saver = watched->saver = child;
    else if (child < 0 || read(live.pipes.requests, bytes, sizeof bytes) > 0) live.dropped = now() + SILENCE_MS;
}

/* Leaves a save that was given up and whose child is held by the kernel. Refuses a save without a child, once the program sends nothing
 * more. */
static void mind_dropped(struct run *run) {
    if (live.left != 0 && (live.saver == 0 || now() >= live.left)) {
        if (live.saver > 0) live.dropped = now() + SILENCE_MS;
        live.left = live.saver = watched->saver = 0;
    }
    if (live.dropped == 0 || now() < live.dropped) return;
    live.dropped = 0;
    saver_refuse(run->saver);
    tell_save(run);
}

/* ---- the terminal */

/* Obeys a Ctrl-C that is for the host: it ends a start that has not painted yet, and gives up a save that the user was told is waited for.
 * Returns whether the bytes are no keys for the program. */
static bool takes_ctrl_c(struct run *run, const unsigned char *bytes, size_t length) {
    if (!memchr(bytes, CTRL_C, length)) return false;
    /* it may have opened FILE just now */
    if (!run->said.is_opened) hear_frames(run);
    if (!run->said.is_opened) note_end(SIGINT);
    if (!live.is_late || live.saver <= 0 || end_signal) return false;
    kill(live.saver, SIGKILL);
    live.left = now() + DYING_MS;
    return true;
}

/* Reads the terminal. What is typed after the end is dropped. */
static void read_typing(struct run *run) {
    unsigned char bytes[FRAME_PIECE_MOST];
    ssize_t count = read(terminal_line, bytes, sizeof bytes);
    if (count == 0 || (count < 0 && errno != EAGAIN && errno != EINTR)) live.is_hung_up = true;
    if (count <= 0) return;
    follow_paste(&watched->paste, bytes, (size_t)count);
    /* a paste that goes on is waited for */
    if (live.stop != 0 && watched->paste.is_under_way) live.stop = now() + PASTE_MS;
    if (takes_ctrl_c(run, bytes, (size_t)count) || live.end != 0 || end_signal) return;
    give(FRAME_TYPED, bytes, (size_t)count);
    live.idle = now() + IDLE_MS;
    live.is_typed = true;
    if (live.is_hinted && run->hint) live.is_size_owed = true;
    run->hint = NULL;
    live.is_failure_shown = false;
}

/* Sets the terminal again after a stop, and owes the program a size then and after a resize, so that it paints anew. */
static void mind_terminal(void) {
    bool is_input = live.pipes.keys >= 0;
    if (is_input && is_continued) take_up_screen();
    if (is_input && (is_resized || is_continued)) live.is_size_owed = true;
    is_resized = is_continued = 0;
}

/* Stops the program once it has read and painted all, or after HOLD_MS: a shell continues the whole job at once, and the program must not
 * paint before the host has taken the screen again. */
static void hold_program(void) {
    siginfo_t info = {.si_pid = 0};
    int64_t end = now() + HOLD_MS;
    if (live.program <= 0) return;
    while ((unread() > 0 || process_state(live.program) != 'S') && now() < end) poll(NULL, 0, LOOK_MS);
    if (kill(live.program, SIGSTOP) != 0) return;
    for (end = now() + HOLD_MS; info.si_pid == 0 && now() < end;) {
        if (waitid(P_PID, (id_t)live.program, &info, WSTOPPED | WNOHANG) != 0) return;
        if (info.si_pid == 0) poll(NULL, 0, LOOK_MS);
    }
}

/* Stops the host if that was asked for, but lets a marked paste end first, so that no shell runs the rest of it. Others have the terminal
 * meanwhile. If the host is told to end then, it leaves the terminal to them. */
static void mind_stop(void) {
    if (is_stop_asked && live.stop == 0) live.stop = now() + PASTE_MS;
    if (live.stop == 0 || live.end != 0 || (watched->paste.is_under_way && now() < live.stop)) return;
    live.stop = 0;
    hold_program();
    leave_screen(STOP_MS);
    stop_here();
    listen_once();
    is_continued = 0;
    if (end_signal) live.is_hung_up = true;
    else enter_screen();
    live.is_size_owed = !end_signal && live.pipes.keys >= 0;
    if (live.program > 0) kill(live.program, SIGCONT);
}

/* ---- the loop */

/* Waits until something can be read or written, or until the time `end`, and does it. */
static void wait_once(struct run *run, int64_t end) {
    enum { FRAMES, REQUESTS, KEYS, LINE, FILES };
    bool is_saving = !run->saver || live.saver > 0, is_read = takes_typing();
    /* poll passes over a file of -1 */
    struct pollfd files[FILES] = {
        [FRAMES] = {.fd = live.pipes.frames, .events = POLLIN},
        [REQUESTS] = {.fd = is_saving ? -1 : live.pipes.requests, .events = POLLIN},
        [KEYS] = {.fd = is_read || has_room() ? -1 : live.pipes.keys, .events = POLLOUT},
        [LINE] = {.fd = is_read || is_showing() ? terminal_line : -1, .events = (short)((is_read ? POLLIN : 0) | (is_showing() ? POLLOUT : 0))},
    };
    if (wait_for(files, FILES, end) <= 0) return;
    if (files[FRAMES].revents) hear_frames(run);
    if (files[REQUESTS].revents) mind_request(run);
    if (files[LINE].revents && is_showing()) go_on_showing();
    if (files[LINE].revents & ~POLLOUT && takes_typing()) read_typing(run);
}

/* Does what is due each second. Any input makes the program try its journal again, so none is sent while it has some to read. */
static void mind_second(struct run *run) {
    if (now() < live.second) return;
    live.second = now() + SECOND_MS;
    if (run->on_second && run->on_second(run->whose) && unread() == 0) give_notice(NOTICE_NONE);
}

/* If the session is to end, closes the program's input, and kills what does not end in time. Returns false once there is nothing left to wait
 * for. */
static bool mind_end(const struct run *run) {
    if (!end_signal && !live.is_hung_up && live.program != 0) return true;
    /* a program that has read nothing yet loses nothing */
    if (live.end == 0) live.end = now() + (run->said.is_opened ? GRACE_MS : LEAST_MS);
    close_input();
    if (now() < live.end) return true;
    if (live.is_killed) return false;
    if (live.program > 0 && kill(live.program, SIGKILL) == 0) live.program_status = SIGKILL;
    if (live.saver > 0) kill(live.saver, SIGKILL);
    live.is_killed = true;
    live.end = now() + DEATH_MS;
    return true;
}

/* The time of the next thing to do that no file or signal will wake the host for. */
static int64_t next_moment(void) {
    int64_t moments[] = {live.end, live.dropped, live.left, live.end == 0 ? live.stop : 0, takes_typing() ? live.idle : 0};
    int64_t next = live.second;
    for (size_t i = 0; i < sizeof moments / sizeof *moments; i++)
        if (moments[i] != 0 && moments[i] < next) next = moments[i];
    return next;
}

/* The main loop: runs until the program and any save have ended, or cannot be ended. */
static void go_on(struct run *run) {
    for (reap(run); live.program > 0 || live.saver > 0; reap(run)) {
        mind_stop();
        mind_terminal();
        mind_second(run);
        mind_dropped(run);
        mind_owed();
        mind_answer(run);
        if (!mind_end(run)) return;
        wait_once(run, next_moment());
    }
}

/* Prepares what the watcher and the program need, changes the terminal, and starts the program. Returns NULL, or the cause if that fails. */
static const char *start(struct run *run, struct pipes *ends) {
    struct arguments arguments = {.count = 0};
    struct size size, first;
    if (!note_settings()) return "the terminal's settings cannot be read";
    prepare_screen(run->title, run->has_mouse);
    if (!open_pipes(&live.pipes, ends)) return "no pipe can be created";
    measure(&size);
    make_arguments(&arguments, run, ends, run->rows > 0 ? run->rows : size.rows, run->rows > 0 ? run->columns : size.columns);
    /* what it reads behind its first painting tells that it has painted */
    if (run->hint) give_notice(NOTICE_NONE);
    if (!start_watcher(live.pipes.frames, run->held, run->killed)) return "no process can be created";
    watched->is_changed = true;
    if (!begin_screen()) return "the terminal's settings cannot be changed";
    listen_once();
    pid_t program = end_signal ? -1 : start_program(run, ends, &arguments);
    if (program < 0) return "no process can be created";
    live.program = watched->program = program;
    live.second = now() + SECOND_MS;
    /* a recovered session began in another window, and may have ended in a third */
    measure(&first);
    live.is_size_owed = run->rows > 0 || first.rows != size.rows || first.columns != size.columns;
    return NULL;
}

/* Restores the terminal, and takes in what the program said last. */
static void restore(struct run *run) {
    close_input();
    hear_frames(run);
    end_frames(&live.reader);
    /* if the host was told to end while it was stopped, it has restored the terminal already */
    if (!watched || !watched->is_changed) return;
    drain_paste(&watched->paste, within(PASTE_MS));
    restore_screen(within(end_signal ? RESTORE_BY_SIGNAL_MS : RESTORE_MS), true);
    restore_settings();
}

enum run_end run_program(struct run *run) {
    struct pipes ends = {-1, -1, -1, -1};
    run->said = (struct said){.end = END_NONE};
    run->status = 1;
    catch_signals();
    run->cause = start(run, &ends);
    close_pipes(&ends);
    if (!run->cause) go_on(run);
    /* a signal to the whole job ends the program too */
    listen_once();
    restore(run);
    let_stops_in();
    close_pipes(&live.pipes);
    end_watcher();
    tell_foreign(&live.reader);
    if (!run->cause) run->status = shell_status(live.program_status);
    else if (end_signal) run->status = 128 + end_signal;
    return !run->cause || end_signal ? RUN_ENDED : RUN_NOT_STARTED;
}
