/* A run of the program (bidi_edit) in the terminal, from the change of the terminal to its restoration. */
#ifndef RUN_H
#define RUN_H

#include <stdbool.h>
#include <stddef.h>
#include <stdint.h>
#include <sys/types.h>

#include "frames.h"
#include "command_line.h"

struct saver;

/* The most descriptors that the program inherits. */
enum { MOST_HANDED = 16 };

/* What a program said. */
struct said {
    enum end_frame end;
    /* The last fault, as KIND or KIND VALUE, and the last answer to --replay, as WORD KEYS; empty if there was none. */
    char fault[FRAME_TEXT_MOST + 1], replayed[FRAME_TEXT_MOST + 1];
    /* FILE was read and can be opened. */
    bool is_opened;
};

struct run {
    /* The caller sets all fields down to `on_saved`. The program's path, and its arguments without those that run_program adds (--frames,
     * --saves, --before, --rows, --cols, --erase, --clipboard). The last argument is FILE, and NULL ends them. */
    const char *program;
    char *const *arguments;
    /* The window's title; a message for the last row until a key is pressed; FILE's name, or none, as
     * a word behind `--recover` for what is said if the host is killed. The latter two may be NULL. */
    const char *title, *hint, *killed;
    /* The column of the message; in the first one it has the whole row. */
    unsigned hint_column;
    /* The terminal is asked to report the mouse; what is copied goes to the system's clipboard too. */
    bool has_mouse, has_clipboard;
    /* For a recovered session the size of the window that it began in; else 0. */
    unsigned rows, columns;
    /* What the program opens as /proc/self/fd/N. */
    int handed[MOST_HANDED];
    size_t handed_count;
    /* Permissions that new files of the program must not get (a umask). */
    unsigned mask;
    /* The session's folder and its lock, which the watcher holds until the program has ended; -1 without a session. */
    int held[2];
    /* Who serves saves; NULL for nobody. */
    struct saver *saver;
    /* Callbacks while the program runs, each with `whose`; NULL for none. A callback must not wait. `on_second` returns whether the
     * program shall try again to write its journal. */
    void *whose;
    void (*on_opened)(void *whose);
    void (*on_journal)(void *whose, bool is_kept);
    bool (*on_second)(void *whose);
    void (*on_saved)(void *whose);

    /* Results. `status` is as in a shell: the program's own, or 128 plus the number of the signal that ended it. `cause` says why the
     * program could not be started. */
    struct said said;
    int status;
    const char *cause;
};

enum run_end { RUN_ENDED, RUN_NOT_STARTED };

/* Runs the program. From here to the host's end signals are caught: `end_signal` (signals.h) is the first one that asked for the end.
 * Text on the program's standard error that is not a frame, such as a crash message, is written out once the terminal is restored. */
enum run_end run_program(struct run *run);

/* In a child of the host: closes what belongs to the run, so that the program's end is seen. Returns a file that can be read once the program
 * has ended; -1 where the system has none. */
int leave_run(void);

/* Makes the program show a notice: at once, or at its start if called before run_program. While the message of a failed save is shown, it
 * waits for the next key. */
void give_notice(enum notice notice);

/* Whether bytes were typed since this was called last. Only in callbacks. */
bool was_typed(void);

/* Shows a title, if the terminal can restore its old one; rings the bell. Only in callbacks. */
void show_title(const char *title);
void ring(void);

/* Runs the program without terminal and input, as for --replay with --to. `arguments` begin with its path, and NULL ends them; `run` gives
 * the inherited descriptors and the mask. After `limit` milliseconds, if that is not 0, it is killed. Returns the status as in a
 * shell, or -1 if it could not be started or was killed for being late. run->said has what it said. */
int run_aside(struct run *run, char *const *arguments, int64_t limit);

/* ---- the program as a child of the host, for run.c (program.c) */

/* The host's ends of the pipes, or the program's; -1 once closed. The host writes to `keys` and reads from `frames`, which do not
 * block for it. Its other two ends are for the children that serve saves. */
struct pipes {
    int keys, frames, requests, answers;
};
bool open_pipes(struct pipes *pipes, struct pipes *ends);
void close_pipes(struct pipes *pipes);

/* The path by which the program opens what the host has open. */
const char *handed_path(struct run *run, int file);

/* Puts the program's arguments together, for this size of the window. The host's own come first, since FILE has to be the last one. */
void make_arguments(struct arguments *arguments, const struct run *run, const struct pipes *ends, unsigned rows, unsigned columns);

/* Starts the program. Returns its process, or -1. */
pid_t start_program(const struct run *run, const struct pipes *ends, const struct arguments *arguments);

/* Reads the program's frames that have arrived. Returns false at the end of the pipe. */
bool read_frames_of(struct run *run, struct frame_reader *reader, int frames);

/* Writes out what the program said outside frames, with ? in place of control characters. */
void tell_foreign(const struct frame_reader *reader);

#endif
