/* The terminal: its descriptors, settings and size, what the host writes to it, which of its bytes the host drops, and the watcher. */
#ifndef TERMINAL_H
#define TERMINAL_H

#include <limits.h>
#include <pthread.h>
#include <stdbool.h>
#include <stddef.h>
#include <stdint.h>
#include <sys/types.h>

/* The terminal has two open files, -1 without one: terminal_line does not block and is the host's, terminal_screen blocks and is
 * the program's. */
extern int terminal_line, terminal_screen;

struct size {
    unsigned rows, columns;
};

/* Opens the controlling terminal twice. If there is none, takes the terminal that standard input and output are. */
bool open_terminal(void);

/* Gives the window's size, each side from 1 to 500; 24 and 80 if the terminal does not say. Returns whether it says. */
bool measure(struct size *size);

/* Notes the settings that are restored in the end. */
bool note_settings(void);

/* The character that erases in the terminal's own editing of lines, as noted. */
unsigned char erase_character(void);

/* Restores the settings at once, without waiting for the output, which may never go out. Works for a job in the background too. */
void restore_settings(void);

/* Whether the host's settings still stand; whether another program, such as a shell that edits its lines, has set its own since. */
bool is_raw(void);
bool has_other_settings(void);

/* Finds what the terminal can do, by TERM and by the variables that terminals set, and prepares the sequences for it: with this title, if
 * the terminal can restore its old one, and with a request for reports of the mouse if `has_mouse`, unless the editor would take the
 * reports for keys. */
void prepare_screen(const char *title, bool has_mouse);

/* What the program writes before its first painting. */
const char *first_sequences(void);

/* Whether copies for the system's clipboard may be sent to the terminal. */
bool bears_clips(void);

/* What the user has to set in a terminal that shows right-to-left words reversed, and the terminal's name; NULL for others. */
const char *terminal_hint(const char **name);

/* Changes the settings, and sends the sequences that change nothing visible. The system stops a host in the background here, until it has
 * the terminal. */
bool begin_screen(void);

/* Sets the terminal again after a SIGSTOP, during which another program may have changed it. The system stops a host in the background here
 * again. */
void take_up_screen(void);

/* Restores what the terminal showed; pastes stay marked unless `ends_pastes`. Gives up after so many milliseconds if the terminal takes no
 * more. */
void restore_screen(int64_t limit, bool ends_pastes);

/* Restores screen and settings before a stop, within so many milliseconds; sets both again after the stop. The system stops a host in the
 * background here. */
void leave_screen(int64_t limit);
void enter_screen(void);

/* Shows a message in the last row, from a column on, over what the program painted there; from the first one on in place of all of it. The
 * cursor stays behind it, unless `keeps_cursor`. */
void show_last_row(const char *message, unsigned column, bool keeps_cursor);

/* Whether sequences wait to be written to the terminal; writes as much as it takes. A sequence for which there is no room is dropped. */
bool is_showing(void);
void go_on_showing(void);

/* What the terminal sent last: the last six bytes, and whether a marked paste has begun and not ended. */
struct paste {
    uint64_t last_bytes;
    volatile bool is_under_way;
};

/* Milliseconds to wait for the end of a paste; of silence after which it counts as over. */
enum { PASTE_MS = 2000, PASTE_SILENCE_MS = 1000 };

/* Looks through bytes that were read for the beginning and end of a paste. */
void follow_paste(struct paste *paste, const unsigned char *bytes, size_t length);

/* Drops the rest of a paste that the terminal still sends, until its end or for so many milliseconds, so that no shell takes it for
 * commands. */
void drain_paste(struct paste *paste, int64_t limit);

/* ---- the watcher (watcher.c), which restores the terminal if the host is killed */

/* Memory that host, program and watcher share: a lock that the host holds as long as it lives; whether the terminal is changed; whether the
 * program has read something, and so has painted; the processes of the program and of a save, 0 if there is none; and the terminal's
 * paste. */
struct watched {
    pthread_mutex_t life;
    volatile bool is_changed, has_read;
    volatile pid_t program, saver;
    struct paste paste;
    /* What is said once the terminal is restored. */
    char line[4 * PATH_MAX + 128];
};

extern struct watched *watched;

/* Its process; 0 without one. */
extern pid_t watcher;

/* Remembers the program's name in the command line. The watcher overwrites it in its own memory, to be listed under another name. */
void note_own_argument(char *word);

/* Starts the watcher. It reads the program's pipe `frames`, whose end tells it that the program has ended. Until then it holds the session's
 * folder and lock (-1 without a session). Once it has restored the terminal, it says how the session is recovered, with this word
 * for FILE, if that is not NULL. */
bool start_watcher(int frames, const int held[2], const char *file);

/* Changes the word that it says. */
void put_last_line(const char *file);

/* Kills the watcher, once the host itself has restored the terminal. */
void end_watcher(void);

#endif
