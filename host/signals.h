/* Signals, the time, and calls with a time limit: waits, writes that may block, and ends of children.
 *
 * From run_program on, all signals that end or wake the host are blocked except while it waits. So none is lost, and handlers only
 * set flags. Times are milliseconds of a clock that never goes back. */
#ifndef SIGNALS_H
#define SIGNALS_H

#include <poll.h>
#include <signal.h>
#include <stdbool.h>
#include <stddef.h>
#include <stdint.h>
#include <sys/types.h>

/* After a signal, the host ends within END_MS, if the kernel lets it; a step that comes too late still gets LEAST_MS. The program gets
 * GRACE_MS to end. A killed child ends within DYING_MS, or is held by the kernel. */
enum { END_MS = 4300, GRACE_MS = 3000, LEAST_MS = 100, DYING_MS = 300 };

/* The first signal that asked for the end, or 0; whether the window has changed; whether the host was continued after a stop; whether a
 * stop is asked for. */
extern volatile sig_atomic_t end_signal, is_resized, is_continued, is_stop_asked;

/* For the beginning: a write to a pipe without a reader, or beyond a size limit, fails and does not end the host, and the end of a child
 * wakes a wait. */
void set_first_signals(void);

/* Catches all other signals from now on. */
void catch_signals(void);

/* Acts as if this signal had come, now or at another time. */
void note_end(int number);
void note_end_at(int number, int64_t time);

/* Stops the host as an uncaught SIGTSTP does, and returns when it is continued; at once in a job that nobody could continue. */
void stop_here(void);

/* From now on, SIGTSTP stops the host at once. */
void let_stops_in(void);

/* Gives a child the signals that the host was started with. */
void give_back_signals(void);

/* Ends the host by this signal; if the signal does not end it, with status 128 plus the signal's number. */
_Noreturn void die_from(int number);

int64_t now(void);

/* The time at which all must be over because of a signal; 0 if none came. */
int64_t last_moment(void);

/* So many milliseconds; after a signal, no more than are left until last_moment, but at least LEAST_MS. */
int64_t within(int64_t limit);

/* Waits for the files and for signals until the time `end`, for ever where it is 0. Returns what poll returns. */
int wait_for(struct pollfd *files, nfds_t count, int64_t end);

/* Handles the signals that have come. */
void listen_once(void);

/* Writes to a file that may block, for at most `limit` milliseconds; forever if that is 0. A signal that asks for the end stops the write,
 * unless `is_last`; such a write has the time that `within` gives. Only after catch_signals. */
void write_within(int file, const char *text, size_t length, int64_t limit, bool is_last);

/* Waits for a child until the time `end`, forever if that is 0, and sets its number to 0 once it has ended. Signals do not shorten the
 * wait. Returns whether the child has ended. */
bool wait_for_child(pid_t *child, int *status, int64_t end);

/* Kills a child and waits for it for a short time only, since a process that waits for a disk does not end. */
void kill_child(pid_t *child);

/* The status of a child as a shell gives it. */
int shell_status(int status);

#endif
