/* Sessions on a real disk, for the checks in sessions_life.c, sessions_parts.c and sessions_repairs.c: `top`, a new folder that is removed
 * at the end, files in it, and sessions of these files in the folder `state` there. */
#ifndef SESSIONS_SCENE_H
#define SESSIONS_SCENE_H

#include "../../host/file.h"
#include "../../host/save.h"
#include "../../host/session.h"
#include "../../host/util.h"

/* The path of the new folder, once begin_scene has made it. */
extern char top[PATH_MAX];
/* The numbers of checks so far. */
extern int passed, failed;

/* Counts a check, and names one that fails. */
void check(bool is_right, const char *what);
/* Runs checks in a child, and adds their numbers. `what` names the check that the child reports them. */
void check_in_child(void (*checks)(void), const char *what);

/* Makes the top folder, in the working folder. */
void begin_scene(void);
/* Removes the top folder and prints `N passed, M failed`. Returns the status to exit with. */
int end_scene(void);

/* ---- files */

/* A path in the top folder; the eighth call after this one overwrites it. */
__attribute__((format(printf, 1, 2))) char *path_in(const char *format, ...);
/* Creates or overwrites a file. */
void write_file(const char *path, const char *text, size_t size);
void write_text(const char *path, const char *text);
/* All bytes of a file as a text; empty where it cannot be read. The next call overwrites it. */
const char *read_text(const char *path);
/* Makes a file look as if it was last written some hours ago. */
void make_old(const char *path);
bool is_there(const char *path);
/* Runs a command of the shell in the top folder. */
void run(const char *command);
/* Removes all that is in the top folder. */
void clear_top(void);

/* ---- sessions */

/* Finds the folder of sessions, and makes it. */
void make_sessions(struct sessions *sessions);
/* Makes a file in the top folder the target. */
void look_at(struct target *target, const char *name);
/* Begins a session of FILE as the host does. */
enum cause begin(struct session *session, const struct sessions *sessions, const struct target *target);
/* Minds the session until nothing is due. */
enum keeping mind(struct session *session);
/* Fills the session, which has to be kept then. */
void fill(struct session *session);
/* Begins and fills a session of the new FILE `note`, with these keys. */
void begin_filled(struct session *session, struct sessions *sessions, struct target *target, const char *keys);
/* The text of a file of the session; the next call, or one of read_text, overwrites it. */
const char *part_text(const struct session *session, const char *name);
/* The letters of the kinds of sessions that FILE has: live, elsewhere, unfinished, dropped. The next call overwrites them. */
const char *kinds(const struct sessions *sessions, const struct target *target);
/* Checks which kinds of sessions a start finds for FILE, by the letters of `kinds`. */
void check_kinds(const struct sessions *sessions, const struct target *target, const char *wanted, const char *what);
/* Takes everything away, for the next check. */
void leave(struct session *session, struct sessions *sessions);

/* ---- the checks of the other files */

/* A session's files: what is copied, what is told where something removes them, and what has changed. */
void check_parts(void);
/* What follows an interrupted session or save: sessions that go on, removals, repairs of FILE. */
void check_repairs(void);

#endif
