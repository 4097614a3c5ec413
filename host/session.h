/* Sessions: the folder that contains them, a session's own folder with its files, and the search for FILE's sessions. All folders and files
 * are used by descriptor. */
#ifndef SESSION_H
#define SESSION_H

#include <dirent.h>
#include <limits.h>
#include <stdbool.h>
#include <stddef.h>
#include <stdint.h>
#include <sys/stat.h>
#include <sys/types.h>
#include <time.h>

#include "cause.h"
#include "session_judge.h"

/* ---- the folder of sessions (store.c) */

enum folder_state {
    /* Open, and found safe. */
    FOLDER_READY,
    /* It does not exist yet. */
    FOLDER_MISSING,
    /* No path for it could be found, for example if HOME is not set. */
    FOLDER_NOWHERE,
    /* Another user could change it, or a folder above it. */
    FOLDER_DISTRUSTED,
    /* It cannot be made or opened. */
    FOLDER_UNUSABLE
};

struct sessions {
    enum folder_state state;
    /* For FOLDER_UNUSABLE. */
    enum cause cause;
    /* The folder; -1 unless it is ready. */
    int folder;
    uid_t user;
    /* The path by the environment; once the folder is open, without links. */
    char path[PATH_MAX];
    /* For FOLDER_DISTRUSTED, the folder that others can change. */
    char distrusted[PATH_MAX];
};

/* Finds the folder of the user's sessions and judges it. Does not create it. */
void sessions_find(struct sessions *sessions);

/* Creates the folder unless it exists. Returns whether sessions can be kept in it; if not, the state says why. */
bool sessions_make(struct sessions *sessions);

void sessions_close(struct sessions *sessions);

/* ---- FILE, as its sessions name it */

struct target {
    /* Absolute, without links. */
    const char *path;
    /* Its folder, and its name there; -1 where the folder is gone. */
    int folder;
    const char *name;
    bool is_there;
    struct file_id id;
};

/* Looks at what is at a name in an open folder, following no link. */
void target_look(struct target *target, const char *path, int folder, const char *name);

/* ---- a session (session.c) */

/* The files in a session's folder: its facts (struct about), and a draft of them; FILE's text as it was opened; the keys since (JOURNAL_NAME
 * in save.h). At times there are three more: the backup of a save that overwrites FILE (BACKUP_NAME there), the text of the last backup
 * after FILE was repaired from it or needed no repair, and the text at the session's end. */
#define ABOUT_NAME "about"
#define ABOUT_DRAFT_NAME "about.new"
#define TEXT_NAME "text"
#define SAVED_NAME "save"
#define SNAPSHOT_NAME "snapshot"

struct session {
    /* The folder of sessions, and the session's, which is locked as long as the session lives; -1 where there is none. */
    int parent, folder;
    /* Open as long as the session lives, or -1: the copy of FILE's text, and the journal that the program appends to. */
    int text, journal;
    /* What the program opens at a fresh start: the copy, or FILE itself; -1 for an empty text, and once the copy is complete. */
    int source;
    /* The path of the session's folder, for messages. Its last part is the session's name in the folder of sessions. */
    char path[PATH_MAX];
    uid_t user;
    bool is_locked;
    struct about about;
    /* Whether `source` is FILE; and what FILE was like before the program read it. */
    bool is_source_file;
    struct stat look;
    /* FILE was changed before it could be copied; why the last write failed. */
    bool is_changed;
    enum cause cause;
    /* What is not on the disk yet: the text; the journal; the facts; the names of the files. */
    bool is_text_due, is_journal_due, is_about_due, is_name_due;
    /* At an end that cannot wait, what is written is not synced. */
    bool is_hasty;
};

/* Makes it no session: all numbers -1. */
void session_clear(struct session *session);
/* Closes all that it holds, which also unlocks it. */
void session_close(struct session *session);
bool session_is_none(const struct session *session);
/* Moves a session; `from` is none after it. */
void session_move(struct session *to, struct session *from);

/* Opens the session of this name and reads its facts; false if there is no such folder. */
bool session_at(struct session *session, const struct sessions *sessions, const char *name);

/* Creates a session with these facts, locks it, and creates its files. A small text, or one that another program may be writing, is copied
 * at once; `cause` says why it could not be. `file` is FILE, open; -1 where the text is empty. Nothing is synced yet. */
enum cause session_begin(struct session *session, const struct sessions *sessions, const struct about *about, int file);

/* Looks after a session that runs: copies what is not copied yet, and syncs text, journal and facts, one in each call. What something has
 * removed is not made again. To be called each second, and at once while more is due, by a process that may wait for the disk. */
enum keeping session_mind(struct session *session);
bool session_is_due(const struct session *session);

/* At the end, does all that is due; without syncs if it is hasty. Returns whether the session can be recovered. */
bool session_complete(struct session *session, bool is_hasty);

/* Notes which file FILE is now, and FILE's path: after each save, and if its folder was renamed. Notes that all keys so far are saved. */
void session_record_file(struct session *session, const struct target *target);
void session_record_saved(struct session *session);

/* Locks a session, trying for a second at most, reads its facts again, and opens its text and journal. HELD: another process has it. GONE:
 * it was removed. */
enum lock_result { LOCK_TAKEN, LOCK_HELD, LOCK_GONE, LOCK_FAILED };
enum lock_result session_lock(struct session *session);

/* Appends a Save, or for a text without a name a Help, and the window's size to the journal of a recovered session. The key ends a search or
 * question, so that letters go into the text, and the size makes the replay end in this window. */
enum cause session_resume(struct session *session, unsigned rows, unsigned cols);

/* Records that a locked session goes on: with a new file beside FILE (`beside`, an absolute path) or, if that is NULL, with FILE.
 * After a failure the session is as it was. */
enum cause session_go_on(struct session *session, const char *beside, bool is_of_path);

/* Creates a new session from the text that a locked session left at its end, which counts as unsaved; FILE has the text `known`, or, if that
 * is NULL, one of another program. The old one stays. */
enum cause session_renew(struct session *renewed, const struct sessions *sessions, const struct session *old, const char *versions,
                         const struct sum *known);

/* Moves the backup of FILE, which stays torn while the session goes on with another file, to a new session of FILE alone, where a start of FILE
 * finds it. Gives its new path. After a failure it may still be where it was. */
enum cause session_leave_backup(struct session *session, const struct sessions *sessions, const struct target *target, char path[PATH_MAX]);

/* Removes a session. First it is renamed to a name that no start looks at. If that fails, the session is whole, and the cause is
 * returned. After it the session is gone, even if a later start has to remove the rest of its files. */
enum cause session_remove(struct session *session);
/* Removes it unless an editor has it. */
void session_remove_unless_locked(struct session *session);
/* Removes the folder of this name in the folder of sessions, which is the session's, and all files in it. */
void session_erase(const struct session *session, const char *name);

enum cause session_mark(struct session *session, enum mark mark);
bool session_has_mark(const struct session *session, enum mark mark);

/* ---- a session's files (session_facts.c) */

int session_open(const struct session *session, const char *name);
bool session_has(const struct session *session, const char *name);
/* Creates or replaces a file. */
enum cause session_put(const struct session *session, const char *name, const void *bytes, size_t size);
/* A file's path, for messages. */
void session_path_of(const struct session *session, const char *name, char path[PATH_MAX]);
/* Sums up all of an open file; or the bytes after those that the sum has, where it returns 0 or an errno. */
bool sum_file(int file, struct sum *sum);
int sum_rest(int file, struct sum *sum);

/* ---- facts of a session */

const char *session_name(const struct session *session);
/* Returns 0 if the session still has its name in its folder of sessions, otherwise ENOENT or a fault. */
int session_find_itself(const struct session *session);
/* Whether the session still exists, and its folder of sessions is still at its path. */
bool session_is_there(const struct session *session);
/* Whether the user owns the folder, nobody else can write it, and it has only plain files of the user's. */
bool session_is_own(const struct session *session);
/* Whether an editor has the session open. A session whose lock cannot be tried counts as open. */
bool session_is_live(const struct session *session);
enum session_state session_state(const struct session *session);
/* Whether the journal has keys; also if it cannot be read, since it may have some. */
bool session_has_keys(const struct session *session);
bool session_has_something(const struct session *session);
size_t session_count_keys(const struct session *session);
/* The journal's size in bytes; -1 if it does not exist. */
off_t session_journal_size(const struct session *session);
/* What of an ended session is not as it was written; NULL if nothing is. */
const char *session_damage(const struct session *session);
/* The time of its last key, or of its beginning; false if the system does not say. */
bool session_changed(const struct session *session, struct timespec *time);
/* The space that it takes on the disk, in units of 1,024 bytes. */
uint64_t session_kilobytes(const struct session *session);

/* ---- this process, the clock, what a replay depends on */
const struct process *this_process(void);
/* As users read it: date, hour and minute. */
void format_time(const struct timespec *time, char words[32]);
/* Writes the version, and the sizes and times of these files. Returns NULL; or the file that cannot be examined, with errno set. */
const char *versions_look(const char *version, const char *const *files, size_t count, char words[FACT_MOST]);

/* ---- sessions of version 0.4.0 (old_session.c) */

/* Reads the facts of one from the files of its folder. Returns false if it has no path. */
bool old_about(int folder, struct about *about);
/* Whether an editor of that version has it open. */
bool old_is_locked(int folder);

/* ---- the sessions of a file (store.c) */

/* The newest session of a file of each kind; `session_is_none` if there is none. */
struct found {
    struct session live, elsewhere, unfinished, dropped;
};
/* Whether the session opened or saved this very file, under any name. */
bool session_is_of_file(const struct session *session, const struct target *target);
/* Finds FILE's newest session of each kind. Removes sessions of FILE without unsaved text, and what killed starts left. Returns the fault if the
 * folder of sessions cannot be read. */
enum cause sessions_of(struct found *found, const struct sessions *sessions, const struct target *target);
/* Closes the sessions that were found. */
void found_close(struct found *found);

/* A walk over the sessions in the folder, the oldest first. Each step closes the session of the step before, unless it was moved away. */
struct walk {
    const struct sessions *sessions;
    struct dirent **names;
    int count, next;
    struct session session;
};
/* Returns the fault if the folder cannot be read; the walk then finds no session. */
enum cause walk_begin(struct walk *walk, const struct sessions *sessions);
/* Goes to the next session; returns false after the last one. walk_next_own goes to the next one that is the user's own. */
bool walk_next(struct walk *walk);
bool walk_next_own(struct walk *walk);
void walk_end(struct walk *walk);

/* Removes all sessions with dropped changes except this one, of whatever file. */
void sessions_forget_dropped(const struct sessions *sessions, const struct session *except);

/* What is reported of a session that is to be removed (`is_asked`), was removed, or could not be (`cause`). */
struct forgotten {
    const char *path;
    bool has_time, was_dropped, is_asked;
    struct timespec changed;
    enum cause cause;
};
/* Removes the sessions of a file, or of all files if `target` is NULL, except those that an editor has open here or on another
 * machine. Calls `tell` for each that had unsaved text; without `removes` it only does that. */
void sessions_forget(const struct sessions *sessions, const struct target *target, bool removes, void (*tell)(void *, const struct forgotten *),
                     void *context);

/* ---- repairs after an interrupted save that overwrote FILE (mend.c) */

/* NOT: FILE has only a part of the text, but not as the save left it, so another program may have cut it, and it stays as it is. */
enum mended { MENDED_WHOLE, MENDED_PUT_BACK, MENDED_NOT, MENDED_STILL_TORN };
struct mending {
    enum mended mended;
    /* The file with the whole text. */
    char backup[PATH_MAX];
};
/* Repairs FILE from the backup of a locked session; and the file that was FILE before, where the session ended between a save under a new name
 * and its note. Unless FILE stays torn, the backup is renamed to SAVED_NAME. */
enum cause session_mend(struct session *session, const struct sessions *sessions, const struct target *target, struct mending *mending);
/* Repairs FILE from the backups of all sessions that no editor has open. Calls `tell` for each outcome; ends if FILE stays torn.
 * Returns whether FILE is whole. */
bool sessions_mend(const struct sessions *sessions, const struct target *target, void (*tell)(void *, const struct mending *), void *context);

/* Compares an open file with an open backup. FILE_OTHER if one cannot be read or the file is not plain. A file longer than the backup is
 * not read. */
enum verdict judge_file(int file, int backup);

#endif
