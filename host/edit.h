/* The state of one start that edits FILE, from the checks of FILE to the end of its session. Shared by the files that are named
 * below, the lowest first, and by main.c. */
#ifndef EDIT_H
#define EDIT_H

#include <stdbool.h>
#include <sys/types.h>

#include "file.h"
#include "keep_judge.h"
#include "run.h"
#include "save.h"
#include "save_judge.h"
#include "session.h"
#include "command_line.h"

/* What a step of a start returns: that the start goes on (GO_ON); that a session is recovered, and `edit` has it, with FILE or a new file
 * beside FILE (TAKEN); that the user was asked, and FILE is opened (ASKED); or that another start was faster (AGAIN). Any other value is the
 * exit status, and the step has reported the cause. */
enum { GO_ON = -1, TAKEN = -2, ASKED = -3, AGAIN = -4 };

/* What a start has by its installation. `versions` is what a replay depends on. */
struct setup {
    const struct programs *programs;
    struct tables tables;
    char versions[FACT_MOST];
};

/* FILE, and where its sessions are. */
struct opened {
    struct file file;
    struct sessions sessions;
    struct target target;
    /* Why saves have to overwrite FILE in place, if they do. */
    enum reason reason;
    /* The text cannot be changed. What standard input gave, in memory, -1 without it; it began with a byte order mark. */
    bool is_view, has_piped_mark;
    int piped;
    /* FILE's name, if a recovered text is saved as a new file beside FILE, which `file` then is; else NULL. */
    const char *aside_of;
    /* FILE's path at the end, if its folder was renamed meanwhile; else NULL. */
    const char *moved;
    /* FILE's last name as the title shows it. */
    const char *shown_name;
    /* FILE's permissions as the recovered session recorded them, if FILE is gone; else -1. */
    int lost_mode;
};

/* The session, and what is known of the keeping of unsaved text. */
struct kept {
    /* None if none is kept. */
    struct session session;
    struct begin begin;
    /* is_resumed: the session is a recovered one, and its keys are replayed. is_joined: letters are joined. is_in_memory: FILE is, and so its
     * text may get on no disk. */
    bool is_resumed, is_joined, is_in_memory;
    /* Why unsaved text is not kept, and its notice; NULL while it is kept. */
    const char *unkept;
    enum notice unkept_notice;
    /* While the program runs: what is known; whether keys were typed since a notice about it was shown, and how many seconds ago that was. */
    struct now_facts facts;
    bool is_typed_since;
    unsigned seconds_since;
};

/* How FILE is saved. */
struct saves {
    struct saver saver;
    /* is_in_place: saves overwrite FILE, and the session has the whole text meanwhile. is_itself: they overwrite FILE without a session, and a
     * file beside FILE has the whole text meanwhile. was_saved: a save has succeeded. */
    bool is_in_place, is_itself, was_saved;
    /* After a save under a new name: the file that was FILE before, as messages name it, if it stays torn, and the backup with its text. */
    struct torn {
        char file[4 * PATH_MAX], backup[PATH_MAX];
    } torn;
};

struct edit {
    const struct call *call;
    struct setup setup;
    struct opened opened;
    struct kept kept;
    struct saves saves;
    struct run run;
};

/* ---- opening.c: FILE */

/* Writes down what a replay depends on (versions_look in session.h). Returns NULL; or the program or table that cannot be examined,
 * with errno set. */
const char *find_versions(const struct programs *programs, const struct tables *tables, char words[FACT_MOST]);

/* Opens and judges FILE, puts its text back after saves that were cut off, and refuses what cannot be edited, unless it is forced. */
int check_file(const struct call *call, struct opened *opened);

/* Opens FILE and finds the folder of its sessions. With `is_lost`, FILE's folder may be gone. NULL: a text without a name. */
int find_file(struct opened *opened, const char *typed, bool is_lost);
void close_opened(struct opened *opened);

/* Refuses a FILE that cannot be read, or made, unless that is forced. One that cannot be saved is only looked at. */
int check_access(const struct call *call, struct opened *opened);

/* Whether the text has no name; FILE's name, or none, as a word behind `bidi-edit --recover`, and what messages call such a text. */
bool is_nameless(const struct opened *opened);
const char *name_word(const struct opened *opened, const char *typed);
#define NO_NAME "(no name)"

/* Reports, by `say`, what became of a file, as messages name it, after an interrupted save. Returns whether it is still torn, with a part of
 * its text only. */
bool tell_mended(const char *file, const struct mending *mending, void (*say)(const char *format, ...));

/* Restores FILE's text if an ended session's save was interrupted. Returns whether FILE is whole. */
bool mend_file(struct opened *opened);

/* Why no session is kept in a folder of sessions, and its notice; NULL where one can be. */
const char *unkept_by(const struct sessions *sessions, enum notice *notice);

/* Takes the file that a save under a new name made for FILE. Its folder is not open then, and saves replace it. Returns false if there is no
 * other FILE. */
bool take_new_file(struct opened *opened, struct saves *saves);

/* Announces to all other starts on this machine, until this process ends, that it has FILE open. Returns 0, or the number of a process
 * that already has FILE open, -1 if that number is unknown. No file is made. NULL: ends that. */
pid_t note_open_file(const struct file *file);

/* ---- ask.c */

int list_sessions(void);
/* Asks before it deletes what has unsaved text, unless `is_sure`. */
int forget_sessions(const char *typed, bool is_sure);

/* Whether a text without a name is all that can be recovered. */
bool is_only_nameless(void);

/* What messages call this machine. */
#define THIS_MACHINE "this machine"

/* The time of a session's last key, as users read it; the machine where it runs or ran, NULL for this one. */
const char *time_text(const struct session *session);
const char *machine_text(const struct session *session);

/* Asks a question (yes, no). Returns false at no, and where the input ends. */
bool ask_to_go_on(const char *question);

/* Asks whether to edit a FILE that is open elsewhere, or only to look at it. BESIDE_NO where the input ends, too. */
enum beside { BESIDE_YES, BESIDE_VIEW, BESIDE_NO };
enum beside ask_what_beside(void);

/* Asks what to do with an unfinished session. CHOICE_NONE where the input ends; CHOICE_DELETE only where it is certain. */
enum choice ask_choice(void);

/* What to do with a session whose keys cannot be replayed. OPEN: leave it and open FILE. KEEP: move its files next to FILE. NONE: the
 * input ended. */
enum rest { REST_NONE, REST_OPEN, REST_KEEP };
enum rest ask_rest(void);

/* ---- ending.c */

/* The program's arguments that a replay has too. `typed` is FILE's name. */
void add_begin(struct arguments *arguments, const struct begin *begin, const char *typed);

/* What FILE has, by a replay of a session's keys over its text: the same text, one that the session opened or saved (KNOWN), or another's
 * (FOREIGN). UNREADABLE: the session's files are damaged. FAILED: the program ended or hung without an answer. */
enum replayed { REPLAY_SAME, REPLAY_KNOWN, REPLAY_FOREIGN, REPLAY_UNREADABLE, REPLAY_FAILED };

/* Replays. Sets `text` to a file in memory with the resulting text, which the caller closes, or to -1. `limit` as for run_aside. */
enum replayed replay(const struct setup *setup, const struct opened *opened, const struct session *session, int *text, int64_t limit);

/* The same without a replay, for a session that left its text at its end. */
enum replayed compare_text(const struct file *file, const struct session *session);

/* Ends the session after the program's end, and reports what is kept and what is lost. Returns the exit status. */
int end_session(struct edit *edit);

/* ---- keeper.c: the child that looks after the session and ends it, so that no disk holds up the host */

/* Starts it, once the program has opened the text. It has all that `edit` has, and the host may close its own files. */
bool keeper_start(struct edit *edit);

/* Tells it that a save has succeeded, and whether the program can write its journal. */
void keeper_note_save(void);
void keeper_note_journal(bool is_kept);

/* Takes in what it has reported of the session. */
void keeper_hear(struct now_facts *facts);

/* Has it end the session, and waits for that: for ever without a signal, but then the user is told what is waited for. Returns the exit
 * status. */
int keeper_end(struct edit *edit);

/* ---- begin.c */

/* Begins a session of FILE, unless none is wanted or possible; goes on with the session that is recovered. */
int begin_session(struct edit *edit);
int resume_session(struct edit *edit);

/* Runs the program, keeps its session meanwhile, and ends the session. Returns the exit status. */
int run_session(struct edit *edit);

/* ---- recover.c */

/* Asks about FILE's earlier sessions until it is clear which one is recovered, if any. */
int meet_sessions(struct edit *edit);

/* Recovers FILE's session without asking which. */
int recover_session(struct edit *edit);

/* Stores the text of FILE's session as the new file of --to. Returns the exit status. */
int store_session(struct edit *edit);

#endif
