/* Decisions about sessions by plain facts, without system calls. */
#ifndef SESSION_JUDGE_H
#define SESSION_JUDGE_H

#include <limits.h>
#include <stdbool.h>
#include <stddef.h>
#include <stdint.h>
#include <sys/types.h>

/* ---- the words of a session's file `about`. Functions that read words return false if these are malformed. */

/* The most bytes of one fact that is a word or more, and of the whole file. */
enum { FACT_MOST = 1024, MOST_ABOUT = 65536 };

/* With what a session began: window, direction, line and options, on which a replay of its keys depends. */
struct begin {
    unsigned rows, cols;
    /* The word auto, ltr or rtl. */
    char direction[8];
    /* From 1; 0 for the first line. */
    unsigned line;
    /* The blanks of a tab, 0 for a tab itself; the text cannot be changed; new lines are indented; the text had no name. */
    unsigned spaces;
    bool is_view, is_indented, is_nameless;
};
bool begin_of(const char *words, struct begin *begin);
void begin_text(const struct begin *begin, char words[FACT_MOST]);

/* What identifies a file, whatever its names. A new file may get the inode number of a removed one, but not its time of birth. */
struct file_id {
    dev_t device;
    ino_t inode;
    bool has_birth;
    int64_t birth_seconds;
    uint32_t birth_nanos;
};
bool file_id_of(const char *words, struct file_id *id);
void file_id_text(const struct file_id *id, char words[FACT_MOST]);
/* Whether both are one file now; and whether they certainly are, though one of them was recorded long ago. Some disks get another device
 * number with each mount, so for that only inode and birth count. */
bool is_same_id(const struct file_id *one, const struct file_id *other);
bool is_surely_same_id(const struct file_id *one, const struct file_id *other);

/* A process that began or continued a session, and its machine. Containers of one machine have different names and the same boot. */
struct process {
    unsigned number;
    char machine[256];
    /* Empty if unknown. */
    char boot[64];
};
bool process_of(const char *words, struct process *process);
void process_text(const struct process *process, char words[FACT_MOST]);
/* Whether a session may be running on another machine, whose locks cannot be seen from here. `there` is NULL if its process is unknown. */
bool may_go_on_elsewhere(const struct process *there, const struct process *here);

/* Reads permissions in octal, without the set-ID and sticky bits. Malformed words give permissions for the user alone. */
mode_t mode_of(const char *words);

/* The permissions in a mode. */
enum { PERMISSIONS = 0777 };

/* The number of some bytes and a hash of them, by which a changed byte is noticed. A sum of nothing is the place to begin. */
struct sum {
    uint64_t size, hash;
};
void sum_begin(struct sum *sum);
void sum_more(struct sum *sum, const char *bytes, size_t size);
bool is_same_sum(const struct sum *one, const struct sum *other);

/* What is noted of a session by a bit each. DROPPED: a second Quit dropped the changes. CUT: the end of the journal could not be written.
 * UNSAVED: the text counts as changed from the start. UNJOINED: letters were not joined. SECRET: only root could read FILE. IN_PLACE: saves
 * overwrite FILE. */
enum mark { MARK_DROPPED = 1, MARK_CUT = 2, MARK_UNSAVED = 4, MARK_UNJOINED = 8, MARK_SECRET = 16, MARK_IN_PLACE = 32 };

/* All facts of a session. */
struct about {
    /* FILE's path, / for a text without a name; and that of the file beside FILE to which a recovered text is saved, or empty. Both are
     * absolute and without links. */
    char path[PATH_MAX], beside[PATH_MAX];
    /* The path of a new file that a save was about to make, which is no fact of `about`; empty if there is none. */
    char new_path[PATH_MAX];
    /* The name, as it was typed, under which a text without a name was saved; empty if there is none. */
    char name[PATH_MAX];
    /* FILE as it was opened or saved last. */
    bool has_id;
    struct file_id id;
    /* FILE's permissions; -1 if FILE was not there. */
    int mode;
    bool has_begin, has_process;
    struct begin begin;
    struct process process;
    /* What a replay of its keys depends on. */
    char versions[FACT_MOST];
    /* Bits of enum mark. */
    unsigned marks;
    /* The file `text` is complete, and has this sum; the part of the journal that is on the disk; and, if the text counts as unsaved, what
     * FILE has all the same. */
    bool has_text, has_known;
    struct sum text, journal, known;
    /* The journal's size at the last save: a program that ends with all saved empties the journal. */
    uint64_t saved;
    /* A byte of `about` itself has changed; it is of version 0.4.0, and has no sums. */
    bool is_damaged, is_old;
};
void about_clear(struct about *about);
/* Returns the number of bytes; 0 if they have no room. */
size_t about_write(const struct about *about, char *words, size_t room);
/* Reads the file's bytes, and changes them. */
bool about_read(struct about *about, char *bytes, size_t size);

/* ---- names and owners */

/* What a folder in the folder of sessions is, by its name. */
enum name_kind {
    /* Not the editor's: it is left alone. */
    NAME_FOREIGN,
    /* A session: fourteen digits of a time, a point, and six or eight random letters. */
    NAME_SESSION,
    /* A session that is being removed. */
    NAME_DEAD,
    /* A folder in which an older version of the editor replayed keys. */
    NAME_REPLAY
};
enum name_kind kind_of_name(const char *name);
/* A session that is being removed is named by this and its old name. */
#define DEAD_BEGIN ".dead."

/* Whether a folder of this owner and mode is the user's own, and nobody else may write it. */
bool is_private(uid_t owner, mode_t mode, uid_t user);
/* Whether no other user can replace the user's files in a folder of this owner and mode. */
bool is_safe_above(uid_t owner, mode_t mode, uid_t user);

/* ---- which session is a file's, and what it holds */

enum belonging {
    /* It is another file's session. */
    BELONGS_NOT,
    /* Its path is the file's path. */
    BELONGS_BY_PATH,
    /* It opened or saved this very file, under any name. */
    BELONGS_BY_FILE
};

/* What is known about a session and a file. */
struct belonging_facts {
    /* The session's path is the file's; its path beside is the file's; it has a path beside, and a file is there. */
    bool is_path, is_beside, has_beside;
    /* It certainly opened or saved this very file. */
    bool is_file;
};
enum belonging judge_belonging(const struct belonging_facts *facts);

enum session_state { SESSION_LIVE, SESSION_ELSEWHERE, SESSION_EMPTY, SESSION_DROPPED, SESSION_UNFINISHED };

struct state_facts {
    bool is_locked, may_be_elsewhere;
    /* It has keys, a text that counts as changed, or a backup, whose text FILE may lack. */
    bool has_something;
    bool is_dropped;
};
enum session_state judge_state(const struct state_facts *facts);

/* ---- torn files, keys */

/* A file compared with the backup, which has the whole text of a save that overwrites it. TORN: the save was interrupted in it.
 * OTHER: another program has written it. */
enum verdict { FILE_WHOLE, FILE_TORN, FILE_OTHER };
struct backup_comparison {
    bool is_same, is_torn;
};
/* Compares bytes at the same place of both, piece by piece; and the lengths at the end. */
void compare_begin(struct backup_comparison *comparison);
void compare_more(struct backup_comparison *comparison, const char *of_file, const char *of_backup, size_t count);
enum verdict compare_end(const struct backup_comparison *comparison, uint64_t size_of_file, uint64_t size_of_backup);

/* How far a save that overwrites FILE has come. The save records it beside the backup before each step. So a later start can tell FILE as
 * a killed save left it from a FILE that another program has emptied or cut since. */
enum step_kind { STEP_READY, STEP_PARTLY, STEP_WHOLE };
struct step {
    /* READY: FILE is not changed yet. PARTLY: after this step FILE has at least `from` and at most `to` bytes. WHOLE: it has all. */
    enum step_kind kind;
    uint64_t from, to;
    struct file_id id;
    /* For READY, when FILE is not changed yet, the time of day. For the others, FILE's time of change before the step. */
    int64_t seconds;
    uint32_t nanos;
    /* Empty if unknown. */
    char boot[64];
};
bool step_of(const char *words, struct step *step);
void step_text(const struct step *step, char words[FACT_MOST]);
/* Whether FILE, which has a part of the backup's text, is as the save left it. `now` has its identity, size (`from`), time and boot. */
bool is_as_left(const struct step *step, const struct step *now);

/* Counts a journal's keys, piece by piece and from zero on, without replaying them. It does not count notices of the host, sizes of the
 * window, and a Save right before a size: a recovered session begins with these two. */
struct key_count {
    size_t keys;
    /* The last byte was a Save, or an Escape; a Save came right before the last Escape. In a control sequence, which may be a notice. */
    bool is_save, is_escape, is_saved, is_in_sequence, is_notice;
    /* The number that a control sequence begins with, as far as it was read. */
    int number;
};
void count_more(struct key_count *count, const char *bytes, size_t size);

/* ---- what is kept of a running session */

/* Whether unsaved text is kept, and if not, why. */
enum keeping {
    KEEPS,
    /* The text as it was opened is being copied. */
    KEEPS_SOON,
    /* The text or the journal waits for space, or the disk refuses it: the session's `cause` says which. */
    KEEPS_NOT_YET,
    /* FILE was changed before it could be copied. */
    KEEPS_NOTHING,
    /* Its folder or one of its files was removed. */
    KEEPS_NOWHERE
};

#endif
