/* FILE is opened once and from then on used by its descriptors only. Links are followed at the opening and never again. */
#ifndef FILE_H
#define FILE_H

#include <limits.h>
#include <stdbool.h>
#include <stdint.h>
#include <sys/stat.h>

#include "cause.h"
#include "session_judge.h"

/* The largest text, in bytes. */
enum { LARGEST_TEXT = 16777216 };

/* ---- facts about an open file or folder that only the system knows */

enum answer { NO, YES, UNKNOWN };

struct facts {
    /* The user may write it. */
    bool writable;
    /* It has an access list that says more than its mode. */
    enum answer access_list;
    /* It is a folder that gives new files an access list. */
    bool gives_access_lists;
    /* It has a security label other than its folder's, capabilities, or another attribute that only root can set. */
    bool has_label;
    /* It is the root of a mount. */
    bool is_mount;
    /* Its folder has the sticky bit, as /tmp has, so only another user can replace it. */
    bool is_held_by_folder;
};

/* The facts about a file that is open (O_PATH is enough), and about its folder. */
void find_facts(int at, int folder, struct facts *facts);
void find_folder_facts(int folder, struct facts *facts);

bool is_in_memory(int at);
uint64_t free_room(int at);
enum answer has_access_list(int at);

/* ---- FILE */

/* What was at a name, the link itself if it was one. */
struct file_stamp {
    bool is_there;
    struct stat found;
};

struct file {
    /* As the command line has it. */
    const char *typed;
    /* The folder (O_PATH), and FILE's name in it, which was no link. */
    int folder;
    char name[PATH_MAX];
    /* FILE, opened by O_PATH, and opened for reading; -1 if FILE is not there, or cannot be read. */
    int itself, text;
    /* FILE is there, and the user cannot read it; it begins with a byte order mark, which `text`, a copy in memory, lacks. */
    bool is_unreadable, has_mark;
    /* What was at the name at the opening. */
    struct file_stamp stamp;
    /* Of FILE, if it was there, and of its folder. */
    struct file_id id, folder_id;
    struct facts facts, folder_facts;
    /* The absolute paths of FILE and of its folder, without links. `is_at_path`: at the opening, `folder_path` led to the folder. */
    char path[2 * PATH_MAX], folder_path[PATH_MAX];
    bool is_at_path;
    /* What messages call the folder. */
    char folder_name[PATH_MAX];
    /* A link was followed. */
    bool is_linked;
    /* What has FILE's name by now cannot be edited, for this cause: only the name counts. */
    enum cause other;
    /* The folder is gone: `folder` is the nearest one above that is there, and nothing can be saved. */
    bool is_lost;
};

/* Opens FILE, or only its folder if FILE does not exist. Fails if FILE is not a plain file, or its folder does not exist. Opening a pipe or
 * device never waits. */
enum cause open_file(struct file *file, const char *typed);

/* The same for a session's FILE: its folder may be gone, and something else may be in its place. */
enum cause open_lost_file(struct file *file, const char *typed);

/* Opens the folder of a file that is to be made. Fails if something has its name. */
enum cause open_new_file(struct file *file, const char *typed);

/* A byte order mark, which is no text. Puts a copy in memory without it, or with it, in place of an open text that begins with it, or is to.
 * Returns whether it did: without memory, and where the text is too long, the text stays as it is. */
#define BYTE_ORDER_MARK "\xef\xbb\xbf"
bool leave_out_mark(int *text);
bool put_mark(int *text);

/* Puts a copy in memory of what can be read from an open pipe or device in its place; of what is longer than the longest text, the beginning,
 * which is longer too. -1, with errno set, at a fault. */
void read_into_memory(int *source);

/* Closes FILE once it was read and copied, but not its folder: some network disks rename a replaced file that is still open, and keep
 * it. close_file closes all. */
void release_file(struct file *file);
void close_file(struct file *file);

/* Whether FILE cannot be read or saved. */
enum cause check_access_to(const struct file *file, bool is_in_place);

/* Why FILE, which the program could not read as UTF-8, is no text. */
enum cause check_encoding(const struct file *file);

/* The message about FILE. `number`: the line, from 1, that is not UTF-8. */
const char *file_message(const struct file *file, enum cause cause, unsigned long long number);

/* The message that names files which killed saves left beside FILE; NULL if there are none. */
const char *leftovers_line(const struct file *file);

/* The path of a name beside FILE, by the folder that the user has typed, unless links lead elsewhere. */
const char *path_beside(const struct file *file, const char *name);

/* A draft beside FILE is named by the first bytes of FILE's name, at most DRAFT_STEM, a point, DRAFT_LETTERS random letters, and `.bx`. The
 * backup, which has the whole text while a save overwrites FILE, is FILE.bx, or FILE.bx1 to FILE.bx9. */
#define DRAFT_END ".bx"
#define DRAFT_ALPHABET "abcdefghijklmnopqrstuvwxyz0123456789"
enum { DRAFT_STEM = 64, DRAFT_LETTERS = 8, BACKUP_NAMES = 10 };
size_t draft_stem(const char *name);

/* Looks at a name in a folder. Returns false at a fault other than that nothing is there. */
bool stamp_at(int folder, const char *name, struct file_stamp *stamp);

/* The same, and opens what is there by O_PATH, so that all later questions are about one file. `itself` is -1 if nothing is there, or
 * at a fault. */
bool stamp_and_open(int folder, const char *name, struct file_stamp *stamp, int *itself);

/* Whether both are the same file; whether it is also unchanged, by size, times, owner, permissions and number of names. */
bool is_same_file(const struct stat *one, const struct stat *other);
bool is_unchanged(const struct stat *one, const struct stat *other);
/* Whether both have the same text, by size and time of change. */
bool has_same_text(const struct stat *one, const struct stat *other);

/* Identifies an open file. Returns false if the system does not say. */
bool find_id(int at, struct file_id *id);

/* The path of an open file or folder, as the system reports it; the last one if it is gone. Returns false if the system does not say. */
bool path_of(int at, char path[PATH_MAX]);

#endif
