/* A save in progress, in the child that serves it: what save.c and draft.c share. */
#ifndef SAVING_H
#define SAVING_H

#include <limits.h>
#include <stdatomic.h>
#include <stdbool.h>
#include <stddef.h>
#include <sys/stat.h>

#include "file.h"
#include "save.h"

/* The new text as a file, before it takes FILE's place. */
struct draft {
    /* The folder, which the draft does not close, and the draft's name there; empty while it has none. */
    int folder;
    char name[NAME_MAX + 1];
    /* Its permissions at its creation. */
    mode_t mode;
    /* Open for reading and writing; -1 if there is no draft. */
    int file;
};

/* What one save leaves for the next one to know. */
struct state {
    /* What was at FILE's name when last seen; the last plain file there, whose owner and mode a new file gets; whether its mode
     * says all of its permissions. */
    struct file_stamp seen, old;
    bool is_old_plain;
    /* What was seen last is another program's, and the user was told of it: only a save that was told to may overwrite it. */
    bool is_told;
    bool has_new_file;
    struct new_file new_file;
    /* FILE is a mount, so it is overwritten in place. */
    bool is_mounted;
    /* The user was told that FILE's links lead elsewhere. */
    bool is_link_told;
    /* FILE may lack a part of its text; the name of the backup beside FILE, or empty if the backup is in the session's folder. */
    bool is_torn;
    char torn[NAME_MAX + 1];
    /* The result of the last save, and FILE's identity after it. */
    bool is_over;
    enum cause cause;
    bool has_id;
    struct file_id id;
};

struct save {
    struct saver *saver;
    const struct file *file;
    struct state state;
    /* FILE's folder; and the same folder opened for syncing and locking, -1 if it cannot be read. */
    int folder, folder_to_sync;
    /* The text; `is_cut` before its beginning, and if there was no memory for all of it. */
    unsigned char *bytes;
    size_t length, room;
    bool is_cut;
    struct draft draft;
    /* The file in the session's folder that says how far the overwriting of FILE has come; -1 without one. */
    int step;
    /* FILE is there, as it was last seen; it is to be overwritten; it has no access list. What was told may be overwritten. */
    bool is_there, is_in_place, is_listless, is_over;
    /* The name of the new file that the save makes, and as it came; empty if it goes to FILE. */
    char new_name[PATH_MAX], raw_name[PATH_MAX];
};

/* The states of the saver and of its host, in memory that both have: the saver writes to the slot that is not current, and then makes it the
 * current one. So the host knows the last state even if the saver is killed. */
struct saved {
    struct state slots[2];
    atomic_uint current;
};

/* ---- draft.c */

/* Takes what is at FILE's name, as it was looked at, for what was seen last. Only a plain file is also noted as the one whose owner and mode a
 * new file gets. */
void note_file(struct save *save, const struct file_stamp *now, int itself);

/* Shows the state to the host. */
void save_publish(const struct save *save);

/* Writes the text to a draft, which nobody else can read, and syncs it. A draft that is to replace FILE gets FILE's owner and mode. */
enum cause write_draft(struct save *save);

/* Puts the draft in FILE's place, all or nothing. If FILE is not what was seen last, the save fails, and the next one may replace it. */
enum cause replace_file(struct save *save);

/* Makes the draft the backup, and writes the text to FILE itself. */
enum cause overwrite_file(struct save *save);

/* Closes the draft, and removes its name if that still leads to the draft. */
void draft_remove(struct draft *draft);

/* Locks an open file or folder against other saves of the editor, for which it waits some seconds. What is not locked is not written, unless
 * the file system has no locks at all. */
enum cause lock_for_save(int file);

#endif
