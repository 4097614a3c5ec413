/* Saves of FILE, each served by a child of the host, so that no disk can hold up the host. */
#ifndef SAVE_H
#define SAVE_H

#include <limits.h>
#include <stdbool.h>
#include <sys/types.h>

#include "cause.h"
#include "file.h"

struct saved;

/* A file that a save under a new name made: paths and folder, which is not open; the name as it came, and as a command line may have it; and
 * how messages show that and its last part. */
struct new_file {
    struct file file;
    /* The backup beside the file that was FILE before, if that stays torn; else empty. */
    char torn[NAME_MAX + 1];
    char raw[PATH_MAX], typed[PATH_MAX], shown[4 * PATH_MAX], shown_name[4 * PATH_MAX];
};

struct saver {
    /* Given before the first save. Files that the child keeps open: the session's folder, if saves overwrite FILE with the backup there,
     * else -1; the session's lock, or -1. */
    struct file *file;
    int backup_folder, lock;
    /* The permissions that a FILE which is gone had, as its session recorded them; -1 if they are unknown. */
    int lost_mode;
    /* Saves overwrite FILE, with the backup beside it. */
    bool is_itself;
    /* The name by which the program asks for FILE itself; empty without one. */
    const char *own_name;
    /* What identifies this run of the system; empty if unknown. */
    const char *boot;
    /* What the saves so far left, in memory that the child writes to. */
    struct saved *saved;
    /* Where the last child answers. */
    int answer;
};

/* The names of the backup and of its draft in the session's folder (the part `place` notes that there may be one). They stay as they are,
 * since sessions of earlier versions have them. */
#define BACKUP_NAME "mark"
#define BACKUP_DRAFT_NAME "mark.bx"
/* The file there that says how far a save into FILE has come (struct step). */
#define STEP_NAME "mark.step"
/* The keys since the text there. */
#define JOURNAL_NAME "journal"
/* The path of the file that a save under a new name is about to make: if the host is killed after that, the session is found by it. */
#define NEW_PATH_NAME "new-path"

/* Prepares a saver. What it has seen of FILE last is `file` as it was opened. backup_folder, lock, lost_mode and is_itself are -1, -1, -1
 * and false, and the caller may set them. Returns false without memory. */
bool saver_open(struct saver *saver, struct file *file);

/* Forks the child that serves one save, from its BEGIN frame on `request`, which it answers on `answer`, to its end. Returns its
 * process, or -1: then it is as after saver_finish that returns false. To be called whenever `request` can be read and there is no
 * child. */
pid_t saver_start(struct saver *saver, int request, int answer);

/* Takes in what the child left, once it has ended, and answers. Returns false where it was killed, and did not end the save. Then
 * the caller drops all that comes on `request`, and once nothing more comes, as the program waits for an answer, saver_refuse gives
 * it. None of them waits for a disk. */
bool saver_finish(struct saver *saver);
void saver_refuse(struct saver *saver);

/* What came of the last save: CAUSE_NONE where it is on the disk. */
enum cause saver_cause(const struct saver *saver);

/* The file that saves go to since a save under a new name, which the caller has to make `file`; NULL if there was none. */
const struct new_file *saver_new_file(const struct saver *saver);

/* FILE as the last save left or found it; false where no save looked at it. */
bool saver_stamp(const struct saver *saver, struct file_stamp *stamp, struct file_id *id);

/* FILE may have a part of its new text alone. A backup has the whole text: this name beside FILE, or BACKUP_NAME in the session's folder,
 * where it gives NULL. */
bool saver_is_torn(const struct saver *saver, const char **name);

/* Makes a new file of this name in an open folder, never over another, with the bytes of an open one and these permissions, and without an
 * access list that the folder gives to new files. */
enum cause make_file(int folder, const char *name, int source, mode_t mode);

#endif
