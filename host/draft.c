/* The new text of a save, and how it takes FILE's place: as a new file, or, where that must not replace FILE, by overwriting FILE while the
 * draft is the backup. All of this runs in the child that serves the save. saving.h says what each call promises. */
#include "saving.h"

#include <errno.h>
#include <fcntl.h>
#include <linux/fs.h>
#include <linux/magic.h>
#include <stdatomic.h>
#include <stdio.h>
#include <stdlib.h>
#include <string.h>
#include <sys/syscall.h>
#include <sys/vfs.h>
#include <sys/xattr.h>
#include <time.h>
#include <unistd.h>

#include "save_judge.h"
#include "util.h"

/* TRIES: how many random names to try, and how many exchanges to undo. LOCK_TRIES: how often to wait LOCK_MS for a lock. PIECE: bytes that
 * are written to FILE at a time. RIGHTS: the bits of a mode without the set-ID and sticky bits. */
enum { TRIES = 20, LOCK_TRIES = 500, LOCK_MS = 10, PIECE = 65536, RIGHTS = 0777 };

/* Where the file system has no locks, the save goes on without one. */
enum cause lock_for_save(int file) {
    int error = lock_file(file, LOCK_TRIES, LOCK_MS);
    return is_unsupported(error) ? CAUSE_NONE : cause_of(error);
}

/* ---- the state that a save leaves */

void note_file(struct save *save, const struct file_stamp *now, int itself) {
    save->state.seen = *now;
    save->state.is_told = true;
    if (!now->is_there || !S_ISREG(now->found.st_mode)) return;
    save->state.old = *now;
    save->state.is_old_plain = has_access_list(itself) == NO;
}

/* The same for what is at FILE's name now. */
static void note_file_now(struct save *save) {
    struct file_stamp now;
    int itself;
    if (stamp_and_open(save->folder, save->file->name, &now, &itself)) note_file(save, &now, itself);
    close_one(&itself);
}

void save_publish(const struct save *save) {
    struct saved *saved = save->saver->saved;
    unsigned next = (atomic_load(&saved->current) + 1) & 1;
    saved->slots[next] = save->state;
    atomic_store(&saved->current, next);
}

/* ---- names: these functions return 0 or an errno */

static int rename_by(int folder, const char *from, const char *to, unsigned flags) {
    return syscall(SYS_renameat2, folder, from, folder, to, flags) == 0 ? 0 : errno;
}

/* Renames where nothing may be at the new name, by the surest call that the disk has. The last way leaves a moment in which another
 * program could create the name. */
static int move_to_free(int folder, const char *from, const char *to) {
    struct file_stamp there;
    int error = rename_by(folder, from, to, RENAME_NOREPLACE);
    if (!is_unsupported(error)) return error;
    if (linkat(folder, from, folder, to, 0) == 0) {
        unlinkat(folder, from, 0);
        return 0;
    }
    if (errno != EPERM && !is_unsupported(errno)) return errno;
    if (!stamp_at(folder, to, &there)) return errno;
    if (there.is_there) return EEXIST;
    return renameat(folder, from, folder, to) == 0 ? 0 : errno;
}

/* Gives the draft a name that is free. */
static int name_draft(struct draft *draft, const char *name) {
    int error = 0;
    if (draft->name[0]) error = move_to_free(draft->folder, draft->name, name);
    else if (linkat(AT_FDCWD, link_of(draft->file).path, draft->folder, name, AT_SYMLINK_FOLLOW) != 0) error = errno;
    if (error == 0) snprintf(draft->name, sizeof draft->name, "%s", name);
    return error;
}

/* Names or creates a draft beside FILE by a random name, as file.h describes it. */
static int name_by_chance(struct draft *draft, const struct file *file, int (*name_it)(struct draft *, const char *)) {
    char name[NAME_MAX + 1], random[DRAFT_LETTERS + 1];
    int error = EEXIST;
    for (int tries = 0; error == EEXIST && tries < TRIES; tries++) {
        if (!make_letters(random, DRAFT_LETTERS, DRAFT_ALPHABET)) return EIO;
        snprintf(name, sizeof name, "%.*s.%s%s", (int)draft_stem(file->name), file->name, random, DRAFT_END);
        error = name_it(draft, name);
    }
    return error;
}

/* Gives the backup beside FILE the first free name of those in the manual, else a random one. */
static int name_backup(struct save *save) {
    char name[NAME_MAX + 1];
    int error = EEXIST;
    for (int number = 0; error == EEXIST && number < BACKUP_NAMES; number++) {
        int length = snprintf(name, sizeof name, number ? "%s" DRAFT_END "%d" : "%s" DRAFT_END, save->file->name, number);
        error = length > NAME_MAX ? ENAMETOOLONG : name_draft(&save->draft, name);
    }
    if (error != EEXIST && error != ENAMETOOLONG) return error;
    return save->draft.name[0] ? 0 : name_by_chance(&save->draft, save->file, name_draft);
}

/* Syncs FILE's folder; one that the user cannot read is synced with its disk. */
static int sync_folder(const struct save *save) {
    if (save->folder_to_sync >= 0) return sync_file(save->folder_to_sync);
    return syncfs(save->draft.file) == 0 ? 0 : errno;
}

/* ---- the draft */

/* Creates a draft of this name. O_EXCL and O_NOFOLLOW: nothing that another program put there is written. */
static int open_at(struct draft *draft, const char *name) {
    draft->file = openat(draft->folder, name, O_RDWR | O_CREAT | O_EXCL | O_NOFOLLOW | O_CLOEXEC, draft->mode);
    if (draft->file < 0) return errno;
    snprintf(draft->name, sizeof draft->name, "%s", name);
    return 0;
}

/* Creates a draft beside FILE: without a name if the system can, else under a random name. */
static int open_beside(struct draft *draft, const struct file *file) {
    draft->file = openat(draft->folder, ".", O_TMPFILE | O_RDWR | O_CLOEXEC, draft->mode);
    /* it will get its name through /proc, which may have been unmounted */
    if (draft->file >= 0 && faccessat(AT_FDCWD, link_of(draft->file).path, F_OK, 0) == 0) return 0;
    close_one(&draft->file);
    return name_by_chance(draft, file, open_at);
}

/* Creates the draft of a backup in the session's folder, in place of what a killed save may have left. */
static int open_own(struct save *save) {
    /* FILE may be torn, and need the backup that exists */
    if (faccessat(save->draft.folder, BACKUP_NAME, F_OK, AT_SYMLINK_NOFOLLOW) == 0) save->state.is_torn = true;
    if (unlinkat(save->draft.folder, BACKUP_DRAFT_NAME, 0) != 0 && errno != ENOENT) return errno;
    return open_at(&save->draft, BACKUP_DRAFT_NAME);
}

/* Removes an access list that a folder gave a new file. */
static int remove_list(int file) {
    return fremovexattr(file, "system.posix_acl_access") == 0 || errno == ENODATA || is_unsupported(errno) ? 0 : errno;
}

/* Gives the draft the owner, group and permissions of the file that it replaces, as far as the system permits. */
static int take_over(const struct save *save) {
    const struct stat *old = &save->state.old.found;
    struct stat own;
    int file = save->draft.file, error = remove_list(file);
    if (error != 0) return error;
    if (!save->state.old.is_there) return fchmod(file, (mode_t)save->saver->lost_mode & RIGHTS) == 0 ? 0 : errno;
    if (fstat(file, &own) != 0) return errno;
    bool has_group = own.st_gid == old->st_gid || fchown(file, (uid_t)-1, old->st_gid) == 0;
    /* a refusal is a fault only for root */
    if (!has_group && geteuid() == 0) return errno;
    bool has_owner = own.st_uid == old->st_uid || fchown(file, old->st_uid, (gid_t)-1) == 0;
    if (!has_owner && geteuid() == 0) return errno;
    return fchmod(file, mode_of_new(old->st_mode, has_owner, has_group && save->state.is_old_plain)) == 0 ? 0 : errno;
}

enum cause write_draft(struct save *save) {
    struct draft *draft = &save->draft;
    int backup_folder = save->is_in_place ? save->saver->backup_folder : -1;
    bool is_known = !save->new_name[0] && (save->state.old.is_there || save->saver->lost_mode >= 0);
    /* a FILE that did not exist gets the usual mode, reduced by the user's umask; under a new name others may not do more than before */
    mode_t usual = save->new_name[0] && save->state.old.is_there ? 0600 | (0066 & save->state.old.found.st_mode) : 0666;
    if (save->is_cut) return CAUSE_OUT_OF_MEMORY;
    *draft = (struct draft){.folder = backup_folder >= 0 ? backup_folder : save->folder, .mode = save->is_in_place || is_known ? 0600 : usual, .file = -1};
    int error = backup_folder >= 0 ? open_own(save) : open_beside(draft, save->file);
    if (error == 0) error = write_bytes(draft->file, save->bytes, save->length);
    if (error == 0 && !save->is_in_place && is_known) error = take_over(save);
    return cause_of(error == 0 ? sync_file(draft->file) : error);
}

/* Removes the draft's name, if that still leads to the draft. */
static void remove_name(const struct draft *draft) {
    struct stat own;
    struct file_stamp there;
    if (draft->file >= 0 && draft->name[0] && fstat(draft->file, &own) == 0 && stamp_at(draft->folder, draft->name, &there) &&
        there.is_there && is_same_file(&own, &there.found))
        unlinkat(draft->folder, draft->name, 0);
}

void draft_remove(struct draft *draft) {
    remove_name(draft);
    draft->name[0] = 0;
    close_one(&draft->file);
}

enum cause make_file(int folder, const char *name, int source, mode_t mode) {
    int file = openat(folder, name, O_WRONLY | O_CREAT | O_EXCL | O_NOFOLLOW | O_CLOEXEC, 0600), error = file < 0 ? errno : 0;
    if (error == 0) error = copy_file(source, 0, file);
    if (error == 0) error = remove_list(file);
    if (error == 0 && fchmod(file, mode) != 0) error = errno;
    if (error == 0) error = sync_file(file);
    if (error != 0 && file >= 0) unlinkat(folder, name, 0);
    close_one(&file);
    return cause_of(error);
}

/* ---- a new file in FILE's place */

/* Whether what the exchange took from FILE's place is what was seen there, without an access list that it has got since. */
static bool came_out(const struct save *save) {
    struct file_stamp out;
    int itself;
    bool is_right = stamp_and_open(save->folder, save->draft.name, &out, &itself) && is_taken_out(&save->state.seen, &out) &&
                    (!save->is_listless || has_access_list(itself) != YES);
    close_one(&itself);
    return is_right;
}

/* Undoes an exchange: puts back what it took from FILE's place. If another program put something newer in that place meanwhile, this
 * exchange takes that out, so it is put back in turn. Returns whether what has the draft's name at the end may be removed. */
static bool exchange_back(const struct draft *draft, const char *name, struct stat last_in) {
    struct file_stamp goes_in, out;
    for (int tries = 0; tries < TRIES; tries++) {
        if (!stamp_at(draft->folder, draft->name, &goes_in) || !goes_in.is_there) return false;
        if (rename_by(draft->folder, draft->name, name, RENAME_EXCHANGE) != 0) return false;
        if (!stamp_at(draft->folder, draft->name, &out) || !out.is_there) return false;
        if (is_same_file(&out.found, &last_in)) return true;
        last_in = goes_in.found;
    }
    return false;
}

/* The cause why a rename to FILE's name failed. A mount cannot be replaced, so the next save overwrites it. */
static enum cause refused_rename(struct save *save, int error) {
    if (error == EBUSY) save->state.is_mounted = true;
    return error == EBUSY ? CAUSE_CHANGED : cause_of(error);
}

/* Puts the draft in FILE's place by a rename, on a file system that cannot exchange files. The old file cannot be put back. */
static enum cause replace_by_rename(struct save *save) {
    if (renameat(save->folder, save->draft.name, save->folder, save->file->name) != 0) return refused_rename(save, errno);
    save->draft.name[0] = 0;
    return cause_of(sync_folder(save));
}

/* Puts the draft at FILE's name, where nothing is. */
static enum cause create(struct save *save) {
    struct draft *draft = &save->draft;
    int error = name_draft(draft, save->file->name);
    if (error == EEXIST) return CAUSE_CHANGED;
    if (error != 0) return cause_of(error);
    error = sync_folder(save);
    if (error != 0) remove_name(draft);
    draft->name[0] = 0;
    return cause_of(error);
}

/* Exchanges the draft with FILE, checks that what comes out is what was seen last, and removes it once the new name is on the disk. */
static enum cause exchange(struct save *save, const struct stat *own) {
    struct draft *draft = &save->draft;
    int error = draft->name[0] ? 0 : name_by_chance(draft, save->file, name_draft);
    if (error != 0) return cause_of(error);
    error = rename_by(draft->folder, draft->name, save->file->name, RENAME_EXCHANGE);
    if (is_unsupported(error)) return replace_by_rename(save);
    if (error == ENOENT) return create(save);
    if (error != 0) return refused_rename(save, error);
    bool is_right = came_out(save);
    if (is_right) error = sync_folder(save);
    if ((is_right && error == 0) || exchange_back(draft, save->file->name, *own)) unlinkat(draft->folder, draft->name, 0);
    draft->name[0] = 0;
    return is_right ? cause_of(error) : CAUSE_CHANGED;
}

/* Removes the backup, now that FILE is complete. */
static void drop_backup(struct save *save) {
    int backup_folder = save->saver->backup_folder;
    if (backup_folder >= 0) unlinkat(backup_folder, BACKUP_NAME, 0);
    if (backup_folder >= 0) unlinkat(backup_folder, STEP_NAME, 0);
    if (save->state.is_torn && save->state.torn[0]) unlinkat(save->folder, save->state.torn, 0);
    save->state.is_torn = false;
    save->state.torn[0] = 0;
}

/* Takes the open file for what was seen last. */
static void note_own(struct save *save, int file) {
    struct state *state = &save->state;
    state->seen.is_there = fstat(file, &state->seen.found) == 0;
    state->old = state->seen;
    state->has_id = find_id(file, &state->id);
}

enum cause replace_file(struct save *save) {
    struct stat before;
    struct file_stamp now;
    if (fstat(save->draft.file, &before) != 0) return cause_of(errno);
    enum cause cause = save->is_there ? exchange(save, &before) : create(save);
    bool is_known = cause != CAUSE_NONE && stamp_at(save->folder, save->file->name, &now);
    /* what was put back counts as seen, and so does the draft where it stayed in FILE's place */
    bool is_back = is_known && is_taken_out(&save->state.seen, &now), is_own = is_known && now.is_there && is_same_file(&now.found, &before);
    if (cause == CAUSE_NONE || is_own) {
        note_own(save, save->draft.file);
        save->state.is_told = false;
        save->state.is_old_plain = has_access_list(save->draft.file) == NO;
        /* another program that has written it since is found by the next look */
        save->state.seen.found.st_size = before.st_size;
        save->state.seen.found.st_mtim = before.st_mtim;
    } else if (cause == CAUSE_CHANGED) {
        note_file_now(save);
    } else if (is_back) {
        save->state.seen = now;
    }
    /* the backup of the file that was FILE until now stays */
    if (cause == CAUSE_NONE && !save->new_name[0]) drop_backup(save);
    return cause;
}

/* ---- FILE itself is overwritten */

/* Records how far the overwriting has come, which a start reads after it was killed: FILE (-1 before it is changed) has so many bytes. A
 * later start does without what cannot be written. */
static void note_step(const struct save *save, enum step_kind kind, int file, size_t from, size_t to) {
    char words[FACT_MOST];
    struct stat found = {0};
    const struct stat *seen = &save->state.seen.found;
    if (save->step < 0) return;
    if (file < 0 ? clock_gettime(CLOCK_REALTIME, &found.st_mtim) != 0 : fstat(file, &found) != 0) return;
    struct step step = {.kind = kind, .from = from, .to = to, .id = {.device = seen->st_dev, .inode = seen->st_ino},
                        .seconds = found.st_mtim.tv_sec, .nanos = (uint32_t)found.st_mtim.tv_nsec};
    snprintf(step.boot, sizeof step.boot, "%s", save->saver->boot);
    step_text(&step, words);
    if (pwrite(save->step, words, strlen(words), 0) < 0) return;
}

/* Makes the draft the backup. The backup, its name and the record of steps are on the disk before FILE changes. */
static int keep_backup(struct save *save) {
    int own = save->saver->backup_folder, error = own < 0 ? name_backup(save) : 0;
    if (own < 0) return error == 0 ? sync_folder(save) : error;
    if (renameat(own, BACKUP_DRAFT_NAME, own, BACKUP_NAME) != 0) return errno;
    snprintf(save->draft.name, sizeof save->draft.name, "%s", BACKUP_NAME);
    save->step = openat(own, STEP_NAME, O_WRONLY | O_CREAT | O_NOFOLLOW | O_CLOEXEC, 0600);
    int folder = save->step < 0 ? -1 : openat(own, ".", O_RDONLY | O_DIRECTORY | O_CLOEXEC);
    if (folder < 0) return errno;
    /* if FILE is torn by an earlier save, that one's step stays */
    if (!save->state.is_torn) note_step(save, STEP_READY, -1, 0, 0);
    error = sync_file(save->step);
    if (error == 0) error = sync_file(folder);
    close(folder);
    return error;
}

/* Whether the open file is what was seen last. An overlay copies a file of its lower layer as it is opened for writing, and the copy may
 * have another number, and no other names. */
static bool is_seen(const struct save *save, int file) {
    const struct stat *seen = &save->state.seen.found;
    struct stat found;
    struct statfs look;
    if (fstat(file, &found) != 0) return false;
    if (is_unchanged(seen, &found)) return true;
    return fstatfs(file, &look) == 0 && look.f_type == OVERLAYFS_SUPER_MAGIC && has_same_text(seen, &found) && seen->st_mode == found.st_mode &&
           seen->st_uid == found.st_uid && seen->st_gid == found.st_gid;
}

/* Opens FILE for writing and locks it, if it is the file that was seen last. */
static enum cause open_to_write(const struct save *save, int *file) {
    enum { HOW = O_NOFOLLOW | O_NONBLOCK | O_CLOEXEC | O_NOCTTY };
    *file = openat(save->folder, save->file->name, O_RDWR | HOW);
    if (*file < 0 && errno == EACCES) *file = openat(save->folder, save->file->name, O_WRONLY | HOW);
    if (*file < 0) return errno == ELOOP || errno == ENXIO || errno == ENOENT ? CAUSE_CHANGED : cause_of(errno);
    enum cause cause = lock_for_save(*file);
    return cause == CAUSE_NONE && !is_seen(save, *file) ? CAUSE_CHANGED : cause;
}

/* Records that FILE may be torn, and which backup has its text. An older backup is removed. */
static void note_torn(struct save *save) {
    struct state *state = &save->state;
    const char *name = save->saver->backup_folder < 0 ? save->draft.name : "";
    if (state->is_torn && state->torn[0] && strcmp(state->torn, name) != 0) unlinkat(save->folder, state->torn, 0);
    state->is_torn = true;
    snprintf(state->torn, sizeof state->torn, "%s", name);
    save_publish(save);
}

/* Gives FILE, which is empty, these bytes. */
static int fill(const struct save *save, int file, const unsigned char *bytes, size_t length) {
    int error = lseek(file, 0, SEEK_SET) == 0 ? 0 : errno;
    for (size_t done = 0, piece; error == 0 && done < length; done += piece) {
        piece = length - done < PIECE ? length - done : PIECE;
        note_step(save, STEP_PARTLY, file, done, done + piece);
        error = write_bytes(file, bytes + done, piece);
    }
    if (error == 0) note_step(save, STEP_WHOLE, file, length, length);
    return error == 0 ? sync_file(file) : error;
}

/* Reads FILE's old text, which is put back if the save fails; NULL if that is impossible. */
static unsigned char *read_old(const struct save *save, int file) {
    size_t length = (size_t)save->state.seen.found.st_size;
    unsigned char *bytes = length <= 2 * (size_t)LARGEST_TEXT ? malloc(length + 1) : NULL;
    if (bytes && pread(file, bytes, length, 0) == (ssize_t)length) return bytes;
    free(bytes);
    return NULL;
}

/* Puts the old text back. If that fails too, FILE is emptied, as a beginning of the old text would count as another program's. */
static bool put_old_back(const struct save *save, int file, const unsigned char *old, size_t length) {
    if (ftruncate(file, 0) == 0 && fill(save, file, old, length) == 0) return true;
    note_step(save, STEP_PARTLY, -1, 0, 0);
    if (ftruncate(file, 0) != 0) return false;
    return false;
}

/* Overwrites the open FILE. If that fails, puts the old text back. */
static int overwrite(struct save *save, int file) {
    struct state *state = &save->state;
    bool was_torn = state->is_torn;
    size_t old_length = (size_t)state->seen.found.st_size;
    unsigned char *old = was_torn ? NULL : read_old(save, file);
    note_step(save, STEP_PARTLY, -1, 0, 0);
    /* this process may be killed right after FILE is emptied */
    note_torn(save);
    int error = ftruncate(file, 0) == 0 ? 0 : errno;
    if (error != 0) {
        state->is_torn = was_torn;
    } else {
        error = fill(save, file, save->bytes, save->length);
        if (error != 0 && old) state->is_torn = !put_old_back(save, file, old, old_length);
        note_own(save, file);
        if (state->is_torn) state->is_told = false;
        /* another program that has written it since, and gave it another size, is found by the next look; some network disks set the time
         * as they sync */
        if (error == 0) state->seen.found.st_size = (off_t)save->length;
    }
    /* the backup stays as long as FILE may need it */
    if (state->is_torn) save->draft.name[0] = 0;
    free(old);
    return error;
}

enum cause overwrite_file(struct save *save) {
    int file = -1, error = keep_backup(save);
    enum cause cause = error == 0 ? open_to_write(save, &file) : cause_of(error);
    if (cause == CAUSE_NONE) cause = cause_of(overwrite(save, file));
    else if (cause == CAUSE_CHANGED) note_file_now(save);
    close_one(&file);
    close_one(&save->step);
    if (cause == CAUSE_NONE || !save->state.is_torn) drop_backup(save);
    return cause;
}
