/* Decisions about saves, by plain facts, without system calls. save_judge.h says what each one means, file.h the comparisons of stamps;
 * their cases are in tests/host/judge_save.c. */
#include "save_judge.h"

enum { SET_IDS = 06000, ALL_BITS = 07777, GROUP_BITS = 070, OTHERS_BITS = 07 };

/* The first reason counts, as messages tell only one. */
enum reason find_in_place(const struct facts *file, const struct file_stamp *stamp, const struct facts *folder) {
    if (!stamp->is_there || !S_ISREG(stamp->found.st_mode) || !file->writable) return NO_REASON;
    if (!folder->writable || file->is_held_by_folder) return REASON_PROTECTED;
    if (file->is_mount) return REASON_MOUNTED;
    if (stamp->found.st_nlink > 1) return REASON_LINKED;
    if (file->access_list == YES) return REASON_LISTED;
    if (file->has_label) return REASON_LABELLED;
    return folder->gives_access_lists ? REASON_GIVEN_LIST : NO_REASON;
}

static const struct {
    const char *text, *harm;
} reasons[] = {
    [NO_REASON] = {"", ""},
    [REASON_PROTECTED] = {"is in a folder where you cannot replace it", "it cannot be saved"},
    [REASON_MOUNTED] = {"is mounted by itself", "it cannot be saved"},
    [REASON_LINKED] = {"has other names (hard links)", "a save would separate it from them"},
    [REASON_LISTED] = {"has an access list", "a save would remove the list"},
    [REASON_LABELLED] = {"has a security label", "a save may change the label"},
    [REASON_GIVEN_LIST] = {"is in a folder that gives new files an access list", "a save would give it one"},
};

const char *reason_text(enum reason reason) {
    return reasons[reason].text;
}

const char *reason_harm(enum reason reason) {
    return reasons[reason].harm;
}

mode_t mode_of_new(mode_t old, bool has_owner, bool has_group) {
    mode_t mode = old & ALL_BITS;
    if (has_owner && has_group) return mode;
    mode &= ~(mode_t)SET_IDS;
    if (has_group) return mode;
    /* the group may have had fewer rights than the bits say, so it gets what all others have */
    return (mode & ~(mode_t)GROUP_BITS) | (mode & OTHERS_BITS) << 3;
}

enum cause judge_stamp(const struct file_stamp *seen, const struct file_stamp *now) {
    if (!now->is_there) return CAUSE_NONE;
    if (!S_ISREG(now->found.st_mode) && !S_ISLNK(now->found.st_mode)) return CAUSE_NOT_PLAIN;
    return seen->is_there && is_unchanged(&seen->found, &now->found) ? CAUSE_NONE : CAUSE_CHANGED;
}

bool is_same_file(const struct stat *one, const struct stat *other) {
    return one->st_dev == other->st_dev && one->st_ino == other->st_ino;
}

static bool is_same_time(struct timespec one, struct timespec other) {
    return one.tv_sec == other.tv_sec && one.tv_nsec == other.tv_nsec;
}

bool has_same_text(const struct stat *one, const struct stat *other) {
    return one->st_size == other->st_size && is_same_time(one->st_mtim, other->st_mtim);
}

static bool is_alike(const struct stat *one, const struct stat *other) {
    return is_same_file(one, other) && has_same_text(one, other) && one->st_mode == other->st_mode && one->st_uid == other->st_uid && one->st_gid == other->st_gid &&
           one->st_nlink == other->st_nlink;
}

bool is_unchanged(const struct stat *one, const struct stat *other) {
    return is_alike(one, other) && is_same_time(one->st_ctim, other->st_ctim);
}

bool is_taken_out(const struct file_stamp *seen, const struct file_stamp *out) {
    return seen->is_there && out->is_there && is_alike(&seen->found, &out->found);
}
