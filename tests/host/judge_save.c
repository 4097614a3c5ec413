/* Tables of cases for save_judge.c. Prints `N passed, M failed`, and a line for each failed case. Exit status 1: one failed. */
#include <errno.h>
#include <stdio.h>
#include <string.h>

#include "../../host/cause.h"
#include "../../host/save_judge.h"

static int passed, failed;

static void check(const char *name, long found, long wanted) {
    if (found == wanted) {
        passed++;
        return;
    }
    failed++;
    printf("FAILS %s: %ld and not %ld\n", name, found, wanted);
}

/* ---- in place, or not */

/* Letters of FILE's facts: w it may be written, k its folder keeps it, m a mount, l an access list, s a label, ? not all is known;
 * of the folder's: w, g it gives lists; and FILE's kind (- nothing, f a plain file, d a folder, n a link) and names. */
static const struct {
    const char *name, *file, *folder;
    char kind;
    unsigned names;
    enum reason wanted;
} places[] = {
    {"a usual file", "w", "w", 'f', 1, NO_REASON},
    {"nothing", "", "w", '-', 0, NO_REASON},
    {"nothing in a closed folder", "", "", '-', 0, NO_REASON},
    {"a folder", "wm", "w", 'd', 2, NO_REASON},
    {"a link", "w", "", 'n', 1, NO_REASON},
    {"write-protected", "l", "w", 'f', 2, NO_REASON},
    {"write-protected, in a closed folder", "", "", 'f', 1, NO_REASON},
    {"in a closed folder", "w", "", 'f', 1, REASON_PROTECTED},
    {"in a closed folder that gives lists", "wl", "g", 'f', 2, REASON_PROTECTED},
    {"another's in /tmp", "wk", "w", 'f', 1, REASON_PROTECTED},
    {"another's in /tmp, with a list", "wkl", "w", 'f', 3, REASON_PROTECTED},
    {"a mount", "wm", "w", 'f', 1, REASON_MOUNTED},
    {"a mount with two names and a list", "wml", "wg", 'f', 2, REASON_MOUNTED},
    {"two names", "w", "w", 'f', 2, REASON_LINKED},
    {"two names and a list", "wl", "w", 'f', 2, REASON_LINKED},
    {"a list", "wl", "w", 'f', 1, REASON_LISTED},
    {"a list and a label", "wls", "wg", 'f', 1, REASON_LISTED},
    {"a label", "ws", "w", 'f', 1, REASON_LABELLED},
    {"a label in a folder that gives lists", "ws", "wg", 'f', 1, REASON_LABELLED},
    {"in a folder that gives lists", "w", "wg", 'f', 1, REASON_GIVEN_LIST},
    {"nothing in a folder that gives lists", "", "wg", '-', 0, NO_REASON},
    {"in a folder with a list of its own", "w", "wl", 'f', 1, NO_REASON},
    {"of an unknown list", "w?", "w?", 'f', 1, NO_REASON},
    {"of which no name is left", "w", "w", 'f', 0, NO_REASON},
};

/* The facts that these letters stand for; see `places`. */
static struct facts facts_of(const char *letters) {
    struct facts facts = {.writable = strchr(letters, 'w')};
    facts.is_held_by_folder = strchr(letters, 'k');
    facts.is_mount = strchr(letters, 'm');
    facts.access_list = strchr(letters, 'l') ? YES : strchr(letters, '?') ? UNKNOWN : NO;
    facts.gives_access_lists = strchr(letters, 'g');
    facts.has_label = strchr(letters, 's');
    return facts;
}

/* Why a save overwrites FILE in place, if it does. */
static void check_places(void) {
    for (size_t i = 0; i < sizeof places / sizeof *places; i++) {
        struct facts file = facts_of(places[i].file), folder = facts_of(places[i].folder);
        struct file_stamp stamp = {.is_there = places[i].kind != '-'};
        stamp.found.st_mode = places[i].kind == 'd' ? S_IFDIR | 0755 : places[i].kind == 'n' ? S_IFLNK | 0777 : S_IFREG | 0644;
        stamp.found.st_nlink = places[i].names;
        enum reason reason = find_in_place(&file, &stamp, &folder);
        check(places[i].name, reason, places[i].wanted);
        check(places[i].name, reason_text(reason)[0] != 0, places[i].wanted != NO_REASON);
        check(places[i].name, reason_harm(reason)[0] != 0, places[i].wanted != NO_REASON);
    }
}

/* ---- permissions of a new file */

/* Letters of what it got: o the owner, g the group, p the mode says all. */
static const struct {
    const char *name, *taken;
    mode_t old, wanted;
} modes[] = {
    {"all is kept", "ogp", 0640, 0640},
    {"set-ID bits are kept", "ogp", 06755, 06755},
    {"the sticky bit is kept", "ogp", 01644, 01644},
    {"of another kind's bits", "ogp", S_IFREG | 0600, 0600},
    {"another owner loses the set-ID bits", "gp", 06751, 0751},
    {"another owner alone", "gp", 0640, 0640},
    {"another group", "op", 0660, 0600},
    {"another group gets what all may", "op", 0604, 0644},
    {"another group gets no more than all may", "op", 0674, 0644},
    {"another group loses the set-ID bits", "op", 06775, 0755},
    {"both are others'", "p", 02664, 0644},
    {"an access list's mask is no group's right", "og", 0660, 0600},
    {"an access list's mask, readable by all", "og", 0674, 0644},
    {"an access list and set-ID bits", "og", 04770, 0700},
    {"an access list and another owner", "g", 0660, 0600},
    {"nothing is kept", "", 06777, 0777},
    {"the sticky bit and another group", "op", 01664, 01644},
    {"no rights", "ogp", 0, 0},
};

/* The permissions of a new file, by what of the old one was taken over. */
static void check_modes(void) {
    for (size_t i = 0; i < sizeof modes / sizeof *modes; i++) {
        bool has_owner = strchr(modes[i].taken, 'o'), has_group = strchr(modes[i].taken, 'g') && strchr(modes[i].taken, 'p');
        check(modes[i].name, (long)mode_of_new(modes[i].old, has_owner, has_group), (long)modes[i].wanted);
    }
}

/* ---- file stamps */

/* The letter tells what another program did to the file that was seen: see `change`. `wanted`: what is found; and whether an exchange took
 * out what was seen. */
static const struct {
    const char *name;
    enum cause wanted;
    char change;
    bool is_taken_out;
} changes[] = {
    {"nothing", CAUSE_NONE, '=', true},
    {"gone", CAUSE_NONE, '-', false},
    {"another device", CAUSE_CHANGED, 'd', false},
    {"another inode", CAUSE_CHANGED, 'i', false},
    {"another size", CAUSE_CHANGED, 's', false},
    {"another second", CAUSE_CHANGED, 't', false},
    {"another nanosecond", CAUSE_CHANGED, 'n', false},
    {"another time of change", CAUSE_CHANGED, 'c', true},
    {"another nanosecond of change", CAUSE_CHANGED, 'C', true},
    {"another mode", CAUSE_CHANGED, 'm', false},
    {"another owner", CAUSE_CHANGED, 'u', false},
    {"another group", CAUSE_CHANGED, 'g', false},
    {"another name", CAUSE_CHANGED, 'l', false},
    {"read", CAUSE_NONE, 'a', true},
    {"a link in its place", CAUSE_CHANGED, 'L', false},
    {"a folder in its place", CAUSE_NOT_PLAIN, 'D', false},
    {"a pipe in its place", CAUSE_NOT_PLAIN, 'P', false},
    {"a device in its place", CAUSE_NOT_PLAIN, 'V', false},
    {"a socket in its place", CAUSE_NOT_PLAIN, 'S', false},
};

static void set_kind(struct stat *found, mode_t kind) {
    found->st_mode = kind | (found->st_mode & 07777);
}

/* The stamp after another program did what the letter tells. */
static struct file_stamp change(struct file_stamp stamp, char letter) {
    struct stat *found = &stamp.found;
    switch (letter) {
    case '-': stamp.is_there = false; break;
    case 'd': found->st_dev++; break;
    case 'i': found->st_ino++; break;
    case 's': found->st_size++; break;
    case 't': found->st_mtim.tv_sec++; break;
    case 'n': found->st_mtim.tv_nsec++; break;
    case 'c': found->st_ctim.tv_sec++; break;
    case 'C': found->st_ctim.tv_nsec++; break;
    case 'm': found->st_mode ^= 04; break;
    case 'u': found->st_uid++; break;
    case 'g': found->st_gid++; break;
    case 'l': found->st_nlink++; break;
    case 'a': found->st_atim.tv_sec++; break;
    case 'L': set_kind(found, S_IFLNK); break;
    case 'D': set_kind(found, S_IFDIR); break;
    case 'P': set_kind(found, S_IFIFO); break;
    case 'V': set_kind(found, S_IFCHR); break;
    case 'S': set_kind(found, S_IFSOCK); break;
    default: break;
    }
    return stamp;
}

/* Whether FILE counts as changed, and whether an exchange took out what was seen. */
static void check_changes(void) {
    const struct file_stamp nothing = {.is_there = false};
    const struct file_stamp seen = {.is_there = true,
                              .found = {.st_dev = 5, .st_ino = 7, .st_size = 9, .st_mode = S_IFREG | 0640, .st_uid = 1, .st_gid = 2, .st_nlink = 1}};
    for (size_t i = 0; i < sizeof changes / sizeof *changes; i++) {
        struct file_stamp now = change(seen, changes[i].change);
        check(changes[i].name, judge_stamp(&seen, &now), changes[i].wanted);
        check(changes[i].name, is_taken_out(&seen, &now), changes[i].is_taken_out);
    }
    struct file_stamp link = change(seen, 'L');
    check("a link that was seen", judge_stamp(&link, &link), CAUSE_NONE);
    check("a new file", judge_stamp(&nothing, &seen), CAUSE_CHANGED);
    check("a new link", judge_stamp(&nothing, &link), CAUSE_CHANGED);
    check("still nothing", judge_stamp(&nothing, &nothing), CAUSE_NONE);
    check("nothing was seen, and a file is taken out", is_taken_out(&nothing, &seen), false);
}

/* ---- causes */

static const struct {
    int error, wanted;
} causes[] = {
    {0, 0},
    {ENOSPC, CAUSE_NO_SPACE},
    {EDQUOT, CAUSE_NO_SPACE},
    {EPERM, CAUSE_NOT_PERMITTED},
    {EACCES, CAUSE_NOT_PERMITTED},
    {ENOENT, CAUSE_FOLDER_GONE},
    {ENOTDIR, CAUSE_FOLDER_GONE},
    {EWOULDBLOCK, CAUSE_NOT_PERMITTED},
    {EROFS, CAUSE_READ_ONLY},
    {EFBIG, CAUSE_TOO_LARGE},
    {ENOMEM, CAUSE_OUT_OF_MEMORY},
    {EIO, CAUSE_OTHER},
    {ESTALE, CAUSE_OTHER},
    {EINVAL, CAUSE_OTHER},
};

int main(void) {
    check_places();
    check_modes();
    check_changes();
    for (size_t i = 0; i < sizeof causes / sizeof *causes; i++) check("a cause", cause_of(causes[i].error), causes[i].wanted);
    printf("%d passed, %d failed\n", passed, failed);
    return failed > 0;
}
