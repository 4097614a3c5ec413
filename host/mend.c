/* Repairs of FILE after an interrupted save that overwrote it, from the backup of the session that saved. session.h says what each call
 * promises. */
#include <errno.h>
#include <fcntl.h>
#include <stdio.h>
#include <string.h>
#include <sys/stat.h>
#include <time.h>
#include <unistd.h>

#include "save.h"
#include "session.h"
#include "util.h"

/* ---- FILE compared with a backup */

struct comparing {
    int backup;
    off_t place;
    bool is_read;
    struct backup_comparison comparison;
};

/* For read_pieces: compares a piece of FILE with the bytes of the backup at the same place. */
static void compare_piece(void *context, const char *bytes, size_t size) {
    struct comparing *comparing = context;
    while (size > 0 && comparing->is_read) {
        char piece[4096];
        size_t wanted = size < sizeof piece ? size : sizeof piece;
        ssize_t count = pread(comparing->backup, piece, wanted, comparing->place);
        if (count < 0 && errno == EINTR) continue;
        comparing->is_read = count > 0;
        if (count <= 0) return;
        compare_more(&comparing->comparison, bytes, piece, (size_t)count);
        bytes += count;
        size -= (size_t)count;
        comparing->place += count;
    }
}

enum verdict judge_file(int file, int backup) {
    struct stat of_file, of_backup;
    struct comparing comparing = {.backup = backup, .is_read = true};
    if (fstat(file, &of_file) != 0 || fstat(backup, &of_backup) != 0 || !S_ISREG(of_file.st_mode)) return FILE_OTHER;
    if (of_file.st_size > of_backup.st_size) return FILE_OTHER;
    compare_begin(&comparing.comparison);
    if (read_pieces(file, 0, compare_piece, &comparing) != 0 || !comparing.is_read) return FILE_OTHER;
    return compare_end(&comparing.comparison, (uint64_t)comparing.place, (uint64_t)of_backup.st_size);
}

static int open_target(const struct target *target, int flags) {
    return target->folder < 0 ? -1 : part_open(target->folder, target->name, flags);
}

/* Compares FILE, as it is now, with an open backup. FILE_OTHER if FILE cannot be opened. */
static enum verdict judge_target(const struct target *target, int backup) {
    int file = open_target(target, O_RDONLY);
    if (file < 0) return FILE_OTHER;
    enum verdict verdict = judge_file(file, backup);
    close(file);
    return verdict;
}

/* An open file as is_as_left looks at it. */
static bool look_at(int file, struct step *now) {
    struct stat found;
    if (fstat(file, &found) != 0) return false;
    *now = (struct step){.from = (uint64_t)found.st_size, .id = {.device = found.st_dev, .inode = found.st_ino},
                         .seconds = found.st_mtim.tv_sec, .nanos = (uint32_t)found.st_mtim.tv_nsec};
    snprintf(now->boot, sizeof now->boot, "%s", this_process()->boot);
    return true;
}

/* Whether an open file with a part of the backup's text is as the session's save left it. */
static bool is_left_by_save(const struct session *session, int file) {
    struct step step, now;
    const char *words = read_short(session->folder, STEP_NAME, NULL);
    return words && step_of(words, &step) && look_at(file, &now) && is_as_left(&step, &now);
}

/* Records that FILE is being repaired, since that too may be killed. */
static void note_repair(const struct session *session, int file) {
    char words[FACT_MOST];
    struct step step;
    struct timespec today;
    if (!look_at(file, &step) || clock_gettime(CLOCK_REALTIME, &today) != 0) return;
    step.kind = STEP_PARTLY;
    step.to = UINT64_MAX;
    step.seconds = today.tv_sec;
    step_text(&step, words);
    session_put(session, STEP_NAME, words, strlen(words));
}

/* Copies the text of a backup into a torn file. The file is judged again once it is open, so that the same file is judged and written. */
static enum mended put_back(const struct session *session, const struct target *target, int backup) {
    int file = open_target(target, O_RDWR);
    if (file < 0) return MENDED_STILL_TORN;
    enum mended mended = MENDED_WHOLE;
    if (judge_file(file, backup) == FILE_TORN && !is_left_by_save(session, file)) {
        mended = MENDED_NOT;
    } else if (judge_file(file, backup) == FILE_TORN) {
        note_repair(session, file);
        int error = lseek(file, 0, SEEK_SET) == 0 ? copy_file(backup, 0, file) : errno;
        if (!error && fsync(file) != 0) error = errno;
        mended = error ? MENDED_STILL_TORN : MENDED_PUT_BACK;
    }
    close(file);
    return mended;
}

/* ---- whose saves go into FILE */

/* Whether the session's saves overwrite FILE, under any of its names. */
static bool saves_into(const struct session *session, const struct target *target) {
    return session_has_mark(session, MARK_IN_PLACE) && (strcmp(session->about.path, target->path) == 0 || session_is_of_file(session, target));
}

/* Whether another session than `but` overwrites FILE and may be running: then that one will complete FILE. */
static bool is_being_saved(const struct sessions *sessions, const struct session *but, const struct target *target) {
    struct walk walk;
    bool is_saved = walk_begin(&walk, sessions) != CAUSE_NONE;
    while (!is_saved && walk_next(&walk)) {
        if (strcmp(walk.session.path, but->path) == 0 || !saves_into(&walk.session, target)) continue;
        enum session_state state = session_state(&walk.session);
        is_saved = state == SESSION_LIVE || state == SESSION_ELSEWHERE;
    }
    walk_end(&walk);
    return is_saved;
}

/* ---- the repair */

/* Repairs FILE from the session's backup, only if a save was interrupted in it. Without a backup FILE counts as whole. */
static enum mended mend_by(const struct session *session, const struct target *target) {
    int backup = session_open(session, BACKUP_NAME);
    if (backup < 0) return MENDED_WHOLE;
    enum mended mended = MENDED_WHOLE;
    if (judge_target(target, backup) == FILE_TORN) mended = put_back(session, target, backup);
    close(backup);
    return mended;
}

/* Repairs the file that the session's saves overwrote before the text got a new name. If it stays torn, its next start has the backup. */
static void mend_old(struct session *session, const struct sessions *sessions) {
    struct target old;
    char path[PATH_MAX], *name;
    put_path(path, "%s", session->about.path);
    if (!(name = strrchr(path, '/'))) return;
    *name++ = '\0';
    int folder = open_folder(AT_FDCWD, path[0] ? path : "/");
    target_look(&old, session->about.path, folder, name);
    if (!is_being_saved(sessions, session, &old) && mend_by(session, &old) == MENDED_STILL_TORN) {
        char left[PATH_MAX];
        session_leave_backup(session, sessions, &old, left);
    }
    close_one(&folder);
}

enum cause session_mend(struct session *session, const struct sessions *sessions, const struct target *target, struct mending *mending) {
    int folder = session->folder;
    mending->mended = MENDED_WHOLE;
    session_path_of(session, BACKUP_NAME, mending->backup);
    if (unlinkat(folder, BACKUP_DRAFT_NAME, 0) != 0 && errno != ENOENT) return cause_of(errno);
    if (!session_has(session, BACKUP_NAME)) return CAUSE_NONE;
    if (!saves_into(session, target)) mend_old(session, sessions);
    else if (!is_being_saved(sessions, session, target)) mending->mended = mend_by(session, target);
    if (mending->mended == MENDED_STILL_TORN) return CAUSE_NONE;
    if (mending->mended == MENDED_NOT) session_path_of(session, SAVED_NAME, mending->backup);
    unlinkat(folder, STEP_NAME, 0);
    return renameat(folder, BACKUP_NAME, folder, SAVED_NAME) == 0 || errno == ENOENT ? CAUSE_NONE : cause_of(errno);
}

bool sessions_mend(const struct sessions *sessions, const struct target *target, void (*tell)(void *, const struct mending *), void *context) {
    struct walk walk;
    bool is_torn = false;
    walk_begin(&walk, sessions);
    while (!is_torn && walk_next_own(&walk)) {
        struct session *session = &walk.session;
        struct mending mending;
        if (!saves_into(session, target) || !session_has(session, BACKUP_NAME)) continue;
        enum session_state state = session_state(session);
        if (state == SESSION_LIVE || state == SESSION_ELSEWHERE || session_lock(session) != LOCK_TAKEN) continue;
        if (session_mend(session, sessions, target, &mending) != CAUSE_NONE) continue;
        tell(context, &mending);
        is_torn = mending.mended == MENDED_STILL_TORN;
    }
    walk_end(&walk);
    return !is_torn;
}
