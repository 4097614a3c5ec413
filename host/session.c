/* A session: how it is created, kept, locked, continued and removed. session.h says what each call promises. */
#include "session.h"

#include <errno.h>
#include <fcntl.h>
#include <stdio.h>
#include <stdlib.h>
#include <string.h>
#include <sys/file.h>
#include <unistd.h>

#include "file.h"
#include "save.h"
#include "util.h"

/* NAME_TRIES: how many names to try for a session. LOCK_TRIES: how often to try a lock, for a second in all. COPIED_AT_ONCE: the largest
 * text, in bytes, that is copied before the program reads it. CALM: a larger FILE that nobody has written for so many seconds is copied
 * after the first painting. */
enum { NAME_TRIES = 16, NAME_LETTERS = 8, LOCK_TRIES = 20, LOCK_PAUSE_MS = 50, FOLDER_MODE = 0700, COPIED_AT_ONCE = 1 << 20, CALM = 2 };

void session_clear(struct session *session) {
    *session = (struct session){.parent = -1, .folder = -1, .text = -1, .journal = -1, .source = -1};
    about_clear(&session->about);
}

bool session_is_none(const struct session *session) {
    return session->folder < 0;
}

void session_close(struct session *session) {
    close_one(&session->source);
    close_one(&session->journal);
    close_one(&session->text);
    close_one(&session->folder);
    close_one(&session->parent);
    session_clear(session);
}

void session_move(struct session *to, struct session *from) {
    session_close(to);
    *to = *from;
    session_clear(from);
}

/* ---- what is written in the session's folder */

/* Creates or replaces a file by way of a draft. Synced, unless the session is hasty. */
static int put_file(const struct session *session, const char *name, const void *bytes, size_t size) {
    int folder = session->folder;
    int file = part_open(folder, ABOUT_DRAFT_NAME, O_WRONLY | O_CREAT | O_TRUNC);
    if (file < 0) return errno;
    int error = write_bytes(file, bytes, size);
    if (!error && !session->is_hasty) error = sync_file(file);
    close(file);
    if (!error && renameat(folder, ABOUT_DRAFT_NAME, folder, name) != 0) error = errno;
    if (error) unlinkat(folder, ABOUT_DRAFT_NAME, 0);
    return error;
}

enum cause session_put(const struct session *session, const char *name, const void *bytes, size_t size) {
    return cause_of(put_file(session, name, bytes, size));
}

/* Writes the facts over the old ones, in the blocks that these have, for a disk without room. Their last line tells if this is cut off. */
static int overwrite_about(const struct session *session, const char *words, size_t size) {
    struct stat found;
    int error = ENOSPC, file = part_open(session->folder, ABOUT_NAME, O_WRONLY);
    if (file >= 0 && fstat(file, &found) == 0 && (uint64_t)found.st_blocks * 512 >= size) error = write_bytes(file, words, size);
    if (!error && ftruncate(file, (off_t)size) != 0) error = errno;
    close_one(&file);
    return error;
}

/* Writes the session's facts: the old ones or the new ones are there at every moment. */
static int put_about(struct session *session) {
    static char words[MOST_ABOUT];
    size_t size = about_write(&session->about, words, sizeof words);
    int error = size > 0 ? put_file(session, ABOUT_NAME, words, size) : ENAMETOOLONG;
    if (error == ENOSPC || error == EDQUOT) error = overwrite_about(session, words, size);
    if (error) return error;
    session->is_about_due = session->is_hasty;
    session->about.is_old = false;
    return 0;
}

enum cause session_mark(struct session *session, enum mark mark) {
    session->about.marks |= mark;
    return cause_of(put_about(session));
}

/* ---- the folder, and its lock */

/* A name by the time, so that sessions sort by age, with random letters, so that two starts in one second differ. */
static bool make_session_name(char name[64]) {
    static const char alphabet[] = "abcdefghijklmnopqrstuvwxyz234567";
    struct timespec now;
    struct tm parts;
    if (clock_gettime(CLOCK_REALTIME, &now) != 0 || !gmtime_r(&now.tv_sec, &parts)) return false;
    size_t length = strftime(name, 32, "%Y%m%d%H%M%S.", &parts);
    return make_letters(name + length, NAME_LETTERS, alphabet) && kind_of_name(name) == NAME_SESSION;
}

/* Reads the facts, in today's form or in that of version 0.4.0. */
static void read_about(struct session *session) {
    size_t size;
    char *bytes = read_short(session->folder, ABOUT_NAME, &size);
    if (bytes) about_read(&session->about, bytes, size);
    else old_about(session->folder, &session->about);
    bytes = read_short(session->folder, NEW_PATH_NAME, NULL);
    if (bytes) put_path(session->about.new_path, "%s", bytes);
}

static bool open_at(struct session *session, const struct sessions *sessions, const char *name) {
    session_clear(session);
    if (!put_path(session->path, "%s/%s", sessions->path, name)) return false;
    session->user = sessions->user;
    session->folder = openat(sessions->folder, name, O_RDONLY | O_DIRECTORY | O_NOFOLLOW | O_CLOEXEC);
    if (session->folder >= 0) session->parent = fcntl(sessions->folder, F_DUPFD_CLOEXEC, 3);
    if (session->parent >= 0) return true;
    session_close(session);
    return false;
}

bool session_at(struct session *session, const struct sessions *sessions, const char *name) {
    if (!open_at(session, sessions, name)) return false;
    read_about(session);
    return true;
}

/* Creates the session's folder, under a name that no other session has. */
static int make_folder(struct session *session, const struct sessions *sessions) {
    char name[64];
    session_clear(session);
    for (int tries = 0; tries < NAME_TRIES; tries++) {
        if (!make_session_name(name)) return EIO;
        if (mkdirat(sessions->folder, name, FOLDER_MODE) == 0) {
            if (open_at(session, sessions, name)) return 0;
            unlinkat(sessions->folder, name, AT_REMOVEDIR);
            return ENOENT;
        }
        if (errno != EEXIST) return errno;
    }
    return EEXIST;
}

/* Locks the session's folder, whose lock no rename or removal of a file can undo. Where folders cannot be locked, as on NFS, the journal
 * is. */
static int lock(struct session *session) {
    int error = lock_file(session->folder, LOCK_TRIES, LOCK_PAUSE_MS);
    if (error && error != EWOULDBLOCK && session->journal >= 0) error = lock_file(session->journal, LOCK_TRIES, LOCK_PAUSE_MS);
    session->is_locked = error == 0;
    return error;
}

enum lock_result session_lock(struct session *session) {
    if (!session_is_there(session)) return LOCK_GONE;
    session->journal = part_open(session->folder, JOURNAL_NAME, O_RDWR | O_APPEND);
    int error = lock(session);
    if (!error && session->about.is_old && old_is_locked(session->folder)) error = EWOULDBLOCK;
    /* it may have been removed before it was locked */
    bool is_gone = !error && !session_is_there(session);
    if (!error && !is_gone) {
        read_about(session);
        session->text = session_open(session, TEXT_NAME);
        if (session->journal < 0) session->journal = session_open(session, JOURNAL_NAME);
        return LOCK_TAKEN;
    }
    session->is_locked = false;
    close_one(&session->journal);
    flock(session->folder, LOCK_UN);
    session->cause = cause_of(error);
    if (is_gone) return LOCK_GONE;
    return error == EWOULDBLOCK ? LOCK_HELD : LOCK_FAILED;
}

/* ---- the copy of FILE's text */

/* Whether a file was written a moment ago, so that it may change while it is read. */
static bool is_being_written(const struct stat *look) {
    struct timespec today;
    return clock_gettime(CLOCK_REALTIME, &today) == 0 && today.tv_sec - look->st_mtim.tv_sec <= CALM;
}

/* Copies an open file over the session's text, and sums it up. A text without space gives up what it took. */
static int copy_text(struct session *session, int file) {
    int error = lseek(session->text, 0, SEEK_SET) == 0 ? copy_file(file, 0, session->text) : errno;
    sum_begin(&session->about.text);
    if (!error) error = sum_rest(session->text, &session->about.text);
    session->about.has_text = error == 0;
    session->is_text_due = session->is_about_due = true;
    if (error && ftruncate(session->text, 0) != 0) return error;
    return error;
}

/* Whether FILE is still as it was before the program read it. If a save has replaced FILE, this looks at the old file, which is
 * unchanged. */
static bool is_as_read(const struct session *session) {
    struct stat found;
    return fstat(session->source, &found) == 0 && has_same_text(&found, &session->look);
}

/* Copies the text that the program has opened, if there is no copy yet. */
static int copy_late(struct session *session) {
    if (session->about.has_text || session->is_changed) return 0;
    if (session->text < 0) session->text = part_open(session->folder, TEXT_NAME, O_RDWR | O_CREAT | O_EXCL);
    if (session->text < 0) return errno;
    if (session->source < 0) return EIO;
    session->is_changed = session->is_source_file && !is_as_read(session);
    int error = session->is_changed ? 0 : copy_text(session, session->source);
    if (!session->is_changed && !error) session->is_changed = session->is_source_file && !is_as_read(session);
    if (session->is_changed) session->about.has_text = false;
    /* the program has read the source by now, and an old FILE that a save has replaced may go */
    if (!error) close_one(&session->source);
    return error;
}

/* Chooses what the program opens. Copies FILE first if that is quick, or if another program may be writing FILE. */
static int choose_source(struct session *session, int file) {
    struct sum none;
    sum_begin(&none);
    session->text = part_open(session->folder, TEXT_NAME, O_RDWR | O_CREAT | O_EXCL);
    if (session->text < 0) session->cause = cause_of(errno);
    if (file < 0) {
        session->about.has_text = session->text >= 0;
        session->about.text = none;
        session->is_text_due = true;
        return 0;
    }
    if (fstat(file, &session->look) != 0) return errno;
    off_t size = session->look.st_size;
    bool is_early = size <= COPIED_AT_ONCE || (is_being_written(&session->look) && size <= LARGEST_TEXT);
    if (session->text >= 0 && is_early) session->cause = cause_of(copy_text(session, file));
    session->is_source_file = !session->about.has_text;
    session->source = fcntl(session->is_source_file ? file : session->text, F_DUPFD_CLOEXEC, 3);
    return session->source >= 0 ? 0 : errno;
}

/* ---- a new session */

enum cause session_begin(struct session *session, const struct sessions *sessions, const struct about *about, int file) {
    int error = make_folder(session, sessions);
    if (error) return cause_of(error);
    session->is_hasty = session->is_name_due = session->is_about_due = true;
    session->about = *about;
    session->journal = part_open(session->folder, JOURNAL_NAME, O_RDWR | O_CREAT | O_EXCL | O_APPEND);
    error = session->journal < 0 ? errno : lock(session);
    if (!error) error = choose_source(session, file);
    enum cause cause = cause_of(error ? error : put_about(session));
    session->is_hasty = false;
    /* without room for its facts it waits for that */
    if (!error && cause) session->cause = cause;
    if (!error) return CAUSE_NONE;
    session_remove(session);
    session_close(session);
    return cause;
}

enum cause session_renew(struct session *renewed, const struct sessions *sessions, const struct session *old, const char *versions,
                         const struct sum *known) {
    struct about about = old->about;
    int snapshot = session_open(old, SNAPSHOT_NAME);
    if (snapshot < 0) return CAUSE_FOLDER_GONE;
    snprintf(about.versions, sizeof about.versions, "%s", versions);
    about.process = *this_process();
    about.has_process = true;
    about.has_text = about.is_old = about.is_damaged = false;
    about.marks = (about.marks & (MARK_UNJOINED | MARK_SECRET)) | MARK_UNSAVED;
    about.has_known = known;
    if (known) about.known = *known;
    sum_begin(&about.journal);
    enum cause cause = session_begin(renewed, sessions, &about, snapshot);
    close(snapshot);
    if (!cause && !session_complete(renewed, false)) cause = renewed->cause ? renewed->cause : CAUSE_OTHER;
    if (cause && !session_is_none(renewed)) {
        session_remove(renewed);
        session_close(renewed);
    }
    return cause;
}

enum cause session_leave_backup(struct session *session, const struct sessions *sessions, const struct target *target, char path[PATH_MAX]) {
    static struct about about;
    struct session left;
    about_clear(&about);
    put_path(about.path, "%s", target->path);
    about.has_id = target->is_there;
    about.id = target->id;
    about.mode = session->about.mode;
    about.has_process = true;
    about.process = *this_process();
    about.marks = MARK_IN_PLACE | (session->about.marks & MARK_SECRET);
    enum cause cause = session_begin(&left, sessions, &about, -1);
    if (cause) return cause;
    /* the backup comes last: with it the session counts */
    bool is_moved = (renameat(session->folder, STEP_NAME, left.folder, STEP_NAME) == 0 || errno == ENOENT) &&
                    renameat(session->folder, BACKUP_NAME, left.folder, BACKUP_NAME) == 0;
    if (!is_moved) cause = cause_of(errno);
    session_path_of(&left, BACKUP_NAME, path);
    session_complete(&left, false);
    session_close(&left);
    return cause;
}

/* ---- a session that runs */

/* Whether a name in the session's folder leads to an open file. */
static bool is_named(const struct session *session, const char *name, int file) {
    struct stat named, open;
    return fstatat(session->folder, name, &named, AT_SYMLINK_NOFOLLOW) == 0 && fstat(file, &open) == 0 && is_same_file(&named, &open);
}

/* Whether something has removed the session or one of its files. */
static bool has_lost(const struct session *session) {
    bool has_text = session->text < 0 || is_named(session, TEXT_NAME, session->text);
    bool has_about = session->is_about_due || session_has(session, ABOUT_NAME);
    return !session_is_there(session) || !has_text || !has_about || !is_named(session, JOURNAL_NAME, session->journal);
}

/* Syncs the journal if it has changed, and sums up what is new. A program whose text is saved has emptied it. */
static int sync_journal(struct session *session) {
    struct sum *sum = &session->about.journal;
    struct stat found;
    if (fstat(session->journal, &found) != 0) return errno;
    session->is_journal_due = (uint64_t)found.st_size != sum->size;
    if (!session->is_journal_due) return 0;
    struct sum next = *sum;
    if ((uint64_t)found.st_size < next.size) sum_begin(&next);
    int error = sum_rest(session->journal, &next);
    if (!error && !session->is_hasty) error = sync_file(session->journal);
    if (error) return error;
    *sum = next;
    session->is_about_due = true;
    return 0;
}

/* Does one step of what is due, or all of them if nothing is synced. Returns 0 or the fault. */
static int go_on(struct session *session) {
    int error = copy_late(session);
    if (!error && session->is_text_due && session->about.has_text && !session->is_hasty) {
        error = sync_file(session->text);
        session->is_text_due = error != 0;
        return error;
    }
    if (!error) error = sync_journal(session);
    if (error || (session->is_journal_due && !session->is_hasty)) return error;
    if (session->is_about_due) return put_about(session);
    if (!session->is_name_due || session->is_hasty) return 0;
    error = sync_file(session->folder);
    if (!error) error = sync_file(session->parent);
    session->is_name_due = error != 0;
    return error;
}

bool session_is_due(const struct session *session) {
    bool is_text_due = session->is_text_due && session->about.has_text;
    return !session->cause && (is_text_due || session->is_journal_due || session->is_about_due || session->is_name_due);
}

enum keeping session_mind(struct session *session) {
    if (has_lost(session)) return KEEPS_NOWHERE;
    session->cause = cause_of(go_on(session));
    if (session->is_changed) return KEEPS_NOTHING;
    return session->cause || !session->about.has_text ? KEEPS_NOT_YET : KEEPS;
}

bool session_complete(struct session *session, bool is_hasty) {
    session->is_hasty = is_hasty;
    /* the facts may have no room; what a recovery needs is there all the same */
    do session_mind(session);
    while (!is_hasty && session_is_due(session) && !has_lost(session));
    return !has_lost(session) && session->about.has_text && session_has(session, ABOUT_NAME);
}

void session_record_file(struct session *session, const struct target *target) {
    struct about *about = &session->about;
    bool is_new = target->is_there && !(about->has_id && is_surely_same_id(&about->id, &target->id) && is_same_id(&about->id, &target->id));
    bool has_moved = !about->beside[0] && strcmp(about->path, target->path) != 0;
    if (is_new) {
        about->id = target->id;
        about->has_id = true;
    }
    if (has_moved) put_path(about->path, "%s", target->path);
    if (is_new || has_moved) session->is_about_due = true;
}

void session_record_saved(struct session *session) {
    off_t size = session_journal_size(session);
    session->about.saved = size > 0 ? (uint64_t)size : 0;
    session->is_about_due = true;
}

/* ---- a session that goes on */

enum cause session_resume(struct session *session, unsigned rows, unsigned cols) {
    char words[64];
    struct stat found;
    /* in a text without a name a Save would ask for one; Help ends a search too, and does nothing else to the text */
    snprintf(words, sizeof words, "%s\x1b[8;%u;%ut", session->about.begin.is_nameless ? "\x1b[80~" : "\x13", rows, cols);
    if (session->journal < 0 || fstat(session->journal, &found) != 0) return CAUSE_FOLDER_GONE;
    int error = write_bytes(session->journal, words, strlen(words));
    /* takes back what was written; the first fault is the one to report */
    if (error && ftruncate(session->journal, found.st_size) != 0) return cause_of(error);
    return cause_of(error);
}

enum cause session_go_on(struct session *session, const char *beside, bool is_of_path) {
    struct about before = session->about, *about = &session->about;
    about->process = *this_process();
    about->has_process = true;
    about->is_damaged = false;
    about->marks &= ~(unsigned)(MARK_DROPPED | MARK_CUT | MARK_IN_PLACE);
    if (beside || is_of_path) put_path(about->beside, "%s", beside ? beside : "");
    /* the sums of a session of version 0.4.0, and of one that has changed */
    if (session->text >= 0) about->has_text = sum_file(session->text, &about->text);
    if (session->journal >= 0 && !sum_file(session->journal, &about->journal)) sum_begin(&about->journal);
    enum cause cause = cause_of(put_about(session));
    if (!cause && unlinkat(session->folder, SNAPSHOT_NAME, 0) != 0 && errno != ENOENT) cause = cause_of(errno);
    if (cause) *about = before;
    return cause;
}

/* ---- the end */

void session_erase(const struct session *session, const char *name) {
    const char *part;
    DIR *entries = open_entries(session->folder);
    while (entries && (part = next_entry(entries))) unlinkat(session->folder, part, 0);
    if (entries) closedir(entries);
    unlinkat(session->parent, name, AT_REMOVEDIR);
}

enum cause session_remove(struct session *session) {
    char dead[NAME_MAX + 1];
    const char *name = session_name(session);
    int error = session_find_itself(session);
    if (error) return error == ENOENT ? CAUSE_NONE : cause_of(error);
    snprintf(dead, sizeof dead, DEAD_BEGIN "%.*s", NAME_MAX - (int)sizeof DEAD_BEGIN, name);
    if (renameat(session->parent, name, session->parent, dead) != 0) return cause_of(errno);
    session_erase(session, dead);
    return CAUSE_NONE;
}

void session_remove_unless_locked(struct session *session) {
    if (session_lock(session) == LOCK_TAKEN) session_remove(session);
}
