/* What a session's folder has: its files, and the facts that they give. session.h says what each call promises. */
#include "session.h"

#include <errno.h>
#include <fcntl.h>
#include <poll.h>
#include <stdio.h>
#include <string.h>
#include <sys/file.h>
#include <sys/utsname.h>
#include <unistd.h>

#include "file.h"
#include "save.h"
#include "say.h"
#include "util.h"

/* KEEPER_TRIES: how often to wait KEEPER_PAUSE_MS for the keeper of a host that was killed. LONGEST_WITHOUT_KEYS: the longest journal that
 * is read to see whether it has only sizes and notices; at worst a longer one keeps a session without keys. */
enum { KEEPER_TRIES = 200, KEEPER_PAUSE_MS = 50, LONGEST_WITHOUT_KEYS = 4096 };

/* ---- files in the session's folder */

int session_open(const struct session *session, const char *name) {
    return part_open(session->folder, name, O_RDONLY);
}

bool session_has(const struct session *session, const char *name) {
    struct stat found;
    return fstatat(session->folder, name, &found, AT_SYMLINK_NOFOLLOW) == 0;
}

void session_path_of(const struct session *session, const char *name, char path[PATH_MAX]) {
    put_path(path, "%s/%s", session->path, name);
}

/* For read_pieces: sums up a piece of a file. */
static void sum_piece(void *sum, const char *bytes, size_t size) {
    sum_more(sum, bytes, size);
}

int sum_rest(int file, struct sum *sum) {
    return read_pieces(file, (off_t)sum->size, sum_piece, sum);
}

bool sum_file(int file, struct sum *sum) {
    sum_begin(sum);
    return sum_rest(file, sum) == 0;
}

/* ---- this process, the clock */

/* Reads the first word of a file. On failure `word` stays as it is. */
static void read_word(const char *path, char *word, size_t room) {
    char *line = read_short(AT_FDCWD, path, NULL);
    if (!line) return;
    line[strcspn(line, " \t\r\n")] = '\0';
    if (line[0]) snprintf(word, room, "%s", line);
}

const struct process *this_process(void) {
    static struct process process;
    struct utsname system;
    if (!process.machine[0]) {
        snprintf(process.machine, sizeof process.machine, "%s", uname(&system) == 0 && system.nodename[0] ? system.nodename : "localhost");
        read_word("/proc/sys/kernel/random/boot_id", process.boot, sizeof process.boot);
    }
    process.number = (unsigned)getpid();
    return &process;
}

void format_time(const struct timespec *time, char words[32]) {
    struct tm parts;
    words[0] = '\0';
    if (localtime_r(&time->tv_sec, &parts)) strftime(words, 32, "%Y-%m-%d %H:%M", &parts);
}

const char *versions_look(const char *version, const char *const *files, size_t count, char words[FACT_MOST]) {
    struct stat found;
    size_t length = (size_t)snprintf(words, FACT_MOST, "bidi-edit %s", version);
    for (size_t at = 0; at < count; at++) {
        if (stat(files[at], &found) != 0) return files[at];
        length += (size_t)snprintf(words + length, FACT_MOST - length, " %lld %lld %lld", (long long)found.st_size,
                                   (long long)found.st_mtim.tv_sec, (long long)found.st_mtim.tv_nsec);
        errno = ENAMETOOLONG;
        if (length >= FACT_MOST) return files[at];
    }
    return NULL;
}

/* ---- facts */

int session_find_itself(const struct session *session) {
    struct stat own, named;
    if (fstat(session->folder, &own) != 0 || fstatat(session->parent, session_name(session), &named, AT_SYMLINK_NOFOLLOW) != 0) return errno;
    return is_same_file(&own, &named) ? 0 : ENOENT;
}

/* Whether another process has locked an open file; EWOULDBLOCK if so, or the fault. */
static int try_lock(int file) {
    if (flock(file, LOCK_SH | LOCK_NB) != 0) return errno;
    flock(file, LOCK_UN);
    return 0;
}

/* Whether the host that began or continued the session on this machine has ended, even if nobody has waited for its end yet. */
static bool is_host_gone(const struct session *session) {
    const struct process *there = &session->about.process;
    if (!session->about.has_process || may_go_on_elsewhere(there, this_process())) return false;
    const char *line = read_short(AT_FDCWD, text_of("/proc/%u/stat", there->number), NULL), *name_end = line ? strrchr(line, ')') : NULL;
    return !name_end || strncmp(name_end, ") Z", 3) == 0;
}

bool session_is_live(const struct session *session) {
    if (session->is_locked) return false;
    int error = try_lock(session->folder);
    /* the keeper of a host that was killed has the lock until it has put the last keys on the disk */
    for (int tries = KEEPER_TRIES; error == EWOULDBLOCK && tries > 0 && is_host_gone(session); tries--) {
        poll(NULL, 0, KEEPER_PAUSE_MS);
        error = try_lock(session->folder);
    }
    if (error && error != EWOULDBLOCK) {
        int journal = part_open(session->folder, JOURNAL_NAME, O_RDWR);
        error = journal >= 0 ? try_lock(journal) : errno == ENOENT ? 0 : errno;
        if (journal >= 0) close(journal);
    }
    return error || (session->about.is_old && old_is_locked(session->folder));
}

const char *session_name(const struct session *session) {
    const char *end = strrchr(session->path, '/');
    return end ? end + 1 : session->path;
}

bool session_is_there(const struct session *session) {
    struct stat parent, named;
    char above[PATH_MAX];
    if (session_find_itself(session) != 0 || fstat(session->parent, &parent) != 0) return false;
    /* the folder of sessions itself may have been moved away, with the session in it */
    size_t length = (size_t)(session_name(session) - session->path);
    if (length > 1) length--;
    return put_path(above, "%.*s", (int)length, session->path) && lstat(above, &named) == 0 && is_same_file(&parent, &named);
}

bool session_is_own(const struct session *session) {
    struct stat found;
    const char *name;
    if (fstat(session->folder, &found) != 0 || !is_private(found.st_uid, found.st_mode, session->user)) return false;
    DIR *entries = open_entries(session->folder);
    bool is_own = entries;
    while (is_own && (name = next_entry(entries)))
        is_own = fstatat(session->folder, name, &found, AT_SYMLINK_NOFOLLOW) == 0 && S_ISREG(found.st_mode) && found.st_uid == session->user;
    is_own = is_own && errno == 0;
    if (entries) closedir(entries);
    return is_own;
}

uint64_t session_kilobytes(const struct session *session) {
    struct stat found;
    const char *name;
    uint64_t blocks = fstat(session->folder, &found) == 0 ? (uint64_t)found.st_blocks : 0;
    DIR *entries = open_entries(session->folder);
    while (entries && (name = next_entry(entries)))
        if (fstatat(session->folder, name, &found, AT_SYMLINK_NOFOLLOW) == 0) blocks += (uint64_t)found.st_blocks;
    if (entries) closedir(entries);
    /* the system counts blocks of 512 bytes */
    return (blocks + 1) / 2;
}

/* For read_pieces: counts the keys in a piece of the journal. */
static void count_piece(void *count, const char *bytes, size_t size) {
    count_more(count, bytes, size);
}

/* Counts the keys of the journal; false if it is there and cannot be read. */
static bool count_journal(const struct session *session, struct key_count *count) {
    bool is_open = session->journal >= 0;
    *count = (struct key_count){0};
    int journal = is_open ? session->journal : session_open(session, JOURNAL_NAME);
    if (journal < 0) return errno == ENOENT;
    bool is_read = read_pieces(journal, 0, count_piece, count) == 0;
    if (!is_open) close(journal);
    return is_read;
}

size_t session_count_keys(const struct session *session) {
    struct key_count count;
    return count_journal(session, &count) ? count.keys : 0;
}

bool session_has_mark(const struct session *session, enum mark mark) {
    return session->about.marks & mark;
}

off_t session_journal_size(const struct session *session) {
    struct stat found;
    if (session->journal >= 0) return fstat(session->journal, &found) == 0 ? found.st_size : -1;
    return fstatat(session->folder, JOURNAL_NAME, &found, AT_SYMLINK_NOFOLLOW) == 0 ? found.st_size : -1;
}

bool session_has_keys(const struct session *session) {
    struct key_count count;
    return session_journal_size(session) > LONGEST_WITHOUT_KEYS || !count_journal(session, &count) || count.keys > 0;
}

/* Whether the journal is there, with all that was on the disk, or was emptied because all was saved. */
static bool has_whole_journal(const struct session *session) {
    const struct about *about = &session->about;
    off_t size = session_journal_size(session);
    return size >= 0 && ((uint64_t)size >= about->journal.size || (size == 0 && about->journal.size <= about->saved));
}

bool session_has_something(const struct session *session) {
    return session_has_keys(session) || session_has_mark(session, MARK_UNSAVED) || session_has(session, BACKUP_NAME) ||
           (session->about.has_text && !has_whole_journal(session));
}

enum session_state session_state(const struct session *session) {
    const struct about *about = &session->about;
    struct state_facts facts = {.is_locked = session_is_live(session)};
    if (!facts.is_locked) {
        facts.may_be_elsewhere = may_go_on_elsewhere(about->has_process ? &about->process : NULL, this_process());
        facts.has_something = session_has_something(session);
        facts.is_dropped = about->marks & MARK_DROPPED;
    }
    return judge_state(&facts);
}

/* The rest of a sum of which `left` bytes are still to come. */
struct partial {
    struct sum sum;
    uint64_t left;
};

static void sum_partly(void *context, const char *bytes, size_t size) {
    struct partial *partial = context;
    if (size > partial->left) size = (size_t)partial->left;
    partial->left -= size;
    sum_more(&partial->sum, bytes, size);
}

/* Whether the beginning of a file has this sum. */
static bool has_sum(const struct session *session, const char *name, const struct sum *wanted) {
    struct partial partial = {.left = wanted->size};
    sum_begin(&partial.sum);
    int file = session_open(session, name);
    if (file < 0) return false;
    bool is_same = read_pieces(file, 0, sum_partly, &partial) == 0 && is_same_sum(&partial.sum, wanted);
    close(file);
    return is_same;
}

const char *session_damage(const struct session *session) {
    const struct about *about = &session->about;
    if (!has_whole_journal(session)) return "keys are missing";
    if (about->is_old) return NULL;
    if (about->is_damaged) return "its file about has changed";
    if (about->has_text && !has_sum(session, TEXT_NAME, &about->text)) return "its text has changed";
    return has_sum(session, JOURNAL_NAME, &about->journal) ? NULL : "its keys have changed";
}

bool session_changed(const struct session *session, struct timespec *time) {
    struct stat found;
    bool is_seen = fstatat(session->folder, JOURNAL_NAME, &found, AT_SYMLINK_NOFOLLOW) == 0 || fstat(session->folder, &found) == 0;
    if (is_seen) *time = found.st_mtim;
    return is_seen;
}
