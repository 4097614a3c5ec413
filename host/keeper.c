/* The keeper: a child of the host that looks after the session while the program runs, and ends it. All that the two do with the disks of
 * the session and of FILE from the first painting on is done there, so that a disk that does not answer holds up the keeper alone. edit.h
 * says what each call promises. */
#include <errno.h>
#include <fcntl.h>
#include <signal.h>
#include <stdint.h>
#include <stdio.h>
#include <string.h>
#include <sys/prctl.h>
#include <unistd.h>

#include "edit.h"
#include "say.h"
#include "signals.h"
#include "util.h"

/* Milliseconds. MIND_MS: between two looks at the session. LATE_MS: what is not looked after for so long counts as not kept. TELL_MS: after
 * which the end says what it waits for. STEP_MS: between two looks for a signal at the end. LONGEST_END_MS: in which a program ends after
 * the host was killed. */
enum { MIND_MS = 1000, LATE_MS = 5000, TELL_MS = 2000, STEP_MS = 100, LONGEST_END_MS = 4000 };

/* The space that must stay free for keys, in bytes. */
enum { ROOM_FOR_KEYS = 8192 };

/* What the host tells the keeper: one byte each; after END come the bytes of a struct ending. */
enum order { ORDER_SAVED = 's', ORDER_LOST = 'l', ORDER_KEPT = 'k', ORDER_END = 'e' };

/* How the program ended, and the signal that asked for the end, if any. */
struct ending {
    struct said said;
    int status, signal;
    int64_t signal_time;
    bool was_saved, is_journal_lost;
};

/* What the keeper tells the host after each look. `journal`: why the journal cannot be written, if it cannot. */
struct report {
    enum keeping keeping;
    enum cause cause;
    bool is_filled;
    enum notice journal;
};

/* The keeper's process, 0 without one; the pipes of orders and reports, -1 without one; when it reported last. */
static pid_t keeper;
static int orders = -1, reports = -1;
static int64_t reported;

/* ---- the keeper */

/* The probable reason why the program cannot write the journal. */
static enum notice cause_of_loss(const struct session *session) {
    if (free_room(session->folder) < ROOM_FOR_KEYS) return NOTICE_NO_SPACE;
    int file = part_open(session->folder, JOURNAL_NAME, O_WRONLY | O_APPEND);
    enum notice notice = file < 0 ? notice_of(cause_of(errno)) : NOTICE_UNKEPT;
    if (file >= 0) close(file);
    return notice == NOTICE_FOLDER_GONE ? NOTICE_UNKEPT : notice;
}

/* The text gets a new name, and a save into FILE was cut off before. FILE gets the text of that save, or its backup waits for a start of FILE in
 * a session of its own. */
static void leave_file(const struct opened *opened, struct session *session, struct saves *saves) {
    struct mending mending;
    if (!session_has(session, BACKUP_NAME)) return;
    if (session_mend(session, &opened->sessions, &opened->target, &mending)) mending.mended = MENDED_STILL_TORN;
    if (mending.mended != MENDED_STILL_TORN) return;
    session_path_of(session, BACKUP_NAME, saves->torn.backup);
    snprintf(saves->torn.file, sizeof saves->torn.file, "%s", shown(opened->file.typed));
    session_leave_backup(session, &opened->sessions, &opened->target, saves->torn.backup);
}

/* A successful save replaces FILE by a new file, maybe under a new name. The session records that file, by which it is found later. */
static void note_saved(struct opened *opened, struct kept *kept, struct saves *saves) {
    struct session *session = &kept->session;
    struct file_stamp stamp;
    saves->was_saved = true;
    if (saves->is_in_place && saver_new_file(&saves->saver)) leave_file(opened, session, saves);
    if (take_new_file(opened, saves)) {
        session->about.marks &= ~(unsigned)MARK_IN_PLACE;
        opened->file.folder = opened->target.folder = open_folder(AT_FDCWD, opened->file.folder_path);
        session->about.beside[0] = 0;
        if (kept->begin.is_nameless) put_path(session->about.name, "%s", saver_new_file(&saves->saver)->raw);
    }
    if (session_is_none(session)) return;
    session_record_saved(session);
    if (!saver_stamp(&saves->saver, &stamp, &opened->target.id)) return;
    opened->target.is_there = stamp.is_there;
    session_record_file(session, &opened->target);
}

/* Looks after the session, and reports. The first time, this has its files written. */
static void mind(struct edit *edit, int report) {
    struct session *session = &edit->kept.session;
    struct report said = {.keeping = session_mind(session), .cause = session->cause, .is_filled = session->about.has_text};
    /* of a FILE that was refused the end says more */
    if (said.is_filled && edit->run.said.is_opened) release_file(&edit->opened.file);
    said.journal = edit->kept.facts.is_journal_lost ? cause_of_loss(session) : NOTICE_NONE;
    /* a host that reads none is ending */
    if (write(report, &said, sizeof said) < 0) errno = 0;
}

/* Reads all of something that the host writes in one piece. */
static bool read_whole(int file, void *bytes, size_t size) {
    char *at = bytes;
    while (size > 0) {
        ssize_t count = read(file, at, size);
        if (count < 0 && errno == EINTR) continue;
        if (count <= 0) return false;
        at += count;
        size -= (size_t)count;
    }
    return true;
}

/* Ends the session as the host says, and then itself, with the exit status of the host. */
static _Noreturn void end_as_told(struct edit *edit, int file) {
    static struct ending ending;
    if (!read_whole(file, &ending, sizeof ending)) _exit(STATUS_FAULT);
    if (ending.signal) note_end_at(ending.signal, ending.signal_time);
    edit->run.said = ending.said;
    edit->run.status = ending.status;
    edit->saves.was_saved = ending.was_saved;
    edit->kept.facts.is_journal_lost = ending.is_journal_lost;
    is_telling_limited = true;
    _exit(end_session(edit));
}

/* The host was killed, and its program ends by that. A program that had saved all has emptied the journal, and the session goes. Else it
 * stays, with the last keys. */
static _Noreturn void end_alone(struct session *session, int program) {
    struct pollfd ended = {.fd = program, .events = POLLIN};
    if (session_is_none(session)) _exit(0);
    if (program >= 0) poll(&ended, 1, LONGEST_END_MS);
    if (session_journal_size(session) == 0 && session->about.has_text && !session_has(session, BACKUP_NAME)) session_remove(session);
    else session_complete(session, true);
    _exit(0);
}

/* The keeper's life: looks after the session each second and after each order, until the end. */
static _Noreturn void keep(struct edit *edit, int order_file, int report, int program) {
    bool has_session = !session_is_none(&edit->kept.session);
    /* the host has announced FILE, and may announce another one */
    note_open_file(NULL);
    for (char order = 0;;) {
        if (has_session && order != ORDER_END) mind(edit, report);
        struct pollfd told = {.fd = order_file, .events = POLLIN};
        /* signals to the whole job wait until the end */
        int count = poll(&told, 1, !has_session ? -1 : session_is_due(&edit->kept.session) ? 0 : MIND_MS);
        order = 0;
        if (count <= 0) continue;
        if (!read_whole(order_file, &order, 1)) end_alone(&edit->kept.session, program);
        if (order == ORDER_END) end_as_told(edit, order_file);
        if (order == ORDER_SAVED) note_saved(&edit->opened, &edit->kept, &edit->saves);
        if (order == ORDER_LOST || order == ORDER_KEPT) edit->kept.facts.is_journal_lost = order == ORDER_LOST;
    }
}

/* ---- the host */

bool keeper_start(struct edit *edit) {
    int told[2], said[2];
    if (pipe2(told, O_CLOEXEC) != 0) return false;
    if (pipe2(said, O_CLOEXEC) != 0) {
        close(told[0]);
        close(told[1]);
        return false;
    }
    /* a keeper that reads no more holds up nobody */
    bool is_open = fcntl(told[1], F_SETFL, O_NONBLOCK) == 0 && fcntl(said[0], F_SETFL, O_NONBLOCK) == 0 && fcntl(said[1], F_SETFL, O_NONBLOCK) == 0;
    keeper = is_open ? fork() : -1;
    if (keeper == 0) {
        prctl(PR_SET_NAME, "bidi-keeper");
        int program = leave_run();
        close(told[1]);
        close(said[0]);
        keep(edit, told[0], said[1], program);
    }
    close(told[0]);
    close(said[1]);
    orders = told[1];
    reports = said[0];
    reported = now();
    if (keeper > 0) return true;
    keeper = 0;
    close_one(&orders);
    close_one(&reports);
    return false;
}

static void tell_keeper(enum order order) {
    char byte = (char)order;
    if (orders >= 0 && write(orders, &byte, 1) != 1) close_one(&orders);
}

void keeper_note_save(void) {
    tell_keeper(ORDER_SAVED);
}

void keeper_note_journal(bool is_kept) {
    tell_keeper(is_kept ? ORDER_KEPT : ORDER_LOST);
}

void keeper_hear(struct now_facts *facts) {
    struct report said;
    while (reports >= 0 && read(reports, &said, sizeof said) == (ssize_t)sizeof said) {
        reported = now();
        facts->keeping = said.keeping;
        facts->cause = said.cause;
        facts->is_filled = said.is_filled;
        facts->journal = said.journal;
    }
    if (now() - reported >= LATE_MS) {
        facts->keeping = KEEPS_NOT_YET;
        facts->cause = CAUSE_OTHER;
    }
}

/* Says why the session was not ended, and what becomes of the text. */
static int leave_end(const struct edit *edit, const char *why) {
    enum end_frame end = edit->run.said.end;
    const char *name = name_word(&edit->opened, edit->opened.file.typed);
    const char *kept = end == END_SAVED || !edit->kept.facts.has_session ? "" : text_of("; what is kept of unsaved text: bidi-edit --recover%s", name);
    kill_child(&keeper);
    warn("%s%s", why, kept);
    return end == END_SAVED || end == END_DROPPED ? 0 : edit->run.status;
}

int keeper_end(struct edit *edit) {
    static struct ending ending;
    int status = 0;
    bool is_forwarded = end_signal, is_told = false;
    int64_t start = now();
    if (keeper == 0 && !keeper_start(edit)) return end_session(edit);
    ending = (struct ending){.said = edit->run.said, .status = edit->run.status, .signal = end_signal, .signal_time = last_moment() - END_MS,
                             .was_saved = edit->saves.was_saved, .is_journal_lost = edit->kept.facts.is_journal_lost};
    tell_keeper(ORDER_END);
    if (orders < 0 || write(orders, &ending, sizeof ending) != (ssize_t)sizeof ending) return leave_end(edit, "the process that keeps the session has ended");
    while (!wait_for_child(&keeper, &status, now() + STEP_MS)) {
        if (end_signal && !is_forwarded) is_forwarded = kill(keeper, end_signal) == 0;
        if (end_signal && (is_told || now() >= last_moment())) return leave_end(edit, "a disk does not respond");
        if (is_told || now() < start + TELL_MS) continue;
        is_told = true;
        warn("waiting for a disk that does not respond: Ctrl-C stops the wait");
    }
    return shell_status(status);
}
