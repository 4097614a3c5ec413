/* Sessions that earlier starts left of FILE: questions about them, and how one is continued or stored as another file. edit.h says what each
 * call promises. */
#include <errno.h>
#include <fcntl.h>
#include <string.h>
#include <sys/stat.h>
#include <unistd.h>

#include "edit.h"
#include "say.h"
#include "util.h"

static const char missed[] = "that session was opened or deleted in another window in the meantime";
static const char unsure[] =
    "that session was recorded by another version of the editor or of Unicode's tables, without its text: replaying its keys may give different text";

/* Names of new files beside FILE are tried with numbers below this. */
enum { MOST_NEW_NAMES = 10000 };

/* The first free name of FILE.ENDING, FILE.ENDING1 and so on in an open folder. */
static const char *free_name(int folder, const char *file, const char *ending) {
    struct file_stamp look;
    const char *name = text_of("%s.%s", file, ending);
    for (int number = 1; number < MOST_NEW_NAMES && stamp_at(folder, name, &look) && look.is_there; number++)
        name = text_of("%s.%s%d", file, ending, number);
    return name;
}

/* ---- a session that is to go on */

static int tell_unwritten(const char *path, enum cause cause) {
    warn("%s cannot be written%s", shown(path), fault_text(cause));
    return STATUS_FAULT;
}

/* Copies a session's files to free names beside FILE, in the folder that is open, and removes the session. If a copy fails, the session
 * stays. */
static int keep_parts(struct session *session, const struct file *beside) {
    static const struct {
        const char *part, *ending, *what;
    } parts[] = {{TEXT_NAME, "session-text", "the text as it was opened"},
                 {JOURNAL_NAME, "session-journal", "the keys"},
                 {SNAPSHOT_NAME, "session-snapshot", "the text at the end of the session"},
                 {SAVED_NAME, "session-save", "the text of an interrupted save"}};
    int folder = beside->is_lost ? -1 : beside->folder;
    for (size_t i = 0; i < sizeof parts / sizeof *parts; i++) {
        int file = session_open(session, parts[i].part);
        if (file < 0 && errno == ENOENT) continue;
        const char *name = free_name(folder, beside->name, parts[i].ending), *path = path_beside(beside, name);
        if (file < 0) {
            warn("the session in %s is left as it is, since a part cannot be read: %s", shown(session->path), parts[i].what);
            return STATUS_FAULT;
        }
        enum cause cause = make_file(folder, name, file, 0600);
        close(file);
        if (cause) return tell_unwritten(path, cause);
        tell("%s: %s", shown(path), parts[i].what);
    }
    /* if it cannot be removed, the next start asks about it */
    session_remove(session);
    return GO_ON;
}

/* Tells that a session cannot go on where it is, and how its text can be had all the same. Returns the exit status. */
static int tell_unwritable(const struct call *call, const struct opened *opened, enum cause cause) {
    warn("nothing can be written in %s%s. To store the text elsewhere: bidi-edit --recover --to OTHER %s", shown(opened->sessions.path),
         fault_text(cause), shown(call->file));
    return STATUS_FAULT;
}

static void tell_damage(const struct session *session, const char *damage) {
    tell("the session in %s is damaged: %s", shown(session->path), damage);
}

static void tell_cut(const struct session *session) {
    if (!session_has_mark(session, MARK_CUT)) return;
    tell("the session ends after key %zu: what was typed later could not be recorded", session_count_keys(session));
}

/* Decides which file the recovered text is saved to: FILE, or a new file beside FILE if another program has changed FILE. */
static int choose_file(const struct call *call, struct opened *opened, enum replayed found) {
    struct stat look;
    const char *typed = call->file;
    if (found != REPLAY_FOREIGN || !opened->file.stamp.is_there) {
        /* the usual opening refuses a FILE whose folder is gone */
        return opened->file.is_lost ? find_file(opened, typed, false) : check_access(call, opened);
    }
    bool has_mark = opened->file.has_mark;
    opened->aside_of = typed;
    const char *beside = free_name(AT_FDCWD, typed, "recovered");
    tell("another program or window has changed %s since; the session's text is recovered as %s", shown(typed), shown(beside));
    bool is_too_long = lstat(beside, &look) != 0 && errno == ENAMETOOLONG;
    int status = is_too_long ? STATUS_FAULT : find_file(opened, beside, false);
    opened->file.has_mark = has_mark;
    if (status == GO_ON) status = check_access(call, opened);
    if (status != GO_ON) warn("to store the text elsewhere: bidi-edit --recover --to OTHER %s", shown(typed));
    return status;
}

/* Continues a session; `found` says what FILE has. */
static int go_on_with(struct edit *edit, struct session *session, enum replayed found) {
    bool is_own = strcmp(session->about.path, edit->opened.file.path) == 0;
    int status = choose_file(edit->call, &edit->opened, found);
    if (status != GO_ON) return status;
    enum cause cause = session_go_on(session, edit->opened.aside_of ? edit->opened.file.path : NULL, is_own);
    if (cause) return tell_unwritable(edit->call, &edit->opened, cause);
    session_move(&edit->kept.session, session);
    return TAKEN;
}

/* Removes a session of which FILE has all, and has FILE opened. */
static int end_where_same(const struct opened *opened, struct session *session) {
    tell("%s already contains everything that was typed in its last session", shown(opened->file.typed));
    session_remove(session);
    return ASKED;
}

/* Asks about a session whose keys cannot be replayed. After an answer FILE is opened. */
static int ask_what_to_keep(const struct opened *opened, struct session *session) {
    tell("the session of %s in %s could not be replayed", shown(opened->file.typed), shown(session->path));
    enum rest rest = ask_rest();
    int status = rest == REST_NONE ? STATUS_NO : rest == REST_KEEP ? keep_parts(session, &opened->file) : GO_ON;
    return status == GO_ON ? ASKED : status;
}

static int tell_failed_replay(const struct opened *opened, const struct session *session) {
    warn("the session of %s in %s could not be replayed, and is left as it is", shown(opened->file.typed), shown(session->path));
    return STATUS_FAULT;
}

/* Recovers a session by replaying its keys over its text. What FILE has by the replay decides how it goes on. */
static int take_by_keys(struct edit *edit, struct session *session) {
    int text;
    enum replayed found = replay(&edit->setup, &edit->opened, session, &text, 0);
    close_one(&text);
    if (found == REPLAY_UNREADABLE) return ask_what_to_keep(&edit->opened, session);
    if (found == REPLAY_FAILED) return tell_failed_replay(&edit->opened, session);
    tell_cut(session);
    return found == REPLAY_SAME ? end_where_same(&edit->opened, session) : go_on_with(edit, session, found);
}

/* Makes a new session from the text that a session left at its end, and removes the old session. */
static int take_by_text(struct edit *edit, struct session *session) {
    struct session renewed;
    struct sum known;
    enum replayed found = compare_text(&edit->opened.file, session);
    if (found == REPLAY_SAME) return end_where_same(&edit->opened, session);
    tell("that session was recorded by another version of the editor or of Unicode's tables: its text is recovered, but not its undo history");
    sum_begin(&known);
    bool is_known = found == REPLAY_KNOWN && (edit->opened.file.text < 0 || sum_file(edit->opened.file.text, &known));
    session_clear(&renewed);
    enum cause cause = session_renew(&renewed, &edit->opened.sessions, session, edit->setup.versions, is_known ? &known : NULL);
    if (cause) return tell_unwritable(edit->call, &edit->opened, cause);
    /* if the old one cannot be removed, the next start asks about it */
    session_remove(session);
    int status = go_on_with(edit, &renewed, found);
    session_close(&renewed);
    return status;
}

/* Recovers a session that is locked. First FILE is repaired from its backup; then its keys are trusted only if nothing of it has changed,
 * and editor and tables are the same. */
static int take_locked(struct edit *edit, struct session *session) {
    struct mending mending;
    bool is_mended = session_mend(session, &edit->opened.sessions, &edit->opened.target, &mending) == CAUSE_NONE;
    if (is_mended && tell_mended(shown(edit->opened.file.typed), &mending, tell)) return STATUS_FAULT;
    /* FILE as it is now, after the question */
    int status = find_file(&edit->opened, edit->call->file, true);
    if (status != GO_ON) return status;
    const char *damage = session_damage(session);
    bool is_same_version = strcmp(session->about.versions, edit->setup.versions) == 0;
    if (!damage && is_same_version) return take_by_keys(edit, session);
    if (!damage && session_has(session, SNAPSHOT_NAME)) return take_by_text(edit, session);
    if (damage) tell_damage(session, damage);
    else tell("%s", unsure);
    return ask_to_go_on("Recover it anyway") ? take_by_keys(edit, session) : STATUS_NO;
}

/* Locks a session and recovers it. AGAIN: another start was faster. */
static int take_over(struct edit *edit, struct session *session) {
    switch (session_lock(session)) {
    case LOCK_TAKEN: return take_locked(edit, session);
    case LOCK_FAILED: return tell_unwritable(edit->call, &edit->opened, session->cause);
    default: tell("%s", missed); return AGAIN;
    }
}

/* ---- questions about FILE's sessions */

static const char *number_text(const struct session *session) {
    return session->about.has_process ? text_of("%u", session->about.process.number) : "unknown";
}

/* If another process of the user's has FILE open, or may have it open where that cannot be checked from here, asks whether to go on. Returns
 * GO_ON if none has, else ASKED or the exit status. */
static int ask_beside(const struct call *call, struct opened *opened, const struct found *found) {
    static const char overwrites[] = "Each window may overwrite what the other saves.";
    if (is_nameless(opened)) return GO_ON;
    const char *file = shown(call->file);
    pid_t other = opened->file.is_lost ? 0 : note_open_file(&opened->file);
    bool is_live = !session_is_none(&found->live);
    const struct session *session = is_live ? &found->live : &found->elsewhere;
    bool is_session = is_live || (other == 0 && !session_is_none(session));
    if (!is_session && other == 0) return GO_ON;
    const char *machine = is_session ? machine_text(session) : NULL;
    const char *number = is_session ? number_text(session) : other > 0 ? text_of("%d", (int)other) : "unknown";
    if (is_live || !is_session)
        tell("%s is already open in another window of yours (process %s%s). %s", file, number, machine ? text_of(" on %s", machine) : "", overwrites);
    else
        tell("%s may be open in another window of yours (process %s on %s, which cannot be checked from here). %s", file, number,
             machine ? machine : THIS_MACHINE, overwrites);
    enum beside beside = ask_what_beside();
    if (beside == BESIDE_VIEW) opened->is_view = true;
    return beside == BESIDE_NO ? STATUS_NO : ASKED;
}

/* Deletes a session for good. If that fails, the question comes again. */
static int delete_session(const struct opened *opened, struct session *session) {
    enum lock_result lock = session_lock(session);
    enum cause cause = lock == LOCK_TAKEN ? session_remove(session) : session->cause;
    if (lock == LOCK_TAKEN && !cause) return ASKED;
    if (lock == LOCK_HELD || lock == LOCK_GONE) tell("%s", missed);
    else warn("the session of %s in %s cannot be deleted%s", shown(opened->file.typed), shown(session->path), fault_text(cause));
    return AGAIN;
}

/* Asks about an unfinished session, and does what the user chooses. */
static int ask_what_to_do(struct edit *edit, struct session *session) {
    const char *file = is_nameless(&edit->opened) ? "a text without a name" : shown(edit->opened.file.typed);
    tell("%s has an unfinished session from %s (keys typed: %zu)", file, time_text(session), session_count_keys(session));
    switch (ask_choice()) {
    case CHOICE_RECOVER: return take_over(edit, session);
    case CHOICE_LATER: return ASKED;
    case CHOICE_DELETE: return delete_session(&edit->opened, session);
    default: return STATUS_NO;
    }
}

int meet_sessions(struct edit *edit) {
    for (;;) {
        struct found found;
        /* a folder that cannot be read has no session that could be recovered */
        if (sessions_of(&found, &edit->opened.sessions, &edit->opened.target)) return GO_ON;
        int status = ask_beside(edit->call, &edit->opened, &found);
        if (status < 0 && !session_is_none(&found.unfinished)) status = ask_what_to_do(edit, &found.unfinished);
        found_close(&found);
        if (status != AGAIN) return status;
    }
}

/* ---- --recover FILE, --recover --to OTHER FILE */

/* Picks a session: an unfinished one, else one whose changes were dropped, else one of another machine. Tells if there is none. */
static struct session *pick(const struct opened *opened, struct found *found) {
    enum notice notice;
    const char *file = shown(opened->file.typed), *unkept = unkept_by(&opened->sessions, &notice);
    if (!session_is_none(&found->unfinished)) return &found->unfinished;
    if (!session_is_none(&found->dropped)) return &found->dropped;
    if (!session_is_none(&found->elsewhere)) return &found->elsewhere;
    if (!session_is_none(&found->live)) warn("the session of %s is open in another window", file);
    else warn("there is no session of %s to recover%s", file, unkept ? text_of(" (%s)", unkept) : "");
    return NULL;
}

/* Asks whether a process of another machine has ended, which no lock can tell from here. */
static bool ask_of_elsewhere(const struct opened *opened, const struct session *session) {
    const char *machine = machine_text(session);
    tell("the session of %s began on %s (process %s), which cannot be checked from here. Recover it only if that process has ended.",
         shown(opened->file.typed), machine ? machine : THIS_MACHINE, number_text(session));
    return ask_to_go_on("Has it ended");
}

/* Finds FILE's sessions; returns GO_ON or the exit status. */
static int find_sessions(const struct opened *opened, struct found *found) {
    enum cause cause = sessions_of(found, &opened->sessions, &opened->target);
    if (cause) warn("%s cannot be read: %s", shown(opened->sessions.path), cause_text(cause));
    return cause ? STATUS_FAULT : GO_ON;
}

/* Picks a session and takes it over, after the questions that only the user can answer. */
static int recover_found(struct edit *edit, struct found *found) {
    struct session *session = pick(&edit->opened, found);
    if (!session) return STATUS_FAULT;
    bool may_go_on = session == &found->elsewhere ? ask_of_elsewhere(&edit->opened, session) : ask_beside(edit->call, &edit->opened, found) < 0;
    return may_go_on ? take_over(edit, session) : STATUS_NO;
}

int recover_session(struct edit *edit) {
    struct found found;
    int status = find_file(&edit->opened, edit->call->file, true);
    if (status == GO_ON && edit->opened.file.other) {
        const char *why = file_message(&edit->opened.file, edit->opened.file.other, 0);
        warn("%s; to store the text of a session: bidi-edit --recover --to OTHER %s", why, shown(edit->opened.file.typed));
        return STATUS_FAULT;
    }
    if (status == GO_ON && !mend_file(&edit->opened)) status = STATUS_FAULT;
    if (status != GO_ON) return status;
    do {
        status = find_sessions(&edit->opened, &found);
        if (status != GO_ON) return status;
        status = recover_found(edit, &found);
        found_close(&found);
    } while (status == AGAIN);
    return status;
}

/* The text of a session as an open file: by a replay of its keys, or, if another version recorded it, as it was at its end. -1 if there is
 * none, which is reported. */
static int text_to_store(const struct setup *setup, const struct opened *opened, const struct session *session) {
    int text = -1;
    if (strcmp(session->about.versions, setup->versions) != 0) {
        text = session_open(session, SNAPSHOT_NAME);
        if (text >= 0) return text;
        tell("%s", unsure);
    }
    enum replayed found = replay(setup, opened, session, &text, 0);
    if (found == REPLAY_UNREADABLE || found == REPLAY_FAILED) tell_failed_replay(opened, session);
    else tell_cut(session);
    return text;
}

/* Writes a session's text to a new file, never over one that exists. Returns the exit status. */
static int store(const struct setup *setup, const struct opened *opened, const struct session *session, const char *other) {
    const char *damage = session_damage(session);
    int text = text_to_store(setup, opened, session);
    if (text < 0) return STATUS_FAULT;
    /* what a save would write */
    enum cause cause = opened->file.has_mark && !put_mark(&text) ? CAUSE_OUT_OF_MEMORY : CAUSE_NONE;
    if (!cause) cause = make_file(AT_FDCWD, other, text, session->about.mode >= 0 ? (mode_t)session->about.mode : 0600);
    close(text);
    if (cause) return tell_unwritten(other, cause);
    tell("the text of %s, with what was typed in the session (keys: %zu), is now in %s", shown(opened->file.typed), session_count_keys(session), shown(other));
    if (damage) tell_damage(session, damage);
    return damage ? STATUS_FAULT : 0;
}

/* Why a session cannot be stored: one of another machine, of which only --recover FILE asks whether it has ended; a file that exists; a
 * session that another window has. NULL if it can be; then it is locked, unless its disk is read-only, where no editor can run either. */
static const char *lock_to_store(const struct call *call, const struct opened *opened, struct session *session, bool is_elsewhere) {
    struct stat look;
    const char *file = shown(opened->file.typed), *other = call->other;
    if (is_elsewhere) return text_of("the session of %s began on another machine: bidi-edit --recover %s asks whether it has ended", file, file);
    if (lstat(other, &look) == 0) return text_of("%s already exists: name a new file", shown(other));
    enum lock_result lock = session_lock(session);
    if (lock == LOCK_HELD || lock == LOCK_GONE) return missed;
    if (lock == LOCK_FAILED) {
        session->text = session_open(session, TEXT_NAME);
        session->journal = session_open(session, JOURNAL_NAME);
    }
    return NULL;
}

int store_session(struct edit *edit) {
    struct found found;
    int status = find_file(&edit->opened, edit->call->file, true);
    if (status != GO_ON) return status;
    /* the text can be stored elsewhere even if FILE cannot be repaired */
    mend_file(&edit->opened);
    if (!edit->opened.file.typed) return STATUS_FAULT;
    status = find_sessions(&edit->opened, &found);
    if (status != GO_ON) return status;
    struct session *session = pick(&edit->opened, &found);
    const char *why = session ? lock_to_store(edit->call, &edit->opened, session, session == &found.elsewhere) : NULL;
    if (why) warn("%s", why);
    status = session && !why ? store(&edit->setup, &edit->opened, session, edit->call->other) : STATUS_FAULT;
    found_close(&found);
    return status;
}
