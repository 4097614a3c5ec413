/* The end of a session: what is kept of unsaved text, what becomes of the session, and what the user is told. edit.h says what each call
 * promises. */
#include <errno.h>
#include <fcntl.h>
#include <stdint.h>
#include <stdio.h>
#include <stdlib.h>
#include <string.h>
#include <sys/mman.h>
#include <sys/stat.h>
#include <unistd.h>

#include "edit.h"
#include "say.h"
#include "signals.h"
#include "util.h"

/* ---- replays of a session's keys by the program, and comparisons with FILE */

/* What a replay found, by what the program said. A status of 0 without an answer is a failure too. */
static enum replayed replayed_of(const struct said *said, int status) {
    static const char *const unreadable[] = {"not-utf8", "too-long", "unreadable"};
    static const struct {
        const char *word;
        enum replayed replayed;
    } answers[] = {{"same ", REPLAY_SAME}, {"known ", REPLAY_KNOWN}, {"foreign ", REPLAY_FOREIGN}};
    for (size_t i = 0; status == 0 && i < sizeof answers / sizeof *answers; i++)
        if (strncmp(said->replayed, answers[i].word, strlen(answers[i].word)) == 0) return answers[i].replayed;
    for (size_t i = 0; status > 0 && i < sizeof unreadable / sizeof *unreadable; i++)
        if (strncmp(said->fault, unreadable[i], strlen(unreadable[i])) == 0) return REPLAY_UNREADABLE;
    return REPLAY_FAILED;
}

/* Whether FILE has the text that it had when a session with an unsaved text began. */
static bool has_known_text(const struct file *file, const struct session *session) {
    struct sum found;
    if (!session->about.has_known) return false;
    sum_begin(&found);
    return (file->text < 0 || sum_file(file->text, &found)) && is_same_sum(&found, &session->about.known);
}

void add_begin(struct arguments *arguments, const struct begin *begin, const char *typed) {
    enum { LONGEST_NAME = 255 };
    const char *slash = strrchr(typed, '/'), *name = strlen(typed) > LONGEST_NAME && slash ? slash + 1 : typed;
    add_option(arguments, "--direction", begin->direction);
    if (begin->line > 0) add_option(arguments, "--line", text_of("%u", begin->line));
    if (begin->spaces > 0) add_option(arguments, "--spaces", text_of("%u", begin->spaces));
    if (begin->is_view) add_argument(arguments, "--view");
    if (begin->is_indented) add_argument(arguments, "--indent");
    add_option(arguments, "--name", begin->is_nameless ? "" : name);
}

enum replayed replay(const struct setup *setup, const struct opened *opened, const struct session *session, int *text, int64_t limit) {
    struct run run = {0};
    struct arguments arguments = {.count = 0};
    const struct begin *begin = &session->about.begin;
    *text = -1;
    if (session->text < 0 || session->journal < 0 || !session->about.has_begin || !session->about.has_text) return REPLAY_UNREADABLE;
    int made = memfd_create("bidi-edit", MFD_CLOEXEC);
    if (made < 0) return REPLAY_FAILED;
    add_argument(&arguments, setup->programs->editor);
    add_option(&arguments, "--rows", text_of("%u", begin->rows));
    add_option(&arguments, "--cols", text_of("%u", begin->cols));
    add_begin(&arguments, begin, opened->file.typed);
    /* joined letters change no text and no place */
    add_tables(&arguments, &setup->tables, false);
    if (session_has_mark(session, MARK_UNSAVED)) add_argument(&arguments, "--unsaved");
    add_option(&arguments, "--text", handed_path(&run, session->text));
    add_argument(&arguments, "--frames");
    add_option(&arguments, "--replay", handed_path(&run, session->journal));
    add_option(&arguments, "--to", handed_path(&run, made));
    if (opened->file.text >= 0) add_option(&arguments, "--against", handed_path(&run, opened->file.text));
    else if (opened->file.stamp.is_there) add_option(&arguments, "--against", "/dev/null");
    add_argument(&arguments, opened->file.typed);
    int status = run_aside(&run, arguments.arguments, limit);
    enum replayed replayed = replayed_of(&run.said, status);
    if (replayed == REPLAY_UNREADABLE || replayed == REPLAY_FAILED) close(made);
    else *text = made;
    return replayed == REPLAY_FOREIGN && has_known_text(&opened->file, session) ? REPLAY_KNOWN : replayed;
}

/* Whether FILE has exactly the text of a file of the session. */
static bool is_in_part(const struct file *file, const struct session *session, const char *name) {
    int part = session_open(session, name);
    bool is_same = part >= 0 && judge_file(part, file->text) == FILE_WHOLE;
    close_one(&part);
    return is_same;
}

enum replayed compare_text(const struct file *file, const struct session *session) {
    if (!file->stamp.is_there) return REPLAY_KNOWN;
    if (is_in_part(file, session, SNAPSHOT_NAME)) return REPLAY_SAME;
    bool is_known = is_in_part(file, session, TEXT_NAME) || is_in_part(file, session, SAVED_NAME) || has_known_text(file, session);
    return is_known ? REPLAY_KNOWN : REPLAY_FOREIGN;
}

/* ---- what is told of FILE */

/* The milliseconds that a replay may take, and the bytes of the largest journal that is replayed at the end; less after a signal. 20,000 keys
 * take a second or two, and a large paste in one line takes longer. */
enum { REPLAY_MS = 2000, REPLAY_BY_SIGNAL_MS = 1000, LONGEST = 200000, LONGEST_BY_SIGNAL = 20000 };

/* Whether the last fault that the program reported is of this kind; gives its value. */
static bool is_fault(const struct said *said, const char *kind, const char **value) {
    const char *fault = said->fault;
    size_t length = strlen(kind);
    if (strncmp(fault, kind, length) != 0 || (fault[length] != 0 && fault[length] != ' ')) return false;
    *value = fault[length] ? fault + length + 1 : "";
    return true;
}

/* The refusal of FILE, or of a table, with which the program ended; NULL if it opened the text. */
static const char *refusal_of(const struct file *file, const struct said *said, bool *is_of_file) {
    const char *value;
    *is_of_file = true;
    if (is_fault(said, "not-utf8", &value)) {
        unsigned long long text_line = strtoull(value, NULL, 10);
        return file_message(file, check_encoding(file), text_line > 0 ? text_line : 1);
    }
    if (is_fault(said, "too-long", &value)) return file_message(file, CAUSE_TOO_LONG, 0);
    if (is_fault(said, "unreadable", &value)) return file_message(file, CAUSE_UNREADABLE, 0);
    *is_of_file = false;
    return is_fault(said, "tables", &value) ? value : NULL;
}

/* The fault with which the program ended; NULL if it reported none. */
static const char *fault_of(const struct said *said) {
    const char *value;
    if (is_fault(said, "memory", &value)) return "out of memory";
    switch (said->end) {
    case END_UNSAVED: return "input ended before saving";
    case END_OUTPUT: return "output failed";
    case END_INPUT: return "input failed";
    case END_READS: return "too many reads";
    default: return NULL;
    }
}

/* Reports why the program ended: in its name, or in the host's if FILE is refused. Returns whether FILE or a table was refused. */
static bool tell_fault_of(const struct file *file, const struct said *said) {
    bool is_of_file;
    const char *refusal = refusal_of(file, said, &is_of_file), *fault = refusal ? refusal : fault_of(said);
    if (refusal && is_of_file) warn("%s", refusal);
    else if (fault) put_text(STDERR_FILENO, text_of("bidi_edit: %s\n", fault));
    return refusal != NULL;
}

/* Opens FILE as it is now, if it is a plain file. */
static int open_now(const struct file *file, struct stat *look) {
    int text = file->is_lost ? -1 : openat(file->folder, file->name, O_RDONLY | O_NONBLOCK | O_NOFOLLOW | O_CLOEXEC);
    if (text >= 0 && (fstat(text, look) != 0 || !S_ISREG(look->st_mode))) close_one(&text);
    return text;
}

static bool is_there_now(const struct file *file) {
    struct file_stamp stamp;
    return stamp_at(file->folder, file->name, &stamp) && stamp.is_there;
}

/* Says where the recovered text is, if it was saved as another file. */
static void tell_aside(const struct opened *opened) {
    if (opened->aside_of && is_there_now(&opened->file))
        warn("%s was changed on disk, so the recovered text is in %s", shown(opened->aside_of), shown(opened->file.typed));
}

/* Repairs FILE after a save into it that was cut off. Returns whether the session has a backup that is needed. */
static bool mend_now(const struct opened *opened, struct session *session, const struct saves *saves) {
    struct mending mending = {.mended = MENDED_STILL_TORN};
    const char *name;
    if (saves->torn.file[0]) {
        put_path(mending.backup, "%s", saves->torn.backup);
        tell_mended(saves->torn.file, &mending, warn);
    }
    if (saves->is_itself && saver_is_torn(&saves->saver, &name) && name) {
        put_path(mending.backup, "%s", name);
        tell_mended(shown(opened->file.typed), &mending, warn);
    }
    if (!saves->is_in_place) return saves->torn.file[0] && session_has(session, BACKUP_NAME);
    if (session_mend(session, &opened->sessions, &opened->target, &mending)) return session_has(session, BACKUP_NAME);
    return tell_mended(shown(opened->file.typed), &mending, warn);
}

/* ---- the session */

static enum left_how left_how(enum end_frame end, bool is_refused) {
    if (is_refused) return LEFT_REFUSED;
    switch (end) {
    case END_SAVED: return LEFT_SAVED;
    case END_DROPPED: return LEFT_DROPPED;
    case END_UNSAVED: return LEFT_UNSAVED;
    default: return LEFT_UNKNOWN;
    }
}

/* Says that unsaved text is lost, if there may be any. */
static void tell_lost(enum left_how how, const char *cause) {
    if (how == LEFT_UNSAVED || how == LEFT_UNKNOWN) warn("any unsaved text is lost, since %s", cause);
}

/* Tells that the session's folder is gone, so that nothing unsaved can be recovered. */
static void tell_gone(struct session *session, enum left_how how) {
    const char *cause = text_of("the session's folder %s is gone", shown(session->path));
    if (how == LEFT_DROPPED) warn("only what was saved is kept, since %s", cause);
    else tell_lost(how, cause);
}

/* Why unsaved text is lost, as the message says it. */
static const char *cause_of_lost(const struct opened *opened, const struct kept *kept) {
    if (kept->unkept) return kept->unkept;
    if (kept->session.is_changed) return text_of("%s was changed before it could be copied", shown(opened->file.typed));
    if (kept->session.cause) return text_of("nothing can be written in %s", shown(kept->session.path));
    return text_of("something has removed files from %s", shown(kept->session.path));
}

/* Whether the tables and programs are those with which the session began. */
static bool has_same_versions(const struct setup *setup) {
    char versions[FACT_MOST];
    return !find_versions(setup->programs, &setup->tables, versions) && strcmp(versions, setup->versions) == 0;
}

/* Puts an open text into the session. If this fails, another version of the editor can only replay the keys. */
static void put_snapshot(struct session *session, int text) {
    struct stat look;
    if (fstat(text, &look) != 0) return;
    size_t length = (size_t)look.st_size;
    void *bytes = length > 0 ? mmap(NULL, length, PROT_READ, MAP_PRIVATE, text, 0) : NULL;
    if (bytes == MAP_FAILED) return;
    session_put(session, SNAPSHOT_NAME, bytes, length);
    if (bytes) munmap(bytes, length);
}

/* Replays the keys and leaves the resulting text in the session, for a recovery by another version. Returns whether FILE has the same text;
 * false if the replay took too long. */
static bool leave_text(const struct setup *setup, struct opened *opened, struct session *session) {
    struct stat look;
    int text;
    if (session_journal_size(session) > (end_signal ? LONGEST_BY_SIGNAL : LONGEST) || !has_same_versions(setup)) return false;
    /* FILE as it is now */
    if (opened->file.text >= 0) close(opened->file.text);
    opened->file.text = open_now(&opened->file, &look);
    leave_out_mark(&opened->file.text);
    opened->file.stamp.is_there = is_there_now(&opened->file);
    enum replayed found = replay(setup, opened, session, &text, within(end_signal ? REPLAY_BY_SIGNAL_MS : REPLAY_MS));
    if (text < 0) return false;
    put_snapshot(session, text);
    close(text);
    return found == REPLAY_SAME;
}

/* Whether FILE's folder was removed. */
static bool is_folder_gone(const struct file *file) {
    struct stat look;
    return fstat(file->folder, &look) == 0 && look.st_nlink == 0;
}

/* If FILE's folder was renamed, records FILE's new path, so that the session is found by it. */
static void note_moved(struct opened *opened, struct session *session) {
    char folder[PATH_MAX];
    const struct file *file = &opened->file;
    if (is_folder_gone(file) || !path_of(file->folder, folder)) return;
    bool has_moved = strcmp(folder, file->folder_path) != 0;
    if (has_moved) opened->moved = text_of("%s/%s", before_slash(folder), file->name);
    if (has_moved && opened->aside_of) put_path(session->about.beside, "%s", opened->moved);
    target_look(&opened->target, has_moved ? opened->moved : file->path, file->folder, file->name);
    session_record_file(session, &opened->target);
}

/* Collects what decides the session's fate. On the way it leaves the replayed text in the session. */
static struct left left_of(struct edit *edit, enum left_how how) {
    struct session *session = &edit->kept.session;
    struct left left = {.how = how, .is_there = session_is_there(session)};
    if (!left.is_there) return left;
    left.is_torn = mend_now(&edit->opened, session, &edit->saves);
    left.has_keys = session_has_keys(session) || session_has_mark(session, MARK_UNSAVED);
    bool is_wanted = left.is_torn || (left.has_keys && how != LEFT_SAVED);
    if (is_wanted) note_moved(&edit->opened, session);
    if (edit->kept.facts.is_journal_lost && is_wanted) {
        session->about.marks |= MARK_CUT;
        session->is_about_due = true;
    }
    left.is_filled = is_wanted && session_complete(session, end_signal != 0);
    left.is_secret = session_has_mark(session, MARK_SECRET);
    left.is_same = left.is_filled && left.has_keys && leave_text(&edit->setup, &edit->opened, session);
    return left;
}

/* Whether this name of FILE leads to this path. Opens it anew, since folders may have changed during the session. */
static bool leads_to_path(const char *typed, const char *path) {
    static struct file again;
    if (open_lost_file(&again, typed) != CAUSE_NONE) return false;
    bool is_same = strcmp(again.path, path) == 0;
    close_file(&again);
    return is_same;
}

/* Says what is kept (`what` begins the line) and the command that restores it (`behind` ends the line). If FILE's folder is gone or was
 * renamed, it also names the session's folder, and FILE by its path. */
static void tell_kept(const struct opened *opened, const struct kept *kept, const char *what, const char *behind) {
    const char *cut = kept->facts.is_journal_lost ? " up to where its journal could not be written" : "";
    /* what is not saved beside FILE is found under FILE's name */
    const char *typed = opened->aside_of && !is_there_now(&opened->file) ? opened->aside_of : opened->file.typed;
    const char *path = opened->moved ? opened->moved : opened->file.path;
    if (is_nameless(opened)) {
        warn("%s%s: bidi-edit --recover%s", what, cut, behind);
        return;
    }
    bool is_found = !is_folder_gone(&opened->file) && !opened->moved && (typed == opened->aside_of || leads_to_path(typed, path));
    const char *where = is_found ? "" : text_of(" in %s", shown(kept->session.path));
    warn("%s%s%s: bidi-edit --recover %s%s", what, cut, where, shown(is_found ? typed : path), behind);
}

/* Keeps a session whose changes were dropped, as the only one of its kind, so that a hasty Quit can be undone. */
static void drop_changes(const struct opened *opened, struct kept *kept) {
    sessions_forget_dropped(&opened->sessions, &kept->session);
    /* if this fails, the next start asks about the session */
    session_mark(&kept->session, MARK_DROPPED);
    tell_kept(opened, kept, "the dropped changes can be recovered", "");
}

/* Removes a session whose changes were dropped, as it has text that only root could read. */
static void wipe_changes(const struct opened *opened, struct session *session) {
    enum cause cause = session_remove(session);
    if (!cause) warn("the dropped changes are not kept, since only root can read %s", shown(opened->file.typed));
    else warn("the dropped changes cannot be deleted from %s%s", shown(session->path), fault_text(cause));
}

/* Ends a session that was kept, by its fate, and tells what is lost. FATE_REMOVED is silent unless keys were lost. */
static void end_kept(struct edit *edit, enum left_how how) {
    struct session *session = &edit->kept.session;
    struct left left = left_of(edit, how);
    switch (fate_of(&left)) {
    case FATE_GONE: tell_gone(session, how); break;
    case FATE_REMOVED:
        if (!left.has_keys && edit->kept.facts.is_journal_lost) tell_lost(how, "the journal could not be written");
        session_remove(session);
        break;
    case FATE_LOST: tell_lost(how, cause_of_lost(&edit->opened, &edit->kept)); break;
    case FATE_DROPPED: drop_changes(&edit->opened, &edit->kept); break;
    case FATE_WIPED: wipe_changes(&edit->opened, session); break;
    case FATE_KEPT: tell_kept(&edit->opened, &edit->kept, "unsaved text is kept", " restores it"); break;
    }
}

/* Names the signal that ended the program, unless a signal ended the host too. */
static void tell_signal(int status) {
    const char *name = sigabbrev_np(status - 128);
    if (end_signal || status <= 128) return;
    if (name) warn("the editor was ended by SIG%s", name);
    else warn("the editor was ended by signal %d", status - 128);
}

int end_session(struct edit *edit) {
    bool is_refused = tell_fault_of(&edit->opened.file, &edit->run.said) || !edit->run.said.is_opened;
    enum left_how how = left_how(edit->run.said.end, is_refused);
    tell_aside(&edit->opened);
    if (!session_is_none(&edit->kept.session)) {
        end_kept(edit, how);
    } else {
        mend_now(&edit->opened, &edit->kept.session, &edit->saves);
        if (!edit->kept.facts.is_unwanted && edit->kept.unkept) tell_lost(how, edit->kept.unkept);
    }
    tell_signal(edit->run.status);
    /* once the text is saved or dropped, later faults do not count */
    return how == LEFT_SAVED || how == LEFT_DROPPED ? 0 : edit->run.status;
}
