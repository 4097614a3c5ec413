/* The session that begins or goes on, and the program while it runs. edit.h says what each call promises. */
#include <fcntl.h>
#include <stdio.h>
#include <string.h>
#include <sys/stat.h>
#include <time.h>
#include <unistd.h>

#include "edit.h"
#include "say.h"
#include "terminal.h"
#include "util.h"

/* Seconds: that a message stays before the screen hides it; after which a notice that keys have hidden is shown again. */
enum { PAUSE = 1, HIDDEN = 5 };

/* Bits of a mode: by which others than the owner read; all of theirs. */
enum { READ_BY_OTHERS = 044 };

/* ---- a session that begins or goes on */

/* The facts of a new session. */
static void note_facts(const struct setup *setup, const struct opened *opened, const struct kept *kept, struct about *about) {
    const struct stat *found = &opened->file.stamp.found;
    about_clear(about);
    put_path(about->path, "%s", opened->target.path);
    about->has_id = opened->target.is_there;
    about->id = opened->target.id;
    about->has_begin = about->has_process = true;
    about->begin = kept->begin;
    about->process = *this_process();
    memcpy(about->versions, setup->versions, sizeof about->versions);
    if (!kept->is_joined) about->marks |= MARK_UNJOINED;
    if (opened->reason != NO_REASON) about->marks |= MARK_IN_PLACE;
    if (opened->piped >= 0) about->marks |= MARK_UNSAVED;
    if (!opened->file.stamp.is_there) return;
    about->mode = (int)(found->st_mode & PERMISSIONS);
    if (found->st_uid == 0 && (found->st_mode & READ_BY_OTHERS) == 0) about->marks |= MARK_SECRET;
}

/* Makes the session. If that is impossible, `unkept` says why. */
static void try_session(const struct setup *setup, struct opened *opened, struct kept *kept) {
    static struct about about;
    const char *path = shown(opened->sessions.path);
    sessions_make(&opened->sessions);
    kept->unkept = unkept_by(&opened->sessions, &kept->unkept_notice);
    if (!kept->unkept && is_in_memory(opened->file.folder) && !is_in_memory(opened->sessions.folder)) {
        kept->is_in_memory = true;
        kept->unkept_notice = NOTICE_UNKEPT;
        kept->unkept = text_of("%s is in memory, and no disk may have its text", shown(opened->file.typed));
    }
    if (kept->unkept) return;
    note_facts(setup, opened, kept, &about);
    enum cause cause = session_begin(&kept->session, &opened->sessions, &about, opened->file.text);
    if (!cause) cause = kept->session.cause;
    if (!cause) return;
    kept->unkept_notice = notice_of(cause);
    kept->unkept = cause == CAUSE_NO_SPACE ? text_of("there is no space in %s", path) : text_of("nothing can be written in %s", path);
}

/* Whether there is a session for saves that overwrite FILE. One that waits for space is abandoned, since such a save needs the space at
 * once. */
static bool has_session_in_place(struct session *session) {
    if (session_is_none(session)) return false;
    if (!session->cause) return session_has_mark(session, MARK_IN_PLACE) || session_mark(session, MARK_IN_PLACE) == CAUSE_NONE;
    session_remove(session);
    session_close(session);
    return false;
}

/* Decides whether saves overwrite FILE in place. During such a save the session has the whole text. Without a session such a FILE is
 * refused; with --force it is opened, and FILE's folder has the whole text during a save, unless the user cannot replace files
 * there. */
static int decide_in_place(struct edit *edit) {
    const struct call *call = edit->call;
    const struct opened *opened = &edit->opened;
    struct saves *saves = &edit->saves;
    if (opened->reason == NO_REASON) return GO_ON;
    const char *file = shown(opened->file.typed), *reason = reason_text(opened->reason);
    saves->is_in_place = has_session_in_place(&edit->kept.session);
    saves->is_itself = !saves->is_in_place && call->is_forced && opened->reason != REASON_PROTECTED;
    if (saves->is_in_place || saves->is_itself) {
        warn("%s %s: saves overwrite it in place", file, reason);
        return GO_ON;
    }
    const char *why = edit->kept.unkept ? edit->kept.unkept : "there is no space", *force = call->is_forced ? "" : "; --force opens it anyway";
    warn("%s %s; since unsaved text is not kept (%s), %s%s", file, reason, why, reason_harm(opened->reason), force);
    return call->is_forced ? GO_ON : STATUS_FAULT;
}

/* Warns that unsaved text is not kept, before the screen changes. Unless the user gave -n, it rings the bell and waits a second. */
static void tell_unkept(const struct call *call, const struct kept *kept) {
    struct timespec pause = {.tv_sec = PAUSE};
    if (!kept->unkept) return;
    warn("unsaved text is not kept, since %s", kept->unkept);
    if (call->is_unkept || kept->is_in_memory) return;
    put_text(STDERR_FILENO, "\a");
    nanosleep(&pause, NULL);
}

int begin_session(struct edit *edit) {
    const struct call *call = edit->call;
    struct opened *opened = &edit->opened;
    struct kept *kept = &edit->kept;
    struct size size;
    measure(&size);
    kept->begin = (struct begin){.rows = size.rows, .cols = size.columns, .line = (unsigned)call->line, .spaces = call->spaces,
                                 .is_view = opened->is_view, .is_indented = !call->has_no_indent, .is_nameless = is_nameless(opened)};
    /* no save goes to FILE */
    if (opened->is_view) opened->reason = NO_REASON;
    snprintf(kept->begin.direction, sizeof kept->begin.direction, "%s", direction_word(call->direction));
    if (call->is_unkept) {
        kept->unkept = "-n was given";
        kept->unkept_notice = NOTICE_UNKEPT;
    } else {
        try_session(&edit->setup, opened, kept);
    }
    int status = decide_in_place(edit);
    if (status == GO_ON) tell_unkept(call, kept);
    else if (!session_is_none(&kept->session)) session_remove(&kept->session);
    return status;
}

/* Continues a recovered session. Its keys are replayed, so the program begins with the window that the session began with. Faults of
 * the session's disk are reported while the program runs. */
int resume_session(struct edit *edit) {
    struct opened *opened = &edit->opened;
    struct kept *kept = &edit->kept;
    struct session *session = &kept->session;
    struct size size;
    measure(&size);
    kept->is_resumed = true;
    kept->begin = session->about.begin;
    kept->is_joined = kept->is_joined && !session_has_mark(session, MARK_UNJOINED);
    session_resume(session, size.rows, size.columns);
    if (!kept->is_joined) session->about.marks |= MARK_UNJOINED;
    session->is_about_due = true;
    if (!opened->file.stamp.is_there) opened->lost_mode = session->about.mode;
    return decide_in_place(edit);
}

/* ---- the program: its arguments, and what is done for the session while it runs */

/* Adds what the program opens: the session's text and keys, the copy of FILE, FILE itself, or an empty text; and the journal to append
 * to. */
static void add_text(struct edit *edit, struct arguments *arguments) {
    const struct session *session = &edit->kept.session;
    struct run *run = &edit->run;
    bool is_kept = !session_is_none(session);
    const char *journal = is_kept ? handed_path(run, session->journal) : NULL;
    int source = is_kept ? session->source : edit->opened.file.text;
    if (edit->kept.is_resumed ? session_has_mark(session, MARK_UNSAVED) : edit->call->is_piped) add_argument(arguments, "--unsaved");
    if (edit->kept.is_resumed) {
        add_option(arguments, "--text", handed_path(run, session->text));
        add_option(arguments, "--replay", journal);
    } else if (source >= 0) {
        add_option(arguments, "--text", handed_path(run, source));
    } else if (edit->opened.file.stamp.is_there) {
        add_option(arguments, "--text", "/dev/null");
    } else {
        add_argument(arguments, "--new");
    }
    if (journal) add_option(arguments, "--journal", journal);
}

/* The program's arguments for this session. FILE's name comes last, as struct run has it. */
static void make_edit_arguments(struct edit *edit, struct arguments *arguments) {
    add_begin(arguments, &edit->kept.begin, edit->opened.file.typed);
    add_tables(arguments, &edit->setup.tables, edit->kept.is_joined);
    add_text(edit, arguments);
    add_argument(arguments, edit->opened.file.typed);
}

/* The title now: FILE's last name, the main keys (^S is Ctrl-S), and a note. */
static const char *title_now(const struct opened *opened, const struct kept *kept) {
    static const char *const endings[] = {[TITLE_KEPT] = "", [TITLE_UNKEPT] = " (unsaved text is not kept)",
                                        [TITLE_LOST] = " (unsaved text is not kept now: save it)"};
    static char title[4 * PATH_MAX + 128];
    snprintf(title, sizeof title, "%s - ^S save ^Q quit F1 keys%s", opened->shown_name, endings[title_state_of(&kept->facts, kept->facts.told)]);
    return title;
}

/* After a save under a new name: the other starts on this machine, the title, and the last line after a kill know the new file. */
static void tell_new_file(const struct opened *opened, const struct kept *kept, const struct saves *saves) {
    note_open_file(&opened->file);
    show_title(title_now(opened, kept));
    if (!kept->facts.has_session) return;
    static char word[4 * PATH_MAX + 1];
    snprintf(word, sizeof word, " %s", saver_new_file(&saves->saver)->shown);
    put_last_line(word);
}

/* Called once the program has read FILE: the keeper copies FILE into the session. */
static void on_opened(void *whose) {
    struct edit *edit = whose;
    struct session *session = &edit->kept.session;
    if (!session_is_none(session) && !keeper_start(edit)) return;
    /* the keeper has them; the end of a process that has such a file open may wait for its disk */
    release_file(&edit->opened.file);
    close_one(&edit->opened.piped);
    close_one(&session->source);
    close_one(&session->text);
    close_one(&session->journal);
}

static void on_journal(void *whose, bool is_kept) {
    struct edit *edit = whose;
    edit->kept.facts.is_journal_lost = !is_kept;
    keeper_note_journal(is_kept);
}

static void on_saved(void *whose) {
    struct edit *edit = whose;
    if (saver_cause(&edit->saves.saver) != 0) return;
    edit->saves.was_saved = true;
    if (take_new_file(&edit->opened, &edit->saves)) tell_new_file(&edit->opened, &edit->kept, &edit->saves);
    keeper_note_save();
}

/* Shows in the title and the last row why no copy is kept, or that one is kept again, and rings the bell for a new cause. A notice
 * that a key has hidden is shown again. */
static void tell_trouble(const struct opened *opened, struct kept *kept) {
    struct now_facts *facts = &kept->facts;
    keeper_hear(facts);
    enum notice trouble = trouble_now(facts);
    bool is_new = trouble != facts->told;
    kept->is_typed_since = was_typed() || kept->is_typed_since;
    kept->seconds_since++;
    facts->told = trouble;
    if (is_new) {
        show_title(title_now(opened, kept));
        if (trouble != NOTICE_NONE) ring();
    } else if (trouble == NOTICE_NONE || !kept->is_typed_since || kept->seconds_since < HIDDEN) {
        return;
    }
    give_notice(trouble != NOTICE_NONE ? trouble : NOTICE_KEPT_AGAIN);
    kept->is_typed_since = false;
    kept->seconds_since = 0;
}

/* For struct run: tells what the keeper has found, and returns whether the program shall try its journal again. */
static bool on_second(void *whose) {
    struct edit *edit = whose;
    if (edit->kept.facts.has_session) tell_trouble(&edit->opened, &edit->kept);
    return edit->kept.facts.is_journal_lost;
}

/* Sets what is known of the session before the program starts. `told` is the notice that the user has seen already, so tell_trouble does
 * not repeat it. */
static void begin_facts(const struct call *call, struct kept *kept) {
    struct session *session = &kept->session;
    bool has_session = !session_is_none(session), is_waiting = has_session && session->cause;
    kept->facts = (struct now_facts){.has_session = has_session,
                                     .is_unwanted = !kept->is_resumed && call->is_unkept,
                                     .keeping = is_waiting ? KEEPS_NOT_YET : kept->is_resumed ? KEEPS : KEEPS_SOON,
                                     .cause = session->cause,
                                     .is_filled = kept->is_resumed};
    if (kept->unkept && !kept->facts.is_unwanted) kept->facts.told = kept->unkept_notice;
}

/* Prepares the saver. With a session, a save keeps the lock open, and if it overwrites FILE, its backup is in the session's folder. */
static void begin_saves(struct opened *opened, const struct kept *kept, struct saves *saves) {
    if (!saver_open(&saves->saver, &opened->file)) tell_no_memory();
    saves->saver.is_itself = saves->is_itself;
    saves->saver.lost_mode = opened->lost_mode;
    saves->saver.own_name = kept->session.about.name;
    if (session_is_none(&kept->session)) return;
    saves->saver.lock = kept->session.folder;
    saves->saver.boot = this_process()->boot;
    if (saves->is_in_place) saves->saver.backup_folder = kept->session.folder;
}

/* What the last row says until the first key: for some terminals a hint in all of it, unless a start has shown that, which a file in the folder
 * of sessions tells; else what the text is, or the main keys, behind the numbers, if they and FILE's name have room. */
static void choose_hint(struct run *run, const struct opened *opened, const struct begin *begin) {
    const char *name, *hint = terminal_hint(&name);
    bool is_wanted = hint && opened->sessions.state == FOLDER_READY;
    int file = is_wanted ? openat(opened->sessions.folder, text_of("hint-%s", name), O_WRONLY | O_CREAT | O_EXCL | O_NOFOLLOW | O_CLOEXEC, 0600) : -1;
    run->hint_column = 1;
    if (file >= 0) run->hint = hint;
    close_one(&file);
    if (run->hint) return;
    hint = begin->is_view ? "view only" : is_nameless(opened) || opened->file.stamp.is_there ? "F1 keys  ^S save  ^Q quit" : "new file";
    run->hint_column = (unsigned)strlen(text_of("* %u:1 ", begin->line > 0 ? begin->line : 1)) + 1;
    bool has_room = run->hint_column + strlen(hint) + strlen(opened->file.typed) + 6 <= begin->cols && begin->rows > 1;
    if (has_room) run->hint = hint;
}

/* The notice that the program shows first; NOTICE_NONE where there is none. */
static enum notice first_notice(const struct edit *edit) {
    if (edit->kept.unkept && !edit->call->is_unkept) return edit->kept.unkept_notice;
    if (edit->opened.aside_of) return NOTICE_RECOVERED_ASIDE;
    if (edit->kept.is_resumed) return NOTICE_RECOVERED;
    return edit->saves.is_in_place || edit->saves.is_itself ? NOTICE_IN_PLACE : NOTICE_NONE;
}

int run_session(struct edit *edit) {
    struct opened *opened = &edit->opened;
    struct kept *kept = &edit->kept;
    struct run *program = &edit->run;
    struct arguments arguments = {.count = 0};
    *program = (struct run){.program = edit->setup.programs->editor, .held = {kept->session.folder, -1},
                            .saver = &edit->saves.saver, .whose = edit, .on_opened = on_opened,
                            .on_journal = on_journal, .on_second = on_second, .on_saved = on_saved,
                            .has_mouse = !edit->call->has_no_mouse, .has_clipboard = !edit->call->has_no_clipboard};
    make_edit_arguments(edit, &arguments);
    program->arguments = arguments.arguments;
    const char *slash = strrchr(opened->file.typed, '/');
    opened->shown_name = is_nameless(opened) ? NO_NAME : shown(slash ? slash + 1 : opened->file.typed);
    begin_facts(edit->call, kept);
    begin_saves(opened, kept, &edit->saves);
    program->title = title_now(opened, kept);
    if (kept->is_resumed) {
        program->rows = kept->begin.rows;
        program->columns = kept->begin.cols;
    }
    enum notice notice = first_notice(edit);
    if (notice != NOTICE_NONE) give_notice(notice);
    else choose_hint(program, opened, &kept->begin);
    program->killed = session_is_none(&kept->session) ? NULL : name_word(opened, opened->file.typed);
    enum run_end end = run_program(program);
    is_telling_limited = true;
    if (end == RUN_ENDED) return keeper_end(edit);
    warn("the editor could not be started: %s", program->cause);
    if (!kept->is_resumed && !session_is_none(&kept->session)) session_remove(&kept->session);
    return STATUS_FAULT;
}
