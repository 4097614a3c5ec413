/* Checks of what follows an interrupted session or save, on a real disk: sessions that go on or are made anew, removals that are refused,
 * and repairs of FILE. sessions_life.c runs them. */
#include <errno.h>
#include <stdio.h>
#include <stdlib.h>
#include <string.h>
#include <sys/stat.h>
#include <unistd.h>

#include "sessions_scene.h"

/* What goes on after a lock: journal, text, facts; a Save and the size are appended. */
static void check_resumed(void) {
    struct sessions sessions;
    struct session session;
    struct target target = {.folder = -1};
    struct found found;
    begin_filled(&session, &sessions, &target, "x");
    session_put(&session, SNAPSHOT_NAME, "xtext", 5);
    session_mark(&session, MARK_DROPPED);
    session_close(&session);
    sessions_of(&found, &sessions, &target);
    session_clear(&session);
    session_move(&session, &found.dropped);
    found_close(&found);
    check(session_lock(&session) == LOCK_TAKEN, "resumed: locked");
    check(session_go_on(&session, path_in("note.recovered"), true) == CAUSE_NONE, "resumed: goes on");
    check(!session_has(&session, SNAPSHOT_NAME) && strstr(part_text(&session, ABOUT_NAME), "/note.recovered\n"), "resumed: noted");
    check(!strstr(part_text(&session, ABOUT_NAME), "dropped"), "resumed: not dropped any more");
    check(session_resume(&session, 25, 90) == CAUSE_NONE, "resumed: the size");
    check(strcmp(part_text(&session, JOURNAL_NAME), "x\x13\x1b[8;25;90t") == 0, "resumed: the journal");
    check(mind(&session) == KEEPS && !session_damage(&session), "resumed: kept");
    leave(&session, &sessions);
}

/* A session that goes on with its last text, as one that another version recorded does. */
static void check_renewed(void) {
    struct sessions sessions;
    struct session session, renewed;
    struct target target = {.folder = -1};
    struct sum known;
    begin_filled(&session, &sessions, &target, "x");
    sum_begin(&known);
    sum_more(&known, "text", 4);
    check(session_renew(&renewed, &sessions, &session, "bidi-edit 2", &known) != CAUSE_NONE, "renewed: not without a text");
    session_put(&session, SNAPSHOT_NAME, "xtext", 5);
    check(session_renew(&renewed, &sessions, &session, "bidi-edit 2", &known) == CAUSE_NONE, "renewed: made");
    check(strcmp(part_text(&renewed, TEXT_NAME), "xtext") == 0, "renewed: its text");
    check(strstr(part_text(&renewed, ABOUT_NAME), "\nversions bidi-edit 2\nmarks unsaved\n") && strstr(part_text(&renewed, ABOUT_NAME), "\nknown 4 "),
          "renewed: its facts");
    check(strcmp(renewed.about.path, target.path) == 0, "renewed: its path");
    check(mind(&renewed) == KEEPS && !session_damage(&renewed), "renewed: kept");
    check(session_remove(&session) == CAUSE_NONE, "renewed: the old one is removed");
    session_close(&renewed);
    check_kinds(&sessions, &target, "u", "renewed: it is found");
    leave(&session, &sessions);
}

/* A removal that is refused leaves the session whole; one that began leaves nothing that a start finds. In a child without the
 * rights of root. */
static void refuse_removal(void) {
    struct sessions sessions;
    struct session session;
    struct target target = {.folder = -1};
    begin_filled(&session, &sessions, &target, "x");
    if (chmod(path_in("state/bidi_edit"), 0500) != 0) abort();
    check(session_remove(&session) == CAUSE_NOT_PERMITTED, "removal: refused");
    check(session_has(&session, ABOUT_NAME) && session_has(&session, TEXT_NAME), "removal: nothing is erased");
    if (chmod(path_in("state/bidi_edit"), 0700) != 0) abort();
    if (chmod(session.path, 0500) != 0) abort();
    check(session_go_on(&session, NULL, true) == CAUSE_NOT_PERMITTED, "going on: refused");
    check(session_has(&session, ABOUT_NAME) && strcmp(part_text(&session, JOURNAL_NAME), "x") == 0, "going on: nothing is erased");
    check(session_remove(&session) == CAUSE_NONE, "removal: begun");
    session_close(&session);
    check_kinds(&sessions, &target, "", "removal: nothing is found");
    run("chmod 700 state/bidi_edit/.dead.*");
    check_kinds(&sessions, &target, "", "removal: swept");
    run("test -z \"$(ls -A state/bidi_edit)\"");
    leave(&session, &sessions);
}

/* The checks of refuse_removal, as user 65534. */
static void refuse_removal_as_other(void) {
    if (chown(top, 65534, 65534) != 0 || setgid(65534) != 0 || setuid(65534) != 0) abort();
    refuse_removal();
}

/* Root has every right, so as root another user does these checks, in a child. */
static void check_removal(void) {
    if (geteuid() != 0) {
        refuse_removal();
        return;
    }
    check_in_child(refuse_removal_as_other, "removal: the child reports");
    if (chown(top, 0, 0) != 0) abort();
}

/* For sessions_mend: notes what was done. */
static void note_mended(void *context, const struct mending *mending) {
    *(int *)context = (int)mending->mended;
}

/* Records that a save came so far in FILE, as it is now. */
static void put_step(struct session *session, enum step_kind kind) {
    char words[FACT_MOST];
    struct stat found;
    if (stat(path_in("note"), &found) != 0) abort();
    struct step step = {.kind = kind, .to = 5, .id = {.device = found.st_dev, .inode = found.st_ino},
                        .seconds = found.st_mtim.tv_sec, .nanos = (uint32_t)found.st_mtim.tv_nsec};
    snprintf(step.boot, sizeof step.boot, "%s", this_process()->boot);
    step_text(&step, words);
    session_put(session, STEP_NAME, words, strlen(words));
}

/* FILE, of which a killed save left this, gets its whole text back from the backup; any other text stays, and so does a part of the text
 * that is not as that save left it. */
static void check_mending(void) {
    static const struct {
        const char *which, *bytes;
        size_t size;
        enum step_kind kind;
        enum mended mended;
        const char *left, *after;
    } cases[] = {
        {"torn", "he", 2, STEP_PARTLY, MENDED_PUT_BACK, "hello", "true"},
        {"empty", "", 0, STEP_PARTLY, MENDED_PUT_BACK, "hello", "true"},
        {"zeros", "h\0\0l", 4, STEP_PARTLY, MENDED_PUT_BACK, "hello", "true"},
        {"whole", "hello", 5, STEP_WHOLE, MENDED_WHOLE, "hello", "true"},
        {"another", "help", 4, STEP_PARTLY, MENDED_WHOLE, "help", "true"},
        {"longer", "hello there", 11, STEP_PARTLY, MENDED_WHOLE, "hello there", "true"},
        {"cut by another program after the save", "hello", 5, STEP_WHOLE, MENDED_NOT, "he", "sleep 0.02; printf he >note"},
        {"emptied by another program after the save", "hello", 5, STEP_WHOLE, MENDED_NOT, "", "sleep 0.02; : >note"},
        {"emptied by another program before FILE was written", "old", 3, STEP_READY, MENDED_NOT, "", ": >note"},
        {"replaced by another program", "h", 1, STEP_PARTLY, MENDED_NOT, "he", "printf he >new; touch -r note new; mv new note"},
        {"torn, and cut later", "he", 2, STEP_PARTLY, MENDED_NOT, "he", "touch -d '1 minute' note"},
    };
    for (size_t at = 0; at < sizeof cases / sizeof *cases; at++) {
        struct sessions sessions;
        struct session session;
        struct target target = {.folder = -1};
        int mended = -1;
        char line[2 * PATH_MAX];
        begin_filled(&session, &sessions, &target, "x");
        session_put(&session, BACKUP_NAME, "hello", 5);
        write_file(path_in("note"), cases[at].bytes, cases[at].size);
        put_step(&session, cases[at].kind);
        run(cases[at].after);
        target_look(&target, target.path, target.folder, target.name);
        session_mark(&session, MARK_IN_PLACE);
        check(sessions_mend(&sessions, &target, note_mended, &mended) && mended == -1, "mending: not of a session that lives");
        session.about.process = (struct process){.number = 7, .machine = "elsewhere", .boot = "other"};
        session_mark(&session, MARK_IN_PLACE);
        char about[PATH_MAX];
        session_path_of(&session, ABOUT_NAME, about);
        session_close(&session);
        check(sessions_mend(&sessions, &target, note_mended, &mended) && mended == -1, "mending: not of one that may go on elsewhere");
        snprintf(line, sizeof line, "sed -i \"s/^process.*/process 7 $(cat /proc/sys/kernel/hostname) -/\" '%s'", about);
        run(line);
        check(sessions_mend(&sessions, &target, note_mended, &mended), cases[at].which);
        check(mended == (int)cases[at].mended, cases[at].which);
        check(strcmp(read_text(path_in("note")), cases[at].left) == 0, cases[at].which);
        if (mended == MENDED_NOT) run("grep -q hello state/bidi_edit/2*/save && test ! -e \"$(echo state/bidi_edit/2*)/mark.step\"");
        leave(&session, &sessions);
    }
}

void check_repairs(void) {
    check_resumed();
    check_renewed();
    check_removal();
    check_mending();
}
