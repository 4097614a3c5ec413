/* Checks of sessions on a real disk: whose they are, which ones a start finds for FILE, and their ends. The other checks of this program
 * are in sessions_parts.c and sessions_repairs.c. Prints `N passed, M failed`. */
#include <fcntl.h>
#include <stdio.h>
#include <stdlib.h>
#include <string.h>
#include <sys/file.h>
#include <sys/stat.h>
#include <unistd.h>

#include "sessions_scene.h"

/* For sessions_forget: counts a session that was removed. */
static void count_forgotten(void *context, const struct forgotten *forgotten) {
    if (!forgotten->cause) ++*(int *)context;
}

/* A session from its beginning to its removal, and what a start finds of it meanwhile. */
static void check_life(void) {
    struct sessions sessions;
    struct session session;
    struct target target = {.folder = -1}, name = {.folder = -1}, other = {.folder = -1};
    int forgotten = 0;
    write_text(path_in("note"), "text");
    write_text(path_in("other"), "text");
    if (link(path_in("note"), path_in("name")) != 0) abort();
    look_at(&target, "note");
    look_at(&name, "name");
    look_at(&other, "other");
    make_sessions(&sessions);
    check_kinds(&sessions, &target, "", "life: no session");
    check(begin(&session, &sessions, &target) == CAUSE_NONE, "life: it begins");
    check_kinds(&sessions, &name, "l", "life: announced");
    fill(&session);
    check(strcmp(part_text(&session, TEXT_NAME), "text") == 0, "life: its text");
    check(strstr(part_text(&session, ABOUT_NAME), "\nmode 644\nbegin 24 80 auto -\n"), "life: its facts");
    check_kinds(&sessions, &target, "l", "life: live");
    check_kinds(&sessions, &name, "l", "life: live by another name");
    check_kinds(&sessions, &other, "", "life: another file");
    write_bytes(session.journal, "ab", 2);
    check(session_count_keys(&session) == 2, "life: its keys");
    session_close(&session);
    check_kinds(&sessions, &name, "u", "life: ended");
    struct found found;
    sessions_of(&found, &sessions, &target);
    check(strcmp(found.unfinished.about.path, target.path) == 0, "life: its path");
    check(session_mark(&found.unfinished, MARK_DROPPED) == CAUSE_NONE, "life: dropped by a mark");
    found_close(&found);
    check_kinds(&sessions, &target, "d", "life: dropped");
    sessions_forget(&sessions, &target, true, count_forgotten, &forgotten);
    check(forgotten == 1, "life: forgotten");
    check_kinds(&sessions, &target, "", "life: gone");
    leave(&session, &sessions);
}

/* A session without a key of the user is removed as soon as a start meets it. */
static void check_empty_one(void) {
    struct sessions sessions;
    struct session session;
    struct target target = {.folder = -1};
    begin_filled(&session, &sessions, &target, "\x1b[8;24;80t");
    char path[PATH_MAX];
    snprintf(path, sizeof path, "%s", session.path);
    session_close(&session);
    check_kinds(&sessions, &target, "", "empty: nothing is found");
    check(!is_there(path), "empty: it is removed");
    leave(&session, &sessions);
}

/* A FILE that is not there. */
static void check_new_file(void) {
    struct sessions sessions;
    struct session session;
    struct target target = {.folder = -1};
    make_sessions(&sessions);
    look_at(&target, "new");
    check(begin(&session, &sessions, &target) == CAUSE_NONE, "new FILE: it begins");
    check(session.source == -1, "new FILE: nothing is opened");
    fill(&session);
    write_bytes(session.journal, "x", 1);
    session_close(&session);
    check_kinds(&sessions, &target, "u", "new FILE: it is found");
    leave(&session, &sessions);
}

/* Checks how the folder of sessions counts if XDG_STATE_HOME is this folder. */
static void judge_folder(const char *name, enum folder_state wanted, const char *what) {
    struct sessions sessions;
    setenv("XDG_STATE_HOME", path_in("%s", name), 1);
    sessions_find(&sessions);
    check(sessions.state == wanted, what);
    sessions_close(&sessions);
    setenv("XDG_STATE_HOME", path_in("state"), 1);
}

/* Which folders are used for sessions: none that another user could change. */
static void check_trust(void) {
    run("mkdir -p good/bidi_edit open/bidi_edit below/in/bidi_edit linked real && chmod 777 open/bidi_edit below && chmod 700 good/bidi_edit below/in/bidi_edit");
    run("ln -s ../good/bidi_edit linked/bidi_edit && ln -s good real/way");
    judge_folder("good", FOLDER_READY, "trust: one's own");
    judge_folder("none", FOLDER_MISSING, "trust: one that is not there");
    judge_folder("open", FOLDER_DISTRUSTED, "trust: one that others may write");
    judge_folder("below/in", FOLDER_DISTRUSTED, "trust: one below a folder that others may write");
    judge_folder("linked", FOLDER_DISTRUSTED, "trust: a link");
    run("ln -s good way");
    judge_folder("way", FOLDER_READY, "trust: by a link above");
    clear_top();
}

/* Nothing is written into a folder that took the name of the session's. */
static void check_exchanged(void) {
    struct sessions sessions;
    struct session session;
    struct target target = {.folder = -1};
    begin_filled(&session, &sessions, &target, "x");
    check(session_is_there(&session), "exchanged: it is there before");
    char away[PATH_MAX];
    snprintf(away, sizeof away, "%s", path_in("away"));
    if (rename(session.path, away) != 0 || mkdir(session.path, 0700) != 0) abort();
    check(session_mind(&session) == KEEPS_NOWHERE, "exchanged: it is told");
    session_put(&session, SNAPSHOT_NAME, "x", 1);
    check(rmdir(session.path) == 0, "exchanged: nothing is in the other folder");
    if (rename(away, session.path) != 0) abort();
    check(mind(&session) == KEEPS, "exchanged: it is back");
    run("mv state away");
    check(session_mind(&session) == KEEPS_NOWHERE, "exchanged: the state folder is away");
    run("mv away state");
    leave(&session, &sessions);
}

/* Only folders of the session's name form are touched. */
static void check_foreign_names(void) {
    struct sessions sessions;
    struct session session;
    struct target target = {.folder = -1};
    make_sessions(&sessions);
    session_clear(&session);
    run("mkdir -p state/bidi_edit/2026-taxes/sub state/bidi_edit/20200101000000.abcdef state/bidi_edit/.replay.abc123 state/bidi_edit/.dead.20200101000000.abcdef");
    run("echo x >state/bidi_edit/2026-taxes/papers; echo x >state/bidi_edit/.dead.20200101000000.abcdef/path; echo x >state/bidi_edit/.replay.abc123/text");
    make_old(path_in("state/bidi_edit/2026-taxes"));
    make_old(path_in("state/bidi_edit/20200101000000.abcdef"));
    make_old(path_in("state/bidi_edit/.replay.abc123"));
    look_at(&target, "note");
    check_kinds(&sessions, &target, "", "names: nothing is found");
    check(is_there(path_in("state/bidi_edit/2026-taxes/papers")), "names: a user's folder stays");
    check(!is_there(path_in("state/bidi_edit/20200101000000.abcdef")), "names: a begun session is swept");
    check(!is_there(path_in("state/bidi_edit/.replay.abc123")), "names: a replay's folder is swept");
    check(!is_there(path_in("state/bidi_edit/.dead.20200101000000.abcdef")), "names: the rest of a removed session is swept");
    leave(&session, &sessions);
}

/* FILE's folder is renamed, before and after a save that gave FILE another inode. */
static void check_renamed(void) {
    for (int saves = 0; saves < 2; saves++) {
        struct sessions sessions;
        struct session session;
        struct target target = {.folder = -1}, moved = {.folder = -1};
        run("mkdir -p folder && printf text >folder/note");
        make_sessions(&sessions);
        look_at(&target, "folder/note");
        check(begin(&session, &sessions, &target) == CAUSE_NONE, "renamed: it begins");
        fill(&session);
        write_bytes(session.journal, "x", 1);
        if (saves) {
            run("printf text >folder/draft && mv folder/draft folder/note");
            look_at(&target, "folder/note");
            session_record_file(&session, &target);
            check(mind(&session) == KEEPS, "renamed: the save is noted");
        }
        session_close(&session);
        run("mv folder moved");
        look_at(&moved, "moved/note");
        check_kinds(&sessions, &moved, "u", "renamed: it is found by FILE");
        look_at(&target, "folder/note");
        check_kinds(&sessions, &target, "u", "renamed: it is found by the old path");
        run("mkdir folder && printf other >folder/note");
        check_kinds(&sessions, &moved, "u", "renamed: another file has the name by now");
        check_kinds(&sessions, &target, "u", "renamed: that file's starts tell too");
        leave(&session, &sessions);
    }
}

/* A hard link: the session is found by both names. */
static void check_links(void) {
    struct sessions sessions;
    struct session session;
    struct target target = {.folder = -1}, other = {.folder = -1};
    run("mkdir one two && printf text >one/note && ln one/note two/note");
    make_sessions(&sessions);
    look_at(&target, "one/note");
    check(begin(&session, &sessions, &target) == CAUSE_NONE, "links: it begins");
    fill(&session);
    write_bytes(session.journal, "x", 1);
    look_at(&other, "two/note");
    check_kinds(&sessions, &other, "l", "links: live by the other name");
    session_close(&session);
    check_kinds(&sessions, &other, "u", "links: unfinished by the other name");
    leave(&session, &sessions);
}

/* A session of others' files, or with a link in it, is not the user's own. */
static void check_own(void) {
    struct sessions sessions;
    struct session session;
    struct target target = {.folder = -1};
    begin_filled(&session, &sessions, &target, "x");
    session_close(&session);
    run("ln -s /etc/passwd \"$(echo state/bidi_edit/2*)/replayed\"");
    check_kinds(&sessions, &target, "", "own: not with a link in it");
    run("rm state/bidi_edit/2*/replayed && chmod 770 state/bidi_edit/2*");
    check_kinds(&sessions, &target, "", "own: not one that others may write");
    run("chmod 700 state/bidi_edit/2*");
    check_kinds(&sessions, &target, "u", "own: else");
    leave(&session, &sessions);
}

/* Whether another process finds the session locked. */
static bool is_live_for_other(const struct sessions *sessions, const struct target *target) {
    return strcmp(kinds(sessions, target), "l") == 0;
}

/* The lock of a session's folder; and that of the file `lock`, which an editor of version 0.4.0 takes. */
static void check_lock(void) {
    struct sessions sessions;
    struct session session;
    struct target target = {.folder = -1};
    struct found found;
    begin_filled(&session, &sessions, &target, "x");
    check(is_live_for_other(&sessions, &target), "lock: the session lives");
    sessions_of(&found, &sessions, &target);
    session_remove_unless_locked(&found.live);
    check(is_there(session.path), "lock: no other start removes it");
    check(session_lock(&found.live) == LOCK_HELD, "lock: nor takes it");
    found_close(&found);
    session_close(&session);
    run("cd state/bidi_edit/2*; rm about; pwd >path; echo 1 \"$(cat /proc/sys/kernel/hostname)\" - >process; : >lock");
    run("printf %s \"$PWD\"/note >\"$(echo state/bidi_edit/2*)/path\"");
    int lock = open(path_in("lock"), O_RDWR | O_CREAT | O_CLOEXEC, 0600);
    run("ln -f lock \"$(echo state/bidi_edit/2*)/lock\"");
    check(flock(lock, LOCK_EX | LOCK_NB) == 0, "lock: taken as by version 0.4.0");
    check(is_live_for_other(&sessions, &target), "lock: by an editor of before");
    sessions_of(&found, &sessions, &target);
    check(session_lock(&found.live) == LOCK_HELD, "lock: nobody takes it from an editor of before");
    found_close(&found);
    close(lock);
    check_kinds(&sessions, &target, "u", "lock: that one has ended");
    leave(&session, &sessions);
}

int main(void) {
    begin_scene();
    check_life();
    check_empty_one();
    check_new_file();
    check_trust();
    check_exchanged();
    check_foreign_names();
    check_renamed();
    check_links();
    check_own();
    check_lock();
    check_parts();
    check_repairs();
    return end_scene();
}
