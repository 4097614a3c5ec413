/* Checks of a session's files on a real disk: FILE's text as it is copied, also while it changes, files that something removes or changes,
 * and disks without room. sessions_life.c runs them. */
#include <fcntl.h>
#include <poll.h>
#include <sched.h>
#include <signal.h>
#include <stdio.h>
#include <stdlib.h>
#include <string.h>
#include <sys/mount.h>
#include <sys/stat.h>
#include <sys/wait.h>
#include <unistd.h>

#include "sessions_scene.h"

/* Something appends to FILE all the time. What the program opens is what the session has. */
static void check_growing(void) {
    static char many[3 << 20];
    memset(many, 'a', sizeof many);
    for (int is_large = 0; is_large < 2; is_large++) {
        struct sessions sessions;
        struct session session;
        struct target target = {.folder = -1};
        write_file(path_in("note"), many, is_large ? sizeof many : 100);
        make_sessions(&sessions);
        look_at(&target, "note");
        pid_t writer = fork();
        if (writer == 0) {
            int file = open(target.path, O_WRONLY | O_APPEND | O_CLOEXEC);
            for (;;) {
                if (write(file, "line\n", 5) != 5) _exit(1);
                poll(NULL, 0, 1);
            }
        }
        poll(NULL, 0, 20);
        check(begin(&session, &sessions, &target) == CAUSE_NONE, "growing: it begins");
        struct stat opened, kept;
        int source = dup(session.source);
        fstat(source, &opened);
        check(mind(&session) == KEEPS, "growing: it is kept");
        kill(writer, SIGKILL);
        waitpid(writer, NULL, 0);
        fstat(source, &kept);
        close(source);
        int text = session_open(&session, TEXT_NAME);
        struct stat copied;
        check(opened.st_size == kept.st_size && fstat(text, &copied) == 0 && copied.st_size == kept.st_size, "growing: the copy is what was opened");
        close(text);
        leave(&session, &sessions);
    }
}

/* A large FILE that was calm is copied later: unless it changes before, and then that is told. */
static void check_large(void) {
    static char many[3 << 20];
    memset(many, 'b', sizeof many);
    for (int is_changed = 0; is_changed < 2; is_changed++) {
        struct sessions sessions;
        struct session session;
        struct target target = {.folder = -1};
        write_file(path_in("note"), many, sizeof many);
        make_old(path_in("note"));
        make_sessions(&sessions);
        look_at(&target, "note");
        check(begin(&session, &sessions, &target) == CAUSE_NONE, "large: it begins");
        bool is_shared = session.about.has_text;
        if (is_changed) write_text(path_in("note"), "other");
        check(mind(&session) == (is_changed && !is_shared ? KEEPS_NOTHING : KEEPS), is_changed ? "large: changed" : "large: copied");
        struct stat copied;
        char path[PATH_MAX];
        session_path_of(&session, TEXT_NAME, path);
        check((is_changed && !is_shared) || (stat(path, &copied) == 0 && copied.st_size == sizeof many), "large: its copy");
        leave(&session, &sessions);
    }
}

/* The file is replaced while its copy waits: the old bytes are copied. */
static void check_replaced(void) {
    static char many[3 << 20];
    memset(many, 'c', sizeof many);
    struct sessions sessions;
    struct session session;
    struct target target = {.folder = -1};
    write_file(path_in("note"), many, sizeof many);
    make_old(path_in("note"));
    make_sessions(&sessions);
    look_at(&target, "note");
    check(begin(&session, &sessions, &target) == CAUSE_NONE, "replaced: it begins");
    run("printf saved >draft && mv draft note");
    check(mind(&session) == KEEPS, "replaced: it is kept");
    check(strncmp(part_text(&session, TEXT_NAME), "cccc", 4) == 0, "replaced: the old text");
    leave(&session, &sessions);
}

/* Something removes a file of a running session: that is told, and the file is not made again. What is left stays. */
static void check_removed(void) {
    static const char *const names[] = {TEXT_NAME, JOURNAL_NAME, ABOUT_NAME};
    for (size_t at = 0; at < sizeof names / sizeof *names; at++) {
        struct sessions sessions;
        struct session session;
        struct target target = {.folder = -1};
        begin_filled(&session, &sessions, &target, "ab");
        check(mind(&session) == KEEPS, names[at]);
        unlinkat(session.folder, names[at], 0);
        check(mind(&session) == KEEPS_NOWHERE && mind(&session) == KEEPS_NOWHERE, names[at]);
        check(!session_complete(&session, false) && !session_has(&session, names[at]), names[at]);
        leave(&session, &sessions);
    }
}

/* What of an ended session has changed. */
static void check_damage(void) {
    static const struct {
        const char *command, *damage;
    } cases[] = {
        {"true", NULL},
        {"printf texT >text", "its text has changed"},
        {"rm text", "its text has changed"},
        {"printf aB >journal", "its keys have changed"},
        {"printf abc >journal", NULL},
        {"printf a >journal", "keys are missing"},
        {": >journal", "keys are missing"},
        {"rm journal", "keys are missing"},
        {"sed -i s/80/81/ about", "its file about has changed"},
        {"sed -i '$d' about", "its file about has changed"},
    };
    for (size_t at = 0; at < sizeof cases / sizeof *cases; at++) {
        struct sessions sessions;
        struct session session;
        struct target target = {.folder = -1};
        struct found found;
        char line[256];
        begin_filled(&session, &sessions, &target, "ab");
        check(session_complete(&session, at % 2), "damage: settled");
        session_close(&session);
        snprintf(line, sizeof line, "cd state/bidi_edit/2* && %s", cases[at].command);
        run(line);
        sessions_of(&found, &sessions, &target);
        const char *damage = session_is_none(&found.unfinished) ? "none is found" : session_damage(&found.unfinished);
        bool is_right = damage && cases[at].damage ? strcmp(damage, cases[at].damage) == 0 : damage == cases[at].damage;
        if (!is_right) printf("damage: %s\n", damage ? damage : "none");
        check(is_right, cases[at].command);
        found_close(&found);
        leave(&session, &sessions);
    }
}

/* A journal that was emptied when all was saved is no damage, and the session has nothing; one that lost later keys is damaged. */
static void check_saved(void) {
    for (int later = 0; later < 2; later++) {
        struct sessions sessions;
        struct session session;
        struct target target = {.folder = -1};
        begin_filled(&session, &sessions, &target, "ab");
        session_record_saved(&session);
        if (later) write_bytes(session.journal, "c", 1);
        check(mind(&session) == KEEPS, "saved: kept");
        session_close(&session);
        run(": >\"$(echo state/bidi_edit/2*)/journal\"");
        check_kinds(&sessions, &target, later ? "u" : "", later ? "saved: later keys are missing" : "saved: nothing is left");
        leave(&session, &sessions);
    }
}

/* The sum of the journal goes on with it, and begins anew where the program empties it. */
static void check_journal_sums(void) {
    static const char *const keys[] = {"", "a", "bc", "d"};
    struct sessions sessions;
    struct session session;
    struct target target = {.folder = -1};
    struct sum sum;
    begin_filled(&session, &sessions, &target, "");
    for (size_t at = 0; at < sizeof keys / sizeof *keys; at++) {
        write_bytes(session.journal, keys[at], strlen(keys[at]));
        check(mind(&session) == KEEPS, "sums: kept");
        check(sum_file(session.journal, &sum) && is_same_sum(&sum, &session.about.journal), keys[at]);
    }
    if (ftruncate(session.journal, 0) != 0) abort();
    write_bytes(session.journal, "x", 1);
    check(mind(&session) == KEEPS && session.about.journal.size == 1 && !session_damage(&session), "sums: emptied");
    leave(&session, &sessions);
}

/* Mounts a small disk at `small`, for this process alone. */
static bool mount_small(const char *options) {
    if (mkdir(path_in("small"), 0700) != 0 || unshare(CLONE_NEWNS) != 0) return false;
    return mount("none", "/", NULL, MS_REC | MS_PRIVATE, NULL) == 0 && mount("none", path_in("small"), "tmpfs", 0, options) == 0;
}

/* Fills the small disk. */
static void fill_small(void) {
    run("cat /dev/zero >small/other 2>/dev/null; true");
}

/* A disk without room: the text waits, and is kept once there is room. */
static void wait_for_room(void) {
    struct sessions sessions;
    struct session session;
    struct target target = {.folder = -1};
    char text[8] = "";
    write_text(path_in("note"), "text");
    setenv("XDG_STATE_HOME", path_in("small"), 1);
    make_sessions(&sessions);
    fill_small();
    look_at(&target, "note");
    check(begin(&session, &sessions, &target) == CAUSE_NONE && session.cause == CAUSE_NO_SPACE, "room: the text waits");
    check(pread(session.source, text, sizeof text, 0) == 4 && strcmp(text, "text") == 0, "room: what is opened");
    check(mind(&session) == KEEPS_NOT_YET && session.cause == CAUSE_NO_SPACE, "room: it is told");
    check(!session_complete(&session, true), "room: it cannot be recovered");
    session.is_hasty = false;
    unlink(path_in("small/other"));
    check(mind(&session) == KEEPS, "room: kept again");
    check(strcmp(part_text(&session, TEXT_NAME), "text") == 0 && session.source == -1, "room: its text, and FILE is not held");
    fill_small();
    session.about.marks = MARK_CUT;
    session.is_about_due = true;
    check(mind(&session) == KEEPS && strstr(part_text(&session, ABOUT_NAME), "marks cut\n"), "room: its facts need none");
    check(session_complete(&session, true) && !session_damage(&session), "room: it can be recovered");
    unlink(path_in("small/other"));
    check(session_remove(&session) == CAUSE_NONE, "room: removed");
    session_close(&session);
    sessions_close(&sessions);
    umount(path_in("small"));
}

/* A disk for a few files only: a session begins and has no room for the next of its files, or does not begin. */
static void use_few_files(void) {
    for (int files = 1; files < 12; files++) {
        char options[64];
        struct sessions sessions;
        struct session session;
        struct target target = {.folder = -1};
        snprintf(options, sizeof options, "nr_inodes=%d", files);
        if (mount("none", path_in("small"), "tmpfs", 0, options) != 0) abort();
        write_text(path_in("note"), "text");
        look_at(&target, "note");
        sessions_find(&sessions);
        if (sessions_make(&sessions) && begin(&session, &sessions, &target) == CAUSE_NONE) {
            enum keeping keeping = mind(&session);
            check(keeping == KEEPS || (keeping == KEEPS_NOT_YET && session.cause == CAUSE_NO_SPACE), "few files: kept, or told");
            check(session_remove(&session) == CAUSE_NONE, "few files: removed");
            session_close(&session);
        }
        run("test -z \"$(find small -mindepth 2)\"");
        check(!is_there(path_in("small/bidi_edit/2*")), "few files: nothing stays");
        sessions_close(&sessions);
        umount(path_in("small"));
    }
}

/* The checks on small disks. */
static void use_small_disks(void) {
    if (!mount_small("size=256k")) {
        printf("skipped: no small disk can be mounted\n");
        return;
    }
    wait_for_room();
    use_few_files();
}

/* In a child, so that the mounts are its own. */
static void check_room(void) {
    check_in_child(use_small_disks, "room: the child reports");
    clear_top();
}

void check_parts(void) {
    check_growing();
    check_large();
    check_replaced();
    check_removed();
    check_damage();
    check_journal_sums();
    check_saved();
    check_room();
}
