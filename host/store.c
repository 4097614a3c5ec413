/* The folder of sessions: where it is, whether it is safe from other users, and the search for the sessions in it. session.h says what each
 * call promises. */
#include <errno.h>
#include <fcntl.h>
#include <pwd.h>
#include <stdio.h>
#include <stdlib.h>
#include <string.h>
#include <sys/stat.h>
#include <unistd.h>

#include "file.h"
#include "session.h"
#include "util.h"

/* HOUR: a folder without facts that is older, in seconds, was left by a killed start. */
enum { HOUR = 3600, FOLDER_MODE = 0700 };

/* ---- where it is */

static bool below_home(const char *home, char path[PATH_MAX]) {
    return put_path(path, "%s/.local/state/bidi_edit", home);
}

/* Whether the nearest existing folder of a path belongs to another user, or cannot be examined. */
static bool is_of_another(const char *path) {
    char above[PATH_MAX];
    struct stat found;
    put_path(above, "%s", path);
    while (stat(above, &found) != 0) {
        char *end = strrchr(above, '/');
        if (!end) return true;
        end[end == above] = '\0';
    }
    return found.st_uid != geteuid();
}

/* The path by the environment; false if there is none. Root uses its own home if the environment is another user's, as after sudo -E. */
static bool find_path(char path[PATH_MAX]) {
    const char *state = variable("XDG_STATE_HOME"), *home = variable("HOME");
    /* the XDG base directory specification says to ignore relative paths */
    if (state && state[0] == '/') {
        if (!put_path(path, "%s/bidi_edit", state)) return false;
    } else if (!home || !below_home(home, path)) {
        return false;
    }
    if (geteuid() != 0 || !is_of_another(path)) return true;
    const struct passwd *root = getpwuid(0);
    return !root || !root->pw_dir[0] || below_home(root->pw_dir, path);
}

/* ---- whether it is safe */

/* Notes that the folder is missing, or cannot be used, and why. */
static void fail_with(struct sessions *sessions, int error) {
    sessions->state = error == ENOENT ? FOLDER_MISSING : FOLDER_UNUSABLE;
    sessions->cause = cause_of(error);
}

/* The first folder on a path without links, from the root on, that another user could change: such a user could exchange all below it.
 * Returns the length of its path; 0 if all are safe, -1 if one cannot be examined. The last folder is judged by `is_private`. */
static long first_unsafe(const char *path, uid_t user, struct stat *last) {
    char above[PATH_MAX];
    for (const char *end = path; end; end = strchr(end + 1, '/')) {
        put_path(above, "%.*s", end == path ? 1 : (int)(end - path), path);
        if (lstat(above, last) != 0) return -1;
        if (!is_safe_above(last->st_uid, last->st_mode, user)) return (long)strlen(above);
    }
    if (lstat(path, last) != 0) return -1;
    return S_ISDIR(last->st_mode) && is_private(last->st_uid, last->st_mode, user) ? 0 : (long)strlen(path);
}

/* Judges the folder of sessions and those above it by owner and mode, and opens it only if all are safe. */
static void judge(struct sessions *sessions) {
    struct stat found, opened;
    char above[PATH_MAX], real[PATH_MAX];
    put_path(above, "%s", sessions->path);
    char *name = strrchr(above, '/');
    *name++ = '\0';
    int folder = open_folder(AT_FDCWD, above[0] ? above : "/");
    bool is_found = folder >= 0 && path_of(folder, real) && put_path(sessions->path, "%s/%s", before_slash(real), name);
    if (!is_found) fail_with(sessions, folder < 0 ? errno : EACCES);
    close_one(&folder);
    if (!is_found) return;
    long unsafe = first_unsafe(sessions->path, sessions->user, &found);
    sessions->state = unsafe > 0 ? FOLDER_DISTRUSTED : FOLDER_READY;
    if (unsafe > 0) put_path(sessions->distrusted, "%.*s", (int)unsafe, sessions->path);
    if (unsafe < 0) fail_with(sessions, errno);
    if (sessions->state != FOLDER_READY) return;
    folder = open(sessions->path, O_RDONLY | O_DIRECTORY | O_NOFOLLOW | O_CLOEXEC);
    if (folder < 0) fail_with(sessions, errno);
    else if (fstat(folder, &opened) == 0 && is_same_file(&opened, &found)) sessions->folder = folder;
    else fail_with(sessions, EACCES);
    if (folder >= 0 && sessions->folder < 0) close(folder);
}

void sessions_find(struct sessions *sessions) {
    *sessions = (struct sessions){.state = FOLDER_NOWHERE, .folder = -1, .user = geteuid()};
    if (find_path(sessions->path)) judge(sessions);
}

void sessions_close(struct sessions *sessions) {
    close_one(&sessions->folder);
}

/* Creates a folder and those above it. Returns 0 if the folder exists in the end, otherwise the first fault. */
static int make_folders(char *path) {
    int first = 0;
    for (char *end = path; end;) {
        end = strchr(end + 1, '/');
        if (end) *end = '\0';
        int error = mkdir(path, FOLDER_MODE) == 0 || errno == EEXIST ? 0 : errno;
        if (end) *end = '/';
        /* for a folder that exists, the system may say first that the folder above cannot be written */
        if (first == 0) first = error;
        if (!end) return error ? first : 0;
    }
    return 0;
}

bool sessions_make(struct sessions *sessions) {
    if (sessions->state != FOLDER_MISSING) return sessions->state == FOLDER_READY;
    int error = make_folders(sessions->path);
    if (error == 0) judge(sessions);
    /* it was removed meanwhile, or could not be made */
    if (sessions->state == FOLDER_MISSING) {
        sessions->state = FOLDER_UNUSABLE;
        sessions->cause = cause_of(error ? error : ENOENT);
    }
    return sessions->state == FOLDER_READY;
}

/* ---- the sessions in it */

static int is_of_editor(const struct dirent *entry) {
    return kind_of_name(entry->d_name) != NAME_FOREIGN;
}

static int order(const struct dirent **one, const struct dirent **other) {
    return strcmp((*one)->d_name, (*other)->d_name);
}

enum cause walk_begin(struct walk *walk, const struct sessions *sessions) {
    *walk = (struct walk){.sessions = sessions};
    session_clear(&walk->session);
    if (sessions->folder >= 0) walk->count = scandirat(sessions->folder, ".", &walk->names, is_of_editor, order);
    return walk->count < 0 ? cause_of(errno) : CAUSE_NONE;
}

/* Goes to the next folder of the editor's, which may be no session any more. */
static bool walk_any(struct walk *walk) {
    session_close(&walk->session);
    while (walk->next < walk->count)
        if (session_at(&walk->session, walk->sessions, walk->names[walk->next++]->d_name)) return true;
    return false;
}

bool walk_next(struct walk *walk) {
    while (walk_any(walk))
        if (kind_of_name(session_name(&walk->session)) == NAME_SESSION) return true;
    return false;
}

bool walk_next_own(struct walk *walk) {
    while (walk_next(walk))
        if (session_is_own(&walk->session)) return true;
    return false;
}

void walk_end(struct walk *walk) {
    session_close(&walk->session);
    for (int at = 0; at < walk->count; at++) free(walk->names[at]);
    free(walk->names);
}

/* ---- the sessions of a file */

/* Identifies the file of this name in a folder. */
static bool file_id_at(int folder, const char *name, struct file_id *id) {
    int file = open_itself(folder, name);
    bool is_found = file >= 0 && find_id(file, id);
    if (file >= 0) close(file);
    return is_found;
}

void target_look(struct target *target, const char *path, int folder, const char *name) {
    *target = (struct target){.path = path, .folder = folder, .name = name};
    target->is_there = folder >= 0 && file_id_at(folder, name, &target->id);
}

bool session_is_of_file(const struct session *session, const struct target *target) {
    struct file_id id;
    const struct about *about = &session->about;
    if (!about->has_id || !target->is_there) return false;
    if (is_surely_same_id(&about->id, &target->id)) return true;
    /* without times of birth, the number may be that of another file by now */
    bool may_be_same = is_same_id(&about->id, &target->id) && !(about->id.has_birth && target->id.has_birth);
    return may_be_same && file_id_at(AT_FDCWD, about->path, &id) && is_same_id(&id, &target->id);
}

/* How a session belongs to FILE. No path on another disk than FILE's is looked at, since that disk may not answer. */
static enum belonging belonging_of(const struct session *session, const struct target *target) {
    struct stat found;
    const struct about *about = &session->about;
    struct belonging_facts facts = {.is_path = strcmp(about->path, target->path) == 0,
                                    .is_beside = strcmp(about->beside, target->path) == 0 || strcmp(about->new_path, target->path) == 0,
                                    .is_file = session_is_of_file(session, target)};
    facts.has_beside = facts.is_path && about->beside[0] && lstat(about->beside, &found) == 0;
    return judge_belonging(&facts);
}

/* Takes a session in place of an older one of its kind; removes an empty session. */
static void take_session(struct found *found, struct session *session) {
    switch (session_state(session)) {
    case SESSION_LIVE: session_move(&found->live, session); return;
    case SESSION_ELSEWHERE: session_move(&found->elsewhere, session); return;
    case SESSION_DROPPED: session_move(&found->dropped, session); return;
    case SESSION_UNFINISHED: session_move(&found->unfinished, session); return;
    /* unless another start has locked it meanwhile */
    case SESSION_EMPTY: session_remove_unless_locked(session); return;
    }
}

/* Whether this was left by a killed start or removal: a session that is being removed, and an old folder without facts and keys. */
static bool is_left(const struct session *session) {
    struct stat found;
    struct timespec now;
    if (kind_of_name(session_name(session)) != NAME_SESSION) return true;
    if (session->about.path[0] || session_journal_size(session) > 0) return false;
    return fstat(session->folder, &found) == 0 && clock_gettime(CLOCK_REALTIME, &now) == 0 && now.tv_sec - found.st_mtim.tv_sec >= HOUR;
}

void found_close(struct found *found) {
    session_close(&found->live);
    session_close(&found->elsewhere);
    session_close(&found->unfinished);
    session_close(&found->dropped);
}

enum cause sessions_of(struct found *found, const struct sessions *sessions, const struct target *target) {
    struct walk walk;
    session_clear(&found->live);
    session_clear(&found->elsewhere);
    session_clear(&found->unfinished);
    session_clear(&found->dropped);
    enum cause cause = walk_begin(&walk, sessions);
    while (walk_any(&walk)) {
        struct session *session = &walk.session;
        bool is_left_over = is_left(session);
        if ((!is_left_over && belonging_of(session, target) == BELONGS_NOT) || !session_is_own(session)) continue;
        if (!is_left_over) take_session(found, session);
        else if (!session_is_live(session)) session_erase(session, session_name(session));
    }
    walk_end(&walk);
    return cause;
}

/* ---- sessions that are removed */

void sessions_forget_dropped(const struct sessions *sessions, const struct session *except) {
    struct walk walk;
    walk_begin(&walk, sessions);
    while (walk_next(&walk)) {
        bool is_other = strcmp(walk.session.path, except->path) != 0;
        if (is_other && session_has_mark(&walk.session, MARK_DROPPED)) session_remove_unless_locked(&walk.session);
    }
    walk_end(&walk);
}

void sessions_forget(const struct sessions *sessions, const struct target *target, bool removes, void (*tell)(void *, const struct forgotten *),
                     void *context) {
    struct walk walk;
    walk_begin(&walk, sessions);
    while (walk_next_own(&walk)) {
        struct session *session = &walk.session;
        if (target && belonging_of(session, target) == BELONGS_NOT) continue;
        enum session_state state = session_state(session);
        if (state == SESSION_LIVE || state == SESSION_ELSEWHERE) continue;
        struct forgotten forgotten = {.path = session->about.path, .was_dropped = state == SESSION_DROPPED, .is_asked = !removes};
        forgotten.has_time = session_changed(session, &forgotten.changed);
        if (!removes && state != SESSION_EMPTY) tell(context, &forgotten);
        if (!removes) continue;
        /* another start may have it by now */
        enum lock_result lock = session_lock(session);
        if (lock == LOCK_TAKEN) forgotten.cause = session_remove(session);
        if (lock == LOCK_FAILED) forgotten.cause = session->cause;
        if ((lock == LOCK_TAKEN || lock == LOCK_FAILED) && state != SESSION_EMPTY) tell(context, &forgotten);
    }
    walk_end(&walk);
}
