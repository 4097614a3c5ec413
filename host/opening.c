/* FILE as a start opens it: its checks, saves that were cut off, the new name that a save gives it, and other editors that have it open. edit.h says
 * what each call promises. */
#include <errno.h>
#include <stddef.h>
#include <stdint.h>
#include <stdio.h>
#include <string.h>
#include <sys/socket.h>
#include <sys/stat.h>
#include <sys/un.h>
#include <unistd.h>

#include "edit.h"
#include "say.h"
#include "util.h"

/* ---- its opening and its checks */

bool is_nameless(const struct opened *opened) {
    return opened->file.path[0] == '/' && !opened->file.path[1];
}

const char *name_word(const struct opened *opened, const char *typed) {
    return is_nameless(opened) ? "" : text_of(" %s", shown(typed));
}

void close_opened(struct opened *opened) {
    if (!opened->file.typed) return;
    close_file(&opened->file);
    sessions_close(&opened->sessions);
    opened->file.typed = NULL;
}

/* A text without a name, which may have come from standard input, has no folder. */
static void open_nameless(struct opened *opened) {
    opened->file = (struct file){.typed = NO_NAME, .folder = -1, .itself = -1, .text = dup(opened->piped), .has_mark = opened->has_piped_mark, .is_lost = true, .path = "/"};
    opened->target = (struct target){.path = opened->file.path, .folder = -1, .name = ""};
    opened->reason = NO_REASON;
    sessions_find(&opened->sessions);
}

int find_file(struct opened *opened, const char *typed, bool is_lost) {
    close_opened(opened);
    if (!typed) {
        open_nameless(opened);
        return GO_ON;
    }
    enum cause cause = is_lost ? open_lost_file(&opened->file, typed) : open_file(&opened->file, typed);
    if (cause != CAUSE_NONE) {
        warn("%s", file_message(&opened->file, cause, 0));
        opened->file.typed = NULL;
        return STATUS_FAULT;
    }
    const struct file *file = &opened->file;
    sessions_find(&opened->sessions);
    opened->target = (struct target){.path = file->path, .folder = file->is_lost ? -1 : file->folder, .name = file->name,
                                   .is_there = file->stamp.is_there && file->itself >= 0, .id = file->id};
    opened->reason = find_in_place(&file->facts, &file->stamp, &file->folder_facts);
    return GO_ON;
}

const char *find_versions(const struct programs *programs, const struct tables *tables, char words[FACT_MOST]) {
    const char *files[] = {programs->editor, tables->classes, tables->brackets, tables->mirroring};
    return versions_look(EDITOR_VERSION, files, sizeof files / sizeof *files, words);
}

bool tell_mended(const char *file, const struct mending *mending, void (*say)(const char *format, ...)) {
    if (mending->mended == MENDED_PUT_BACK) say("a save of %s was interrupted; its whole text has been restored", file);
    if (mending->mended == MENDED_NOT)
        say("%s has only a part of what was saved last, and may have been cut by another program: the whole text is in %s", file, shown(mending->backup));
    if (mending->mended == MENDED_STILL_TORN)
        say("a save of %s was interrupted, and its text cannot be restored: the whole text is in %s", file, shown(mending->backup));
    return mending->mended == MENDED_STILL_TORN;
}

/* FILE's saves that were cut off, as they are put back. */
struct mended_file {
    const char *typed;
    bool is_put_back;
};

/* For sessions_mend: tells the user, and notes whether FILE got its text back, so that FILE is opened again. */
static void take_mended(void *context, const struct mending *mending) {
    struct mended_file *mended = context;
    tell_mended(shown(mended->typed), mending, warn);
    if (mending->mended == MENDED_PUT_BACK) mended->is_put_back = true;
}

bool mend_file(struct opened *opened) {
    struct mended_file mended = {.typed = opened->file.typed};
    bool is_whole = sessions_mend(&opened->sessions, &opened->target, take_mended, &mended);
    bool is_lost = opened->file.is_lost;
    /* FILE has changed by this, so it is opened again; if that is refused, the next step says so */
    if (mended.is_put_back) find_file(opened, opened->file.typed, is_lost);
    return is_whole && opened->file.typed;
}

int check_access(const struct call *call, struct opened *opened) {
    if (call->is_forced || is_nameless(opened)) return GO_ON;
    enum cause cause = check_access_to(&opened->file, opened->reason != NO_REASON);
    /* what cannot be saved can be looked at */
    opened->is_view = opened->is_view || (cause != CAUSE_NONE && cause != CAUSE_UNREADABLE && opened->file.stamp.is_there);
    if (cause == CAUSE_NONE || opened->is_view) return GO_ON;
    warn("%s", file_message(&opened->file, cause, 0));
    return STATUS_FAULT;
}

int check_file(const struct call *call, struct opened *opened) {
    int status = find_file(opened, call->file, false);
    if (status == GO_ON) status = check_access(call, opened);
    if (status != GO_ON) return status;
    bool is_whole = mend_file(opened);
    return opened->file.typed && (is_whole || call->is_forced) ? GO_ON : STATUS_FAULT;
}

/* ---- what becomes of it */

const char *unkept_by(const struct sessions *sessions, enum notice *notice) {
    *notice = NOTICE_UNKEPT;
    switch (sessions->state) {
    case FOLDER_NOWHERE: return "there is no folder for it (is HOME set?)";
    case FOLDER_DISTRUSTED: return text_of("%s belongs to another user, or others can write to it", shown(sessions->distrusted));
    case FOLDER_UNUSABLE: *notice = notice_of(sessions->cause); return text_of("nothing can be written in %s", shown(sessions->path));
    default: *notice = NOTICE_NONE; return NULL;
    }
}

bool take_new_file(struct opened *opened, struct saves *saves) {
    static struct new_file taken;
    const struct new_file *made = saver_new_file(&saves->saver);
    if (!made || strcmp(made->file.path, taken.file.path) == 0) return false;
    taken = *made;
    if (made->torn[0]) {
        snprintf(saves->torn.file, sizeof saves->torn.file, "%s", shown(opened->file.typed));
        put_path(saves->torn.backup, "%s", path_beside(&opened->file, made->torn));
    }
    close_file(&opened->file);
    opened->file = taken.file;
    opened->file.folder = opened->file.itself = opened->file.text = -1;
    opened->file.typed = taken.typed;
    opened->shown_name = taken.shown_name;
    opened->target = (struct target){.path = opened->file.path, .folder = -1, .name = opened->file.name};
    opened->aside_of = opened->moved = NULL;
    saves->is_in_place = saves->is_itself = saves->saver.is_itself = false;
    saves->saver.backup_folder = -1;
    return true;
}

/* ---- other editors of the user's that have FILE open and may keep no session */

/* They see this process by a socket. Its name begins with NUL, so it is no path. It has the folder's number and a hash of FILE's name (FNV-1a),
 * which may be too long: a rename of the folder changes no number, and a save changes FILE's own number. */
pid_t note_open_file(const struct file *file) {
    static int own = -1;
    static struct sockaddr_un own_name;
    struct sockaddr_un address = {.sun_family = AF_UNIX};
    struct ucred peer = {0, 0, 0};
    socklen_t length = sizeof peer;
    if (!file) {
        close_one(&own);
        return 0;
    }
    uint64_t hash = 14695981039346656037u;
    for (const char *at = file->name; *at; at++) hash = (hash ^ (unsigned char)*at) * 1099511628211u;
    int count = snprintf(address.sun_path + 1, sizeof address.sun_path - 1, "bidi-edit.%u.%ju.%ju.%ju", (unsigned)geteuid(),
                         (uintmax_t)file->folder_id.device, (uintmax_t)file->folder_id.inode, (uintmax_t)hash);
    socklen_t size = (socklen_t)(offsetof(struct sockaddr_un, sun_path) + 1 + (size_t)count);
    if (own >= 0 && memcmp(&own_name, &address, sizeof address) == 0) return 0;
    close_one(&own);
    own_name = address;
    own = socket(AF_UNIX, SOCK_STREAM | SOCK_CLOEXEC | SOCK_NONBLOCK, 0);
    if (own < 0 || (bind(own, (struct sockaddr *)&address, size) == 0 && listen(own, SOMAXCONN) == 0)) return 0;
    bool is_there = errno == EADDRINUSE && connect(own, (struct sockaddr *)&address, size) == 0, is_full = !is_there && errno == EAGAIN;
    if (!is_there || getsockopt(own, SOL_SOCKET, SO_PEERCRED, &peer, &length) != 0 || peer.uid != geteuid()) peer.pid = is_full ? -1 : 0;
    close_one(&own);
    return peer.pid;
}
