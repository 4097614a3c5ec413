/* One save of FILE: the child that serves it, from the program's BEGIN frame to the answer, and what the host learns of it. save.h and
 * saving.h say what each call promises. */
#include "saving.h"

#include <errno.h>
#include <fcntl.h>
#include <signal.h>
#include <stdatomic.h>
#include <stdio.h>
#include <stdlib.h>
#include <string.h>
#include <sys/mman.h>
#include <sys/prctl.h>
#include <unistd.h>

#include "frames.h"
#include "save_judge.h"
#include "say.h"
#include "util.h"

/* ---- FILE and its folder, as they are now */

/* Looks at FILE's name, and opens what is there. Fails if the save must not go on. */
static enum cause look(struct save *save, int *itself) {
    struct file_stamp now;
    if (!stamp_and_open(save->folder, save->file->name, &now, itself)) return cause_of(errno);
    enum cause cause = judge_stamp(&save->state.seen, &now);
    if (cause == CAUSE_NONE && now.is_there && save->state.is_told && !save->is_over) cause = CAUSE_CHANGED;
    save->is_there = cause == CAUSE_NONE && now.is_there;
    if (cause == CAUSE_CHANGED) note_file(save, &now, *itself);
    return cause;
}

/* Whether an open folder is still, or by now, at the path of FILE's folder. Where the system does not say, it is taken for that. */
static bool is_at_path(const struct save *save, int folder) {
    char path[PATH_MAX];
    return !save->file->is_at_path || !path_of(folder, path) || strcmp(path, save->file->folder_path) == 0;
}

/* Opens the folder that the save goes to: the one that FILE was found in, if its path still leads there, or one on the same disk that was
 * made there since. No link may lead there. */
static enum cause find_folder(struct save *save) {
    const struct file *file = save->file;
    struct stat found;
    save->folder = file->folder;
    if (file->is_lost) return CAUSE_FOLDER_GONE;
    if (!file->is_at_path) return CAUSE_NONE;
    int folder = open_folder(AT_FDCWD, file->folder_path);
    if (folder < 0) return errno == ELOOP ? CAUSE_FOLDER_GONE : cause_of(errno);
    if (fstat(folder, &found) != 0 || found.st_dev != file->folder_id.device) return CAUSE_FOLDER_GONE;
    save->folder = folder;
    return found.st_ino == file->folder_id.inode || is_at_path(save, folder) ? CAUSE_NONE : CAUSE_FOLDER_GONE;
}

/* Whether the links by which FILE was opened lead to another file by now. This is told once; later saves do not follow the links. */
static bool leads_elsewhere(struct save *save) {
    struct stat there;
    const struct stat *seen = &save->state.seen.found;
    if (!save->file->is_linked || save->state.is_link_told || stat(save->file->typed, &there) != 0) return false;
    /* a link in FILE's own place has been reported as a change already */
    if (save->is_there && (S_ISLNK(seen->st_mode) || is_same_file(&there, seen))) return false;
    save->state.is_link_told = save->state.is_told = true;
    return true;
}

/* Opens the folder for syncing, and locks it against other saves of the editor as long as the child lives. A folder that the user cannot
 * read is not locked: there an exchange finds another save by what comes out, and a save in place locks FILE itself. */
static enum cause lock_folder(struct save *save) {
    save->folder_to_sync = openat(save->folder, ".", O_RDONLY | O_DIRECTORY | O_CLOEXEC);
    if (save->folder_to_sync >= 0) return lock_for_save(save->folder_to_sync);
    return errno == EACCES ? CAUSE_NONE : cause_of(errno);
}

/* ---- a save */

/* Decides whether this save overwrites FILE, by fresh facts: another program may have changed them since the last save. */
static enum cause choose_way(struct save *save, int itself) {
    const struct saver *saver = save->saver;
    struct facts facts, of_folder;
    if (!save->is_there || !S_ISREG(save->state.seen.found.st_mode)) return CAUSE_NONE;
    find_facts(itself, save->folder, &facts);
    find_folder_facts(save->folder, &of_folder);
    enum reason reason = find_in_place(&facts, &save->state.seen, &of_folder);
    save->is_listless = facts.access_list != YES;
    save->is_in_place = saver->backup_folder >= 0 || saver->is_itself || save->state.is_mounted || reason != NO_REASON;
    /* without a session there is no place for a backup, since nothing can be created beside FILE */
    return reason == REASON_PROTECTED && saver->backup_folder < 0 ? CAUSE_NOT_PERMITTED : CAUSE_NONE;
}

/* Looks at FILE once more, right before it is changed. If it was created or removed meanwhile, the next save decides anew. */
static enum cause look_again(struct save *save) {
    bool was_there = save->is_there;
    int itself;
    enum cause cause = look(save, &itself);
    close_one(&itself);
    if (cause == CAUSE_NONE && !is_at_path(save, save->folder)) cause = CAUSE_FOLDER_GONE;
    if (cause == CAUSE_NONE && leads_elsewhere(save)) cause = CAUSE_CHANGED;
    if (cause == CAUSE_NONE && save->is_there != was_there && (save->is_there || save->is_in_place)) cause = CAUSE_CHANGED;
    return cause;
}

/* Saves the text. Once it has succeeded, FILE has the text, and it is on the disk. */
static enum cause save_text(struct save *save) {
    int itself = -1;
    enum cause cause = find_folder(save);
    if (cause == CAUSE_NONE) cause = look(save, &itself);
    if (cause == CAUSE_NONE) cause = choose_way(save, itself);
    close_one(&itself);
    if (cause == CAUSE_NONE) cause = write_draft(save);
    if (cause == CAUSE_NONE) cause = lock_folder(save);
    if (cause == CAUSE_NONE) cause = look_again(save);
    if (cause != CAUSE_NONE) return cause;
    return save->is_in_place ? overwrite_file(save) : replace_file(save);
}

/* ---- a save under a new name */

/* Writes the new file's path into the session's folder, or removes it. Without it a session that is killed right after the save is found by
 * FILE's old name alone. */
static void note_new_path(const struct save *save, const char *path) {
    int folder = save->saver->lock;
    int file = folder < 0 ? -1 : openat(folder, NEW_PATH_NAME, O_WRONLY | O_CREAT | O_TRUNC | O_NOFOLLOW | O_CLOEXEC, 0600);
    if (file >= 0 && (write_bytes(file, path, strlen(path)) != 0 || sync_file(file) != 0 || !*path)) unlinkat(folder, NEW_PATH_NAME, 0);
    close_one(&file);
}

/* Opens the new file's folder, and takes the new file for FILE. */
static enum cause open_named(struct save *save) {
    struct state *state = &save->state;
    struct new_file *made = &state->new_file;
    enum cause cause = open_new_file(&made->file, save->new_name);
    if (cause != CAUSE_NONE) return cause;
    state->has_new_file = true;
    made->file.has_mark = save->file->has_mark;
    snprintf(made->raw, sizeof made->raw, "%s", save->raw_name);
    snprintf(made->torn, sizeof made->torn, "%s", state->is_torn ? state->torn : "");
    snprintf(made->typed, sizeof made->typed, "%s", save->new_name);
    snprintf(made->shown, sizeof made->shown, "%s", shown(save->new_name));
    snprintf(made->shown_name, sizeof made->shown_name, "%s", shown(made->file.name));
    save->file = &made->file;
    save->folder = made->file.folder;
    state->seen = (struct file_stamp){.is_there = false};
    state->is_told = state->is_mounted = state->is_torn = false;
    state->torn[0] = 0;
    return CAUSE_NONE;
}

/* Saves the text as a new file, which is FILE from then on. If that fails, all is as it was. */
static enum cause save_as(struct save *save) {
    static struct state before;
    before = save->state;
    enum cause cause = open_named(save);
    if (cause == CAUSE_NONE) cause = write_draft(save);
    if (cause == CAUSE_NONE) cause = lock_folder(save);
    if (cause == CAUSE_NONE && !is_at_path(save, save->folder)) cause = CAUSE_FOLDER_GONE;
    if (cause == CAUSE_NONE) {
        note_new_path(save, save->file->path);
        cause = replace_file(save);
        if (cause != CAUSE_NONE) note_new_path(save, "");
    }
    if (cause != CAUSE_NONE) save->state = before;
    return cause == CAUSE_CHANGED ? CAUSE_EXISTS : cause;
}

/* Takes the name that a BEGIN has. The home folder is ~, and nothing that a command line could take for an option is a name. */
static void take_name(struct save *save, const unsigned char *bytes, size_t length) {
    const char *own = save->saver->own_name;
    if (*own && strlen(own) == length && memcmp(own, bytes, length) == 0) return;
    const char *home = length > 1 && bytes[0] == '~' && bytes[1] == '/' ? variable("HOME") : NULL;
    const char *before = home ? home : length > 0 && (bytes[0] == '-' || bytes[0] == '+') ? "./" : "";
    size_t left = home ? 1 : 0;
    /* a name that is too long, or has a NUL, is no name of a file */
    bool is_name = !memchr(bytes, 0, length) && put_path(save->new_name, "%s%.*s", before, (int)(length - left), (const char *)bytes + left);
    if (!is_name || !put_path(save->raw_name, "%.*s", (int)length, (const char *)bytes)) put_path(save->new_name, "/");
}

/* ---- the child */

/* Bytes of two of the longest frames; the first room for a text. */
enum { ROOM = 2 * (FRAME_HEAD + FRAME_MOST), FIRST_ROOM = 1 << 20 };

static struct state *current(const struct saver *saver) {
    return &saver->saved->slots[atomic_load(&saver->saved->current) & 1];
}

/* Notes in the journal that the program asks whether to overwrite what another program wrote: a recovery takes the next key for the answer then,
 * and not for text. The program waits for what came of the save, so this stands right behind the key that saved. */
static void note_question(const struct saver *saver) {
    static const char over[] = "\033[106~";
    int journal = saver->lock < 0 ? -1 : openat(saver->lock, JOURNAL_NAME, O_WRONLY | O_APPEND | O_NOFOLLOW | O_NONBLOCK | O_CLOEXEC);
    if (journal < 0) return;
    write_bytes(journal, over, sizeof over - 1);
    close(journal);
}

/* Ends the child after a save, and leaves the result for the host, which answers the program. The draft of a failed save goes, even if it is
 * the backup already, unless FILE needs the backup. */
static _Noreturn void end(struct save *save, enum cause cause) {
    if (save->state.is_torn && strcmp(save->draft.name, BACKUP_NAME) == 0 && save->saver->backup_folder >= 0) save->draft.name[0] = 0;
    draft_remove(&save->draft);
    if (cause == CAUSE_NONE) save->state.is_told = false;
    /* while FILE is torn and its backup is beside it, the user must know that first */
    save->state.cause = cause != CAUSE_NONE && save->state.is_torn && save->state.torn[0] ? CAUSE_CUT_OFF : cause;
    if (save->state.cause == CAUSE_CHANGED) note_question(save->saver);
    save->state.is_over = true;
    save_publish(save);
    _exit(0);
}

static void add(struct save *save, const unsigned char *bytes, size_t length) {
    if (length == 0 || save->is_cut) return;
    if (save->length + length > save->room) {
        size_t room = save->room > 0 ? 2 * save->room : FIRST_ROOM;
        unsigned char *more = realloc(save->bytes, room);
        save->is_cut = !more;
        if (!more) return;
        save->bytes = more;
        save->room = room;
    }
    memcpy(save->bytes + save->length, bytes, length);
    save->length += length;
}

/* Obeys a frame of the program. Only a COMMIT touches the disk; it ends the child. Returns false if the program has gone. */
static bool obey_frame(struct save *save, const struct frame *frame, int answer) {
    switch (frame->letter) {
    case FRAME_BEGIN:
        /* a save that was begun before, and not committed, is forgotten */
        save->length = 0;
        save->new_name[0] = 0;
        save->is_cut = false;
        save->is_over = frame->length > 0 && frame->bytes[0] == BEGIN_OVER;
        if (frame->length > 0 && frame->bytes[0] == BEGIN_AS) take_name(save, frame->bytes + 1, frame->length - 1);
        if (save->saver->file->has_mark) add(save, (const unsigned char *)BYTE_ORDER_MARK, sizeof BYTE_ORDER_MARK - 1);
        return write_frame(answer, FRAME_DONE, NULL, 0);
    case FRAME_PIECE: add(save, frame->bytes, frame->length); return true;
    case FRAME_COMMIT: end(save, save->new_name[0] ? save_as(save) : save_text(save));
    default: return true;
    }
}

/* Obeys frames until the save or the program ends. */
static _Noreturn void serve(struct save *save, int request, int answer) {
    static unsigned char room[ROOM];
    size_t length = 0;
    for (;;) {
        ssize_t count = read(request, room + length, ROOM - length);
        if (count == 0 || (count < 0 && errno != EINTR)) _exit(1);
        if (count > 0) length += (size_t)count;
        struct frame frame;
        size_t done = 0;
        for (size_t size; (size = find_frame(room + done, length - done, &frame)) > 0; done += size)
            if (!obey_frame(save, &frame, answer)) _exit(1);
        length -= done;
        memmove(room, room + done, length);
    }
}

/* ---- starting the child, and its result */

/* Lets the child finish a save when signals ask the host's job to end, and gives it another name than the host's, by which users kill. */
static void become_child(const struct saver *saver, int request, int answer) {
    static const int ignored[] = {SIGHUP, SIGINT, SIGQUIT, SIGTERM, SIGTSTP, SIGTTIN, SIGTTOU, SIGPIPE, SIGXFSZ};
    const int kept[] = {request, answer, saver->file->folder, saver->backup_folder, saver->lock};
    prctl(PR_SET_NAME, "bidi-saver");
    for (size_t i = 0; i < sizeof ignored / sizeof *ignored; i++) signal(ignored[i], SIG_IGN);
    close_others(kept, sizeof kept / sizeof *kept);
}

bool saver_open(struct saver *saver, struct file *file) {
    void *shared = mmap(NULL, sizeof(struct saved), PROT_READ | PROT_WRITE, MAP_SHARED | MAP_ANONYMOUS, -1, 0);
    *saver = (struct saver){.file = file, .backup_folder = -1, .lock = -1, .lost_mode = -1, .answer = -1, .own_name = "", .boot = ""};
    if (shared == MAP_FAILED) return false;
    saver->saved = shared;
    atomic_init(&saver->saved->current, 0);
    struct state *state = current(saver);
    state->seen = state->old = file->stamp;
    state->is_old_plain = file->facts.access_list == NO;
    return true;
}

pid_t saver_start(struct saver *saver, int request, int answer) {
    current(saver)->is_over = false;
    saver->answer = answer;
    pid_t child = fork();
    if (child != 0) return child;
    become_child(saver, request, answer);
    static struct save save;
    save = (struct save){.saver = saver, .file = saver->file, .state = *current(saver), .folder = -1, .folder_to_sync = -1, .is_cut = true, .draft = {.file = -1}, .step = -1};
    serve(&save, request, answer);
}

bool saver_finish(struct saver *saver) {
    const struct state *state = current(saver);
    unsigned char cause = (unsigned char)state->cause;
    if (state->is_over) write_frame(saver->answer, cause == 0 ? FRAME_DONE : FRAME_FAILED, &cause, cause == 0 ? 0 : 1);
    return state->is_over;
}

void saver_refuse(struct saver *saver) {
    unsigned char cause = CAUSE_OTHER;
    current(saver)->cause = CAUSE_OTHER;
    write_frame(saver->answer, FRAME_FAILED, &cause, 1);
}

enum cause saver_cause(const struct saver *saver) {
    return current(saver)->cause;
}

const struct new_file *saver_new_file(const struct saver *saver) {
    const struct state *state = current(saver);
    return state->has_new_file ? &state->new_file : NULL;
}

bool saver_stamp(const struct saver *saver, struct file_stamp *stamp, struct file_id *id) {
    const struct state *state = current(saver);
    *stamp = state->seen;
    *id = state->id;
    return state->has_id;
}

bool saver_is_torn(const struct saver *saver, const char **name) {
    const struct state *state = current(saver);
    *name = state->torn[0] ? state->torn : NULL;
    return state->is_torn;
}
