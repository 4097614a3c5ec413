/* A fuzzer of what a session's folder and a backup may hold: clang -fsanitize=fuzzer,address,undefined. The first byte picks what the
 * rest is: the words of a short file, a name, a journal, a text, a file beside its backup, or the parts of a whole folder, which is
 * then searched, repaired and swept in a folder of the working folder. */
#include <fcntl.h>
#include <stdint.h>
#include <stdio.h>
#include <stdlib.h>
#include <string.h>
#include <sys/stat.h>
#include <unistd.h>

#include "../../host/save.h"
#include "../../host/session.h"
#include "../../host/util.h"

int LLVMFuzzerTestOneInput(const uint8_t *bytes, size_t size);

static void require(bool is_right) {
    if (!is_right) abort();
}

/* ---- bytes */

/* Words that were read are read again from what is written of them. */
static void try_words(const char *text) {
    char words[FACT_MOST];
    struct begin begin, begin_again;
    if (begin_of(text, &begin)) {
        char again[FACT_MOST];
        begin_text(&begin, words);
        require(begin_of(words, &begin_again));
        begin_text(&begin_again, again);
        require(strcmp(words, again) == 0);
    }
    struct file_id id, id_again;
    if (file_id_of(text, &id)) {
        file_id_text(&id, words);
        require(file_id_of(words, &id_again) && is_same_id(&id, &id_again));
        require(is_surely_same_id(&id, &id_again) == id.has_birth);
    }
    struct process process, process_again;
    if (process_of(text, &process)) {
        process_text(&process, words);
        require(process_of(words, &process_again) && !may_go_on_elsewhere(&process_again, &process));
    }
    require((mode_of(text) & ~0777U) == 0);
    static struct about about;
    char *lines = strdup(text);
    if (lines && about_read(&about, lines, strlen(lines))) {
        static char written[MOST_ABOUT];
        size_t size = about_write(&about, written, sizeof written);
        require(size > 0 && about_read(&about, written, size) && !about.is_damaged);
    }
    free(lines);
}

static void try_name(const char *name) {
    enum name_kind kind = kind_of_name(name);
    if (kind == NAME_FOREIGN) return;
    require(strchr(name, '/') == NULL && strlen(name) < 64);
    if (kind == NAME_SESSION) require(name[0] >= '0' && name[0] <= '9');
}

/* A text gives the same whole and in two pieces. */
static void try_text(const char *text, size_t size) {
    size_t split = size > 0 ? (unsigned char)text[0] % size : 0;
    struct key_count whole = {0}, parts = {0};
    count_more(&whole, text, size);
    count_more(&parts, text, split);
    count_more(&parts, text + split, size - split);
    require(whole.keys == parts.keys && whole.keys <= size);
}

/* Half of the bytes beside the other half. */
static void try_backup(const char *text, size_t size) {
    size_t of_file = size > 0 ? (unsigned char)text[0] % (size + 1) : 0, of_backup = size - of_file;
    size_t shared = of_file < of_backup ? of_file : of_backup;
    bool is_torn = of_file <= of_backup;
    for (size_t at = 0; at < shared; at++) is_torn = is_torn && (text[at] == 0 || text[at] == text[of_file + at]);
    struct backup_comparison comparison;
    compare_begin(&comparison);
    compare_more(&comparison, text, text + of_file, shared);
    enum verdict verdict = compare_end(&comparison, of_file, of_backup);
    bool is_whole = of_file == of_backup && memcmp(text, text + of_file, shared) == 0;
    require(verdict == (is_whole ? FILE_WHOLE : is_torn ? FILE_TORN : FILE_OTHER));
}

/* ---- folders */

static char top[PATH_MAX];

static void put_bytes(int folder, const char *name, const void *bytes, size_t size) {
    int file = openat(folder, name, O_WRONLY | O_CREAT | O_TRUNC | O_CLOEXEC, 0600);
    if (file >= 0 && write_bytes(file, bytes, size) == 0) close(file);
}

/* Puts files into a folder: of each the number of its name, its length, its bytes. */
static void put_parts(int folder, const uint8_t *bytes, size_t size) {
    static const char *const names[] = {ABOUT_NAME, TEXT_NAME, JOURNAL_NAME, BACKUP_NAME, STEP_NAME, SNAPSHOT_NAME, "path", "process", "place", "begin"};
    char path[PATH_MAX + 8];
    while (size >= 2) {
        const char *name = names[bytes[0] % (sizeof names / sizeof *names)];
        bool is_of_note = bytes[0] >= 128;
        size_t length = bytes[1] < size - 2 ? bytes[1] : size - 2;
        snprintf(path, sizeof path, "%s/note", top);
        if (is_of_note) {
            put_bytes(folder, name, path, strlen(path));
        } else {
            put_bytes(folder, name, bytes + 2, length);
        }
        bytes += 2 + length;
        size -= 2 + length;
    }
}

static void hear_mending(void *context, const struct mending *mending) {
    (void)context;
    require(mending->mended != MENDED_STILL_TORN);
}

static void hear_forgotten(void *context, const struct forgotten *forgotten) {
    (void)context;
    require(!forgotten->cause);
}

/* Reads all that a start reads of a session that it finds. */
static void look_at_session(const struct session *session) {
    struct timespec time;
    session_changed(session, &time);
    session_count_keys(session);
    session_damage(session);
    session_kilobytes(session);
}

/* Makes the top folder, once. */
static void make_top(void) {
    char path[PATH_MAX];
    if (top[0]) return;
    snprintf(top, sizeof top, "./fuzzed.XXXXXX");
    require(mkdtemp(top) != NULL && realpath(top, path) != NULL);
    snprintf(top, sizeof top, "%.*s", PATH_MAX - 1, path);
    setenv("XDG_STATE_HOME", top, 1);
}

/* Takes these bytes as the files of a session, and does with the session all that a start does. */
static void try_folder(const uint8_t *bytes, size_t size) {
    static const char name[] = "20200101000000.abcdef";
    struct sessions sessions;
    struct found found;
    struct target target;
    char path[PATH_MAX + 8];
    make_top();
    int folder = open(top, O_RDONLY | O_DIRECTORY | O_CLOEXEC);
    sessions_find(&sessions);
    require(sessions_make(&sessions));
    mkdirat(sessions.folder, name, 0700);
    int inside = openat(sessions.folder, name, O_RDONLY | O_DIRECTORY | O_CLOEXEC);
    put_parts(inside, bytes, size);
    close(inside);
    put_bytes(folder, "note", "hel", 3);
    snprintf(path, sizeof path, "%s/note", top);
    target_look(&target, path, folder, "note");
    struct walk walk;
    walk_begin(&walk, &sessions);
    while (walk_next_own(&walk)) look_at_session(&walk.session);
    walk_end(&walk);
    sessions_mend(&sessions, &target, hear_mending, NULL);
    sessions_of(&found, &sessions, &target);
    if (!session_is_none(&found.unfinished) && session_lock(&found.unfinished) == LOCK_TAKEN) {
        session_go_on(&found.unfinished, NULL, true);
        session_resume(&found.unfinished, 24, 80);
        session_mind(&found.unfinished);
    }
    found_close(&found);
    sessions_forget(&sessions, NULL, true, hear_forgotten, NULL);
    struct session left;
    if (session_at(&left, &sessions, name)) {
        session_erase(&left, name);
        session_close(&left);
    }
    sessions_close(&sessions);
    close(folder);
}

int LLVMFuzzerTestOneInput(const uint8_t *bytes, size_t size) {
    if (size == 0) return 0;
    uint8_t which = bytes[0] % 5;
    char *text = malloc(size);
    require(text != NULL);
    memcpy(text, bytes + 1, size - 1);
    text[size - 1] = '\0';
    if (which == 0) try_words(text);
    if (which == 1) try_name(text);
    if (which == 2) try_text(text, size - 1);
    if (which == 3) try_backup(text, size - 1);
    if (which == 4) try_folder(bytes + 1, size - 1);
    free(text);
    return 0;
}
