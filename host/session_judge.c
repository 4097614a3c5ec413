/* Decisions about sessions, and the words of their file `about`, by plain facts, without system calls. session_judge.h says what each call
 * means; their cases are in tests/host/judge_session.c. */
#include "session_judge.h"

#include <inttypes.h>
#include <stdarg.h>
#include <stdio.h>
#include <stdlib.h>
#include <string.h>

/* Bits of a mode: the group or others can write; others can write; only owners can rename and remove (sticky). */
enum { SHARED = 022, OPEN_TO_ALL = 02, STICKY = 01000, FOR_USER_ALONE = 0600 };

enum { NANOS = 1000000000 };

/* ---- words */

/* Takes the next word of a text that blanks and line ends separate. Returns false without one, or for one without room. */
static bool take_word(const char **text, char *word, size_t room) {
    *text += strspn(*text, " \t\n\r\f");
    size_t length = strcspn(*text, " \t\n\r\f");
    if (length == 0 || length >= room) return false;
    memcpy(word, *text, length);
    word[length] = '\0';
    *text += length;
    return true;
}

/* Reads a number in this base (8 or 10). Returns false if it is malformed or greater than `most`. */
static bool number_of(const char *digits, int base, uint64_t most, uint64_t *number) {
    const char *allowed = base == 8 ? "01234567" : "0123456789";
    size_t length = strlen(digits);
    if (length == 0 || length > 22 || strspn(digits, allowed) != length) return false;
    uint64_t value = 0;
    for (size_t at = 0; at < length; at++) {
        uint64_t digit = (uint64_t)(digits[at] - '0'), by = (uint64_t)base;
        if (value > (most - digit) / by) return false;
        value = value * by + digit;
    }
    *number = value;
    return value <= most;
}

static bool take_number(const char **text, uint64_t most, uint64_t *number) {
    char word[32];
    return take_word(text, word, sizeof word) && number_of(word, 10, most, number);
}

bool begin_of(const char *words, struct begin *begin) {
    uint64_t rows, cols, line = 0;
    char last[32];
    if (!take_number(&words, UINT32_MAX, &rows) || !take_number(&words, UINT32_MAX, &cols)) return false;
    if (!take_word(&words, begin->direction, sizeof begin->direction) || !take_word(&words, last, sizeof last)) return false;
    const char *direction = begin->direction;
    if (strcmp(direction, "auto") != 0 && strcmp(direction, "ltr") != 0 && strcmp(direction, "rtl") != 0) return false;
    if (strcmp(last, "-") != 0 && !number_of(last, 10, UINT32_MAX, &line)) return false;
    begin->rows = (unsigned)rows;
    begin->cols = (unsigned)cols;
    begin->line = (unsigned)line;
    begin->spaces = 0;
    begin->is_view = begin->is_indented = begin->is_nameless = false;
    while (take_word(&words, last, sizeof last)) {
        if (last[0] >= '1' && last[0] <= '8' && !last[1]) begin->spaces = (unsigned)(last[0] - '0');
        if (strcmp(last, "view") == 0) begin->is_view = true;
        if (strcmp(last, "indent") == 0) begin->is_indented = true;
        if (strcmp(last, "no-name") == 0) begin->is_nameless = true;
    }
    return true;
}

void begin_text(const struct begin *begin, char words[FACT_MOST]) {
    char line[16] = "-";
    if (begin->line > 0) snprintf(line, sizeof line, "%u", begin->line);
    char spaces[] = {' ', (char)('0' + begin->spaces % 10), '\0'};
    snprintf(words, FACT_MOST, "%u %u %s %s%s%s%s%s\n", begin->rows, begin->cols, begin->direction, line, begin->spaces ? spaces : "",
             begin->is_view ? " view" : "", begin->is_indented ? " indent" : "", begin->is_nameless ? " no-name" : "");
}

bool file_id_of(const char *words, struct file_id *id) {
    uint64_t device, inode, seconds, nanos;
    if (!take_number(&words, UINT64_MAX, &device) || !take_number(&words, UINT64_MAX, &inode)) return false;
    *id = (struct file_id){.device = (dev_t)device, .inode = (ino_t)inode};
    if (words[strspn(words, " \t\n\r\f")] == '\0') return true;
    if (!take_number(&words, INT64_MAX - 8, &seconds) || !take_number(&words, UINT32_MAX, &nanos)) return false;
    id->has_birth = true;
    id->birth_seconds = (int64_t)(seconds + nanos / NANOS);
    id->birth_nanos = (uint32_t)(nanos % NANOS);
    return true;
}

void file_id_text(const struct file_id *id, char words[FACT_MOST]) {
    uint64_t device = id->device, inode = id->inode;
    int length = snprintf(words, FACT_MOST, "%" PRIu64 " %" PRIu64, device, inode);
    char *rest = words + length;
    size_t room = FACT_MOST - (size_t)length;
    if (id->has_birth) {
        snprintf(rest, room, " %" PRId64 " %" PRIu32 "\n", id->birth_seconds, id->birth_nanos);
    } else {
        snprintf(rest, room, "\n");
    }
}

bool is_same_id(const struct file_id *one, const struct file_id *other) {
    return one->device == other->device && one->inode == other->inode;
}

bool is_surely_same_id(const struct file_id *one, const struct file_id *other) {
    return one->has_birth && other->has_birth && one->inode == other->inode && one->birth_seconds == other->birth_seconds &&
           one->birth_nanos == other->birth_nanos;
}

bool process_of(const char *words, struct process *process) {
    uint64_t number;
    if (!take_number(&words, UINT32_MAX, &number)) return false;
    if (!take_word(&words, process->machine, sizeof process->machine)) return false;
    if (!take_word(&words, process->boot, sizeof process->boot)) return false;
    process->number = (unsigned)number;
    if (strcmp(process->boot, "-") == 0) process->boot[0] = '\0';
    return true;
}

void process_text(const struct process *process, char words[FACT_MOST]) {
    const char *boot = process->boot[0] ? process->boot : "-";
    snprintf(words, FACT_MOST, "%u %s %s\n", process->number, process->machine, boot);
}

bool may_go_on_elsewhere(const struct process *there, const struct process *here) {
    if (!there) return true;
    if (strcmp(there->machine, here->machine) == 0) return false;
    /* another container of this boot */
    return !there->boot[0] || !here->boot[0] || strcmp(there->boot, here->boot) != 0;
}

mode_t mode_of(const char *words) {
    char digits[32];
    uint64_t mode;
    if (!take_word(&words, digits, sizeof digits) || !number_of(digits, 8, UINT32_MAX, &mode)) return FOR_USER_ALONE;
    return (mode_t)mode & PERMISSIONS;
}

/* ---- sums */

void sum_begin(struct sum *sum) {
    *sum = (struct sum){.size = 0, .hash = 14695981039346656037u};
}

/* FNV-1a: each byte takes part in a step that can be undone, so one changed byte changes the hash. */
void sum_more(struct sum *sum, const char *bytes, size_t size) {
    sum->size += size;
    for (size_t at = 0; at < size; at++) sum->hash = (sum->hash ^ (unsigned char)bytes[at]) * 1099511628211u;
}

bool is_same_sum(const struct sum *one, const struct sum *other) {
    return one->size == other->size && one->hash == other->hash;
}

/* Reads a hash in hexadecimal, to the end of the words. */
static bool hash_of(const char *words, uint64_t *hash) {
    char word[24], *end;
    if (!take_word(&words, word, sizeof word)) return false;
    *hash = strtoull(word, &end, 16);
    return *end == '\0';
}

static bool sum_of(const char *words, struct sum *sum) {
    return take_number(&words, UINT64_MAX, &sum->size) && hash_of(words, &sum->hash);
}

/* ---- all facts: a line each, of a key and words, and the hash of all in the last line */

static const char *const mark_words[] = {"dropped", "cut", "unsaved", "unjoined", "secret", "in-place"};
enum { MARKS = sizeof mark_words / sizeof *mark_words };

void about_clear(struct about *about) {
    *about = (struct about){.mode = -1};
    sum_begin(&about->journal);
}

/* The words that are written; `length` is the room if they have none. */
struct writing {
    char *words;
    size_t length, room;
};

__attribute__((format(printf, 2, 3))) static void put(struct writing *writing, const char *format, ...) {
    va_list values;
    va_start(values, format);
    int length = vsnprintf(writing->words + writing->length, writing->room - writing->length, format, values);
    va_end(values);
    writing->length += length > 0 ? (size_t)length : 0;
    if (length < 0 || writing->length > writing->room) writing->length = writing->room;
}

/* A path, in which % and two digits stand for a byte that would end the line. */
static void put_name(struct writing *writing, const char *key, const char *path) {
    if (!*path) return;
    put(writing, "%s ", key);
    for (; *path; path++) put(writing, (unsigned char)*path < ' ' || *path == '%' ? "%%%02x" : "%c", (unsigned char)*path);
    put(writing, "\n");
}

static void put_sum(struct writing *writing, const char *key, const struct sum *sum) {
    put(writing, "%s %" PRIu64 " %016" PRIx64 "\n", key, sum->size, sum->hash);
}

size_t about_write(const struct about *about, char *words, size_t room) {
    struct writing writing = {.words = words, .room = room};
    char value[FACT_MOST];
    struct sum all;
    put(&writing, "bidi-edit session 1\n");
    put_name(&writing, "path", about->path);
    put_name(&writing, "beside", about->beside);
    put_name(&writing, "name", about->name);
    file_id_text(&about->id, value);
    if (about->has_id) put(&writing, "file %s", value);
    if (about->mode >= 0) put(&writing, "mode %03o\n", (unsigned)about->mode);
    begin_text(&about->begin, value);
    if (about->has_begin) put(&writing, "begin %s", value);
    process_text(&about->process, value);
    if (about->has_process) put(&writing, "process %s", value);
    put(&writing, "versions %s\nmarks", about->versions);
    for (unsigned at = 0; at < MARKS; at++)
        if (about->marks & 1u << at) put(&writing, " %s", mark_words[at]);
    put(&writing, "\n");
    if (about->has_text) put_sum(&writing, "text", &about->text);
    if (about->has_known) put_sum(&writing, "known", &about->known);
    put_sum(&writing, "journal", &about->journal);
    put(&writing, "saved %" PRIu64 "\n", about->saved);
    sum_begin(&all);
    sum_more(&all, words, writing.length);
    put(&writing, "sum %016" PRIx64 "\n", all.hash);
    return writing.length < room ? writing.length : 0;
}

/* Whether a line begins with this key; then it goes on after it. */
static bool take_key(const char **line, const char *key) {
    size_t length = strlen(key);
    if (strncmp(*line, key, length) != 0 || ((*line)[length] != ' ' && (*line)[length] != '\0')) return false;
    *line += length + ((*line)[length] == ' ');
    return true;
}

static void take_name(const char *line, char path[PATH_MAX]) {
    size_t length = 0;
    for (; *line && length < PATH_MAX - 1; line++) {
        char digits[3] = {0};
        if (*line == '%' && line[1] && line[2]) {
            memcpy(digits, line + 1, 2);
            line += 2;
        }
        path[length++] = digits[0] ? (char)strtoul(digits, NULL, 16) : *line;
    }
    path[length] = '\0';
}

static unsigned marks_of(const char *line) {
    char word[16];
    unsigned marks = 0;
    while (take_word(&line, word, sizeof word)) {
        for (unsigned at = 0; at < MARKS; at++)
            if (strcmp(word, mark_words[at]) == 0) marks |= 1u << at;
    }
    return marks;
}

/* Reads a line. One with another key is of a later version, and no fault. */
static void read_line(struct about *about, const char *line) {
    if (take_key(&line, "path")) take_name(line, about->path);
    else if (take_key(&line, "beside")) take_name(line, about->beside);
    else if (take_key(&line, "name")) take_name(line, about->name);
    else if (take_key(&line, "file")) about->has_id = file_id_of(line, &about->id);
    else if (take_key(&line, "mode")) about->mode = (int)mode_of(line);
    else if (take_key(&line, "begin")) about->has_begin = begin_of(line, &about->begin);
    else if (take_key(&line, "process")) about->has_process = process_of(line, &about->process);
    else if (take_key(&line, "versions")) snprintf(about->versions, sizeof about->versions, "%s", line);
    else if (take_key(&line, "marks")) about->marks = marks_of(line);
    else if (take_key(&line, "text")) about->has_text = sum_of(line, &about->text);
    else if (take_key(&line, "known")) about->has_known = sum_of(line, &about->known);
    else if (take_key(&line, "saved") && !take_number(&line, UINT64_MAX, &about->saved)) about->saved = 0;
    else if (take_key(&line, "journal") && !sum_of(line, &about->journal)) sum_begin(&about->journal);
}

bool about_read(struct about *about, char *bytes, size_t size) {
    struct sum all;
    uint64_t hash;
    char *at = bytes, *end;
    about_clear(about);
    about->is_damaged = true;
    sum_begin(&all);
    while (size > 0 && (end = memchr(at, '\n', size))) {
        size_t length = (size_t)(end - at) + 1;
        const char *line = at;
        *end = '\0';
        if (take_key(&line, "sum")) about->is_damaged = !hash_of(line, &hash) || hash != all.hash;
        else read_line(about, line);
        *end = '\n';
        sum_more(&all, at, length);
        at += length;
        size -= length;
    }
    return about->path[0] == '/';
}

/* ---- names and owners */

static bool begins_with(const char *text, size_t count, const char *set) {
    return strspn(text, set) >= count;
}

#define DIGITS "0123456789"
#define SMALL "abcdefghijklmnopqrstuvwxyz"
#define LARGE "ABCDEFGHIJKLMNOPQRSTUVWXYZ"

/* Six letters or digits, which older versions of the editor got from mktemp, or eight letters of an alphabet of 32. */
static bool are_random_letters(const char *text) {
    size_t length = strlen(text);
    if (length == 6) return begins_with(text, length, DIGITS SMALL LARGE);
    return length == 8 && begins_with(text, length, SMALL "234567");
}

static bool is_session_name(const char *name) {
    enum { TIME_DIGITS = 14 };
    return begins_with(name, TIME_DIGITS, DIGITS) && name[TIME_DIGITS] == '.' && are_random_letters(name + TIME_DIGITS + 1);
}

enum name_kind kind_of_name(const char *name) {
    static const char replay[] = ".replay.";
    if (is_session_name(name)) return NAME_SESSION;
    if (strncmp(name, DEAD_BEGIN, strlen(DEAD_BEGIN)) == 0 && is_session_name(name + strlen(DEAD_BEGIN))) return NAME_DEAD;
    if (strncmp(name, replay, strlen(replay)) == 0 && are_random_letters(name + strlen(replay))) return NAME_REPLAY;
    return NAME_FOREIGN;
}

bool is_private(uid_t owner, mode_t mode, uid_t user) {
    return owner == user && (mode & SHARED) == 0;
}

bool is_safe_above(uid_t owner, mode_t mode, uid_t user) {
    return (owner == 0 || owner == user) && ((mode & OPEN_TO_ALL) == 0 || (mode & STICKY) != 0);
}

/* ---- whose a session is */

enum belonging judge_belonging(const struct belonging_facts *facts) {
    if (facts->is_beside || (facts->is_path && !facts->has_beside)) return BELONGS_BY_PATH;
    return facts->is_file ? BELONGS_BY_FILE : BELONGS_NOT;
}

enum session_state judge_state(const struct state_facts *facts) {
    if (facts->is_locked) return SESSION_LIVE;
    if (facts->may_be_elsewhere) return SESSION_ELSEWHERE;
    if (!facts->has_something) return SESSION_EMPTY;
    return facts->is_dropped ? SESSION_DROPPED : SESSION_UNFINISHED;
}

/* ---- torn files */

void compare_begin(struct backup_comparison *comparison) {
    *comparison = (struct backup_comparison){.is_same = true, .is_torn = true};
}

void compare_more(struct backup_comparison *comparison, const char *of_file, const char *of_backup, size_t count) {
    for (size_t at = 0; at < count; at++) {
        if (of_file[at] == of_backup[at]) continue;
        comparison->is_same = false;
        /* zeros stand for blocks that were not written */
        if (of_file[at] != 0) comparison->is_torn = false;
    }
}

enum verdict compare_end(const struct backup_comparison *comparison, uint64_t size_of_file, uint64_t size_of_backup) {
    if (comparison->is_same && size_of_file == size_of_backup) return FILE_WHOLE;
    return comparison->is_torn && size_of_file <= size_of_backup ? FILE_TORN : FILE_OTHER;
}

/* ---- the steps of a save that overwrites FILE */

static const char *const step_words[] = {[STEP_READY] = "ready", [STEP_PARTLY] = "partly", [STEP_WHOLE] = "whole"};

bool step_of(const char *words, struct step *step) {
    char kind[8];
    uint64_t device, inode, seconds, nanos;
    if (!take_word(&words, kind, sizeof kind) || !take_number(&words, UINT64_MAX, &device) || !take_number(&words, UINT64_MAX, &inode)) return false;
    if (!take_number(&words, INT64_MAX, &seconds) || !take_number(&words, NANOS - 1, &nanos)) return false;
    if (!take_number(&words, UINT64_MAX, &step->from) || !take_number(&words, UINT64_MAX, &step->to)) return false;
    if (!take_word(&words, step->boot, sizeof step->boot)) return false;
    step->id = (struct file_id){.device = (dev_t)device, .inode = (ino_t)inode};
    step->seconds = (int64_t)seconds;
    step->nanos = (uint32_t)nanos;
    for (step->kind = STEP_READY; step->kind <= STEP_WHOLE; step->kind++)
        if (strcmp(kind, step_words[step->kind]) == 0) return true;
    return false;
}

void step_text(const struct step *step, char words[FACT_MOST]) {
    snprintf(words, FACT_MOST, "%s %" PRIu64 " %" PRIu64 " %" PRId64 " %" PRIu32 " %" PRIu64 " %" PRIu64 " %s\n", step_words[step->kind],
             (uint64_t)step->id.device, (uint64_t)step->id.inode, step->seconds, step->nanos, step->from, step->to,
             step->boot[0] ? step->boot : "-");
}

bool is_as_left(const struct step *step, const struct step *now) {
    /* seconds that a step may take, and in which nobody else is likely to write FILE */
    enum { SOON = 5 };
    if (!is_same_id(&step->id, &now->id)) return false;
    bool is_soon = now->seconds >= step->seconds - SOON && now->seconds <= step->seconds + SOON;
    /* after a crash of the machine, the disk may have an earlier step than FILE */
    if (strcmp(step->boot, now->boot) != 0) return is_soon;
    if (step->kind == STEP_PARTLY) return is_soon && now->from >= step->from && now->from <= step->to;
    return step->kind == STEP_WHOLE && now->seconds == step->seconds && now->nanos == step->nanos;
}

/* ---- keys */

/* Reads a byte of a journal. Bytes that go on with a character (80 to BF in UTF-8) or with a sequence are no keys of their own. */
static void count_byte(struct key_count *count, unsigned char byte) {
    enum { SAVE = 0x13, ESCAPE = 0x1b, FILL = 102 };
    if (count->is_in_sequence) {
        bool is_final = (byte >= 'A' && byte <= 'Z') || (byte >= 'a' && byte <= 'z') || byte == '~';
        if (byte >= '0' && byte <= '9') count->number = count->number % 1000 * 10 + (byte - '0');
        if ((byte >= '0' && byte <= '9') || byte == ';') return;
        if (byte == '>' && !count->is_notice) {
            count->is_notice = true;
            return;
        }
        count->is_in_sequence = false;
        /* a size, the Save right before it, the Fill after it, and a notice are no keys */
        if (byte == 't' && !count->is_notice) count->keys -= count->is_saved ? 2 : 1;
        if (byte == '~' && (count->is_notice || count->number == FILL)) count->keys--;
        if (is_final) return;
    } else if (count->is_escape && byte == '[') {
        count->is_in_sequence = true;
        count->is_escape = count->is_notice = false;
        count->number = 0;
        return;
    }
    count->keys += byte < 0x80 || byte > 0xbf;
    count->is_saved = byte == ESCAPE && count->is_save;
    count->is_save = byte == SAVE;
    count->is_escape = byte == ESCAPE;
}

void count_more(struct key_count *count, const char *bytes, size_t size) {
    for (size_t at = 0; at < size; at++) count_byte(count, (unsigned char)bytes[at]);
}
