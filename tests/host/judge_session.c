/* Cases of the decisions about sessions: what goes in, and what has to come out. Prints `N passed, M failed`. */
#include <stdio.h>
#include <string.h>

#include "../../host/session_judge.h"

static int passed, failed;

/* Counts a check, and names one that fails: what was checked, and the case. */
static void check(bool is_right, const char *what, const char *which) {
    if (is_right) {
        passed++;
        return;
    }
    failed++;
    printf("failed: %s: %s\n", what, which);
}

/* Counts a comparison of two texts. */
static void check_words(const char *what, const char *found, const char *wanted) {
    check(strcmp(found, wanted) == 0, what, found);
}

/* ---- words */

/* The words of the fact `begin`: which can be read, as what, and how they are written again. */
static void check_begins(void) {
    static const struct {
        const char *words;
        bool is_good;
        struct begin begin;
        const char *again;
    } cases[] = {
        {"24 80 rtl 7\n", true, {.rows = 24, .cols = 80, .direction = "rtl", .line = 7}, "24 80 rtl 7\n"},
        {"24 80 auto -", true, {.rows = 24, .cols = 80, .direction = "auto", .line = 0}, "24 80 auto -\n"},
        {" 1\t500 ltr\n-\nmore", true, {.rows = 1, .cols = 500, .direction = "ltr", .line = 0}, "1 500 ltr -\n"},
        {"4294967295 1 ltr 4294967295", true, {.rows = 4294967295U, .cols = 1, .direction = "ltr", .line = 4294967295U}, "4294967295 1 ltr 4294967295\n"},
        {"24 80 auto - 4 view indent no-name", true, {.rows = 24, .cols = 80, .direction = "auto", .line = 0, .spaces = 4, .is_view = true, .is_indented = true, .is_nameless = true},
         "24 80 auto - 4 view indent no-name\n"},
        {"24 80 auto 7 indent", true, {.rows = 24, .cols = 80, .direction = "auto", .line = 7, .is_indented = true}, "24 80 auto 7 indent\n"},
        {"24 80 auto 7 9 0 88", true, {.rows = 24, .cols = 80, .direction = "auto", .line = 7}, "24 80 auto 7\n"},
        {"", false, {0}, ""},
        {"24 80", false, {0}, ""},
        {"24 80 up -", false, {0}, ""},
        {"24 80 autoauto -", false, {0}, ""},
        {"24 x auto -", false, {0}, ""},
        {"-1 80 auto -", false, {0}, ""},
        {"24 80 auto", false, {0}, ""},
        {"24 80 auto 4294967296", false, {0}, ""},
        {"24 80 auto 99999999999999999999999999", false, {0}, ""},
    };
    for (size_t at = 0; at < sizeof cases / sizeof *cases; at++) {
        struct begin begin;
        char words[FACT_MOST];
        bool is_good = begin_of(cases[at].words, &begin);
        check(is_good == cases[at].is_good, "begin", cases[at].words);
        if (!is_good) continue;
        const struct begin *wanted = &cases[at].begin;
        check(begin.rows == wanted->rows && begin.cols == wanted->cols && begin.line == wanted->line, "begin's numbers", cases[at].words);
        check_words("begin's direction", begin.direction, wanted->direction);
        check(begin.spaces == wanted->spaces && begin.is_view == wanted->is_view && begin.is_indented == wanted->is_indented &&
                  begin.is_nameless == wanted->is_nameless, "begin's options", cases[at].words);
        begin_text(&begin, words);
        check_words("begin again", words, cases[at].again);
    }
}

/* The words by which a session's file is known again: device, inode and the time of its birth. */
static void check_files(void) {
    static const struct {
        const char *words;
        bool is_good, has_birth;
        const char *again;
    } cases[] = {
        {"3 5\n", true, false, "3 5\n"},
        {"3 5 9 0", true, true, "3 5 9 0\n"},
        {"3 5 9 1000000001", true, true, "3 5 10 1\n"},
        {"18446744073709551615 1", true, false, "18446744073709551615 1\n"},
        {"", false, false, ""},
        {"3", false, false, ""},
        {"3 x", false, false, ""},
        {"3 5 9", false, false, ""},
        {"3 5 x 9", false, false, ""},
        {"3 5 9 4294967296", false, false, ""},
        {"3 5 18446744073709551615 1", false, false, ""},
        {"18446744073709551616 1", false, false, ""},
    };
    for (size_t at = 0; at < sizeof cases / sizeof *cases; at++) {
        struct file_id id;
        char words[FACT_MOST];
        bool is_good = file_id_of(cases[at].words, &id);
        check(is_good == cases[at].is_good, "file", cases[at].words);
        if (!is_good) continue;
        check(id.has_birth == cases[at].has_birth, "file's birth", cases[at].words);
        file_id_text(&id, words);
        check_words("file again", words, cases[at].again);
    }
    struct file_id one = {.device = 3, .inode = 5}, born = {.device = 3, .inode = 5, .has_birth = true, .birth_seconds = 9}, later = born;
    later.birth_nanos = 1;
    check(is_same_id(&one, &born) && !is_surely_same_id(&one, &born), "files", "without a birth");
    check(is_surely_same_id(&born, &born) && !is_surely_same_id(&born, &later), "files", "with a birth");
    check(!is_surely_same_id(&one, &one), "files", "nothing is sure without a birth");
    later.inode = 6;
    check(!is_same_id(&born, &later), "files", "of two inodes");
}

/* The words of a process, and whether a session of that process may still go on, on another machine. */
static void check_processes(void) {
    static const struct process here = {.number = 1, .machine = "here", .boot = "boot"};
    static const struct {
        const char *words;
        bool may_go_on;
        const char *again;
    } cases[] = {
        {"7 here boot\n", false, "7 here boot\n"}, {"7 here before\n", false, "7 here before\n"},
        {"7 here -\n", false, "7 here -\n"},       {"7 container boot\n", false, "7 container boot\n"},
        {"7 there other\n", true, "7 there other\n"}, {"7 there -\n", true, "7 there -\n"},
        {"7 here\n", true, NULL},                  {"", true, NULL},
        {"x here boot", true, NULL},               {"4294967296 here boot", true, NULL},
    };
    for (size_t at = 0; at < sizeof cases / sizeof *cases; at++) {
        struct process there;
        char words[FACT_MOST];
        bool is_known = process_of(cases[at].words, &there);
        check(is_known == (cases[at].again != NULL), "process", cases[at].words);
        check(may_go_on_elsewhere(is_known ? &there : NULL, &here) == cases[at].may_go_on, "elsewhere", cases[at].words);
        if (!is_known) continue;
        process_text(&there, words);
        check_words("process again", words, cases[at].again);
    }
    char longest[600];
    memset(longest, 'a', sizeof longest - 1);
    longest[sizeof longest - 1] = '\0';
    memcpy(longest, "7 ", 2);
    struct process process;
    check(!process_of(longest, &process), "process", "a machine's name that is too long");
}

/* The words of FILE's permissions. 0600 for those that cannot be read. */
static void check_modes(void) {
    static const struct {
        const char *words;
        mode_t mode;
    } cases[] = {{"644\n", 0644}, {"4755", 0755}, {"600", 0600}, {"", 0600}, {"689", 0600}, {"x", 0600}, {"777777777777777", 0600}, {"0", 0}};
    for (size_t at = 0; at < sizeof cases / sizeof *cases; at++) check(mode_of(cases[at].words) == cases[at].mode, "mode", cases[at].words);
}

/* ---- names, owners */

/* Which names in the folder of sessions are sessions, removed sessions, folders of replays, or files of others. */
static void check_names(void) {
    static const struct {
        const char *name;
        enum name_kind kind;
    } cases[] = {
        {"20261130064312.abcdefgh", NAME_SESSION}, {"20261130064312.ab234567", NAME_SESSION}, {"20200101000000.AAAAAA", NAME_SESSION},
        {"20200101000000.x9Yz0a", NAME_SESSION},   {".dead.20261130064312.abcdefgh", NAME_DEAD}, {".replay.Xy12ab", NAME_REPLAY},
        {"2026", NAME_FOREIGN},                    {"2026-taxes", NAME_FOREIGN},              {"20261130064312", NAME_FOREIGN},
        {"20261130064312.", NAME_FOREIGN},         {"20261130064312.abc", NAME_FOREIGN},      {"20261130064312.abcdefghi", NAME_FOREIGN},
        {"20261130064312.abcdefg1", NAME_FOREIGN}, {"20261130064312.ABCDEFGH", NAME_FOREIGN}, {"20261130064312.abcd-f", NAME_FOREIGN},
        {"2026113006431.abcdefgh", NAME_FOREIGN},  {"202611300643123.abcdefgh", NAME_FOREIGN}, {"3d-models", NAME_FOREIGN},
        {".dead.letters", NAME_FOREIGN},           {".replay.old", NAME_FOREIGN},             {"", NAME_FOREIGN},
        {".dead..dead.20261130064312.abcdefgh", NAME_FOREIGN}, {"x20261130064312.abcdefgh", NAME_FOREIGN},
    };
    for (size_t at = 0; at < sizeof cases / sizeof *cases; at++) check(kind_of_name(cases[at].name) == cases[at].kind, "name", cases[at].name);
}

/* Whether a folder is private to user 7, and whether it is safe from others above a private one. */
static void check_owners(void) {
    static const struct {
        const char *which;
        uid_t owner;
        mode_t mode;
        bool is_private, is_safe;
    } cases[] = {
        {"own, closed", 7, 0700, true, true},         {"own, read by all", 7, 0755, true, true},
        {"own, of the group", 7, 0770, false, true},  {"own, of all", 7, 0777, false, false},
        {"own, of all, sticky", 7, 01777, false, true}, {"root's", 0, 0755, false, true},
        {"root's, of all", 0, 0777, false, false},    {"root's, of all, sticky", 0, 01777, false, true},
        {"another's", 8, 0700, false, false},         {"another's, sticky", 8, 01777, false, false},
    };
    for (size_t at = 0; at < sizeof cases / sizeof *cases; at++) {
        check(is_private(cases[at].owner, cases[at].mode, 7) == cases[at].is_private, "private", cases[at].which);
        check(is_safe_above(cases[at].owner, cases[at].mode, 7) == cases[at].is_safe, "safe above", cases[at].which);
    }
}

/* ---- whose a session is, and what it holds */

/* Whether a session is of FILE, by what is known of both, and where it counts as such. */
static void check_belongings(void) {
    static const struct {
        const char *which;
        struct belonging_facts facts;
        enum belonging belonging;
    } cases[] = {
        {"its path", {.is_path = true}, BELONGS_BY_PATH},
        {"its path, and its file", {.is_path = true, .is_file = true}, BELONGS_BY_PATH},
        {"another name", {.is_file = true}, BELONGS_BY_FILE},
        {"another file", {.has_beside = true}, BELONGS_NOT},
        {"the file beside", {.is_beside = true, .has_beside = true}, BELONGS_BY_PATH},
        {"its path, and it goes on with a file beside that is not there yet", {.is_path = true}, BELONGS_BY_PATH},
        {"its path, and it goes on with a file beside", {.is_path = true, .has_beside = true}, BELONGS_NOT},
        {"its path and its file, and it goes on with a file beside", {.is_path = true, .has_beside = true, .is_file = true}, BELONGS_BY_FILE},
        {"nothing is known", {.is_path = false}, BELONGS_NOT},
    };
    for (size_t at = 0; at < sizeof cases / sizeof *cases; at++)
        check(judge_belonging(&cases[at].facts) == cases[at].belonging, "belonging", cases[at].which);
}

/* The state of a session, by its locks and what it has. */
static void check_states(void) {
    static const struct {
        const char *which;
        struct state_facts facts;
        enum session_state state;
    } cases[] = {
        {"locked", {.is_locked = true}, SESSION_LIVE},
        {"locked, elsewhere", {.is_locked = true, .may_be_elsewhere = true, .has_something = true}, SESSION_LIVE},
        {"elsewhere", {.may_be_elsewhere = true, .has_something = true}, SESSION_ELSEWHERE},
        {"elsewhere, empty", {.may_be_elsewhere = true}, SESSION_ELSEWHERE},
        {"empty", {.has_something = false}, SESSION_EMPTY},
        {"empty, dropped", {.is_dropped = true}, SESSION_EMPTY},
        {"dropped", {.has_something = true, .is_dropped = true}, SESSION_DROPPED},
        {"unfinished", {.has_something = true}, SESSION_UNFINISHED},
    };
    for (size_t at = 0; at < sizeof cases / sizeof *cases; at++) check(judge_state(&cases[at].facts) == cases[at].state, "state", cases[at].which);
}

/* ---- bytes */

/* Compares a text with its backup, in pieces of `step` bytes. */
static enum verdict compare_in_pieces(const char *text, size_t size, const char *backup, size_t step) {
    struct backup_comparison comparison;
    size_t backup_size = strlen(backup), shared = size < backup_size ? size : backup_size, from = 0;
    compare_begin(&comparison);
    for (; shared - from > step; from += step) compare_more(&comparison, text + from, backup + from, step);
    compare_more(&comparison, text + from, backup + from, shared - from);
    return compare_end(&comparison, size, backup_size);
}

/* Each text is taken whole and in pieces of every length. */
static void check_backups(void) {
    static const struct {
        const char *which, *of_file;
        size_t size;
        enum verdict verdict;
    } cases[] = {
        {"whole", "hello", 5, FILE_WHOLE},      {"a beginning", "he", 2, FILE_TORN},   {"nothing", "", 0, FILE_TORN},
        {"zeros", "h\0\0l", 4, FILE_TORN},      {"all zeros", "\0\0\0\0\0", 5, FILE_TORN}, {"another", "help", 4, FILE_OTHER},
        {"longer", "hello there", 11, FILE_OTHER}, {"zeros behind", "hello\0", 6, FILE_OTHER}, {"zeros and another", "\0e\0p", 4, FILE_OTHER},
    };
    for (size_t at = 0; at < sizeof cases / sizeof *cases; at++)
        for (size_t step = 1; step <= 5; step++)
            check(compare_in_pieces(cases[at].of_file, cases[at].size, "hello", step) == cases[at].verdict, "backup", cases[at].which);
    struct backup_comparison comparison;
    compare_begin(&comparison);
    check(compare_end(&comparison, 0, 0) == FILE_WHOLE, "backup", "both empty");
}

/* The number of keys in the bytes of a journal, which are taken whole and in two pieces at each offset. */
static void check_keys(void) {
    static const struct {
        const char *journal;
        size_t keys;
    } cases[] = {
        {"", 0},
        {"a\xd7\x90\n", 3},
        {"\x1b[A\x1b[1;5D", 2},
        {"\x1b[8;24;80ta\x13\x1b[8;24;80tb", 2},
        {"\x13" "a\x13\x13\x1b[8;1;2t", 3},
        {"\x1b\x1bx\x1b[9", 4},
        {"\x1b[>7~", 0},
        {"a\x1b[>1;2~b", 2},
        {"\x13\x1b[>7~", 1},
        {"\x1b[>7~\x1b[8;1;1t", 0},
        {"a\x1b[8;24;80t\x1b[102~b", 2},
        {"\x1b[101~\x1b[1102~", 2},
        {"\x1b[>7x", 1},
        {"\x1b[>>", 2},
        {"\x1b[\x1b[8;1;1t", 1},
        {"\x1b\x13\x1b[8;1;1t", 1},
        {"\x13\x1b[A", 2},
        {"\x1b[t\x1b[t", 0},
        {"\xf0\x9f\x98\x80", 1},
    };
    for (size_t at = 0; at < sizeof cases / sizeof *cases; at++) {
        size_t length = strlen(cases[at].journal);
        for (size_t split = 0; split <= length; split++) {
            struct key_count count = {0};
            count_more(&count, cases[at].journal, split);
            count_more(&count, cases[at].journal + split, length - split);
            check(count.keys == cases[at].keys, "keys", cases[at].journal);
        }
    }
}

/* Sums, by FNV-1a's own published values. */
static void check_sums(void) {
    static const struct {
        const char *text;
        uint64_t hash;
    } cases[] = {{"", 0xcbf29ce484222325}, {"a", 0xaf63dc4c8601ec8c}, {"foobar", 0x85944171f73967e8}};
    for (size_t at = 0; at < sizeof cases / sizeof *cases; at++) {
        size_t length = strlen(cases[at].text);
        for (size_t split = 0; split <= length; split++) {
            struct sum sum;
            sum_begin(&sum);
            sum_more(&sum, cases[at].text, split);
            sum_more(&sum, cases[at].text + split, length - split);
            check(sum.hash == cases[at].hash && sum.size == length, "sum", cases[at].text);
        }
    }
}

/* All facts are read back as they were written; a byte that is changed anywhere is noticed, or the facts are no more than damaged. */
static void check_facts(void) {
    static struct about about, again;
    static char words[MOST_ABOUT], changed[MOST_ABOUT], twice[MOST_ABOUT];
    about_clear(&about);
    check(about_write(&about, words, sizeof words) > 0 && !about_read(&again, words, strlen(words)), "facts", "without a path");
    snprintf(about.path, sizeof about.path, "/a b/100%%\n\x1b\xd7\x90");
    snprintf(about.beside, sizeof about.beside, "/a b/c.recovered");
    about.has_id = about.has_begin = about.has_process = about.has_text = about.has_known = true;
    about.id = (struct file_id){.device = 3, .inode = 5, .has_birth = true, .birth_seconds = 9, .birth_nanos = 7};
    about.mode = 0640;
    about.begin = (struct begin){.rows = 24, .cols = 80, .direction = "rtl", .line = 7};
    about.process = (struct process){.number = 7, .machine = "here", .boot = "boot"};
    snprintf(about.versions, sizeof about.versions, "bidi-edit 1 2 3 4");
    about.marks = MARK_CUT | MARK_SECRET | MARK_IN_PLACE;
    about.text = (struct sum){5, 0x123};
    about.known = (struct sum){6, UINT64_MAX};
    about.journal = (struct sum){7, 1};
    about.saved = 8;
    size_t size = about_write(&about, words, sizeof words);
    check(about_write(&about, twice, size) == 0, "facts", "without room");
    memcpy(changed, words, size);
    check(about_read(&again, changed, size) && !again.is_damaged && !again.is_old, "facts", "read");
    check(strcmp(again.path, about.path) == 0 && strcmp(again.beside, about.beside) == 0, "facts", again.path);
    check(is_surely_same_id(&again.id, &about.id) && again.mode == 0640 && again.marks == about.marks, "facts", "file, mode and marks");
    check(again.begin.line == 7 && again.process.number == 7 && strcmp(again.versions, about.versions) == 0, "facts", "begin, process, versions");
    check(is_same_sum(&again.text, &about.text) && is_same_sum(&again.known, &about.known) && is_same_sum(&again.journal, &about.journal), "facts", "sums");
    check(again.saved == 8, "facts", "saved");
    check(about_write(&again, twice, sizeof twice) == size && memcmp(words, twice, size) == 0, "facts", "written again");
    int unnoticed = 0;
    for (size_t at = 0; at < size; at++) {
        memcpy(changed, words, size);
        changed[at] ^= 1;
        if (about_read(&again, changed, size) && !again.is_damaged) unnoticed++;
    }
    check(unnoticed == 0, "facts", "a changed byte");
    for (size_t at = 0; at < size; at++) {
        memcpy(changed, words, at);
        if (about_read(&again, changed, at) && !again.is_damaged) unnoticed++;
    }
    check(unnoticed == 0, "facts", "a missing end");
}

/* The words of a save's step: what is written is read back, and what is malformed is none. */
static void check_step_words(void) {
    char words[FACT_MOST];
    struct step step, again;
    check(step_of("partly 65024 12 1700000000 999999999 0 65536 some-boot\n", &step), "step", "well formed");
    check(step.kind == STEP_PARTLY && step.id.device == 65024 && step.id.inode == 12 && step.seconds == 1700000000 && step.nanos == 999999999 &&
              step.from == 0 && step.to == 65536 && strcmp(step.boot, "some-boot") == 0, "step", "what it says");
    step_text(&step, words);
    check(strcmp(words, "partly 65024 12 1700000000 999999999 0 65536 some-boot\n") == 0, "step", words);
    step.boot[0] = '\0';
    step_text(&step, words);
    check(step_of(words, &again) && strcmp(again.boot, "-") == 0, "step", "an unknown boot");
    static const char *const wrong[] = {"", "partly", "none 1 2 3 4 5 6 b", "partly 1 2 3 1000000000 5 6 b", "partly 1 2 3 4 5 b", "whole 1 -2 3 4 5 6 b"};
    for (size_t at = 0; at < sizeof wrong / sizeof *wrong; at++) check(!step_of(wrong[at], &step), "step", wrong[at]);
}

/* Whether FILE is as a killed save left it: the step that it noted, and FILE as it is. Each of the last five members is different in `now`. */
static void check_left_files(void) {
    static const struct {
        const char *which;
        enum step_kind kind;
        /* How FILE differs from the step: another inode, its size, seconds and nanoseconds later, another boot. */
        unsigned inode;
        uint64_t size;
        int seconds;
        unsigned nanos;
        bool is_other_boot, is_left;
    } cases[] = {
        {"not begun", STEP_READY, 0, 10, 0, 0, false, false},
        {"not begun, then the machine crashed", STEP_READY, 0, 10, 5, 0, true, true},
        {"not begun, then the machine crashed, long ago", STEP_READY, 0, 10, 6, 0, true, false},
        {"as noted", STEP_PARTLY, 0, 10, 0, 0, false, true},
        {"the step itself", STEP_PARTLY, 0, 20, 1, 0, false, true},
        {"within the step", STEP_PARTLY, 0, 15, 0, 1, false, true},
        {"shorter", STEP_PARTLY, 0, 9, 0, 1, false, false},
        {"longer", STEP_PARTLY, 0, 21, 0, 1, false, false},
        {"later", STEP_PARTLY, 0, 10, 6, 0, false, false},
        {"earlier", STEP_PARTLY, 0, 10, -6, 0, false, false},
        {"another file", STEP_PARTLY, 1, 10, 0, 0, false, false},
        {"whole", STEP_WHOLE, 0, 9, 0, 0, false, true},
        {"whole, and changed since", STEP_WHOLE, 0, 9, 0, 1, false, false},
        {"whole, then the machine crashed", STEP_WHOLE, 0, 9, -1, 0, true, true},
        {"another file after a crash", STEP_WHOLE, 1, 9, 0, 0, true, false},
    };
    for (size_t at = 0; at < sizeof cases / sizeof *cases; at++) {
        struct step step = {.kind = cases[at].kind, .from = 10, .to = 20, .id = {.device = 1, .inode = 2}, .seconds = 1000, .nanos = 5, .boot = "b"};
        struct step now = {.from = cases[at].size, .id = {.device = 1, .inode = 2 + cases[at].inode}, .seconds = 1000 + cases[at].seconds,
                           .nanos = 5 + cases[at].nanos, .boot = "b"};
        if (cases[at].is_other_boot) now.boot[0] = 'c';
        check(is_as_left(&step, &now) == cases[at].is_left, "left file", cases[at].which);
    }
}

int main(void) {
    check_begins();
    check_files();
    check_processes();
    check_modes();
    check_names();
    check_owners();
    check_belongings();
    check_states();
    check_backups();
    check_sums();
    check_facts();
    check_step_words();
    check_left_files();
    check_keys();
    printf("%d passed, %d failed\n", passed, failed);
    return failed > 0;
}
