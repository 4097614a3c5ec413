/* Decisions about a session: tables of cases. Compiled with keep_judge.c and cause.c. Prints the cases that fail and 'N passed, M failed'; exit
 * status 1: a case failed. */
#include <errno.h>
#include <stdbool.h>
#include <stdio.h>
#include <string.h>

#include "../../host/keep_judge.h"

static int passed, failed;

static void same(const char *name, int found, int wanted) {
    if (found == wanted) passed++;
    else failed++;
    if (found != wanted) printf("failed %s: %d, not %d\n", name, found, wanted);
}

static const struct {
    const char *answer;
    enum choice choice;
} answers[] = {
    {"r", CHOICE_RECOVER}, {"recover", CHOICE_RECOVER}, {"l", CHOICE_LATER}, {"later", CHOICE_LATER},
    /* a letter never deletes at once */
    {"d", CHOICE_ASK_AGAIN}, {"delete", CHOICE_DELETE},
    {"", CHOICE_NONE}, {"y", CHOICE_NONE}, {"yes", CHOICE_NONE}, {"de", CHOICE_NONE}, {"delet", CHOICE_NONE}, {"deletes", CHOICE_NONE},
    {"delete it", CHOICE_NONE}, {"rr", CHOICE_NONE}, {"D", CHOICE_NONE},
};

static const struct {
    const char *answer, *word;
    bool is_word;
} words[] = {{"y", "yes", true}, {"yes", "yes", true}, {"", "yes", false}, {"ye", "yes", false}, {"n", "yes", false}, {"yess", "yes", false}};

/* Answers as other keyboard layouts type them, and what they stand for. */
static const char *const keys[][2] = {
    {"\u05d8", "y"}, {"\u063a", "y"}, {"\u05de", "n"}, {"\u0649", "n"}, {"\u062f", "n"}, {"\u05d4", "v"}, {"\u0631", "v"}, {"\u05d2", "d"},
    {"\u064a", "d"}, {"\u06cc", "d"}, {"\u05e8", "r"}, {"\u0642", "r"}, {"\u05da", "l"}, {"\u0645", "l"}, {"\u05dd", "o"}, {"\u062e", "o"},
    {"\u05dc", "k"}, {"\u0646", "k"}, {"\u05e7", "e"}, {"\u062b", "e"}, {"\ufefb", "b"}, {"\u067e", "m"}, {"\u0667", "7"}, {"\u06f7", "7"},
    {"\u05d2\u05e7\u05da\u05e7\u05d0\u05e7", "delete"}, {"\u064a\u062b\u0645\u062b\u0641\u062b", "delete"}, {"\u05d8es", "yes"},
    {"", ""}, {"yes", "yes"}, {"\u05ea", "\u05ea"}, {"\u0643", "\u0643"}, {"\u00e9", "\u00e9"}, {"\u4e16", "\u4e16"}, {"\U0001f600", "\U0001f600"},
    {"\xd7", "\xd7"}, {"\xef\xbb", "\xef\xbb"}, {"\xff\xff", "\xff\xff"},
};

static void check_keys(void) {
    for (size_t at = 0; at < sizeof keys / sizeof *keys; at++) {
        char answer[64];
        snprintf(answer, sizeof answer, "%s", keys[at][0]);
        put_letters_of_keys(answer);
        same(keys[at][0], strcmp(answer, keys[at][1]), 0);
    }
}

static const struct {
    int error;
    enum notice notice;
    const char *words;
} errors[] = {
    {ENOSPC, NOTICE_NO_SPACE, ": no space"}, {EDQUOT, NOTICE_NO_SPACE, ": no space"}, {ENOENT, NOTICE_FOLDER_GONE, ": its folder is gone"},
    {ENOTDIR, NOTICE_FOLDER_GONE, ": its folder is gone"}, {EACCES, NOTICE_NOT_PERMITTED, ": not permitted"},
    {EPERM, NOTICE_NOT_PERMITTED, ": not permitted"}, {EROFS, NOTICE_READ_ONLY, ": read-only disk"}, {EIO, NOTICE_UNKEPT, ""},
    {0, NOTICE_UNKEPT, ""},
};

static const struct {
    const char *name;
    struct now_facts facts;
    enum notice trouble;
    enum title_state note;
} nows[] = {
    {"kept", {.has_session = true, .keeping = KEEPS, .is_filled = true}, NOTICE_NONE, TITLE_KEPT},
    {"copied at the moment", {.has_session = true, .keeping = KEEPS_SOON}, NOTICE_NONE, TITLE_KEPT},
    {"copied again", {.has_session = true, .keeping = KEEPS_SOON, .told = NOTICE_NO_SPACE}, NOTICE_NO_SPACE, TITLE_LOST},
    {"none wanted", {.is_unwanted = true}, NOTICE_NONE, TITLE_UNKEPT},
    {"none possible", {.told = NOTICE_NOT_PERMITTED}, NOTICE_NOT_PERMITTED, TITLE_UNKEPT},
    {"text waits for room", {.has_session = true, .keeping = KEEPS_NOT_YET, .cause = CAUSE_NO_SPACE}, NOTICE_NO_SPACE, TITLE_UNKEPT},
    {"a part is gone", {.has_session = true, .keeping = KEEPS_NOT_YET, .cause = CAUSE_READ_ONLY, .is_filled = true}, NOTICE_READ_ONLY, TITLE_LOST},
    {"FILE changed", {.has_session = true, .keeping = KEEPS_NOTHING}, NOTICE_UNKEPT, TITLE_UNKEPT},
    {"folder gone", {.has_session = true, .keeping = KEEPS_NOWHERE, .is_filled = true}, NOTICE_FOLDER_GONE, TITLE_LOST},
    {"folder gone, not copied", {.has_session = true, .keeping = KEEPS_NOWHERE}, NOTICE_FOLDER_GONE, TITLE_UNKEPT},
    {"journal lost", {.has_session = true, .keeping = KEEPS, .is_filled = true, .is_journal_lost = true, .journal = NOTICE_NO_SPACE},
     NOTICE_NO_SPACE, TITLE_LOST},
    {"journal lost, told before",
     {.has_session = true, .keeping = KEEPS, .is_filled = true, .is_journal_lost = true, .journal = NOTICE_UNKEPT, .told = NOTICE_NO_SPACE},
     NOTICE_NO_SPACE, TITLE_LOST},
    {"journal lost, folder was gone",
     {.has_session = true, .keeping = KEEPS, .is_filled = true, .is_journal_lost = true, .journal = NOTICE_UNKEPT, .told = NOTICE_FOLDER_GONE},
     NOTICE_UNKEPT, TITLE_LOST},
    {"kept again", {.has_session = true, .keeping = KEEPS, .is_filled = true, .told = NOTICE_NO_SPACE}, NOTICE_NONE, TITLE_KEPT},
};

static const struct {
    const char *name;
    struct left left;
    enum fate fate;
} fates[] = {
    {"saved", {.how = LEFT_SAVED, .is_there = true}, FATE_REMOVED},
    {"saved, and the journal could not be emptied", {.how = LEFT_SAVED, .is_there = true, .has_keys = true}, FATE_REMOVED},
    {"saved, torn", {.how = LEFT_SAVED, .is_there = true, .is_torn = true, .is_filled = true}, FATE_KEPT},
    {"saved, folder gone", {.how = LEFT_SAVED}, FATE_GONE},
    {"unsaved", {.how = LEFT_UNSAVED, .is_there = true, .has_keys = true, .is_filled = true}, FATE_KEPT},
    {"unsaved, FILE has it", {.how = LEFT_UNSAVED, .is_there = true, .has_keys = true, .is_filled = true, .is_same = true}, FATE_REMOVED},
    {"unsaved, parts missing", {.how = LEFT_UNSAVED, .is_there = true, .has_keys = true}, FATE_LOST},
    {"unsaved, folder gone", {.how = LEFT_UNSAVED, .has_keys = true}, FATE_GONE},
    {"unsaved, journal without keys", {.how = LEFT_UNSAVED, .is_there = true, .is_filled = true}, FATE_REMOVED},
    {"unsaved, torn, FILE has it", {.how = LEFT_UNSAVED, .is_there = true, .has_keys = true, .is_filled = true, .is_same = true, .is_torn = true},
     FATE_KEPT},
    {"killed", {.how = LEFT_UNKNOWN, .is_there = true, .has_keys = true, .is_filled = true}, FATE_KEPT},
    {"killed, nothing typed", {.how = LEFT_UNKNOWN, .is_there = true, .is_filled = true}, FATE_REMOVED},
    {"killed, torn, nothing typed", {.how = LEFT_UNKNOWN, .is_there = true, .is_torn = true}, FATE_LOST},
    {"dropped", {.how = LEFT_DROPPED, .is_there = true, .has_keys = true, .is_filled = true}, FATE_DROPPED},
    {"dropped, FILE has it", {.how = LEFT_DROPPED, .is_there = true, .has_keys = true, .is_filled = true, .is_same = true}, FATE_DROPPED},
    {"dropped, secret", {.how = LEFT_DROPPED, .is_there = true, .has_keys = true, .is_filled = true, .is_secret = true}, FATE_WIPED},
    {"dropped, torn, secret", {.how = LEFT_DROPPED, .is_there = true, .has_keys = true, .is_filled = true, .is_secret = true, .is_torn = true},
     FATE_KEPT},
    {"dropped, parts missing", {.how = LEFT_DROPPED, .is_there = true, .has_keys = true}, FATE_REMOVED},
    {"dropped, torn, parts missing", {.how = LEFT_DROPPED, .is_there = true, .has_keys = true, .is_torn = true}, FATE_LOST},
    {"unsaved, secret", {.how = LEFT_UNSAVED, .is_there = true, .has_keys = true, .is_filled = true, .is_secret = true}, FATE_KEPT},
    {"refused", {.how = LEFT_REFUSED, .is_there = true, .is_filled = true}, FATE_REMOVED},
    {"refused, recovered", {.how = LEFT_REFUSED, .is_there = true, .has_keys = true, .is_filled = true}, FATE_KEPT},
};

/* What holds of each fate, for all facts: nothing is removed that may be recovered. */
static void check_all_fates(void) {
    int wrong = 0;
    for (unsigned bits = 0; bits < 5u << 6; bits++) {
        struct left left = {.how = (enum left_how)(bits >> 6),  .is_there = bits & 1,      .is_filled = (bits >> 1) & 1,
                            .has_keys = (bits >> 2) & 1,        .is_torn = (bits >> 3) & 1, .is_same = (bits >> 4) & 1,
                            .is_secret = (bits >> 5) & 1};
        enum fate fate = fate_of(&left);
        bool may_be_recovered = left.is_there && left.is_filled && (left.has_keys || left.is_torn);
        bool is_wanted = left.is_torn || (left.how != LEFT_SAVED && left.how != LEFT_DROPPED && !left.is_same);
        bool is_kept = fate == FATE_KEPT || fate == FATE_DROPPED;
        if (may_be_recovered && is_wanted && fate != FATE_KEPT) wrong++;
        if (is_kept && !left.is_filled) wrong++;
        bool is_over = !left.has_keys || left.is_same || left.how == LEFT_SAVED || left.how == LEFT_DROPPED;
        if (fate == FATE_REMOVED && (left.is_torn || !is_over)) wrong++;
        if (fate == FATE_LOST && left.is_filled) wrong++;
        if ((fate == FATE_WIPED) && !(left.is_secret && left.how == LEFT_DROPPED)) wrong++;
        if ((fate == FATE_GONE) != !left.is_there) wrong++;
    }
    same("all fates", wrong, 0);
}

int main(void) {
    check_keys();
    for (size_t i = 0; i < sizeof answers / sizeof *answers; i++) same(answers[i].answer, (int)choice_of(answers[i].answer), (int)answers[i].choice);
    for (size_t i = 0; i < sizeof words / sizeof *words; i++) same(words[i].answer, is_word(words[i].answer, words[i].word), words[i].is_word);
    for (size_t i = 0; i < sizeof errors / sizeof *errors; i++) {
        same("notice", (int)notice_of(cause_of(errors[i].error)), (int)errors[i].notice);
        same(errors[i].words, strcmp(fault_text(cause_of(errors[i].error)), errors[i].words), 0);
    }
    for (size_t i = 0; i < sizeof nows / sizeof *nows; i++) {
        same(nows[i].name, (int)trouble_now(&nows[i].facts), (int)nows[i].trouble);
        same(nows[i].name, (int)title_state_of(&nows[i].facts, nows[i].trouble), (int)nows[i].note);
    }
    for (size_t i = 0; i < sizeof fates / sizeof *fates; i++) same(fates[i].name, (int)fate_of(&fates[i].left), (int)fates[i].fate);
    check_all_fates();
    printf("%d passed, %d failed\n", passed, failed);
    return failed > 0;
}
