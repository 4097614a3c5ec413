/* Decisions about a session, by plain facts, without system calls. keep_judge.h says what each one means; their cases are in
 * tests/host/judge_keep.c. */
#include "keep_judge.h"

#include <string.h>

/* The letter or digit of the key of a character; 0 for one that has none. */
static char letter_of_key(unsigned code) {
    /* the letters of the keys of a row of characters, a point for a key without a letter */
    static const struct {
        unsigned first;
        const char *letters;
    } rows[] = {{0x5d0, "tcdsvuzjyhlfkonibxg.p.mera"}, {0x621, "x..c.zhfmje.ponbvcsawqxzuy"}, {0x641, "tr.glki.nd"}, {0x660, "0123456789"},
                {0x67e, "m"}, {0x6cc, "d"}, {0x6f0, "0123456789"}, {0xfefb, "b"}};
    for (size_t at = 0; at < sizeof rows / sizeof *rows; at++) {
        if (code < rows[at].first || code - rows[at].first >= strlen(rows[at].letters)) continue;
        char letter = rows[at].letters[code - rows[at].first];
        return letter == '.' ? '\0' : letter;
    }
    return '\0';
}

void put_letters_of_keys(char *answer) {
    char *to = answer;
    for (const char *at = answer; *at;) {
        const unsigned char *bytes = (const unsigned char *)at;
        size_t length = bytes[0] < 0xc0 || !bytes[1] ? 1 : bytes[0] < 0xe0 || !bytes[2] ? 2 : 3;
        unsigned code = length < 3 ? (bytes[0] & 31u) << 6 | (bytes[1] & 63u) : (bytes[0] & 15u) << 12 | (bytes[1] & 63u) << 6 | (bytes[2] & 63u);
        char letter = length > 1 ? letter_of_key(code) : '\0';
        *to++ = letter ? letter : *at;
        at += letter ? length : 1;
    }
    *to = '\0';
}

bool is_word(const char *answer, const char *word) {
    return *answer && (strcmp(answer, word) == 0 || (answer[1] == 0 && answer[0] == word[0]));
}

enum choice choice_of(const char *answer) {
    if (is_word(answer, "recover")) return CHOICE_RECOVER;
    if (is_word(answer, "later")) return CHOICE_LATER;
    if (strcmp(answer, "delete") == 0) return CHOICE_DELETE;
    return is_word(answer, "delete") ? CHOICE_ASK_AGAIN : CHOICE_NONE;
}

enum notice notice_of(enum cause cause) {
    switch (cause) {
    case CAUSE_NO_SPACE: return NOTICE_NO_SPACE;
    case CAUSE_FOLDER_GONE: return NOTICE_FOLDER_GONE;
    case CAUSE_NOT_PERMITTED: return NOTICE_NOT_PERMITTED;
    case CAUSE_READ_ONLY: return NOTICE_READ_ONLY;
    default: return NOTICE_UNKEPT;
    }
}

const char *fault_text(enum cause cause) {
    switch (cause) {
    case CAUSE_NO_SPACE: return ": no space";
    case CAUSE_FOLDER_GONE: return ": its folder is gone";
    case CAUSE_NOT_PERMITTED: return ": not permitted";
    case CAUSE_READ_ONLY: return ": read-only disk";
    default: return "";
    }
}

enum notice trouble_now(const struct now_facts *facts) {
    if (!facts->has_session) return facts->is_unwanted ? NOTICE_NONE : facts->told;
    switch (facts->keeping) {
    case KEEPS_NOWHERE: return NOTICE_FOLDER_GONE;
    case KEEPS_NOT_YET: return notice_of(facts->cause);
    case KEEPS_NOTHING: return NOTICE_UNKEPT;
    /* whether it is kept again is not known yet */
    case KEEPS_SOON:
        if (facts->told != NOTICE_NONE) return facts->told;
        break;
    default: break;
    }
    if (!facts->is_journal_lost) return NOTICE_NONE;
    /* the cause that was told first, until the journal is kept again */
    return facts->told != NOTICE_NONE && facts->told != NOTICE_FOLDER_GONE ? facts->told : facts->journal;
}

enum title_state title_state_of(const struct now_facts *facts, enum notice trouble) {
    if (facts->is_unwanted) return TITLE_UNKEPT;
    if (trouble == NOTICE_NONE) return TITLE_KEPT;
    bool has_text = facts->has_session && (facts->is_filled || facts->keeping == KEEPS || facts->keeping == KEEPS_SOON);
    return has_text ? TITLE_LOST : TITLE_UNKEPT;
}

enum fate fate_of(const struct left *left) {
    bool has_unsaved = left->how != LEFT_SAVED && left->has_keys;
    if (!left->is_there) return FATE_GONE;
    if (!has_unsaved && !left->is_torn) return FATE_REMOVED;
    if (left->how == LEFT_DROPPED && !left->is_torn) return !left->is_filled ? FATE_REMOVED : left->is_secret ? FATE_WIPED : FATE_DROPPED;
    if (!left->is_filled) return FATE_LOST;
    return left->is_same && !left->is_torn ? FATE_REMOVED : FATE_KEPT;
}
