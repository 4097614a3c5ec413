/* Decisions about a session, without system calls: answers, notices, the title's note, what becomes of a session at its end. */
#ifndef KEEP_JUDGE_H
#define KEEP_JUDGE_H

#include <stdbool.h>

#include "cause.h"
#include "frames.h"
#include "session_judge.h"

/* ---- answers, in small letters and without blanks around them */

/* What an answer chooses for an unfinished session. CHOICE_ASK_AGAIN: the letter d alone, which may be a slip, so the word or a digit is asked
 * for. */
enum choice { CHOICE_NONE, CHOICE_RECOVER, CHOICE_DELETE, CHOICE_ASK_AGAIN, CHOICE_LATER };
enum choice choice_of(const char *answer);

/* Puts in place of each letter of the Hebrew, Arabic and Persian keyboard layouts the Latin letter of the same key, and of each digit of Arabic
 * and Persian the digit of ASCII. */
void put_letters_of_keys(char *answer);

/* Whether an answer is this word or the word's first letter. */
bool is_word(const char *answer, const char *word);

/* ---- causes */

/* The notice for a session that cannot be kept. */
enum notice notice_of(enum cause cause);

/* What messages add about a file that cannot be written; empty where there is nothing to add. */
const char *fault_text(enum cause cause);

/* ---- a session while its program runs */

struct now_facts {
    /* There is a session; the user wants none. */
    bool has_session, is_unwanted;
    /* The notice about this that was shown last; NOTICE_NONE if none was. */
    enum notice told;
    /* What session_mind says of the session, the cause if it is not kept now, and whether it has the text as it was opened. */
    enum keeping keeping;
    enum cause cause;
    bool is_filled;
    /* The program could not write the journal, and the journal still lacks bytes; the probable reason. */
    bool is_journal_lost;
    enum notice journal;
};
/* Why no copy of unsaved text is kept; NOTICE_NONE if one is kept, or the user wants none. */
enum notice trouble_now(const struct now_facts *facts);

/* What the title adds to FILE's name. */
enum title_state { TITLE_KEPT, TITLE_UNKEPT, TITLE_LOST };
enum title_state title_state_of(const struct now_facts *facts, enum notice trouble);

/* ---- a session at its end */

/* How the program left the text. LEFT_UNKNOWN: it was killed, or a fault ended it. LEFT_REFUSED: it opened nothing. */
enum left_how { LEFT_SAVED, LEFT_UNSAVED, LEFT_DROPPED, LEFT_UNKNOWN, LEFT_REFUSED };

struct left {
    enum left_how how;
    /* is_there: the session's folder exists. is_filled: the session can be recovered, since it has what that needs. has_keys: the journal
     * has keys, or the text counts as changed from the start. */
    bool is_there, is_filled, has_keys;
    /* FILE has only a part of a save's text; FILE has the session's text; only root could read FILE. */
    bool is_torn, is_same, is_secret;
};

enum fate {
    FATE_GONE,    /* its folder is gone */
    FATE_REMOVED, /* removed: FILE has all of it, it has nothing, or it was dropped before it could be recovered */
    FATE_LOST,    /* left as it is, though it cannot be recovered */
    FATE_DROPPED, /* kept as the last one whose changes were dropped */
    FATE_WIPED,   /* dropped, and removed, since root alone could read FILE */
    FATE_KEPT     /* kept to be recovered */
};
enum fate fate_of(const struct left *left);

#endif
