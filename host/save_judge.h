/* Decisions about saves by plain facts, without system calls. */
#ifndef SAVE_JUDGE_H
#define SAVE_JUDGE_H

#include <stdbool.h>
#include <sys/stat.h>

#include "file.h"

/* Why saves overwrite FILE in place. */
enum reason {
    NO_REASON,
    REASON_PROTECTED,
    REASON_MOUNTED,
    REASON_LINKED,
    REASON_LISTED,
    REASON_LABELLED,
    REASON_GIVEN_LIST,
};

/* Why a new file must not replace a file; NO_REASON if it may, if it is not a plain file, or if the user cannot write it. By the
 * facts about the file, the look at it, and the facts about its folder. */
enum reason find_in_place(const struct facts *file, const struct file_stamp *stamp, const struct facts *folder);

/* What messages say about the file, and about what a save by a new file would do to it. */
const char *reason_text(enum reason reason);
const char *reason_harm(enum reason reason);

/* The permissions of a new file in place of one with this mode, by whether it got the old one's owner, and its group with all that the mode
 * says of it. An access list makes a mode say less. */
mode_t mode_of_new(mode_t old, bool has_owner, bool has_group);

/* Whether a save may go on, by what is at FILE's name and what was seen there last. */
enum cause judge_stamp(const struct file_stamp *seen, const struct file_stamp *now);

/* Whether what an exchange took from FILE's place is what was seen there. The time of change is not compared, since a rename changes it. */
bool is_taken_out(const struct file_stamp *seen, const struct file_stamp *out);

#endif
