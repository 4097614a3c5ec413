/* Why something failed: one list for all of the host. A call that can fail returns CAUSE_NONE, which is 0, or a cause; the message is made
 * where it is shown. */
#ifndef CAUSE_H
#define CAUSE_H

enum cause {
    CAUSE_NONE,
    /* What the system tells, and what a save finds at FILE's name. These numbers are the bytes of the frame FAILED, in the order of
     * bx_store. */
    CAUSE_NO_SPACE,
    CAUSE_NOT_PERMITTED,
    CAUSE_FOLDER_GONE,
    CAUSE_READ_ONLY,
    CAUSE_TOO_LARGE,
    CAUSE_OUT_OF_MEMORY,
    CAUSE_CHANGED,
    CAUSE_NOT_PLAIN,
    CAUSE_CUT_OFF,
    CAUSE_OTHER,
    CAUSE_EXISTS,
    /* FILE names nothing that can be edited. */
    CAUSE_FOLDER,
    CAUSE_NAMES_FOLDER,
    CAUSE_STANDARD_INPUT,
    CAUSE_DESCRIPTOR,
    CAUSE_DEVICE,
    CAUSE_BROKEN_LINK,
    CAUSE_CIRCLE_OF_LINKS,
    CAUSE_LINK_NOT_UTF8,
    CAUSE_NAME_TOO_LONG,
    /* Something is wrong with FILE's folder. */
    CAUSE_NO_FOLDER,
    CAUSE_FILE_AS_FOLDER,
    CAUSE_FOLDER_BELOW_FILE,
    CAUSE_FOLDER_UNREACHED,
    CAUSE_FOLDER_PATH_TOO_LONG,
    CAUSE_FOLDER_CLOSED,
    CAUSE_FOLDER_NOT_UTF8,
    CAUSE_FOLDER_PROTECTED,
    /* FILE is there, and cannot be read, saved or edited. */
    CAUSE_UNREADABLE,
    CAUSE_WRITE_PROTECTED,
    CAUSE_UTF16,
    CAUSE_BINARY,
    CAUSE_NOT_UTF8,
    CAUSE_ARABIC,
    CAUSE_TOO_LONG,
    CAUSES
};

/* The cause of a failed call of the system, by its errno; CAUSE_NONE for 0. */
enum cause cause_of(int error);

/* The sentence of a cause. In it, `%` stands for FILE's name, `&` for a new name by it, `@` for its folder's, `$` for `the folder` and that
 * name, and `#` for a number. */
const char *cause_text(enum cause cause);

/* The sentence with this number and these names, quoted for a shell. */
const char *cause_message(enum cause cause, const char *name, const char *folder, unsigned long long number);

#endif
