/* The causes of failures and their sentences, each with the remedy. cause.h says what each call promises. */
#include "cause.h"

#include <errno.h>
#include <string.h>

#include "say.h"

static const char *const sentences[CAUSES] = {
    [CAUSE_NONE] = "nothing failed",
    [CAUSE_NO_SPACE] = "no space",
    [CAUSE_NOT_PERMITTED] = "not permitted",
    [CAUSE_FOLDER_GONE] = "folder gone",
    [CAUSE_READ_ONLY] = "read-only disk",
    [CAUSE_TOO_LARGE] = "file too large",
    [CAUSE_OUT_OF_MEMORY] = "out of memory",
    [CAUSE_CHANGED] = "file changed on disk",
    [CAUSE_NOT_PLAIN] = "not a plain file",
    [CAUSE_CUT_OFF] = "file incomplete",
    [CAUSE_OTHER] = "disk error",
    [CAUSE_EXISTS] = "file exists",
    [CAUSE_FOLDER] = "% is a folder: name a file in it",
    [CAUSE_NAMES_FOLDER] = "% ends in a slash, so it names a folder: name a file",
    [CAUSE_STANDARD_INPUT] = "% is standard input, not a file: write the input to a file, and edit that",
    [CAUSE_DESCRIPTOR] = "% is a descriptor that the caller opened, not a file: write its content to a file, and edit that",
    [CAUSE_DEVICE] = "% is a device, pipe or socket, not a plain file: write its content to a file, and edit that",
    [CAUSE_BROKEN_LINK] = "% is a broken link: ls -l shows where it points",
    [CAUSE_CIRCLE_OF_LINKS] = "% is a link in a circle of links: ls -l shows where it points",
    [CAUSE_LINK_NOT_UTF8] = "% is a link to a name that is not UTF-8: rename that file with mv",
    [CAUSE_NAME_TOO_LONG] = "the name % is too long for its disk: choose a shorter one",
    [CAUSE_NO_FOLDER] = "the folder @ does not exist: mkdir -p @ creates it",
    [CAUSE_FILE_AS_FOLDER] = "@ is not a folder: name a file in a folder",
    [CAUSE_FOLDER_BELOW_FILE] = "the folder @ cannot exist, since its path leads through a file: name a file in a folder",
    [CAUSE_FOLDER_UNREACHED] = "the folder @ cannot be reached: you have no access to a folder above it",
    [CAUSE_FOLDER_PATH_TOO_LONG] = "the folder @ cannot be reached, since its path is too long: go to a folder above it, and name FILE from there",
    [CAUSE_FOLDER_CLOSED] = "you have no access to $: if it is yours, chmod u+x gives you access",
    [CAUSE_FOLDER_NOT_UTF8] = "% is in a folder whose name is not UTF-8: rename the folder with mv",
    [CAUSE_FOLDER_PROTECTED] = "you cannot write to $, so no save is possible: edit a copy elsewhere; --force opens the file anyway",
    [CAUSE_UNREADABLE] = "% cannot be read: if it is yours, chmod u+r makes it readable; --force opens an empty text in its place",
    [CAUSE_WRITE_PROTECTED] = "% is write-protected: if it is yours, chmod u+w makes it writable; --force opens it anyway",
    [CAUSE_UTF16] = "% is UTF-16, not UTF-8: iconv -f UTF-16 -t UTF-8 % > &",
    [CAUSE_BINARY] = "% is a binary file, not text: od -c shows its bytes",
    [CAUSE_NOT_UTF8] = "% is not UTF-8 (line #). If it is Hebrew text from Windows: iconv -f windows-1255 -t UTF-8 % > &",
    [CAUSE_ARABIC] = "% is not UTF-8 (line #). If it is Arabic text from Windows: iconv -f windows-1256 -t UTF-8 % > &",
    [CAUSE_TOO_LONG] = "% has # bytes, more than the limit of 16777216: split -C 16M cuts it at line ends",
};

enum cause cause_of(int error) {
    switch (error) {
    case 0: return CAUSE_NONE;
    case ENOSPC:
    case EDQUOT: return CAUSE_NO_SPACE;
    case EPERM:
    case EACCES:
    case EWOULDBLOCK: return CAUSE_NOT_PERMITTED;
    case ENOENT:
    case ENOTDIR: return CAUSE_FOLDER_GONE;
    case EROFS: return CAUSE_READ_ONLY;
    case EFBIG: return CAUSE_TOO_LARGE;
    case ENOMEM: return CAUSE_OUT_OF_MEMORY;
    default: return CAUSE_OTHER;
    }
}

const char *cause_text(enum cause cause) {
    return cause < CAUSES && sentences[cause] ? sentences[cause] : sentences[CAUSE_OTHER];
}

const char *cause_message(enum cause cause, const char *name, const char *folder, unsigned long long number) {
    char *text = text_of("%s", "");
    const char *rest = cause_text(cause);
    static const char marks[] = "%&@$#";
    for (size_t length = strcspn(rest, marks); rest[length]; rest += length + 1, length = strcspn(rest, marks)) {
        const char *named = rest[length] == '@' ? folder : rest[length] == '&' ? text_of("%s.utf8", name) : name;
        const char *word = rest[length] == '#' ? text_of("%llu", number) : shown(named);
        if (rest[length] == '$') word = strcmp(folder, ".") == 0 ? "this folder" : text_of("the folder %s", shown(folder));
        text = text_of("%s%.*s%s", text, (int)length, rest, word);
    }
    return text_of("%s%s", text, rest);
}
