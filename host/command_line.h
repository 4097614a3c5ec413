/* The command line, read into a call; the help and the version. */
#ifndef COMMAND_LINE_H
#define COMMAND_LINE_H

#include <stdbool.h>
#include <stddef.h>

/* The editor's version. CHANGELOG.md and docs/bidi_edit.1 name it too, and each session records it. */
#define EDITOR_VERSION "0.5.0~git"

/* Exit statuses. FAULT: an error, or FILE was refused. NO: the command line was refused, or a question was answered by no or not at
 * all. */
enum { STATUS_FAULT = 1, STATUS_NO = 2 };

/* The most rows and columns of a window, and the most columns of a printed row. */
enum { LARGEST_SIDE = 500 };

enum direction { DIRECTION_AUTO, DIRECTION_LTR, DIRECTION_RTL };

const char *direction_word(enum direction direction);

enum call_kind { CALL_HELP, CALL_VERSION, CALL_PRINT, CALL_LIST, CALL_FORGET, CALL_RECOVER, CALL_EDIT };

/* What a command line asks for. */
struct call {
    enum call_kind kind;
    /* FILE's path, with ./ before it if it begins as an option; NULL for a list, to forget all sessions, or to edit a text without a name;
     * /dev/stdin to print -. */
    const char *file;
    /* The text without a name is read from standard input. */
    bool is_piped;
    /* Where a recovered text is stored; NULL to go on with the session. */
    const char *other;
    enum direction direction;
    /* The line to begin at, from 1; 0 for the first. */
    unsigned long line;
    /* FILE is opened also where it could not be saved; no session is kept; letters are not joined. */
    bool is_forced, is_unkept, is_unjoined;
    /* The mouse is the terminal's alone; copied text goes to no clipboard of the system. */
    bool has_no_mouse, has_no_clipboard;
    /* The text cannot be changed; new lines are not indented; the blanks that a tab key makes, 0 for a tab. */
    bool is_view, has_no_indent;
    unsigned spaces;
    /* What is deleted is not asked about; the file of options is not read. */
    bool is_sure, has_no_options;
    /* Of printing: the columns of a row, 0 for the terminal's; marks are printed. */
    unsigned columns;
    bool has_marks;
};

/* Parses the command line, without the program's name, over what `call` has already. Returns 0; or an exit status, with the message in
 * `cause`. */
int read_command_line(int count, char *const *words, struct call *call, const char **cause);

/* Parses a line of the file of options, which it changes. Returns NULL, or why the line is passed over. */
const char *read_option(char *line, struct call *call);

extern const char help_text[];

/* The first bytes of a file, at most 1,023; NULL without one, or if it is empty. */
const char *beginning(const char *path);

/* The text of --version, of what was noted at the build and the installation, if anything, and of the file DerivedBidiClass.txt. The notes
 * have the toolchain in their first line, and the version with its commit in a line `version X`; their other lines are printed as they are. */
const char *version_text(const char *notes, const char *classes);

/* ---- where the programs are */

/* Paths of the programs, of the folder with Unicode's tables, and of the file with the notes of the build and the installation.
 * Nothing checks that they exist. */
struct programs {
    char *editor, *printer, *tables, *kit;
};

/* ---- the programs' words and Unicode's tables */

/* The paths of Unicode's files, all from one folder, so that they are of one version. The last two, by which letters are joined,
 * are NULL where letters are not joined. */
struct tables {
    const char *classes, *brackets, *mirroring, *joining, *characters;
};

/* Finds them: in the folder that BIDI_EDIT_DATA gives, if it is set and not empty; else in the system's, else in the editor's own.
 * Returns NULL, or the cause where that folder lacks one of the first three. */
const char *find_tables(struct tables *tables, const char *own);

/* The arguments of a program to be started, ended by NULL. */
enum { ARGUMENTS_MOST = 64 };
struct arguments {
    char *arguments[ARGUMENTS_MOST];
    size_t count;
};
void add_argument(struct arguments *arguments, const char *word);
void add_option(struct arguments *arguments, const char *option, const char *value);

/* Adds the options that name the tables; with `is_joined`, also those of the tables for joined letters. */
void add_tables(struct arguments *arguments, const struct tables *tables, bool is_joined);

#endif
