/* The command line, read into a call; the help and the version; and the arguments of the program. command_line.h says what each call promises. */
#include "command_line.h"

#include <stddef.h>
#include <stdio.h>
#include <stdlib.h>
#include <string.h>
#include <sys/stat.h>
#include <unistd.h>

#include "file.h"
#include "say.h"
#include "util.h"

/* The last line of the longest text, if every byte of that text is a line feed. Numbers from `too_large` on count as this line. */
static const unsigned long last_line = LARGEST_TEXT + 1, too_large = 100000000;

#define USAGE                                                                                                                     \
    "usage: bidi-edit [--direction auto|ltr|rtl] [--line N | +N] [--tab N] [FILE | -]\n"                                           \
    "       bidi-edit --recover [[--to OTHER] FILE] | --forget [--yes] [FILE]"

static const char usage[] = USAGE;
static const char print_usage[] =
    "usage: bidi-edit --print FILE [--cols N] [--marks] [--no-joining]\n       [--direction auto|ltr|rtl]";

/* At most 23 lines of at most 80 columns, which a window of 24 rows shows with the shell's next prompt. */
const char help_text[] = USAGE "\n"
    "       bidi-edit --print FILE [--cols N] [--marks]   (the manual: man bidi-edit)\n"
    "- edits what comes from a pipe. --view only shows the text, --force opens a FILE\n"
    "that cannot be saved, -n keeps no copy of unsaved text, --tab N types blanks.\n"
    "--no-indent --no-joining --no-mouse --no-clipboard --no-options disable these.\n"
    "--recover restores or lists unsaved text, --to stores it, --forget deletes it.\n"
    "\n"
    "  Arrow keys            move as the screen shows; Ctrl-Left, Ctrl-Right by words\n"
    "  Alt-Left Alt-Right    back, forward in stored order; Ctrl-G to a line: 12:5\n"
    "  Home End Page Up/Down start, end of the row (with Ctrl: of the text); a window\n"
    "  Backspace Delete      erase before, at the cursor; with Ctrl: by words\n"
    "  Ctrl-S Ctrl-O Ctrl-Q  save; under another name; quit (F10; twice if unsaved)\n"
    "  Ctrl-Z Ctrl-Y F1 F2   undo; redo; the main keys; direction (Ctrl-L repaints)\n"
    "  Ctrl-Space, Ctrl-@    mark; Shift with a move or the mouse selects; Ctrl-A all\n"
    "  Ctrl-X Ctrl-C Ctrl-V  cut, copy the selection, or else the line; paste\n"
    "  Ctrl-F Ctrl-B F3 F4   find forward, back, next; replace; Escape cancels\n"
    "  Ctrl-K Ctrl-T         insert a character listed below; character info\n"
    "\n"
    "The last row: * if changes are not saved, else -; line:letter; a message.\n"
    "Invisible characters, shown in reverse video. Ctrl-K and the letter insert one:\n"
    "  e LRE E RLE o LRO O RLO p PDF i LRI I RLI f FSI P PDI; as ~: l LRM r RLM a ALM\n"
    "  no symbol: n ZWNJ j ZWJ; by code: u 5D0 Enter. ? control, # too wide, ~ other\n";

static const char *const directions[] = {[DIRECTION_AUTO] = "auto", [DIRECTION_LTR] = "ltr", [DIRECTION_RTL] = "rtl"};

const char *direction_word(enum direction direction) {
    return directions[direction];
}

/* The most blanks of a tab. */
enum { WIDEST_TAB = 8 };

/* The state of parsing. `cause` is NULL until an argument is refused. */
struct reading {
    struct call *call;
    const char *cause, *file, *other;
    bool is_recovery, is_forgetting, is_print;
};

enum option {
    DIRECTION, LINE, TAB, OTHER, COLUMNS, FORCED, UNKEPT, UNJOINED, NO_MOUSE, NO_CLIPBOARD, NO_INDENT, VIEW, NO_OPTIONS, SURE, RECOVER, FORGET, MARKS, PRINT, IGNORED
};

/* The options, which may stand before FILE, or with --print. The ignored ones are of other editors: no new window, wait for the end. */
static const struct {
    const char *name;
    enum option option;
    bool is_edit, is_print, has_value;
} options[] = {{"--direction", DIRECTION, true, true, true}, {"--line", LINE, true, false, true},
               {"--to", OTHER, true, false, true}, {"--cols", COLUMNS, false, true, true},
               {"--tab", TAB, true, false, true}, {"--no-indent", NO_INDENT, true, false, false},
               {"--view", VIEW, true, false, false}, {"--no-options", NO_OPTIONS, true, true, false},
               {"--yes", SURE, true, false, false},
               {"--force", FORCED, true, false, false}, {"-n", UNKEPT, true, false, false},
               {"--no-joining", UNJOINED, true, true, false}, {"--no-mouse", NO_MOUSE, true, false, false},
               {"--no-clipboard", NO_CLIPBOARD, true, false, false}, {"--recover", RECOVER, true, false, false},
               {"--forget", FORGET, true, false, false}, {"--marks", MARKS, false, true, false},
               {"--print", PRINT, true, false, false}, {"-f", IGNORED, true, false, false},
               {"-w", IGNORED, true, false, false}, {"-nw", IGNORED, true, false, false},
               {"--nofork", IGNORED, true, false, false}, {"--wait", IGNORED, true, false, false}};

/* Reads a number; one that is too large names the last line. Returns false if there is another character, or none. */
static bool line_of_digits(const char *digits, size_t count, unsigned long *line) {
    unsigned long number = 0;
    for (size_t i = 0; i < count; i++) {
        if (digits[i] < '0' || digits[i] > '9') return false;
        number = number * 10 + (unsigned long)(digits[i] - '0');
        if (number > too_large) number = too_large;
    }
    *line = number < too_large ? number : last_line;
    return count > 0;
}

/* Puts the value of an option in the call, or refuses it. The first line needs no option, and 0 names it too. */
static void take_value(struct reading *reading, enum option option, const char *value) {
    struct call *call = reading->call;
    unsigned long number = 0;
    size_t direction = 0;
    bool is_number = line_of_digits(value, strlen(value), &number);
    switch (option) {
    case DIRECTION:
        while (direction <= DIRECTION_RTL && strcmp(value, directions[direction]) != 0) direction++;
        if (direction > DIRECTION_RTL) reading->cause = text_of("--direction needs auto, ltr or rtl, not %s", shown(value));
        else call->direction = (enum direction)direction;
        break;
    case LINE:
        if (!is_number) reading->cause = text_of("--line needs a number, not %s", shown(value));
        call->line = number <= 1 ? 0 : number;
        break;
    case COLUMNS:
        if (!is_number || strlen(value) > 3 || number < 1 || number > LARGEST_SIDE)
            reading->cause = text_of("--cols needs a number from 1 to 500, not %s", shown(value));
        call->columns = (unsigned)number;
        break;
    case TAB:
        if (!is_number || number < 1 || number > WIDEST_TAB) reading->cause = text_of("--tab needs a number from 1 to 8, not %s", shown(value));
        call->spaces = (unsigned)number;
        break;
    default:
        if (!*value) reading->cause = "the name of OTHER is empty";
        reading->other = value;
        break;
    }
}

/* Takes an option without a value. What precedes --print counts, but for --to. */
static void take_switch(struct reading *reading, enum option option) {
    struct call *call = reading->call;
    switch (option) {
    case FORCED: call->is_forced = true; break;
    case UNKEPT: call->is_unkept = true; break;
    case UNJOINED: call->is_unjoined = true; break;
    case NO_MOUSE: call->has_no_mouse = true; break;
    case NO_CLIPBOARD: call->has_no_clipboard = true; break;
    case NO_INDENT: call->has_no_indent = true; break;
    case VIEW: call->is_view = true; break;
    case NO_OPTIONS: call->has_no_options = true; break;
    case SURE: call->is_sure = true; break;
    case RECOVER: reading->is_recovery = true; break;
    case FORGET: reading->is_forgetting = true; break;
    case MARKS: call->has_marks = true; break;
    case PRINT:
        reading->is_print = true;
        reading->other = NULL;
        break;
    default: break;
    }
}

/* Takes an option, and its value, which is the next word or follows =. Returns how many words it used. */
static int take_option(struct reading *reading, int count, char *const *words) {
    size_t length = strcspn(words[0], "=");
    for (size_t i = 0; i < sizeof options / sizeof *options; i++) {
        bool is_joined = words[0][length] == '=', has_value = options[i].has_value;
        if (!(reading->is_print ? options[i].is_print : options[i].is_edit) || strlen(options[i].name) != length) continue;
        if (strncmp(words[0], options[i].name, length) != 0 || (is_joined && !has_value)) continue;
        if (!has_value) take_switch(reading, options[i].option);
        else if (is_joined) take_value(reading, options[i].option, words[0] + length + 1);
        else if (count < 2) reading->cause = text_of("%s needs a value", options[i].name);
        else take_value(reading, options[i].option, words[1]);
        return has_value && !is_joined ? 2 : 1;
    }
    reading->cause = text_of(reading->is_print ? "--print does not take %s" : "unknown option %s", shown(words[0]));
    return 1;
}

/* Takes what follows + in a word, as other editors take it: nothing for the last line, a number, or a number with a column after
 * a comma or colon, which is passed over. Another command is ignored. */
static void take_plus(struct call *call, const char *word) {
    unsigned long line;
    if (!*word) call->line = last_line;
    else if (line_of_digits(word, strcspn(word, ",:"), &line)) call->line = line <= 1 ? 0 : line;
}

/* Takes FILE's name, of `count` words that are left. A second one, and an empty one are refused; - is standard input. */
static void take_file(struct reading *reading, const char *word, int count) {
    if (reading->file) reading->cause = "only one FILE can be given";
    else if (!reading->is_print && count > 1) reading->cause = "only one FILE can be given, after the options";
    else if (!*word) reading->cause = "the name of FILE is empty";
    else reading->file = word;
}

/* Decides what the options and FILE ask for. */
static void complete_call(struct reading *reading) {
    enum call_kind kind = reading->is_recovery ? CALL_RECOVER : reading->is_forgetting ? CALL_FORGET : CALL_EDIT;
    if (reading->is_print) kind = CALL_PRINT;
    else if (reading->is_recovery && reading->is_forgetting) reading->cause = "--recover and --forget cannot be combined";
    else if (reading->other && reading->file && !reading->is_recovery) reading->cause = "--to needs --recover";
    else if (reading->call->is_sure && kind != CALL_FORGET) reading->cause = "--yes needs --forget";
    else if (kind != CALL_EDIT && reading->file && strcmp(reading->file, "-") == 0) reading->cause = "- is standard input, not a file (./- names a file -)";
    if (kind == CALL_RECOVER && !reading->file && !reading->other) kind = CALL_LIST;
    bool needs_file = kind == CALL_RECOVER || kind == CALL_PRINT || reading->other;
    if (needs_file && !reading->file && !reading->cause) reading->cause = "FILE is missing";
    reading->call->kind = kind;
}

/* Reads the words: options and FILE, with --print in any order, else FILE last. -h, --help and --version end it at once. */
static void take_frames(struct reading *reading, int count, char *const *words) {
    bool may_be_option = true;
    for (int taken; count > 0 && !reading->cause; count -= taken, words += taken) {
        const char *word = words[0];
        bool is_help = strcmp(word, "-h") == 0 || strcmp(word, "--help") == 0, is_plus = *word == '+' && !reading->is_print;
        taken = 1;
        if (!may_be_option || (!is_plus && (*word != '-' || !word[1]))) {
            take_file(reading, word, count);
            if (!reading->is_print) may_be_option = false;
        } else if (strcmp(word, "--") == 0) {
            may_be_option = false;
        } else if (is_plus) {
            take_plus(reading->call, word + 1);
        } else if (!reading->is_print && (is_help || strcmp(word, "--version") == 0)) {
            reading->call->kind = is_help ? CALL_HELP : CALL_VERSION;
            return;
        } else {
            taken = take_option(reading, count, words);
        }
    }
    if (!reading->cause) complete_call(reading);
}

/* The path that an argument names, with ./ in front if it could be taken for an option. */
static const char *word_path(const char *word) {
    return *word == '-' || *word == '+' ? text_of("./%s", word) : word;
}

int read_command_line(int count, char *const *words, struct call *call, const char **cause) {
    struct reading reading = {.call = call};
    call->kind = CALL_EDIT;
    take_frames(&reading, count, words);
    if (reading.cause) {
        *cause = text_of("%s\n%s", reading.cause, reading.is_print ? print_usage : usage);
        return STATUS_NO;
    }
    const char *const names[] = {reading.other, reading.file};
    for (size_t i = 0; i < sizeof names / sizeof *names; i++) {
        if (!names[i] || is_utf8(names[i])) continue;
        *cause = text_of("%s has a name that is not UTF-8: rename it with mv", shown(names[i]));
        return STATUS_FAULT;
    }
    call->is_piped = reading.file && strcmp(reading.file, "-") == 0;
    if (call->is_piped) call->file = reading.is_print ? "/dev/stdin" : NULL;
    else if (reading.file) call->file = word_path(reading.file);
    if (reading.other) call->other = word_path(reading.other);
    return 0;
}

const char *read_option(char *line, struct call *call) {
    static const char blanks[] = " \t\r\n";
    struct call read = *call;
    struct reading reading = {.call = &read};
    char *words[] = {line + strspn(line, blanks), NULL};
    size_t length = strcspn(words[0], blanks);
    if (length == 0 || words[0][0] == '#') return NULL;
    int count = words[0][length] && words[0][length + strspn(words[0] + length, blanks)] ? 2 : 1;
    words[1] = words[0] + length + strspn(words[0] + length, blanks);
    words[0][length] = 0;
    for (length = strlen(words[1]); length > 0 && strchr(blanks, words[1][length - 1]);) words[1][--length] = 0;
    int taken = take_option(&reading, count, words);
    bool is_other = reading.is_recovery || reading.is_forgetting || reading.is_print || reading.other || read.is_sure || read.has_no_options;
    if (!reading.cause && is_other) reading.cause = text_of("%s is only for the command line", words[0]);
    if (!reading.cause && taken < count) reading.cause = text_of("%s takes no value", words[0]);
    if (!reading.cause) *call = read;
    return reading.cause;
}

const char *beginning(const char *path) {
    char words[1023];
    FILE *stream = fopen(path, "re");
    size_t length = stream ? fread(words, 1, sizeof words, stream) : 0;
    if (stream) fclose(stream);
    return length > 0 ? text_of("%.*s", (int)length, words) : NULL;
}

/* The version of Unicode that the first line of DerivedBidiClass.txt names. */
static const char *unicode_version(const char *classes) {
    static const char before[] = "# DerivedBidiClass-";
    const char *line = beginning(classes);
    if (!line || strncmp(line, before, sizeof before - 1) != 0) return "unknown";
    const char *version = line + sizeof before - 1;
    size_t length = strspn(version, "0123456789.");
    while (length > 0 && version[length - 1] == '.') length--;
    return length > 0 ? text_of("%.*s", (int)length, version) : "unknown";
}

const char *version_text(const char *notes, const char *classes) {
    static const char word[] = "\nversion ";
    if (!notes || !*notes) notes = "unknown";
    const char *rest = notes + strcspn(notes, "\n"), *version = strncmp(rest, word, sizeof word - 1) == 0 ? rest + sizeof word - 1 : NULL;
    size_t length = version ? strcspn(version, "\n") : 0;
    const char *told = version ? text_of("%.*s", (int)length, version) : EDITOR_VERSION;
    const char *others = version ? version + length : rest;
    return text_of("bidi-edit %s\ntoolchain %.*s\nUnicode %s\n%s", told, (int)(rest - notes), notes, unicode_version(classes), *others ? others + 1 : "");
}

/* ---- the programs' words and Unicode's tables */

/* Whether a plain file is there that can be read. */
static bool is_readable(const char *path) {
    struct stat look;
    return stat(path, &look) == 0 && S_ISREG(look.st_mode) && access(path, R_OK) == 0;
}

/* Looks for Unicode's files in a folder. Returns false if one of the first three is missing; without the other two, letters are not
 * joined. */
static bool find_tables_in(struct tables *tables, const char *folder) {
    /* Unicode itself publishes this file in a subfolder */
    tables->classes = text_of("%s/extracted/DerivedBidiClass.txt", folder);
    if (!is_readable(tables->classes)) tables->classes = text_of("%s/DerivedBidiClass.txt", folder);
    tables->brackets = text_of("%s/BidiBrackets.txt", folder);
    tables->mirroring = text_of("%s/BidiMirroring.txt", folder);
    tables->joining = text_of("%s/ArabicShaping.txt", folder);
    tables->characters = text_of("%s/UnicodeData.txt", folder);
    if (!is_readable(tables->classes) || !is_readable(tables->brackets) || !is_readable(tables->mirroring)) return false;
    if (!is_readable(tables->joining) || !is_readable(tables->characters)) tables->joining = tables->characters = NULL;
    return true;
}

const char *find_tables(struct tables *tables, const char *own) {
    static const char lacks[] = "lacks DerivedBidiClass.txt, BidiBrackets.txt or BidiMirroring.txt";
    const char *given = variable("BIDI_EDIT_DATA");
    if (given && is_utf8(given) && find_tables_in(tables, given)) return NULL;
    if (given) return text_of("BIDI_EDIT_DATA names %s, which %s: correct or unset it", shown(given), lacks);
    /* the first is of Debian's package unicode-data */
    if (find_tables_in(tables, "/usr/share/unicode") || find_tables_in(tables, own)) return NULL;
    return text_of("%s %s: install the editor again", shown(own), lacks);
}

void add_argument(struct arguments *arguments, const char *word) {
    if (arguments->count + 1 == ARGUMENTS_MOST) tell_no_memory();
    arguments->arguments[arguments->count++] = text_of("%s", word);
    arguments->arguments[arguments->count] = NULL;
}

void add_option(struct arguments *arguments, const char *option, const char *value) {
    add_argument(arguments, option);
    add_argument(arguments, value);
}

void add_tables(struct arguments *arguments, const struct tables *tables, bool is_joined) {
    add_option(arguments, "--classes", tables->classes);
    add_option(arguments, "--brackets", tables->brackets);
    add_option(arguments, "--mirroring", tables->mirroring);
    if (!is_joined || !tables->joining) return;
    add_option(arguments, "--joining", tables->joining);
    add_option(arguments, "--characters", tables->characters);
}
