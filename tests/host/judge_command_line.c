/* The command line, the help, the version, and names as messages show them: tables of cases. Compiled with say.c and command_line.c.
 * Prints the cases that fail and 'N passed, M failed'; exit status 1: a case failed. */
#include <signal.h>
#include <stdbool.h>
#include <stdint.h>
#include <stdio.h>
#include <stdlib.h>
#include <string.h>
#include <unistd.h>

#include "../../host/say.h"
#include "../../host/signals.h"
#include "../../host/command_line.h"

/* What say.c wants of the host. */
volatile sig_atomic_t end_signal;
void write_within(int file, const char *text, size_t length, int64_t limit, bool is_last) {
    (void)limit;
    (void)is_last;
    if (write(file, text, length) < 0) exit(1);
}

static int passed, failed;

static void same(const char *name, const char *found, const char *wanted) {
    bool is_same = strcmp(found, wanted) == 0;
    if (is_same) passed++;
    else failed++;
    if (!is_same) printf("failed %s: %s, not %s\n", name, found, wanted);
}

/* The words of a command line, and what they ask for (the call, its file, direction, line or columns, and each option that is
 * on), or of a refusal the exit status and the cause. A word ~ is empty. 16777217 is the last line of the longest text. */
static const char *const calls[][2] = {
    {"note", "edit note auto"},
    {"--direction rtl --line=12 --force -n --no-joining note", "edit note rtl 12 forced unkept unjoined"},
    {"--no-mouse note", "edit note auto no-mouse"},
    {"--no-clipboard note", "edit note auto no-clipboard"},
    {"-n --no-clipboard --no-mouse +7 note", "edit note auto 7 unkept no-mouse no-clipboard"},
    {"--no-mouse --recover --no-clipboard note", "recover note auto no-mouse no-clipboard"},
    {"+007 note", "edit note auto 7"},
    {"+1 note", "edit note auto"},
    {"+0 note", "edit note auto"},
    {"+ note", "edit note auto 16777217"},
    {"+12,4 note", "edit note auto 12"},
    {"+12:4 note", "edit note auto 12"},
    {"+,4 note", "edit note auto"},
    {"+x -f --wait -w -nw --nofork note", "edit note auto"},
    {"--line=123456789 note", "edit note auto 16777217"},
    {"--line 99999999 note", "edit note auto 99999999"},
    {"--line 0000000000000000000000000007 note", "edit note auto 7"},
    {"--line 18446744073709551617 note", "edit note auto 16777217"},
    {"-- -x", "edit ./-x auto"},
    {"-- +x", "edit ./+x auto"},
    {"./-", "edit ./- auto"},
    {"--recover", "list"},
    {"--recover --to=-o note", "recover note to ./-o auto"},
    {"--recover --to o note", "recover note to o auto"},
    {"--recover -n note", "recover note auto unkept"},
    {"--recover --", "list"},
    {"--forget", "forget"},
    {"--forget note", "forget note"},
    {"--print note --cols 7 --marks", "print note auto 7 marks"},
    {"--print --direction=ltr --no-joining -- -x", "print ./-x ltr unjoined"},
    {"--direction rtl --no-joining --print note", "print note rtl unjoined"},
    {"--print note --", "print note auto"},
    {"--print --cols=500 ./-", "print ./- auto 500"},
    {"-n --help --bad", "help"},
    {"-h", "help"},
    {"--version", "version"},
    {"", "edit - auto"},
    {"--line 5", "edit - auto 5"},
    {"-", "edit - auto piped"},
    {"-- -", "edit - auto piped"},
    {"--view --tab 4 --no-indent note", "edit note auto view unindented tab 4"},
    {"--tab=8 --no-options", "edit - auto tab 8 optionless"},
    {"--forget --yes", "forget sure"},
    {"--yes --forget note", "forget note sure"},
    {"--print --no-options note", "print note auto"},
    {"--tab 9 note", "2 --tab needs a number from 1 to 8, not 9"},
    {"--tab 0", "2 --tab needs a number from 1 to 8, not 0"},
    {"--tab= note", "2 --tab needs a number from 1 to 8, not ''"},
    {"--tab", "2 --tab needs a value"},
    {"--yes note", "2 --yes needs --forget"},
    {"--recover --yes", "2 --yes needs --forget"},
    {"--forget -", "2 - is standard input, not a file (./- names a file -)"},
    {"- note", "2 only one FILE can be given, after the options"},
    {"--print note --view", "2 --print does not take --view"},
    {"one two", "2 only one FILE can be given, after the options"},
    {"one --force", "2 only one FILE can be given, after the options"},
    {"-- one two", "2 only one FILE can be given, after the options"},
    {"--to o", "2 FILE is missing"},
    {"--recover --to o", "2 FILE is missing"},
    {"--forget --to o", "2 FILE is missing"},
    {"~", "2 the name of FILE is empty"},
    {"--line", "2 --line needs a value"},
    {"--to", "2 --to needs a value"},
    {"--line=4x note", "2 --line needs a number, not 4x"},
    {"--line= note", "2 --line needs a number, not ''"},
    {"--line -1 note", "2 --line needs a number, not -1"},
    {"--direction=up note", "2 --direction needs auto, ltr or rtl, not up"},
    {"--bad note", "2 unknown option --bad"},
    {"--no-mouse=yes note", "2 unknown option --no-mouse=yes"},
    {"--no-mous note", "2 unknown option --no-mous"},
    {"--mouse note", "2 unknown option --mouse"},
    {"--clipboard note", "2 unknown option --clipboard"},
    {"--no-clipboards note", "2 unknown option --no-clipboards"},
    {"--print --no-mouse note", "2 --print does not take --no-mouse"},
    {"--print --no-clipboard note", "2 --print does not take --no-clipboard"},
    {"--linen note", "2 unknown option --linen"},
    {"--rows 5 note", "2 unknown option --rows"},
    {"--to= note", "2 the name of OTHER is empty"},
    {"--to=o note", "2 --to needs --recover"},
    {"--forget --to=o note", "2 --to needs --recover"},
    {"--recover --forget note", "2 --recover and --forget cannot be combined"},
    {"--forget --recover", "2 --recover and --forget cannot be combined"},
    {"--print --bad", "2 --print does not take --bad"},
    {"--print note --line 3", "2 --print does not take --line"},
    {"--print note --cols=501", "2 --cols needs a number from 1 to 500, not 501"},
    {"--print note --cols=0001", "2 --cols needs a number from 1 to 500, not 0001"},
    {"--print note --cols 0", "2 --cols needs a number from 1 to 500, not 0"},
    {"--print note --cols=", "2 --cols needs a number from 1 to 500, not ''"},
    {"--print note --cols", "2 --cols needs a value"},
    {"--print", "2 FILE is missing"},
    {"--print f g", "2 only one FILE can be given"},
    {"--print f ~", "2 only one FILE can be given"},
    {"--print ~", "2 the name of FILE is empty"},
    {"--print -", "print /dev/stdin auto"},
    {"--print --marks - --cols 7", "print /dev/stdin auto 7 marks"},
    {"--recover -", "2 - is standard input, not a file (./- names a file -)"},
    {"--recover --to o -", "2 - is standard input, not a file (./- names a file -)"},
    {"--print -- f g", "2 only one FILE can be given"},
    {"--print f -- g", "2 only one FILE can be given"},
    {"f\377", "1 $'f\\377' has a name that is not UTF-8: rename it with mv"},
    {"--recover --to=o\377 f\377", "1 $'o\\377' has a name that is not UTF-8: rename it with mv"},
    {"--to=o\377 --print f", "print f auto"},
};

static const char *options_of(const struct call *call) {
    const char *line = call->line ? text_of(" %lu", call->line) : "";
    const char *more = text_of("%s%s%s%s%s", call->is_view ? " view" : "", call->has_no_indent ? " unindented" : "",
                               call->spaces ? text_of(" tab %u", call->spaces) : "", call->is_piped ? " piped" : "",
                               call->has_no_options ? " optionless" : "");
    return text_of("%s%s%s%s%s%s%s%s", direction_word(call->direction), line, call->is_forced ? " forced" : "",
                   call->is_unkept ? " unkept" : "", call->is_unjoined ? " unjoined" : "", call->has_no_mouse ? " no-mouse" : "",
                   call->has_no_clipboard ? " no-clipboard" : "", more);
}

static const char *text_of_call(const struct call *call) {
    const char *columns = call->columns ? text_of(" %u", call->columns) : "";
    switch (call->kind) {
    case CALL_HELP: return "help";
    case CALL_VERSION: return "version";
    case CALL_LIST: return "list";
    case CALL_FORGET: return text_of("forget%s%s%s", call->file ? " " : "", call->file ? call->file : "", call->is_sure ? " sure" : "");
    case CALL_EDIT: return text_of("edit %s %s", call->file ? call->file : "-", options_of(call));
    case CALL_RECOVER:
        return text_of("recover %s%s%s %s", call->file, call->other ? " to " : "", call->other ? call->other : "", options_of(call));
    case CALL_PRINT:
        return text_of("print %s %s%s%s%s", call->file, direction_word(call->direction), columns, call->has_marks ? " marks" : "",
                       call->is_unjoined ? " unjoined" : "");
    }
    return "";
}

static const char *answer(const char *line) {
    char *words[16], *rest = text_of("%s", line);
    int count = 0;
    for (char *word = strtok_r(rest, " ", &rest); word; word = strtok_r(NULL, " ", &rest)) {
        if (strcmp(word, "~") == 0) *word = 0;
        words[count++] = word;
    }
    struct call call = {0};
    const char *cause = "";
    int status = read_command_line(count, words, &call, &cause);
    return status == 0 ? text_of_call(&call) : text_of("%d %.*s", status, (int)strcspn(cause, "\n"), cause);
}

/* Lines of the file of options, and what they ask for, or why they are passed over. */
static const char *const option_lines[][2] = {
    {"", "auto"},
    {" \t\n", "auto"},
    {"# --bad", "auto"},
    {"  #\n", "auto"},
    {"--tab 4\n", "auto tab 4"},
    {"\t--tab=4 \r\n", "auto tab 4"},
    {"--direction  rtl", "rtl"},
    {"--no-mouse", "auto no-mouse"},
    {"--line 7", "auto 7"},
    {"--tab", "--tab needs a value"},
    {"--tab 4 5", "--tab needs a number from 1 to 8, not '4 5'"},
    {"--no-mouse yes", "--no-mouse takes no value"},
    {"note", "unknown option note"},
    {"--bad", "unknown option --bad"},
    {"--cols 7", "unknown option --cols"},
    {"--recover", "--recover is only for the command line"},
    {"--forget", "--forget is only for the command line"},
    {"--yes", "--yes is only for the command line"},
    {"--print", "--print is only for the command line"},
    {"--to o", "--to is only for the command line"},
    {"--no-options", "--no-options is only for the command line"},
    {"-", "unknown option -"},
    {"--", "unknown option --"},
    {"--help", "unknown option --help"},
};

static const char *answer_to_line(const char *line) {
    struct call call = {0};
    const char *why = read_option(text_of("%s", line), &call);
    return why ? why : options_of(&call);
}

static const char *const names[][2] = {
    {"note", "note"},
    {"a.b/c_d+e,f@g%h:i=j-", "a.b/c_d+e,f@g%h:i=j-"},
    {"", "''"},
    {"a b", "'a b'"},
    {"it's", "'it'\\''s'"},
    {"\xd7\xa9", "'\xd7\xa9'"},
    {"\n", "$'\\012'"},
    {"a'\\\x1b", "$'a\\047\\134\\033'"},
    {"\xe2\x80\x8e" "a", "$'\\342\\200\\216a'"},
    {"\xe2\x80\x8d", "'\xe2\x80\x8d'"},
    {"a\xff" "b'", "$'a\\377b\\047'"},
    {"\xe2\x80\xd7\xa9", "$'\\342\\200\xd7\xa9'"},
    {"\xc0\xaf", "$'\\300\\257'"},
    {"\xed\xa0\x80", "$'\\355\\240\\200'"},
    {"\xf4\x90\x80\x80", "$'\\364\\220\\200\\200'"},
    {"\xf3\xa0\x81\x81", "$'\\363\\240\\201\\201'"},
    {"\xd7", "$'\\327'"},
    {"\xf0\x9f\x98\x80", "'\xf0\x9f\x98\x80'"},
    {"\xc2\x9b", "$'\\302\\233'"},
};

/* The first line of DerivedBidiClass.txt, and the version of Unicode. */
static const char *const versions[][2] = {
    {"# DerivedBidiClass-17.0.0.txt\n", "17.0.0"},
    {"# DerivedBidiClass-17.txt", "17"},
    {"# DerivedBidiClass-.txt", "unknown"},
    {"# BidiBrackets-17.0.0.txt", "unknown"},
    {"", "unknown"},
};

static void check_version(const char *first_line, const char *wanted) {
    char path[] = P_tmpdir "/judge_command_line.XXXXXX";
    int file = mkstemp(path);
    if (file < 0 || write(file, first_line, strlen(first_line)) < 0) exit(1);
    close(file);
    same(first_line, version_text(NULL, path), text_of("bidi-edit " EDITOR_VERSION "\ntoolchain unknown\nUnicode %s\n", wanted));
    unlink(path);
}

/* The help fits a window of 24 rows with the shell's next prompt. */
static void check_help(void) {
    size_t lines = 0, longest = 0;
    for (const char *line = help_text; *line; line += strcspn(line, "\n") + 1) {
        lines++;
        if (strcspn(line, "\n") > longest) longest = strcspn(line, "\n");
    }
    same("help", text_of("%zu %d", lines, longest <= 80), "23 1");
}

int main(void) {
    for (size_t i = 0; i < sizeof calls / sizeof *calls; i++) same(calls[i][0], answer(calls[i][0]), calls[i][1]);
    for (size_t i = 0; i < sizeof option_lines / sizeof *option_lines; i++) same(option_lines[i][0], answer_to_line(option_lines[i][0]), option_lines[i][1]);
    for (size_t i = 0; i < sizeof names / sizeof *names; i++) same(names[i][1], shown(names[i][0]), names[i][1]);
    for (size_t i = 0; i < sizeof versions / sizeof *versions; i++) check_version(versions[i][0], versions[i][1]);
    same("no file of classes", version_text("a kit", "/nowhere/x"), "bidi-edit " EDITOR_VERSION "\ntoolchain a kit\nUnicode unknown\n");
    same("a line of the toolchain", version_text("a kit\n", "/nowhere/x"), "bidi-edit " EDITOR_VERSION "\ntoolchain a kit\nUnicode unknown\n");
    same("notes of an installation", version_text("a kit\nversion 1.2~git3\nprograms of dist/\nmore\n", "/nowhere/x"),
         "bidi-edit 1.2~git3\ntoolchain a kit\nUnicode unknown\nprograms of dist/\nmore\n");
    same("notes without a version", version_text("a kit\nprograms of dist/\n", "/nowhere/x"),
         "bidi-edit " EDITOR_VERSION "\ntoolchain a kit\nUnicode unknown\nprograms of dist/\n");
    check_help();
    printf("%d passed, %d failed\n", passed, failed);
    return failed > 0;
}
