/* bidi-edit [WORD..]: runs the editor in this terminal, and restores the terminal however the program or it itself ends. */
#include <errno.h>
#include <fcntl.h>
#include <limits.h>
#include <stdbool.h>
#include <stdio.h>
#include <stdlib.h>
#include <string.h>
#include <sys/ioctl.h>
#include <sys/stat.h>
#include <unistd.h>

#include "edit.h"
#include "file.h"
#include "say.h"
#include "signals.h"
#include "terminal.h"
#include "util.h"
#include "command_line.h"

/* Opens standard input, output and error where they are closed, so that no other file gets their numbers. */
static void open_standard_files(void) {
    is_output_closed = fcntl(STDOUT_FILENO, F_GETFD) < 0;
    int file = open("/dev/null", O_RDWR | O_CLOEXEC);
    while (file >= 0 && file <= STDERR_FILENO) {
        fcntl(file, F_SETFD, 0);
        file = open("/dev/null", O_RDWR | O_CLOEXEC);
    }
    if (file >= 0) close(file);
}

/* Cuts the last name off a path; returns false at the root. */
static bool go_up(char *path) {
    char *slash = strrchr(path, '/');
    if (!slash || strcmp(path, "/") == 0) return false;
    slash[slash == path ? 1 : 0] = 0;
    return true;
}

static char *below(const char *folder, const char *name) {
    return text_of("%s/%s", before_slash(folder), name);
}

/* Finds what belongs to this executable, by the executable's own path: the programs and tables of a checkout, or of an installation. */
static bool find_programs(struct programs *programs) {
    static const char built[] = "/host/out";
    char top[PATH_MAX];
    ssize_t own = readlink("/proc/self/exe", top, sizeof top - 1);
    if (own <= 0) return false;
    top[own] = 0;
    if (!go_up(top)) return false;
    /* host/out/bidi-edit in a repository, bin/bidi-edit elsewhere */
    size_t length = strlen(top), tail = sizeof built - 1;
    bool is_repository = length > tail && strcmp(top + length - tail, built) == 0;
    if (is_repository) {
        top[length - tail] = 0;
        is_repository = is_folder(below(top, "crates/bidi_edit"));
        if (!is_repository) top[length - tail] = '/';
    }
    if (!is_repository && !go_up(top)) return false;
    programs->editor = below(top, is_repository ? "crates/bidi_edit/out/bidi_edit" : "lib/bidi_edit/bidi_edit");
    programs->printer = below(top, is_repository ? "crates/bidi_print/out/bidi_print" : "lib/bidi_edit/bidi_print");
    programs->kit = below(top, is_repository ? "crates/bidi_edit/out/kit" : "lib/bidi_edit/kit");
    programs->tables = below(top, is_repository ? "data" : "share/bidi_edit");
    return true;
}

static int refuse(int status, const char *why) {
    warn("%s", why);
    return status;
}

/* ---- print: FILE's rows, which bidi_print writes */

/* Returns why an open text cannot be printed; NULL if it can be. */
static const char *check_text(const char *typed, int text, bool is_plain) {
    static char bytes[LARGEST_TEXT + 1];
    static struct file file;
    ssize_t count = lseek(text, 0, SEEK_SET) == 0 ? read_all(text, bytes, sizeof bytes) : -1;
    size_t length = count > 0 ? (size_t)count : 0, valid = utf8_length(bytes, length);
    unsigned long long text_line = 1;
    for (size_t i = 0; i < valid; i++) text_line += bytes[i] == '\n';
    file.typed = typed;
    file.text = text;
    if (count < 0) return text_of("%s cannot be read: %s", shown(typed), strerror(errno));
    if (length > LARGEST_TEXT) return is_plain ? file_message(&file, CAUSE_TOO_LONG, 0) : text_of("%s has more than the limit of %d bytes", shown(typed), LARGEST_TEXT);
    if (valid == length) return NULL;
    return is_plain ? file_message(&file, check_encoding(&file), text_line) : text_of("%s is not UTF-8 (line %llu)", shown(typed), text_line);
}

/* Opens FILE, or what a pipe or device gives, which is read once, and sets `text`. Returns why FILE cannot be printed, by its kind and
 * permissions, and by its text; NULL if it can be. */
static const char *open_printed(const char *typed, int *text) {
    struct stat look;
    const char *why = NULL;
    if (stat(typed, &look) != 0) why = "does not exist";
    else if (S_ISDIR(look.st_mode)) why = "is a folder: name a file in it";
    else if (S_ISSOCK(look.st_mode)) why = "is a socket, not a text file";
    else if (faccessat(AT_FDCWD, typed, R_OK, AT_EACCESS) != 0) why = "cannot be read: if it is yours, chmod u+r makes it readable";
    if (why) return text_of("%s %s", shown(typed), why);
    bool is_plain = S_ISREG(look.st_mode);
    *text = open(typed, O_RDONLY | O_NOCTTY | O_CLOEXEC | (is_plain ? O_NONBLOCK : 0));
    if (*text >= 0 && !is_plain) read_into_memory(text);
    if (*text < 0) return text_of("%s cannot be read: %s", shown(typed), strerror(errno));
    leave_out_mark(text);
    return check_text(typed, *text, is_plain);
}

/* The columns of a printed row, if the user gives none: those of standard output, if that is a terminal, else those of the terminal or of the
 * variable COLUMNS, else 80. */
static unsigned usual_columns(void) {
    enum { USUAL = 80, DECIMAL = 10 };
    struct winsize window = {0};
    const char *given = variable("COLUMNS");
    unsigned long columns = given ? strtoul(given, NULL, DECIMAL) : 0;
    if (ioctl(STDOUT_FILENO, TIOCGWINSZ, &window) != 0 || window.ws_col == 0) ioctl(terminal_line, TIOCGWINSZ, &window);
    if (window.ws_col > 0) columns = window.ws_col;
    return columns == 0 ? USUAL : columns < LARGEST_SIDE ? (unsigned)columns : LARGEST_SIDE;
}

/* Becomes the printing program, or returns the exit status of a refusal. */
static int print_file(const struct call *call, const struct programs *programs) {
    struct tables tables;
    struct arguments arguments = {.count = 0};
    int text = -1;
    const char *cause = find_tables(&tables, programs->tables);
    if (!cause) cause = open_printed(call->file, &text);
    if (!cause && is_output_closed) cause = "standard output is closed";
    if (cause) return refuse(STATUS_FAULT, cause);
    add_argument(&arguments, programs->printer);
    add_option(&arguments, "--cols", text_of("%u", call->columns > 0 ? call->columns : usual_columns()));
    add_option(&arguments, "--direction", direction_word(call->direction));
    if (call->has_marks) add_argument(&arguments, "--marks");
    add_tables(&arguments, &tables, !call->is_unjoined);
    add_argument(&arguments, link_of(text).path);
    fcntl(text, F_SETFD, 0);
    give_back_signals();
    execv(programs->printer, arguments.arguments);
    return refuse(STATUS_FAULT, text_of("%s cannot be started: %s", programs->printer, strerror(errno)));
}

/* ---- what a command line asks for */

/* Refuses to start where no screen can be made. Returns GO_ON or the exit status. */
static int check_terminal(void) {
    const char *name = variable("TERM");
    if (name && strcmp(name, "dumb") == 0)
        return refuse(STATUS_NO, "the terminal is dumb (TERM=dumb) and cannot move its cursor: use another terminal, or set TERM=xterm if it can");
    return terminal_line >= 0 ? GO_ON : refuse(STATUS_NO, "there is no terminal: start the editor in one (over ssh, use ssh -t)");
}

/* Runs the program with the session that is recovered, or with a new one. */
static int run_editor(struct edit *edit, bool is_taken) {
    int status = is_taken ? resume_session(edit) : begin_session(edit);
    return status == GO_ON ? run_session(edit) : status;
}

/* Warns that an empty text is opened in place of FILE's, and of files that killed saves left. */
static void tell_unusual(const struct opened *opened) {
    if (opened->file.is_unreadable)
        warn("%s cannot be read: the text starts empty, and a save overwrites the file", shown(opened->file.typed));
    const char *leftovers = leftovers_line(&opened->file);
    if (leftovers) warn("%s", leftovers);
}

/* Reads a text from standard input. */
static int read_piped(struct opened *opened) {
    struct stat look;
    const char *why = "- is standard input, and a terminal: give a text by a pipe, as in: something | bidi-edit -";
    if (isatty(STDIN_FILENO)) return refuse(STATUS_NO, why);
    opened->piped = fcntl(STDIN_FILENO, F_DUPFD_CLOEXEC, 3);
    if (opened->piped >= 0) read_into_memory(&opened->piped);
    if (opened->piped < 0 || fstat(opened->piped, &look) != 0) return refuse(STATUS_FAULT, text_of("standard input cannot be read: %s", strerror(errno)));
    opened->has_piped_mark = leave_out_mark(&opened->piped);
    why = check_text("-", opened->piped, false);
    return why ? refuse(STATUS_FAULT, why) : GO_ON;
}

/* A start with FILE: FILE's checks, a terminal, FILE's earlier sessions, and then the program. After a question FILE is checked anew. */
static int edit_file(struct edit *edit) {
    int status = edit->call->is_piped ? read_piped(&edit->opened) : GO_ON;
    if (status == GO_ON) status = check_file(edit->call, &edit->opened);
    if (status == GO_ON) status = check_terminal();
    if (status != GO_ON) return status;
    tell_unusual(&edit->opened);
    /* a session would take the place of what was read */
    status = edit->call->is_piped ? GO_ON : meet_sessions(edit);
    if (status == TAKEN) return run_editor(edit, true);
    /* FILE may have changed meanwhile */
    if (status == ASKED) status = check_file(edit->call, &edit->opened);
    return status == GO_ON ? run_editor(edit, false) : status;
}

/* A start with --recover: the session is taken without asking which; with --to its text is only stored. */
static int edit_recovered(struct edit *edit) {
    if (edit->call->other) return store_session(edit);
    int status = check_terminal();
    if (status == GO_ON) status = recover_session(edit);
    bool is_taken = status == TAKEN;
    if (status == ASKED) status = check_file(edit->call, &edit->opened);
    if (!is_taken && status != GO_ON) return status;
    tell_unusual(&edit->opened);
    return run_editor(edit, is_taken);
}

/* Warns of a variable that is ignored: an XDG_STATE_HOME that is not absolute. */
static void tell_variables(void) {
    const char *state = variable("XDG_STATE_HOME");
    if (state && *state != '/') warn("XDG_STATE_HOME is ignored, since %s is not an absolute path: ~/.local/state is used instead", shown(state));
}

/* Finds the tables and what a replay depends on, which all starts that open FILE need, and starts. */
static int edit_by(const struct call *call, const struct programs *programs) {
    static struct edit edit;
    const char *cause = find_tables(&edit.setup.tables, programs->tables);
    if (cause) return refuse(STATUS_FAULT, cause);
    edit.setup.programs = programs;
    const char *lacking = find_versions(programs, &edit.setup.tables, edit.setup.versions);
    int error = errno;
    if (lacking) return refuse(STATUS_FAULT, text_of("the editor needs %s, which cannot be read: %s", shown(lacking), strerror(error)));
    edit.call = call;
    edit.opened.lost_mode = edit.opened.piped = -1;
    edit.opened.is_view = call->is_view;
    edit.kept.is_joined = !call->is_unjoined && edit.setup.tables.joining;
    session_clear(&edit.kept.session);
    return call->kind == CALL_EDIT ? edit_file(&edit) : edit_recovered(&edit);
}

/* Prints the versions of the editor, of the toolchain that built its programs, and of Unicode's tables, and what else the file kit notes. */
static int tell_version(const struct programs *programs) {
    struct tables tables;
    const char *cause = find_tables(&tables, programs->tables);
    if (cause) return refuse(STATUS_FAULT, cause);
    put_text(STDOUT_FILENO, version_text(beginning(programs->kit), tables.classes));
    return 0;
}

/* Does what the command line asks for. Returns the exit status. */
static int obey(const struct call *call, const struct programs *programs) {
    if (call->kind == CALL_HELP) {
        put_text(STDOUT_FILENO, help_text);
        return 0;
    }
    if (call->kind == CALL_VERSION) return tell_version(programs);
    if (call->kind == CALL_PRINT) return print_file(call, programs);
    tell_variables();
    /* a text without a name can be recovered in no other way */
    if (call->kind == CALL_LIST && (!isatty(STDOUT_FILENO) || terminal_line < 0 || !is_only_nameless())) return list_sessions();
    return call->kind == CALL_FORGET ? forget_sessions(call->file, call->is_sure) : edit_by(call, programs);
}

/* Reads the file of options. A line that is wrong is told, and passed over. */
static void read_options(struct call *call) {
    char line[4096];
    struct stat look;
    const char *config = variable("XDG_CONFIG_HOME"), *home = variable("HOME"), *why = NULL;
    if (!home && (!config || *config != '/')) return;
    const char *path = config && *config == '/' ? text_of("%s/bidi_edit/options", config) : text_of("%s/.config/bidi_edit/options", home);
    int file = open(path, O_RDONLY | O_NONBLOCK | O_NOCTTY | O_CLOEXEC);
    if (file < 0 && (errno == ENOENT || errno == ENOTDIR)) return;
    if (file < 0) why = strerror(errno);
    else if (fstat(file, &look) != 0 || !S_ISREG(look.st_mode)) why = "it is not a plain file";
    else if (look.st_uid != geteuid() && look.st_uid != 0) why = "it belongs to another user";
    FILE *stream = why ? NULL : fdopen(file, "r");
    if (why) warn("the options in %s are ignored: %s", shown(path), why);
    for (unsigned number = 1; stream && fgets(line, sizeof line, stream); number++) {
        why = read_option(line, call);
        if (why) warn("line %u of %s is ignored: %s", number, shown(path), why);
    }
    if (stream) fclose(stream);
    else close_one(&file);
}

/* Reads the command line and obeys it. A fault of standard output, which may be a full disk, makes a success a fault. */
static int obey_command_line(int count, char **words, const struct programs *programs) {
    struct call call = {0}, kept = {0};
    const char *cause;
    int status = read_command_line(count, words, &call, &cause);
    if (status != 0) return refuse(status, cause);
    bool has_options = call.kind == CALL_EDIT || call.kind == CALL_RECOVER || call.kind == CALL_LIST || call.kind == CALL_PRINT;
    if (has_options && !call.has_no_options) {
        read_options(&kept);
        read_command_line(count, words, &kept, &cause);
        call = kept;
    }
    status = obey(&call, programs);
    if (status != 0 || output_fault == 0) return status;
    return refuse(STATUS_FAULT, text_of("standard output cannot be written%s", fault_text(cause_of(output_fault))));
}

int main(int count, char **words) {
    static struct programs programs;
    open_standard_files();
    set_first_signals();
    note_own_argument(words[0]);
    if (access("/proc/self/fd", X_OK) != 0)
        return refuse(STATUS_FAULT, "the editor needs /proc, which is not mounted: mount -t proc proc /proc mounts it");
    if (!find_programs(&programs)) return refuse(STATUS_FAULT, "/proc/self/exe cannot be read, so the editor's other programs cannot be found");
    open_terminal();
    int status = obey_command_line(count - 1, words + 1, &programs);
    listen_once();
    if (end_signal) die_from(end_signal);
    return status;
}
