/* Questions to the user, and lists of sessions. edit.h says what each call promises. */
#include <ctype.h>
#include <errno.h>
#include <poll.h>
#include <stdio.h>
#include <string.h>
#include <termios.h>
#include <unistd.h>

#include "edit.h"
#include "say.h"
#include "terminal.h"
#include "util.h"

/* Asks once. What was typed before the question is no answer to it, and is dropped. Returns the line without blanks around it and in small
 * letters; NULL where the input ends. */
static char *ask(const char *question) {
    static char line[4096];
    char *answer = line;
    tcflush(terminal_line, TCIFLUSH);
    put_text(terminal_line, text_of("%s ", question));
    for (size_t length = 0; length + 1 < sizeof line && (length == 0 || line[length - 1] != '\n');) {
        struct pollfd wanted = {.fd = terminal_line, .events = POLLIN};
        ssize_t count = read(terminal_line, line + length, sizeof line - 1 - length);
        /* signals end the host here, since none is caught yet */
        if (count < 0 && (errno == EAGAIN || errno == EINTR)) poll(&wanted, 1, -1);
        else if (count <= 0) answer = NULL;
        if (!answer) break;
        length += count > 0 ? (size_t)count : 0;
        line[length] = 0;
    }
    if (!answer) {
        put_text(terminal_line, "\n");
        return NULL;
    }
    while (isspace((unsigned char)*answer)) answer++;
    for (char *at = answer; *at; at++) *at = *at >= 'A' && *at <= 'Z' ? (char)(*at - 'A' + 'a') : *at;
    for (size_t length = strlen(answer); length > 0 && isspace((unsigned char)answer[length - 1]);) answer[--length] = 0;
    put_letters_of_keys(answer);
    return answer;
}

/* Asks until the answer is one of two words. Returns 0 or 1, or -1 where the input ends. */
static int ask_either(const char *question, const char *one, const char *other) {
    for (const char *answer = ask(question); answer; answer = ask(question)) {
        if (is_word(answer, one)) return 0;
        if (is_word(answer, other)) return 1;
    }
    return -1;
}

bool ask_to_go_on(const char *question) {
    return ask_either(text_of("%s (yes, no)?", question), "yes", "no") == 0;
}

enum beside ask_what_beside(void) {
    static const char question[] = "Edit it anyway (yes, no, view)?";
    for (const char *answer = ask(question); answer; answer = ask(question)) {
        if (is_word(answer, "yes")) return BESIDE_YES;
        if (is_word(answer, "view")) return BESIDE_VIEW;
        if (is_word(answer, "no")) return BESIDE_NO;
    }
    return BESIDE_NO;
}

/* Asks for the word that deletes, or for a digit that stands in the question, which no slip types. Returns 0 for these, 1 at any other answer,
 * or -1 where the input ends. */
static int ask_to_delete(void) {
    char digit[2] = "";
    make_letters(digit, 1, "23456789");
    const char *answer = ask(text_of("To delete this for good, type delete or %s:", digit));
    if (!answer) return -1;
    return strcmp(answer, "delete") != 0 && (!*digit || strcmp(answer, digit) != 0);
}

enum choice ask_choice(void) {
    static const char question[] = "[r]ecover, [d]elete for good, [l]ater?";
    for (const char *answer = ask(question); answer; answer = ask(question)) {
        enum choice choice = choice_of(answer);
        int sure = choice == CHOICE_ASK_AGAIN ? ask_to_delete() : 1;
        if (sure < 0) return CHOICE_NONE;
        if (sure == 0) return CHOICE_DELETE;
        if (choice != CHOICE_ASK_AGAIN && choice != CHOICE_NONE) return choice;
    }
    return CHOICE_NONE;
}

enum rest ask_rest(void) {
    int rest = ask_either("Open the file and leave the session, or keep its parts as files next to it (open, keep)?", "open", "keep");
    return rest < 0 ? REST_NONE : rest == 0 ? REST_OPEN : REST_KEEP;
}

/* ---- the list of all sessions, and their removal */

const char *time_text(const struct session *session) {
    struct timespec time;
    char words[32];
    if (!session_changed(session, &time)) return "an unknown time";
    format_time(&time, words);
    return text_of("%s", words);
}

const char *machine_text(const struct session *session) {
    const struct process *process = &session->about.process;
    if (!session->about.has_process) return "unknown";
    return strcmp(process->machine, this_process()->machine) == 0 ? NULL : shown(process->machine);
}

/* A session's FILE, as it is listed. */
static const char *path_shown(const char *path) {
    return path[1] ? shown(path) : NO_NAME;
}

/* Lists a session, if it can be recovered, and notes what is not merely unfinished. */
static bool list_session(const struct session *session) {
    enum session_state state = session_state(session);
    const char *machine = machine_text(session), *note = state == SESSION_DROPPED ? " (dropped)" : "";
    if (!session_has_something(session)) return false;
    if (session_has(session, BACKUP_NAME)) note = " (a save was interrupted)";
    if (state == SESSION_ELSEWHERE) note = text_of(" (on %s)", machine ? machine : THIS_MACHINE);
    if (state == SESSION_LIVE) note = " (open now)";
    put_text(STDOUT_FILENO, text_of("%s  keys: %zu  KB: %llu  %s%s\n", time_text(session), session_count_keys(session),
                                    (unsigned long long)session_kilobytes(session), path_shown(session->about.path), note));
    return true;
}

/* Finds the folder of sessions. Warns if others could change it; then it is not used. */
static void find_sessions(struct sessions *sessions) {
    enum notice notice;
    sessions_find(sessions);
    if (sessions->state == FOLDER_DISTRUSTED) warn("a folder of sessions is ignored: %s", unkept_by(sessions, &notice));
}

int list_sessions(void) {
    struct sessions sessions;
    struct walk walk;
    size_t listed = 0;
    find_sessions(&sessions);
    walk_begin(&walk, &sessions);
    while (walk_next_own(&walk)) listed += list_session(&walk.session);
    walk_end(&walk);
    sessions_close(&sessions);
    if (listed == 0) tell("there are no sessions to recover");
    return 0;
}

bool is_only_nameless(void) {
    struct sessions sessions;
    struct walk walk;
    size_t named = 0, nameless = 0;
    find_sessions(&sessions);
    walk_begin(&walk, &sessions);
    while (walk_next_own(&walk)) {
        bool is_here = session_has_something(&walk.session);
        enum session_state state = is_here ? session_state(&walk.session) : SESSION_EMPTY;
        bool has_no_name = !walk.session.about.path[1] && (state == SESSION_UNFINISHED || state == SESSION_DROPPED);
        nameless += has_no_name;
        named += is_here && !has_no_name;
    }
    walk_end(&walk);
    sessions_close(&sessions);
    return nameless == 1 && named == 0;
}

/* How many sessions are to be removed, were removed, and could not be. */
struct counts {
    size_t asked, removed, kept;
};

/* For sessions_forget: tells which session is to be removed, or what became of it, and counts it. */
static void tell_forgotten(void *context, const struct forgotten *forgotten) {
    struct counts *counts = context;
    char time[32] = "";
    if (forgotten->has_time) format_time(&forgotten->changed, time);
    const char *name = text_of("the session of %s%s%s", path_shown(forgotten->path), *time ? " from " : "", time);
    counts->asked += forgotten->is_asked;
    if (forgotten->is_asked) {
        tell("%s has unsaved text%s", name, forgotten->was_dropped ? " (dropped)" : "");
        return;
    }
    if (forgotten->cause) warn("%s cannot be deleted%s", name, fault_text(forgotten->cause));
    else tell("%s is deleted%s", name, forgotten->was_dropped ? " (dropped)" : "");
    counts->kept += forgotten->cause != 0;
    counts->removed += forgotten->cause == 0;
}

/* Lists what has unsaved text, and asks for the word. Returns GO_ON or the exit status. */
static int ask_to_forget(const struct sessions *sessions, const struct target *target) {
    struct counts counts = {0};
    sessions_forget(sessions, target, false, tell_forgotten, &counts);
    if (counts.asked == 0) return GO_ON;
    if (terminal_line < 0) {
        warn("--forget asks before it deletes unsaved text, and there is no terminal: --forget --yes deletes it unasked");
        return STATUS_NO;
    }
    return ask_to_delete() == 0 ? GO_ON : STATUS_NO;
}

/* Of FILE, also those go that another name of it has. */
int forget_sessions(const char *typed, bool is_sure) {
    static struct opened opened;
    struct counts counts = {0};
    int status = typed ? find_file(&opened, typed, true) : GO_ON;
    if (status != GO_ON) return status;
    if (!typed) find_sessions(&opened.sessions);
    const struct target *target = typed ? &opened.target : NULL;
    if (!is_sure) status = ask_to_forget(&opened.sessions, target);
    if (status == GO_ON) sessions_forget(&opened.sessions, target, true, tell_forgotten, &counts);
    if (typed) close_opened(&opened);
    else sessions_close(&opened.sessions);
    if (status != GO_ON) return status;
    if (counts.removed + counts.kept == 0 && typed) tell("there is no session of %s to delete", shown(typed));
    if (counts.removed + counts.kept == 0 && !typed) tell("there are no sessions to delete");
    return counts.kept > 0 ? STATUS_FAULT : 0;
}
