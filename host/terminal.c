/* The terminal: what it can do, its settings and size, the sequences that the host sends, and pastes. terminal.h says what each call
 * promises. */
#include "terminal.h"

#include <errno.h>
#include <fcntl.h>
#include <signal.h>
#include <stdio.h>
#include <stdlib.h>
#include <string.h>
#include <sys/ioctl.h>
#include <termios.h>
#include <unistd.h>

#include "run.h"
#include "signals.h"
#include "util.h"
#include "command_line.h"

/* The most bytes that wait for the terminal, of a title, and of other sequences; how often to try to change settings. */
enum { MOST_SHOWN = 16384, MOST_TITLE = 4096, MOST_SEQUENCES = 1024, SETTINGS_TRIES = 3 };
/* Milliseconds for writing the first sequences. */
enum { FIRST_MS = 3000 };

/* Modes that the painter requires: arrow keys send CSI, the character set is ASCII, replace mode, origin at the window's top, no scroll
 * region, autowrap (without it tmux joins combining marks to the letter before), a visible cursor, and no reordering by the terminal
 * (ECMA-48: mode 8, BDSM, and SCP, which ends in ` k`). In xterm, Alt with a letter sends ESC and the letter. PASTE: pastes are marked. */
#define MODES "\033[?1l\033(B\017\033[4l\033[?6l\033[r\033[?7h\033[?25h\033[8l\033[1 k\033[?1036h"
#define PASTE "\033[?2004h"
#define END_PASTE "\033[?2004l"

/* xterm and foot tell keys that they would send as the character alone, such as Ctrl with an apostrophe, which is the key W of a Hebrew
 * layout. */
#define KEYS "\033[>4;1m"
#define END_KEYS "\033[>4m"

/* Presses, drags and the wheel are reported (1002), in decimal numbers (1006). The older form ends in three bytes that would be taken for
 * keys, so 1006 is set first and reset last. */
#define MOUSE "\033[?1006h\033[?1002h"
#define END_MOUSE "\033[?1002l\033[?1006l"

/* Modes that shells expect: reordering is on again, and the modes of arrows and Alt are restored where the terminal could save
 * them. */
#define END_MODES "\033[0m\033[?1r\033[?1036r\033[?25h\033[0 k\033[8h"

/* tmux and GNU screen hand these on to the terminal around them, which may be xterm; tmux only if it is set to. */
#define AROUND_TMUX "\033Ptmux;\033\033[?1036s\033\033[?1036h\033\\"
#define END_AROUND_TMUX "\033Ptmux;\033\033[?1036r\033\\"
#define AROUND_SCREEN "\033P\033[?1036s\033[?1036h\033\\"
#define END_AROUND_SCREEN "\033P\033[?1036r\033\\"

/* The cursor is saved too: where nothing was painted, the end of the alternate screen restores it to its place. */
#define SAVED "\0337\033[?1s\033[?1036s"
#define SAVED_TITLE "\033[22;0t"
#define END_TITLE "\033[23;0t"

int terminal_line = -1, terminal_screen = -1;
struct watched *watched;

/* The settings from before, and the host's own. */
static struct termios cooked, raw;
/* `saving` is sent first. The program writes `before`, which is `entering` (it changes the screen) and `titled`, before its first painting.
 * `again` is sent after a SIGSTOP, and `ending` at the end. */
static char saving[MOST_SEQUENCES], entering[MOST_SEQUENCES], titled[MOST_TITLE], before[MOST_SEQUENCES + MOST_TITLE];
static char again[MOST_SEQUENCES], ending[MOST_SEQUENCES];
/* Sequences that wait to be written to the terminal. */
static char waiting[MOST_SHOWN];
static size_t waiting_length;

/* ---- what the terminal can do */

/* OTHER_KIND: any other terminal, or one that is not recognized. */
enum kind { OTHER_KIND, XTERM, KONSOLE, KITTY, QTERMINAL, MLTERM, TERMINOLOGY };
static enum kind kind;
static bool keeps_title;

static const char *value_of(const char *name) {
    const char *value = getenv(name);
    return value ? value : "";
}

static bool begins(const char *name, const char *beginning) {
    return strncmp(value_of(name), beginning, strlen(beginning)) == 0;
}

/* Whether it may be GNU screen. Over ssh only TERM says so, and some users set it to that for tmux too. */
static bool is_screen(void) {
    return variable("STY") || (!variable("TMUX") && begins("TERM", "screen"));
}

/* Finds the kind by TERM, or by the one variable that the terminal sets. A terminal that was started in another one inherits the other's
 * variable, so two variables say nothing; nor does one inside tmux or GNU screen. */
static enum kind find_kind(void) {
    static const struct {
        const char *variable, *program;
        enum kind kind;
    } signs[] = {{"XTERM_VERSION", NULL, XTERM},      {"VTE_VERSION", NULL, OTHER_KIND},         {"KONSOLE_VERSION", NULL, KONSOLE},
                 {"MLTERM", NULL, MLTERM},            {"KITTY_WINDOW_ID", NULL, KITTY},          {"ALACRITTY_WINDOW_ID", NULL, OTHER_KIND},
                 {"INSIDE_EMACS", NULL, OTHER_KIND},  {"TERM_PROGRAM", NULL, OTHER_KIND},        {NULL, "konsole", KONSOLE},
                 {NULL, "kitty", KITTY},              {NULL, "qterminal", QTERMINAL},            {NULL, "mlterm", MLTERM},
                 {NULL, "terminology", TERMINOLOGY}};
    enum kind found = OTHER_KIND;
    int count = 0;
    if (variable("TMUX") || is_screen()) return OTHER_KIND;
    if (begins("TERM", "xterm-kitty")) return KITTY;
    if (!begins("TERM", "xterm") && !begins("TERM", "konsole") && !begins("TERM", "mlterm")) return OTHER_KIND;
    for (size_t i = 0; i < sizeof signs / sizeof *signs; i++) {
        bool is_set = signs[i].variable && variable(signs[i].variable), is_program = signs[i].program && strcmp(value_of("TERM_PROGRAM"), signs[i].program) == 0;
        if (is_set || is_program) found = signs[i].kind;
        count += is_set;
    }
    return count == 1 ? found : OTHER_KIND;
}

/* Whether the terminal can save and restore its title. GNU screen cannot, and hides the terminal around it. */
static bool can_keep_title(void) {
    static const char *const terms[] = {"tmux", "alacritty", "foot", "mlterm", "vte", "xterm-kitty"};
    if (variable("STY")) return false;
    if (variable("TMUX") || kind == TERMINOLOGY) return true;
    for (size_t i = 0; i < sizeof terms / sizeof *terms; i++)
        if (begins("TERM", terms[i])) return true;
    return variable("XTERM_VERSION") || variable("VTE_VERSION");
}

/* Whether the terminal, asked for reports of the mouse in numbers, sends no others. rxvt, xterm before the version 277 and GNU screen
 * before 4.7 know the older form alone, and nothing tells which version of screen it is. The Linux console has no reports. tmux makes the
 * reports itself. */
static bool reports_in_numbers(void) {
    static const char before_number[] = "XTerm(";
    enum { FIRST_XTERM = 277, DECIMAL = 10 };
    if (is_screen() || begins("TERM", "linux")) return false;
    if (variable("TMUX")) return true;
    if (begins("TERM", "rxvt") && !begins("TERM", "rxvt-unicode")) return false;
    if (!begins("XTERM_VERSION", before_number)) return true;
    long number = strtol(value_of("XTERM_VERSION") + sizeof before_number - 1, NULL, DECIMAL);
    return number <= 0 || number >= FIRST_XTERM;
}

/* Most terminals that do not know copies for the system's clipboard ignore them. But GNU screen, rxvt, dvtm and zutty show the end of a
 * long one as text, and a long one ends terminology. tmux reads the copies itself, whatever terminal is around it. */
bool bears_clips(void) {
    bool is_shown = is_screen() || begins("TERM", "rxvt") || begins("TERM", "dvtm") || (variable("ZUTTY_VERSION") && !variable("TMUX"));
    return !is_shown && kind != TERMINOLOGY;
}

/* Whether modified keys are asked for: only of terminals that then send all other keys as before. mlterm, which may have xterm's TERM, sends
 * even capital letters in another form. */
static bool tells_keys(void) {
    return kind == XTERM || (begins("TERM", "foot") && !variable("TMUX") && !variable("STY"));
}

const char *terminal_hint(const char **name) {
    kind = find_kind();
    *name = kind == KITTY ? "kitty" : "qterminal";
    if (kind == KITTY) return "kitty reverses Hebrew and Arabic words: see 'man bidi_edit-terminals'";
    return kind == QTERMINAL ? "qterminal reverses Hebrew and Arabic words: see 'man bidi_edit-terminals'" : NULL;
}

/* ---- the terminal, its size and settings */

bool open_terminal(void) {
    const char *name = "/dev/tty";
    terminal_line = open(name, O_RDWR | O_NONBLOCK | O_NOCTTY | O_CLOEXEC);
    if (terminal_line < 0 && isatty(STDIN_FILENO) && isatty(STDOUT_FILENO)) {
        name = ttyname(STDIN_FILENO);
        if (name) terminal_line = open(name, O_RDWR | O_NONBLOCK | O_NOCTTY | O_CLOEXEC);
    }
    if (!name || terminal_line < 0) return false;
    terminal_screen = open(name, O_RDWR | O_NOCTTY | O_CLOEXEC);
    if (terminal_screen < 0) close_one(&terminal_line);
    return terminal_line >= 0;
}

static unsigned side(unsigned side, unsigned without) {
    return side == 0 ? without : side > LARGEST_SIDE ? LARGEST_SIDE : side;
}

bool measure(struct size *size) {
    struct winsize window = {0};
    bool is_measured = terminal_line >= 0 && ioctl(terminal_line, TIOCGWINSZ, &window) == 0 && window.ws_row > 0 && window.ws_col > 0;
    size->rows = side(window.ws_row, 24);
    size->columns = side(window.ws_col, 80);
    return is_measured;
}

bool note_settings(void) {
    if (tcgetattr(terminal_line, &cooked) != 0) return false;
    /* as `stty raw -echo -iexten` sets them */
    raw = cooked;
    raw.c_iflag &= ~(tcflag_t)(IGNBRK | BRKINT | IGNPAR | PARMRK | INPCK | ISTRIP | INLCR | IGNCR | ICRNL);
    raw.c_iflag &= ~(tcflag_t)(IXON | IXOFF | IXANY | IUCLC | IMAXBEL);
    raw.c_oflag &= ~(tcflag_t)OPOST;
    raw.c_lflag &= ~(tcflag_t)(ICANON | ISIG | ECHO | IEXTEN | XCASE);
    raw.c_cc[VMIN] = 1;
    raw.c_cc[VTIME] = 0;
    return true;
}

unsigned char erase_character(void) {
    return cooked.c_cc[VERASE];
}

/* Sets the settings. A stop may interrupt this, and a failure is tried again, since a terminal left raw is useless for a shell. */
static bool set(const struct termios *settings) {
    for (int tries = 0; tries < SETTINGS_TRIES;) {
        if (tcsetattr(terminal_line, TCSANOW, settings) == 0) return true;
        if (errno != EINTR) tries++;
    }
    return false;
}

/* Other programs set settings that let keys send signals. */
bool is_raw(void) {
    struct termios settings;
    return tcgetattr(terminal_line, &settings) == 0 && !(settings.c_lflag & (tcflag_t)(ICANON | ISIG));
}

bool has_other_settings(void) {
    struct termios settings;
    return !is_raw() && tcgetattr(terminal_line, &settings) == 0 && settings.c_lflag != cooked.c_lflag;
}

void restore_settings(void) {
    signal(SIGTTOU, SIG_IGN);
    set(&cooked);
}

/* ---- the screen */

/* Makes the sequence of a title without control characters, which would end it. */
static void make_title(char text[MOST_TITLE], const char *title) {
    size_t length = (size_t)snprintf(text, MOST_TITLE, "\033]2;");
    for (; *title && length + 2 < MOST_TITLE; title++)
        if ((unsigned char)*title >= ' ' && *title != 127) text[length++] = *title;
    text[length++] = '\a';
    text[length] = 0;
}

void prepare_screen(const char *title, bool has_mouse) {
    kind = find_kind();
    keeps_title = can_keep_title();
    bool is_reported = has_mouse && reports_in_numbers(), tells = tells_keys(), is_tmux = variable("TMUX") && !variable("STY");
    const char *mouse = is_reported ? MOUSE : "", *end_mouse = is_reported ? END_MOUSE : "", *keys = tells ? KEYS : "", *end_keys = tells ? END_KEYS : "";
    const char *around = is_tmux ? AROUND_TMUX : is_screen() ? AROUND_SCREEN : "";
    const char *end_around = is_tmux ? END_AROUND_TMUX : is_screen() ? END_AROUND_SCREEN : "";
    /* these two reorder in spite of the standard modes */
    const char *off = kind == KONSOLE ? "\033]50;BidiRenderingEnabled=false\a" : kind == MLTERM ? "\033]5379;use_ctl=false\a" : "";
    const char *on = kind == KONSOLE ? "\033]50;BidiRenderingEnabled=true\a" : kind == MLTERM ? "\033]5379;use_ctl=true\a" : "";
    if (keeps_title) make_title(titled, title);
    snprintf(saving, sizeof saving, "%s%s", SAVED, keeps_title ? SAVED_TITLE : "");
    snprintf(entering, sizeof entering, "\033[?1049h%s%s%s%s%s%s", MODES, around, off, keys, PASTE, mouse);
    snprintf(before, sizeof before, "%s%s", entering, titled);
    /* 1049 saves the cursor, 1047 keeps the saved one */
    snprintf(again, sizeof again, "\033[?1047h%s%s%s%s%s", MODES, off, keys, PASTE, mouse);
    snprintf(ending, sizeof ending, "%s%s%s%s%s%s\033[?1049l", end_mouse, end_keys, END_MODES, end_around, on, keeps_title ? END_TITLE : "");
}

const char *first_sequences(void) {
    return before;
}

bool begin_screen(void) {
    if (!set(&raw)) return false;
    write_within(terminal_line, saving, strlen(saving), FIRST_MS, false);
    return true;
}

/* Appends a sequence to those that wait for the terminal; one for which there is no room is dropped whole. */
static void show(const char *text) {
    size_t length = strlen(text);
    if (length > sizeof waiting - waiting_length) return;
    for (size_t i = 0; i < length; i++) waiting[waiting_length++] = text[i];
}

void take_up_screen(void) {
    set(&raw);
    show(again);
}

void show_title(const char *title) {
    if (!keeps_title) return;
    make_title(titled, title);
    show(titled);
}

void ring(void) {
    show("\a");
}

void show_last_row(const char *message, unsigned column, bool keeps_cursor) {
    char text[256];
    struct size size;
    measure(&size);
    if (column >= size.columns) return;
    snprintf(text, sizeof text, "%s\033[%u;%uH\033[0m%s%.*s%s", keeps_cursor ? "\0337" : "", size.rows, column, column == 1 ? "\033[K" : "",
             (int)(size.columns - column), message, keeps_cursor ? "\0338" : "");
    show(text);
}

bool is_showing(void) {
    return waiting_length > 0;
}

void go_on_showing(void) {
    ssize_t count = write(terminal_line, waiting, waiting_length);
    if (count < 0 && (errno == EAGAIN || errno == EINTR)) return;
    /* a closed terminal takes nothing any more */
    size_t taken = count < 0 ? waiting_length : (size_t)count;
    waiting_length -= taken;
    memmove(waiting, waiting + taken, waiting_length);
}

void restore_screen(int64_t limit, bool ends_pastes) {
    /* first the rest of a sequence that is partly written */
    if (ends_pastes) show(END_PASTE);
    show(ending);
    write_within(terminal_line, waiting, waiting_length, limit, true);
    waiting_length = 0;
}

void leave_screen(int64_t limit) {
    restore_screen(limit, true);
    set(&cooked);
    watched->is_changed = false;
}

void enter_screen(void) {
    set(&raw);
    watched->is_changed = true;
    /* before the program may paint again */
    const char *const texts[] = {saving, entering, titled};
    for (size_t i = 0; i < sizeof texts / sizeof *texts; i++) write_within(terminal_line, texts[i], strlen(texts[i]), FIRST_MS, false);
}

/* ---- pastes */

void follow_paste(struct paste *paste, const unsigned char *bytes, size_t length) {
    /* ESC [ 2 0 0 ~ and ESC [ 2 0 1 ~, six bytes each */
    static const uint64_t begins_with = 0x1b5b3230307e, ends_with = 0x1b5b3230317e, six_bytes = 0xffffffffffff;
    for (size_t i = 0; i < length; i++) {
        paste->last_bytes = (paste->last_bytes << 8 | bytes[i]) & six_bytes;
        if (paste->last_bytes == begins_with) paste->is_under_way = true;
        if (paste->last_bytes == ends_with) paste->is_under_way = false;
    }
}

void drain_paste(struct paste *paste, int64_t limit) {
    int64_t end = now() + limit;
    while (paste->is_under_way && now() < end) {
        unsigned char bytes[4096];
        int64_t left = end - now();
        struct pollfd wanted = {.fd = terminal_line, .events = POLLIN};
        int count = poll(&wanted, 1, left > PASTE_SILENCE_MS ? PASTE_SILENCE_MS : left > 0 ? (int)left : 0);
        if (count == 0) break;
        ssize_t length = read(terminal_line, bytes, sizeof bytes);
        if (length == 0 || (length < 0 && errno != EAGAIN && errno != EINTR)) return;
        if (length > 0) follow_paste(paste, bytes, (size_t)length);
    }
    if (paste->is_under_way) tcflush(terminal_line, TCIFLUSH);
}
