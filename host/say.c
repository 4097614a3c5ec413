/* What the host says: texts in memory, names quoted for a shell so that no terminal obeys them, and lines on standard output and error.
 * say.h says what each call promises. */
#include "say.h"

#include <errno.h>
#include <poll.h>
#include <stdarg.h>
#include <stdint.h>
#include <stdio.h>
#include <stdlib.h>
#include <string.h>
#include <unistd.h>

#include "signals.h"

/* Milliseconds that a message may take after the program has run: usually, and after a signal. */
enum { TELLING_MS = 10000, TELLING_BY_SIGNAL_MS = 1000 };

/* All texts, in a list that is never freed. */
struct text {
    struct text *next;
    char bytes[];
};

static struct text *texts;
bool is_telling_limited, is_output_closed;
int output_fault;

/* Writes all of a text, for as long as it takes. Returns false at a fault. */
static bool put_whole(int file, const char *text, size_t length) {
    while (length > 0) {
        struct pollfd room = {.fd = file, .events = POLLOUT};
        ssize_t count = write(file, text, length);
        if (count < 0 && errno == EAGAIN) poll(&room, 1, -1);
        else if (count < 0 && errno != EINTR) return false;
        if (count <= 0) continue;
        text += count;
        length -= (size_t)count;
    }
    return true;
}

void put_text(int file, const char *text) {
    if (file == STDOUT_FILENO && is_output_closed) output_fault = EBADF;
    else if (is_telling_limited) write_within(file, text, strlen(text), end_signal ? TELLING_BY_SIGNAL_MS : TELLING_MS, true);
    else if (!put_whole(file, text, strlen(text)) && file == STDOUT_FILENO) output_fault = errno;
}

void tell_no_memory(void) {
    put_text(STDERR_FILENO, "bidi-edit: out of memory\n");
    exit(1);
}

/* New memory for a text, which stays in a list until the host's end. Without memory the host ends. */
static char *room_for(size_t length) {
    struct text *text = length < SIZE_MAX - sizeof *text ? malloc(sizeof *text + length + 1) : NULL;
    if (!text) tell_no_memory();
    text->next = texts;
    texts = text;
    text->bytes[0] = 0;
    return text->bytes;
}

/* Formats a text into new memory. `values` is read twice: for the length, and for the text. */
static char *text_by(const char *format, va_list *values) {
    va_list again;
    va_copy(again, *values);
    int length = vsnprintf(NULL, 0, format, again);
    va_end(again);
    char *text = room_for(length < 0 ? 0 : (size_t)length);
    if (length > 0) vsnprintf(text, (size_t)length + 1, format, *values);
    return text;
}

char *text_of(const char *format, ...) {
    va_list values;
    va_start(values, format);
    char *text = text_by(format, &values);
    va_end(values);
    return text;
}

void tell(const char *format, ...) {
    va_list values;
    va_start(values, format);
    put_text(STDOUT_FILENO, text_of("bidi-edit: %s\n", text_by(format, &values)));
    va_end(values);
}

void warn(const char *format, ...) {
    va_list values;
    va_start(values, format);
    put_text(STDERR_FILENO, text_of("bidi-edit: %s\n", text_by(format, &values)));
    va_end(values);
}

/* The bytes of the character in UTF-8 that a text begins with, and the character; 0 where it begins with none. A character in more bytes than
 * it needs, half of a pair of UTF-16 and one beyond U+10FFFF are none. */
static size_t character_at(const char *text, size_t length, uint32_t *character) {
    static const uint32_t least[] = {0, 0, 0x80, 0x800, 0x10000};
    unsigned char first = length > 0 ? (unsigned char)text[0] : 0;
    size_t count = first < 0x80 ? 1 : first < 0xC0 ? 0 : first < 0xE0 ? 2 : first < 0xF0 ? 3 : first < 0xF8 ? 4 : 0;
    if (length == 0 || count == 0 || length < count) return 0;
    uint32_t c = count == 1 ? first : first & (0xFFu >> (count + 1));
    for (size_t i = 1; i < count; i++) {
        if (((unsigned char)text[i] & 0xC0) != 0x80) return 0;
        c = c << 6 | ((unsigned char)text[i] & 0x3F);
    }
    *character = c;
    return c < least[count] || (c >= 0xD800 && c <= 0xDFFF) || c > 0x10FFFF ? 0 : count;
}

size_t utf8_length(const char *text, size_t length) {
    uint32_t character;
    for (size_t at = 0, count; at < length; at += count) {
        count = character_at(text + at, length - at, &character);
        if (count == 0) return at;
    }
    return length;
}

bool is_utf8(const char *text) {
    return utf8_length(text, strlen(text)) == strlen(text);
}

/* Whether a terminal would obey a character, change direction by it or show it without a column. The ranges are those of
 * crates/bx_command/specs/shared/Shown.antt. The joiners, which Persian words need, do not count. */
static bool is_hidden(uint32_t c) {
    static const struct {
        uint32_t first, last;
    } ranges[] = {{0, 0x1F}, {0x7F, 0x9F}, {0xAD, 0xAD}, {0x61C, 0x61C}, {0x180E, 0x180E}, {0x200B, 0x200B}, {0x200E, 0x200F},
                  {0x2028, 0x202E}, {0x2060, 0x206F}, {0xFEFF, 0xFEFF}, {0xFFF9, 0xFFFB}, {0x13430, 0x1343F}, {0x1BCA0, 0x1BCA3},
                  {0x1D173, 0x1D17A}, {0xE0000, 0xE0FFF}};
    for (size_t i = 0; i < sizeof ranges / sizeof *ranges; i++)
        if (c >= ranges[i].first && c <= ranges[i].last) return true;
    return false;
}

static bool is_plain(uint32_t c) {
    static const char marks[] = "_./+,@%:=-";
    return (c >= '0' && c <= '9') || (c >= 'A' && c <= 'Z') || (c >= 'a' && c <= 'z') || (c != 0 && c < 0x80 && strchr(marks, (int)c));
}

char *shown(const char *name) {
    size_t length = strlen(name);
    bool is_numbered = false, is_quoted = length == 0;
    uint32_t c = 0;
    for (size_t i = 0, count; i < length && !is_numbered; i += count) {
        count = character_at(name + i, length - i, &c);
        is_numbered = count == 0 || is_hidden(c);
        is_quoted = is_quoted || is_numbered || !is_plain(c);
    }
    /* a byte takes four letters at most */
    char *text = room_for(4 * length + 4), *at = stpcpy(text, is_numbered ? "$'" : is_quoted ? "'" : "");
    for (size_t i = 0, count; i < length; i += count) {
        count = character_at(name + i, length - i, &c);
        bool is_number = is_numbered && (count == 0 || is_hidden(c) || c == '\'' || c == '\\');
        if (count == 0) count = 1;
        for (size_t j = i; j < i + count; j++) {
            unsigned byte = (unsigned char)name[j];
            if (is_number) at += sprintf(at, "\\%03o", byte);
            else if (byte == '\'') at = stpcpy(at, "'\\''");
            else *at++ = name[j];
        }
    }
    if (is_quoted) *at++ = '\'';
    *at = 0;
    return text;
}
