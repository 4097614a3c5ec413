/* What the host says: texts in memory, names as messages show them, and lines on standard output and error. */
#ifndef SAY_H
#define SAY_H

#include <stdbool.h>
#include <stddef.h>

/* Whether writing a message has a time limit. Set once the program has run; before that a write may wait forever, and any signal
 * ends the host. */
extern bool is_telling_limited;

/* Standard output was closed at the start; the errno of the last failed write to it, 0 if none failed. */
extern bool is_output_closed;
extern int output_fault;

/* Formats a text as printf does. The text is never freed, so this is for messages that are written once. Without memory it ends the
 * host with status 1; so it is called only before the program starts and after it has ended. */
char *text_of(const char *format, ...) __attribute__((format(printf, 1, 2), returns_nonnull));

/* Reports that there is no memory, and ends the host with status 1. */
_Noreturn void tell_no_memory(void);

/* A name of any bytes in a shell's syntax: bare if all its characters are plain, in $'..' with a number in octal for each byte
 * if a terminal would obey or hide one of them or they are not UTF-8, else in quotes. */
char *shown(const char *name) __attribute__((returns_nonnull));

/* The length of the longest beginning that is valid UTF-8; whether a whole text is. */
size_t utf8_length(const char *text, size_t length);
bool is_utf8(const char *text);

/* Writes a line that begins with the program's name to standard output, or to standard error. */
void tell(const char *format, ...) __attribute__((format(printf, 1, 2)));
void warn(const char *format, ...) __attribute__((format(printf, 1, 2)));

/* Writes a text as it is to a file. */
void put_text(int file, const char *text);

#endif
