/* A harness of libFuzzer for command lines and names. Words are parted by NUL. What is read of them must keep its bounds, each name in
 * a message must be what a shell reads back as the name, and no message may have a byte that a terminal obeys. To build: clang -g
 * -fsanitize=fuzzer,address,undefined -D_GNU_SOURCE tests/host/fuzz_command_line.c host/command_line.c host/util.c */
#include "../../host/say.c"
#include "../../host/command_line.h"

volatile sig_atomic_t end_signal;

void write_within(int file, const char *text, size_t length, int64_t limit, bool is_last) {
    (void)file;
    (void)text;
    (void)length;
    (void)limit;
    (void)is_last;
}

enum { MOST = 64 };

static void forget_texts(void) {
    while (texts) {
        struct text *next = texts->next;
        free(texts);
        texts = next;
    }
}

/* What a shell reads as this word, in place. */
static void unquote(char *word) {
    char *to = word;
    bool is_numbered = strncmp(word, "$'", 2) == 0, is_quoted = is_numbered;
    for (char *at = word + (is_numbered ? 2 : 0); *at; at++) {
        if (*at == '\'') is_quoted = !is_quoted;
        else if (*at != '\\') *to++ = *at;
        else if (!is_quoted) *to++ = *++at;
        else if (!is_numbered) *to++ = *at;
        else {
            *to++ = (char)((unsigned)(at[1] - '0') << 6 | (unsigned)(at[2] - '0') << 3 | (unsigned)(at[3] - '0'));
            at += 3;
        }
    }
    *to = 0;
}

/* No byte is a control character but line ends, and all are UTF-8. */
static void check_message(const char *text) {
    if (!is_utf8(text)) abort();
    for (; *text; text++)
        if (((unsigned char)*text < ' ' && *text != '\n') || *text == 127) abort();
}

/* A name in a message is one line, and a shell reads it as the name again. */
static void check_name(const char *name) {
    char *word = shown(name);
    check_message(word);
    if (strchr(word, '\n')) abort();
    unquote(word);
    if (strcmp(word, name) != 0) abort();
}

int LLVMFuzzerTestOneInput(const uint8_t *bytes, size_t length);

int LLVMFuzzerTestOneInput(const uint8_t *bytes, size_t length) {
    static char copy[4096];
    char *words[MOST];
    int count = 0;
    if (length >= sizeof copy) return 0;
    memcpy(copy, bytes, length);
    copy[length] = 0;
    for (size_t at = 0; at < length && count < MOST; at += strlen(copy + at) + 1) words[count++] = copy + at;
    struct call call = {0};
    const char *cause = NULL;
    int status = read_command_line(count, words, &call, &cause);
    if (status < 0 || status > 2 || (status == 0) != (cause == NULL)) abort();
    if (cause) check_message(cause);
    if (status == 0 && (call.columns > LARGEST_SIDE || call.line > 99999999 || call.direction > DIRECTION_RTL)) abort();
    if (status == 0 && call.file && (!*call.file || *call.file == '-' || *call.file == '+' || !is_utf8(call.file))) abort();
    if (status == 0 && !call.file && (call.kind == CALL_EDIT || call.kind == CALL_RECOVER || call.kind == CALL_PRINT)) abort();
    for (int i = 0; i < count; i++) check_name(words[i]);
    forget_texts();
    return 0;
}
