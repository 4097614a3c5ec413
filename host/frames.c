/* Frames between the host and the program: how the host writes them, and how it tells the program's frames from other text
 * on standard error. frames.h says what each call promises. */
#include "frames.h"

#include <errno.h>
#include <string.h>
#include <unistd.h>


static size_t length_in(const unsigned char *head) {
    return (size_t)head[1] << 8 | head[2];
}

size_t find_frame(const unsigned char *held, size_t length, struct frame *frame) {
    if (length < FRAME_HEAD || length - FRAME_HEAD < length_in(held)) return 0;
    frame->letter = (char)held[0];
    frame->bytes = held + FRAME_HEAD;
    frame->length = length_in(held);
    return FRAME_HEAD + frame->length;
}

bool write_frame(int file, enum frame_letter letter, const void *bytes, size_t length) {
    unsigned char frame[FRAME_HEAD + FRAME_PIECE_MOST] = {(unsigned char)letter, (unsigned char)(length >> 8), (unsigned char)length};
    if (length > FRAME_PIECE_MOST) return false;
    if (length > 0) memcpy(frame + FRAME_HEAD, bytes, length);
    for (;;) {
        ssize_t count = write(file, frame, FRAME_HEAD + length);
        if (count >= 0 || errno != EINTR) return count > 0;
    }
}

/* The length of the frame at the start of these bytes; 0 if they are none; more than `length` if the frame is not complete yet. All frames but
 * one are so short that their second byte is a NUL, so no text looks like them. */
static size_t frame_length(const unsigned char *held, size_t length) {
    static const struct {
        char letter;
        size_t most;
    } limits[] = {{FRAME_OPENED, 0}, {FRAME_JOURNAL, 4}, {FRAME_END, 7}, {FRAME_REPLAYED, 64}, {FRAME_FAULT, FRAME_TEXT_MOST}};
    for (size_t i = 0; i < sizeof limits / sizeof *limits; i++) {
        if ((char)held[0] != limits[i].letter || (length > 1 && held[1] > limits[i].most >> 8)) continue;
        if (length < FRAME_HEAD) return FRAME_HEAD;
        return length_in(held) > limits[i].most ? 0 : FRAME_HEAD + length_in(held);
    }
    return 0;
}

/* Takes the first byte that is held for other text. */
static void drop_byte(struct frame_reader *reader) {
    if (reader->foreign_length < sizeof reader->foreign) reader->foreign[reader->foreign_length++] = (char)reader->bytes[0];
    memmove(reader->bytes, reader->bytes + 1, --reader->length);
}

void take_frames(struct frame_reader *reader, const unsigned char *bytes, size_t length, void (*hear)(const struct frame *, void *),
                void *whose) {
    for (size_t i = 0; i < length; i++) {
        struct frame frame;
        reader->bytes[reader->length++] = bytes[i];
        while (reader->length > 0 && frame_length(reader->bytes, reader->length) == 0) drop_byte(reader);
        if (find_frame(reader->bytes, reader->length, &frame) == 0) continue;
        reader->bytes[reader->length] = 0;
        reader->length = 0;
        hear(&frame, whose);
    }
}

void end_frames(struct frame_reader *reader) {
    while (reader->length > 0) drop_byte(reader);
}

enum end_frame end_frame_of(const char *text) {
    static const char *const words[] = {[END_SAVED] = "saved", [END_UNSAVED] = "unsaved", [END_DROPPED] = "dropped",
                                        [END_INPUT] = "input", [END_OUTPUT] = "output",   [END_READS] = "reads"};
    for (enum end_frame end = END_SAVED; end <= END_READS; end++)
        if (strcmp(text, words[end]) == 0) return end;
    return END_NONE;
}
