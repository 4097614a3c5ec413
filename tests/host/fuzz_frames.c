/* A harness of libFuzzer for what the host reads of the program. The first byte is the size of the pieces in which the rest comes.
 * What is heard and what is no word must be the same in one piece, and no byte may be lost. To build: clang -g -fsanitize=fuzzer,address,undefined
 * -D_GNU_SOURCE tests/host/fuzz_frames.c host/frames.c host/util.c */
#include <stdlib.h>
#include <string.h>

#include "../../host/frames.h"

/* What was heard, as a number, and its bytes with their heads. */
struct heard {
    uint64_t sum;
    size_t length;
};

static void hear(const struct frame *frame, void *whose) {
    struct heard *heard = whose;
    heard->sum = heard->sum * 31 + (unsigned char)frame->letter;
    for (size_t i = 0; i < frame->length; i++) heard->sum = heard->sum * 31 + frame->bytes[i];
    if (frame->bytes[frame->length] != 0) abort();
    heard->length += FRAME_HEAD + frame->length;
    end_frame_of((const char *)frame->bytes);
}

/* Has the reader take all bytes, so many at a time. */
static struct heard take_all(struct frame_reader *reader, const uint8_t *bytes, size_t length, size_t piece) {
    struct heard heard = {0, 0};
    memset(reader, 0, sizeof *reader);
    for (size_t at = 0; at < length; at += piece) take_frames(reader, bytes + at, length - at < piece ? length - at : piece, hear, &heard);
    end_frames(reader);
    return heard;
}

int LLVMFuzzerTestOneInput(const uint8_t *bytes, size_t length);

int LLVMFuzzerTestOneInput(const uint8_t *bytes, size_t length) {
    static struct frame_reader whole, parted;
    if (length < 2) return 0;
    struct heard at_once = take_all(&whole, bytes + 1, length - 1, length);
    struct heard in_pieces = take_all(&parted, bytes + 1, length - 1, (size_t)bytes[0] + 1);
    if (at_once.sum != in_pieces.sum || at_once.length != in_pieces.length || whole.foreign_length != parted.foreign_length) abort();
    if (memcmp(whole.foreign, parted.foreign, whole.foreign_length) != 0) abort();
    if (whole.foreign_length < FOREIGN_MOST && whole.foreign_length + at_once.length != length - 1) abort();
    return 0;
}
