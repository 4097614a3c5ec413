/* Checks frames.c: frames in pipes, and words among other text. Prints the totals; exit status 1: one failed. */
#include <errno.h>
#include <fcntl.h>
#include <stdio.h>
#include <string.h>
#include <unistd.h>

#include "../../host/frames.h"

static int passed, failed;

static void judge(const char *name, bool is_so) {
    if (is_so) passed++;
    else failed++;
    if (!is_so) printf("FAILS %s\n", name);
}

/* Frames that are written to a pipe, and read from it. */
static void judge_pipes(void) {
    static unsigned char room[FRAME_MOST], large[FRAME_PIECE_MOST + 1];
    struct frame frame;
    int ends[2], count = 0;
    if (pipe2(ends, O_CLOEXEC | O_NONBLOCK) != 0) return;
    while (write_frame(ends[1], FRAME_TYPED, large, FRAME_PIECE_MOST)) count++;
    judge("a full pipe takes no frame", count > 0 && errno == EAGAIN);
    for (bool is_whole = true; count > 0 && is_whole; count--) {
        size_t length = FRAME_HEAD + FRAME_PIECE_MOST;
        is_whole = read(ends[0], room, length) == (ssize_t)length && find_frame(room, length, &frame) == length && frame.letter == 'b';
        judge("a frame is written whole", is_whole);
    }
    judge("and nothing of another one", read(ends[0], room, sizeof room) < 0 && errno == EAGAIN);
    judge("an empty frame", write_frame(ends[1], FRAME_DONE, NULL, 0) && read(ends[0], room, FRAME_HEAD) == FRAME_HEAD && room[0] == 'k' && room[1] + room[2] == 0);
    judge("a frame that is too long", !write_frame(ends[1], FRAME_TYPED, large, sizeof large));
    judge("half a frame is none", find_frame((const unsigned char *)"b\0\2x", 4, &frame) == 0);
    close(ends[1]);
    close(ends[0]);
}

static char heard[512];

/* For take_frames: appends a frame to `heard`. */
static void hear(const struct frame *frame, void *whose) {
    (void)whose;
    size_t length = strlen(heard);
    snprintf(heard + length, sizeof heard - length, "%c<%s>", frame->letter, (const char *)frame->bytes);
}

/* What is heard of a text, taken in pieces of this size, and what is none. */
static void judge_texts(const char *text, size_t length, const char *words, const char *foreign, size_t foreign_length) {
    for (size_t piece = 1; piece <= length; piece++) {
        struct frame_reader reader = {.length = 0};
        heard[0] = 0;
        for (size_t at = 0; at < length; at += piece)
            take_frames(&reader, (const unsigned char *)text + at, length - at < piece ? length - at : piece, hear, NULL);
        end_frames(&reader);
        bool is_right = strcmp(heard, words) == 0 && reader.foreign_length == foreign_length &&
                        memcmp(reader.foreign, foreign, foreign_length) == 0;
        judge(words, is_right);
        if (!is_right) printf("  in pieces of %zu: heard %s, foreign %.*s\n", piece, heard, (int)reader.foreign_length, reader.foreign);
    }
}

#define JUDGE_WORDS(text, words, foreign) judge_texts(text, sizeof text - 1, words, foreign, sizeof foreign - 1)

/* Frames and other text on the program's standard error. */
static void judge_readers(void) {
    JUDGE_WORDS("o\0\0j\0\4lost" "e\0\5saved", "o<>j<lost>e<saved>", "");
    JUDGE_WORDS("f\0\14not-utf8 333" "r\0\7known 3", "f<not-utf8 333>r<known 3>", "");
    JUDGE_WORDS("fatal: error\n" "j\0\4kept" "of\n", "j<kept>", "fatal: error\nof\n");
    JUDGE_WORDS("memory e" "e\0\7unsaved", "e<unsaved>", "memory e");
    JUDGE_WORDS("j\0\5lostx", "", "j\0\5lostx");
    JUDGE_WORDS("e\0\5save", "", "e\0\5save");
    JUDGE_WORDS("e\tr\7o\0\0", "o<>", "e\tr\7");
    judge("the words of an end", end_frame_of("saved") == END_SAVED && end_frame_of("reads") == END_READS);
    judge("what is no word of an end", end_frame_of("sav") == END_NONE && end_frame_of("") == END_NONE);
}

int main(void) {
    judge_pipes();
    judge_readers();
    printf("%d passed, %d failed\n", passed, failed);
    return failed > 0;
}
