/* Frames, the messages between the host and the program: a letter, a length in two bytes, the higher one first, and that many
 * bytes. The crates bx_input and bx_store have the same letters. */
#ifndef FRAMES_H
#define FRAMES_H

#include <stdbool.h>
#include <stddef.h>
#include <stdint.h>

enum frame_letter {
    /* To the program's standard input. TYPED: bytes as the terminal gave them. SIZE: rows and columns, two bytes each, the higher
     * one first. IDLE: nothing followed typed bytes for IDLE_MS. NOTICE: the number of a notice. */
    FRAME_TYPED = 'b',
    FRAME_SIZE = 'z',
    FRAME_IDLE = 'i',
    FRAME_NOTICE = 'n',
    /* From the program's standard error. OPENED: FILE was read and can be edited. FAULT: KIND or KIND VALUE. JOURNAL: `lost` or `kept`.
     * REPLAYED: WORD KEYS. END: the last frame, a word of enum end_frame. */
    FRAME_OPENED = 'o',
    FRAME_FAULT = 'f',
    FRAME_JOURNAL = 'j',
    FRAME_REPLAYED = 'r',
    FRAME_END = 'e',
    /* A save, from the program. BEGIN and COMMIT are answered; PIECE, bytes of the text, is not. BEGIN has no bytes; or `o`: the save may
     * go over the change of FILE that was told last; or `n` and a path: it goes to that path, where nothing may be. */
    FRAME_BEGIN = 'B',
    FRAME_PIECE = 'P',
    FRAME_COMMIT = 'C',
    /* The host's answers: done; failed, with one byte of enum cause. */
    FRAME_DONE = 'k',
    FRAME_FAILED = 'x',
};

/* What the program shows in its last row, by number. NOTICE_NONE shows nothing, but like all input it makes the program try its journal
 * again. */
enum notice {
    NOTICE_NONE,
    NOTICE_NO_SPACE,
    NOTICE_FOLDER_GONE,
    NOTICE_NOT_PERMITTED,
    NOTICE_READ_ONLY,
    NOTICE_UNKEPT,
    NOTICE_KEPT_AGAIN,
    NOTICE_RECOVERED,
    NOTICE_RECOVERED_ASIDE,
    NOTICE_IN_PLACE,
};

/* The first byte of a BEGIN that has bytes. */
enum { BEGIN_OVER = 'o', BEGIN_AS = 'n' };

/* How the program ended, by its last frame. SAVED: all is saved. UNSAVED: the input ended with unsaved changes. DROPPED: the user
 * dropped them. INPUT, OUTPUT: an error of input or output. READS: more reads than can be counted. NONE: it did not say. */
enum end_frame { END_NONE, END_SAVED, END_UNSAVED, END_DROPPED, END_INPUT, END_OUTPUT, END_READS };

/* FRAME_HEAD: the bytes of letter and length. FRAME_TEXT_MOST: the most bytes of a frame on standard error. They are so few that the
 * second byte of a frame is a control character, so no other text looks like a frame. */
enum { FRAME_HEAD = 3, FRAME_MOST = 65535, FRAME_PIECE_MOST = 1024, FRAME_TEXT_MOST = 2047 };

struct frame {
    char letter;
    const unsigned char *bytes;
    size_t length;
};

/* Gives the frame at the start of these bytes. Returns its length including its head, or 0 if it is not complete. */
size_t find_frame(const unsigned char *held, size_t length, struct frame *frame);

/* Writes one frame of at most FRAME_PIECE_MOST bytes to a pipe: all of it, or, where the pipe does not block and has no room, nothing. Returns false
 * if it was not written; errno is EAGAIN without room. */
bool write_frame(int file, enum frame_letter letter, const void *bytes, size_t length);

/* Reads the program's standard error: frames, and other text, such as a crash message, of which the first bytes
 * are kept as `foreign`. */
enum { FOREIGN_MOST = 4096 };
struct frame_reader {
    unsigned char bytes[FRAME_HEAD + FRAME_TEXT_MOST + 1];
    size_t length, foreign_length;
    char foreign[FOREIGN_MOST];
};

/* Adds bytes, and calls `hear` for each frame that is complete. The frame's bytes, followed by a NUL, are valid only during the call. */
void take_frames(struct frame_reader *reader, const unsigned char *bytes, size_t length, void (*hear)(const struct frame *, void *),
                 void *whose);

/* Called at the end of standard error: bytes that are no complete frame count as other text. */
void end_frames(struct frame_reader *reader);

/* The end that the text of such a frame names. */
enum end_frame end_frame_of(const char *text);

#endif
