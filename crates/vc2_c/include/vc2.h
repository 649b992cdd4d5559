/* An encoder, a decoder and a checker of VC-2 low delay streams: the program vc2 as one function over memory.
 *
 * vc2_run keeps nothing from one call to the next and starts no thread, so threads may call it at the same time. Memory that is
 * handed over stays the caller's; what a call takes by malloc it has given back when it returns. Its contract is proved; what
 * the caller owes, below, is checked by nobody, and no proof covers the inline functions of this file. */
#ifndef VC2_H
#define VC2_H

#include <stddef.h>
#include <stdint.h>
#include <stdio.h>
#include <string.h>

#ifdef __cplusplus
extern "C" {
#endif

/* How a call ends: the exit status of the program. */
enum {
    VC2_OK = 0,        /* all was done */
    VC2_REFUSED = 1,   /* the input is refused, or the schedule does not run: the note says where and why */
    VC2_USAGE = 2,     /* the words are refused: the note says which and why */
    VC2_NO_ROOM = 4,   /* out is too small for the output, or note for the note: that room is full */
    VC2_NO_MEMORY = 5, /* no memory was found */
    VC2_NOT_TEXT = 6   /* the words are not UTF-8 */
};

/* Room for any note of this version. */
#define VC2_NOTE_ROOM 256

/* The bytes of a unit's head; an end unit has no others. */
#define VC2_HEAD_SIZE 13

/* Byte 4 of a unit: what it is. */
enum { VC2_HEADER = 0x00, VC2_END = 0x10, VC2_AUXILIARY = 0x20, VC2_PADDING = 0x30, VC2_PICTURE = 0xC8 };

/* Does what the program does with these words and this input. The words are those behind the program's name, in UTF-8, with one
 * space between two: "decode", "check rate=1561/24 delay=2 buffer=130".
 *
 * What the program would write to its output goes to out, and its note, at most a line with a line feed at its end, to note.
 * *out_len and *note_len count the bytes, from the front of each room.
 *   VC2_OK, VC2_REFUSED, VC2_USAGE: all of both texts. A refused input has the output of what stands before the refusal.
 *   VC2_NO_ROOM: one text has more bytes than its room. Either out is full of the first bytes of the output, and the note has
 *     none; or out has all of the output, and note is full of the first bytes of the note.
 *   VC2_NO_MEMORY: out has the output as far as it came, and the note has none.
 *   VC2_NOT_TEXT: nothing was done, and both counts are 0.
 * Bytes of a room behind its count are left open: don't read them.
 *
 * The caller owes that
 *   - no pointer is null, also where the length is 0, and each points to so many bytes that may be read, or written;
 *   - out, note, *out_len and *note_len overlap neither each other nor the words nor the input, and no other thread touches any
 *     of these while the call goes on;
 *   - out_len and note_len are aligned as size_t is; bytes need no alignment;
 *   - each length is below 2^63;
 *   - the thread has 128 KiB of stack, and malloc may be called: not in a signal handler. */
uint32_t vc2_run(const uint8_t *words, size_t words_len, const uint8_t *input, size_t input_len, uint8_t *out, size_t out_room,
                 size_t *out_len, uint8_t *note, size_t note_room, size_t *note_len);

/* The same with words and a note that are strings. note has room for VC2_NOTE_ROOM bytes. */
static inline uint32_t vc2_call(const char *words, const void *input, size_t input_len, void *out, size_t out_room,
                                size_t *out_len, char *note) {
    size_t note_len = 0;
    uint32_t status = vc2_run((const uint8_t *)words, strlen(words), (const uint8_t *)input, input_len, (uint8_t *)out, out_room,
                              out_len, (uint8_t *)note, VC2_NOTE_ROOM - 1, &note_len);
    note[note_len] = 0;
    return status;
}

/* What `header` tells of the pictures of a sequence. */
typedef struct {
    unsigned width, height;            /* of a frame */
    unsigned sampling;                 /* 444, 422 or 420 */
    unsigned luma_depth, colour_depth; /* bits of a sample, 1 to 16 */
    int is_fields;                     /* a picture is a field: half the height, and two make a frame */
} vc2_format;

/* Reads a format from the text that `header` writes, a string. Gives 0 where it is no such text. */
static inline int vc2_read_format(const char *text, vc2_format *format) {
    unsigned y, x, z;
    const char *size = strstr(text, "\nsize "), *signal = strstr(text, "\nsignal ");
    if (!size || !signal || sscanf(size, " size %ux%u sampling %u:%u:%u", &format->width, &format->height, &y, &x, &z) != 5) return 0;
    format->sampling = 100 * y + 10 * x + z;
    format->is_fields = strstr(text, "\ncoding fields") != NULL;
    return sscanf(signal, " signal %*s depth %u %u", &format->luma_depth, &format->colour_depth) == 2;
}

/* The bytes of raw video that a picture has. Where one of both depths is above 8, all its samples take two. */
static inline size_t vc2_picture_bytes(const vc2_format *format) {
    size_t luma = (size_t)format->width * format->height / (format->is_fields ? 2 : 1);
    size_t colour = format->sampling == 444 ? luma : format->sampling == 422 ? luma / 2 : luma / 4;
    return (luma + 2 * colour) * (format->luma_depth > 8 || format->colour_depth > 8 ? 2 : 1);
}

/* The bytes from a unit to the next one, as its head tells: 0 where it doesn't, as an end. The unit has VC2_HEAD_SIZE bytes. */
static inline size_t vc2_next(const uint8_t *unit) {
    return (size_t)unit[5] << 24 | (size_t)unit[6] << 16 | (size_t)unit[7] << 8 | unit[8];
}

/* Copies a unit, and tells the copy how many bytes the unit before it has: 0 of a stream's first one. Gives the unit's bytes. */
static inline size_t vc2_put(uint8_t *to, const uint8_t *unit, size_t unit_len, size_t before) {
    memmove(to, unit, unit_len);
    for (int k = 0; k < 4; k++) to[9 + k] = (uint8_t)(before >> (24 - 8 * k));
    return unit_len;
}

/* Writes an end unit behind a unit of so many bytes. Gives its bytes, VC2_HEAD_SIZE. */
static inline size_t vc2_put_end(uint8_t *to, size_t before) {
    static const uint8_t end[VC2_HEAD_SIZE] = {'B', 'B', 'C', 'D', VC2_END, 0, 0, 0, 0, 0, 0, 0, 0};
    return vc2_put(to, end, VC2_HEAD_SIZE, before);
}

/* Makes a stream of one picture, from a sequence header unit and the unit of a picture that is a frame: a decoder that gets a
 * picture at a time keeps the header unit alone. to has room for header_len + unit_len + VC2_HEAD_SIZE bytes, the stream's. */
static inline size_t vc2_put_alone(uint8_t *to, const uint8_t *header, size_t header_len, const uint8_t *unit, size_t unit_len) {
    size_t at = vc2_put(to, header, header_len, 0);
    at += vc2_put(to + at, unit, unit_len, header_len);
    return at + vc2_put_end(to + at, unit_len);
}

#ifdef __cplusplus
}
#endif

#endif
