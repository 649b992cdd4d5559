/* Decodes a stream a frame at a time, as a player that gets it live would.
 *
 * usage: decode STREAM RAW
 *
 * `chain` finds the units. Each picture, or both fields of a frame, makes a stream with the header unit in front and an end
 * behind, which `decode` takes alone. A stream that has a unit of next offset 0 is refused by `chain`. */
#include "files.h"
#include <vc2.h>

typedef struct {
    uint8_t *bytes;
    size_t len;
} text;

/* What `chain` or `header` writes of an input, as a string. */
static text told(const char *words, const uint8_t *input, size_t input_len) {
    char note[VC2_NOTE_ROOM];
    size_t room = 1 << 12;
    for (;;) {
        text found = {room_of(room + 1), 0};
        uint32_t status = vc2_call(words, input, input_len, found.bytes, room, &found.len, note);
        found.bytes[found.len] = 0;
        if (status == VC2_OK) return found;
        free(found.bytes);
        if (status != VC2_NO_ROOM) stop(*note ? note : "vc2 failed");
        room *= 2;
    }
}

/* The sequence that goes on: its header unit and format, and the first unit of the frame that isn't whole yet. */
typedef struct {
    const uint8_t *header, *frame;
    size_t header_len;
    unsigned pictures;
    vc2_format format;
} sequence;

static void begin(sequence *now, const uint8_t *unit, size_t len) {
    text lines = told("header", unit, len);
    *now = (sequence){.header = unit, .header_len = len};
    if (!vc2_read_format((const char *)lines.bytes, &now->format)) stop("no format");
    free(lines.bytes);
}

/* Decodes the frame, whose last unit begins here. */
static void show(const sequence *now, const uint8_t *last, size_t last_len, FILE *raw) {
    char note[VC2_NOTE_ROOM];
    size_t frame_len = (size_t)(last - now->frame) + last_len, room = vc2_picture_bytes(&now->format) * now->pictures, len = 0;
    uint8_t *pictures = room_of(room), *alone = room_of(now->header_len + frame_len + VC2_HEAD_SIZE);
    size_t at = vc2_put(alone, now->header, now->header_len, 0);
    at += vc2_put(alone + at, now->frame, frame_len, now->header_len);
    at += vc2_put_end(alone + at, last_len);
    if (vc2_call("decode", alone, at, pictures, room, &len, note) != VC2_OK) stop(*note ? note : "decode failed");
    write_all(pictures, len, raw);
    free(pictures);
    free(alone);
}

/* Takes one unit of the stream. */
static void take(sequence *now, const uint8_t *unit, size_t len, FILE *raw) {
    if (unit[4] == VC2_HEADER && !now->frame) begin(now, unit, len);
    if (unit[4] != VC2_PICTURE) return;
    if (!now->frame) now->frame = unit;
    now->pictures++;
    if (now->pictures < (now->format.is_fields ? 2u : 1u)) return;
    show(now, unit, len, raw);
    now->frame = NULL;
    now->pictures = 0;
}

int main(int count, char **words) {
    if (count != 3) stop("usage: decode STREAM RAW");
    size_t len = 0;
    uint8_t *stream = read_file(words[1], &len);
    text units = told("chain", stream, len);
    FILE *raw = opened(words[2], "wb");
    sequence now = {0};
    for (const char *line = (const char *)units.bytes; *line; line = strchr(line, '\n') + 1) {
        const char *behind = strchr(line, '\n') + 1;
        size_t at = strtoull(line, NULL, 10);
        take(&now, stream + at, (*behind ? strtoull(behind, NULL, 10) : len) - at, raw);
    }
    if (fclose(raw)) stop("a write failed");
    free(units.bytes);
    free(stream);
    return 0;
}
