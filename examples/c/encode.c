/* Encodes raw video a picture at a time, into the stream that one run of `encode` over all of it writes.
 *
 * usage: encode RAW STREAM WORD..     (the words of `encode`, without first, group and idle; pictures are frames)
 *
 * Each call gets one picture and its number, and gives a stream of that picture: header unit, picture unit, end. */
#include "files.h"
#include <vc2.h>

/* The words of the call for picture n. */
static void word_list(char *list, size_t room, char **words, int count, unsigned n) {
    size_t at = (size_t)snprintf(list, room, "encode first=%u", n);
    for (int k = 0; k < count && at < room; k++) at += (size_t)snprintf(list + at, room - at, " %s", words[k]);
    if (at >= room) stop("too many words");
}

/* Encodes one picture into a room that grows where it is too small. Gives the stream's bytes. */
static size_t encoded(const char *words, const uint8_t *picture, size_t picture_len, uint8_t **out, size_t *room) {
    char note[VC2_NOTE_ROOM];
    for (;;) {
        size_t len = 0;
        uint32_t status = vc2_call(words, picture, picture_len, *out, *room, &len, note);
        if (status == VC2_OK) return len;
        if (status != VC2_NO_ROOM) stop(*note ? note : "encode failed");
        free(*out);
        *room *= 2;
        *out = room_of(*room);
    }
}

/* The format that the words ask for: that of the stream of no pictures. */
static vc2_format format_of(const char *words) {
    char note[VC2_NOTE_ROOM], lines[1024];
    uint8_t header[256];
    size_t len = 0, lines_len = 0;
    vc2_format format;
    uint8_t none = 0;
    if (vc2_call(words, &none, 0, header, sizeof header, &len, note) != VC2_OK) stop(*note ? note : "encode failed");
    if (vc2_call("header", header, len, lines, sizeof lines - 1, &lines_len, note) != VC2_OK) stop(note);
    lines[lines_len] = 0;
    if (!vc2_read_format(lines, &format)) stop("no format");
    return format;
}

/* Writes the units of one picture's stream that the film's stream still needs. Gives the bytes of the unit that is last now. */
static size_t add(FILE *stream, uint8_t *alone, unsigned n, size_t before) {
    size_t header_len = vc2_next(alone), unit_len = vc2_next(alone + header_len);
    uint8_t *unit = alone + header_len;
    if (n == 0) write_all(alone, header_len, stream);
    vc2_put(unit, unit, unit_len, n ? before : header_len);
    write_all(unit, unit_len, stream);
    return unit_len;
}

int main(int count, char **words) {
    if (count < 4) stop("usage: encode RAW STREAM WORD..");
    char list[4096];
    word_list(list, sizeof list, words + 3, count - 3, 0);
    vc2_format format = format_of(list);
    size_t picture_len = vc2_picture_bytes(&format), room = picture_len + 4096, before = 0, got = 0;
    uint8_t *picture = room_of(picture_len), *out = room_of(room), end[VC2_HEAD_SIZE];
    FILE *raw = opened(words[1], "rb"), *stream = opened(words[2], "wb");
    if (format.is_fields) stop("pictures are fields");
    for (unsigned n = 0; (got = fread(picture, 1, picture_len, raw)) == picture_len; n++) {
        word_list(list, sizeof list, words + 3, count - 3, n);
        encoded(list, picture, picture_len, &out, &room);
        before = add(stream, out, n, before);
    }
    if (got || !before) stop("raw video ends inside a picture, or has none");
    write_all(end, vc2_put_end(end, before), stream);
    if (fclose(stream)) stop("a write failed");
    fclose(raw);
    free(picture);
    free(out);
    return 0;
}
