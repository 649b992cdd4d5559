/* Answers as the program does, on many threads: one call of libvc2 for each frame, joined in order. tools/many calls it.
 *
 * The main thread reads, the workers call, one thread writes in order; at most two frames more than there are workers are held.
 * Of fields the two of a frame are one call. */
#include "link.h"

#include <malloc.h>
#include <vc2.h>

static const char usage[] =
    "usage: tools/many COMMAND [WORD..] < INPUT > OUTPUT\n"
    "\n"
    "Answers as `vc2 COMMAND WORD..` does, with the same output, note and status. `encode`, `decode`, `frames` and `proxy` go on as\n"
    "many threads as there are processors, or as THREADS in the environment says; all other commands are vc2's. A frame is one\n"
    "call of the library and takes as long as it does with one thread; so live the output comes that time after the input, which is as\n"
    "many picture periods as threads are busy. Where a reader needs y4m, VC2=tools/many tools/y4m encode takes it as its program.\n"
    "\n"
    "It stands on libvc2.a, which `tools/library out/library` makes; VC2_LIBRARY names another folder. PROGRAM names another vc2 for the\n"
    "other commands. An input of more than 2^40 bytes isn't refused.";

enum { WORDS_ROOM = 4096, MOST_THREADS = 256, SEGMENTS = 4, LOOKED_AT = 1024, FAULT = 9 };
typedef unsigned __int128 wide;

/* Bytes that grow. */
typedef struct {
    uint8_t *at;
    size_t len, room;
} bytes;

static void reserve(bytes *b, size_t room) {
    if (room <= b->room && b->at) return;
    b->at = realloc(b->at, b->room = room + !room);
    if (!b->at) _exit(NO_MEMORY);
}

static void append(bytes *b, const void *from, size_t len) {
    if (b->len + len > b->room) reserve(b, b->len + len > 2 * b->room ? b->len + len : 2 * b->room);
    if (len) memcpy(b->at + b->len, from, len);
    b->len += len;
}

/* The input: bytes that were read and given back, and whether a read failed. */
static struct { bytes ahead; int has_failed; } source;

static size_t take_ahead(bytes *b, size_t len) {
    bytes *from = &source.ahead;
    if (len > from->len) len = from->len;
    append(b, from->at, len);
    if (len) memmove(from->at, from->at + len, from->len -= len);
    return len;
}

/* Appends at most len bytes of the input, fewer at its end or where a read fails alone. Memory grows as they come. */
static size_t read_more(bytes *b, size_t len) {
    size_t got = take_ahead(b, len);
    while (got < len && !source.has_failed) {
        size_t step = len - got < 1 << 22 ? len - got : 1 << 22;
        if (b->len + step > b->room) reserve(b, 2 * b->room > b->len + step ? 2 * b->room : b->len + step);
        ssize_t n = read(0, b->at + b->len, step);
        if (n < 0 && errno == EINTR) continue;
        source.has_failed = n < 0;
        if (n <= 0) break;
        b->len += (size_t)n, got += (size_t)n;
    }
    return got;
}

/* Gives back what was read behind the first bytes. */
static void give_back(bytes *b, size_t len) {
    bytes all = {0};
    append(&all, b->at + len, b->len - len);
    append(&all, source.ahead.at, source.ahead.len);
    free(source.ahead.at);
    source.ahead = all;
    b->len = len;
}

static void put_out(const uint8_t *from, size_t len) {
    if (!write_all(from, len)) _exit(WRITE_FAILED);
}

/* Writes a note, and ends. */
static void end_with(const char *note, int status) {
    size_t len = strlen(note);
    while (len) {
        ssize_t n = write(2, note, len);
        if (n < 0 && errno == EINTR) continue;
        if (n < 0) _exit(WRITE_FAILED);
        note += n, len -= (size_t)n;
    }
    _exit(status);
}

/* Where a part of a call's input stands in the whole input. */
typedef struct { size_t in, whole; } segment;

/* A call: its words and input, and, once done, its answer. One that is odd has to be refused. */
typedef struct {
    enum { FREE, READY, TAKEN, READY_DONE } state;
    char words[WORDS_ROOM + 32];
    bytes in, out;
    segment segments[SEGMENTS];
    unsigned segment_count, pictures;
    int is_odd;
    uint32_t status;
    char note[VC2_NOTE_ROOM];
} job;

/* The queue: job n has the slot n % slots. */
static struct {
    pthread_mutex_t lock;
    pthread_cond_t changed;
    job *jobs;
    unsigned long slots, made, taken;
    int is_closed;
} queue = {.lock = PTHREAD_MUTEX_INITIALIZER, .changed = PTHREAD_COND_INITIALIZER};

/* The slot of the next job, once that is free. */
static job *next_slot(void) {
    pthread_mutex_lock(&queue.lock);
    job *j = &queue.jobs[queue.made % queue.slots];
    while (j->state != FREE) pthread_cond_wait(&queue.changed, &queue.lock);
    pthread_mutex_unlock(&queue.lock);
    j->in.len = j->out.len = 0;
    j->segment_count = j->pictures = 0;
    j->is_odd = 0;
    return j;
}

static void set_state(job *j, int state) {
    pthread_mutex_lock(&queue.lock);
    j->state = state;
    queue.made += state == READY;
    pthread_cond_broadcast(&queue.changed);
    pthread_mutex_unlock(&queue.lock);
}

/* Calls until the room is large enough. */
static void call(job *j) {
    while (*j->words) {
        j->status = vc2_call(j->words, j->in.at, j->in.len, j->out.at, j->out.room, &j->out.len, j->note);
        if (j->status != VC2_NO_ROOM) break;
        reserve(&j->out, 2 * j->out.room);
    }
}

static void *work(void *unused) {
    (void)unused;
    for (;;) {
        pthread_mutex_lock(&queue.lock);
        while (queue.taken == queue.made && !queue.is_closed) pthread_cond_wait(&queue.changed, &queue.lock);
        job *j = queue.taken == queue.made ? NULL : &queue.jobs[queue.taken++ % queue.slots];
        if (j) j->state = TAKEN;
        pthread_mutex_unlock(&queue.lock);
        if (!j) return NULL;
        call(j);
        set_state(j, READY_DONE);
    }
}

/* Tells a refusal with its place in the whole input, and ends. */
static void end_refused(const job *j) {
    size_t at = 0;
    unsigned k = j->segment_count;
    char note[VC2_NOTE_ROOM];
    const char *reason = strchr(j->note, ':');
    if (j->status == VC2_NO_MEMORY) _exit(NO_MEMORY);
    if (j->status != VC2_REFUSED || !reason || sscanf(j->note, "refused at %zu", &at) != 1) end_with(j->note, (int)j->status);
    while (k > 1 && j->segments[k - 1].in > at) k--;
    if (k) at = at - j->segments[k - 1].in + j->segments[k - 1].whole;
    snprintf(note, sizeof note, "refused at %zu%s", at, reason);
    end_with(note, REFUSED);
}

/* Encoding: what the words ask for, and what was written. */
static struct {
    uint32_t first;
    unsigned long group, pictures;
    uint64_t rate, slots, idle, header_len, unit_len;
    shape shape;
    uint8_t header[256];
    size_t before;
    char line[VC2_NOTE_ROOM];
} film;

/* Writes the units that one call made, with the offsets that they have in the whole stream. */
static void add_units(job *j) {
    uint8_t *behind = j->out.at + j->out.len, end[HEAD];
    size_t len;
    if (!j->out.len) return;
    for (uint8_t *at = j->out.at + film.header_len; at < behind && at[4] == PICTURE; at += len) {
        len = vc2_next(at);
        if (film.pictures && film.group && film.pictures % film.group == 0) {
            put_out(end, vc2_put_end(end, film.before));
            put_out(film.header, film.before = film.header_len);
        }
        if (!film.pictures++) film.unit_len = len, read_shape(at, len, &film.shape);
        vc2_put(at, at, len, film.before);
        put_out(at, film.before = len);
    }
}

/* Picture p's unit, in a stream of groups: its place, and the slot of its first slice without a delay. */
static uint64_t place_of(uint64_t p) {
    uint64_t before = film.group ? p / film.group : 0;
    return (before + 1) * film.header_len + before * HEAD + p * film.unit_len;
}

static uint64_t slot_of(uint64_t p) { return p * (film.shape.slices + film.idle); }

static wide arrived(wide slot, uint64_t total) {
    wide come = slot * film.rate / film.slots;
    return come < total ? come : total;
}

/* The slots that must have gone before so many bytes have arrived. */
static wide needed(uint64_t end) { return ((wide)end * film.slots + film.rate - 1) / film.rate; }

static uint64_t end_of(uint64_t p, uint64_t slices) { return place_of(p) + film.shape.before + slices * film.shape.a / film.shape.b; }

/* How far behind its slots picture p comes, counted as the rate does. */
static __int128 behind(uint64_t p) { return (__int128)place_of(p) * film.slots - (__int128)slot_of(p) * film.rate; }

/* The least delay: that of the picture that comes latest for its slots, or of the stream's end. */
static wide least_delay(uint64_t total) {
    uint64_t latest = 0;
    wide tail = needed(total), delay = tail > slot_of(film.pictures) ? tail - slot_of(film.pictures) : 0;
    for (uint64_t p = 1; p < film.pictures; p++)
        if (behind(p) > behind(latest)) latest = p;
    for (uint64_t k = 1; k <= film.shape.slices; k++) {
        wide slot = needed(end_of(latest, k)), own = (wide)slot_of(latest) + k - 1;
        if (slot > own && slot - own > delay) delay = slot - own;
    }
    return delay;
}

/* The most that is held while picture p's slices are taken, but for the first. */
static wide most_within(uint64_t p, wide delay, uint64_t total) {
    wide most = 0;
    for (uint64_t k = 1; k < film.shape.slices; k++) {
        wide come = arrived(delay + slot_of(p) + k, total), held = come - end_of(p, k);
        if (held > most) most = held;
        if (come == total) break;
    }
    return most;
}

/* The least buffer with a delay. Of the pictures behind which the stream goes on the one that comes soonest asks for most. */
static wide least_buffer(wide delay, uint64_t total) {
    wide most = arrived(delay, total);
    uint64_t soonest = 0;
    int is_one = 0;
    for (uint64_t p = 0; p < film.pictures; p++) {
        wide held = arrived(delay + slot_of(p + 1), total) - end_of(p, film.shape.slices);
        int is_last = arrived(delay + slot_of(p) + film.shape.slices, total) == total;
        if (held > most) most = held;
        if (is_last && (held = most_within(p, delay, total)) > most) most = held;
        if (!is_last && (!is_one || behind(p) < behind(soonest))) soonest = p, is_one = 1;
    }
    wide held = is_one ? most_within(soonest, delay, total) : 0;
    return held > most ? held : most;
}

/* A number in decimal digits, at the end of a text of 40 bytes. */
static const char *digits_of(wide value, char *text) {
    char *at = text + 39;
    *at = 0;
    do *--at = (char)('0' + (int)(value % 10));
    while (value /= 10);
    return at;
}

/* The last end unit, and the schedule line. */
static void end_stream(void) {
    uint8_t end[HEAD];
    char delay_text[40], buffer_text[40], note[VC2_NOTE_ROOM];
    put_out(end, vc2_put_end(end, film.before));
    if (!film.pictures) end_with(film.line, DONE);
    if (!film.rate) film.rate = film.unit_len, film.slots = film.shape.slices + film.idle;
    uint64_t total = place_of(film.pictures - 1) + film.unit_len + HEAD;
    wide delay = least_delay(total);
    const char *buffer = digits_of(least_buffer(delay, total), buffer_text);
    int len = snprintf(note, sizeof note, "rate=%llu/%llu delay=%s buffer=%s", (unsigned long long)film.rate, (unsigned long long)film.slots, digits_of(delay, delay_text), buffer);
    if (film.idle) len += snprintf(note + len, sizeof note - (size_t)len, " idle=%llu", (unsigned long long)film.idle);
    snprintf(note + len, sizeof note - (size_t)len, "\n");
    end_with(note, DONE);
}

/* Decoding: what is counted for the note. */
static struct { size_t pictures, frames; int is_encoded; } seen;

/* Writes what the calls gave, in order. The first refusal ends the program. */
static void *write_out(void *unused) {
    (void)unused;
    for (unsigned long n = 0;; n++) {
        pthread_mutex_lock(&queue.lock);
        job *j = &queue.jobs[n % queue.slots];
        while (n < queue.made ? j->state != READY_DONE : !queue.is_closed) pthread_cond_wait(&queue.changed, &queue.lock);
        int is_done = n < queue.made;
        pthread_mutex_unlock(&queue.lock);
        if (!is_done) return NULL;
        if (seen.is_encoded) add_units(j);
        else put_out(j->out.at, j->out.len);
        if (j->status != VC2_OK) end_refused(j);
        if (j->is_odd) end_with("many: a refusal was to come\n", FAULT);
        seen.pictures += j->pictures, seen.frames++;
        set_state(j, FREE);
    }
}

/* Calls from the main thread, before there are jobs. Ends where it is refused. */
static size_t ask(const char *words, const uint8_t *in, size_t len, uint8_t *out, size_t room, char *note) {
    size_t out_len = 0;
    uint32_t status = vc2_call(words, in, len, out, room, &out_len, note);
    if (status != VC2_OK) end_with(note, (int)status);
    return out_len;
}

/* Joins words, all or those that each call gets. Gives 0 where they aren't words of one line. */
static int join_words(char *to, char **words, int count, int is_whole) {
    size_t at = 0;
    for (int k = 0; k < count; k++) {
        int is_place = !strncmp(words[k], "first=", 6) || !strncmp(words[k], "group=", 6) || !strncmp(words[k], "rate=", 5) || !strncmp(words[k], "idle=", 5);
        if (!*words[k] || strchr(words[k], ' ') || at + strlen(words[k]) + 2 > WORDS_ROOM) return 0;
        if (is_whole || !is_place) at += (size_t)sprintf(to + at, "%s%s", k ? " " : "", words[k]);
    }
    return 1;
}

static uint64_t whole_of(const char *text) { return text ? strtoull(text, NULL, 10) : 0; }

/* What the words of `encode` ask for, once they aren't refused. The header goes out before anything is read. */
static vc2_format begin_film(const char *list, char **words, int count) {
    vc2_format format;
    uint8_t lines[1024], none = 0, alone[300];
    char note[VC2_NOTE_ROOM];
    const char *rate = value_of(count, words, "rate");
    size_t len = ask(list, &none, 0, alone, sizeof alone, film.line);
    film.header_len = vc2_next(alone);
    if (len != film.header_len + HEAD || film.header_len > sizeof film.header) end_with("many: no header\n", FAULT);
    memcpy(film.header, alone, film.header_len);
    lines[ask("header", alone, film.header_len, lines, sizeof lines - 1, note)] = 0;
    if (!vc2_read_format((char *)lines, &format)) end_with("many: no format\n", FAULT);
    film.first = (uint32_t)whole_of(value_of(count, words, "first"));
    film.group = whole_of(value_of(count, words, "group"));
    film.idle = whole_of(value_of(count, words, "idle"));
    film.rate = whole_of(rate);
    film.slots = rate ? whole_of(strchr(rate, '/') + 1) : 1;
    put_out(film.header, film.before = film.header_len);
    return format;
}

static void encode(const char *whole_list, char **words, int count) {
    char list[WORDS_ROOM];
    vc2_format format = begin_film(whole_list, words, count);
    size_t whole = 0, step = format.is_fields ? 2 : 1, frame_len = vc2_picture_bytes(&format) * step, got = frame_len;
    join_words(list, words, count, 0);
    for (size_t n = 0; got == frame_len; n++) {
        job *j = next_slot();
        reserve(&j->in, frame_len);
        reserve(&j->out, frame_len / 2 + 4096);
        got = read_more(&j->in, frame_len);
        if (source.has_failed || !got) break;
        snprintf(j->words, sizeof j->words, "%s first=%u", list, (unsigned)(film.first + (uint32_t)(n * step)));
        j->segments[j->segment_count++] = (segment){0, whole};
        whole += got;
        set_state(j, READY);
    }
}

/* The stream that is cut into jobs: the sequence that goes on, the unit that begins at byte `at`, and the job that isn't whole. */
static struct {
    char words[WORDS_ROOM];
    bytes header, unit;
    vc2_format format;
    size_t at, before, alone_before;
    uint32_t number;
    int has_number;
    job *job;
} cut;

/* Begins a job, with the header unit of the sequence if one goes on. */
static void begin_job(void) {
    if (cut.job) return;
    cut.job = next_slot();
    strcpy(cut.job->words, cut.words);
    reserve(&cut.job->in, cut.header.len + 1);
    reserve(&cut.job->out, cut.header.len ? vc2_picture_bytes(&cut.format) * (cut.format.is_fields ? 2 : 1) : 1);
    append(&cut.job->in, cut.header.at, cut.header.len);
    cut.alone_before = cut.header.len;
}

/* Puts a unit, or what there is of it, into the job. A previous offset that is wrong stays so. */
static void put(int is_previous_right) {
    job *j = cut.job;
    size_t at = j->in.len;
    j->segments[j->segment_count++] = (segment){at, cut.at};
    append(&j->in, cut.unit.at, cut.unit.len);
    if (cut.unit.len < HEAD) return;
    vc2_put(j->in.at + at, j->in.at + at, cut.unit.len, is_previous_right ? cut.alone_before : UINT32_MAX);
    cut.alone_before = cut.unit.len;
}

/* The last job, of a unit that the program refuses: the library says where and why. It gets what follows, up to so many bytes. */
static int odd(int is_previous_right, size_t len) {
    if (len > (1 << 28) + LOOKED_AT) len = (1 << 28) + LOOKED_AT;
    if (cut.unit.len < len) read_more(&cut.unit, len - cut.unit.len);
    if (source.has_failed) return 0;
    begin_job();
    put(is_previous_right);
    cut.job->is_odd = 1;
    set_state(cut.job, READY);
    return 0;
}

/* The length of a sequence header that doesn't tell it: with which it and an end are a stream. 0 where it is none. */
static size_t untold_length(void) {
    uint8_t alone[LOOKED_AT + HEAD], out[128];
    char note[VC2_NOTE_ROOM];
    size_t out_len;
    for (size_t len = HEAD + 1; len <= cut.unit.len && len < 264; len++) {
        memcpy(alone, cut.unit.at, len);
        memset(alone + 9, 0, 4);
        vc2_put_end(alone + len, len);
        if (vc2_call("check", alone, len + HEAD, out, sizeof out, &out_len, note) == VC2_OK) return len;
    }
    return 0;
}

/* Begins a sequence with a header unit. */
static int begin_sequence(void) {
    char note[VC2_NOTE_ROOM];
    uint8_t lines[1024], alone[LOOKED_AT];
    size_t len = 0, told = vc2_next(cut.unit.at), wanted = told ? told : LOOKED_AT;
    if (cut.unit.at[4] != HEADER || wanted > LOOKED_AT || wanted < HEAD) return odd(1, LOOKED_AT);
    read_more(&cut.unit, wanted - HEAD);
    size_t found = told ? told : untold_length();
    if (!found || cut.unit.len < found) return odd(1, LOOKED_AT);
    give_back(&cut.unit, found);
    memcpy(alone, cut.unit.at, found);
    memset(alone + 9, 0, 4);
    uint32_t status = vc2_call("header", alone, found, lines, sizeof lines - 1, &len, note);
    lines[len] = 0;
    if (status != VC2_OK || !vc2_read_format((char *)lines, &cut.format)) return odd(1, LOOKED_AT);
    cut.header.len = 0;
    append(&cut.header, alone, found);
    cut.has_number = 0;
    return 1;
}

/* A header within its sequence, which has to be the first one's again. */
static int take_header(void) {
    size_t told = vc2_next(cut.unit.at), len = cut.header.len;
    read_more(&cut.unit, len - HEAD);
    if (cut.unit.len < len || (told && told != len) || memcmp(cut.header.at + HEAD, cut.unit.at + HEAD, len - HEAD)) return odd(1, len);
    return 1;
}

/* The one rule between two jobs. */
static int refuse_number(void) {
    begin_job();
    cut.job->status = VC2_REFUSED;
    snprintf(cut.job->note, VC2_NOTE_ROOM, "refused at %zu: PictureNumberWrong\n", cut.at + HEAD);
    *cut.job->words = 0;
    set_state(cut.job, READY);
    return 0;
}

/* Reads a picture's unit up to its end, which its parameters tell. Gives 0 where that is the job of a refusal. */
static int read_picture(void) {
    size_t told = vc2_next(cut.unit.at), first = told < PARAMETERS ? told : PARAMETERS;
    shape it;
    if (told && first > cut.unit.len) read_more(&cut.unit, first - cut.unit.len);
    while (!told && cut.unit.len < PARAMETERS && !read_shape(cut.unit.at, cut.unit.len, &it) && read_more(&cut.unit, 1)) {}
    int is_cut = !read_shape(cut.unit.at, cut.unit.len, &it);
    if (is_cut) read_more(&cut.unit, LOOKED_AT - cut.unit.len);
    if (is_cut && !read_shape(cut.unit.at, cut.unit.len, &it)) return odd(1, 0);
    size_t len = it.before + it.slices * it.a / it.b;
    if (is_cut || (told && told != len)) return odd(1, len > LOOKED_AT ? len : LOOKED_AT);
    if (len > (1 << 28) + LOOKED_AT) return odd(1, LOOKED_AT);
    if (read_more(&cut.unit, len - cut.unit.len), cut.unit.len < len) return odd(1, 0);
    return 1;
}

static int take_picture(void) {
    if (read_more(&cut.unit, 4) < 4) return odd(1, 0);
    uint32_t number = big_endian(cut.unit.at + HEAD);
    if (cut.has_number && number != cut.number + 1 && !cut.job) return refuse_number();
    cut.number = number;
    cut.has_number = 1;
    if (!read_picture()) return 0;
    begin_job();
    put(1);
    if (++cut.job->pictures < (cut.format.is_fields ? 2u : 1u)) return 1;
    uint8_t end[HEAD];
    append(&cut.job->in, end, vc2_put_end(end, cut.alone_before));
    set_state(cut.job, READY);
    cut.job = NULL;
    return 1;
}

/* Auxiliary data and padding are let go as they come. Gives 0 where they end before they should. */
static int skip(void) {
    bytes piece = {0};
    size_t left = vc2_next(cut.unit.at), got = 1;
    if (left < HEAD) return odd(1, 0);
    for (left -= HEAD; left && got; left -= got) {
        piece.len = 0;
        got = read_more(&piece, left < 65536 ? left : 65536);
    }
    free(piece.at);
    return left ? odd(1, 0) : 1;
}

/* Takes the unit that begins at cut.at. Gives 0 behind the last one. */
static int take_unit(void) {
    cut.unit.len = 0;
    size_t got = read_more(&cut.unit, HEAD), len;
    const uint8_t *head = cut.unit.at;
    if (source.has_failed || (!got && cut.at && !cut.header.len)) return 0;
    if (got < HEAD) return odd(1, 0);
    uint32_t previous = previous_of(head);
    int is_right = previous == cut.before || (cut.at && !cut.header.len && !previous), kind = head[4];
    int is_known = !memcmp(head, "BBCD", 4) && (kind == HEADER || kind == END || kind == AUXILIARY || kind == PADDING || kind == PICTURE);
    if (!is_known || !is_right) return odd(is_right, 0);
    if (!cut.header.len) {
        if (!begin_sequence()) return 0;
    } else if (kind == END) {
        if ((vc2_next(head) && vc2_next(head) != HEAD) || cut.job) return odd(1, 0);
        cut.header.len = 0;
    } else if (!(kind == HEADER ? take_header() : kind == PICTURE ? take_picture() : skip())) {
        return 0;
    }
    len = kind == AUXILIARY || kind == PADDING ? vc2_next(cut.unit.at) : cut.unit.len;
    cut.before = len;
    cut.at += len;
    return 1;
}

/* Decodes, once the words aren't refused. */
static void decode(const char *list) {
    uint8_t none = 0, out = 0;
    char note[VC2_NOTE_ROOM];
    size_t len;
    uint32_t status = vc2_call(list, &none, 0, &out, 1, &len, note);
    if (status != VC2_REFUSED) end_with(note, (int)status);
    strcpy(cut.words, list);
    while (take_unit()) {}
}

static void start(pthread_t *threads, long count) {
    queue.slots = (unsigned long)count + 2;
    queue.jobs = calloc(queue.slots, sizeof *queue.jobs);
    for (long k = 0; k <= count; k++)
        if (!queue.jobs || pthread_create(&threads[k], NULL, k ? work : write_out, NULL)) _exit(NO_MEMORY);
}

static void finish(pthread_t *threads, long count) {
    pthread_mutex_lock(&queue.lock);
    queue.is_closed = 1;
    pthread_cond_broadcast(&queue.changed);
    pthread_mutex_unlock(&queue.lock);
    for (long k = 0; k <= count; k++) pthread_join(threads[k], NULL);
    if (source.has_failed) _exit(READ_FAILED);
}

/* The words: those of this program, the program that takes all other commands, the command and its words. */
int main(int count, char **words) {
    static pthread_t threads[MOST_THREADS + 1];
    char list[WORDS_ROOM], note[VC2_NOTE_ROOM];
    const char *asked = getenv("THREADS"), *command = count > 2 ? words[2] : "";
    long many = asked ? atol(asked) : sysconf(_SC_NPROCESSORS_ONLN);
    int is_frames = !strcmp(command, "frames"), is_encode = !strcmp(command, "encode");
    if (count < 2 || many < 1) stop(usage, WORDS_REFUSED);
    if (many > MOST_THREADS) many = MOST_THREADS;
    if (!(is_encode || is_frames || !strcmp(command, "decode") || !strcmp(command, "proxy")) || !join_words(list, words + 2, count - 2, 1)) {
        execv(words[1], words + 1);
        stop("many: the program isn't there", 6);
    }
    signal(SIGPIPE, SIG_IGN);
    /* memory that a call gives back is kept for the next: a fifth of the time goes into fresh pages otherwise */
    mallopt(M_MMAP_THRESHOLD, 1 << 25), mallopt(M_TRIM_THRESHOLD, 1 << 30), mallopt(M_TOP_PAD, 1 << 24);
    seen.is_encoded = is_encode;
    start(threads, many);
    if (is_encode) encode(list, words + 2, count - 2);
    else decode(list);
    finish(threads, many);
    if (is_encode) end_stream();
    snprintf(note, sizeof note, "%s %zu bytes %zu\n", is_frames ? "frames" : "pictures", is_frames ? seen.frames : seen.pictures, cut.at);
    end_with(note, DONE);
}
