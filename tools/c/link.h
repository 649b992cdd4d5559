/* What the tools of a link share: words, the clock, bytes out, and the units of a stream as docs/FORMATS.md has them. */
#ifndef LINK_H
#define LINK_H

#define _GNU_SOURCE

#include <errno.h>
#include <fcntl.h>
#include <pthread.h>
#include <signal.h>
#include <stdint.h>
#include <stdio.h>
#include <stdlib.h>
#include <string.h>
#include <sys/prctl.h>
#include <time.h>
#include <unistd.h>

enum { HEAD = 13, NUMBER = 17, PARAMETERS = 300, HEADER = 0x00, END = 0x10, AUXILIARY = 0x20, PADDING = 0x30, PICTURE = 0xC8 };
enum { DONE = 0, REFUSED = 1, WORDS_REFUSED = 2, READ_FAILED = 3, WRITE_FAILED = 4, NO_MEMORY = 5 };

static inline void stop(const char *what, int status) {
    fprintf(stderr, "%s\n", what);
    exit(status);
}

static inline void *room_of(size_t len) {
    void *room = malloc(len + !len);
    if (!room) stop("no memory", NO_MEMORY);
    return room;
}

/* Seconds of a clock that nobody sets. */
static inline double now(void) {
    struct timespec t;
    clock_gettime(CLOCK_MONOTONIC, &t);
    return (double)t.tv_sec + (double)t.tv_nsec * 1e-9;
}

static inline struct timespec spec_of(double at) {
    struct timespec t = {(time_t)at, (long)((at - (double)(time_t)at) * 1e9)};
    return t;
}

static inline void sleep_until(double at) {
    struct timespec t = spec_of(at);
    while (clock_nanosleep(CLOCK_MONOTONIC, TIMER_ABSTIME, &t, NULL) == EINTR) {}
}

/* A sleep that is over within some microseconds, pipes of 1 MiB, and writes that fail without a signal. */
static inline void be_precise(void) {
    for (int end = 0; end < 2; end++) fcntl(end, F_SETPIPE_SZ, 1 << 20);
    prctl(PR_SET_TIMERSLACK, 1000UL, 0UL, 0UL, 0UL);
    signal(SIGPIPE, SIG_IGN);
}

static inline int write_all(const uint8_t *from, size_t len) {
    while (len) {
        ssize_t n = write(1, from, len);
        if (n < 0 && errno == EINTR) continue;
        if (n < 0) return 0;
        from += n, len -= (size_t)n;
    }
    return 1;
}

/* The value of KEY=VALUE among the words, or NULL. */
static inline const char *value_of(int count, char **words, const char *key) {
    size_t len = strlen(key);
    for (int k = 1; k < count; k++)
        if (!strncmp(words[k], key, len) && words[k][len] == '=') return words[k] + len + 1;
    return NULL;
}

/* A number that isn't negative, or a fraction N/D; `otherwise` where the word isn't there. Ends where it is no number. */
static inline double number_of(int count, char **words, const char *key, double otherwise) {
    const char *text = value_of(count, words, key);
    char *end = NULL;
    if (!text) return otherwise;
    double value = strtod(text, &end), of = 1;
    if (end != text && *end == '/') of = strtod(text = end + 1, &end);
    if (end == text || *end || value < 0 || of <= 0 || value > 1e15) {
        fprintf(stderr, "%s isn't a number that it may be\n", key);
        exit(WORDS_REFUSED);
    }
    return value / of;
}

/* Ends where a word has no key of the list, which has a space on either side of each. */
static inline void ask_keys(int count, char **words, const char *keys, const char *usage) {
    for (int k = 1; k < count; k++) {
        const char *sign = strchr(words[k], '=');
        char key[32];
        if (!sign || sign - words[k] > 20) stop(usage, WORDS_REFUSED);
        snprintf(key, sizeof key, " %.*s ", (int)(sign - words[k]), words[k]);
        if (!strstr(keys, key)) stop(usage, WORDS_REFUSED);
    }
}

static inline uint32_t big_endian(const uint8_t *at) { return (uint32_t)at[0] << 24 | (uint32_t)at[1] << 16 | (uint32_t)at[2] << 8 | at[3]; }

static inline void put_big_endian(uint8_t *at, uint32_t value) {
    for (int k = 0; k < 4; k++) at[k] = (uint8_t)(value >> (24 - 8 * k));
}

static inline uint32_t next_of(const uint8_t *unit) { return big_endian(unit + 5); }
static inline uint32_t previous_of(const uint8_t *unit) { return big_endian(unit + 9); }

/* Sets the previous offset anew. A header that tells none goes on telling none. */
static inline void set_previous(uint8_t *unit, uint32_t before) {
    if (unit[4] != HEADER || previous_of(unit)) put_big_endian(unit + 9, before);
}

/* Whether a unit of a stream that tells its lengths may begin with these 13 bytes. */
static inline int is_head(const uint8_t *unit) {
    uint32_t next = next_of(unit);
    if (memcmp(unit, "BBCD", 4)) return 0;
    switch (unit[4]) {
    case END: return next == 0 || next == HEAD;
    case HEADER: return next > HEAD && next < 264;
    case PICTURE: return next > NUMBER && next < (1u << 28) + PARAMETERS;
    default: return (unit[4] == AUXILIARY || unit[4] == PADDING) && next >= HEAD;
    }
}

static inline uint32_t unit_length(const uint8_t *unit) { return unit[4] == END ? HEAD : next_of(unit); }

/* Reads exp-Golomb codes; is_short where they end first. */
typedef struct { const uint8_t *from; uint64_t at, bits; int is_short; } codes;

static inline unsigned bit_of(codes *c) {
    if (c->at >= c->bits) return (unsigned)(c->is_short = 1);
    unsigned bit = c->from[c->at >> 3] >> (7 - c->at % 8) & 1;
    c->at++;
    return bit;
}

static inline uint64_t uint_of(codes *c) {
    uint64_t value = 1;
    while (!bit_of(c) && value < 1ull << 40) value = 2 * value + bit_of(c);
    return value - 1;
}

/* Of a picture: the bytes before its slices, how many these are, and their share a/b. */
typedef struct { uint64_t before, slices, a, b; } shape;

/* Reads a shape of the first bytes of a picture's unit. Gives 0 where they end before it does, or it is none. */
static inline int read_shape(const uint8_t *unit, size_t len, shape *it) {
    if (len <= NUMBER) return 0;
    codes c = {unit + NUMBER, 0, 8 * (len < PARAMETERS ? len - NUMBER : PARAMETERS - NUMBER), 0};
    uint_of(&c);
    uint64_t depth = uint_of(&c), across = uint_of(&c), down = uint_of(&c);
    it->a = uint_of(&c), it->b = uint_of(&c);
    bit_of(&c);
    for (uint64_t k = 0; k < 1 + 3 * depth && depth <= 4; k++) uint_of(&c);
    it->before = NUMBER + (c.at + 7) / 8;
    it->slices = across * down;
    int is_cut = depth <= 4 && across && across <= 8192 && down && down <= 8192;
    return !c.is_short && is_cut && it->b && it->a && it->a < 1ull << 32 && it->b < 1ull << 32;
}

/* A unit of so many bytes, at least HEAD, that says nothing. */
static inline void put_padding(uint8_t *unit, uint32_t len, uint32_t before) {
    memset(unit, 0, len);
    memcpy(unit, "BBCD", 4);
    unit[4] = PADDING;
    put_big_endian(unit + 5, len);
    put_big_endian(unit + 9, before);
}

#endif
