/* Files of the examples. */
#ifndef FILES_H
#define FILES_H

#include <stdint.h>
#include <stdio.h>
#include <stdlib.h>

/* Ends the program with a message. */
static inline void stop(const char *what) {
    fprintf(stderr, "%s\n", what);
    exit(1);
}

static inline void *room_of(size_t len) {
    void *room = malloc(len + !len);
    if (!room) stop("no memory");
    return room;
}

static inline FILE *opened(const char *name, const char *how) {
    FILE *file = fopen(name, how);
    if (!file) stop("a file does not open");
    return file;
}

/* A whole file. */
static inline uint8_t *read_file(const char *name, size_t *len) {
    FILE *file = opened(name, "rb");
    if (fseek(file, 0, SEEK_END)) stop("not a file");
    *len = (size_t)ftell(file);
    rewind(file);
    uint8_t *bytes = room_of(*len);
    if (fread(bytes, 1, *len, file) != *len) stop("a read failed");
    fclose(file);
    return bytes;
}

static inline void write_all(const void *bytes, size_t len, FILE *file) {
    if (fwrite(bytes, 1, len, file) != len) stop("a write failed");
}

#endif
