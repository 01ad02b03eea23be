/*
 * column FILE NAME: writes the values of a column of a file, one to a line.
 *
 * It shows the way from a file to a column's values: mmtf_view finds the column, mmtf_header says its codec and how much room
 * its values need, and the decoder of its kind writes them into a buffer. Coordinates come as floats here;
 * mmtf_decode_fixed_point gives the same column as integers and divisor, with nothing lost.
 *
 * Compile it at the top of the repository, after bin/build library, by the first line, and with the installed library by the second:
 *
 *     gcc -std=c11 -Wall -Wextra -Iinclude -o target/column examples/column.c target/staticlib/libmmtf.a
 *     gcc -std=c11 -Wall -Wextra -o column column.c $(pkg-config --cflags --libs mmtf)
 */
#include "common.h"

/* A column as its header describes it, with a buffer for its elements: bytes for characters and names, else 32 bits each. */
struct column {
    const uint8_t *bytes;
    size_t n;
    int32_t codec;
    int32_t length;
    int32_t parameter;
    void *buffer;
    uint64_t count;
};

/* Decodes the integers of a column, by the decoder of its kind, and writes them. */
static uint8_t write_integers(struct column *c,
    uint8_t (*decode)(const uint8_t *, size_t, int32_t *, size_t, uint64_t *)) {
    const int32_t *integers = c->buffer;
    const uint8_t refusal = decode(c->bytes, c->n, c->buffer, (size_t)c->length, &c->count);
    for (uint64_t i = 0; refusal == MMTF_ACCEPTED && i < c->count; i++) {
        printf("%d\n", integers[i]);
    }
    return refusal;
}

/* Decodes the floats of a column, which come as their 32 bits, and writes them. */
static uint8_t write_floats(struct column *c) {
    const uint32_t *bits = c->buffer;
    const uint8_t refusal = mmtf_decode_float32(c->bytes, c->n, c->buffer, (size_t)c->length, &c->count);
    for (uint64_t i = 0; refusal == MMTF_ACCEPTED && i < c->count; i++) {
        float real;
        memcpy(&real, &bits[i], sizeof real);
        printf("%.9g\n", (double)real);
    }
    return refusal;
}

/* Decodes characters, or names of a size, and writes each without the 0 bytes at its end. */
static uint8_t write_names(struct column *c, size_t size,
    uint8_t (*decode)(const uint8_t *, size_t, uint8_t *, size_t, uint64_t *)) {
    const char *names = c->buffer;
    const uint8_t refusal = decode(c->bytes, c->n, c->buffer, (size_t)c->length * size, &c->count);
    for (uint64_t i = 0; refusal == MMTF_ACCEPTED && i < c->count; i += size) {
        printf("%.*s\n", (int)size, names + i);
    }
    return refusal;
}

/* Writes the values of a column, by the kind of its codec. */
static uint8_t write_values(struct column *c) {
    switch (c->codec) {
    case 2: case 16: return write_integers(c, mmtf_decode_int8);
    case 3: return write_integers(c, mmtf_decode_int16);
    case 4: case 7: case 8: case 14: case 15: return write_integers(c, mmtf_decode_int32);
    case 5: return write_names(c, (size_t)c->parameter, mmtf_decode_strings);
    case 6: return write_names(c, 1, mmtf_decode_chars);
    default: return write_floats(c);
    }
}

/* Reads the header, makes a buffer for as many elements as it says, and writes the values. */
static uint8_t write_column(const uint8_t *bytes, size_t n) {
    struct column c = {.bytes = bytes, .n = n};
    uint8_t refusal = mmtf_header(bytes, n, &c.codec, &c.length, &c.parameter);
    if (refusal != MMTF_ACCEPTED) {
        return refusal;
    }
    const size_t size = c.codec == 5 ? (size_t)c.parameter : sizeof(uint32_t);
    c.buffer = malloc((size_t)c.length * size + 1);
    refusal = c.buffer == NULL ? MMTF_BUFFER_TOO_SMALL : write_values(&c);
    free(c.buffer);
    return refusal;
}

/* Finds the column of a name and writes it, or says why not. */
static int find_column(const char *path, const uint8_t *file, size_t n, const char *name) {
    uint64_t start;
    uint64_t length;
    uint8_t refusal = mmtf_view(file, n, (const uint8_t *)name, strlen(name), &start, &length);
    if (refusal == MMTF_NO_SUCH_FIELD) {
        fprintf(stderr, "%s has no field \"%s\".\n", path, name);
        return STATUS_NOTHING;
    }
    if (refusal != MMTF_ACCEPTED) {
        fputs(path, stderr);
        return say_refused(refusal);
    }
    refusal = write_column(file + start, length);
    if (refusal != MMTF_ACCEPTED) {
        fprintf(stderr, "Column \"%s\" of %s", name, path);
        return say_refused(refusal);
    }
    return end_output(STATUS_DONE);
}

int main(int count, char **words) {
    if (mmtf_version() != MMTF_VERSION_NUMBER) {
        fprintf(stderr, "This program was compiled for version %s of the library, and is linked with another.\n", MMTF_VERSION);
        return STATUS_NOTHING;
    }
    if (count != 3) {
        fprintf(stderr, "Usage: column FILE NAME\n");
        return STATUS_NOTHING;
    }
    size_t n;
    uint8_t *file = read_file(words[1], MMTF_FILE_LIMIT + 1, &n);
    if (file == NULL) {
        return STATUS_NOTHING;
    }
    const int status = find_column(words[1], file, n, words[2]);
    free(file);
    return status;
}
