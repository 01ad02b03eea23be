/*
 * open FILE: opens a file, and writes a line for each column that it has: the field's number, where its part starts, its
 * bytes, and how many cells it decodes to.
 *
 * It shows how a program that wants many columns checks a file once: mmtf_fields answers the verdict and where each named
 * field stands, mmtf_header says how much room a column's values need, and no column is looked for again.
 *
 * Compile it at the top of the repository, after bin/build library, by the first line, and with the installed library by the second:
 *
 *     gcc -std=c11 -Wall -Wextra -Iinclude -o target/open examples/open.c target/staticlib/libmmtf.a
 *     gcc -std=c11 -Wall -Wextra -o open open.c $(pkg-config --cflags --libs mmtf)
 */
#include "common.h"

/* Whether a field is a column: all from the coordinates to the names of chains are, but for the two arrays of integers. */
static int is_column(int field) {
    return field >= MMTF_X_COORD_LIST && field <= MMTF_CHAIN_NAME_LIST && field != MMTF_GROUPS_PER_CHAIN &&
        field != MMTF_CHAINS_PER_MODEL;
}

/* Decodes a column into a buffer with room for its elements, by the decoder of its kind. A name has 4 bytes in a file. */
static uint8_t decode(const uint8_t *column, size_t n, int32_t codec, void *buffer, size_t room, uint64_t *count) {
    switch (codec) {
    case 2: case 16: return mmtf_decode_int8(column, n, buffer, room, count);
    case 4: case 7: case 8: case 14: case 15: return mmtf_decode_int32(column, n, buffer, room, count);
    case 5: return mmtf_decode_strings(column, n, buffer, room * 4, count);
    case 6: return mmtf_decode_chars(column, n, buffer, room, count);
    default: return mmtf_decode_float32(column, n, buffer, room, count);
    }
}

/* Counts the cells that a column decodes to, or answers why it is refused. */
static uint8_t count_cells(const uint8_t *column, size_t n, uint64_t *cells) {
    int32_t codec, length, parameter;
    uint8_t refusal = mmtf_header(column, n, &codec, &length, &parameter);
    if (refusal != MMTF_ACCEPTED) {
        return refusal;
    }
    void *buffer = malloc((size_t)length * sizeof(uint32_t) + 1);
    refusal = buffer == NULL ? MMTF_BUFFER_TOO_SMALL : decode(column, n, codec, buffer, (size_t)length, cells);
    free(buffer);
    if (codec == 5) {
        *cells /= 4;
    }
    return refusal;
}

/* Opens the file, and writes the lines of its columns; or says why not. */
static int write_columns(const char *path, const uint8_t *file, size_t n) {
    uint64_t presence, starts[MMTF_FIELDS_ROOM], lengths[MMTF_FIELDS_ROOM];
    uint8_t refusal = mmtf_fields(file, n, &presence, starts, lengths, MMTF_FIELDS_ROOM);
    if (refusal != MMTF_ACCEPTED) {
        fputs(path, stderr);
        return say_refused(refusal);
    }
    for (int field = 0; field < MMTF_FIELD_COUNT; field++) {
        if ((presence >> field & 1) && is_column(field)) {
            uint64_t cells = 0;
            refusal = count_cells(file + starts[field], lengths[field], &cells);
            if (refusal != MMTF_ACCEPTED) {
                fprintf(stderr, "Column %d of %s", field, path);
                return say_refused(refusal);
            }
            printf("%d %llu %llu %llu\n", field, (unsigned long long)starts[field], (unsigned long long)lengths[field],
                (unsigned long long)cells);
        }
    }
    return end_output(STATUS_DONE);
}

int main(int count, char **words) {
    if (count != 2) {
        fprintf(stderr, "Usage: open FILE\n");
        return STATUS_NOTHING;
    }
    size_t n;
    uint8_t *file = read_file(words[1], MMTF_FILE_LIMIT + 1, &n);
    if (file == NULL) {
        return STATUS_NOTHING;
    }
    const int status = write_columns(words[1], file, n);
    free(file);
    return status;
}
