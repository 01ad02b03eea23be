/*
 * dump FILE...: writes what the library answers about each file, as text, for a comparison with another way to call it.
 *
 * Of each file: its verdicts, its receipt by station 7 and job 12, its bill as a run of receipts, its fields, its matrices,
 * and its views by name. Each view, and the file itself, is taken as a column too: asked for its header, decoded to every kind,
 * asked for cells, and what was decoded encoded again.
 */
#include <stdio.h>
#include <string.h>

#include "../../examples/common.h"

/* One byte more than a file may have; results of a column; bytes of the longest column of runs. */
enum { ROOM = MMTF_FILE_LIMIT + 1, RESULTS = MMTF_LENGTH_LIMIT, LONGEST = MMTF_HEADER_SIZE + 8 * RESULTS };

/* A column is encoded by every codec of its kind if it has at most so many results, none larger than this. */
enum { FEW = 100, SMALL = 100000 };

/* The named fields, a field that the structure files have besides, and names of none. */
static const char *const names[] = {
    "mmtfVersion", "mmtfProducer", "numBonds", "numAtoms", "numGroups", "numChains", "numModels", "groupList",
    "xCoordList", "yCoordList", "zCoordList", "groupIdList", "groupTypeList", "chainIdList", "groupsPerChain",
    "chainsPerModel", "bondAtomList", "bondOrderList", "bFactorList", "atomIdList", "altLocList", "occupancyList",
    "secStructList", "insCodeList", "sequenceIdList", "chainNameList", "title", "structureId", "spaceGroup",
    "depositionDate", "releaseDate", "resolution", "rFree", "rWork", "unitCell", "experimentalMethods", "ncsOperatorList",
    "bioAssemblyList", "entityList", "sequenceIndexList", "", "noSuchField",
};

/* The buffers of the decoders and of the encoders. */
static int32_t integers[RESULTS];
static uint32_t bits[RESULTS];
static uint8_t characters[ROOM];
static uint8_t encoded[LONGEST];

/* A column, and the three numbers at its start; those of a short one are 0. */
struct column {
    const uint8_t *bytes;
    size_t n;
    int32_t codec;
    int32_t length;
    int32_t parameter;
};

static int32_t number_at(const uint8_t *bytes) {
    return (int32_t)((uint32_t)bytes[0] << 24 | (uint32_t)bytes[1] << 16 | (uint32_t)bytes[2] << 8 | bytes[3]);
}

static struct column column_of(const uint8_t *bytes, size_t n) {
    struct column column = {bytes, n, 0, 0, 0};
    if (n >= MMTF_HEADER_SIZE) {
        column.codec = number_at(bytes);
        column.length = number_at(bytes + 4);
        column.parameter = number_at(bytes + 8);
    }
    return column;
}

/* The end of a line: a refusal, or bytes in hexadecimal digits. */
static void end_line(uint8_t refusal, const uint8_t *bytes, size_t n) {
    if (refusal != MMTF_ACCEPTED) {
        printf(" refused %u\n", refusal);
        return;
    }
    putchar(' ');
    for (size_t i = 0; i < n; i++) {
        putchar("0123456789abcdef"[bytes[i] >> 4]);
        putchar("0123456789abcdef"[bytes[i] & 15]);
    }
    putchar('\n');
}

/* Whether the integers are encoded by this codec: always by the column's own, by another one if they are few and small. */
static int is_tried(const struct column *column, int32_t codec, uint64_t count) {
    if (codec == column->codec) {
        return 1;
    }
    for (uint64_t i = 0; i < count; i++) {
        if (count > FEW || integers[i] > SMALL || integers[i] < -SMALL) {
            return 0;
        }
    }
    return 1;
}

typedef uint8_t decoder(const uint8_t *, size_t, int32_t *, size_t, uint64_t *);
typedef uint8_t encoder(int32_t, const int32_t *, size_t, uint8_t *, size_t, uint64_t *);

/* The column as integers, and these encoded again by the codecs, which end with 0. */
static void write_integers(const struct column *column, const char *kind, decoder *decode, encoder *encode,
    const int32_t *codecs) {
    uint64_t count = 0;
    uint64_t written = 0;
    const uint8_t refusal = decode(column->bytes, column->n, integers, RESULTS, &count);
    printf("%s", kind);
    if (refusal != MMTF_ACCEPTED) {
        end_line(refusal, NULL, 0);
        return;
    }
    for (uint64_t i = 0; i < count; i++) {
        printf(" %d", integers[i]);
    }
    putchar('\n');
    for (; *codecs != 0; codecs++) {
        if (is_tried(column, *codecs, count)) {
            const uint8_t answer = encode(*codecs, integers, count, encoded, LONGEST, &written);
            printf("encoded by %d", *codecs);
            end_line(answer, encoded, written);
        }
    }
}

static void write_fixed_point(const struct column *column) {
    uint64_t count = 0;
    uint64_t written = 0;
    int32_t divisor;
    const uint8_t refusal = mmtf_decode_fixed_point(column->bytes, column->n, integers, RESULTS, &count, &divisor);
    printf("fixed_point");
    if (refusal != MMTF_ACCEPTED) {
        end_line(refusal, NULL, 0);
        return;
    }
    printf(" by %d:", divisor);
    for (uint64_t i = 0; i < count; i++) {
        printf(" %d", integers[i]);
    }
    putchar('\n');
    for (int32_t codec = 9; codec <= 13; codec++) {
        if (is_tried(column, codec, count)) {
            const uint8_t answer = mmtf_encode_fixed_point(codec, divisor, integers, count, encoded, LONGEST, &written);
            printf("encoded by %d", codec);
            end_line(answer, encoded, written);
        }
    }
}

/* The column as floats by their bits; those of codec 1 encoded again. */
static void write_floats(const struct column *column) {
    uint64_t count = 0;
    uint64_t written = 0;
    const uint8_t refusal = mmtf_decode_float32(column->bytes, column->n, bits, RESULTS, &count);
    printf("float32");
    if (refusal != MMTF_ACCEPTED) {
        end_line(refusal, NULL, 0);
        return;
    }
    for (uint64_t i = 0; i < count; i++) {
        printf(" %08x", bits[i]);
    }
    putchar('\n');
    if (column->codec == 1) {
        const uint8_t answer = mmtf_encode_float32(1, bits, count, encoded, LONGEST, &written);
        printf("encoded by 1");
        end_line(answer, encoded, written);
    }
}

/* The column as characters, and as names, each encoded again. */
static void write_text(const struct column *column) {
    uint64_t count = 0;
    uint64_t written = 0;
    uint8_t refusal = mmtf_decode_chars(column->bytes, column->n, characters, ROOM, &count);
    printf("chars");
    end_line(refusal, characters, count);
    if (refusal == MMTF_ACCEPTED) {
        const uint8_t answer = mmtf_encode_chars(6, characters, count, encoded, LONGEST, &written);
        printf("encoded by 6");
        end_line(answer, encoded, written);
    }
    refusal = mmtf_decode_strings(column->bytes, column->n, characters, ROOM, &count);
    printf("strings");
    end_line(refusal, characters, count);
    if (refusal == MMTF_ACCEPTED) {
        const uint8_t answer = mmtf_encode_strings(5, column->parameter, characters, count, encoded, LONGEST, &written);
        printf("encoded by 5");
        end_line(answer, encoded, written);
    }
}

/* A float by its bits, but a NaN only as a NaN. */
static void put_float(float real) {
    uint32_t number;
    memcpy(&number, &real, sizeof number);
    if (real != real) {
        printf(" nan");
    } else {
        printf(" %08x", number);
    }
}

static void write_cell(const struct column *column, uint64_t index) {
    uint8_t kind;
    int32_t integer;
    float real;
    const uint8_t refusal = mmtf_cell(column->bytes, column->n, index, &kind, &integer, &real);
    printf("cell %llu", (unsigned long long)index);
    if (refusal != MMTF_ACCEPTED) {
        end_line(refusal, NULL, 0);
    } else if (kind == MMTF_CELL_FLOAT) {
        printf(" float");
        put_float(real);
        putchar('\n');
    } else {
        printf(" %s %d\n", kind == MMTF_CELL_CHARACTER ? "character" : "integer", integer);
    }
}

/* The header, as the library gives it. */
static void write_header(const struct column *column) {
    int32_t codec = 0;
    int32_t length = 0;
    int32_t parameter = 0;
    const uint8_t refusal = mmtf_header(column->bytes, column->n, &codec, &length, &parameter);
    printf("header");
    if (refusal == MMTF_ACCEPTED) {
        printf(" %d %d %d\n", codec, length, parameter);
    } else {
        end_line(refusal, NULL, 0);
    }
}

/* All that is asked of a column. */
static void write_column(const uint8_t *bytes, size_t n) {
    static const int32_t int32_codecs[] = {4, 7, 8, 14, 15, 0};
    static const int32_t int16_codecs[] = {3, 0};
    static const int32_t int8_codecs[] = {2, 16, 0};
    const struct column column = column_of(bytes, n);
    const uint64_t length = column.length < 0 ? 0 : (uint64_t)column.length;
    write_header(&column);
    write_integers(&column, "int32", mmtf_decode_int32, mmtf_encode_int32, int32_codecs);
    write_integers(&column, "int16", mmtf_decode_int16, mmtf_encode_int16, int16_codecs);
    write_integers(&column, "int8", mmtf_decode_int8, mmtf_encode_int8, int8_codecs);
    write_fixed_point(&column);
    write_floats(&column);
    write_text(&column);
    write_cell(&column, 0);
    write_cell(&column, length / 2);
    write_cell(&column, length - 1);
    write_cell(&column, length);
}

/* The matrices of each assembly up to the first transform that there is not, up to an assembly without a first one. */
static void write_matrices(const uint8_t *file, size_t n) {
    float rows[4][4];
    uint64_t transform;
    uint64_t assembly = 0;
    do {
        uint8_t refusal = MMTF_ACCEPTED;
        for (transform = 0; refusal == MMTF_ACCEPTED; transform++) {
            refusal = mmtf_matrix(file, n, assembly, transform, rows);
            printf("matrix %llu %llu", (unsigned long long)assembly, (unsigned long long)transform);
            for (size_t i = 0; refusal == MMTF_ACCEPTED && i < 16; i++) {
                put_float(rows[i / 4][i % 4]);
            }
            end_line(refusal, NULL, 0);
        }
        assembly++;
    } while (transform > 1);
}

/* The set of the named fields, and the part of each. */
static void write_fields(const uint8_t *file, size_t n) {
    uint64_t presence = 0;
    uint64_t starts[MMTF_FIELDS_ROOM];
    uint64_t lengths[MMTF_FIELDS_ROOM];
    const uint8_t refusal = mmtf_fields(file, n, &presence, starts, lengths, MMTF_FIELDS_ROOM);
    printf("fields");
    for (size_t i = 0; refusal == MMTF_ACCEPTED && i < MMTF_FIELD_COUNT; i++) {
        if (presence >> i & 1) {
            printf(" %s %llu %llu", names[i], (unsigned long long)starts[i], (unsigned long long)lengths[i]);
        }
    }
    end_line(refusal, NULL, 0);
}

/* The bill of the file, taken as a run of receipts. */
static void write_bill(const uint8_t *file, size_t n) {
    uint8_t bill[MMTF_BILL_ROOM];
    uint64_t written = 0;
    const uint8_t refusal = mmtf_bill(file, n, bill, sizeof bill, &written);
    printf("bill");
    end_line(refusal, bill, written);
}

static void write_file(const uint8_t *file, size_t n) {
    uint8_t receipt[MMTF_RECEIPT_ROOM];
    uint64_t written = 0;
    printf("file of %zu bytes: container %u, verdict %u\n", n, mmtf_container(file, n), mmtf_verdict(file, n));
    if (mmtf_write_receipt(7, 12, file, n, receipt, sizeof receipt, &written) == MMTF_ACCEPTED) {
        fwrite(receipt, 1, written, stdout);
    }
    write_bill(file, n);
    write_fields(file, n);
    write_matrices(file, n);
    write_column(file, n);
    for (size_t i = 0; i < sizeof names / sizeof names[0]; i++) {
        uint64_t start = 0;
        uint64_t length = 0;
        const uint8_t refusal = mmtf_view(file, n, (const uint8_t *)names[i], strlen(names[i]), &start, &length);
        printf("view of %s:", names[i]);
        end_line(refusal, file + start, length);
        if (refusal == MMTF_ACCEPTED) {
            write_column(file + start, length);
        }
    }
}

int main(int count, char **words) {
    if (count < 2) {
        fprintf(stderr, "usage: dump FILE...\n");
        return 2;
    }
    for (int i = 1; i < count; i++) {
        size_t n;
        uint8_t *file = read_file(words[i], ROOM, &n);
        if (file == NULL) {
            return 2;
        }
        write_file(file, n);
        free(file);
    }
    return 0;
}
