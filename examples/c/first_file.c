/* Makes a file in memory, appends a batch of three positions, asks for one of them by its id and prints it.
 *
 *     (cd crates/rvf_c && rt lib)
 *     cc -Iinclude examples/c/first_file.c crates/rvf_c/out/librvf_c.a -o first_file && ./first_file
 */
#include <stdio.h>
#include <string.h>
#include "rvf.h"

enum { DIM = 3, COUNT = 3, F32 = 0, VEC_SEG = 1, DELTA = 1 };

static void put_u32(uint8_t *at, uint32_t value) {
    for (int i = 0; i < 4; i++) at[i] = (uint8_t)(value >> (8 * i));
}

/* Says which call refused and by which number; the numbers stand in rvf.h. */
static int refused(const char *call, uint32_t number) {
    fprintf(stderr, "%s refused: %u\n", call, (unsigned)number);
    return 1;
}

int main(void) {
    /* A body: the vectors' columns, all x first, then all y, then all z. The ids rise. */
    const uint64_t ids[COUNT] = {7, 8, 21};
    const float columns[DIM][COUNT] = {{1.5f, 2.5f, 3.5f}, {-1.0f, -2.0f, -3.0f}, {700.25f, 800.25f, 900.25f}};
    uint8_t bytes[sizeof columns];
    for (int i = 0; i < DIM * COUNT; i++) {
        uint32_t bits;
        memcpy(&bits, &columns[i / COUNT][i % COUNT], 4);
        put_u32(bytes + 4 * i, bits);
    }

    /* The batch: its count, one line for the body, the body. */
    static uint8_t batch[1024];
    uint64_t written[1];
    uint32_t number = rvf_vec_write(batch + 32, sizeof batch - 32, ids, COUNT, bytes, sizeof bytes, DIM, F32, 0, DELTA, 0, written);
    if (number != 0) return refused("rvf_vec_write", number);
    put_u32(batch, 1);
    batch[16] = VEC_SEG;
    put_u32(batch + 20, 32);
    put_u32(batch + 24, (uint32_t)written[0]);

    /* The empty file is the first 0 bytes of the buffer; the append says where the file ends from now on. */
    static uint8_t file[1 << 16];
    const uint64_t none[1] = {0};
    uint64_t appended[3];
    number = rvf_append(file, sizeof file, 0, batch, 32 + (size_t)written[0], none, 0, 0, appended);
    if (number != 0) return refused("rvf_append", number);
    printf("file of %llu bytes, manifest %llu, entries %llu\n", (unsigned long long)appended[0],
           (unsigned long long)appended[1], (unsigned long long)appended[2]);

    uint8_t vector[4 * DIM];
    uint64_t found[3];
    number = rvf_vector(file, (size_t)appended[0], 21, vector, sizeof vector, found);
    if (number != 0) return refused("rvf_vector", number);
    printf("vector 21:");
    for (uint64_t i = 0; i < found[0]; i++) {
        uint32_t bits = 0;
        float value;
        for (int k = 3; k >= 0; k--) bits = bits << 8 | vector[4 * i + (uint64_t)k];
        memcpy(&value, &bits, 4);
        printf(" %g", (double)value);
    }
    printf("\n");

    /* A vector that is not there is a refusal, and the buffer stays as it was. */
    number = rvf_vector(file, (size_t)appended[0], 22, vector, sizeof vector, found);
    printf("vector 22: refused %u\n", (unsigned)number);
    return number == 8 ? 0 : 1;
}
