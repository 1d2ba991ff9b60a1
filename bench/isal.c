// Encodes and decodes stripes of 512-byte chunks with the SSE routine of Intel's ISA-L, and prints bytes of file a
// second. The rows are those of the code: the powers of b + 1 for brick b, the highest first. Decoding multiplies by
// the inverse of the rows of the last k bricks, as the program beside it does.
#include <isa-l/erasure_code.h>
#include <stdio.h>
#include <stdlib.h>
#include <string.h>
#include <time.h>

enum { CHUNK = 512, STRIPES = 32, ROUNDS = 200, MOST = 31 };

static unsigned char stripes[STRIPES][16][CHUNK];
static unsigned char codes[STRIPES][MOST][CHUNK];
static unsigned char back[STRIPES][16][CHUNK];

static double seconds(void)
{
    struct timespec t;
    clock_gettime(CLOCK_MONOTONIC, &t);
    return t.tv_sec + t.tv_nsec * 1e-9;
}

static void rows_of(int k, int first, int count, unsigned char *rows)
{
    for (int b = 0; b < count; b++) {
        unsigned char power = 1;
        for (int j = k - 1; j >= 0; j--) {
            rows[b * k + j] = power;
            power = gf_mul(power, first + b + 1);
        }
    }
}

typedef unsigned char Chunks[CHUNK];

// The least time of one pass over all stripes: `outputs` rows of the tables times k chunks of each input.
static double least(int k, int outputs, unsigned char *tables, Chunks *input, int in_step, Chunks *output, int out_step)
{
    double least = 1e9;
    for (int round = 0; round < ROUNDS; round++) {
        double start = seconds();
        for (int s = 0; s < STRIPES; s++) {
            unsigned char *from[16], *to[MOST];
            for (int j = 0; j < k; j++)
                from[j] = input[s * in_step + j];
            for (int b = 0; b < outputs; b++)
                to[b] = output[s * out_step + b];
            ec_encode_data_sse(CHUNK, k, outputs, tables, from, to);
        }
        double took = seconds() - start;
        if (took < least)
            least = took;
    }
    return least;
}

static unsigned digest(const void *bytes, size_t length)
{
    unsigned sum = 0;
    for (size_t i = 0; i < length; i++)
        sum = sum * 16777619u ^ ((const unsigned char *)bytes)[i];
    return sum;
}

static void run(int k, int n)
{
    unsigned char rows[MOST * 16], last[16 * 16], inverse[16 * 16];
    unsigned char encode_tables[32 * MOST * 16], decode_tables[32 * 16 * 16];
    rows_of(k, 0, n, rows);
    ec_init_tables(k, n, rows, encode_tables);
    rows_of(k, n - k, k, last);
    if (gf_invert_matrix(last, inverse, k) != 0) {
        fprintf(stderr, "no inverse\n");
        exit(1);
    }
    ec_init_tables(k, k, inverse, decode_tables);
    double encode = least(k, n, encode_tables, &stripes[0][0], 16, &codes[0][0], MOST);
    double decode = least(k, k, decode_tables, &codes[0][n - k], MOST, &back[0][0], 16);
    for (int s = 0; s < STRIPES; s++)
        if (memcmp(stripes[s], back[s], (size_t)k * CHUNK) != 0) {
            fprintf(stderr, "decoded bytes differ\n");
            exit(1);
        }
    double file = (double)STRIPES * k * CHUNK;
    printf("%d+%d isal encode %.0f decode %.0f digest %u\n", k, n - k, file / encode, file / decode, digest(codes, sizeof codes) ^ digest(back, sizeof back));
}

int main(void)
{
    unsigned x = 1;
    for (size_t i = 0; i < sizeof stripes; i++) {
        x = x * 1664525u + 1013904223u;
        ((unsigned char *)stripes)[i] = x >> 24;
    }
    run(2, 3);
    run(4, 6);
    run(16, 31);
    return 0;
}
