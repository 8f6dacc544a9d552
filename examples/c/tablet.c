/* What a tablet does for two growers on one controller: it makes one climate sheet and a block sheet for each, prints
 * their bytes, and reads each block with that climate by its decade table. Then January's ETo is set right, in the one
 * climate sheet, for both. After that four calls that are refused: a field out of its range in either sheet, a buffer
 * that is too short, and a number that is no role. All others are by role 1, which is enough to make a sheet. */
#include "balladsky.h"
#include <stdio.h>
#include <stdlib.h>

/* Fields 10 to 33: ETo 500 and eleven 0; rain twelve 0. */
static uint32_t climate_fields[BALLADSKY_CLIMATE_FIELDS] = {500};

/* Of each grower fields 1 to 9, 34 to 40, then February, which with 28 days is left out of the sheet. */
static uint32_t block_fields[2][BALLADSKY_BLOCK_FIELDS] = {
    {1, 9, 1, 1, 1, 1, 40, 100, 60, 100, 20, 20, 50, 75, 0, 127, 28},
    {1, 20, 2, 2, 2, 2, 50, 110, 70, 120, 30, 30, 40, 60, 0, 85, 28},
};

static uint8_t climate[BALLADSKY_CLIMATE], blocks[2][BALLADSKY_BLOCK];

/* How many bytes they have. */
static size_t climate_length, block_lengths[2];

static uint32_t out[BALLADSKY_OUT];

static void must(const char *what) {
    if (out[0] != BALLADSKY_ACCEPTED) {
        fprintf(stderr, "%s: refused %u %u\n", what, out[0], out[1]);
        exit(1);
    }
}

static void print_bytes(const uint8_t *sheet, size_t length) {
    printf("%u bytes\n", (unsigned)length);
    for (size_t i = 0; i < length; i++)
        printf("%02X%c", sheet[i], i % 16 == 15 || i + 1 == length ? '\n' : ' ');
}

static void make_climate(void) {
    balladsky_write_climate(BALLADSKY_LOOK, climate_fields, climate, sizeof climate, out);
    must("write climate");
    climate_length = out[2];
}

static void make_block(int grower) {
    balladsky_write_block(BALLADSKY_LOOK, block_fields[grower], blocks[grower], sizeof blocks[grower], out);
    must("write block");
    block_lengths[grower] = out[2];
}

/* Six numbers a row. */
static void print_tables(void) {
    for (int grower = 0; grower < 2; grower++) {
        uint32_t rows[BALLADSKY_ROWS];
        balladsky_table(BALLADSKY_LOOK, climate, climate_length, blocks[grower], block_lengths[grower], rows,
            BALLADSKY_ROWS, out);
        must("table");
        printf("table %d: %u row%s\n", grower + 1, out[2], out[2] == 1 ? "" : "s");
        for (uint32_t i = 0; i < 6 * out[2]; i++)
            printf("%u%c", rows[i], i % 6 == 5 ? '\n' : ' ');
    }
}

int main(void) {
    make_climate();
    printf("climate: ");
    print_bytes(climate, climate_length);
    for (int grower = 0; grower < 2; grower++) {
        make_block(grower);
        printf("block %d: ", grower + 1);
        print_bytes(blocks[grower], block_lengths[grower]);
    }
    print_tables();
    climate_fields[0] = 600;
    make_climate();
    printf("January's ETo set right\n");
    print_tables();
    climate_fields[0] = 1501;
    balladsky_write_climate(BALLADSKY_LOOK, climate_fields, climate, sizeof climate, out);
    printf("ETo 1501: refused %u %u\n", out[0], out[1]);
    balladsky_write_block(BALLADSKY_LOOK, block_fields[0], blocks[0], block_lengths[0] - 1, out);
    printf("%u bytes: refused %u %u\n", (unsigned)block_lengths[0] - 1, out[0], out[1]);
    block_fields[0][1] = 32;
    balladsky_write_block(BALLADSKY_LOOK, block_fields[0], blocks[0], sizeof blocks[0], out);
    printf("day 32: refused %u %u\n", out[0], out[1]);
    balladsky_write_block(4, block_fields[0], blocks[0], sizeof blocks[0], out);
    printf("role 4: refused %u %u\n", out[0], out[1]);
    return 0;
}
