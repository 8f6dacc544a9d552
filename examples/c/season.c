/* A season of four days on the small pair of sheets, with two power cuts. Firmware opens as role 3, role 2 records,
 * and role 1 looks at the panel and presses the wrong key. Prints the decade table, the plans of four such blocks on
 * one pump, what the soil probes say on day 3, the ledger and the lost yield. */
#include "balladsky.h"
#include <stdio.h>
#include <stdlib.h>
#include <string.h>

/* ETo 500 and eleven 0; rain twelve 0. */
static const uint8_t climate[] = {
    0xF4, 3, 0, 0, 0, 0, 0, 0, 0, 0, 0, 0, 0, 0, 0, 0, 0, 0, 0, 0, 0, 0, 0, 0, 0,
};

/* 1 9; 1 1 1 1; 40 100 60; 100 20 20 50; 75; 0; turns 127. */
static const uint8_t block[] = {1, 9, 1, 1, 1, 1, 40, 100, 60, 100, 20, 20, 50, 75, 0, 127};

/* A NaN by its bits. */
static const union { uint32_t bits; float value; } no_number = {0x7FC00000};

/* The journal's memory. */
static uint8_t area[64];

static uint32_t out[BALLADSKY_OUT];

static void must(const char *what) {
    if (out[0] != BALLADSKY_ACCEPTED) {
        fprintf(stderr, "%s: refused %u %u\n", what, out[0], out[1]);
        exit(1);
    }
}

/* Six numbers a row. */
static void print_table(void) {
    uint32_t rows[BALLADSKY_ROWS];
    balladsky_table(BALLADSKY_LOOK, climate, sizeof climate, block, sizeof block, rows, BALLADSKY_ROWS, out);
    must("table");
    printf("table: %u row%s\n", out[2], out[2] == 1 ? "" : "s");
    for (uint32_t i = 0; i < 6 * out[2]; i++)
        printf("%u%c", rows[i], i % 6 == 5 ? '\n' : ' ');
}

/* Blocks on one pump, bytes of each one's journal, and numbers of its part of the depths, a day more than the season
 * has. */
#define BLOCKS 4
#define JOURNAL 8
#define PART 5

/* Four blocks with this sheet and blank journals, on a pump that feeds so many valves a day. What a part holds beside
 * its depths is 7. */
static void print_bank(uint32_t limit) {
    uint32_t lengths[3 * BLOCKS], depths[BLOCKS * PART], answers[BALLADSKY_ANSWERS];
    uint8_t sheets[BLOCKS * sizeof block], areas[BLOCKS * JOURNAL];
    memset(areas, 0xFF, sizeof areas);
    for (int k = 0; k < BLOCKS; k++) {
        memcpy(sheets + k * sizeof block, block, sizeof block);
        lengths[3 * k] = sizeof block;
        lengths[3 * k + 1] = JOURNAL;
        lengths[3 * k + 2] = PART;
    }
    for (int i = 0; i < BLOCKS * PART; i++)
        depths[i] = 7;
    balladsky_bank(BALLADSKY_LOOK, climate, sizeof climate, BLOCKS, limit, lengths, 3 * BLOCKS, sheets, sizeof sheets,
        areas, sizeof areas, depths, BLOCKS * PART, answers, out);
    must("bank");
    printf("bank: %d blocks, %u valve%s a day\n", BLOCKS, limit, limit == 1 ? "" : "s");
    for (int k = 0; k < BLOCKS; k++) {
        const uint32_t *answer = answers + 5 * k;
        if (answer[0] == BALLADSKY_ACCEPTED)
            printf("block %d: %u watering%s, net %u, gross %u, depths", k + 1, answer[2], answer[2] == 1 ? "" : "s",
                answer[3], answer[4]);
        else
            printf("block %d: refused %u %u, depths", k + 1, answer[0], answer[1]);
        for (int i = 0; i < PART; i++)
            printf(" %u%s", depths[PART * k + i], i + 1 == PART ? "\n" : "");
    }
}

/* The first `done` stores of an entry, lowest place first. */
static void store(uint32_t done) {
    for (uint32_t i = 0; i < done; i++)
        area[out[2] + i] = (uint8_t)out[4 + i];
}

/* Opens as a role. Only role 3 is told places to mend. */
static void open_as(uint32_t role) {
    balladsky_open(role, climate, sizeof climate, block, sizeof block, area, sizeof area, out);
    if (out[0] == BALLADSKY_TORN) {
        printf("role %u opens: torn at %u, %u to mend\n", role, out[1], out[20]);
    } else {
        must("open");
        printf("role %u opens: clean\n", role);
    }
}

/* What firmware does when it comes up, whoever stands at the panel: open as role 3, and do the stores that mend what a
 * cut left. */
static void come_up(void) {
    open_as(BALLADSKY_MEND);
    for (uint32_t i = 0; i < out[20]; i++) {
        area[out[21 + i]] = 0xFF;
        printf("place %u mended\n", out[21 + i]);
    }
}

/* The rain key, pressed by a role that may not record. */
static void press_rain(uint32_t role, uint32_t amount) {
    balladsky_rain(role, climate, sizeof climate, block, sizeof block, area, sizeof area, amount, out);
    printf("role %u presses rain %u: refused %u %u\n", role, amount, out[0], out[1]);
}

typedef void entry_call(uint32_t, const uint8_t *, size_t, const uint8_t *, size_t, const uint8_t *, size_t, uint32_t,
    uint32_t *);

/* Enters water; the power goes after `cut` stores, and it is entered again. */
static void enter_with_cut(const char *name, entry_call *call, uint32_t amount, uint32_t cut) {
    call(BALLADSKY_RECORD, climate, sizeof climate, block, sizeof block, area, sizeof area, amount, out);
    must(name);
    printf("%s %u: power cut after %u of %u stores\n", name, amount, cut, out[3]);
    store(cut);
    open_as(BALLADSKY_LOOK);
    come_up();
    call(BALLADSKY_RECORD, climate, sizeof climate, block, sizeof block, area, sizeof area, amount, out);
    must(name);
    printf("%s %u: %u stores from %u\n", name, amount, out[3], out[2]);
    store(out[3]);
}

static void close_day(unsigned day) {
    balladsky_close(BALLADSKY_RECORD, climate, sizeof climate, block, sizeof block, area, sizeof area, out);
    must("close");
    store(out[3]);
    printf("day %u closed\n", day);
}

/* The ledger's depletion beside the measured one, in a soil whose field capacity is 0.3 of its volume. */
static void print_probes(const char *what, uint32_t shallow_kind, float shallow, uint32_t deep_kind, float deep) {
    balladsky_probe(BALLADSKY_LOOK, climate, sizeof climate, block, sizeof block, area, sizeof area, shallow_kind,
        shallow, deep_kind, deep, 3000, out);
    if (out[0] == BALLADSKY_ACCEPTED)
        printf("probes, %s: ledger %u, measured %u\n", what, out[2], out[3]);
    else
        printf("probes, %s: refused %u %u\n", what, out[0], out[1]);
}

static void print_ledger(void) {
    static const char *const names[] = {
        "open day", "depletion", "waiting rain", "waiting irrigation", "season rain", "season irrigation", "season use",
        "season percolation", "place", "season need",
    };
    static const char *const stages[] = {"initial", "development", "mid", "late"};
    balladsky_open(BALLADSKY_LOOK, climate, sizeof climate, block, sizeof block, area, sizeof area, out);
    must("open");
    for (int i = 0; i < 10; i++)
        printf("%s %u\n", names[i], out[2 + i]);
    for (int i = 0; i < 4; i++)
        printf("%s need %u, use %u\n", stages[i], out[12 + 2 * i], out[13 + 2 * i]);
}

/* The season's and the four stages', in ten-thousandths. */
static void print_loss(uint32_t ky) {
    balladsky_loss(BALLADSKY_LOOK, climate, sizeof climate, block, sizeof block, area, sizeof area, ky, out);
    must("loss");
    printf("loss with Ky %u: season %u, stages %u %u %u %u\n", ky, out[2], out[3], out[4], out[5], out[6]);
}

int main(void) {
    uint32_t depths[BALLADSKY_DEPTHS];
    memset(area, 0xFF, sizeof area);
    come_up();
    print_table();
    print_bank(1);
    press_rain(BALLADSKY_LOOK, 300);
    enter_with_cut("rain", balladsky_rain, 300, 2);
    close_day(1);
    close_day(2);
    print_probes("both", BALLADSKY_PROBE_WATER, 0.25f, BALLADSKY_PROBE_WATER, 0.28125f);
    print_probes("shallow low", BALLADSKY_PROBE_LOW, 2.9f, BALLADSKY_PROBE_WATER, 0.28125f);
    print_probes("both silent", BALLADSKY_PROBE_SILENT, 0, BALLADSKY_PROBE_SILENT, 0);
    print_probes("shallow NaN", BALLADSKY_PROBE_WATER, no_number.value, BALLADSKY_PROBE_WATER, 0.28125f);
    balladsky_plan(BALLADSKY_LOOK, climate, sizeof climate, block, sizeof block, area, sizeof area, depths,
        BALLADSKY_DEPTHS, out);
    must("plan");
    printf("plan: %u watering%s, net %u, gross %u\n", out[2], out[2] == 1 ? "" : "s", out[3], out[4]);
    enter_with_cut("irrigation", balladsky_irrigation, depths[0], 1);
    close_day(3);
    close_day(4);
    print_ledger();
    print_loss(100);
    return 0;
}
