/* Balladsky: the block water controller of documents 01 and 02, eleven calls on bytes. C99 and C++.
 *
 * Link target/staticlib/libexports.a (made by `tools/archive`, x86-64 Linux). It needs memcpy and memset, and
 * nothing else. Every call is proved to meet a contract that fixes each number it writes; crates/exports/src/lib.rt
 * states them.
 *
 * PARAMETERS
 *   role                 Who calls: BALLADSKY_LOOK, BALLADSKY_RECORD or BALLADSKY_MEND. Any number; one outside 1 to
 *                        3 is refusal 20.
 *   climate, block       The two sheets, read only, each with its length. The climate sheet has 24 numbers, fields 10
 *                        to 33: ETo of January to December, then their rain. The block sheet has 16, fields 1 to 9
 *                        and 34 to 40, or 17 where February has 29 days, field 41. Any climate sheet goes with any
 *                        block sheet, and many blocks may share one. Any bytes, any length. Pass the sheet's own
 *                        length: a buffer padded with FF or 00 is refused.
 *   area, area_length    The journal, read only: no call writes to it. Any bytes, any length; blank is every byte FF.
 *   amount               Points, hundredths of a millimetre. Any number.
 *   ky                   The yield response factor Ky, in hundredths. Any number.
 *   shallow_kind         What the shallow probe gives: BALLADSKY_PROBE_WATER a water content, BALLADSKY_PROBE_LOW its
 *                        supply voltage where the battery is low, any other number nothing. deep_kind likewise.
 *   shallow, deep        The content, as a fraction of the soil's volume, or the voltage. Any float, a NaN too: only a
 *                        content is judged. float is the four-byte IEEE type.
 *   capacity             The field capacity f, in ten-thousandths of the soil's volume: from a soil survey, or read off
 *                        the probe a day or two after a soaking rain, when drainage has stopped. It is no number of
 *                        either sheet. Any number.
 *   depths, rows         A buffer that you lend, with how many numbers it has. Too few is refusal 15.
 *   blocks, limit        A bank's: how many blocks one pump feeds, and how many valves it feeds on a day. Any numbers;
 *                        one outside 1 to 40 is refusal 22.
 *   lengths              A bank's, read only, with how many numbers it has: three a block in block order, the bytes of
 *                        its sheet, the bytes of its journal, the numbers of its part of depths. Any numbers. Fewer
 *                        than three a block, or lengths that together pass their buffer's end, are refusal 22; numbers
 *                        behind are not read.
 *   sheets, areas        A bank's block sheets and its journals, read only, each kind end to end from the start of one
 *                        buffer, in block order. The parts of depths stand in the same way. What lies behind the last
 *                        block's part is neither read nor written.
 *   answers              A bank's: an array of BALLADSKY_ANSWERS numbers that you lend.
 *   fields               An array of BALLADSKY_CLIMATE_FIELDS or BALLADSKY_BLOCK_FIELDS numbers, read only: those of
 *                        the sheet in its order; of a block the days of February last. Any numbers.
 *   out                  An array of BALLADSKY_OUT numbers that you lend.
 * The lengths of `fields`, `answers` and `out` are what no call can test. To write, `climate` and `block` are a buffer
 * of bytes that you lend: too few is refusal 15.
 * No pointer may be null, even where its length is 0, and each must point to as many elements as its length says.
 * Buffers of 32-bit numbers are aligned as uint32_t. `out`, `answers`, `depths`, `rows` and a sheet that is written
 * must not overlap anything else that is passed. Nothing is kept after the call returns, so what is lent need live no
 * longer than the call.
 *
 * WHAT IS WRITTEN
 *   out[0]  BALLADSKY_ACCEPTED (0; from open: clean), BALLADSKY_TORN (10) from open, or the refusal's number. 10 from
 *           open is a finding and no refusal: the ledger comes with it. From any other call it is a refusal.
 *   out[1]  The number returned with it; where open finds the journal torn, the place. Else 0.
 *   out[2]  and on: the answer, as each call says. Only where accepted, and by open where clean or torn.
 * Numbers of out beyond the answer, and what a lent buffer has beyond the depths, rows, answers or bytes, stay as they
 * were. A refusal writes out[0] and out[1], and no lent buffer.
 *
 * ROLES: every call takes one first, and judges it before it looks at anything else.
 *   1 looks: every call but rain, irrigation and close, which are refused 21.
 *   2 also records: rain, irrigation and close.
 *   3 also mends: only role 3 is handed the stores of an opening. Roles 1 and 2 get the ledger, clean or torn as role 3
 *   does, and out[20] to out[23] written as 0.
 *   All else is answered alike to every role that may call. Role 1 is handed no stores at all: whatever it calls, the
 *   journal stays as it was.
 *   At start-up firmware opens as role 3, whoever stands at the panel: while the journal is torn, role 2's entries are
 *   refused 10, and nothing but the stores of an opening as role 3 sets it going again.
 *
 * STORES: you do them, one byte at a time, each whole or not at all.
 *   rain, irrigation, close: the bytes out[4], out[5].. at the places out[2], out[2] + 1.., out[3] of them, lowest
 *   place first.
 *   open as role 3: FF at the places out[21], out[22].., out[20] of them, in that order, highest place first; none
 *   where clean.
 * Until a call's stores are done, make no other call on that area but after a power cut.
 * KEEP THE SHEETS of a journal as they were while it was blank. It holds what was entered, and each call works the
 * ledger out from the sheets: another climate sheet gives another ledger, and nothing tells. So does another block
 * sheet, unless its season has fewer days than are closed: then the journal is damaged.
 * RECOVERY is one call, open as role 3. After a cut between any two stores it finds the journal clean or torn, with the
 * ledger of all that was entered whole, which holds already; do its stores, then enter again what was cut. Its stores
 * may be cut in turn: open again, and it hands back those that are left. Until they are done the journal is torn, and
 * every entry, the plan, the loss, the probe and a bank with that journal in it are refused 10.
 *
 * STACK, THREADS AND SIGNALS
 *   Stack on x86-64, beside what memcpy and memset take: balladsky_bank less than 4,500 bytes, the plan less than
 *   2,800, every other call less than 1,500.
 *   Where memcpy and memset are bound lazily, the first call that uses one takes some 3 KB more, once: link with
 *   -z now, or statically, and it does not.
 *   No heap, no globals, no locks, no recursion, no system call: calls on different buffers may run at once in any
 *   number of threads, and calls that only share sheets or an area too, while nobody stores to them. In a signal
 *   handler a call is as safe as the buffers that it is given. The code uses SSE registers (xmm): the system saves them
 *   around a signal handler, but an interrupt routine must save them itself before it makes a call.
 */
#ifndef BALLADSKY_H
#define BALLADSKY_H

#include <stddef.h>
#include <stdint.h>

#ifdef __cplusplus
extern "C" {
#endif

#define BALLADSKY_OUT 24            /* numbers of out */
#define BALLADSKY_AREA 8192         /* bytes of the longest area */
#define BALLADSKY_DEPTHS 275        /* numbers that every plan fits in */
#define BALLADSKY_ANSWERS 200       /* numbers of a bank's answers: five for each of 40 blocks */
#define BALLADSKY_ROWS 174          /* numbers that every table fits in: 29 rows of six */
#define BALLADSKY_CLIMATE 60        /* bytes that every climate sheet fits in */
#define BALLADSKY_BLOCK 27          /* bytes that every block sheet fits in */
#define BALLADSKY_CLIMATE_FIELDS 24 /* numbers of a climate's fields */
#define BALLADSKY_BLOCK_FIELDS 17   /* numbers of a block's fields, the days of February among them */

/* Who calls: role. */
enum {
    BALLADSKY_LOOK = 1,   /* every call but rain, irrigation and close */
    BALLADSKY_RECORD = 2, /* those too */
    BALLADSKY_MEND = 3    /* all that, and an opening hands it the stores that mend */
};

/* What a probe gives: shallow_kind and deep_kind. */
enum {
    BALLADSKY_PROBE_SILENT = 0, /* nothing */
    BALLADSKY_PROBE_WATER = 1,  /* a water content */
    BALLADSKY_PROBE_LOW = 2     /* its supply voltage: the battery is low */
};

/* What out[0] says. A refusal is the first that applies of those that the call gives: 20, 21 and 22, then 1 to 4 for
 * the climate sheet, then 1 to 4 for the block sheet, then the others, read downward but for 17. A bank judges its
 * blocks one after another, each by all that concerns one block, and 23 last. In brackets what out[1] then is; else it
 * is 0. None passes 8,192.
 *
 * 1 to 4 are one sheet's: a length or a place is counted in that sheet, and out does not say which of the two it is. A
 * field keeps its number: 10 to 33 are the climate's, and where fields 1 and 20 are out of range, 4 comes with 20.
 * Of 1 and 2 it is whichever comes first in the bytes: a sheet of the two bytes 80 00 is refused 2 with place 1, though
 * 1 applies too.
 * Bytes behind the block sheet's sixteenth number are read as a seventeenth, the days of February. It must be 29, in
 * whatever season: sixteen numbers mean 28, and 28 there is refused 4 with 41. A start on 29 February is refused 4 with
 * 2 where it is not 29. Blank memory behind sixteen numbers is a number that goes on: behind a block sheet of n bytes,
 * FF is refused 1 with n + 1, FF FF 1 with n + 2, three or more 2 with n + 2. 00 is the number 0, refused 4 with 41,
 * and two or more 3 with n + 1. Behind a climate sheet of n bytes any byte is refused 3 with n.
 * 15 is given by the plan, after 11 and before 16, where depths has fewer numbers than there are days from the open day
 * to the season's last; by a bank, after a block's 11, where the block's part has; by the table, after 7, where rows
 * has fewer than six numbers a row; by the writers, after 4 and after 7, where the buffer has fewer bytes than the
 * sheet.
 * 17 is given by loss, right after 9 and before 10, where ky is outside 1 to 200: with ky 0 a damaged journal is
 * refused 9, and a torn one 17.
 * 18 and 19 are given by probe, after 11. 18 looks at each content, even where the other probe's is fine, and at
 * capacity: with capacity 0 two silent probes are refused 18.
 * 20 is given by every call, 21 by rain, irrigation and close: role 0 with an empty climate sheet is refused 20, and
 * rain of 0 by role 1 on a damaged journal 21.
 * 22 and 23 are given by a bank: blocks 0 with an empty climate sheet is refused 22, and 23 comes after every refusal
 * of every block. 1 to 11 and 15 of one block refuse the whole bank, first block first, with the number that the block
 * alone would get; a length or a place is counted in that block's sheet or journal, and out does not say which block it
 * is. Where the first block's part is too short and the second's sheet ends too early, that is 15. One block whose days
 * are all closed is 11 for the whole bank: leave it out. 16 is one block's answer and never the bank's. */
enum {
    BALLADSKY_ACCEPTED = 0,              /* accepted; open: the journal is clean */
    BALLADSKY_SHEET_ENDS = 1,            /* the climate sheet ends before its twenty-fourth number is whole, the block
                                            sheet before its sixteenth or within its seventeenth [the sheet's length] */
    BALLADSKY_BAD_NUMBER = 2,            /* a number has a third byte of 80 or more, or a last byte 00 after others
                                            [the offending byte's place] */
    BALLADSKY_BYTES_FOLLOW = 3,          /* bytes follow the climate sheet's twenty-fourth number, or the block sheet's
                                            seventeenth [the first extra byte's place] */
    BALLADSKY_FIELD_OUT_OF_RANGE = 4,    /* a field is outside its range [the sheet's lowest such field, 1 to 41] */
    BALLADSKY_SEASON_TOO_LONG = 5,       /* the season is longer than 275 days */
    BALLADSKY_ROOTS_SHRINK = 6,          /* the root depth at sowing is above the full one */
    BALLADSKY_OPENING_TOO_DRY = 7,       /* the opening depletion is above the total water of day 1 */
    BALLADSKY_AREA_TOO_LONG = 8,         /* the area is longer than 8,192 bytes */
    BALLADSKY_DAMAGED = 9,               /* the journal is damaged [the place after the last whole entry] */
    BALLADSKY_TORN = 10,                 /* it is torn [the place after the last whole entry]; from open a finding */
    BALLADSKY_ALL_CLOSED = 11,           /* all days are closed */
    BALLADSKY_AMOUNT_OUT_OF_RANGE = 12,  /* the amount is outside 1 to 120,000 */
    BALLADSKY_DAY_OVERFULL = 13,         /* the day's water would pass 240,000 */
    BALLADSKY_AREA_FULL = 14,            /* the entry does not fit in the area */
    BALLADSKY_BUFFER_TOO_SHORT = 15,     /* the lent buffer has too few numbers or bytes */
    BALLADSKY_NO_CHOICE = 16,            /* no choice of depths holds [the first day that none holds] */
    BALLADSKY_KY_OUT_OF_RANGE = 17,      /* Ky is outside 1 to 200 */
    BALLADSKY_CONTENT_OUT_OF_RANGE = 18, /* a content is no number from 0 to 1, or the capacity is outside 1 to 6,000 */
    BALLADSKY_NO_CONTENT = 19,           /* neither probe gives a content */
    BALLADSKY_ROLE_OUT_OF_RANGE = 20,    /* the role is outside 1 to 3 */
    BALLADSKY_ROLE_MAY_NOT_RECORD = 21,  /* role 1 enters rain, irrigation or a close */
    BALLADSKY_BANK_OUT_OF_RANGE = 22,    /* blocks or limit is outside 1 to 40, there are fewer than three lengths a
                                            block, or lengths pass their buffer's end */
    BALLADSKY_BLOCKS_DIFFER = 23         /* blocks differ in start month, start day, February's days or open day */
};

/* Opens the journal. Clean or torn: out[2] open day (days + 1 when all are closed), [3] depletion, [4] waiting rain,
 * [5] waiting irrigation, [6] season rain, [7] season irrigation, [8] season use, [9] season percolation, [10] the
 * place after the last entry, [11] season need: what the crop would have used on the closed days without stress. Then
 * need and use on the closed days of each stage: [12] and [13] initial, [14] and [15] development, [16] and [17] mid,
 * [18] and [19] late. Then the stores that mend a torn journal: [20] how many places to set to FF, [21] to [23] three
 * places, highest first, 0 past the count; all four are 0 where it is clean, and for roles 1 and 2. Refusals 20, then 1
 * to 9. */
void balladsky_open(uint32_t role, const uint8_t *climate, size_t climate_length, const uint8_t *block,
    size_t block_length, const uint8_t *area, size_t area_length, uint32_t *out);

/* Enters rain of the open day. Accepted: out[2] start, [3] count, [4] to [7] four bytes, 0 past the count. Refusals 20
 * and 21, then 1 to 14. */
void balladsky_rain(uint32_t role, const uint8_t *climate, size_t climate_length, const uint8_t *block,
    size_t block_length, const uint8_t *area, size_t area_length, uint32_t amount, uint32_t *out);

/* Enters irrigation of the open day, a net amount. As rain. Refusals 20 and 21, then 1 to 14. */
void balladsky_irrigation(uint32_t role, const uint8_t *climate, size_t climate_length, const uint8_t *block,
    size_t block_length, const uint8_t *area, size_t area_length, uint32_t amount, uint32_t *out);

/* Closes the open day. As rain. Refusals 20 and 21, then 1 to 11, and 14. */
void balladsky_close(uint32_t role, const uint8_t *climate, size_t climate_length, const uint8_t *block,
    size_t block_length, const uint8_t *area, size_t area_length, uint32_t *out);

/* The yield that stress on the closed days has cost, by one Ky. Accepted: out[2] the season's loss, [3] the initial
 * stage's, [4] development's, [5] mid's, [6] late's, in ten-thousandths: 100 * ky * (need - use) / need, rounded down,
 * at most 10,000, and 0 where the need is 0; need and use are the season's or the stage's that open answers. It answers
 * when all days are closed too. Refusals 20, then 1 to 9, then 17, then 10. */
void balladsky_loss(uint32_t role, const uint8_t *climate, size_t climate_length, const uint8_t *block,
    size_t block_length, const uint8_t *area, size_t area_length, uint32_t ky, uint32_t *out);

/* The depletion by the ledger and by the block's two probes. Accepted: out[2] the ledger's depletion, as open answers
 * it, [3] the measured one: (capacity - v) * Z / 10, rounded down, 0 where v is above capacity, and at most T, with the
 * open day's root depth Z in centimetres and its total water T. v is the content in ten-thousandths, rounded down from
 * the float's exact value, and of two contents the mean of both v, rounded down; -0.0 counts as 0. Waiting water plays
 * no part. It hands back no stores. Refusals 20, then 1 to 11, 18 and 19. */
void balladsky_probe(uint32_t role, const uint8_t *climate, size_t climate_length, const uint8_t *block,
    size_t block_length, const uint8_t *area, size_t area_length, uint32_t shallow_kind, float shallow,
    uint32_t deep_kind, float deep, uint32_t capacity, uint32_t *out);

/* Plans the waterings from the open day to the season's end. Accepted: depths[0] is the open day's net depth, depths[1]
 * the next day's, and so on; out[2] how many are above 0, [3] the net total, [4] the gross total. Refusals 20, then 1
 * to 11, 15 and 16. */
void balladsky_plan(uint32_t role, const uint8_t *climate, size_t climate_length, const uint8_t *block,
    size_t block_length, const uint8_t *area, size_t area_length, uint32_t *depths, size_t depths_length,
    uint32_t *out);

/* Plans up to 40 blocks on one pump, in the order given and with one climate sheet for all. A day on which `limit` of
 * the earlier blocks water is no turn day for the later ones, so that no day has more than `limit` waterings. Accepted:
 * each block has five numbers of answers, block k, counted from 0, those from answers[5 * k]: 0, 0, how many depths are
 * above 0, the net total, the gross total; its depths stand at the start of its part as the plan's do. Or 16, the first
 * day that no choice on the turn days left to it holds, 0, 0, 0: such a block takes no valve, its part stays as it was,
 * and the next one is planned. The rest of a part, the numbers behind the last part and those behind the last block's
 * answer stay as they were; of out only [0] and [1] are written. Blocks may differ in the length of their season:
 * valves are counted by season day, which is the same calendar day for all. It hands back no stores. Refusals 20, then
 * 22, then 1 to 4 of the climate sheet, then block by block 1 to 11 and 15, then 23. */
void balladsky_bank(uint32_t role, const uint8_t *climate, size_t climate_length, uint32_t blocks, uint32_t limit,
    const uint32_t *lengths, size_t lengths_length, const uint8_t *sheets, size_t sheets_length, const uint8_t *areas,
    size_t areas_length, uint32_t *depths, size_t depths_length, uint32_t *answers, uint32_t *out);

/* The decade table. Accepted: rows holds six numbers a row: month, decade, need, planned rain, net, gross; out[2] how
 * many rows. Refusals 20, then 1 to 7, and 15. */
void balladsky_table(uint32_t role, const uint8_t *climate, size_t climate_length, const uint8_t *block,
    size_t block_length, uint32_t *rows, size_t rows_length, uint32_t *out);

/* Writes a climate sheet: fields are its 24 numbers, field 10 first. Accepted: the buffer begins with the sheet's
 * bytes; out[2] how many they are, which is climate_length for the other calls. Refusals 20, 4 as the other calls give
 * it, and 15. */
void balladsky_write_climate(uint32_t role, const uint32_t *fields, uint8_t *climate, size_t climate_length,
    uint32_t *out);

/* Writes a block sheet: fields are its sixteen numbers, field 1 first and 34 behind 9, and then the days of February,
 * 28 or 29; anything else there is refused 4 with 41. 28 is left out of the sheet, 29 is its seventeenth number.
 * Accepted: as for the climate sheet, out[2] being block_length. Refusals 20, 4 to 7 as the other calls give them, and
 * 15. */
void balladsky_write_block(uint32_t role, const uint32_t *fields, uint8_t *block, size_t block_length, uint32_t *out);

#ifdef __cplusplus
}
#endif

#endif
