/* One frame from its coefficients to the body and back, and its listening copy beside the coefficients, in C99: two channels
 * and an LFE, a chord over quiet noise, as in examples/chord. scripts/run-examples runs this program and
 * bindings/rust/examples/encode_frame.rs, which prints the same. */
#include "ac3core.h"

#include <stdio.h>
#include <stdlib.h>
#include <string.h>

enum { CHANNELS = 3, LFE = 2, LFE_END = 7, ENTRIES = AC3_ENTRIES(CHANNELS), ROOM = AC3_LONGEST_BODY(CHANNELS) };

/* The length of what follows, version 1, 48 kHz, two channels and the LFE, sdcycod, fdcycod, sgaincod, dbpbcod, floorcod,
 * csnroffst; then a record for each channel, in ascending number, the LFE's last: number, end, six strategies, fsnroffst,
 * fgaincod, nseg and its segments. */
static const uint8_t sheet[] = {
    0, 46, 1, 0, 2, 1, 2, 1, 1, 2, 7, 18,
    0, 181, 1, 0, 0, 2, 0, 0, 5, 4, 0,
    1, 181, 2, 0, 3, 0, 1, 0, 5, 4, 1, 10, 4, 5,
    2, 7, 1, 0, 0, 0, 0, 0, 8, 4, 0,
};
static const int ends[CHANNELS] = {181, 181, 7};

static float coeffs[ENTRIES];
static uint8_t exps[ENTRIES], bap[ENTRIES], body[ROOM];
static uint16_t codes[ENTRIES];
static uint32_t counts[12];

/* What the reader gives. */
static uint8_t exps_read[ENTRIES], bap_read[ENTRIES], body_again[ROOM];
static uint16_t codes_read[ENTRIES];
static uint32_t counts_read[12];

/* Its listening copy. */
static uint8_t has_level[ENTRIES];
static float levels[ENTRIES];

/* Ends the program where a call that must do its work is refused. */
static void must(uint32_t number)
{
    if (number != AC3_ACCEPTED) {
        fprintf(stderr, "refused %u: %s\n", (unsigned)number, ac3_cause(number));
        exit(1);
    }
}

/* Ends the program where what must hold does not. */
static void hold(int holds, const char *what)
{
    if (!holds) {
        fprintf(stderr, "not so: %s\n", what);
        exit(1);
    }
}

/* Whole numbers -32768..32767, by a linear congruence: the same everywhere. */
static double noise(void)
{
    static uint32_t state = 2026;
    state = state * UINT32_C(1664525) + UINT32_C(1013904223);
    return (double)(state >> 16) - 32768.0;
}

/* Four tones that fall off to both sides, over a quiet floor. */
static void chord(void)
{
    static const int tones[4] = {3, 11, 24, 60};
    for (int block = 0; block < AC3_BLOCKS_PER_FRAME; block++) {
        for (int channel = 0; channel < CHANNELS; channel++) {
            float *part = coeffs + AC3_PART(CHANNELS, block, channel);
            for (int i = 0; i < AC3_N_COEFFS; i++) {
                double x = noise() / (1 << 26);
                for (int t = 0; t < 4; t++) {
                    int fall = 3 * abs(i - tones[t]) + channel;
                    x += noise() / (1 << 16) / (1 << (fall < 20 ? fall : 20));
                }
                part[i] = i < ends[channel] ? (float)x : 0.0f;
            }
        }
    }
}

static uint32_t encode(size_t room)
{
    return ac3_encode_body(sheet, sizeof sheet, coeffs, ENTRIES, exps, ENTRIES, bap, ENTRIES, codes, ENTRIES, body, room, counts, 12);
}

static uint32_t read_back(size_t size, uint32_t *bits)
{
    return ac3_read_body(sheet, sizeof sheet, body, size, exps_read, ENTRIES, bap_read, ENTRIES, codes_read, ENTRIES,
                         counts_read, 12, bits, 1);
}

/* The listening copy of what was read. A bin without a level is silent. */
static void listening_copy(void)
{
    must(ac3_reconstruct_body(sheet, sizeof sheet, exps_read, ENTRIES, codes_read, ENTRIES, has_level, ENTRIES, levels, ENTRIES));
    int with_level = 0, bins = AC3_BLOCKS_PER_FRAME * (ends[0] + ends[1] + ends[2]);
    double largest = 0.0;
    for (int i = 0; i < ENTRIES; i++) {
        if (has_level[i]) {
            double difference = (double)coeffs[i] - (double)levels[i];
            double size = difference < 0.0 ? -difference : difference;
            largest = size > largest ? size : largest;
            with_level++;
        }
    }
    printf("listened to: %d of %d bins have a level, the largest difference is %.9f\n", with_level, bins, largest);
}

static void tell(const char *what, uint32_t number)
{
    printf("%s: refused %u: %s\n", what, (unsigned)number, ac3_cause(number));
}

int main(void)
{
    must(ac3_check_sheet(sheet, sizeof sheet));
    printf("sheet of %u bytes, %d channels with ends [%d, %d, %d]\n", (unsigned)sizeof sheet, CHANNELS, ends[0], ends[1], ends[2]);

    chord();
    must(encode(ROOM));
    uint32_t total = 0;
    for (int block = 0; block < AC3_BLOCKS_PER_FRAME; block++) {
        printf("block %d %u %u\n", block, (unsigned)counts[block], (unsigned)counts[6 + block]);
        total += counts[block] + counts[6 + block];
    }
    printf("total %u\n", (unsigned)total);
    size_t size = (total + 7) / 8;
    printf("body of %u bytes\n", (unsigned)size);

    /* The allocation alone, of the exponents that the encoder chose. */
    uint8_t lfe[LFE_END];
    must(ac3_compute_bap(sheet, sizeof sheet, LFE, exps + AC3_PART(CHANNELS, 0, LFE), LFE_END, lfe, LFE_END));
    hold(memcmp(lfe, bap + AC3_PART(CHANNELS, 0, LFE), LFE_END) == 0, "the encoder's allocation of the LFE");
    printf("bap of the LFE in block 0: [");
    for (int i = 0; i < LFE_END; i++)
        printf("%s%d", i ? ", " : "", lfe[i]);
    printf("]\n");

    uint32_t bits;
    must(read_back(size, &bits));
    hold(memcmp(exps, exps_read, sizeof exps) == 0, "the same exponents");
    hold(memcmp(bap, bap_read, sizeof bap) == 0, "the same bap");
    hold(memcmp(codes, codes_read, sizeof codes) == 0, "the same codes");
    hold(memcmp(counts, counts_read, sizeof counts) == 0, "the same counts");
    printf("read back: %u bits, the same exponents, bap and codes\n", (unsigned)bits);

    must(ac3_write_body(sheet, sizeof sheet, exps_read, ENTRIES, codes_read, ENTRIES, body_again, ROOM, counts_read, 12));
    hold(memcmp(body, body_again, size) == 0, "the same body");
    printf("written again: the same %u bytes\n", (unsigned)size);

    listening_copy();

    tell("a byte less room", encode(size - 1));
    hold(memcmp(body, body_again, size) == 0, "a refused call leaves the body");
    tell("a byte less input", read_back(size - 1, &bits));

    uint8_t wide[] = {0, 21, 1, 0, 1, 0, 2, 1, 1, 2, 7, 18, 0, 254, 1, 0, 0, 0, 0, 0, 0, 0, 0};
    tell("a channel with end 254", ac3_check_sheet(wide, sizeof wide));
    return 0;
}
