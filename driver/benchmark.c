// Measures the proved code beside our own C (peers.h), in one run: the results are compared first, then each is timed many times,
// taking turns, and the best time of each counts. 'Times as fast' above 1 says that the proved code is faster. 'Bit-sliced C' is our own in
// the way of the ciphers' authors, not their code.
#include "katan_bench.h"
#include "peers.h"

#include <stdio.h>
#include <stdlib.h>
#include <string.h>
#include <time.h>

enum { LANES = 64, REPEATS = 200 };

static uint8_t keys[10 * LANES];
static uint64_t blocks[LANES], out[LANES], expected[LANES];

static uint64_t random_state = 88172645463325252u;

static uint64_t random64(void) {
    random_state ^= random_state << 13;
    random_state ^= random_state >> 7;
    random_state ^= random_state << 17;
    return random_state;
}

static int width(int variant) { return 32 + 16 * ((variant - 1) % 3); }

static void fill(int variant) {
    for (size_t i = 0; i < sizeof keys; i++) keys[i] = random64() >> 32;
    for (int i = 0; i < LANES; i++) blocks[i] = random64() >> (64 - width(variant));
}

static void must(int holds, const char *what) {
    if (!holds) {
        fprintf(stderr, "benchmark: %s\n", what);
        exit(1);
    }
}

static double nanoseconds(void) {
    struct timespec t;
    clock_gettime(CLOCK_MONOTONIC, &t);
    return 1e9 * t.tv_sec + t.tv_nsec;
}

// ---- what is measured: 64 blocks

static void our_many(int variant, int decrypt, const uint8_t *k, const uint64_t *in, uint64_t *to, size_t n) {
    uint8_t status = decrypt ? katan_decrypt_many(variant, k, 10 * n, in, n, to, n)
                             : katan_encrypt_many(variant, k, 10 * n, in, n, to, n);
    must(status == 0, "a call of many blocks was refused");
}

static void our_blocks(int variant, int decrypt, const uint8_t *k, const uint64_t *in, uint64_t *to, size_t n) {
    for (size_t i = 0; i < n; i++) {
        uint8_t status = decrypt ? katan_decrypt(variant, k + 10 * i, 10, in[i], to + i, 1)
                                 : katan_encrypt(variant, k + 10 * i, 10, in[i], to + i, 1);
        must(status == 0, "a call of one block was refused");
    }
}

static many_blocks *const measured[] = {our_blocks, our_many, peer_scalar, peer_sliced, peer_sliced_transposed};
enum { OUR_BLOCKS, OUR_MANY, SCALAR, SLICED, TRANSPOSED, MEASURED };

// How many calls are timed together, so that the clock's own time does not count.
static const int calls[] = {1, 20, 1, 4, 10};

static void blocks_table(int decrypt) {
    printf("\n%s, 64 blocks with 64 keys: times as fast as\n", decrypt ? "Decryption" : "Encryption");
    printf("variant   one by one:  many together:\n");
    printf("          plain C      plain C   bit-sliced C   with fast transposes   (ns)\n");
    for (int variant = 1; variant <= 6; variant++) {
        double best[MEASURED];
        for (size_t n = 1; n <= LANES; n++) {
            fill(variant);
            peer_scalar(variant, decrypt, keys, blocks, expected, n);
            for (int i = 0; i < MEASURED; i++) {
                memset(out, 0, sizeof out);
                measured[i](variant, decrypt, keys, blocks, out, n);
                must(memcmp(out, expected, n * sizeof *out) == 0, "results differ");
            }
        }
        for (int i = 0; i < MEASURED; i++) best[i] = 1e18;
        for (int repeat = 0; repeat < REPEATS; repeat++) {
            for (int i = 0; i < MEASURED; i++) {
                double start = nanoseconds();
                for (int call = 0; call < calls[i]; call++) measured[i](variant, decrypt, keys, blocks, out, LANES);
                double taken = (nanoseconds() - start) / calls[i];
                if (taken < best[i]) best[i] = taken;
            }
        }
        printf("%-9d %-12.2f %-9.0f %-14.1f %-22.1f %.0f\n", variant, best[SCALAR] / best[OUR_BLOCKS],
               best[SCALAR] / best[OUR_MANY], best[SLICED] / best[OUR_MANY], best[TRANSPOSED] / best[OUR_MANY], best[OUR_MANY]);
    }
}

// ---- a message

static uint8_t message[KATAN_LONGEST_DATA], sent[KATAN_LONGEST_DATA], sent_by_c[KATAN_LONGEST_DATA];
static uint64_t numbers[KATAN_LONGEST_DATA / 4];  // a block has 4 bytes or more

static void our_keystream(int variant, uint64_t start, size_t length) {
    must(katan_keystream(variant, keys, 10, start, message, length, sent, length) == 0, "a keystream was refused");
}

// The calls of many blocks that a message needs, and nothing else of its work.
static void its_batches(int variant, size_t length) {
    size_t count = (length + width(variant) / 8 - 1) / (width(variant) / 8);
    for (size_t first = 0; first < count; first += LANES) our_many(variant, 0, keys, numbers + first, out, LANES);
}

static void message_table(size_t length) {
    printf("\nA message of %zu bytes\n", length);
    printf("variant   times as fast as plain C   times as long as its calls of many blocks   (ns)\n");
    for (int variant = 1; variant <= 6; variant++) {
        double plain = 1e18, ours = 1e18, batches = 1e18;
        fill(variant);
        uint64_t start = blocks[0] / 2;
        for (int i = 10; i < 10 * LANES; i++) keys[i] = keys[i % 10];
        for (size_t j = 0; j < sizeof message; j++) message[j] = random64() >> 32;
        for (size_t i = 0; i < KATAN_LONGEST_DATA / 4; i++) numbers[i] = start + i;
        for (size_t n = 0; n <= length; n += n < 600 ? 1 : length - n < 37 ? 1 : 37) {
            our_keystream(variant, start, n);
            peer_keystream(variant, keys, start, message, sent_by_c, n);
            must(memcmp(sent, sent_by_c, n) == 0, "results differ");
        }
        for (int repeat = 0; repeat < REPEATS; repeat++) {
            double a = nanoseconds();
            our_keystream(variant, start, length);
            double b = nanoseconds();
            its_batches(variant, length);
            double c = nanoseconds();
            peer_keystream(variant, keys, start, message, sent_by_c, length);
            double d = nanoseconds();
            if (b - a < ours) ours = b - a;
            if (c - b < batches) batches = c - b;
            if (d - c < plain) plain = d - c;
        }
        printf("%-9d %-26.0f %-43.2f %.0f\n", variant, plain / ours, ours / batches, ours);
    }
}

// ---- where a bit came from

static void origin_table(void) {
    printf("\nWhere a bit came from: fa and fb of clock %d\n", KATAN_LAST_CLOCK);
    printf("variant   times as fast as plain C   (ns)\n");
    for (int variant = 1; variant <= 6; variant++) {
        uint64_t found[KATAN_ORIGIN_WORDS], found_by_c[KATAN_ORIGIN_WORDS];
        double ours = 1e18, plain = 1e18;
        fill(variant);
        for (int i = 0; i < LANES; i++) {
            for (int clock = 0; clock <= KATAN_LAST_CLOCK; clock++) {
                must(katan_origin(variant, keys + 10 * i, 10, blocks[i], clock, found, KATAN_ORIGIN_WORDS) == 0, "a clock was refused");
                peer_origin(variant, keys + 10 * i, blocks[i], clock, found_by_c);
                must(memcmp(found, found_by_c, sizeof found) == 0, "results differ");
            }
        }
        for (int repeat = 0; repeat < 10 * REPEATS; repeat++) {
            double a = nanoseconds();
            must(katan_origin(variant, keys, 10, blocks[0], KATAN_LAST_CLOCK, found, KATAN_ORIGIN_WORDS) == 0, "a clock was refused");
            double b = nanoseconds();
            peer_origin(variant, keys, blocks[0], KATAN_LAST_CLOCK, found_by_c);
            double c = nanoseconds();
            must(memcmp(found, found_by_c, sizeof found) == 0, "results differ");
            if (b - a < ours) ours = b - a;
            if (c - b < plain) plain = c - b;
        }
        printf("%-9d %-26.2f %.0f\n", variant, plain / ours, ours);
    }
}

// ---- smudged bits: 64 sheets run to the last position, beside the encryption of 64 blocks

static uint64_t sheets[LANES][KATAN_SMUDGED_WORDS], found[LANES][KATAN_SMUDGED_WORDS], found_by_c[LANES][KATAN_SMUDGED_WORDS];
static uint8_t key_ones[10 * LANES], key_zeros[10 * LANES];

// Bits that can be read: all of them, or about nine tenths.
static uint64_t legible(int smudged, int count) {
    uint64_t kept = 0;
    for (int i = 0; i < count; i++) kept |= (uint64_t)(!smudged || (random64() >> 32) % 10 != 0) << i;
    return kept;
}

// The blocks and keys as sheets.
static void fill_sheets(int variant, int smudged) {
    for (int i = 0; i < LANES; i++) {
        sheets[i][0] = blocks[i];
        sheets[i][1] = ~blocks[i] & UINT64_MAX >> (64 - width(variant));
        uint64_t kept = legible(smudged, width(variant));
        sheets[i][0] &= kept;
        sheets[i][1] &= kept;
    }
    for (size_t j = 0; j < sizeof keys; j++) {
        uint8_t kept = legible(smudged, 8);
        key_ones[j] = keys[j] & kept;
        key_zeros[j] = ~keys[j] & kept;
    }
}

static void our_smudged(int variant, int position) {
    for (int i = 0; i < LANES; i++) {
        uint8_t status = katan_smudged(variant, sheets[i][0], sheets[i][1], key_ones + 10 * i, 10, key_zeros + 10 * i, 10, position, found[i],
                                       KATAN_SMUDGED_WORDS);
        must(status == 0, "a sheet was refused");
    }
}

static void plain_smudged(int variant, int position) {
    for (int i = 0; i < LANES; i++) peer_smudged(variant, sheets[i], key_ones + 10 * i, key_zeros + 10 * i, position, found_by_c[i]);
}

static void smudged_table(void) {
    printf("\nSmudged bits: a run to position %d, a tenth of block and key unknown\n", KATAN_ROUNDS);
    printf("variant   times as long as katan_encrypt   times as fast as plain C   (ns)\n");
    for (int variant = 1; variant <= 6; variant++) {
        double ours = 1e18, plain = 1e18, encryption = 1e18;
        fill(variant);
        for (int smudged = 0; smudged < 2; smudged++) {
            fill_sheets(variant, smudged);
            for (int position = 0; position <= KATAN_ROUNDS; position++) {
                our_smudged(variant, position);
                plain_smudged(variant, position);
                must(memcmp(found, found_by_c, sizeof found) == 0, "results differ");
            }
            our_blocks(variant, 0, keys, blocks, out, LANES);
            for (int i = 0; !smudged && i < LANES; i++) {
                must(found[i][0] == out[i] && found[i][1] == (~out[i] & UINT64_MAX >> (64 - width(variant))), "results differ");
            }
        }
        for (int repeat = 0; repeat < REPEATS; repeat++) {
            double a = nanoseconds();
            our_smudged(variant, KATAN_ROUNDS);
            double b = nanoseconds();
            our_blocks(variant, 0, keys, blocks, out, LANES);
            double c = nanoseconds();
            plain_smudged(variant, KATAN_ROUNDS);
            double d = nanoseconds();
            if (b - a < ours) ours = b - a;
            if (c - b < encryption) encryption = c - b;
            if (d - c < plain) plain = d - c;
        }
        printf("%-9d %-32.2f %-26.2f %.0f\n", variant, ours / encryption, plain / ours, ours / LANES);
    }
}

// ---- the bench: arrivals and reads

static uint8_t bench[KATAN_BENCH_LENGTH], kept[KATAN_BENCH_LENGTH];
static uint8_t linked[KATAN_LINK_LENGTH], kept_link[KATAN_LINK_LENGTH];

static void put(uint8_t *bytes, uint64_t x, int count) {
    for (int i = 0; i < count; i++) bytes[i] = x >> 8 * i;
}

static void arrive(const uint8_t *record) {
    uint32_t answer[3];
    must(katan_arrive(bench, sizeof bench, linked, sizeof linked, record, KATAN_RECORD_LENGTH, answer, 3) == 0, "an arrival was refused");
}

static void move_record(uint8_t *record, uint8_t kind, uint32_t number, uint64_t mask, uint8_t count) {
    memset(record, 0, KATAN_RECORD_LENGTH);
    record[0] = kind;
    record[2] = count;
    put(record + 4, number, 4);
    put(record + 8, mask, 8);
}

// Random keys and blocks, loaded at 0 into the 64 lanes of a bench that is kept.
static void load_and_keep(int variant) {
    uint8_t record[KATAN_RECORD_LENGTH];
    fill(variant);
    must(katan_open(variant, bench, sizeof bench, linked, sizeof linked) == 0, "opening was refused");
    for (int lane = 0; lane < LANES; lane++) {
        memset(record, 0, sizeof record);
        record[0] = KATAN_LOAD;
        record[1] = lane;
        put(record + 4, lane + 1, 4);
        memcpy(record + 16, keys + 10 * lane, 10);
        put(record + 26, blocks[lane], 8);
        arrive(record);
    }
    memcpy(kept, bench, sizeof kept);
    memcpy(kept_link, linked, sizeof kept_link);
}

static void take_kept(void) {
    memcpy(bench, kept, sizeof bench);
    memcpy(linked, kept_link, sizeof linked);
}

static void must_be_at(int lane, uint64_t position, uint64_t registers) {
    uint64_t read[2];
    must(katan_read(bench, sizeof bench, lane, read, 2) == 0, "a read was refused");
    must(read[0] == position && read[1] == registers, "results differ");
}

// The best time of an arrival on the bench that is kept.
static double arrival_time(const uint8_t *record) {
    double best = 1e18;
    for (int repeat = 0; repeat < REPEATS; repeat++) {
        take_kept();
        double start = nanoseconds();
        arrive(record);
        double taken = nanoseconds() - start;
        if (taken < best) best = taken;
    }
    return best;
}

static void bench_table(void) {
    printf("\nThe bench, 64 lanes loaded at 0\n");
    printf("variant   forward 1, one lane (ns)   forward 254, 64 lanes: times plain C   a read (ns)\n");
    for (int variant = 1; variant <= 6; variant++) {
        uint8_t record[KATAN_RECORD_LENGTH];
        uint64_t read[2];
        load_and_keep(variant);
        move_record(record, KATAN_FORWARD, LANES + 1, 1, 1);
        double step = arrival_time(record);
        move_record(record, KATAN_FORWARD, LANES + 1, UINT64_MAX, 254);
        double all = arrival_time(record);

        double plain = 1e18, reading = 1e18;
        for (int repeat = 0; repeat < REPEATS; repeat++) {
            double start = nanoseconds();
            peer_scalar(variant, 0, keys, blocks, expected, LANES);
            double middle = nanoseconds();
            must(katan_read(bench, sizeof bench, 63, read, 2) == 0, "a read was refused");
            double end = nanoseconds();
            if (middle - start < plain) plain = middle - start;
            if (end - middle < reading) reading = end - middle;
        }
        for (int lane = 0; lane < LANES; lane++) must_be_at(lane, 254, expected[lane]);
        printf("%-9d %-26.0f %-38.2f %.0f\n", variant, step, plain / all, reading);
    }
}

// ---- previews, beside the arrivals that they show

// The best time of a preview divided by the arrival's: the same record on the bench that is kept, the two taking turns.
static double preview_ratio(const uint8_t *record, int repeats) {
    static uint8_t room[KATAN_BENCH_LENGTH];
    uint32_t answer[KATAN_ARRIVAL_WORDS], shown[KATAN_ARRIVAL_WORDS];
    double arrival = 1e18, preview = 1e18;
    for (int repeat = 0; repeat < repeats; repeat++) {
        take_kept();
        double start = nanoseconds();
        uint8_t status = katan_preview(bench, sizeof bench, linked, sizeof linked, record, KATAN_RECORD_LENGTH, shown, KATAN_ARRIVAL_WORDS,
                                       room, sizeof room);
        double taken = nanoseconds() - start;
        must(status == 0, "a preview was refused");
        must(memcmp(bench, kept, sizeof bench) == 0 && memcmp(linked, kept_link, sizeof linked) == 0, "a preview wrote to bench or link");
        if (taken < preview) preview = taken;

        take_kept();
        start = nanoseconds();
        status = katan_arrive(bench, sizeof bench, linked, sizeof linked, record, KATAN_RECORD_LENGTH, answer, KATAN_ARRIVAL_WORDS);
        taken = nanoseconds() - start;
        must(status == 0, "an arrival was refused");
        must(memcmp(room, bench, sizeof room) == 0 && memcmp(shown, answer, sizeof shown) == 0, "results differ");
        if (taken < arrival) arrival = taken;
    }
    return preview / arrival;
}

static void preview_table(void) {
    printf("\nA preview, 64 lanes loaded at 0: times as long as the arrival\n");
    printf("variant   forward 1, one lane   forward 254, 64 lanes\n");
    for (int variant = 1; variant <= 6; variant++) {
        uint8_t record[KATAN_RECORD_LENGTH];
        load_and_keep(variant);
        move_record(record, KATAN_FORWARD, LANES + 1, 1, 1);
        double step = preview_ratio(record, 100 * REPEATS);
        move_record(record, KATAN_FORWARD, LANES + 1, UINT64_MAX, 254);
        printf("%-9d %-21.2f %.2f\n", variant, step, preview_ratio(record, REPEATS));
    }
}

// ---- all lanes on the screen, beside 64 single reads

static void read_all(uint64_t *to) {
    for (int lane = 0; lane < LANES; lane++) {
        uint64_t read[KATAN_READING_WORDS];
        must(katan_read(bench, sizeof bench, lane, read, KATAN_READING_WORDS) == 0, "a read was refused");
        to[lane] = read[1];
    }
}

static void screen_table(void) {
    enum { CALLS = 20 };
    printf("\nAll lanes on the screen, 64 loaded and named\n");
    printf("variant   times as fast as 64 reads   times as fast as plain C   (ns)\n");
    for (int variant = 1; variant <= 6; variant++) {
        uint64_t shown, shown_by_c, by_c[LANES], read[LANES];
        double screen = 1e18, reads = 1e18, plain = 1e18;
        load_and_keep(variant);
        for (int repeat = 0; repeat < REPEATS; repeat++) {
            double a = nanoseconds();
            for (int call = 0; call < CALLS; call++) {
                must(katan_screen(bench, sizeof bench, UINT64_MAX, out, LANES, &shown, 1) == 0, "a screen was refused");
            }
            double b = nanoseconds();
            read_all(read);
            double c = nanoseconds();
            for (int call = 0; call < CALLS; call++) {
                must(peer_screen(bench, UINT64_MAX, by_c, &shown_by_c) == 0, "a screen was refused");
            }
            double d = nanoseconds();
            must(shown == UINT64_MAX && shown_by_c == shown && memcmp(out, read, sizeof read) == 0 && memcmp(by_c, read, sizeof read) == 0,
                 "results differ");
            if ((b - a) / CALLS < screen) screen = (b - a) / CALLS;
            if (c - b < reads) reads = c - b;
            if ((d - c) / CALLS < plain) plain = (d - c) / CALLS;
        }
        printf("%-9d %-27.0f %-26.2f %.0f\n", variant, reads / screen, plain / screen, screen);
    }
}

// ---- a sheet of traces: single steps of all lanes, 254 forward and 254 back, without the reads between them. Each
// step's time is its best in 20 sheets; mean and dearest are over these. Plain C writes out a lane's key bits once and
// stores the registers after each round, lane by lane.

enum { STEPS = 2 * KATAN_ROUNDS, SHEETS = 20 };

static uint8_t steps[STEPS][KATAN_RECORD_LENGTH];
static uint64_t sheet[LANES][STEPS];  // the registers after each step, by plain C

static int forward(int step) { return step < KATAN_ROUNDS; }

static void compare_sheets(int variant) {
    peer_sheet(variant, keys, blocks, sheet[0], LANES);
    peer_scalar(variant, 0, keys, blocks, expected, LANES);
    for (int lane = 0; lane < LANES; lane++) {
        must(sheet[lane][KATAN_ROUNDS - 1] == expected[lane] && sheet[lane][STEPS - 1] == blocks[lane], "results differ");
    }
    for (int i = 0; i < STEPS; i++) {
        arrive(steps[i]);
        for (int lane = 0; lane < LANES; lane++) must_be_at(lane, forward(i) ? i + 1 : STEPS - 1 - i, sheet[lane][i]);
    }
}

static void sheet_table(void) {
    printf("\nA sheet of traces: 64 lanes loaded at 0, 254 single steps of all lanes forward and 254 back\n");
    printf("variant   a step: mean (us)   dearest (us)   the sheet (us)   times as long as plain C\n");
    for (int i = 0; i < STEPS; i++) {
        move_record(steps[i], forward(i) ? KATAN_FORWARD : KATAN_BACK, LANES + 1 + i, UINT64_MAX, 1);
    }
    for (int variant = 1; variant <= 6; variant++) {
        double best[STEPS], ours = 1e18, plain = 1e18;
        for (int i = 0; i < STEPS; i++) best[i] = 1e18;
        load_and_keep(variant);
        compare_sheets(variant);
        for (int repeat = 0; repeat < SHEETS; repeat++) {
            take_kept();
            double start = nanoseconds(), before = start;
            for (int i = 0; i < STEPS; i++) {
                arrive(steps[i]);
                double now = nanoseconds();
                if (now - before < best[i]) best[i] = now - before;
                before = now;
            }
            if (before - start < ours) ours = before - start;
            start = nanoseconds();
            peer_sheet(variant, keys, blocks, sheet[0], LANES);
            double taken = nanoseconds() - start;
            if (taken < plain) plain = taken;
        }
        double sum = 0, dearest = 0;
        for (int i = 0; i < STEPS; i++) {
            sum += best[i];
            if (best[i] > dearest) dearest = best[i];
        }
        printf("%-9d %-19.2f %-14.2f %-16.0f %.1f\n", variant, sum / STEPS / 1000, dearest / 1000, ours / 1000, ours / plain);
    }
}

int main(void) {
    peers_init();
    blocks_table(0);
    blocks_table(1);
    message_table(KATAN_LONGEST_DATA);
    origin_table();
    smudged_table();
    bench_table();
    preview_table();
    screen_table();
    sheet_table();
    return 0;
}
