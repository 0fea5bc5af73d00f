// A bench is opened and a lane loaded. The step is previewed, and the lane has not moved; a garbled copy of the step is previewed too. Then the
// lane is stepped; the answer to the step is lost, so the step is sent once more: first garbled on its way, which gets 10, since a record of
// that number has counted, then whole. The lane is read. A second lane is loaded, and both are on one screen, with an empty one between them. Then the
// first load, the step and the read as one list of calls. Then the two bits that entered in the step's last round, followed back to the block.
// At last a sheet on which a digit of the block is smudged: what is known after the step, and with a second sheet.
#include "katan_bench.h"

#include <stdio.h>
#include <stdlib.h>
#include <string.h>

static uint8_t bench[KATAN_BENCH_LENGTH];
static uint8_t linked[KATAN_LINK_LENGTH];

// A number of so many bytes, low byte first.
static void put(uint8_t *bytes, uint64_t x, int count) {
    for (int i = 0; i < count; i++) bytes[i] = (uint8_t)(x >> 8 * i);
}

static uint64_t get(const uint8_t *bytes, int count) {
    uint64_t x = 0;
    for (int i = count; i-- > 0;) x = x << 8 | bytes[i];
    return x;
}

static void load(uint8_t *record, uint32_t number, uint8_t lane, uint8_t position, const uint8_t *key, uint64_t block) {
    memset(record, 0, KATAN_RECORD_LENGTH);
    record[KATAN_RECORD_KIND] = KATAN_LOAD;
    record[KATAN_RECORD_LANE] = lane;
    record[KATAN_RECORD_COUNT] = position;
    put(record + KATAN_RECORD_NUMBER, number, 4);
    memcpy(record + KATAN_RECORD_KEY, key, KATAN_KEY_LENGTH);
    put(record + KATAN_RECORD_BLOCK, block, 8);
}

static void forward(uint8_t *record, uint32_t number, uint64_t mask, uint8_t count) {
    memset(record, 0, KATAN_RECORD_LENGTH);
    record[KATAN_RECORD_KIND] = KATAN_FORWARD;
    record[KATAN_RECORD_COUNT] = count;
    put(record + KATAN_RECORD_NUMBER, number, 4);
    put(record + KATAN_RECORD_MASK, mask, 8);
}

static void accepted(uint8_t status) {
    if (status != KATAN_OK) {
        printf("refused %d\n", status);
        exit(1);
    }
}

static void print_answer(const uint32_t *answer) {
    printf("%s %u, total %u", answer[0] == KATAN_AGAIN ? "again" : "done", answer[1], answer[2]);
}

static void send(const uint8_t *record) {
    uint32_t answer[KATAN_ARRIVAL_WORDS];
    accepted(katan_arrive(bench, sizeof bench, linked, sizeof linked, record, KATAN_RECORD_LENGTH, answer,
                          KATAN_ARRIVAL_WORDS));
    print_answer(answer);
    printf("\n");
}

// Sends a record that is to be refused.
static void send_refused(const uint8_t *record) {
    uint32_t answer[KATAN_ARRIVAL_WORDS];
    printf("status %d\n", katan_arrive(bench, sizeof bench, linked, sizeof linked, record, KATAN_RECORD_LENGTH, answer,
                                       KATAN_ARRIVAL_WORDS));
}

// What a record would be answered, and lane 0, which is loaded, as it would leave it.
static void preview(const uint8_t *record) {
    static uint8_t room[KATAN_BENCH_LENGTH];
    uint32_t answer[KATAN_ARRIVAL_WORDS];
    uint8_t status = katan_preview(bench, sizeof bench, linked, sizeof linked, record, KATAN_RECORD_LENGTH, answer,
                                   KATAN_ARRIVAL_WORDS, room, sizeof room);
    const uint8_t *lane = room + KATAN_BENCH_LANES;
    printf("preview: ");
    if (status == KATAN_OK)
        print_answer(answer);
    else
        printf("status %d", status);
    printf("; lane 0 at %u: %08x\n", (unsigned)lane[KATAN_LANE_POSITION], (unsigned)get(lane + KATAN_LANE_REGISTERS, 8));
}

static void read_lane(uint64_t lane) {
    uint64_t reading[KATAN_READING_WORDS];
    uint8_t status = katan_read(bench, sizeof bench, lane, reading, KATAN_READING_WORDS);
    if (status == KATAN_OK)
        printf("lane %u at %u: %08x\n", (unsigned)lane, (unsigned)reading[0], (unsigned)reading[1]);
    else
        printf("lane %u: status %d\n", (unsigned)lane, status);
}

// The lanes that a mask names, in one call.
static void screen(uint64_t mask) {
    uint64_t registers[KATAN_LANES], shown;
    accepted(katan_screen(bench, sizeof bench, mask, registers, KATAN_LANES, &shown, 1));
    printf("screen: shown %x", (unsigned)shown);
    for (int i = 0; i < KATAN_LANES; i++) {
        if (shown >> i & 1)
            printf("; lane %d: %08x", i, (unsigned)registers[i]);
        else if (mask >> i & 1)
            printf("; lane %d: empty", i);
    }
    printf("\n");
}

// What is known of the registers, the highest bit first.
static void print_known(const uint64_t *known) {
    for (int i = 32; i-- > 0;) {
        putchar(known[0] >> i & 1 ? '1' : known[1] >> i & 1 ? '0' : '?');
        if (i % 4 == 0) putchar(i == 0 ? '\n' : ' ');
    }
}

int main(void) {
    uint8_t key[KATAN_KEY_LENGTH];
    uint8_t loading[KATAN_RECORD_LENGTH];
    uint8_t step[KATAN_RECORD_LENGTH];
    uint8_t garbled[KATAN_RECORD_LENGTH];

    if (katan_version() != KATAN_VERSION) {
        printf("the archive has another version than the header\n");
        return 1;
    }
    memset(key, 0xff, sizeof key);
    load(loading, 1, 0, 0, key, 0);
    forward(step, 2, 1, 5);
    memcpy(garbled, step, sizeof garbled);
    garbled[KATAN_RECORD_KIND] = 9;

    accepted(katan_open(KATAN32, bench, sizeof bench, linked, sizeof linked));
    send(loading);
    preview(step);
    read_lane(0);
    preview(garbled);
    send(step);
    send_refused(garbled);
    send(step);
    read_lane(0);
    read_lane(1);

    // under a key of zeros a block of zeros stays: only the mask shown tells lane 2 from lane 1, which is empty
    uint8_t zeros[KATAN_KEY_LENGTH] = {0};
    uint8_t second[KATAN_RECORD_LENGTH];
    load(second, 3, 2, 0, zeros, 0);
    send(second);
    screen(7);

    // the load, the step and a read of lane 0, as a list
    uint8_t calls[3 * KATAN_CALL_HEAD_LENGTH + 2 * KATAN_RECORD_LENGTH];
    uint8_t answers[3 * KATAN_CALL_ANSWER_LENGTH];
    uint8_t *at = calls;
    const uint8_t *sent[] = {loading, step};
    for (int i = 0; i < 2; i++) {
        at[KATAN_CALL_KIND] = KATAN_CALL_ARRIVE;
        put(at + KATAN_CALL_NUMBER, KATAN_RECORD_LENGTH, 4);
        memcpy(at + KATAN_CALL_HEAD_LENGTH, sent[i], KATAN_RECORD_LENGTH);
        at += KATAN_CALL_HEAD_LENGTH + KATAN_RECORD_LENGTH;
    }
    at[KATAN_CALL_KIND] = KATAN_CALL_READ;
    put(at + KATAN_CALL_NUMBER, 0, 4);
    accepted(katan_replay(KATAN32, calls, sizeof calls, bench, sizeof bench, answers, sizeof answers));
    const uint8_t *last = answers + 2 * KATAN_CALL_ANSWER_LENGTH;
    if (last[KATAN_ANSWER_KIND] == KATAN_ANSWER_READ)
        printf("in a list, lane 0 at %u: %08x\n", (unsigned)get(last + KATAN_ANSWER_NUMBER, 4),
               (unsigned)get(last + KATAN_ANSWER_VALUE, 8));

    // what entered in the last of these five rounds, followed back to the block
    uint64_t bits[KATAN_ORIGIN_WORDS];
    accepted(katan_origin(KATAN32, key, sizeof key, 0, 4, bits, KATAN_ORIGIN_WORDS));
    printf("clock 4: fa %u, fb %u, from %u block bits\n", (unsigned)bits[0], (unsigned)bits[1], (unsigned)bits[2]);

    // the block is 00?00000, with a digit that cannot be read; of the key all is known, and no bit of it as 0
    uint64_t first = 0xff0fffff, known[KATAN_SMUDGED_WORDS];
    accepted(katan_smudged(KATAN32, 0, first, key, sizeof key, zeros, sizeof zeros, 5, known, KATAN_SMUDGED_WORDS));
    printf("smudged, at 5: ");
    print_known(known);

    // a second sheet has 0000000?: together they know the block. A third has 0000010?, and is of another block.
    uint64_t last_smudged = 0xfffffff0, third = 0xfffffef0;
    uint64_t block[KATAN_SMUDGED_WORDS];
    uint8_t joined_key[KATAN_JOINED_KEY_LENGTH];
    accepted(katan_join(KATAN32, 0, first, key, sizeof key, zeros, sizeof zeros, 0, last_smudged, key, sizeof key, zeros,
                        sizeof zeros, block, KATAN_SMUDGED_WORDS, joined_key, sizeof joined_key));
    accepted(katan_smudged(KATAN32, block[0], block[1], joined_key, KATAN_KEY_LENGTH, joined_key + KATAN_KEY_LENGTH,
                           KATAN_KEY_LENGTH, 5, known, KATAN_SMUDGED_WORDS));
    printf("joined, at 5:  ");
    print_known(known);
    printf("status %d\n", katan_join(KATAN32, 0, first, key, sizeof key, zeros, sizeof zeros, 0x100, third, key, sizeof key, zeros,
                                     sizeof zeros, block, KATAN_SMUDGED_WORDS, joined_key, sizeof joined_key));
    return 0;
}
