/*
 * The KATAN stepping bench, for a driver in C: the calls of libdriver.a (`rt lib` in crates/driver). driver/example.c
 * shows them in use.
 *
 * Status. Each call but katan_version and katan_cycles returns 0, or the number of the first fault found. The faults
 * are looked for by rising number, as each call says under "Checked", with four exceptions: katan_arrive,
 * katan_preview, katan_read and katan_screen look at the bench's length (2), then at the bench (1), then at the other
 * lengths (2); katan_arrive and katan_preview look at a record's turn (9, 10) before its form (3 to 8); katan_keystream
 * looks for 14 before 7, and katan_origin for 15 before 7. A refused call leaves all lent memory as it was, with one
 * exception: katan_preview writes its room also where it is refused, unless bench or room has another length.
 *
 * Slices. A slice is lent as a pointer and then its length, in elements, not in bytes. A length other than the one
 * named at the call gets KATAN_BAD_LENGTH; data too long for a keystream gets KATAN_BEYOND_END. A pointer is aligned
 * for its element and is never NULL, also where the length is 0: lend the address of any object then. Memory that a
 * call may write is writable for its whole length.
 *
 * LENT MEMORY MUST NOT OVERLAP: during a call, memory that the call may write shares no byte with any other memory
 * lent to it, and nothing else reads or writes it. Memory that a call only reads may be shared with other readers.
 *
 * Nothing is kept between calls: all state is in the bench and the link, which the driver holds and may store. A call
 * reads and writes no other memory, and may be made from several threads at once on memory of their own. It does not
 * wipe its stack, where copies of keys may stay.
 *
 * Stack. A call needs up to 45 kB, measured on x86-64 without what a dynamic linker takes: katan_replay 45,
 * katan_keystream, katan_arrive and katan_preview 36, katan_encrypt_many and katan_decrypt_many 33, katan_read 8,
 * katan_screen 7, every other under 3.
 * The archive calls the C library's memcpy and memset.
 */
#ifndef KATAN_BENCH_H
#define KATAN_BENCH_H

#include <stddef.h>
#include <stdint.h>

#ifdef __cplusplus
extern "C" {
#endif

/*
 * The version of this header: it rises with every new call, and with every change of a call's parameters, its numbers
 * or a layout. A driver compares it with katan_version(), which the archive was built with.
 */
#define KATAN_VERSION 8

/* The variants. The number in a name is n, the bits of a block: 32, 48 or 64. */
#define KATAN32 1
#define KATAN48 2
#define KATAN64 3
#define KTANTAN32 4
#define KTANTAN48 5
#define KTANTAN64 6

/*
 * The status of a call, and the calls that give it. A refusal among the answers of katan_replay has the number that
 * katan_arrive or katan_read would give. 13 is for a line of the script program and no status.
 */
#define KATAN_OK 0              /* not refused */
#define KATAN_BAD_VARIANT 1     /* the variant is not 1 to 6 (every call with a status), or a lane of the bench handed
                                   in is damaged (katan_arrive, katan_preview, katan_read, katan_screen) */
#define KATAN_BAD_LENGTH 2      /* lent memory has another length, there are 0 or over 64 blocks, or a list is not whole
                                   calls of the two kinds (every call with a status) */
#define KATAN_BAD_KIND 3        /* the record's kind is not 1 to 4 (katan_arrive, katan_preview) */
#define KATAN_FIELD_NOT_ZERO 4  /* an unused field or a zero byte of the record is not zero (katan_arrive,
                                   katan_preview) */
#define KATAN_BAD_LANE 5        /* the lane is over 63 (katan_arrive, katan_preview, katan_read) */
#define KATAN_BAD_POSITION 6    /* a load position is over 254, or a move count is 0 or over 254 (katan_arrive,
                                   katan_preview); a position is over 254 (katan_smudged) */
#define KATAN_BAD_BLOCK 7       /* a block, the start of a keystream, or either number of a smudged block is 2^n or more,
                                   never so where n is 64 (katan_encrypt, katan_decrypt, both for many blocks,
                                   katan_keystream, katan_origin, katan_smudged, katan_join, katan_arrive,
                                   katan_preview) */
#define KATAN_EMPTY_MASK 8      /* the mask of a move or clear, or of a screen, is 0 (katan_arrive, katan_preview,
                                   katan_screen) */
#define KATAN_OUT_OF_TURN 9     /* the number is neither last + 1 nor a nonzero last; numbers do not wrap, and after
                                   4,294,967,295 no further record counts (katan_arrive, katan_preview) */
#define KATAN_OTHER_BYTES 10    /* the number is last but the bytes differ (katan_arrive, katan_preview) */
#define KATAN_EMPTY_LANE 11     /* the lane read is empty (katan_read) */
#define KATAN_BAD_RATE 12       /* the clock rate is 0 or over KATAN_HIGHEST_RATE (katan_bit_rate) */
#define KATAN_BEYOND_END 14     /* the start plus the number of blocks exceeds 2^n, or the data is longer than
                                   KATAN_LONGEST_DATA (katan_keystream) */
#define KATAN_BAD_CLOCK 15      /* the clock number is over KATAN_LAST_CLOCK (katan_origin) */
#define KATAN_CONTRADICTION 16  /* a bit of block or key is known both as 0 and as 1, on one sheet (katan_smudged,
                                   katan_join) or between two (katan_join) */

#define KATAN_ROUNDS 254                /* positions are 0 to 254: the rounds that a block has behind it */
#define KATAN_LAST_CLOCK 23             /* clock numbers are 0 to 23, and are not positions (katan_origin) */
#define KATAN_LANES 64                  /* of a bench and of a screen, and the most blocks of a call for many */
#define KATAN_HIGHEST_RATE 2940000000u  /* in hertz */

/* Lengths in bytes. */
#define KATAN_KEY_LENGTH 10
#define KATAN_JOINED_KEY_LENGTH 20  /* of a key with smudged bits, as katan_join gives it */
#define KATAN_LONGEST_DATA 4096  /* of a call for a keystream */
#define KATAN_RECORD_LENGTH 40
#define KATAN_LANE_LENGTH 20
#define KATAN_BENCH_LENGTH (1 + KATAN_LANE_LENGTH * KATAN_LANES)  /* 1281 */
#define KATAN_LINK_LENGTH (8 + KATAN_RECORD_LENGTH)               /* 48 */
#define KATAN_CALL_HEAD_LENGTH 5     /* of a call in a list: a read is these alone, an arrival's record follows them */
#define KATAN_CALL_ANSWER_LENGTH 13  /* of an answer to a list */

/* Lengths in elements: the first of uint32_t, the others of uint64_t. */
#define KATAN_ARRIVAL_WORDS 3
#define KATAN_READING_WORDS 2
#define KATAN_ORIGIN_WORDS 3
#define KATAN_SMUDGED_WORDS 2  /* of registers or a block with smudged bits */

/*
 * A record, of KATAN_RECORD_LENGTH bytes. Numbers are low byte first.
 *
 *     byte 0                 its kind: KATAN_LOAD, KATAN_FORWARD, KATAN_BACK or KATAN_CLEAR
 *     byte 1                 the lane (load): 0 to 63
 *     byte 2                 the position, 0 to 254 (load), or the count of rounds, 1 to 254 (forward, back)
 *     byte 3                 zero
 *     bytes 4 to 7           its number: one more than the last that counted, 1 on a fresh link
 *     bytes 8 to 15          the mask of lanes, bit i naming lane i (forward, back, clear)
 *     bytes 16 to 25         the key (load): key bit 8 j + b is bit b of byte 16 + j
 *     bytes 26 to 33         the block (load), below 2^n
 *     bytes 34 to 39         zero
 *
 * A field that the kind does not use is zero. A load puts the block into the lane as the registers at the position: 0
 * for a plaintext, 254 for a ciphertext. A move goes by the count of rounds and stops at 0 or 254; it leaves an empty
 * lane empty, and counts also where no lane moves. A clear empties lanes.
 */
#define KATAN_LOAD 1
#define KATAN_FORWARD 2
#define KATAN_BACK 3
#define KATAN_CLEAR 4

#define KATAN_RECORD_KIND 0
#define KATAN_RECORD_LANE 1
#define KATAN_RECORD_COUNT 2     /* a load's position, a move's count */
#define KATAN_RECORD_NUMBER 4    /* 4 bytes */
#define KATAN_RECORD_MASK 8      /* 8 bytes */
#define KATAN_RECORD_KEY 16      /* KATAN_KEY_LENGTH bytes */
#define KATAN_RECORD_BLOCK 26    /* 8 bytes */

/* The first word of the answer to an arrival or a preview. */
#define KATAN_DONE 0
#define KATAN_AGAIN 1

/*
 * The layout of a bench. Numbers are low byte first.
 *
 *     byte 0                 the variant
 *     bytes 1 + 20 i ..      lane i, for i from 0 to 63:
 *         byte 0                 its state: KATAN_LANE_EMPTY or KATAN_LANE_LOADED
 *         byte 1                 its position, 0 to 254
 *         bytes 2 to 11          its key: key bit 8 j + b is bit b of byte j of the key
 *         bytes 12 to 19         its registers, below 2^n
 *
 * A bench may hold any bytes: katan_arrive, katan_preview, katan_read and katan_screen check every lane of it. A lane
 * with another state, or a loaded one with a position over 254 or a register bit set at n or above, is damaged, and all
 * four return KATAN_BAD_VARIANT. Of an empty lane only the state is looked at and written: the other bytes are kept,
 * and the driver may overwrite them. SO A LANE THAT IS CLEARED KEEPS ITS OLD KEY in memory until it is loaded again or
 * the driver wipes it, and two benches whose lanes are alike may differ there.
 *
 * The layout of a link:
 *
 *     bytes 0 to 3           last, the last counted number, 0 when fresh
 *     bytes 4 to 7           the total of the last counted record
 *     bytes 8 to 47          the last counted record, with its key if it is a load
 *
 * Of a link only the length is checked, and what it holds is taken at its word, also where last, total and record never
 * belonged together. A record is in turn if numbered last + 1, or if numbered last, where last is not 0, with the link's
 * record byte for byte. One numbered a nonzero last with other bytes gets KATAN_OTHER_BYTES, any other that is not in
 * turn KATAN_OUT_OF_TURN; while last is 0, record and total are not looked at. The checks 3 to 8 are of the record alone
 * and come after, so a record that gets one of them is in turn: also the exact repeat of a faulty record that a link made
 * by hand holds. A record in turn that meets none of them counts, or, as a repeat, is answered with the link's total. No
 * link makes a faulty record count. What is proved of lists of calls holds of a bench and a link that katan_open and
 * katan_arrive left.
 */
#define KATAN_LANE_EMPTY 0
#define KATAN_LANE_LOADED 1

#define KATAN_BENCH_VARIANT 0
#define KATAN_BENCH_LANES 1      /* lane i begins at KATAN_BENCH_LANES + KATAN_LANE_LENGTH * i */

#define KATAN_LANE_STATE 0
#define KATAN_LANE_POSITION 1
#define KATAN_LANE_KEY 2         /* KATAN_KEY_LENGTH bytes */
#define KATAN_LANE_REGISTERS 12  /* 8 bytes */

#define KATAN_LINK_LAST 0        /* 4 bytes */
#define KATAN_LINK_TOTAL 4       /* 4 bytes */
#define KATAN_LINK_RECORD 8      /* KATAN_RECORD_LENGTH bytes */

/* The kinds of calls in a list, and of the answers to them: other numbers than KATAN_DONE and KATAN_AGAIN. */
#define KATAN_CALL_ARRIVE 1
#define KATAN_CALL_READ 2
#define KATAN_ANSWER_DONE 1
#define KATAN_ANSWER_AGAIN 2
#define KATAN_ANSWER_READ 3
#define KATAN_ANSWER_REFUSED 4

#define KATAN_CALL_KIND 0
#define KATAN_CALL_NUMBER 1      /* 4 bytes */

#define KATAN_ANSWER_KIND 0
#define KATAN_ANSWER_NUMBER 1    /* 4 bytes */
#define KATAN_ANSWER_VALUE 5     /* 8 bytes */

/* The version that the archive was built with, to be compared with KATAN_VERSION. Never refused. */
uint32_t katan_version(void);

/*
 * One block. `key` has KATAN_KEY_LENGTH bytes, `out` has 1 element. On status 0 it is the block's encryption, or
 * decryption. Checked: 1; 2 of `out` and `key`; 7.
 */
uint8_t katan_encrypt(uint8_t variant, const uint8_t *key, size_t key_length, uint64_t block,
                      uint64_t *out, size_t out_length);
uint8_t katan_decrypt(uint8_t variant, const uint8_t *key, size_t key_length, uint64_t block,
                      uint64_t *out, size_t out_length);

/*
 * Many blocks. `blocks` has 1 to 64 elements, `keys` ten times as many bytes, block i taking key bytes 10 i to 10 i + 9,
 * and `out` as many elements as `blocks`. On status 0 element i of `out` is made of block i. Checked: 1, 2, 7.
 */
uint8_t katan_encrypt_many(uint8_t variant, const uint8_t *keys, size_t keys_length,
                           const uint64_t *blocks, size_t blocks_length, uint64_t *out, size_t out_length);
uint8_t katan_decrypt_many(uint8_t variant, const uint8_t *keys, size_t keys_length,
                           const uint64_t *blocks, size_t blocks_length, uint64_t *out, size_t out_length);

/*
 * A keystream: counter mode, as NIST SP 800-38A has it, which both encrypts and decrypts. `key` has KATAN_KEY_LENGTH
 * bytes, `data` 0 to KATAN_LONGEST_DATA, and `out` as many as `data`; the two may not be the same memory.
 *
 * Block i of the stream, i from 0, is the encryption of the number start + i, in n / 8 bytes, low byte first. On
 * status 0 each byte of `out` is the byte of `data` there xor that of the stream. The last block may be short: its
 * first bytes are taken. The number of blocks is the data's length divided by n / 8, rounded up. A longer message goes
 * in parts of whole blocks: each starts where the blocks of the one before end. Two messages under one key must not
 * share a block of the stream: there the xor of what is sent would be that of the messages.
 *
 * Checked: 1; 2 of `key` and `out`; 14; 7. So start plus blocks may be 2^n; with no data a start of 2^n gets 7, and a
 * greater one 14.
 */
uint8_t katan_keystream(uint8_t variant, const uint8_t *key, size_t key_length, uint64_t start,
                        const uint8_t *data, size_t data_length, uint8_t *out, size_t out_length);

/*
 * Where a bit came from: the two bits that enter the registers at a clock, found by following each back to the block,
 * which is in the registers at position 0. `key` has KATAN_KEY_LENGTH bytes, `out` has KATAN_ORIGIN_WORDS elements. On
 * status 0 they are
 *     fa       the bit that enters L2, which is the low 19, 29 or 39 bits of the registers, where n is 32, 48 or 64
 *     fb       the bit that enters L1, which is the bits above
 *     count    the block bits looked up, for fa and fb added
 *
 * `clock` counts clocks from 0, the first of round 0. A round has 1, 2 or 3 of them, where n is 32, 48 or 64, so clocks
 * 0 to KATAN_LAST_CLOCK are the first 24, 12 or 8 rounds: a clock number is not a position.
 *
 * fa of a clock is made from five places of L1 and fb from six of L2, with IR and the key bits of its round. Before
 * clock t, place i of L1 holds fb of clock t - 1 - i where i is below t, and otherwise bit i - t of the block's L1; L2
 * holds fa, or a bit of the block's L2, in the same way. A bit of the block counts 1; one that entered counts what the
 * bits it was made from count, each time it is met, since nothing is remembered. All five places and all six are
 * followed at every clock, the fifth of L1 also where IR is 0 and it has no effect. So the count depends on n and the
 * clock alone: at KATAN_LAST_CLOCK it is 957, 147 or 61.
 *
 * Checked: 1; 2 of `key` and `out`; 15; 7.
 */
uint8_t katan_origin(uint8_t variant, const uint8_t *key, size_t key_length, uint64_t block, uint64_t clock,
                     uint64_t *out, size_t out_length);

/*
 * A sheet: what can be read of a block and its key, where digits are smudged. Each bit is known as 1, known as 0, or
 * unknown, and a sheet gives them in four parts:
 *     ones, zeros              the bits of the block that are known as 1, and those known as 0: numbers below 2^n
 *     key_ones, key_zeros      the same of the key, of KATAN_KEY_LENGTH bytes each: key bit 8 j + b is bit b of byte j
 * A bit that is set in neither part is unknown. One that is set in both is a contradiction, and gets 16. So a block of
 * which all is known has zeros = 2^n - 1 - ones; a hexadecimal digit that nobody can read is 0 in both parts.
 *
 * katan_smudged runs rounds from position 0, where the block stands in the registers, to `position`, 0 to KATAN_ROUNDS.
 * `out` has KATAN_SMUDGED_WORDS elements. On status 0 they are
 *     ones     the bits of the registers there that are known as 1
 *     zeros    the bits of the registers there that are known as 0
 *
 * The cipher's formulas are worked by two rules: xor with an unknown bit is unknown; 0 times anything is 0, and any
 * other product with an unknown bit is unknown. So a product with IR is known where IR is 0. KATAN's k(i) for i from 80
 * on is made from the earlier k by these rules; KTANTAN picks its key bits from the sheet.
 *
 * Each bit given as known is the one that the cipher's rounds give however the unknown bits are filled in. A bit may be
 * unknown although all fillings agree on it: an unknown bit is not traced to where it came from, and two that are always
 * equal do not cancel. A sheet that knows more loses and alters no known bit, and one that knows all gives all of the
 * registers, at KATAN_ROUNDS the block of katan_encrypt.
 *
 * Checked: 1; 2 of `key_ones`, `key_zeros` and `out`; 6; 7 of `ones` and `zeros`; 16.
 */
uint8_t katan_smudged(uint8_t variant, uint64_t ones, uint64_t zeros,
                      const uint8_t *key_ones, size_t key_ones_length, const uint8_t *key_zeros, size_t key_zeros_length,
                      uint64_t position, uint64_t *out, size_t out_length);

/*
 * Joins two sheets of one block and key: a bit is known where either knows it. `out` has KATAN_SMUDGED_WORDS elements
 * and `key_out` KATAN_JOINED_KEY_LENGTH bytes. On status 0 they are a sheet's four parts:
 *     out          ones, zeros
 *     key_out      bytes 0 to 9 key_ones, bytes 10 to 19 key_zeros
 *
 * The order of the two sheets does not matter, and a sheet joined with itself is that sheet. A run of the joined sheet
 * knows at least what the runs of both know. Where one sheet knows a bit as 0 and the other as 1 they are not of one
 * block and key, and get 16.
 *
 * Checked: 1; 2 of the four parts of keys, of `out` and of `key_out`; 7 of the four block numbers; 16.
 */
uint8_t katan_join(uint8_t variant, uint64_t ones, uint64_t zeros,
                   const uint8_t *key_ones, size_t key_ones_length, const uint8_t *key_zeros, size_t key_zeros_length,
                   uint64_t other_ones, uint64_t other_zeros,
                   const uint8_t *other_key_ones, size_t other_key_ones_length,
                   const uint8_t *other_key_zeros, size_t other_key_zeros_length,
                   uint64_t *out, size_t out_length, uint8_t *key_out, size_t key_out_length);

/*
 * The cycles that a number of blocks takes: 255 for each, one for loading and its 254 rounds. It has no status, and is
 * never refused.
 */
uint64_t katan_cycles(uint32_t blocks);

/*
 * The bit rate at a clock rate of so many hertz: n times hertz, divided by 255 and cut to a whole number of bits a
 * second. `out` has 1 element. Checked: 1; 2 of `out`; 12.
 */
uint8_t katan_bit_rate(uint8_t variant, uint64_t hertz, uint64_t *out, size_t out_length);

/*
 * Opens a fresh bench and its fresh link. `bench` has KATAN_BENCH_LENGTH bytes and `link` KATAN_LINK_LENGTH, holding
 * anything. On status 0 the bench has the variant and 64 empty lanes, and the link is all zero. Of each lane only the
 * state is written: zero the memory first if it may hold keys. Checked: 1; 2 of `bench` and `link`.
 */
uint8_t katan_open(uint8_t variant, uint8_t *bench, size_t bench_length, uint8_t *link, size_t link_length);

/*
 * A record arrives, of any bytes and length. `answer` has KATAN_ARRIVAL_WORDS elements. On status 0 they are
 *     KATAN_DONE, number, total     the record has counted, and bench and link are as it leaves them
 *     KATAN_AGAIN, number, total    an exact repeat of the last that counted; bench and link are as they were
 * The total is the sum, over the lanes named, of the positions that they really moved, and 0 for a load and a clear. A
 * lane that is cleared keeps its bytes but for the state, its key too; the link keeps the record, a load's key too.
 * Checked: 2 of `bench`; 1; 2 of `link`, `answer` and `record`; 9, 10; 3 to 8. So a resend of the last record that
 * counted, garbled but for its length and its number, gets 10, whatever its form: that number has been done.
 */
uint8_t katan_arrive(uint8_t *bench, size_t bench_length, uint8_t *link, size_t link_length,
                     const uint8_t *record, size_t record_length, uint32_t *answer, size_t answer_length);

/*
 * What katan_arrive would do, without doing it: the record, of any bytes and length, is given to a copy. Bench and link
 * are only read, so previews may stand anywhere among other calls without effect on them.
 *
 * `answer` has KATAN_ARRIVAL_WORDS elements. On status 0 they are those that katan_arrive would give.
 *
 * `room` has KATAN_BENCH_LENGTH bytes, holding anything, not the bench's own memory. WHATEVER THE STATUS, THE ROOM IS
 * WRITTEN, and has then, byte for byte, what katan_arrive would leave in the bench's memory: for a record that would be
 * done, the bench as it leaves it; for a repeat and on every refusal, the bench's own bytes as they are, also those of
 * a damaged bench, and also where link, answer or record has another length. Only where the bench or the room itself
 * has another length there is no bench to show or no room for it, and nothing is written. Empty lanes are copied whole:
 * the old key of a lane that was cleared is in the room too.
 *
 * No link goes with the room: it is for looking at, also by katan_read and katan_screen. To commit, send the record to
 * katan_arrive. With the room in the bench's place the link would not know the record, and it would be done twice.
 *
 * The status is katan_arrive's but for the room: one of another length gets 2 after 1, also where the record would
 * count. Checked: 2 of `bench`; 1; 2 of `link`, `answer`, `room` and `record`; 9, 10; 3 to 8.
 */
uint8_t katan_preview(const uint8_t *bench, size_t bench_length, const uint8_t *link, size_t link_length,
                      const uint8_t *record, size_t record_length, uint32_t *answer, size_t answer_length,
                      uint8_t *room, size_t room_length);

/*
 * Reads a lane; any number may be passed for it. `answer` has KATAN_READING_WORDS elements. On status 0 they are the
 * lane's position and its registers. Checked: 2 of `bench`; 1, of all its lanes; 2 of `answer`; 5; 11.
 */
uint8_t katan_read(const uint8_t *bench, size_t bench_length, uint64_t lane,
                   uint64_t *answer, size_t answer_length);

/*
 * All lanes on the screen: reads every lane that a mask names, bit i naming lane i, in one call. `out` has KATAN_LANES
 * elements and `shown` has 1, holding anything. The bench is only read.
 *
 * On status 0 all of them are written. Element i of `out` is the registers of lane i, at whatever position, where the
 * mask names it and it is loaded, and 0 for every other lane. `shown` is the mask of the named lanes that are loaded: it
 * tells a lane whose registers are 0 from one left out. The registers, and the named lanes left out as empty, are those
 * of single calls of katan_read; positions are not given. A mask that names empty lanes alone is no fault: `shown` and
 * all of `out` are 0 then.
 *
 * Checked: 2 of `bench`; 1, of all its lanes, also those that the mask does not name; 2 of `out` and `shown`; 8.
 */
uint8_t katan_screen(const uint8_t *bench, size_t bench_length, uint64_t mask,
                     uint64_t *out, size_t out_length, uint64_t *shown, size_t shown_length);

/*
 * A whole list of calls, run on a fresh bench and link. Numbers are low byte first.
 *
 * `calls` has the calls, one after the other:
 *     byte 0              KATAN_CALL_ARRIVE or KATAN_CALL_READ; with any other the list gets KATAN_BAD_LENGTH
 *     bytes 1 to 4        the length of the record, or the lane
 *     from byte 5 on      an arrival's record
 *
 * `answers` has KATAN_CALL_ANSWER_LENGTH bytes for each call, no more and no less:
 *     byte 0              KATAN_ANSWER_DONE, KATAN_ANSWER_AGAIN, KATAN_ANSWER_READ or KATAN_ANSWER_REFUSED
 *     bytes 1 to 4        the number, the position, or the refusal's number
 *     bytes 5 to 12       the total, the registers, or 0
 *
 * On status 0 `answers` has each call's answer, and the lanes of `bench`, of KATAN_BENCH_LENGTH bytes holding anything,
 * are as the list leaves them: of a lane that is empty then only the state is written, and what its memory held stays.
 * The link is not given back, so the bench is for reading. A refused call of the list does not make the status another:
 * its answer says so. Checked: 1; 2 of `bench`, of `calls` where they are not whole calls to their end, and of
 * `answers`.
 */
uint8_t katan_replay(uint8_t variant, const uint8_t *calls, size_t calls_length, uint8_t *bench, size_t bench_length,
                     uint8_t *answers, size_t answers_length);

#ifdef __cplusplus
}
#endif

#endif
