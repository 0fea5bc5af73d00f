// KATAN and KTANTAN in our own plain C, to be measured beside the proved code. Those on many blocks take up to 64, block
// i with the key in bytes 10i to 10i + 9.
#ifndef PEERS_H
#define PEERS_H

#include <stddef.h>
#include <stdint.h>

typedef void many_blocks(int variant, int decrypt, const uint8_t *keys, const uint64_t *blocks, uint64_t *out, size_t count);

// Makes the tables. To be called once, first.
void peers_init(void);

// One block after the other, taps compiled in.
many_blocks peer_scalar;

// Our own bit-sliced C in the way of the ciphers' authors, not their code: register arrays that shift at each
// clock, blocks and keys taken apart bit by bit.
many_blocks peer_sliced;

// The same with 64 by 64 bit transposes instead.
many_blocks peer_sliced_transposed;

// One block, as peer_scalar does it.
uint64_t peer_one(int variant, int decrypt, const uint8_t *key, uint64_t block);

// Traces with peer_scalar's code, one block after the other: all rounds forward and all of them back, the key bits made
// once. Elements 508i to 508i + 507 of the sheet are block i's registers after each round.
void peer_sheet(int variant, const uint8_t *keys, const uint64_t *blocks, uint64_t *sheet, size_t count);

// fa and fb of a clock, followed back to the block by two functions that call each other, and the block bits looked up.
void peer_origin(int variant, const uint8_t *key, uint64_t block, int clock, uint64_t *out);

// Rounds from 0 to a position on a sheet with smudged bits: what is known of the registers there, as two words, the bits
// known as 1 and those known as 0. Taps compiled in; a register is two words too.
void peer_smudged(int variant, const uint64_t *block, const uint8_t *key_ones, const uint8_t *key_zeros, int position,
                  uint64_t *out);

// Every lane of a mask, from a bench's memory with all lengths right: the checks 1 and 8, the registers of those that
// are loaded and 0 for others, and the mask of those.
int peer_screen(const uint8_t *bench, uint64_t mask, uint64_t *out, uint64_t *shown);

// Counter mode with peer_scalar's code, one block at a time: the key bits are made once for the message.
void peer_keystream(int variant, const uint8_t *key, uint64_t start, const uint8_t *data, uint8_t *out, size_t length);

#endif
