//! The driver's functions as they are, on slices: each returns 0 or the number of the first fault
//! found, and a refused call leaves every output as it was, but for the room of [`preview`]. They take
//! any lengths and any bytes.

/// The lanes of a bench.
pub const LANES: usize = 64;

/// The bytes of a lane: its state, its position, its key, its registers.
pub const LANE_LENGTH: usize = 20;

/// The bytes of a bench: its variant, then its lanes.
pub const BENCH_LENGTH: usize = 1 + LANE_LENGTH * LANES;

/// The bytes of a link.
pub const LINK_LENGTH: usize = 48;

/// The bytes of an answer in the output of [`replay`].
pub const ANSWER_LENGTH: usize = 13;

mod c {
    extern "C" {
        pub fn katan_version() -> u32;
        pub fn katan_encrypt(
            variant: u8,
            key: *const u8,
            key_length: usize,
            block: u64,
            out: *mut u64,
            out_length: usize,
        ) -> u8;
        pub fn katan_decrypt(
            variant: u8,
            key: *const u8,
            key_length: usize,
            block: u64,
            out: *mut u64,
            out_length: usize,
        ) -> u8;
        pub fn katan_encrypt_many(
            variant: u8,
            keys: *const u8,
            keys_length: usize,
            blocks: *const u64,
            blocks_length: usize,
            out: *mut u64,
            out_length: usize,
        ) -> u8;
        pub fn katan_decrypt_many(
            variant: u8,
            keys: *const u8,
            keys_length: usize,
            blocks: *const u64,
            blocks_length: usize,
            out: *mut u64,
            out_length: usize,
        ) -> u8;
        pub fn katan_keystream(
            variant: u8,
            key: *const u8,
            key_length: usize,
            start: u64,
            data: *const u8,
            data_length: usize,
            out: *mut u8,
            out_length: usize,
        ) -> u8;
        pub fn katan_origin(
            variant: u8,
            key: *const u8,
            key_length: usize,
            block: u64,
            clock: u64,
            out: *mut u64,
            out_length: usize,
        ) -> u8;
        pub fn katan_smudged(
            variant: u8,
            ones: u64,
            zeros: u64,
            key_ones: *const u8,
            key_ones_length: usize,
            key_zeros: *const u8,
            key_zeros_length: usize,
            position: u64,
            out: *mut u64,
            out_length: usize,
        ) -> u8;
        pub fn katan_join(
            variant: u8,
            ones: u64,
            zeros: u64,
            key_ones: *const u8,
            key_ones_length: usize,
            key_zeros: *const u8,
            key_zeros_length: usize,
            other_ones: u64,
            other_zeros: u64,
            other_key_ones: *const u8,
            other_key_ones_length: usize,
            other_key_zeros: *const u8,
            other_key_zeros_length: usize,
            out: *mut u64,
            out_length: usize,
            key_out: *mut u8,
            key_out_length: usize,
        ) -> u8;
        pub fn katan_cycles(blocks: u32) -> u64;
        pub fn katan_bit_rate(variant: u8, hertz: u64, out: *mut u64, out_length: usize) -> u8;
        pub fn katan_open(
            variant: u8,
            bench: *mut u8,
            bench_length: usize,
            link: *mut u8,
            link_length: usize,
        ) -> u8;
        pub fn katan_arrive(
            bench: *mut u8,
            bench_length: usize,
            link: *mut u8,
            link_length: usize,
            sent: *const u8,
            sent_length: usize,
            answer: *mut u32,
            answer_length: usize,
        ) -> u8;
        pub fn katan_preview(
            bench: *const u8,
            bench_length: usize,
            link: *const u8,
            link_length: usize,
            sent: *const u8,
            sent_length: usize,
            answer: *mut u32,
            answer_length: usize,
            room: *mut u8,
            room_length: usize,
        ) -> u8;
        pub fn katan_read(
            bench: *const u8,
            bench_length: usize,
            lane: u64,
            answer: *mut u64,
            answer_length: usize,
        ) -> u8;
        pub fn katan_screen(
            bench: *const u8,
            bench_length: usize,
            mask: u64,
            out: *mut u64,
            out_length: usize,
            shown: *mut u64,
            shown_length: usize,
        ) -> u8;
        pub fn katan_replay(
            variant: u8,
            calls: *const u8,
            calls_length: usize,
            bench: *mut u8,
            bench_length: usize,
            answers: *mut u8,
            answers_length: usize,
        ) -> u8;
    }
}

// SAFETY, of every block below: a slice's pointer and length name memory that is valid for the call;
// shared slices are only read, and exclusive ones overlap nothing else. The functions keep no pointer.

/// The version that the archive was built with.
pub fn version() -> u32 {
    unsafe { c::katan_version() }
}

pub fn encrypt(variant: u8, key: &[u8], block: u64, out: &mut [u64]) -> u8 {
    unsafe {
        c::katan_encrypt(
            variant,
            key.as_ptr(),
            key.len(),
            block,
            out.as_mut_ptr(),
            out.len(),
        )
    }
}

pub fn decrypt(variant: u8, key: &[u8], block: u64, out: &mut [u64]) -> u8 {
    unsafe {
        c::katan_decrypt(
            variant,
            key.as_ptr(),
            key.len(),
            block,
            out.as_mut_ptr(),
            out.len(),
        )
    }
}

pub fn encrypt_many(variant: u8, keys: &[u8], blocks: &[u64], out: &mut [u64]) -> u8 {
    unsafe {
        c::katan_encrypt_many(
            variant,
            keys.as_ptr(),
            keys.len(),
            blocks.as_ptr(),
            blocks.len(),
            out.as_mut_ptr(),
            out.len(),
        )
    }
}

pub fn decrypt_many(variant: u8, keys: &[u8], blocks: &[u64], out: &mut [u64]) -> u8 {
    unsafe {
        c::katan_decrypt_many(
            variant,
            keys.as_ptr(),
            keys.len(),
            blocks.as_ptr(),
            blocks.len(),
            out.as_mut_ptr(),
            out.len(),
        )
    }
}

pub fn keystream(variant: u8, key: &[u8], start: u64, data: &[u8], out: &mut [u8]) -> u8 {
    unsafe {
        c::katan_keystream(
            variant,
            key.as_ptr(),
            key.len(),
            start,
            data.as_ptr(),
            data.len(),
            out.as_mut_ptr(),
            out.len(),
        )
    }
}

/// The output is fa, fb and the count of block bits looked up.
pub fn origin(variant: u8, key: &[u8], block: u64, clock: u64, out: &mut [u64]) -> u8 {
    unsafe {
        c::katan_origin(
            variant,
            key.as_ptr(),
            key.len(),
            block,
            clock,
            out.as_mut_ptr(),
            out.len(),
        )
    }
}

/// A sheet in its four parts: the bits known as 1 and those known as 0, of the block and of the key.
#[derive(Clone, Copy, Debug, PartialEq, Eq)]
pub struct Parts<'a> {
    pub ones: u64,
    pub zeros: u64,
    pub key_ones: &'a [u8],
    pub key_zeros: &'a [u8],
}

/// The output is the bits of the registers known as 1, then those known as 0.
pub fn smudged(variant: u8, sheet: Parts, position: u64, out: &mut [u64]) -> u8 {
    unsafe {
        c::katan_smudged(
            variant,
            sheet.ones,
            sheet.zeros,
            sheet.key_ones.as_ptr(),
            sheet.key_ones.len(),
            sheet.key_zeros.as_ptr(),
            sheet.key_zeros.len(),
            position,
            out.as_mut_ptr(),
            out.len(),
        )
    }
}

/// The outputs are the block's bits known as 1, then those known as 0, and in 20 bytes the same of the
/// key.
pub fn join(variant: u8, sheet: Parts, other: Parts, out: &mut [u64], key_out: &mut [u8]) -> u8 {
    unsafe {
        c::katan_join(
            variant,
            sheet.ones,
            sheet.zeros,
            sheet.key_ones.as_ptr(),
            sheet.key_ones.len(),
            sheet.key_zeros.as_ptr(),
            sheet.key_zeros.len(),
            other.ones,
            other.zeros,
            other.key_ones.as_ptr(),
            other.key_ones.len(),
            other.key_zeros.as_ptr(),
            other.key_zeros.len(),
            out.as_mut_ptr(),
            out.len(),
            key_out.as_mut_ptr(),
            key_out.len(),
        )
    }
}

pub fn cycles(blocks: u32) -> u64 {
    unsafe { c::katan_cycles(blocks) }
}

pub fn bit_rate(variant: u8, hertz: u64, out: &mut [u64]) -> u8 {
    unsafe { c::katan_bit_rate(variant, hertz, out.as_mut_ptr(), out.len()) }
}

pub fn open(variant: u8, bench: &mut [u8], link: &mut [u8]) -> u8 {
    unsafe {
        c::katan_open(
            variant,
            bench.as_mut_ptr(),
            bench.len(),
            link.as_mut_ptr(),
            link.len(),
        )
    }
}

/// The answer is 0 for 'done' or 1 for 'again', then number and total.
pub fn arrive(bench: &mut [u8], link: &mut [u8], sent: &[u8], answer: &mut [u32]) -> u8 {
    unsafe {
        c::katan_arrive(
            bench.as_mut_ptr(),
            bench.len(),
            link.as_mut_ptr(),
            link.len(),
            sent.as_ptr(),
            sent.len(),
            answer.as_mut_ptr(),
            answer.len(),
        )
    }
}

/// What [`arrive`] would answer, and in the room what it would leave in the bench's memory: the bench's
/// own bytes where the record is refused or a repeat. A room of another length is refused with 2, after
/// 1; only then, or with a bench of another length, is the room left as it was. No link goes with the
/// room: it is for looking at, also by [`read`] and [`screen`].
pub fn preview(bench: &[u8], link: &[u8], sent: &[u8], answer: &mut [u32], room: &mut [u8]) -> u8 {
    unsafe {
        c::katan_preview(
            bench.as_ptr(),
            bench.len(),
            link.as_ptr(),
            link.len(),
            sent.as_ptr(),
            sent.len(),
            answer.as_mut_ptr(),
            answer.len(),
            room.as_mut_ptr(),
            room.len(),
        )
    }
}

/// The answer is the position, then the registers.
pub fn read(bench: &[u8], lane: u64, answer: &mut [u64]) -> u8 {
    unsafe {
        c::katan_read(
            bench.as_ptr(),
            bench.len(),
            lane,
            answer.as_mut_ptr(),
            answer.len(),
        )
    }
}

/// The output is a number for each of the [`LANES`] lanes: its registers where the mask names it and it
/// is loaded, 0 otherwise. `shown`, of 1 element, is the mask of the named lanes that are loaded.
pub fn screen(bench: &[u8], mask: u64, out: &mut [u64], shown: &mut [u64]) -> u8 {
    unsafe {
        c::katan_screen(
            bench.as_ptr(),
            bench.len(),
            mask,
            out.as_mut_ptr(),
            out.len(),
            shown.as_mut_ptr(),
            shown.len(),
        )
    }
}

pub fn replay(variant: u8, calls: &[u8], bench: &mut [u8], answers: &mut [u8]) -> u8 {
    unsafe {
        c::katan_replay(
            variant,
            calls.as_ptr(),
            calls.len(),
            bench.as_mut_ptr(),
            bench.len(),
            answers.as_mut_ptr(),
            answers.len(),
        )
    }
}
