//! The calls with answers in numbers, as `include/diftanew.h` lays them out.

mod c {
    extern "C" {
        pub fn diftanew_report(
            file: *const u8,
            file_len: usize,
            prices: *const u32,
            prices_len: usize,
            scratch: *mut u32,
            scratch_len: usize,
            buffer: *mut u8,
            buffer_len: usize,
            place: *mut u64,
        ) -> u32;
        pub fn diftanew_figures(
            file: *const u8,
            file_len: usize,
            prices: *const u32,
            prices_len: usize,
            scratch: *mut u32,
            scratch_len: usize,
            answer: *mut u64,
        ) -> u32;
        pub fn diftanew_run(
            file: *const u8,
            file_len: usize,
            prices: *const u32,
            prices_len: usize,
            scratch: *mut u32,
            scratch_len: usize,
            store: *mut i32,
            store_len: usize,
            picks: *const u8,
            picks_len: usize,
            allowance: u64,
            answer: *mut u64,
        ) -> u32;
        pub fn diftanew_frames(
            files: *const u8,
            files_len: usize,
            file_lens: *const usize,
            file_count: usize,
            stores: *mut i32,
            stores_len: usize,
            store_lens: *const usize,
            store_count: usize,
            picks: *const u8,
            picks_len: usize,
            pick_lens: *const usize,
            pick_count: usize,
            prices: *const u32,
            prices_len: usize,
            q: u64,
            scratch: *mut u32,
            scratch_len: usize,
            answer: *mut u64,
        ) -> u32;
        pub fn diftanew_start(
            file: *const u8,
            file_len: usize,
            prices: *const u32,
            prices_len: usize,
            scratch: *mut u32,
            scratch_len: usize,
            store: *const i32,
            store_len: usize,
            state: *mut u64,
            state_len: usize,
            answer: *mut u64,
        ) -> u32;
        pub fn diftanew_step(
            file: *const u8,
            file_len: usize,
            prices: *const u32,
            prices_len: usize,
            scratch: *mut u32,
            scratch_len: usize,
            store: *mut i32,
            store_len: usize,
            state: *mut u64,
            state_len: usize,
            q: u64,
            picks: *const u8,
            picks_len: usize,
            cues: *mut u32,
            cues_len: usize,
            answer: *mut u64,
        ) -> u32;
    }
}

/// The numbers of a run's answer.
pub const ANSWER: usize = 53;

/// The numbers of the answer of figures: ticks, variables, loops, and for each of 16 loops its line.
pub const FIGURES_ANSWER: usize = 3 + 16 * LINE;

/// The numbers of a loop's line: row, step (0 add, 1 grow, 2 shrink), its two ends in two's complement, turns, total, and 1 for exact.
pub const LINE: usize = 7;

/// The numbers of the answer of frames: the most ticks in one frame, and for each of 8 scripts its frame and a run's answer.
pub const FRAMES_ANSWER: usize = 1 + 8 * (1 + ANSWER);

/// 0, with the report's length in `place`; or the refusal's number, with its place.
#[inline]
pub fn report(file: &[u8], prices: &[u32], scratch: &mut [u32], buffer: &mut [u8], place: &mut u64) -> u32 {
    // The slices give valid pointers with their lengths, and Rust keeps them apart.
    unsafe {
        c::diftanew_report(
            file.as_ptr(),
            file.len(),
            prices.as_ptr(),
            prices.len(),
            scratch.as_mut_ptr(),
            scratch.len(),
            buffer.as_mut_ptr(),
            buffer.len(),
            place,
        )
    }
}

/// 0 and what the report says; or the refusal's number, with its place in `answer[0]`.
#[inline]
pub fn figures(file: &[u8], prices: &[u32], scratch: &mut [u32], answer: &mut [u64; FIGURES_ANSWER]) -> u32 {
    // As above.
    unsafe {
        c::diftanew_figures(
            file.as_ptr(),
            file.len(),
            prices.as_ptr(),
            prices.len(),
            scratch.as_mut_ptr(),
            scratch.len(),
            answer.as_mut_ptr(),
        )
    }
}

/// 0 and a run's answer; or the refusal's number, with its place in `answer[0]`.
#[inline]
pub fn run(
    file: &[u8],
    prices: &[u32],
    scratch: &mut [u32],
    store: &mut [i32],
    picks: &[u8],
    allowance: u64,
    answer: &mut [u64; ANSWER],
) -> u32 {
    // As above.
    unsafe {
        c::diftanew_run(
            file.as_ptr(),
            file.len(),
            prices.as_ptr(),
            prices.len(),
            scratch.as_mut_ptr(),
            scratch.len(),
            store.as_mut_ptr(),
            store.len(),
            picks.as_ptr(),
            picks.len(),
            allowance,
            answer.as_mut_ptr(),
        )
    }
}

/// What several scripts are lent, each end to end with a list of their lengths.
pub struct Lent<'a> {
    pub files: &'a [u8],
    pub file_lengths: &'a [usize],
    pub stores: &'a mut [i32],
    pub store_lengths: &'a [usize],
    pub picks: &'a [u8],
    pub pick_lengths: &'a [usize],
}

/// 0 and the answer of frames; or the refusal's number, with its place in `answer[0]` and in `answer[1]` which script it is of, from 1, or 0.
pub fn frames(lent: Lent, prices: &[u32], q: u64, scratch: &mut [u32], answer: &mut [u64; FRAMES_ANSWER]) -> u32 {
    // As above.
    unsafe {
        c::diftanew_frames(
            lent.files.as_ptr(),
            lent.files.len(),
            lent.file_lengths.as_ptr(),
            lent.file_lengths.len(),
            lent.stores.as_mut_ptr(),
            lent.stores.len(),
            lent.store_lengths.as_ptr(),
            lent.store_lengths.len(),
            lent.picks.as_ptr(),
            lent.picks.len(),
            lent.pick_lengths.as_ptr(),
            lent.pick_lengths.len(),
            prices.as_ptr(),
            prices.len(),
            q,
            scratch.as_mut_ptr(),
            scratch.len(),
            answer.as_mut_ptr(),
        )
    }
}

/// The numbers of a live run's state.
pub const STATE: usize = 64;

/// The numbers of the answers of `start` and of `step`.
pub const START_ANSWER: usize = 2;
pub const STEP_ANSWER: usize = 56;

/// 0, with the beginning of a live run in `state` and the report's ticks and the number of loops in `answer`; or the refusal's number, with its place
/// in `answer[0]`.
#[inline]
pub fn start(file: &[u8], prices: &[u32], scratch: &mut [u32], store: &[i32], state: &mut [u64], answer: &mut [u64; START_ANSWER]) -> u32 {
    // As above.
    unsafe {
        c::diftanew_start(
            file.as_ptr(),
            file.len(),
            prices.as_ptr(),
            prices.len(),
            scratch.as_mut_ptr(),
            scratch.len(),
            store.as_ptr(),
            store.len(),
            state.as_mut_ptr(),
            state.len(),
            answer.as_mut_ptr(),
        )
    }
}

/// What one frame of a live run is lent: its ticks, the picks that came, and a list for the cues that it fires.
pub struct Frame<'a> {
    pub q: u64,
    pub picks: &'a [u8],
    pub cues: &'a mut [u32],
}

/// 0 and a step's answer; or the refusal's number, with its place in `answer[0]`.
#[inline]
pub fn step(
    file: &[u8],
    prices: &[u32],
    scratch: &mut [u32],
    store: &mut [i32],
    state: &mut [u64],
    frame: Frame,
    answer: &mut [u64; STEP_ANSWER],
) -> u32 {
    // As above.
    unsafe {
        c::diftanew_step(
            file.as_ptr(),
            file.len(),
            prices.as_ptr(),
            prices.len(),
            scratch.as_mut_ptr(),
            scratch.len(),
            store.as_mut_ptr(),
            store.len(),
            state.as_mut_ptr(),
            state.len(),
            frame.q,
            frame.picks.as_ptr(),
            frame.picks.len(),
            frame.cues.as_mut_ptr(),
            frame.cues.len(),
            answer.as_mut_ptr(),
        )
    }
}
