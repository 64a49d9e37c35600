//! Safe wrappers of the eight C functions of include/wandukhai.h, and of the line writer's in crate `line_capi`: slices are valid, non-null
//! also when empty, and don't overlap.

extern "C" {
    fn wandukhai_count(text: *const u8, text_len: usize, h: u64, cells: *mut u64, cells_len: usize, answer: *mut u64) -> u64;
    fn wandukhai_count_forward(text: *const u8, text_len: usize, h: u64, cells: *mut u64, cells_len: usize, answer: *mut u64) -> u64;
    fn wandukhai_scenarios(
        text: *const u8,
        text_len: usize,
        h: u64,
        indices: *const u64,
        indices_len: usize,
        cells: *mut u64,
        cells_len: usize,
        out: *mut u8,
        out_len: usize,
        place: *mut u64,
    ) -> u64;
    fn wandukhai_scenarios_small(
        text: *const u8,
        text_len: usize,
        h: u64,
        indices: *const u64,
        indices_len: usize,
        cells: *mut u64,
        cells_len: usize,
        out: *mut u8,
        out_len: usize,
        place: *mut u64,
    ) -> u64;
    fn wandukhai_index(
        text: *const u8,
        text_len: usize,
        sequence: *const u8,
        sequence_len: usize,
        cells: *mut u64,
        cells_len: usize,
        answer: *mut u64,
    ) -> u64;
    fn wandukhai_shuffle(
        n: u64,
        draws: *const u64,
        draws_len: usize,
        scratch: *mut u64,
        scratch_len: usize,
        out: *mut u64,
        out_len: usize,
        place: *mut u64,
    ) -> u64;
    fn wandukhai_draws(n: u64, z: u64, seed: u64, limit: u8, out: *mut u64, out_len: usize, place: *mut u64) -> u64;
    fn wandukhai_sheet(
        scenarios: *const u8,
        scenarios_len: usize,
        m: u64,
        h: u64,
        g: u64,
        out: *mut u8,
        out_len: usize,
        answer: *mut u64,
    ) -> u64;
    fn wandukhai_line(index: u64, events: *const u8, events_len: usize, out: *mut u8, out_len: usize) -> usize;
}

/// What a function returns and the words it writes beside. Both scenarios calls, Index, Shuffle and Draws write one word: the second is 0.
#[derive(Clone, Copy, Debug, PartialEq, Eq)]
pub struct Told {
    pub number: u64,
    pub words: [u64; 2],
}

const GUARD: u64 = 0xA5C3_96F0_0F69_3C5A;

/// Lends room for `N` words between two guard words, and gives back what was written there.
fn told<const N: usize>(call: impl FnOnce(*mut u64) -> u64) -> Told {
    let mut room = [GUARD; 6];
    let number = call(room[2..].as_mut_ptr());
    assert!(room[..2] == [GUARD; 2] && room[2 + N..].iter().all(|&w| w == GUARD), "a word beside the answer was written");
    Told { number, words: [room[2], if N == 2 { room[3] } else { 0 }] }
}

type Count = unsafe extern "C" fn(*const u8, usize, u64, *mut u64, usize, *mut u64) -> u64;

fn counted(call: Count, text: &[u8], h: u64, cells: &mut [u64]) -> Told {
    told::<2>(|answer| unsafe { call(text.as_ptr(), text.len(), h, cells.as_mut_ptr(), cells.len(), answer) })
}

pub fn count(text: &[u8], h: u64, cells: &mut [u64]) -> Told {
    counted(wandukhai_count, text, h, cells)
}

pub fn count_forward(text: &[u8], h: u64, cells: &mut [u64]) -> Told {
    counted(wandukhai_count_forward, text, h, cells)
}

type Scenarios = unsafe extern "C" fn(*const u8, usize, u64, *const u64, usize, *mut u64, usize, *mut u8, usize, *mut u64) -> u64;

fn listed(call: Scenarios, text: &[u8], h: u64, indices: &[u64], cells: &mut [u64], out: &mut [u8]) -> Told {
    told::<1>(|place| unsafe {
        call(
            text.as_ptr(),
            text.len(),
            h,
            indices.as_ptr(),
            indices.len(),
            cells.as_mut_ptr(),
            cells.len(),
            out.as_mut_ptr(),
            out.len(),
            place,
        )
    })
}

pub fn scenarios(text: &[u8], h: u64, indices: &[u64], cells: &mut [u64], out: &mut [u8]) -> Told {
    listed(wandukhai_scenarios, text, h, indices, cells, out)
}

pub fn scenarios_small(text: &[u8], h: u64, indices: &[u64], cells: &mut [u64], out: &mut [u8]) -> Told {
    listed(wandukhai_scenarios_small, text, h, indices, cells, out)
}

pub fn index(text: &[u8], sequence: &[u8], cells: &mut [u64]) -> Told {
    told::<1>(|answer| unsafe {
        wandukhai_index(text.as_ptr(), text.len(), sequence.as_ptr(), sequence.len(), cells.as_mut_ptr(), cells.len(), answer)
    })
}

pub fn shuffle(n: u64, draws: &[u64], scratch: &mut [u64], out: &mut [u64]) -> Told {
    told::<1>(|place| unsafe {
        wandukhai_shuffle(n, draws.as_ptr(), draws.len(), scratch.as_mut_ptr(), scratch.len(), out.as_mut_ptr(), out.len(), place)
    })
}

pub fn draws(n: u64, z: u64, seed: u64, limit: u8, out: &mut [u64]) -> Told {
    told::<1>(|place| unsafe { wandukhai_draws(n, z, seed, limit, out.as_mut_ptr(), out.len(), place) })
}

pub fn sheet(scenarios: &[u8], m: u64, h: u64, g: u64, out: &mut [u8]) -> Told {
    told::<2>(|answer| unsafe { wandukhai_sheet(scenarios.as_ptr(), scenarios.len(), m, h, g, out.as_mut_ptr(), out.len(), answer) })
}

/// The length of the line that is written at the front of `out`, 0 where `out` is too short for every such line.
pub fn line(index: u64, events: &[u8], out: &mut [u8]) -> usize {
    unsafe { wandukhai_line(index, events.as_ptr(), events.len(), out.as_mut_ptr(), out.len()) }
}
