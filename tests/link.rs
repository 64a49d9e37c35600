//! Counts the scenarios of a rig, with two rows of cells and with all; lists them in an order shuffled from a seed, each with its index and its
//! events; writes the sheet of that list for a bench; and lists one of a longer horizon, with fewer rows of cells.
extern "C" {
    fn wandukhai_count(text: *const u8, len: usize, h: u64, cells: *mut u64, cells_len: usize, answer: *mut u64) -> u64;
    fn wandukhai_count_forward(text: *const u8, len: usize, h: u64, cells: *mut u64, cells_len: usize, answer: *mut u64) -> u64;
    fn wandukhai_scenarios(
        text: *const u8, len: usize, h: u64, list: *const u64, list_len: usize,
        cells: *mut u64, cells_len: usize, out: *mut u8, out_len: usize, place: *mut u64,
    ) -> u64;
    fn wandukhai_scenarios_small(
        text: *const u8, len: usize, h: u64, list: *const u64, list_len: usize,
        cells: *mut u64, cells_len: usize, out: *mut u8, out_len: usize, place: *mut u64,
    ) -> u64;
    fn wandukhai_shuffle(
        n: u64, draws: *const u64, draws_len: usize, scratch: *mut u64, scratch_len: usize,
        out: *mut u64, out_len: usize, place: *mut u64,
    ) -> u64;
    fn wandukhai_draws(n: u64, z: u64, seed: u64, limit: u8, out: *mut u64, out_len: usize, place: *mut u64) -> u64;
    fn wandukhai_sheet(
        scenarios: *const u8, scenarios_len: usize, m: u64, h: u64, g: u64, out: *mut u8, out_len: usize, answer: *mut u64,
    ) -> u64;
}

type Count = unsafe extern "C" fn(*const u8, usize, u64, *mut u64, usize, *mut u64) -> u64;
type Scenarios = unsafe extern "C" fn(*const u8, usize, u64, *const u64, usize, *mut u64, usize, *mut u8, usize, *mut u64) -> u64;

/// N and the passes, by one of the two counts; or the number of refusal and its place.
fn count(call: Count, text: &[u8], h: u64, cells: &mut [u64]) -> Result<(u64, u64), (u64, u64)> {
    let mut answer = [0; 2];
    let number = unsafe { call(text.as_ptr(), text.len(), h, cells.as_mut_ptr(), cells.len(), answer.as_mut_ptr()) };
    if number == 0 { Ok((answer[0], answer[1])) } else { Err((number, answer[0])) }
}

/// By one of the two scenarios calls.
fn scenarios(call: Scenarios, text: &[u8], h: u64, list: &[u64], cells: &mut [u64], out: &mut [u8]) -> Result<(), (u64, u64)> {
    let mut place = 0;
    let number = unsafe {
        call(
            text.as_ptr(), text.len(), h, list.as_ptr(), list.len(),
            cells.as_mut_ptr(), cells.len(), out.as_mut_ptr(), out.len(), &mut place,
        )
    };
    if number == 0 { Ok(()) } else { Err((number, place)) }
}

/// Fills `out` with draws of n numbers.
fn draws(n: u64, seed: u64, limit: u8, out: &mut [u64]) -> Result<(), (u64, u64)> {
    let mut place = 0;
    let number = unsafe { wandukhai_draws(n, out.len() as u64, seed, limit, out.as_mut_ptr(), out.len(), &mut place) };
    if number == 0 { Ok(()) } else { Err((number, place)) }
}

fn shuffle(n: u64, draws: &[u64], scratch: &mut [u64], out: &mut [u64]) -> Result<(), (u64, u64)> {
    let mut place = 0;
    let number = unsafe {
        wandukhai_shuffle(n, draws.as_ptr(), draws.len(), scratch.as_mut_ptr(), scratch.len(), out.as_mut_ptr(), out.len(), &mut place)
    };
    if number == 0 { Ok(()) } else { Err((number, place)) }
}

/// The length of the sheet and the event total.
fn sheet(scenarios: &[u8], m: u64, h: u64, g: u64, out: &mut [u8]) -> Result<(usize, u64), (u64, u64)> {
    let mut answer = [0; 2];
    let number =
        unsafe { wandukhai_sheet(scenarios.as_ptr(), scenarios.len(), m, h, g, out.as_mut_ptr(), out.len(), answer.as_mut_ptr()) };
    if number == 0 { Ok((answer[0] as usize, answer[1])) } else { Err((number, answer[0])) }
}

fn print_scenario(index: u64, events: &[u8]) {
    println!("{index}{}", events.iter().map(|e| format!("\t{e}")).collect::<String>());
}

fn main() -> Result<(), (u64, u64)> {
    // No two 1s together; link.c has a rig of `gap`, `bal` and `amp` lines with the same scenarios of three events, and the same first ones of more.
    let rig = b"rig\t2\nmon\t2\ngo\t0\t0\t0\ngo\t0\t1\t1\ngo\t1\t0\t0\n";
    let (h, states) = (3, 2);
    let (n, passes) = count(wandukhai_count_forward, rig, h as u64, &mut vec![0; 2 * states])?;
    println!("count\t{n}\t{passes}");
    let mut cells = vec![0; (h + 1) * states];
    let (n, passes) = count(wandukhai_count, rig, h as u64, &mut cells)?;
    println!("count\t{n}\t{passes}");
    // The same seed gives the same list; a real caller takes another for another list.
    let (seed, all) = (1234567, n as usize);
    let (mut drawn, mut order) = (vec![0; all], vec![0; all]);
    draws(n, seed, 255, &mut drawn)?;
    shuffle(n, &drawn, &mut vec![0; 2 * all], &mut order)?;
    let mut events = vec![0; order.len() * h];
    scenarios(wandukhai_scenarios, rig, h as u64, &order, &mut cells, &mut events)?;
    for (&index, scenario) in order.iter().zip(events.chunks(h)) {
        print_scenario(index, scenario);
    }
    let mut lines = vec![0; all * (7 + 17 * h)];
    let (length, total) = sheet(&events, n, h as u64, 2, &mut lines)?;
    println!("sheet\t{length}\t{total}");
    print!("{}", String::from_utf8_lossy(&lines[..length]));
    let long = 40;
    let mut events = vec![0; long];
    let mut few_cells = vec![0; (long / 16 + 16) * states];
    scenarios(wandukhai_scenarios_small, rig, long as u64, &order[..1], &mut few_cells, &mut events)?;
    print_scenario(order[0], &events);
    Ok(())
}
