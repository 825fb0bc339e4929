//! Measures the proved live step, the plain C's and the second program's on a program of 96 tokens, the file read anew at each step: first that they answer
//! alike, then the time of a step of each, in turns, the time of reading alone, and the stack that a step uses. Ends with 1 where the proved step takes
//! over 1.2 times as long as the plain C's.

use std::arch::asm;
use std::hint::black_box;
use std::process::ExitCode;
use std::ptr::addr_of_mut;

use twin::config::read_config;
use twin::limits::Edition;
use twin::live_bytes::{self, LIVE_BYTES};

/// What the proved calls and the plain C answer.
#[repr(C)]
#[derive(PartialEq)]
struct Answer {
    number: usize,
    place: usize,
    orders: [u8; 8],
}

extern "C" {
    fn cart_live_start(file: *const u8, size: usize, live: *mut u8, count: usize) -> Answer;
    fn cart_live_step(file: *const u8, size: usize, live: *mut u8, count: usize, letter: u8) -> Answer;
    fn plain_live_start(file: *const u8, size: usize, live: *mut u8, count: usize) -> Answer;
    fn plain_live_step(file: *const u8, size: usize, live: *mut u8, count: usize, letter: u8) -> Answer;
    fn clock_gettime(clock: i32, now: *mut [i64; 2]) -> i32;
}

type Live = [u8; LIVE_BYTES];

/// 96 tokens, eight modules, four events of each kind, two stars deep.
const PROGRAM: &[u8] =
    b"standard ABCD\nfugitive EFGH\nprogram [[a/A:b||c/B:d]*/{E:[ab]*|F:[cd]}||[e/C:f||g/D:h]*/{G:[ef]*|H:[gh]}]*abcdefghabcdefghabcdefghabcde.\n";
const LETTERS: &[u8] = b"abcdefghABCDEFGH";
/// The longest file that is accepted: 96 tokens, with as many `||` as they hold beside an event in each list.
const SIDES: usize = 43;
const STEPS: usize = 100;
const ROUNDS: usize = 51;
const CALLS: usize = 20;
const STACK: usize = 65536;
const PAINT: u8 = 0xa5;

fn proved(file: &[u8], live: &mut Live, letter: u8) -> Answer {
    // the two slices are borrowed for the call, and nothing else is asked
    unsafe { cart_live_step(file.as_ptr(), file.len(), live.as_mut_ptr(), live.len(), letter) }
}

fn plain(file: &[u8], live: &mut Live, letter: u8) -> Answer {
    // as above
    unsafe { plain_live_step(file.as_ptr(), file.len(), live.as_mut_ptr(), live.len(), letter) }
}

/// The states and letters of a walk, refused letters left out; the start again after the end.
fn walk() -> Option<Vec<(Live, u8)>> {
    let (_, start) = live_bytes::start(PROGRAM, &[0; LIVE_BYTES]).ok()?;
    let mut live = start;
    let mut steps = Vec::new();
    let mut random = 1u64;
    while steps.len() < STEPS {
        random = random.wrapping_mul(6364136223846793005).wrapping_add(1442695040888963407);
        let letter = LETTERS[(random >> 33) as usize % LETTERS.len()];
        if let Ok((_, next)) = live_bytes::step(PROGRAM, &live, letter) {
            steps.push((live, letter));
            live = if next == [0; LIVE_BYTES] { start } else { next };
        }
    }
    Some(steps)
}

/// All answer alike: the start, and each letter byte in the states of the walk.
fn alike(steps: &[(Live, u8)]) -> bool {
    let mut began = [0; LIVE_BYTES];
    let start = unsafe { cart_live_start(PROGRAM.as_ptr(), PROGRAM.len(), began.as_mut_ptr(), LIVE_BYTES) };
    let same_start = start.number == 0 && steps.first().map(|s| s.0) == Some(began);
    let same = |live: &Live, letter: u8| {
        let (mut after, mut plainly) = (*live, *live);
        let answer = proved(PROGRAM, &mut after, letter);
        if plain(PROGRAM, &mut plainly, letter) != answer || plainly != after {
            return false;
        }
        match live_bytes::step(PROGRAM, live, letter) {
            Ok((orders, next)) => answer.number == 0 && answer.orders[..orders.len()] == orders[..] && after == next,
            Err(refusal) => {
                let said = (usize::from(refusal.number), refusal.place);
                (answer.number, answer.place) == said && after == *live
            }
        }
    };
    same_start && steps.iter().all(|(live, _)| (0..=255).all(|letter| same(live, letter)))
}

/// The processor's time of this process: what else runs on the machine does not count.
fn now() -> f64 {
    let mut time = [0; 2];
    // it writes seconds and nanoseconds
    unsafe { clock_gettime(2, &mut time) };
    time[0] as f64 * 1e9 + time[1] as f64
}

/// Nanoseconds of a call, over some.
fn timed(mut call: impl FnMut()) -> f64 {
    let from = now();
    for _ in 0..CALLS {
        call();
    }
    (now() - from) / CALLS as f64
}

fn median(mut times: Vec<f64>) -> f64 {
    times.sort_by(f64::total_cmp);
    times[times.len() / 2]
}

/// All in turns, the medians.
fn medians(calls: &mut [&mut dyn FnMut(); 3]) -> [f64; 3] {
    let rounds: Vec<Vec<f64>> = (0..ROUNDS).map(|_| calls.iter_mut().map(|call| timed(&mut **call)).collect()).collect();
    [0, 1, 2].map(|k| median(rounds.iter().map(|round| round[k]).collect()))
}

fn longest() -> Vec<u8> {
    let sides = ["1"; SIDES].join("||");
    format!("standard E\nfugitive F\nprogram [1/E||1/F||{sides}].\n").into_bytes()
}

/// The state and letter of the step whose stack is measured.
static mut STEP: (Live, u8) = ([0; LIVE_BYTES], 0);

extern "C" fn proved_once() {
    // one thread, and nothing else holds it
    unsafe { black_box(proved(PROGRAM, &mut *addr_of_mut!(STEP.0), STEP.1)) };
}

extern "C" fn plain_once() {
    // as above
    unsafe { black_box(plain(PROGRAM, &mut *addr_of_mut!(STEP.0), STEP.1)) };
}

/// Bytes of stack that a step uses, the return address too: it runs on a painted one.
fn stack_of(step: (Live, u8), once: extern "C" fn()) -> usize {
    let mut stack = vec![PAINT; STACK + 16];
    let base = stack.as_mut_ptr() as usize;
    let top = (base + STACK) & !15;
    unsafe {
        STEP = step;
        asm!("mov r12, rsp", "mov rsp, {top}", "call {call}", "mov rsp, r12", top = in(reg) top, call = in(reg) once,
             out("r12") _, clobber_abi("C"));
    }
    let clean = black_box(&stack).iter().take_while(|byte| **byte == PAINT).count();
    top - base - clean
}

/// A step of the walk after the other.
fn stepping<'a>(steps: &'a [(Live, u8)], mut call: impl FnMut(&Live, u8) + 'a) -> impl FnMut() + 'a {
    let mut turn = 0;
    move || {
        let (live, letter) = &steps[turn % steps.len()];
        call(live, *letter);
        turn += 1;
    }
}

fn main() -> ExitCode {
    let steps = match walk() {
        Some(steps) if alike(&steps) => steps,
        _ => {
            println!("the file is refused, or the two answer it differently");
            return ExitCode::FAILURE;
        }
    };
    println!(
        "{} bytes, 96 tokens, {STEPS} steps of a walk, {ROUNDS} rounds in turns, medians",
        PROGRAM.len()
    );
    let one = |live: &Live, letter: u8| {
        let mut after = *live;
        black_box(proved(black_box(PROGRAM), &mut after, letter));
    };
    let two = |live: &Live, letter: u8| {
        let mut after = *live;
        black_box(plain(black_box(PROGRAM), &mut after, letter));
    };
    let three = |live: &Live, letter: u8| drop(black_box(live_bytes::step(black_box(PROGRAM), live, letter)));
    let [proved_ns, plain_ns, twin_ns] = medians(&mut [&mut stepping(&steps, one), &mut stepping(&steps, two), &mut stepping(&steps, three)]);
    let ratio = proved_ns / plain_ns;
    // a start leaves its code in the slice, which the next one does not look at
    let (mut began, mut plainly) = ([0; LIVE_BYTES], [0; LIVE_BYTES]);
    let mut first = || drop(black_box(unsafe { cart_live_start(black_box(PROGRAM).as_ptr(), PROGRAM.len(), began.as_mut_ptr(), LIVE_BYTES) }));
    let mut second = || drop(black_box(unsafe { plain_live_start(black_box(PROGRAM).as_ptr(), PROGRAM.len(), plainly.as_mut_ptr(), LIVE_BYTES) }));
    let mut third = || drop(black_box(live_bytes::start(black_box(PROGRAM), &[0; LIVE_BYTES])));
    let [one_ns, two_ns, three_ns] = medians(&mut [&mut first, &mut second, &mut third]);
    println!("start: proved {one_ns:.0} ns, plain C {two_ns:.0} ns, second program {three_ns:.0} ns");
    let most = |once| steps.iter().map(|step| stack_of(*step, once)).max().unwrap_or(0);
    println!("step: proved {proved_ns:.0} ns, plain C {plain_ns:.0} ns, second program {twin_ns:.0} ns");
    println!("ratio of proved to plain C {ratio:.3}, to second program {:.3}", proved_ns / twin_ns);
    println!("stack: proved {} bytes, plain C {} bytes", most(proved_once), most(plain_once));
    for file in [PROGRAM.to_vec(), longest()] {
        // bytes that code no state are refused as soon as the file is read
        let (mut none, mut other) = ([255; LIVE_BYTES], [255; LIVE_BYTES]);
        let mut one = || drop(black_box(proved(black_box(&file), &mut none, b'a')));
        let mut two = || drop(black_box(plain(black_box(&file), &mut other, b'a')));
        let mut three = || drop(black_box(read_config(black_box(&file), Edition::Adaptive)));
        let [proved_ns, plain_ns, twin_ns] = medians(&mut [&mut one, &mut two, &mut three]);
        println!("reading {} bytes: proved {proved_ns:.0} ns, plain C {plain_ns:.0} ns, second program {twin_ns:.0} ns", file.len());
    }
    if ratio <= 1.2 {
        ExitCode::SUCCESS
    } else {
        ExitCode::FAILURE
    }
}
