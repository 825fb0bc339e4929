//! Measures the proved compile and the second program's, plain Rust with a hash table, on the heavy files of tests/cases, in turns: first that they answer
//! alike, then the sum over the files. Ends with 1 where the proved compile takes over 1.5 times as long.

use std::fs;
use std::hint::black_box;
use std::process::ExitCode;

use twin::limits::Edition;
use twin::table::compile;

/// What the proved calls answer.
#[repr(C)]
struct Answer {
    number: usize,
    place: usize,
    states: usize,
    size: usize,
}

type Compile = unsafe extern "C" fn(*const u8, usize, *mut u8, usize, *mut u8, usize) -> Answer;

extern "C" {
    fn cart_compile_basic(file: *const u8, n: usize, output: *mut u8, m: usize, work: *mut u8, k: usize) -> Answer;
    fn cart_compile_adaptive(file: *const u8, n: usize, output: *mut u8, m: usize, work: *mut u8, k: usize) -> Answer;
    fn clock_gettime(clock: i32, now: *mut [i64; 2]) -> i32;
}

const OUTPUT: usize = 26640;
const WORK: usize = 65536;
const ROUNDS: usize = 5;
const MOST: f64 = 1.5;
/// The processor's time of this process.
const CLOCK: i32 = 2;

struct Buffers {
    output: Vec<u8>,
    work: Vec<u8>,
}

fn proved(call: Compile, file: &[u8], buffers: &mut Buffers) -> Answer {
    // three slices that do not overlap, borrowed for the call
    unsafe {
        call(file.as_ptr(), file.len(), buffers.output.as_mut_ptr(), OUTPUT, buffers.work.as_mut_ptr(), WORK)
    }
}

fn now() -> f64 {
    let mut time = [0i64; 2];
    // the clock writes two numbers
    unsafe { clock_gettime(CLOCK, &mut time) };
    time[0] as f64 * 1e3 + time[1] as f64 / 1e6
}

fn alike(call: Compile, edition: Edition, file: &[u8], buffers: &mut Buffers) -> bool {
    let a = proved(call, file, buffers);
    match compile(file, edition) {
        Ok(b) => a.number == 0 && a.states == b.states && buffers.output[..a.size] == b.table[..],
        Err(r) => (a.number, a.place) == (usize::from(r.number), r.place),
    }
}

fn main() -> ExitCode {
    let mut files: Vec<Vec<u8>> = Vec::new();
    for name in std::env::args().skip(1) {
        files.push(fs::read(name).unwrap_or_default());
    }
    let calls: [(Compile, Edition); 2] = [(cart_compile_basic, Edition::Basic), (cart_compile_adaptive, Edition::Adaptive)];
    let mut buffers = Buffers { output: vec![0; OUTPUT], work: vec![0; WORK] };
    for (call, edition) in calls {
        if files.is_empty() || !files.iter().all(|f| alike(call, edition, f, &mut buffers)) {
            println!("the two do not answer alike");
            return ExitCode::FAILURE;
        }
    }
    let (mut ours, mut theirs) = (Vec::new(), Vec::new());
    for _ in 0..ROUNDS {
        let start = now();
        for (call, _) in calls {
            files.iter().for_each(|f| drop(black_box(proved(call, f, &mut buffers))));
        }
        let middle = now();
        for (_, edition) in calls {
            files.iter().for_each(|f| drop(black_box(compile(f, edition))));
        }
        ours.push(middle - start);
        theirs.push(now() - middle);
    }
    ours.sort_by(f64::total_cmp);
    theirs.sort_by(f64::total_cmp);
    let (a, b) = (ours[ROUNDS / 2], theirs[ROUNDS / 2]);
    println!("heavy files together: proved {a:.2} ms, plain Rust with a hash table {b:.2} ms, ratio {:.2}", a / b);
    if a / b <= MOST { ExitCode::SUCCESS } else { ExitCode::FAILURE }
}
