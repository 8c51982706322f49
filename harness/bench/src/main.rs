//! How long the library's scan takes beside ISA-L's `xor_check`, a plain C loop and the independent Rust scan: same buffers, same run.
//! It decides nothing: it prints a table, which docs/PERFORMANCE.md keeps.
use harness::calls::{Calls, Plain, State, Tested};
use harness::plain::blocks::{make_right, on_card};
use std::ffi::{c_char, c_int, c_void};
use std::hint::black_box;
use std::time::Instant;

extern "C" {
    fn plain_scan(cards: usize, stripes: usize, block: usize, image: *const u8) -> c_int;
    fn dlopen(name: *const c_char, flags: c_int) -> *mut c_void;
    fn dlsym(library: *mut c_void, name: *const c_char) -> *mut c_void;
}

const RTLD_NOW: c_int = 2;

/// ISA-L's check of one stripe: 0 where the exclusive or of all blocks is zero.
type XorCheck = unsafe extern "C" fn(blocks: c_int, size: c_int, array: *mut *mut c_void) -> c_int;

/// `xor_check`, where libisal is installed.
fn xor_check() -> Option<XorCheck> {
    unsafe {
        let library = dlopen(c"libisal.so.2".as_ptr(), RTLD_NOW);
        if library.is_null() {
            return None;
        }
        let function = dlsym(library, c"xor_check".as_ptr());
        (!function.is_null()).then(|| std::mem::transmute::<*mut c_void, XorCheck>(function))
    }
}

/// The scan by ISA-L, a stripe at a time.
fn scan_by(check: XorCheck, state: &State, image: &[u8]) -> bool {
    let (cards, stripes, block) = state.sizes();
    (0..stripes).all(|stripe| {
        let mut blocks = [std::ptr::null_mut(); 8];
        for (card, pointer) in blocks.iter_mut().enumerate().take(cards) {
            *pointer = image[on_card(state, card as u64, stripe as u64)].as_ptr() as *mut c_void;
        }
        unsafe { check(cards as c_int, block as c_int, blocks.as_mut_ptr()) == 0 }
    })
}

/// Room for an image that starts at a multiple of 64, which ISA-L asks, and where it starts.
fn room(len: usize) -> (Vec<u8>, usize) {
    let bytes = vec![0u8; len + 64];
    let start = bytes.as_ptr().align_offset(64);
    (bytes, start)
}

/// Bytes that look random, with right parity.
fn fill(state: &State, image: &mut [u8]) {
    let mut x: u32 = 1;
    for byte in image.iter_mut() {
        x = x.wrapping_mul(1664525).wrapping_add(1013904223);
        *byte = (x >> 24) as u8;
    }
    make_right(state, image);
}

/// Microseconds for each of the scans: the best of many rounds in which they take turns.
fn measure(scans: &[&dyn Fn() -> bool], bytes: usize) -> Vec<f64> {
    let repeats = (8_000_000 / bytes).max(1);
    let mut best = vec![f64::INFINITY; scans.len()];
    for _ in 0..400 {
        for (run, least) in scans.iter().zip(&mut best) {
            let start = Instant::now();
            for _ in 0..repeats {
                assert!(black_box(run()), "parity is right");
            }
            *least = least.min(start.elapsed().as_secs_f64() * 1e6 / repeats as f64);
        }
    }
    best
}

/// One row of the table: the library's time, and for each of the others its time and the library's in proportion to it.
fn row(state: &State, check: Option<XorCheck>) {
    let (cards, stripes, block) = state.sizes();
    let len = cards * stripes * block;
    let (mut bytes, start) = room(len);
    fill(state, &mut bytes[start..start + len]);
    let image = &bytes[start..start + len];

    let library = || Tested.scan(state, black_box(image)) == 0;
    let checked = || check.is_some_and(|check| scan_by(check, state, black_box(image)));
    let plain = || unsafe { plain_scan(cards, stripes, block, black_box(image).as_ptr()) == 0 };
    let rust = || Plain.scan(state, black_box(image)) == 0;
    let mut scans: Vec<&dyn Fn() -> bool> = vec![&library];
    if check.is_some() {
        scans.push(&checked);
    }
    scans.push(&plain);
    scans.push(&rust);

    let times = measure(&scans, len);
    print!("| {cards} | {stripes} | {block} | {} KiB | {:.1} µs |", len / 1024, times[0]);
    for time in &times[1..] {
        print!(" {time:.1} µs | {:.2} |", times[0] / time);
    }
    println!();
}

fn main() {
    let check = xor_check();
    let mut others = vec!["plain C", "Rust"];
    match check {
        Some(_) => others.insert(0, "xor_check"),
        None => println!("libisal is not installed (Debian's libisal-dev): its column is left out.\n"),
    }
    let names: String = others.iter().map(|name| format!(" {name} | ratio |")).collect();
    println!("| N | S | B | image | scan |{names}");
    println!("|---|---|---|---|---|{}", "---|---|".repeat(others.len()));
    for (cards, stripes, block) in [(8, 1024, 512), (8, 64, 512), (5, 1024, 128), (3, 1024, 16)] {
        row(&State::whole(cards, stripes, block), check);
    }
}
