//! Times reading from Rust, as from_c.c does from C:   from_rust BATCHES FILE..
use std::error::Error;
use std::hint::black_box;
use zaxmonth::Sdp;

const BATCH: f64 = 10e6; // nanoseconds that a batch takes at least
const CLOCK: i32 = 2; // CLOCK_PROCESS_CPUTIME_ID of Linux

#[repr(C)]
struct Time {
    seconds: i64,
    nanoseconds: i64,
}

extern "C" {
    fn clock_gettime(clock: i32, time: *mut Time) -> i32;
}

fn now() -> f64 {
    let mut time = Time { seconds: 0, nanoseconds: 0 };
    // SAFETY: the place is there.
    unsafe { clock_gettime(CLOCK, &mut time) };
    time.seconds as f64 * 1e9 + time.nanoseconds as f64
}

fn taken(text: &str, times: u32) -> f64 {
    let begin = now();
    for _ in 0..times {
        let _ = black_box(Sdp::from_sdp_string(black_box(text)));
    }
    now() - begin
}

fn least(text: &str, batches: u32) -> f64 {
    let mut times = 1;
    while taken(text, times) < BATCH {
        times *= 2;
    }
    (0..batches).map(|_| taken(text, times) / f64::from(times)).fold(f64::INFINITY, f64::min)
}

fn main() -> Result<(), Box<dyn Error>> {
    let mut words = std::env::args().skip(1);
    let batches = words.next().ok_or("usage: from_rust BATCHES FILE..")?.parse()?;
    for path in words {
        let text = std::fs::read_to_string(&path)?;
        match Sdp::from_sdp_string(&text) {
            Ok(_) => println!("{path}\tRust\t{:.1}", least(&text, batches)),
            Err(_) => println!("{path}\tRust\trefused"),
        }
    }
    Ok(())
}
