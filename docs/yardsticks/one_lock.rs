//! What threads cost that take one lock for each of their steps: plain Rust that does nothing else.
//!
//!     rustc -C opt-level=3 --edition 2021 -o /tmp/one_lock one_lock.rs
//!     /tmp/one_lock THREADS WORK HOLD
//!
//! 20,000 steps by so many threads in all. A step is WORK dependent multiplications, each with a write into a table of
//! 1,024 words, and a record of 64 bytes put last; 108 of them take some 200 nanoseconds, as a line of a script does.
//! HOLD is how many steps a thread makes while it has the lock; with 0 one thread makes all of them without a lock.
//! Printed are the wall time and the processor time, in milliseconds.

use std::sync::Mutex;
use std::thread;
use std::time::Instant;

const STEPS: u64 = 20_000;

struct Side {
    table: Vec<u64>,
    list: Vec<[u64; 8]>,
}

impl Side {
    fn new() -> Side {
        Side { table: vec![0; 1024], list: Vec::with_capacity(STEPS as usize) }
    }

    fn step(&mut self, thread: u64, i: u64, work: u32) {
        let mut x = thread * 31 + i;
        for _ in 0..work {
            x = x.wrapping_mul(6_364_136_223_846_793_005).wrapping_add(1_442_695_040_888_963_407);
            self.table[(x >> 33) as usize & 1023] ^= x;
        }
        self.list.push([self.list.len() as u64, thread, i, x, 0, 0, 0, 0]);
    }
}

#[repr(C)]
struct Time {
    seconds: i64,
    nanoseconds: i64,
}

extern "C" {
    fn clock_gettime(clock: i32, time: *mut Time) -> i32;
}

// The processor time of the process, in seconds: clock 2 of Linux.
fn processor_time() -> f64 {
    let mut time = Time { seconds: 0, nanoseconds: 0 };
    unsafe { clock_gettime(2, &mut time) };
    time.seconds as f64 + time.nanoseconds as f64 * 1e-9
}

fn main() {
    let words: Vec<u64> = std::env::args().skip(1).map(|word| word.parse().unwrap()).collect();
    let (threads, work, hold) = (words[0], words[1] as u32, words[2]);
    let (wall, processor) = (Instant::now(), processor_time());
    let side = Mutex::new(Side::new());
    if hold == 0 {
        let mut side = side.lock().unwrap();
        for i in 0..STEPS {
            side.step(i % threads, i, work);
        }
    } else {
        thread::scope(|scope| {
            for thread in 0..threads {
                let side = &side;
                scope.spawn(move || {
                    let mut i = 0;
                    while i < STEPS / threads {
                        let mut side = side.lock().unwrap();
                        for _ in 0..hold.min(STEPS / threads - i) {
                            side.step(thread, i, work);
                            i += 1;
                        }
                    }
                });
            }
        });
    }
    std::hint::black_box(side.lock().unwrap().list.len());
    println!("{:.2} {:.2}", wall.elapsed().as_secs_f64() * 1e3, (processor_time() - processor) * 1e3);
}
