//! Times the port against the Rust: same process, same inputs, turn by turn, the median of many. A ratio is the Rust's time divided
//! by the port's, so that above 1 the port is the faster.
//!
//! How quick a short loop is depends on where the linker happens to put it, by half and more, on both sides. So the program is linked
//! several times, with everything moved by some bytes, and for each cell the best median of each side is taken: `--times FILE` keeps
//! what was measured from one run to the next, and `harness/run bench` does the rounds.

use crate::port::{Config, Way};
use crate::width::{numbers, to_bytes, weights_to_bytes, Sample};
use original::doors;
use std::collections::BTreeMap;
use std::hint::black_box;
use std::path::{Path, PathBuf};

const SAMPLES: usize = 1 << 20;
const PIECE: usize = 64;
/// Turns to a measurement, where nothing else is said.
pub const TURNS: u64 = 11;
const ORDERS: [usize; 6] = [1, 2, 6, 8, 16, 32];

/// Which archive was linked, and what it is.
pub fn archive() -> String {
    let path = Path::new(crate::ARCHIVE);
    let place = path.strip_prefix(env!("CLASPOTTER_REPOSITORY")).unwrap_or(path).display();
    format!("{place} (what rt lib compiles)")
}

fn machine() -> String {
    let info = std::fs::read_to_string("/proc/cpuinfo").unwrap_or_default();
    let line = |name: &str| {
        let found = info.lines().find(|l| l.starts_with(name));
        found.and_then(|l| l.split(':').nth(1)).map(|v| v.trim().to_string())
    };
    let model = line("model name").or_else(|| line("CPU part").map(|part| format!("CPU part {part}")));
    let rate = line("cpu MHz").map(|mhz| format!(", {mhz} MHz")).unwrap_or_default();
    format!("{} ({}{rate})", model.unwrap_or_else(|| "a processor with no name".into()), std::env::consts::ARCH)
}

/// Over which slices the port is called; the Rust always has typed ones.
#[derive(Clone, Copy, PartialEq)]
enum Form {
    Typed,
    Bytes,
}

/// Nanoseconds for a sample.
#[derive(Clone, Copy)]
struct Cell {
    rust: f64,
    port: f64,
}

impl Cell {
    fn ratio(self) -> f64 {
        self.rust / self.port
    }

    /// The better of two measurements, side by side.
    fn best(self, other: Cell) -> Cell {
        Cell { rust: self.rust.min(other.rust), port: self.port.min(other.port) }
    }
}

/// What was measured, by name, in this run and in earlier ones.
struct Times {
    file: Option<PathBuf>,
    cells: BTreeMap<String, Cell>,
}

impl Times {
    fn read(file: Option<PathBuf>) -> Self {
        let text = file.as_ref().and_then(|f| std::fs::read_to_string(f).ok()).unwrap_or_default();
        let cell = |line: &str| {
            let mut words = line.split('\t');
            let name = words.next()?.to_string();
            Some((name, Cell { rust: words.next()?.parse().ok()?, port: words.next()?.parse().ok()? }))
        };
        Self { file, cells: text.lines().filter_map(cell).collect() }
    }

    fn best(&mut self, name: String, cell: Cell) -> Cell {
        let best = self.cells.get(&name).map_or(cell, |&known| known.best(cell));
        self.cells.insert(name, best);
        best
    }

    fn write(&self) {
        if let Some(file) = &self.file {
            let line = |(name, c): (&String, &Cell)| format!("{name}\t{}\t{}\n", c.rust, c.port);
            std::fs::write(file, self.cells.iter().map(line).collect::<String>()).expect("the file of times");
        }
    }
}

/// One row of a table: encoding, or decoding one way.
#[derive(Clone, Copy, PartialEq)]
enum Call {
    Encode,
    Decode(Way),
}

fn rows() -> Vec<(Call, usize)> {
    let encode = ORDERS.map(|k| (Call::Encode, k));
    let decode = ORDERS.into_iter().flat_map(|k| match k {
        6 => vec![(Call::Decode(Way::OrderSix), 6), (Call::Decode(Way::General), 6)],
        _ => vec![(Call::Decode(Way::Chosen), k)],
    });
    encode.into_iter().chain(decode).collect()
}

fn row_name(call: Call, order: usize) -> String {
    match call {
        Call::Encode => format!("encode, order {order}"),
        Call::Decode(Way::OrderSix) => "decode, order 6, its own way".into(),
        Call::Decode(Way::General) => "decode, order 6, the general way".into(),
        Call::Decode(Way::Chosen) => format!("decode, order {order}"),
    }
}

/// A smooth signal with some noise, which such a codec is for.
fn signal<T: Sample>(n: usize) -> Vec<T> {
    let mut s = crate::inputs::Source::new(1);
    let half = (1u64 << (T::W - 1)) as f64;
    (0..n)
        .map(|i| {
            let x = half * (1.0 + 0.8 * (i as f64 / 50.0).sin()) + (s.below(16) as f64 - 8.0);
            T::from_u64(x.clamp(0.0, 2.0 * half - 1.0) as u64)
        })
        .collect()
}

/// Equal weights that come to 1 together: the mean of the last samples.
fn configuration<T: Sample>(order: usize) -> (u32, Vec<i32>) {
    let shift = match T::W {
        8 => 6,
        16 => 12,
        _ => 20,
    };
    let each = (1i32 << shift) / order as i32;
    (shift, vec![each; order])
}

fn median(mut times: Vec<f64>) -> f64 {
    times.sort_by(f64::total_cmp);
    times[times.len() / 2]
}

/// Medians over the turns, in nanoseconds for one of `n`. Each turn starts from fresh copies, which are not timed, and the first to go
/// changes from turn to turn.
fn measured(turns: usize, n: usize, mut rust: impl FnMut() -> f64, mut port: impl FnMut() -> f64) -> Cell {
    let (mut rusts, mut ports) = (vec![], vec![]);
    for turn in 0..turns + 1 {
        let (r, p);
        if turn % 2 == 0 {
            r = rust();
            p = port();
        } else {
            p = port();
            r = rust();
        }
        // The first turn warms up.
        if turn > 0 {
            rusts.push(r / n as f64);
            ports.push(p / n as f64);
        }
    }
    Cell { rust: median(rusts), port: median(ports) }
}

/// The processor's time of this thread, in nanoseconds: what other programs take does not count.
fn now() -> f64 {
    #[repr(C)]
    struct Timespec {
        seconds: i64,
        nanoseconds: i64,
    }
    extern "C" {
        fn clock_gettime(clock: i32, time: *mut Timespec) -> i32;
    }
    const CLOCK_THREAD_CPUTIME_ID: i32 = 3;
    let mut time = Timespec { seconds: 0, nanoseconds: 0 };
    // Fills the struct, which is laid out as 64-bit Linux has it.
    assert_eq!(unsafe { clock_gettime(CLOCK_THREAD_CPUTIME_ID, &mut time) }, 0);
    time.seconds as f64 * 1e9 + time.nanoseconds as f64
}

fn timed(run: impl FnOnce()) -> f64 {
    let start = now();
    run();
    now() - start
}

/// Codes 2^20 samples, `piece` to a call.
fn cell<T: Sample>(call: Call, order: usize, form: Form, piece: usize, turns: usize) -> Cell {
    let (shift, weights) = configuration::<T>(order);
    let config = Config { order, shift, bias: 0, weights: &weights[..] };
    let weight_bytes = weights_to_bytes(&weights);
    let byte_config = Config { order, shift, bias: 0, weights: &weight_bytes[..] };
    let original = doors::Config::new(shift, 0, &weights);
    let samples = signal::<T>(SAMPLES);
    let (start, state) = match call {
        Call::Encode => (samples, vec![T::default(); order]),
        Call::Decode(_) => {
            let (mut buffer, mut state) = (samples, vec![T::default(); order]);
            assert_eq!(T::port_encode(&config, &mut buffer, &mut state), 0);
            (buffer.split_off(order), state)
        }
    };

    let mut rust_buffer = start.clone();
    let mut rust_state = state.clone();
    let rust = || {
        rust_buffer.copy_from_slice(&start);
        rust_state.copy_from_slice(&state);
        let time = timed(|| {
            for part in rust_buffer.chunks_mut(piece) {
                match call {
                    Call::Encode => {
                        black_box(T::rust_encode(black_box(&original), black_box(part)));
                    }
                    Call::Decode(Way::General) => T::rust_decode_general(black_box(&original), &mut rust_state, black_box(part)),
                    Call::Decode(_) => T::rust_decode(black_box(&original), &mut rust_state, black_box(part)),
                }
            }
        });
        black_box(&rust_buffer);
        time
    };

    let (start_bytes, state_bytes) = (to_bytes(&start), to_bytes(&state));
    let mut port_buffer = start.clone();
    let mut port_state = state.clone();
    let mut byte_buffer = start_bytes.clone();
    let mut byte_state = state_bytes.clone();
    let port = || {
        if form == Form::Bytes {
            byte_buffer.copy_from_slice(&start_bytes);
            byte_state.copy_from_slice(&state_bytes);
            let mut answers = 0;
            let time = timed(|| {
                for part in byte_buffer.chunks_mut(piece * T::BYTES) {
                    answers |= match call {
                        Call::Encode => T::port_encode_bytes(black_box(&byte_config), black_box(part), &mut byte_state),
                        Call::Decode(way) => T::port_decode_bytes(way, black_box(&byte_config), &mut byte_state, black_box(part)),
                    };
                }
            });
            assert_eq!(black_box(answers), 0);
            return time;
        }
        port_buffer.copy_from_slice(&start);
        port_state.copy_from_slice(&state);
        let mut answers = 0;
        let time = timed(|| {
            for part in port_buffer.chunks_mut(piece) {
                answers |= match call {
                    Call::Encode => T::port_encode(black_box(&config), black_box(part), &mut port_state),
                    Call::Decode(way) => T::port_decode(way, black_box(&config), &mut port_state, black_box(part)),
                };
            }
        });
        assert_eq!(black_box(answers), 0);
        time
    };
    let measured = measured(turns, start.len(), rust, port);
    // Both have done the same.
    if form == Form::Bytes {
        assert_eq!(byte_buffer, to_bytes(&rust_buffer));
    } else {
        assert_eq!(numbers(&port_buffer), numbers(&rust_buffer));
    }
    measured
}

/// A copy of the buffer, in nanoseconds for a sample: no coder that reads and writes it can be quicker.
fn floor<T: Sample>(turns: usize) -> f64 {
    let from = signal::<T>(SAMPLES);
    let mut to = from.clone();
    let times = (0..turns + 1).map(|_| timed(|| black_box(&mut to[..]).copy_from_slice(black_box(&from[..])))).collect();
    median(times) / SAMPLES as f64
}

fn table(times: &mut Times, title: &str, form: Form, piece: usize, turns: usize) {
    println!("\n{title}\n");
    println!("| call | W=8 | W=16 | W=32 |");
    println!("|---|---|---|---|");
    let (mut product, mut count) = (0.0, 0);
    let (mut least, mut least_name) = (f64::MAX, String::new());
    for (call, order) in rows() {
        let cells = [
            cell::<u8>(call, order, form, piece, turns),
            cell::<u16>(call, order, form, piece, turns),
            cell::<u32>(call, order, form, piece, turns),
        ];
        let name = row_name(call, order);
        let mut row = format!("| {name} |");
        for (c, w) in cells.into_iter().zip([8, 16, 32]) {
            let c = times.best(format!("{title} {name}, W={w}"), c);
            row += &format!(" {:.2} ({:.2} / {:.2}) |", c.ratio(), c.rust, c.port);
            product += c.ratio().ln();
            count += 1;
            if c.ratio() < least {
                (least, least_name) = (c.ratio(), format!("{name}, W={w}"));
            }
        }
        println!("{row}");
    }
    println!("\nGeometric mean {:.2}; least {least:.2} ({least_name}).", (product / count as f64).exp());
}

fn growth(times: &mut Times, turns: usize) {
    let calls = [("encode", Call::Encode), ("decode", Call::Decode(Way::Chosen))];
    let mut row = |head: String, order, piece| {
        let mut row = format!("| {head} |");
        for (name, call) in calls {
            let c = cell::<u16>(call, order, Form::Typed, piece, turns);
            let c = times.best(format!("growth {name} {order} {piece}"), c);
            row += &format!(" {:.2} / {:.2} |", c.rust, c.port);
        }
        println!("{row}");
    };
    println!("\nGrowth in samples: nanoseconds for a sample at order 8, W=16 (the Rust / the port).\n");
    println!("| samples to a call | encode | decode |\n|---|---|---|");
    for log in [5, 6, 8, 10, 12, 14, 16, 18, 20] {
        row(format!("2^{log}"), 8, 1 << log);
    }
    println!("\nGrowth in order: nanoseconds for a sample, W=16, 2^20 samples in one call (the Rust / the port).\n");
    println!("| order | encode | decode |\n|---|---|---|");
    for order in [1, 2, 4, 7, 8, 12, 15, 16, 24, 32] {
        row(order.to_string(), order, SAMPLES);
    }
}

pub fn run(turns: usize, file: Option<PathBuf>) {
    let times = &mut Times::read(file);
    let earlier = if times.cells.is_empty() { "" } else { ", the best of this and of earlier layouts of the program" };
    println!("Machine: {}. Archive: {}.", machine(), archive());
    println!(
        "Each cell: the Rust's time / the port's time, and in brackets nanoseconds for a sample (the Rust / the port); medians"
    );
    println!("of {turns} turns over {SAMPLES} samples, in the thread's own processor time{earlier}.");
    println!(
        "A copy of the buffer takes {:.2}, {:.2} and {:.2} nanoseconds for a sample at W=8, 16 and 32.",
        floor::<u8>(turns),
        floor::<u16>(turns),
        floor::<u32>(turns)
    );
    // Where the linker put a function; it moves with the layout.
    black_box(crate::pad());
    table(times, "Typed slices, 2^20 samples in one call.", Form::Typed, SAMPLES, turns);
    table(times, "Typed slices, pieces of 64 samples.", Form::Typed, PIECE, turns);
    table(times, "Byte slices against the Rust's typed slices, 2^20 samples in one call.", Form::Bytes, SAMPLES, turns);
    table(times, "Byte slices against the Rust's typed slices, pieces of 64 samples.", Form::Bytes, PIECE, turns);
    growth(times, turns);
    times.write();
}
