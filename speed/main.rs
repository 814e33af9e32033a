// Runs the same work on both sides. With no argument: compares the checksums of every case and prints each case with the median ratio of times.
// With a case and a side: one call, for an instruction counter.
mod baseline;

use std::hint::black_box;
use std::time::Instant;

// parameters, row and carriers, each a pointer and a length, and how many rounds
type Bench =
    unsafe extern "C" fn(*const u32, usize, *const u32, usize, *const u32, usize, u32) -> u32;
type Read = unsafe extern "C" fn(*const u8, usize, u32) -> u32;

// The exports of the proved side, all but the reader of one signature.
macro_rules! proved {
    ($($work:ident)*) => {
        #[link(name = "speed", kind = "static")]
        #[link(name = "libc_c", kind = "static")]
        unsafe extern "C" {
            $(fn $work(
                parameters: *const u32,
                parameter_count: usize,
                row: *const u32,
                boxes: usize,
                carriers: *const u32,
                carrier_count: usize,
                rounds: u32,
            ) -> u32;)*
            fn rattle_read(text: *const u8, length: usize, rounds: u32) -> u32;
        }
    };
}

proved! {
    rattle_cap_sweeps rattle_cap_exchanges rattle_cap_raises
    rattle_perm_sweeps rattle_perm_exchanges
    rattle_aff_sweeps rattle_aff_exchanges
    rattle_phase_sweeps rattle_phase_exchanges rattle_phase_raises
}

// A fixed sequence of numbers (xorshift).
struct Numbers(u64);

impl Numbers {
    fn below(&mut self, n: u32) -> u32 {
        self.0 ^= self.0 << 13;
        self.0 ^= self.0 >> 7;
        self.0 ^= self.0 << 17;
        ((self.0 >> 32) % u64::from(n)) as u32
    }

    fn code(&mut self, map: &str) -> u32 {
        match map {
            "cap" => {
                let capacity = 1 + self.below(12);
                256 * capacity + self.below(capacity + 1)
            }
            "perm" => {
                let mut images = [0, 1, 2, 3, 4, 5, 6, 7];
                for i in (1..8).rev() {
                    images.swap(i, self.below(i as u32 + 1) as usize);
                }
                images.iter().rev().fold(0, |n, v| 8 * n + v)
            }
            "aff" => self.below(65_521),
            _ => 65_536 * (1 + self.below(12)) + self.below(65_521),
        }
    }

    fn codes(&mut self, map: &str, count: usize) -> Vec<u32> {
        (0..count).map(|_| self.code(map)).collect()
    }
}

enum Work {
    Bench {
        sides: [Bench; 2],
        parameters: Vec<u32>,
        row: Vec<u32>,
        carriers: Vec<u32>,
    },
    Read {
        sides: [Read; 2],
        text: Vec<u8>,
    },
}

struct Case {
    name: String,
    work: Work,
    rounds: u32,
}

impl Case {
    // side 0 is Rattle, side 1 Rust
    fn run(&self, side: usize, rounds: u32) -> u32 {
        match &self.work {
            Work::Bench {
                sides,
                parameters,
                row,
                carriers,
            } => unsafe {
                sides[side](
                    parameters.as_ptr(),
                    parameters.len(),
                    row.as_ptr(),
                    row.len(),
                    carriers.as_ptr(),
                    carriers.len(),
                    rounds,
                )
            },
            Work::Read { sides, text } => unsafe { sides[side](text.as_ptr(), text.len(), rounds) },
        }
    }

    fn seconds(&self, side: usize) -> f64 {
        let start = Instant::now();
        black_box(self.run(side, self.rounds));
        start.elapsed().as_secs_f64()
    }
}

fn parameters(map: &str) -> Vec<u32> {
    match map {
        "aff" => vec![65_521, 3, 1, 9, 4],
        "phase" => vec![65_521],
        _ => vec![],
    }
}

const CARRIERS: usize = 16;
const LOG: usize = 64;

fn bench_case(
    map: &str,
    work: &str,
    sides: [Bench; 2],
    boxes: usize,
    carriers: usize,
    rounds: u32,
) -> Case {
    let mut numbers = Numbers(0x9e37_79b9_7f4a_7c15);
    Case {
        name: format!("{map}_{work}_{boxes}"),
        work: Work::Bench {
            sides,
            parameters: parameters(map),
            row: numbers.codes(map, boxes),
            carriers: numbers.codes(map, carriers),
        },
        rounds,
    }
}

// A text of about that many bytes: a map line, a row and commands.
fn text_of(map: &str, bytes: usize) -> Vec<u8> {
    let mut numbers = Numbers(0x2545_f491_4f6c_dd1d);
    let mut text = format!("map\tL\t{map}");
    for parameter in parameters(map) {
        text += &format!("\t{parameter}");
    }
    text += "\nrow";
    for _ in 0..1_024 {
        if text.len() >= bytes / 4 {
            break;
        }
        text += &format!("\t{}", numbers.code(map));
    }
    text += "\n";
    while text.len() + 12 <= bytes {
        text += &match numbers.below(8) {
            0 => format!("X\t{}\n", numbers.below(64)),
            1 => format!("Y\t{}\n", numbers.below(64)),
            2 => format!("N\t{}\n", numbers.below(12)),
            3 => "B\n".to_string(),
            4 => "P\n".to_string(),
            _ => format!("S\t{}\n", numbers.code(map)),
        };
    }
    text.into_bytes()
}

fn cases() -> Vec<Case> {
    use baseline::*;
    let sweeps: [(&str, [Bench; 2]); 4] = [
        ("cap", [rattle_cap_sweeps, rust_cap_sweeps]),
        ("perm", [rattle_perm_sweeps, rust_perm_sweeps]),
        ("aff", [rattle_aff_sweeps, rust_aff_sweeps]),
        ("phase", [rattle_phase_sweeps, rust_phase_sweeps]),
    ];
    let logs: [(&str, &str, [Bench; 2]); 6] = [
        (
            "cap",
            "exchanges",
            [rattle_cap_exchanges, rust_cap_exchanges],
        ),
        (
            "perm",
            "exchanges",
            [rattle_perm_exchanges, rust_perm_exchanges],
        ),
        (
            "aff",
            "exchanges",
            [rattle_aff_exchanges, rust_aff_exchanges],
        ),
        (
            "phase",
            "exchanges",
            [rattle_phase_exchanges, rust_phase_exchanges],
        ),
        ("cap", "raises", [rattle_cap_raises, rust_cap_raises]),
        ("phase", "raises", [rattle_phase_raises, rust_phase_raises]),
    ];
    let mut all = Vec::new();
    for (map, sides) in sweeps {
        for (boxes, rounds) in [(16, 400), (128, 60), (1_024, 8)] {
            all.push(bench_case(map, "sweeps", sides, boxes, CARRIERS, rounds));
        }
    }
    for (map, work, sides) in logs {
        all.push(bench_case(map, work, sides, 8, LOG, 200));
    }
    for map in ["cap", "perm", "aff", "phase"] {
        for (bytes, rounds) in [(1_024, 768), (8_192, 96), (32_768, 24)] {
            all.push(Case {
                name: format!("{map}_read_{bytes}"),
                work: Work::Read {
                    sides: [rattle_read, rust_read],
                    text: text_of(map, bytes),
                },
                rounds,
            });
        }
    }
    all
}

const REPETITIONS: usize = 41;

fn main() {
    let arguments: Vec<String> = std::env::args().skip(1).collect();
    let cases = cases();
    if let [name, side] = &arguments[..] {
        let case = cases
            .iter()
            .find(|case| case.name == *name)
            .expect("no such case");
        println!("{}", case.run(usize::from(side == "rust"), case.rounds));
        return;
    }
    for case in &cases {
        let sums = [case.run(0, 3), case.run(1, 3)];
        assert_eq!(sums[0], sums[1], "{}: the checksums differ", case.name);
        assert_ne!(sums[0], u32::MAX, "{}: not measured", case.name);
        let mut ratios: Vec<f64> = (0..REPETITIONS)
            .map(|i| {
                // each side goes first in every other repetition
                let first = case.seconds(i % 2);
                let second = case.seconds(1 - i % 2);
                if i % 2 == 0 {
                    first / second
                } else {
                    second / first
                }
            })
            .collect();
        ratios.sort_by(f64::total_cmp);
        println!(
            "{}\t{:.2}\t{:.2}\t{:.2}",
            case.name,
            ratios[REPETITIONS / 2],
            ratios[REPETITIONS / 4],
            ratios[REPETITIONS * 3 / 4]
        );
    }
}
