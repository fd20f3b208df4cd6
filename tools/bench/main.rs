//! Symbols of this workspace beside those of other encoders, at level L: times, one call for
//! callgrind, and a comparison of grids with the original crate's.
//!
//!     driver table          least times of many short rounds, in microseconds
//!     driver growth         full symbols by their versions
//!     driver names          the encoders and the inputs
//!     driver one WHO INPUT N    N calls
//!     driver compare N      N inputs at all levels, Normal and Micro, hostile ones among them

use qrcode_core::{Color, EcLevel, QrResult, bits, bits::Bits, canvas::Canvas, ec};
use std::time::{Duration, Instant};

/// `sicklespan_shape` of bindings/c/sicklespan.h.
#[repr(C)]
#[derive(Default)]
struct Shape {
    width: i32,
    version: i32,
    mask: i32,
    micro: bool,
}

unsafe extern "C" {
    fn sicklespan_symbol(
        bytes: *const u8,
        len: usize,
        level: i32,
        out: *mut u8,
        room: usize,
        shape: &mut Shape,
    ) -> i32;
    fn sicklespan_micro_symbol(
        bytes: *const u8,
        len: usize,
        level: i32,
        out: *mut u8,
        room: usize,
        shape: &mut Shape,
    ) -> i32;
    fn peer_qrencode(bytes: *const u8, len: usize, kanji: bool) -> i32;
    #[cfg(zint)]
    fn peer_zint(bytes: *const u8, len: usize) -> i32;
    #[cfg(qrcodegen)]
    fn peer_qrcodegen(bytes: *const u8, len: usize) -> i32;
}

const MOST_MODULES: usize = 177 * 177;
const LEVELS: [EcLevel; 4] = [EcLevel::L, EcLevel::M, EcLevel::Q, EcLevel::H];

/// Who can be asked for a symbol: ours, the original crate, and the others that are linked.
const ENCODERS: &[&str] = &[
    "here",
    "original",
    "libqrencode",
    #[cfg(zint)]
    "zint",
    #[cfg(qrcodegen)]
    "qrcodegen",
];

fn here(bytes: &[u8], level: usize, micro: bool, out: &mut [u8]) -> usize {
    let mut shape = Shape::default();
    let draw = if micro { sicklespan_micro_symbol } else { sicklespan_symbol };
    let (level, room) = (level as i32, out.len());
    let status =
        unsafe { draw(bytes.as_ptr(), bytes.len(), level, out.as_mut_ptr(), room, &mut shape) };
    if status == 0 { (shape.width * shape.width) as usize } else { 0 }
}

fn drawn(encoded: QrResult<Bits>, level: EcLevel, out: &mut [u8]) -> usize {
    let Ok(encoded) = encoded else { return 0 };
    let version = encoded.version();
    let Ok((data, correction)) = ec::construct_codewords(&encoded.into_bytes(), version, level)
    else {
        return 0;
    };
    let mut canvas = Canvas::new(version, level);
    canvas.draw_all_functional_patterns();
    canvas.draw_data(&data, &correction);
    let colors = canvas.apply_best_mask().into_colors();
    for (cell, color) in out.iter_mut().zip(&colors) {
        *cell = u8::from(*color == Color::Dark);
    }
    colors.len()
}

fn original(bytes: &[u8], level: usize, micro: bool, out: &mut [u8]) -> usize {
    let level = LEVELS[level];
    let encoded =
        if micro { bits::encode_auto_micro(bytes, level) } else { bits::encode_auto(bytes, level) };
    drawn(encoded, level, out)
}

/// The modules of an encoder's symbol at level L; of the others than ours and the original their
/// number alone.
fn asked(who: &str, input: &Input, out: &mut [u8]) -> usize {
    let bytes = &input.bytes;
    let width = match who {
        "here" => return here(bytes, 0, false, out),
        "original" => return original(bytes, 0, false, out),
        "libqrencode" => unsafe {
            peer_qrencode(bytes.as_ptr(), bytes.len(), input.key == "mixed300")
        },
        #[cfg(zint)]
        "zint" => unsafe { peer_zint(bytes.as_ptr(), bytes.len()) },
        #[cfg(qrcodegen)]
        "qrcodegen" => unsafe { peer_qrcodegen(bytes.as_ptr(), bytes.len()) },
        _ => panic!("no encoder {who}"),
    };
    (width * width) as usize
}

struct Input {
    key: &'static str,
    name: &'static str,
    bytes: Vec<u8>,
}

fn repeated(pattern: &[u8], count: usize) -> Vec<u8> {
    pattern.iter().copied().cycle().take(count).collect()
}

/// Numbers that look random, the same in each run.
struct Random(u64);

impl Random {
    fn next(&mut self) -> u64 {
        self.0 = self.0.wrapping_mul(6364136223846793005).wrapping_add(1442695040888963407);
        self.0 >> 33
    }

    fn below(&mut self, end: usize) -> usize {
        self.next() as usize % end
    }
}

fn random_bytes(count: usize) -> Vec<u8> {
    let mut state = 2026u32;
    let mut next = || {
        state = state.wrapping_mul(1664525).wrapping_add(1013904223);
        (state >> 24) as u8
    };
    (0..count).map(|_| next()).collect()
}

fn four_modes() -> Vec<u8> {
    let mut bytes = repeated(b"0123456789", 75);
    bytes.extend(repeated(b"SICKLESPAN $%*+-./:", 75));
    bytes.extend(repeated(b"sicklespan", 76));
    bytes.extend(repeated(&[0x93, 0x5f, 0xe4, 0xaa], 74));
    bytes
}

fn inputs() -> [Input; 7] {
    let url = b"https://www.example.org/tickets/2026/11/22?seat=14C&row=7&gate=B12";
    [
        ("hello", "`hello`", b"hello".to_vec()),
        ("url66", "a URL of 66 bytes", url.to_vec()),
        ("mixed300", "300 bytes of four modes", four_modes()),
        ("bytes1500", "1500 random bytes", random_bytes(1500)),
        ("a2953", "2953 bytes `a`", repeated(b"a", 2953)),
        ("alt2000", "2000 bytes `A1..`", repeated(b"A1", 2000)),
        ("digits7089", "7089 digits", repeated(b"0123456789", 7089)),
    ]
    .map(|(key, name, bytes)| Input { key, name, bytes })
}

/// The least times of some calls, in microseconds: many short rounds, each with all calls in turn,
/// so that what else the machine does spoils some rounds of each and not all rounds of one.
fn least_times(calls: &mut [&mut dyn FnMut() -> usize]) -> Vec<f64> {
    let mut least = vec![f64::INFINITY; calls.len()];
    let end = Instant::now() + Duration::from_secs(6);
    let mut rounds = 0;
    while rounds < 40 || (rounds < 2000 && Instant::now() < end) {
        for (call, least) in calls.iter_mut().zip(&mut least) {
            let times = if *least < 500.0 { 8 } else { 1 };
            let start = Instant::now();
            for _ in 0..times {
                std::hint::black_box(call());
            }
            *least = least.min(start.elapsed().as_secs_f64() * 1e6 / f64::from(times));
        }
        rounds += 1;
    }
    least
}

fn print_table() {
    println!(
        "| Input | Modules | {} | of the faster of original and libqrencode |",
        ENCODERS.join(" | ")
    );
    println!("|---|---{}|---|", "|---".repeat(ENCODERS.len()));
    for input in inputs() {
        let (mut ours, mut theirs) = (vec![0; MOST_MODULES], vec![0; MOST_MODULES]);
        let modules = asked("here", &input, &mut ours);
        assert!(
            modules > 0 && modules == asked("original", &input, &mut theirs),
            "{}: sizes differ",
            input.key
        );
        assert!(ours == theirs, "{}: the grids differ", input.key);
        let mut outs = vec![vec![0; MOST_MODULES]; ENCODERS.len()];
        let mut calls: Vec<_> =
            ENCODERS.iter().zip(&mut outs).map(|(who, out)| || asked(who, &input, out)).collect();
        let mut calls: Vec<&mut dyn FnMut() -> usize> =
            calls.iter_mut().map(|it| it as _).collect();
        let times = least_times(&mut calls);
        let shown: Vec<_> = times.iter().map(|it| format!("{it:.1}")).collect();
        println!(
            "| {} | {modules} | {} | {:.3} |",
            input.name,
            shown.join(" | "),
            times[0] / times[1].min(times[2])
        );
    }
}

/// Times of full symbols, by their versions: how the cost grows with bytes and modules.
fn print_growth() {
    println!("| Version | Bytes `a` | Modules | Here, us | ns a module |");
    println!("|---|---|---|---|---|");
    let mut out = vec![0; MOST_MODULES];
    for (version, count) in [(1, 17), (5, 106), (10, 271), (20, 858), (30, 1732), (40, 2953)] {
        let bytes = repeated(b"a", count);
        let modules = here(&bytes, 0, false, &mut out);
        assert!(modules == (17 + 4 * version) * (17 + 4 * version), "version {version}");
        let time = least_times(&mut [&mut || here(&bytes, 0, false, &mut out)])[0];
        println!(
            "| {version} | {count} | {modules} | {time:.1} | {:.1} |",
            1e3 * time / modules as f64
        );
    }
}

/// An input of a random kind: runs of one mode or of several, Shift JIS pairs, lone leads, zeros,
/// random bytes. The length is short for Micro; else it is spread over the versions, with some that
/// are just too long.
fn random_input(random: &mut Random, micro: bool) -> Vec<u8> {
    let most = if micro { 40 } else { [60, 400, 1500, 3000, 7200][random.below(5)] };
    let count = random.below(most + 1);
    let mixed = random.below(3) == 0;
    let (mut kind, mut left, mut bytes) = (random.below(8), 0, Vec::new());
    while bytes.len() < count {
        if mixed && left == 0 {
            kind = random.below(8);
            left = 1 + random.below(24);
        }
        left = left.saturating_sub(1);
        let any = random.next() as u8;
        match kind {
            0 => bytes.push(b'0' + any % 10),
            1 => {
                bytes.push(b"0123456789ABCDEFGHIJKLMNOPQRSTUVWXYZ $%*+-./:"[usize::from(any) % 45])
            }
            2 => bytes.push(b'a' + any % 26),
            3 => bytes.extend([0x81 + any % 31, 0x40 + (any >> 2)]),
            4 => bytes.extend([0xe0 + any % 13, 0x80 + any % 125]),
            5 => bytes.push(if any < 128 { 0 } else { 0xeb }),
            6 => bytes.extend(if any < 128 { [b'A', b'1'] } else { [b'1', b'a'] }),
            _ => bytes.push(any),
        }
    }
    bytes.truncate(count);
    bytes
}

fn compare(count: usize) {
    let mut random = Random(22);
    let (mut ours, mut theirs) = (vec![0; MOST_MODULES], vec![0; MOST_MODULES]);
    let mut symbols = std::collections::BTreeMap::<usize, usize>::new();
    let mut refused = 0;
    for number in 0..count {
        let micro = number % 5 == 0;
        let level = number % 4;
        let bytes = random_input(&mut random, micro);
        let modules = here(&bytes, level, micro, &mut ours);
        assert!(
            modules == original(&bytes, level, micro, &mut theirs),
            "input {number}: the sizes differ"
        );
        assert!(ours[..modules] == theirs[..modules], "input {number}: the grids differ");
        if modules == 0 { refused += 1 } else { *symbols.entry(modules).or_default() += 1 }
    }
    println!(
        "{count} inputs, all equal: {refused} refused by both, {} widths, each at least {} times",
        symbols.len(),
        symbols.values().min().unwrap_or(&0)
    );
}

fn main() {
    let words: Vec<String> = std::env::args().skip(1).collect();
    let words: Vec<&str> = words.iter().map(String::as_str).collect();
    match words[..] {
        ["table"] => print_table(),
        ["growth"] => print_growth(),
        ["names"] => {
            println!("{}", ENCODERS.join(" "));
            inputs().iter().for_each(|input| println!("{}", input.key));
        }
        ["one", who, key, count] => {
            let input = inputs().into_iter().find(|input| input.key == key).expect("an input");
            let mut out = vec![0; MOST_MODULES];
            for _ in 0..count.parse().expect("a number") {
                assert!(asked(who, &input, &mut out) > 0);
            }
        }
        ["compare", count] => compare(count.parse().expect("a number")),
        _ => panic!("table, growth, names, one WHO INPUT N, or compare N"),
    }
}
