//! The archive against the independent model on the same work, in one run: nanoseconds each, and
//! the ratio. `cargo run --release --offline --bin bench`

use std::hint::black_box;
use std::time::Instant;

use seamtrout::model::{self, Model};
use seamtrout::Seamtrout;

const PORT: u16 = 0x110;
const NODE: [u16; 3] = [0x0020, 0xAFC4, 0x12E5];
const STATION: [u8; 6] = [0x00, 0x20, 0xAF, 0xC4, 0x12, 0xE5];
const LONG: usize = 1514;

fn words(last: u16) -> [u16; 64] {
    let mut w = [0; 64];
    w[..3].copy_from_slice(&NODE);
    w[2] = last;
    w[7] = 0x6D50;
    w
}

fn frame() -> Vec<u8> {
    let mut f: Vec<u8> = (0..LONG).map(|i| (i * 7 + 3) as u8).collect();
    f[..6].copy_from_slice(&STATION);
    f
}

/// The shortest of `runs` runs of the work, each on a fresh copy, in nanoseconds.
fn time<S: Clone>(start: &S, runs: u32, mut work: impl FnMut(&mut S)) -> f64 {
    let mut best = f64::MAX;
    for _ in 0..runs {
        let mut s = start.clone();
        let t = Instant::now();
        work(black_box(&mut s));
        best = best.min(t.elapsed().as_nanos() as f64);
        black_box(&mut s);
    }
    best
}

fn row(what: &str, archive: f64, model: f64) {
    println!("| {what} | {archive:.1} | {model:.1} | {:.1} |", archive / model);
}

/// Both cards are active, opened, and their methods have the same names.
macro_rules! ready {
    ($card:ty) => {{
        let mut c = <$card>::power_on(words(NODE[2]));
        let mut b = 0xFFu8;
        c.id_write(PORT, 0).unwrap();
        c.id_write(PORT, 0).unwrap();
        for _ in 0..255 {
            c.id_write(PORT, b).unwrap();
            b = if b & 0x80 == 0 { b << 1 } else { (b << 1) ^ 0xCF };
        }
        c.id_write(PORT, 0xFF).unwrap();
        assert!(c.active());
        c.open(NODE).unwrap();
        c
    }};
}

macro_rules! arrive {
    ($c:expr, $f:expr) => {
        $c.wire_start($f[..8].try_into().unwrap()).unwrap();
        for &b in &$f[8..] {
            $c.wire_byte(b).unwrap();
        }
        $c.wire_end(true, true).unwrap();
    };
}

/// Each work on a card of this kind: nanoseconds in the order of the table.
macro_rules! works {
    ($card:ty, $search:path, $check:path, $image:expr) => {{
        let c = ready!($card);
        let f = frame();
        let mut full = c.clone();
        arrive!(full, f);
        let (mut look, mut area) = ([0; 256], [0; LONG]);
        let cards: Vec<$card> = (0..7).map(|i| <$card>::power_on(words(0x1000 + i))).collect();
        let image = $image;
        let ns = [
            time(&c, 300, |c| {
                for _ in 0..1000 {
                    black_box(c.read_word(black_box(0x0E)).unwrap());
                }
            }) / 1000.0,
            time(&full, 2000, |c| {
                for _ in 0..LONG / 2 {
                    black_box(c.read_word(black_box(0x00)).unwrap());
                }
            }) / (LONG / 2) as f64,
            time(&c, 1000, |c| {
                arrive!(c, f);
            }),
            time(&full, 2000, |c| {
                let (_, used) = black_box(c.service(black_box(1000), &mut look, &mut area));
                assert_eq!(used, 760);
            }),
            time(&c, 2000, |c| {
                black_box(c.send(black_box(&f)).unwrap());
            }),
            time(&cards, 200, |cards| {
                let (found, used) = $search(cards, PORT).unwrap();
                assert_eq!((found.len(), used), (7, 2421));
            }),
            time(&(), 300, |_| {
                for _ in 0..1000 {
                    black_box($check(black_box(&image)).unwrap());
                }
            }) / 1000.0,
        ];
        ns
    }};
}

fn main() {
    let image = std::fs::read(concat!(env!("CARGO_MANIFEST_DIR"), "/../examples/sound.img")).unwrap();
    let archive = works!(Seamtrout, seamtrout::search, seamtrout::image_check, image.clone());
    let plain = works!(Model, model::search, model::image_check, image);
    let names = [
        "register read (Status)",
        "data word read",
        "1,514-byte frame, byte by byte",
        "its service (760 accesses)",
        "1,514-byte send",
        "search over 7 cards (2,421 accesses)",
        "image check",
    ];
    println!("| Work | archive, ns | model, ns | ratio |\n|---|---|---|---|");
    for (i, name) in names.iter().enumerate() {
        row(name, archive[i], plain[i]);
    }
}
