//! The archive against the independent model: long random runs, sensible and hostile; every answer,
//! both areas and every register are compared. SEAMTROUT_STEPS sets the steps (a million by default
//! with optimisation), SEAMTROUT_SEED the run.

// `both!` compares the answers; what they are is of no further use.
#![allow(unused_must_use)]

use seamtrout::model::{self, Model};
use seamtrout::{Seamtrout, Service};

/// Marsaglia's xorshift.
struct Random(u64);

impl Random {
    fn next(&mut self) -> u64 {
        self.0 ^= self.0 << 13;
        self.0 ^= self.0 >> 7;
        self.0 ^= self.0 << 17;
        self.0.wrapping_mul(0x2545_F491_4F6C_DD1D) >> 16
    }
    fn below(&mut self, n: u64) -> u64 {
        self.next() % n
    }
    fn one_in(&mut self, n: u64) -> bool {
        self.below(n) == 0
    }
    fn word(&mut self) -> u16 {
        match self.below(8) {
            0 => 0,
            1 => 0xFFFF,
            2 => self.below(16) as u16,
            3 => 1 << self.below(16),
            _ => self.next() as u16,
        }
    }
    fn byte(&mut self) -> u8 {
        self.word() as u8
    }
    fn words(&mut self) -> [u16; 64] {
        let mut w = [0; 64];
        w.iter_mut().for_each(|x| *x = self.word());
        w
    }
}

/// For a match arm whose answer was compared already.
fn done<T>(_: T) {}

/// How often each refusal came, by both; and each answer of a service.
#[derive(Clone, Default)]
struct Tally {
    calls: u64,
    refusals: [u64; 14],
    reports: u64,
    statuses: u64,
    frames: [u64; 2],
    idle: u64,
    codes: [u64; 8],
    /// Full status stacks.
    full: u64,
    /// The latch set and the drivers enabled, by the IRQ field; the latch set in window 0, and without ENA.
    irqs: [u64; 16],
    disabled: [u64; 2],
    /// Unread bytes of an active card: -3, -2, -1, 0 of a frame, more, 0 of an empty store; outside window 1.
    unread: [u64; 6],
    elsewhere: u64,
}

impl Tally {
    fn shown(&self) -> String {
        format!(
            "refusals {:?}, reports {}, statuses {}, frames {:?}, idle {}, codes {:?}, full {}, irqs {:?}, disabled {:?}, unread {:?}, elsewhere {}",
            self.refusals, self.reports, self.statuses, self.frames, self.idle, self.codes, self.full, self.irqs, self.disabled, self.unread, self.elsewhere
        )
    }
}

/// The refusal in an answer, 0 for none.
trait Refused {
    fn refused(&self) -> u8 {
        0
    }
}

impl<T> Refused for Result<T, u8> {
    fn refused(&self) -> u8 {
        self.as_ref().err().copied().unwrap_or(0)
    }
}

impl Refused for bool {}
impl Refused for u8 {}

fn number(name: &str, or: u64) -> u64 {
    std::env::var(name).ok().and_then(|v| v.parse().ok()).unwrap_or(or)
}

fn steps(or: u64) -> u64 {
    number("SEAMTROUT_STEPS", if cfg!(debug_assertions) { or / 10 } else { or })
}

const PORT: u16 = 0x110;
const STATION: [u8; 6] = [0x00, 0x20, 0xAF, 0xC4, 0x12, 0xE5];
const NODE: [u16; 3] = [0x0020, 0xAFC4, 0x12E5];

/// A call on the archive and on the model.
struct Pair {
    proved: Seamtrout,
    model: Model,
    /// The calls so far, for the report of a difference.
    told: Vec<String>,
    tally: Tally,
}

macro_rules! both {
    ($pair:expr, $($call:tt)*) => {{
        $pair.told.push(stringify!($($call)*).to_string());
        let a = $pair.proved.$($call)*;
        let b = $pair.model.$($call)*;
        if a != b {
            $pair.differs(&format!("{} gives {:?}, the model {:?}", stringify!($($call)*), a, b));
        }
        $pair.tally.calls += 1;
        $pair.tally.refusals[Refused::refused(&a) as usize] += 1;
        a
    }};
}

impl Pair {
    fn new(words: [u16; 64], tally: Tally) -> Pair {
        Pair { proved: Seamtrout::power_on(words), model: Model::power_on(words), told: Vec::new(), tally }
    }

    fn differs(&self, what: &str) -> ! {
        let from = self.told.len().saturating_sub(60);
        for call in &self.told[from..] {
            eprintln!("  {call}");
        }
        eprintln!("  {:?}\n  {:?}", self.proved.card(), self.proved.driver());
        panic!("{what}")
    }

    fn say(&mut self, what: String) {
        self.told.push(what);
        if self.told.len() > 4000 {
            self.told.drain(..2000);
        }
    }

    fn copy(&self) -> Pair {
        let from = self.told.len().saturating_sub(60);
        Pair {
            proved: self.proved.clone(),
            model: self.model.clone(),
            told: self.told[from..].to_vec(),
            tally: self.tally.clone(),
        }
    }

    /// What shows without a step: the card's lines, Status, and RX Status.
    fn glance(&mut self) {
        both!(self, active());
        both!(self, base());
        both!(self, latch());
        both!(self, interrupt_line());
        both!(self, read_word(0x0E));
        let (word, unread) = both!(self, rx_status()).unwrap();
        self.told.truncate(self.told.len() - 6);
        self.judge_unread(word, unread);
        let c = self.proved.card();
        if c.lines.latch {
            match (c.select.window, c.config.enabled) {
                (0, true) => self.tally.disabled[0] += 1,
                (1.., false) => self.tally.disabled[1] += 1,
                (1.., true) => self.tally.irqs[(c.config.resource >> 12) as usize] += 1,
                _ => {}
            }
        }
    }

    /// In window 1 the word is what 08h reads; in any, bits 10-0 are the count, 11 bits of two's complement.
    fn judge_unread(&mut self, word: u16, unread: i16) {
        let c = self.proved.card();
        let (window, frames) = (c.select.window, c.receive.frames);
        if !c.id.active {
            if (word, unread) != (0xFFFF, 0) {
                self.differs(&format!("RX Status {word:04X} with {unread} unread bytes, of an inactive card"));
            }
            return;
        }
        let count = (word & 0x7FF) as i16;
        let signed = if count > 1792 { count - 2048 } else { count };
        if signed != unread || !(-3..=1792).contains(&unread) || frames == 0 && (word, unread) != (0x8000, 0) {
            self.differs(&format!("RX Status {word:04X} with {unread} unread bytes"));
        }
        if window == 1 && self.proved.read_word(0x08) != Ok(word) {
            self.differs(&format!("RX Status {word:04X} is not what 08h reads"));
        }
        self.tally.elsewhere += (window != 1) as u64;
        self.tally.unread[if frames == 0 { 5 } else { (unread + 3).min(4) as usize }] += 1;
    }

    fn activate(&mut self) {
        for b in [0, 0].into_iter().chain(model::SEQUENCE).chain([0xFF]) {
            both!(self, id_write(PORT, b));
        }
    }

    /// Every register of every window, on copies; a sleeping card is woken there first.
    fn sweep(&mut self) {
        let mut c = self.copy();
        if !c.proved.active() {
            for port in (0x100..0x200).step_by(0x10) {
                both!(c, id_drives(port));
            }
            for b in [0, 0].into_iter().chain(model::SEQUENCE).chain([0xFF]) {
                for port in (0x100..0x200).step_by(0x10) {
                    both!(c, id_write(port, b));
                }
            }
        }
        for window in 0..8u16 {
            both!(c, write_word(0x0E, 1 << 11 | window));
            for offset in 0..16 {
                if window != 1 || offset >= 4 {
                    both!(c, read_byte(offset));
                }
            }
        }
        both!(c, write_word(0x0E, 1 << 11 | 1));
        for _ in 0..6 {
            both!(c, read_word(0x02));
        }
        c.glance();
        while c.proved.read_byte(0x0B) != Ok(0) {
            both!(c, read_byte(0x0B));
            both!(c, write_byte(0x0B, 0));
        }
        both!(c, read_byte(0x0B));
        both!(c, write_word(0x0E, 9 << 11));
        while c.proved.sent().is_ok() {
            if c.model.sent().is_err() {
                c.differs("a packet that the model does not have");
            }
        }
        both!(c, sent());
        // Frame by frame; a receive failure keeps the oldest.
        both!(c, write_word(0x0E, 1 << 11 | 1));
        for _ in 0..8 {
            let status = both!(c, read_word(0x08)).unwrap();
            if status & 0xC000 == 0x4000 {
                c.tally.codes[(status >> 11 & 7) as usize] += 1;
            }
            both!(c, write_word(0x0E, 8 << 11));
        }
        self.tally = c.tally;
    }

    fn service(&mut self, r: &mut Random) {
        let budget = match r.below(6) {
            0 => r.below(12) as u16,
            1 => r.next() as u16,
            2 => 760,
            _ => 2000,
        };
        let (look, area) = match r.below(12) {
            0 => (r.below(300) as usize, r.below(1600) as usize),
            1 => (256, 1600),
            _ => (256, 1514),
        };
        let fill = r.byte();
        let (mut la, mut fa) = (vec![fill; look], vec![fill; area]);
        let (mut lb, mut fb) = (vec![fill; look], vec![fill; area]);
        self.say(format!("service({budget}) with areas of {look} and {area}"));
        let (a, used) = self.proved.service(budget, &mut la, &mut fa);
        let a = match a {
            Service::Report { ticket, status } => model::Service::Report { ticket, status },
            Service::Status(s) => model::Service::Status(s),
            Service::Frame(f) => model::Service::Frame(f.to_vec()),
            Service::Idle => model::Service::Idle,
            Service::Refused(n) => model::Service::Refused(n),
        };
        let (b, taken) = self.model.service(budget, &mut lb, &mut fb);
        // No refusal but 6 tells a count.
        let counted = !matches!(a, model::Service::Refused(n) if n != 6);
        if a != b || (counted && used != taken) {
            self.differs(&format!("{a:?} by {used}, the model {b:?} by {taken}"));
        }
        if la != lb || fa != fb {
            self.differs("the areas differ");
        }
        let t = &mut self.tally;
        t.calls += 1;
        match a {
            model::Service::Report { .. } => t.reports += 1,
            model::Service::Status(_) => t.statuses += 1,
            model::Service::Frame(f) => t.frames[(f.len() > 256) as usize] += 1,
            model::Service::Idle => t.idle += 1,
            model::Service::Refused(n) => t.refusals[n as usize] += 1,
        }
    }

    /// A frame on the wire, whole, cut or too long.
    fn frame(&mut self, r: &mut Random) {
        let n = match r.below(10) {
            0 => 8 + r.below(60) as usize,
            1 => 1500 + r.below(40) as usize,
            2 => 1780 + r.below(40) as usize,
            3 => 60 + r.below(8) as usize,
            4 => 252 + r.below(8) as usize,
            _ => 60 + r.below(600) as usize,
        };
        let mut first = [0; 8];
        first.iter_mut().for_each(|b| *b = r.byte());
        match r.below(8) {
            0 => {}
            1 => first[..6].fill(0xFF),
            2 => first[0] |= 1,
            _ => first[..6].copy_from_slice(&STATION),
        }
        both!(self, wire_start(first));
        for i in 8..n {
            let b = (i as u64 ^ r.0) as u8;
            self.say(format!("wire_byte({b})"));
            let (x, y) = (self.proved.wire_byte(b), self.model.wire_byte(b));
            if x != y {
                self.differs(&format!("wire_byte gives {x:?}, the model {y:?}"));
            }
            self.tally.calls += 1;
            if r.one_in(500) {
                self.host(r);
                self.glance();
            }
        }
        let (check, alignment) = (!r.one_in(5), !r.one_in(6));
        both!(self, wire_end(check, alignment));
    }

    /// A frame read by the host word by word, while it comes and after, up to its end and beyond.
    fn past_the_end(&mut self, r: &mut Random) {
        let n = 8 + r.below(60) as usize;
        let first = std::array::from_fn(|i| if i < 6 { STATION[i] } else { r.byte() });
        both!(self, wire_start(first));
        for _ in 8..n {
            let b = r.byte();
            both!(self, wire_byte(b));
            if r.one_in(16) {
                both!(self, read_word(0x00));
                self.glance();
            }
        }
        if !r.one_in(8) {
            let check = !r.one_in(4);
            both!(self, wire_end(check, true));
        }
        self.glance();
        for _ in 0..(n + 3) / 4 * 2 + r.below(2) as usize {
            both!(self, read_word(0x00));
            self.glance();
        }
        if r.one_in(4) {
            let window = 1 << 11 | r.below(8) as u16;
            both!(self, write_word(0x0E, window));
            self.glance();
            both!(self, write_word(0x0E, 1 << 11 | 1));
        }
    }

    fn send(&mut self, r: &mut Random) {
        let n = match r.below(8) {
            0 => r.below(20) as usize,
            1 => 1505 + r.below(15) as usize,
            2 => 55 + r.below(10) as usize,
            _ => 14 + r.below(500) as usize,
        };
        let fill = r.next();
        let packet: Vec<u8> = (0..n).map(|i| (i as u64 ^ fill) as u8).collect();
        self.say(format!("send of {n} bytes"));
        both!(self, send(&packet));
    }

    /// A sensible access of the host.
    fn host(&mut self, r: &mut Random) {
        match r.below(10) {
            0 => done(both!(self, read_word(0x00))),
            1 => done(both!(self, read_word(0x08))),
            2 => done(both!(self, read_word(0x0C))),
            3 => done(both!(self, read_byte(0x0B))),
            4 => done(both!(self, write_byte(0x0B, 0))),
            5 => done(both!(self, write_word(0x0E, 8 << 11))),
            6 => {
                let n = if r.one_in(2) { r.below(16) } else { r.below(2048) } as u16;
                let threshold = (17 + r.below(3) as u16) << 11;
                both!(self, write_word(0x0E, threshold | n)).unwrap();
                self.glance();
                both!(self, write_word(0x0E, 1 << 11 | 5)).unwrap();
                for o in [0x00, 0x02, 0x06] {
                    both!(self, read_word(o)).unwrap();
                }
                both!(self, write_word(0x0E, 1 << 11 | 1)).unwrap()
            }
            7 => {
                let bits = r.below(256) as u16;
                both!(self, write_word(0x0E, 13 << 11 | bits)).unwrap()
            }
            8 => {
                let mask = (14 + r.below(2) as u16) << 11 | r.byte() as u16;
                both!(self, write_word(0x0E, mask)).unwrap()
            }
            _ => {
                let on = [4, 9, 4, 9, 4, 9, 3, 10, 5, 11, 12][r.below(11) as usize];
                both!(self, write_word(0x0E, on << 11)).unwrap()
            }
        }
    }

    /// ENA and the IRQ field in window 0, and an interrupt asked for in another; back to window 1.
    fn interrupts(&mut self, r: &mut Random) {
        let (enable, resource, window) = (r.below(4).min(1) as u16, r.next() as u16, 1 + r.below(7) as u16);
        both!(self, write_word(0x0E, 1 << 11));
        both!(self, write_word(0x04, enable));
        both!(self, write_word(0x08, resource));
        self.glance();
        for command in [1 << 11 | window, 15 << 11 | 0xFE, 14 << 11 | 0x40, 12 << 11, 1 << 11 | 1] {
            both!(self, write_word(0x0E, command));
            self.glance();
        }
    }

    /// A packet as the host writes it, by hand.
    fn written(&mut self, r: &mut Random) {
        let n = match r.below(6) {
            0 => r.word(),
            1 => r.below(10) as u16,
            _ => 6 + r.below(300) as u16,
        };
        let first = n & 0x7FF | (r.below(8) as u16) << 13 | (r.below(4) as u16) << 11;
        both!(self, write_word(0x00, first));
        both!(self, write_word(0x02, 0));
        let words = (u64::from(n & 0x7FF) + 3) / 4 * 2;
        for _ in 0..if r.one_in(5) { r.below(words + 3) } else { words } {
            let v = r.next() as u16;
            both!(self, write_word(0x00, v));
        }
    }

    /// Both resets and an open: what a host does after a failure.
    fn recover(&mut self) {
        for command in [1 << 11 | 1, 5 << 11, 11 << 11] {
            both!(self, write_word(0x0E, command));
        }
        both!(self, open(NODE));
    }

    /// Small packets go out unserviced, until the status stack is full.
    fn flood(&mut self, r: &mut Random) {
        let clean = r.one_in(2);
        for _ in 0..r.below(50) {
            let n = 6 + r.below(20) as u16;
            both!(self, write_word(0x00, 0x8000 | n));
            for _ in 0..(n + 3) / 4 * 2 + 1 {
                let v = r.next() as u16;
                both!(self, write_word(0x02, v));
            }
            if clean {
                both!(self, sent());
            } else {
                self.outcome(r);
            }
            self.glance();
            both!(self, write_word(0x0E, 9 << 11));
            self.tally.full += (self.proved.card().transmit.outcomes.statuses.count == 31) as u64;
        }
        for _ in 0..r.below(80) {
            self.service(r);
        }
    }

    /// More sends than may stay unreported.
    fn burst(&mut self, r: &mut Random) {
        for _ in 0..r.below(24) {
            let packet = vec![r.byte(); 14 + r.below(60) as usize];
            both!(self, send(&packet));
            both!(self, sent());
        }
    }

    fn outcome(&mut self, r: &mut Random) {
        if r.one_in(4) {
            both!(self, collided());
        } else {
            both!(self, sent());
        }
    }

    /// Anything at all, with any argument.
    fn hostile(&mut self, r: &mut Random) {
        let offset = if r.one_in(12) { r.word() } else { r.below(16) as u16 };
        match r.below(14) {
            0 => done(both!(self, read_word(offset))),
            1 => done(both!(self, read_byte(offset))),
            2 => {
                let v = r.word();
                done(both!(self, write_word(offset & 0xFFFE, v)))
            }
            3 => {
                let v = r.word();
                done(both!(self, write_word(offset, v)))
            }
            4 | 5 => {
                let v = r.byte();
                done(both!(self, write_byte(offset, v)))
            }
            6 => {
                let mut command = r.next() as u16;
                if command >> 11 == 0 && !r.one_in(20) {
                    command |= 1 << 11;
                }
                done(both!(self, write_word(0x0E, command)))
            }
            7 => {
                let first: [u8; 8] = std::array::from_fn(|i| if i < 6 { STATION[i] } else { r.byte() });
                done(both!(self, wire_start(first)))
            }
            8 => {
                for _ in 0..r.below(100) {
                    let b = r.byte();
                    done(both!(self, wire_byte(b)))
                }
            }
            9 => {
                let (check, alignment) = (!r.one_in(3), !r.one_in(3));
                done(both!(self, wire_end(check, alignment)))
            }
            10 => self.outcome(r),
            11 => self.id_port(r),
            12 => {
                // The EEPROM's commands.
                both!(self, write_word(0x0E, 1 << 11)).ok();
                let v = r.word();
                both!(self, write_word(0x0C, v)).ok();
                for command in [0x30, r.byte(), 0x80 | r.below(64) as u16 as u8] {
                    both!(self, write_byte(0x0A, command)).ok();
                }
                done(both!(self, read_word(0x0C)))
            }
            _ => {
                let w = [r.word(), r.word(), r.word()];
                match r.below(4) {
                    0 => done(both!(self, open(w))),
                    1 => done(both!(self, open(NODE))),
                    2 => self.send(r),
                    _ => self.service(r),
                }
            }
        }
    }

    fn id_port(&mut self, r: &mut Random) {
        let port = match r.below(6) {
            0 => r.word(),
            1 => 0x100 + 0x10 * r.below(16) as u16,
            _ => PORT,
        };
        match r.below(8) {
            0 => self.activate(),
            1 => {
                for b in [0, 0].into_iter().chain(model::SEQUENCE) {
                    let wrong = r.one_in(400);
                    both!(self, id_write(port, if wrong { b ^ 1 } else { b })).ok();
                }
            }
            2 | 3 => {
                let b = r.byte();
                done(both!(self, id_write(port, b)))
            }
            4 => done(both!(self, id_drives(port))),
            5 => {
                let bus = r.one_in(2);
                done(both!(self, id_read(port, bus)))
            }
            6 => {
                for _ in 0..16 {
                    let Ok(bit) = both!(self, id_drives(port)) else { return };
                    both!(self, id_read(port, bit)).ok();
                }
            }
            _ => {
                let b = 0x80 + r.below(0x40) as u8;
                done(both!(self, id_write(port, b)))
            }
        }
    }
}

#[test]
fn sensible_runs() {
    let mut r = Random(number("SEAMTROUT_SEED", 0x9E37_79B9));
    let (wanted, mut tally) = (steps(1_000_000), Tally::default());
    while tally.calls < wanted {
        let mut words = r.words();
        words[..3].copy_from_slice(&NODE);
        let mut p = Pair::new(words, tally);
        p.activate();
        both!(p, open(NODE)).unwrap();
        for turn in 0..400 {
            match r.below(42) {
                0..=7 => p.frame(&mut r),
                8..=21 => p.service(&mut r),
                22..=27 => p.send(&mut r),
                28..=33 => p.outcome(&mut r),
                34 => p.written(&mut r),
                35 => p.host(&mut r),
                36 => p.flood(&mut r),
                37 => p.burst(&mut r),
                38 => p.interrupts(&mut r),
                39 | 40 => p.past_the_end(&mut r),
                _ => done(both!(p, open(NODE))),
            }
            if p.proved.card().receive.receiver.failed | p.proved.card().transmit.fifo.failed && r.one_in(4) {
                p.recover();
            }
            p.glance();
            if turn % 8 == 0 {
                p.sweep();
            }
        }
        tally = p.tally;
    }
    println!("{} calls; {}", tally.calls, tally.shown());
    // The run went everywhere that it can go.
    assert!([3, 4, 5, 6, 7, 11].iter().all(|&n| tally.refusals[n] > 0));
    assert!(tally.reports > 0 && tally.statuses > 0 && tally.frames[0] > 0 && tally.frames[1] > 0 && tally.idle > 0 && tally.full > 0);
    assert!([0, 1, 3, 4, 5].iter().all(|&n| tally.codes[n] > 0));
    assert!(tally.irqs.iter().chain(&tally.disabled).all(|&n| n > 0));
    assert!(tally.unread.iter().all(|&n| n > 0) && tally.elsewhere > 0);
}

#[test]
fn hostile_runs() {
    let mut r = Random(number("SEAMTROUT_SEED", 0x0BAD_5EED));
    let (wanted, mut tally) = (steps(1_000_000), Tally::default());
    while tally.calls < wanted {
        let mut p = Pair::new(r.words(), tally);
        for turn in 0..2000 {
            match r.below(64) {
                0 => p.activate(),
                1 => done(both!(p, open(NODE))),
                2 => p.frame(&mut r),
                3 => p.written(&mut r),
                4 => p.interrupts(&mut r),
                5 => p.past_the_end(&mut r),
                _ => p.hostile(&mut r),
            }
            p.glance();
            if turn % 32 == 0 {
                p.sweep();
            }
            if p.told.len() > 4000 {
                p.told.drain(..2000);
            }
        }
        tally = p.tally;
    }
    println!("{} calls; {}", tally.calls, tally.shown());
    assert!([2, 5, 6, 7, 11, 12, 13].iter().all(|&n| tally.refusals[n] > 0));
    assert!(tally.irqs.iter().chain(&tally.disabled).all(|&n| n > 0));
}

/// The interrupt line in every window, with and without ENA and the latch, for every value of the IRQ field.
#[test]
fn interrupt_lines() {
    for irq in 0..16u16 {
        let mut words = [0; 64];
        words[0x09] = irq << 12 | 0x0F00;
        for (enable, latched, window) in (0..32).map(|n| (n & 1, n & 2 != 0, n >> 2)) {
            let mut p = Pair::new(words, Tally::default());
            p.activate();
            p.glance();
            both!(p, write_word(0x04, enable));
            both!(p, write_word(0x0E, 1 << 11 | 7));
            if latched {
                for command in [15 << 11 | 0x40, 14 << 11 | 0x40, 12 << 11] {
                    both!(p, write_word(0x0E, command));
                }
            }
            both!(p, write_word(0x0E, 1 << 11 | window));
            let driven = both!(p, interrupt_line());
            let named = [3, 5, 7, 9, 10, 11, 12, 15].contains(&irq);
            assert_eq!(driven, Ok(if latched && enable == 1 && window != 0 && named { irq } else { 0 }));
        }
    }
}

/// The figures of request 3: a frame of 61 bytes, complete and not, read word by word to the failure, in every window.
#[test]
fn unread_bytes() {
    for complete in [true, false] {
        let mut p = Pair::new([0; 64], Tally::default());
        assert_eq!(both!(p, rx_status()), Ok((0xFFFF, 0)));
        p.activate();
        both!(p, open(NODE));
        assert_eq!(both!(p, rx_status()), Ok((0x8000, 0)));
        both!(p, wire_start([0xFF; 8]));
        for b in 8..61 {
            both!(p, wire_byte(b));
        }
        if complete {
            both!(p, wire_end(true, true));
        }
        // The words that can be read, and the count then: all 64 bytes, or those 60 that have come in whole words.
        let (words, least, bits) = if complete { (32, -3, 0) } else { (30, 1, 0x8000) };
        for read in 0..words + 2 {
            let unread = (61 - 2 * read).max(least);
            for window in 0..8 {
                both!(p, write_word(0x0E, 1 << 11 | window));
                assert_eq!(both!(p, rx_status()), Ok((bits | unread as u16 & 0x7FF, unread)));
                p.glance();
            }
            both!(p, write_word(0x0E, 1 << 11 | 1));
            let failed = both!(p, read_word(0x0E)).unwrap() & 2 != 0;
            assert_eq!(failed, read > words);
            both!(p, read_word(0x00));
        }
    }
}

/// The part handed up: up to 256 bytes of the lookahead area, more of the frame area, and that very place.
#[test]
fn parts() {
    let mut r = Random(number("SEAMTROUT_SEED", 13));
    let lengths = [0, 1, 60, 255, 256, 257, 258, 1513, 1514, 1515, 2000, usize::MAX];
    for _ in 0..steps(20_000) {
        let (look, frame) = (vec![r.byte(); r.below(300) as usize], vec![r.byte(); r.below(1600) as usize]);
        let n = if r.one_in(2) { r.below(1700) as usize } else { lengths[r.below(12) as usize] };
        let area = if n <= 256 { &look } else { &frame };
        let part = if n <= area.len() { &area[..n] } else { &area[..0] };
        let up = seamtrout::hand_up(&look, &frame, n);
        assert_eq!((up.as_ptr(), up), (part.as_ptr(), part), "{n} of {} and {}", look.len(), frame.len());
    }
}

#[test]
fn cards_on_one_port() {
    let mut r = Random(number("SEAMTROUT_SEED", 7));
    for _ in 0..steps(1000) / 5 {
        let n = r.below(10) as usize;
        let mut pairs: Vec<Pair> = (0..n)
            .map(|_| {
                let mut w = r.words();
                if r.one_in(4) {
                    w[..3].fill(0xFFFF);
                }
                let mut p = Pair::new(w, Tally::default());
                for _ in 0..r.below(4) {
                    p.id_port(&mut r);
                }
                p
            })
            .collect();
        for _ in 0..3 {
            let port = if r.one_in(8) { r.word() } else { PORT };
            let (tag, base) = (r.below(9) as u8, r.below(34) as u8);
            let mut proved: Vec<Seamtrout> = pairs.iter().map(|p| p.proved.clone()).collect();
            let mut plain: Vec<Model> = pairs.iter().map(|p| p.model.clone()).collect();
            if r.one_in(3) {
                assert_eq!(
                    seamtrout::activate(&mut proved, port, tag, base),
                    model::activate(&mut plain, port, tag, base)
                );
            } else {
                assert_eq!(seamtrout::search(&mut proved, port), model::search(&mut plain, port));
            }
            for ((p, a), b) in pairs.iter_mut().zip(proved).zip(plain) {
                p.proved = a;
                p.model = b;
                p.glance();
                p.sweep();
            }
        }
    }
}

#[test]
fn images() {
    let mut r = Random(number("SEAMTROUT_SEED", 11));
    let mut sound = 0;
    for _ in 0..steps(20_000) {
        let n = if r.one_in(10) { r.below(300) as usize } else { 128 };
        let mut image: Vec<u8> = (0..n).map(|_| r.byte()).collect();
        if n == 128 && !r.one_in(10) {
            image[14..16].copy_from_slice(&[0x50, 0x6D]);
            // The checksums as the paper and the manual have them, now and then spoilt.
            let xor = |image: &[u8], words: &[std::ops::RangeInclusive<usize>]| {
                words.iter().cloned().flatten().fold(0, |x, w| x ^ image[2 * w] ^ image[2 * w + 1])
            };
            image[0x1F] = xor(&image, &[0..=7, 10..=12, 14..=14]);
            image[0x1E] = xor(&image, &[8..=9, 13..=13]);
            image[0x2F] = xor(&image, &[0x10..=0x12, 0x20..=0x3F]);
            image[0x2E] = xor(&image, &[0x13..=0x16]);
            if r.one_in(2) {
                let at = r.below(128) as usize;
                image[at] ^= 1 << r.below(8);
            }
        }
        let a = seamtrout::image_check(&image);
        assert_eq!(a, model::image_check(&image), "{image:02X?}");
        sound += a.is_ok() as u32;
    }
    assert!(sound > 100);
}

/// The sizes that the archive proves of its structs are those of the declarations.
#[test]
fn sizes() {
    use seamtrout::raw;
    // SAFETY: these take nothing.
    let told = unsafe { [raw::seamtrout_card_size(), raw::seamtrout_driver_size(), raw::seamtrout_bus_size()] };
    let ours = [size_of::<raw::Card>(), size_of::<raw::Driver>(), size_of::<raw::Bus>()];
    assert_eq!(told, ours);
}

/// A card whose numbers make no card is refused with 1 by every call, and stays as it is.
#[test]
fn unsound_cards() {
    let good = Seamtrout::power_on([0; 64]);
    let (ram, dir) = good.memory();
    let spoilt: [fn(&mut seamtrout::raw::Card); 10] = [
        |c| c.id.port = 17,
        |c| c.id.tag = 8,
        |c| c.id.due = true,
        |c| c.select.window = 8,
        |c| c.select.mask = 1,
        |c| c.receive.frames = 769,
        |c| c.receive.receiver.wire = 3,
        |c| c.receive.receiver.wire = 2,
        |c| c.transmit.fifo.packets = usize::MAX,
        |c| c.transmit.outcomes.statuses.count = 32,
    ];
    for spoil in spoilt {
        let mut card = *good.card();
        spoil(&mut card);
        let mut c = Seamtrout::from_parts(card, *good.driver(), *ram, *dir);
        assert_eq!(c.read_word(99), Err(1));
        assert_eq!(c.read_byte(99), Err(1));
        assert_eq!(c.write_word(99, 0), Err(1));
        assert_eq!(c.write_byte(99, 0), Err(1));
        assert_eq!(c.wire_start([0; 8]), Err(1));
        assert_eq!(c.wire_byte(0), Err(1));
        assert_eq!(c.wire_end(true, true), Err(1));
        assert_eq!(c.sent(), Err(1));
        assert_eq!(c.collided(), Err(1));
        assert_eq!(c.id_write(99, 0), Err(1));
        assert_eq!(c.id_drives(99), Err(1));
        assert_eq!(c.interrupt_line(), Err(1));
        assert_eq!(c.rx_status(), Err(1));
        assert_eq!(c.id_read(99, true), Err(1));
        assert_eq!(c.open(NODE), Err(1));
        assert_eq!(c.send(&[]), Err(1));
        assert_eq!(c.service(0, &mut [], &mut []), (Service::Refused(1), 0));
        assert_eq!(seamtrout::search(std::slice::from_mut(&mut c), 99), Err(1));
        assert_eq!(seamtrout::activate(std::slice::from_mut(&mut c), 99, 9, 99), Err(1));
        assert_eq!(c.card(), &card);
        assert_eq!(c.memory(), (ram, dir));
        // Among nine, wherever it stands: 1 comes before 12.
        for place in 0..9 {
            let mut nine = vec![good.clone(); 9];
            nine[place] = c.clone();
            assert_eq!(seamtrout::search(&mut nine, PORT), Err(1));
            assert_eq!(seamtrout::activate(&mut nine, PORT, 1, 0), Err(1));
            for (i, x) in nine.iter().enumerate() {
                assert_eq!(x.card(), if i == place { &card } else { good.card() });
            }
        }
    }
    assert_eq!(seamtrout::search(&mut vec![good.clone(); 9], PORT), Err(12));
}
