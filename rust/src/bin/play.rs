//! The bench: a script on standard input, a line a call; an answer a line on standard output.

use seamtrout::model::{activate, search, Model, Service};
use std::fmt::Write as _;
use std::io::{self, BufRead, Write};

const LONGEST_LINE: usize = 8192;
const MOST_CARDS: usize = 8;
const BAD_PLACE: u8 = 12;

/// The cards of the port, the bench's own first, and the driver's two areas.
struct Bench {
    cards: Vec<Model>,
    look: [u8; 256],
    frame: [u8; 1514],
}

fn digit(character: u8) -> Option<u16> {
    (character as char).to_digit(16).map(|digit| digit as u16)
}

/// A hexadecimal number of at most `most`; zeros may stand in front.
fn number(text: &[u8], most: u32) -> Option<u16> {
    if text.is_empty() {
        return None;
    }
    let sum = text.iter().try_fold(0u32, |sum, &character| {
        let next = sum << 4 | u32::from(digit(character)?);
        (next <= most).then_some(next)
    })?;
    Some(sum as u16)
}

fn word(text: &[u8]) -> Option<u16> {
    number(text, 0xFFFF)
}

fn byte(text: &[u8]) -> Option<u8> {
    number(text, 0xFF).map(|number| number as u8)
}

/// A decimal number below 65,536.
fn decimal(text: &[u8]) -> Option<u16> {
    if text.is_empty() {
        return None;
    }
    text.iter().try_fold(0u16, |sum, &character| {
        let digit = (character as char).to_digit(10)?;
        sum.checked_mul(10)?.checked_add(digit as u16)
    })
}

/// At least one byte, two digits each.
fn bytes(text: &[u8]) -> Option<Vec<u8>> {
    if text.is_empty() || text.len() % 2 != 0 {
        return None;
    }
    text.chunks(2).map(byte).collect()
}

fn words(text: &[u8]) -> Option<[u16; 64]> {
    let words: Option<Vec<u16>> = text.chunks(4).map(word).collect();
    (text.len() == 256).then_some(words?.try_into().ok()?)
}

fn flag(character: u8) -> Option<bool> {
    match character {
        b'0' => Some(false),
        b'1' => Some(true),
        _ => None,
    }
}

fn hex(bytes: &[u8]) -> String {
    let mut text = String::with_capacity(2 * bytes.len());
    for byte in bytes {
        let _ = write!(text, "{byte:02X}");
    }
    text
}

/// The answer's text, or the refusal's.
fn answer(result: Result<String, u8>) -> String {
    result.unwrap_or_else(|number| format!("refused {number}"))
}

fn done(result: Result<(), u8>) -> String {
    answer(result.map(|()| "ok".to_string()))
}

impl Bench {
    fn new() -> Bench {
        Bench { cards: vec![Model::power_on([0; 64])], look: [0; 256], frame: [0; 1514] }
    }

    /// The answer to a line's fields; none if they are not understood.
    fn call(&mut self, fields: &[&[u8]]) -> Option<String> {
        let (&name, operands) = fields.split_first()?;
        let own = &mut self.cards[0];
        Some(match (name, operands) {
            (b"power", [text]) => {
                self.cards = vec![Model::power_on(words(text)?)];
                "ok".to_string()
            }
            (b"join", [text]) => self.join(words(text)?),
            (b"rw", [o]) => answer(own.read_word(word(o)?).map(|value| format!("= {value:04X}"))),
            (b"rb", [o]) => answer(own.read_byte(word(o)?).map(|value| format!("= {value:02X}"))),
            (b"ww", [o, v]) => done(own.write_word(word(o)?, word(v)?)),
            (b"wb", [o, v]) => done(own.write_byte(word(o)?, byte(v)?)),
            (b"rx", []) => answer(own.rx_status().map(|(word, unread)| format!("rx {word:04X} unread {unread}"))),
            (b"start", [text]) => done(own.wire_start(bytes(text)?.try_into().ok()?)),
            (b"bytes", [text]) => done(bytes(text)?.into_iter().try_for_each(|byte| own.wire_byte(byte))),
            (b"end", [[check, alignment]]) => done(own.wire_end(flag(*check)?, flag(*alignment)?)),
            (b"sent", []) => answer(own.sent().map(|data| format!("wire {}", hex(&data)))),
            (b"collided", []) => done(own.collided()),
            (b"idw", [port, b]) => self.id_write(word(port)?, byte(b)?),
            (b"idr", [port]) => self.id_read(word(port)?),
            (b"search", [port]) => self.search(word(port)?),
            (b"activate", [port, tag, base]) => self.activate(word(port)?, decimal(tag)?, decimal(base)?),
            (b"open", [a, b, c]) => done(own.open([word(a)?, word(b)?, word(c)?])),
            (b"send", [text]) => answer(own.send(&bytes(text)?).map(|ticket| format!("ticket {ticket}"))),
            (b"service", [budget]) => self.service(decimal(budget)?),
            _ => return None,
        })
    }

    fn join(&mut self, words: [u16; 64]) -> String {
        if self.cards.len() == MOST_CARDS {
            return done(Err(BAD_PLACE));
        }
        self.cards.push(Model::power_on(words));
        done(Ok(()))
    }

    fn id_write(&mut self, port: u16, byte: u8) -> String {
        done(self.cards.iter_mut().try_for_each(|card| card.id_write(port, byte)))
    }

    fn id_read(&mut self, port: u16) -> String {
        answer(self.read_bus(port).map(|bus| format!("= {}", u8::from(bus))))
    }

    fn read_bus(&mut self, port: u16) -> Result<bool, u8> {
        let mut bus = true;
        for card in &self.cards {
            bus &= card.id_drives(port)?;
        }
        for card in &mut self.cards {
            card.id_read(port, bus)?;
        }
        Ok(bus)
    }

    fn search(&mut self, port: u16) -> String {
        answer(search(&mut self.cards, port).map(|(found, accesses)| {
            let mut text = format!("found {} accesses {accesses}", found.len());
            for address in &found {
                text.push(' ');
                text.push_str(&hex(address));
            }
            text
        }))
    }

    fn activate(&mut self, port: u16, tag: u16, base: u16) -> String {
        let (Ok(tag), Ok(base)) = (u8::try_from(tag), u8::try_from(base)) else {
            return done(Err(BAD_PLACE));
        };
        done(activate(&mut self.cards, port, tag, base).map(|_| ()))
    }

    fn service(&mut self, budget: u16) -> String {
        let (answer, accesses) = self.cards[0].service(budget, &mut self.look, &mut self.frame);
        match answer {
            Service::Report { ticket, status } => format!("report {ticket} {status:02X} accesses {accesses}"),
            Service::Status(status) => format!("status {status:02X} accesses {accesses}"),
            Service::Frame(data) => {
                let area = if data.len() <= self.look.len() { "look" } else { "frame" };
                format!("frame {area} {} accesses {accesses}", hex(&data))
            }
            Service::Idle => format!("idle accesses {accesses}"),
            Service::Refused(6) => format!("refused 6 accesses {accesses}"),
            Service::Refused(number) => format!("refused {number}"),
        }
    }

    /// The answer to a line without its newline; none to a line that says nothing.
    fn line(&mut self, line: &[u8]) -> Option<String> {
        let not_understood = || Some("what?".to_string());
        let line = line.strip_suffix(b"\r").unwrap_or(line);
        if line.len() > LONGEST_LINE {
            return not_understood();
        }
        let said = line.split(|&character| character == b'#').next().unwrap_or(line);
        let blank = |&character: &u8| character == b' ' || character == b'\t';
        let fields: Vec<&[u8]> = said.split(blank).filter(|field| !field.is_empty()).collect();
        if fields.is_empty() {
            return None;
        }
        self.call(&fields).or_else(not_understood)
    }
}

fn main() -> io::Result<()> {
    let mut bench = Bench::new();
    let mut input = io::stdin().lock();
    let mut output = io::BufWriter::new(io::stdout().lock());
    let mut line = Vec::new();
    while input.read_until(b'\n', &mut line)? > 0 {
        if line.last() == Some(&b'\n') {
            line.pop();
        }
        if let Some(answer) = bench.line(&line) {
            writeln!(output, "{answer}")?;
        }
        line.clear();
    }
    output.flush()
}
