//! One 3Com 3C509B, its driver, and the ID port that several of them share.
//!
//! Written from the house's paper (document 01) and the 3Com manual (document 000) alone, as an
//! independent reading. Every call either answers and takes its step, or answers the paper's refusal
//! number and changes nothing.

use std::collections::VecDeque;

// Refusals.
const BAD_LENGTH: u8 = 2;
const TOO_MANY_UNREPORTED: u8 = 3;
const NO_ROOM: u8 = 4;
const NOT_WORKING: u8 = 5;
const BUDGET_SHORT: u8 = 6;
const SMALL_AREA: u8 = 7;
const BAD_MANUFACTURER: u8 = 8;
const BAD_CHECKSUM: u8 = 9;
const BAD_SECONDARY: u8 = 10;
const OUT_OF_TURN: u8 = 11;
const BAD_PLACE: u8 = 12;
const NEVER_OPENED: u8 = 13;

// Status bits.
const ADAPTER_FAILURE: u8 = 1 << 1;
const TX_COMPLETE: u8 = 1 << 2;
const TX_AVAILABLE: u8 = 1 << 3;
const RX_COMPLETE: u8 = 1 << 4;
const RX_EARLY: u8 = 1 << 5;
const INTERRUPT_REQUESTED: u8 = 1 << 6;
const INTERRUPT_LATCH: u8 = 1;

// Commands, bits 15-11 of a word at 0Eh.
const GLOBAL_RESET: u16 = 0;
const SELECT_WINDOW: u16 = 1;
const RX_DISABLE: u16 = 3;
const RX_ENABLE: u16 = 4;
const RX_RESET: u16 = 5;
const RX_DISCARD: u16 = 8;
const TX_ENABLE: u16 = 9;
const TX_DISABLE: u16 = 10;
const TX_RESET: u16 = 11;
const REQUEST_INTERRUPT: u16 = 12;
const ACKNOWLEDGE: u16 = 13;
const SET_INTERRUPT_MASK: u16 = 14;
const SET_READ_ZERO: u16 = 15;
const SET_RX_FILTER: u16 = 16;
const SET_RX_EARLY: u16 = 17;
const SET_TX_AVAILABLE: u16 = 18;
const SET_TX_START: u16 = 19;

// Register offsets that the driver uses.
const DATA: u16 = 0x00;
const RX_STATUS: u16 = 0x08;
const TX_STATUS: u16 = 0x0B;
const TX_FREE: u16 = 0x0C;
const STATUS: u16 = 0x0E;

// RX filter bits.
const INDIVIDUAL: u8 = 1;
const GROUP: u8 = 2;
const BROADCAST: u8 = 4;
const ALL: u8 = 8;

// RX Status bits.
const INCOMPLETE: u16 = 0x8000;
const ERROR: u16 = 0x4000;
const COUNT: u16 = 0x07FF;

// TX Status bits.
const COMPLETED: u8 = 0x80;
const ASKED: u8 = 0x40;
const MAXIMUM_COLLISIONS: u8 = 0x08;
const OVERFLOW: u8 = 0x04;
const ANY_ERROR: u8 = 0x3C;

// Bits of the first preamble word.
const COMPLETION_WANTED: u16 = 0x8000;
const CHECK_INCLUDED: u16 = 0x2000;

const MANUFACTURER: u16 = 0x6D50;
const RAM: u16 = 8192;
const THRESHOLD_OFF: u16 = 2044;
const EARLY_LEAST: u16 = 8;
const LONGEST_STORED: u16 = 1792;
const LONGEST: u16 = 1514;
const SHORTEST: u16 = 60;
const STACK_DEPTH: usize = 31;
const LOOKAHEAD: usize = 256;
const MOST_UNREPORTED: u16 = 16;
const MOST_CARDS: usize = 8;
const MOST_TAGS: u8 = 7;

/// The 255 bytes that wake the cards of an ID port.
pub const SEQUENCE: [u8; 255] = sequence();

const fn sequence() -> [u8; 255] {
    let mut bytes = [0xFF; 255];
    let mut i = 1;
    while i < 255 {
        let last = bytes[i - 1];
        bytes[i] = if last & 0x80 == 0 { last << 1 } else { last << 1 ^ 0xCF };
        i += 1;
    }
    bytes
}

fn rounded(length: u16) -> u16 {
    (length + 3) & !3
}

/// A count of unread bytes in bits 10-0 of RX Status, two's complement.
fn encoded(unread: i16) -> u16 {
    unread as u16 & COUNT
}

/// And back: no count is above 1,792, so what is there stands for one below 0.
fn decoded(status: u16) -> i16 {
    match status & COUNT {
        count @ ..=LONGEST_STORED => count as i16,
        count => count as i16 - (COUNT + 1) as i16,
    }
}

fn with_low(word: u16, byte: u8) -> u16 {
    word & 0xFF00 | u16::from(byte)
}

fn with_high(word: u16, byte: u8) -> u16 {
    word & 0x00FF | u16::from(byte) << 8
}

fn is_id_port(port: u16) -> bool {
    port & 0xFF0F == 0x0100
}

fn checked_port(port: u16) -> Result<(), u8> {
    if is_id_port(port) {
        Ok(())
    } else {
        Err(BAD_PLACE)
    }
}

/// One frame in the receive store. Its bytes lie in `Receiver::bytes`, oldest frame first.
#[derive(Clone, Debug, PartialEq, Eq)]
struct Frame {
    stored: u16,
    overrun: bool,
    /// Bits 14-11 of RX Status, once the frame has ended.
    ended: Option<u16>,
}

#[derive(Clone, Debug, PartialEq, Eq)]
struct Receiver {
    size: u16,
    on: bool,
    failed: bool,
    filter: u8,
    early_threshold: u16,
    /// The RX Early bit, and whether the frame that is coming has had it.
    early: bool,
    early_told: bool,
    frames: VecDeque<Frame>,
    /// The frames' bytes; an ended frame is padded with zeros to a multiple of 4.
    bytes: VecDeque<u8>,
    /// Bytes read of the oldest frame.
    read: u16,
}

impl Receiver {
    fn power_on(size: u16) -> Receiver {
        Receiver {
            size,
            on: false,
            failed: false,
            filter: 0,
            early_threshold: THRESHOLD_OFF,
            early: false,
            early_told: false,
            frames: VecDeque::new(),
            bytes: VecDeque::new(),
            read: 0,
        }
    }

    fn free(&self) -> u16 {
        self.size - rounded(self.bytes.len() as u16)
    }

    fn accepts(&self, address: &[u8], station: &[u8; 6]) -> bool {
        self.filter & ALL != 0
            || self.filter & GROUP != 0 && address[0] & 1 != 0
            || self.filter & BROADCAST != 0 && address == [0xFF; 6]
            || self.filter & INDIVIDUAL != 0 && address == station
    }

    fn start(&mut self, first: &[u8; 8]) {
        self.frames.push_back(Frame { stored: 8, overrun: false, ended: None });
        self.bytes.extend(first);
        self.early_told = false;
    }

    /// A byte of the frame that is coming. One past 1,792 is dropped in silence.
    fn byte(&mut self, byte: u8) {
        let room = self.free();
        let Some(frame) = self.frames.back_mut() else { return };
        if frame.overrun || frame.stored == LONGEST_STORED {
            return;
        }
        if frame.stored % 4 == 0 && room < 4 {
            frame.overrun = true;
            return;
        }
        frame.stored += 1;
        self.bytes.push_back(byte);
    }

    /// The end of the frame that is coming. The first code that holds wins.
    fn end(&mut self, check: bool, alignment: bool) {
        let Some(frame) = self.frames.back_mut() else { return };
        let code = if frame.overrun {
            Some(0)
        } else if frame.stored > LONGEST {
            Some(1)
        } else if frame.stored < SHORTEST {
            Some(3)
        } else if !alignment {
            Some(4)
        } else if !check {
            Some(5)
        } else {
            None
        };
        frame.ended = Some(code.map_or(0, |code| ERROR | code << 11));
        for _ in frame.stored..rounded(frame.stored) {
            self.bytes.push_back(0);
        }
    }

    /// Stored bytes of the oldest frame less bytes read: below 0 once pad is read. 0 without a frame.
    fn unread(&self) -> i16 {
        self.frames.front().map_or(0, |frame| frame.stored as i16 - self.read as i16)
    }

    fn status(&self) -> u16 {
        let bits = self.frames.front().and_then(|frame| frame.ended);
        bits.unwrap_or(INCOMPLETE) | encoded(self.unread())
    }

    fn complete(&self) -> bool {
        self.frames.front().is_some_and(|frame| frame.ended.is_some())
    }

    /// A word of the oldest frame. It fails if fewer than 2 bytes are left, pad included once the frame is complete.
    fn take_word(&mut self) -> u16 {
        let pad = match self.frames.front() {
            Some(frame) if frame.ended.is_some() => rounded(frame.stored) - frame.stored,
            _ => 0,
        };
        if self.failed || self.unread() + (pad as i16) < 2 {
            self.failed = true;
            return 0;
        }
        let at = usize::from(self.read);
        self.read += 2;
        u16::from_le_bytes([self.bytes[at], self.bytes[at + 1]])
    }

    /// Drops the oldest frame; answers whether it was still coming.
    fn discard(&mut self) -> bool {
        if self.failed {
            return false;
        }
        let Some(frame) = self.frames.pop_front() else { return false };
        self.read = 0;
        if frame.ended.is_none() {
            // A frame that is coming is the youngest, so it is the only one here.
            self.bytes.clear();
            return true;
        }
        self.bytes.drain(..usize::from(rounded(frame.stored)));
        false
    }

    fn reset(&mut self) {
        self.on = false;
        self.failed = false;
        self.filter = 0;
        self.early_threshold = THRESHOLD_OFF;
        self.frames.clear();
        self.bytes.clear();
        self.read = 0;
    }

    /// RX Early: once for the oldest frame while it is coming and has the threshold's bytes.
    fn settle(&mut self) {
        match self.frames.front() {
            Some(frame) if frame.ended.is_none() => {
                if !self.early_told && frame.stored >= self.early_threshold {
                    self.early = true;
                    self.early_told = true;
                }
            }
            _ => self.early = false,
        }
    }
}

#[derive(Clone, Debug, PartialEq, Eq)]
struct Transmitter {
    size: u16,
    on: bool,
    failed: bool,
    start_threshold: u16,
    available_threshold: u16,
    /// The TX Available bit.
    available: bool,
    /// Preambles and padded data, oldest packet first.
    bytes: VecDeque<u8>,
    /// Whole packets in `bytes`, and words that the last one still lacks.
    whole: u16,
    lacking: u16,
    /// The status stack, oldest first.
    statuses: VecDeque<u8>,
}

impl Transmitter {
    fn power_on(size: u16) -> Transmitter {
        Transmitter {
            size,
            on: false,
            failed: false,
            start_threshold: THRESHOLD_OFF,
            available_threshold: THRESHOLD_OFF,
            available: false,
            bytes: VecDeque::new(),
            whole: 0,
            lacking: 0,
            statuses: VecDeque::with_capacity(STACK_DEPTH),
        }
    }

    fn free(&self) -> u16 {
        self.size - self.bytes.len() as u16
    }

    /// A word written to the FIFO: a preamble's first word, or a further word of its packet.
    fn word(&mut self, word: u16) {
        let length = word & COUNT;
        let begins = self.lacking == 0;
        if self.failed || self.free() < 2 || begins && !(6..=LONGEST_STORED).contains(&length) {
            self.failed = true;
            return;
        }
        let [low, high] = word.to_le_bytes();
        self.bytes.push_back(low);
        self.bytes.push_back(high);
        if begins {
            self.lacking = 1 + rounded(length) / 2;
            return;
        }
        self.lacking -= 1;
        if self.lacking == 0 {
            self.whole += 1;
        }
    }

    /// Takes the oldest packet for an outcome: its first preamble word, and its bytes if they are wanted.
    fn take_packet(&mut self, wanted: bool) -> Result<(u16, Vec<u8>), u8> {
        if !self.on || self.failed || self.whole == 0 {
            return Err(OUT_OF_TURN);
        }
        let preamble = u16::from_le_bytes([self.bytes[0], self.bytes[1]]);
        let length = preamble & COUNT;
        let end = 4 + usize::from(length);
        let mut data = Vec::new();
        if wanted {
            data.reserve_exact(end.max(usize::from(SHORTEST)));
            data.extend(self.bytes.range(4..end));
        }
        self.bytes.drain(..4 + usize::from(rounded(length)));
        self.whole -= 1;
        Ok((preamble, data))
    }

    fn push(&mut self, status: u8) {
        if self.statuses.len() + 1 == STACK_DEPTH {
            self.statuses.push_back(status | OVERFLOW);
            self.on = false;
        } else {
            self.statuses.push_back(status);
        }
    }

    fn enable(&mut self) {
        if self.statuses.len() < STACK_DEPTH {
            self.on = true;
        }
    }

    fn acknowledge_available(&mut self) {
        if self.available {
            self.available = false;
            self.available_threshold = THRESHOLD_OFF;
        }
    }

    fn reset(&mut self) {
        self.on = false;
        self.failed = false;
        self.start_threshold = THRESHOLD_OFF;
        self.available_threshold = THRESHOLD_OFF;
        self.bytes.clear();
        self.whole = 0;
        self.lacking = 0;
    }

    fn settle(&mut self) {
        if self.available_threshold <= LONGEST_STORED && self.free() > self.available_threshold {
            self.available = true;
        }
    }
}

/// Where the card stands with the wire.
#[derive(Clone, Copy, Debug, PartialEq, Eq)]
enum Wire {
    Quiet,
    Stored,
    Ignored,
}

/// The ID sequence state machine.
#[derive(Clone, Copy, Debug, PartialEq, Eq)]
enum Phase {
    /// ID_WAIT: the port, once one is chosen, and the bytes of the sequence heard on it.
    Wait { port: Option<u16>, heard: u8 },
    /// ID_CMD at a port.
    Command(u16),
}

const ASLEEP: Phase = Phase::Wait { port: None, heard: 0 };

#[derive(Clone, Debug, PartialEq, Eq)]
struct Card {
    words: [u16; 64],
    phase: Phase,
    tag: u8,
    active: bool,
    window: u8,
    /// The low byte of a command that is written bytewise.
    held: u8,
    product: u16,
    enabled: bool,
    address: u16,
    resource: u16,
    eeprom_command: u8,
    eeprom_data: u16,
    eeprom_open: bool,
    station: [u8; 6],
    internal: [u16; 2],
    interrupt_mask: u8,
    read_zero: u8,
    latch: bool,
    requested: bool,
    wire: Wire,
    rx: Receiver,
    tx: Transmitter,
}

/// The transmitter's share of the RAM, by bits 1-0 of word 13h.
fn tx_size(internal: u16) -> u16 {
    match internal & 3 {
        1 => 2048,
        2 => 4096,
        _ => 3072,
    }
}

impl Card {
    fn power_on(words: [u16; 64]) -> Card {
        let tx = tx_size(words[0x13]);
        Card {
            phase: ASLEEP,
            tag: 0,
            active: false,
            window: 0,
            held: 0,
            product: words[0x03],
            enabled: false,
            address: words[0x08],
            resource: words[0x09],
            eeprom_command: 0,
            eeprom_data: 0,
            eeprom_open: false,
            station: [0; 6],
            internal: [words[0x12], words[0x13]],
            interrupt_mask: 0,
            read_zero: 0,
            latch: false,
            requested: false,
            wire: Wire::Quiet,
            rx: Receiver::power_on(RAM - tx),
            tx: Transmitter::power_on(tx),
            words,
        }
    }

    /// Back to power-on; a frame on the wire is ignored to its end.
    fn reset(&mut self) {
        let wire = if self.wire == Wire::Quiet { Wire::Quiet } else { Wire::Ignored };
        *self = Card { wire, ..Card::power_on(self.words) };
    }

    /// What every step ends with.
    fn settle(&mut self) {
        self.rx.settle();
        self.tx.settle();
        if self.interrupt_mask != 0 && self.causes() & self.interrupt_mask != 0 {
            self.latch = true;
        }
    }

    /// Bits 1 to 7 of Status, as the Read Zero mask lets them through.
    fn causes(&self) -> u8 {
        let bit = |holds: bool, bit: u8| if holds { bit } else { 0 };
        let raw = bit(self.rx.failed || self.tx.failed, ADAPTER_FAILURE)
            | bit(!self.tx.statuses.is_empty(), TX_COMPLETE)
            | bit(self.tx.available, TX_AVAILABLE)
            | bit(self.rx.complete(), RX_COMPLETE)
            | bit(self.rx.early, RX_EARLY)
            | bit(self.requested, INTERRUPT_REQUESTED);
        raw & self.read_zero
    }

    fn status(&self) -> u16 {
        u16::from(self.window) << 13 | u16::from(self.causes()) | u16::from(self.latch)
    }

    /// The interrupt line that the card drives. The manual: "the IRQ drivers are disabled while Window 0 is
    /// selected", ENA 0 "Disables IRQ drivers", and of the IRQ field's values some "Disable all IRQ line drivers".
    fn interrupt_line(&self) -> Option<u16> {
        if !self.latch || self.window == 0 || !self.enabled {
            return None;
        }
        match self.resource >> 12 {
            0 | 1 | 2 | 4 | 6 | 8 | 13 | 14 => None,
            line => Some(line),
        }
    }

    /// RX Status as window 1 has it, and the unread bytes.
    fn rx_status(&self) -> (u16, i16) {
        if !self.active {
            return (0xFFFF, 0);
        }
        (self.rx.status(), self.rx.unread())
    }

    /// A register other than the FIFOs' data; reading it changes nothing.
    fn register(&self, offset: u16) -> u16 {
        match (self.window, offset) {
            (_, STATUS) => self.status(),
            (0, 0x00) => MANUFACTURER,
            (0, 0x02) => self.product,
            (0, 0x04) => 0x4D00 | u16::from(self.enabled),
            (0, 0x06) => self.address,
            (0, 0x08) => self.resource,
            (0, 0x0A) => u16::from(self.tag) << 8 | u16::from(self.eeprom_command),
            (0, 0x0C) => self.eeprom_data,
            (1, RX_STATUS) => self.rx.status(),
            (1, 0x0A) => u16::from(self.tx.statuses.front().copied().unwrap_or(0)) << 8,
            (1, TX_FREE) => self.tx.free() & !3,
            (2, 0x00 | 0x02 | 0x04) => {
                let at = usize::from(offset);
                u16::from_le_bytes([self.station[at], self.station[at + 1]])
            }
            (3, 0x00) => self.internal[0] & !8,
            (3, 0x02) => self.internal[1],
            (3, 0x0A) => self.rx.free(),
            (3, 0x0C) => self.tx.free(),
            (5, 0x00) => self.tx.start_threshold,
            (5, 0x02) => self.tx.available_threshold,
            (5, 0x06) => self.rx.early_threshold,
            (5, 0x08) => u16::from(self.rx.filter),
            (5, 0x0A) => u16::from(self.interrupt_mask),
            (5, 0x0C) => u16::from(self.read_zero),
            _ => 0,
        }
    }

    fn read_word(&mut self, offset: u16) -> u16 {
        if !self.active {
            return 0xFFFF;
        }
        if self.window != 1 || offset > 0x02 {
            return self.register(offset);
        }
        let word = self.rx.take_word();
        self.settle();
        word
    }

    fn read_byte(&self, offset: u16) -> u8 {
        if !self.active {
            return 0xFF;
        }
        let [low, high] = self.register(offset & !1).to_le_bytes();
        if offset & 1 == 0 {
            low
        } else {
            high
        }
    }

    fn write_word(&mut self, offset: u16, word: u16) {
        if !self.active {
            return;
        }
        let [low, high] = word.to_le_bytes();
        match (self.window, offset) {
            (_, STATUS) => self.command(word),
            (0, 0x04) => self.control(low),
            (0, 0x06) => self.address = word,
            (0, 0x08) => self.resource = word,
            (0, 0x0A) => self.eeprom(low),
            (0, 0x0C) => self.eeprom_data = word,
            (1, 0x00 | 0x02) => self.tx.word(word),
            (1, 0x0A) => self.pop(),
            (2, 0x00 | 0x02 | 0x04) => {
                self.station[usize::from(offset)] = low;
                self.station[usize::from(offset) + 1] = high;
            }
            (3, 0x00) => self.internal[0] = word,
            (3, 0x02) => self.configure(word),
            _ => {}
        }
        self.settle();
    }

    fn write_byte(&mut self, offset: u16, byte: u8) {
        if !self.active {
            return;
        }
        match (self.window, offset) {
            (_, 0x0E) => self.held = byte,
            (_, 0x0F) => {
                let word = u16::from_le_bytes([self.held, byte]);
                self.held = 0;
                self.command(word);
            }
            (0, 0x04) => self.control(byte),
            (0, 0x06) => self.address = with_low(self.address, byte),
            (0, 0x07) => self.address = with_high(self.address, byte),
            (0, 0x08) => self.resource = with_low(self.resource, byte),
            (0, 0x09) => self.resource = with_high(self.resource, byte),
            (0, 0x0A) => self.eeprom(byte),
            (0, 0x0C) => self.eeprom_data = with_low(self.eeprom_data, byte),
            (0, 0x0D) => self.eeprom_data = with_high(self.eeprom_data, byte),
            (1, TX_STATUS) => self.pop(),
            (2, 0x00..=0x05) => self.station[usize::from(offset)] = byte,
            (3, 0x00) => self.internal[0] = with_low(self.internal[0], byte),
            (3, 0x01) => self.internal[0] = with_high(self.internal[0], byte),
            (3, 0x02) => self.configure(with_low(self.internal[1], byte)),
            (3, 0x03) => self.configure(with_high(self.internal[1], byte)),
            _ => {}
        }
        self.settle();
    }

    fn pop(&mut self) {
        self.tx.statuses.pop_front();
    }

    /// Configuration Control: bit 2 resets, else bit 0 is kept.
    fn control(&mut self, byte: u8) {
        if byte & 4 != 0 {
            self.reset();
        } else {
            self.enabled = byte & 1 != 0;
        }
    }

    /// The high Internal Configuration word. The split moves only while no FIFO is in use.
    fn configure(&mut self, word: u16) {
        if !self.rx.frames.is_empty() || !self.tx.bytes.is_empty() {
            self.internal[1] = word & !3 | self.internal[1] & 3;
            return;
        }
        self.internal[1] = word;
        self.tx.size = tx_size(word);
        self.rx.size = RAM - self.tx.size;
    }

    /// An EEPROM command: two bits of operation, six of address.
    fn eeprom(&mut self, command: u8) {
        self.eeprom_command = command;
        let place = usize::from(command & 0x3F);
        match (command >> 6, command >> 4 & 3) {
            (2, _) => self.eeprom_data = self.words[place],
            (1, _) => self.change_words(place..place + 1, self.eeprom_data, 0),
            (3, _) => self.change_words(place..place + 1, 0xFFFF, 0xFFFF),
            (_, 3) => self.eeprom_open = true,
            (_, 2) => self.change_words(0..64, 0xFFFF, 0xFFFF),
            (_, 1) => self.change_words(0..64, self.eeprom_data, 0),
            _ => self.eeprom_open = false,
        }
    }

    /// An erase or write acts only while it is enabled, and disables again.
    fn change_words(&mut self, places: std::ops::Range<usize>, kept: u16, set: u16) {
        if !self.eeprom_open {
            return;
        }
        self.eeprom_open = false;
        for word in &mut self.words[places] {
            *word = *word & kept | set;
        }
    }

    fn command(&mut self, word: u16) {
        let argument = word & 0x07FF;
        let number = word >> 11;
        if self.window == 0 && number != SELECT_WINDOW {
            return;
        }
        match number {
            GLOBAL_RESET => self.reset(),
            SELECT_WINDOW => self.window = (argument & 7) as u8,
            RX_DISABLE => self.rx.on = false,
            RX_ENABLE => self.rx.on = true,
            RX_RESET => {
                self.rx.reset();
                self.ignore_rest();
            }
            RX_DISCARD => {
                if self.rx.discard() {
                    self.ignore_rest();
                }
            }
            TX_ENABLE => self.tx.enable(),
            TX_DISABLE => self.tx.on = false,
            TX_RESET => self.tx.reset(),
            REQUEST_INTERRUPT => self.requested = true,
            ACKNOWLEDGE => self.acknowledge(argument as u8),
            SET_INTERRUPT_MASK => self.interrupt_mask = argument as u8 & 0xFE,
            SET_READ_ZERO => self.read_zero = argument as u8 & 0xFE,
            SET_RX_FILTER => self.rx.filter = argument as u8 & 0x0F,
            SET_RX_EARLY => self.rx.early_threshold = argument.max(EARLY_LEAST),
            SET_TX_AVAILABLE => self.tx.available_threshold = argument & !3,
            SET_TX_START => self.tx.start_threshold = argument & !3,
            _ => {}
        }
    }

    fn acknowledge(&mut self, named: u8) {
        if named & INTERRUPT_LATCH != 0 {
            self.latch = false;
        }
        if named & TX_AVAILABLE != 0 {
            self.tx.acknowledge_available();
        }
        if named & RX_EARLY != 0 {
            self.rx.early = false;
        }
        if named & INTERRUPT_REQUESTED != 0 {
            self.requested = false;
        }
    }

    fn ignore_rest(&mut self) {
        if self.wire == Wire::Stored {
            self.wire = Wire::Ignored;
        }
    }

    fn wire_start(&mut self, first: &[u8; 8]) {
        let taken = self.active && self.rx.on && self.rx.accepts(&first[..6], &self.station) && self.rx.free() >= 8;
        if !taken {
            self.wire = Wire::Ignored;
            return;
        }
        self.wire = Wire::Stored;
        self.rx.start(first);
        self.settle();
    }

    fn id_write(&mut self, port: u16, byte: u8) {
        match self.phase {
            Phase::Command(own) if own == port => self.id_command(byte),
            Phase::Wait { .. } if byte == 0 => self.phase = Phase::Wait { port: Some(port), heard: 0 },
            Phase::Wait { port: Some(own), heard } if own == port => {
                let heard = if byte == SEQUENCE[usize::from(heard)] { heard + 1 } else { 0 };
                self.phase = if usize::from(heard) == SEQUENCE.len() {
                    Phase::Command(port)
                } else {
                    Phase::Wait { port: Some(port), heard }
                };
            }
            _ => {}
        }
    }

    fn id_command(&mut self, byte: u8) {
        match byte {
            0x00..=0x7F => self.phase = ASLEEP,
            0x80..=0xBF => self.eeprom_data = self.words[usize::from(byte & 0x3F)],
            0xC0..=0xCF => self.reset(),
            0xD0 => self.tag = 0,
            0xD1..=0xD7 => {
                if self.tag == 0 {
                    self.tag = byte & 7;
                }
            }
            0xD8..=0xDF => {
                if self.tag != byte & 7 {
                    self.phase = ASLEEP;
                }
            }
            0xE0..=0xFF => {
                if byte != 0xFF {
                    self.address = self.address & !0x1F | u16::from(byte & 0x1F);
                }
                self.active = true;
                self.phase = ASLEEP;
            }
        }
    }

    /// Whether this card takes part in a read of the port.
    fn contends(&self, port: u16) -> bool {
        self.phase == Phase::Command(port) && self.tag == 0
    }

    fn id_drives(&self, port: u16) -> bool {
        !self.contends(port) || self.eeprom_data & 0x8000 != 0
    }

    fn id_read(&mut self, port: u16, bus: bool) {
        if !self.contends(port) {
            return;
        }
        if self.id_drives(port) != bus {
            self.phase = ASLEEP;
        }
        self.eeprom_data <<= 1;
    }
}

/// What the driver remembers between its calls.
#[derive(Clone, Debug, Default, PartialEq, Eq)]
struct Driver {
    opened: bool,
    /// Packets sent, modulo 65,536, and how many of them are unreported.
    sent: u16,
    unreported: u16,
    /// An error status was seen since the last TX Enable.
    error_seen: bool,
}

/// One card, its driver and its memory.
#[derive(Clone, Debug, PartialEq, Eq)]
pub struct Model {
    card: Card,
    driver: Driver,
}

/// What a service call answers.
#[derive(Clone, Debug, PartialEq, Eq)]
pub enum Service {
    Report { ticket: u16, status: u8 },
    Status(u8),
    Frame(Vec<u8>),
    Idle,
    Refused(u8),
}

/// Takes `accesses` off a budget, or refuses and leaves it.
fn claim(left: &mut u32, accesses: u32) -> Result<(), u8> {
    if *left < accesses {
        return Err(BUDGET_SHORT);
    }
    *left -= accesses;
    Ok(())
}

// Register, wire and ID steps.
impl Model {
    /// A card with these EEPROM words, just powered, beside an unopened driver.
    pub fn power_on(words: [u16; 64]) -> Model {
        Model { card: Card::power_on(words), driver: Driver::default() }
    }

    fn check_word(offset: u16) -> Result<(), u8> {
        if offset > 0x0F || offset & 1 != 0 {
            return Err(BAD_PLACE);
        }
        Ok(())
    }

    fn check_byte(&self, offset: u16) -> Result<(), u8> {
        if offset > 0x0F || self.card.window == 1 && offset <= 0x03 {
            return Err(BAD_PLACE);
        }
        Ok(())
    }

    pub fn read_word(&mut self, offset: u16) -> Result<u16, u8> {
        Self::check_word(offset)?;
        Ok(self.card.read_word(offset))
    }

    pub fn read_byte(&mut self, offset: u16) -> Result<u8, u8> {
        self.check_byte(offset)?;
        Ok(self.card.read_byte(offset))
    }

    pub fn write_word(&mut self, offset: u16, word: u16) -> Result<(), u8> {
        Self::check_word(offset)?;
        self.card.write_word(offset, word);
        Ok(())
    }

    pub fn write_byte(&mut self, offset: u16, byte: u8) -> Result<(), u8> {
        self.check_byte(offset)?;
        self.card.write_byte(offset, byte);
        Ok(())
    }

    /// A frame starts on the wire with its first 8 bytes.
    pub fn wire_start(&mut self, first: [u8; 8]) -> Result<(), u8> {
        if self.card.wire != Wire::Quiet {
            return Err(OUT_OF_TURN);
        }
        self.card.wire_start(&first);
        Ok(())
    }

    pub fn wire_byte(&mut self, byte: u8) -> Result<(), u8> {
        match self.card.wire {
            Wire::Quiet => return Err(OUT_OF_TURN),
            Wire::Ignored => {}
            Wire::Stored => {
                self.card.rx.byte(byte);
                self.card.settle();
            }
        }
        Ok(())
    }

    pub fn wire_end(&mut self, check: bool, alignment: bool) -> Result<(), u8> {
        match self.card.wire {
            Wire::Quiet => return Err(OUT_OF_TURN),
            Wire::Ignored => self.card.wire = Wire::Quiet,
            Wire::Stored => {
                self.card.wire = Wire::Quiet;
                self.card.rx.end(check, alignment);
                self.card.settle();
            }
        }
        Ok(())
    }

    /// A send outcome: success. Answers what the wire is told.
    pub fn sent(&mut self) -> Result<Vec<u8>, u8> {
        let (preamble, mut data) = self.card.tx.take_packet(true)?;
        if preamble & CHECK_INCLUDED == 0 && data.len() < usize::from(SHORTEST) {
            data.resize(usize::from(SHORTEST), 0);
        }
        if preamble & COMPLETION_WANTED != 0 {
            self.card.tx.push(COMPLETED | ASKED);
        }
        self.card.settle();
        Ok(data)
    }

    /// A send outcome: 16 collisions.
    pub fn collided(&mut self) -> Result<(), u8> {
        let (preamble, _) = self.card.tx.take_packet(false)?;
        let asked = if preamble & COMPLETION_WANTED != 0 { ASKED } else { 0 };
        self.card.tx.push(COMPLETED | MAXIMUM_COLLISIONS | asked);
        self.card.tx.on = false;
        self.card.settle();
        Ok(())
    }

    pub fn id_write(&mut self, port: u16, byte: u8) -> Result<(), u8> {
        checked_port(port)?;
        self.card.id_write(port, byte);
        Ok(())
    }

    /// The bit this card puts on the bus now; true if it drives none or a one.
    pub fn id_drives(&self, port: u16) -> Result<bool, u8> {
        checked_port(port)?;
        Ok(self.card.id_drives(port))
    }

    /// A port read on which the bus, the wired-and of all cards, shows `bus`.
    pub fn id_read(&mut self, port: u16, bus: bool) -> Result<bool, u8> {
        checked_port(port)?;
        self.card.id_read(port, bus);
        Ok(bus)
    }

    pub fn active(&self) -> bool {
        self.card.active
    }

    /// The base number: the low five bits of Address Configuration.
    pub fn base(&self) -> u8 {
        (self.card.address & 0x1F) as u8
    }

    pub fn latch(&self) -> bool {
        self.card.latch
    }

    /// The interrupt line that is driven, 0 for none.
    pub fn interrupt_line(&self) -> Result<u16, u8> {
        Ok(self.card.interrupt_line().unwrap_or(0))
    }

    /// RX Status in whatever window, and the unread bytes of the oldest frame.
    pub fn rx_status(&self) -> Result<(u16, i16), u8> {
        Ok(self.card.rx_status())
    }
}

// The driver. It touches the card by register steps alone.
impl Model {
    fn order(&mut self, number: u16, argument: u16) -> Result<(), u8> {
        self.write_word(STATUS, number << 11 | argument)
    }

    fn order_tx_enable(&mut self) -> Result<(), u8> {
        self.driver.error_seen = false;
        self.order(TX_ENABLE, 0)
    }

    fn working_status(&mut self) -> Result<u8, u8> {
        let status = self.read_word(STATUS)?;
        let flags = status as u8;
        if status >> 13 != 1 || flags & ADAPTER_FAILURE != 0 {
            return Err(NOT_WORKING);
        }
        Ok(flags)
    }

    /// Sets the card to work, at the address in EEPROM words 00h to 02h.
    pub fn open(&mut self, words: [u16; 3]) -> Result<(), u8> {
        self.order(SELECT_WINDOW, 2)?;
        for (place, byte) in (0..).zip(words.iter().flat_map(|word| word.to_be_bytes())) {
            self.write_byte(place, byte)?;
        }
        self.order(SELECT_WINDOW, 1)?;
        self.order(SET_RX_FILTER, u16::from(INDIVIDUAL | BROADCAST))?;
        self.order(SET_READ_ZERO, 0xFF)?;
        self.order(SET_INTERRUPT_MASK, 0)?;
        self.order(RX_ENABLE, 0)?;
        self.order_tx_enable()?;
        self.driver.opened = true;
        Ok(())
    }

    /// Hands a packet to the card. The ticket is the count of earlier packets.
    pub fn send(&mut self, packet: &[u8]) -> Result<u16, u8> {
        if !self.driver.opened {
            return Err(NEVER_OPENED);
        }
        if !(14..=usize::from(LONGEST)).contains(&packet.len()) {
            return Err(BAD_LENGTH);
        }
        if self.driver.unreported == MOST_UNREPORTED {
            return Err(TOO_MANY_UNREPORTED);
        }
        self.working_status()?;
        let length = packet.len() as u16;
        if self.read_word(TX_FREE)? < 4 + rounded(length) {
            return Err(NO_ROOM);
        }
        self.write_word(DATA, length | COMPLETION_WANTED)?;
        self.write_word(DATA, 0)?;
        for part in packet.chunks(4) {
            let mut four = [0; 4];
            four[..part.len()].copy_from_slice(part);
            self.write_word(DATA, u16::from_le_bytes([four[0], four[1]]))?;
            self.write_word(DATA, u16::from_le_bytes([four[2], four[3]]))?;
        }
        let ticket = self.driver.sent;
        self.driver.sent = ticket.wrapping_add(1);
        self.driver.unreported += 1;
        Ok(ticket)
    }

    /// One pass over the card within a budget of accesses. Answers also the accesses used; a refusal other
    /// than 6 tells none.
    pub fn service(&mut self, budget: u16, look: &mut [u8], frame: &mut [u8]) -> (Service, u32) {
        if !self.driver.opened {
            return (Service::Refused(NEVER_OPENED), 0);
        }
        if look.len() < LOOKAHEAD || frame.len() < usize::from(LONGEST) {
            return (Service::Refused(SMALL_AREA), 0);
        }
        let mut left = u32::from(budget);
        match self.pass(&mut left, look, frame) {
            Ok(answer) => (answer, u32::from(budget) - left),
            Err(BUDGET_SHORT) => (Service::Refused(BUDGET_SHORT), u32::from(budget) - left),
            Err(number) => (Service::Refused(number), 0),
        }
    }

    fn pass(&mut self, left: &mut u32, look: &mut [u8], frame: &mut [u8]) -> Result<Service, u8> {
        loop {
            claim(left, 1)?;
            let flags = self.working_status()?;
            if flags & TX_COMPLETE != 0 {
                return self.report(left);
            }
            if flags & RX_COMPLETE == 0 {
                claim(left, 1)?;
                let answered = INTERRUPT_LATCH | TX_AVAILABLE | RX_EARLY | INTERRUPT_REQUESTED;
                self.order(ACKNOWLEDGE, u16::from(answered))?;
                return Ok(Service::Idle);
            }
            claim(left, 1)?;
            let status = self.read_word(RX_STATUS)?;
            let count = decoded(status);
            if status & ERROR == 0 && (SHORTEST as i16..=LONGEST as i16).contains(&count) {
                let count = count as usize;
                let area = if count <= LOOKAHEAD { look } else { frame };
                return self.hand_up(left, &mut area[..count]);
            }
            claim(left, 1)?;
            self.order(RX_DISCARD, 0)?;
        }
    }

    /// Reads a TX Status, pops it, and restarts the transmitter once all are read after an error.
    fn report(&mut self, left: &mut u32) -> Result<Service, u8> {
        if *left < 4 {
            return Err(BUDGET_SHORT);
        }
        claim(left, 3)?;
        let status = self.read_byte(TX_STATUS)?;
        self.write_byte(TX_STATUS, 0)?;
        let next = self.read_byte(TX_STATUS)?;
        if status & ANY_ERROR != 0 {
            self.driver.error_seen = true;
        }
        if self.driver.error_seen && next == 0 {
            claim(left, 1)?;
            self.order_tx_enable()?;
        }
        if self.driver.unreported == 0 {
            return Ok(Service::Status(status));
        }
        let ticket = self.driver.sent.wrapping_sub(self.driver.unreported);
        self.driver.unreported -= 1;
        Ok(Service::Report { ticket, status })
    }

    /// Reads a good frame into its part of an area and discards it from the card.
    fn hand_up(&mut self, left: &mut u32, part: &mut [u8]) -> Result<Service, u8> {
        claim(left, part.len().div_ceil(2) as u32 + 1)?;
        for pair in part.chunks_mut(2) {
            let word = self.read_word(DATA)?.to_le_bytes();
            pair.copy_from_slice(&word[..pair.len()]);
        }
        self.order(RX_DISCARD, 0)?;
        Ok(Service::Frame(part.to_vec()))
    }
}

/// The cards of one ID port, and the port accesses made.
struct Bus<'a> {
    cards: &'a mut [Model],
    port: u16,
    accesses: u32,
}

impl<'a> Bus<'a> {
    fn new(cards: &'a mut [Model], port: u16) -> Result<Bus<'a>, u8> {
        if !is_id_port(port) || cards.len() > MOST_CARDS {
            return Err(BAD_PLACE);
        }
        Ok(Bus { cards, port, accesses: 0 })
    }

    fn write(&mut self, byte: u8) {
        for model in self.cards.iter_mut() {
            model.card.id_write(self.port, byte);
        }
        self.accesses += 1;
    }

    fn read(&mut self) -> bool {
        let bus = self.cards.iter().all(|model| model.card.id_drives(self.port));
        for model in self.cards.iter_mut() {
            model.card.id_read(self.port, bus);
        }
        self.accesses += 1;
        bus
    }

    /// Two zeros and the sequence: a card in ID_CMD takes the first zero as a command.
    fn wake(&mut self) {
        self.write(0);
        self.write(0);
        for byte in SEQUENCE {
            self.write(byte);
        }
    }

    fn contend(&mut self, place: u8) -> u16 {
        self.write(0x80 | place);
        (0..16).fold(0, |word, _| word << 1 | u16::from(self.read()))
    }
}

/// Finds and tags the cards of a port. Answers their addresses in the order found, and the accesses.
pub fn search(cards: &mut [Model], port: u16) -> Result<(Vec<[u8; 6]>, u32), u8> {
    let mut bus = Bus::new(cards, port)?;
    bus.wake();
    bus.write(0xD0);
    let mut found = Vec::new();
    for tag in 1..=MOST_TAGS {
        bus.wake();
        let mut address = [0; 6];
        for place in 0..3 {
            let word = bus.contend(place);
            let at = 2 * usize::from(place);
            address[at..at + 2].copy_from_slice(&word.to_be_bytes());
        }
        if address == [0xFF; 6] {
            break;
        }
        found.push(address);
        bus.write(0xD0 + tag);
    }
    Ok((found, bus.accesses))
}

/// Activates the cards of a tag at a base number; 31 means the preconfigured one. Answers the accesses.
pub fn activate(cards: &mut [Model], port: u16, tag: u8, base: u8) -> Result<u32, u8> {
    if !(1..=MOST_TAGS).contains(&tag) || base > 31 {
        return Err(BAD_PLACE);
    }
    let mut bus = Bus::new(cards, port)?;
    bus.wake();
    bus.write(0xD8 + tag);
    bus.write(0xE0 + base);
    Ok(bus.accesses)
}

/// Checks an EEPROM image. Answers words 00h to 02h.
pub fn image_check(bytes: &[u8]) -> Result<[u16; 3], u8> {
    if bytes.len() != 128 {
        return Err(BAD_LENGTH);
    }
    let word = |place: usize| u16::from_le_bytes([bytes[2 * place], bytes[2 * place + 1]]);
    let sum = |places: &mut dyn Iterator<Item = usize>| {
        places.fold(0, |sum, place| sum ^ bytes[2 * place] ^ bytes[2 * place + 1])
    };
    let configurable = [0x08, 0x09, 0x0D];
    let vital = sum(&mut (0x00..=0x0E).filter(|place| !configurable.contains(place)));
    let checksum = u16::from_be_bytes([vital, sum(&mut configurable.into_iter())]);
    let vital = sum(&mut (0x10..=0x12).chain(0x20..=0x3F));
    let secondary = u16::from_be_bytes([vital, sum(&mut (0x13..=0x16))]);
    if word(0x07) != MANUFACTURER {
        return Err(BAD_MANUFACTURER);
    }
    if word(0x0F) != checksum {
        return Err(BAD_CHECKSUM);
    }
    if word(0x17) != secondary {
        return Err(BAD_SECONDARY);
    }
    Ok([word(0x00), word(0x01), word(0x02)])
}
