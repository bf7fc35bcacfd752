//! What the archive exports, as `include/seamtrout.h` declares it.

use std::mem::{offset_of, size_of};

#[repr(C)]
#[derive(Clone, Copy, Debug, PartialEq, Eq)]
pub struct Id {
    pub command: bool,
    pub port: u8,
    pub at: u8,
    pub tag: u8,
    pub shift: u16,
    pub address: u16,
    pub active: bool,
    pub due: bool,
    pub words: [u16; 64],
}

#[repr(C)]
#[derive(Clone, Copy, Debug, PartialEq, Eq)]
pub struct Select {
    pub window: u16,
    pub mask: u16,
    pub zero: u16,
    pub filter: u16,
}

#[repr(C)]
#[derive(Clone, Copy, Debug, PartialEq, Eq)]
pub struct Lines {
    pub latch: bool,
    pub requested: bool,
    pub low: u8,
}

#[repr(C)]
#[derive(Clone, Copy, Debug, PartialEq, Eq)]
pub struct Config {
    pub product: u16,
    pub resource: u16,
    pub enabled: bool,
    pub first: u16,
    pub second: u16,
    pub station: [u8; 6],
}

#[repr(C)]
#[derive(Clone, Copy, Debug, PartialEq, Eq)]
pub struct Prom {
    pub last: u8,
    pub writable: bool,
}

#[repr(C)]
#[derive(Clone, Copy, Debug, PartialEq, Eq)]
pub struct Receiver {
    pub on: bool,
    pub failed: bool,
    pub early: bool,
    pub told: bool,
    pub threshold: u16,
    pub read: u16,
    pub wire: u8,
}

#[repr(C)]
#[derive(Clone, Copy, Debug, PartialEq, Eq)]
pub struct Receive {
    pub receiver: Receiver,
    pub frames: usize,
}

#[repr(C)]
#[derive(Clone, Copy, Debug, PartialEq, Eq)]
pub struct Fifo {
    pub failed: bool,
    pub packets: usize,
    pub words: usize,
}

#[repr(C)]
#[derive(Clone, Copy, Debug, PartialEq, Eq)]
pub struct Sender {
    pub on: bool,
    pub available: bool,
    pub level: u16,
    pub start: u16,
}

#[repr(C)]
#[derive(Clone, Copy, Debug, PartialEq, Eq)]
pub struct Statuses {
    pub entries: [u8; 31],
    pub count: usize,
}

#[repr(C)]
#[derive(Clone, Copy, Debug, PartialEq, Eq)]
pub struct Outcomes {
    pub sender: Sender,
    pub statuses: Statuses,
}

#[repr(C)]
#[derive(Clone, Copy, Debug, PartialEq, Eq)]
pub struct Transmit {
    pub fifo: Fifo,
    pub outcomes: Outcomes,
}

#[repr(C)]
#[derive(Clone, Copy, Debug, PartialEq, Eq)]
pub struct Card {
    pub id: Id,
    pub select: Select,
    pub lines: Lines,
    pub config: Config,
    pub prom: Prom,
    pub receive: Receive,
    pub transmit: Transmit,
}

#[repr(C)]
#[derive(Clone, Copy, Debug, PartialEq, Eq)]
pub struct Driver {
    pub opened: bool,
    pub sent: u16,
    pub unreported: u8,
    pub error: bool,
}

#[repr(C)]
pub struct Done {
    pub card: Card,
    pub code: u8,
}

#[repr(C)]
pub struct Read {
    pub card: Card,
    pub value: u16,
    pub code: u8,
}

#[repr(C)]
pub struct Told {
    pub card: Card,
    pub n: usize,
    pub code: u8,
}

#[repr(C)]
pub struct Bit {
    pub bit: u8,
    pub code: u8,
}

#[repr(C)]
pub struct Line {
    pub line: u16,
    pub code: u8,
}

#[repr(C)]
pub struct RxStatus {
    pub word: u16,
    pub unread: i16,
    pub code: u8,
}

#[repr(C)]
pub struct Opened {
    pub card: Card,
    pub driver: Driver,
    pub code: u8,
}

#[repr(C)]
pub struct Sent {
    pub card: Card,
    pub driver: Driver,
    pub ticket: u16,
    pub code: u8,
}

#[repr(C)]
pub struct Answer {
    pub kind: u8,
    pub code: u8,
    pub ticket: u16,
    pub status: u16,
    pub n: usize,
}

#[repr(C)]
pub struct Served {
    pub card: Card,
    pub driver: Driver,
    pub answer: Answer,
    pub accesses: usize,
}

#[repr(C)]
pub struct Part {
    pub area: u8,
    pub n: usize,
}

#[repr(C)]
pub struct Image {
    pub node: [u16; 3],
    pub code: u8,
}

#[repr(C)]
#[derive(Clone, Copy)]
pub struct Bus {
    pub cards: [Id; 8],
    pub count: usize,
}

#[repr(C)]
pub struct Found {
    pub bus: Bus,
    pub addresses: [u64; 7],
    pub count: usize,
    pub accesses: usize,
    pub code: u8,
}

#[repr(C)]
pub struct Activated {
    pub bus: Bus,
    pub accesses: usize,
    pub code: u8,
}

pub type Ram = [u8; 8192];
pub type Dir = [u16; 1110];

extern "C" {
    pub fn seamtrout_card_power_on(words: &[u16; 64]) -> Card;
    pub fn seamtrout_card_read_word(ram: &Ram, dir: &Dir, c: Card, o: u16) -> Read;
    pub fn seamtrout_card_read_byte(ram: &Ram, dir: &Dir, c: Card, o: u16) -> Read;
    pub fn seamtrout_card_write_word(ram: &mut Ram, dir: &mut Dir, c: Card, o: u16, v: u16) -> Done;
    pub fn seamtrout_card_write_byte(ram: &mut Ram, dir: &mut Dir, c: Card, o: u16, v: u8) -> Done;
    pub fn seamtrout_card_wire_start(ram: &mut Ram, dir: &mut Dir, c: Card, first: &[u8; 8]) -> Done;
    pub fn seamtrout_card_wire_byte(ram: &mut Ram, dir: &mut Dir, c: Card, b: u8) -> Done;
    pub fn seamtrout_card_wire_end(ram: &mut Ram, dir: &mut Dir, c: Card, check: bool, alignment: bool) -> Done;
    pub fn seamtrout_card_sent(ram: &mut Ram, dir: &mut Dir, c: Card, out: &mut [u8; 1792]) -> Told;
    pub fn seamtrout_card_collided(ram: &mut Ram, dir: &mut Dir, c: Card) -> Done;
    pub fn seamtrout_card_seat(ram: &Ram, dir: &Dir, c: Card, i: Id) -> Done;
    pub fn seamtrout_card_id_write(ram: &Ram, dir: &Dir, c: Card, port: u16, b: u8) -> Done;
    pub fn seamtrout_card_id_bit(ram: &Ram, dir: &Dir, c: Card, port: u16) -> Bit;
    pub fn seamtrout_card_id_hear(ram: &Ram, dir: &Dir, c: Card, port: u16, bus: u8) -> Done;
    pub fn seamtrout_card_interrupt_line(ram: &Ram, dir: &Dir, c: Card) -> Line;
    pub fn seamtrout_card_rx_status(ram: &Ram, dir: &Dir, c: Card) -> RxStatus;
    pub fn seamtrout_driver_open(ram: &mut Ram, dir: &mut Dir, c: Card, d: Driver, w0: u16, w1: u16, w2: u16) -> Opened;
    pub fn seamtrout_driver_send(ram: &mut Ram, dir: &mut Dir, c: Card, d: Driver, packet: *const u8, n: usize) -> Sent;
    pub fn seamtrout_driver_service(
        ram: &mut Ram,
        dir: &mut Dir,
        c: Card,
        d: Driver,
        budget: u16,
        look: *mut u8,
        look_n: usize,
        frame: *mut u8,
        frame_n: usize,
    ) -> Served;
    pub fn seamtrout_driver_hand_up(look: *const u8, look_n: usize, frame: *const u8, frame_n: usize, n: usize) -> Part;
    pub fn seamtrout_image_checked(image: *const u8, n: usize) -> Image;
    pub fn seamtrout_bus_search(b: Bus, port: u16) -> Found;
    pub fn seamtrout_bus_activate(b: Bus, port: u16, tag: u8, base: u8) -> Activated;
    pub fn seamtrout_card_size() -> usize;
    pub fn seamtrout_driver_size() -> usize;
    pub fn seamtrout_bus_size() -> usize;
}

// The layout that the archive was compiled for.
const _: () = {
    assert!(size_of::<Id>() == 138 && offset_of!(Id, words) == 10);
    assert!(size_of::<Card>() == 264);
    assert!(offset_of!(Card, select) == 138 && offset_of!(Card, lines) == 146);
    assert!(offset_of!(Card, config) == 150 && offset_of!(Card, prom) == 166);
    assert!(offset_of!(Card, receive) == 168 && offset_of!(Card, transmit) == 192);
    assert!(offset_of!(Card, transmit.outcomes.statuses.count) == 256);
    assert!(size_of::<Driver>() == 6);
    assert!(size_of::<Done>() == 272 && size_of::<Read>() == 272 && size_of::<Told>() == 280);
    assert!(size_of::<Opened>() == 272 && size_of::<Sent>() == 280 && size_of::<Served>() == 296);
    assert!(size_of::<Line>() == 4 && size_of::<RxStatus>() == 6 && offset_of!(RxStatus, code) == 4);
    assert!(size_of::<Part>() == 16 && offset_of!(Part, n) == 8);
    assert!(size_of::<Image>() == 8 && size_of::<Bus>() == 1112);
    assert!(size_of::<Found>() == 1192 && size_of::<Activated>() == 1128);
};
