//! The safe wrapper: one card, its driver and its memory, with the paper's refusal numbers as errors.

use crate::raw::{self, Bus, Card, Dir, Driver, Id, Ram};

/// What a service answers.
#[derive(Clone, Debug, PartialEq, Eq)]
pub enum Service<'a> {
    /// The oldest unreported packet's ticket, and its status.
    Report { ticket: u16, status: u8 },
    /// A status that belongs to no packet.
    Status(u8),
    /// A good frame, in the area that it landed in.
    Frame(&'a [u8]),
    /// Nothing to do.
    Idle,
    /// Refused with this number; out of budget (6) what was finished stays.
    Refused(u8),
}

/// A card, its driver and its memory.
#[derive(Clone)]
pub struct Seamtrout {
    card: Card,
    driver: Driver,
    ram: Ram,
    dir: Dir,
}

impl Seamtrout {
    /// A card at power-on with these EEPROM words, and a driver never opened.
    pub fn power_on(words: [u16; 64]) -> Seamtrout {
        // SAFETY: the exported functions take what their Rust types say, and ask nothing more.
        let card = unsafe { raw::seamtrout_card_power_on(&words) };
        Seamtrout {
            card,
            driver: Driver { opened: false, sent: 0, unreported: 0, error: false },
            ram: [0; 8192],
            dir: [0; 1110],
        }
    }

    /// A card of any numbers: each call refuses an unsound one with 1.
    pub fn from_parts(card: Card, driver: Driver, ram: Ram, dir: Dir) -> Seamtrout {
        Seamtrout { card, driver, ram, dir }
    }

    /// The card's registers as the archive keeps them.
    pub fn card(&self) -> &Card {
        &self.card
    }

    /// The driver's state.
    pub fn driver(&self) -> &Driver {
        &self.driver
    }

    /// The card's RAM, and the directory of what is stored there.
    pub fn memory(&self) -> (&Ram, &Dir) {
        (&self.ram, &self.dir)
    }

    fn read(&mut self, r: raw::Read) -> Result<u16, u8> {
        if r.code != 0 {
            return Err(r.code);
        }
        self.card = r.card;
        Ok(r.value)
    }

    fn done(&mut self, r: raw::Done) -> Result<(), u8> {
        if r.code != 0 {
            return Err(r.code);
        }
        self.card = r.card;
        Ok(())
    }

    /// The host reads the word at an even offset.
    #[inline]
    pub fn read_word(&mut self, offset: u16) -> Result<u16, u8> {
        let r = unsafe { raw::seamtrout_card_read_word(&self.ram, &self.dir, self.card, offset) };
        self.read(r)
    }

    /// The host reads the byte at an offset.
    #[inline]
    pub fn read_byte(&mut self, offset: u16) -> Result<u8, u8> {
        let r = unsafe { raw::seamtrout_card_read_byte(&self.ram, &self.dir, self.card, offset) };
        self.read(r).map(|v| v as u8)
    }

    /// The host writes a word at an even offset.
    #[inline]
    pub fn write_word(&mut self, offset: u16, value: u16) -> Result<(), u8> {
        let r = unsafe { raw::seamtrout_card_write_word(&mut self.ram, &mut self.dir, self.card, offset, value) };
        self.done(r)
    }

    /// The host writes a byte at an offset.
    #[inline]
    pub fn write_byte(&mut self, offset: u16, value: u8) -> Result<(), u8> {
        let r = unsafe { raw::seamtrout_card_write_byte(&mut self.ram, &mut self.dir, self.card, offset, value) };
        self.done(r)
    }

    /// The wire starts a frame with its first 8 bytes.
    pub fn wire_start(&mut self, first: [u8; 8]) -> Result<(), u8> {
        let r = unsafe { raw::seamtrout_card_wire_start(&mut self.ram, &mut self.dir, self.card, &first) };
        self.done(r)
    }

    /// The wire brings the frame's next byte.
    #[inline]
    pub fn wire_byte(&mut self, b: u8) -> Result<(), u8> {
        let r = unsafe { raw::seamtrout_card_wire_byte(&mut self.ram, &mut self.dir, self.card, b) };
        self.done(r)
    }

    /// The wire ends the frame: check sequence good, alignment good.
    pub fn wire_end(&mut self, check: bool, alignment: bool) -> Result<(), u8> {
        let r = unsafe { raw::seamtrout_card_wire_end(&mut self.ram, &mut self.dir, self.card, check, alignment) };
        self.done(r)
    }

    /// The oldest packet went out; the bytes told to the wire.
    pub fn sent(&mut self) -> Result<Vec<u8>, u8> {
        let mut out = [0; 1792];
        let r = unsafe { raw::seamtrout_card_sent(&mut self.ram, &mut self.dir, self.card, &mut out) };
        if r.code != 0 {
            return Err(r.code);
        }
        self.card = r.card;
        Ok(out[..r.n].to_vec())
    }

    /// The oldest packet was lost to 16 collisions.
    pub fn collided(&mut self) -> Result<(), u8> {
        let r = unsafe { raw::seamtrout_card_collided(&mut self.ram, &mut self.dir, self.card) };
        self.done(r)
    }

    /// A byte is written to the ID port.
    pub fn id_write(&mut self, port: u16, b: u8) -> Result<(), u8> {
        let r = unsafe { raw::seamtrout_card_id_write(&self.ram, &self.dir, self.card, port, b) };
        self.done(r)
    }

    /// The bit that this card would drive if the port were read now; true if it drives none.
    pub fn id_drives(&self, port: u16) -> Result<bool, u8> {
        let r = unsafe { raw::seamtrout_card_id_bit(&self.ram, &self.dir, self.card, port) };
        if r.code != 0 {
            return Err(r.code);
        }
        Ok(r.bit != 0)
    }

    /// The port was read, and the bus carried `bus`, the and of what all its cards drive.
    pub fn id_read(&mut self, port: u16, bus: bool) -> Result<bool, u8> {
        let r = unsafe { raw::seamtrout_card_id_hear(&self.ram, &self.dir, self.card, port, bus as u8) };
        self.done(r).map(|()| bus)
    }

    /// Whether the card is active.
    pub fn active(&self) -> bool {
        self.card.id.active
    }

    /// The I/O base number.
    pub fn base(&self) -> u8 {
        (self.card.id.address % 32) as u8
    }

    /// The Interrupt Latch. It is not the line: see [`Seamtrout::interrupt_line`].
    pub fn latch(&self) -> bool {
        self.card.lines.latch
    }

    /// The interrupt line that the card drives, 0 for none.
    pub fn interrupt_line(&self) -> Result<u16, u8> {
        let r = unsafe { raw::seamtrout_card_interrupt_line(&self.ram, &self.dir, self.card) };
        if r.code != 0 {
            return Err(r.code);
        }
        Ok(r.line)
    }

    /// RX Status, window 1's register, whatever window is selected: its raw word, and the unread bytes of the
    /// oldest frame, -3 to 1,792. FFFFh and 0 from an inactive card, 8000h and 0 with no frame stored.
    pub fn rx_status(&self) -> Result<(u16, i16), u8> {
        let r = unsafe { raw::seamtrout_card_rx_status(&self.ram, &self.dir, self.card) };
        if r.code != 0 {
            return Err(r.code);
        }
        Ok((r.word, r.unread))
    }

    /// The driver's open, with the station address as EEPROM words 00h to 02h.
    pub fn open(&mut self, w: [u16; 3]) -> Result<(), u8> {
        let r = unsafe {
            raw::seamtrout_driver_open(&mut self.ram, &mut self.dir, self.card, self.driver, w[0], w[1], w[2])
        };
        if r.code != 0 {
            return Err(r.code);
        }
        self.card = r.card;
        self.driver = r.driver;
        Ok(())
    }

    /// The driver's send; the ticket that its report will have.
    pub fn send(&mut self, packet: &[u8]) -> Result<u16, u8> {
        let r = unsafe {
            raw::seamtrout_driver_send(
                &mut self.ram,
                &mut self.dir,
                self.card,
                self.driver,
                packet.as_ptr(),
                packet.len(),
            )
        };
        if r.code != 0 {
            return Err(r.code);
        }
        self.card = r.card;
        self.driver = r.driver;
        Ok(r.ticket)
    }

    /// The driver's service; the answer and the accesses used.
    pub fn service<'a>(&mut self, budget: u16, look: &'a mut [u8], frame: &'a mut [u8]) -> (Service<'a>, u32) {
        let r = unsafe {
            raw::seamtrout_driver_service(
                &mut self.ram,
                &mut self.dir,
                self.card,
                self.driver,
                budget,
                look.as_mut_ptr(),
                look.len(),
                frame.as_mut_ptr(),
                frame.len(),
            )
        };
        self.card = r.card;
        self.driver = r.driver;
        let a = r.answer;
        let answer = match a.kind {
            1 => Service::Report { ticket: a.ticket, status: a.status as u8 },
            2 => Service::Status(a.status as u8),
            3 => Service::Frame(hand_up(look, frame, a.n)),
            4 => Service::Idle,
            _ => Service::Refused(a.code),
        };
        (answer, r.accesses as u32)
    }

    fn seat(&mut self, i: Id) -> Result<(), u8> {
        let r = unsafe { raw::seamtrout_card_seat(&self.ram, &self.dir, self.card, i) };
        self.done(r)
    }

    // 1 if the card is unsound: what a seat of its own ID state answers.
    fn sound(&self) -> Result<(), u8> {
        let r = unsafe { raw::seamtrout_card_seat(&self.ram, &self.dir, self.card, self.card.id) };
        if r.code != 0 {
            return Err(r.code);
        }
        Ok(())
    }
}

/// The part of the two areas that a frame of `n` bytes was handed up in; empty if its area does not hold `n` bytes.
pub fn hand_up<'a>(look: &'a [u8], frame: &'a [u8], n: usize) -> &'a [u8] {
    let up = unsafe { raw::seamtrout_driver_hand_up(look.as_ptr(), look.len(), frame.as_ptr(), frame.len(), n) };
    let area = if up.area == 1 { look } else { frame };
    &area[..up.n]
}

// The cards' ID states as the archive takes them. Every card is tested, a ninth and later one too,
// since 1 comes before 12; at most eight have a place, and the archive refuses a higher count.
fn gather(cards: &[Seamtrout]) -> Result<Bus, u8> {
    let none = Id {
        command: false,
        port: 16,
        at: 0,
        tag: 0,
        shift: 0,
        address: 0,
        active: false,
        due: false,
        words: [0; 64],
    };
    let mut bus = Bus { cards: [none; 8], count: cards.len() };
    for card in cards {
        card.sound()?;
    }
    for (place, card) in bus.cards.iter_mut().zip(cards) {
        *place = card.card.id;
    }
    Ok(bus)
}

fn scatter(cards: &mut [Seamtrout], bus: &Bus) -> Result<(), u8> {
    for (card, id) in cards.iter_mut().zip(bus.cards) {
        card.seat(id)?;
    }
    Ok(())
}

/// The search over the cards of one ID port: the addresses found, and the accesses used.
pub fn search(cards: &mut [Seamtrout], port: u16) -> Result<(Vec<[u8; 6]>, u32), u8> {
    let bus = gather(cards)?;
    let r = unsafe { raw::seamtrout_bus_search(bus, port) };
    if r.code != 0 {
        return Err(r.code);
    }
    scatter(cards, &r.bus)?;
    let found = r.addresses[..r.count].iter().map(|a| a.to_be_bytes()[2..].try_into().unwrap()).collect();
    Ok((found, r.accesses as u32))
}

/// Activates the card with this tag at this base number; the accesses used.
pub fn activate(cards: &mut [Seamtrout], port: u16, tag: u8, base: u8) -> Result<u32, u8> {
    let bus = gather(cards)?;
    let r = unsafe { raw::seamtrout_bus_activate(bus, port, tag, base) };
    if r.code != 0 {
        return Err(r.code);
    }
    scatter(cards, &r.bus)?;
    Ok(r.accesses as u32)
}

/// Checks an EEPROM image; the node address of a sound one.
pub fn image_check(bytes: &[u8]) -> Result<[u16; 3], u8> {
    let r = unsafe { raw::seamtrout_image_checked(bytes.as_ptr(), bytes.len()) };
    if r.code != 0 {
        return Err(r.code);
    }
    Ok(r.node)
}
