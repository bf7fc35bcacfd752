//! Every figure of document 01's bench table, and the examples worked in 01 and in the manual.

use seamtrout::model::*;

const PORT: u16 = 0x110;
const OWN: [u8; 6] = [0x00, 0x60, 0x8C, 0x12, 0x34, 0x56];
const OWN_WORDS: [u16; 3] = [0x0060, 0x8C12, 0x3456];

fn words(address: [u16; 3]) -> [u16; 64] {
    let mut words = [0; 64];
    words[..3].copy_from_slice(&address);
    words[0x03] = 0x9150;
    words[0x07] = 0x6D50;
    words[0x08] = 0x0010;
    words[0x09] = 0x3F00;
    words
}

fn activated(words: [u16; 64]) -> Model {
    let mut cards = [Model::power_on(words)];
    assert_eq!(search(&mut cards, PORT).unwrap().0.len(), 1);
    assert_eq!(activate(&mut cards, PORT, 1, 31), Ok(259));
    let [card] = cards;
    assert!(card.active());
    card
}

fn opened() -> Model {
    let mut card = activated(words(OWN_WORDS));
    card.open(OWN_WORDS).unwrap();
    card
}

fn command(card: &mut Model, number: u16, argument: u16) {
    card.write_word(0x0E, number << 11 | argument).unwrap();
}

fn in_window<T>(card: &mut Model, window: u16, see: impl FnOnce(&mut Model) -> T) -> T {
    command(card, 1, window);
    let seen = see(card);
    command(card, 1, 1);
    seen
}

fn status(card: &mut Model) -> u16 {
    card.read_word(0x0E).unwrap()
}

fn frame(length: usize) -> Vec<u8> {
    let mut data: Vec<u8> = (0..length).map(|i| (i * 7 + 3) as u8).collect();
    data[..6].copy_from_slice(&OWN);
    data
}

fn begin(card: &mut Model, data: &[u8]) {
    card.wire_start(data[..8].try_into().unwrap()).unwrap();
    for &byte in &data[8..] {
        card.wire_byte(byte).unwrap();
    }
}

fn receive(card: &mut Model, length: usize, check: bool, alignment: bool) {
    begin(card, &frame(length));
    card.wire_end(check, alignment).unwrap();
}

fn rx_status(card: &mut Model) -> u16 {
    card.read_word(0x08).unwrap()
}

fn serve(card: &mut Model, budget: u16) -> (Service, u32) {
    card.service(budget, &mut [0; 256], &mut [0; 1514])
}

/// A refused call changes nothing.
fn refuses<T: std::fmt::Debug + PartialEq>(card: &mut Model, number: u8, call: impl FnOnce(&mut Model) -> Result<T, u8>) {
    let before = card.clone();
    assert_eq!(call(card), Err(number));
    assert_eq!(*card, before);
}

// The bench table.

#[test]
fn sequence_starts_and_ends() {
    assert_eq!(SEQUENCE[..8], [0xFF, 0x31, 0x62, 0xC4, 0x47, 0x8E, 0xD3, 0x69]);
    assert_eq!(SEQUENCE[254], 0x98);
    assert_eq!(SEQUENCE.len(), 255);
    assert!(!SEQUENCE.contains(&0));
}

#[test]
fn fourteen_bytes_leave_3052() {
    let mut card = opened();
    assert_eq!(card.read_word(0x0C), Ok(3072));
    assert_eq!(card.send(&[1; 14]), Ok(0));
    assert_eq!(card.read_word(0x0C), Ok(3052));
}

#[test]
fn two_long_packets_leave_32() {
    let mut card = opened();
    assert_eq!(card.send(&[1; 1514]), Ok(0));
    assert_eq!(card.send(&[2; 1514]), Ok(1));
    assert_eq!(card.read_word(0x0C), Ok(32));
    refuses(&mut card, 4, |card| card.send(&[3; 29]));
    assert_eq!(card.send(&[3; 28]), Ok(2));
    assert_eq!(card.read_word(0x0C), Ok(0));
}

#[test]
fn rx_status_of_the_table() {
    for (length, check, shown) in
        [(60, true, 0x003C), (1514, true, 0x05EA), (59, true, 0x583B), (1515, true, 0x4DEB), (60, false, 0x683C)]
    {
        let mut card = opened();
        assert_eq!(rx_status(&mut card), 0x8000);
        receive(&mut card, length, check, true);
        assert_eq!(rx_status(&mut card), shown);
    }
}

#[test]
fn sixty_one_bytes_count_below_zero() {
    let mut card = opened();
    receive(&mut card, 61, true, true);
    for _ in 0..31 {
        card.read_word(0).unwrap();
    }
    assert_eq!(rx_status(&mut card), 0x07FF);
    assert_eq!(card.read_word(2), Ok(0));
    assert_eq!(rx_status(&mut card), 0x07FD);
    assert_eq!(status(&mut card) & 2, 0);
    assert_eq!(card.read_word(0), Ok(0));
    assert_eq!(status(&mut card) & 2, 2);
    assert_eq!(rx_status(&mut card), 0x07FD);
}

// RX Status with the unread bytes as a signed number (request 3).

fn read_words(card: &mut Model, count: usize) {
    for _ in 0..count {
        card.read_word(0).unwrap();
    }
}

#[test]
fn sixty_one_bytes_unread() {
    let mut card = opened();
    receive(&mut card, 61, true, true);
    assert_eq!(card.rx_status(), Ok((61, 61)));
    read_words(&mut card, 30);
    assert_eq!(card.rx_status(), Ok((1, 1)));
    read_words(&mut card, 1);
    assert_eq!(card.rx_status(), Ok((2047, -1)));
    read_words(&mut card, 1);
    assert_eq!(card.rx_status(), Ok((2045, -3)));
    assert_eq!(status(&mut card), 0x2010);
    assert_eq!(card.read_word(0), Ok(0)); // the 33rd word: the failure
    assert_eq!(status(&mut card), 0x2012);
    assert_eq!(card.rx_status(), Ok((2045, -3)));
    command(&mut card, 5, 0);
    assert_eq!(card.rx_status(), Ok((0x8000, 0)));
}

/// A word may be read while 2 bytes are left, pad included: the count ends at 0, -3, -2 or -1.
#[test]
fn unread_down_to_the_pad() {
    for (length, least) in [(60, 0), (61, -3), (62, -2), (63, -1), (64, 0), (1513, -3), (1514, -2)] {
        let mut card = opened();
        receive(&mut card, length, true, true);
        let mut unread = length as i16;
        while unread >= least {
            assert_eq!(card.rx_status(), Ok((unread as u16 & 0x7FF, unread)));
            assert_eq!(status(&mut card), 0x2010, "{length} bytes, {unread} unread");
            read_words(&mut card, 1);
            unread -= 2;
        }
        assert_eq!(status(&mut card), 0x2012);
        assert_eq!(card.rx_status(), Ok((least as u16 & 0x7FF, least)));
    }
}

#[test]
fn unread_of_no_frame() {
    let mut card = Model::power_on(words(OWN_WORDS));
    assert_eq!(card.rx_status(), Ok((0xFFFF, 0)));
    card = activated(words(OWN_WORDS));
    assert_eq!(card.rx_status(), Ok((0x8000, 0)));
    card.open(OWN_WORDS).unwrap();
    assert_eq!(card.rx_status(), Ok((0x8000, 0)));
    read_words(&mut card, 1); // a failure, and nothing moves
    assert_eq!(card.rx_status(), Ok((0x8000, 0)));
    command(&mut card, 0, 0);
    assert_eq!(card.rx_status(), Ok((0xFFFF, 0)));
}

/// Pad counts once the frame is complete, and not before.
#[test]
fn unread_of_a_frame_that_is_coming() {
    let mut card = opened();
    begin(&mut card, &frame(61));
    assert_eq!(card.rx_status(), Ok((0x803D, 61)));
    read_words(&mut card, 30);
    assert_eq!(card.rx_status(), Ok((0x8001, 1)));
    let mut failed = card.clone();
    read_words(&mut failed, 1);
    assert_eq!((status(&mut failed), failed.rx_status()), (0x2002, Ok((0x8001, 1))));
    failed.wire_byte(7).unwrap(); // the wire is stored as before
    assert_eq!(failed.rx_status(), Ok((0x8002, 2)));
    card.wire_end(false, true).unwrap();
    assert_eq!(card.rx_status(), Ok((0x6801, 1)));
    read_words(&mut card, 2);
    assert_eq!((status(&mut card), card.rx_status()), (0x2010, Ok((0x6FFD, -3))));
}

#[test]
fn unread_up_to_1792() {
    let mut card = opened();
    begin(&mut card, &frame(1800));
    assert_eq!(card.rx_status(), Ok((0x8700, 1792)));
    card.wire_end(true, true).unwrap();
    assert_eq!(card.rx_status(), Ok((0x4F00, 1792)));
    read_words(&mut card, 896);
    assert_eq!((status(&mut card), card.rx_status()), (0x2010, Ok((0x4800, 0))));
}

/// The answer is window 1's register in every window; it is of the oldest frame, and changes nothing.
#[test]
fn unread_in_every_window() {
    let mut card = opened();
    receive(&mut card, 61, true, true);
    receive(&mut card, 100, false, true);
    read_words(&mut card, 31);
    for window in 0..8 {
        command(&mut card, 1, window);
        let before = card.clone();
        assert_eq!(card.rx_status(), Ok((0x07FF, -1)));
        assert_eq!(card, before);
    }
    command(&mut card, 8, 0);
    assert_eq!(card.rx_status(), Ok((0x6864, 100)));
    command(&mut card, 1, 1);
    assert_eq!(rx_status(&mut card), 0x6864);
}

/// A good frame's count outside 60 to 1,514 is dropped, below 0 too; within, what is unread is handed up.
#[test]
fn the_count_is_judged_signed() {
    for (length, words, unread) in
        [(60, 0, 60), (61, 1, 59), (62, 1, 60), (62, 2, 58), (61, 31, -1), (62, 32, -2), (61, 32, -3), (1514, 0, 1514)]
    {
        let mut card = opened();
        receive(&mut card, length, true, true);
        read_words(&mut card, words);
        assert_eq!(card.rx_status().unwrap().1, unread);
        let left: Vec<u8> = frame(length).into_iter().skip(2 * words).collect();
        let cost = 3 + left.len().div_ceil(2) as u32;
        let answer = if unread >= 60 { (Service::Frame(left), cost) } else { (Service::Idle, 5) };
        assert_eq!(serve(&mut card, 2000), answer, "{unread} unread");
        assert_eq!(card.rx_status(), Ok((0x8000, 0)));
    }
}

#[test]
fn service_costs() {
    let mut card = opened();
    receive(&mut card, 60, true, true);
    assert_eq!(serve(&mut card, 33), (Service::Frame(frame(60)), 33));
    receive(&mut card, 1514, true, true);
    assert_eq!(serve(&mut card, 760), (Service::Frame(frame(1514)), 760));
    receive(&mut card, 60, false, true);
    assert_eq!(serve(&mut card, 5), (Service::Idle, 5));
}

#[test]
fn search_costs() {
    for (count, cost) in [(0, 566), (2, 1184), (7, 2421)] {
        let mut cards: Vec<Model> = (0..count).map(|i| Model::power_on(words([0x60, 0x8C00, 9 - i]))).collect();
        let (found, accesses) = search(&mut cards, PORT).unwrap();
        assert_eq!(accesses, cost);
        let wanted: Vec<[u8; 6]> =
            (0..count).map(|i| [0, 0x60, 0x8C, 0, 0, (10 - count + i) as u8]).collect();
        assert_eq!(found, wanted);
    }
}

// Refusals.

#[test]
fn offsets_and_ports() {
    let mut card = Model::power_on([0; 64]);
    refuses(&mut card, 12, |card| card.read_word(0x10));
    refuses(&mut card, 12, |card| card.read_word(0x0D));
    refuses(&mut card, 12, |card| card.read_byte(0x10));
    refuses(&mut card, 12, |card| card.write_word(1, 0));
    refuses(&mut card, 12, |card| card.write_byte(0x1000, 0));
    for port in [0x10F, 0x200, 0x101, 0x0F0, 0x1100] {
        refuses(&mut card, 12, |card| card.id_write(port, 0));
        refuses(&mut card, 12, |card| card.id_read(port, true));
        refuses(&mut card, 12, |card| card.id_drives(port));
        assert_eq!(search(std::slice::from_mut(&mut card), port), Err(12));
    }
    assert_eq!(card.read_byte(0), Ok(0xFF));
    let mut card = opened();
    for offset in 0..4 {
        refuses(&mut card, 12, |card| card.read_byte(offset));
        refuses(&mut card, 12, |card| card.write_byte(offset, 0));
    }
    assert_eq!(card.read_byte(4), Ok(0));
    let mut nine = vec![card; 9];
    assert_eq!(search(&mut nine, PORT), Err(12));
    assert_eq!(activate(&mut nine, PORT, 1, 0), Err(12));
    assert_eq!(activate(&mut nine[..8], PORT, 0, 0), Err(12));
    assert_eq!(activate(&mut nine[..8], PORT, 8, 0), Err(12));
    assert_eq!(activate(&mut nine[..8], PORT, 1, 32), Err(12));
    assert_eq!(activate(&mut nine[..8], PORT, 1, 31), Ok(259));
}

#[test]
fn order_of_send_refusals() {
    let mut card = activated(words(OWN_WORDS));
    refuses(&mut card, 13, |card| card.send(&[]));
    assert_eq!(card.service(0, &mut [], &mut []), (Service::Refused(13), 0));
    card.open(OWN_WORDS).unwrap();
    assert_eq!(card.service(0, &mut [0; 255], &mut [0; 1514]), (Service::Refused(7), 0));
    assert_eq!(card.service(0, &mut [0; 256], &mut [0; 1513]), (Service::Refused(7), 0));
    for _ in 0..16 {
        card.send(&[5; 14]).unwrap();
    }
    refuses(&mut card, 2, |card| card.send(&[5; 13]));
    refuses(&mut card, 2, |card| card.send(&[5; 1515]));
    command(&mut card, 1, 3);
    refuses(&mut card, 3, |card| card.send(&[5; 14]));
    assert_eq!(serve(&mut card, 0), (Service::Refused(6), 0));
    assert_eq!(serve(&mut card, 1), (Service::Refused(5), 0));
    command(&mut card, 1, 1);
    assert_eq!(serve(&mut card, 1), (Service::Refused(6), 1));
    card.sent().unwrap();
    assert_eq!(serve(&mut card, 9), (Service::Report { ticket: 0, status: 0xC0 }, 4));
    command(&mut card, 1, 3);
    refuses(&mut card, 5, |card| card.send(&[5; 1514]));
}

#[test]
fn wire_out_of_turn() {
    let mut card = Model::power_on([0; 64]);
    refuses(&mut card, 11, |card| card.wire_byte(0));
    refuses(&mut card, 11, |card| card.wire_end(true, true));
    refuses(&mut card, 11, |card| card.sent());
    refuses(&mut card, 11, |card| card.collided());
    card.wire_start([0; 8]).unwrap();
    refuses(&mut card, 11, |card| card.wire_start([0; 8]));
    card.wire_byte(0).unwrap();
    card.wire_end(false, false).unwrap();
    let mut card = opened();
    refuses(&mut card, 11, |card| card.sent());
    card.send(&[1; 14]).unwrap();
    command(&mut card, 10, 0);
    refuses(&mut card, 11, |card| card.collided());
    command(&mut card, 9, 0);
    card.write_word(0, 5).unwrap();
    refuses(&mut card, 11, |card| card.sent());
}

// Registers.

#[test]
fn window_zero() {
    let mut image = words(OWN_WORDS);
    image[0x08] = 0xA5F3;
    let mut cards = [Model::power_on(image)];
    search(&mut cards, PORT).unwrap();
    activate(&mut cards, PORT, 1, 5).unwrap();
    let [mut card] = cards;
    assert_eq!(card.base(), 5);
    let seen: Vec<u16> = (0..8).map(|i| card.read_word(2 * i).unwrap()).collect();
    // A tagged card still loads the word that a read command names; it does not shift it out.
    assert_eq!(seen, [0x6D50, 0x9150, 0x4D00, 0xA5E5, 0x3F00, 0x0100, 0x3456, 0]);
    card.write_byte(5, 0xFF).unwrap();
    card.write_byte(4, 0xFB).unwrap();
    assert_eq!(card.read_word(4), Ok(0x4D01));
    command(&mut card, 9, 0);
    command(&mut card, 15, 0xFF);
    command(&mut card, 12, 0);
    command(&mut card, 0, 0);
    command(&mut card, 1, 0x0D);
    assert_eq!(status(&mut card), 0xA000);
    assert_eq!(card.read_word(0x0C), Ok(0));
    command(&mut card, 1, 0);
    card.write_word(4, 4).unwrap();
    assert!(!card.active());
    assert_eq!(card.read_word(4), Ok(0xFFFF));
    assert_eq!(card.base(), 0x13);
}

#[test]
fn the_manual_programs_a_word() {
    let mut card = activated(words(OWN_WORDS));
    let prom = |card: &mut Model, command: u16| card.write_word(0x0A, command).unwrap();
    prom(&mut card, 0xC8);
    prom(&mut card, 0x88);
    assert_eq!(card.read_word(0x0C), Ok(0x0010));
    for (command, data, reads) in [(0xC8, 0, 0xFFFF), (0x48, 0x1234, 0x1234), (0x48, 0xFF0F, 0x1204)] {
        prom(&mut card, 0x30);
        card.write_word(0x0C, data).unwrap();
        prom(&mut card, command);
        prom(&mut card, 0x88);
        assert_eq!(card.read_word(0x0C), Ok(reads));
    }
    card.write_word(0x0C, 0).unwrap();
    card.write_byte(0x0B, 0x48).unwrap();
    prom(&mut card, 0x48);
    prom(&mut card, 0x30);
    prom(&mut card, 0x00);
    prom(&mut card, 0x10);
    prom(&mut card, 0x88);
    assert_eq!(card.read_word(0x0C), Ok(0x1204));
    assert_eq!(card.read_word(0x0A), Ok(0x0188));
    assert_eq!(card.read_word(0x06), Ok(0x0010));
    card.write_word(4, 4).unwrap();
    assert_eq!(card.base(), 4);
}

#[test]
fn masks_and_latch() {
    let mut card = opened();
    command(&mut card, 12, 0);
    assert_eq!(status(&mut card), 0x2040);
    command(&mut card, 15, 0xBF);
    command(&mut card, 14, 0x7FF);
    assert_eq!(status(&mut card), 0x2000);
    assert!(!card.latch());
    command(&mut card, 15, 0xFF);
    assert_eq!(status(&mut card), 0x2041);
    command(&mut card, 13, 1);
    assert!(card.latch());
    command(&mut card, 14, 0);
    assert_eq!(status(&mut card), 0x2041);
    command(&mut card, 13, 1);
    assert_eq!(status(&mut card), 0x2040);
    command(&mut card, 14, 0x40);
    assert_eq!(status(&mut card), 0x2041);
    command(&mut card, 15, 0);
    assert_eq!(status(&mut card), 0x2001);
    command(&mut card, 15, 0xFF);
    command(&mut card, 13, 0x41);
    assert_eq!(status(&mut card), 0x2000);
    command(&mut card, 14, 0xFF);
    assert_eq!(in_window(&mut card, 5, |card| [0x0A, 0x0C, 8].map(|o| card.read_word(o).unwrap())), [0xFE, 0xFE, 5]);
}

#[test]
fn interrupt_line() {
    let mut card = opened();
    command(&mut card, 14, 0x40);
    command(&mut card, 12, 0);
    assert!(card.latch());
    assert_eq!(card.interrupt_line(), Ok(0)); // ENA is not set
    in_window(&mut card, 0, |card| {
        card.write_word(0x04, 1).unwrap();
        assert_eq!(card.interrupt_line(), Ok(0)); // window 0
    });
    assert_eq!(card.interrupt_line(), Ok(3)); // word 09h is 3F00h
    let lines: Vec<u16> = (0..16)
        .map(|irq| {
            in_window(&mut card, 0, |card| card.write_word(0x08, irq << 12 | 0x0F00)).unwrap();
            card.interrupt_line().unwrap()
        })
        .collect();
    assert_eq!(lines, [0, 0, 0, 3, 0, 5, 0, 7, 0, 9, 10, 11, 12, 0, 0, 15]);
    command(&mut card, 13, 0x41);
    assert_eq!(card.interrupt_line(), Ok(0)); // the latch fell
}

#[test]
fn commands_by_bytes() {
    let mut card = opened();
    card.write_byte(0x0E, 5).unwrap();
    assert_eq!(status(&mut card) >> 13, 1);
    card.write_word(0x0E, 6 << 11).unwrap();
    card.write_byte(0x0F, 8).unwrap();
    assert_eq!(status(&mut card) >> 13, 5);
    card.write_byte(0x0F, 8).unwrap();
    assert_eq!(status(&mut card) >> 13, 0);
    assert_eq!(card.read_byte(0x0F), Ok(0));
}

#[test]
fn global_reset_is_power_on() {
    let mut card = opened();
    begin(&mut card, &frame(20));
    card.send(&[1; 20]).unwrap();
    command(&mut card, 17, 9);
    command(&mut card, 14, 0xFF);
    assert!(card.latch());
    command(&mut card, 0, 0x7FF);
    assert!(!card.active() && !card.latch());
    refuses(&mut card, 11, |card| card.wire_start([0; 8]));
    refuses(&mut card, 5, |card| card.send(&[1; 14]));
    assert_eq!(serve(&mut card, 9), (Service::Refused(5), 0));
    card.wire_end(true, true).unwrap();
    let mut cards = [card];
    search(&mut cards, PORT).unwrap();
    activate(&mut cards, PORT, 1, 31).unwrap();
    let [mut card] = cards;
    assert_eq!(status(&mut card), 0);
    let thresholds = in_window(&mut card, 5, |card| [0, 2, 4, 6, 8, 10, 12].map(|o| card.read_word(o).unwrap()));
    assert_eq!(thresholds, [2044, 2044, 0, 2044, 0, 0, 0]);
    assert_eq!(in_window(&mut card, 2, |card| card.read_word(0)), Ok(0));
    assert_eq!(rx_status(&mut card), 0x8000);
    assert_eq!(card.read_word(0x0C), Ok(3072));
}

#[test]
fn the_manual_splits_the_ram() {
    for (split, tx, rx) in [(0, 3072, 5120), (1, 2048, 6144), (2, 4096, 4096), (3, 3072, 5120)] {
        let mut image = words(OWN_WORDS);
        image[0x12] = 0xFFFF;
        image[0x13] = 0xFFFC | split;
        let mut card = activated(image);
        let seen = in_window(&mut card, 3, |card| [0, 2, 4, 0xA, 0xC].map(|o| card.read_word(o).unwrap()));
        assert_eq!(seen, [0xFFF7, 0xFFFC | split, 0, rx, tx]);
        card.write_word(0, 60).unwrap();
        assert_eq!(card.read_word(0x0C), Ok(tx - 4));
        let seen = in_window(&mut card, 3, |card| {
            card.write_word(2, !split & 7).unwrap();
            [2, 0xA, 0xC].map(|o| card.read_word(o).unwrap())
        });
        assert_eq!(seen, [4 | split, rx, tx - 2]);
        command(&mut card, 11, 0);
        let seen = in_window(&mut card, 3, |card| {
            card.write_byte(2, 1).unwrap();
            card.write_byte(3, 0x80).unwrap();
            [2, 0xA, 0xC].map(|o| card.read_word(o).unwrap())
        });
        assert_eq!(seen, [0x8001, 6144, 2048]);
    }
}

// Receiving.

#[test]
fn first_code_that_holds_wins() {
    for (length, check, alignment, bits) in [
        (59, false, false, 0x5800),
        (60, false, false, 0x6000),
        (60, true, false, 0x6000),
        (1515, false, false, 0x4800),
        (1792, true, true, 0x4800),
        (1800, true, true, 0x4800),
    ] {
        let mut card = opened();
        receive(&mut card, length, check, alignment);
        assert_eq!(rx_status(&mut card), bits | length.min(1792) as u16);
    }
}

#[test]
fn overrun_and_room() {
    let mut card = opened();
    let free = |card: &mut Model| in_window(card, 3, |card| card.read_word(0x0A).unwrap());
    receive(&mut card, 1514, true, true);
    receive(&mut card, 1514, true, true);
    receive(&mut card, 1514, true, true);
    assert_eq!(free(&mut card), 5120 - 3 * 1516);
    receive(&mut card, 561, true, true);
    assert_eq!(free(&mut card), 8);
    begin(&mut card, &frame(8));
    assert_eq!(free(&mut card), 0);
    card.wire_byte(1).unwrap();
    for _ in 0..4 {
        command(&mut card, 8, 0);
    }
    assert_eq!(rx_status(&mut card), 0x8008);
    card.wire_byte(2).unwrap();
    card.wire_end(false, false).unwrap();
    assert_eq!(rx_status(&mut card), 0x4008);
    assert_eq!(free(&mut card), 5112);
    assert_eq!(serve(&mut card, 9), (Service::Idle, 5));
    assert_eq!(free(&mut card), 5120);
}

#[test]
fn eight_bytes_that_do_not_fit() {
    let mut card = opened();
    for length in [1512, 1512, 1512, 580] {
        receive(&mut card, length, true, true);
    }
    assert_eq!(in_window(&mut card, 3, |card| card.read_word(0x0A)), Ok(4));
    begin(&mut card, &frame(60));
    for _ in 0..4 {
        command(&mut card, 8, 0);
    }
    card.wire_byte(0).unwrap();
    card.wire_end(true, true).unwrap();
    assert_eq!(rx_status(&mut card), 0x8000);
}

#[test]
fn receive_failure_stands_until_rx_reset() {
    let mut card = opened();
    begin(&mut card, &frame(9));
    for at in 0..4 {
        assert_eq!(card.read_word(0).unwrap(), u16::from_le_bytes(frame(9)[2 * at..2 * at + 2].try_into().unwrap()));
    }
    assert_eq!(rx_status(&mut card), 0x8001);
    assert_eq!(card.read_word(0), Ok(0));
    assert_eq!(status(&mut card), 0x2002);
    card.wire_byte(7).unwrap();
    assert_eq!(rx_status(&mut card), 0x8002);
    assert_eq!(card.read_word(0), Ok(0));
    command(&mut card, 8, 0);
    command(&mut card, 11, 0);
    assert_eq!(rx_status(&mut card), 0x8002);
    refuses(&mut card, 5, |card| card.send(&[1; 14]));
    command(&mut card, 5, 0x7FF);
    assert_eq!(status(&mut card), 0x2000);
    card.wire_byte(7).unwrap();
    card.wire_end(true, true).unwrap();
    receive(&mut card, 60, true, true);
    assert_eq!(rx_status(&mut card), 0x8000);
    assert_eq!(in_window(&mut card, 5, |card| card.read_word(8)), Ok(0));
    card.read_word(2).unwrap();
    assert_eq!(status(&mut card), 0x2002);
}

#[test]
fn discard_of_a_frame_that_is_coming() {
    let mut card = opened();
    begin(&mut card, &frame(40));
    command(&mut card, 8, 0);
    command(&mut card, 8, 0);
    card.wire_byte(1).unwrap();
    card.wire_end(true, true).unwrap();
    assert_eq!(rx_status(&mut card), 0x8000);
    begin(&mut card, &frame(60));
    command(&mut card, 3, 0);
    card.wire_end(true, true).unwrap();
    assert_eq!(rx_status(&mut card), 60);
    command(&mut card, 8, 0);
    begin(&mut card, &frame(60));
    command(&mut card, 4, 0);
    card.wire_end(true, true).unwrap();
    assert_eq!(rx_status(&mut card), 0x8000);
}

#[test]
fn rx_early_once_per_frame() {
    let mut card = opened();
    command(&mut card, 17, 0);
    assert_eq!(status(&mut card), 0x2000);
    begin(&mut card, &frame(8));
    assert_eq!(status(&mut card), 0x2020);
    command(&mut card, 13, 0x20);
    command(&mut card, 17, 9);
    card.wire_byte(0).unwrap();
    assert_eq!(status(&mut card), 0x2000);
    card.wire_end(true, true).unwrap();
    begin(&mut card, &frame(20));
    assert_eq!(status(&mut card), 0x2010);
    command(&mut card, 17, 20);
    command(&mut card, 8, 0);
    assert_eq!(status(&mut card), 0x2020);
    card.wire_byte(0).unwrap();
    card.wire_end(true, true).unwrap();
    assert_eq!(status(&mut card), 0x2010);
    command(&mut card, 8, 0);
    begin(&mut card, &frame(19));
    assert_eq!(status(&mut card), 0x2000);
    card.wire_byte(0).unwrap();
    assert_eq!(status(&mut card), 0x2020);
    command(&mut card, 8, 0);
    assert_eq!(status(&mut card), 0x2000);
}

/// The threshold is at least 8 (request 2): it reads back so, and RX Early comes with the start.
#[test]
fn rx_early_at_least_8() {
    for (argument, stored, at_the_start) in [(0, 8, true), (4, 8, true), (7, 8, true), (8, 8, true), (9, 9, false), (2047, 2047, false)] {
        let mut card = opened();
        command(&mut card, 17, argument);
        assert_eq!(in_window(&mut card, 5, |card| card.read_word(6)), Ok(stored));
        assert_eq!(status(&mut card), 0x2000);
        begin(&mut card, &frame(8));
        assert_eq!(status(&mut card), if at_the_start { 0x2020 } else { 0x2000 });
        card.wire_byte(0).unwrap();
        assert_eq!(status(&mut card), if argument <= 9 { 0x2020 } else { 0x2000 });
    }
}

#[test]
fn filter_bits() {
    let own = OWN;
    let other = [2, 2, 3, 4, 5, 6];
    let group = [1, 2, 3, 4, 5, 6];
    let broadcast = [0xFF; 6];
    for filter in 0..16 {
        for (address, bits) in [(own, 9), (other, 8), (group, 10), (broadcast, 14)] {
            let mut card = opened();
            command(&mut card, 16, 0x7F0 | filter);
            let mut data = frame(60);
            data[..6].copy_from_slice(&address);
            begin(&mut card, &data);
            let seen = if filter & bits != 0 { 0x803C } else { 0x8000 };
            assert_eq!(rx_status(&mut card), seen, "filter {filter} address {address:?}");
        }
    }
}

// Transmitting.

#[test]
fn the_manual_pads_fourteen_to_sixty() {
    let mut card = opened();
    card.send(&[9; 14]).unwrap();
    let mut told = vec![9; 14];
    told.resize(60, 0);
    assert_eq!(card.sent(), Ok(told));
    assert_eq!(card.read_word(0x0C), Ok(3072));
    for word in [0x2006, 0xFFFF, 0x0201, 0x0403, 0x0605, 0x0807] {
        card.write_word(2, word).unwrap();
    }
    assert_eq!(card.sent(), Ok(vec![1, 2, 3, 4, 5, 6]));
    assert_eq!(card.read_word(0x0A), Ok(0xC000));
    card.write_byte(0x0A, 0).unwrap();
    assert_eq!(card.read_byte(0x0B), Ok(0xC0));
    card.write_word(0x0A, 0).unwrap();
    assert_eq!(card.read_word(0x0A), Ok(0));
    card.write_word(0x0A, 0).unwrap();
    assert_eq!(status(&mut card), 0x2000);
}

#[test]
fn transmit_failures() {
    for length in [5u16, 1793, 0, 0x7FF] {
        let mut card = opened();
        card.write_word(0, length).unwrap();
        assert_eq!(status(&mut card), 0x2002);
        card.write_word(0, 60).unwrap();
        assert_eq!(card.read_word(0x0C), Ok(3072));
        command(&mut card, 5, 0);
        assert_eq!(status(&mut card), 0x2002);
        command(&mut card, 11, 0);
        assert_eq!(status(&mut card), 0x2000);
        refuses(&mut card, 11, |card| card.sent());
    }
    let mut card = opened();
    card.send(&[1; 1514]).unwrap();
    card.send(&[2; 1514]).unwrap();
    card.write_word(0, 60).unwrap();
    assert_eq!(card.read_word(0x0C), Ok(28));
    for _ in 0..15 {
        card.write_word(0, 0).unwrap();
    }
    assert_eq!((card.read_word(0x0C), status(&mut card)), (Ok(0), 0x2000));
    card.write_word(0, 0).unwrap();
    assert_eq!(status(&mut card), 0x2002);
    refuses(&mut card, 11, |card| card.sent());
}

#[test]
fn stack_of_thirty_one() {
    let mut card = opened();
    let put = |card: &mut Model| {
        for word in [0x8006, 0, 1, 2, 3, 4] {
            card.write_word(0, word).unwrap();
        }
    };
    for _ in 0..32 {
        put(&mut card);
    }
    for _ in 0..31 {
        card.sent().unwrap();
    }
    refuses(&mut card, 11, |card| card.sent());
    command(&mut card, 9, 0);
    refuses(&mut card, 11, |card| card.sent());
    for _ in 0..29 {
        assert_eq!(serve(&mut card, 9), (Service::Status(0xC0), 4));
    }
    assert_eq!(serve(&mut card, 9), (Service::Status(0xC0), 4));
    refuses(&mut card, 11, |card| card.sent());
    assert_eq!(serve(&mut card, 9), (Service::Status(0xC4), 5));
    card.sent().unwrap();
}

#[test]
fn collisions_stop_the_transmitter() {
    let mut card = opened();
    for _ in 0..3 {
        card.send(&[1; 60]).unwrap();
    }
    card.sent().unwrap();
    card.collided().unwrap();
    refuses(&mut card, 11, |card| card.sent());
    assert_eq!(serve(&mut card, 4), (Service::Refused(6), 1));
    assert_eq!(serve(&mut card, 5), (Service::Report { ticket: 0, status: 0xC0 }, 4));
    assert_eq!(serve(&mut card, 5), (Service::Report { ticket: 1, status: 0xC8 }, 5));
    card.collided().unwrap();
    command(&mut card, 9, 0);
    for word in [6, 0, 0, 0, 0, 0] {
        card.write_word(0, word).unwrap();
    }
    card.collided().unwrap();
    assert_eq!(serve(&mut card, 5), (Service::Report { ticket: 2, status: 0xC8 }, 4));
    assert_eq!(serve(&mut card, 5), (Service::Status(0x88), 5));
    assert_eq!(serve(&mut card, 5), (Service::Idle, 2));
}

#[test]
fn tx_available() {
    let mut card = opened();
    command(&mut card, 18, 1795);
    assert_eq!(status(&mut card), 0x2008);
    assert_eq!(in_window(&mut card, 5, |card| card.read_word(2)), Ok(1792));
    command(&mut card, 11, 0);
    assert_eq!(status(&mut card), 0x2008);
    command(&mut card, 13, 8);
    assert_eq!(status(&mut card), 0x2000);
    card.send(&[1; 1514]).unwrap();
    command(&mut card, 18, 1552);
    assert_eq!(status(&mut card), 0x2000);
    command(&mut card, 13, 8);
    assert_eq!(in_window(&mut card, 5, |card| card.read_word(2)), Ok(1552));
    command(&mut card, 9, 0);
    card.sent().unwrap();
    assert_eq!(status(&mut card), 0x200C);
    command(&mut card, 13, 8);
    assert_eq!(in_window(&mut card, 5, |card| card.read_word(2)), Ok(2044));
    command(&mut card, 18, 1796);
    assert_eq!(status(&mut card), 0x2004);
}

// The driver.

#[test]
fn open_sets_the_card_to_work() {
    let mut card = opened();
    assert_eq!(status(&mut card), 0x2000);
    let address = in_window(&mut card, 2, |card| [0, 1, 2, 3, 4, 5].map(|o| card.read_byte(o).unwrap()));
    assert_eq!(address, OWN);
    card.send(&[1; 60]).unwrap();
    card.open(OWN_WORDS).unwrap();
    assert_eq!(card.send(&[1; 60]), Ok(1));
    card.sent().unwrap();
    assert_eq!(serve(&mut card, 5), (Service::Report { ticket: 0, status: 0xC0 }, 4));
}

#[test]
fn frames_land_in_their_area() {
    for length in [60usize, 256, 257, 1513] {
        let mut card = opened();
        receive(&mut card, length, true, true);
        let mut look = [0xAA; 300];
        let mut area = [0xBB; 1600];
        let (answer, used) = card.service(9999, &mut look, &mut area);
        assert_eq!(answer, Service::Frame(frame(length)));
        assert_eq!(used as usize, 3 + length.div_ceil(2));
        let (held, other): (&[u8], &[u8]) = if length <= 256 { (&look, &area) } else { (&area, &look) };
        assert_eq!(held[..length], frame(length));
        assert!(held[length..].iter().all(|b| *b == held[held.len() - 1]));
        assert!(other.iter().all(|b| *b == other[0]));
    }
}

#[test]
fn what_lacks_its_accesses_is_not_begun() {
    let mut card = opened();
    receive(&mut card, 60, false, true);
    receive(&mut card, 60, true, true);
    let full = card.clone();
    for (budget, left) in [(1, 0x683C), (2, 0x683C), (3, 0x003C), (4, 0x003C), (5, 0x003C), (35, 0x003C)] {
        card = full.clone();
        assert_eq!(serve(&mut card, budget), (Service::Refused(6), u32::from(budget.min(5))));
        assert_eq!(rx_status(&mut card), left);
    }
    card = full.clone();
    assert_eq!(serve(&mut card, 36), (Service::Frame(frame(60)), 36));
    assert_eq!(serve(&mut card, 1), (Service::Refused(6), 1));
    begin(&mut card, &frame(600));
    assert_eq!(serve(&mut card, 99), (Service::Idle, 2));
}

#[test]
fn tickets_count_modulo_65536() {
    let mut card = opened();
    for n in 0..65_540u32 {
        assert_eq!(card.send(&[1; 14]), Ok(n as u16));
        card.sent().unwrap();
        assert_eq!(serve(&mut card, 5), (Service::Report { ticket: n as u16, status: 0xC0 }, 4));
    }
}

// The ID port.

fn wake(card: &mut Model, port: u16, zeros: usize) {
    for _ in 0..zeros {
        card.id_write(port, 0).unwrap();
    }
    for byte in SEQUENCE {
        card.id_write(port, byte).unwrap();
    }
}

fn in_command(card: &Model, port: u16) -> bool {
    let mut card = card.clone();
    card.id_write(port, 0xFF).unwrap();
    card.active()
}

#[test]
fn one_zero_in_place_of_two() {
    let mut card = Model::power_on(words(OWN_WORDS));
    wake(&mut card, PORT, 1);
    assert!(in_command(&card, PORT));
    let mut again = card.clone();
    wake(&mut again, PORT, 1);
    assert!(!in_command(&again, PORT));
    wake(&mut card, PORT, 2);
    assert!(in_command(&card, PORT));
    assert!(!in_command(&card, 0x120));
    wake(&mut card, 0x120, 2);
    assert!(in_command(&card, PORT));
}

#[test]
fn a_wrong_byte_is_not_counted() {
    let mut card = Model::power_on(words(OWN_WORDS));
    for byte in [0, 0xFF, 0x31, 0xFF] {
        card.id_write(PORT, byte).unwrap();
    }
    for byte in &SEQUENCE[1..] {
        card.id_write(PORT, *byte).unwrap();
    }
    assert!(!in_command(&card, PORT));
    card.id_write(PORT, 1).unwrap();
    for byte in SEQUENCE {
        card.id_write(0x120, 0x77).unwrap();
        card.id_write(PORT, byte).unwrap();
    }
    assert!(in_command(&card, PORT));
}

#[test]
fn contention_and_tags() {
    let mut cards = [[1, 2, 3], [1, 2, 2], [0xFFFF, 0xFFFF, 0xFFFF]].map(|a| Model::power_on(words(a)));
    let (found, accesses) = search(&mut cards, PORT).unwrap();
    assert_eq!(found, [[0, 1, 0, 2, 0, 2], [0, 1, 0, 2, 0, 3]]);
    assert_eq!(accesses, 1184);
    activate(&mut cards, PORT, 2, 7).unwrap();
    assert_eq!(cards.each_ref().map(Model::active), [true, false, false]);
    assert_eq!(cards[0].base(), 7);
    assert_eq!(cards[0].read_word(0x0A), Ok(0x0200));
    wake(&mut cards[0], PORT, 2);
    cards[0].id_write(PORT, 0xD5).unwrap();
    cards[0].id_write(PORT, 0x80).unwrap();
    assert_eq!(cards[0].id_drives(PORT), Ok(true));
    assert_eq!(cards[0].read_word(0x0A), Ok(0x0200));
    cards[0].id_read(PORT, true).unwrap();
    assert_eq!(cards[0].read_word(0x0C), Ok(1));
    cards[0].id_write(PORT, 0xD0).unwrap();
    assert_eq!(cards[0].id_drives(PORT), Ok(false));
    assert_eq!(cards[0].id_drives(0x120), Ok(true));
    cards[0].id_read(PORT, false).unwrap();
    assert_eq!(cards[0].read_word(0x0C), Ok(2));
    cards[0].id_write(PORT, 0xC9).unwrap();
    assert!(!cards[0].active());
    assert_eq!(cards[0].base(), 0x10);
}

#[test]
fn eight_cards_leave_one_unfound() {
    let mut cards: Vec<Model> = (0..8).map(|i| Model::power_on(words([8 - i, 0, 0]))).collect();
    let (found, accesses) = search(&mut cards, PORT).unwrap();
    assert_eq!((found.len(), accesses), (7, 2421));
    assert_eq!(found[6], [0, 7, 0, 0, 0, 0]);
}

// The EEPROM image.

fn image() -> Vec<u8> {
    let mut words = words(OWN_WORDS);
    words[0x0D] = 0x1310;
    words[0x10] = 0x2083;
    words[0x14] = 0x0001;
    words[0x18] = 0x6D50;
    words[0x3F] = 0x7A00;
    let sum = |places: &[usize]| places.iter().fold(0, |sum, &p| sum ^ words[p] >> 8 ^ words[p] & 0xFF);
    let high = sum(&[0, 1, 2, 3, 4, 5, 6, 7, 10, 11, 12, 14]);
    let low = sum(&[8, 9, 13]);
    let vital: Vec<usize> = (0x10..0x13).chain(0x20..0x40).collect();
    let secondary = sum(&vital) << 8 | sum(&[0x13, 0x14, 0x15, 0x16]);
    words[0x0F] = high << 8 | low;
    words[0x17] = secondary;
    words.iter().flat_map(|word| word.to_le_bytes()).collect()
}

#[test]
fn images() {
    assert_eq!(image_check(&[0; 128]), Err(8));
    assert_eq!(image_check(&[0; 127]), Err(2));
    assert_eq!(image_check(&[0; 129]), Err(2));
    assert_eq!(image_check(&image()), Ok(OWN_WORDS));
    for place in 0..128 {
        let mut bytes = image();
        bytes[place] ^= 0x40;
        let wanted = match place / 2 {
            0x07 => Err(8),
            0x00..=0x0F => Err(9),
            0x18..=0x1F => Ok(OWN_WORDS),
            _ => Err(10),
        };
        assert_eq!(image_check(&bytes), wanted, "byte {place}");
    }
}
