/* The header and the archive from C and C++: every call, every refusal that it can give, and the layout
 * of the structs against what the archive reads and writes. Prints one line and answers 0 if all holds. */
#include <stdio.h>
#include <stdlib.h>
#include "seamtrout.h"

#define EXPECT(test) do { if (!(test)) { printf("%s:%d: not so: %s\n", __FILE__, __LINE__, #test); exit(1); } checks++; } while (0)

static unsigned checks;
static const uint16_t node[3] = {0x0020, 0xAFC4, 0x12E5};

static void words_of(uint16_t words[64])
{
    size_t i;
    for (i = 0; i < 64; i++)
        words[i] = (uint16_t)(0x1000 + i);
    words[0] = node[0];
    words[1] = node[1];
    words[2] = node[2];
    words[0x13] = 0; /* the RAM as 3,072 to 5,120 */
}

static void wake(struct seamtrout *s, uint16_t port)
{
    uint8_t b = 0xFF;
    int i;
    EXPECT(seamtrout_id_write(s, port, 0) == 0 && seamtrout_id_write(s, port, 0) == 0);
    for (i = 0; i < 255; i++) {
        EXPECT(seamtrout_id_write(s, port, b) == 0);
        b = (uint8_t)(b & 0x80 ? (b << 1) ^ 0xCF : b << 1);
    }
}

static uint16_t word_at(struct seamtrout *s, uint16_t offset)
{
    uint16_t v = 0xDEAD;
    EXPECT(seamtrout_read_word(s, offset, &v) == 0);
    return v;
}

static void frame_in(struct seamtrout *s, const uint8_t *bytes, size_t n, bool check)
{
    size_t i;
    EXPECT(seamtrout_wire_start(s, bytes) == 0);
    for (i = 8; i < n; i++)
        EXPECT(seamtrout_wire_byte(s, bytes[i]) == 0);
    EXPECT(seamtrout_wire_end(s, check, true) == 0);
}

/* Members as the archive sees them: what registers show stands in the struct, and the other way. */
static void layout(void)
{
    static struct seamtrout s;
    uint16_t words[64];
    size_t i;
    EXPECT(seamtrout_layout_agrees());
    words_of(words);
    seamtrout_power_on(&s, words);
    for (i = 0; i < 64; i++)
        EXPECT(s.card.id.words[i] == words[i]);
    EXPECT(s.card.id.port == 16 && s.card.id.address == words[8] && !s.card.id.active);
    EXPECT(s.card.config.product == words[3] && s.card.config.resource == words[9]);
    EXPECT(s.card.config.first == words[0x12] && s.card.config.second == words[0x13]);
    EXPECT(s.card.receive.receiver.threshold == 2044);
    EXPECT(s.card.transmit.outcomes.sender.level == 2044 && s.card.transmit.outcomes.sender.start == 2044);
    wake(&s, 0x110);
    EXPECT(seamtrout_id_write(&s, 0x110, 0xE3) == 0);
    EXPECT(seamtrout_active(&s) && seamtrout_base(&s) == 3 && s.card.id.active);
    for (i = 0; i < 6; i++) {
        EXPECT(seamtrout_write_word(&s, 0x0E, 1 << 11 | 2) == 0);
        EXPECT(seamtrout_write_byte(&s, (uint16_t)i, (uint8_t)(0x41 + i)) == 0);
        EXPECT(s.card.config.station[i] == 0x41 + i);
    }
    EXPECT(seamtrout_write_word(&s, 0x0E, 1 << 11 | 5) == 0 && s.card.select.window == 5);
    s.card.transmit.outcomes.sender.start = 0x123;
    EXPECT(word_at(&s, 0x00) == 0x123);
    s.card.transmit.outcomes.sender.level = 0x234;
    s.card.transmit.outcomes.sender.available = true;
    EXPECT(word_at(&s, 0x02) == 0x234);
    s.card.receive.receiver.threshold = 7; /* never stored: the state is unsound */
    EXPECT(seamtrout_read_word(&s, 0x06, &words[0]) == 1);
    s.card.receive.receiver.threshold = 0x345;
    EXPECT(word_at(&s, 0x06) == 0x345);
    s.card.select.filter = 9;
    EXPECT(word_at(&s, 0x08) == 9);
    s.card.select.mask = 0x42;
    EXPECT(word_at(&s, 0x0A) == 0x42);
    s.card.select.zero = 0x84;
    EXPECT(word_at(&s, 0x0C) == 0x84);
    s.card.select.window = 1;
    s.card.transmit.outcomes.statuses.entries[0] = 0x77;
    s.card.transmit.outcomes.statuses.entries[1] = 0x66;
    s.card.transmit.outcomes.statuses.count = 2;
    EXPECT(word_at(&s, 0x0A) == 0x7700);
    EXPECT(seamtrout_write_byte(&s, 0x0B, 0) == 0 && s.card.transmit.outcomes.statuses.count == 1);
    EXPECT(word_at(&s, 0x0A) == 0x6600);
    s.card.select.window = 0;
    s.card.id.shift = 0xABCD;
    s.card.id.tag = 5;
    s.card.prom.last = 0x9A;
    s.card.config.enabled = true;
    EXPECT(word_at(&s, 0x0C) == 0xABCD && word_at(&s, 0x0A) == 0x059A && word_at(&s, 0x04) == 0x4D01);
    s.card.lines.low = 2;
    EXPECT(seamtrout_write_byte(&s, 0x0F, 1 << 3) == 0 && s.card.select.window == 2 && s.card.lines.low == 0);
}

static void driver(void)
{
    static struct seamtrout s;
    static uint8_t look[256], area[1514], out[1792], packet[1514];
    struct seamtrout_answer a;
    uint16_t words[64], ticket = 99, v;
    uint8_t b;
    size_t n = 0, i;
    words_of(words);
    seamtrout_power_on(&s, words);
    EXPECT(seamtrout_service(&s, 9, look, 256, area, 1514, &a) == SEAMTROUT_NEVER_OPENED && a.kind == SEAMTROUT_REFUSED);
    EXPECT(seamtrout_send(&s, packet, 60, &ticket) == SEAMTROUT_NEVER_OPENED && ticket == 99);
    wake(&s, 0x1F0);
    EXPECT(seamtrout_id_write(&s, 0x1F0, 0xFF) == 0 && seamtrout_active(&s));
    EXPECT(seamtrout_open(&s, node[0], node[1], node[2]) == 0);
    for (i = 0; i < sizeof packet; i++)
        packet[i] = (uint8_t)(i * 7);
    memcpy(packet, "\x00\x20\xAF\xC4\x12\xE5", 6);

    EXPECT(seamtrout_service(&s, 100, look, 255, area, 1514, &a) == SEAMTROUT_AREA_SHORT);
    EXPECT(seamtrout_service(&s, 100, NULL, 256, area, 1514, &a) == SEAMTROUT_AREA_SHORT);
    EXPECT(seamtrout_service(&s, 0, look, 256, area, 1514, &a) == SEAMTROUT_BUDGET_SHORT && a.accesses == 0);
    EXPECT(seamtrout_service(&s, 2, look, 256, area, 1514, &a) == 0 && a.kind == SEAMTROUT_IDLE && a.accesses == 2 && a.bytes == NULL);
    frame_in(&s, packet, 60, true);
    EXPECT(word_at(&s, 0x08) == 0x003C);
    EXPECT(seamtrout_service(&s, 33, look, 256, area, 1514, &a) == 0);
    EXPECT(a.kind == SEAMTROUT_FRAME && a.n == 60 && a.bytes == look && a.accesses == 33 && memcmp(look, packet, 60) == 0);
    frame_in(&s, packet, 1514, true);
    EXPECT(seamtrout_service(&s, 759, look, 256, area, 1514, &a) == SEAMTROUT_BUDGET_SHORT && a.accesses == 2);
    EXPECT(seamtrout_service(&s, 760, look, 256, area, 1514, &a) == 0);
    EXPECT(a.kind == SEAMTROUT_FRAME && a.n == 1514 && a.bytes == area && a.accesses == 760 && memcmp(area, packet, 1514) == 0);
    frame_in(&s, packet, 60, false);
    EXPECT(word_at(&s, 0x08) == 0x683C);
    EXPECT(seamtrout_service(&s, 5, look, 256, area, 1514, &a) == 0 && a.kind == SEAMTROUT_IDLE && a.accesses == 5);

    EXPECT(seamtrout_send(&s, packet, 13, &ticket) == SEAMTROUT_LENGTH_OUTSIDE);
    EXPECT(seamtrout_send(&s, packet, 1515, &ticket) == SEAMTROUT_LENGTH_OUTSIDE);
    EXPECT(seamtrout_send(&s, NULL, 60, &ticket) == SEAMTROUT_LENGTH_OUTSIDE);
    EXPECT(seamtrout_sent(&s, out, &n) == SEAMTROUT_OUT_OF_TURN && seamtrout_collided(&s) == SEAMTROUT_OUT_OF_TURN);
    EXPECT(seamtrout_send(&s, packet, 1514, &ticket) == 0 && ticket == 0);
    EXPECT(seamtrout_send(&s, packet, 1514, &ticket) == 0 && ticket == 1);
    EXPECT(word_at(&s, 0x0C) == 32);
    EXPECT(seamtrout_send(&s, packet, 29, &ticket) == SEAMTROUT_NO_ROOM);
    EXPECT(seamtrout_send(&s, packet, 28, &ticket) == 0 && ticket == 2);
    EXPECT(seamtrout_sent(&s, out, &n) == 0 && n == 1514 && memcmp(out, packet, 1514) == 0);
    EXPECT(seamtrout_service(&s, 760, look, 256, area, 1514, &a) == 0 && a.kind == SEAMTROUT_REPORT && a.ticket == 0 && a.status == 0xC0);
    EXPECT(seamtrout_sent(&s, out, &n) == 0 && seamtrout_sent(&s, out, &n) == 0 && n == 60);
    EXPECT(memcmp(out, packet, 28) == 0 && out[28] == 0 && out[59] == 0);
    for (i = 0; i < 2; i++)
        EXPECT(seamtrout_service(&s, 760, look, 256, area, 1514, &a) == 0 && a.kind == SEAMTROUT_REPORT && a.ticket == 1 + i);
    for (i = 0; i < 16; i++) {
        EXPECT(seamtrout_send(&s, packet, 14, &ticket) == 0);
        EXPECT(seamtrout_sent(&s, out, &n) == 0);
    }
    EXPECT(seamtrout_send(&s, packet, 14, &ticket) == SEAMTROUT_SIXTEEN_UNREPORTED);
    EXPECT(seamtrout_service(&s, 760, look, 256, area, 1514, &a) == 0 && a.ticket == 3);
    EXPECT(seamtrout_send(&s, packet, 14, &ticket) == 0 && seamtrout_collided(&s) == 0);

    EXPECT(seamtrout_wire_byte(&s, 0) == SEAMTROUT_OUT_OF_TURN && seamtrout_wire_end(&s, true, true) == SEAMTROUT_OUT_OF_TURN);
    EXPECT(seamtrout_wire_start(&s, packet) == 0 && seamtrout_wire_start(&s, packet) == SEAMTROUT_OUT_OF_TURN);
    EXPECT(seamtrout_read_word(&s, 1, &v) == SEAMTROUT_ARGUMENT_OUTSIDE && seamtrout_read_word(&s, 16, &v) == SEAMTROUT_ARGUMENT_OUTSIDE);
    EXPECT(seamtrout_read_byte(&s, 3, &b) == SEAMTROUT_ARGUMENT_OUTSIDE && seamtrout_write_byte(&s, 0, 0) == SEAMTROUT_ARGUMENT_OUTSIDE);
    EXPECT(seamtrout_write_word(&s, 0x0F, 0) == SEAMTROUT_ARGUMENT_OUTSIDE);
    EXPECT(seamtrout_id_write(&s, 0x111, 0) == SEAMTROUT_ARGUMENT_OUTSIDE && seamtrout_id_read(&s, 0x300, &b) == SEAMTROUT_ARGUMENT_OUTSIDE);
    EXPECT(seamtrout_write_word(&s, 0x0E, 1 << 11 | 4) == 0);
    EXPECT(seamtrout_service(&s, 760, look, 256, area, 1514, &a) == SEAMTROUT_CARD_UNFIT);
    EXPECT(seamtrout_send(&s, packet, 14, &ticket) == SEAMTROUT_SIXTEEN_UNREPORTED);
    EXPECT(seamtrout_write_word(&s, 0x0E, 1 << 11 | 1) == 0);
    EXPECT(seamtrout_service(&s, 760, look, 256, area, 1514, &a) == 0 && a.ticket == 4);
    EXPECT(seamtrout_write_word(&s, 0x0E, 1 << 11 | 4) == 0);
    EXPECT(seamtrout_send(&s, packet, 14, &ticket) == SEAMTROUT_CARD_UNFIT);
    EXPECT(!seamtrout_latch(&s) && seamtrout_write_word(&s, 0x0E, 14 << 11 | 0x40) == 0);
    EXPECT(seamtrout_write_word(&s, 0x0E, 12 << 11) == 0 && seamtrout_latch(&s));
}

/* The interrupt line: the latch set and not, ENA set and not, in every window, for every value of the IRQ field. */
static void interrupt_line(void)
{
    static const uint16_t lines[16] = {0, 0, 0, 3, 0, 5, 0, 7, 0, 9, 10, 11, 12, 0, 0, 15};
    static struct seamtrout s, before;
    uint16_t words[64], irq, enable, window, line;
    words_of(words);
    words[9] = 0xAF00;
    seamtrout_power_on(&s, words);
    wake(&s, 0x110);
    EXPECT(seamtrout_id_write(&s, 0x110, 0xFF) == 0);
    for (irq = 0; irq < 16; irq++)
        for (enable = 0; enable < 2; enable++) {
            EXPECT(seamtrout_write_word(&s, 0x0E, 1 << 11) == 0 && seamtrout_write_word(&s, 0x04, enable) == 0);
            EXPECT(seamtrout_write_word(&s, 0x08, (uint16_t)(irq << 12)) == 0 && seamtrout_write_word(&s, 0x0E, 1 << 11 | 1) == 0);
            line = 99;
            EXPECT(!seamtrout_latch(&s) && seamtrout_interrupt_line(&s, &line) == 0 && line == 0);
            EXPECT(seamtrout_write_word(&s, 0x0E, 15 << 11 | 0x40) == 0 && seamtrout_write_word(&s, 0x0E, 14 << 11 | 0x40) == 0);
            EXPECT(seamtrout_write_word(&s, 0x0E, 12 << 11) == 0 && seamtrout_latch(&s));
            for (window = 0; window < 8; window++) {
                EXPECT(seamtrout_write_word(&s, 0x0E, (uint16_t)(1 << 11 | window)) == 0);
                before = s;
                line = 99;
                EXPECT(seamtrout_interrupt_line(&s, &line) == 0 && line == (window && enable ? lines[irq] : 0));
                EXPECT(memcmp(&before, &s, sizeof s) == 0);
            }
            EXPECT(seamtrout_write_word(&s, 0x0E, 13 << 11 | 0x41) == 0);
        }
}

/* RX Status with its signed count: a frame of 61 bytes read word by word to the failure, in every window. */
static void unread_bytes(void)
{
    static struct seamtrout s, before;
    static uint8_t bytes[1800];
    uint16_t words[64], window, word = 99;
    int16_t unread = 99;
    int read;
    words_of(words);
    memset(bytes, 0xFF, sizeof bytes);
    seamtrout_power_on(&s, words);
    EXPECT(seamtrout_rx_status(&s, &word, &unread) == 0 && word == 0xFFFF && unread == 0);
    wake(&s, 0x110);
    EXPECT(seamtrout_id_write(&s, 0x110, 0xFF) == 0 && seamtrout_open(&s, node[0], node[1], node[2]) == 0);
    EXPECT(seamtrout_rx_status(&s, &word, &unread) == 0 && word == 0x8000 && unread == 0);
    frame_in(&s, bytes, 61, true);
    for (read = 0; read <= 33; read++) {
        int left = read < 32 ? 61 - 2 * read : -3;
        for (window = 0; window < 8; window++) {
            EXPECT(seamtrout_write_word(&s, 0x0E, (uint16_t)(1 << 11 | window)) == 0);
            before = s;
            EXPECT(seamtrout_rx_status(&s, &word, &unread) == 0 && unread == left && word == (left < 0 ? 2048 + left : left));
            EXPECT(memcmp(&before, &s, sizeof s) == 0);
        }
        EXPECT(seamtrout_write_word(&s, 0x0E, 1 << 11 | 1) == 0 && word_at(&s, 0x08) == word);
        EXPECT(word_at(&s, 0x0E) == (read <= 32 ? 0x2010 : 0x2012)); /* the 33rd word is the failure */
        (void)word_at(&s, 0x00);
    }
    EXPECT(seamtrout_write_word(&s, 0x0E, 5 << 11) == 0 && seamtrout_write_word(&s, 0x0E, 16 << 11 | 4) == 0);
    EXPECT(seamtrout_write_word(&s, 0x0E, 4 << 11) == 0);
    frame_in(&s, bytes, sizeof bytes, true);
    EXPECT(seamtrout_rx_status(&s, &word, &unread) == 0 && word == 0x4F00 && unread == 1792);
}

/* The part handed up lies in the area that its length names; an area too short hands up nothing. */
static void hand_up(void)
{
    static const struct { size_t look_n, n, told; uint8_t area; } rows[] = {
        {256, 0, 0, 1}, {256, 60, 60, 1}, {256, 255, 255, 1}, {256, 256, 256, 1}, {256, 257, 257, 2},
        {256, 1514, 1514, 2}, {256, 1515, 0, 2}, {255, 255, 255, 1}, {255, 256, 0, 1}, {0, 14, 0, 1}};
    static uint8_t look[256], area[1514];
    size_t i;
    for (i = 0; i < sizeof rows / sizeof rows[0]; i++) {
        struct seamtrout_raw_part up = seamtrout_driver_hand_up(look, rows[i].look_n, area, sizeof area, rows[i].n);
        EXPECT(up.area == rows[i].area && up.n == rows[i].told);
    }
}

static void ports(void)
{
    static struct seamtrout s[9];
    struct seamtrout *at[9];
    uint64_t found[7];
    size_t n = 0, accesses = 0, i;
    uint16_t words[64];
    uint8_t bit = 9, bus = 9;
    words_of(words);
    for (i = 0; i < 9; i++) {
        words[2] = (uint16_t)(0x2000 - i);
        seamtrout_power_on(&s[i], words);
        at[i] = &s[i];
    }
    EXPECT(seamtrout_search(at, 0, 0x100, found, &n, &accesses) == 0 && n == 0 && accesses == 566);
    EXPECT(seamtrout_search(at, 2, 0x100, found, &n, &accesses) == 0 && n == 2 && accesses == 1184);
    EXPECT(found[0] == 0x0020AFC41FFF && found[1] == 0x0020AFC42000);
    EXPECT(seamtrout_search(at, 7, 0x100, found, &n, &accesses) == 0 && n == 7 && accesses == 2421);
    EXPECT(seamtrout_search(at, 9, 0x100, found, &n, &accesses) == SEAMTROUT_ARGUMENT_OUTSIDE);
    EXPECT(seamtrout_search(at, 7, 0x200, found, &n, &accesses) == SEAMTROUT_ARGUMENT_OUTSIDE);
    EXPECT(seamtrout_activate(at, 7, 0x100, 8, 0, &accesses) == SEAMTROUT_ARGUMENT_OUTSIDE);
    EXPECT(seamtrout_activate(at, 7, 0x100, 1, 4, &accesses) == 0 && accesses == 259);
    for (i = 0; i < 7; i++)
        EXPECT(seamtrout_active(at[i]) == (i == 6));
    EXPECT(seamtrout_base(at[6]) == 4);

    /* Two cards by hand: the first difference in their addresses settles it. */
    for (i = 0; i < 2; i++) {
        words[2] = i == 0 ? 0x4000 : 0xC000;
        seamtrout_power_on(&s[i], words);
        wake(&s[i], 0x120);
        EXPECT(seamtrout_id_write(&s[i], 0x120, 0x82) == 0);
    }
    EXPECT(seamtrout_id_drives(&s[0], 0x120, &bit) == 0 && bit == 0 && seamtrout_id_drives(&s[1], 0x120, &bus) == 0 && bus == 1);
    for (i = 0; i < 2; i++)
        EXPECT(seamtrout_id_hears(&s[i], 0x120, bit & bus) == 0);
    EXPECT(s[0].card.id.command && !s[1].card.id.command);
    EXPECT(seamtrout_id_read(&s[0], 0x120, &bit) == 0 && bit == 1);
    EXPECT(seamtrout_id_read(&s[1], 0x120, &bit) == 0 && bit == 1);

    /* A bus of 2 is a 1: the card that drives a 1 stays. */
    seamtrout_power_on(&s[1], words);
    wake(&s[1], 0x120);
    EXPECT(seamtrout_id_write(&s[1], 0x120, 0x82) == 0 && seamtrout_id_hears(&s[1], 0x120, 2) == 0);
    EXPECT(s[1].card.id.command && s[1].card.id.shift == 0x8000);
}

static void images(void)
{
    static uint8_t image[128];
    uint16_t address[3] = {0, 0, 0};
    EXPECT(seamtrout_image_check(image, 127) == SEAMTROUT_LENGTH_OUTSIDE && seamtrout_image_check(NULL, 128) == SEAMTROUT_LENGTH_OUTSIDE);
    EXPECT(seamtrout_image_check(image, 128) == SEAMTROUT_MAKER_WRONG);
    image[0x0E] = 0x50;
    image[0x0F] = 0x6D;
    EXPECT(seamtrout_image_check(image, 128) == SEAMTROUT_CHECKSUM_WRONG);
    image[0x1F] = 0x50 ^ 0x6D;
    image[0x20] = 1;
    EXPECT(seamtrout_image_check(image, 128) == SEAMTROUT_SECONDARY_WRONG);
    image[0x20] = 0;
    image[0x00] = 0x12;
    image[0x1F] ^= 0x12;
    EXPECT(seamtrout_image_node(image, 128, address) == 0 && address[0] == 0x0012 && address[1] == 0);
}

/* More than eight cards, one of them unsound: 1 comes before 12, wherever the card stands, and nothing changes. */
static void nine(void)
{
    static struct seamtrout s[9], before[9];
    struct seamtrout *at[9];
    uint64_t found[7] = {77};
    size_t n = 77, accesses = 77, i;
    uint16_t words[64];
    words_of(words);
    for (i = 0; i < 9; i++) {
        seamtrout_power_on(&s[i], words);
        at[i] = &s[i];
    }
    for (i = 0; i < 9; i++) {
        s[i].card.id.tag = 8; /* a tag has three bits */
        memcpy(before, s, sizeof s);
        EXPECT(seamtrout_search(at, 9, 0x100, found, &n, &accesses) == SEAMTROUT_STATE_UNSOUND);
        EXPECT(seamtrout_search(at, 9, 0x200, found, &n, &accesses) == SEAMTROUT_STATE_UNSOUND);
        EXPECT(seamtrout_activate(at, 9, 0x100, 1, 4, &accesses) == SEAMTROUT_STATE_UNSOUND);
        EXPECT(seamtrout_activate(at, 9, 0x100, 8, 32, &accesses) == SEAMTROUT_STATE_UNSOUND);
        EXPECT(memcmp(before, s, sizeof s) == 0);
        s[i].card.id.tag = 0;
    }
    s[8].card.receive.frames = 1; /* the ID state is sound, the card is not */
    EXPECT(seamtrout_search(at, 9, 0x100, found, &n, &accesses) == SEAMTROUT_STATE_UNSOUND);
    EXPECT(seamtrout_activate(at, 9, 0x100, 1, 4, &accesses) == SEAMTROUT_STATE_UNSOUND);
    EXPECT(seamtrout_search(at, 8, 0x200, found, &n, &accesses) == SEAMTROUT_ARGUMENT_OUTSIDE); /* it is not among the eight */
    s[8].card.receive.frames = 0;
    memcpy(before, s, sizeof s);
    EXPECT(seamtrout_search(at, 9, 0x100, found, &n, &accesses) == SEAMTROUT_ARGUMENT_OUTSIDE);
    EXPECT(seamtrout_activate(at, 9, 0x100, 1, 4, &accesses) == SEAMTROUT_ARGUMENT_OUTSIDE);
    EXPECT(memcmp(before, s, sizeof s) == 0 && found[0] == 77 && n == 77 && accesses == 77);
}

/* A refused service tells its number in the answer too, and changes nothing else; out of budget it tells the accesses used. */
static void refused_service(void)
{
    static struct seamtrout s, before;
    static uint8_t look[256], area[1514], bytes[1514];
    struct seamtrout_answer a;
    uint16_t words[64];
    words_of(words);
    memset(look, 0x5A, sizeof look);
    memset(area, 0x5A, sizeof area);
    memset(bytes, 0x5A, sizeof bytes);
    seamtrout_power_on(&s, words);
    before = s;
    a.kind = SEAMTROUT_FRAME;
    a.bytes = look;
    EXPECT(seamtrout_service(&s, 9, look, 256, area, 1514, &a) == SEAMTROUT_NEVER_OPENED && a.kind == SEAMTROUT_REFUSED && a.bytes == NULL);
    EXPECT(memcmp(&before, &s, sizeof s) == 0);
    wake(&s, 0x110);
    EXPECT(seamtrout_id_write(&s, 0x110, 0xFF) == 0 && seamtrout_open(&s, node[0], node[1], node[2]) == 0);
    EXPECT(seamtrout_write_word(&s, 0x0E, 16 << 11 | 8) == 0);
    frame_in(&s, bytes, 60, false);
    frame_in(&s, bytes, 60, true);
    before = s;
    a.kind = SEAMTROUT_FRAME;
    a.bytes = look;
    EXPECT(seamtrout_service(&s, 9, look, 255, area, 1514, &a) == SEAMTROUT_AREA_SHORT && a.kind == SEAMTROUT_REFUSED && a.bytes == NULL);
    EXPECT(memcmp(&before, &s, sizeof s) == 0);
    a.kind = SEAMTROUT_FRAME;
    a.bytes = look;
    EXPECT(seamtrout_service(&s, 35, look, 256, area, 1514, &a) == SEAMTROUT_BUDGET_SHORT && a.kind == SEAMTROUT_REFUSED && a.bytes == NULL);
    EXPECT(a.accesses == 5 && word_at(&s, 0x08) == 0x003C); /* the damaged frame was dropped: 3, and Status, RX Status of the good one */
    EXPECT(memcmp(look, bytes, 256) == 0 && memcmp(area, bytes, 1514) == 0);
    EXPECT(seamtrout_write_word(&s, 0x0E, 1 << 11 | 4) == 0);
    before = s;
    a.kind = SEAMTROUT_FRAME;
    a.bytes = look;
    EXPECT(seamtrout_service(&s, 9, look, 256, area, 1514, &a) == SEAMTROUT_CARD_UNFIT && a.kind == SEAMTROUT_REFUSED && a.bytes == NULL);
    EXPECT(memcmp(&before, &s, sizeof s) == 0 && memcmp(look, bytes, 256) == 0 && memcmp(area, bytes, 1514) == 0);
}

static void unsound(void)
{
    static struct seamtrout s, before;
    static uint8_t look[256], area[1514], out[1792];
    struct seamtrout *at = &s;
    struct seamtrout_answer a;
    uint64_t found[7];
    uint16_t words[64], v;
    int16_t unread = 77;
    size_t n;
    uint8_t b;
    words_of(words);
    seamtrout_power_on(&s, words);
    s.card.receive.frames = 1; /* and the directory has none */
    before = s;
    EXPECT(seamtrout_read_word(&s, 0x0E, &v) == 1 && seamtrout_read_byte(&s, 0x0E, &b) == 1);
    EXPECT(seamtrout_write_word(&s, 0x0E, 0) == 1 && seamtrout_write_byte(&s, 0x0E, 0) == 1);
    EXPECT(seamtrout_wire_start(&s, out) == 1 && seamtrout_wire_byte(&s, 0) == 1 && seamtrout_wire_end(&s, true, true) == 1);
    EXPECT(seamtrout_sent(&s, out, &n) == 1 && seamtrout_collided(&s) == 1);
    EXPECT(seamtrout_id_write(&s, 0x100, 0) == 1 && seamtrout_id_read(&s, 0x100, &b) == 1);
    v = 99;
    EXPECT(seamtrout_interrupt_line(&s, &v) == 1 && v == 99);
    EXPECT(seamtrout_rx_status(&s, &v, &unread) == 1 && v == 99 && unread == 77);
    EXPECT(seamtrout_open(&s, 1, 2, 3) == 1 && seamtrout_send(&s, out, 60, &v) == 1);
    EXPECT(seamtrout_service(&s, 9, look, 256, area, 1514, &a) == 1);
    EXPECT(seamtrout_search(&at, 1, 0x100, found, &n, &n) == 1);
    EXPECT(memcmp(&before, &s, sizeof s) == 0);
}

int main(void)
{
    layout();
    driver();
    interrupt_line();
    unread_bytes();
    hand_up();
    ports();
    images();
    nine();
    refused_service();
    unsound();
    printf("header: %u checks hold\n", checks);
    return 0;
}
