/* Seamtrout: a proved 3Com 3C509B, its driver, the ID port and the check of EEPROM images.
 *
 * Link crates/abi/out/libabi.a (rt lib, in crates/abi). C99 or C++11.
 *
 * A `struct seamtrout` holds one card, its driver and its memory. seamtrout_power_on fills it;
 * after that only the calls below change it. Each call answers 0 for done, else the number of the
 * refusal (enum seamtrout_refusal); a refused call changes nothing, what the pointers lead to
 * included, save that a service tells its refusal in *answer too, and out of budget keeps what it
 * finished. A struct whose numbers make no card is refused with 1. (Its bool members must hold 0 or
 * 1, as C asks of a bool; a copy of the struct by assignment or memcpy is a card of its own.)
 *
 * No call allocates, blocks or keeps a pointer. Two structs may be used by two threads; one struct
 * by one thread at a time. The areas that one call is given must not overlap. */
#ifndef SEAMTROUT_H
#define SEAMTROUT_H

#include <stdbool.h>
#include <stddef.h>
#include <stdint.h>
#include <string.h>

#ifdef __cplusplus
extern "C" {
#endif

/* The numbers that a call may answer; 0 is done. */
enum seamtrout_refusal {
    SEAMTROUT_DONE = 0,
    SEAMTROUT_STATE_UNSOUND = 1,      /* the state handed in is unsound */
    SEAMTROUT_LENGTH_OUTSIDE = 2,     /* packet length outside 14 to 1,514, or image not 128 bytes */
    SEAMTROUT_SIXTEEN_UNREPORTED = 3, /* sixteen packets sent and unreported */
    SEAMTROUT_NO_ROOM = 4,            /* TX Free below 4 plus the length rounded up to 4 */
    SEAMTROUT_CARD_UNFIT = 5,         /* Status with Adapter Failure or a window other than 1 */
    SEAMTROUT_BUDGET_SHORT = 6,       /* budget short */
    SEAMTROUT_AREA_SHORT = 7,         /* lookahead area under 256 bytes or frame area under 1,514 */
    SEAMTROUT_MAKER_WRONG = 8,        /* EEPROM word 07h is not 6D50h */
    SEAMTROUT_CHECKSUM_WRONG = 9,     /* word 0Fh is not the checksum */
    SEAMTROUT_SECONDARY_WRONG = 10,   /* word 17h is not the secondary checksums */
    SEAMTROUT_OUT_OF_TURN = 11,       /* a wire call or a send outcome that has no place now */
    SEAMTROUT_ARGUMENT_OUTSIDE = 12,  /* an offset, ID port, tag, base or count that there is not */
    SEAMTROUT_NEVER_OPENED = 13       /* send or service on a driver never opened */
};

/* ---- The card by value, as the archive has it. Read it if you like; do not write it. ---- */

/* One card on the ID port. */
struct seamtrout_id {
    bool command;      /* ID_CMD, else ID_WAIT */
    uint8_t port;      /* x of port 1x0h, 16 for none */
    uint8_t at;        /* place in the ID sequence */
    uint8_t tag;
    uint16_t shift;    /* the EEPROM Data register */
    uint16_t address;  /* the Address Configuration register */
    bool active;
    bool due;          /* a reset came through the ID port */
    uint16_t words[64];
};

struct seamtrout_card {
    struct seamtrout_id id;
    struct { uint16_t window, mask, zero, filter; } select;
    struct { bool latch, requested; uint8_t low; } lines;
    struct { uint16_t product, resource; bool enabled; uint16_t first, second; uint8_t station[6]; } config;
    struct { uint8_t last; bool writable; } prom;
    struct {
        struct { bool on, failed, early, told; uint16_t threshold, read; uint8_t wire; } receiver;
        size_t frames;
    } receive;
    struct {
        struct { bool failed; size_t packets, words; } fifo;
        struct {
            struct { bool on, available; uint16_t level, start; } sender;
            struct { uint8_t entries[31]; size_t count; } statuses;
        } outcomes;
    } transmit;
};

struct seamtrout_driver {
    bool opened;
    uint16_t sent;
    uint8_t unreported;
    bool error;
};

/* A card, its driver and its memory. */
struct seamtrout {
    struct seamtrout_card card;
    struct seamtrout_driver driver;
    uint8_t ram[8192];
    uint16_t dir[1110];
};

/* What a service answers. */
enum seamtrout_kind {
    SEAMTROUT_REFUSED = 0, /* see the number; out of budget (6), `accesses` counts what was used */
    SEAMTROUT_REPORT = 1,  /* the oldest unreported packet: `ticket`, `status` */
    SEAMTROUT_STATUS = 2,  /* a status that belongs to no packet: `status` */
    SEAMTROUT_FRAME = 3,   /* a good frame: `n` bytes at `bytes`, in the area that it landed in */
    SEAMTROUT_IDLE = 4     /* nothing to do; 69h was acknowledged */
};

struct seamtrout_answer {
    enum seamtrout_kind kind;
    uint16_t ticket;
    uint16_t status;
    const uint8_t *bytes; /* NULL unless a frame was handed up */
    size_t n;
    size_t accesses;      /* register accesses that the service took */
};

/* ---- What the archive exports. The functions below these are the calls to use. ---- */

struct seamtrout_raw_done { struct seamtrout_card card; uint8_t code; };
struct seamtrout_raw_read { struct seamtrout_card card; uint16_t value; uint8_t code; };
struct seamtrout_raw_told { struct seamtrout_card card; size_t n; uint8_t code; };
struct seamtrout_raw_bit { uint8_t bit, code; };
struct seamtrout_raw_line { uint16_t line; uint8_t code; };
struct seamtrout_raw_rx_status { uint16_t word; int16_t unread; uint8_t code; };
struct seamtrout_raw_opened { struct seamtrout_card card; struct seamtrout_driver driver; uint8_t code; };
struct seamtrout_raw_sent { struct seamtrout_card card; struct seamtrout_driver driver; uint16_t ticket; uint8_t code; };
struct seamtrout_raw_service { uint8_t kind, code; uint16_t ticket, status; size_t n; };
struct seamtrout_raw_served {
    struct seamtrout_card card;
    struct seamtrout_driver driver;
    struct seamtrout_raw_service answer;
    size_t accesses;
};
struct seamtrout_raw_part { uint8_t area; size_t n; }; /* the first n bytes of area 1, ahead, or 2, frame */
struct seamtrout_raw_image { uint16_t node0, node1, node2; uint8_t code; };
struct seamtrout_raw_bus { struct seamtrout_id cards[8]; size_t count; };
struct seamtrout_raw_found {
    struct seamtrout_raw_bus bus;
    uint64_t addresses[7];
    size_t count, accesses;
    uint8_t code;
};
struct seamtrout_raw_activated { struct seamtrout_raw_bus bus; size_t accesses; uint8_t code; };

struct seamtrout_card seamtrout_card_power_on(const uint16_t *words);
struct seamtrout_raw_read seamtrout_card_read_word(const uint8_t *ram, const uint16_t *dir, struct seamtrout_card c, uint16_t o);
struct seamtrout_raw_read seamtrout_card_read_byte(const uint8_t *ram, const uint16_t *dir, struct seamtrout_card c, uint16_t o);
struct seamtrout_raw_done seamtrout_card_write_word(uint8_t *ram, uint16_t *dir, struct seamtrout_card c, uint16_t o, uint16_t v);
struct seamtrout_raw_done seamtrout_card_write_byte(uint8_t *ram, uint16_t *dir, struct seamtrout_card c, uint16_t o, uint8_t v);
struct seamtrout_raw_done seamtrout_card_wire_start(uint8_t *ram, uint16_t *dir, struct seamtrout_card c, const uint8_t *first);
struct seamtrout_raw_done seamtrout_card_wire_byte(uint8_t *ram, uint16_t *dir, struct seamtrout_card c, uint8_t b);
struct seamtrout_raw_done seamtrout_card_wire_end(uint8_t *ram, uint16_t *dir, struct seamtrout_card c, bool check, bool alignment);
struct seamtrout_raw_told seamtrout_card_sent(uint8_t *ram, uint16_t *dir, struct seamtrout_card c, uint8_t *out);
struct seamtrout_raw_done seamtrout_card_collided(uint8_t *ram, uint16_t *dir, struct seamtrout_card c);
struct seamtrout_raw_done seamtrout_card_seat(const uint8_t *ram, const uint16_t *dir, struct seamtrout_card c, struct seamtrout_id i);
struct seamtrout_raw_done seamtrout_card_id_write(const uint8_t *ram, const uint16_t *dir, struct seamtrout_card c, uint16_t port, uint8_t b);
struct seamtrout_raw_bit seamtrout_card_id_bit(const uint8_t *ram, const uint16_t *dir, struct seamtrout_card c, uint16_t port);
struct seamtrout_raw_done seamtrout_card_id_hear(const uint8_t *ram, const uint16_t *dir, struct seamtrout_card c, uint16_t port, uint8_t bus);
struct seamtrout_raw_line seamtrout_card_interrupt_line(const uint8_t *ram, const uint16_t *dir, struct seamtrout_card c);
struct seamtrout_raw_rx_status seamtrout_card_rx_status(const uint8_t *ram, const uint16_t *dir, struct seamtrout_card c);
struct seamtrout_raw_opened seamtrout_driver_open(uint8_t *ram, uint16_t *dir, struct seamtrout_card c, struct seamtrout_driver d, uint16_t w0, uint16_t w1, uint16_t w2);
struct seamtrout_raw_sent seamtrout_driver_send(uint8_t *ram, uint16_t *dir, struct seamtrout_card c, struct seamtrout_driver d, const uint8_t *packet, size_t n);
struct seamtrout_raw_served seamtrout_driver_service(uint8_t *ram, uint16_t *dir, struct seamtrout_card c, struct seamtrout_driver d, uint16_t budget, uint8_t *ahead, size_t ahead_n, uint8_t *frame, size_t frame_n);
struct seamtrout_raw_part seamtrout_driver_hand_up(const uint8_t *ahead, size_t ahead_n, const uint8_t *frame, size_t frame_n, size_t n);
struct seamtrout_raw_image seamtrout_image_checked(const uint8_t *image, size_t n);
struct seamtrout_raw_found seamtrout_bus_search(struct seamtrout_raw_bus b, uint16_t port);
struct seamtrout_raw_activated seamtrout_bus_activate(struct seamtrout_raw_bus b, uint16_t port, uint8_t tag, uint8_t base);

size_t seamtrout_card_size(void);
size_t seamtrout_driver_size(void);
size_t seamtrout_bus_size(void);

#ifdef __cplusplus
}
#endif

/* ---- The layout that the archive was compiled for: x86-64, fields in order, C's padding. ---- */

#define SEAMTROUT_ASSERT(name, test) typedef char seamtrout_assert_##name[(test) ? 1 : -1]
SEAMTROUT_ASSERT(bool_size, sizeof(bool) == 1);
SEAMTROUT_ASSERT(size_size, sizeof(size_t) == 8);
SEAMTROUT_ASSERT(id_size, sizeof(struct seamtrout_id) == 138);
SEAMTROUT_ASSERT(id_words, offsetof(struct seamtrout_id, words) == 10);
SEAMTROUT_ASSERT(card_size, sizeof(struct seamtrout_card) == 264);
SEAMTROUT_ASSERT(card_select, offsetof(struct seamtrout_card, select) == 138);
SEAMTROUT_ASSERT(card_lines, offsetof(struct seamtrout_card, lines) == 146);
SEAMTROUT_ASSERT(card_config, offsetof(struct seamtrout_card, config) == 150);
SEAMTROUT_ASSERT(card_station, offsetof(struct seamtrout_card, config.station) == 160);
SEAMTROUT_ASSERT(card_prom, offsetof(struct seamtrout_card, prom) == 166);
SEAMTROUT_ASSERT(card_receive, offsetof(struct seamtrout_card, receive) == 168);
SEAMTROUT_ASSERT(card_frames, offsetof(struct seamtrout_card, receive.frames) == 184);
SEAMTROUT_ASSERT(card_transmit, offsetof(struct seamtrout_card, transmit) == 192);
SEAMTROUT_ASSERT(card_outcomes, offsetof(struct seamtrout_card, transmit.outcomes) == 216);
SEAMTROUT_ASSERT(card_statuses, offsetof(struct seamtrout_card, transmit.outcomes.statuses) == 224);
SEAMTROUT_ASSERT(card_count, offsetof(struct seamtrout_card, transmit.outcomes.statuses.count) == 256);
SEAMTROUT_ASSERT(driver_size, sizeof(struct seamtrout_driver) == 6);
SEAMTROUT_ASSERT(done_size, sizeof(struct seamtrout_raw_done) == 272);
SEAMTROUT_ASSERT(read_size, sizeof(struct seamtrout_raw_read) == 272);
SEAMTROUT_ASSERT(told_size, sizeof(struct seamtrout_raw_told) == 280);
SEAMTROUT_ASSERT(opened_size, sizeof(struct seamtrout_raw_opened) == 272);
SEAMTROUT_ASSERT(sent_size, sizeof(struct seamtrout_raw_sent) == 280);
SEAMTROUT_ASSERT(service_size, sizeof(struct seamtrout_raw_service) == 16);
SEAMTROUT_ASSERT(served_size, sizeof(struct seamtrout_raw_served) == 296);
SEAMTROUT_ASSERT(line_size, sizeof(struct seamtrout_raw_line) == 4);
SEAMTROUT_ASSERT(rx_status_size, sizeof(struct seamtrout_raw_rx_status) == 6 && offsetof(struct seamtrout_raw_rx_status, code) == 4);
SEAMTROUT_ASSERT(part_size, sizeof(struct seamtrout_raw_part) == 16 && offsetof(struct seamtrout_raw_part, n) == 8);
SEAMTROUT_ASSERT(image_size, sizeof(struct seamtrout_raw_image) == 8);
SEAMTROUT_ASSERT(bus_size, sizeof(struct seamtrout_raw_bus) == 1112);
SEAMTROUT_ASSERT(found_size, sizeof(struct seamtrout_raw_found) == 1192);
SEAMTROUT_ASSERT(activated_size, sizeof(struct seamtrout_raw_activated) == 1128);

/* Whether the archive that was linked has the sizes of this header's structs; the archive's are proved. */
static inline bool seamtrout_layout_agrees(void)
{
    return seamtrout_card_size() == sizeof(struct seamtrout_card) && seamtrout_driver_size() == sizeof(struct seamtrout_driver) &&
           seamtrout_bus_size() == sizeof(struct seamtrout_raw_bus);
}

/* ---- The calls. ---- */

/* Power on: a card with these 64 EEPROM words (offsets 00h to 3Fh), a driver never opened. */
static inline void seamtrout_power_on(struct seamtrout *s, const uint16_t words[64])
{
    memset(s, 0, sizeof *s);
    s->card = seamtrout_card_power_on(words);
}

/* The host reads the word at an even offset 0 to 0Eh; FFFFh from an inactive card. (1, 12) */
static inline int seamtrout_read_word(struct seamtrout *s, uint16_t offset, uint16_t *value)
{
    struct seamtrout_raw_read r = seamtrout_card_read_word(s->ram, s->dir, s->card, offset);
    if (r.code)
        return r.code;
    s->card = r.card;
    *value = r.value;
    return 0;
}

/* The host reads the byte at an offset 0 to 0Fh, in window 1 from 4 on; FFh from an inactive card. (1, 12) */
static inline int seamtrout_read_byte(struct seamtrout *s, uint16_t offset, uint8_t *value)
{
    struct seamtrout_raw_read r = seamtrout_card_read_byte(s->ram, s->dir, s->card, offset);
    if (r.code)
        return r.code;
    s->card = r.card;
    *value = (uint8_t)r.value;
    return 0;
}

/* The host writes a word at an even offset 0 to 0Eh; an inactive card ignores it. (1, 12) */
static inline int seamtrout_write_word(struct seamtrout *s, uint16_t offset, uint16_t value)
{
    struct seamtrout_raw_done r = seamtrout_card_write_word(s->ram, s->dir, s->card, offset, value);
    if (!r.code)
        s->card = r.card;
    return r.code;
}

/* The host writes a byte at an offset 0 to 0Fh, in window 1 from 4 on; an inactive card ignores it. (1, 12) */
static inline int seamtrout_write_byte(struct seamtrout *s, uint16_t offset, uint8_t value)
{
    struct seamtrout_raw_done r = seamtrout_card_write_byte(s->ram, s->dir, s->card, offset, value);
    if (!r.code)
        s->card = r.card;
    return r.code;
}

/* The wire starts a frame with its first 8 bytes. (1, 11 inside a frame) */
static inline int seamtrout_wire_start(struct seamtrout *s, const uint8_t first[8])
{
    struct seamtrout_raw_done r = seamtrout_card_wire_start(s->ram, s->dir, s->card, first);
    if (!r.code)
        s->card = r.card;
    return r.code;
}

/* The wire brings the frame's next byte; check bytes are not told. (1, 11 without a start) */
static inline int seamtrout_wire_byte(struct seamtrout *s, uint8_t b)
{
    struct seamtrout_raw_done r = seamtrout_card_wire_byte(s->ram, s->dir, s->card, b);
    if (!r.code)
        s->card = r.card;
    return r.code;
}

/* The wire ends the frame: was its check sequence good, and its alignment? (1, 11 without a start) */
static inline int seamtrout_wire_end(struct seamtrout *s, bool check_good, bool alignment_good)
{
    struct seamtrout_raw_done r = seamtrout_card_wire_end(s->ram, s->dir, s->card, check_good, alignment_good);
    if (!r.code)
        s->card = r.card;
    return r.code;
}

/* The oldest packet went out: its *n bytes, padded to 60, stand at the front of out. (1, 11 if none can go) */
static inline int seamtrout_sent(struct seamtrout *s, uint8_t out[1792], size_t *n)
{
    struct seamtrout_raw_told r = seamtrout_card_sent(s->ram, s->dir, s->card, out);
    if (r.code)
        return r.code;
    s->card = r.card;
    *n = r.n;
    return 0;
}

/* The oldest packet was lost to 16 collisions; the transmitter is off then. (1, 11 if none can go) */
static inline int seamtrout_collided(struct seamtrout *s)
{
    struct seamtrout_raw_done r = seamtrout_card_collided(s->ram, s->dir, s->card);
    if (!r.code)
        s->card = r.card;
    return r.code;
}

/* A byte is written to the ID port 100h, 110h, .. 1F0h; tell it to every card that is there. (1, 12) */
static inline int seamtrout_id_write(struct seamtrout *s, uint16_t port, uint8_t b)
{
    struct seamtrout_raw_done r = seamtrout_card_id_write(s->ram, s->dir, s->card, port, b);
    if (!r.code)
        s->card = r.card;
    return r.code;
}

/* The bit that this card would drive if the ID port were read now, 1 if it drives none; nothing changes. (1, 12) */
static inline int seamtrout_id_drives(const struct seamtrout *s, uint16_t port, uint8_t *bit)
{
    struct seamtrout_raw_bit r = seamtrout_card_id_bit(s->ram, s->dir, s->card, port);
    if (!r.code)
        *bit = r.bit;
    return r.code;
}

/* The ID port was read and the bus carried `bus` (0, or else 1), the and of what all its cards drive: a
 * card that drove the other bit leaves the contention. (1, 12) */
static inline int seamtrout_id_hears(struct seamtrout *s, uint16_t port, uint8_t bus)
{
    struct seamtrout_raw_done r = seamtrout_card_id_hear(s->ram, s->dir, s->card, port, bus);
    if (!r.code)
        s->card = r.card;
    return r.code;
}

/* The ID port is read, and this card is alone on it. (With several cards, ask each seamtrout_id_drives,
 * and tell each the and of the answers by seamtrout_id_hears.) (1, 12) */
static inline int seamtrout_id_read(struct seamtrout *s, uint16_t port, uint8_t *bit)
{
    uint8_t own = 1;
    int code = seamtrout_id_drives(s, port, &own);
    if (!code)
        code = seamtrout_id_hears(s, port, own);
    if (!code)
        *bit = own;
    return code;
}

/* Whether the card is active. */
static inline bool seamtrout_active(const struct seamtrout *s)
{
    return s->card.id.active;
}

/* The I/O base number of an active card: base x is I/O address 200h + 10h * x; 31 is EISA's. */
static inline uint8_t seamtrout_base(const struct seamtrout *s)
{
    return (uint8_t)(s->card.id.address % 32);
}

/* The Interrupt Latch, bit 0 of Status. It is not the line: ask seamtrout_interrupt_line for that. */
static inline bool seamtrout_latch(const struct seamtrout *s)
{
    return s->card.lines.latch;
}

/* The interrupt line that the card drives: 3, 5, 7, 9, 10, 11, 12 or 15, and 0 for none. The IRQ field
 * of Resource Configuration names it (EEPROM word 09h, bits 15-12). It is driven while the latch is
 * set, ENA is (bit 0 of Configuration Control), and a window other than 0 is selected; nothing
 * changes. (1) */
static inline int seamtrout_interrupt_line(const struct seamtrout *s, uint16_t *line)
{
    struct seamtrout_raw_line r = seamtrout_card_interrupt_line(s->ram, s->dir, s->card);
    if (!r.code)
        *line = r.line;
    return r.code;
}

/* RX Status, register 08h of window 1, whatever window is selected: its raw word, and the unread bytes
 * of the oldest frame as a signed number, -3 to 1,792. They are its stored bytes less the bytes read,
 * below 0 once pad is read. FFFFh and 0 from an inactive card, 8000h and 0 with no frame stored;
 * nothing changes. (1) */
static inline int seamtrout_rx_status(const struct seamtrout *s, uint16_t *word, int16_t *unread)
{
    struct seamtrout_raw_rx_status r = seamtrout_card_rx_status(s->ram, s->dir, s->card);
    if (r.code)
        return r.code;
    *word = r.word;
    *unread = r.unread;
    return 0;
}

/* The driver's open, with the station address as EEPROM words 00h to 02h. (1) */
static inline int seamtrout_open(struct seamtrout *s, uint16_t w0, uint16_t w1, uint16_t w2)
{
    struct seamtrout_raw_opened r = seamtrout_driver_open(s->ram, s->dir, s->card, s->driver, w0, w1, w2);
    if (r.code)
        return r.code;
    s->card = r.card;
    s->driver = r.driver;
    return 0;
}

/* The driver's send of a packet of n bytes, 14 to 1,514, without check bytes; the report of its end has
 * the ticket. (1, 13, 2, 3, 5, 4) */
static inline int seamtrout_send(struct seamtrout *s, const uint8_t *bytes, size_t n, uint16_t *ticket)
{
    static const uint8_t none = 0;
    struct seamtrout_raw_sent r = seamtrout_driver_send(s->ram, s->dir, s->card, s->driver, bytes ? bytes : &none, bytes ? n : 0);
    if (r.code)
        return r.code;
    s->card = r.card;
    s->driver = r.driver;
    *ticket = r.ticket;
    return 0;
}

/* The driver's service, with at most `budget` register accesses: one report, status or frame, or idle.
 * `look` has look_n bytes, 256 or more, `frame` frame_n, 1,514 or more; a frame of up to 256 bytes
 * lands in look, a longer one in frame, and answer->bytes tells. A refusal is written to *answer too:
 * its kind is SEAMTROUT_REFUSED, its bytes NULL, and out of budget its accesses are those used.
 * (1, 13, 7, 5; 6 out of budget) */
static inline int seamtrout_service(struct seamtrout *s, uint16_t budget, uint8_t *look, size_t look_n,
                                    uint8_t *frame, size_t frame_n, struct seamtrout_answer *answer)
{
    static uint8_t none;
    struct seamtrout_raw_served r = seamtrout_driver_service(s->ram, s->dir, s->card, s->driver, budget, look ? look : &none, look ? look_n : 0, frame ? frame : &none, frame ? frame_n : 0);
    s->card = r.card;
    s->driver = r.driver;
    answer->kind = (enum seamtrout_kind)r.answer.kind;
    answer->ticket = r.answer.ticket;
    answer->status = r.answer.status;
    answer->bytes = NULL;
    answer->n = 0;
    answer->accesses = r.accesses;
    if (answer->kind == SEAMTROUT_FRAME) {
        struct seamtrout_raw_part up = seamtrout_driver_hand_up(look, look_n, frame, frame_n, r.answer.n);
        answer->bytes = up.area == 1 ? look : frame;
        answer->n = up.n;
    }
    return r.answer.code;
}

/* Checks an EEPROM image of n bytes: 0 for a sound one. (2, 8, 9, 10) */
static inline int seamtrout_image_check(const uint8_t *bytes, size_t n)
{
    static const uint8_t none = 0;
    return seamtrout_image_checked(bytes ? bytes : &none, bytes ? n : 0).code;
}

/* The same, and the node address of a sound image: its words 00h to 02h. */
static inline int seamtrout_image_node(const uint8_t *bytes, size_t n, uint16_t node[3])
{
    static const uint8_t none = 0;
    struct seamtrout_raw_image r = seamtrout_image_checked(bytes ? bytes : &none, bytes ? n : 0);
    if (r.code)
        return r.code;
    node[0] = r.node0;
    node[1] = r.node1;
    node[2] = r.node2;
    return 0;
}

/* Not a call: the ID states of n cards as the archive takes them. Every card is tested here, a ninth
 * and later one too, since 1 comes before 12; at most eight have a place, and the archive refuses a
 * higher count. */
static inline int seamtrout_gather(struct seamtrout *const *cards, size_t n, struct seamtrout_raw_bus *bus)
{
    size_t i;
    memset(bus, 0, sizeof *bus);
    bus->count = n;
    for (i = 0; i < n; i++) {
        const struct seamtrout *s = cards[i];
        if (seamtrout_card_seat(s->ram, s->dir, s->card, s->card.id).code)
            return SEAMTROUT_STATE_UNSOUND;
        if (i < 8)
            bus->cards[i] = s->card.id;
    }
    return 0;
}

/* Not a call: the ID states go back into their cards. */
static inline int seamtrout_scatter(struct seamtrout *const *cards, size_t n, const struct seamtrout_raw_bus *bus)
{
    size_t i;
    for (i = 0; i < n; i++) {
        struct seamtrout_raw_done r = seamtrout_card_seat(cards[i]->ram, cards[i]->dir, cards[i]->card, bus->cards[i]);
        if (r.code)
            return r.code;
        cards[i]->card = r.card;
    }
    return 0;
}

/* The search over n cards, 0 to 8, on one ID port: *found addresses, each 48 bits with word 00h
 * highest, ascending; the k-th found card is tagged k, from 1; *accesses port accesses. (1, 12) */
static inline int seamtrout_search(struct seamtrout *const *cards, size_t n, uint16_t port,
                                   uint64_t addresses[7], size_t *found, size_t *accesses)
{
    struct seamtrout_raw_bus bus;
    struct seamtrout_raw_found r;
    size_t i;
    int code = seamtrout_gather(cards, n, &bus);
    if (code)
        return code;
    r = seamtrout_bus_search(bus, port);
    if (r.code)
        return r.code;
    for (i = 0; i < 7; i++)
        addresses[i] = r.addresses[i];
    *found = r.count;
    *accesses = r.accesses;
    return seamtrout_scatter(cards, n, &r.bus);
}

/* Activates the card with this tag, 1 to 7, at this base number, 0 to 31 (31: as preconfigured);
 * *accesses port accesses. (1, 12) */
static inline int seamtrout_activate(struct seamtrout *const *cards, size_t n, uint16_t port,
                                     uint8_t tag, uint8_t base, size_t *accesses)
{
    struct seamtrout_raw_bus bus;
    struct seamtrout_raw_activated r;
    int code = seamtrout_gather(cards, n, &bus);
    if (code)
        return code;
    r = seamtrout_bus_activate(bus, port, tag, base);
    if (r.code)
        return r.code;
    *accesses = r.accesses;
    return seamtrout_scatter(cards, n, &r.bus);
}

#endif
