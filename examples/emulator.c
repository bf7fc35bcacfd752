/* A machine with one modelled 3C509B at 300h: the guest's port accesses go to the card, a frame comes
 * from the network, and the card's interrupt line is polled after each. */
#include <stdio.h>
#include "seamtrout.h"

static struct seamtrout card;

/* The guest reads or writes a port. Seamtrout refuses an access that the bus cannot make. */
static uint16_t port_in(uint16_t port, int is_word)
{
    uint16_t word = 0xFFFF;
    uint8_t byte = 0xFF;
    if ((port & 0xFF0F) == 0x0100) {
        if (seamtrout_id_read(&card, port, &byte))
            return 0xFFFF;
        return byte ? 0xFFFF : 0xFFFE;
    }
    if (port < 0x300 || port > 0x30F || !seamtrout_active(&card) || seamtrout_base(&card) != 0x10)
        return 0xFFFF;
    if (is_word)
        return seamtrout_read_word(&card, port & 0x0F, &word) ? 0xFFFF : word;
    return seamtrout_read_byte(&card, port & 0x0F, &byte) ? 0xFF : byte;
}

static void port_out(uint16_t port, uint16_t value, int is_word)
{
    if ((port & 0xFF0F) == 0x0100)
        (void)seamtrout_id_write(&card, port, (uint8_t)value);
    else if (port >= 0x300 && port <= 0x30F && seamtrout_active(&card) && seamtrout_base(&card) == 0x10)
        (void)(is_word ? seamtrout_write_word(&card, port & 0x0F, value)
                       : seamtrout_write_byte(&card, port & 0x0F, (uint8_t)value));
}

/* The interrupt line that the card drives now, 0 for none. */
static unsigned interrupt_line(void)
{
    uint16_t line = 0;
    (void)seamtrout_interrupt_line(&card, &line);
    return line;
}

/* What a debugger shows of RX Status, in whatever window the guest is: the unread bytes, below 0 past the end. */
static int unread_bytes(void)
{
    uint16_t word;
    int16_t unread = 0;
    (void)seamtrout_rx_status(&card, &word, &unread);
    return unread;
}

/* A frame of n bytes, 8 or more, without check bytes, from the network. */
static void frame_in(const uint8_t *bytes, size_t n)
{
    size_t i;
    (void)seamtrout_wire_start(&card, bytes);
    for (i = 8; i < n; i++)
        (void)seamtrout_wire_byte(&card, bytes[i]);
    (void)seamtrout_wire_end(&card, true, true);
}

int main(void)
{
    static const uint16_t words[64] = {0x0020, 0xAFC4, 0x12E5, 0x9050, 0, 0, 0, 0x6D50, 0x0010, 0xAF00}; /* IRQ 10 */
    uint8_t frame[60] = {0x00, 0x20, 0xAF, 0xC4, 0x12, 0xE5}, out[1792], b = 0xFF;
    size_t i, n;

    seamtrout_power_on(&card, words);

    /* What a guest's driver does: wake the card by the ID sequence, activate it at 300h .. */
    port_out(0x110, 0, 0);
    port_out(0x110, 0, 0);
    for (i = 0; i < 255; i++, b = (uint8_t)(b & 0x80 ? (b << 1) ^ 0xCF : b << 1))
        port_out(0x110, b, 0);
    port_out(0x110, 0xE0 + 0x10, 0);
    /* .. ENA in window 0, for the interrupt drivers; station address in window 2; window 1, filter,
     * masks, RX Enable, TX Enable .. */
    port_out(0x304, 1, 1);
    port_out(0x30E, 1 << 11 | 2, 1);
    for (i = 0; i < 6; i++)
        port_out((uint16_t)(0x300 + i), frame[i], 0);
    port_out(0x30E, 1 << 11 | 1, 1);
    port_out(0x30E, 16 << 11 | 5, 1);
    port_out(0x30E, 15 << 11 | 0xFE, 1);
    port_out(0x30E, 14 << 11 | 0x10, 1);
    port_out(0x30E, 4 << 11, 1);
    port_out(0x30E, 9 << 11, 1);

    /* .. a frame comes, the line rises, and the guest reads it. */
    printf("interrupt line %u, ", interrupt_line());
    frame_in(frame, sizeof frame);
    printf("then %u, RX Status %04X, ", interrupt_line(), (unsigned)port_in(0x308, 1));
    printf("first word %04X, ", (unsigned)port_in(0x300, 1));
    printf("%d bytes unread\n", unread_bytes());

    /* The guest writes a packet of 14 bytes; the network takes it. */
    port_out(0x300, 0x8000 | 14, 1);
    for (i = 0; i < 9; i++)
        port_out(0x300, (uint16_t)(i * 0x0101), 1);
    if (seamtrout_sent(&card, out, &n) == 0)
        printf("sent %u bytes, TX Status %02X\n", (unsigned)n, (unsigned)port_in(0x30B, 0));
    return 0;
}
