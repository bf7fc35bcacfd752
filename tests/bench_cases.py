#!/usr/bin/env python3
"""Writes the scripts that the program bench_scripts plays, and what it must print of them.

    tests/bench_cases.py

Every expected answer below is worked out from document 01 and the manual, by hand or by the
few lines of arithmetic that stand beside it; nothing here knows the program.
"""
import os

import bench_commands
import bench_registers
from bench_rows import WORDS, Rows
from image_cases import CARD

OUT = os.path.join(os.path.dirname(os.path.dirname(os.path.abspath(__file__))), 'crates', 'bench_scripts')
STATION = '0020AFC412E5'

SCRIPTS = []


class Script:
    def __init__(self, name, *about):
        self.name, self.lines, self.answers = name, [], []
        SCRIPTS.append(self)
        self.say(*about)

    def say(self, *text):
        for t in text:
            self.lines.append('# ' + t)

    def do(self, line, answer):
        self.lines.append(line)
        if answer is not None:
            self.answers.append(answer)

    def ok(self, *lines):
        for line in lines:
            self.do(line, 'ok')

    # ---- what most scripts begin with
    def power(self, words=CARD):
        self.ok('power ' + spelled(words))

    def awake(self, words=CARD):
        """A card alone on its port: 258 + 309 + 308 accesses find it."""
        self.power(words)
        self.do('search 110', 'found 1 accesses 875 ' + STATION)
        self.ok('activate 110 1 31')

    def opened(self, words=CARD):
        self.awake(words)
        self.ok('open 0020 AFC4 12E5')

    # ---- the wire
    def frame(self, bytes_, end='11'):
        self.ok('start ' + hexed(bytes_[:8]))
        if len(bytes_) > 8:
            self.ok('bytes ' + hexed(bytes_[8:]))
        self.ok('end ' + end)

    def rx(self, bits, unread):
        """RX Status with its signed count: bits 15-11 as given, bits 10-0 two's complement."""
        self.do('rx', 'rx %04X unread %d' % (bits | unread & 0x7FF, unread))

    def read(self, bytes_, start, end):
        """The data words of a frame from a place to a place, low byte first; pad reads 0."""
        padded = bytes_ + bytes(-len(bytes_) % 4)
        for i in range(start, end, 2):
            self.do('rw 0', '= %04X' % int.from_bytes(padded[i:i + 2], 'little'))

    def write_packet(self, data, first):
        """A packet by the host's own hands: two preamble words, the data padded to 4."""
        self.ok('ww 0 %04X' % first, 'ww 0 0000')
        padded = data + bytes(-len(data) % 4)
        for i in range(0, len(padded), 2):
            self.ok('ww 0 %04X' % (padded[i] + 256 * padded[i + 1]))


def spelled(words):
    return ''.join('%04X' % w for w in words)


def hexed(b):
    return b.hex().upper()


def at(address):
    """The card's words with another station address."""
    return [int(address[i:i + 4], 16) for i in (0, 4, 8)] + list(CARD[3:])


def frame(n, to=STATION):
    """A frame of n bytes to an address; its bytes count on."""
    return (bytes.fromhex(to) + bytes((7 * i + n) % 251 for i in range(n)))[:n]


def wire(packet):
    """What a success tells the wire: the bytes, then zeros up to 60."""
    return 'wire ' + hexed(packet + bytes(max(0, 60 - len(packet))))


def sequence():
    """The 255 bytes: from FFh on, shifted left, with CFh exclusive-or'd if a one fell out."""
    x = 0xFF
    for _ in range(255):
        yield x
        x = x * 2 % 256 ^ (0xCF if x >= 128 else 0)


def bench_table():
    s = Script('bench-table', "Document 01's bench table, row by row.")
    s.opened()
    s.say('14 bytes leave TX Free 3,052 of 3,072: 4 for the preamble and 16 for the data.')
    s.do('rw 0C', '= %04X' % 3072)
    p = frame(14)
    s.do('send ' + hexed(p), 'ticket 0')
    s.do('rw 0C', '= %04X' % 3052)
    s.say('The wire is told the packet and zeros up to 60. The report costs 4 accesses: Status, TX Status, pop, TX Status.')
    s.do('sent', wire(p))
    s.do('service 100', 'report 0 C0 accesses 4')
    s.say('Two of 1,514 leave 32; then 29 is refused 4 and 28 is taken.')
    long = frame(1514)
    s.do('send ' + hexed(long), 'ticket 1')
    s.do('send ' + hexed(long), 'ticket 2')
    s.do('rw 0C', '= %04X' % 32)
    s.do('send ' + hexed(frame(29)), 'refused 4')
    s.do('send ' + hexed(frame(28)), 'ticket 3')
    s.do('rw 0C', '= 0000')
    for ticket, q in ((1, long), (2, long), (3, frame(28))):
        s.do('sent', wire(q))
        s.do('service 5', 'report %d C0 accesses 4' % ticket)
    s.say('A good frame of 60 shows 003Ch and costs 33 accesses; one of 1,514 shows 05EAh and costs 760.')
    s.frame(frame(60))
    s.do('rw 8', '= 003C')
    s.do('service 33', 'frame look %s accesses 33' % hexed(frame(60)))
    s.frame(long)
    s.do('rw 8', '= 05EA')
    s.do('service 760', 'frame frame %s accesses 760' % hexed(long))
    s.say('59 bytes show 583Bh, 1,515 show 4DEBh, a bad check at 60 shows 683Ch. Each is dropped: 5 accesses with the idle ones.')
    for n, end, shown in ((59, '11', '583B'), (1515, '11', '4DEB'), (60, '01', '683C')):
        s.frame(frame(n), end)
        s.do('rw 8', '= ' + shown)
        s.do('service 5', 'idle accesses 5')
    s.say('61 bytes after 31 words show 07FFh, after 32 show 07FDh. A word has its low byte first; the pad reads 0.')
    f = frame(61)
    s.frame(f)
    s.read(f, 0, 62)
    s.do('rw 8', '= 07FF')
    s.rx(0, 61 - 62)
    s.do('rw 2', '= 0000')
    s.do('rw 8', '= 07FD')
    s.rx(0, 61 - 64)
    s.say('RX Discard (command 8), and the store is empty.')
    s.ok('ww E 4000')
    s.do('rw 8', '= 8000')
    s.rx(0x8000, 0)
    s.say('A search costs 566 for no cards (an address of all ones is not found), 1,184 for 2, 2,421 for 7.')
    s.power(at('FFFFFFFFFFFF'))
    s.do('search 1F0', 'found 0 accesses 566')
    s.power(at('000000000002'))
    s.ok('join ' + spelled(at('000000000001')))
    s.do('search 100', 'found 2 accesses 1184 000000000001 000000000002')
    for i in range(3, 8):
        s.ok('join ' + spelled(at('%012X' % i)))
    s.do('search 100', 'found 7 accesses 2421 ' + ' '.join('%012X' % i for i in range(1, 8)))


def id_sequence():
    s = Script('id-sequence', 'The ID sequence by hand: two zeros, 255 bytes, a read command, 16 bits of word 00h, the highest first.')
    s.power()
    row = list(sequence())
    assert row[:8] == [0xFF, 0x31, 0x62, 0xC4, 0x47, 0x8E, 0xD3, 0x69] and row[-1] == 0x98
    s.ok('idw 110 0', 'idw 110 0')
    for x in row:
        s.ok('idw 110 %02X' % x)
    s.say('80h reads word 00h into the data register; it is 0020h.')
    s.ok('idw 110 80')
    for bit in format(0x0020, '016b'):
        s.do('idr 110', '= ' + bit)
    s.say('At another port nobody answers, and the bus reads 1.')
    s.do('idr 120', '= 1')
    s.say('FFh activates the card at the base number that its EEPROM has.')
    s.do('rw E', '= FFFF')
    s.ok('idw 110 FF')
    s.do('rw E', '= 0000')
    s.say('C0h resets: the card sleeps again. First the zeros and the sequence, since activation went back to ID_WAIT.')
    s.ok('idw 110 0', 'idw 110 0')
    for x in row:
        s.ok('idw 110 %02X' % x)
    s.ok('idw 110 C0')
    s.do('rw E', '= FFFF')


def refusals():
    s = Script('refusals', 'Each refusal that a script can meet. 1 and 7 cannot be met here, 8 to 10 belong to the image program.')
    s.say('Before the first power the card has zero words and sleeps: all ones, and writes are ignored. Offsets are refused first.')
    s.do('rw E', '= FFFF')
    s.ok('ww E 0801')
    s.do('rw 10', 'refused 12')
    s.do('rw 1', 'refused 12')
    s.do('ww F 0', 'refused 12')
    s.do('rb 10', 'refused 12')
    s.say('13: a driver never opened. 12 and 13 come before 2.')
    s.do('send 00', 'refused 13')
    s.do('service 0', 'refused 13')
    s.say('11: a byte or an end without a start, a start inside a frame, an outcome with the transmitter off.')
    s.do('bytes 00', 'refused 11')
    s.do('end 11', 'refused 11')
    s.ok('start FFFFFFFFFFFF0000')
    s.do('start FFFFFFFFFFFF0000', 'refused 11')
    s.ok('end 00')
    s.do('sent', 'refused 11')
    s.do('collided', 'refused 11')
    s.say('12 on the ID port: not 1x0h, a tag outside 1 to 7, a base number above 31.')
    for line in ('idw 200 0', 'idw 111 0', 'idr 0', 'search 210', 'activate 110 0 31', 'activate 110 8 31', 'activate 110 257 1', 'activate 110 1 32', 'activate 110 1 65535'):
        s.do(line, 'refused 12')
    s.say('Eight cards are the most.')
    for i in range(7):
        s.ok('join ' + spelled(CARD))
    s.do('join ' + spelled(CARD), 'refused 12')
    s.opened()
    s.say('12: a byte of the data port, in window 1.')
    s.do('rb 3', 'refused 12')
    s.do('wb 0 0', 'refused 12')
    s.say('2: a packet of 13 bytes, or of 1,515.')
    s.do('send ' + hexed(frame(13)), 'refused 2')
    s.do('send ' + hexed(frame(1515)), 'refused 2')
    s.say('3: sixteen packets sent and unreported.')
    for i in range(16):
        s.do('send ' + hexed(frame(14)), 'ticket %d' % i)
    s.do('send ' + hexed(frame(14)), 'refused 3')
    s.say('6: a budget that is short. A report needs 4 accesses after Status.')
    s.do('service 0', 'refused 6 accesses 0')
    s.do('service 1', 'refused 6 accesses 1')
    s.do('sent', wire(frame(14)))
    s.do('service 4', 'refused 6 accesses 1')
    s.do('service 5', 'report 0 C0 accesses 4')
    s.say('5: a window other than 1. With budget 0, 6 stands in its place.')
    s.ok('ww E 0800')
    s.do('service 10', 'refused 5')
    s.do('service 0', 'refused 6 accesses 0')
    s.do('send ' + hexed(frame(14)), 'refused 5')
    s.ok('ww E 0801')
    s.do('service 10', 'idle accesses 2')
    s.say('5: Adapter Failure. A read of the empty store is a receive failure, until RX Reset (command 5) and RX Enable (4).')
    s.do('rw 0', '= 0000')
    s.rx(0x8000, 0)
    s.do('rw E', '= 2002')
    s.do('service 10', 'refused 5')
    s.ok('ww E 2800', 'ww E 2000')
    s.do('service 10', 'idle accesses 2')


def three_cards():
    s = Script('three-cards', 'Three cards on one ID port. They are found in ascending order; the second is the bench\'s own.')
    s.power()
    s.ok('join ' + spelled(at('0020AFFFFFFF')), 'join ' + spelled(at('0020AF000001')))
    s.do('search 150', 'found 3 accesses %d 0020AF000001 0020AFC412E5 0020AFFFFFFF' % (258 + 309 * 3 + 308))
    s.do('rw E', '= FFFF')
    s.say('Tag 2 at base number 5: the low five bits of Address Configuration, word 08h being 0010h. Window 0 shows the tag in bits 10-8 of 0Ah.')
    s.ok('activate 150 2 5')
    s.do('rw E', '= 0000')
    s.do('rw 6', '= 0005')
    s.do('rw A', '= 0200')
    s.say('The second card is used: it sends and receives.')
    s.ok('open 0020 AFC4 12E5')
    s.do('send ' + hexed(frame(60)), 'ticket 0')
    s.do('sent', wire(frame(60)))
    s.do('service 9', 'report 0 C0 accesses 4')
    s.frame(frame(100))
    s.do('service 100', 'frame look %s accesses 53' % hexed(frame(100)))
    s.say('A second search finds the same three: an active card still listens on the ID port.')
    s.do('search 150', 'found 3 accesses 1493 0020AF000001 0020AFC412E5 0020AFFFFFFF')
    s.do('service 9', 'idle accesses 2')


def damaged():
    s = Script('damaged', 'A damaged frame of each code, with service calls during it: nobody gets a byte of it.')
    s.opened()
    for about, n, end, shown in (
            ('code 1: longer than 1,514', 1515, '11', 0x4800 + 1515),
            ('code 1: bytes past 1,792 are dropped', 1800, '11', 0x4800 + 1792),
            ('code 3: shorter than 60', 59, '11', 0x5800 + 59),
            ('code 3 comes before 4 and 5', 8, '00', 0x5800 + 8),
            ('code 4: alignment', 60, '10', 0x6000 + 60),
            ('code 4 comes before 5', 1514, '00', 0x6000 + 1514),
            ('code 5: check', 60, '01', 0x6800 + 60)):
        s.say(about)
        f = frame(n)
        s.ok('start ' + hexed(f[:8]))
        s.do('service 10', 'idle accesses 2')
        if n > 8:
            s.ok('bytes ' + hexed(f[8:n // 2 + 4]))
            s.say('The incomplete bit stands, and codes show 0 until the end.')
            s.do('rw 8', '= %04X' % (0x8000 + min(n // 2 + 4, 1792)))
            s.do('service 10', 'idle accesses 2')
            s.ok('bytes ' + hexed(f[n // 2 + 4:]))
        s.ok('end ' + end)
        s.do('rw 8', '= %04X' % shown)
        s.do('service 10', 'idle accesses 5')
        s.do('rw 8', '= 8000')
    s.say('Out of budget after the discard: what was finished is kept.')
    s.frame(frame(60), '01')
    s.do('service 4', 'refused 6 accesses 4')
    s.do('service 2', 'idle accesses 2')
    s.say('Damaged frames before a good one: Status, RX Status and discard for each, then the good one\'s 33.')
    s.frame(frame(59))
    s.frame(frame(70), '10')
    s.frame(frame(60))
    s.do('service 100', 'frame look %s accesses %d' % (hexed(frame(60)), 3 + 3 + 33))
    s.do('service 100', 'idle accesses 2')


def overrun():
    s = Script('overrun', 'Many small frames fill the 5,120 bytes of the receive store: 85 of 60 bytes take 5,100.')
    s.opened()
    for i in range(85):
        s.frame(frame(60))
    s.say('Window 3 shows RX Free: 20 bytes are left.')
    s.ok('ww E 0803')
    s.do('rw A', '= 0014')
    s.say('The next frame stores 20 bytes; the 21st has no room and marks it overrun. Then nothing is left, and a frame is ignored to its end.')
    s.frame(frame(60))
    s.do('rw A', '= 0000')
    s.frame(frame(60))
    s.ok('ww E 0801')
    for i in range(85):
        s.do('service 33', 'frame look %s accesses 33' % hexed(frame(60)))
    s.say('Code 0: 4000h and the 20 bytes stored.')
    s.do('rw 8', '= 4014')
    s.do('service 33', 'idle accesses 5')
    s.do('service 33', 'idle accesses 2')


def early():
    s = Script('early', 'RX Early and the Interrupt Latch.')
    s.opened()
    s.say('Interrupt mask (command 14): RX Early alone, bit 5. RX Early threshold (command 17): 64 bytes.')
    s.ok('ww E 7020', 'ww E 8840')
    f = frame(200)
    s.ok('start ' + hexed(f[:8]), 'bytes ' + hexed(f[8:63]))
    s.do('rw E', '= 2000')
    s.say('The 64th byte sets RX Early, and with it the latch, bit 0.')
    s.ok('bytes ' + hexed(f[63:64]))
    s.do('rw E', '= 2021')
    s.say('Acknowledging the latch alone (command 13) does not help: its cause still stands.')
    s.ok('ww E 6801')
    s.do('rw E', '= 2021')
    s.ok('ww E 6821')
    s.do('rw E', '= 2000')
    s.say('Once per frame: more bytes do not set it again. At the end RX Complete stands, bit 4; it is not in the mask.')
    s.ok('bytes ' + hexed(f[64:]))
    s.do('rw E', '= 2000')
    s.ok('end 11')
    s.do('rw E', '= 2010')
    s.say('A frame that is not the oldest sets nothing until it is.')
    s.ok('start ' + hexed(f[:8]), 'bytes ' + hexed(f[8:100]))
    s.do('rw E', '= 2010')
    s.say('The oldest leaves (RX Discard): the coming frame has its 64 bytes already.')
    s.ok('ww E 4000')
    s.do('rw E', '= 2021')
    s.say('RX Early falls when the frame completes; the latch stays until it is acknowledged.')
    s.ok('end 11')
    s.do('rw E', '= 2011')
    s.ok('ww E 6801')
    s.do('rw E', '= 2010')


def threshold():
    s = Script('threshold', 'The threshold of RX Early is at least 8, with which a frame starts: what is stored reads back in window 5.')
    s.awake()
    s.say('At power-on it is 2,044.')
    s.ok('ww E 0805')
    s.do('rw 6', '= 07FC')
    s.ok('open 0020 AFC4 12E5')
    f = frame(60)
    for argument in (4, 0, 7, 8, 9, 10, 2047):
        stored = max(8, argument)
        s.say('Command 17 with {:,}: {:,} is stored.'.format(argument, stored))
        s.ok('ww E %04X' % (17 << 11 | argument), 'ww E 0805')
        s.do('rw 6', '= %04X' % stored)
        s.do('rb 6', '= %02X' % (stored & 0xFF))
        s.ok('ww E 0801')
        s.do('rw E', '= 2000')
        s.say('RX Early, bit 5, comes with %s.' % ('the start' if stored == 8 else 'byte %d' % stored if stored < 60 else 'no byte of 60'))
        s.ok('start ' + hexed(f[:8]))
        s.do('rw E', '= %04X' % (0x2020 if stored <= 8 else 0x2000))
        s.ok('bytes ' + hexed(f[8:9]))
        s.do('rw E', '= %04X' % (0x2020 if stored <= 9 else 0x2000))
        s.ok('bytes ' + hexed(f[9:]))
        s.do('rw E', '= %04X' % (0x2020 if stored <= 60 else 0x2000))
        s.ok('end 11')
        s.do('rw E', '= 2010')
        s.ok('ww E 4000')
    s.say('By bytes: the low byte of the command is held, and its high byte executes it.')
    s.ok('wb E 03', 'wb F 88', 'ww E 0805')
    s.do('rw 6', '= 0008')
    s.say('In window 0 the command does nothing.')
    s.ok('ww E 8C00', 'ww E 0800', 'ww E 8801', 'ww E 0805')
    s.do('rw 6', '= 0400')
    s.say('A frame that has its 8 bytes when the command comes: the bit is set at once.')
    s.ok('ww E 0801', 'start ' + hexed(f[:8]))
    s.do('rw E', '= 2000')
    s.ok('ww E 8801')
    s.do('rw E', '= 2020')
    s.say('RX Reset restores 2,044.')
    s.ok('ww E 2800', 'ww E 0805')
    s.do('rw 6', '= 07FC')


def unread():
    s = Script('unread', 'The reading of RX Status with its signed count: the stored bytes of the oldest frame less the bytes read.',
               'Bits 10-0 of its word hold that number, -3 to 1,792, in two\'s complement.')
    s.say('An inactive card: all ones, and 0. The line has no operand.')
    s.do('rx', 'rx FFFF unread 0')
    s.do('rx 8', 'what?')
    s.awake()
    s.say('An empty store, in window 0 and opened in window 1.')
    s.rx(0x8000, 0)
    s.ok('open 0020 AFC4 12E5')
    s.rx(0x8000, 0)
    s.do('rx 8', 'what?')
    s.say('61 bytes: after 31 words a byte of the pad is read and the count is -1; after 32 all of it, -3.')
    f = frame(61)
    s.frame(f)
    s.rx(0, 61)
    s.read(f, 0, 60)
    s.rx(0, 61 - 60)
    s.read(f, 60, 62)
    s.rx(0, 61 - 62)
    s.do('rw 8', '= 07FF')
    s.read(f, 62, 64)
    s.rx(0, 61 - 64)
    s.do('rw 8', '= 07FD')
    s.say('The 33rd word finds fewer than 2 bytes: the failure. The count stays, and so it does at the next read and at a discard.')
    s.do('rw E', '= 2010')
    s.do('rw 0', '= 0000')
    s.do('rw E', '= 2012')
    s.rx(0, 61 - 64)
    s.do('rw 0', '= 0000')
    s.ok('ww E 4000')
    s.rx(0, 61 - 64)
    s.say('RX Reset (command 5); RX filter (16) and RX Enable (4) again. The store is empty.')
    s.ok('ww E 2800', 'ww E 8005', 'ww E 2000')
    s.rx(0x8000, 0)
    s.say('By its length a frame\'s count ends at 0, -3, -2 or -1; here runts, error and code 3. After RX Discard the store is empty.')
    for n, least in ((8, 0), (9, -3), (10, -2), (11, -1)):
        s.frame(frame(n))
        s.rx(0x5800, n)
        s.read(frame(n), 0, n - least)
        s.rx(0x5800, least)
        s.do('rw E', '= 2010')
        s.ok('ww E 4000')
        s.rx(0x8000, 0)
    s.say('A frame that is coming has no pad: 61 bytes have come, 30 words are read, 1 byte is left, and the next read is the failure.')
    s.ok('start ' + hexed(f[:8]))
    s.rx(0x8000, 8)
    s.ok('bytes ' + hexed(f[8:]))
    s.rx(0x8000, 61)
    s.read(f, 0, 60)
    s.rx(0x8000, 61 - 60)
    s.do('rw E', '= 2000')
    s.do('rw 0', '= 0000')
    s.do('rw E', '= 2002')
    s.rx(0x8000, 61 - 60)
    s.say('The wire is stored as before; the end brings the pad, and the failure stands.')
    s.ok('bytes 5A')
    s.rx(0x8000, 62 - 60)
    s.ok('end 11')
    s.rx(0, 62 - 60)
    s.do('rw 0', '= 0000')
    s.rx(0, 62 - 60)
    s.ok('ww E 2800', 'ww E 8005', 'ww E 2000')
    s.say('Complete in time, the same 61 bytes have their pad: two words more. The check is bad: error, code 5.')
    s.ok('start ' + hexed(f[:8]), 'bytes ' + hexed(f[8:]))
    s.read(f, 0, 60)
    s.ok('end 01')
    s.rx(0x6800, 61 - 60)
    s.read(f, 60, 62)
    s.rx(0x6800, 61 - 62)
    s.read(f, 62, 64)
    s.rx(0x6800, 61 - 64)
    s.do('rw 8', '= 6FFD')
    s.do('rw E', '= 2010')
    s.say('In every window the answer is that of window 1\'s register.')
    for window in (0, 2, 3, 4, 5, 6, 7, 1):
        s.ok('ww E %04X' % (0x0800 + window))
        s.rx(0x6800, 61 - 64)
    s.ok('ww E 4000')
    s.say('The most: 1,792 bytes, still coming, and complete with code 1, longer than 1,514.')
    s.ok('start ' + hexed(f[:8]), 'bytes ' + 'A5' * 1784)
    s.rx(0x8000, 1792)
    s.say('A byte more is dropped.')
    s.ok('bytes A5')
    s.rx(0x8000, 1792)
    s.ok('end 11')
    s.rx(0x4800, 1792)
    s.do('rw 8', '= 4F00')
    s.say('The answer is of the oldest frame: a good one behind it is counted when it stands in front.')
    s.frame(frame(100))
    s.rx(0x4800, 1792)
    s.ok('ww E 4000')
    s.rx(0, 100)
    s.say('The driver takes a good count of 60 to 1,514 and drops others: 61 after one word is 59, 62 after one word is 60.')
    s.ok('ww E 4000')
    for n, read in ((61, 2), (61, 64)):
        s.frame(frame(n))
        s.read(frame(n), 0, read)
        s.rx(0, n - read)
        s.do('service 100', 'idle accesses 5')
    s.frame(frame(62))
    s.read(frame(62), 0, 2)
    s.rx(0, 60)
    s.do('service 100', 'frame look %s accesses 33' % hexed(frame(62)[2:]))
    s.say('Global Reset (command 0): the card is inactive.')
    s.frame(f)
    s.rx(0, 61)
    s.ok('ww E 0000')
    s.do('rx', 'rx FFFF unread 0')


def statuses():
    s = Script('statuses', 'The status stack is 31 deep.')
    s.opened()
    for i in range(31):
        s.write_packet(bytes(14), 0x800E)
        s.do('sent', wire(bytes(14)))
    s.say('TX Complete stands, bit 2. The 31st push added 04h and turned the transmitter off; TX Enable (command 9) does nothing while the stack is full.')
    s.do('rw E', '= 2004')
    s.do('rb B', '= C0')
    s.write_packet(bytes(14), 0x800E)
    s.do('sent', 'refused 11')
    s.ok('ww E 4800')
    s.do('sent', 'refused 11')
    s.say('A write pops the oldest. Now TX Enable acts.')
    s.ok('wb B 0')
    s.do('sent', 'refused 11')
    s.ok('ww E 4800')
    s.do('sent', wire(bytes(14)))
    s.say('That filled the stack again: the last two are C4h.')
    for i in range(29):
        s.do('rb B', '= C0')
        s.ok('wb B 0')
    s.do('rb B', '= C4')
    s.ok('wb B 0')
    s.do('rb B', '= C4')
    s.ok('wb B 0')
    s.say('Empty reads 00h, and a pop does nothing.')
    s.do('rb B', '= 00')
    s.ok('wb B 0')
    s.do('rw E', '= 2000')
    s.say('A service tells a status without a ticket, since the driver sent no packet. It saw no error since its TX Enable.')
    s.ok('ww E 4800')
    s.write_packet(bytes(14), 0x800E)
    s.do('sent', wire(bytes(14)))
    s.do('service 10', 'status C0 accesses 4')


def collisions():
    s = Script('collisions', '16 collisions turn the transmitter off; the driver restarts it once no status is left unread.')
    s.opened()
    for i in range(3):
        s.do('send ' + hexed(frame(20)), 'ticket %d' % i)
    s.do('sent', wire(frame(20)))
    s.ok('collided')
    s.say('88h, with completion wanted C8h. The transmitter is off.')
    s.do('sent', 'refused 11')
    s.do('collided', 'refused 11')
    s.say('The first report leaves the error status unread: no restart. The second costs 5, TX Enable among them.')
    s.do('service 100', 'report 0 C0 accesses 4')
    s.do('sent', 'refused 11')
    s.do('service 100', 'report 1 C8 accesses 5')
    s.do('sent', wire(frame(20)))
    s.do('service 100', 'report 2 C0 accesses 4')
    s.say('Without completion wanted a collision still tells 88h; a success tells nothing.')
    s.write_packet(frame(20), 0x0014)
    s.do('sent', wire(frame(20)))
    s.do('rb B', '= 00')
    s.write_packet(frame(20), 0x0014)
    s.ok('collided')
    s.do('rb B', '= 88')
    s.do('service 100', 'status 88 accesses 5')
    s.say('Bit 13 of the preamble: the check is included, and the wire gets no zeros.')
    s.write_packet(frame(20), 0x2014)
    s.do('sent', 'wire ' + hexed(frame(20)))


def eeprom():
    s = Script('eeprom', "The EEPROM through window 0. A command's low byte: 80h read, 40h write, C0h erase, with the word's offset; 30h enables one erase or write.")
    s.awake()
    s.say('Manufacturer ID; Product ID, word 03h as loaded at the reset.')
    s.do('rw 0', '= 6D50')
    s.do('rw 2', '= 9150')

    def word(n, value):
        s.ok('ww A %04X' % (0x80 + n))
        s.do('rw C', '= %04X' % value)

    word(0, 0x0020)
    s.say('0Ah shows the tag, 1, and the last command.')
    s.do('rw A', '= 0180')
    word(1, 0xAFC4)
    s.say('A write that is not enabled does nothing.')
    s.ok('ww C 0F0F', 'ww A 0043')
    word(3, 0x9150)
    s.say('Enabled, it clears bits: 9150h and 0F0Fh are 0100h. It is disabled again at once, so that the erase does nothing.')
    s.ok('ww A 0030', 'ww C 0F0F', 'ww A 0043')
    word(3, 0x0100)
    s.ok('ww A 00C3')
    word(3, 0x0100)
    s.say('Erase writes all ones; then the word can be written whole.')
    s.ok('ww A 0030', 'ww A 00C3')
    word(3, 0xFFFF)
    s.ok('ww A 0030', 'ww C 9050', 'ww A 0043')
    word(3, 0x9050)
    s.say('Product ID is what the last reset loaded. Bit 2 of Configuration Control resets: the card sleeps, and wakes with the new word.')
    s.do('rw 2', '= 9150')
    s.ok('ww 4 0004')
    s.do('rw 2', '= FFFF')
    s.do('search 110', 'found 1 accesses 875 ' + STATION)
    s.ok('activate 110 1 31')
    s.do('rw 2', '= 9050')
    s.say('20h erases all, 10h writes all.')
    s.ok('ww A 0030', 'ww A 0020')
    word(0, 0xFFFF)
    word(0x3F, 0xFFFF)
    s.ok('ww A 0030', 'ww C A5A5', 'ww A 0010')
    word(0x00, 0xA5A5)
    word(0x2A, 0xA5A5)


def registers():
    s = Script('registers', 'Every register of every window, and every command. Behind each line stands the reason of its answer.')
    r = Rows(s)
    r.row('power ' + spelled(WORDS), 'ok', 'the words 03h, 08h, 09h, 12h, 13h are of this script')
    bench_registers.play(r)
    bench_commands.play(r)


def hostile():
    s = Script('hostile', 'Lines that are not understood answer what? and change nothing. A # starts a comment wherever it stands.')
    s.opened()
    s.lines += ['', '   ', '\t', '# rw E', '   # rw E', '#']
    for line in (
            'rwe E', 'RW E', 'rw', 'rw E 0', 'rx 0', 'rx 8', 'RX', 'rxx', 'r x', 'rx\r8', 'rw G', 'rw 10000', 'rw -1', 'rw 0x0E', 'rw 1 # 2 #', 'ww E', 'ww E 0 0', 'ww E 10000', 'wb E 100',
            'power', 'power 00', 'power ' + '0' * 255, 'power ' + '0' * 258, 'power ' + '0' * 255 + 'g', 'join 0',
            'start 00', 'start ' + '0' * 15, 'start ' + '0' * 18, 'start', 'bytes', 'bytes 0', 'bytes 0g', 'bytes 00 00',
            'end', 'end 1', 'end 111', 'end 12', 'end 21', 'end 1 1', 'sent 1', 'collided now', 'idw 110', 'idw 110 100', 'idr', 'idr 110 0',
            'search', 'search 110 1', 'activate 110 1', 'activate 110 65536 0', 'activate 110 A 0', 'activate 110 1 65536', 'activate 110 1 31 0',
            'open 0 0', 'open 0 0 10000', 'open 0 0 0 0', 'send', 'send 0', 'send 000', 'send 0x', 'service', 'service A', 'service 65536',
            'service 99999999999999999999', 'service 1 1', 'service -1', 'activate1', 'activated 110 1 31', 'servicee 1', '=', 'ok', 'what?', '\\', 'é', '*' * 8192):
        s.do(line, None if line == 'rw 1 # 2 #' else 'what?')
        if line == 'rw 1 # 2 #':
            s.answers.append('refused 12')
    s.say('Understood: blanks in any number, either case of digits, zeros in front, a comment behind.')
    for line in ('rw E', '  rw \t 0e  ', 'rw 0000000E', 'rw e # Status', 'rw E#Status', 'rw E\r', 'rw E   \r'):
        s.do(line, '= 2000')
    for line in ('rx', ' \trx', 'rx ', 'rx#8', 'rx # 8', 'rx\r'):
        s.do(line, 'rx 8000 unread 0')
    s.do('service 00000000000000000000000002', 'idle accesses 2')
    s.do('service 65535', 'idle accesses 2')
    s.say('8,192 characters are a line; 8,193 are not. A carriage return before the newline does not count.')
    s.do('rw E' + ' ' * 8188, '= 2000')
    s.do('rw E' + ' ' * 8188 + '\r', '= 2000')
    s.do('rw E' + ' ' * 8189, 'what?')
    s.do('rw E' + ' ' * 20000, 'what?')
    s.do('# ' + 'x' * 8191, 'what?')
    s.say('The longest packet that a line can spell is refused 2.')
    s.do('send ' + '0' * 8186, 'refused 2')
    s.say('Nothing of this changed anything, and a last line without a newline counts.')
    s.do('rw E', '= 2000')
    s.lines.append('rw 8')
    s.answers.append('= 8000')
    s.last = True


def cut_image():
    s = Script('cut-image', 'The story of the cut image: a long frame whose first block looks fine and whose end gives a code.')
    s.opened()
    f = bytes.fromhex(STATION) + bytes.fromhex('0060970B4F21') + b'\x88\xb5' + b'IMAGE pump 7 block 1 of 3\x00\x00\x00' + bytes(range(200)) * 6
    s.say('The first block is here: address and name are right, and the frame is still coming. The driver hands up nothing.')
    s.ok('start ' + hexed(f[:8]), 'bytes ' + hexed(f[8:256]))
    s.do('rw 8', '= %04X' % (0x8000 + 256))
    s.do('service 1000', 'idle accesses 2')
    s.say('The rest comes, and the check sequence is bad: RX Status shows the error and code 5. The driver drops the frame whole.')
    s.ok('bytes ' + hexed(f[256:]), 'end 01')
    s.do('rw 8', '= %04X' % (0x6800 + len(f)))
    s.do('service 1000', 'idle accesses 5')
    s.say('Sent again and whole, it is handed up as it came: Status, RX Status, its words, the discard.')
    s.frame(f)
    s.do('service 1000', 'frame frame %s accesses %d' % (hexed(f), 3 + (len(f) + 1) // 2))
    s.do('service 1000', 'idle accesses 2')


def first_session():
    s = Script('first-session', 'A first session: a card is powered, found, activated and opened; a packet goes out and a frame comes in.')
    s.power()
    s.say('Until it is activated it reads all ones.')
    s.do('rw E', '= FFFF')
    s.say('The search finds it on ID port 110h and tags it 1; activation at base number 31 keeps its own base.')
    s.do('search 110', 'found 1 accesses 875 ' + STATION)
    s.ok('activate 110 1 31')
    s.say('Status in window 0: nothing pending.')
    s.do('rw E', '= 0000')
    s.ok('open 0020 AFC4 12E5')
    s.say('Status in window 1. TX Free is 0C00h: 3,072 bytes.')
    s.do('rw E', '= 2000')
    s.do('rw C', '= 0C00')
    s.say('A packet of 14 bytes. TX Free falls by its preamble and its length rounded up: 20 bytes.')
    packet = bytes.fromhex('FFFFFFFFFFFF' + STATION + '0800')
    s.do('send ' + hexed(packet), 'ticket 0')
    s.do('rw C', '= %04X' % (3072 - 20))
    s.say('The wire takes it, with zeros up to 60 bytes; the driver reports its ticket and status.')
    s.do('sent', wire(packet))
    s.do('service 100', 'report 0 C0 accesses 4')
    s.say('A frame of 60 bytes for this station comes, and is handed up in the lookahead area: 33 accesses.')
    s.frame(frame(60))
    s.do('service 100', 'frame look %s accesses 33' % hexed(frame(60)))
    s.say('Nothing is left.')
    s.do('service 100', 'idle accesses 2')
    s.say('A packet of one byte, and an offset above 0Fh: each refusal has its number.')
    s.do('send 00', 'refused 2')
    s.do('rw 11', 'refused 12')


# The scripts that stand under examples/ too, for readers.
EXAMPLES = ('first-session', 'three-cards', 'cut-image')


def main():
    for make in (first_session, bench_table, id_sequence, refusals, three_cards, damaged, overrun, early, threshold, unread, statuses, collisions, eeprom, hostile, cut_image, registers):
        make()
    os.makedirs(os.path.join(OUT, 'data'), exist_ok=True)
    out = []
    for s in SCRIPTS:
        text = '\n'.join(s.lines) + ('' if hasattr(s, 'last') else '\n')
        for folder in [os.path.join(OUT, 'data')] + [os.path.join(OUT, '..', '..', 'examples')] * (s.name in EXAMPLES):
            with open(os.path.join(folder, s.name), 'wb') as f:
                f.write(text.encode())
        out += ['== ' + s.name] + s.answers
    with open(os.path.join(OUT, 'args'), 'w') as f:
        f.write(''.join(s.name + '\n' for s in SCRIPTS))
    with open(os.path.join(OUT, 'stdout'), 'w') as f:
        f.write('\n'.join(out) + '\n')


if __name__ == '__main__':
    main()
