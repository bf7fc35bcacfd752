"""What the script `registers` is made of: the card's words, and lines with an answer and a reason each.

Each line of the script has its answer beside it and, behind a #, the reason: a sentence of document 01
or of the manual in short, or the number of a decision (docs/DECISIONS.md). bench_registers.py and
bench_commands.py have the lines.
"""
from image_cases import CARD

# The card's words with a value of its own in each register that a reset loads.
PRODUCT, ADDRESS, RESOURCE, FIRST, SECOND = 0x03, 0x08, 0x09, 0x12, 0x13
WORDS = list(CARD)
WORDS[PRODUCT] = 0x9150
WORDS[ADDRESS] = 0x1290   # base number 10h
WORDS[RESOURCE] = 0x5F00
WORDS[FIRST] = 0xA5DF     # RAM WIDTH, bit 3, is set, and reads 0
WORDS[SECOND] = 0xC379    # RAM partition 1, 2,048:6,144; Plug and Play only

STATION = '0020AFC412E5'
SHORT = {'all': 'FFFFFFFFFFFF0020', 'group': '01005E0000010020', 'own': STATION + '0060'}
PACKET = 'wire 112233445566' + '00' * 54


class Rows:
    """Lines with an answer and a reason each."""

    def __init__(self, script):
        self.s = script
        self.say = script.say

    def row(self, line, answer, why):
        self.s.do('%s # %s' % (line, why), answer)

    def read(self, o, word, why):
        self.row('rw %X' % o, '= %04X' % word, why)

    def byte(self, o, byte, why):
        self.row('rb %X' % o, '= %02X' % byte, why)

    def write(self, o, word, why):
        self.row('ww %X %04X' % (o, word), 'ok', why)

    def put(self, o, byte, why):
        self.row('wb %X %02X' % (o, byte), 'ok', why)

    def command(self, number, argument, why):
        self.row('ww E %04X' % (number << 11 | argument), 'ok', why)

    def window(self, number):
        self.command(1, number, 'Select Window %d' % number)

    def refused(self, line, number, why):
        self.row(line, 'refused %d' % number, why)

    def words(self, *rows):
        for o, word, why in rows:
            self.read(o, word, why)

    def absent(self, offsets, why='not there: reads 0, ignores writes'):
        """Words and bytes that read 0 before and after a write."""
        for o in offsets:
            self.read(o, 0, why)
            self.write(o, 0xFFFF, why)
            self.read(o, 0, why)
            for b in (o, o + 1):
                self.put(b, 0xFF, why)
                self.byte(b, 0, why)

    def fixed(self, o, word, why):
        """A register that is read only: word and bytes before and after a write."""
        self.read(o, word, why)
        self.write(o, word ^ 0xFFFF, 'read only')
        self.put(o, word & 0xFF ^ 0xFF, 'read only')
        self.put(o + 1, word >> 8 ^ 0xFF, 'read only')
        self.read(o, word, 'read only')
        self.byte(o, word & 0xFF, 'its low byte')
        self.byte(o + 1, word >> 8, 'its high byte')

    def wake(self, base=31, address=STATION):
        """A card alone on its port: 258 + 309 + 308 accesses find it."""
        self.row('search 110', 'found 1 accesses 875 ' + address, '258 + 309 + 308 accesses; the card is tagged 1')
        self.row('activate 110 1 %d' % base, 'ok', 'base number 31 is the preconfigured one' if base == 31 else 'base number %d' % base)

    def short(self, to, why):
        """A frame of 8 bytes. Stored, it shows 5808h: error, code 3, 8 bytes."""
        self.row('start ' + SHORT[to], 'ok', why)
        self.row('end 11', 'ok', 'check and alignment good')

    def packet(self, first, why):
        """A packet of 6 bytes and 2 of padding, through both ports: 12 bytes of the FIFO."""
        self.write(0, first, why)
        self.write(2, 0x0000, 'second preamble word; 02 is treated as 00')
        for o, word in ((0, 0x2211), (2, 0x4433), (0, 0x6655), (2, 0x0000)):
            self.write(o, word, 'data, padded to 4')

    def defaults(self, where):
        """Window 5 as a reset leaves it."""
        self.words((0x0, 0x07FC, 'TX Start threshold 2,044 ' + where),
                   (0x2, 0x07FC, 'TX Available threshold 2,044 ' + where),
                   (0x4, 0x0000, 'not there'),
                   (0x6, 0x07FC, 'RX Early threshold 2,044 ' + where),
                   (0x8, 0x0000, 'RX filter 0 ' + where),
                   (0xA, 0x0000, 'interrupt mask 0 ' + where),
                   (0xC, 0x0000, 'Read Zero mask 0 ' + where))
