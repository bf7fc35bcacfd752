#!/usr/bin/env python3
"""Random scripts for the bench: gen.py SEED LINES, the script on standard output.

Every kind of line comes, sensible and senseless, in scenes that lead a card to where things happen:
activation, sends and their outcomes, frames good and damaged, service with small and big budgets,
register pokes in all windows, EEPROM commands, the ID port with several cards, hostile lines.
"""
import random
import sys

PORTS = [0x100, 0x110, 0x110, 0x110, 0x1F0]


def sequence():
    out, b = [], 0xFF
    for _ in range(255):
        out.append(b)
        b <<= 1
        if b > 0xFF:
            b = b & 0xFF ^ 0xCF
    return out


SEQUENCE = sequence()


class Script:
    def __init__(self, seed, lines):
        self.r = random.Random(seed)
        self.lines = lines
        self.out = []
        self.address = [0, 0x60, 0x8C, 1, 2, 3]
        self.active = False
        self.suspect = False
        self.cards = 1
        self.port = 0x110

    # Lines.

    def say(self, *fields):
        r = self.r
        gap = ' ' if r.random() < 0.97 else r.choice(['  ', '\t', ' \t '])
        line = gap.join(fields)
        if r.random() < 0.01:
            line = r.choice([' ', '\t']) + line
        if r.random() < 0.01:
            line += r.choice([' ', '\t', '  # note', '#note', ' # rw 0E'])
        if r.random() < 0.01:
            line += '\r'
        self.out.append(line)

    def hex(self, value, digits):
        r = self.r
        text = '%0*X' % (digits, value)
        if r.random() < 0.1:
            text = '%X' % value
        return text.lower() if r.random() < 0.2 else text

    def data(self, values):
        text = bytes(values).hex()
        return text if self.r.random() < 0.2 else text.upper()

    def ww(self, offset, value):
        self.say('ww', self.hex(offset, 2), self.hex(value, 4))

    def wb(self, offset, value):
        self.say('wb', self.hex(offset, 2), self.hex(value, 2))

    def rw(self, offset):
        self.say('rw', self.hex(offset, 2))

    def rb(self, offset):
        self.say('rb', self.hex(offset, 2))

    def rx(self):
        self.say('rx')

    def rx_status(self):
        """RX Status by the host's hands and by its reading; Status before them tells the window."""
        self.rw(0x0E)
        self.rw(0x08)
        self.rx()

    def command(self, number, argument=0):
        word = number << 11 | argument & 0x7FF
        if self.r.random() < 0.1:
            if word & 0xFF or self.r.random() < 0.5:
                self.wb(0x0E, word & 0xFF)
            self.wb(0x0F, word >> 8)
        else:
            self.ww(0x0E, word)
        if number == 0:
            self.active = False

    def window(self, number):
        self.command(1, number | (self.r.randrange(256) << 3 if self.r.random() < 0.05 else 0))

    # Parts of scenes.

    def words(self):
        r = self.r
        kind = r.random()
        if kind < 0.05:
            words = [0] * 64
        elif kind < 0.1:
            words = [0xFFFF] * 64
        else:
            words = [r.randrange(65536) for _ in range(64)]
        if kind > 0.1:
            words[0] = 0x0060 if r.random() < 0.8 else r.choice([0, 0x0100, 0xFFFF, r.randrange(65536)])
            words[1] = r.choice([0x8C00, 0x8C00, 0x8C01, 0xFFFF, r.randrange(65536)])
            words[2] = r.choice([r.randrange(65536), r.randrange(4), 0xFFFF])
            words[7] = 0x6D50
        return words

    def bytes_of(self, words):
        return [b for w in words[:3] for b in (w >> 8, w & 0xFF)]

    def power(self):
        words = self.words()
        self.say('power', self.data(b for w in words for b in (w >> 8, w & 0xFF)))
        self.address = self.bytes_of(words)
        self.active = False
        self.cards = 1
        self.port = self.r.choice(PORTS)

    def join(self):
        words = self.words()
        if self.r.random() < 0.1:
            for i in range(3):
                words[i] = self.address[2 * i] << 8 | self.address[2 * i + 1]
        self.say('join', self.data(b for w in words for b in (w >> 8, w & 0xFF)))
        self.cards += 1

    def wake(self, port):
        for _ in range(self.r.choice([1, 2, 2, 2, 2, 3])):
            self.idw(port, 0)
        wrong = self.r.randrange(255) if self.r.random() < 0.1 else None
        for i, b in enumerate(SEQUENCE):
            if i == wrong:
                self.idw(self.r.choice([port, port, 0x130]), self.r.choice([0, 0xFF, b, self.r.randrange(256)]))
            self.idw(port, b)

    def idw(self, port, b):
        self.say('idw', self.hex(port, 3), self.hex(b, 2))

    def idr(self, port):
        self.say('idr', self.hex(port, 3))

    def activation(self):
        r = self.r
        if r.random() < 0.12:
            self.wake(self.port)
            self.idw(self.port, r.choice([0xFF, 0xFF, 0xE0 + r.randrange(32)]))
        else:
            self.say('search', self.hex(self.port, 3))
            for tag in range(1, 8):
                if tag == 1 or self.cards > 1:
                    self.say('activate', self.hex(self.port, 3), str(tag), str(r.choice([31, 31, r.randrange(32)])))
                if tag >= self.cards:
                    break
        self.active = True

    def open(self):
        a = self.address if self.r.random() < 0.95 else [self.r.randrange(256) for _ in range(6)]
        self.address = a
        self.say('open', *(self.hex(a[2 * i] << 8 | a[2 * i + 1], 4) for i in range(3)))

    def life(self):
        if self.r.random() < 0.9:
            self.power()
        while self.cards < 9 and self.r.random() < 0.2:
            self.join()
        if self.r.random() < 0.3:
            self.rx()
        if self.r.random() < 0.95:
            self.activation()
        if self.r.random() < 0.95:
            self.open()

    def wake_up(self):
        self.activation()
        self.open()

    def poke(self):
        r = self.r
        kind = r.random()
        offset = r.randrange(16)
        if kind < 0.2:
            self.rw(offset & 14)
        elif kind < 0.35:
            self.rb(offset)
        elif kind < 0.45:
            self.rw(0x0E)
        elif kind < 0.52:
            self.ww(offset & 14 if r.random() < 0.5 else r.choice([4, 6, 8, 10, 12]), r.randrange(65536))
        elif kind < 0.59:
            self.wb(offset, r.randrange(256))
        elif kind < 0.62:
            self.rw(r.choice([offset, 0x10, 0xFFFF, 0x1E]))
        elif kind < 0.64:
            self.wb(r.choice([0x10, 0, 1, 2, 3, 0x100E]), r.randrange(256))
        elif kind < 0.68:
            self.rx()
        else:
            self.any_command()

    def any_command(self):
        r = self.r
        number = r.choice([1, 1, 1, 3, 4, 4, 5, 8, 8, 9, 9, 10, 11, 12, 13, 13, 14, 15, 16, 17, 17, 18, 18, 19,
                           r.randrange(32)])
        argument = r.randrange(2048)
        if number == 0 and r.random() < 0.8:
            number = 13
        if number == 1:
            argument = r.choice([1, 1, 1, 1, r.randrange(8), argument])
        elif number in (14, 15):
            argument = r.choice([0xFF, 0xFF, 0x7FF, argument, 1 << r.randrange(8), 0xFD])
        elif number == 16:
            argument = r.choice([5, 5, 8, 2, argument])
        elif number == 17:
            argument = r.choice([0, 4, 7, 8, 9, 10, 60, 61, 64, r.randrange(100), r.randrange(1800), 1792, 2044, argument])
        elif number == 18:
            argument = r.choice([0, 4, 1000, 1792, 1795, 1796, argument])
        elif number == 13:
            argument = r.choice([0x69, 0x69, 0xFF, 1, 8, 0x20, 0x40, argument])
        self.command(number, argument)

    def all_windows(self):
        for w in range(8):
            self.window(w)
            for o in range(0 if w != 1 else 4, 16, 2):
                self.rw(o)
            self.rx()
        self.window(1)

    def back_to_work(self):
        """Window 1, masks open, both sides on: what a stray poke may have spoilt."""
        for number, argument in ((1, 1), (15, 0xFF), (16, self.r.choice([5, 15])), (4, 0), (9, 0)):
            self.command(number, argument)

    # Scenes.

    def destination(self):
        r = self.r
        kind = r.random()
        if kind < 0.65:
            return list(self.address)
        if kind < 0.8:
            return [0xFF] * 6
        if kind < 0.9:
            return [r.randrange(256) | 1] + [r.randrange(256) for _ in range(5)]
        if kind < 0.95:
            return [0xFF] * 5 + [0xFE]
        return [r.randrange(256) for _ in range(6)]

    def length(self):
        r = self.r
        return r.choice([8, 9, 10, 11, 59, 60, 60, 60, 61, 62, 63, 64, 255, 256, 257, 258, 1511, 1513, 1514, 1514, 1515,
                         1516, 1791, 1792, 1793, 1800, r.randrange(8, 80), r.randrange(60, 300), r.randrange(8, 1900)])

    def frame(self, length=None, good=None):
        r = self.r
        length = length or self.length()
        first = (self.destination() + [r.randrange(256), r.randrange(256)])[:8]
        self.say('start', self.data(first))
        rest = [r.randrange(256) for _ in range(length - 8)]
        busy = r.random() < 0.2
        self.suspect = self.suspect or busy
        while rest:
            cut = len(rest) if r.random() < 0.6 else r.randrange(1, len(rest) + 1)
            self.say('bytes', self.data(rest[:cut]))
            rest = rest[cut:]
            while busy and r.random() < 0.6:
                r.choice([self.poke, self.poke, self.service, self.read_data, self.rx_status,
                          lambda: self.command(17, r.randrange(0, 80)), lambda: self.command(8)])()
        if good is None:
            good = r.random() < 0.7
        if r.random() < 0.98:
            self.say('end', '11' if good else r.choice(['00', '01', '10', '11']))

    def early(self):
        """A small threshold of RX Early, read back, and the first bytes of a frame."""
        r = self.r
        self.command(17, r.randrange(13))
        self.window(5)
        r.choice([lambda: self.rw(6), lambda: self.rb(6), lambda: self.rb(7)])()
        self.window(1)
        self.say('start', self.data((self.destination() + [0, 0])[:8]))
        for _ in range(r.randrange(6)):
            self.rw(0x0E)
            self.say('bytes', self.data([r.randrange(256)]))
        self.rw(0x0E)
        self.say('end', '11')

    def read_data(self):
        for _ in range(self.r.choice([1, 1, 2, 3, 4, 5, 30, 31, 32])):
            self.rw(self.r.choice([0, 0, 2]))
        self.rx_status()

    def past_the_end(self):
        """A short frame read by hand, up to its end and beyond it, with the count along the way."""
        r = self.r
        if r.random() < 0.7:
            self.back_to_work()
            self.command(8)
        length = r.choice([8, 9, 10, 11, 59, 60, 61, 61, 62, 63, 64])
        self.frame(length)
        for _ in range((length + 3) // 4 * 2 + r.choice([-1, 0, 0, 0, 1, 2])):
            self.rw(r.choice([0, 0, 2]))
            if r.random() < 0.2:
                self.rx()
        self.rx_status()
        if r.random() < 0.3:
            self.window(r.randrange(8))
            self.rx_status()
            self.window(1)
        r.choice([self.service, self.mend, lambda: self.command(8), lambda: self.command(5)])()

    def frames_and_service(self):
        for _ in range(self.r.randrange(1, 5)):
            self.frame()
        for _ in range(self.r.randrange(1, 6)):
            self.service()

    def flood(self):
        """Fills the receive store."""
        length = self.r.choice([1514, 1792, 1500, 700, 1514])
        for _ in range(6144 // length + self.r.randrange(0, 3)):
            self.frame(length, self.r.random() < 0.9)
        if self.r.random() < 0.6:
            self.frame(self.r.randrange(8, 200))
        self.window(3)
        self.rw(0x0A)
        self.window(1)
        for _ in range(self.r.randrange(0, 9)):
            self.say('service', self.r.choice(['65535', '900', '760', '20']))
            self.rx_status()

    def service(self):
        r = self.r
        budget = r.choice([0, 1, 2, 3, 4, 5, 6, 32, 33, 34, 35, 760, 65535, 2000, 2000, 2000, 2000, r.randrange(40),
                           r.randrange(800), r.randrange(65536)])
        self.say('service', str(budget))

    def send(self, length=None):
        r = self.r
        length = length or r.choice([14, 15, 16, 17, 59, 60, 61, 13, 12, 1, 28, 29, 1513, 1514, 1515, 1600,
                                     r.randrange(14, 100), r.randrange(14, 1514), r.randrange(14, 1514)])
        self.say('send', self.data(r.randrange(256) for _ in range(length)))

    def outcome(self):
        self.say(self.r.choice(['sent', 'sent', 'sent', 'sent', 'collided']))

    def sends(self):
        r = self.r
        for _ in range(r.choice([1, 1, 2, 3, 17])):
            self.send(r.choice([None, 14, 14, 60]))
            if r.random() < 0.2:
                self.rw(0x0C)
        for _ in range(r.choice([0, 1, 1, 2, 3, 17])):
            self.outcome()
            if r.random() < 0.4:
                self.service()
        for _ in range(r.choice([0, 1, 2, 3, 17])):
            self.say('service', r.choice(['5', '4', '100', '100']))

    def fill_tx(self):
        for length in (1514, 1514, self.r.choice([28, 29, 14]), 14):
            self.send(length)
        self.window(3)
        self.rw(0x0C)
        self.window(1)
        for _ in range(self.r.randrange(5)):
            self.outcome()

    def packet(self):
        """A packet by hand, at times too short, too long or half."""
        r = self.r
        length = r.choice([6, 6, 6, 7, 8, 14, 15, 60, 61, 5, 0, 1792, 1793, r.randrange(2048)])
        first = length | r.choice([0x8000, 0x8000, 0, 0x2000, 0xA000, 0xFFFF & ~0x7FF])
        count = (length + 3) // 4 * 2
        if count > 40:
            count = r.choice([3, 10, count if r.random() < 0.1 else 5])
        if r.random() < 0.1:
            count = r.randrange(count + 1)
        for value in [first, r.choice([0, 0xFFFF])] + [r.randrange(65536) for _ in range(count)]:
            self.ww(r.choice([0, 0, 2]), value)
        if r.random() < 0.3:
            self.rw(0x0C)

    def packets(self):
        r = self.r
        for _ in range(r.choice([1, 1, 2, 4, 33] if r.random() < 0.3 else [1, 2])):
            self.packet()
        for _ in range(r.choice([1, 2, 4])):
            self.outcome()
            if r.random() < 0.3:
                self.rb(0x0B)
                self.wb(0x0B, r.randrange(256))
        if r.random() < 0.4:
            self.command(11)
            self.command(9)

    def fill_stack(self):
        """Thirty-one statuses."""
        r = self.r
        count = r.choice([30, 31, 32])
        for i in range(count):
            for value in (0x8006, 0, 1, 2, 3, 4):
                self.ww(0, value)
            self.outcome() if r.random() < 0.05 else self.say('sent')
            if r.random() < 0.3:
                self.command(9)
        self.command(9)
        self.packet()
        self.outcome()
        for _ in range(r.choice([0, 1, 15, 32])):
            r.choice([lambda: self.wb(0x0B, 0), lambda: self.say('service', '9'), lambda: self.rb(0x0B)])()

    def pokes(self):
        for _ in range(self.r.randrange(1, 30)):
            self.poke()
        if self.r.random() < 0.3:
            self.all_windows()
        if self.r.random() < 0.8:
            self.back_to_work()

    def eeprom(self):
        r = self.r
        self.window(0)
        for _ in range(r.randrange(1, 12)):
            kind = r.random()
            if kind < 0.3:
                r.choice([self.ww, self.wb])(0x0A, 0x30 | r.randrange(16))
            if kind < 0.2:
                self.ww(0x0C, r.randrange(65536))
            a = r.choice([0, 1, 2, 3, 8, 9, 0x12, 0x13, r.randrange(64)])
            op = r.choice([0x40, 0x40, 0x80, 0x80, 0xC0, 0x00])
            self.ww(0x0A, op | a | (r.randrange(256) << 8 if r.random() < 0.2 else 0))
            if r.random() < 0.2:
                self.wb(0x0B, r.randrange(256))
            self.ww(0x0A, 0x80 | a)
            self.rw(0x0C)
            self.rw(0x0A)
            if r.random() < 0.2:
                self.ww(r.choice([6, 8]), r.randrange(65536))
        if r.random() < 0.15:
            self.ww(4, r.choice([4, 5, 0xFFFF]))
            self.wake_up()
        self.window(1)

    def split(self):
        r = self.r
        if r.random() < 0.6:
            self.command(11)
            self.command(5)
        self.window(3)
        r.choice([self.ww, self.wb])(2, r.randrange(256))
        for o in (0, 2, 0x0A, 0x0C):
            self.rw(o)
        self.ww(r.choice([0, 2]), r.randrange(65536))
        self.rw(0)
        self.rw(0x0A)
        self.back_to_work()

    def id_play(self):
        r = self.r
        port = r.choice(PORTS + [self.port] * 4)
        if r.random() < 0.15:
            self.wake(port)
        for _ in range(r.randrange(1, 8)):
            kind = r.random()
            if kind < 0.4:
                self.idw(port, r.choice([0x80, 0x81, 0x82, 0x80 | r.randrange(64)]))
                for _ in range(r.choice([1, 3, 16, 17])):
                    self.idr(port)
            elif kind < 0.7:
                self.idw(port, r.choice([0xD0 | r.randrange(16), 0xD0, 0xE0 | r.randrange(32), 0, 0x7F, 0xFF, 0x31]))
            elif kind < 0.8:
                self.idw(r.choice([port, 0x1A0]), r.randrange(256))
            elif kind < 0.9:
                self.say('search', self.hex(r.choice([port, self.port]), 3))
            else:
                self.idr(r.choice([port, 0x1F0, 0x101, 0x210, 0xFFF0]))

    def bus(self):
        r = self.r
        for _ in range(r.randrange(1, 4)):
            self.join()
        self.say('search', self.hex(self.port, 3))
        for _ in range(r.randrange(0, 4)):
            self.say('activate', self.hex(self.port, 3), str(r.randrange(1, 8)), str(r.randrange(32)))
        if r.random() < 0.3:
            self.id_play()

    def strays(self):
        r = self.r
        r.choice([
            lambda: self.say('bytes', self.data([r.randrange(256)] * r.randrange(1, 4))),
            lambda: self.say('end', r.choice(['11', '00', '12', '1', '111', '1 1'])),
            lambda: self.say('start', self.data(self.destination() + [0] * r.randrange(4))),
            self.outcome,
            lambda: self.say('activate', self.hex(self.port, 3), str(r.choice([0, 8, 1, 255, 256, 300, 65535, 65536])),
                             str(r.choice([0, 31, 32, 255, 256, 287, 65535, 65536]))),
            lambda: self.say('search', r.choice(['111', '200', '10', '1F0', '01F0', '001F0', '1110', 'g'])),
            lambda: self.say('service', r.choice(['65535', '65536', '-1', '0x5', '5a', '00005', '0', '1e3', '', '+5',
                                                  '99999999999999999999', '000000000000000000001'])),
            self.open,
            self.service,
        ])()

    def hostile(self):
        r = self.r
        words = ['power', 'join', 'rw', 'rb', 'ww', 'wb', 'start', 'bytes', 'end', 'sent', 'collided', 'idw', 'idr',
                 'search', 'activate', 'open', 'send', 'service', 'rx', 'rx', 'RW', 'RX', 'Sent', 'what?', 'ok', '', '=',
                 'frame']
        kind = r.random()
        if kind < 0.3:
            self.say(r.choice(words), *(r.choice(['0', '0E', 'E', '00E', '0000E', '00000E', 'G', '110', '-1', 'FFFF',
                                                  '12345', '1 ', '0x0E', 'FF', '100', '10000', '31', '5'])
                                        for _ in range(r.randrange(4))))
        elif kind < 0.4:
            self.out.append(r.choice(['', ' ', '\t', '#', '# power', ' # x', '\r', ' \r', '#\r', 'sent#', 'sent #x',
                                      '#sent', 'rw#0E', 'rw 0E#', 'rw 0#E', 'sent\r', 'sent \r', 'r\rw 0E', 'rw 0E F',
                                      'rw\x0b0E', 'rw 0E\x00', '\x00', '\xff\xfe', 'rw \xe9', 'sent sent']))
        elif kind < 0.5:
            n = r.choice([8192, 8193, 8191, 9000, 20000])
            body = r.choice(['rw 0E' + ' ' * n, '#' + 'x' * n, ' ' * n, 'bytes ' + 'A5' * n, 'send ' + '00' * n,
                             'rw 0E #' + ' ' * n, 'x' * n])
            self.out.append(body[:n] + r.choice(['', '', '\r']))
        elif kind < 0.6:
            digits = r.choice([255, 256, 257, 252, 260, 4, 0])
            text = ''.join(r.choice('0123456789abcdefABCDEF') for _ in range(digits))
            if r.random() < 0.5 and text:
                at = r.randrange(len(text))
                text = text[:at] + r.choice('gG -/:@`') + text[at + 1:]
            name = r.choice(['power', 'join'])
            if len(text) == 256 and all(c in '0123456789abcdefABCDEF' for c in text):
                name = 'join'
                self.cards += 1
            self.say(name, text)
        elif kind < 0.8:
            text = ''.join(r.choice('0123456789abcdefG') for _ in range(r.randrange(20)))
            self.say(r.choice(['bytes', 'send', 'start', 'end', 'open 0 0', 'ww 0E', 'wb 0E', 'rw', 'idw 110']), text)
        else:
            text = ''.join(chr(r.choice([r.randrange(32, 127), r.randrange(32, 127), r.randrange(256)]))
                           for _ in range(r.randrange(30)))
            self.out.append(text.replace('\n', ' ').replace('\r', ' '))

    def mend(self):
        """Takes the card out of a failure or a sleep."""
        self.suspect = False
        if self.active and self.r.random() < 0.8:
            self.command(5)
            self.command(11)
            self.back_to_work()
            while self.r.random() < 0.5:
                self.say('service', '2000')
            self.say('end', '11')
        else:
            self.wake_up()

    def run(self):
        scenes = [(self.frames_and_service, 14), (self.sends, 12), (self.flood, 2), (self.fill_tx, 3), (self.packets, 6),
                  (self.fill_stack, 2), (self.pokes, 8), (self.eeprom, 4), (self.split, 3), (self.id_play, 3),
                  (self.bus, 1), (self.strays, 6), (self.hostile, 8), (self.mend, 8), (self.service, 6),
                  (self.read_data, 3), (self.all_windows, 1), (self.life, 2), (self.early, 2),
                  (self.past_the_end, 4)]
        working = [self.frames_and_service, self.sends, self.flood, self.fill_tx, self.fill_stack, self.service]
        kinds, weights = zip(*scenes)
        if self.r.random() < 0.9:
            self.life()
        while len(self.out) < self.lines:
            if not self.active and self.r.random() < 0.7:
                self.wake_up()
            scene = self.r.choices(kinds, weights)[0]
            if self.suspect and scene in working and self.r.random() < 0.7:
                self.mend()
            scene()
            self.suspect = self.suspect or scene not in working
        text = '\n'.join(self.out[:self.lines])
        if self.r.random() < 0.7:
            text += '\n'
        return text.encode('latin-1')


if __name__ == '__main__':
    if len(sys.argv) != 3:
        sys.exit('usage: gen.py SEED LINES')
    sys.stdout.buffer.write(Script(int(sys.argv[1]), int(sys.argv[2])).run())
