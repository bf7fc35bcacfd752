"""The first half of the script `registers`: every register of every window, and the values that commands set."""
from bench_rows import STATION


def sleeping(r):
    r.say('An inactive card reads all ones and ignores writes; offsets are refused before that (decision 6).')
    for o in range(0, 16, 2):
        r.read(o, 0xFFFF, 'inactive: all ones')
    for o in range(16):
        r.byte(o, 0xFF, 'inactive: all ones')
    r.row('rx', 'rx FFFF unread 0', 'inactive: all ones, nothing unread')
    for o, word in ((0, 0x1111), (2, 0x2222), (4, 0x0001), (6, 0x3333), (8, 0x4444), (0xA, 0x0083), (0xC, 0x5555)):
        r.write(o, word, 'inactive: ignored')
    r.write(0xE, 0x0805, 'inactive: no Select Window')
    r.put(0xE, 0x05, 'inactive: no low byte of a command is held')
    for line in ('rw 10', 'rw FFFF', 'rb 10', 'ww 10 0', 'wb 10 0'):
        r.refused(line, 12, 'offset above 0Fh')
    for line in ('rw 1', 'rw F', 'ww 3 0', 'ww F 0'):
        r.refused(line, 12, 'odd offset for a word')


def setup(r):
    r.say('Window 0, Setup. At power-on the masks are 0: Status has the window alone.')
    r.read(0xE, 0x0000, 'window 0, nothing visible')
    r.put(0xF, 0x08, 'the high byte executes; the low byte held is 0: Select Window 0')
    r.read(0xE, 0x0000, 'window 0')
    r.byte(0xE, 0x00, '8-bit reads also allowed to either byte')
    r.byte(0xF, 0x00, 'window 0')
    r.fixed(0x0, 0x6D50, 'Manufacturer ID')
    r.fixed(0x2, 0x9150, 'Product ID, word 03h')
    r.say('Configuration Control: bit 14 ISA, bits 11-10 normal operation, bit 8 on-chip VCO; ENA is bit 0, RST bit 2 (decision 2).')
    r.read(0x4, 0x4D00, 'ENA is 0 at power-on')
    r.write(0x4, 0xFFFB, 'all but RST')
    r.read(0x4, 0x4D01, 'ENA is kept, the others are read only')
    r.byte(0x4, 0x01, 'its low byte')
    r.byte(0x5, 0x4D, 'its high byte')
    r.put(0x5, 0xFE, 'the high byte is read only, and its bit 2 is no RST')
    r.read(0x4, 0x4D01, 'unchanged')
    r.put(0x4, 0xFA, 'ENA cleared by the low byte')
    r.read(0x4, 0x4D00, 'ENA is 0')
    r.put(0x4, 0x01, 'ENA set by the low byte')
    r.read(0x4, 0x4D01, 'ENA is 1')
    r.say('Address and Resource Configuration: loaded from words 08h and 09h, read/write.')
    for o, loaded, what in ((0x6, 0x1290, 'Address Configuration, word 08h'), (0x8, 0x5F00, 'Resource Configuration, word 09h')):
        word = {0x6: 0xA5B7, 0x8: 0x9A71}[o]
        r.read(o, loaded, what)
        r.write(o, word, 'read/write')
        r.read(o, word, 'kept')
        r.put(o, 0x3C, 'a byte write changes that byte (decision 1)')
        r.read(o, word & 0xFF00 | 0x3C, 'the low byte changed')
        r.put(o + 1, 0xC5, 'the other byte')
        r.read(o, 0xC53C, 'the high byte changed')
        r.byte(o, 0x3C, 'its low byte')
        r.byte(o + 1, 0xC5, 'its high byte')
        r.write(o, word, 'a word again')
    r.read(0x6, 0xA5B7, 'the two are apart')
    r.read(0x8, 0x9A71, 'the two are apart')


def eeprom(r):
    def word(n, value, why):
        r.write(0xA, 0x80 | n, 'Read Register, 10 aaaaaa')
        r.read(0xC, value, why)

    r.say('EEPROM Command: the tag in bits 10-8, the last command in 7-0 (decision 2). EEPROM Data is the register that the ID port shifts:',
          'in the last round of the search the tagged card still obeyed the read commands, and took no part in the reads.')
    r.read(0xA, 0x0100, 'tag 1; no command yet')
    r.read(0xC, 0x12E5, 'word 02h, read by 82h at the ID port')
    r.write(0xC, 0x1234, 'EEPROM Data, read/write')
    r.read(0xC, 0x1234, 'kept')
    r.put(0xC, 0x56, 'a byte write changes that byte')
    r.read(0xC, 0x1256, 'the low byte changed')
    r.put(0xD, 0x78, 'the other byte')
    r.read(0xC, 0x7856, 'the high byte changed')
    r.byte(0xC, 0x56, 'its low byte')
    r.byte(0xD, 0x78, 'its high byte')
    word(0x03, 0x9150, 'word 03h')
    r.read(0xA, 0x0183, 'the last command; not busy')
    r.byte(0xA, 0x83, 'its low byte')
    r.byte(0xB, 0x01, 'the tag')
    r.put(0xA, 0x92, 'executes when its low byte is written (decision 1)')
    r.read(0xC, 0xA5DF, 'word 12h as stored, bit 3 too')
    r.put(0xB, 0xFF, 'the high byte executes nothing; the tag is read only')
    r.read(0xC, 0xA5DF, 'unchanged')
    r.read(0xA, 0x0192, 'unchanged')
    r.write(0xA, 0xFF84, 'a word write executes its low byte')
    r.read(0xC, 0x5C6A, 'word 04h')
    r.read(0xA, 0x0184, 'the tag is read only')
    r.say('Erase and Write act only after Erase/Write Enable, and end with Erase/Write Disable.')
    r.write(0xA, 0x00C5, 'Erase Register, 11 aaaaaa, not enabled')
    r.read(0xA, 0x01C5, 'the last command')
    word(0x05, 0x0041, 'word 05h is as it was')
    r.write(0xA, 0x0030, 'Erase/Write Enable, 00 11xxxx')
    r.write(0xA, 0x000F, 'Erase/Write Disable, 00 00xxxx')
    r.write(0xA, 0x00C5, 'Erase Register')
    word(0x05, 0x0041, 'disabled again before')
    r.write(0xA, 0x003F, 'Erase/Write Enable, 00 11xxxx')
    r.write(0xA, 0x00C5, 'Erase Register')
    word(0x05, 0xFFFF, 'the Erase commands write all ones')
    r.write(0xA, 0x00C6, 'Erase Register')
    word(0x06, 0x3730, 'an erase disabled it')
    r.write(0xA, 0x0030, 'Erase/Write Enable')
    r.write(0xC, 0x0F5A, 'write data comes before the command')
    r.write(0xA, 0x0045, 'Write Register, 01 aaaaaa')
    r.read(0xC, 0x0F5A, 'a write leaves the data register')
    word(0x05, 0x0F5A, 'FFFFh and 0F5Ah')
    r.write(0xC, 0x0000, 'write data')
    r.write(0xA, 0x0045, 'Write Register')
    word(0x05, 0x0F5A, 'a write disabled it')
    r.write(0xA, 0x0030, 'Erase/Write Enable')
    r.write(0xC, 0x33CC, 'write data')
    r.write(0xA, 0x0045, 'Write Register')
    word(0x05, 0x0348, 'the Write commands write only zeros: 0F5Ah and 33CCh')
    word(0x04, 0x5C6A, 'the word before is as it was')
    word(0x06, 0x3730, 'the word behind is as it was')


def only_select(r):
    r.say('In window 0 only Select Window acts. What these commands would change is read below.')
    arguments = {13: 0xFF, 14: 0xFE, 15: 0xFE, 16: 0xF, 17: 0x44, 18: 0x100, 19: 0x200}
    for number in range(32):
        if number != 1:
            r.command(number, arguments.get(number, 0), 'command %d in window 0 does nothing' % number)
    r.read(0xE, 0x0000, 'still active, still window 0')
    r.read(0x6, 0xA5B7, 'no reset came')


def station(r):
    r.say('Window 2: the station address, Address 0 at 00. A reset loads no address: the driver writes it.')
    r.command(1, 0x7FA, 'Select Window takes its argument modulo 8 (decision 5): 2')
    r.read(0xE, 0x4000, 'window 2')
    for o, word in ((0, 0x2211), (2, 0x4433), (4, 0x6655)):
        r.read(o, 0x0000, '0 after a reset')
        r.write(o, word, 'station address, read/write')
        r.read(o, word, 'kept')
    for o, byte in enumerate(bytes.fromhex(STATION)):
        r.byte(o, 0x11 * (o + 1), 'Address %d' % o)
        r.put(o, byte, 'Address %d alone' % o)
    r.words((0, 0x2000, 'Address 1, Address 0'), (2, 0xC4AF, 'Address 3, Address 2'), (4, 0xE512, 'Address 5, Address 4'))
    r.absent((6, 8, 0xA, 0xC))
    r.words((0, 0x2000, 'unchanged'), (2, 0xC4AF, 'unchanged'), (4, 0xE512, 'unchanged'))


def management(r):
    r.say('Window 3: Internal Configuration from words 12h and 13h; RX Free and TX Free. Partition 1 is 2,048:6,144.')
    r.window(3)
    r.read(0xE, 0x6000, 'window 3')
    r.words((0x0, 0xA5D7, 'word 12h; RAM WIDTH, bit 3, reads 0'), (0x2, 0xC379, 'word 13h'))
    r.absent((4, 6, 8), 'not there (ROM control is unbuilt)')
    r.fixed(0xA, 0x1800, 'RX Free: 6,144')
    r.fixed(0xC, 0x0800, 'TX Free: 2,048')
    r.say('Read/write; only the partition, bits 1-0 of 02, does anything (decision 4).')
    r.write(0x0, 0x5A2F, 'read/write')
    r.read(0x0, 0x5A27, 'bit 3 reads 0')
    r.put(0x0, 0x1A, 'the low byte')
    r.read(0x0, 0x5A12, 'the low byte changed; bit 3 reads 0')
    r.put(0x1, 0xC8, 'the high byte')
    r.read(0x0, 0xC812, 'the high byte changed')
    r.byte(0x0, 0x12, 'its low byte')
    r.byte(0x1, 0xC8, 'its high byte')
    r.words((0x2, 0xC379, 'unchanged'), (0xA, 0x1800, 'unchanged'), (0xC, 0x0800, 'unchanged'))
    r.write(0x2, 0x3C86, 'partition 2')
    r.words((0x2, 0x3C86, 'kept'), (0xA, 0x1000, '4,096'), (0xC, 0x1000, '4,096'))
    r.put(0x2, 0x97, 'partition 3 by the low byte')
    r.words((0x2, 0x3C97, 'the low byte changed'), (0xA, 0x1400, '3 acts as 0: 5,120'), (0xC, 0x0C00, '3,072'))
    r.put(0x3, 0xE5, 'the high byte')
    r.words((0x2, 0xE597, 'the high byte changed'), (0xA, 0x1400, 'unchanged'), (0xC, 0x0C00, 'unchanged'))
    r.byte(0x2, 0x97, 'its low byte')
    r.byte(0x3, 0xE5, 'its high byte')
    r.write(0x2, 0x0004, 'partition 0')
    r.words((0x2, 0x0004, 'kept'), (0xA, 0x1400, '5,120'), (0xC, 0x0C00, '3,072'), (0x0, 0xC812, 'unchanged'))
    r.write(0x2, 0x4B01, 'partition 1')
    r.words((0x2, 0x4B01, 'kept'), (0xA, 0x1800, '6,144'), (0xC, 0x0800, '2,048'))


def unbuilt(r):
    for number, what in ((4, 'diagnostics'), (6, 'statistics'), (7, 'no registers')):
        r.say('Window %d (%s) reads 0 and ignores writes.' % (number, what))
        r.window(number)
        r.read(0xE, number << 13, 'window %d' % number)
        r.absent(range(0, 0xE, 2), 'window %d is unbuilt' % number)
        r.read(0xE, number << 13, 'window %d' % number)


RESULTS = ((0x0, 0x02B4, 'TX Start threshold'), (0x2, 0x07A4, 'TX Available threshold'), (0x4, 0x0000, 'not there'),
           (0x6, 0x03D1, 'RX Early threshold'), (0x8, 0x0006, 'RX filter'), (0xA, 0x00C4, 'interrupt mask'),
           (0xC, 0x005A, 'Read Zero mask'), (0xE, 0xA000, 'window 5, nothing visible'))


def results(r):
    r.say('Window 5: the values that commands set. First those of power-on, so that nothing above in window 0 acted.')
    r.put(0xE, 0x05, 'the low byte of a command is held')
    r.read(0xE, 0xE000, 'nothing executed yet')
    r.put(0xF, 0x08, 'the high byte executes: Select Window 5')
    r.read(0xE, 0xA000, 'window 5')
    r.defaults('at power-on')
    r.say('Each of the six has a value of its own; after each command all are read.')
    now = [0x07FC, 0x07FC, 0, 0x07FC, 0, 0, 0, 0xA000]
    for number, argument, place, why in (
            (19, 0x2B7, 0, 'TX Start 2B7h; the low two bits are dropped'),
            (18, 0x7A6, 1, 'TX Available 7A6h, above 1,792; the low two bits are dropped'),
            (17, 0x3D1, 3, 'RX Early 3D1h; as given, being 8 or more'),
            (16, 0x7F6, 4, 'RX filter; modulo 16'),
            (14, 0x7C5, 5, 'interrupt mask; modulo 256, bit 0 is dropped'),
            (15, 0x35B, 6, 'Read Zero mask; modulo 256, bit 0 is dropped')):
        r.command(number, argument, why)
        now[place] = RESULTS[place][1]
        for (o, _, what), word in zip(RESULTS, now):
            r.read(o, word, what)
    r.say('They are read only, and can be read as bytes.')
    for o, word, what in RESULTS[:7]:
        r.fixed(o, word, what)
    r.words(*RESULTS)
    r.say('The commands of unbuilt parts and numbers without a command do nothing.')
    for number in [2, 6, 7] + list(range(20, 32)):
        r.command(number, 0x7FF, 'command %d does nothing' % number)
    r.words(*RESULTS)
    r.say('A command in two bytes: the low byte is held until the high byte executes, and is 0 after that (decision 1).')
    r.put(0xE, 0x9E, 'held')
    r.read(0x0, 0x02B4, 'nothing executed yet')
    r.put(0xF, 0x99, 'TX Start 19Eh')
    r.read(0x0, 0x019C, 'the low two bits are dropped')
    r.put(0xF, 0x9A, 'TX Start 200h: the byte held is 0 after use')
    r.read(0x0, 0x0200, 'TX Start threshold')
    r.put(0xE, 0x48, 'held')
    r.command(17, 0x123, 'RX Early 123h, in one word')
    r.read(0x6, 0x0123, 'RX Early threshold')
    r.put(0xF, 0x98, 'TX Start 048h: the byte was kept until then')
    r.read(0x0, 0x0048, 'TX Start threshold')
    r.command(19, 0x2B7, 'TX Start 2B7h')
    r.command(17, 0x3D1, 'RX Early 3D1h')
    r.words(*RESULTS)


def play(r):
    sleeping(r)
    r.wake()
    for part in (setup, eeprom, only_select, station, management, unbuilt, results):
        part(r)
