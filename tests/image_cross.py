#!/usr/bin/env python3
"""Holds the image program to a second implementation of the image check.

    tests/image_cross.py crates/image/out/image

The check below is written from the prose alone: document 01, "EEPROM image", and document 000 under
Offset 0Fh and Offset 17h. Every image goes to the program's standard input, and the line that it
prints must be the line expected here. The exit status is 1 if any differs.
"""
import random
import subprocess
import sys

COVERED_BY_HIGH = [w for w in range(0x00, 0x0F) if w not in (0x08, 0x09, 0x0D)]
COVERED_BY_LOW = [0x08, 0x09, 0x0D]
VITAL = [0x10, 0x11, 0x12, *range(0x20, 0x40)]
CONFIGURABLE = list(range(0x13, 0x17))


def words_of(image):
    """64 words, low byte first."""
    return [int.from_bytes(image[2 * w:2 * w + 2], 'little') for w in range(64)]


def image_of(words):
    return b''.join(w.to_bytes(2, 'little') for w in words)


def xor_of(words, offsets):
    """Exclusive-or of both bytes of the words at the offsets."""
    total = 0
    for w in offsets:
        total ^= (words[w] >> 8) ^ (words[w] & 0xFF)
    return total


def checksum(words):
    return xor_of(words, COVERED_BY_HIGH) << 8 | xor_of(words, COVERED_BY_LOW)


def secondary(words):
    return xor_of(words, VITAL) << 8 | xor_of(words, CONFIGURABLE)


def expected(image):
    """The line that document 01 asks for."""
    if len(image) != 128:
        return 'image refused 2\n'
    words = words_of(image)
    if words[0x07] != 0x6D50:
        return 'image refused 8\n'
    if words[0x0F] != checksum(words):
        return 'image refused 9\n'
    if words[0x17] != secondary(words):
        return 'image refused 10\n'
    return 'image ok %04X%04X%04X\n' % tuple(words[:3])


def sealed(words):
    """The same words with the maker and both checksums put right."""
    words = list(words)
    words[0x07] = 0x6D50
    words[0x0F] = checksum(words)
    words[0x17] = secondary(words)
    return words


def images(rnd):
    """Pairs of a kind and an image."""
    def anything():
        return [rnd.randrange(0x10000) for _ in range(64)]

    for fill in (0x00, 0x01, 0x6D, 0xFF):
        yield 'filled', bytes([fill]) * 128
    for length in [*range(0, 128, 9), 126, 127, 129, 130, 255, 256, 4096, 65536, 1 << 20]:
        yield 'length', (image_of(sealed(anything())) * (length // 128 + 1))[:length]
    for _ in range(60):
        yield 'random', bytes(rnd.randrange(256) for _ in range(128))
        yield 'sound', image_of(sealed(anything()))
    for w in range(64):
        words = sealed(anything())
        words[w] = (words[w] + rnd.randrange(1, 0x10000)) % 0x10000
        yield 'one word changed', image_of(words)
    for place in range(128):
        image = bytearray(image_of(sealed(anything())))
        image[place] ^= rnd.randrange(1, 256)
        yield 'one byte changed', bytes(image)
    for w in range(64):
        words = sealed(anything())
        words[w] = words[w] >> 8 | (words[w] & 0xFF) << 8
        yield 'bytes exchanged', image_of(words)
    for _ in range(100):
        words = sealed(anything())
        for w in rnd.sample([0x07, 0x0F, 0x17, *rnd.sample(range(64), 2)], rnd.randrange(1, 4)):
            words[w] ^= 1 << rnd.randrange(16)
        yield 'damaged', image_of(words)


def main():
    program = sys.argv[1]
    tried, wrong, lines = 0, 0, {}
    for kind, image in images(random.Random(509)):
        ran = subprocess.run([program], input=image, stdout=subprocess.PIPE, check=False)
        said = ran.stdout.decode('ascii', 'replace')
        want = expected(image)
        outcome = 'ok' if want.startswith('image ok') else want.split()[-1]
        tried += 1
        lines[outcome] = lines.get(outcome, 0) + 1
        if said != want or ran.returncode != 0:
            wrong += 1
            print('%s: expected %r, found %r: %s' % (kind, want, said, image[:128].hex()))
    told = ', '.join('%s %d' % (n, lines[n]) for n in sorted(lines))
    print('%d images (%s): %d differ' % (tried, told, wrong))
    return 1 if wrong or tried == 0 else 0


if __name__ == '__main__':
    sys.exit(main())
