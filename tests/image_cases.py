#!/usr/bin/env python3
"""Writes the files that the program image_cases is run on, and what it must print of them.

    tests/image_cases.py

The expected lines are those of the check in image_cross.py, which knows nothing of the program.
"""
import os
import random

from image_cross import expected, image_of, sealed

CARD = sealed([
    0x0020, 0xAFC4, 0x12E5, 0x9150, 0x5C6A, 0x0041, 0x3730, 0x6D50,
    0x0010, 0x3F00, 0x0020, 0xAFC4, 0x12E5, 0x0310, 0x0000, 0x0000,
    0x2083, 0x0000, 0x0000, 0x0000, 0x0011, 0x0000, 0x0000, 0x0000,
    0x6D50, 0x9050, 0x0000, 0x0000, 0x0A00, 0x0010, 0x0082, 0x4333,
    0x6F43, 0x206D, 0x4333, 0x3035, 0x4239, 0x4520, 0x6874, 0x7265,
    0x694C, 0x6B6E, 0x4920, 0x4949, 0x0015, 0x506D, 0x9051, 0x1600,
    0x6D50, 0x9050, 0x0047, 0x0210, 0xE003, 0x1003, 0x2210, 0x9EA8,
    0x0079, 0xFFFF, 0xFFFF, 0xFFFF, 0xFFFF, 0xFFFF, 0xFFFF, 0xFFFF,
])


def changed(*changes):
    """The card's image with bits of some words changed."""
    words = list(CARD)
    for w, bits in changes:
        words[w] ^= bits
    return image_of(words)


def cases():
    rnd = random.Random(509)
    card = image_of(CARD)
    yield 'sound', card
    yield 'sound-random', image_of(sealed([rnd.randrange(0x10000) for _ in range(64)]))
    yield 'word-1B-changed', changed((0x1B, 0x8001))
    yield 'empty', b''
    yield 'bytes-127', card[:127]
    yield 'bytes-129', card + b'\0'
    yield 'very-long', card * 512
    yield 'zeros', bytes(128)
    yield 'maker-turned', changed((0x07, 0x6D50 ^ 0x506D))
    yield 'all-wrong', bytes([0xFF]) * 128
    yield 'word-00-changed', changed((0x00, 0x0100))
    yield 'word-0D-changed', changed((0x0D, 0x0001))
    yield 'word-0F-changed', changed((0x0F, 0x0080))
    yield 'words-0F-17-changed', changed((0x0F, 0x0001), (0x17, 0x0001))
    yield 'word-12-changed', changed((0x12, 0x0004))
    yield 'word-16-changed', changed((0x16, 0x4000))
    yield 'word-17-changed', changed((0x17, 0x8000))
    yield 'word-3F-changed', changed((0x3F, 0x0001))


def main():
    crate = os.path.join(os.path.dirname(os.path.abspath(__file__)), '..', 'crates', 'image_cases')
    os.makedirs(os.path.join(crate, 'data'), exist_ok=True)
    names, lines = [], []
    for name, image in cases():
        with open(os.path.join(crate, 'data', name), 'wb') as file:
            file.write(image)
        names.append(name + '\n')
        lines.append('%s: %s' % (name, expected(image)))
    with open(os.path.join(crate, 'args'), 'w') as file:
        file.writelines(names)
    with open(os.path.join(crate, 'stdout'), 'w') as file:
        file.writelines(lines)


if __name__ == '__main__':
    main()
