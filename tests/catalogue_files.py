#!/usr/bin/env python3
"""Writes the files that the program catalogue_cases is run on, its arguments, and what it must print.

    tests/catalogue_files.py

Each line's answer is written in catalogue_lines.py by hand, from the request; the model of catalogue_model.py, which knows
nothing of the program, must agree with it before anything is written, and makes the bytes that a change must give.
"""
import os

import catalogue_model as model
from catalogue_lines import LINES
from catalogue_model import field, number, written
from image_cross import checksum, image_of, sealed, words_of

HERE = os.path.dirname(os.path.abspath(__file__))
CRATE = os.path.join(HERE, '..', 'crates', 'catalogue_cases')
with open(os.path.join(HERE, '..', 'examples', 'sound.img'), 'rb') as sound:
    WORDS = words_of(sound.read())


def image(last, mark=0):
    """A sound image whose address ends in `last`, with a mark in word 32h."""
    words = list(WORDS)
    words[2] = words[2] & 0xFF00 | last
    words[0x32] ^= mark
    return image_of(sealed(words))


def spoiled(*wrong, last=0xE5):
    """An image of whose words 07h, 0Fh and 17h these are wrong and the others right; word 07h is covered by word 0Fh."""
    words = words_of(image(last))
    if 0x07 in wrong:
        words[0x07] ^= 0x0100
        words[0x0F] = checksum(words)
    for word in {*wrong} - {0x07}:
        words[word] ^= 0x0100
    return image_of(words)


a1, a2, a3, b1 = image(0xE5), image(0xE5, 1), image(0xE5, 2), image(0xE6)


def card(last, *versions):
    """A card's fields; version 1 has the image with no mark."""
    fields = [(1, model.address_of(image(last)))]
    for n in versions:
        fields += [(2, number(n)), (3, image(last, (n - 1) % 256))]
    return fields


def bare(fields):
    """These fields, and no count."""
    return b''.join(field(t, v) for t, v in fields)


def images():
    """Images, whole and cut, by name."""
    return {
        'a1': a1, 'a2': a2, 'b1': b1, 'c1': image(0xE7), 'image-06': image(6), 'bytes-127': a1[:127], 'bytes-129': a1 + b'\0',
        'word-07': spoiled(7), 'word-0F': spoiled(0x0F), 'word-17': spoiled(0x17), 'words-07-0F': spoiled(7, 0x0F),
        'words-07-17': spoiled(7, 0x17), 'words-0F-17': spoiled(0x0F, 0x17), 'words-07-0F-17': spoiled(7, 0x0F, 0x17),
    }


def catalogues():
    """Files that are sound, damaged or end early, by name."""
    one = card(0xE5, 1)
    unknown = [(200, b'first'), one[0], (0, b''), (2, number(1)), (9, b'x'), (3, a1), (255, b'behind 1'), (2, number(3)), (3, a3),
               (77, b'behind 3'), *card(0xE6, 1), (5, b'last')]
    # Equal images, in two versions and in two cards, and in an unknown field that reads like a card.
    equal = [(9, bare(one)), *one, (2, number(2)), (3, a1), *card(0xE6, 1)[:2], (3, a1), (2, number(2)), (3, b1), (2, number(3)), (3, a1)]
    return {
        'empty': b'', 'none': written([]), 'one': written(one), 'two': written(card(0xE5, 1, 2)),
        'others': written(card(0xE6, 1) + card(0xE7, 4, 7)), 'equal': written(equal), 'unknown': written(unknown),
        'eight': written(card(0xE5, *range(1, 9))), 'last-number': written(card(0xE5, 65535)), 'from-0': written(card(0xE5, 0, 300)),
        'nine': written(card(0xE5, *range(1, 10))), 'not-rising': written(card(0xE5, 2, 2)),
        'count-off': written(one, 1), 'count-of-3': bare(one) + field(4, b'\3\0\0'),
        'behind': written(one) + b'\0', 'no-version': written(one + one[:1]), 'no-image': written(one[:2]),
        'image-first': written([one[0], one[2], one[1]]), 'number-alone': written(one[1:]),
        'address-of-5': written([(1, b'12345')] + one[1:]), 'image-of-127': written(one[:2] + [(3, a1[:127])]),
        'cut': written(one)[:100], 'no-count': bare(one), 'count-cut': written(one)[:-1], 'head-cut': written(one)[:2],
        'damaged-and-cut': written(one + one[1:2] + one)[:200],
    }


def crowds():
    """Files with many cards, or with an address listed twice, by name."""
    twice = card(0xE5, 1) + card(0xE6, 1) + card(0xE5, 1)
    many = [f for n in [*range(64), 5] for f in card(n, 1)]
    eight, end = range(1, 9), 65535
    return {
        'cards-64': written([f for n in range(64) for f in card(n, 1)]), 'cards-65': written([f for n in range(65) for f in card(n, 1)]),
        'twice': written(twice), 'twice-off': written(twice, 1), 'twice-cut': bare(twice),
        'cards-65-twice': written(many), 'cards-65-twice-off': written(many, 1), 'cards-65-twice-cut': bare(many),
        'cards-64-twice': written([f for n in [*range(63), 5] for f in card(n, 1)]),
        # No room for a version of A or of B: another address twice; the full listing first; the full listing second.
        'full-twice': written(card(0xE5, *eight) + card(0xE6, end) + card(0xE7, 1) + card(0xE7, 1)),
        'full-first': written(card(0xE5, *eight) + card(0xE5, 1) + card(0xE6, end) + card(0xE6, 1)),
        'full-second': written(card(0xE5, 1) + card(0xE5, *eight) + card(0xE6, 1) + card(0xE6, end)),
        # 65,533 fields: a version's two go in, a card's three do not.
        'fields-twice': written([(0, b'')] * 65524 + card(0xE5, 1) + card(0xE6, 1) + card(0xE6, 1)),
    }


def rows():
    """Archives, by name."""
    row = [image(n) for n in range(65)]
    many = b''.join(row[:63]) + spoiled(7) + row[0]
    maker, primary, secondary = spoiled(7, last=0xE7), spoiled(0x0F, last=0xE6), spoiled(0x17)
    return {
        'row-1': a1, 'row-3': b''.join(row[:3]), 'row-64': b''.join(row[:64]), 'row-65': b''.join(row), 'row-cut': row[0] + row[1][:5],
        'row-twice': row[0] + row[1] + row[0], 'row-07': row[0] + spoiled(7) + primary, 'row-0F': row[0] + spoiled(0x0F),
        'row-17': row[0] + secondary, 'row-twice-07': row[0] + spoiled(7) + row[0], 'row-twice-cut': row[0] + row[1] + row[0] + b'\0',
        'row-65-twice-07': many, 'row-65-twice-07-cut': many + b'\0',
        # Two or three images that are not sound, named by their wrong words.
        'row-0F-07': primary + maker, 'row-07-17': maker + secondary, 'row-17-07': secondary + maker,
        'row-0F-17': primary + secondary, 'row-17-0F': secondary + primary, 'row-17-0F-07': secondary + primary + maker,
    }


def answer(names, call, one, two, size):
    """The model's answer: the number, what is printed, and the bytes written."""
    data = names[one]
    if call == 'check':
        fields = model.split(data)[0]
        said = 'sound: %d cards, %d fields' % (sum(t == 1 for t, _ in fields), len(fields) - 1)
        return model.judged(data), said, None
    if call in ('latest', 'given'):
        who = bytes.fromhex(two)
        why, start = model.latest_place(data, who) if call == 'latest' else model.given_place(data, who, int(size))
        return why, '' if why else '128 bytes at %d' % start, None
    if call == 'lookup':
        why, start, where = model.lookup_place(data, names[two], bytes.fromhex(size))
        return why, '' if why else '%s, 128 bytes at %d' % (where, start), None
    room = 262144 if size == 'most' else int(size)
    if call == 'add':
        why, out = model.add(data, names[two], room)
    elif call == 'drop':
        why, out = model.drop(data, bytes.fromhex(two), room)
    else:
        why, out = (model.imported if call == 'import' else model.exported)(data, room)
    return why, 'bytes %d' % len(out), None if why else out


def main():
    names = {**images(), **catalogues(), **crowds(), **rows()}
    inputs = list(names)
    known = {}
    for name in inputs:
        known.setdefault(names[name], name)
    arguments, lines = [], []
    for call, one, two, size, want in LINES:
        why, said, out = answer(names, call, one, two, size)
        got = said if not why and call in ('latest', 'given', 'lookup') else why
        assert got == want, (call, one, two, size, 'the model says', got)
        last = '-'
        if out is not None:
            if out not in known:
                known[out] = '%s-%s%s' % (call, one, '-' + two if two != '-' else '')
                names[known[out]] = out
            last = known[out]
            said += ', those of ' + last
        arguments += [call, one, two, size, last]
        lines.append('%s %s %s %s: %s\n' % (call, one, two, size, 'refused %d' % why if why else said))
    os.makedirs(os.path.join(CRATE, 'data'), exist_ok=True)
    for name in os.listdir(os.path.join(CRATE, 'data')):
        os.remove(os.path.join(CRATE, 'data', name))
    for name, data in names.items():
        with open(os.path.join(CRATE, 'data', name), 'wb') as file:
            file.write(data)
    with open(os.path.join(CRATE, 'args'), 'w') as file:
        file.write(''.join(word + '\n' for word in arguments))
    with open(os.path.join(CRATE, 'stdout'), 'w') as file:
        file.writelines(lines)


if __name__ == '__main__':
    main()
