"""What the catalogue's program says of a refusal, worked out from the request, the refused bytes and the number.

Each function answers the whole line. The number comes from catalogue_model.py; the places and the meanings are found
here, with a reading of the fields of their own.
"""
from catalogue_model import address_of, unsound

WORDS = {
    2: 'not 128 bytes to an image',
    8: 'word 07h of an image is not 6D50h',
    9: 'word 0Fh of an image is not the checksum',
    10: 'word 17h of an image is not the secondary checksums',
    12: 'no room to write the changed file',
    17: 'no such card',
}


def line(why, words):
    return 'refused %d: %s\n' % (why, words)


def shown(address):
    return address.hex().upper()


def fields(data):
    """The whole fields as (place, tag, value), and the place behind them."""
    found, at = [], 0
    while at + 3 <= len(data):
        size = int.from_bytes(data[at + 1:at + 3], 'little')
        if at + 3 + size > len(data):
            break
        found.append((at, data[at], data[at + 3:at + 3 + size]))
        at += 3 + size
    return found, at


def damage(data):
    """The place of the first field that is out of turn or has a wrong length, or of a count that is not right."""
    size = {1: 6, 2: 2, 3: 128}
    wanted, numbers = {1, 4}, []
    for at, tag, value in fields(data)[0]:
        if tag == 4:
            return at
        if tag not in size:
            continue
        if tag not in wanted or len(value) != size[tag]:
            return at
        if tag == 1:
            wanted, numbers = {2}, []
        elif tag == 2:
            numbers.append(int.from_bytes(value, 'little'))
            if len(numbers) > 8 or numbers != sorted(set(numbers)):
                return at
            wanted = {3}
        else:
            wanted = {1, 2, 4}
    return None


def listings(data):
    """Each listing of a card: its place and its address."""
    return [(at, value) for at, tag, value in fields(data)[0] if tag == 1]


def second_listing(data):
    seen = set()
    for at, who in listings(data):
        if who in seen:
            return who, at
        seen.add(who)
    return None


def of_file(data, why):
    """Of a file that is read, or of a card that it lacks."""
    if why == 15:
        return line(why, 'a field is damaged, at byte %d' % damage(data))
    if why == 16:
        return line(why, 'the file ends early, at byte %d' % fields(data)[1])
    if why == 18:
        return line(why, 'no room for a card: it has %d' % len(listings(data)))
    if why == 19:
        who, at = second_listing(data)
        return line(why, 'an address is listed twice: %s, again at byte %d' % (shown(who), at))
    return line(why, WORDS[why])


def of_version(data, address, why):
    if why == 17 and address in [who for _, who in listings(data)]:
        return line(why, 'no such version')
    return of_file(data, why)


def versions(data, address):
    """The numbers of a card's versions, by its first listing."""
    at = next(at for at, who in listings(data) if who == address)
    numbers = []
    for place, tag, value in fields(data)[0]:
        if place > at and tag == 1:
            break
        if place > at and tag == 2:
            numbers.append(int.from_bytes(value, 'little'))
    return numbers


def of_addition(data, image, why):
    cards = [who for _, who in listings(data)]
    if why != 18 or len(cards) > 64:
        return of_file(data, why)
    who = address_of(image)
    if who not in cards:
        return line(why, 'no room for a card: 64 are there' if len(cards) == 64 else 'no room for a field: the count goes to 65535')
    numbers = versions(data, who)
    if len(numbers) == 8:
        return line(why, 'no room for a version: the card has 8')
    if numbers[-1] == 65535:
        return line(why, 'no room for a number: the latest is 65535')
    return line(why, 'no room for a field: the count goes to 65535')


def of_archive(archive, why):
    images = [archive[i:i + 128] for i in range(0, len(archive) // 128 * 128, 128)]
    if why == 2:
        return line(why, 'not 128 bytes to an image: image %d is cut' % (len(images) + 1))
    if why == 18:
        return line(why, 'no room for a card: it has %d' % len(images))
    if why == 19:
        addresses = [address_of(image) for image in images]
        second = next(k for k in range(len(images)) if addresses[k] in addresses[:k])
        return line(why, 'images %d and %d have one address' % (addresses.index(addresses[second]) + 1, second + 1))
    if why in (8, 9, 10):
        wrong = [unsound(image) for image in images].index(why) + 1
        return line(why, WORDS[why].replace('an image', 'image %d' % wrong))
    return line(why, WORDS[why])


def of_lookup(data, name, why):
    """Of the one of two files that is refused; a card that neither has is no file's own."""
    return of_file(data, why) if why == 17 else of_file(data, why)[:-1] + ', in %s\n' % name


def changes(old, new):
    """The words in which two images differ, a line each."""
    pairs = [(k, int.from_bytes(old[2 * k:2 * k + 2], 'little'), int.from_bytes(new[2 * k:2 * k + 2], 'little')) for k in range(64)]
    return ''.join('word %02X: %04X -> %04X\n' % pair for pair in pairs if pair[1] != pair[2])


def version(data, image):
    """What an addition that gave this file says."""
    who = address_of(image)
    return 'version %d of %s\n' % (versions(data, who)[-1], shown(who))


def stands(path):
    return path + ': stands already; --replace writes over it\n'


def catalogue_stands(path):
    return path + ': a catalogue stands there; --replace writes over it\n'


def locked(path):
    return '%s.lock: stands already; another program is changing %s (if none is, remove it)\n' % (path, path)


def larger(name):
    return name + ': larger than 262144 bytes\n'
