"""The catalogue of request 9, written from the request apart from the crates: what each call answers, on bytes.

An answer is (number, bytes): the refusal's number, or 0 and what is written or shown. `room` is the lent area's size.
A call whose name ends in `_place` answers where the image starts in the file in place of its bytes.

The order of refusals is the request's: 12, 2, 15, 16, 17, 18, 19, then 8, 9, 10. So a call first asks whether the fields
are whole (15, 16), then for the card (17), then for room, the file's own and the call's (18), then for an address listed
twice (19). Of an address that is listed twice the first listing is the card.
"""
from image_cross import expected


def field(tag, value):
    return bytes([tag, len(value) % 256, len(value) // 256]) + value


def number(n):
    """Two bytes, low byte first."""
    return bytes([n % 256, n // 256])


def written(fields, off=0):
    """A file of these fields, with the count behind them, which may be off."""
    return b''.join(field(t, v) for t, v in fields) + field(4, number((len(fields) + off) % 65536))


def split(data):
    """The whole fields that the bytes begin with, and whether something is left."""
    at, fields = 0, []
    while len(data) - at >= 3 and len(data) - at - 3 >= data[at + 1] + 256 * data[at + 2]:
        size = data[at + 1] + 256 * data[at + 2]
        fields.append((data[at], data[at + 3:at + 3 + size]))
        at += 3 + size
    return fields, at < len(data)


def damaged(data):
    """15 or 16, or 0 for a file whose fields are whole, in turn and counted."""
    fields, cut = split(data)
    due, pairs, last, ended = 'card', 0, 0, False
    for n, (tag, value) in enumerate(fields):
        if tag == 4:
            behind = cut or n + 1 < len(fields)
            if due not in ('card', 'more') or len(value) != 2 or value[0] + 256 * value[1] != n or behind:
                return 15
            ended = True
        elif tag == 1:
            if due not in ('card', 'more') or len(value) != 6:
                return 15
            due, pairs = 'first', 0
        elif tag == 2:
            now = value[0] + 256 * value[1] if len(value) == 2 else -1
            if now < 0 or due not in ('first', 'more') or due == 'more' and (pairs == 8 or now <= last):
                return 15
            due, last, pairs = 'image', now, pairs + 1
        elif tag == 3:
            if due != 'image' or len(value) != 128:
                return 15
            due = 'more'
    return 0 if ended else 16


def addresses(data):
    return [value for tag, value in split(data)[0] if tag == 1]


def crowded(data):
    """18 or 19, or 0 for a file with at most 64 cards and no address twice."""
    who = addresses(data)
    if len(who) > 64:
        return 18
    return 19 if len(set(who)) < len(who) else 0


def judged(data):
    """0 for a sound file, or 15, 16, 18, 19."""
    return damaged(data) or crowded(data)


def places(data):
    """The cards of a file that is not damaged: address, and the versions as pairs of number and the image's start."""
    at, found = 0, []
    for tag, value in split(data)[0]:
        if tag == 1:
            found.append((value, []))
        elif tag == 2:
            now = value[0] + 256 * value[1]
        elif tag == 3:
            found[-1][1].append((now, at + 3))
        at += 3 + len(value)
    return found


def cards(data):
    """The same, with the images."""
    return [(who, [(n, data[start:start + 128]) for n, start in versions]) for who, versions in places(data)]


def versions_of(data, address):
    """The versions of a card's first listing, with the images' starts; none where the card is not listed."""
    return next((versions for who, versions in places(data) if who == address), [])


def address_of(image):
    """Words 00h to 02h, high byte first."""
    return bytes(image[i] for i in (1, 0, 3, 2, 5, 4))


def unsound(image):
    """The number of an image that is not sound, or 0."""
    said = expected(image).split()
    return int(said[2]) if said[1] == 'refused' else 0


def latest_place(data, address):
    why = damaged(data)
    if why:
        return why, None
    versions = versions_of(data, address)
    if not versions:
        return 17, None
    if crowded(data):
        return crowded(data), None
    return 0, versions[-1][1]


def given_place(data, address, wanted):
    why = damaged(data)
    if why:
        return why, None
    versions = dict(versions_of(data, address))
    if wanted not in versions:
        return 17, None
    if crowded(data):
        return crowded(data), None
    return 0, versions[wanted]


def lookup_place(own, main, address):
    """The number, the image's start, and the file that has it: 'override', 'main', or '' where it is refused.

    A card that the override lists is answered by the override alone.
    """
    why = damaged(own)
    if why:
        return why, None, ''
    if address in addresses(own):
        why, start = latest_place(own, address)
        return why, start, '' if why else 'override'
    why = damaged(main)
    if why:
        return why, None, ''
    versions = versions_of(main, address)
    if not versions:
        return 17, None, ''
    # 18 of either file comes before 19 of either.
    both = [why for why in (crowded(own), crowded(main)) if why]
    if both:
        return min(both), None, ''
    return 0, versions[-1][1], 'main'


def image_at(data, start):
    return b'' if start is None else data[start:start + 128]


def latest(data, address):
    why, start = latest_place(data, address)
    return why, image_at(data, start)


def given(data, address, wanted):
    why, start = given_place(data, address, wanted)
    return why, image_at(data, start)


def lookup(own, main, address):
    """The number, the image's bytes, and the file that has it."""
    why, start, where = lookup_place(own, main, address)
    return why, image_at(own if where == 'override' else main, start), where


def no_room(data, who):
    """Whether one more version of a card does not go in: too many cards, versions or fields, or the last number is taken."""
    fields, listed, versions = len(split(data)[0]) - 1, len(addresses(data)), versions_of(data, who)
    if versions:
        return listed > 64 or len(versions) == 8 or versions[-1][0] == 65535 or fields + 2 > 65535
    return listed >= 64 or fields + 3 > 65535


def with_version(data, image):
    """The file with the image behind its card's fields, or as a new card before the count."""
    fields, who = split(data)[0][:-1], address_of(image)
    versions = versions_of(data, who)
    if not versions:
        return written(fields + [(1, who), (2, number(1)), (3, image)])
    at = fields.index((1, who)) + 1
    while at < len(fields) and fields[at][0] != 1:
        at += 1
    return written(fields[:at] + [(2, number(versions[-1][0] + 1)), (3, image)] + fields[at:])


def add(data, image, room):
    if room < len(data) + 145:
        return 12, b''
    if len(image) != 128:
        return 2, b''
    why = damaged(data)
    if why:
        return why, b''
    if no_room(data, address_of(image)):
        return 18, b''
    why = crowded(data) or unsound(image)
    if why:
        return why, b''
    return 0, with_version(data, image)


def without_oldest(data, address):
    """The file without the card's first number and image, and without its address if they were the last."""
    fields = split(data)[0][:-1]
    at = fields.index((1, address))
    gone = {next(i for i in range(at, len(fields)) if fields[i][0] == tag) for tag in (2, 3)}
    if len(versions_of(data, address)) == 1:
        gone.add(at)
    return written([f for i, f in enumerate(fields) if i not in gone])


def drop(data, address, room):
    if room < len(data):
        return 12, b''
    why = damaged(data)
    if why:
        return why, b''
    if address not in addresses(data):
        return 17, b''
    if crowded(data):
        return crowded(data), b''
    return 0, without_oldest(data, address)


def imported(archive, room):
    if room < 145 * (len(archive) // 128) + 5:
        return 12, b''
    if len(archive) % 128:
        return 2, b''
    images = [archive[i:i + 128] for i in range(0, len(archive), 128)]
    if len(images) > 64:
        return 18, b''
    if len(set(map(address_of, images))) < len(images):
        return 19, b''
    # 8 of any image comes before 9 of any, and 9 before 10.
    wrong = [unsound(image) for image in images if unsound(image)]
    if wrong:
        return min(wrong), b''
    return 0, written([f for image in images for f in ((1, address_of(image)), (2, number(1)), (3, image))])


def exported(data, room):
    if room < 8192:
        return 12, b''
    why = judged(data)
    if why:
        return why, b''
    return 0, b''.join(versions[-1][1] for _, versions in cards(data))
