#!/usr/bin/env python3
"""Holds the catalogue's judge and its program to the model of catalogue_model.py, written from request 9 apart.

    tests/catalogue_cross.py JUDGE CATALOGUE [SEQUENCES [FILES [SEED]]]

JUDGE (catalogue_judge) reads each of FILES random and mutated files from standard input. CATALOGUE runs SEQUENCES
random rows of its commands on files in a folder of its own, with - for a file here and there, with and without
--replace, and with locks that stand; after each command its answer and its message (catalogue_says.py) and the file are
held to the model, and the folder to the files that belong there. The first difference ends the run with status 1.
"""
import os
import random
import subprocess
import sys
import tempfile

import catalogue_model as model
import catalogue_says as says
from catalogue_model import number, written
from image_cross import image_of, sealed

ROOM = 262144


def some_bytes(r, n):
    return bytes(r.randrange(256) for _ in range(n))


def image(r, address=None):
    """A sound image."""
    words = [r.randrange(0x10000) for _ in range(64)]
    if address is not None:
        words[:3] = [address[0] * 256 + address[1], address[2] * 256 + address[3], address[4] * 256 + address[5]]
    return image_of(sealed(words))


def whole(r, cards, most=8, addresses=None):
    """The fields of a catalogue, with unknown ones here and there."""
    fields = []

    def some_unknown():
        while r.random() < 0.2:
            fields.append((r.choice([0, 5, 9, 77, 255]), some_bytes(r, r.randrange(6))))

    some_unknown()
    for k in range(cards):
        who = addresses[k] if addresses else some_bytes(r, 6)
        fields.append((1, who))
        now = r.choice([0, 1, 1, 1, 2, 65527, 65530])
        for _ in range(r.randint(1, most)):
            if now > 65535:
                break
            some_unknown()
            fields.append((2, number(now)))
            some_unknown()
            fields.append((3, image(r, who) if addresses else some_bytes(r, 128)))
            some_unknown()
            now += r.choice([1, 1, 1, 2, 300])
    return fields


def mutated(r, data):
    kind = r.randrange(4)
    if kind == 0:
        return data[:r.randrange(len(data) + 1)]
    if kind == 1:
        return data + some_bytes(r, r.randrange(1, 5))
    if kind == 2 and data:
        i = r.randrange(len(data))
        return data[:i] + some_bytes(r, 1) + data[i + 1:]
    return bytes(r.choice([0, 1, 2, 3, 4, 6, 128, r.randrange(256)]) for _ in range(r.randrange(40)))


def file_to_judge(r):
    kind = r.randrange(10)
    fields = whole(r, r.choice([0, 1, 1, 2, 3, 8, 64, 65] if kind == 0 else [0, 1, 1, 2, 3]), 1 if kind == 0 else 8)
    if kind == 1 and fields:
        del fields[r.randrange(len(fields))]
    if kind == 2 and fields:
        fields.insert(r.randrange(len(fields)), r.choice(fields))
    if kind == 3 and len(fields) > 1:
        i, k = r.randrange(len(fields)), r.randrange(len(fields))
        fields[i], fields[k] = fields[k], fields[i]
    if kind == 4:
        fields += whole(r, 1, 9)[:]
    if kind == 5:
        first = [f for f in fields if f[0] == 1][:1]
        fields += [f if f[0] != 1 or not first else first[0] for f in whole(r, 1, 2)]
    data = written(fields, r.choice([-1, 1, 256]) if kind == 6 else 0)
    return mutated(r, data) if kind > 6 else data


def of_size(size):
    """A sound file of that many bytes, with no card."""
    rest = size - 5 - 3 * 65538
    return written([(8, bytes(65535))] * 3 + [(8, bytes(rest - 3 - 600)), (8, bytes(597))])


def judge(program, files, r):
    seen = {}
    for k in range(files):
        data = of_size(ROOM + k) if k < 2 else file_to_judge(r)
        said = subprocess.run([program], input=data, capture_output=True, check=False).stdout.decode().strip()
        why = model.judged(data)
        want = 'refused %d' % why if why else 'sound'
        if len(data) > ROOM:
            want = 'larger than 262144 bytes'
        seen[want] = seen.get(want, 0) + 1
        if said != want:
            with open('catalogue_cross.bin', 'wb') as file:
                file.write(data)
            sys.exit(f'file {k} of {len(data)} bytes (catalogue_cross.bin): said {said!r}, by the request {want!r}')
    return seen


def listed(data):
    return ''.join('%s%s\n' % (who.hex().upper(), ''.join(' %d' % n for n, _ in versions)) for who, versions in model.cards(data))


class Command:
    """A command by the model: its words, what it is fed, what it answers and says, and the file that it changes."""

    def __init__(self, words):
        self.words, self.fed, self.out, self.said, self.changed, self.end = words, b'', b'', '', None, None

    def stop(self, said, end):
        """What ends the command before it is done; the first such thing counts."""
        if not self.end:
            self.said, self.end = said, end

    def refuse(self, why, say, *given):
        if why and not self.end:
            self.stop(say(*given, why), 'refused %d' % why)

    def too_large(self, word, data):
        if len(data) > ROOM:
            self.stop(says.larger('standard input' if word == '-' else word), 'too large')

    def gives(self, word, data):
        """The file that is written, where nothing ended the command."""
        if not self.end and word == '-':
            self.out = data
        elif not self.end:
            self.changed = (word, data)


class Sequence:
    """A row of commands on the files of one folder."""

    def __init__(self, program, folder, r):
        self.program, self.folder, self.r = program, folder, r
        self.addresses = [some_bytes(r, 6) for _ in range(r.choice([1, 2, 3, 70]))]
        self.files, self.seen, self.did = {}, {}, []
        kind = r.randrange(6)
        if kind == 0:
            self.put('cards', written([]))
        elif kind == 1 and len(self.addresses) > 3:
            self.put('cards', written(whole(r, r.choice([62, 63, 64, 65]), 1, self.addresses)))
        elif kind == 2:
            few = [(9, b'')] * r.randint(65528, 65535)
            self.put('cards', written(few + whole(r, 1, 3, self.addresses)))
        elif kind == 3:
            large = [(8, some_bytes(r, 65000))] * 3 + [(7, bytes(r.randint(65000, 65535))), (6, bytes(r.randint(600, 1600)))]
            self.put('cards', written(large + whole(r, 1, 3, self.addresses)))
        else:
            self.put('cards', written(whole(r, r.randint(0, min(3, len(self.addresses))), 8, self.addresses)))
        self.put('own', self.own())
        self.put('row', b'')

    def own(self):
        """A user's override catalogue, now and then unsound."""
        r = self.r
        fields = whole(r, r.randint(0, min(3, len(self.addresses))), 2, r.sample(self.addresses, len(self.addresses)))
        if r.random() < 0.1:
            fields += fields
        data = written(fields)
        return mutated(r, data) if r.random() < 0.2 else data

    def put(self, name, data):
        self.files[name] = data
        with open(os.path.join(self.folder, name), 'wb') as file:
            file.write(data)

    def address(self):
        """Often one of those that the files begin with."""
        some = self.addresses[:3] if self.r.random() < 0.6 else self.addresses
        return self.r.choice(some) if self.r.random() < 0.9 else some_bytes(self.r, 6)

    def spelled(self, address):
        return address.hex().upper() if self.r.random() < 0.5 else address.hex()

    def some_image(self):
        data = image(self.r, self.address())
        kind = self.r.randrange(12)
        if kind == 0:
            return data[:127] if self.r.random() < 0.5 else data + b'\0'
        if kind == 1:
            i = self.r.choice([0x0E, 0x1E, 0x2E, self.r.randrange(128)])
            return data[:i] + bytes([data[i] ^ 1 << self.r.randrange(8)]) + data[i + 1:]
        return data

    def row(self):
        count = self.r.choice([0, 1, 2, 3, 10, 64, 65])
        images = [image(self.r, some_bytes(self.r, 6)) for _ in range(count)]
        while images and self.r.random() < 0.3:
            images[self.r.randrange(count)] = self.some_image()
        if images and self.r.random() < 0.1:
            images[self.r.randrange(count)] = self.r.choice(images)
        return b''.join(images) + (b'' if self.r.random() < 0.9 else b'\7')

    def source(self, c, name):
        """A file that is read, by its name or as standard input."""
        if c.fed or self.r.random() < 0.85:
            return name
        c.fed = self.files[name]
        return '-'

    def lock(self, c, word):
        if word != '-' and word + '.lock' in self.files:
            c.stop(says.locked(word), 'locked')

    def reading(self, verb):
        c, data = Command([verb]), self.files['cards']
        word = self.source(c, 'cards')
        c.words.append(word)
        c.too_large(word, data)
        return c, data

    def listing(self, verb):
        c, data = self.reading(verb)
        c.refuse(model.judged(data), says.of_file, data)
        if not c.end and verb == 'list':
            c.out = listed(data).encode()
        elif not c.end:
            fields = model.split(data)[0]
            c.out = b'sound: %d cards, %d fields\n' % (sum(t == 1 for t, _ in fields), len(fields) - 1)
        return c

    def numbers(self, data, who):
        """Two versions' numbers, often such as the card has."""
        some = [0, 1, 2, 3, 5, 301, 65535]
        if not model.judged(data):
            some += 4 * [n for card, versions in model.cards(data) if card == who for n, _ in versions]
        return self.r.choice(some), self.r.choice(some)

    def showing(self, verb):
        c, data = self.reading(verb)
        who = self.address()
        c.words.append(self.spelled(who))
        if self.r.random() < 0.5:
            why, c.out = model.latest(data, who)
        else:
            number = self.numbers(data, who)[0]
            c.words.append(str(number))
            why, c.out = model.given(data, who, number)
        c.refuse(why, says.of_version, data, who)
        c.out = b'' if c.end else c.out
        return c

    def comparing(self, verb):
        c, data = self.reading(verb)
        who = self.address()
        old, new = self.numbers(data, who)
        c.words += [self.spelled(who), str(old), str(new)]
        refusals = {model.given(data, who, number)[0] for number in (old, new)} - {0}
        c.refuse(min(refusals, default=0), says.of_version, data, who)
        if not c.end:
            c.out = says.changes(model.given(data, who, old)[1], model.given(data, who, new)[1]).encode()
        return c

    def looking_up(self, verb):
        c, own, data = Command([verb]), self.files['own'], self.files['cards']
        first, second = self.source(c, 'own'), self.source(c, 'cards')
        second = 'cards' if first == '-' else second
        who = self.address()
        if self.r.random() < 0.2 and model.addresses(own):
            who = self.r.choice(model.addresses(own))
        c.words += [first, second, self.spelled(who)]
        c.too_large(second, data)
        why, out, _ = model.lookup(own, data, who)
        # The override is named where its own check answers the number.
        refused, name = (own, first) if model.judged(own) == why else (data, second)
        c.refuse(why, says.of_lookup, refused, 'standard input' if name == '-' else name)
        c.out = b'' if c.end else out
        return c

    def adding(self, verb):
        self.put('image', self.some_image())
        c, data, given = Command([verb]), self.files['cards'], self.files['image']
        word = self.source(c, 'cards')
        c.words += [word, 'image' if word == '-' else self.source(c, 'image')]
        self.lock(c, word)
        c.too_large(word, data)
        if not c.end:
            why, out = model.add(data, given, ROOM)
            c.refuse(why, says.of_addition, data, given)
            c.gives(word, out)
        if c.changed:
            c.out = says.version(c.changed[1], given).encode()
        return c

    def dropping(self, verb):
        c, data = Command([verb]), self.files['cards']
        word, who = self.source(c, 'cards'), self.address()
        c.words += [word, self.spelled(who)]
        self.lock(c, word)
        c.too_large(word, data)
        if not c.end:
            why, out = model.drop(data, who, ROOM)
            c.refuse(why, says.of_file, data)
            c.gives(word, out)
        return c

    def moving(self, verb):
        """Import or export, with --replace at some place or without."""
        if self.r.random() < 0.5:
            self.put('row', self.row())
        c, name = Command([verb]), 'row' if verb == 'import' else 'cards'
        word, data = self.source(c, name), self.files[name]
        to = self.r.choice(['moved', 'moved', 'cards', '-'] if verb == 'import' else ['row', 'row', 'row', 'moved', 'cards', '-'])
        c.words += [word, to]
        replace = self.r.random() < 0.5
        if replace:
            c.words.insert(self.r.randint(1, 3), '--replace')
        self.lock(c, to)
        there = b'' if to == '-' else self.files.get(to, b'')
        if verb == 'import' and there and not replace:
            c.stop(says.stands(to), 'stands')
        if verb == 'export' and there and not replace and len(there) <= ROOM and not model.judged(there):
            c.stop(says.catalogue_stands(to), 'stands')
        c.too_large(word, data)
        if not c.end:
            why, out = (model.imported if verb == 'import' else model.exported)(data, ROOM)
            c.refuse(why, says.of_archive if verb == 'import' else says.of_file, data)
            c.gives(to, out)
        return c

    def step(self):
        kinds = {'list': self.listing, 'check': self.listing, 'show': self.showing, 'diff': self.comparing, 'lookup': self.looking_up,
                 'add': self.adding, 'drop': self.dropping, 'import': self.moving, 'export': self.moving}
        verb = self.r.choice(sorted(kinds) + ['add', 'add', 'add', 'drop', 'show'])
        return kinds[verb](verb)

    def play(self, steps):
        for _ in range(steps):
            locked = self.r.choice(['cards.lock', 'row.lock', 'moved.lock']) if self.r.random() < 0.1 else None
            if locked:
                self.put(locked, b'')
            self.turn(self.step())
            if locked:
                del self.files[locked]
                os.remove(os.path.join(self.folder, locked))
            if self.r.random() < 0.06:
                self.put('cards', mutated(self.r, self.files['cards']))
                self.did.append('(damage)')
            if model.judged(self.files['cards']) in (15, 16) and self.r.random() < 0.5:
                self.put('cards', written(whole(self.r, 1, 8, self.addresses)))
                self.did.append('(a new file)')

    def turn(self, c):
        if c.changed:
            self.files[c.changed[0]] = c.changed[1]
        self.seen[c.end or 'done'] = self.seen.get(c.end or 'done', 0) + 1
        self.did.append(' '.join(c.words))
        ran = subprocess.run([self.program] + c.words, cwd=self.folder, input=c.fed, capture_output=True, check=False)
        if ran.returncode != 0 or ran.stdout != c.out or ran.stderr.decode() != c.said:
            self.fail(f'said {ran.stdout!r} {ran.stderr!r} {ran.returncode}, by the request {c.out!r} {c.said!r}')
        there = {}
        for name in os.listdir(self.folder):
            with open(os.path.join(self.folder, name), 'rb') as file:
                there[name] = file.read()
        if there != self.files:
            self.fail('the files are not those of the request: ' + ', '.join(sorted(n for n in {*there, *self.files} if there.get(n) != self.files.get(n))))

    def fail(self, what):
        kept = tempfile.mkdtemp(prefix='catalogue_cross.')
        for name, data in self.files.items():
            with open(os.path.join(kept, name), 'wb') as file:
                file.write(data)
        sys.exit('%s\nafter: %s\nthe files that it should have left are in %s' % (what, '; '.join(self.did), kept))


def main():
    given = [int(word) for word in sys.argv[3:]] + [None] * 3
    sequences, files, seed = given[0] or 200, given[1] or 600, given[2] or 9
    judges, program = (os.path.abspath(word) for word in sys.argv[1:3])
    r, seen = random.Random(seed), {}
    told = judge(judges, files, r)
    print('judge:', ', '.join(f'{told[v]} {v}' for v in sorted(told)))
    for _ in range(sequences):
        with tempfile.TemporaryDirectory() as folder:
            row = Sequence(program, folder, r)
            row.play(8)
            for end, n in row.seen.items():
                seen[end] = seen.get(end, 0) + n
    print('catalogue:', ', '.join(f'{seen[v]} {v}' for v in sorted(seen)))


if __name__ == '__main__':
    main()
