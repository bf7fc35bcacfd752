#!/usr/bin/env python3
"""Plays random scripts, sensible and senseless, on the bench program.

    tests/bench_fuzz.py crates/bench/out/bench [SCRIPTS [SEED]]

It must never fail, answer each line that is not empty and no comment with one line of a form
that the language has, and answer the same script the same way, in one piece or in many. The word
and the count that rx answers must agree, and the word with the register.
"""
import random
import re
import subprocess
import sys

FORMS = re.compile(
    r'(ok|what\?|refused ([2-5]|1[123])|refused 6 accesses \d+|= [0-9A-F]{4}|= [0-9A-F]{2}|= [01]|wire ([0-9A-F]{2}){6,}'
    r'|found [0-7] accesses \d+( [0-9A-F]{12}){0,7}|ticket \d+|report \d+ [0-9A-F]{2} accesses \d+|status [0-9A-F]{2} accesses \d+'
    r'|rx [0-9A-F]{4} unread (-[123]|\d+)'
    r'|frame look ([0-9A-F]{2}){60,256} accesses \d+|frame frame ([0-9A-F]{2}){257,1514} accesses \d+|idle accesses \d+)')

# Values that lead somewhere: commands, offsets, preambles, EEPROM commands.
COMMANDS = [0x0800, 0x0801, 0x0802, 0x0803, 0x0805, 0x1800, 0x2000, 0x2800, 0x4000, 0x4800, 0x5000, 0x5800, 0x6000, 0x68FF, 0x70FE, 0x78FF, 0x8005, 0x8840, 0x9040, 0x9840]


def hexes(r, n):
    return ''.join(r.choice('0123456789ABCDEFabcdef') for _ in range(n))


def sensible(r):
    kind = r.randrange(27)
    if kind < 2:
        return 'rw %X' % r.choice([0, 2, 4, 6, 8, 0xA, 0xC, 0xE])
    if kind == 2:
        return 'rb %X' % r.randrange(4, 16)
    if kind < 6:
        return 'ww E %X' % r.choice(COMMANDS)
    if kind == 6:
        return 'ww %X %X' % (r.randrange(0, 14, 2), r.randrange(65536))
    if kind == 7:
        return 'wb %X %X' % (r.randrange(16), r.randrange(256))
    if kind == 8:
        return 'ww 0 %X' % (r.choice([0, 0x8000, 0xA000]) + r.randrange(5, 70))
    if kind < 12:
        return 'start ' + r.choice(['FFFFFFFFFFFF', '0020AFC412E5', hexes(r, 12)]) + hexes(r, 4)
    if kind < 15:
        return 'bytes ' + hexes(r, 2 * r.choice([1, 7, 52, 53, 300, 1506, 1507]))
    if kind < 18:
        return 'end ' + r.choice(['11', '11', '01', '10', '00'])
    if kind == 18:
        return r.choice(['sent', 'sent', 'collided'])
    if kind == 19:
        return r.choice(['search 110', 'activate 110 1 31', 'activate 110 %d %d' % (r.randrange(9), r.randrange(33))])
    if kind == 20:
        return r.choice(['idw 110 %X' % r.randrange(256), 'idr 110', 'idr %X' % r.randrange(512)])
    if kind == 21:
        return 'open 0020 AFC4 12E5'
    if kind == 22:
        return 'send ' + hexes(r, 2 * r.choice([13, 14, 60, 200, 1514, 1515]))
    if kind == 23:
        return 'rx'
    return 'service %d' % r.choice([0, 1, 2, 3, 4, 5, 33, 100, 1000, 65535])


def line(r):
    x = r.random()
    if x < 0.9:
        return sensible(r)
    if x < 0.92:
        return r.choice(['', ' ', '# a comment', '\t'])
    if x < 0.925:
        return r.choice(['power ', 'join ']) + hexes(r, 256)
    if x < 0.96:
        s = list(sensible(r))
        for _ in range(r.randrange(1, 3)):
            s[r.randrange(len(s))] = chr(r.choice([r.randrange(1, 10), r.randrange(11, 127), 255]))
        return ''.join(s)
    if x < 0.98:
        return ' '.join([sensible(r), hexes(r, r.randrange(1, 6))])
    if x < 0.985:
        return hexes(r, r.randrange(8180, 8210))
    return ''.join(chr(r.randrange(11, 256)) for _ in range(r.randrange(1, 60)))


def script(r, n):
    lines = ['power ' + '0020AFC412E5' + hexes(r, 244), 'search 110', 'activate 110 1 31', 'open 0020 AFC4 12E5']
    for _ in range(n):
        lines.append(line(r))
        if r.random() < 0.03:
            lines += ['rw E', 'rw 8', 'rx']
    return lines


def answered(lines):
    """The lines that answer: those with a word, since a # starts a comment, and those that are too long."""
    return [x for x in lines if x.split('#')[0].strip(' \t') not in ('', '\r') or len(x.removesuffix('\r')) > 8192]


def offset_read(line, answer):
    """The offset of a word that was read: rw alone answers with four digits."""
    return int(line.split('#')[0].split()[1], 16) if re.fullmatch('= [0-9A-F]{4}', answer) else None


def judge_rx(asked, told):
    """Judges each rx; answers how many were held to the register, and how many told a count below 0.

    The count is what bits 10-0 of the word say, two's complement; an inactive card tells FFFF and 0.
    Where `rw E`, `rw 8` and `rx` follow one another, Status has the window in bits 15-13 (all ones, of an
    inactive card, would be window 7). In window 1 the last two tell the same word: none changes anything.
    """
    held = below = 0
    for i, answer in enumerate(told):
        if not answer.startswith('rx '):
            continue
        word, unread = int(answer.split()[1], 16), int(answer.split()[3])
        count = word & 0x7FF
        assert unread == (0 if word == 0xFFFF else count - 2048 if count > 1792 else count), (i, answer)
        below += unread < 0
        if i < 2 or [offset_read(asked[k], told[k]) for k in (i - 2, i - 1)] != [0xE, 8]:
            continue
        if int(told[i - 2][2:], 16) >> 13 == 1:
            assert told[i - 1] == '= %04X' % word, (i, told[i - 1], answer)
            held += 1
    return held, below


def play(program, text):
    done = subprocess.run([program], input=text, stdout=subprocess.PIPE, timeout=600)
    assert done.returncode == 0, 'the program ended with %d' % done.returncode
    return done.stdout


def in_pieces(program, text, r):
    p = subprocess.Popen([program], stdin=subprocess.PIPE, stdout=subprocess.PIPE)
    out = []
    import threading
    t = threading.Thread(target=lambda: out.append(p.stdout.read()))
    t.start()
    i = 0
    while i < len(text):
        n = r.choice([1, 2, 3, 50, 4095, 4096, 4097])
        p.stdin.write(text[i:i + n])
        p.stdin.flush()
        i += n
    p.stdin.close()
    t.join()
    assert p.wait() == 0
    return out[0]


def main():
    program = sys.argv[1]
    scripts = int(sys.argv[2]) if len(sys.argv) > 2 else 50
    seed = int(sys.argv[3]) if len(sys.argv) > 3 else 509
    lines = held = 0
    for k in range(scripts):
        r = random.Random(seed * 100003 + k)
        s = script(r, 400)
        text = '\n'.join(s).encode('latin-1') + (b'\n' if k % 2 else b'')
        answer = play(program, text)
        told = answer.decode().split('\n')
        assert told.pop() == ''
        asked = answered(s)
        assert len(told) == len(asked), (k, len(told), len(asked))
        for a, t in zip(asked, told):
            assert FORMS.fullmatch(t), (k, a[:60], t[:80])
        held += judge_rx(asked, told)[0]
        if k % 10 == 0:
            assert in_pieces(program, text, r) == answer
        lines += len(s)
    assert held, 'no rx was held to the register'
    print('%d scripts, %d lines: every line answered; %d times rx tells what rw 8 does' % (scripts, lines, held))


if __name__ == '__main__':
    main()
