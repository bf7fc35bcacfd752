#!/usr/bin/env python3
"""Plays random scripts on the bench program and on the independent model, and compares every answer.
Each rx is held to the register too (bench_fuzz.py, judge_rx).

    tests/bench_cross.py crates/bench/out/bench rust/target/release/play [SCRIPTS [LINES]]
"""
import os
import subprocess
import sys

from bench_fuzz import answered, judge_rx

bench, model = sys.argv[1], sys.argv[2]
scripts = int(sys.argv[3]) if len(sys.argv) > 3 else 40
lines = sys.argv[4] if len(sys.argv) > 4 else '1000'
here = os.path.dirname(os.path.abspath(__file__))


def played(program, script):
    r = subprocess.run([program], input=script, capture_output=True)
    if r.returncode != 0:
        sys.exit('%s ended with %d' % (program, r.returncode))
    return r.stdout.split(b'\n')


answers = held = below = 0
for seed in range(scripts):
    script = subprocess.run([sys.executable, os.path.join(here, 'bench_gen.py'), str(seed), lines], capture_output=True, check=True).stdout
    a, b = played(bench, script), played(model, script)
    if a != b:
        at = next((i for i, (x, y) in enumerate(zip(a, b)) if x != y), min(len(a), len(b)))
        sys.exit('seed %d, answer %d: %r against %r' % (seed, at, a[at:at + 1], b[at:at + 1]))
    asked, told = answered(script.decode('latin-1').split('\n')), a[:-1]
    if len(asked) != len(told):
        sys.exit('seed %d: %d answers to %d lines' % (seed, len(told), len(asked)))
    answers += len(told)
    counts = judge_rx(asked, [x.decode() for x in told])
    held, below = held + counts[0], below + counts[1]
if not held or not below:
    sys.exit('%d times rx was held to the register, %d counts below 0' % (held, below))
print('bench: %d scripts, %d answers, as the model has them; %d times rx tells what rw 8 does, %d counts below 0' % (scripts, answers, held, below))
