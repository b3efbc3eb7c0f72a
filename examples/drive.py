#!/usr/bin/env python3
"""usage: drive.py FILE [ADVANCES IN A SLICE]

Drives `bin/serve` through a pipe: loads the aspif program in FILE, runs it in slices (of 100000 advances if no number is given) and prints how far the plan is after each, then the
plan: examples/drive.py examples/small.aspif 200
Exit status: 0 an answer, 64 bad usage, 65 the text is refused, 66 FILE cannot be read.
"""
import os
import subprocess
import sys


def stop(status, *words):
    print(*words, file=sys.stderr)
    sys.exit(status)


words = sys.argv[1:]
if words[:1] in (['--help'], ['-h']):
    print(__doc__.strip())
    sys.exit(0)
if len(words) not in (1, 2) or not words[-1] or (len(words) == 2 and not words[1].isdecimal()):
    stop(64, __doc__.strip())
try:
    text = open(words[0], 'rb').read()
except OSError as e:
    stop(66, f'drive.py: cannot read {words[0]}: {e.strerror}')
budget = words[1] if len(words) == 2 else '100000'

serve = subprocess.Popen([os.path.join(os.path.dirname(os.path.abspath(__file__)), '..', 'bin', 'serve')], stdin=subprocess.PIPE, stdout=subprocess.PIPE)


def ask(command, text=b'', lines=1):
    serve.stdin.write(command.encode() + b'\n' + text)
    serve.stdin.flush()
    return [serve.stdout.readline().decode().rstrip('\n') for _ in range(lines)]


answer = ask(f'load {len(text)}', text)[0]
if answer != 'loaded':
    stop(65, f'drive.py: {words[0]}: {answer}')
status = 'running'
while status == 'running':
    answer = ask(f'run {budget}')[0]
    if answer.startswith('error'):
        stop(64, f'drive.py: {answer}')
    status = answer.split()[0]
    look = dict(line.partition(' ')[::2] for line in ask('look', lines=7))
    print(f"cost {look['upper']}, at least {look['lower']}")
print(status)
i = 0
while (shown := ask(f'shown {i}')[0]) in ('shown 0', 'shown 1'):
    if shown == 'shown 1':
        print(ask(f'symbol {i}')[0].split(' ', 2)[2])
    i += 1
ask('quit', lines=0)
