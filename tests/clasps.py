"""clasp (Debian's package), for the tests of this folder.

clasp 3.3.5 misses stable models of choice rules with two or more head atoms and a weighted body: of `1 1 2 1 4 1 1 3 2 2 -3 5 1 3` alone it finds {} and {4}, and not {1} and {1,4}. Turned into
plain rules first (`--trans-ext=weight`) all are found; tests/weighing.py compares with brute force. So texts with such a rule go that way. Others don't, since that takes long for large sums: a
weighted body in a plain rule of its own, as gringo writes it, is read right.
"""
import json
import subprocess


def care(text):
    """The option that a text needs."""
    rules = [l.split(' ') for l in text.split('\n') if l.startswith('1 1 ')]
    return ['--trans-ext=weight'] if any(int(f[2]) > 1 and f[3 + int(f[2])] == '1' for f in rules) else []


def ask(text, n, *words, wait=None):
    """What clasp says of a text, in which each atom from 1 to n is given a name of its own in place of the text's."""
    lines = [l for l in text.split('\n')[:-2] if not l.startswith('4 ')] + [f'4 {len(str(a)) + 1} x{a} 1 {a}' for a in range(1, n + 1)]
    given = '\n'.join(lines + ['0', ''])
    return json.loads(subprocess.run(['clasp', '--outf=2', *care(text), *words, '-'], input=given, capture_output=True, text=True, timeout=wait).stdout)


def models(text, n):
    """All stable models, as sets of atoms with their costs as clasp has them."""
    out = ask(text, n, '-n', '0', '--opt-mode=enum')
    assert out['Models']['More'] == 'no', out               # all of them
    return {frozenset(int(x[1:]) for x in w['Value']): w.get('Costs', []) for w in out['Call'][-1].get('Witnesses', [])}


def best(text, n):
    """An optimal stable model and its costs as clasp has them, or None."""
    out = ask(text, n, '-n', '0', '--opt-mode=opt')
    if out['Result'] == 'UNSATISFIABLE':
        return None
    assert out['Result'] in ('OPTIMUM FOUND', 'SATISFIABLE'), out
    last = out['Call'][-1]['Witnesses'][-1]
    return {int(x[1:]) for x in last['Value']}, last.get('Costs', [])
