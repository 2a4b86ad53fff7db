#!/usr/bin/env python3
"""The places in src/ that today's forms could replace, point by point, as docs/DESIGN-PASS.md counts them.

    tools/places.py [COMMIT] [--list]      of COMMIT, or of the work tree; --list prints each place
"""
import re
import subprocess
import sys

LIST = '--list' in sys.argv
COMMIT = next((a for a in sys.argv[1:] if not a.startswith('-')), None)


def sources():
    if COMMIT:
        out = subprocess.run(['git', 'ls-tree', '-r', '--name-only', COMMIT, 'crates'], capture_output=True, text=True, check=True).stdout
        names = [n for n in out.split('\n') if re.fullmatch(r'crates/[^/]+/src/.*\.rt', n)]
        return {n: subprocess.run(['git', 'show', f'{COMMIT}:{n}'], capture_output=True, text=True, check=True).stdout for n in names}
    import glob
    return {n: open(n).read() for n in sorted(glob.glob('crates/*/src/**/*.rt', recursive=True))}


FILES = sources()


def bare(line):
    return re.sub(r'//.*', '', line)


def lines(pattern):
    return [(n, k + 1, l.strip()) for n, t in FILES.items() for k, l in enumerate(t.split('\n')) if re.search(pattern, bare(l)) and not l.strip().startswith('ghost use')]


def functions():
    """(file, line, name, parameters, body) of each function."""
    for n, t in FILES.items():
        for m in re.finditer(r'^( *)(?:pub )?(?:extern "C" )?(?:const )?fn (\w+)(<[^(]*>)?\(', t, re.M):
            depth, i = 1, m.end()
            while depth:
                depth += {'(': 1, ')': -1}.get(t[i], 0)
                i += 1
            end = re.compile('^' + m.group(1) + r'\}', re.M).search(t, i)
            brace = re.compile(r'^ *\{\n|\{\n', re.M).search(t, i)
            body = t[brace.end():end.start()] if brace and end and brace.end() <= end.start() else ''
            yield n, t.count('\n', 0, m.start()) + 1, m.group(2), t[m.end():i - 1], body


def split_parameters(p):
    return [x.strip() for x in re.split(r',(?![^<\[(]*[>\])])', p) if x.strip()]


def many_slices(least):
    found = []
    for n, k, name, p, _ in functions():
        slices = [x for x in split_parameters(p) if re.search(r': &(\'\w+ )?(mut )?\[', x)]
        if len(slices) >= least:
            found.append((n, k, f'{name}: {len(slices)} slices'))
    return found


def twins():
    """Functions whose bodies are the same but for names and numbers: all but the first of each set."""
    seen, found = {}, []
    for n, k, name, p, body in functions():
        words = re.sub(r'//.*', '', body)
        if len(words.split()) < 2:
            continue
        shape = re.sub(r'\b[A-Za-z_]\w*(::\w+)*\b', lambda m: m.group(0) if m.group(0) in ('if', 'else', 'match', 'while', 'for', 'in', 'loop', 'return', 'let', 'mut', 'as', 'true', 'false') else 'x', words)
        shape = re.sub(r'\b\d+(u\d+)?\b', '0', re.sub(r'\s+', ' ', shape))
        if shape in seen:
            found.append((n, k, f'{name} as {seen[shape]}'))
        else:
            seen[shape] = f'{n.split("/")[1]}::{name}'
    return found


POINTS = [
    ('1 enums of the shape of Option or Result', lambda: [x for x in lines(r'^\s*(pub )?enum \w+ \{') if not re.search(r'enum (Refusal|Scope|RevisionError)\b', x[2])]),
    ('1 kinds and refusals as numbers', lambda: lines(r'kind (==|!=) \d|(==|!=) \d+ *\)? *\| *\(?kind|match kind|kind: u(8|32)|due: u8|\.opening\(input, \d|entry\(c, input, k, \d|policy\[at\] == \d|wire::put8\([^,]*, at, \d|^\s*wire::put8\(out, at, \d')),
    ('1 a number for no value', lambda: lines(r'\bNONE\b')),
    ('1 flags with or for a value', lambda: lines(r'\b\w+: bool\b')),
    ('2 twins (bodies alike but for names and numbers)', twins),
    ('3 loops with a hand-counted index', lambda: lines(r'^\s*(\'\w+: )?while\b|^\s*(\'\w+: )?loop\b')),
    ('3 loops over a range of indices', lambda: lines(r'\bfor \w+ in [\w.:]+\.\.')),
    ('4 conversions by hand', lambda: [(n, k, f'{name}') for n, k, name, p, b in functions() if re.fullmatch(r'.*_number|refused|revised|wide|with_\w+|of(16|32)|pick', name)]),
    ('5 functions that are passed four or more slices', lambda: many_slices(4)),
    ('5 slices passed one by one', lambda: [(n, k, l) for n, k, l in lines(r'^\s*(mut )?\w+: &(mut )?\[u(16|32)\],')]),
    ('6 a buffer and a place beside it', lambda: [(n, k, name) for n, k, name, p, _ in functions() if re.search(r'\b(out|area): &mut \[u8\]', p) and re.search(r'\b(at|first): usize', p)]),
    ('6 arrays that go together', lambda: lines(r'= \[0u32; |no_clauses\(\)|no_column\(\)|no_ids\(\)|no_distances\(\)|vacant\(\)|no_rows\(\)|unlisted\(\)|past\(\)|unplaced\(\)')),
    ('7 a switch on which step', lambda: lines(r'match kind|late: bool|\bif late\b|settled\((true|false|late)|rest\((true|false)')),
]


def proofs():
    if COMMIT:
        names = subprocess.run(['git', 'ls-tree', '-r', '--name-only', COMMIT, 'crates'], capture_output=True, text=True, check=True).stdout.split('\n')
    else:
        names = subprocess.run(['git', 'ls-files', 'crates'], capture_output=True, text=True, check=True).stdout.split('\n')
    return [(n, 1, '') for n in names if n.endswith('/Proof.antt')]


for title, places in POINTS + [('8 proofs in the older form', proofs)]:
    found = places()
    print(f'{title}: {len(found)}')
    if LIST:
        for n, k, l in found:
            print(f'    {n}:{k}: {l}')
