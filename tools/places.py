#!/usr/bin/env python3
"""Counts the places of docs/DESIGN-PASS.md in crates/*/src/*.rt.

usage: tools/places.py [COMMIT] [--list]     with no commit: the files as they lie"""
import re
import subprocess
import sys
from collections import Counter, defaultdict

ARGS = [a for a in sys.argv[1:] if not a.startswith('--')]
LIST = '--list' in sys.argv
COMMIT = ARGS[0] if ARGS else None


def git(*words):
    return subprocess.run(['git', *words], capture_output=True, text=True, check=True).stdout


def sources():
    names = git('ls-tree', '-r', '--name-only', COMMIT) if COMMIT else git('ls-files')
    for name in names.split('\n'):
        if re.fullmatch(r'crates/\w+/src/\w+\.rt', name):
            yield name, git('show', f'{COMMIT}:{name}') if COMMIT else open(name).read()


FILES = {name: re.sub(r'//[^\n]*', '', text) for name, text in sources()}
FUNCTIONS = []      # (file, name, parameters, clauses, body)
for file, text in FILES.items():
    for m in re.finditer(r'^( *)(?:pub )?(?:const )?(?:extern "C" )?fn (\w+)(?:<[^{(]*>)?\((.*?)\n?\1?\)(.*?)^\1\{\n(.*?)^\1\}',
                         text, re.S | re.M):
        FUNCTIONS.append((file, m[2], m[3], m[4], m[5]))


def tell(point, what, places):
    places = sorted(set(places))
    print(f'{point}. {what}: {len(places)}')
    if LIST:
        for place in places:
            print('     ', place)


# 1
found = []
for file, text in FILES.items():
    for m in re.finditer(r'enum (\w+) \{(.*?)\n\}', text, re.S):
        variants = [v.strip() for v in re.sub(r'\([^)]*\)', '()', m[2]).split(',') if v.strip()]
        bare = [v for v in variants if '(' not in v]
        refused = 'Refused()' in variants or 'Bad' in variants or 'Nothing' in bare
        if refused or (len(variants) == 2 and len(bare) == 1) or {'Other', 'NoBox', 'Stop'} & set(bare):
            found.append(f'{file} enum {m[1]}')
    for m in re.finditer(r'^ *pub (good|found|ok): bool', text, re.M):
        found.append(f'{file} flag {m[1]} at {text[:m.start()].count(chr(10)) + 1}')
    for m in re.finditer(r'^(?:pub )?const (NO_\w+|TOO_SHORT): u\d+ = ', text, re.M):
        found.append(f'{file} code {m[1]}')
tell(1, "enums of Option's or Result's shape, flags beside a value, codes", found)

# 2: bodies that are the same once types, numbers and called names are left out
groups = defaultdict(list)
for file, name, parameters, clauses, body in FUNCTIONS:
    shape = re.sub(r'\b(u8|u16|u32|u64|usize|i32|i64|f32|f64)\b', 'T', body)
    shape = re.sub(r'\b\d[\d_a-fx.]*(?:[uif]\d+|usize)?\b', 'N', shape)
    order = {}
    shape = re.sub(r'\b(?!(?:if|else|return|while|for|in|let|mut|match|self|Self|true|false|as|T|N)\b)[A-Za-z_]\w*',
                   lambda m: order.setdefault(m[0], f'v{len(order)}'), shape)
    shape = ' '.join(shape.split())
    if body.count('\n') > 3:
        groups[shape].append(f'{file} {name}')
tell(2, 'functions of one body but for types, constants and names', [', '.join(g) for g in groups.values() if len(g) > 1])

# 3
found = []
for file, text in FILES.items():
    for m in re.finditer(r'^ *while ', text, re.M):
        found.append(f'{file}:{text[:m.start()].count(chr(10)) + 1}')
tell(3, '`while` loops', found)

# 4
NAMES = ('answer|number|from_byte|are|same_place|smaller|least|lesser|greater|lesser_column|greater_column|abs|signum|'
         'is_finite|infinity|is_empty|both|either|all_of|wide|put|put_bytes|clear|clear_bytes|clear_floats|clear_counters|plus')
tell(4, 'equality, order, copying, conversion and printing by hand (and what the library has)',
     [f'{file} {name}' for file, name, *_ in FUNCTIONS if re.fullmatch(NAMES, name)])

# 5: a clause's fact in three contracts or more; two parameters that stand together in three signatures or more
facts = Counter()
for file, name, parameters, clauses, body in FUNCTIONS:
    for m in re.finditer(r'requires (?:\w+ )?\{ (.*?) \}', clauses, re.S):
        head = re.match(r'\(?([A-Z]\w+)', m[1].strip())
        if head:
            facts[head[1]] += 1
tell(5, 'facts that three contracts or more require', [f'{k} ({n})' for k, n in facts.items() if n > 2])
pairs = Counter()
for file, name, parameters, clauses, body in FUNCTIONS:
    words = [p.strip() for p in parameters.split(',') if ':' in p and '[' in p]
    for i, a in enumerate(words):
        for b in words[i + 1:]:
            pairs[a, b] += 1
tell(5, 'pairs of lent arrays that stand together in three signatures or more', [f'{a} / {b} ({n})' for (a, b), n in pairs.items() if n > 2])

# 6
found = []
for file, name, parameters, clauses, body in FUNCTIONS:
    if re.search(r'\[f32; MOST_\w+\]', parameters) and parameters.count('[f32; MOST_') > 1:
        found.append(f'{file} {name}: parallel arrays')
    if re.search(r'\[u8; MOST_LINE\]', parameters):
        found.append(f'{file} {name}: a line with a place beside it')
tell(6, 'parallel arrays, buffers with a length or a place beside', found)

# 7
found = []
for file, text in FILES.items():
    for m in re.finditer(r'enum (Ask|Kind|\w+Call)\b', text):
        found.append(f'{file} enum {m[1]}')
for file, name, parameters, clauses, body in FUNCTIONS:
    for m in re.finditer(r'\b(up|away|sixteen|even_odd|wide|signed): bool', parameters):
        found.append(f'{file} {name}: {m[1]}')
tell(7, 'switches on which step to run', found)

# 8
names = (git('ls-tree', '-r', '--name-only', COMMIT) if COMMIT else git('ls-files')).split('\n')
answers = [n for n in names if re.fullmatch(r'crates/\w+/proofs/.*/(Answers|Invariants|Proof)\.antt', n)]
print(f'8. files of answers, invariants and proofs by function: {len(answers)}')
