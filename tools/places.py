#!/usr/bin/env python3
"""Lists the places in crates/*/src where an older form of code may stand, by point, with their counts.

    python3 tools/places.py [-v] [FOLDER]

The folder is a checkout (default: this one); -v prints each place. What is listed is a candidate: docs/DESIGN-PASS.md
says of each whether it was changed or stays, and why.
"""
import collections
import glob
import os
import re
import sys

verbose = '-v' in sys.argv
args = [a for a in sys.argv[1:] if a != '-v']
top = args[0] if args else os.path.join(os.path.dirname(os.path.abspath(__file__)), '..')
TABLES = ('tables.rt', 'published.rt')
files = {os.path.relpath(p, top): open(p, encoding='utf-8').read()
         for p in sorted(glob.glob(os.path.join(top, 'crates/*/src/**/*.rt'), recursive=True))}


def lines(pattern, skip=()):
    found = []
    for path, text in files.items():
        if os.path.basename(path) in skip:
            continue
        for number, line in enumerate(text.split('\n'), 1):
            code = line.split('//')[0]
            if re.search(pattern, code) and not code.strip().startswith(('ghost', 'ensures', 'requires')):
                found.append((path, number, line.strip()))
    return found


def functions():
    """(path, line, name, signature, body) of each function."""
    for path, text in files.items():
        for m in re.finditer(r'^[ \t]*((?:pub(?:\([a-z]+\))? )?(?:extern "C" )?)fn (\w+)', text, re.M):
            i, depth = m.end(), 0
            # the body: the first brace that stands alone on its line, or ends a line of the signature
            body = re.compile(r'(?:^\s*|\)\s*|> |\w )\{$', re.M).search(text, i)
            semi = re.compile(r';$', re.M).search(text, i)
            if not body or (semi and semi.start() < body.start()):
                continue
            j = body.end() - 1
            k, depth = j, 0
            while k < len(text):
                if text[k] == '{':
                    depth += 1
                elif text[k] == '}':
                    depth -= 1
                    if depth == 0:
                        break
                k += 1
            yield path, text.count('\n', 0, m.start()) + 1, m.group(2), text[i:j], text[j + 1:k]


def shape(body):
    """The body with its names of calls, types, constants and numbers taken out."""
    s = re.sub(r'//.*', '', body)
    s = re.sub(r'"[^"]*"', 'S', s)
    s = re.sub(r'\bu(8|16|32|64)\b', 'U', s)
    s = re.sub(r'\b\w+(?=(::<[^>]*>)?\()', 'F', s)
    s = re.sub(r'\b[A-Z]\w*', 'T', s)
    s = re.sub(r'\b(0x)?[0-9][0-9a-f_]*\b', 'N', s)
    return re.sub(r'\s+', ' ', s).strip()


def clauses(signature):
    return sorted(re.sub(r'\s+', ' ', c).strip() for c in re.findall(r'^\s*(?:requires|ensures)\*? ?(?:\w+ )?\{ (.*) \}$', signature, re.M))


def show(title, found):
    print(f'{title}: {len(found)}')
    if verbose:
        for f in found:
            print('   ', *(str(x) for x in f))


all_functions = list(functions())

show('1a own enums', lines(r'\benum \w+'))
show('1b flags, and numbers for kinds, rows, slots and tears',
     lines(r'\bpower: bool|\b(tear|slot|mark|kind): u(8|16|32)\b|\bNOWHERE\b|\(u8, u64\)|=> 16,|-> bool$|-> usize$'))

twins = collections.defaultdict(list)
for path, line, name, signature, body in all_functions:
    if len(shape(body)) > 12:
        twins[path.split('/')[1], shape(body)].append((path, line, name))
show('2a functions of one crate whose bodies differ in names, types and numbers alone',
     [(len(v), ' '.join(f'{os.path.basename(p)}:{l}:{n}' for p, l, n in v)) for v in twins.values() if len(v) > 1])
by_name = {(p.split('/')[1], n): clauses(s) for p, l, n, s, b in all_functions}
wrappers = []
for path, line, name, signature, body in all_functions:
    m = re.fullmatch(r'\s*(?:self\.)?(\w+)\(([^()]|\(\))*\);?\s*', body)
    if m and m.group(1) != name:
        own, other = clauses(signature), by_name.get((path.split('/')[1], m.group(1)))
        if other and (own == other or not own):
            wrappers.append((path, line, f'{name} only calls {m.group(1)}'))
show('2b functions that only call another of the same contract', wrappers)

show('3 loops by index or with a count', lines(r'\bwhile\b|\bfor [^;{]*\b\d+(usize|u32|u8)?\.\.|\bfor [^;{]* in \w+\.\.|\bfor _ in|\.\.\w*\.len\(\)\)|0\.\.', skip=TABLES))
show('4 equality, order, copying, conversion and printing by name',
     lines(r'\bfn (number\w*|from_number|same\w*|is|bytes|kind|layer|kind_of\w*|kind_text|kind_letter|style_named|xor|plus|from_bytes|u(32|64)_\w+|told|put_\w+|new)\b|impl(<[^>]*>)? (PartialEq|Eq|PartialOrd|Ord|Clone|Copy|fmt::Display) for'))

facts = collections.defaultdict(list)
pairs = collections.defaultdict(list)
for path, line, name, signature, body in all_functions:
    crate = path.split('/')[1]
    for clause in re.findall(r'^\s*requires ?(?:\w+ )?\{ (.*) \}$', signature, re.M):
        facts[crate, re.sub(r'\.(now|old|entry)\b', '', clause)].append(name)
    m = re.match(r'(?:<[^(]*>)?\(([^{]*?)\)(?: ->|\s*$|\s*\n)', signature)
    if m:
        params = re.findall(r'(\w+): ([^,]+(?:\[[^\]]*\])?)', m.group(1))
        for i in range(len(params)):
            for j in range(i + 1, len(params)):
                pairs[crate, params[i][0], params[j][0]].append(name)
show('5a facts that three or more functions of a crate require', [(c, f, len(n)) for (c, f), n in facts.items() if len(n) > 2])
show('5b parameters that come together in three or more functions of a crate',
     [(c, a, b, len(n)) for (c, a, b), n in pairs.items() if len(n) > 2])
show('6 a count or place beside a slice or a buffer',
     lines(r'\b(place|at|words|blocks|held|len|count|i): (usize|u16|u8),?\)?$|, (place|at|words|blocks|held|n): usize|\w+\[\w+ ?[+*]? ?\w*\.\.\w+'))
show('7 switches on what to do, types that only carry a function',
     lines(r'\bmatch (change|fate|tear)\b|Change::|if is_text\(|trait Peer|impl Peer'))
proofs = glob.glob(os.path.join(top, 'crates/*/proofs/**/*.antt'), recursive=True)
answers = [p for p in proofs if p.endswith('Answers.antt') or p.endswith('Invariants.antt')]
print(f'8 proof files: {len(proofs)} with {sum(len(open(p, encoding="utf-8").read().splitlines()) for p in proofs)} lines, '
      f'of functions {len(answers)}')
