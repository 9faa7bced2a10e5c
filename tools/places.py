#!/usr/bin/env python3
"""Lists places of src/ where an older form may stand, point by point (docs/DESIGN-PASS.md).

usage: tools/places.py [FOLDER]     counts; with -l also each place
"""
import collections, glob, os, re, sys

POINTS = {
    '1 flags, numbers for kinds or refusals': [
        r'[a-z_]+: bool\b(?! =)',
        r'\b(number|tariff|kind|code|layer): u(8|32)',
        r'=> \d+,$',
    ],
    '2 twins': [],
    '3 loops that count by hand': [
        r'^\s*(while|loop)\b',
        r'\bfor [a-z_]+ in [^{]*\.\.',
        r'\b(rows|memory|places|asks|lines|bytes|digits|text|rest)\[[^\]]*\]',
    ],
    '4 written by hand': [
        r'\bfn (number|signed|letter|column|registers|figure|cents|row|is_read|accepted|holds|is|clone|next)\(',
    ],
    '5 facts and parameters': [],
    '6 buffers, parallel arrays': [
        r'^\s*(pub(\(crate\))? )?(at|filled|limit|full|first|rest|text|bytes|memory): ',
        r'\[[A-Za-z0-9_]+; [0-9A-Z_]+\]',
    ],
    '7 switches, tables of functions': [
        r'^impl Case for',
        r'\bdyn\b',
        r'\bmatch (tariff|event|ask|line)\b',
        r'\bif late\b',
    ],
}


def sources(folder):
    for path in sorted(glob.glob(os.path.join(folder, 'crates/*/src/*.rt'))):
        with open(path) as f:
            for n, line in enumerate(f, 1):
                if not line.lstrip().startswith(('//', 'ghost use', 'ghost ')):
                    yield os.path.relpath(path, folder), n, line.rstrip('\n')


def functions(folder):
    """Each function: its file and name, its parameters' names, its body, empty where it has none."""
    for path in sorted(glob.glob(os.path.join(folder, 'crates/*/src/*.rt'))):
        text = open(path).read()
        for m in re.finditer(r'^([ ]*)(?:pub(?:\(crate\))? )?(?:extern "C" )?fn (\w+)(?:<[^(]*>)?\(([^)]*)\)', text, re.M):
            names = re.findall(r'(\w+)\s*:', m.group(3))
            indent, body, inside = m.group(1), [], False
            for line in text[m.end():].split('\n'):
                if not inside and line.endswith(';') and ' = ' not in line:
                    break
                if inside and line == indent + '}':
                    break
                if inside:
                    body.append(line.strip())
                elif line == indent + '{' or (line.endswith(' {') and not re.search(r'requires|ensures', line)):
                    inside = True
            yield os.path.relpath(path, folder), m.group(2), names, ' '.join(body)


def twins(folder):
    """Functions of one body, names and numbers aside; and structs of one shape."""
    shape = collections.defaultdict(list)
    for path, name, names, body in functions(folder):
        if len(body) > 30:
            shape[re.sub(r'\b[a-z_]\w*\b', 'x', re.sub(r'\b[\d_]+\b|[A-Z]\w*', 'N', body))].append(f'{path} {name}')
    return [v for v in shape.values() if len(v) > 1]


def facts(folder):
    """Clauses that stand three times or more, and pairs of parameters that do."""
    clause = collections.Counter()
    for _, _, line in sources(folder):
        m = re.search(r'\b(requires|ensures)\*?\s*\w*\s*(\{.*)', line)
        if m:
            clause[m.group(2)] += 1
    pair = collections.Counter()
    for _, _, names, _ in functions(folder):
        pair.update({tuple(sorted((a, b))) for i, a in enumerate(names) for b in names[i + 1:]})
    return [f'{n} {c}' for c, n in clause.most_common() if n > 2] + [f'{n} {" and ".join(p)}' for p, n in pair.most_common() if n > 2]


def main():
    args = [a for a in sys.argv[1:] if a != '-l']
    folder, wide = (args or ['.'])[0], '-l' in sys.argv
    lines = list(sources(folder))
    for point, patterns in POINTS.items():
        hits = [f'{p}:{n}: {l.strip()}' for p, n, l in lines for r in patterns if re.search(r, l)]
        if point.startswith('2'):
            hits = [' = '.join(t) for t in twins(folder)]
        if point.startswith('5'):
            hits = facts(folder)
        print(f'{point}: {len(hits)}')
        if wide:
            print('\n'.join('    ' + h for h in hits))
    proofs = [p for p in glob.glob(os.path.join(folder, 'crates/*/proofs/**/*.antt'), recursive=True) if '/out/' not in p]
    count = sum(open(p).read().count('\n') for p in proofs)
    print(f'8 proofs: {len(proofs)} files, {count} lines')


main()
