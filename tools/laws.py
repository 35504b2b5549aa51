#!/usr/bin/env python3
"""laws.py [FOLDER]: laws whose statement stands in more than one place of proofs/, but for the names that it binds."""
import collections, pathlib, re, sys

NAME = r'[^\s(){}.,;:→∷λ|=\[\]]+'
WORD = r'[^\s(){}.,;:\[\]]+'


def statements(path):
    """The declarations of a file: line, name, statement on one line."""
    lines = path.read_text(encoding='utf-8').splitlines()
    for at, line in enumerate(lines):
        found = re.match(r'^(\s*)(?:pub )?(' + NAME + r') : ?(.*)$', re.sub(r'\s--.*$', '', line))
        if not found or line.lstrip().startswith('--'):
            continue
        deep, text = len(found[1]), [found[3]]
        for more in lines[at + 1:]:
            inside = len(more) - len(more.lstrip()) > deep
            if not inside or not more.strip() or more.lstrip().startswith('--') or re.match(r'^\s*' + NAME + ' : ', more):
                break
            text.append(more.strip())
        yield at + 1, found[2], re.sub(r'\s+', ' ', ' '.join(text)).strip()


def without_names(text):
    """The statement with what it binds numbered in order."""
    bound = {}
    for group in re.finditer(r'[({]([^(){}:]+) : ', text):
        for name in group[1].split():
            bound.setdefault(name, f'v{len(bound)}')
    return re.sub(WORD, lambda word: bound.get(word[0], word[0]), text)


places = collections.defaultdict(list)
for path in sorted(pathlib.Path(sys.argv[1] if len(sys.argv) > 1 else 'crates').rglob('proofs/**/*.antt')):
    for line, name, text in statements(path):
        if re.search('[≡≤<]', text) and len(text) > 12:
            places[without_names(text)].append(f'{path}:{line} {name}')
twice = sorted(((len(found), text, found) for text, found in places.items() if len(found) > 1), key=lambda row: (-row[0], row[1]))
print(f'{len(twice)} statements stand more than once, {sum(row[0] - 1 for row in twice)} copies')
for _, text, found in twice:
    print(text[:200])
    for place in found:
        print('    ' + place)
