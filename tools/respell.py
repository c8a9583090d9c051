#!/usr/bin/env python3
"""Brings the repository's own definitions and lemmas to today's spelling; run once, at the top, after port.py.

A definition or lemma that is declared in specs/ or proofs/ (answers to goals aside) goes to snake case, and one that is
a fact or a relation (its signature ends in `Type 0`) to upper camel case. Functions, types, inputs and outputs keep
their names. A lemma that would get the name of a definition or of a function of src/ gets `_lem` behind it; a definition
may get the name of a function, which no clause can name. The crate `slab`, whose name a library has today, becomes
`slab_stack`. It stops, with nothing written, where two names would fall together.

It goes by text: a word is turned wherever it stands in a .rt or .antt file, as in a comment, or where it names a local
variable. What that garbled was mended by hand afterwards.
"""
import collections
import glob
import os
import re
import subprocess
import sys

PART = r'[^\s(){};,.\[\]"]'
DECLARED = re.compile(r'\s*((?:(?:abbrev|unfoldable|pub) )*)(' + PART + r'+) : (.*)$')


def read(path):
    with open(path, encoding='utf-8') as f:
        return f.read()


def write(path, text):
    with open(path, 'w', encoding='utf-8') as f:
        f.write(text)


def lemma_files():
    return sorted(glob.glob('crates/*/specs/*.antt') + glob.glob('crates/*/proofs/*.antt'))


def answer_files():
    return sorted(f for f in glob.glob('crates/*/proofs/**/*.antt', recursive=True) if f not in set(lemma_files()))


def snake(name):
    name = name.replace('′', "'").replace('-', '_')
    return re.sub(r'(?<=[a-z0-9])([A-Z])', lambda m: '_' + m.group(1).lower(), name)


def camel(name):
    return ''.join(w[:1].upper() + w[1:] for w in re.split(r'[_-]', name))


def declared():
    """Each name that is declared, with whether it is a definition and whether it is a fact."""
    for path in lemma_files() + answer_files():
        answers = path not in set(lemma_files())
        for line in read(path).splitlines():
            m = DECLARED.match(line)
            if not m or re.match(r'(record|data|use|module)$', m.group(2)) or not re.match(r'[a-z]', m.group(2)):
                continue
            if answers and re.match(r'(goal|need|given)\.', m.group(3)):
                continue
            definition = 'abbrev' in m.group(1)
            yield m.group(2), definition, definition and re.search(r'→ Type 0$', m.group(3))


def functions():
    names = set()
    for path in glob.glob('crates/*/src/*.rt'):
        names.update(re.findall(r'\bfn (\w+)', read(path)))
    return names


def renamings():
    new = {}
    for name, definition, fact in declared():
        if definition:
            new[name] = camel(snake(name)) if fact else snake(name)
    taken = set(new.values()) | functions()
    for name, definition, _ in declared():
        if not definition and name not in new:
            to = snake(name)
            new[name] = to + '_lem' if to in taken and to != name else to
    return {a: b for a, b in new.items() if a != b}


def own_words():
    words = collections.Counter()
    for path in glob.glob('crates/*/*/**/*', recursive=True):
        if path.endswith(('.antt', '.rt')):
            words.update(re.findall(PART + '+', read(path)))
    return words


def main():
    new = renamings()
    words = own_words()
    # a definition may have the name of a function of src/: no clause can name the function
    clashes = [f'{a} -> {b}' for a, b in new.items() if words[b] and b not in functions()]
    doubled = [b for b, n in collections.Counter(new.values()).items() if n > 1]
    if '--list' in sys.argv:
        for a, b in sorted(new.items()):
            print(a, b)
    if clashes or doubled:
        sys.exit('names that fall together: ' + ', '.join(clashes + doubled))
    if '--list' in sys.argv:
        return
    found = re.compile('(?<!' + PART + ')(' + '|'.join(sorted(map(re.escape, new), key=len, reverse=True)) + ')(?!' + PART + ')')
    for path in glob.glob('crates/*/*/**/*', recursive=True):
        if path.endswith(('.antt', '.rt')):
            text = read(path)
            turned = found.sub(lambda m: new[m.group(1)], text)
            if turned != text:
                write(path, turned)
    if os.path.isdir('crates/slab'):
        subprocess.run(['git', 'mv', 'crates/slab', 'crates/slab_stack'], check=True)
        for path in glob.glob('crates/*/*/**/*', recursive=True):
            if path.endswith(('.antt', '.rt')):
                text = read(path)
                turned = re.sub(r'\bRattle\.slab\.', 'Rattle.slab_stack.', text)
                turned = re.sub(r'^(\s*(?:pub )?use )slab::', r'\1slab_stack::', turned, flags=re.M)
                if 'crates/slab_stack/src/lib.rt' == path:
                    turned = turned.replace('use slab_stack::SlabStack', 'use slab::SlabStack')
                if turned != text:
                    write(path, turned)
        write('crates.txt', re.sub(r'\bslab\b', 'slab_stack', read('crates.txt')))
    print(len(new), 'names respelled')


main()
