#!/usr/bin/env python3
"""Brings the repository's own definitions and lemmas to the spelling of today's Rattle.

Run once, at the top of a checkout, after the kit's port.py:

    python3 tools/respell.py          # respells, and prints each old and new name
    python3 tools/respell.py --dry    # prints only

- A word in mixed case that begins small becomes snake case: `sealAnswer` is `seal_answer`.
- A dash joins two names. In a lemma of proofs/ it is kept behind the name of a definition, as in `length-low`; in any
  other place it becomes `_`, as in `exchange_lawful`. Names of goals are Rattle's own and stay.

Functions of src/, their parameters, labels of clauses, exported names, strings, inputs and outputs keep their names.
"""
import collections
import glob
import re
import sys

WORD = re.compile(r"[A-Za-z_][A-Za-z_0-9']*(?:-[A-Za-z_0-9'][A-Za-z_0-9']*)*")
MIXED = re.compile(r"[a-z][a-z0-9_]*[A-Z]")
DECLARED = re.compile(r"\s*(?:abbrev |pub |unfoldable |record |data )*([a-z][A-Za-z_0-9']*(?:-[A-Za-z_0-9']+)*) :(?: |$)(.*)")

# Words of the library that the repository's lemmas are named after.
LIBRARY = {'length', 'take', 'drop', 'append', 'map', 'get_or', 'replicate', 'bit_xor', 'cond'}

# Names that follow the library's own renaming, and names that would fall together with others.
GIVEN = {
    'getD-zeros': 'get_or-zeros',
    # lemmas named as the definition that they are about
    'data-prev': 'data_prev_lem',
    'data-state': 'data_state_lem',
    'read-end': 'read_end_lem',
    'at_right': 'at_right_lem',
    # fields named as a definition
    'narrow-second-l': 'narrow_second_map',
    'narrow-third-l': 'narrow_third_map',
    'wide-third-l': 'wide_third_map',
    'narrow-second': 'narrow_second_rule',
    'wide-second': 'wide_second_rule',
    'wide-third': 'wide_third_rule',
    'exchange-of-unlike': 'exchange_unlike',
    'narrow-of-unlike': 'narrow_unlike',
    'wide-of-unlike': 'wide_unlike',
    'narrow-mark': 'mark_of_narrow',
    'wide-mark': 'mark_of_wide',
    'exchange-mark': 'mark_of_exchange',
    'grade-least': 'least_grade',
    'grade-most': 'most_grade',
    'width-least': 'least_width',
    'width-most': 'most_width',
    'zones-least': 'least_zones',
    'zones-most': 'most_zones',
    'zones-in': 'each_zone',
}


def paths(*kinds):
    return sorted(p for kind in kinds for p in glob.glob(kind, recursive=True) if '/out/' not in p)


def snake(word):
    return re.sub(r"(?<=[a-z0-9])([A-Z])", lambda m: '_' + m.group(1).lower(), word)


def text_of(path):
    with open(path, encoding='utf-8') as f:
        return f.read()


def without_comments(path, text):
    mark = r'--(?= |$).*' if path.endswith('.antt') else r'//.*'
    return re.sub(mark, '', text)


def declared():
    """The names that the repository declares, those of them that are definitions, and those that stand in specs/."""
    names, definitions, specs = set(), set(), set()
    for path in paths('crates/**/*.antt'):
        for line in without_comments(path, text_of(path)).split('\n'):
            m = DECLARED.match(line)
            if m and not m.group(2).startswith(('goal.', 'need.')):
                names.add(m.group(1))
                if '/specs/' in path:
                    specs.add(m.group(1))
                if re.match(r'\s*(abbrev|unfoldable) ', line):
                    definitions.add(m.group(1))
    return names, definitions, specs


def respelled(name, definitions, specs):
    if name in GIVEN:
        return GIVEN[name]
    parts = name.split('-')
    out = snake(parts[0])
    for before, part in zip(parts, parts[1:]):
        joined = name not in specs and (before in definitions or before in LIBRARY) and part != 'is'
        out += ('-' if joined else '_') + snake(part)
    return out


def main():
    dry = '--dry' in sys.argv[1:]
    names, definitions, specs = declared()
    mixed = set()
    for path in paths('crates/**/*.antt', 'crates/**/*.rt'):
        for word in WORD.findall(without_comments(path, text_of(path))):
            if word not in GIVEN:
                mixed.update(part for part in word.split('-') if MIXED.match(part))
    table = {}
    for name in sorted(names | mixed):
        new = respelled(name, definitions, specs)
        if new != name:
            table[name] = new

    # names that fall together
    news = collections.Counter(table.values())
    old = names - set(table)
    for name, new in sorted(table.items()):
        if news[new] > 1 or new in old:
            print(f'falls together: {name} -> {new}')

    def turn(m):
        word = m.group(0)
        if word in table:
            return table[word]
        parts = word.split('-')
        return '-'.join(table.get(p, p) if MIXED.match(p) else p for p in parts)

    for path in paths('crates/**/*.antt', 'crates/**/*.rt', 'crates/*/must-fail/*.edit', 'docs/*.md', 'README.md'):
        text = text_of(path)
        if path.endswith('.md'):
            new = re.sub(r'`[^`\n]*`', lambda q: WORD.sub(turn, q.group(0)), text)
        elif path.endswith('.antt'):
            new = WORD.sub(turn, text)
        else:
            new = re.sub(r"\b[a-z][a-z0-9_]*[A-Z][A-Za-z0-9_]*\b|\b[a-z][a-z0-9_]*(?:-[a-z0-9_]+)+\b", turn, text)
        if new != text and not dry:
            with open(path, 'w', encoding='utf-8') as f:
                f.write(new)
    for name, new in sorted(table.items()):
        print(f'{name} -> {new}')


main()
