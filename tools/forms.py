#!/usr/bin/env python3
"""Counts the older forms in crates/*/src, by the points of docs/DESIGN-PASS.md.

tools/forms.py            the files of the checkout
tools/forms.py COMMIT     the files of a commit
tools/forms.py -l [..]    each place with its line, and not the counts alone

It goes by text, so it finds candidates; which of them an enum, a derive or an iterator serves better is for a reader to say.
"""
import re
import subprocess
import sys


def sources(commit):
    if commit:
        names = subprocess.run(['git', 'ls-tree', '-r', '--name-only', commit, 'crates'], capture_output=True, text=True, check=True).stdout.split()
        return [(n, subprocess.run(['git', 'show', f'{commit}:{n}'], capture_output=True, text=True, check=True).stdout) for n in names if '/src/' in n]
    names = subprocess.run(['git', 'ls-files', 'crates'], capture_output=True, text=True, check=True).stdout.split()
    return [(n, open(n, encoding='utf-8').read()) for n in names if '/src/' in n]


def line_of(text, at):
    return text.count('\n', 0, at) + 1


def enums(text):
    """Each enum with its variants."""
    for m in re.finditer(r'^(?:pub )?enum (\w+)[^{]*\{(.*?)^\}', text, re.M | re.S):
        body = re.sub(r'//.*', '', m.group(2))
        body = re.sub(r'\{[^}]*\}', '{}', body)
        variants = [v.strip() for v in re.split(r',(?![^(]*\))', body) if v.strip()]
        yield m, m.group(1), variants


def functions(text):
    """Each function with its parameters."""
    for m in re.finditer(r'\bfn (\w+)(?:<[^>]*>)?\(([^)]*)\)', text):
        yield m, m.group(1), [p for p in m.group(2).replace('\n', ' ').split(',') if p.strip()]


REFUSING = re.compile(r'^(Bad|Refused|Fault|Broken|Never|Missing|Other|Nothing|Nowhere|NoBlock|Wrong|NoPlace|NoRoom|Unfinished)\b')


def own_option_or_result(text):
    for m, name, variants in enums(text):
        if name.endswith('Fault') or name == 'NotNumber':
            continue
        bare = [v for v in variants if re.fullmatch(r'\w+', v)]
        if len(variants) == 2 and len(bare) == 1:
            yield m.start(), f'enum {name}: one variant with a value, one without'
        elif any(REFUSING.match(v) for v in variants) and len(bare) < len(variants):
            yield m.start(), f'enum {name}: a value, or what is wrong'


def flags(text):
    for m in re.finditer(r'^(?:pub )?struct (\w+)[^{;]*\{(.*?)^\}', text, re.M | re.S):
        for f in re.finditer(r'^\s+(?:pub )?(\w+): bool,', m.group(2), re.M):
            yield m.start(), f'struct {m.group(1)}: the flag {f.group(1)}'
        for f in re.finditer(r'^\s+(?:pub )?((?:number|fault|state|kind)): u\d+,', m.group(2), re.M):
            yield m.start(), f'struct {m.group(1)}: the number {f.group(1)} for a kind'


def number_kinds(text):
    for m in re.finditer(r'-> isize\b|\bFault\(u32\)|\bnumber: u32,\n\s+record', text):
        yield m.start(), m.group(0).replace('\n', ' ')
    for m in re.finditer(r'^(?:pub )?const (\w+): u(?:8|64) = \d;', text, re.M):
        yield m.start(), f'const {m.group(1)}: a number for a kind'


def loops(text):
    for m in re.finditer(r'^\s*(while|loop)\b[^\n]*', text, re.M):
        yield m.start(1), m.group(0).strip()


def range_loops(text):
    for m in re.finditer(r'^\s*for \w+ in [^\n{]*\.\.[^\n{]*', text, re.M):
        yield m.start(), m.group(0).strip()


HAND = re.compile(r'\bfn (same\w*|copy_\w+|from_u\d+|to_u\d+|u\d+_at|i\d+_at|put_u\d+|put_i\d+|first_u\d+|first_i\d+|wide|width_of|ends_alike|least|magnitude|higher|capped|either|is_either|is_parting|is_state|out_of_range|write_figures|write_multipliers)\(')


def by_hand(text):
    for m in HAND.finditer(text):
        yield m.start(), f'fn {m.group(1)}'


def many_parameters(text):
    for m, name, parameters in functions(text):
        if len(parameters) >= 6:
            yield m.start(), f'fn {name}: {len(parameters)} parameters'


def returns_true(text):
    for m in re.finditer(r'\{\n\s+return (?:true|false);\n\s+\}', text):
        yield m.start(), 'if .. { return true; } in place of || or &&'


POINTS = [
    ('1 own Option or Result', own_option_or_result),
    ('1 flag or number beside a value', flags),
    ('1 number for a kind', number_kinds),
    ('3 while and loop', loops),
    ('3 for over a range of indices', range_loops),
    ('4 by hand: equality, copying, conversion, ranges of bytes', by_hand),
    ('4 a test as a chain of returns', returns_true),
    ('5 functions of six parameters and more', many_parameters),
]


def main(arguments):
    listed = '-l' in arguments
    commit = next((a for a in arguments if a != '-l'), None)
    files = sources(commit)
    for title, find in POINTS:
        found = [(name, line_of(text, at), what) for name, text in files for at, what in find(text)]
        crates = sorted({name.split('/')[1] for name, _, _ in found})
        print(f'{len(found):4} {title} ({len(crates)} crates)')
        if listed:
            for name, line, what in found:
                print(f'       {name}:{line}: {what}')


if __name__ == '__main__':
    main(sys.argv[1:])
