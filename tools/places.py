#!/usr/bin/env python3
"""Lists the places in crates/*/src that older forms leave, point by point.

    tools/places.py [TREE]          the counts
    tools/places.py -v [TREE]       each place

A pattern finds candidates; docs/DESIGN-PASS.md says which of them are places and what became of them."""
import collections
import glob
import os
import re
import sys

args = [a for a in sys.argv[1:] if a != '-v']
loud = '-v' in sys.argv[1:]
tree = args[0] if args else '.'

PATTERNS = {
    '1 enums': r'^\s*(pub(\(crate\))? )?enum ',
    '1 flags in structs': r'^    (pub(\(crate\))? )?[a-z_]+: bool,',
    '1 numbers for kinds and refusals': r'kind: u8\b|put_record\([0-9]|kind [!=]= [0-9]|number\(\) == [0-9]|^            [0-9]+ => self\.',
    '3 loops over a counted index': r'\bfor [a-z_]+ in [^{]*\.\.',
    '3 while and loop': r'\bwhile |\bloop \{',
    '4 conversions and printing by hand': r'fn (role_of|grid_fault|digits|last_digit|sign_of|is_none|value_of|fault_of)\b|^\s*(Some\([a-z]+\) => Ok\(|None => Err\(|Err\([a-z]+\) => return Err|Ok\(\(\)\) => Ok)|\.along == .* && ',
    '6 buffers with a length or place beside': r'\[u8; [0-9]+\], usize\)|at: usize\b|file_start',
    '7 functions in tables, pointers': r'\bfn\(|\[fn',
}


def sources():
    for path in sorted(glob.glob(os.path.join(tree, 'crates/*/src/*.rt'))):
        yield os.path.relpath(path, tree), open(path, encoding='utf-8').read()


def show(name, places):
    print(f'{len(places):4}  {name}')
    if loud:
        for place in places:
            print('        ' + place)


def matches(pattern):
    found = []
    for path, text in sources():
        if '#[test]' in text:
            continue
        for number, line in enumerate(text.split('\n'), 1):
            if re.search(pattern, line) and not line.lstrip().startswith('//') and 'requires' not in line and 'ensures' not in line:
                found.append(f'{path}:{number}: {line.strip()}')
    return found


def functions():
    for path, text in sources():
        for m in re.finditer(r'^[ ]*(?:pub(?:\(crate\))? )?fn ([a-z_0-9]+)(?:<[^(]*>)?\(([^)]*)\)', text, re.M | re.S):
            params = [p.strip() for p in re.sub(r'<[^<>]*>', '', m.group(2)).split(',') if p.strip()]
            yield path, m.group(1), params


for name, pattern in PATTERNS.items():
    show(name, matches(pattern))
    if name.startswith('1 numbers'):
        names = collections.defaultdict(set)
        for path, name_, params in functions():
            if not any(p.endswith('self') for p in params):
                names[name_].add(path)
        show('2 free functions of one name in two files', [f'{n}: {", ".join(sorted(p))}' for n, p in sorted(names.items()) if len(p) > 1 and n not in ('main', 'run')])
    if name.startswith('4'):
        show('5 functions of six parameters and more', [f'{path}: {n}({len(p)})' for path, n, p in functions() if len(p) >= 6])
        facts = collections.defaultdict(list)
        for path, text in sources():
            for m in re.finditer(r'requires (?:[a-z_]+ )?\{ (.*) \}$', text, re.M):
                fact = re.sub(r'\b(moment|self|state)\.(now|old)?\.?', '', m.group(1)).replace('.now', '').replace('.old', '')
                facts[fact].append(path)
        show('5 facts required three times and more', [f'{f}  ×{len(p)}' for f, p in sorted(facts.items()) if len(p) >= 3])
