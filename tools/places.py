#!/usr/bin/env python3
"""places.py [TREE] [--list POINT]: the places of the eight points of docs/DESIGN-PASS.md in crates/*/src (point 8: crates/*/proofs).

They are found by their text, as candidates: an enum by its name, a flag or an answer as a field, a number as a constant or a test of it; functions of a crate whose bodies are alike but for
names and numbers; loops but for `for`; casts, conversions, comparisons and printing as functions; functions of seven parameters and more; functions with three arrays, or a buffer and a place."""
import glob
import os
import re
import sys
from collections import defaultdict

ARGS = [a for a in sys.argv[1:] if not a.startswith('--')]
TREE = ARGS[0] if ARGS else '.'
SHOW = sys.argv[sys.argv.index('--list') + 1] if '--list' in sys.argv else ''
if SHOW and SHOW in ARGS:
    TREE = ARGS[0] if ARGS[0] != SHOW else '.'


def sources():
    for path in sorted(glob.glob(f'{TREE}/crates/*/src/**/*.rt', recursive=True)):
        yield os.path.relpath(path, f'{TREE}/crates'), open(path).read()


def line_of(text, at):
    return text.count('\n', 0, at) + 1


def functions(text):
    """Each function: its name, its parameters, the text of its body and the line."""
    for m in re.finditer(r'^([ \t]*)(?:pub(?:\(crate\))? )?(?:const )?fn ([a-z0-9_]+)', text, re.M):
        at = m.end()
        if text[at] == '<':
            at = text.index('>', at) + 1
        if text[at] != '(':
            continue
        depth, end = 0, at
        while True:
            depth += {'(': 1, ')': -1}.get(text[end], 0)
            end += 1
            if depth == 0:
                break
        params = split(text[at + 1:end - 1])
        close = '\n' + m.group(1) + '}'
        stop = text.find(close, end)
        opening = text.rfind('\n' + m.group(1) + '{', end, stop)
        if opening < 0:
            opening = text.find('{', end)
            line = text.rfind('\n', 0, opening)
            if re.match(r'\s*(requires|ensures)', text[line + 1:opening]):
                body = ''
            else:
                body = text[opening + 1:stop]
        else:
            body = text[opening + len(m.group(1)) + 2:stop]
        yield m.group(2), params, body, line_of(text, m.start())


def split(params):
    depth, word, out = 0, '', []
    for c in params:
        depth += {'<': 1, '[': 1, '(': 1, '>': -1, ']': -1, ')': -1}.get(c, 0)
        if c == ',' and depth == 0:
            out.append(word.strip())
            word = ''
        else:
            word += c
    out.append(word.strip())
    return [p for p in out if p]


def structs(text):
    for m in re.finditer(r'(#\[repr\(C\)\]\n(?:#\[[^\n]*\n)*)?^[ \t]*(?:pub(?:\(crate\))? )?struct ([A-Za-z0-9]+)[^;{]*\{\n(.*?)^[ \t]*\}', text, re.M | re.S):
        yield m.group(2), m.group(3), bool(m.group(1)) or '#[repr(C)]' in text[max(0, m.start() - 60):m.start()], line_of(text, m.start(2))


def point1():
    for path, text in sources():
        for m in re.finditer(r'^\s*(?:pub(?:\(crate\))? )?enum ([A-Za-z]+)', text, re.M):
            yield f'{path}:{line_of(text, m.start(1))}', 'enum ' + m.group(1)
        for name, fields, c_layout, line in structs(text):
            for f in re.finditer(r'([a-z0-9_]+): bool,', fields):
                yield f'{path}:{line}', f'flag {name}.{f.group(1)}'
            for f in re.finditer(r'\b(answer|verdict|stop|fault|kind|told): (?!.*&)', fields):
                yield f'{path}:{line}', f'answer beside values {name}.{f.group(1)}'
        for m in re.finditer(r'^(?:pub(?:\(crate\))? )?const ([A-Z0-9_]+): u(?:8|16|32|64|size) =', text, re.M):
            yield f'{path}:{line_of(text, m.start(1))}', 'number ' + m.group(1)
        for m in re.finditer(r'if (?:[a-z_.]+\.)?(kind|word|stop|number) == (\w+)', text):
            yield f'{path}:{line_of(text, m.start())}', f'test of a number for a kind, {m.group(1)} == {m.group(2)}'


KEEP = set('if else while for in return match let mut loop continue break fn as ref true false'.split())


def shape(body):
    body = re.sub(r'//[^\n]*', '', body)
    out = []
    for t in re.findall(r'[A-Za-z_][A-Za-z_0-9]*|\d\w*|\S', body):
        out.append(t if t in KEEP or not re.match(r'\w', t) else ('N' if t[0].isdigit() else 'x'))
    return ' '.join(out)


def point2():
    groups = defaultdict(list)
    for path, text in sources():
        crate = path.split('/')[0]
        for name, params, body, line in functions(text):
            s = shape(body)
            if len(s.split()) >= 14:
                groups[(crate, len(params), s)].append(f'{path}:{line} {name}')
    for key, places in groups.items():
        if len(places) > 1:
            for p in places[1:]:
                yield p.split()[0], f'{p.split()[1]}, shaped as {places[0]}'


def point3():
    for path, text in sources():
        for m in re.finditer(r"^\s*(?:'[a-z]+: )?(while|loop)\b[^\n]*\{$", text, re.M):
            yield f'{path}:{line_of(text, m.start(1))}', m.group(0).strip()


def point4():
    for path, text in sources():
        for name, params, body, line in functions(text):
            b = body.strip()
            if re.fullmatch(r'[a-z_]+ as (u8|u16|u32|u64|usize)', b):
                yield f'{path}:{line}', f'cast as a function, {name}'
            elif name in ('number', 'told_number', 'asked_word', 'request_of', 'timer_of', 'told_from') and 'match' in b + 'match':
                yield f'{path}:{line}', f'conversion {name}'
            elif re.fullmatch(r'(say|put|number|field|digits|hex|digit|octet|octets|small|large|fail|write|name|network|text|short|comma|dash)', name) and re.match(r'(explain|requests|reading|scenes)/', path):
                yield f'{path}:{line}', f'printing {name}'
            elif re.fullmatch(r'(same|octets|pairs|words|longs|device|access|hot|marks|entries_of)', name) and 'alike' in path:
                yield f'{path}:{line}', f'equality {name}'
            elif re.fullmatch(r'(decimal|letter|hex|six|third|coded|is_each)', name) and path.startswith('explain/src/ask'):
                yield f'{path}:{line}', f'parsing {name}'


def point5():
    for path, text in sources():
        for name, params, body, line in functions(text):
            if len(params) >= 7:
                yield f'{path}:{line}', f'{name}, {len(params)} parameters'


def point6():
    for path, text in sources():
        for name, params, body, line in functions(text):
            arrays = [p for p in params if re.search(r': &(?:\'a )?(?:mut )?\[', p)]
            if len(arrays) >= 3:
                yield f'{path}:{line}', f'{name}, {len(arrays)} arrays side by side'
            elif any(re.match(r'(out|words|buffer): &mut \[', p) for p in params) and any(re.match(r'(put|at): usize', p) for p in params):
                yield f'{path}:{line}', f'{name}, a buffer and a place in it'
            elif any(re.match(r'nets: ', p) for p in arrays) and any(re.match(r'(n|count): (u8|usize)', p) for p in params):
                yield f'{path}:{line}', f'{name}, an array and how much of it is in use'


def point7():
    for path, text in sources():
        for m in re.finditer(r'\bfn\(|\bdyn |\bmatch (?:step|stage|phase)\b', text):
            yield f'{path}:{line_of(text, m.start())}', m.group(0)


def point8():
    for path in sorted(glob.glob(f'{TREE}/crates/*/proofs/**/Answers.antt', recursive=True)):
        yield os.path.relpath(path, f'{TREE}/crates'), 'answers written by hand'


for i, point in enumerate((point1, point2, point3, point4, point5, point6, point7, point8), 1):
    places = list(point())
    print(f'point {i}: {len(places)}')
    if SHOW in (str(i), 'all'):
        for where, what in places:
            print(f'  {where}  {what}')
