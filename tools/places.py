#!/usr/bin/env python3
"""Counts the places of docs/DESIGN-PASS.md in src/: `tools/places.py [POINT]` at the top of a checkout, POINT from 1 to 7 to list them."""
import glob
import re
import sys
from collections import defaultdict

FILES = sorted(glob.glob('crates/*/src/**/*.rt', recursive=True))
ENTRY = 'crates/zaqnuti/'


def code(path):
    text = open(path, encoding='utf-8').read()
    return re.sub(r'//[^\n]*', '', text)


def functions():
    """Yields file, line, name, parameters as (name, type), contract and body of each function."""
    for path in FILES:
        text = code(path)
        for m in re.finditer(r'\bfn (\w+)(?:<[^>]*>)?\(', text):
            depth, i = 1, m.end()
            while depth:
                depth += {'(': 1, '[': 1, ')': -1, ']': -1}.get(text[i], 0)
                i += 1
            given, j, depth = [], m.end(), 0
            part = ''
            for ch in text[j:i - 1]:
                depth += {'(': 1, '[': 1, '<': 1, ')': -1, ']': -1, '>': -1}.get(ch, 0)
                if ch == ',' and depth == 0:
                    given.append(part)
                    part = ''
                else:
                    part += ch
            given.append(part)
            pairs = [tuple(x.strip() for x in re.sub(r'\bmut (?=\w+:)', '', p).split(':', 1)) for p in given if ':' in p]
            first = text.find('\n', i)
            if text[i:first].rstrip().endswith('{'):
                k = text.rindex('{', i, first)
            else:
                alone = re.compile(r'^[ \t]*\{[ \t]*$|;[ \t]*$', re.M).search(text, i)
                k = text.find('{', alone.start(), alone.end()) if alone else -1
            end = k
            if k >= 0:
                depth, end = 1, k + 1
                while depth and end < len(text):
                    depth += {'{': 1, '}': -1}.get(text[end], 0)
                    end += 1
            yield path, text[:m.start()].count('\n') + 1, m.group(1), pairs, text[i:k] if k >= 0 else text[i:i + 200].split(';')[0], text[k + 1:end - 1] if k >= 0 else ''


def lines(pattern, where=lambda path: True):
    return [(path, n + 1, line.strip()) for path in FILES if where(path)
            for n, line in enumerate(code(path).split('\n')) if re.search(pattern, line)]


def point_1():
    own = lines(r'^\s+Refused\(Refusal\)') + lines(r'enum (First|Line)\b')
    flags = lines(r'^\s+(pub )?(formed|eleven|good|present|seen): bool')
    numbers = [(p, n, f) for p, n, f, given, head, body in functions()
               if not p.startswith(ENTRY) and not p.startswith('crates/numeric/') and re.match(r'\s*-> u8\b', head)
               and re.search(r'number|put\(|Refusal', body)]
    ends = lines(r'0xFFFF_FFFF_FFFF_FFFF')
    return own + flags + numbers + ends


def point_2():
    shapes = defaultdict(list)
    for path, n, name, given, head, body in functions():
        if path.startswith(ENTRY) or len(re.findall(r'\w+', body)) < 6:
            continue
        names = {}
        text = re.sub(r'\b[ui](?:8|16|32|64)\b|\bf64\b|\busize\b', 'T', body)
        text = re.sub(r'\b\d[\w.]*', 'N', text)
        text = re.sub(r'\b(?!T\b|N\b)[A-Za-z_]\w*', lambda m: names.setdefault(m.group(0), f'v{len(names)}'), text)
        shapes[re.sub(r'\s+', '', text)].append((path, n, name))
    return [place for group in shapes.values() if len(group) > 1 for place in group]


def point_3():
    return lines(r'^\s*while ') + lines(r'^\s*loop \{')


def point_4():
    return lines(r'\bfn (number|vector|held|words|is_same|carrier_of|settings_of|patterns_of|fix_settings|displacement_settings|plain|'
                 r'filing_number|filing_count|listing_number|call_number|number_of|refused|text|bits|float|vector|patterns|row_bits)\(')


def point_5():
    runs = defaultdict(set)
    every = []
    for path, n, name, given, head, body in functions():
        if path.startswith(ENTRY):
            continue
        place = (path, n, name)
        every.append((place, given, head))
        for size in (3,):
            for i in range(len(given) - size + 1):
                runs[tuple(given[i:i + size])].add(place)
    groups = {p for where in runs.values() if len(where) >= 3 for p in where}
    facts = defaultdict(set)
    for place, given, head in every:
        for clause in re.findall(r'requires\*?(?: \w+)? \{((?:[^{}]|\{[^{}]*\})*)\}', head):
            for part in re.split(r' × ', clause):
                facts[re.sub(r'[\s()]+', '', part)].add(place)
    stated = {p for where in facts.values() if len(where) >= 3 for p in where}
    return sorted(groups | stated)


def point_6():
    found = []
    for path in FILES:
        text = code(path)
        for m in re.finditer(r'struct (\w+)[^{]*\{[^}]*\b(count|len): usize[^}]*\[\w+; 64\]', text):
            found.append((path, text[:m.start()].count('\n') + 1, m.group(1)))
    for path, n, name, given, head, body in functions():
        if path.startswith(ENTRY):
            continue
        if any(t.startswith(('&[', '&mut [')) for _, t in given) and any(k in ('n', 'count', 'm', 'blocks', 'table_count', 'new_count', 'rows') and t == 'usize' for k, t in given):
            found.append((path, n, name))
    return found


def point_7():
    return [(p, n, f) for p, n, f, given, head, body in functions() if not p.startswith(ENTRY)
            and any(t in ('bool', 'Profile') and k not in ('current', 'holds', 'sound', 'present', 'states_present', 'uncertified', 'short', 'refused', 'usable', 'test') for k, t in given)]


POINTS = [point_1, point_2, point_3, point_4, point_5, point_6, point_7]
if len(sys.argv) > 1:
    for place in POINTS[int(sys.argv[1]) - 1]():
        print('{}:{}: {}'.format(*place))
else:
    for k, find in enumerate(POINTS):
        print(f'{k + 1}: {len(find())}')
