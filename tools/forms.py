#!/usr/bin/env python3
"""forms.py [ROOT]: the places in crates/*/src that docs/DESIGN-PASS.md counts, by its points, and the answers in proofs/.

A line for each kind of place with its count, and below it the places. It reads the layout that `rt fmt` gives."""
import glob
import os
import re
import sys
from collections import defaultdict

KEPT_WORDS = set('as break const continue else enum false fn for if impl in let loop match mod mut pub ref return self '
                 'struct true type unsafe use where while bool'.split())
ALIKE = re.compile(r'0x\w+|\d[\d_]*(u\d+|usize)?|[A-Z][A-Z0-9_]*|u8|u16|u32|u64|usize')
BY_HAND = re.compile(r'(print|put|copy|same|is_one|number_of|thing_of|four_bytes|two|four|digit|value|least|lay_eight|'
                     r'to_front|fill|zero|place|repeat)(_|$)')
NUMBER_OF_A_REFUSAL = r'first_of|Promise level|Promise message|refuse::|≡ number\b'


def functions(text):
    """Each function: its name, parameters, result, clauses and body."""
    for m in re.finditer(r'^( *)(?:pub )?(?:const )?(?:extern "C" )?fn (\w+)[^(]*\(', text, re.M):
        depth, at = 1, m.end()
        while depth:
            depth += {'(': 1, ')': -1}.get(text[at], 0)
            at += 1
        rest = text[at:]
        rest = rest[:re.search(r'^%s\}$' % m.group(1), rest, re.M).start()]
        head, _, body = rest.partition('{\n')
        result = re.match(r'\s*-> ([^\n{]*?)\s*(?:\n|$)', head)
        yield m.group(2), text[m.end():at - 1], result.group(1) if result else '', head, body


def types(text):
    """Each struct and enum: which it is, its name and its fields."""
    return re.findall(r'^(?:pub )?(struct|enum) (\w+)[^{;\n]*\{\n(.*?)^\}', text, re.M | re.S)


def shape(text):
    """A function with its own names, types, sizes and constants made alike."""
    names = {}

    def alike(m):
        word = m.group(0)
        if ALIKE.fullmatch(word):
            return '#'
        return word if word in KEPT_WORDS else names.setdefault(word, 'v%d' % len(names))

    return re.sub(r'\s+', ' ', re.sub(r'\b\w+\b', alike, text))


def of_types(text, where, found, shapes):
    for kind, name, fields in types(text):
        at = '%s %s' % (where, name)
        carrying, bare = re.findall(r'^    \w+\(', fields, re.M), re.findall(r'^    \w+,', fields, re.M)
        if kind == 'enum':
            if (len(carrying) == 1 and bare) or (len(carrying) == 2 and not bare):
                found['1 enum of the shape of Option or Result'].append(at)
            continue
        if ': bool,' in fields:
            found['1 flag beside a value'].append(at)
        if re.search(r'\b(answer|number): u32', fields):
            found['1 number for a refusal'].append(at)
        shapes[re.sub(r'\w+:', ':', re.sub(r'u8|u16|u32|u64|usize|[A-Z][A-Z_0-9]+', '#', fields))].append(at)


def counts_by_hand(body):
    """A `while` whose condition names a variable that the turn steps."""
    loops = re.findall(r'^( *)(?:\'\w+: )?while ([^{]*) \{\n(.*?)^\1\}', body, re.M | re.S)
    return [1 for _, condition, turn in loops
            if any(re.search(r'\b%s [-+/]= ' % name, turn) for name in re.findall(r'\b[a-z_]\w*\b', condition))]


def of_functions(text, where, found, twins, facts, together):
    crate = where.split('/')[0]
    for name, parameters, result, head, body in functions(text):
        at = '%s %s' % (where, name)
        if result == 'u32' and re.search(NUMBER_OF_A_REFUSAL, head + body):
            found['1 number for a refusal'].append(at)
        for kind in re.findall(r'\b(level|thing|kind|function|number): u(?:8|32)\b', parameters):
            found['1 number for a kind: ' + kind].append(at)
        twins[shape(parameters + body)].append(at)
        found['3 loop that counts by hand'] += [at] * len(counts_by_hand(body))
        if BY_HAND.match(name):
            found['4 conversion, copying, comparison or printing by hand'].append(at)
        for fact in re.findall(r'[{×][\s(]*([A-Z]\w+) ', head):
            if not fact.endswith('Promise'):
                facts['%s %s' % (crate, fact)].add(name)
        pairs = [' '.join(p.split()) for p in parameters.split(',') if ':' in p]
        for i, first in enumerate(pairs):
            for second in pairs[i + 1:]:
                together['%s: %s, %s' % (crate, first, second)].add(name)
                if re.search(r'\[u\d', first) and re.match(r'(count|used|have|len|listed|d|n): usize', second):
                    found['6 buffer with a length beside it'].append('%s: %s, %s' % (at, first, second))
        if re.search(r'match (number|function|kind|name) \{', body):
            found['7 switch on which step to run'].append(at)


def places(root):
    found = defaultdict(list)
    shapes, twins, facts, together = defaultdict(list), defaultdict(list), defaultdict(set), defaultdict(set)
    for path in sorted(glob.glob(root + '/crates/*/src/**/*.rt', recursive=True)):
        with open(path, encoding='utf-8') as file:
            text = re.sub(r'^\s*//.*\n', '', file.read(), flags=re.M)
        where = os.path.relpath(path, root + '/crates').replace('src/', '')
        of_types(text, where, found, shapes)
        of_functions(text, where, found, twins, facts, together)
    found['2 functions alike but for types, sizes and constants'] = [', '.join(g) for g in twins.values() if len(g) > 1]
    found['2 types alike'] = [', '.join(g) for g in shapes.values() if len(g) > 1]
    found['5 fact in three contracts or more'] = ['%s: %d' % (f, len(n)) for f, n in facts.items() if len(n) > 2]
    found['5 parameters together five times or more'] = ['%s: %d' % (p, len(n)) for p, n in together.items() if len(n) > 4]
    for path in sorted(glob.glob(root + '/crates/*/proofs/**/Answers.antt', recursive=True)):
        with open(path, encoding='utf-8') as file:
            found['8 answer'] += re.findall(r'^pub (\S+) : goal\.', file.read(), re.M)
    return found


for point, lines in sorted(places(sys.argv[1] if len(sys.argv) > 1 else '.').items()):
    print('%s: %d' % (point, len(lines)))
    if not point.startswith('8'):
        print(''.join('    %s\n' % line for line in lines), end='')
