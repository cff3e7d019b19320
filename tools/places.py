#!/usr/bin/env python3
"""Counts, in the src/ of every crate, the places of older forms of the language.

    python3 tools/places.py [--list] [FOLDER]

FOLDER is a checkout (default: this one). Each line of the output is a point of docs/DESIGN-PASS.md with the number of
places that the patterns find; --list prints the places too. The patterns find what they can; whether a place is to be
changed is for whoever reads it.
"""
import collections
import os
import re
import sys

LISTED = '--list' in sys.argv
TOPS = [a for a in sys.argv[1:] if not a.startswith('--')]
TOP = TOPS[0] if TOPS else os.path.join(os.path.dirname(os.path.abspath(__file__)), '..')


def sources():
    for folder, _, names in sorted(os.walk(os.path.join(TOP, 'crates'))):
        if '/src' in folder and '/out' not in folder:
            for name in sorted(names):
                if name.endswith('.rt'):
                    path = os.path.join(folder, name)
                    yield os.path.relpath(path, TOP), open(path).read()


def bare(text):
    """the text without comments, of the same lines"""
    return re.sub(r'//[^\n]*', '', text)


Function = collections.namedtuple('Function', 'path line name head clauses body')


def closing(text, at, pair='{}'):
    """where the brace that opens at `at` is closed, or another pair of brackets"""
    depth = 0
    for i in range(at, len(text)):
        depth += {pair[0]: 1, pair[1]: -1}.get(text[i], 0)
        if depth == 0:
            return i
    return len(text)


def heading(text, at):
    """a function's name, parameters and result, on one line"""
    rest = text[at:]
    end = re.search(r'\brequires\b|\bensures\b|\bwhere\b|[{;]', rest)
    return ' '.join(rest[:end.start()].split())


def functions(path, text):
    for found in re.finditer(r'\bfn (\w+)', text):
        at = found.end()
        clauses = []
        while at < len(text) and text[at] not in '{;':
            at += 1
        head = text[found.start():at]
        while re.search(r'(requires|ensures)\*?(\s+\w+)?\s*$', head):
            end = closing(text, at)
            kind = re.search(r'(requires|ensures)\*?(\s+\w+)?\s*$', head).group(1)
            clauses.append((kind, text[at + 1:end].strip()))
            start = end + 1
            at = start
            while at < len(text) and text[at] not in '{;':
                at += 1
            head = text[start:at]
        body = text[at:closing(text, at) + 1] if at < len(text) and text[at] == '{' else ''
        yield Function(path, text.count('\n', 0, found.start()) + 1, found.group(1), heading(text, found.start()), tuple(clauses), body)


def shape(body):
    """a body with every name and number made the same"""
    words = re.findall(r'\w+|[^\w\s]', body)
    keep = {'if', 'else', 'match', 'for', 'in', 'while', 'let', 'return', 'mut', 'as', 'true', 'false', 'loop', 'break', 'continue'}
    return tuple(w if w in keep or not re.match(r'\w', w) else ('0' if w[0].isdigit() else 'x') for w in words)


def parameters(head):
    inside = re.search(r'fn \w+(?:<.*?>)?\((.*)', head, re.S)
    return set(re.findall(r'(\w+): ([^,()]+)', inside.group(1))) if inside else set()


def pattern(expression, every, flags=re.M):
    for path, text in every:
        for found in re.finditer(expression, text, flags):
            line = text.count('\n', 0, found.start()) + 1
            yield f'{path}:{line}: {found.group(0).strip().splitlines()[0][:100]}'


def groups(table, least):
    for key, places in sorted(table.items(), key=lambda kv: str(kv[0])):
        if len(places) >= least:
            yield places


def main():
    every = [(path, bare(text)) for path, text in sources()]
    all_functions = [f for path, text in every for f in functions(path, text)]
    at = lambda f: f'{f.path}:{f.line}: fn {f.name}'
    points = collections.OrderedDict()

    two = []
    for path, text in every:
        for found in re.finditer(r'\benum (\w+)[^{]*\{', text):
            inside = text[found.end():closing(text, found.end() - 1)]
            kinds = [k for k in re.split(r',\s*', inside.strip().strip(',')) if k]
            if len(kinds) == 2 and '(' in inside:
                two.append(f'{path}:{text.count(chr(10), 0, found.start()) + 1}: enum {found.group(1)}')
    points['1 own enums of two cases that hold values'] = two
    points['1 yes or no beside a value that is written'] = [at(f) for f in all_functions if f.head.endswith('-> bool') and '&mut [' in f.head]
    points['1 numbers for kinds'] = list(pattern(r'-> u8\b|match self\.number\(\)|\.number\(\) [<>=]+', every))
    points['1 an error made by hand where `?` would do'] = list(pattern(r'Err\(AllocError\)|return Err\(theory\)|Err\(_\) => Err\(', every))

    twins = collections.defaultdict(list)
    for f in all_functions:
        key = shape(f.body)
        if len(key) >= 6:
            twins[key].append(f)
    points['2 functions whose bodies differ in names and numbers alone'] = [
        ' = '.join(at(f) for f in places) for places in groups(twins, 2)
        if not all('/tests' in f.path or 'tests/' in f.path for f in places)]
    structs = collections.defaultdict(list)
    for path, text in every:
        for found in re.finditer(r'\b(?:struct|enum) (\w+)(<[^>{]*>)?[^{;(]*(\{|\()', text):
            opened = found.end() - 1
            end = closing(text, opened) if text[opened] == '{' else text.index(')', opened)
            inside = re.sub(r'ghost \w+: \{[^\n]*', '', text[opened + 1:end])
            fields = tuple(re.findall(r'\w+(?=[,:(\s]|$)', re.sub(r'\bpub\b', '', inside)))
            if len(fields) >= 2 or '(' == text[opened]:
                structs[fields].append(f'{path}:{text.count(chr(10), 0, found.start()) + 1}: {found.group(1)}')
    points['2 types with the same fields or cases'] = [' = '.join(p) for p in groups(structs, 2)]

    points['3 loops that count an index by hand'] = list(pattern(r'for \w+ in [^{\n]*\.\.[^{\n]*\{|^\s*\w+ \+= 1;', every))
    points['4 conversions, comparisons and printing by hand'] = list(
        pattern(r'fn (from_byte|from_number|number|told|tell|call_of|reply_of|\w*_in)\b[^\n]*|impl (?:PartialEq|Eq|PartialOrd|Ord|Clone|Default)(?:<\w+>)? for [^\n]*', every))

    said = collections.defaultdict(list)
    for f in all_functions:
        for kind, clause in set(f.clauses):
            said[re.sub(r'\.(old|new|now)\b', '', clause)].append(f)
    points['5 clauses that stand in three functions or more'] = [
        f'{len(set(places))} times: {clause[:90]}' for clause, places in sorted(said.items()) if len(set(places)) >= 3]
    terms = collections.defaultdict(set)
    for f in all_functions:
        for _, clause in f.clauses:
            text = re.sub(r'\.(old|new|now)\b', '', clause)
            for i, mark in enumerate(text):
                if mark == '(':
                    term = text[i:closing(text, i, '()') + 1]
                    if len(re.findall(r'\w+', term)) >= 3:
                        terms[term].add(f)
    points['5 terms in brackets that stand in the clauses of five functions or more'] = [
        f'{len(places)} functions: {term[:90]}' for term, places in sorted(terms.items()) if len(places) >= 5]
    together = collections.defaultdict(set)
    for f in all_functions:
        names = sorted(p for p in parameters(f.head) if p[0] not in ('self', 'heap', 'rt'))
        for i, p in enumerate(names):
            for q in names[i + 1:]:
                together[p, q].add(f)
    points['5 parameters that travel together in three functions or more'] = [
        f'{p[0]}, {q[0]}: ' + ', '.join(sorted(f.name for f in fs)) for (p, q), fs in sorted(together.items())
        if len(fs) >= 3 and not all('tests' in f.path for f in fs)]

    vecs = []
    for path, text in every:
        for found in re.finditer(r'\bstruct (\w+)[^{;]*\{', text):
            inside = text[found.end():closing(text, found.end() - 1)]
            if len(re.findall(r'Vec<', re.sub(r'ghost [^\n]*', '', inside))) >= 2:
                vecs.append(f'{path}:{text.count(chr(10), 0, found.start()) + 1}: struct {found.group(1)}')
    points['6 lists side by side in a type'] = vecs
    points['6 places in a list kept as numbers'] = list(pattern(r'begin: usize|Vec<Range<usize>>|Vec<Place>', every))
    points['6 an array with the part of it that is in use'] = list(pattern(r'= \[0i64; MOST\]', every))

    switches = []
    for f in all_functions:
        for found in re.finditer(r'match [^{\n]*\{', f.body):
            arms = f.body[found.end():closing(f.body, found.end() - 1)]
            runs = [a for a in re.findall(r'=> [^\n]*', arms) if re.search(r'\w+\(.*\)', a)]
            if len(runs) >= 4:
                switches.append(at(f))
    points['7 a switch on which step to run'] = switches

    for name, places in points.items():
        print(f'{len(places):4}  {name}')
        if LISTED:
            for place in places:
                print('        ' + place)


main()
