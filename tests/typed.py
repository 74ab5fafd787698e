#!/usr/bin/env python3
"""Damages Rust texts as they are while somebody types, and counts which items behind the damage `itemtree` still finds.

    typed.py ITEMTREE                      twelve kinds of damage in this project's own programs; a part of the gate
    typed.py ITEMTREE FOLDER .. [--count N] [--seed S] [--indent tabs|column] [--ctags] [--show N]
                                           the same in the Rust files below other folders, with a line of figures for each kind

A kind is a place and a damage. The place is the top of a file, a module, an impl or a trait, or the body of a function. *Typed*: the
beginning of another item or statement, cut behind a random token, stands on lines of its own in front of what is there. *Deleted*: one of
`()[]{};,` is gone. *Added*: one of `()[]{}` too many.

An item behind the damage, beside it or beside what is around it, is found if it is told with its kind and name at its line and column. It is
lost if it is not; a text is *silent* if an item is lost and `check` tells nothing. Each item before the damage must be told as before.
"""
import argparse
import collections
import json
import os
import random
import re
import subprocess
import sys
import tempfile

PLACES = ('top', 'module', 'impl', 'body')
DAMAGES = ('typed', 'deleted', 'added')
# The bounds: of items behind found, of texts in which all are lost, and of silent ones, in per cent.
LEAST_FOUND, MOST_LOST, MOST_SILENT = 99, 0.2, 0.1
MOST_BYTES, MOST_TOKENS, CHUNK = 60_000, 120, 400
TOKEN = re.compile(r'''//[^\n]*|/\*.*?\*/|b?r(?P<h>\#*)".*?"(?P=h)|b?"(?:\\.|[^"\\])*"|b?'(?:\\.[^']*|[^'\\])'|'\w+|\w+|\s+|.''', re.S)

Row = collections.namedtuple('Row', 'key start end parents kind has_name')
Case = collections.namedtuple('Case', 'path damage text behind before')


def batches(files):
    return (files[at:at + CHUNK] for at in range(0, len(files), CHUNK))


def run(command, files):
    done = subprocess.run(command + files, capture_output=True, check=False)
    return done.stdout.decode('utf-8', 'replace')


def flat(items, parents=()):
    """The items and members of an outline, each with what is around it, in the order of the text."""
    rows = []
    for item in items:
        kind, name = item['kind'], item['name']
        key = (item['line'], item['column'], kind, name)
        rows.append(Row(key, *item['range'], parents, kind, name is not None))
        rows += flat(item['children'], (*parents, item['range'][0]))
    return sorted(rows, key=lambda row: row.start)


def outlines(program, files):
    """The rows of each file."""
    told = {}
    for some in batches(files):
        for line in run([program, 'outline', '--json'], some).splitlines():
            answer = json.loads(line)
            told[answer['path']] = flat(answer['items'])
    return told


def with_problems(program, files):
    return {line.split(':')[0] for some in batches(files) for line in run([program, 'check'], some).splitlines()}


def tags(files):
    """The lines and names that Universal Ctags tells of each file."""
    told = collections.defaultdict(set)
    for some in batches(files):
        for line in run(['ctags', '-n', '--languages=Rust', '-f', '-'], some).splitlines():
            if not line.startswith('!'):
                name, path, at = line.split('\t')[:3]
                told[path].add((int(at.split(';')[0]), name))
    return told


# ---- places

def tokens(text, start=0, end=None):
    found = ((part.start() + start, part.group(0)) for part in TOKEN.finditer(text[start:end]))
    return [(at, token) for at, token in found if not token.isspace()]


def line_start(text, at):
    return text.rfind('\n', 0, at) + 1


def begins_line(text, at):
    return text[line_start(text, at):at].strip() == ''


def statements(text, row):
    """Where statements of a function begin that stand on lines of their own, by their layout."""
    opened = text.find('{', row.start, row.end)
    column = len(text[line_start(text, row.start):row.start]) + 4
    found, at = [], text.find('\n', opened, row.end) + 1 if opened >= 0 else 0
    while 0 < at < row.end:
        behind, end = text[:at].rstrip()[-1:], text.find('\n', at)
        line = text[at:end]
        if len(line) - len(line.lstrip()) == column and behind in (';', '{', '}') and line.lstrip()[0] not in '})].|&+-*/?':
            if not line.lstrip().startswith(('else', '//')):
                found.append(at + column)
        at = end + 1 if end >= 0 else 0
    return found


def is_level(row, item):
    """Beside an item, or beside what is around it."""
    return row.parents == item.parents[:len(row.parents)]


def candidates(text, rows, place):
    """Items before which something may be typed, or in which something may be damaged."""
    kinds = {row.start: row.kind for row in rows}
    around = {'top': lambda row: not row.parents, 'body': lambda row: row.kind == 'fn',
              'module': lambda row: row.parents and kinds[row.parents[-1]] == 'mod',
              'impl': lambda row: row.parents and kinds[row.parents[-1]] in ('impl', 'trait')}[place]
    return [row for row in rows if around(row) and begins_line(text, row.start)]


# ---- damages

def behind_of(rows, item, start, text, shift):
    """What is to be found behind a place: an item without a name may go on with what stands before it, if it is the first."""
    lines = text.count('\n', 0, start) + 1
    found = [row for row in rows if row.start >= start and is_level(row, item) and row.key[0] >= lines]
    if found and not found[0].has_name:
        found = found[1:]
    return {(row.key[0] + shift, *row.key[1:]) for row in found}


def beginning(rng, text, start, end):
    """The beginning of what stands in a range, cut behind a token."""
    ends = [at + len(token) for at, token in tokens(text, start, end)][:MOST_TOKENS]
    return text[start:rng.choice(ends[:-1])] if len(ends) > 1 else ''


def moved(typed, old, new):
    """Lines at another column."""
    first, *others = typed.split('\n')
    return '\n'.join([first, *(new + line[len(old):] if line.startswith(old) else line for line in others)])


def type_before(rng, path, text, rows, place):
    item = rng.choice(candidates(text, rows, place) or [None])
    others = [row for row in candidates(text, rows, place) if row is not item and row.kind != 'use']
    if item is None or not others:
        return None
    donor, at = rng.choice(others), item.start
    source = (donor.start, donor.end)
    if place == 'body':
        here, there = statements(text, item), statements(text, donor)
        if not here or not there:
            return None
        at, source = rng.choice(here), (rng.choice(there), donor.end - 1)
    typed = beginning(rng, text, *source)
    if not typed:
        return None
    indent = text[line_start(text, at):at]
    typed = moved(typed, text[line_start(text, source[0]):source[0]], indent)
    damaged = text[:at] + typed + '\n' + indent + text[at:]
    start = item.end if place == 'body' else at
    before = {row.key for row in rows if row.start < (item.start if place != 'body' else at)}
    return Case(path, f'typed {typed[-60:]!r}', damaged, behind_of(rows, item, start, text, typed.count('\n') + 1), before)


def change_token(rng, path, text, rows, place, damage):
    item = rng.choice(candidates(text, rows, place) or [None])
    if item is None:
        return None
    start = item.start if place != 'body' else text.find('{', item.start, item.end) + 1
    marks = [(at, token) for at, token in tokens(text, start, item.end) if damage == 'added' or token in '()[]{};,']
    marks = [mark for mark in marks if not mark[1].startswith('//')]
    if not marks or start == 0 and place == 'body':
        return None
    at, token = rng.choice(marks)
    if damage == 'deleted':
        damaged, what = text[:at] + text[at + 1:], f'deleted {token} at {at}'
    else:
        bracket, at = rng.choice('()[]{}'), at + len(token)
        damaged, what = text[:at] + bracket + text[at:], f'added {bracket} at {at}'
    lines = text.count('\n', 0, at) + 1
    behind = {key for key in behind_of(rows, item, item.end, text, 0) if key[0] > lines}
    before = {row.key for row in rows if row.start < item.start}
    return Case(path, what, damaged, behind, before)


def cases(rng, texts, rows, place, damage, count):
    made, paths = [], sorted(texts)
    for _ in range(200 * count):
        path = rng.choice(paths)
        if damage == 'typed':
            case = type_before(rng, path, texts[path], rows[path], place)
        else:
            case = change_token(rng, path, texts[path], rows[path], place, damage)
        if case and case.behind:
            made.append(case)
            if len(made) == count:
                break
    return made


# ---- figures

def per_cent(part, all_of):
    return 100 * part / max(1, all_of)


def measure(program, made, folder, shown):
    files = []
    for number, case in enumerate(made):
        files.append(os.path.join(folder, f'{number}.rs'))
        with open(files[-1], 'w', newline='', encoding='utf-8') as file:
            file.write(case.text)
    told, problems = outlines(program, files), with_problems(program, files)
    figures = collections.Counter()
    for path, case in zip(files, made):
        keys = {row.key for row in told.get(path, [])}
        missing = case.behind - keys
        figures['behind'] += len(case.behind)
        figures['found'] += len(case.behind) - len(missing)
        figures['lost'] += len(missing) == len(case.behind)
        figures['silent'] += bool(missing) and path not in problems
        figures['before'] += not case.before <= keys
        if (missing or not case.before <= keys) and shown > 0:
            shown -= 1
            print(f'--- {case.path}: {case.damage}: {len(missing)} of {len(case.behind)} missing, as {sorted(missing, key=str)[:2]}, '
                  f'before {sorted(case.before - keys, key=str)[:2]}')
    return figures, files


def measure_tags(made, files):
    """The same by Universal Ctags, by lines and names alone, of what it finds of the whole text."""
    told, figures = tags(files), collections.Counter()
    for path, case in zip(files, made):
        want = {(key[0], key[3]) for key in case.behind if key[3]}
        figures['behind'] += len(want)
        figures['found'] += len(want & told[path])
        figures['lost'] += bool(want) and not want & told[path]
    return figures


def line_of(name, count, figures):
    return (f'{name}: {per_cent(figures["found"], figures["behind"]):.2f} % of {figures["behind"]} items behind found, all lost in '
            f'{per_cent(figures["lost"], count):.1f} % of {count} texts, silent {figures["silent"]}, before changed {figures["before"]}')


def indented(text, how):
    if how == 'module':
        return 'mod m {\n' + re.sub(r'(?m)^(?=.)', '    ', text) + '}\n'
    if how == 'tabs':
        return re.sub(r'(?m)^(?:    )+', lambda blanks: '\t' * (len(blanks.group(0)) // 4), text)
    return re.sub(r'(?m)^[ \t]+', '', text) if how == 'column' else text


def read(folders, suffix, how):
    texts = {}
    for folder in folders:
        for top, _, names in os.walk(folder):
            for name in sorted(names):
                path = os.path.join(top, name)
                if name.endswith(suffix) and os.path.getsize(path) < MOST_BYTES:
                    with open(path, 'rb') as file:
                        data = file.read()
                    if data.isascii() and b'\r' not in data:
                        texts[path] = indented(data.decode(), how)
    return texts


def own_rows(program, texts, folder):
    """The rows of texts as they are, written to files of their own."""
    files = {}
    for number, path in enumerate(sorted(texts)):
        files[os.path.join(folder, f'old{number}.rs')] = path
        with open(os.path.join(folder, f'old{number}.rs'), 'w', newline='', encoding='utf-8') as file:
            file.write(texts[path])
    return {files[path]: rows for path, rows in outlines(program, sorted(files)).items()}


def main():
    parser = argparse.ArgumentParser()
    parser.add_argument('program')
    parser.add_argument('folders', nargs='*')
    parser.add_argument('--count', type=int, default=100)
    parser.add_argument('--seed', type=int, default=2)
    parser.add_argument('--indent', choices=('tabs', 'column'))
    parser.add_argument('--ctags', action='store_true')
    parser.add_argument('--show', type=int, default=0)
    options = parser.parse_args()
    crates = os.path.join(os.path.dirname(os.path.dirname(os.path.abspath(__file__))), 'crates')
    # Programs and tests are written without contracts, so their texts are Rust.
    own = [os.path.join(crates, name, 'src') for name in ('itemtree', 'item_tree_tests', 'example_imports')]
    passed = failed = 0
    with tempfile.TemporaryDirectory() as folder:
        texts = read(options.folders or own, '.rs' if options.folders else '.rt', options.indent)
        for place in PLACES:
            if place == 'module' and not options.folders:
                texts = {path: indented(text, 'module') for path, text in texts.items()}
            rows = own_rows(options.program, texts, folder)
            for damage in DAMAGES:
                made = cases(random.Random(f'{options.seed} {place} {damage}'), texts, rows, place, damage, options.count)
                figures, files = measure(options.program, made, folder, options.show)
                is_fit = made and per_cent(figures['found'], figures['behind']) >= LEAST_FOUND
                is_fit = is_fit and per_cent(figures['lost'], len(made)) <= MOST_LOST and not figures['before']
                is_fit = is_fit and per_cent(figures['silent'], len(made)) <= MOST_SILENT
                passed, failed = passed + bool(is_fit), failed + (not is_fit)
                if options.folders or not is_fit or options.show:
                    print(line_of(f'{place}, {damage}', len(made), figures))
                if options.ctags:
                    print(line_of('  ctags', len(made), measure_tags(made, files)))
    print(f'typed: {passed} passed, {failed} failed')
    return failed > 0


if __name__ == '__main__':
    sys.exit(main())
