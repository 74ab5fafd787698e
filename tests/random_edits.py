#!/usr/bin/env python3
"""Types at random into Rust files, in sessions of `itemtree serve`. It is no part of the gate: it is run by hand over large sources.

    random_edits.py PROGRAM FOLDER.. [--inside N] [--anywhere N] [--seed N] [--jobs N]

FOLDER has Rust files, of which those up to 60,000 bytes are taken. After each edit all that the session tells of the file is held
against a new session that is given the whole text.

- inside: what stands alone is typed between two tokens of a body, or in place of tokens there; so no tree may change, which
  `itemtree changed --tree` has to say of the two texts as well
- anywhere: anything is typed in place of any characters
"""
import argparse
import json
import multiprocessing
import os
import random
import re
import subprocess
import sys
import tempfile

import serve

MOST = 60_000
# What stands alone in a body and can not begin its inner attributes.
WHOLE = ['x', 'let y = 1;', '{ }', '{ { } ; }', "'{'", "b'}'", '"}"', '"{ \\" {"', 'r"}"', 'r#"}"{"#', 'br##"{"#}"##', '/* } */', '/* /* { */ } */',
         '// }\n', '/// {\n', '/** } */', "'a: loop { break 'a; }", 'fn g() { }', 'struct S { a: u8 }', 'mod m { use a::{b, c}; }', 'impl T for S { }',
         'macro_rules! m { (}) => { } ; }'.replace('(})', '($t:tt)'), 'm! { fn }', '#[cfg(test)] fn h() { }', 'use a::b;', 'use a::{b, {c}};', '0x1f', '1.5e3', '..=',
         '-> >', '::<>', 'é', '"é😀"', "'😀'", '\r\n', '\n\n', '\t', ' ', ';', ',', '=>', '|a, b| a + b', '( )', '[ ]', '(', ')', '[', ']', '$', '?', 'r#fn', 'unsafe { }',
         'const A: u8 = { 1 };', 'extern "C" { fn f(); }', 'pub', 'trait T { fn f(&self) { } }', 'where', 'enum E { A { x: u8 }, B }', '\\']
# What may open or close anything.
LOOSE = WHOLE + ['{', '}', '"', "'", 'r#"', '"#', '/*', '*/', '//', '#![a]', '#', '#!', '//! a\n', '/*! a */', '#[doc = "', 'b"', '#[', '---\n', '\ufeff', 'fn', 'use a::{', '\r', '{{{', '}}}']
TOKEN = re.compile(r'''//[^\n]*|/\*|(?:br|cr|r)(#*)"|[bc]?"(?:[^"\\]|\\.)*"|b?'(?:[^'\\\n]|\\(?:x..|u\{[^}]*\}|.))'|'\w+|[\w]+|\s+|.''', re.S)


def end_of_comment(text, at):
    """Where a block comment ends that begins here."""
    depth = 0
    for mark in re.finditer(r'/\*|\*/', text[at:]):
        depth += 1 if mark.group() == '/*' else -1
        if not depth:
            return at + mark.end()
    return len(text)


def tokens_of(text):
    """Where the tokens of a text begin, roughly, and the pairs of its braces."""
    starts, open_ones, pairs, at = [], [], {}, 0
    while at < len(text):
        found = TOKEN.match(text, at)
        starts.append(at)
        end = found.end()
        if found.group() == '/*':
            end = end_of_comment(text, at)
        elif found.group(1) is not None:
            close = text.find('"' + found.group(1), end)
            end = len(text) if close < 0 else close + 1 + len(found.group(1))
        elif found.group() == '{':
            open_ones.append(at)
        elif found.group() == '}' and open_ones:
            pairs[at] = open_ones.pop()
        at = end
    return starts, pairs


def all_items(items):
    for item in items:
        yield item
        yield from all_items(item['children'])


def bodies_of(text, items, pairs):
    """The braces that functions and the like end with."""
    data = text.encode()
    for item in all_items(items):
        if item['kind'] in ('mod', 'extern', 'use') or not item['range']:
            continue
        close = len(data[:item['range'][1] - 1].decode('utf-8', 'ignore'))
        if text[close:close + 1] == '}' and close in pairs:
            yield pairs[close], close


def typed_inside(chance, text, items):
    """A text with something else in a body, as the range in characters and what is typed."""
    starts, pairs = tokens_of(text)
    bodies = list(bodies_of(text, items, pairs))
    if not bodies:
        return None
    opening, close = chance.choice(bodies)
    # (whole pairs of braces are taken out, or nothing)
    inner = [pair for pair in ((open_at, close_at + 1) for close_at, open_at in pairs.items()) if opening < pair[0] and pair[1] <= close]
    between = [at for at in starts if opening < at <= close]
    if inner and chance.random() < 0.3:
        start, end = chance.choice(inner)
    else:
        start = end = chance.choice(between)
    new = ' ' + ' '.join(chance.choice(WHOLE) for _ in range(chance.randrange(4))) + ' '
    return start, end, new


def typed_anywhere(chance, text, _items):
    start = chance.randrange(len(text) + 1)
    end = min(len(text), start + chance.choice([0, 0, 0, 1, 1, 2, 5, 30]))
    return start, end, ''.join(chance.choice(LOOSE) for _ in range(chance.randrange(3)))


def behind_blanks(text, at):
    """The place behind white space and comments, but for inner documentation."""
    while found := re.compile(r'\s+|//(?!!)[^\n]*|/\*(?!!)').match(text, at):
        at = end_of_comment(text, at) if found.group() == '/*' else found.end()
    return at


def begins_inner(text, at):
    """Whether inner attributes come next, behind white space and comments."""
    at = behind_blanks(text, at)
    for mark in '#![':
        if not text.startswith(mark, at):
            return text.startswith(('//!', '/*!'), at) and mark == '#'
        at = behind_blanks(text, at + 1)
    return True


class Typist:
    """Files that are typed into, with the session that they are kept in."""

    def __init__(self, program, paths, seed, is_inside):
        self.program, self.paths, self.chance, self.is_inside = program, paths, random.Random(seed), is_inside
        self.edits = self.failed = self.left_out = 0

    def asked(self, server, edits, shows):
        return json.loads(server.ask({'edits': edits, 'shows': shows}))

    def whole(self, text):
        """What a new session tells of a text."""
        with serve.Server(self.program) as server:
            return json.loads(server.ask({**serve.OPENED, 'edits': [{'edit': 'set_text', 'file': 0, 'text': text}], 'shows': serve.told_of(0)}))['shows']

    def are_same(self, old, new):
        """Whether `itemtree changed --tree` finds no tree changed."""
        with tempfile.TemporaryDirectory(dir='/dev/shm') as folder:
            for name, text in (('old.rs', old), ('new.rs', new)):
                with open(os.path.join(folder, name), 'w', encoding='utf-8', newline='') as file:
                    file.write(text)
            done = subprocess.run([self.program, 'changed', '--tree', os.path.join(folder, 'old.rs'), os.path.join(folder, 'new.rs')], stdout=subprocess.PIPE)
            return done.returncode == 0 and not done.stdout

    def fail(self, what, path, text, edit):
        self.failed += 1
        print(f'random_edits: {what}: {path}: {edit}: {text[max(0, edit[0] - 60):edit[0] + 60]!r}', file=sys.stderr)

    def one(self, server, path, text, items):
        """One edit; gives the new text and the items then."""
        edit = (typed_inside if self.is_inside else typed_anywhere)(self.chance, text, items)
        if edit is None:
            return None
        start, end, typed = edit
        new = text[:start] + typed + text[end:]
        place = [len(text[:start].encode()), len(text[:end].encode())]
        got = self.asked(server, [{'edit': 'change_text', 'file': 0, 'range': place, 'text': typed}], [])
        if 'error' in got:
            self.fail(f'an error {got}', path, text, edit)
            return None
        told = self.asked(server, [], serve.told_of(0) + [{'show': 'changed', 'since': got['number'] - 1}])['shows']
        self.edits += 1
        if told[:-1] != self.whole(new):
            self.fail('another answer', path, text, edit)
            return None
        if self.is_inside:
            # (an edit may leave an attribute at the front of a body, and there it is one of the block)
            opening = max((o for c, o in tokens_of(text)[1].items() if o < start <= c), default=0)
            if begins_inner(text, opening + 1) or begins_inner(new, opening + 1):
                self.left_out += 1
                return None
            if told[-1] != '' or not self.are_same(text, new):
                self.fail('a tree changed', path, text, edit)
                return None
        return new, told[0]

    def type_into(self, path, most):
        with open(path, encoding='utf-8', newline='') as file:
            text = file.read()
        with serve.Server(self.program) as server:
            server.ask(serve.OPENED)
            told = self.asked(server, [{'edit': 'set_text', 'file': 0, 'text': text}], serve.told_of(0))
            items = told['shows'][0]
            for _ in range(most):
                left = self.one(server, path, text, items)
                if left is None:
                    return
                text, items = left
                if len(text) > 2 * MOST:
                    return


def work(given):
    program, paths, seed, is_inside, count = given
    typist = Typist(program, paths, seed, is_inside)
    while typist.edits < count and typist.failed < 20:
        typist.type_into(typist.chance.choice(paths), min(40, count - typist.edits))
    return typist.edits, typist.failed, typist.left_out


def rust_files(folders):
    found = []
    for folder in folders:
        for at, _, names in os.walk(folder):
            found += [os.path.join(at, name) for name in names if name.endswith('.rs') and os.path.getsize(os.path.join(at, name)) <= MOST]
    right = []
    for path in sorted(found):
        try:
            with open(path, encoding='utf-8', newline='') as file:
                file.read()
            right.append(path)
        except UnicodeDecodeError:
            pass
    return right


def main():
    parser = argparse.ArgumentParser(description='Types at random into Rust files, in sessions.')
    parser.add_argument('program')
    parser.add_argument('folders', nargs='+')
    parser.add_argument('--inside', type=int, default=100_000)
    parser.add_argument('--anywhere', type=int, default=100_000)
    parser.add_argument('--seed', type=int, default=1)
    parser.add_argument('--jobs', type=int, default=os.cpu_count())
    options = parser.parse_args()
    program, paths, failures = os.path.abspath(options.program), rust_files(options.folders), 0
    with multiprocessing.Pool(options.jobs) as pool:
        for name, is_inside, count in (('inside', True, options.inside), ('anywhere', False, options.anywhere)):
            share = -(-count // options.jobs)
            done = pool.map(work, [(program, paths, f'{options.seed} {name} {job}', is_inside, share) for job in range(options.jobs)])
            edits, failed, left_out = (sum(each) for each in zip(*done))
            print(f'{name}: {edits} edits in {len(paths)} files, {failed} failed, {left_out} with inner attributes left out')
            failures += failed
    print(f'random_edits: {options.inside + options.anywhere - failures} passed, {failures} failed')
    return 1 if failures else 0


if __name__ == '__main__':
    sys.exit(main())
