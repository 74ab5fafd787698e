#!/usr/bin/env python3
"""Looks for texts whose time grows with the square: patterns that are repeated, over `outline`, `check` and `changed`.

    growth.py ITEMTREE         some texts, in less than a minute; this is a part of the gate
    growth.py ITEMTREE --all   each pattern, each pair of them in two ways, and triples at random; by hand, about half an hour of four
                    [--triples N] [--seed N]     processors

A text is fit if the commands take little time over it, or if twice the text takes at most three times as long. That is counted in
instructions, by valgrind where it is there, and else taken from the least of five times. `changed` compares a text with the same
and one word more.
"""
import argparse
import contextlib
import itertools
import os
import random
import re
import resource
import shutil
import signal
import subprocess
import sys
import tempfile
from concurrent.futures import ThreadPoolExecutor

# The bytes of a text, and of one among many.
LARGE, SMALL = 200_000, 30_000
# Processor seconds: what is no concern at the larger size and at the smaller one, where counting begins, and where a run is ended.
LITTLE = {LARGE: 0.15, SMALL: 0.04}
COUNTED, MOST = 0.03, 2
MOST_GROWTH = 3
MOST_MEMORY = 4 << 30
COMMANDS = ('outline', 'check', 'changed')

PATTERNS = [
    '::a', 'a::', 'crate::', ';struct S(', 'use *struct S(', 'struct S(pub(in a::b) ', 'mod m {', 'mod m { fn f() {', '{', '}', '(', ')', '[', ']',
    '<', '>', '{}', '()', '[]', '<>', ';', ',', ':', '::', '#', '!', '=', '=>', '->', '&', '*', '+', '-', '/', '|', '?', '.', '..', '@', '$', '~',
    '\\', '^', '%', '"', "'", '`', "'a ", "'a'", '"b" ', 'r#"', '"#', 'r"', "b'", "'\\", '//', '/*', '*/', '/**/', '///\n', '//!\n', '/**', '/*!',
    '\n', '\r', '\r\n', ' ', '\t', '\ufeff', '\u00e9', '\u2028', '\0', '---\n', '#!', '#!\n', 'a ', 'a', '_ ', 'r#a ', '0 ', '1.', '1e', '0x', "0'",
    '#[a]', '#![a]', '#[', '#![', '#[a(', '#[cfg(', '#[cfg(not(', '#[cfg_attr(a, ', '#[doc = "a"]', '#[a = "', '#[a::', 'pub ', 'pub(', 'pub(crate) ',
    'pub(in a::b) ', 'unsafe ', 'const ', 'async ', 'extern ', 'extern "C" ', 'extern "C" {', 'static ', 'default ', 'auto ', 'safe ', 'gen ', 'fn ',
    'fn f', 'fn f(', 'fn f() ', 'fn f() {', 'fn f();', 'fn f<', 'fn f() where ', 'struct ', 'struct S ', 'struct S {', 'struct S;', 'struct S<',
    'enum E {', 'enum E { A ', 'union U {', 'trait T {', 'trait T: ', 'impl ', 'impl S {', 'impl T for S {', 'impl<', 'type A ', 'type A = ',
    'const A: u8 = ', 'static A: u8 = {', 'use ', 'use a::{', 'use a::', 'use a as ', 'use {', 'use *', 'use a;', 'mod ', 'mod m;', 'mod m {}',
    'extern crate ', 'macro_rules! ', 'macro_rules! m {', 'macro_rules! m { () => {', 'macro m ', 'm!', 'm! {', 'm!(', 'm![', 'm!();', 'a::m!(', '!m',
    'where ', 'where A: ', 'for ', 'for<', "for<'a> ", 'in ', 'as ', 'dyn ', 'self ', 'Self ', 'super::', 'crate ', 'let a = ', 'let a = {', 'if ',
    'if a {', 'else ', 'match a {', 'match ', 'loop {', 'while ', 'return ', 'break ', 'move ', 'move || ', '|a| ', '|| ', 'unsafe {', 'const {',
    'async {', '{ ;', '{ a', '({', '[{', '<{', '{(', '(}', '{)', 'A<{', 'a: u8, ', 'A(', 'A {', 'A = ', 'A<', '= {', ': [', '-> [', '<<<<<<< ',
    '=======\n', '>>>>>>> ',
]

# The texts of the gate: each part is repeated before the next one begins.
TEXTS = [
    ('::a',), ('a::',), ('crate::',), (';struct S(',), ('use *struct S(',), ('struct S(pub(in a::b) ',), ('mod m {',), ('mod m { fn f() {',),
    ('mod m {', '}'), ('mod m { fn f() {', '}}'), ('::a', '!'), ('a::', '{}'), ('super::',), ('a ',), ('a:: ',), ('pub(in a::b) ',), ('pub(',),
    ('pub ',), ('unsafe ',), ('const ',), ('extern "C" {',), ('extern "C" {', '}'), ('extern ',), ('async ',), ('{',), ('(',), ('[',), ('<',),
    ('{', '}'), ('}', '{'), (')',), ('(}',), ('#[',), ('#![',), ('#[a]',), ('#[cfg(not(',), ('#[cfg_attr(a, ',), ('#[a::',), ('"',), ("'",), ("'a ",),
    ('r#"',), ('/*',), ('/*', '*/'), ('//',), ('///\n',), ('\r',), ('\n',), ('---\n',), ('fn ',), ('fn f() ',), ('fn f() {',), ('fn f() {', '}'),
    ('fn f();',), ('fn f() {}',), ('fn f<',), ('fn f() where ',), ('struct S<',), ('struct S {',), ('struct S;',), ('enum E { A ',), ('trait T {',),
    ('impl S {',), ('impl<',), ('impl S {', '}'), ('impl S { fn f() {} }',), ('use a::{',), ('use a::{', '}'), ('use a::',), ('use {',), ('use a;',),
    ('macro_rules! m {',), ('m!',), ('m!(',), ('a::m!(',), ('m!();',), ('let a = {',), ('const A: u8 = {',), ('static A: u8 = {',), ('type A = [',),
    ('where A: ',), ('for<',), ('fn f() { impl S {',), ('fn f() { extern ',), ('<<<<<<< ',), ('0x',), ('pub struct S(', ')'),
    ('struct S(pub(in a::b) ', ')'), (';struct S(', ');'), ('mod m { use a::', '}'), ('#[a = "',), ('\u00e9',), ('=> ',), ('m! { = > }',),
    ('m! { /** a */ }',), ('a::crate::',), ('a::', 'crate::'), (';struct S(self ',), ('super::', '$'), ('mod m { fn f() {', '['),
    ('a::<b!()',), ('a::<#[a]',), ('::<b!()',), ('impl<{}+',), ('impl A<{}+',),
    ('{\n',), ('(\n',), ('}\n',), ('[', ')'), ('{(', ']'), ('[(',), ('#[\n',), ('pub(\n',), ('struct S\n',), ('pub\n#[a]\n',), ('unsafe async const ',),
    ('fn f() {\n',), ('#[a(\nfn f()\n',), ('    mod m {\n', '}\n'), ('  mod m {\n      { x\n }\n',), ('fn f() {\n    }\n', '}\n'),
    ('mod m {\n', '    }\n', '}\n'), ('mod m {\n', '    /// a\n'), ('{\n', ' }\n', '    }\n}\n'), (' impl X {\n  impl X {\n   impl X {\n', '  }\n }\n}\n'),
    ('mod m {', '$'), ('mod m {struct S;',), ('extern "C" {fn f() {',), ('extern { ;m! {',), ('trait T { fn f() {',), ('impl S { fn f() {',), ('const A: u8 = { fn f() {',),
]
passed = failed = 0


def tell(is_right, name, got=''):
    global passed, failed
    if is_right:
        passed += 1
        return
    failed += 1
    print(f'growth: {name}: {got}', file=sys.stderr)


def text_of(parts, size):
    count = max(1, size // sum(len(part.encode()) for part in parts))
    return ''.join(part * count for part in parts)


def written(folder, parts, size):
    """The files of a text, and of the same with one word more."""
    text = text_of(parts, size).encode()
    paths = []
    for name, data in (('old', text), ('new', text + b' more')):
        paths.append(os.path.join(folder, f'{name}.rs'))
        with open(paths[-1], 'wb') as file:
            file.write(data)
    return paths


class Program:
    """A command of itemtree, over texts of a size."""

    def __init__(self, program, folder):
        self.program, self.folder, self.counts = program, folder, shutil.which('valgrind') is not None

    def words(self, command, parts, size, folder):
        paths = written(folder, parts, size)
        return [self.program, command, *(paths if command == 'changed' else paths[:1])]

    def seconds(self, command, parts, size):
        """Processor seconds and the status of a run."""
        with tempfile.TemporaryDirectory(dir=self.folder) as folder:
            words = self.words(command, parts, size, folder)
            run = subprocess.Popen(words, stdout=subprocess.DEVNULL, stderr=subprocess.DEVNULL)
            # (it may have ended already)
            with contextlib.suppress(ProcessLookupError):
                resource.prlimit(run.pid, resource.RLIMIT_CPU, (MOST, MOST + 1))
                resource.prlimit(run.pid, resource.RLIMIT_AS, (MOST_MEMORY, MOST_MEMORY))
            _, status, used = os.wait4(run.pid, 0)
            run.returncode = os.waitstatus_to_exitcode(status)
            return used.ru_utime, run.returncode

    def cost(self, command, parts, size):
        """The instructions of a run, or where valgrind is not here the least of five times."""
        if not self.counts:
            return min(self.seconds(command, parts, size)[0] for _ in range(5))
        with tempfile.TemporaryDirectory(dir=self.folder) as folder:
            words = self.words(command, parts, size, folder)
            told = subprocess.run(['valgrind', '--tool=callgrind', '--callgrind-out-file=/dev/null', *words], timeout=600,
                                  stdout=subprocess.DEVNULL, stderr=subprocess.PIPE, check=False).stderr
            return int(re.search(rb'Collected : (\d+)', told)[1])

    def growth(self, command, parts, most):
        """By how much the cost grows for twice the text, at a size that takes some time."""
        size, enough = 1000, COUNTED if self.counts else 10 * COUNTED
        while size < most and self.seconds(command, parts, size)[0] < enough:
            size *= 2
        return self.cost(command, parts, size) / self.cost(command, parts, size // 2), size

    def judge(self, asked):
        """Whether a command is quick enough over a text of a size, with what is told of it."""
        command, (parts, size) = asked
        seconds, status = self.seconds(command, parts, size)
        name = f'{command} over {parts}'
        if status not in (0, 1, -signal.SIGXCPU):
            return False, name, f'status {status} after {seconds:.2f} s'
        if seconds <= LITTLE[size]:
            return True, name, ''
        growth, at = self.growth(command, parts, size)
        return growth <= MOST_GROWTH, name, f'{growth:.2f} times as long at {at} bytes as at half, {seconds:.2f} s at {size}'


def all_texts(triples, chance):
    yield from (((pattern,), LARGE) for pattern in PATTERNS)
    for one, two in itertools.product(PATTERNS, repeat=2):
        yield (one + two,), SMALL
        yield (one, two), SMALL
    for _ in range(triples):
        one, two, three = (chance.choice(PATTERNS) for _ in range(3))
        yield from (((one + two + three,), SMALL), ((one + two, three), SMALL), ((one, two, three), SMALL))


def main():
    options = argparse.ArgumentParser()
    options.add_argument('program')
    options.add_argument('--all', action='store_true')
    options.add_argument('--triples', type=int, default=3000)
    options.add_argument('--seed', type=int, default=1)
    asked = options.parse_args()
    texts = all_texts(asked.triples, random.Random(asked.seed)) if asked.all else [(parts, LARGE) for parts in TEXTS]
    place = '/dev/shm' if os.path.isdir('/dev/shm') else None
    with tempfile.TemporaryDirectory(dir=place) as folder, ThreadPoolExecutor(os.cpu_count()) as runs:
        program = Program(os.path.realpath(asked.program), folder)
        for is_right, name, got in runs.map(program.judge, ((command, parts) for parts in texts for command in COMMANDS)):
            tell(is_right, name, got)
    print(f'growth: {passed} passed, {failed} failed')
    sys.exit(1 if failed or not passed else 0)


if __name__ == '__main__':
    main()
