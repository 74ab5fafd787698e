#!/usr/bin/env python3
"""Looks whether what is dropped is given back: a run that makes and drops thousands of values leaves as much as one that makes none.

    freed_memory.py ITEMTREE

What is left when the program ends is counted by tests/refuse_memory.c, in blocks and bytes. Each type whose drop is written by
hand is made by one of the runs.
"""
import glob
import json
import os
import re
import subprocess
import sys
import tempfile

TOP = os.path.dirname(os.path.dirname(os.path.realpath(__file__)))
# How many files, each with ten values and more of most types, how many times a session makes and drops all, and how many options
# and crates there are.
FILES, ROUNDS, OPTIONS = 1000, 10_000, 10_000
# The types whose drop is written by hand, each with a run that makes many of it, or one that holds many values.
MADE = {
    'Asked': 'options', 'Filter': 'options', 'AttrsOwned': 'outline', 'BlockExpr': 'serve', 'CfgOptions': 'serve',
    'Conversation': 'serve', 'CrateFile': 'modules', 'DeclaredItems': 'imports --resolve', 'DeclIndex': 'serve', 'ItemTree': 'page', 'Member': 'outline', 'ModPath': 'imports', 'Name': 'outline', 'Row': 'outline',
    'Pattern': 'find', 'Server': 'lsp', 'Session': 'serve', 'SoughtPath': 'serve', 'Sources': 'serve', 'Syntax': 'outline',
}
TEXT = '''//! Told.
#![allow(a, b = "c")]
use a::{b::{self as c, *}, d};
#[cfg(any(test, a = "b"))]
pub mod m {
    #[e(f)] pub(in crate::m) struct S<T> { #[cfg(g)] pub h: T, i: u8 }
    impl<T> a::Tr for S<T> { const J: u8 = 1; fn k(&self) -> u8 { 1 } n::m!(); }
    pub enum E { #[cfg(o)] P { q: u8 }, R(u8) }
}
extern "C" { fn s(); static T: u8; }
pub(super) trait U { type V; fn w(&self) {} }
n::m! { x }
macro_rules! y { () => {} }
union Z { a: u8 }
struct Open(pub(in a::b) u8, pub u8);
) stray
'''
ITEM = {'is': 'fn', 'name': 'f', 'hash': 48783, 'attrs': [{'meta': 'cfg', 'cfg': {'any': ['test', {'key': 'a', 'value': 'b'}]}}], 'body': '{ 1 }'}
CALL = {'call': {'path': ['plain', 'a', 'm'], 'expand_to': 'Statements'}}
# Each line makes what the one before it has made, and drops that.
ROUND = [
    {'edits': [{'edit': 'set_text', 'file': 0, 'text': TEXT}, {'edit': 'set_cfg', 'crate': 0, 'cfg': ['test', {'key': 'a', 'value': 'b'}]},
               {'edit': 'set_block', 'block': 0, 'attrs': [{'meta': 'path', 'path': ['plain', 'a']}], 'stmts': [{'item': ITEM}, 'other', CALL], 'tail': CALL}],
     'shows': [{'show': 'find', 'name': 'm::S'}, {'show': 'page', 'crate': 0, 'file': 0}, {'show': 'problems', 'file': 0}, {'show': 'tree', 'crate': 0, 'block': 0}]},
    {'edits': [{'edit': 'change_text', 'file': 0, 'range': [4, 5], 'text': 'Held'}, {'edit': 'set_cfg', 'crate': 0, 'cfg': []},
               {'edit': 'set_file', 'file': 1, 'syntax': {'root': 'macro_stmts', 'stmts': [{'item': ITEM}], 'tail': CALL}}],
     'shows': [{'show': 'outline', 'crate': 0, 'file': 0}, {'show': 'import_places', 'crate': 0, 'file': 0}, {'show': 'changed', 'since': 0, 'as': 'json'},
               {'show': 'imports', 'crate': 0, 'file': 0}, {'show': 'find', 'name': 'f'}]},
    {'edits': [{'edit': 'remove_block', 'block': 0}, {'edit': 'remove_file', 'file': 1}, {'edit': 'set_text', 'file': 0, 'text': 'fn f() {}'}]},
    {'edits': [{'edit': 'set_text', 'file': 2, 'text': 'fn f() {}'}, {'edit': 'none'}]},
]
OPEN = {'uri': 'file:///a.rs'}
# Each message of an editor that makes or drops what a document holds.
TYPED = [
    {'method': 'textDocument/didOpen', 'params': {'textDocument': {**OPEN, 'languageId': 'rust', 'version': 0, 'text': TEXT}}},
    {'method': 'textDocument/didChange', 'params': {'textDocument': {**OPEN, 'version': 1}, 'contentChanges': [{'text': 'fn f() {}'}]}},
    {'id': 1, 'method': 'textDocument/documentSymbol', 'params': {'textDocument': OPEN}},
    {'method': 'textDocument/didClose', 'params': {'textDocument': OPEN}},
]
passed = failed = 0


def tell(is_right, name, got='', wanted=''):
    global passed, failed
    if is_right:
        passed += 1
        return
    failed += 1
    print(f'freed_memory: {name}\n--- wanted\n{wanted}\n--- got\n{got}', file=sys.stderr)


class Counted:
    """Runs of itemtree, whose blocks and bytes that are left are counted."""

    def __init__(self, program, folder):
        self.program, self.folder = program, folder
        self.shim = os.path.join(folder, 'refuse_memory.so')
        subprocess.run(['cc', '-shared', '-fPIC', '-O1', '-o', self.shim, os.path.join(TOP, 'tests/refuse_memory.c'), '-ldl'], check=True)

    def left(self, words, given=b''):
        """What a run leaves, and whether it ended well."""
        told = os.path.join(self.folder, 'left')
        done = subprocess.run([self.program, *words], input=given, cwd=self.folder, timeout=300, stdout=subprocess.DEVNULL, stderr=subprocess.PIPE,
                              env=dict(os.environ, LD_PRELOAD=self.shim, COUNT_LIVE=told), check=False)
        blocks, size = open(told, encoding='ascii').read().split()
        os.remove(told)
        return (int(blocks), int(size)), done.returncode in (0, 1), done.stderr.decode('utf-8', 'backslashreplace')

    def check(self, words, given=b''):
        """A run leaves as much as one that makes nothing."""
        name = ' '.join(words[:3])
        (left, is_well, said), (wanted, _, _) = self.left(words, given), self.left(['--version'])
        tell(is_well, f'{name}: the run', said)
        tell(left == wanted, f'{name}: blocks and bytes that are left', left, wanted)


def fill(folder, name, count, text):
    os.makedirs(os.path.join(folder, name))
    for at in range(count):
        with open(os.path.join(folder, name, f'{at}.rs'), 'w', encoding='utf-8') as file:
            file.write(text)


def fill_crate(folder, name, count, text):
    """A crate whose root has a module in a file for each of these."""
    fill(folder, name, count, text)
    with open(os.path.join(folder, name, 'lib.rs'), 'w', encoding='utf-8') as file:
        file.writelines(f'#[path = "{at}.rs"] mod m{at};\n' for at in range(count))


def lines(*values):
    return ''.join(json.dumps(value) + '\n' for value in values).encode()


def messages(*values):
    bodies = [json.dumps({'jsonrpc': '2.0', **value}).encode() for value in values]
    return b''.join(b'Content-Length: %d\r\n\r\n' % len(body) + body for body in bodies)


def check_types():
    """Each type whose drop is written by hand is in the list."""
    found = set()
    for path in glob.glob(os.path.join(TOP, 'crates/*/src/**/*.rt'), recursive=True):
        found |= set(re.findall(r'^impl(?:<.*?>)? Drop for (\w+)', open(path, encoding='utf-8').read(), re.M))
    tell(found == set(MADE), 'the types whose drop is written by hand', sorted(found), sorted(MADE))


def main():
    check_types()
    place = '/dev/shm' if os.path.isdir('/dev/shm') else None
    with tempfile.TemporaryDirectory(dir=place) as folder:
        counted = Counted(os.path.realpath(sys.argv[1]), folder)
        fill(folder, 'old', FILES, TEXT)
        fill(folder, 'new', FILES, TEXT.replace('struct S', 'pub struct S').replace('extern "C" {', 'extern "C" { fn more();'))
        for words in ('outline', 'outline --json --active', 'page', 'imports', 'imports --duplicates', 'find m::S', 'tags -o -', 'request --show page', 'check'):
            counted.check([*words.split(), 'old'])
        fill_crate(folder, 'whole', FILES, TEXT)
        for words in ('modules', 'modules --json', 'modules --orphans', 'outline --crate', 'imports --crate', 'imports --resolve --crate', 'check --crate'):
            counted.check([*words.split(), 'whole/lib.rs'])
        for words in ('changed', 'changed --tree'):
            counted.check([*words.split(), 'old', 'new'])
        for word in ('--exclude=a', '--cfg=a', '--skip=a', '--show=page'):
            counted.check(['request', *[word] * OPTIONS, 'old/1.rs'])
        counted.check(['serve'], lines({'crates': [{'root': 0, 'cfg': ['test']}]}, *ROUND * ROUNDS))
        counted.check(['serve'], lines({'crates': [{'root': at, 'cfg': ['test', {'key': 'a', 'value': 'b'}]} for at in range(OPTIONS)]}))
        start = {'id': 0, 'method': 'initialize', 'params': {'processId': None, 'rootUri': None, 'capabilities': {}}}
        counted.check(['lsp'], messages(start, *TYPED * FILES))
    print(f'freed_memory: {passed} passed, {failed} failed')
    sys.exit(1 if failed or not passed else 0)


if __name__ == '__main__':
    main()
