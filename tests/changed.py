#!/usr/bin/env python3
"""Holds what `itemtree changed` says of two texts against what rustc says of a dependent that is built against each.

    changed.py ITEMTREE   runs itemtree over the cases of tests/changed/edits.md
    changed.py --rustc    holds what stands there of dependents against rustc 1.95

In both ways no dependent may be built with one text and not with the other, or to other code, where `changed` says that nothing
changed, but for the reasons that docs/ITEMTREE.md names.
"""
import os
import re
import shlex
import subprocess
import sys
import tempfile
from concurrent.futures import ThreadPoolExecutor

TOP = os.path.dirname(os.path.dirname(os.path.realpath(__file__)))
CASES = os.path.join(TOP, 'tests/changed/edits.md')
PAGE = os.path.join(TOP, 'docs/ITEMTREE.md')
KEYS = {'dependent', 'changed', 'except', 'options', 'edition', 'crate', 'ends'}
# A dependent's code, but for what names the crate that it was built against.
NAMES = re.compile(r'17h[0-9a-f]{16}E|Cs[0-9A-Za-z]+_|[0-9a-f]{16,}')
passed = failed = 0


def tell(is_right, name, got='', wanted=''):
    global passed, failed
    if is_right:
        passed += 1
        return
    failed += 1
    print(f'changed: {name}\n--- wanted\n{wanted}\n--- got\n{got}', file=sys.stderr)


class Case:
    """Two texts, a dependent, and what is said of them."""

    def __init__(self, block):
        self.name, *lines = block.splitlines()
        self.told, old, new, asked = {}, [], [], []
        for line in lines:
            mark, text = line[:1], line[2:]
            if mark in ('>', '-'):
                old.append(text)
            if mark in ('>', '+'):
                new.append(text)
            if mark == '?':
                asked.append(text)
            elif mark not in ('>', '-', '+'):
                key, _, said = line.partition(': ')
                self.told[key] = said
        end = '\r\n' if self.told.get('ends') == 'crlf' else '\n'
        self.texts = {'old': ''.join(line + '\n' for line in old), 'new': ''.join(line + end for line in new)}
        is_whole = any('fn main' in line for line in asked)
        self.dependent = '\n'.join(asked if is_whole else ['#[allow(unused_imports)] use it::*;', 'fn main() {', *asked, '}'])
        self.is_proc_macro = self.told.get('crate') == 'proc-macro'
        self.edition = self.told.get('edition', '2021')

    def is_whole(self):
        return set(self.told) <= KEYS and {'dependent', 'changed'} <= set(self.told) and self.texts['old'] != self.texts['new']

    def is_kept(self):
        """Whether the promise holds: nothing changed, so a dependent is built as before, or the page says why not."""
        return self.told['dependent'] == 'same' or self.told['changed'] != 'same' or 'except' in self.told


def cases():
    text = open(CASES, encoding='utf-8').read()
    for block in re.findall(r'^```cases\n(.*?)^```$', text, re.M | re.S):
        yield from map(Case, re.split(r'\n\n+', block.strip('\n')))


def compile_one(folder, name, text, options):
    """Whether rustc takes a crate."""
    with open(os.path.join(folder, name), 'w', encoding='utf-8', newline='') as file:
        file.write(text)
    done = subprocess.run(['rustc', '--color=never', '-Copt-level=3', '-Ccodegen-units=1', *options, name], cwd=folder, timeout=300,
                          stdout=subprocess.PIPE, stderr=subprocess.STDOUT)
    return done.returncode == 0, done.stdout.decode('utf-8', 'backslashreplace')


def built(case, which):
    """The code of a dependent of one of the texts, or nothing, and what rustc says."""
    with tempfile.TemporaryDirectory() as folder:
        common = [f'--edition={case.edition}']
        kind = ['--crate-type=proc-macro', '--extern=proc_macro'] if case.is_proc_macro else ['--crate-type=rlib']
        is_taken, said = compile_one(folder, 'it.rs', case.texts[which], [*common, *kind, '--crate-name=it', '--cap-lints=allow'])
        if not is_taken:
            return None, f'the {which} text itself is refused:\n{said}'
        found = [name for name in os.listdir(folder) if name.startswith('libit.')]
        is_taken, said = compile_one(folder, 'dependent.rs', case.dependent, [*common, '--extern', f'it={found[0]}', '--emit=asm,link'])
        if not is_taken:
            return '', said
        with open(os.path.join(folder, 'dependent.s'), encoding='utf-8') as code:
            return NAMES.sub('', code.read()), said


def by_rustc(case):
    """What rustc says of a dependent, and its words."""
    (old, old_said), (new, new_said) = built(case, 'old'), built(case, 'new')
    said = f'{old_said}\n{new_said}'
    if old is None or new is None:
        return 'wrong text', said
    if old and new:
        return 'same' if old == new else 'other code', said
    return ('breaks' if old else 'mends' if new else 'never built'), said


def check_by_rustc():
    with ThreadPoolExecutor(os.cpu_count()) as runs:
        all_cases = list(cases())
        for case, (got, said) in zip(all_cases, runs.map(by_rustc, all_cases)):
            tell(got == case.told['dependent'], f'{case.name}: a dependent', f'{got}\n{said}', case.told['dependent'])


def check_by_itemtree(program):
    for case in cases():
        with tempfile.TemporaryDirectory() as folder:
            for name, text in case.texts.items():
                with open(os.path.join(folder, f'{name}.rs'), 'w', encoding='utf-8', newline='') as file:
                    file.write(text)
            options = ['--edition', case.edition, *shlex.split(case.told.get('options', ''))]
            done = subprocess.run([program, 'changed', *options, 'old.rs', 'new.rs'], cwd=folder, timeout=60,
                                  stdout=subprocess.PIPE, stderr=subprocess.STDOUT)
        wanted = case.told['changed']
        lines = [re.sub(r'^(old|new)\.rs:(\d+:\d+):', r'\1:\2', line) for line in done.stdout.decode('utf-8', 'backslashreplace').splitlines()]
        got = '; '.join(lines) if done.returncode == 1 and lines else f'same{"".join(lines)}' if done.returncode == 0 else f'status {done.returncode}'
        is_right = got == wanted or wanted == 'told' and done.returncode == 1 and lines
        tell(is_right, f'{case.name}: what is told', got, wanted)


def check_cases():
    """The cases are whole, and what they except is what the page names."""
    page = open(PAGE, encoding='utf-8').read().partition('\n## changed\n')[2].partition('\n## ')[0]
    all_cases = list(cases())
    tell(len(all_cases) >= 60 and len({case.name for case in all_cases}) == len(all_cases), 'how many cases there are', len(all_cases), 'at least 60')
    for case in all_cases:
        tell(case.is_whole(), f'{case.name}: the lines of the case', case.told)
        tell(case.is_kept(), f'{case.name}: nothing is told of what a dependent sees', case.told)
    for word in sorted({case.told['except'] for case in all_cases if 'except' in case.told}):
        tell(word in page, f'docs/ITEMTREE.md says nothing of {word} under "changed"')


def main():
    check_cases()
    if sys.argv[1:] == ['--rustc']:
        check_by_rustc()
    else:
        check_by_itemtree(os.path.realpath(sys.argv[1]))
    print(f'changed: {passed} passed, {failed} failed')
    sys.exit(1 if failed or not passed else 0)


if __name__ == '__main__':
    main()
