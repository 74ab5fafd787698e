#!/usr/bin/env python3
"""The archive that run.sh --release writes, unpacked and run in an environment that has nothing.

    release.py RUN_SH

Its programs run without the toolchain, its sum is right, and it is the same archive when it is written again.
"""
import os
import subprocess
import sys
import tempfile

run_sh = os.path.realpath(sys.argv[1])
passed, failures = 0, []


def judge(holds, what):
    global passed
    if holds:
        passed += 1
    else:
        failures.append(what)


def run(words, **how):
    return subprocess.run(words, capture_output=True, text=True, **how)


def try_archive(room):
    first, again, bare = (os.path.join(room, name) for name in ('first', 'again', 'bare'))
    for folder in (first, again, bare):
        os.mkdir(folder)
    for folder in (first, again):
        wrote = run([run_sh, '--release', folder])
        judge(wrote.returncode == 0, f'run.sh --release: status {wrote.returncode}, {wrote.stderr}')
    archive, = (name for name in os.listdir(first) if name.endswith('-x86_64-linux.tar.gz'))
    judge(sorted(os.listdir(first)) == sorted([archive, 'SHA256SUMS']), 'other files were written')
    judge(run(['sha256sum', '-c', 'SHA256SUMS'], cwd=first).returncode == 0, 'the sum is wrong')
    read = lambda folder: open(os.path.join(folder, archive), 'rb').read()
    judge(read(first) == read(again), 'a second archive differs')
    run(['tar', '-xzf', os.path.join(first, archive), '-C', bare])
    top = os.path.join(bare, archive.removesuffix('.tar.gz'))
    for name in ('README', 'LICENSE', 'NOTICE', 'share/man/man1/itemtree.1', 'share/bash-completion/completions/itemtree',
                 'share/zsh/site-functions/_itemtree'):
        judge(os.path.getsize(os.path.join(top, name)) > 0, f'{name} is missing')
    said = open(os.path.join(top, 'README')).read()
    judge('They need GLIBC 2.' in said and ' passed, 0 failed' in said and 'rattle-kit' in said, f'README: {said}')
    text = os.path.join(bare, 'a.rs')
    with open(text, 'w') as file:
        file.write('pub fn f() {}\n')
    listed = run([os.path.join(top, 'bin/itemtree'), 'outline', text], env={}, cwd=bare)
    judge((listed.returncode, listed.stdout) == (0, f'{text}:1:8: pub fn f\n'), f'itemtree: {listed}')
    asked = os.path.join(os.path.dirname(run_sh), 'tests/requests/forms/last_of_two_keys')
    shown = run([os.path.join(top, 'bin/item_tree_tool')], env={}, cwd=bare, input=open(f'{asked}.json').read())
    judge((shown.returncode, shown.stdout) == (0, open(f'{asked}.out').read()), f'item_tree_tool: {shown}')


with tempfile.TemporaryDirectory() as room:
    try_archive(room)
for failure in failures:
    print(failure)
print(f'release: {passed} passed, {len(failures)} failed')
sys.exit(bool(failures))
