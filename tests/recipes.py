#!/usr/bin/env python3
"""Runs the recipes of docs/ITEMTREE.md for git, in repositories that it makes.

    recipes.py ITEMTREE
"""
import os
import re
import subprocess
import sys
import tempfile

TOP = os.path.dirname(os.path.dirname(os.path.realpath(__file__)))
PAGE = os.path.join(TOP, 'docs/ITEMTREE.md')
GOOD, BROKEN = 'pub fn f() {}\n', 'pub fn f() {}\n) fn g() {}\n'
passed = failed = 0


def tell(is_right, name, got='', wanted=''):
    global passed, failed
    if is_right:
        passed += 1
        return
    failed += 1
    print(f'recipes: {name}\n--- wanted\n{wanted}\n--- got\n{got}', file=sys.stderr)


def recipe(word):
    """The block of the page with this word."""
    blocks = re.findall(r'^```sh\n(.*?)^```$', open(PAGE, encoding='utf-8').read(), re.M | re.S)
    return next(block for block in blocks if word in block)


class Repository:
    """A repository of its own, with nobody's settings."""

    def __init__(self, program, folder):
        self.top, self.temporary = os.path.join(folder, 'work'), os.path.join(folder, 'temporary')
        os.makedirs(self.temporary)
        path = f'{os.path.dirname(program)}:{os.environ["PATH"]}'
        who = {f'GIT_{role}_{what}': 'a@b.c' for role in ('AUTHOR', 'COMMITTER') for what in ('NAME', 'EMAIL')}
        kept = {name: value for name, value in os.environ.items() if not name.startswith('GIT_')}
        self.env = dict(kept, PATH=path, HOME=folder, GIT_CONFIG_NOSYSTEM='1', GIT_CONFIG_GLOBAL='/dev/null', LC_ALL='C.UTF-8', TMPDIR=self.temporary, **who)
        os.makedirs(self.top)
        self.run('git init -q && git config commit.gpgsign false')

    def run(self, command, below='.'):
        """The status of a command, and what it writes, where git's copies are called by their names alone."""
        done = subprocess.run(['bash', '-c', command], cwd=os.path.join(self.top, below), env=self.env, timeout=60, stdin=subprocess.DEVNULL,
                              stdout=subprocess.PIPE, stderr=subprocess.STDOUT, check=False)
        said = done.stdout.decode('utf-8', 'backslashreplace')
        return done.returncode, re.sub(re.escape(self.temporary) + r'/git-blob-\w+/', 'COPY/', said)

    def write(self, path, text):
        path = os.path.join(self.top, path)
        os.makedirs(os.path.dirname(path), exist_ok=True)
        with open(path, 'wb') as file:
            file.write(text if isinstance(text, bytes) else text.encode())

    def commit(self, command='git commit -qm more', below='.'):
        """Whether a commit is made, and what is said; nothing is left of the hook."""
        before = self.run('git rev-parse HEAD')
        status, said = self.run(command, below)
        is_made = self.run('git rev-parse HEAD') != before
        tell(is_made == (status == 0) and os.listdir(self.temporary) == [], f'{command}: the status {status}, and what is left', os.listdir(self.temporary))
        return is_made, said


def check_hook(program, folder):
    work = Repository(program, folder)
    work.write('.git/hooks/pre-commit', recipe('checkout-index'))
    os.chmod(os.path.join(work.top, '.git/hooks/pre-commit'), 0o755)
    told = './{}:2:1: this bracket closes nothing\n'

    def expect(name, is_made, said, command='git commit -qm more', below='.'):
        got = work.commit(command, below)
        tell(got == (is_made, said), f'pre-commit: {name}', got, (is_made, said))

    def stage(files):
        for path, text in files.items():
            work.write(path, text)
        work.run('git add -f .')

    stage({'a.rs': BROKEN})
    expect('a first commit that is broken', False, told.format('a.rs'))
    stage({'a.rs': GOOD, 'b/c.rs': GOOD, 'd.rs': GOOD})
    expect('a first commit', True, '')
    stage({'README.md': ') no Rust\n', 'a.rs.txt': ') no Rust\n'})
    expect('no Rust file', True, '')
    stage({'a.rs': BROKEN})
    work.write('a.rs', GOOD)
    expect('broken, and mended where it is not staged', False, told.format('a.rs'))
    stage({'a.rs': GOOD + '// more\n'})
    work.write('a.rs', BROKEN)
    expect('good, and broken where it is not staged', True, '')
    work.run('git checkout -q .')
    for path in ('-x.rs', '--cfg.rs', 'with a blank.rs', 'é.rs', '.hidden/a.rs', 'target/a.rs', 'b/c.rs'):
        stage({path: BROKEN})
        expect(f'broken {path}', False, told.format(path))
        stage({path: GOOD + '// good\n'})
        expect(f'good {path}', True, '')
    stage({'new\nline.rs': BROKEN})
    is_made, said = work.commit()
    tell(not is_made and ':2:1: this bracket closes nothing\n' in said, 'pre-commit: a line feed in a name', said)
    work.run('git reset -q --hard')
    stage({'d.rs': GOOD + '// gone\n'})
    os.remove(os.path.join(work.top, 'd.rs'))
    expect('a file that is gone, but staged', True, '')
    work.run('git checkout -q . && git rm -q d.rs')
    expect('a file that is removed', True, '')
    work.run('git mv a.rs e.rs')
    expect('a file with another name', True, '')
    work.write('e.rs', BROKEN)
    expect('all that changed', False, told.format('e.rs'), 'git commit -qam more')
    expect('a file that is named', False, told.format('e.rs'), 'git commit -qm more e.rs')
    expect('from a folder below', False, told.format('e.rs'), 'git commit -qam more', 'b')
    expect('without the hook', True, '', 'git commit -qnam more')
    stage({'b/c.rs': GOOD + '// again\n'})
    expect('a file that is broken already and is not touched', True, '')
    stage({'b/c.rs': b'\xff\n'})
    is_made, said = work.commit()
    tell(not is_made and './b/c.rs' in said, 'pre-commit: a file that is not UTF-8', said)
    for text, status in ((GOOD, 0), (BROKEN, 1), (b'\xff\n', 2)):
        stage({'b/c.rs': text})
        got = work.run('.git/hooks/pre-commit 2> /dev/null')[0]
        tell(got == status, 'pre-commit: the status of check', got, status)


def check_difftool(program, folder):
    work = Repository(program, folder)
    since_last, between = recipe('difftool').splitlines()
    for at, text in enumerate((GOOD, 'pub fn f(a: u8) {}\n', 'pub fn g(a: u8) {}\n')):
        work.write('src/lib.rs', text)
        work.write('-x.rs', text)
        work.write('src/body.rs', f'fn f() {{ {at} }}\n')
        work.write('README.md', f') no Rust {at}\n')
        if at < 2:
            work.run('git add . && git commit -qm more')
    wanted = ''.join(f'COPY/{name}:1:8: removed fn f\n{path}:1:8: added fn g\n' for name, path in (('-x.rs', '-x.rs'), ('lib.rs', 'src/lib.rs')))
    got = work.run(since_last)
    tell(got == (0, wanted), since_last, got, wanted)
    wanted = ''.join(f'COPY/{name}:1:8: changed fn f\n' for name in ('-x.rs', 'lib.rs'))
    got = work.run(between)
    tell(got == (0, wanted), between, got, wanted)
    got = work.run(recipe('worktree'))
    wanted = '../before/src/lib.rs:1:8: removed fn f\nsrc/lib.rs:1:8: added fn g\n'
    tell(got == (1, wanted), 'worktree', got, wanted)


def check_textconv(program, folder):
    work = Repository(program, folder)
    work.write('.gitattributes', '*.rs diff=items\n')
    for path in ('-x.rs', 'src/lib.rs', 'src/body.rs'):
        work.write(path, 'pub fn f() { 1 }\n')
    work.run('git add . && git commit -qm more')
    tell(work.run(recipe('textconv')) == (0, ''), 'textconv')
    for path in ('-x.rs', 'src/lib.rs'):
        work.write(path, 'pub fn f() { 2 }\npub(crate) struct S;\n')
    work.write('src/body.rs', 'pub fn f() { 2 }\n')
    status, said = work.run('git diff')
    got = [line for line in said.splitlines() if re.match(r'[-+](?![-+])', line)]
    tell((status, got) == (0, 2 * ['+', '+pub(crate) struct S { ... }']), 'textconv: git diff', said)


def main():
    program = os.path.realpath(sys.argv[1])
    for check in (check_hook, check_difftool, check_textconv):
        with tempfile.TemporaryDirectory() as folder:
            check(program, folder)
    print(f'recipes: {passed} passed, {failed} failed')
    sys.exit(1 if failed or not passed else 0)


if __name__ == '__main__':
    main()
