#!/usr/bin/env python3
"""Runs the examples of README.md, docs/ITEMTREE.md and tests/itemtree/cases.md, and what cannot be written as an example."""
import json
import os
import pty
import re
import resource
import shlex
import shutil
import signal
import socket
import subprocess
import sys
import tempfile
import time

TOP = os.path.dirname(os.path.dirname(os.path.realpath(__file__)))
PROGRAM = os.path.join(TOP, 'crates/itemtree/out/itemtree')
TOOL = os.path.join(TOP, 'crates/item_tree_tool/out/item_tree_tool')
STATUSES = ['0', '1', '2', '6']
COMMANDS = ('outline', 'page', 'imports', 'find', 'tags', 'modules', 'changed', 'request', 'serve', 'lsp', 'check')
passed = failed = 0


def tell(is_right, name, got='', wanted=''):
    global passed, failed
    if is_right:
        passed += 1
        return
    failed += 1
    print(f'itemtree: {name}\n--- wanted\n{wanted}--- got\n{got}', file=sys.stderr)


def run(command, folder, seconds=60):
    folders = [os.path.dirname(program) for program in (PROGRAM, TOOL)]
    env = dict(os.environ, PATH=':'.join(folders + [os.environ['PATH']]), LC_ALL='C.UTF-8')
    done = subprocess.run(['bash', '-c', command], cwd=folder, env=env, timeout=seconds,
                          stdout=subprocess.PIPE, stderr=subprocess.STDOUT)
    return done.stdout.decode('utf-8', 'backslashreplace')


def examples(path):
    """The commands of a page's console blocks, each with what it writes."""
    for block in re.findall(r'^```console\n(.*?)^```$', open(path, encoding='utf-8').read(), re.M | re.S):
        for part in re.split(r'^\$ ', block, flags=re.M)[1:]:
            command, _, output = part.partition('\n')
            yield command, output


def check_examples(path, folder):
    for command, wanted in examples(path):
        got = run(command, folder)
        tell(got == wanted, '$ ' + command, got, wanted)


def check_readme():
    """The examples of README.md, where run.sh runs the built program."""
    with tempfile.TemporaryDirectory() as folder:
        files = os.path.join(TOP, 'tests/itemtree')
        shutil.copytree(files, os.path.join(folder, 'tests/itemtree'))
        shutil.copy(os.path.join(files, 'shapes.rs'), folder)
        for command, wanted in examples(os.path.join(TOP, 'README.md')):
            got = run(command.replace('./run.sh --try itemtree ', 'itemtree '), folder)
            tell(got == wanted, 'README.md: $ ' + command, got, wanted)


def check_long_line(folder):
    """A megabyte on one line: the last item is found at its column."""
    text = 'fn a() {}' * 116_508 + 'fn last() {}'
    with open(os.path.join(folder, 'long.rs'), 'w', encoding='utf-8') as file:
        file.write(text)
    wanted = f'long.rs:1:{len(text) - len("fn last() {}") + 4}: fn last\n'
    got = run('itemtree find last long.rs', folder)
    tell(got == wanted, 'a megabyte on one line', got, wanted)


def check_closed_pipe(folder):
    """Nobody reads past the first line: no complaint, and the status that stood by then."""
    got = run('itemtree outline long.rs | head -1', folder)
    tell(got == 'long.rs:1:4: fn a\n', 'a closed pipe', got, 'long.rs:1:4: fn a\n')
    absent = b'itemtree: absent: No such file or directory (os error 2)\n'
    for words, status, said in ((['outline'], 0, b''), (['page'], 0, b''), (['imports'], 0, b''), (['tags', '-o', '-'], 0, b''), (['find', 'area'], 0, b''),
                                (['request'], 0, b''), (['changed', 'known.rs'], 1, b''), (['--help'], 0, b''), (['check', 'broken.rs'], 1, b''),
                                (['outline', 'absent'], 2, absent), (['check', 'absent', 'broken.rs'], 2, absent)):
        read, write = os.pipe()
        os.close(read)
        done = subprocess.run([PROGRAM, *words, 'shapes.rs'], cwd=folder, timeout=60, stdout=write, stderr=subprocess.PIPE)
        os.close(write)
        tell((done.returncode, done.stderr) == (status, said), f'{words} where nobody reads', (done.returncode, done.stderr), (status, said))


def entries(text):
    """The arguments and options of a help text, each with what it says of them."""
    for part in re.split(r'^  (?=(?:    )?[-<])', text, flags=re.M)[1:]:
        name, _, told = part.split('\n\n', 1)[0].strip().partition('  ')
        yield name.strip(), told.strip()


def check_help(folder):
    """Each help text has words for each argument, an example that runs, the statuses, and what the tree leaves out where that matters.

    Gives which commands offer each option.
    """
    offered = {}
    shutil.copytree(os.path.join(folder, 'src'), os.path.join(folder, 'old'))
    request = json.loads(run('itemtree request known.rs', folder))
    skipped = re.compile(', '.join(request['skipped']).replace(' ', r'\s+'))
    for command in COMMANDS:
        text = run(f'itemtree {command} --help', folder)
        for name, _ in entries(text):
            for option in re.findall(r'--([\w-]+)', name):
                offered.setdefault(option, set()).add(command)
        untold = [name for name, told in entries(text) if not told]
        example = re.search(r'^Example: (.*)$', text, re.M)
        is_whole = example and re.search(r'^Status: 0', text, re.M) and '-h, --help' in dict(entries(text))
        tell(is_whole and not untold, f'{command} --help', text, f'of these: {untold}')
        got = run(f'({example and example[1]}) > /dev/null; echo $?', folder)
        tell(got in ('0\n', '1\n'), f'the example of {command} --help', got)
        is_told = bool(skipped.search(text))
        tell(is_told == (command in ('page', 'changed', 'request')), f'what {command} --help says of attributes', text)
    text = run('itemtree --help', folder)
    tell(re.findall(r'^  (\d)  ', text, re.M) == STATUSES, 'the statuses of itemtree --help', text)
    return offered


def check_documents(offered):
    """docs/ITEMTREE.md names the statuses, and the commands of each option that are offered it."""
    page = open(os.path.join(TOP, 'docs/ITEMTREE.md'), encoding='utf-8').read()
    tell(re.findall(r'^\| (\d) \|', page, re.M) == STATUSES, 'the statuses of docs/ITEMTREE.md')
    told = dict(re.findall(r'^\| `--([\w-]+).*?` \| (.*?) \|', page, re.M))
    wanted = {option: offered[option] for option in told}
    tell(len(told) == 16 and {option: named(words) for option, words in told.items()} == wanted, 'the options of docs/ITEMTREE.md', told, wanted)


def named(words):
    """The commands that are named by words, or by "all but" words."""
    found = {command for command in COMMANDS if re.search(rf'\b{command}\b', words)}
    return set(COMMANDS) - found if words.startswith('all') else found


def check_tool(folder):
    """The program over JSON tells what it is; other arguments mean nothing to it."""
    name = os.path.basename(TOOL)
    text = run(f'{shlex.quote(TOOL)} --help < /dev/null; echo $?', folder)
    tell(text.startswith(name) and f'Usage: {name} < REQUEST\n' in text and text.endswith('\n0\n')
         and re.findall(r'^  (\d)  ', text, re.M) == ['0', '2', '3', '4', '5', '6'], f'{name} --help', text)
    tell(run(f'{shlex.quote(TOOL)} -h < /dev/null; echo $?', folder) == text, f'{name} -h')
    got = run(f'{shlex.quote(TOOL)} --version < /dev/null; echo $?', folder)
    tell(got == f'{name} 0.2.0\n0\n', f'{name} --version', got)
    for words in ('more --help', '--outline --help'):
        got = run(f'{shlex.quote(TOOL)} {words} < /dev/null; echo $?', folder)
        tell(got == 'not JSON\n2\n', f'{name} {words}', got)


def check_vim(folder):
    """vim jumps to a name by the tags."""
    if shutil.which('vim') is None:
        print('itemtree: vim is not here, so no tags file is opened by it')
        return

    def is_found(name, line):
        got = run(f'vim -N -es -t {name} -c "redir! > at" -c "echo line(\'.\')" -c "redir END" -c "qa!" < /dev/null; cat at', folder)
        tell(got.split() == [line], f'vim -t {name}', got, line)

    for words, line in (('', '7'), ('--excmd=mixed', '7'), ('--excmd number', '5')):
        run(f"cp shapes.rs above.rs; itemtree tags {words} above.rs; sed -i '1i // one\\n// two' above.rs", folder)
        is_found('Circle', line)
    write_files(folder, {'above.rs': b'mod a {\n    fn twin() {}\n}\nmod b {\n    fn twin() {}\n}\n'})
    run("itemtree tags above.rs; sed -i '/module:a/d' tags", folder)
    is_found('twin', '5')
    odd = ['\ufefffn mark() {}', 'fn slash() {} // a/b\\c ^~[.*]', 'fn dollar() {} // $', 'fn long() {} // ' + 'é/' * 50, 'fn cut() {} // ' + '$' * 99,
           '\tfn tab(a: u8,\tb: u8) {}', 'fn last() {} // $']
    for ends in ('\n', '\r\n'):
        write_files(folder, {'above.rs': ends.join(odd).encode()})
        run('itemtree tags above.rs', folder)
        write_files(folder, {'above.rs': ends.join(['// put in', *odd]).replace('\ufeff', '').encode()})
        for at, line in enumerate(odd):
            is_found(line.split('fn ')[1].split('(')[0], str(at + 2))
    got = run('readtags -t tags -e -n - last; readtags -t tags -D | grep -c .', folder) if shutil.which('readtags') else None
    tell(got in (None, 'last\tabove.rs\t/^fn last() {} \\/\\/ \\$/;"\tkind:f\tline:7\n9\n'), 'readtags', got)
    os.remove(os.path.join(folder, 'above.rs'))


def check_ctags(folder):
    """The tags of a file are those of Universal Ctags, where there is nothing in it in which docs/ITEMTREE.md says that they differ."""
    if shutil.which('ctags') is None or 'Universal Ctags' not in run('ctags --version', folder):
        print('itemtree: Universal Ctags is not here, so no tags are compared with its own')
        return
    for words, field in (('', '--fields=+n'), ('--excmd=number', ''), ('--excmd=mixed', '--fields=+n'), ('--fields=+lS', '--fields=+nlS'),
                         ('--fields={line}{signature}', '--fields={line}{signature}'), ('--fields=-s', '--fields=+n-s'), ('--fields=', '--fields='),
                         ('--excmd=number --fields=+n{language}-ks+s', '--fields=+n{language}-ks+s --excmd=number'), ('--fields=Sftaxi', '--fields=Sftaxi')):
        wanted = run(f'ctags --kinds-Rust=-c {words if "fields" not in words else ""} {field} -f - tagged.rs', folder)
        got = run(f"itemtree tags {words.replace('Sftaxi', 'Sftxi')} -o - tagged.rs | grep -v '^!_TAG'", folder)
        tell(got == wanted, f'the tags of Universal Ctags {words}', got, wanted)
    wanted = run('ctags --kinds-Rust=-c --fields=+nS -f - bodies.rs', folder)
    got = run("itemtree tags --bodies --fields=+S -o - bodies.rs | grep -v '^!_TAG'", folder)
    tell(got == wanted, 'the tags of Universal Ctags in bodies', got, wanted)
    lines = re.findall(r'^(--(?:kinddef|regex)-Rust=.*)$', open(os.path.join(TOP, 'docs/ITEMTREE.md'), encoding='utf-8').read(), flags=re.M)
    write_files(folder, {'constants.ctags': '\n'.join(lines).encode(), 'constants.rs': b'const A: u8 = 1;\n    pub(in crate::b) const BC_2 : &str = "";\nconst fn c() {}\n'})
    wanted = run('ctags --options=constants.ctags --fields=+n -f - constants.rs', folder)
    got = run("itemtree tags -o - constants.rs | grep -v '^!_TAG'", folder)
    tell(len(lines) == 2 and got == wanted, 'constants in Universal Ctags', got, wanted)
    os.remove(os.path.join(folder, 'constants.rs'))


def check_fields(folder):
    """Fields that Universal Ctags does not write of Rust, and those that are none."""
    text = b'pub struct A {\n    a: u8,\n    pub(crate) b: u8,\n}\ntrait T {\n    fn t(\n        &self,\n    );\n}\nimpl T for A {\n    fn t(&self) {}\n    pub fn u() {}\n}\n'
    write_files(folder, {'fields.rs': text + b'enum E {\n    V {\n        x: [u8; { 3 }],\n    },\n}\nfn f(E { x: [a, ..] }: E) -> u8 {\n    0\n}\n'})
    got = run("itemtree tags --fields=ane{signature} --excmd=number -o - fields.rs | grep -v '^!_TAG' | cut -f1,4-", folder)
    wanted = {'A\tline:1\taccess:public\tend:4', 'a\tline:2\taccess:private\tend:2', 'b\tline:3\taccess:protected\tend:3', 'T\tline:5\taccess:private\tend:9',
              't\tline:6\tsignature:( &self, )\tend:8', 't\tline:11\tsignature:(&self)\tend:11', 'u\tline:12\taccess:public\tsignature:()\tend:12',
              'E\tline:14\taccess:private\tend:18', 'V\tline:15\tend:17', 'f\tline:19\taccess:private\tsignature:(E { x: [a, ..] }: E) -> u8\tend:21'}
    tell(set(got.splitlines()) == wanted, 'fields', got, wanted)
    for words, letter in (('+q', 'q'), ('n{nonsense}', '{'), ('n*', '*'), ('K', 'K'), ('z', 'z')):
        got = run(f"itemtree tags --fields='{words}' -o - fields.rs 2>&1; echo $?", folder)
        tell(got == f"itemtree: --fields '{words}': '{letter}' is none of k, n, l, s, a, S and e, which are written\n2\n", f'--fields {words}', got)
    os.remove(os.path.join(folder, 'fields.rs'))


def check_request(folder):
    """The program over JSON answers a request with the page that `itemtree page` writes."""
    wanted = run('itemtree page known.rs', folder)
    got = run(f'itemtree request --show page known.rs | {shlex.quote(TOOL)}', folder)
    tell(got == wanted, 'a request and the page that it asks for', got, wanted)


def run_program(words, folder, **more):
    """Runs the program without a shell, as nobody in particular if the tests are root's, whom no permission stops."""
    more = dict({'user': 65534, 'group': 65534, 'extra_groups': []} if os.geteuid() == 0 else {}, **more)
    copy = os.path.join(folder, 'itemtree')
    if not os.path.exists(copy):
        os.chmod(folder, 0o777)
        shutil.copy(PROGRAM, copy)
    done = subprocess.run([copy, *words], cwd=folder, timeout=60, stdout=subprocess.PIPE, stderr=subprocess.PIPE, **more)
    return done.returncode, done.stdout.decode(), done.stderr.decode()


def write_files(folder, files):
    for name, text in files.items():
        path = os.path.join(os.fsencode(folder), os.fsencode(name))
        os.makedirs(os.path.dirname(path), exist_ok=True)
        with open(path, 'wb') as file:
            file.write(text)


def check_unread(folder):
    """What cannot be read below a folder is told by its whole path, and the others are done."""
    write_files(folder, {'odd/good.rs': b'fn good() {}', b'odd/bad\xff.rs': b'', b'odd/note\xff.txt': b'', 'odd/sub/ok.rs': b'fn ok() {}',
                         b'odd/sub/.\xff.rs': b'', 'odd/locked/in.rs': b'fn no() {}', 'odd/sub/shut.rs': b'fn no() {}',
                         b'odd/sub/dir\xff/in.rs': b'fn no() {}'})
    os.chmod(os.path.join(folder, 'odd/locked'), 0)
    os.chmod(os.path.join(folder, 'odd/sub/shut.rs'), 0)
    bad, denied = 'this name is not UTF-8\n', 'Permission denied (os error 13)\n'
    inner = f'itemtree: odd/sub/dir\ufffd: {bad}'
    unread = f'itemtree: odd/bad\ufffd.rs: {bad}itemtree: odd/locked: {denied}{inner}'
    shut = f'itemtree: odd/sub/shut.rs: {denied}'
    lines = 'odd/good.rs:1:4: fn good\nodd/sub/ok.rs:1:4: fn ok\n'
    for words, wanted in ((['outline', 'odd'], (2, lines, unread + shut)),
                          (['find', 'none', 'odd'], (2, '', unread + shut)),
                          (['request', 'odd'], (2, '', unread)),
                          (['changed', 'odd', 'odd'], (2, '', unread * 2 + shut * 2)),
                          (['outline', 'odd', 'odd/sub', './odd'], (2, lines, unread + unread.replace('odd/', './odd/') + shut)),
                          (['outline', '--exclude', 'bad*', '--exclude', 'locked', 'odd/'], (2, lines, inner + shut)),
                          (['outline', '--exclude', 'bad?.rs', '--exclude', 'locked', '--exclude', 'shut.rs', '--exclude', 'dir?', 'odd'], (0, lines, '')),
                          (['outline', 'odd/locked'], (2, '', f'itemtree: odd/locked: {denied}'))):
        got = run_program(words, folder)
        tell(got == wanted, f'{words} of what cannot be read', got, wanted)


def check_one_sided(folder):
    """What could not be read or was left out below one of two folders is neither removed nor added."""
    write_files(folder, {f'{side}/{name}.rs': b'fn f() {}' for side in ('elder', 'newer') for name in ('in/a', 'shut/b', 'sh/c', 'same')})
    write_files(folder, {'elder/in/gone.rs': b'', 'newer/in/come.rs': b''})
    os.chmod(os.path.join(folder, 'newer/shut'), 0)
    shutil.rmtree(os.path.join(folder, 'newer/sh'))
    os.symlink('../elder/sh', os.path.join(folder, 'newer/sh'))
    os.symlink('nowhere', os.path.join(folder, 'elder/dead.rs'))
    write_files(folder, {'newer/dead.rs': b''})
    denied = 'itemtree: newer/shut: Permission denied (os error 13)\n'
    dead = 'itemtree: elder/dead.rs: this link leads nowhere\n'
    left = 'itemtree: newer/sh: a link to a folder, left out without --follow\n'
    lines = 'newer/in/come.rs: added file\nelder/in/gone.rs: removed file\n'
    for words, said in ((['elder', 'newer'], dead + left + denied), (['elder/', './newer/'], (dead + left + denied).replace('newer/', './newer/')),
                        (['--follow', 'elder', 'newer'], dead + denied)):
        got = run_program(['changed', *words], folder)
        wanted = 2, lines.replace('newer/', './newer/') if './newer/' in words else lines, said
        tell(got == wanted, f'changed {words} with what cannot be read', got, wanted)


def check_entries(folder):
    """Below a folder only regular files are read, and links to them; links to folders are followed if that is asked, each folder once."""
    write_files(folder, {'kinds/real.rs': b'fn real() {}', 'kinds/sub/in.rs': b'fn inner() {}', 'beside/more/a.rs': b'fn a() {}', 'beside/b.rs': b'fn b() {}'})
    place = os.path.join(folder, 'kinds')
    os.mkfifo(os.path.join(place, 'pipe.rs'))
    for name, target in (('folder.rs', 'sub'), ('dev.rs', '/dev/zero'), ('fifo.rs', 'pipe.rs'), ('link.rs', 'real.rs'), ('dead.txt', 'nowhere'), ('up', '..'),
                         ('again', 'sub'), ('far', '../beside'), ('near', '../beside/more')):
        os.symlink(target, os.path.join(place, name))
    with socket.socket(socket.AF_UNIX) as server:
        server.bind(os.path.join(place, 'socket.rs'))
    lines = 'kinds/link.rs:1:4: fn real\nkinds/real.rs:1:4: fn real\nkinds/sub/in.rs:1:4: fn inner\n'
    left = 'itemtree: kinds/again and 4 more: links to folders, left out without --follow\n'
    got = run_program(['outline', 'kinds'], folder)
    tell(got == (0, lines, left), 'what is no regular file', got, (0, lines, left))
    followed = 'kinds/far/b.rs:1:4: fn b\nkinds/far/more/a.rs:1:4: fn a\n' + lines
    got = run_program(['outline', '--follow', '--exclude', 'up', 'kinds'], folder)
    tell(got == (0, followed, ''), 'links that are followed', got, (0, followed, ''))
    write_files(folder, {'loop/a/b.rs': b'fn b() {}'})
    os.symlink('..', os.path.join(folder, 'loop/a/up'))
    os.symlink('self.rs', os.path.join(folder, 'loop/self.rs'))
    wanted = 2, 'loop/a/b.rs:1:4: fn b\n', 'itemtree: loop/self.rs: this link leads nowhere\n'
    got = run_program(['outline', '--follow', 'loop'], folder)
    tell(got == wanted, 'links that lead round', got, wanted)
    got = run('{ sleep 0.2; echo "fn late() {}"; } > kinds/pipe.rs & itemtree outline kinds/pipe.rs; wait', folder)
    tell(got == 'kinds/pipe.rs:1:4: fn late\n', 'a pipe that is named', got)


def check_escapes(folder):
    """Lists and messages show control characters and backslashes in paths as `ls -b` does; JSON has them as they are."""
    name = 'wei\trd\n/etc\x1b[31m\x7f\u009b\\é.rs'
    write_files(folder, {f'esc/{name}': b'fn f() {}\nfn f() {}\nuse a; use a;\n)', 'plain.rs': b'fn f(a: u8) {}'})
    shown = 'esc/wei\\trd\\n/etc\\033[31m\\177\\302\\233\\\\é.rs'
    for words, wanted in ((['find', 'f'], f'{shown}:1:4: fn f\n{shown}:2:4: fn f\n'), (['imports'], f'{shown}:3:5: a\n{shown}:3:12: a\n'),
                          (['imports', '--duplicates'], f'{shown}:3:12: a (again, first at {shown}:3:5)\n'), (['check'], f'{shown}:4:1: this bracket closes nothing\n')):
        got = run_program([*words, 'esc'], folder)[1]
        tell(got == wanted, f'{words} of an odd path', got, wanted)
    got = run_program(['outline', '--json', 'esc'], folder)[1]
    tell(json.loads(got)['path'] == f'esc/{name}', 'an odd path in JSON', got)
    got = run_program(['changed', 'plain.rs', f'esc/{name}'], folder)[1]
    tell(got.startswith(f'{shown}:') and got.count('\x1b') == 0, 'an odd path of a change', got, shown)
    os.mkdir(os.path.join(folder, 'none'))
    got = run_program(['changed', 'esc', 'none'], folder)
    wanted = 1, f'{shown}: removed file\n', 'itemtree: none: no Rust file is below this folder\n'
    tell(got == wanted, 'an odd path that was removed', got, wanted)
    os.chmod(os.path.join(folder, f'esc/{name}'), 0)
    for words in (['outline'], ['tags'], ['request'], ['outline', '--json']):
        got = run_program([*words, 'esc'], folder)[2]
        wanted = f'itemtree: {shown}: Permission denied (os error 13)\n'
        tell(got.startswith(wanted), f'{words} of an odd path that cannot be read', got, wanted)
    shutil.rmtree(os.path.join(folder, 'esc'))


TAGS_HEAD = '!_TAG_FILE_FORMAT\t2\t//\n'


def is_killed(is_fatal):
    """Lets no file grow past 100 bytes: a write fails there, or ends the program."""
    resource.setrlimit(resource.RLIMIT_CORE, (0, 0))
    resource.setrlimit(resource.RLIMIT_FSIZE, (100, 100))
    signal.signal(signal.SIGXFSZ, signal.SIG_DFL if is_fatal else signal.SIG_IGN)


def place_of(folder, name, files):
    """A folder in which nobody in particular may write, with these files."""
    place = os.path.join(folder, name)
    os.mkdir(place)
    os.chmod(place, 0o777)
    write_files(place, files)
    return place


def check_tags_kept(folder):
    """A tags file stays as it is, or is the new one as a whole."""
    place = place_of(folder, 'kept', {'tags': TAGS_HEAD.encode(), 'good.rs': b'fn good() {}', 'bad.rs': b'\xff', 'empty/none.txt': b''})
    tags, link = os.path.join(place, 'tags'), os.path.join(place, 'link')
    os.chmod(tags, 0o666)
    if os.geteuid() == 0:
        os.chown(tags, 65534, 65534)

    def is_kept(words, status, said, left, **more):
        got = run_program(['tags', '-o', 'kept/tags', *words], folder, **more)
        there = sorted(os.listdir(place)), open(tags, encoding='utf-8').read()
        wanted = sorted(['bad.rs', 'empty', 'good.rs', 'tags', *left]), TAGS_HEAD
        tell(got == (status, '', said) and there == wanted, f'tags {words} {more}', (got, there), ((status, '', said), wanted))

    unread = 'not UTF-8 at line 1, column 1\n'
    none = 'itemtree: kept/tags: not written, because nothing could be read\n'
    is_kept(['absent'], 2, f'itemtree: absent: No such file or directory (os error 2)\n{none}', [])
    is_kept(['kept/bad.rs'], 2, f'itemtree: kept/bad.rs: {unread}{none}', [])
    for words in (['kept/empty'], ['--exclude', '*.rs', 'kept'], ['-a', 'kept/empty']):
        is_kept(words, 2, f'itemtree: {words[-1]}: no Rust file is below this folder\n{none}', [])
    is_kept(['-L', os.devnull], 2, f'itemtree: {os.devnull}: this list names no file\n{none}', [])
    is_kept(['kept/good.rs'], 2, 'itemtree: kept/tags: File too large (os error 27)\n', [], preexec_fn=lambda: is_killed(False))
    for _turn in range(2):
        is_kept(['kept/good.rs'], -signal.SIGXFSZ, '', ['tags.new'], preexec_fn=lambda: is_killed(True))
    os.chmod(tags, 0o444)
    is_kept(['kept/good.rs'], 2, 'itemtree: kept/tags: this file is read-only\n', ['tags.new'])
    os.chmod(tags, 0o642)
    os.symlink('tags', link)
    got = run_program(['tags', '-o', 'kept/link', 'kept'], folder)
    wanted = 2, '', f'itemtree: kept/bad.rs: {unread}itemtree: kept/link: written without what could not be read\n'
    text = open(tags, encoding='utf-8').read()
    there = sorted(os.listdir(place)), os.path.islink(link), os.stat(tags).st_mode & 0o777
    tell(got == wanted and there == (['bad.rs', 'empty', 'good.rs', 'link', 'tags'], True, 0o642)
         and text.endswith('\ngood\tkept/good.rs\t/^fn good() {}/;"\tf\tline:1\n') and text.startswith('!_TAG'), 'tags behind a link', (got, there, text), wanted)


def check_tags_in_place(folder):
    """Where no new file can stand for an old one, that is written itself; what is in the way of the new one is named."""
    place = place_of(folder, 'same', {'tags': TAGS_HEAD.encode(), 'good.rs': b'fn good() {}', 'other/tags': b''})
    tags = os.path.join(place, 'tags')
    os.chmod(tags, 0o666)
    os.chmod(os.path.join(place, 'other/tags'), 0o666)
    os.chmod(os.path.join(place, 'other'), 0o555)
    os.link(tags, os.path.join(place, 'hard'))
    line = 'good\tsame/good.rs\t/^fn good() {}/;"\tf\tline:1\n'
    for name in ('tags', 'other/tags'):
        path = os.path.join(place, name)
        before = os.stat(path)
        got = run_program(['tags', '-o', f'same/{name}', 'same/good.rs'], folder)
        after, text = os.stat(path), open(path, encoding='utf-8').read()
        tell(got == (0, '', '') and text.endswith(line) and before.st_ino == after.st_ino
             and os.listdir(os.path.dirname(path)).count(os.path.basename(path) + '.new') == 0, f'{name} is written itself', (got, text))
    for make in (os.mkdir, os.mkfifo, lambda path: os.symlink('good.rs', path)):
        target = os.path.join(place, 'made')
        make(target + '.new')
        got = run_program(['tags', '-o', 'same/made', 'same/good.rs'], folder)
        wanted = 2, '', 'itemtree: same/made.new: this is in the way: the new file is written here first\n'
        tell(got == wanted and not os.path.exists(target), 'what is in the way', got, wanted)
        (os.rmdir if make is os.mkdir else os.remove)(target + '.new')
    write_files(place, {'made.new': b'left by a run that was ended'})
    os.chmod(os.path.join(place, 'made.new'), 0o666)
    got = run_program(['tags', '-o', 'same/made', 'same/good.rs'], folder)
    text = open(os.path.join(place, 'made'), encoding='utf-8').read()
    tell(got == (0, '', '') and text.startswith('!_TAG') and text.endswith(line) and not os.path.exists(os.path.join(place, 'made.new')),
         'what an ended run has left', (got, text))
    got = run('for at in $(seq 12); do itemtree tags -o same/many same & done; wait; ls same | grep many; tail -1 same/many', folder)
    tell(got == 'many\n' + line, 'twelve runs at once', got)


def check_tags_refused(folder):
    """Only a tags file, an empty one or none is replaced; pipes, devices and what is open are written to."""
    place = place_of(folder, 'guard', {'a.rs': b'fn a() {}', 'b.rs': b'fn b() {}', 'empty': b'', 'line': b'x\ta.rs\t/^fn x/;"\tf\n', 'number': b'x\ta.rs\t12\n',
                                       'notes': b'int a;\t// comment\n', 'define': b'#define\tb\t3\n', 'blank': b'\n', 'half': b'x\ta;\t12\n', 'etags': b'\x0c\n'})
    for name, is_taken in (('a.rs', False), ('notes', False), ('define', False), ('blank', False), ('half', False), ('etags', False),
                           ('empty', True), ('line', True), ('number', True), ('none', True)):
        path = os.path.join(place, name)
        before = open(path, 'rb').read() if os.path.exists(path) else b''
        got = run(f'cd guard; itemtree tags -o {name} b.rs; echo $?', folder)
        text = open(path, 'rb').read()
        wanted = '0\n' if is_taken else f'itemtree: {name}: this is no tags file, and stays as it is\n2\n'
        is_right = text.endswith(b'\nb\tb.rs\t/^fn b() {}/;"\tf\tline:1\n') if is_taken else text == before
        tell(got == wanted and is_right, f'tags -o {name}', (got, text), wanted)
    lines = run('itemtree tags -o - guard/a.rs', folder)
    for command, wanted in (('echo hi > out; itemtree tags -o /dev/stdout a.rs >> out; cat out', f'hi\n{lines}'),
                            ('{ itemtree tags -o /dev/stdout a.rs; echo more; } > out; cat out', f'{lines}more\n'),
                            ('ln -s /dev/stdout way; itemtree tags -o way a.rs > out; cat out', lines),
                            ('{ itemtree tags -o /dev/stderr a.rs; echo more >&2; } 2> out; cat out', f'{lines}more\n'),
                            ('echo hi > out; itemtree tags -o /dev/fd/3 a.rs 3>> out; cat out', f'hi\n{lines}'),
                            ('itemtree tags -o /dev/stdout a.rs | cat', lines),
                            ('itemtree tags -o >(cat > sub) a.rs; sleep 0.3; cat sub', lines),
                            ('mkfifo pipe; cat pipe > through & itemtree tags -o pipe a.rs; wait; cat through; test -p pipe',
                             f'itemtree: pipe: a pipe, which is waited for until something reads it\n{lines}'),
                            ('mkfifo tags; itemtree tags a.rs; echo $?; test -p tags && rm tags', 'itemtree: tags: this is a pipe: -o names one that is to be written\n2\n'),
                            ('ln -s later link; itemtree tags -o link a.rs; test -L link; cat later', lines)):
        got = run(f'cd guard; {command}', folder, 10)
        tell(got == wanted.replace('guard/', ''), command, got, wanted)


def check_tags_joined(folder):
    """Equal lines stand once; `-a` keeps the lines of the old file, and `-L` reads many at once."""
    write_files(folder, {f'joined/{at}.rs': b'fn f() {}' for at in range(5)})
    whole = run("cd joined; itemtree tags -o - [0-4].rs | grep -v '^!_TAG'", folder)
    tell(whole.count('\n') == 5, 'the tags of five files', whole)
    for command in ('ls *.rs | xargs -n 2 itemtree tags -a', 'ls *.rs | itemtree tags -L -', 'ls *.rs | xargs -n 2 itemtree tags --append',
                    'itemtree tags *.rs ./1.rs . 2.rs', 'itemtree tags .', "printf 'f\\t4.rs\\t/^fn f() {}/;\"\\tf\\tline:1\\n' > tags; itemtree tags -a [0-3].rs"):
        got = run(f"cd joined; {command}; grep -v '^!_TAG' tags; grep -c '^!_TAG' tags; head -1 tags | cut -f1; rm tags", folder)
        tell(got == whole + '9\n!_TAG_FILE_ENCODING\n', command, got, whole)
    for words, wanted in (('-o sub/tags 0.rs', '0.rs'), ('--tag-relative yes -o sub/tags ./sub/../0.rs', '../0.rs'), ('--tag-relative=yes -o sub/tags "$PWD/0.rs"', '$PWD/0.rs'),
                          ('--tag-relative=always -o sub/../sub/tags "$PWD/0.rs"', '../0.rs'), ('--tag-relative=never -o sub/tags 0.rs', '$PWD/0.rs'),
                          ('--tag-relative yes -o - sub/9.rs > sub/tags', 'sub/9.rs')):
        got = run(f'cd joined; mkdir -p sub; cp 0.rs sub/9.rs; itemtree tags {words}; grep -v "^!_TAG" sub/tags | cut -f2; echo "{wanted}"; rm -r sub', folder).split()
        tell(len(got) == 2 and got[0] == got[1], f'tags {words}', got)
    got = run('cd joined; itemtree tags -a -o - 1.rs; echo $?; itemtree tags -a -o 1.rs 2.rs; echo $?', folder)
    wanted = 'itemtree: --append: standard output keeps nothing\n2\nitemtree: 1.rs: this is no tags file, and stays as it is\n2\n'
    tell(got == wanted, 'tags -a where nothing is kept', got, wanted)


def check_unwritten(folder):
    """What cannot be written is told by its name."""
    full = 'No space left on device (os error 28)'
    for command, wanted in (('tags -o /nowhere/tags shapes.rs', '/nowhere/tags: No such file or directory (os error 2)'),
                            ('tags -o /dev/full shapes.rs', f'/dev/full: {full}'),
                            ('tags -o src shapes.rs', 'src: Is a directory (os error 21)'),
                            ('tags -o - shapes.rs > /dev/full', f'standard output: {full}'),
                            ('outline shapes.rs > /dev/full', f'standard output: {full}'),
                            ('request shapes.rs > /dev/full', f'standard output: {full}'),
                            ('changed shapes.rs known.rs > /dev/full', f'standard output: {full}'),
                            ('--help > /dev/full', f'standard output: {full}')):
        got = run(f'itemtree {command}; echo $?', folder)
        tell(got == f'itemtree: {wanted}\n2\n', command, got, wanted)


def check_arguments(folder):
    """An argument that is not UTF-8 is told."""
    for words, at, shown in (([b'outline', b'\xff.rs'], 2, '\ufffd.rs'), ([b'a' * 300 + b'\xff'], 1, 'a' * 300 + '\ufffd')):
        got = run_program(words, folder)
        wanted = 2, '', f'itemtree: argument {at} is not UTF-8: {shown}\n'
        tell(got == wanted, 'an argument that is not UTF-8', got, wanted)
    names = 'b' * 200, 'c' * 200
    got = run_program(['outline', *[f'{"./" * 200}{name}.rs' for name in names]], folder)
    tell(got[0] == 2 and all(f'/{name}.rs: No such file' in got[2] for name in names), 'long arguments', got)


# Uses of each shape: items alone and with attributes; lists with and without a comma at the end, in one another, with one tree,
# with comments, on lines of their own; `self`, stars and renames; trees that mean nothing or stand empty.
USES = ('use a;', '#[cfg(x)]\n/// Doc.\npub use a::b as c;\nfn f() {}', 'mod m { use a::*; pub(crate) use super::b; }', 'use a::{b};', 'use a::{b,};',
        'use a::{b, c};', 'use a::{b, c,};', 'use a::{b as c, d as _, e::*, self as g};', 'use {a, b::c, ::d};', 'use a::{b::{c}};', 'use a::{b::{c,},};',
        'use a::{b::{c}, d};', 'use a::{d, b::{c}};', 'use a::{d, b::{c,},};', 'use a::{b::{c::{d}}, e::{f, g::{h}}};', 'use a::{b::{c, d}, e};',
        'use a::self;', 'use a::self as b;', 'use a::{b::self, c};', 'use a::{c, b::self};', 'use a::{b::self};', 'use a::{b::{self}, c::{self, d}};',
        'use a::{*, b};', 'use a::{{b, c}, {d}};', 'use a::{{}, b};', 'use a::{b, {}};', 'use {Self::q, b::{Self, c}, d, Self::{e, f}, {{}, g}};',
        'use a::{\n    b, // of b {\n    /* , */ c /* } */ ,\n    d::{\n        e,\n    },\n};\nuse f;\n', 'use a /* { */ ::{ // ,\r\n  b,\r\n  c\r\n};\r\n',
        '#![cfg(x)]\nuse é::{ö as ä, ü};', 'use r#a::{r#b, c}; use a::{b, c};')


def check_removals(folder):
    """What is left of a text without the bytes of an import's `removal` has all its imports but that one, and nothing is wrong with it."""
    def told(text):
        got = subprocess.run([PROGRAM, 'imports', '--json', '-'], cwd=folder, input=text, stdout=subprocess.PIPE, timeout=60).stdout
        return [json.loads(line) for line in got.splitlines()]

    def meant(imports):
        return [{key: it[key] for key in ('path', 'kind', 'alias', 'cfg', 'module', 'visibility')} for it in imports]

    for text in USES:
        text = text.encode()
        imports = told(text)
        tell(len(imports) > 0, f'{text!r} has imports')
        for number, it in enumerate(imports):
            start, end = it['removal']
            left = text[:start] + text[end:]
            wanted = meant(imports[:number] + imports[number + 1:])
            checked = subprocess.run([PROGRAM, 'check', '-'], cwd=folder, input=left, stdout=subprocess.PIPE, timeout=60)
            is_wrong = b'Self' not in text and checked.returncode != 0
            tell(meant(told(left)) == wanted and not is_wrong, f'{text!r} without {it["path"]}: {left!r}', meant(told(left)), wanted)


def check_opened(folder):
    """Under each use with a list an outline has its imports, as they are listed, with its visibility."""
    def lines(text, *words):
        return subprocess.run([PROGRAM, *words, '-'], cwd=folder, input=text.encode(), stdout=subprocess.PIPE, timeout=60).stdout.decode().splitlines()

    for text in USES:
        imports = list(zip(map(json.loads, lines(text, 'imports', '--json')), lines(text, 'imports')))
        wanted = []
        for closed, item in zip(lines(text, 'outline', '--flat'), map(json.loads, lines(text, 'outline', '--flat', '--json'))):
            wanted.append(closed)
            if item['kind'] != 'use' or not item['path'].endswith('{..}'):
                continue
            seen, end = item['visibility'], '' if item['active'] else ' (inactive)'
            wanted += [line.replace(': ', f': {seen} use ' if seen else ': use ', 1) + end for it, line in imports if it['range'] == item['range']]
        got = lines(text, 'outline', '--flat', '--imports')
        tell(got == wanted, f'{text!r} opened', got, wanted)


def check_line_ends(folder):
    """In a string of a member's cfg, too, a carriage return before a line feed is left out."""
    text = b'struct S {\n    #[cfg(feature = "a\nb")]\n    c: u8,\n    #[cfg(feature = r"a\nb")]\n    d: u8,\n}\n'
    for ends in (b'\n', b'\r\n'):
        write_files(folder, {'ends.rs': text.replace(b'\n', ends)})
        got = run("itemtree outline --cfg 'feature=\"a\nb\"' ends.rs", folder)
        tell(got == 'ends.rs:1:8: struct S\nends.rs:4:5:     field c\nends.rs:7:5:     field d\n', f'line ends {ends}', got)
    os.remove(os.path.join(folder, 'ends.rs'))


def check_not_text(folder):
    """The first byte of a file that is not UTF-8 is told by its place."""
    texts = {b'fn f() {}\nfn \xc3\xa4() { \xe4 }\n\xff': (2, 10), b'\xef\xbb\xbffn \xff': (1, 4), b'// a\r\n\r\n// \xf0\x9f\x98': (3, 4),
             b'\xff\xfef\0n\0': (1, 1), b'a\xc0\x80': (1, 2), b'"\xed\xa0\x80"': (1, 2)}
    for text, (line, column) in texts.items():
        write_files(folder, {'odd.rs': text})
        said = f'not UTF-8 at line {line}, column {column}\n'
        for words, path, more in ((['outline', 'odd.rs'], 'odd.rs', {}), (['check', '-'], '-', {'input': text}), (['request', 'odd.rs'], 'odd.rs', {}),
                                  (['changed', 'known.rs', 'odd.rs'], 'odd.rs', {}), (['changed', '--tree', '-', 'known.rs'], '-', {'input': text})):
            got = run_program(words, folder, **more)
            wanted = 2, '', f'itemtree: {path}: {said}'
            tell(got == wanted, f'{words} of {text}', got, wanted)


def read_all(shown):
    """What is shown on a terminal, which is closed then."""
    got = b''
    try:
        while more := os.read(shown, 4096):
            got += more
    except OSError:
        pass
    os.close(shown)
    return got


def on_terminal(words, folder, **variables):
    """What a run shows whose standard output is a terminal."""
    shown, other = pty.openpty()
    env = {name: value for name, value in os.environ.items() if name not in ('NO_COLOR', 'TERM')}
    child = subprocess.Popen([PROGRAM, *words], cwd=folder, stdout=other, env=dict(env, **variables))
    os.close(other)
    got = read_all(shown)
    child.wait(60)
    return got.decode().replace('\r\n', '\n')


def check_colors(folder):
    """Colours are there on a terminal, unless nobody wants them, and are nothing but sequences in the lines."""
    files = 'shapes.rs members.rs tagged.rs known.rs repeated.rs broken.rs src'
    plain = run(f'itemtree outline --cfg a {files}', folder)
    colored = run(f'NO_COLOR=1 TERM=dumb itemtree outline --cfg a --color always {files}', folder)
    left = re.sub(r'\x1b\[(?:2|36|1|0)m', '', colored)
    tell(left == plain and plain.count('\n') > 50, 'the lines without their colours', left, plain)
    untold = [line for line in colored.splitlines() if not re.fullmatch(
        r'\x1b\[2m[^\x1b]*:\d+:\d+: \x1b\[0m *(?:pub(?:\([^\x1b]*\))? )?\x1b\[36m[a-z_ ]+\x1b\[0m\x1b\[1m(?: [^\x1b]+)?\x1b\[0m(?: \(inactive\))?', line)]
    tell(not untold, 'the colours of lines', '\n'.join(untold))
    plain = run('itemtree outline shapes.rs', folder)
    colored = run('itemtree outline --color always shapes.rs', folder)
    for words, variables, wanted in (([], {}, colored), ([], {'TERM': 'xterm'}, colored), ([], {'NO_COLOR': ''}, colored), ([], {'TERM': 'dumber'}, colored),
                                     ([], {'NO_COLOR': '0'}, plain), ([], {'NO_COLOR': 'yes'}, plain), ([], {'TERM': 'dumb'}, plain),
                                     (['--color', 'auto'], {}, colored), (['--color=never'], {}, plain),
                                     (['--color', 'always'], {'NO_COLOR': '1', 'TERM': 'dumb'}, colored)):
        got = on_terminal(['outline', *words, 'shapes.rs'], folder, **variables)
        tell(got == wanted, f'{words} on a terminal with {variables}', repr(got), repr(wanted))
    for words in (['outline', '--json'], ['outline', '--json', '--color', 'always'], ['find', '--json', 'area'], ['imports', '--json'], ['page']):
        got = on_terminal([*words, 'shapes.rs'], folder)
        wanted = run(shlex.join(['itemtree', *words, 'shapes.rs']), folder)
        tell(got == wanted and '\x1b' not in got, f'{words} on a terminal', repr(got), repr(wanted))
    for words in (['find', 'area'], ['imports']):
        got = on_terminal([*words, 'shapes.rs'], folder)
        wanted = run(shlex.join(['itemtree', *words, 'shapes.rs']), folder)
        tell(re.sub(r'\x1b\[\d+m', '', got) == wanted and '\x1b' in got, f'{words} in colours', repr(got), repr(wanted))


def check_progress(folder):
    """What takes longer than a second tells on a terminal how many files are done, and takes it away before it tells of anything else."""
    write_files(folder, {f'many/{at}.rs': b'fn f() {}' if at != 3 else b'\xff' for at in (1, 3, 4)})
    slow = os.path.join(folder, 'many/2.rs')
    os.mkfifo(slow)
    files = [f'many/{at}.rs' for at in (1, 2, 3, 4)]
    for words, is_slow in ((['outline'], True), (['tags', '-o', os.devnull], True), (['outline'], False)):
        shown, other = pty.openpty()
        child = subprocess.Popen([PROGRAM, *words, *files], cwd=folder, stdout=subprocess.DEVNULL, stderr=other)
        os.close(other)
        with open(slow, 'w', encoding='utf-8') as file:
            time.sleep(1.2 if is_slow else 0)
            file.write('fn f() {}')
        child.wait(60)
        got = read_all(shown)
        count = '\r\x1b[K2 of 4 files\r\x1b[K' if is_slow else ''
        more = 'itemtree: /dev/null: written without what could not be read\r\n' if 'tags' in words else ''
        wanted = f'{count}itemtree: many/3.rs: not UTF-8 at line 1, column 1\r\n{more}'
        tell(got.decode() == wanted, f'progress of {words} on a terminal', repr(got), repr(wanted))
    os.remove(slow)
    got = run('itemtree tags -o /dev/null src', folder)
    tell(got == '', 'no progress elsewhere', got)


def main():
    for program in (PROGRAM, TOOL):
        if not os.access(program, os.X_OK):
            print(f'no program is at {program}', file=sys.stderr)
            print('itemtree: 0 passed, 1 failed')
            return 69
    with tempfile.TemporaryDirectory() as folder:
        shutil.copytree(os.path.join(TOP, 'tests/itemtree'), folder, dirs_exist_ok=True)
        check_readme()
        check_examples(os.path.join(TOP, 'docs/ITEMTREE.md'), folder)
        check_examples(os.path.join(TOP, 'tests/itemtree/cases.md'), folder)
        check_long_line(folder)
        check_closed_pipe(folder)
        check_vim(folder)
        check_ctags(folder)
        check_fields(folder)
        check_progress(folder)
        check_colors(folder)
        check_request(folder)
        check_documents(check_help(folder))
        check_tool(folder)
        check_unread(folder)
        check_one_sided(folder)
        check_entries(folder)
        check_escapes(folder)
        check_tags_kept(folder)
        check_tags_in_place(folder)
        check_tags_refused(folder)
        check_tags_joined(folder)
        check_unwritten(folder)
        check_arguments(folder)
        check_line_ends(folder)
        check_not_text(folder)
        check_removals(folder)
        check_opened(folder)
    print(f'itemtree: {passed} passed, {failed} failed')
    return failed > 0


if __name__ == '__main__':
    sys.exit(main())
