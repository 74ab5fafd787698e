#!/usr/bin/env python3
"""Times an edit of one file in a session of `itemtree serve` that holds many.

    serve_speed.py PROGRAM FOLDER [--files N] [--edits N]

The first N files (891) of the folder with the ending .rs, sorted by their paths, are set as texts, and all of them once more as one text.
Then some are edited, each many times: by typing inside a body (as a range, and as a whole text), and by adding an item. Each edit asks
what changed; those of whole texts also where a name is declared. What is printed is the server's processor time for an edit, from /proc.
"""
import argparse
import json
import os
import re
import subprocess
import sys
import time

FIND = {'show': 'find', 'name': 'new'}
BODY = re.compile(r'^ *(?:pub(?:\([^)]*\))? )?fn \w+[^;{}"\']*\{', re.M)


class Server:
    def __init__(self, program):
        self.process = subprocess.Popen([program, 'serve'], stdin=subprocess.PIPE, stdout=subprocess.PIPE)
        self.number = 0

    def ask(self, **line):
        self.process.stdin.write(json.dumps(line, separators=(',', ':')).encode() + b'\n')
        self.process.stdin.flush()
        answer = json.loads(self.process.stdout.readline())
        if 'shows' not in answer:
            sys.exit(f'serve_speed.py: {answer}')
        self.number = answer['number']
        return answer['shows']

    def edit(self, edit, *more):
        """Makes an edit, and gives what changed by that."""
        return self.ask(edits=[edit], shows=[{'show': 'changed', 'since': self.number}, *more])[0]

    def set(self, file, text):
        return self.edit({'edit': 'set_text', 'file': file, 'text': text}, FIND)

    def milliseconds(self):
        with open(f'/proc/{self.process.pid}/stat', encoding='ascii') as stat:
            fields = stat.read().rpartition(')')[2].split()
        return (int(fields[11]) + int(fields[12])) * 1000 / os.sysconf('SC_CLK_TCK')

    def kilobytes(self):
        with open(f'/proc/{self.process.pid}/status', encoding='ascii') as status:
            return int(re.search(r'^VmRSS:\s+(\d+)', status.read(), re.M).group(1))


def texts(folder, most):
    paths = sorted(os.path.join(at, name) for at, _, names in os.walk(folder) for name in names if name.endswith('.rs'))
    found = []
    for path in paths:
        try:
            with open(path, encoding='utf-8', newline='') as file:
                found.append((path, file.read()))
        except ValueError:
            continue
        if len(found) == most:
            break
    return found


def typed_place(server, file, text):
    """A place where typing changes no tree: inside the first body that is one."""
    server.set(file, text)
    for found in BODY.finditer(text):
        at = found.end()
        if server.set(file, f'{text[:at]} 0; {text[at:]}') == '':
            return at
        server.set(file, text)
    return None


def timed(server, edits, has_changed, *more):
    """The milliseconds for an edit."""
    before = server.milliseconds()
    for edit in edits:
        if (server.edit(edit, *more) != '') != has_changed:
            sys.exit('serve_speed.py: an edit changed what it should not, or changed nothing')
    return (server.milliseconds() - before) / len(edits)


def typed(server, file, text, count):
    """The milliseconds for an edit inside a body: of a range, of the whole text, and of this with `find`."""
    at = typed_place(server, file, text)
    if at is None:
        return ''
    front, back = f'{text[:at]} ', f'; {text[at:]}'
    server.set(file, f'{front}000000{back}')
    start = len(front.encode())
    ranges = [{'edit': 'change_text', 'file': file, 'range': [start, start + 6], 'text': f'{number:06}'} for number in range(count)]
    wholes = [{'edit': 'set_text', 'file': file, 'text': f'{front}{number:06}{back}'} for number in range(min(count, 5 * 10**8 // len(text)))]
    times = timed(server, ranges, False), timed(server, wholes, False), timed(server, wholes, False, FIND)
    return '   typing {:6.3f}, as a whole {:6.3f}, with `find` {:6.3f}'.format(*times)


def added(server, file, text, count):
    """Those for an edit that adds an item."""
    edits = [{'edit': 'set_text', 'file': file, 'text': f'{text}\npub fn added_{number}() {{}}\n'} for number in range(min(count, 5 * 10**8 // len(text)))]
    return f'   adding an item {timed(server, edits, True, FIND):6.3f}'


def main():
    parser = argparse.ArgumentParser(description='Times edits in a session of itemtree serve.')
    parser.add_argument('program')
    parser.add_argument('folder')
    parser.add_argument('--files', type=int, default=891)
    parser.add_argument('--edits', type=int, default=500)
    options = parser.parse_args()
    found = texts(options.folder, options.files)
    if not found:
        sys.exit('serve_speed.py: the folder has no .rs file')
    server = Server(os.path.abspath(options.program))
    server.ask(crates=[{'root': 0}])
    for file, (_, text) in enumerate(found):
        server.ask(edits=[{'edit': 'set_text', 'file': file, 'text': text}])
    set_all = server.milliseconds()
    names = len(server.ask(shows=[{'show': 'find', 'name': 'new'}])[0])
    bytes_of = sum(len(text.encode()) for _, text in found)
    listed = server.milliseconds() - set_all
    print(f'{len(found)} files of {bytes_of / 1e6:.1f} MB set in {set_all:.0f} ms, their names listed in {listed:.0f} ms;'
          f' {server.kilobytes()} kB; {names} items called `new`')
    print('processor milliseconds for an edit with `changed`:')
    by_size = sorted(range(len(found)), key=lambda file: len(found[file][1]))
    files = [by_size[min(len(found) - 1, int(share * len(found)))] for share in (0.1, 0.5, 0.9, 1.0)]
    found.append((os.path.join(options.folder, '(all in one)'), '\n'.join(text for _, text in found)))
    for file in [*files, len(found) - 1]:
        path, text = found[file]
        line = f'{len(text.encode()):9} bytes{typed(server, file, text, options.edits)}{added(server, file, text, options.edits)}'
        print(f'{line}   {os.path.relpath(path, options.folder)}')
    server.process.stdin.close()
    return server.process.wait()


if __name__ == '__main__':
    sys.exit(main())
