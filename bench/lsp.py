#!/usr/bin/env python3
"""Times what an editor asks of `itemtree lsp`, and tells the memory of the server.

    lsp.py PROGRAM FOLDER [--times N]

Of the folder's Rust files the largest is opened, and the one that is nearest to 4 kB. Each line of what is printed is the server's
processor time for one message, from /proc, the least of N times (20): an edit in a body with the problems behind it, and each request.
The growth of an edit is that with 10 and with 1,000 open texts, and in a line of a megabyte.
"""
import argparse
import json
import os
import re
import subprocess

BODY = re.compile(r'^ *(?:pub(?:\([^)]*\))? )?fn \w+[^;{}"\']*\{\n', re.M)


class Server:
    def __init__(self, program):
        self.process = subprocess.Popen([program, 'lsp'], stdin=subprocess.PIPE, stdout=subprocess.PIPE)
        self.number = 0
        self.ask('initialize', capabilities={'textDocument': {'documentSymbol': {'hierarchicalDocumentSymbolSupport': True}}})

    def write(self, **message):
        body = json.dumps({'jsonrpc': '2.0', **message}).encode()
        self.process.stdin.write(b'Content-Length: %d\r\n\r\n' % len(body) + body)
        self.process.stdin.flush()

    def read(self):
        length = int(self.process.stdout.readline().split(b':')[1])
        self.process.stdout.readline()
        return json.loads(self.process.stdout.read(length))

    def ask(self, method, **params):
        self.number += 1
        self.write(id=self.number, method=method, params=params)
        while self.read().get('id') != self.number:
            pass

    def told(self, method, **params):
        """Tells something of a document, and waits for its problems."""
        self.write(method=f'textDocument/{method}', params=params)
        while self.read().get('method') != 'textDocument/publishDiagnostics':
            pass

    def open(self, uri, text):
        self.told('didOpen', textDocument={'uri': uri, 'languageId': 'rust', 'version': 0, 'text': text})

    def type(self, uri, place, text):
        self.told('didChange', textDocument={'uri': uri, 'version': 1}, contentChanges=[{'range': {'start': place, 'end': place}, 'text': text}])

    def milliseconds(self):
        with open(f'/proc/{self.process.pid}/schedstat', encoding='ascii') as stat:
            return int(stat.read().split()[0]) / 1e6

    def kilobytes(self):
        with open(f'/proc/{self.process.pid}/status', encoding='ascii') as status:
            return int(re.search(r'^VmHWM:\s+(\d+)', status.read(), re.M).group(1))

    def end(self):
        self.process.stdin.close()
        self.process.wait()


def least(server, times, act):
    spent = []
    for _ in range(times):
        before = server.milliseconds()
        act()
        spent.append(server.milliseconds() - before)
    return min(spent)


def sources(folder):
    found = []
    for at, _, names in os.walk(folder):
        for name in names:
            if name.endswith('.rs'):
                with open(os.path.join(at, name), encoding='utf-8', errors='replace', newline='') as file:
                    found.append((os.path.join(at, name), file.read()))
    return found


def body_of(text):
    """A place in a body: behind the first brace that opens one, or at the beginning."""
    found = BODY.search(text)
    return {'line': text[: found.end()].count('\n') if found else 0, 'character': 0}


def measure_text(program, times, path, text):
    server, size = Server(program), len(text.encode())
    uri, place = f'file://{path}', body_of(text)
    document = {'textDocument': {'uri': uri}}
    first = server.milliseconds()
    server.open(uri, text)
    server.ask('textDocument/documentSymbol', **document)
    print(f'{os.path.basename(path)} of {size} bytes: opened, with its problems and symbols, in {server.milliseconds() - first:.2f} ms')
    print(f'  an edit in a body, with its problems  {least(server, times, lambda: server.type(uri, place, "x")):8.2f} ms')
    for method, params in [('documentSymbol', {}), ('foldingRange', {}), ('selectionRange', {'positions': [place]}), ('documentHighlight', {'position': place})]:
        spent = least(server, times, lambda: server.ask(f'textDocument/{method}', **document, **params))
        print(f'  {method:37} {spent:8.2f} ms')
    print(f'  memory                                {server.kilobytes()} kB')
    server.end()


def measure_growth(program, times):
    for count in (10, 1000):
        server = Server(program)
        for number in range(count):
            server.open(f'file:///{number}.rs', f'fn f{number}() {{\n}}\n')
        spent = least(server, times, lambda: server.type(f'file:///{count // 2}.rs', {'line': 1, 'character': 0}, 'x'))
        print(f'an edit with {count} open texts: {spent:.3f} ms')
        server.end()
    server = Server(program)
    server.open('file:///long.rs', 'fn f() {/*' + 'é' * 500_000 + '*/}')
    spent = least(server, times, lambda: server.type('file:///long.rs', {'line': 0, 'character': 500_000}, 'x'))
    print(f'an edit in a line of a megabyte, with its problems: {spent:.2f} ms')
    server.end()


def main():
    words = argparse.ArgumentParser(description=__doc__.splitlines()[0])
    words.add_argument('program')
    words.add_argument('folder')
    words.add_argument('--times', type=int, default=20)
    given = words.parse_args()
    found = sources(given.folder)
    largest = max(found, key=lambda it: len(it[1]))
    small = min(found, key=lambda it: abs(len(it[1]) - 4096))
    for path, text in (largest, small):
        measure_text(given.program, given.times, path, text)
    measure_growth(given.program, given.times)


if __name__ == '__main__':
    main()
