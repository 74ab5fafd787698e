#!/usr/bin/env python3
"""Reads the Rust texts of tests/reader with itemtree, and compares what it writes with what stands beside them.

    reader.py ITEMTREE

tests/reader/README.md says how the cases are written.
"""
import glob
import json
import os
import re
import subprocess
import sys
import tempfile

FOLDER = os.path.join(os.path.dirname(os.path.realpath(__file__)), 'reader')
DAMAGE = ['"', "'", '{', '}', '(', ')', '[', ']', ';', '#', '!', '/', '*', '\\', 'r', '0', ' ', '\n', ':', '=']
LINE = r'^([\w.]+):(?: (.*))?$'
# The lines that are compared as they stand; others hold JSON.
TEXTS = ['outline', 'check', 'imports', 'checked', 'ids', 'count', 'items']
COUNTED = {'count': ['outline', '--no-members'], 'checked': ['check']}
passed = failed = 0


def tell(is_right, name, got='', wanted=''):
    global passed, failed
    if is_right:
        passed += 1
        return
    failed += 1
    print(f'reader: {name}\n--- wanted\n{wanted}\n--- got\n{got}', file=sys.stderr)


def run(command, text, options=()):
    """What a command of itemtree writes of a text."""
    done = subprocess.run([sys.argv[1], *command, *options, '-'], input=text.encode(), timeout=60,
                          stdout=subprocess.PIPE, stderr=subprocess.STDOUT)
    return done.stdout.decode('utf-8', 'backslashreplace')


def lines(command, text, options):
    """The lines that a command writes of a text, without the name of the file and what indents them, as one line."""
    written = [line for line in run(command, text, options).splitlines() if ': less is wrong with --edition ' not in line]
    return '; '.join(re.sub(r'^-:(\d+:\d+:) +', r'\1 ', line) for line in written)


def walked(items, below):
    """Items, each with those in it."""
    for item in items:
        yield item
        yield from walked(item.get(below) or [], below)


def without_defaults(value):
    """A value of a request, without the members that have their defaults."""
    if isinstance(value, list):
        return [without_defaults(part) for part in value]
    if isinstance(value, dict):
        return {key: without_defaults(part) for key, part in value.items()
                if not (part is None or part is False or (key, part) == ('ctxt', 'ROOT2024'))}
    return value


def syntax(text, options):
    """The syntax of a text, as the JSON of a request."""
    return json.loads(run(['request'], text, options))['edits'][0]['syntax']


def outline(text, options):
    return json.loads(run(['outline', '--json', '--no-members'], text, options))['items']


def part(value, steps):
    for step in steps:
        value = value[int(step)] if isinstance(value, list) else value.get(step)
    return without_defaults(value)


def answer(word, text, options):
    """What is compared with the line of a case that begins with a word."""
    if word in ('check', 'imports'):
        return lines([word], text, options)
    if word == 'outline':
        return lines([word, '--no-members'], text, options)
    if word == 'items':
        items = walked(syntax(text, options)['items'], 'items')
        return '; '.join(' '.join(filter(None, [item['is'], item.get('name')])) for item in items)
    if word == 'ids':
        return '; '.join(item['id'] for item in walked(outline(text, options), 'children'))
    if word in COUNTED:
        return str(len(run(COUNTED[word], text, options).splitlines()))
    steps = word.split('.')
    if steps[0] == 'outline':
        return part(outline(text, options), steps[1:])
    return part(syntax(text, options), steps)


def text_of(case):
    """The text of a case: the lines behind `> `, or what the parts of a sum behind `= ` are."""
    shown = re.findall(r'^>(?: (.*))?$', case, re.M)
    summed = re.search(r'^= (.*)$', case, re.M)
    if not summed:
        return '\n'.join(shown)
    parts = re.findall(r'("(?:[^"\\]|\\.)*")(?: \* (\d+))?', summed[1])
    return ''.join(json.loads(text) * int(count or 1) for text, count in parts)


def check_case(name, case):
    text = text_of(case)
    wanted = dict(re.findall(LINE, case, re.M))
    if 'checked' not in wanted:
        wanted.setdefault('check', '')
    edition = wanted.pop('edition', None)
    options = ['--edition', edition] if edition else []
    if not all(re.match(r'[>=]', line) or re.match(LINE, line) for line in case.splitlines()):
        tell(False, f'{name}: a line of a case that means nothing', case)
    for word, want in wanted.items():
        try:
            got = answer(word, text, options)
        except (AttributeError, LookupError, ValueError, subprocess.TimeoutExpired) as error:
            got = f'no such value: {error!r}'
        if word not in TEXTS:
            want = without_defaults(json.loads(want))
        tell(got == want, f'{name}: {word} of\n{text[:500]}', got, want)


def check_pages(name, blocks):
    """Each text, and behind it what commands write of it."""
    text = ''
    for words, block in blocks:
        if words == 'rust':
            text = block
            tell(run(['check'], text) == '', f'{name}: check of\n{text}')
        else:
            got = run(words.split(), text)
            tell(got == block, f'{name}: {words} of\n{text}', got, block)


def blocks_of(path):
    with open(path, encoding='utf-8') as file:
        return re.findall(r'^```([^\n]*)\n(.*?)^```$', file.read(), re.M | re.S)


def check_page(path):
    name, blocks = os.path.basename(path), blocks_of(path)
    for words, block in blocks:
        if words == 'cases':
            for case in block.strip('\n').split('\n\n'):
                check_case(name, case)
    check_pages(name, [block for block in blocks if block[0] != 'cases'])


def places(folder):
    """The items of each file of a folder, by the file's name: id, name and places of each."""
    done = subprocess.run([sys.argv[1], 'outline', '--json', '--no-members', folder], timeout=300, stdout=subprocess.PIPE)
    for line in done.stdout.splitlines():
        file = json.loads(line)
        items = walked(file['items'], 'children')
        found = [(item['id'], item['name'], *item['range'], item['line'], item['column']) for item in items]
        yield os.path.basename(file['path'])[:-3], found


def check_damage():
    """What ends before a cut, or on the lines before one that was damaged, is read as it was."""
    text = dict(blocks_of(os.path.join(FOLDER, 'damaged.md')))['rust']
    texts = {'whole': (text, len(text))}
    for at in range(len(text)):
        texts[f'cut.{at}'] = (text[:at], at)
        for byte in DAMAGE:
            texts[f'{ord(byte)}.{at}'] = (text[:at] + byte + text[at + 1:], max(text.rfind('\n', 0, at), 0))
    with tempfile.TemporaryDirectory() as folder:
        for name, (damaged, _) in texts.items():
            with open(os.path.join(folder, name + '.rs'), 'w', encoding='utf-8', newline='') as file:
                file.write(damaged)
        found = dict(places(folder))
    if found.keys() != texts.keys():
        tell(False, 'damaged.md: not each text has an outline', len(found), len(texts))
        return
    for name, (_, end) in texts.items():
        missing = [item for item in found['whole'] if item[3] <= end and item not in found[name]]
        tell(not missing, f'damaged.md, {name}: not read as it was', missing)


def main():
    if len(sys.argv) != 2 or not os.access(sys.argv[1], os.X_OK):
        print('reader: the program itemtree is not where the argument says', file=sys.stderr)
        print('reader: 0 passed, 1 failed')
        return 69
    for path in sorted(glob.glob(os.path.join(FOLDER, '*.md'))):
        check_page(path)
    check_damage()
    print(f'reader: {passed} passed, {failed} failed')
    return failed > 0


if __name__ == '__main__':
    sys.exit(main())
