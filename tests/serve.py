#!/usr/bin/env python3
"""Speaks with `itemtree serve` over pipes, as docs/FORMAT.md says under "Requests line by line".

    serve.py PROGRAM TOOL [--part NAME].. [--sessions N] [--seed N]

PROGRAM is itemtree, and TOOL is item_tree_tool. The parts, all of them where none is named:

- examples: the sessions of docs/FORMAT.md, to the byte
- errors: each kind of error, with its pointer; values of each form of docs/FORMAT.md, wrong and right, with pointers written by hand,
  beside the program and beside the same forms in Python
- lines: lines that are empty, cut, long or in pieces, and streams that fail
- places: what is told of texts, beside what `itemtree outline`, `imports`, `check` and `find` print of the same ones
- typed: texts that are changed in ranges, beside the same texts set whole
- mended: texts whose brackets are damaged, beside what `itemtree outline`, `imports` and `find` print of the same ones, and beside the
  same texts set whole in a new session
- random: random sessions, beside TOOL run anew on the edits so far, and beside a new session that is given them at once
- damaged: edits, shows and first lines that are damaged at random, beside the forms in Python
- noise: random bytes between good lines
- unread: a client that never reads its answers
- many: 10,000 edits, whose memory and processor time stay level; many items of one name; and an edit among many files

A random session follows from the seed and its number alone, and what is damaged from the seed.
"""
import argparse
import collections
import json
import multiprocessing
import os
import random
import re
import select
import subprocess
import sys
import tempfile
import time

TOP = os.path.dirname(os.path.dirname(os.path.realpath(__file__)))
REQUESTS = os.path.join(TOP, 'tests/requests')
TEXTS = os.path.join(TOP, 'tests/itemtree')
SECONDS = 60
LONGEST = 67_108_864
LAST = 2**64 - 1
# A path of more `super` than this would make a page that fills the memory.
MOST_SUPERS = 65536
passed = failed = 0


def tell(is_right, name, got='', wanted=''):
    global passed, failed
    if is_right:
        passed += 1
        return
    failed += 1
    print(f'serve: {name}\n--- wanted\n{shown(wanted)}\n--- got\n{shown(got)}', file=sys.stderr)


def shown(text):
    text = text.decode('utf-8', 'backslashreplace') if isinstance(text, bytes) else str(text)
    return text if len(text) <= 2000 else f'{text[:2000]} and {len(text) - 2000} more'


def written(value):
    """A value as the program writes it, its members in the order of the value."""
    return json.dumps(value, ensure_ascii=False, separators=(',', ':')).encode()


def answered(number, shows, told=None):
    return written({'id': told, 'number': number, 'shows': shows})


def unset(**place):
    """What is answered where a show is of a file or a block at which nothing is set."""
    return {'error': dict(sorted({**place, 'kind': 'not set'}.items()))}


def refused(number, error, told=None):
    return written({'id': told, 'number': number, 'error': error})


EDIT_WORDS = 'a kind of edit: set_text, change_text, set_file, remove_file, set_block, remove_block or set_cfg'
SHOW_WORDS = 'a kind of show: page, tree, imports, changed, outline, import_places, problems or find'
UNITS_WORDS = 'characters, utf-16 or bytes, of outline, import_places, problems or find, or of tree or imports as json'
META_WORDS = 'a kind of meta: path, key_value, tokens, cfg, cfg_attr or unsafe'
# What is expected where a pointer leads, by its last step, or by the one before where that is a place in a list.
EXPECTED_LINE = {
    'a list': 'crates skipped edits shows reserved cfg attrs stmts', 'an object': 'edition syntax', 'two byte places': 'range',
    'a number below 2^32': 'file block root', 'a number below 2^64': 'start since', 'the number of a crate': 'crate', 'a string': 'text',
    'a name, path or glob': 'name', EDIT_WORDS: 'edit', SHOW_WORDS: 'show', 'text or json, of tree, imports or changed': 'as', UNITS_WORDS: 'units',
    'true or false, of outline or find': 'members', '2015, 2018, 2021 or 2024': 'year',
    'a value without a float': 'id',
}
EXPECTED_SYNTAX = {
    'a list': 'attrs items stmts metas list all any', 'a number below 2^16': 'hash', 'a number below 2^32': 'number',
    'true or false': 'semicolon trait star', 'a string': 'body tokens rendered string', 'a name': 'name rename key', 'a path': 'path in',
    'a visibility': 'vis', 'a condition': 'cfg not', 'a kind of item': 'is', META_WORDS: 'meta',
}
EXPECTED_IN = {
    'an object without a float': 'edits shows', 'an object': 'crates attrs items metas list', 'a name': 'skipped reserved',
    'a number below 2^64': 'range',
}


def expected(pointer, is_open):
    """What an error tells of a pointer, with a session open or not."""
    steps = pointer.split('/')[1:]
    if not steps:
        return 'an object'
    known = {1: LINE_KEYS, 3: {'edits': EDIT_KEYS, 'shows': SHOW_KEYS}.get(steps[0])}.get(len(steps))
    if known is not None and steps[-1] not in known:
        return 'no such key'
    if is_open and len(steps) == 1 and steps[0] in ('crates', 'skipped', 'edition', 'start'):
        return 'nothing: the session is open'
    table, key = ((EXPECTED_IN, steps[-2]) if steps[-1].isdigit() else (EXPECTED_LINE if len(steps) <= 3 else EXPECTED_SYNTAX, steps[-1]))
    return next((words for words, keys in table.items() if key in keys.split()), 'another value')


def not_request(number, pointer):
    """The error for a value of wrong form."""
    return {'expected': expected(pointer, number is not None), 'kind': 'not a request', 'pointer': pointer}


def no_request(number, pointer, told=None):
    return refused(number, not_request(number, pointer), told)


def not_changed(number, cause, place=0, told=None, length=9):
    outside = {'length': length} if cause == 'range not in the text' else {}
    return refused(number, {'cause': cause, 'kind': 'text not changed', **outside, 'place': place}, told)


class Silent(Exception):
    """The program gave no answer, or ended."""


class Server:
    """A running session."""

    def __init__(self, program):
        self.complaints = tempfile.TemporaryFile()
        self.process = subprocess.Popen([program, 'serve'], stdin=subprocess.PIPE, stdout=subprocess.PIPE,
                                        stderr=self.complaints, bufsize=0)
        self.ahead = b''

    def __enter__(self):
        return self

    def __exit__(self, *_):
        self.process.kill()
        self.process.wait()
        self.process.stdout.close()
        try:
            self.process.stdin.close()
        except OSError:
            pass
        self.complaints.close()

    def write(self, data):
        rest = memoryview(data)
        while rest:
            try:
                rest = rest[os.write(self.process.stdin.fileno(), rest[:1 << 20]):]
            except BrokenPipeError:
                raise Silent(f'it takes no more, status {self.process.wait()}') from None

    def more(self, seconds):
        """Whether more of the output came before its end."""
        if not select.select([self.process.stdout], [], [], seconds)[0]:
            raise Silent(f'no answer within {SECONDS} seconds')
        data = os.read(self.process.stdout.fileno(), 1 << 20)
        self.ahead += data
        return bool(data)

    def line(self):
        """The next line of the output, without its line feed."""
        end = time.monotonic() + SECONDS
        searched = 0
        while True:
            at = self.ahead.find(b'\n', searched)
            if at >= 0:
                line, self.ahead = self.ahead[:at], self.ahead[at + 1:]
                return line
            searched = len(self.ahead)
            if not self.more(max(0, end - time.monotonic())):
                raise Silent(f'the output ended, status {self.process.wait()}, {self.told()}')

    def ask(self, line):
        """The answer to a line, or to a value as a line."""
        self.write((line if isinstance(line, bytes) else written(line)) + b'\n')
        return self.line()

    def told(self):
        """What is on standard error."""
        self.complaints.seek(0)
        return self.complaints.read()

    def end(self):
        """Closes the input, and gives what else is on the output, the status, and what is on standard error."""
        self.process.stdin.close()
        while self.more(SECONDS):
            pass
        return self.ahead, self.process.wait(SECONDS), self.told()

    def kilobytes(self, name):
        with open(f'/proc/{self.process.pid}/status', encoding='ascii') as status:
            return int(re.search(rf'^{name}:\s+(\d+) kB$', status.read(), re.M).group(1))

    def seconds(self):
        """The processor time so far."""
        with open(f'/proc/{self.process.pid}/stat', encoding='ascii') as stat:
            fields = stat.read().rpartition(')')[2].split()
        return (int(fields[11]) + int(fields[12])) / os.sysconf('SC_CLK_TCK')


def ends_well(server, name):
    found = server.end()
    tell(found == (b'', 0, b''), f'{name}: the end', found, (b'', 0, b''))


def check_lines(program, name, lines):
    """A session of lines, each with the answer that is wanted."""
    with Server(program) as server:
        for line, wanted in lines:
            got = server.ask(line)
            tell(got == wanted, f'{name}: {shown(line if isinstance(line, bytes) else written(line))}', got, wanted)
        ends_well(server, name)


# ---- examples

def sessions_of(path):
    """The sessions of a page: in a block, what begins with `> ` is written, and what begins with `< ` is the answer."""
    with open(os.path.join(TOP, path), encoding='utf-8') as page:
        blocks = re.findall(r'^```[a-z]*\n(.*?)^```$', page.read(), re.M | re.S)
    for block in blocks:
        lines = [line for line in block.splitlines() if not line.startswith('$ ')]
        if lines and lines[0].startswith('> '):
            yield lines


def check_examples(options):
    path, count = 'docs/FORMAT.md', 0
    for lines in sessions_of(path):
        count += 1
        pairs = list(zip(lines[::2], lines[1::2]))
        is_good = len(lines) % 2 == 0 and all(ask[:2] == '> ' and got[:2] == '< ' for ask, got in pairs)
        tell(is_good, f'{path}: a line and its answer by turns', '\n'.join(lines))
        check_lines(options.program, path, [(ask[2:].encode(), got[2:].encode()) for ask, got in pairs])
    tell(count > 0, f'{path}: it has sessions')


# ---- forms

# The forms of docs/FORMAT.md, written from that page alone. A form gives the steps from a value to the first value of wrong form in
# it, or None where there is none. The keys of an object stand in the order of the page: a key, its form, and whether it is required.

def pointer_of(steps):
    """The pointer, or None where nothing is wrong."""
    return None if steps is None else ''.join(f'/{step}' for step in steps)


def first_wrong(members):
    """Of steps, values and forms."""
    for step, value, form in members:
        steps = form(value)
        if steps is not None:
            return [step, *steps]
    return None


def unknown_key(value, known):
    """The step to the first key that is none of these, by its bytes. A null counts as absent."""
    unknown = [key for key in value if key not in known and value[key] is not None] if isinstance(value, dict) else []
    return [min(unknown, key=str.encode).replace('~', '~0').replace('/', '~1')] if unknown else None


def wrong_keys(value, keys):
    """A null counts as absent, and no form of a required key takes a null."""
    if not isinstance(value, dict):
        return []
    return first_wrong((key, value.get(key), form) for key, form, is_required in keys if is_required or value.get(key) is not None)


def wrong_kind(value, key, kinds):
    """An object that one of its keys tells how to read."""
    if not isinstance(value, dict):
        return []
    kind = value.get(key)
    return wrong_keys(value, kinds[kind]) if isinstance(kind, str) and kind in kinds else [key]


def number_up_to(most):
    return lambda value: None if type(value) is int and 0 <= value <= most else []


def one_of(*values):
    return lambda value: None if type(value) in (int, str) and value in values else []


def list_of(form):
    return lambda value: first_wrong((at, member, form) for at, member in enumerate(value)) if isinstance(value, list) else []


def wrong_string(value):
    return None if isinstance(value, str) else []


def wrong_name(value):
    return None if isinstance(value, str) and value and '\n' not in value else []


def is_word(word):
    """Whether something can be called so: an identifier or another keyword, also behind `r#`. Python's identifiers are those of Rust."""
    name = word.removeprefix('r#')
    return name.isidentifier() and name not in ('crate', 'self', 'super', 'Self')


def wrong_asked_path(value):
    """Names with two colons between each two, from the top on behind two more or `crate::`; in the last one stars and question marks too."""
    if not isinstance(value, str):
        return []
    names = (value[2:] if value.startswith('::') else value.removeprefix('crate::')).split('::')
    names[-1] = re.sub('[*?]', '_', names[-1])
    return None if all(map(is_word, names)) else []


def wrong_truth(value):
    return None if isinstance(value, bool) else []


def wrong_span(value):
    return list_of(wrong_u32)(value) if isinstance(value, list) and len(value) == 2 else []


def wrong_range(value):
    return list_of(wrong_u64)(value) if isinstance(value, list) and len(value) == 2 else []


def wrong_ctxt(value):
    return wrong_u32(value) if type(value) is int else one_of('ROOT2015', 'ROOT2018', 'ROOT2021', 'ROOT2024')(value)


def wrong_path(value):
    if value == 'unreadable':
        return None
    if not isinstance(value, list) or not value:
        return []
    if not isinstance(value[0], str) or value[0] not in PATHS:
        return [0]
    least = PATHS[value[0]]
    if len(value) <= len(least):
        return []
    return first_wrong((at, member, least[at - 1] if 0 < at <= len(least) else wrong_name) for at, member in enumerate(value))


def wrong_vis(value):
    if isinstance(value, dict):
        return wrong_keys(value, [('in', wrong_path, True)])
    return one_of('pub', 'crate', 'super', 'self')(value)


def wrong_field(value):
    return None if value is None else wrong_vis(value)


def wrong_fields(value):
    return list_of(wrong_field)(value) if isinstance(value, list) else one_of('record', 'unit')(value)


def wrong_cfg(value):
    if not isinstance(value, dict):
        return None if value is None else wrong_name(value)
    for key, keys in CFGS.items():
        if value.get(key) is not None or key == 'not' and key in value:
            return wrong_keys(value, keys)
    return []


def wrong_atom(value):
    return wrong_keys(value, CFGS['key']) if isinstance(value, dict) else wrong_name(value)


def wrong_meta(value):
    return wrong_kind(value, 'meta', METAS)


def wrong_tree(value):
    return wrong_keys(value, [('path', wrong_path, False), ('star', wrong_truth, False), ('rename', wrong_name, False),
                              ('list', list_of(wrong_tree), False)])


def wrong_item(value):
    return wrong_kind(value, 'is', ITEMS)


def wrong_extern_item(value):
    return wrong_kind(value, 'is', {kind: ITEMS[kind] for kind in ('fn', 'static', 'type_alias', 'macro_call')})


def wrong_call(value):
    return wrong_keys(value, [('is', one_of('macro_call'), False), *ITEMS['macro_call']])


def wrong_statement(value):
    for key, form in (('item', wrong_item), ('call', wrong_call)):
        if isinstance(value, dict) and value.get(key) is not None:
            return wrong_keys(value, [(key, form, True)])
    return one_of('other')(value)


def wrong_tail(value):
    if isinstance(value, dict):
        return wrong_keys(value, [('call', wrong_call, True)])
    return one_of('other')(value)


def wrong_syntax(value):
    return wrong_kind(value, 'root', SYNTAXES)


def holds_float(value):
    return any(isinstance(part, float) or type(part) is int and not -2**63 <= part <= LAST for part in parts(value))


def wrong_edit(value, crates):
    """With that many crates. A float anywhere makes it wrong as a whole."""
    return [] if holds_float(value) else unknown_key(value, EDIT_KEYS) or wrong_kind(value, 'edit', {**EDITS, 'set_cfg': [
        ('crate', number_up_to(crates - 1), True), ('cfg', list_of(wrong_atom), False)]})


def wrong_show(value, crates):
    if holds_float(value) or unknown_key(value, SHOW_KEYS):
        return [] if holds_float(value) else unknown_key(value, SHOW_KEYS)
    krate, file, block = ('crate', number_up_to(crates - 1), True), ('file', wrong_u32, True), ('block', wrong_u32, True)
    place = file if isinstance(value, dict) and value.get('file') is not None else block
    units = UNITS if isinstance(value, dict) and value.get('as') == 'json' else NO_UNITS
    return wrong_kind(value, 'show', {
        **{kind: [krate, place, AS, units, NO_MEMBERS] for kind in ('tree', 'imports')},
        'page': [krate, place, AS, units, NO_MEMBERS, ('as', one_of('text'), False)], 'changed': [('since', wrong_u64, True), AS, NO_UNITS, NO_MEMBERS],
        'outline': [krate, file, NO_AS, UNITS, MEMBERS], 'import_places': [krate, file, NO_AS, UNITS, NO_MEMBERS],
        'problems': [file, NO_AS, UNITS, NO_MEMBERS], 'find': [('name', wrong_asked_path, True), UNITS, NO_AS, MEMBERS]})


def wrong_crate(value):
    return wrong_keys(value, [('root', wrong_u32, True), ('cfg', list_of(wrong_atom), False), ATTRS])


def wrong_edition(value):
    return wrong_keys(value, [('year', one_of(2015, 2018, 2021, 2024), False), ('reserved', list_of(wrong_name), False)])


def wrong_opening(value):
    """The keys of a first line that set up its session."""
    return unknown_key(value, LINE_KEYS) or wrong_keys(value, [
        ('crates', list_of(wrong_crate), False), ('skipped', list_of(wrong_name), False),
        ('edition', wrong_edition, False), ('start', wrong_u64, False)])


wrong_u32, wrong_u64 = number_up_to(2**32 - 1), number_up_to(LAST)
PATHS = {'plain': [wrong_name], 'super': [wrong_u32], 'crate': [], 'abs': [], 'dollar': [wrong_u32]}
CFGS = {'key': [('key', wrong_name, True), ('value', wrong_string, True)], 'all': [('all', list_of(wrong_cfg), True)],
        'any': [('any', list_of(wrong_cfg), True)], 'not': [('not', wrong_cfg, False)]}
NAME, VIS, PATH, CTXT = ('name', wrong_name, False), ('vis', wrong_vis, False), ('path', wrong_path, False), ('ctxt', wrong_ctxt, False)
AS, NO_AS = ('as', one_of('text', 'json'), False), ('as', lambda value: [], False)
UNITS, NO_UNITS = ('units', one_of('characters', 'utf-16', 'bytes'), False), ('units', lambda value: [], False)
MEMBERS, NO_MEMBERS = ('members', wrong_truth, False), ('members', lambda value: [], False)
ATTRS, ITEM_LIST, CFG = ('attrs', list_of(wrong_meta), False), ('items', list_of(wrong_item), False), ('cfg', wrong_cfg, False)
METAS = {
    'path': [PATH, CTXT],
    'key_value': [PATH, CTXT, ('value', lambda value: wrong_keys(value, [
        ('rendered', wrong_string, True), ('string', wrong_string, False), ('span', wrong_span, False)]), False)],
    'tokens': [PATH, CTXT, ('tokens', wrong_string, True)],
    'cfg': [CFG],
    'cfg_attr': [CFG, ('metas', list_of(wrong_meta), False)],
    'unsafe': [('inner', wrong_meta, True)],
}
ITEMS = {kind: [('hash', number_up_to(65535), False), ('number', wrong_u32, False), ATTRS, ('body', wrong_string, False), *keys]
         for kind, keys in {
    'fn': [NAME, VIS], 'union': [NAME, VIS], 'enum': [NAME, VIS], 'const': [NAME, VIS], 'static': [NAME, VIS], 'trait': [NAME, VIS],
    'type_alias': [NAME, VIS], 'macro_def': [NAME, VIS],
    'struct': [NAME, VIS, ('fields', wrong_fields, True)],
    'module': [NAME, VIS, ('semicolon', wrong_truth, False), ITEM_LIST],
    'use': [VIS, ('tree', wrong_tree, False)],
    'extern_crate': [NAME, VIS, ('rename', wrong_name, False)],
    'extern_block': [('items', list_of(wrong_extern_item), False)],
    'impl': [('trait', wrong_truth, False)],
    'macro_call': [PATH, ('expand_to', one_of('Statements', 'Items', 'Pattern', 'Type', 'Expr'), False), CTXT],
    'macro_rules': [NAME],
    'asm': [],
}.items()}
BODY = [('stmts', list_of(wrong_statement), False), ('tail', wrong_tail, False)]
SYNTAXES = {'source_file': [ATTRS, ITEM_LIST], 'macro_items': [ITEM_LIST], 'macro_stmts': BODY, 'error': []}
EDITS = {
    'set_file': [('file', wrong_u32, True), ('syntax', wrong_syntax, True)],
    'remove_file': [('file', wrong_u32, True)],
    'set_block': [('block', wrong_u32, True), ATTRS, *BODY],
    'remove_block': [('block', wrong_u32, True)],
    'set_text': [('file', wrong_u32, True), ('text', wrong_string, True)],
    'change_text': [('file', wrong_u32, True), ('range', wrong_range, True), ('text', wrong_string, True)],
}
LINE_KEYS = ['id', 'crates', 'skipped', 'edition', 'start', 'edits', 'shows']
EDIT_KEYS = ['edit', 'file', 'block', 'crate', 'syntax', 'attrs', 'stmts', 'tail', 'cfg', 'text', 'range']
SHOW_KEYS = ['show', 'crate', 'file', 'block', 'since', 'as', 'name', 'units', 'members']


# ---- errors

FUNCTION = {'is': 'fn', 'name': 'f', 'hash': 48783}
SET = {'edit': 'set_file', 'file': 1, 'syntax': {'root': 'source_file', 'items': [FUNCTION]}}
PAGE = {'show': 'page', 'crate': 0, 'file': 1}
REQUESTED = [PAGE, {**PAGE, 'show': 'tree'}, {**PAGE, 'show': 'imports'}, {'show': 'changed', 'since': 0}]
OWN = [{'show': 'outline', 'crate': 0, 'file': 1}, {'show': 'import_places', 'crate': 0, 'file': 1}, {'show': 'problems', 'file': 1},
       {'show': 'find', 'name': 'f'}]
PAGED = '// AstId: Fn[BE8F, 0]\npub(self) fn f;\n'
FAR = {'edit': 'set_file', 'file': 1, 'syntax': {'root': 'source_file', 'items': [
    {'is': 'use', 'tree': {'path': ['super', 2**32 - 1], 'list': [{'path': ['super', 1, 'x']}]}}]}}
OPENED = {'crates': [{'root': 0}]}

# Lines that are no JSON, each with the column where that is sure.
NO_JSON = [
    (b'', 0), (b'x', 1), (b'{}x', 3), (b'[1,', 3), (b'{"id":}', 7), ('"é" x'.encode(), 6), (b'{"id":"\xff"}', None),
    (b'{"id":"\\ud800"}', None), (b'\xef\xbb\xbf{}', None), (b'{"id":1e400}', None), (b'{"id":01}', None), (b'\x00', None),
    (b'{"id":"\x01"}', None), (b'{} {}', None), (b'{"id":' + b'[' * 127 + b']' * 127 + b'}', None), (b'[' * 5000, None),
]
# Values of wrong form under each key of a first line, each with its pointer from that key on.
WRONG_SETTINGS = {
    'crates': [
        (0, ''), ({}, ''), ([1], '/0'), ([None], '/0'), ([[]], '/0'), ([{}], '/0/root'), ([{'root': None, 'cfg': 0}], '/0/root'),
        ([{'root': -1}], '/0/root'), ([{'root': 2**32}], '/0/root'), ([{'root': True}], '/0/root'), ([{'root': 0.5}], '/0/root'),
        ([{'root': 0}, 'x'], '/1'), ([{'root': 0}] * 11 + [{'root': 0, 'cfg': ['a', None]}], '/11/cfg/1'),
        ([{'root': 0, 'cfg': 'test'}], '/0/cfg'), ([{'root': 0, 'cfg': ['']}], '/0/cfg/0'), ([{'root': 0, 'attrs': {}}], '/0/attrs'),
        ([{'root': 0, 'attrs': [{}]}], '/0/attrs/0/meta'), ([{'attrs': 0, 'cfg': 0, 'root': ''}], '/0/root'),
        ([{'attrs': 0, 'cfg': [{'value': 0}], 'root': 0}], '/0/cfg/0/key'), ([{'root': 0, 'attrs': [0]}, {}], '/0/attrs/0'),
    ],
    'skipped': [('doc', ''), ({}, ''), ([''], '/0'), ([1], '/0'), (['a\nb'], '/0'), ([None], '/0'), (['a', 'b', ['c']], '/2')],
    'edition': [
        (2021, ''), ([], ''), ({'year': 2020}, '/year'), ({'year': '2021'}, '/year'), ({'year': -2021}, '/year'), ({'year': 1e3}, '/year'),
        ({'reserved': 'a'}, '/reserved'), ({'reserved': ['']}, '/reserved/0'), ({'reserved': ['a', None]}, '/reserved/1'),
        ({'reserved': 0, 'year': 0}, '/year'), ({'reserved': {}, 'year': None}, '/reserved'),
    ],
    'start': [(-1, ''), (2**64, ''), ('0', ''), ([], ''), (1.5, ''), (True, ''), (-2**63, '')],
}
# Values of wrong form for each form, each with its pointer from the value on.
WRONG_NAMES = [('', ''), ('a\nb', ''), (1, ''), (True, ''), (['a'], ''), ({}, '')]
WRONG_ATOMS = [
    (None, ''), (0, ''), ([], ''), ('', ''), ('a\nb', ''), ({}, '/key'), ({'key': ''}, '/key'), ({'not': 'a'}, '/key'),
    ({'value': 0, 'key': 0}, '/key'), ({'key': None, 'value': 'x'}, '/key'), ({'key': 'a'}, '/value'), ({'key': 'a', 'value': 1}, '/value'),
    ({'key': 'a', 'value': None}, '/value'),
]
WRONG_CFGS = [
    (0, ''), ([], ''), (True, ''), ('', ''), ('a\nb', ''), ({}, ''), ({'value': 'x'}, ''), ({'all': None}, ''),
    ({'key': None, 'any': None, 'Not': 'a'}, ''), ({'key': ''}, '/key'), ({'value': 1, 'key': 1}, '/key'), ({'key': 'a'}, '/value'),
    ({'key': 'a', 'value': None}, '/value'), ({'key': 'a', 'value': ['x']}, '/value'), ({'not': 'b', 'key': 'a'}, '/value'),
    ({'all': 'a'}, '/all'), ({'any': {}}, '/any'), ({'all': [None, 'a', 0]}, '/all/2'), ({'any': [{}]}, '/any/0'),
    ({'any': 0, 'all': [0]}, '/all/0'), ({'not': 0, 'any': ['a', '']}, '/any/1'), ({'key': None, 'all': None, 'not': 0}, '/not'),
    ({'not': {'not': {'not': {'all': None}}}}, '/not/not/not'),
    ({'all': [{'any': [{'not': None}, {'not': {'key': 'a'}}]}]}, '/all/0/any/1/not/value'),
]
WRONG_PATHS = [
    (0, ''), ('', ''), ('plain', ''), ({}, ''), ([], ''), ([None], '/0'), ([['plain', 'a']], '/0'), (['unreadable'], '/0'),
    (['what', 0], '/0'), (['plain'], ''), (['plain', 1], '/1'), (['plain', 'a', ''], '/2'), (['plain', 'a', 'b', None, 0], '/3'),
    (['super'], ''), (['super', 'a'], '/1'), (['super', -1], '/1'), (['super', 2**32, ''], '/1'), (['super', True], '/1'),
    (['super', None, 'a'], '/1'), (['super', 1, 'a', 'b\nc'], '/3'), (['crate', ''], '/1'), (['crate', 'a', 0], '/2'), (['abs', {}], '/1'),
    (['abs', 'a', None], '/2'), (['dollar'], ''), (['dollar', 'a'], '/1'), (['dollar', 2**32, ''], '/1'), (['dollar', 9, 'a', 1], '/3'),
]
WRONG_VISES = [
    (0, ''), ('', ''), ('public', ''), (['crate'], ''), (True, ''), ({'in': 'a'}, '/in'), ({'in': 0}, '/in'), ({'in': []}, '/in'),
    ({'in': ['plain']}, '/in'), ({'in': ['super', 1, '']}, '/in/2'), ({}, '/in'), ({'in': None, 'path': ['crate']}, '/in'),
]
WRONG_TREES = [
    (0, ''), ('a', ''), ([], ''), ({'path': 'a'}, '/path'), ({'path': ['super', '1']}, '/path/1'), ({'star': 1}, '/star'),
    ({'star': 'true'}, '/star'), ({'rename': ''}, '/rename'), ({'rename': True}, '/rename'), ({'rename': 'a\nb'}, '/rename'),
    ({'list': {}}, '/list'), ({'list': [None]}, '/list/0'), ({'list': [{}, 'a']}, '/list/1'),
    ({'list': 0, 'rename': 0, 'star': 0, 'path': 0}, '/path'), ({'list': 0, 'rename': 0, 'star': 0}, '/star'),
    ({'list': [0], 'rename': 0}, '/rename'), ({'path': 'unreadable', 'list': [0]}, '/list/0'),
    ({'list': [{}, {'list': [{}, {}, {'list': [{'star': 0}]}]}]}, '/list/1/list/2/list/0/star'),
    ({'list': [{'list': [{'list': [{'path': ['abs', 'a', 0]}]}, 0]}, 0]}, '/list/0/list/0/list/0/path/2'),
]
WRONG_METAS = [
    (0, ''), (None, ''), ('path', ''), ([], ''), ({}, '/meta'), ({'meta': None, 'path': 0}, '/meta'), ({'meta': 'doc'}, '/meta'),
    ({'meta': ['path']}, '/meta'), ({'meta': 'path', 'path': 'a'}, '/path'), ({'ctxt': '', 'path': ['plain'], 'meta': 'path'}, '/path'),
    ({'meta': 'path', 'ctxt': 'ROOT2022'}, '/ctxt'), ({'meta': 'path', 'ctxt': -1}, '/ctxt'), ({'meta': 'path', 'ctxt': 2**32}, '/ctxt'),
    ({'meta': 'key_value', 'value': 0, 'ctxt': '', 'path': 0}, '/path'), ({'meta': 'key_value', 'value': 0, 'ctxt': True}, '/ctxt'),
    ({'meta': 'key_value', 'value': '1'}, '/value'), ({'meta': 'key_value', 'value': []}, '/value'),
    ({'meta': 'key_value', 'value': {}}, '/value/rendered'),
    ({'meta': 'key_value', 'value': {'span': 0, 'rendered': None}}, '/value/rendered'),
    ({'meta': 'key_value', 'value': {'span': 0, 'string': 0, 'rendered': 1}}, '/value/rendered'),
    ({'meta': 'key_value', 'value': {'span': 0, 'string': 0, 'rendered': ''}}, '/value/string'),
    *(({'meta': 'key_value', 'value': {'rendered': '', 'span': span}}, '/value/span' + pointer) for span, pointer in [
        (0, ''), ({}, ''), ([], ''), ([0], ''), ([0, 1, 2], ''), (['', '', ''], ''), ([None, 0], '/0'), ([-1, -1], '/0'),
        ([0, '1'], '/1'), ([0, 2**32], '/1')]),
    ({'meta': 'tokens'}, '/tokens'), ({'meta': 'tokens', 'tokens': None}, '/tokens'), ({'meta': 'tokens', 'tokens': 0}, '/tokens'),
    ({'meta': 'tokens', 'ctxt': '', 'path': 0}, '/path'), ({'meta': 'tokens', 'ctxt': 'ROOT'}, '/ctxt'),
    ({'meta': 'cfg', 'cfg': 0}, '/cfg'),
    ({'meta': 'cfg', 'cfg': {}}, '/cfg'), ({'meta': 'cfg_attr', 'metas': 0, 'cfg': ''}, '/cfg'),
    ({'meta': 'cfg_attr', 'metas': {}}, '/metas'), ({'meta': 'cfg_attr', 'metas': [None]}, '/metas/0'), ({'meta': 'unsafe'}, '/inner'),
    ({'meta': 'unsafe', 'inner': None}, '/inner'), ({'meta': 'unsafe', 'inner': 'a'}, '/inner'),
    ({'meta': 'unsafe', 'inner': {'meta': 'unsafe', 'inner': {}}}, '/inner/inner/meta'),
    ({'meta': 'cfg_attr', 'metas': [{'meta': 'path'}, {'meta': 'cfg_attr', 'metas': [{'meta': 'unsafe', 'inner': {'meta': 'tokens'}}]}]},
     '/metas/1/metas/0/inner/tokens'),
]
# What every item may have, and further keys of some items, all of wrong form.
WRONG_COMMON = [('hash', 65536), ('number', 2**32), ('attrs', {}), ('body', 0)]
WRONG_OTHERS = {'trait': 0, 'path': 0, 'tree': 0, 'items': 0, 'fields': 0, 'vis': 0, 'name': 0}
NAMED = ['fn', 'union', 'enum', 'const', 'static', 'trait', 'type_alias', 'macro_def', 'struct', 'module', 'extern_crate']
WRONG_ITEMS = [
    (0, ''), (None, ''), ('fn', ''), ([], ''), ({}, '/is'), ({'is': None, 'hash': ''}, '/is'), ({'is': 'macro', 'hash': ''}, '/is'),
    ({'is': 0}, '/is'), ({'name': 'f'}, '/is'),
    *(({**WRONG_OTHERS, **dict(WRONG_COMMON[at:]), 'is': kind}, '/' + key) for at, (key, _) in enumerate(WRONG_COMMON)
      for kind in NAMED + ['use', 'extern_block', 'impl', 'macro_call', 'macro_rules', 'asm']),
    *(({'is': kind, 'vis': 0, 'name': 'f'}, '/vis') for kind in NAMED), *(({'is': kind, 'vis': 0, 'name': ''}, '/name') for kind in NAMED),
    ({'is': 'fn', 'name': 0, 'body': 0, 'attrs': 0, 'number': '', 'hash': '0'}, '/hash'), ({'is': 'fn', 'hash': -1}, '/hash'),
    ({'is': 'fn', 'name': 0, 'body': 0, 'attrs': 0, 'number': True}, '/number'),
    ({'is': 'fn', 'name': 0, 'body': 0, 'attrs': [0]}, '/attrs/0'), ({'is': 'fn', 'name': 0, 'body': []}, '/body'),
    *(({'is': 'struct', 'fields': fields}, '/fields' + pointer) for fields, pointer in [
        (None, ''), ('tuple', ''), ({}, ''), (0, ''), (['pub', 1], '/1'), ([None, 'private'], '/1'),
        ([{'in': ['dollar', 0, '']}], '/0/in/2')]),
    ({'is': 'struct'}, '/fields'), ({'is': 'module', 'items': 0, 'semicolon': 1}, '/semicolon'), ({'is': 'module', 'items': {}}, '/items'),
    ({'is': 'module', 'semicolon': 0, 'vis': 0}, '/vis'),
    ({'is': 'module', 'items': [0], 'semicolon': True}, '/items/0'),
    ({'is': 'module', 'items': [FUNCTION, {'is': 'module', 'items': [FUNCTION, FUNCTION, {'is': 'struct'}]}]}, '/items/1/items/2/fields'),
    ({'is': 'use', 'tree': 0, 'vis': 0}, '/vis'), ({'is': 'use', 'tree': 'a'}, '/tree'), ({'is': 'extern_crate', 'rename': 1}, '/rename'),
    ({'is': 'extern_crate', 'rename': ''}, '/rename'), ({'is': 'extern_crate', 'rename': 0, 'vis': 'x', 'name': 'a'}, '/vis'),
    ({'is': 'extern_block', 'items': 0}, '/items'), ({'is': 'extern_block', 'items': [None]}, '/items/0'),
    ({'is': 'extern_block', 'items': [FUNCTION, {}]}, '/items/1/is'),
    *(({'is': 'extern_block', 'items': [{'is': kind, 'fields': 'unit'}]}, '/items/0/is') for kind in ['struct', 'const', 'module', 'use']),
    ({'is': 'extern_block', 'items': [FUNCTION, {'is': 'static', 'name': ''}]}, '/items/1/name'),
    ({'is': 'extern_block', 'items': [{'is': 'type_alias', 'hash': -1}]}, '/items/0/hash'),
    ({'is': 'extern_block', 'items': [{'is': 'macro_call', 'path': ['abs', 0]}]}, '/items/0/path/1'),
    ({'is': 'impl', 'trait': 'true'}, '/trait'), ({'is': 'impl', 'trait': 1}, '/trait'),
    ({'is': 'macro_call', 'ctxt': '', 'expand_to': '', 'path': ''}, '/path'),
    ({'is': 'macro_call', 'ctxt': '', 'expand_to': 'Ty'}, '/expand_to'), ({'is': 'macro_call', 'expand_to': 0}, '/expand_to'),
    ({'is': 'macro_call', 'ctxt': 'ROOT2022'}, '/ctxt'), ({'is': 'macro_call', 'ctxt': 2**32}, '/ctxt'),
    ({'is': 'macro_rules', 'vis': 0, 'name': ['f']}, '/name'),
]
WRONG_STATEMENTS = [
    (0, ''), (None, ''), ('else', ''), ([], ''), ({}, ''), ({'item': None, 'call': None, 'tail': 'other'}, ''), ({'item': 0}, '/item'),
    ({'item': 'other'}, '/item'), ({'item': {}}, '/item/is'), ({'call': 0, 'item': {'is': 'struct'}}, '/item/fields'),
    ({'call': 'm'}, '/call'), ({'call': []}, '/call'), ({'call': {'is': 'fn', 'hash': -1}, 'item': None}, '/call/is'),
    ({'call': {'is': 0}}, '/call/is'),
    *(({'call': {**WRONG_OTHERS, **dict(WRONG_COMMON[at:])}}, '/call/' + key) for at, (key, _) in enumerate(WRONG_COMMON)),
    ({'call': {'expand_to': 0, 'path': ['plain']}}, '/call/path'), ({'call': {'ctxt': '', 'expand_to': 'Item'}}, '/call/expand_to'),
    ({'call': {'is': 'macro_call', 'ctxt': ''}}, '/call/ctxt'),
]
WRONG_TAILS = [
    (0, ''), ('', ''), ('item', ''), (['other'], ''), ({'call': 'other'}, '/call'), ({'call': {'is': 'asm'}}, '/call/is'),
    ({'call': {'path': ['abs', 0]}, 'item': 0}, '/call/path/1'), ({}, '/call'), ({'call': None, 'item': FUNCTION}, '/call'),
]
WRONG_SYNTAXES = [
    (0, ''), ('error', ''), ([], ''), ({}, '/root'), ({'root': None, 'items': 0}, '/root'), ({'root': 'file', 'items': 0}, '/root'),
    ({'root': 0}, '/root'), ({'items': 0, 'attrs': 0, 'root': 'source_file'}, '/attrs'),
    ({'root': 'source_file', 'attrs': [0]}, '/attrs/0'),
    ({'root': 'source_file', 'items': {}}, '/items'), ({'root': 'source_file', 'items': [FUNCTION] * 12 + [0]}, '/items/12'),
    ({'root': 'macro_items', 'items': 0, 'attrs': 0}, '/items'), ({'root': 'macro_items', 'items': [FUNCTION, None]}, '/items/1'),
    ({'root': 'macro_stmts', 'tail': 0, 'stmts': 'other', 'attrs': 0}, '/stmts'),
    ({'root': 'macro_stmts', 'tail': 0, 'stmts': ['']}, '/stmts/0'), ({'root': 'macro_stmts', 'tail': {'call': 0}}, '/tail/call'),
]
WRONG_EDITS = [
    (0, ''), (None, ''), ('set_file', ''), ([], ''), ({}, '/edit'), ({'edit': 'set'}, '/edit'), ({'edit': None}, '/edit'),
    ({**SET, 'files': 1}, '/files'), ({'edti': 'set_file', 'fil': 0, 'edit': 0}, '/edti'), ({'Edit': 'set', 'é': 0, 'z': 0}, '/Edit'),
    ({**SET, 'é': 0, '😀': 0}, '/é'), ({**SET, 'a/~b~1': 0}, '/a~1~0b~01'), ({**SET, '': 0}, '/'),
    ({**SET, 'shows': None, 'edits': []}, '/edits'),
    ({'edit': []}, '/edit'), ({'edit': 'set_file', 'file': 1}, '/syntax'), ({**SET, 'file': -1}, '/file'),
    ({**SET, 'file': 2**32}, '/file'), ({**SET, 'file': None}, '/file'), ({**SET, 'syntax': None}, '/syntax'),
    ({'syntax': 0, 'file': '1', 'edit': 'set_file'}, '/file'),
    ({**SET, 'noted': 0.5}, ''), ({**SET, 'noted': [{'deep': 2**64}]}, ''), ({**SET, 'edit': 1e3}, ''), ({**SET, 'file': -2**63 - 1}, ''),
    ({**SET, 'file': -1, 'syntax': {'root': 'source_file', 'items': [{'is': 'fn', 'hash': 1.0}]}}, ''),
    ({'edit': 'remove_file'}, '/file'), ({'edit': 'remove_file', 'file': 1.0}, ''), ({'edit': 'remove_file', 'block': 1}, '/file'),
    ({'edit': 'set_block'}, '/block'), ({'edit': 'set_block', 'block': 0, 'stmts': [1]}, '/stmts/0'),
    ({'tail': 0, 'stmts': 0, 'attrs': 0, 'block': -1, 'edit': 'set_block'}, '/block'),
    ({'tail': 0, 'stmts': 0, 'attrs': 0, 'block': 1, 'edit': 'set_block'}, '/attrs'),
    ({'edit': 'set_block', 'block': 0, 'attrs': [{'meta': 'path'}, 0]}, '/attrs/1'),
    ({'tail': 0, 'stmts': {}, 'block': 1, 'edit': 'set_block'}, '/stmts'), ({'edit': 'set_block', 'block': 0, 'tail': []}, '/tail'),
    ({'edit': 'remove_block', 'block': '0'}, '/block'), ({'edit': 'remove_block', 'file': 0}, '/block'),
    ({'edit': 'set_cfg'}, '/crate'), ({'edit': 'set_cfg', 'crate': 1}, '/crate'), ({'edit': 'set_cfg', 'crate': -1}, '/crate'),
    ({'cfg': 0, 'crate': 2**32, 'edit': 'set_cfg'}, '/crate'), ({'edit': 'set_cfg', 'crate': 0, 'cfg': 'x'}, '/cfg'),
    ({'edit': 'set_text'}, '/file'), ({'edit': 'set_text', 'file': 1}, '/text'), ({'edit': 'set_text', 'file': 1, 'text': None}, '/text'),
    ({'edit': 'set_text', 'file': 1, 'text': ['fn f() {}']}, '/text'), ({'edit': 'set_text', 'text': 'fn f() {}'}, '/file'),
    ({'edit': 'set_text', 'file': -1, 'text': 0}, '/file'), ({'edit': 'set_text', 'block': 1, 'text': ''}, '/file'),
    ({'edit': 'change_text', 'text': 0, 'range': 0}, '/file'), ({'edit': 'change_text', 'file': 2**32, 'range': 0, 'text': 0}, '/file'),
    *(({'edit': 'change_text', 'file': 1, 'text': 0, 'range': span}, '/range' + pointer) for span, pointer in [
        (None, ''), (0, ''), ('0..1', ''), ({}, ''), ([], ''), ([0], ''), ([0, 0, 0], ''), (['', '', ''], ''), ([None, 0], '/0'),
        ([-1, ''], '/0'), ([0, '1'], '/1'), ([LAST, True], '/1')]),
    ({'edit': 'change_text', 'file': 1, 'range': [0, 0.5], 'text': ''}, ''), ({'edit': 'change_text', 'file': 1, 'range': [0, 2**64]}, ''),
    ({'edit': 'change_text', 'file': 1, 'text': ''}, '/range'), ({'edit': 'change_text', 'file': 1, 'range': [0, 0]}, '/text'),
    ({'edit': 'change_text', 'file': 1, 'range': [LAST, 0], 'text': 0}, '/text'),
]
WRONG_SHOWS = [
    (0, ''), (None, ''), ('page', ''), ([], ''), ({}, '/show'), ({'show': 'all', 'crate': -1}, '/show'), ({'show': 1}, '/show'),
    ({**PAGE, 'crates': 0}, '/crates'), ({'sow': 'page', 'edit': 'set_file'}, '/edit'), ({**PAGE, 'text': '', 'Show': ''}, '/Show'),
    ({'show': None}, '/show'), ({'show': 'page', 'crate': 0}, '/block'), ({'show': 'page'}, '/crate'), ({**PAGE, 'crate': 1}, '/crate'),
    ({**PAGE, 'crate': None}, '/crate'), ({'file': '', 'crate': 1, 'show': 'page'}, '/crate'), ({**PAGE, 'file': 'x'}, '/file'),
    ({**PAGE, 'file': -1, 'block': 0}, '/file'), ({**PAGE, 'file': None, 'block': ''}, '/block'), ({**PAGE, 'noted': 1e3}, ''),
    ({**PAGE, 'crate': -1, 'noted': [2**64]}, ''), ({**PAGE, 'show': [0.5]}, ''), ({'show': 'tree', 'file': 1}, '/crate'),
    ({'show': 'tree', 'crate': 0, 'file': None, 'block': None}, '/block'), ({'show': 'tree', 'crate': True, 'file': 1}, '/crate'),
    ({'show': 'imports', 'crate': 0, 'block': -1}, '/block'), ({'show': 'imports', 'crate': 0, 'file': 2**32}, '/file'),
    ({'show': 'changed'}, '/since'), ({'show': 'changed', 'since': -1}, '/since'), ({'show': 'changed', 'since': 2**64}, ''),
    ({'show': 'changed', 'since': '0'}, '/since'), ({'show': 'changed', 'since': None}, '/since'),
    ({'show': 'outline', 'crate': 0}, '/file'), ({'show': 'outline', 'crate': 1, 'file': 1}, '/crate'),
    ({'show': 'outline', 'crate': 0, 'block': 1}, '/file'),
    ({'show': 'outline', 'file': 1}, '/crate'), ({'show': 'import_places', 'crate': 0}, '/file'),
    ({'show': 'import_places', 'crate': 1, 'file': 1}, '/crate'), ({'show': 'import_places', 'crate': 0, 'file': ''}, '/file'),
    *(({**show, 'units': word}, '/units') for show in OWN for word in ('', 'UTF-16', 'utf-8', 'columns', 16, True, ['bytes'])),
    *(({**show, 'units': word}, '/units') for show in (*REQUESTED, {**REQUESTED[3], 'as': 'json'}) for word in ('characters', 'bytes')),
    *(({**show, 'units': word}, '/units') for show in ({**show, 'as': 'json'} for show in REQUESTED) for word in ('', 'utf16', 8)),
    ({**PAGE, 'as': 'json', 'units': 'bytes'}, '/as'), ({**REQUESTED[1], 'as': 'text', 'units': 'bytes'}, '/units'),
    ({**REQUESTED[2], 'as': 'xml', 'units': 'bytes'}, '/as'), ({**REQUESTED[2], 'as': 'json', 'units': 'bytes', 'members': True}, '/members'),
    *(({**show, 'members': True}, '/members') for show in (*REQUESTED, *OWN[1:3])),
    *(({**show, 'members': word}, '/members') for show in (OWN[0], OWN[3], {**OWN[3], 'name': 'f*'}) for word in ('true', 0, 1, [], {})),
    ({'show': 'find', 'name': '', 'units': 'x'}, '/name'), ({**PAGE, 'members': False, 'as': 'json'}, '/members'),
    ({'show': 'problems'}, '/file'), ({'show': 'problems', 'file': -1}, '/file'), ({'show': 'problems', 'block': 0}, '/file'),
    ({'show': 'find'}, '/name'), ({'show': 'find', 'name': 1}, '/name'), ({'show': 'find', 'name': None}, '/name'),
    ({'show': 'find', 'name': ''}, '/name'), ({'show': 'find', 'name': 'a\nb'}, '/name'), ({'show': 'find', 'name': 'r#'}, '/name'),
    *(({'show': 'find', 'name': name}, '/name') for name in (
        'r#\n', 'a b', '"', '#f', 'r#r#f', 'R#f', '::', 'a::', 'crate::', '::crate::', 'a:b', 'a:::b', 'a::::b', ':::a', 'a::b c', 'a<b>',
        'a::r#', '1', 'a-b', ' a', 'a ', '$crate::a', 'crate', 'r#crate::a', 'crate::crate', 'self::a', 'a::crate::b', 'super::a', 'a::Self',
        '*::a', 'a?::b', '* a', 'a-*', '1*', '*::', '::::*', 'a:*', 'r#r#*', '#*', '[ab]', 'a{b,c}')),
    *(({**show, 'as': word}, '/as') for show in REQUESTED for word in ('', 'xml', 'JSON', 0, True, ['json'], {})),
    ({'show': 'changed', 'since': '', 'as': ''}, '/since'), ({'show': 'tree', 'crate': 0, 'as': 0}, '/block'),
    ({**PAGE, 'as': 'json'}, '/as'), ({'show': 'page', 'crate': 0, 'block': 0, 'as': 'json'}, '/as'),
    *(({**show, 'as': word}, '/as') for show in OWN for word in ('text', 'json', '', 0, False, [])),
    ({'show': 'outline', 'crate': 0, 'as': 'json'}, '/file'), ({'show': 'find', 'name': '', 'as': 'json'}, '/name'),
    ({'show': 'problems', 'as': 'json', 'file': -1}, '/file'), ({'show': 'import_places', 'crate': 1, 'as': 'json'}, '/crate'),
]
# Values of right form, each form at least once in every way.
GOOD_CFGS = [
    None, 'a', {'key': 'a', 'value': '', 'all': 0}, {'all': [None, 'a', {'any': []}]}, {'any': [{'not': None}], 'not': 0},
    {'key': None, 'all': None, 'any': None, 'not': {'not': 'é'}}, {'not': None, 'value': 0},
]
GOOD_PATHS = [['plain', 'a'], 'unreadable', ['super', 0], ['super', 3, 'a'], ['crate'], ['crate', 'a', 'b'], ['abs'], ['abs', 'a'],
              ['dollar', 2**32 - 1], ['dollar', 0, 'a', 'b']]
GOOD_METAS = [
    {'meta': 'path'}, {'meta': 'path', 'path': ['plain', 'a'], 'ctxt': 'ROOT2015', 'value': 0}, {'meta': 'path', 'ctxt': 2**32 - 1},
    {'meta': 'key_value', 'path': ['abs'], 'ctxt': 'ROOT2018', 'value': None}, {'meta': 'key_value', 'value': {'rendered': '1'}, 'ctxt': 0},
    {'meta': 'key_value', 'value': {'rendered': '', 'string': '\n', 'span': [0, 2**32 - 1]}, 'ctxt': 'ROOT2021'},
    {'meta': 'tokens', 'tokens': '', 'path': 'unreadable', 'ctxt': 'ROOT2024'}, {'meta': 'unsafe', 'inner': {'meta': 'unsafe', 'inner': {
        'meta': 'cfg_attr', 'metas': [{'meta': 'path'}, {'meta': 'cfg', 'path': 0}]}}},
    *({'meta': 'cfg_attr', 'cfg': cfg, 'metas': None} for cfg in GOOD_CFGS),
]
GOOD_CALLS = [{}, {'is': None, 'path': ['plain', 'm'], 'expand_to': 'Statements', 'ctxt': 5, 'hash': 1, 'attrs': [], 'name': 0},
              {'is': 'macro_call', 'path': ['crate', 'm'], 'expand_to': 'Items', 'number': 1, 'body': ''}]
GOOD_ITEMS = [
    *({'is': kind, 'name': 'f', 'vis': vis, 'hash': 65535, 'number': 2**32 - 1, 'body': 'a\nb', 'fields': 'record', 'rename': '_'}
      for kind, vis in zip(NAMED, ['pub', 'crate', 'super', 'self', None] + [{'in': path} for path in GOOD_PATHS])),
    *({'is': kind, 'vis': None, 'name': None, 'hash': None, 'attrs': [meta], 'fields': ['pub', None, {'in': ['crate']}]}
      for kind, meta in zip(NAMED, GOOD_METAS)),
    {'is': 'struct', 'fields': 'unit', 'attrs': GOOD_METAS[len(NAMED):]}, {'is': 'struct', 'fields': []},
    {'is': 'module', 'name': 'm', 'semicolon': True, 'items': [{'is': 'asm'}]},
    {'is': 'module', 'name': 'm', 'semicolon': False, 'items': [{'is': 'module', 'name': 'n', 'items': [FUNCTION]}]},
    {'is': 'use'}, {'is': 'use', 'vis': 'pub', 'tree': {'path': ['plain', 'a'], 'list': [
        {'star': True}, {'list': [{'rename': '_', 'star': False, 'list': []}]}, *({'path': path, 'rename': 'b'} for path in GOOD_PATHS)]}},
    {'is': 'extern_block', 'items': [FUNCTION, {'is': 'static', 'name': 'f'}, {'is': 'type_alias'}, {'is': 'macro_call'}], 'vis': 0},
    {'is': 'extern_block'}, {'is': 'impl', 'trait': True, 'name': 0}, {'is': 'macro_rules', 'name': 'r', 'vis': 0},
    {'is': 'asm', 'number': 0}, {'is': 'impl'}, {'is': 'macro_rules'},
    *({'is': 'macro_call', 'path': path, 'expand_to': word} for path, word in zip(GOOD_PATHS, ['Pattern', 'Type', 'Expr', None])),
]
GOOD_EDITS = [
    {'edit': 'set_block', 'block': 2**32 - 1},
    {'edit': 'set_block', 'block': 0, 'attrs': GOOD_METAS, 'tail': {'call': GOOD_CALLS[1], 'item': 0}, 'items': None,
     'stmts': ['other', {'item': FUNCTION, 'call': 0}, *({'call': call, 'item': None} for call in GOOD_CALLS)]},
    {'edit': 'set_file', 'file': 2, 'syntax': {'root': 'source_file', 'attrs': GOOD_METAS, 'items': GOOD_ITEMS, 'stmts': 0}, 'crate': 9},
    {'edit': 'set_file', 'file': 3, 'syntax': {'root': 'macro_items', 'attrs': 0, 'items': GOOD_ITEMS[::-1]}},
    {'edit': 'set_file', 'file': 2**32 - 1, 'syntax': {'root': 'macro_stmts', 'tail': 'other', 'attrs': 0, 'stmts': [
        {'item': item} for item in GOOD_ITEMS]}},
    {'edit': 'set_file', 'file': 3, 'syntax': {'root': 'error', 'items': 0, 'tail': 0}}, {'edit': 'remove_file', 'file': 3, 'syntax': 0},
    {'edit': 'remove_block', 'block': 0, 'file': ''}, {'edit': 'set_cfg', 'crate': 0}, {'edit': 'set_text', 'file': 0, 'text': ''},
    {'edit': 'change_text', 'file': 0, 'range': [0, 0], 'text': 'fn f() {}'},
    {'edit': 'set_cfg', 'crate': 0, 'cfg': ['a', {'key': 'a', 'value': 'a\nb', 'not': 0}], 'file': -1},
    *({'edit': 'set_file', 'file': 3, 'syntax': {'root': root}} for root in ('source_file', 'macro_items', 'macro_stmts')),
]
GOOD_SHOWS = [
    PAGE, {'show': 'page', 'crate': 0, 'file': None, 'block': 0}, {'show': 'tree', 'crate': 0, 'file': 2**32 - 1, 'block': ''},
    {'show': 'imports', 'crate': 0, 'block': 2**32 - 1}, {'show': 'changed', 'since': LAST, 'crate': 9},
    {'show': 'outline', 'crate': 0, 'file': 0}, {'show': 'import_places', 'crate': 0, 'file': 0, 'block': -1},
    {'show': 'problems', 'file': 0, 'crate': -1}, {'show': 'outline', 'crate': 0, 'file': 0, 'as': None},
    *({**show, 'as': word} for show in REQUESTED for word in ('text', 'json', None) if (show, word) != (PAGE, 'json')),
    *({**show, 'units': word} for show in (*OWN, *({**show, 'as': 'json'} for show in REQUESTED[1:3]))
      for word in ('characters', 'utf-16', 'bytes', None)),
    *({**show, 'members': flag} for show in (OWN[0], OWN[3]) for flag in (True, False, None)), *({**show, 'units': None, 'members': None} for show in (*REQUESTED, *OWN)),
    *({'show': 'find', 'name': name, 'as': None} for name in (
        'f', '_', 'é', 'r#fn', 'fn', 'a::b', '::a', '::a::r#b', 'crate::a', '*', '?', 'é*', 'r#*', '**', 'a::*', '::?a', 'crate::*b?', '*1')),
]
GOOD_OPENING = {
    'crates': [{'root': 0, 'noted': {}}, {'root': 2**32 - 1, 'cfg': ['a', {'key': 'a', 'value': ''}], 'attrs': GOOD_METAS},
               {'root': 0, 'cfg': None, 'attrs': None}],
    'skipped': ['doc', 'a'], 'edition': {'year': 2018, 'reserved': ['f', 'é']}, 'start': 2**63,
}
GOOD_OPENINGS = [GOOD_OPENING, {}, {'edition': {}, 'crates': []}, {'edition': {'reserved': [], 'year': None}, 'skipped': [], 'start': LAST},
                 *({'edition': {'year': year}} for year in (2015, 2018, 2021, 2024))]
# What Python does not write: some numbers, equal keys, and escapes.
WRONG_TEXTS = [
    (b'{"edits":[{"edit":"remove_file","file":-0}]}', '/edits/0'), (b'{"edits":[{"edit":"remove_file","file":1e0}]}', '/edits/0'),
    (b'{"edits":[{"edit":"remove_file","file":0,"noted":[-0]}]}', '/edits/0'), (b'{"shows":[{"show":"changed","since":-0}]}', '/shows/0'),
    (b'{"shows":[{"show":"changed","since":1E1,"since":-1}]}', '/shows/0/since'),
    (b'{"edits":[{"edit":"remove_file","file":0,"file":"x"}]}', '/edits/0/file'),
    (b'{"edits":[{"edit":"set","edit":"remove_block"}]}', '/edits/0/block'), (b'{"edits":[{"\\u0065dit":"remove_file"}]}', '/edits/0/file'),
]


def file_of(item):
    return {**SET, 'syntax': {'root': 'source_file', 'items': [item]}}


# Where a value of each table can stand in an edit, and the pointer to it from there.
WRONG_PLACES = [
    (WRONG_EDITS, '', lambda value: value),
    (WRONG_SYNTAXES, '/syntax', lambda value: {**SET, 'syntax': value}),
    (WRONG_ITEMS, '/syntax/items/0', file_of),
    (WRONG_NAMES, '/syntax/items/0/name', lambda value: file_of({**FUNCTION, 'name': value})),
    (WRONG_VISES, '/syntax/items/0/vis', lambda value: file_of({**FUNCTION, 'vis': value})),
    (WRONG_PATHS, '/syntax/items/0/tree/path', lambda value: file_of({'is': 'use', 'tree': {'path': value}})),
    (WRONG_PATHS, '/syntax/items/0/path', lambda value: file_of({'is': 'macro_call', 'path': value})),
    (WRONG_PATHS, '/syntax/items/0/fields/1/in', lambda value: file_of({'is': 'struct', 'fields': [None, {'in': value}]})),
    (WRONG_PATHS, '/attrs/0/inner/path', lambda value: {'edit': 'set_block', 'block': 0, 'attrs': [
        {'meta': 'unsafe', 'inner': {'meta': 'tokens', 'path': value}}]}),
    (WRONG_TREES, '/syntax/items/0/tree', lambda value: file_of({'is': 'use', 'tree': value})),
    (WRONG_METAS, '/syntax/items/0/attrs/0', lambda value: file_of({**FUNCTION, 'attrs': [value, 0]})),
    (WRONG_CFGS, '/syntax/items/0/attrs/0/cfg', lambda value: file_of({**FUNCTION, 'attrs': [{'meta': 'cfg', 'cfg': value}]})),
    (WRONG_CFGS, '/attrs/0/cfg', lambda value: {'edit': 'set_block', 'block': 0, 'attrs': [{'meta': 'cfg_attr', 'cfg': value}]}),
    (WRONG_ATOMS, '/cfg/1', lambda value: {'edit': 'set_cfg', 'crate': 0, 'cfg': ['a', value]}),
    (WRONG_STATEMENTS, '/stmts/1', lambda value: {'edit': 'set_block', 'block': 0, 'stmts': ['other', value]}),
    (WRONG_STATEMENTS, '/syntax/stmts/0', lambda value: {**SET, 'syntax': {'root': 'macro_stmts', 'stmts': [value]}}),
    (WRONG_TAILS, '/tail', lambda value: {'edit': 'set_block', 'block': 0, 'tail': value}),
    (WRONG_TAILS, '/syntax/tail', lambda value: {**SET, 'syntax': {'root': 'macro_stmts', 'tail': value}}),
]
# Where a value of a table can stand under a key of a first line.
WRONG_STARTS = [
    (WRONG_ATOMS, 'crates', '/0/cfg/0', lambda value: [{'root': 0, 'cfg': [value]}]),
    (WRONG_METAS, 'crates', '/1/attrs/0', lambda value: [{'root': 0}, {'root': 0, 'attrs': [value]}]),
    (WRONG_NAMES, 'skipped', '/0', lambda value: [value]),
    (WRONG_NAMES, 'edition', '/reserved/1', lambda value: {'reserved': ['a', value]}),
]


def wrong_edits():
    """The edits of wrong form of all tables, for one crate, with their pointers."""
    return [(place(value), before + pointer) for table, before, place in WRONG_PLACES for value, pointer in table]


def wrong_settings():
    """The keys and values of wrong form of a first line, with the pointers from the values on."""
    return ([(key, value, pointer) for key, table in WRONG_SETTINGS.items() for value, pointer in table]
            + [(key, place(value), before + pointer) for table, key, before, place in WRONG_STARTS for value, pointer in table])


WRONG_IDS = ['1.5', '1e2', '-0', '18446744073709551616', '-9223372036854775809', '[0.5]', '{"a":[{"b":1E0}]}']
IDS = [None, True, 0, LAST, -2**63, '', 'é "\\\n\r\t\b\f\0\x1f\x7f\u2028😀', [], {}, [1, [None, False], {'a': {}, 'b': 'c'}]]


def is_no_json(got, number, column):
    """Whether an answer says that its line is no JSON, at that column if one is given."""
    value = json.loads(got)
    at = value.get('error', {}).get('column') if column is None else column
    return isinstance(at, int) and got == refused(number, {'column': at, 'kind': 'not JSON'})


def check_no_json(program):
    for number, opening in ((None, None), (0, OPENED)):
        with Server(program) as server:
            if opening:
                server.ask(opening)
            for line, column in NO_JSON:
                got = server.ask(line)
                tell(is_no_json(got, number, column), f'no JSON: {line!r}', got, refused(number, {'column': column, 'kind': 'not JSON'}))
            got = server.ask({**({} if opening else OPENED), 'edits': [SET], 'shows': [PAGE]})
            tell(got == answered(1, [PAGED]), 'a line after those that are no JSON', got, answered(1, [PAGED]))
            ends_well(server, 'no JSON')


def check_wrong_forms(program):
    first, later = [], []
    for line in (b'[]', b'0', b'null', b'"{}"', b'true', b' [{}] '):
        first.append((line, no_request(None, '')))
        later.append((line, no_request(0, '')))
    for told in WRONG_IDS:
        line = f'{{"id":{told},"crates":0,"edits":0}}'.encode()
        first.append((line, no_request(None, '/id')))
        later.append((line, no_request(0, '/id')))
    for key, value, pointer in wrong_settings():
        first.append(({'id': key, key: value, 'edits': 0}, no_request(None, '/' + key + pointer, key)))
        later.append(({'id': key, key: value}, no_request(0, '/' + key, key)))
    for key, value in (('crates', []), ('crates', [{'root': 0}]), ('skipped', []), ('edition', {}), ('start', 0)):
        later.append(({key: value, 'edits': [SET]}, no_request(0, '/' + key)))
    for key in ('edits', 'shows'):
        for value in ({}, 1, 'x', True):
            first.append(({'id': 7, key: value}, no_request(None, '/' + key, 7)))
            later.append(({'id': 7, key: value}, no_request(0, '/' + key, 7)))
    for edit, pointer in wrong_edits():
        first.append(({**OPENED, 'edits': [edit, 0], 'shows': 0}, no_request(None, '/edits/0' + pointer)))
        later.append(({'edits': [SET, SET, edit], 'shows': [0]}, no_request(0, '/edits/2' + pointer)))
    for show, pointer in WRONG_SHOWS:
        first.append(({**OPENED, 'edits': [SET], 'shows': [PAGE, show, 0]}, no_request(None, '/shows/1' + pointer)))
        later.append(({'id': [], 'edits': [SET], 'shows': [show]}, no_request(0, '/shows/0' + pointer, [])))
    for line, pointer in WRONG_TEXTS:
        first.append((line, no_request(None, pointer)))
        later.append((line, no_request(0, pointer)))
    for line, pointer in (({'edit': 'set_text', 'file': 0, 'text': ''}, '/edit'), ({'edits': 0, 'edit': []}, '/edit'),
                          ({'a~/': 0}, '/a~0~1'), ({'Id': 1, 'noted': [], 'show': 'page'}, '/Id'),
                          ({'crates': 0, 'edits': 0, 'z': [0.5], 'y': None}, '/z')):
        first.append(({**line, 'id': 1}, no_request(None, pointer, 1)))
        later.append(({**line, 'id': 1}, no_request(0, pointer, 1)))
    first.append(({'shows': [PAGE]}, no_request(None, '/shows/0/crate')))
    first.append(({'edits': [{'edit': 'set_cfg', 'crate': 0}]}, no_request(None, '/edits/0/crate')))
    later.append(({'edits': [SET] * 10 + [{'edit': 'set_cfg', 'crate': 1}]}, no_request(0, '/edits/10/crate')))
    check_lines(program, 'a first line of wrong form', first + [({**OPENED, 'edits': [SET], 'shows': [PAGE]}, answered(1, [PAGED]))])
    check_lines(program, 'a later line of wrong form', [(OPENED, answered(0, []))] + later + [
        ({'shows': [PAGE, {'show': 'changed', 'since': 0}]}, answered(0, [unset(file=1), ''])),
        ({'edits': [SET], 'shows': [PAGE]}, answered(1, [PAGED]))])


def nested(count, value, around):
    for _ in range(count):
        value = around(value)
    return value


def check_deep_forms(program):
    """Pointers into values that are nested as deep as JSON may be here, and behind many members."""
    modules = nested(60, {'is': 'struct'}, lambda item: {'is': 'module', 'items': [item]})
    trees = nested(58, {'path': []}, lambda tree: {'list': [{}, tree]})
    nots = nested(118, {}, lambda cfg: {'not': cfg})
    unsafes = nested(117, {'meta': 'path', 'path': 0}, lambda meta: {'meta': 'unsafe', 'inner': meta})
    wrong = [
        (file_of(modules), '/syntax/items/0' + '/items/0' * 60 + '/fields'),
        (file_of({'is': 'use', 'tree': trees}), '/syntax/items/0/tree' + '/list/1' * 58 + '/path'),
        (file_of({**FUNCTION, 'attrs': [{'meta': 'cfg', 'cfg': nots}]}), '/syntax/items/0/attrs/0/cfg' + '/not' * 118),
        (file_of({**FUNCTION, 'attrs': [unsafes]}), '/syntax/items/0/attrs/0' + '/inner' * 117 + '/path'),
        ({**SET, 'syntax': {'root': 'source_file', 'items': [FUNCTION] * 12345 + [0]}}, '/syntax/items/12345'),
    ]
    check_lines(program, 'a deep form', [(OPENED, answered(0, []))] + [
        ({'edits': [edit]}, no_request(0, '/edits/0' + pointer)) for edit, pointer in wrong])


def check_first_wrong_form(program):
    """Of several wrong forms the first is told, and a null is none."""
    keys = ['id', 'crates', 'skipped', 'edition', 'start', 'edits', 'shows']
    for number, opening in ((None, []), (3, [({'start': 3}, answered(3, []))])):
        lines = list(opening)
        for at, key in enumerate(keys):
            wrong = {other: 0.5 for other in reversed(keys[at:])}
            lines.append(({**{other: None for other in keys[:at]}, **wrong}, no_request(number, '/' + key)))
        lines.append(({'edits': [0, 0], 'shows': [0]}, no_request(number, '/edits/0')))
        lines.append(({'shows': [0], 'edits': [SET, {'edit': 'set_file'}, 0.5]}, no_request(number, '/edits/1/file')))
        lines.append(({'edits': [], 'shows': [0, 0]}, no_request(number, '/shows/0')))
        lines.append(({'shows': [{'show': 'changed'}, 0.5]}, no_request(number, '/shows/0/since')))
        lines.append(({key: None for key in keys}, answered(number or 0, [])))
        check_lines(program, 'the first wrong form', lines)
    settings = [('crates', [{'root': 0}, {}], '/crates/1/root'), ('skipped', ['a', 0], '/skipped/1'),
                ('edition', {'year': 0}, '/edition/year'), ('start', -1, '/start'), ('edits', [{}], '/edits/0/edit'),
                ('shows', [{}], '/shows/0/show')]
    check_lines(program, 'the first wrong form in a first line', [
        ({key: value for key, value, _ in reversed(settings[at:])}, no_request(None, settings[at][2])) for at in range(len(settings))])


def check_forms():
    """What is written here by hand is what the forms say."""
    told = [(pointer, wrong_edit(edit, 1), edit) for edit, pointer in wrong_edits()]
    told += [(pointer, wrong_show(show, 1), show) for show, pointer in WRONG_SHOWS]
    told += [(f'/{key}{pointer}', wrong_opening({key: value}), {key: value}) for key, value, pointer in wrong_settings()]
    told += [(None, wrong_edit(edit, 1), edit) for edit in GOOD_EDITS] + [(None, wrong_show(show, 1), show) for show in GOOD_SHOWS]
    told += [(None, wrong_opening(opening), opening) for opening in GOOD_OPENINGS]
    faults = [f'{wanted}, and the forms say {pointer_of(steps)}: {value}' for wanted, steps, value in told if pointer_of(steps) != wanted]
    tell(not faults, 'values with their pointers by hand, beside the forms', '\n'.join(faults))


def check_good_forms(program):
    """Ids come back, keys of others are ignored, of two equal keys the last one counts, and a first line has defaults."""
    lines = [({'id': told}, answered(0, [], told)) for told in IDS]
    lines += [
        (b'{"id":1,"id":2}', answered(0, [], 2)),
        (b'{"id":0.5,"id":"last"}', answered(0, [], 'last')),
        (b' {\t"id" : "\\u00e9\\/" } \r', answered(0, [], 'é/')),
        ({'Id': None, 'noted': None}, answered(0, [])),
        ({'shows': [{'show': 'changed', 'since': 0, 'crate': 'x'}]}, answered(0, [''])),
        ({'shows': [{'show': 'find', 'name': 'f'}, {'show': 'problems', 'file': 2**32 - 1}]}, answered(0, [[], unset(file=2**32 - 1)])),
    ]
    check_lines(program, 'a good form', lines)
    check_lines(program, 'every form', [({**OPENED, 'edits': GOOD_EDITS}, answered(len(GOOD_EDITS), []))] + [
        ({**GOOD_OPENING, 'edits': 0}, no_request(len(GOOD_EDITS), '/crates'))])
    for opening in GOOD_OPENINGS:
        check_lines(program, 'every form of a first line', [(opening, answered(opening.get('start', 0), []))])
    texts = {'edit': 'set_text', 'file': 1, 'text': 'fn f() {}', 'syntax': 0, 'block': 'x'}
    check_lines(program, 'ignored keys', [
        ({**OPENED, 'edits': [texts], 'shows': [{**PAGE, 'block': [], 'since': -1}]}, answered(1, [PAGED])),
        ({'edits': [{'edit': 'remove_file', 'file': 1, 'text': 0}], 'shows': [PAGE]}, answered(2, [unset(file=1)]))])


def check_refused_edits(program):
    many = {'cause': 'too many edits', 'kind': 'edit refused', 'place': 0}
    far = {'cause': 'too many supers', 'kind': 'edit refused', 'place': 2}
    check_lines(program, 'the last number', [
        ({'id': 'a', **OPENED, 'start': LAST - 1, 'edits': [SET, SET], 'shows': [PAGE]}, refused(LAST, {**many, 'place': 1}, 'a')),
        ({'shows': [PAGE, {'show': 'changed', 'since': LAST - 1}]}, answered(LAST, [PAGED, f'crate 0 file 1 change {LAST}\n'])),
        ({'edits': [{'edit': 'remove_file', 'file': 1}]}, refused(LAST, many)),
        (OPENED, no_request(LAST, '/crates')),
        ({'shows': [PAGE]}, answered(LAST, [PAGED]))])
    check_lines(program, 'no number is left', [
        ({'start': LAST, 'edits': [SET]}, refused(LAST, many)), ({'start': 0}, no_request(LAST, '/start')), ({}, answered(LAST, []))])
    cleared = {'edit': 'remove_file', 'file': 1}
    check_lines(program, 'a size that is passed', [
        (OPENED, answered(0, [])),
        ({'id': 5, 'edits': [cleared, SET, FAR, cleared], 'shows': [PAGE]}, refused(2, far, 5)),
        ({'shows': [PAGE]}, answered(2, [PAGED])),
        ({'edits': [FAR]}, refused(2, {**far, 'place': 0})),
        ({'edits': [cleared], 'shows': [PAGE]}, answered(3, [unset(file=1)]))])


def check_errors(options):
    check_no_json(options.program)
    check_forms()
    check_expected(options.program)
    check_wrong_forms(options.program)
    check_deep_forms(options.program)
    check_first_wrong_form(options.program)
    check_good_forms(options.program)
    check_refused_edits(options.program)


# ---- lines

def whole(program, data, name, wanted, size=None):
    """All the output for an input, which comes in pieces if a size is given."""
    with Server(program) as server:
        for at in range(0, len(data), size or max(1, len(data))):
            server.write(data[at:at + (size or len(data))])
            if size:
                time.sleep(0.001)
        found = server.end()
        tell(found == (wanted, 0, b''), name, found, (wanted, 0, b''))


def check_pieces(program):
    empty = refused(None, {'column': 0, 'kind': 'not JSON'}) + b'\n'
    cut = refused(0, {'column': 6, 'kind': 'not JSON'}) + b'\n'
    good = answered(0, [], 'a') + b'\n'
    whole(program, b'', 'no input', b'')
    whole(program, b'\n\n', 'empty lines', empty * 2)
    whole(program, b'{"id":"a"}', 'a last line without its line feed', good)
    whole(program, b'{"id":"a"}\r\n{"id":"a"}\r', 'carriage returns', good * 2)
    whole(program, b'{"id":"a"}\n{"id":', 'half a line, and the input is closed', good + cut)
    whole(program, b'{"id":"a"}\n' * 3000, 'many lines at once', good * 3000)
    whole(program, b'{"id":"a"}\n{"id":"a"}', 'a byte at a time', good * 2, 1)
    whole(program, (b' ' * 4085 + b'{"id":"a"}\n') * 3, 'in pieces of 4,096 bytes', good * 3, 4096)


def check_streams(program):
    """Standard input and output that fail."""
    line = '{"id":1}'
    for command, wanted in (
        ('"$0" serve <&-', 'itemtree: reading failed\n6\n'),
        ('"$0" serve < /', 'itemtree: reading failed\n6\n'),
        (f"echo '{line}' | \"$0\" serve >&-", 'itemtree: writing failed\n6\n'),
        (f"echo '{line}' | \"$0\" serve > /dev/full", 'itemtree: writing failed\n6\n'),
        ('"$0" serve < /dev/null >&-', '0\n'),
        (f"{{ sleep 0.2; echo '{line}'; }} | {{ \"$0\" serve; echo $? >&2; }} | :; true", 'itemtree: writing failed\n6\n0\n'),
    ):
        done = subprocess.run(['bash', '-c', command + '; echo $? >&2', program], stdout=subprocess.PIPE, stderr=subprocess.PIPE,
                              timeout=SECONDS)
        tell((done.stdout, done.stderr.decode()) == (b'', wanted), f'$ {command}', (done.stdout, done.stderr), wanted)
    done = subprocess.run([program, 'serve', 'more'], stdin=subprocess.DEVNULL, stdout=subprocess.PIPE, stderr=subprocess.PIPE,
                          timeout=SECONDS)
    tell((done.returncode, done.stdout) == (2, b''), 'serve with an argument', done, 2)


def check_long_lines(program):
    too_long = {'kind': 'line too long'}
    with Server(program) as server:
        got = server.ask(b'"' + b'x' * 100_000_000 + b'"')
        tell(got == refused(None, too_long), 'a line of 100 MB', got, refused(None, too_long))
        peak = server.kilobytes('VmHWM')
        tell(peak < 300_000, 'the memory for a line of 100 MB', f'{peak} kB')
        got = server.ask({**OPENED, 'edits': [SET], 'shows': [PAGE]})
        tell(got == answered(1, [PAGED]), 'a first line after it', got, answered(1, [PAGED]))
        line = written({'id': 'long', 'shows': [PAGE]})
        for length, wanted in ((LONGEST - 1, answered(1, [PAGED], 'long')), (LONGEST, answered(1, [PAGED], 'long')),
                               (LONGEST + 1, refused(1, too_long)), (LONGEST + 8192, refused(1, too_long))):
            got = server.ask(line + b' ' * (length - len(line)))
            tell(got == wanted, f'a line of {length} bytes', got, wanted)
        got = server.ask({'shows': [PAGE]})
        tell(got == answered(1, [PAGED]), 'a line after long ones', got, answered(1, [PAGED]))
        ends_well(server, 'long lines')
    with Server(program) as server:
        server.write(b' ' * (LONGEST + 1))
        found = server.end()
        tell(found == (refused(None, too_long) + b'\n', 0, b''), 'a long last line without its line feed', found)
    told = 'x' * 10_000_000
    check_lines(program, 'a long answer', [({'id': told}, answered(0, [], told)), ({}, answered(0, []))])


def check_line_forms(options):
    check_pieces(options.program)
    check_streams(options.program)
    check_long_lines(options.program)


# ---- places

SNIPPETS = [
    '', 'fn f() {}', 'fn f() { 1 }', 'fn f() { 22 }', '// told\n\nfn f() {}', 'pub fn f() {} fn g() {}',
    'mod m { fn f() {} mod n { fn f() {} } }\nfn f() {}',
    'use a::{b, c::*, d::{self as e}};\nuse ::f as _;\n', 'extern crate std as f;\nextern "C" { fn f(); }\nmacro_rules! f { () => {} }',
    '#[cfg(test)] mod f { use a; }\n#[cfg(unix)]\nfn f() {}\n', 'const É: char = \'é\'; fn f() {}', 'fn r#type() {} struct r#gen;',
    'fn before() {}\n) fn between() {}\nconst NAME: &str = "never closed;\n', 'struct S(pub u8, u8); enum E { A } impl S { fn f() {} }',
    '#![no_std]\n//! Told.\n', 'fn (', 'm! { fn f() {} }\nm!(a);', 'use Self::q; use {b, b};\n',
    '\ufefffn f() {}', 'trait f {} type g = f; static f: u8 = 1;',
    'static A: &str = "\U0001f980\u00e9"; fn f() {} struct S; impl S { const B: char = \'\U0001f980\'; fn f() {} }\n/* \U00020000 */ use a::{b, c};',
]


# What stands behind the damage is told again from the next item on that begins a line.
LONG_ONES = [
    'mod a {\n    fn f() {\n        g(1, [2]);\n    }\n\n    impl S {\n        fn a(&self) {}\n    }\n}\n\nuse a::{b, f as g};\n\nfn b() {\n    1\n}\n',
    'use a::b;\n\nfn f() {\n    if b {\n        c();\n    }\n}\n\nstruct S {\n    a: u8,\n}\n\nimpl Clone for S {\n    fn f() {}\n}\n\nenum a {\n    A(u8),\n}\n',
]


def texts():
    """The Rust texts of the tests."""
    found = list(SNIPPETS)
    for folder, _, files in sorted(os.walk(TEXTS)):
        for name in sorted(files):
            if name.endswith('.rs') and name != 'latin.rs':
                with open(os.path.join(folder, name), encoding='utf-8', newline='') as file:
                    found.append(file.read())
    return found


def output(*command):
    done = subprocess.run(command, stdin=subprocess.DEVNULL, stdout=subprocess.PIPE, stderr=subprocess.PIPE, timeout=SECONDS)
    return done.stdout.decode()


def request_of(program, found, folder, *more):
    """The request that sets these texts, and the files that they were written to."""
    paths = []
    for at, text in enumerate(found):
        paths.append(os.path.join(folder, f'{at}.rs'))
        with open(paths[-1], 'w', encoding='utf-8', newline='') as file:
            file.write(text)
    return json.loads(output(program, 'request', *more, *paths)), paths


def has_wrong_bracket(program, path):
    """Whether lists mend a file: `itemtree page` and `request` do not."""
    return any('bracket' in line.split(': ')[-1] for line in output(program, 'check', path).splitlines())


def import_line(path, told):
    """An import as `itemtree imports` prints it."""
    alias = '' if told['alias'] is None else ' as ' + told['alias']
    end = {'plain': alias, 'glob': '::*', 'type': '::{self' + alias + '}'}[told['kind']]
    return f'{path}:{told["line"]}:{told["column"]}: {told["path"]}{end}\n'


def all_items(items):
    for item in items:
        yield item
        yield from all_items(item['children'])


def placeless(items):
    """The outline of a file without a text, which does not tell what an impl is of."""
    return [{**item, 'children': placeless(item['children']), 'column': None, 'line': None, 'range': None,
             'path': None if item['kind'] == 'impl' else item['path']} for item in items]


# What the reader of items tells; `itemtree check` tells more.
READ = ['expected an item', 'this bracket closes nothing', 'this item has no end', 'this item has no name',
        'this literal or comment has no end', 'this stands in too many others to be read']


def told_of(file):
    """The shows of all that is told of a file's text."""
    return [{'show': 'outline', 'crate': 0, 'file': file}, {'show': 'import_places', 'crate': 0, 'file': file},
            {'show': 'problems', 'file': file}, {'show': 'page', 'crate': 0, 'file': file}]


def check_text(server, program, path, file, cfg):
    """What is told of a text, beside what the other commands print of it."""
    got = server.ask({'shows': told_of(file)})
    outline, imports, problems, page = json.loads(got)['shows']
    items = json.loads(output(program, 'outline', '--json', '--no-members', *cfg, path))['items']
    tell(outline == items and written(outline) in got, f'the outline of {path}', written(outline), written(items))
    items = json.loads(output(program, 'outline', '--json', *cfg, path))['items']
    got = server.ask({'shows': [{**told_of(file)[0], 'members': True}]})
    tell(json.loads(got)['shows'] == [items] and written(items) in got, f'the outline of {path} with members', got, written(items))
    check_units(server, path, file, items)
    lines, wanted = ''.join(import_line(path, told) for told in imports), output(program, 'imports', path)
    tell(lines == wanted and all(list(told) == sorted(told) for told in imports), f'the imports of {path}', lines, wanted)
    lines = ''.join(f'{path}:{told["line"]}:{told["column"]}: {told["message"]}\n' for told in problems)
    wanted = ''.join(line for line in output(program, 'check', path).splitlines(True) if line.rstrip().split(': ')[-1] in READ)
    is_sorted = all(list(told) == ['column', 'line', 'message'] for told in problems)
    tell(lines == wanted and is_sorted, f'the problems of {path}', lines, wanted)
    wanted = output(program, 'page', *cfg, path)
    tell(page == wanted or has_wrong_bracket(program, path), f'the page of {path}', page, wanted)
    return outline


def in_units(value, lines, units):
    """A value whose columns count characters, with columns in other units."""
    if isinstance(value, list):
        return [in_units(member, lines, units) for member in value]
    if not isinstance(value, dict):
        return value
    value = {key: in_units(member, lines, units) for key, member in value.items()}
    if value.get('column') is not None:
        before = lines[value['line'] - 1][:value['column'] - 1]
        value['column'] = 1 + {'characters': len(before), 'bytes': len(before.encode()), 'utf-16': len(before.encode('utf-16-le')) // 2}[units]
    return value


def check_units(server, path, file, items):
    """Columns in other units, beside the same ones in characters."""
    with open(path, encoding='utf-8', newline='') as text:
        lines = text.read().removeprefix('\ufeff').split('\n')
    names = sorted({item['name'] for item in all_items(items) if item['name'] and item['id']})[:20]
    trees = [{'show': kind, 'crate': 0, 'file': file, 'as': 'json'} for kind in ('tree', 'imports')]
    shows = [{**told_of(file)[0], 'members': True}, *told_of(file)[1:3], *trees, *({'show': 'find', 'name': name} for name in names)]
    first = json.loads(server.ask({'shows': shows}))['shows']
    for units in ('characters', 'utf-16', 'bytes'):
        got = json.loads(server.ask({'shows': [{**show, 'units': units} for show in shows]}))['shows']
        got, wanted = ([values if at < 5 else [value for value in values if value['file'] == file] for at, values in enumerate(all_values)]
                       for all_values in (got, first))
        wanted = in_units(wanted, lines, units)
        tell(got == wanted, f'{units} in {path}', written(got), written(wanted))


def check_names(server, program, outlines, paths):
    """Each name is found at exactly the items that have it, and where `itemtree find --no-members` finds it."""
    wanted = collections.defaultdict(list)
    for file, outline in enumerate(outlines):
        for item in all_items(outline):
            if item['name'] is not None:
                at = {key: item[key] for key in ('column', 'line', 'range')}
                wanted[item['name']].append(dict(sorted({**at, 'crate': 0, 'file': file, 'id': item['id']}.items())))
    for name, entries in sorted(wanted.items()):
        got = json.loads(server.ask({'shows': [{'show': 'find', 'name': name}]}))['shows'][0]
        tell([entry['file'] for entry in got] == [entry['file'] for entry in entries] and all(list(entry) == sorted(entry) for entry in got)
             and sorted(map(written, got)) == sorted(map(written, entries)), f'find {name}', got, entries)
        raw = json.loads(server.ask({'shows': [{'show': 'find', 'name': f'r#{name}'}]}))['shows'][0]
        tell(raw == got, f'find r#{name}', raw, got)
    for path in ('f', 'area', 'Circle', '::f', 'crate::area', 'round::area', 'inner::area', '::round::inner::area', 'round::Circle',
                 'r#type', 'tests::f', 'a::b', '::a'):
        got = json.loads(server.ask({'shows': [{'show': 'find', 'name': path}]}))['shows'][0]
        lines = output(program, 'find', '--no-members', path, *paths).splitlines()
        places = [f'{paths[entry["file"]]}:{entry["line"]}:{entry["column"]}' for entry in got]
        tell(sorted(line.split(': ')[0] for line in lines) == sorted(places), f'find {path}, and itemtree find', lines, places)
    got = server.ask({'shows': [{'show': 'find', 'name': 'nowhere'}]})
    tell(json.loads(got)['shows'] == [[]], 'find nowhere', got)


def found_of(item, file, scope):
    """An item or a member of an outline, as a glob finds it."""
    own = {key: item[key] for key in ('column', 'id', 'kind', 'line', 'name', 'range')}
    return dict(sorted({**own, 'crate': 0, 'file': file, 'scope': scope}.items()))


def check_globs(server, program, paths, cfg):
    """What a glob finds, and members where they are asked for, beside what `itemtree find` does of the same files, in its order. All that
    has a name is found by a star, as it stands in the outlines."""
    names = ('*', '?', '*e*', 'a*', '??', '::*', 'crate::?', 'round::*', 'round::Circle::*', 'Circle::*', 'r#t*', 'a::b*', 'nowhere*')
    for name, has_members in [*((name, flag) for name in names for flag in (False, True)), ('area', True), ('f', True), ('nowhere', True)]:
        got = server.ask({'shows': [{'show': 'find', 'name': name, 'members': has_members}]})
        found = json.loads(got)['shows'][0]
        lines = output(program, 'find', '--json', *([] if has_members else ['--no-members']), *cfg, name, *paths).splitlines()
        told = [{**{key: entry[key] for key in ('column', 'kind', 'line', 'name', 'scope')}, 'path': paths[entry['file']]} for entry in found]
        tell(told == list(map(json.loads, lines)) and written(found) in got and all(list(entry) == sorted(entry) for entry in found),
             f'find {name}, and itemtree find --json', told, lines)
        outlines = json.loads(server.ask({'shows': [{**told_of(file)[0], 'members': has_members} for file in range(len(paths))]}))['shows']
        if name == '*':
            scopes = [entry['scope'] for entry in found]
            items = [(item, file) for file, outline in enumerate(outlines) for item in all_items(outline) if item['name'] is not None]
            wanted = [found_of(item, file, scope) for (item, file), scope in zip(items, scopes)]
            tell(found == wanted and len(items) == len(found), 'find all', written(found), written(wanted))
    for units in ('utf-16', 'bytes'):
        asked = {'show': 'find', 'name': '*', 'members': True}
        first, got = json.loads(server.ask({'shows': [asked, {**asked, 'units': units}]}))['shows']
        wanted = []
        for entry in first:
            with open(paths[entry['file']], encoding='utf-8', newline='') as text:
                wanted.append(in_units(entry, text.read().removeprefix('\ufeff').split('\n'), units))
        tell(got == wanted, f'find all by {units}', written(got), written(wanted))


def check_kept(server, request, count):
    """Texts stay with their files where options are set, other places are edited, and an edit of the file is refused."""
    shows = [show for file in range(count) for show in told_of(file)]
    wanted = json.loads(server.ask({'shows': shows}))['shows']
    number = json.loads(server.ask({'edits': [
        {'edit': 'set_cfg', 'crate': 0, 'cfg': request['crates'][0]['cfg']}, {'edit': 'remove_file', 'file': count},
        {'edit': 'set_block', 'block': 0}, {'edit': 'remove_block', 'block': 0}]}))['number']
    far = {'cause': 'too many supers', 'kind': 'edit refused', 'place': 0}
    for file in range(count):
        got = server.ask({'edits': [{**FAR, 'file': file}, {'edit': 'remove_file', 'file': file}]})
        tell(got == refused(number, far), f'an edit of file {file} is refused', got, refused(number, far))
        server.ask({'edits': [{'edit': 'remove_file', 'file': file}, {'edit': 'set_text', 'file': file}]})
    got = json.loads(server.ask({'shows': shows}))['shows']
    tell(got == wanted, 'texts are kept', written(got), written(wanted))


def check_found(program):
    """Files come before blocks, by their numbers, and then crates."""
    text = {'edit': 'set_text', 'file': 10, 'text': 'struct g;\nfn f() {}'}
    block = {'edit': 'set_block', 'block': 3, 'stmts': [{'item': FUNCTION}]}
    asked = [{'show': 'find', 'name': 'f'}]
    at = {'line': 2, 'column': 4, 'range': [10, 19]}
    places = [{'file': 1}, {'file': 9}, {'file': 10, **at}, {'block': 3}, {'block': 20}]
    found = [[dict(sorted({**place, 'crate': krate, 'id': 'Fn[BE8F, 0]'}.items())) for krate in (0, 1)] for place in places]
    check_lines(program, 'find in many places', [
        ({'crates': [{'root': 0}, {'root': 1, 'cfg': ['test']}], 'edits': [{**block, 'block': 20}, text], 'shows': asked},
         answered(2, [found[2] + found[4]])),
        ({'edits': [{**SET, 'file': 9}, block, SET], 'shows': asked}, answered(5, [sum(found, [])])),
        ({'edits': [{'edit': 'remove_file', 'file': 9}, {'edit': 'remove_block', 'block': 20}], 'shows': asked * 2},
         answered(7, [found[0] + found[2] + found[3]] * 2)),
        ({'edits': [{**text, 'text': 'fn g() {}'}, {'edit': 'set_cfg', 'crate': 0, 'cfg': ['test']}], 'shows': asked},
         answered(9, [found[0] + found[3]]))])


def check_found_paths(program):
    """Paths are those of the modules around an item. What a text sets has its place in it."""
    module = {'is': 'module', 'name': 'a', 'items': [FUNCTION, {'is': 'extern_block', 'items': [{**FUNCTION, 'name': 'g'}]}]}
    edits = [{'edit': 'set_text', 'file': 0, 'text': 'mod a {\n    #[b] fn f() {}\n}'},
             {'edit': 'set_text', 'file': 1, 'text': '/* é */ fn f() {}'},
             {**SET, 'file': 2, 'syntax': {'root': 'source_file', 'items': [{'is': 'module', 'name': 'b', 'items': [module]}]}},
             {'edit': 'set_text', 'file': 3, 'text': '\ufeffmod xa { fn f() {} }\r\nmod a;'},
             {'edit': 'set_block', 'block': 1, 'stmts': [{'item': FUNCTION}]}]
    # The id of an item in a module is that of its outline.
    with Server(program) as server:
        got = server.ask({**OPENED, 'edits': edits, 'shows': [{'show': 'outline', 'crate': 0, 'file': file} for file in (0, 3)]})
        inner = [outline[0]['children'][0]['id'] for outline in json.loads(got)['shows']]
    f = [{'column': 13, 'crate': 0, 'file': 0, 'id': inner[0], 'line': 2, 'range': [12, 26]},
         {'column': 12, 'crate': 0, 'file': 1, 'id': 'Fn[BE8F, 0]', 'line': 1, 'range': [9, 18]},
         {'crate': 0, 'file': 2, 'id': 'Fn[BE8F, 0]'},
         {'column': 13, 'crate': 0, 'file': 3, 'id': inner[1], 'line': 1, 'range': [12, 21]},
         {'block': 1, 'crate': 0, 'id': 'Fn[BE8F, 0]'}]
    wanted = {'f': f, 'r#f': f, '::f': [f[1], f[4]], 'crate::f': [f[1], f[4]], 'a::f': [f[0], f[2]], 'r#a::r#f': [f[0], f[2]],
              '::a::f': [f[0]], 'crate::a::f': [f[0]], 'b::a::f': [f[2]], '::b::a::f': [f[2]], 'crate::r#b::a::f': [f[2]],
              '::xa::f': [f[3]], 'xa::f': [f[3]],
              'a::g': [{'crate': 0, 'file': 2, 'id': 'Fn[BE8F, 0]'}], '::g': [], 'b::f': [], 'c::b::a::f': [],
              'a::a::f': [], 'f::f': []}
    check_lines(program, 'find by paths', [
        ({**OPENED, 'edits': edits, 'shows': [{'show': 'find', 'name': name} for name in wanted]}, answered(5, list(wanted.values()))),
        ({'edits': [{**edits[0], 'text': 'mod b { mod a { fn f() {} } }'}, {**edits[2], 'file': 1}],
          'shows': [{'show': 'find', 'name': name} for name in ('a::f', '::a::f', '::b::a::f')]},
         answered(7, [[{**f[0], 'column': 20, 'line': 1, 'range': [16, 25]}, {**f[2], 'file': 1}, f[2]], [],
                      [{**f[0], 'column': 20, 'line': 1, 'range': [16, 25]}, {**f[2], 'file': 1}, f[2]]]))])


def check_found_globs(program):
    """A glob finds what stands in files without a text and in blocks too, in the order of places, of crates, and as it is written. A member
    has no id, and what is found in a mended text has its place in the text itself."""
    module = {'is': 'module', 'name': 'a', 'items': [{**FUNCTION, 'name': 'fa'}, FUNCTION, {'is': 'use'}]}
    edits = [{'edit': 'set_block', 'block': 1, 'stmts': [{'item': module}, {'item': FUNCTION}]},
             {**SET, 'file': 2, 'syntax': {'root': 'source_file', 'items': [module]}},
             {'edit': 'set_text', 'file': 0, 'text': 'impl b::C { fn f(&self) { (] } }\nstruct f { fa: u8, #[cfg(x)] fx: u8 }'},
             {'edit': 'set_text', 'file': 1, 'text': 'fn fa() {}\nfn f() {}'}]
    fn, id_f = {'kind': 'fn', 'name': 'f', 'scope': ''}, 'Fn[BE8F, 0]'
    # The ids of other items are those of the outlines.
    with Server(program) as server:
        shows = [{'show': 'outline', 'crate': 0, 'file': 0}, {'show': 'outline', 'crate': 0, 'file': 1}]
        got = json.loads(server.ask({**OPENED, 'edits': edits, 'shows': shows}))['shows']
        id_struct, id_fa = got[0][1]['id'], got[1][0]['id']
    member = {'column': 16, 'file': 0, 'id': None, 'kind': 'fn', 'line': 1, 'name': 'f', 'range': [12, 30], 'scope': 'C'}
    struct = {'column': 8, 'file': 0, 'id': id_struct, 'kind': 'struct', 'line': 2, 'name': 'f', 'range': [33, 70], 'scope': ''}
    field = {'column': 12, 'file': 0, 'id': None, 'kind': 'field', 'line': 2, 'name': 'fa', 'range': [44, 50], 'scope': 'f'}
    other = {'column': 30, 'file': 0, 'id': None, 'kind': 'field', 'line': 2, 'name': 'fx', 'range': [52, 68], 'scope': 'f'}
    first = {'column': 4, 'file': 1, 'id': id_fa, 'kind': 'fn', 'line': 1, 'name': 'fa', 'range': [0, 10], 'scope': ''}
    second = {**fn, 'column': 4, 'file': 1, 'id': id_f, 'line': 2, 'range': [11, 20]}
    inner = [{**fn, 'name': name, 'id': id_f, 'scope': 'a'} for name in ('fa', 'f')]
    in_file, in_block = [{**told, 'file': 2} for told in inner], [{**told, 'block': 1} for told in (*inner, {**fn, 'id': id_f})]
    alone = [struct, first, second, *in_file, *in_block]
    wanted = [
        ({'name': 'f*'}, alone), ({'name': 'f*', 'members': True}, [member, struct, field, other, *alone[1:]]),
        ({'name': 'f', 'members': True}, [member, struct, second, in_file[1], in_block[1], in_block[2]]),
        ({'name': '::f?'}, [first]), ({'name': '::f?', 'members': True}, [first]), ({'name': 'a::*'}, [*in_file, *in_block[:2]]),
        ({'name': 'f::*', 'members': True}, [field, other]), ({'name': 'r#f::r#f?', 'members': True}, [field, other]),
        ({'name': 'C::*', 'members': True}, [member]), ({'name': 'C::*'}, []), ({'name': '?::f*', 'members': True}, None)]
    shows = [{'show': 'find', **asked} for asked, told in wanted if told is not None]
    answers = [told for _, told in wanted if told is not None]
    of_both = [[dict(sorted({**entry, 'crate': krate}.items())) for place in (0, 1, 2, 'block')
                for krate in (0, 1) for entry in told if entry.get('file', 'block') == place] for told in answers]
    check_lines(program, 'find by globs', [
        ({'crates': [{'root': 0}] * 2, 'edits': edits, 'shows': shows}, answered(4, of_both)),
        ({'edits': [{'edit': 'remove_file', 'file': file} for file in (0, 1, 2)], 'shows': shows[:1]},
         answered(7, [[entry for entry in of_both[0] if 'block' in entry]])),
        ({'shows': [{'show': 'find', 'name': wanted[-1][0]['name']}]}, no_request(7, '/shows/0/name'))])


def check_values(program):
    """What is shown as JSON values, beside its texts."""
    text = {'edit': 'set_text', 'file': 1, 'text': 'use a::{b, c as d};\n/// e\npub fn f() {}'}
    star = {'is': 'use', 'tree': {'path': ['plain', 'a'], 'star': True}}
    block = {'edit': 'set_block', 'block': 2, 'stmts': [{'item': FUNCTION}, {'item': star}]}
    function = {'active': True, 'children': [], 'column': None, 'id': 'Fn[BE8F, 0]', 'kind': 'fn', 'line': None, 'name': 'f', 'path': None,
                'range': None, 'visibility': None}
    used = {**function, 'id': 'Use[0000, 0]', 'kind': 'use', 'name': None, 'path': 'a::*'}
    items = [{**used, 'column': 1, 'line': 1, 'path': 'a::{..}', 'range': [0, 19]},
             {**function, 'column': 8, 'line': 3, 'range': [20, 39], 'visibility': 'pub'}]
    imports = [{'alias': None, 'column': 9, 'kind': 'plain', 'line': 1, 'path': 'a::b'},
               {'alias': 'd', 'column': 12, 'kind': 'plain', 'line': 1, 'path': 'a::c'}]
    globbed = [{'alias': None, 'column': None, 'kind': 'glob', 'line': None, 'path': 'a'}]
    file, other = {'crate': 0, 'file': 1}, {'crate': 0, 'block': 2}
    changes = [{'change': 2, 'crate': 0, 'file': 0}, {'change': 3, 'crate': 0, 'file': 1}, {'block': 2, 'change': 1, 'crate': 0}]
    lines = ['crate 0 file 0 change 2\n', 'crate 0 file 1 change 3\n', 'crate 0 block 2 change 1\n']
    with Server(program) as server:
        server.ask({**OPENED, 'edits': [block, {**SET, 'file': 0}, text]})
        got = json.loads(server.ask({'shows': [{'show': 'outline', **file}]}))['shows'][0]
        items = [{**item, 'id': told['id']} for item, told in zip(items, got)]
        for asked, by_text, by_values in (
                ({'show': 'changed', 'since': 0}, ''.join(lines), changes),
                ({'show': 'changed', 'since': 1}, ''.join(lines[:2]), changes[:2]),
                ({'show': 'changed', 'since': 3}, '', []),
                ({'show': 'imports', **file}, None, imports), ({'show': 'imports', **other}, 'Use[0000, 0]\n0 a glob\n', globbed),
                ({'show': 'imports', 'crate': 0, 'file': 9}, unset(file=9), unset(file=9)),
                ({'show': 'tree', **file}, None, {'change': 3, 'crate': 0, 'file': 1, 'items': items}),
                ({'show': 'tree', **other}, None, {'block': 2, 'change': 1, 'crate': 0, 'items': [function, used]}),
                ({'show': 'tree', 'crate': 0, 'file': 9}, unset(file=9), unset(file=9)),
                ({'show': 'tree', 'crate': 0, 'block': 1}, unset(block=1), unset(block=1))):
            shows = [asked, {**asked, 'as': None}, {**asked, 'as': 'text'}, {**asked, 'as': 'json'}]
            got = server.ask({'shows': shows})
            text = json.loads(got)['shows'][0] if by_text is None else by_text
            wanted = answered(3, [text, text, text, by_values])
            tell(got == wanted and (isinstance(text, str) or 'error' in text), f'the values of {asked}', got, wanted)
        ends_well(server, 'values')


def check_unset(program):
    """A show of what is not set says so, whether it was never set or is removed again. The other shows of the line are answered."""
    file, block = {'crate': 0, 'file': 1}, {'crate': 0, 'block': 1}
    kinds = ('page', 'tree', 'imports')
    asked = [*OWN[:3], *({'show': kind, **place} for place in (file, block) for kind in kinds), *({'show': kind, **place, 'as': 'json'}
             for place in (file, block) for kind in kinds[1:]), {'show': 'changed', 'since': 0, 'as': 'json'}, OWN[3]]
    none = [*[unset(file=1)] * 6, *[unset(block=1)] * 3, *[unset(file=1)] * 2, *[unset(block=1)] * 2, [], []]
    changed = [{'change': 4, 'crate': 0, 'file': 1}, {'block': 1, 'change': 5, 'crate': 0}]
    text, statements = {'edit': 'set_text', 'file': 1, 'text': ''}, {'edit': 'set_block', 'block': 1, 'stmts': [{'item': FUNCTION}]}
    opened = [[], [], [], '\n', 'crate 0 file 1 change 0\n\n', '']
    function = {'active': True, 'children': [], 'column': None, 'id': 'Fn[BE8F, 0]', 'kind': 'fn', 'line': None, 'name': 'f', 'path': None,
                'range': None, 'visibility': None}
    tree = 'crate 0 block 1 change 2\n' + PAGED
    full = [{'change': 0, 'crate': 0, 'file': 1, 'items': []}, [], {'block': 1, 'change': 2, 'crate': 0, 'items': [function]}, []]
    check_lines(program, 'shows of what is not set', [
        ({**OPENED, 'shows': asked}, answered(0, none)),
        ({'edits': [text, statements], 'shows': asked}, answered(2, [
            *opened, PAGED, tree, '', *full, [{'block': 1, 'change': 2, 'crate': 0}], [{'block': 1, 'crate': 0, 'id': 'Fn[BE8F, 0]'}]])),
        ({'edits': [SET, {'edit': 'remove_file', 'file': 1}, {'edit': 'remove_block', 'block': 1}], 'shows': asked},
         answered(5, [*none[:-2], changed, []])),
        ({'id': 1, 'shows': [{**OWN[0], 'file': 2}, {'show': 'changed', 'since': 4}, {**OWN[2], 'file': 2**32 - 1}]},
         answered(5, [unset(file=2), 'crate 0 block 1 change 5\n', unset(file=2**32 - 1)], 1)),
        ({'edits': [{**SET, 'syntax': {'root': 'error'}}], 'shows': [PAGE, *OWN[:3]]}, answered(6, ['\n', [], [], []]))])


# What is expected where a value is of wrong form, by hand: on a first line, and on a later one where that differs.
EXPECTED = [
    (b'[]', '', 'an object'), ({'id': 0.5}, '/id', 'a value without a float'), ({'crates': 1}, '/crates', 'a list'),
    ({'crates': [1]}, '/crates/0', 'an object'), ({'crates': [{}]}, '/crates/0/root', 'a number below 2^32'),
    ({'crates': [{'root': 0, 'cfg': 0}]}, '/crates/0/cfg', 'a list'), ({'skipped': ['']}, '/skipped/0', 'a name'),
    ({'edition': 1}, '/edition', 'an object'), ({'edition': {'year': 1}}, '/edition/year', '2015, 2018, 2021 or 2024'),
    ({'edition': {'reserved': [0]}}, '/edition/reserved/0', 'a name'), ({'start': -1}, '/start', 'a number below 2^64'),
    ({'edit': []}, '/edit', 'no such key'), ({'5': []}, '/5', 'no such key'), ({'edits': {}}, '/edits', 'a list'),
    ({'shows': 1}, '/shows', 'a list'), ({'edits': [0.5]}, '/edits/0', 'an object without a float'),
    ({'edits': [{'edit': 'x'}]}, '/edits/0/edit', EDIT_WORDS), ({'edits': [{'shows': 0}]}, '/edits/0/shows', 'no such key'),
    ({'edits': [{'edit': 'set_text', 'file': 'a'}]}, '/edits/0/file', 'a number below 2^32'),
    ({'edits': [{'edit': 'set_text', 'file': 0, 'text': 1}]}, '/edits/0/text', 'a string'),
    ({'edits': [{'edit': 'change_text', 'file': 0, 'range': [0]}]}, '/edits/0/range', 'two byte places'),
    ({'edits': [{'edit': 'change_text', 'file': 0, 'range': [0, 'a']}]}, '/edits/0/range/1', 'a number below 2^64'),
    ({'edits': [{'edit': 'set_cfg', 'crate': 9}]}, '/edits/0/crate', 'the number of a crate'),
    ({'edits': [{'edit': 'set_file', 'file': 0}]}, '/edits/0/syntax', 'an object'),
    ({'edits': [file_of({})]}, '/edits/0/syntax/items/0/is', 'a kind of item'),
    ({'edits': [file_of({'is': 'fn', 'hash': -1})]}, '/edits/0/syntax/items/0/hash', 'a number below 2^16'),
    ({'edits': [file_of({'is': 'fn', 'name': ''})]}, '/edits/0/syntax/items/0/name', 'a name'),
    ({'edits': [file_of({'is': 'struct', 'fields': 1})]}, '/edits/0/syntax/items/0/fields', 'another value'),
    ({'edits': [file_of(0)]}, '/edits/0/syntax/items/0', 'an object'), ({'shows': [{'show': 'x'}]}, '/shows/0/show', SHOW_WORDS),
    ({'shows': [{'show': 'find', 'name': 'a b'}]}, '/shows/0/name', 'a name, path or glob'),
    ({'shows': [{'show': 'find', 'name': 'a', 'members': 1}]}, '/shows/0/members', 'true or false, of outline or find'),
    ({'shows': [{'show': 'changed', 'since': -1}]}, '/shows/0/since', 'a number below 2^64'),
    ({'shows': [{'show': 'changed', 'since': 0, 'as': 0}]}, '/shows/0/as', 'text or json, of tree, imports or changed'),
    ({'shows': [{'show': 'problems', 'file': 0, 'units': 'utf-8'}]}, '/shows/0/units', UNITS_WORDS),
    ({'shows': [{'show': 'page', 'nam': 0}]}, '/shows/0/nam', 'no such key'),
]


def check_expected(program):
    """An error tells what was expected."""
    for opening in ([], [({}, answered(0, []))]):
        lines, number = list(opening), 0 if opening else None
        for line, pointer, words in EXPECTED:
            top = pointer.split('/')[1:2]
            if opening and top and top[0] in ('crates', 'skipped', 'edition', 'start'):
                pointer, words = f'/{top[0]}', 'nothing: the session is open'
            lines.append((line, refused(number, {'expected': words, 'kind': 'not a request', 'pointer': pointer})))
        check_lines(program, 'what is expected', lines)


def check_forgotten(server, program, request, outlines, paths):
    """All is gone where a file is removed, and places and problems where it is set without a text."""
    number = json.loads(server.ask({}))['number']
    for edit, outline, path in zip(request['edits'], outlines, paths):
        if has_wrong_bracket(program, path):
            continue
        file = edit['file']
        asked = told_of(file)[:3]
        got, wanted = server.ask({'edits': [{'edit': 'remove_file', 'file': file}], 'shows': asked}), answered(number + 1, [unset(file=file)] * 3)
        tell(got == wanted, f'file {file} removed', got, wanted)
        got = json.loads(server.ask({'edits': [edit], 'shows': asked}))
        number += 2
        imports = got['shows'][1]
        wanted = {'id': None, 'number': number, 'shows': [placeless(outline), imports, []]}
        tell(got == wanted and all(told['line'] is None and told['column'] is None for told in imports),
             f'file {file} set by a syntax', written(got), written(wanted))
    # A text is forgotten also where a syntax takes its place.
    text = {'edit': 'set_text', 'file': 1, 'text': ') fn f() {}'}
    problem = {'column': 1, 'line': 1, 'message': 'this bracket closes nothing'}
    for edits, wanted in (([text], [problem]), ([text, SET], []), ([SET, text], [problem]), ([{**text, 'text': ''}], [])):
        number += len(edits)
        got, wanted = server.ask({'edits': edits, 'shows': [{'show': 'problems', 'file': 1}]}), answered(number, [wanted])
        tell(got == wanted, 'the problems after edits', got, wanted)


def check_editions(program):
    """A text is read in the edition of its session."""
    edits = [{'edit': 'set_text', 'file': 0, 'text': 'fn f() {} fn dyn() {} fn gen() {} use async::b;'}]
    shows = [{'show': 'outline', 'crate': 0, 'file': 0}, {'show': 'import_places', 'crate': 0, 'file': 0}]
    for edition, wanted in (({'year': 2015}, (['f', 'dyn', 'gen', None], ['async::b'])), ({'year': 2018}, (['f', 'gen'], [])),
                            ({'year': 2021}, (['f', 'gen'], [])), ({'year': 2024}, (['f'], [])), ({}, (['f'], []))):
        with Server(program) as server:
            got = json.loads(server.ask({'crates': [{'root': 0}], 'edition': edition, 'edits': edits, 'shows': shows}))
            got = tuple([told[key] for told in show] for key, show in zip(('name', 'path'), got['shows']))
            tell(got == wanted, f'what is read in the edition {edition}', got, wanted)
            ends_well(server, 'editions')


# The attributes that are left out where none are named.
USUAL_SKIPPED = ['doc', 'stable', 'unstable', 'target_feature', 'allow', 'expect', 'warn', 'deny', 'forbid', 'repr', 'inline',
                 'track_caller', 'must_use']


def check_skipped(program):
    """Typing in documentation is no change, unless the names that are skipped are others."""
    text = {'edit': 'set_text', 'file': 1, 'text': '/// a\n#[inline]\n#[b] fn f() {}'}
    changed = [PAGE, {'show': 'changed', 'since': 1}]
    for skipped in ({}, {'skipped': None}):
        check_lines(program, 'what is left out', [
            ({**OPENED, **skipped, 'edits': [text], 'shows': [PAGE]}, answered(1, ['#[b]\n' + PAGED])),
            ({'edits': [{**text, 'text': text['text'].replace('a', 'b')}], 'shows': changed}, answered(2, ['#[b]\n' + PAGED, '']))])
    for skipped, page in ((['doc'], '#[inline]\n#[b]\n'), (['doc', 'b'], '#[inline]\n'), (['doc', 'inline', 'b', 'a'], '')):
        check_lines(program, f'{skipped} left out', [
            ({**OPENED, 'skipped': skipped, 'edits': [text], 'shows': [PAGE]}, answered(1, [page + PAGED]))])
    for skipped in ([], ['inline']):
        with Server(program) as server:
            server.ask({**OPENED, 'skipped': skipped, 'edits': [text]})
            got = server.ask({'edits': [{**text, 'text': '/// b\n#[inline]\n#[b] fn f() {}'}], 'shows': changed[1:]})
            tell(got == answered(2, ['crate 0 file 1 change 2\n']), 'documentation that is not left out', got)
            ends_well(server, 'documentation')


def check_places(options):
    program, found = options.program, texts()
    check_found(program)
    check_found_paths(program)
    check_found_globs(program)
    check_values(program)
    check_unset(program)
    check_editions(program)
    check_skipped(program)
    with tempfile.TemporaryDirectory() as folder:
        for cfg in ([], ['--cfg', 'test', '--cfg', 'feature="extra"']):
            request, paths = request_of(program, found, folder, *cfg)
            edits = [{'edit': 'set_text', 'file': file, 'text': text} for file, text in enumerate(found)]
            with Server(program) as server:
                tell(request['skipped'] == USUAL_SKIPPED, 'what the commands leave out', request['skipped'], USUAL_SKIPPED)
                opening = {key: request[key] for key in ('crates', 'edition')}
                got = server.ask({**opening, 'edits': edits})
                tell(got == answered(len(found), []), 'texts are set', got, answered(len(found), []))
                outlines = [check_text(server, program, path, file, cfg) for file, path in enumerate(paths)]
                check_names(server, program, outlines, paths)
                check_globs(server, program, paths, cfg)
                check_kept(server, request, len(found))
                check_forgotten(server, options.program, request, outlines, paths)
                ends_well(server, 'places')


# ---- texts that are changed

def check_one_changed(server, whole, file, edits, text):
    """A line of edits of one file, beside a session in which the text is set whole."""
    shows = told_of(file) + [{'show': 'find', 'name': 'f'}, {'show': 'find', 'name': '*', 'members': True}]
    got = json.loads(server.ask({'edits': edits, 'shows': shows}))
    wanted = json.loads(whole.ask({'edits': [{'edit': 'set_text', 'file': file, 'text': text}], 'shows': shows}))
    tell(got.get('shows') == wanted['shows'], f'{shown(written(edits))} is the text {text!r}', got, wanted)


def check_typed(options):
    """Texts that become others in steps, those of a line one behind the other."""
    chance, found = random.Random(f'{options.seed} typed'), texts() + ['é', 'aé😀\nfn f() {}', '\ufeff// é\nfn f() {}']
    with Server(options.program) as server, Server(options.program) as whole:
        server.ask(OPENED)
        whole.ask(OPENED)
        for _ in range(400):
            file, steps = chance.randrange(3), [chance.choice(found) for _ in range(chance.randrange(1, 5))]
            edits = [{'edit': 'set_text', 'file': file, 'text': steps[0]}]
            edits += [changing(chance, file, old, new) for old, new in zip(steps, steps[1:])]
            check_one_changed(server, whole, file, edits, steps[-1])
            last = chance.choice(found)
            check_one_changed(server, whole, file, [changing(chance, file, steps[-1], last)], last)
        ends_well(server, 'typed')
        ends_well(whole, 'set whole')
    check_unchanged(options.program)


# A text of nine bytes, characters of which begin at 0, 1, 3, 7 and 8; ranges of it, and why they cannot be replaced.
MIXED = 'aé😀b\n'
UNCHANGED = [([0, 10], 'range not in the text'), ([10, 10], 'range not in the text'), ([10, 9], 'range not in the text'),
             ([1, 0], 'range not in the text'), ([3, 1], 'range not in the text'), ([0, LAST], 'range not in the text'),
             ([LAST, LAST], 'range not in the text'), ([2, 1], 'range not in the text'), ([0, 2], 'range cuts a character'),
             ([2, 2], 'range cuts a character'), ([2, 3], 'range cuts a character'), ([4, 7], 'range cuts a character'),
             ([1, 6], 'range cuts a character'), ([5, 9], 'range cuts a character')]


def check_unchanged(program):
    """Texts that cannot be changed: nothing of the line is done."""
    change = {'edit': 'change_text', 'file': 1, 'range': [0, 0], 'text': 'x'}
    mixed = {'edit': 'set_text', 'file': 1, 'text': MIXED}
    lines = [({'id': 'a', **OPENED, 'edits': [SET, change], 'shows': [PAGE]}, not_changed(0, 'no text', 1, 'a')),
             ({'shows': [PAGE]}, answered(0, [unset(file=1)])), ({'edits': [change]}, not_changed(0, 'no text')),
             ({'edits': [mixed, SET, change]}, not_changed(0, 'no text', 2)), ({'edits': [mixed]}, answered(1, []))]
    for span, cause in UNCHANGED:
        lines.append(({'edits': [SET, mixed, {**change, 'range': span}]}, not_changed(1, cause, 2)))
        lines.append(({'edits': [{**change, 'range': span}, FAR, change], 'shows': [PAGE]}, not_changed(1, cause)))
    lines += [({'edits': [FAR, {**change, 'range': [9, 9]}]}, not_changed(1, 'no text', 1)),
              ({'edits': [{**change, 'range': [0, 9], 'text': 'fn f() {}'}], 'shows': [PAGE]}, answered(2, [PAGED])),
              ({'edits': [{'edit': 'remove_file', 'file': 1}, change]}, not_changed(2, 'no text', 1)),
              ({'edits': [{'edit': 'remove_file', 'file': 2}, {'edit': 'set_block', 'block': 1}, {**change, 'range': [9, 9]}],
                'shows': [PAGE]}, answered(5, [PAGED]))]
    for start, end, text in ((0, 0, ''), (0, 10, '')):
        lines.append(({'edits': [{**change, 'range': [start, end], 'text': text}]}, answered(6 + bool(end), [])))
    lines += [({'shows': [PAGE]}, answered(7, ['\n'])), ({'edits': [{**change, 'range': [0, 1]}]}, not_changed(7, 'range not in the text', length=0)),
              ({'edits': [{**change, 'text': 'fn f() {}'}], 'shows': [PAGE]}, answered(8, [PAGED]))]
    check_lines(program, 'a text that cannot be changed', lines)


# ---- texts with damaged brackets

def damaged_text(chance, text):
    """A text that has lost a bracket, or has one too many."""
    places = [at for at, sign in enumerate(text) if sign in '(){}[]']
    if places and chance.random() < 0.6:
        at = chance.choice(places)
        return text[:at] + text[at + 1:]
    at = chance.randrange(len(text) + 1)
    return text[:at] + chance.choice('{{}([)]') + text[at:]


def check_mended_text(server, program, path, text):
    """What is told of file 0, beside the commands and a new session. The commands read what lists read."""
    with open(path, 'w', encoding='utf-8', newline='') as file:
        file.write(text)
    finds = [*({'show': 'find', 'name': name} for name in NAMES), {'show': 'find', 'name': '*', 'members': True}]
    shows = told_of(0) + [{'show': 'imports', 'crate': 0, 'file': 0}, *finds]
    got = json.loads(server.ask({'shows': shows}))['shows']
    items = json.loads(output(program, 'outline', '--json', '--no-members', path))['items']
    tell(got[0] == items, f'the outline of {text!r}', written(got[0]), written(items))
    lines, wanted = ''.join(import_line(path, told) for told in got[1]), output(program, 'imports', path)
    tell(lines == wanted, f'the imports of {text!r}', lines, wanted)
    for name, found in zip(NAMES, got[5:]):
        places = sorted(f'{path}:{told["line"]}:{told["column"]}' for told in found)
        wanted = sorted(line.split(': ')[0] for line in output(program, 'find', '--no-members', name, path).splitlines())
        tell(places == wanted, f'find {name} in {text!r}', places, wanted)
    with Server(program) as other:
        wanted = json.loads(other.ask({**OPENED, 'edits': [{'edit': 'set_text', 'file': 0, 'text': text}], 'shows': shows}))['shows']
    tell(got == wanted, f'a new session over {text!r}', written(got), written(wanted))


def check_mended(options):
    chance = random.Random(f'{options.seed} mended')
    found = [text for text in texts() + LONG_ONES if len(text) < 5000]
    with tempfile.TemporaryDirectory() as folder, Server(options.program) as server:
        server.ask(OPENED)
        old, count = None, 0
        for number in range(200):
            text = chance.choice(found) if old is None or chance.random() < 0.3 else old
            for _ in range(chance.randrange(3)):
                text = damaged_text(chance, text)
            edit = {'edit': 'set_text', 'file': 0, 'text': text} if old is None or chance.random() < 0.3 else changing(chance, 0, old, text)
            got = server.ask({'edits': [edit]})
            tell(got == answered(number + 1, []), f'{text!r} is set', got)
            path = os.path.join(folder, f'{number}.rs')
            check_mended_text(server, options.program, path, text)
            count += has_wrong_bracket(options.program, path)
            old = text
        ends_well(server, 'mended')
    tell(count > 100, 'most of the texts are damaged', count)


# ---- random sessions

def parts(value):
    """The value, and all values in it."""
    found = [value]
    for part in found:
        found += part.values() if isinstance(part, dict) else part if isinstance(part, list) else ()
    return found


def has_long_path(value, most=MOST_SUPERS):
    return any(isinstance(part, list) and len(part) > 1 and part[0] == 'super' and isinstance(part[1], int) and part[1] > most
               for part in parts(value))


def stored_edits():
    """The syntaxes and the blocks of the requests that are answered."""
    syntaxes, blocks = [], []
    for folder, _, files in sorted(os.walk(REQUESTS)):
        for name in sorted(files):
            if not name.endswith('.out'):
                continue
            with open(os.path.join(folder, name[:-4] + '.json'), 'rb') as file:
                request = json.loads(file.read().decode())
            for edit in request.get('edits') or []:
                if has_long_path(edit):
                    continue
                if edit['edit'] == 'set_file':
                    syntaxes.append(edit['syntax'])
                elif edit['edit'] == 'set_block':
                    blocks.append({key: edit[key] for key in ('attrs', 'stmts', 'tail') if key in edit})
    return syntaxes, blocks


Material = collections.namedtuple('Material', 'syntaxes blocks texts read')
FLAGS = ['test', 'unix', 'a', {'key': 'feature', 'value': 'x'}]
NAMES = ['f', 'g', 'area', 'a', 'type']


def text_after(edits, file):
    """The text of a file after edits, or None where it has none."""
    text = None
    for edit in edits:
        if edit.get('file') == file and edit['edit'] == 'change_text':
            start, end = edit['range']
            text = (text.encode()[:start] + edit['text'].encode() + text.encode()[end:]).decode()
        elif edit.get('file') == file:
            text = edit.get('text')
    return text


def changing(chance, file, old, new):
    """The edit that makes another text of a file's, and leaves a part that both begin and one that both end with."""
    most = min(len(old), len(new))
    front = chance.randrange(len(os.path.commonprefix([old, new])) + 1)
    back = chance.randrange(min(len(os.path.commonprefix([old[::-1], new[::-1]])), most - front) + 1)
    start, end = len(old[:front].encode()), len(old[:len(old) - back].encode())
    return {'edit': 'change_text', 'file': file, 'range': [start, end], 'text': new[front:len(new) - back]}


class Random:
    """A random session, made line by line."""

    def __init__(self, material, seed, number):
        self.material, self.chance = material, random.Random(f'{seed} {number}')
        self.start = self.chance.choice([0, 0, 5, 2**63, LAST - 3])
        self.crates = [{'root': 0, 'cfg': self.flags()} for _ in range(self.chance.choice([0, 1, 1, 1, 2, 2, 3]))]
        self.opening = {'crates': self.crates, 'start': self.start, 'skipped': self.chance.choice([[], ['a'], ['doc', 'b']]),
                        'edition': self.chance.choice([{}, {'year': 2015}, {'reserved': ['f', 'type']}])}
        # The edits that stand, as they were sent, and as TOOL reads them.
        self.sent, self.made = [], []

    def flags(self):
        return self.chance.sample(FLAGS, self.chance.randrange(3))

    def item(self, depth=0):
        kind = self.chance.choice(['fn', 'struct', 'const', 'module', 'use', 'impl', 'static', 'enum'])
        item = {'is': kind, 'hash': self.chance.randrange(4), 'number': self.chance.randrange(3)}
        if kind not in ('use', 'impl'):
            item['name'] = self.chance.choice(NAMES)
        if kind not in ('impl',):
            item['vis'] = self.chance.choice([None, 'pub', 'crate', 'super', {'in': ['crate', 'a']}])
        if kind == 'struct':
            item['fields'] = self.chance.choice(['unit', 'record', ['pub', None]])
        if kind == 'module':
            item['items'] = [self.item(depth + 1) for _ in range(self.chance.randrange(3) if depth < 3 else 0)]
        if kind == 'use':
            item['tree'] = {'path': ['plain', self.chance.choice(NAMES)], 'star': self.chance.random() < 0.3}
        if self.chance.random() < 0.3:
            item['attrs'] = [{'meta': 'cfg', 'cfg': self.chance.choice(FLAGS)}, {'meta': 'path', 'path': ['plain', 'a']}]
        item['body'] = self.chance.choice(['', '{ 1 }'])
        return item

    def edit(self, before=()):
        """An edit behind those of its line, as it is sent, and as TOOL reads it."""
        chance, material = self.chance, self.material
        file, block = chance.randrange(4), chance.randrange(2)
        kind = chance.choice(['stored', 'made', 'made', 'text', 'text', 'remove_file', 'set_block', 'remove_block', 'set_cfg'])
        if kind == 'set_cfg' and self.crates:
            edit = {'edit': 'set_cfg', 'crate': chance.randrange(len(self.crates)), 'cfg': self.flags()}
        elif kind == 'remove_file':
            edit = {'edit': 'remove_file', 'file': file}
        elif kind == 'set_block':
            edit = {'edit': 'set_block', 'block': block, **chance.choice(material.blocks)}
        elif kind == 'remove_block':
            edit = {'edit': 'remove_block', 'block': block}
        elif kind == 'text':
            at = chance.randrange(len(material.texts))
            old, new = text_after(self.sent + [edit for edit, _ in before], file), material.texts[at]
            return ({'edit': 'set_text', 'file': file, 'text': new} if old is None else changing(chance, file, old, new),
                    {'edit': 'set_file', 'file': file, 'syntax': material.read[self.opening['edition'].get('year', 2024)][at]})
        else:
            syntax = (chance.choice(material.syntaxes) if kind == 'stored' else
                      {'root': 'source_file', 'items': [self.item() for _ in range(chance.randrange(4))]})
            edit = {'edit': 'set_file', 'file': file, 'syntax': syntax}
        return edit, edit

    def show(self):
        chance = self.chance
        if not self.crates or chance.random() < 0.3:
            since = min(LAST, max(0, self.number() - chance.randrange(-1, 5)))
            return {'show': 'changed', 'since': since, 'as': chance.choice([None, 'json'])}
        place = {'file': chance.randrange(5)} if chance.random() < 0.8 else {'block': chance.randrange(3)}
        return {'show': chance.choice(['page', 'tree', 'tree', 'imports']), 'crate': chance.randrange(len(self.crates)), **place}

    def number(self):
        return self.start + len(self.made)

    def wrong_line(self, is_first):
        """A line that changes nothing, and the kind of its error and its pointer or its place."""
        edits = [self.edit()[0] for _ in range(self.chance.randrange(2))]
        opening = self.opening if is_first else {}
        (item, of_item), (statement, of_statement) = self.chance.choice(WRONG_ITEMS), self.chance.choice(WRONG_STATEMENTS)
        lines = [
            (b'{"edits":[', 'not JSON', None),
            (b'', 'not JSON', None),
            ([], 'not a request', ''),
            ({**opening, 'edits': edits + [{'edit': 'set_file', 'file': 0}]}, 'not a request', f'/edits/{len(edits)}/syntax'),
            ({**opening, 'edits': edits + [file_of(item)]}, 'not a request', f'/edits/{len(edits)}/syntax/items/0{of_item}'),
            ({**opening, 'edits': edits + [{'edit': 'set_block', 'block': 0, 'stmts': [statement]}]}, 'not a request',
             f'/edits/{len(edits)}/stmts/0{of_statement}'),
            ({**opening, 'edits': edits, 'shows': [{'show': 'page', 'crate': len(self.crates), 'file': 0}]}, 'not a request',
             '/shows/0/crate'),
            ({**opening, 'edits': edits, 'shows': {}}, 'not a request', '/shows'),
            ({**opening, 'id': 0.5, 'edits': edits}, 'not a request', '/id'),
        ]
        if not is_first:
            lines.append(({'crates': [{'root': 0}], 'edits': edits}, 'not a request', '/crates'))
            change = {'edit': 'change_text', 'file': 9, 'range': [0, 0], 'text': ''}
            lines.append(({'edits': edits + [change]}, 'text not changed', len(edits)))
        return self.chance.choice(lines)


class Faulty(Exception):
    pass


def want(is_right, *told):
    if not is_right:
        raise Faulty('\n'.join(map(shown, told)))


def tool_texts(tool, case, shows):
    """The texts of shows after the edits so far, by TOOL. What stands between them is the tree of a file that is never set."""
    between = {'show': 'tree', 'crate': 0, 'file': 2**32 - 1}
    mark = f'crate 0 file {2**32 - 1} change {case.start}\n\n'
    asked = [part for show in shows for part in ([show, between] if case.crates else [show])]
    done = subprocess.run([tool], input=written({**case.opening, 'edits': case.made, 'shows': asked}), timeout=SECONDS,
                          stdout=subprocess.PIPE, stderr=subprocess.PIPE)
    want(done.returncode == 0, f'{tool}: status {done.returncode}', done.stderr)
    text = done.stdout.decode()
    # Without crates nothing changes.
    texts = text.split(mark)[:-1] if case.crates else [text] * len(shows)
    return [unset_of(case, show) or as_asked(show, text) for show, text in zip(shows, texts)]


def unset_of(case, show):
    """What is answered in place of the tool's text where nothing is set."""
    for kind in ('file', 'block'):
        if kind in show:
            last = [edit['edit'] for edit in case.made if edit.get(kind) == show[kind] and edit['edit'] != 'set_cfg']
            return None if last and last[-1].startswith('set') else unset(**{kind: show[kind]})
    return None


def as_asked(show, text):
    """The text of a show, or the values that it tells of if these are asked for."""
    if show.get('as') != 'json':
        return text
    told = (line.split(' ') for line in text.splitlines())
    return [dict(sorted({'crate': int(krate), place: int(number), 'change': int(change)}.items()))
            for _, krate, place, number, _, change in told]


def try_wrong_line(server, case, is_first):
    line, kind, pointer = case.wrong_line(is_first)
    got = server.ask(line)
    error = json.loads(got).get('error', {})
    number = None if is_first else case.number()
    wanted = refused(number, {'column': error.get('column'), 'kind': kind} if kind == 'not JSON' else
                     {'cause': 'no text', 'kind': kind, 'place': pointer} if kind == 'text not changed' else
                     not_request(number, pointer))
    want(got == wanted, 'a line of wrong form', line if isinstance(line, bytes) else written(line), got, wanted)


def try_good_line(server, tool, case, told, is_first):
    edits = []
    for _ in range(case.chance.choice([0, 1, 1, 1, 2, 3])):
        edits.append(case.edit(edits))
    shows = [case.show() for _ in range(case.chance.randrange(4))]
    room, cause = LAST - case.number(), 'too many edits'
    at = min(len(edits), room)
    if case.crates and case.chance.random() < 0.1:
        place = case.chance.randrange(len(edits) + 1)
        far = {**FAR, 'file': 9}
        edits.insert(place, (far, far))
        if place < room:
            at, cause = place, 'too many supers'
        else:
            at = room
    got = server.ask({**(case.opening if is_first else {}), 'id': told, 'edits': [edit for edit, _ in edits], 'shows': shows})
    case.sent += [edit for edit, _ in edits[:at]]
    case.made += [edit for _, edit in edits[:at]]
    if at < len(edits):
        wanted = refused(case.number(), {'cause': cause, 'kind': 'edit refused', 'place': at}, told)
    else:
        wanted = answered(case.number(), tool_texts(tool, case, shows) if shows else [], told)
    want(got == wanted, f'the line with the id {told}', written(shows), got, wanted)


def try_at_once(server, program, case):
    """A new session that is given all edits in its first line answers as this one."""
    places = [{'file': file} for file in range(4)]
    shows = [{'show': kind, 'crate': krate, **place} for krate in range(len(case.crates)) for place in places
             for kind in ('outline', 'import_places', 'tree')]
    shows += [{**show, 'as': 'json'} for show in shows if show['show'] == 'tree']
    shows += [{'show': 'problems', **place} for place in places]
    finds = [{'show': 'find', 'name': path} for name in NAMES for path in (name, f'::{name}', f'a::{name}', f'crate::f::{name}')]
    finds += [{'show': 'find', 'name': name, 'members': flag} for name in ('*', 'a::*', '::?') for flag in (False, True)]
    got = server.ask({'shows': shows + finds})
    with Server(program) as other:
        wanted = other.ask({**case.opening, 'edits': case.sent, 'shows': shows + finds})
    want(got == wanted, 'all edits at once', got, wanted)


def try_session(program, tool, material, seed, number):
    case = Random(material, seed, number)
    with Server(program) as server:
        is_first = True
        for told in range(case.chance.randrange(2, 9)):
            while case.chance.random() < 0.2:
                try_wrong_line(server, case, is_first)
            try_good_line(server, tool, case, told, is_first)
            is_first = False
        try_at_once(server, program, case)
        found = server.end()
        want(found == (b'', 0, b''), 'the end', found)


def try_sessions(given):
    """Every `step`-th session from the first on: how many passed, and what was wrong."""
    options, material, first, step = given
    good, faults = 0, []
    for number in range(first, options.sessions, step):
        try:
            try_session(options.program, options.tool, material, options.seed, number)
            good += 1
        except Exception as fault:
            faults.append(f'session {number} of the seed {options.seed}: {type(fault).__name__} {fault}')
    return good, faults


def read_in(program, found, year):
    """What is read of texts in an edition."""
    with tempfile.TemporaryDirectory() as folder:
        request, _ = request_of(program, found, folder, '--edition', str(year))
    return [edit['syntax'] for edit in request['edits']]


def without_wrong_brackets(program, found):
    """Those texts that lists do not mend."""
    with tempfile.TemporaryDirectory() as folder:
        _, paths = request_of(program, found, folder)
        return [text for text, path in zip(found, paths) if not has_wrong_bracket(program, path)]


def check_random(options):
    global passed, failed
    syntaxes, blocks = stored_edits()
    found = without_wrong_brackets(options.program, texts())
    material = Material(syntaxes, blocks, found, {year: read_in(options.program, found, year) for year in (2015, 2024)})
    step = len(os.sched_getaffinity(0))
    with multiprocessing.Pool(step) as pool:
        for good, faults in pool.imap_unordered(try_sessions, [(options, material, first, step) for first in range(step)]):
            passed += good
            failed += len(faults)
            for fault in faults[:5]:
                print(f'serve: {fault}', file=sys.stderr)
    print(f'serve: {options.sessions} random sessions of the seed {options.seed}')


# ---- damage

ODD = [{}, [], 0, -1, 65536, 2**32, LAST, -2**63, True, 'x', '', 'a\nb', None, [[]], [None], [{}], ['x', 0], 'other', 'pub', 'unit',
       'unreadable', ['plain', 'a'], ['super', 1], {'in': ['abs']}, {'not': None}, {'key': 'a'}, {'item': FUNCTION}, {'call': {}},
       {'meta': 'path'}, FUNCTION]
FLOATS = [0.5, 1e300, LAST + 1, -2**63 - 1]
ADDED = ['noted', 'is', 'name', 'vis', 'items', 'attrs', 'item', 'call', 'key', 'all', 'not', 'in', 'span', 'file', 'block']


def places(value):
    """The places below a value, each as what holds it and its key there."""
    return [(holder, key) for holder in parts(value) if isinstance(holder, (dict, list))
            for key in (holder if isinstance(holder, dict) else range(len(holder)))]


def depth(value):
    count, level = 0, [value]
    while level := [part for part in level if isinstance(part, (dict, list))]:
        count, level = count + 1, [inner for part in level for inner in (part.values() if isinstance(part, dict) else part)]
    return count


def copied(value):
    return json.loads(json.dumps(value))


def damaged(chance, value, odd):
    """A copy of a value, with one to three others replaced, dropped, doubled or added anywhere in it."""
    box = [copied(value)]
    for _ in range(chance.choice([1, 1, 1, 2, 3])):
        all_places = places(box)
        # The first place is that of the whole value.
        holder, key = chance.choice(all_places[1:] if len(all_places) > 1 and chance.random() < 0.95 else all_places)
        kind = chance.randrange(8)
        if kind == 0 and holder is not box:
            del holder[key]
        elif kind == 1 and isinstance(holder, list) and holder is not box:
            holder.insert(chance.randrange(len(holder) + 1), copied(holder[key]))
        elif kind == 2 and isinstance(holder[key], dict):
            holder[key][chance.choice(ADDED)] = copied(chance.choice(odd))
        elif kind == 3:
            other, at = chance.choice(all_places[1:] or all_places)
            holder[key] = copied(other[at])
        else:
            holder[key] = copied(chance.choice(odd))
    return box[0]


def good_edit(case):
    """Half of them of all forms, the others of the requests, of the random sessions, or one by hand."""
    chance, material = case.chance, case.material
    attrs, items = chance.sample(GOOD_METAS, 3), chance.sample(GOOD_ITEMS, 5)
    calls = [{'call': call} for call in chance.sample(GOOD_CALLS, 2)]
    body = {'stmts': [{'item': item} for item in items] + calls[1:], 'tail': calls[0]}
    syntaxes = [{'root': 'source_file', 'attrs': attrs, 'items': items}, {'root': 'macro_items', 'items': items},
                {'root': 'macro_stmts', **body}, *chance.sample(material.syntaxes, 2)]
    blocks = [{'attrs': attrs, **body}, chance.choice(material.blocks)]
    return chance.choices([
        {'edit': 'set_file', 'file': 1, 'syntax': chance.choice(syntaxes)}, {'edit': 'set_block', 'block': 1, **chance.choice(blocks)},
        {'edit': 'set_cfg', 'crate': 0, 'cfg': FLAGS}, chance.choice(GOOD_EDITS), case.edit()[0]], [60, 25, 3, 6, 6])[0]


def check_damaged_lines(program, case, crates, count):
    """Damaged edits and shows. A wrong value stands behind each, and is told where none of its own is."""
    chance, right = case.chance, 0
    with Server(program) as server:
        case.crates = [{'root': file} for file in range(crates)]
        number = json.loads(server.ask({'crates': case.crates}))['number']
        for _ in range(count):
            key, value, form = (('edits', good_edit(case), wrong_edit) if chance.random() < 0.9 else
                                ('shows', chance.choice(GOOD_SHOWS), wrong_show))
            value = damaged(chance, value, ODD + FLOATS if chance.random() < 0.1 else ODD)
            if depth(value) > 125:
                continue
            steps = form(value, crates)
            wanted = no_request(number, pointer_of([key, 1] if steps is None else [key, 0, *steps]))
            got = server.ask({key: [value, 0]})
            tell(got == wanted, f'damaged {key}: {shown(written(value))}', got, wanted)
            if steps is None and not has_long_path(value, 100):
                right += 1
                answer = json.loads(server.ask({key: [value]}))
                tell(answer.get('error', {}).get('kind') in (None, 'edit refused', 'text not changed'),
                     f'good {key}: {shown(written(value))}', answer)
                number = answer['number']
        ends_well(server, 'damaged lines')
    return right


def check_damaged_openings(program, chance, count):
    """Damaged keys of first lines, which open no session: wrong edits stand behind them."""
    with Server(program) as server:
        for _ in range(count):
            opening = damaged(chance, GOOD_OPENING, ODD)
            steps = wrong_opening(opening)
            line = {**opening, 'edits': 0} if isinstance(opening, dict) else opening
            wanted = no_request(None, pointer_of(['edits'] if steps is None else steps))
            got = server.ask(line)
            tell(got == wanted, f'a damaged first line: {shown(written(line))}', got, wanted)
        got, wanted = server.ask(OPENED), answered(0, [])
        tell(got == wanted, 'a first line behind damaged ones', got, wanted)
        ends_well(server, 'damaged first lines')


def check_random_wrong_forms(options):
    syntaxes, blocks = stored_edits()
    edits = [{**SET, 'syntax': syntax} for syntax in syntaxes] + [{'edit': 'set_block', 'block': 0, **block} for block in blocks]
    faults = [edit for edit in edits if wrong_edit(edit, 0) is not None]
    tell(not faults, 'the forms, beside the requests that are answered', faults)
    case = Random(Material(syntaxes, blocks, SNIPPETS, {2024: SNIPPETS}), options.seed, 'damage')
    right = sum(check_damaged_lines(options.program, case, crates, 1000) for crates in (0, 1, 3))
    check_damaged_openings(options.program, case.chance, 300)
    print(f'serve: 3,300 damaged lines of the seed {options.seed}, and {right} whose damage leaves them right')


# ---- noise

def noise(chance, good):
    """Bytes that are no good line: random ones, or a good line that is cut or holds what JSON never does."""
    kind = chance.randrange(4)
    if kind == 0:
        data = bytes(chance.randrange(256) for _ in range(chance.choice([0, 1, 2, 30, 5000])))
    elif kind == 1:
        data = bytes(chance.choice(b'{}[]",:\\0123456789eE+-. \ttrufalsn\xc3\xa9') for _ in range(chance.randrange(200)))
    elif kind == 2:
        data = good[:chance.randrange(len(good))]
    else:
        at = chance.randrange(len(good) + 1)
        data = good[:at] + chance.choice([b'\x00', b'\xff', b'\x1b']) + good[at:]
    return data.replace(b'\n', b'')


def is_object(data):
    try:
        return isinstance(json.loads(data.decode()), dict)
    except (ValueError, RecursionError):
        return False


def check_noise(options):
    chance = random.Random(f'{options.seed} noise')
    pool = texts()
    with Server(options.program) as noisy, Server(options.program) as quiet:
        line, number = written({**OPENED, 'edits': [SET]}), None
        for _ in range(300):
            for _ in range(chance.randrange(4)):
                data = noise(chance, line)
                if is_object(data):
                    continue
                got = noisy.ask(data)
                value = json.loads(got)
                error = value.get('error', {})
                tell(list(value) == ['id', 'number', 'error'] and value['id'] is None and value['number'] == number
                     and (error.get('kind') == 'not JSON' or error == {'expected': 'an object', 'kind': 'not a request', 'pointer': ''}), f'noise: {data!r}', got)
            got, wanted = noisy.ask(line), quiet.ask(line)
            tell(got == wanted and b'"error"' not in got, 'a good line after noise', got, wanted)
            number = json.loads(got).get('number')
            line = written({'id': chance.randrange(100), 'edits': [{'edit': 'set_text', 'file': 1, 'text': chance.choice(pool)}],
                            'shows': [PAGE, {'show': 'outline', 'crate': 0, 'file': 1}, {'show': 'find', 'name': 'f'}]})
        ends_well(noisy, 'noise')


# ---- a client that does not read

def check_unread(options):
    with Server(options.program) as server:
        items = [{'is': 'fn', 'name': 'f', 'number': number} for number in range(2000)]
        opening = {**OPENED, 'edits': [{'edit': 'set_file', 'file': 1, 'syntax': {'root': 'source_file', 'items': items}}]}
        server.ask(opening)
        server.ask({'shows': [PAGE]})
        before = server.kilobytes('VmRSS')
        pipe = server.process.stdin.fileno()
        os.set_blocking(pipe, False)
        line, rest, taken, quiet = written({'shows': [PAGE]}) + b'\n', b'', 0, time.monotonic()
        # Until the program takes nothing for a second, or took what no pipe holds.
        while time.monotonic() - quiet < 1 and taken < 1 << 24:
            rest = rest or line
            try:
                count = os.write(pipe, rest)
            except BlockingIOError:
                time.sleep(0.01)
                continue
            rest, taken, quiet = rest[count:], taken + count, time.monotonic()
        tell(taken < 1 << 24, 'the program waits for its reader', f'it took {taken} bytes')
        used, after = server.seconds(), server.kilobytes('VmRSS')
        time.sleep(0.5)
        tell(server.process.poll() is None and server.seconds() - used < 0.05, 'it waits without work', server.seconds() - used)
        tell(after < before + 8192, 'it waits without growing', f'{before} kB, then {after} kB')
        server.process.stdout.close()
        try:
            status = server.process.wait(SECONDS)
        except subprocess.TimeoutExpired:
            status = None
        tell(status == 6 and server.told() == b'itemtree: writing failed\n', 'nobody will read', (status, server.told()), 6)


# ---- many edits

def edit_of(number):
    """An edit of one of twenty files: mostly typing inside a body, else other items, a syntax, or a removal."""
    file = number % 20
    others = ''.join(f'pub fn f{at}(a: u8) -> u8 {{ a + {at} }}\n' for at in range(20))
    kind = number // 20 % 10
    if kind == 7:
        return {'edit': 'set_file', 'file': file, 'syntax': SET['syntax']}
    if kind == 8:
        return {'edit': 'remove_file', 'file': file}
    name = 'other' if kind == 5 else 'f'
    stray = ')' if file == 0 else ''
    return {'edit': 'set_text', 'file': file, 'text': f'{others}fn {name}() {{ {number % 100_000:05} }}\n{stray} use a::b;\n'}


def marks_of(program):
    """The processor time and the memory after each 1,000 of 10,000 edits."""
    marks = []
    with Server(program) as server:
        server.ask(OPENED)
        for number in range(10_000):
            if number % 1000 == 0:
                marks.append((server.seconds(), server.kilobytes('VmRSS')))
            shows = [{'show': 'changed', 'since': number}, {'show': 'find', 'name': 'f'}, {'show': 'problems', 'file': number % 20}]
            got = server.ask({'edits': [edit_of(number)], 'shows': shows})
            if not got.startswith(b'{"id":null,"number":%d,"shows":[' % (number + 1)):
                raise Silent(f'edit {number} is answered by {shown(got)}')
        marks.append((server.seconds(), server.kilobytes('VmRSS')))
        ends_well(server, 'many edits')
    return marks


def find_seconds(program, count):
    """The processor time that finding takes where so many modules of one file have functions of one name."""
    text = ''.join(f'mod m{at} {{ fn new() {{}} }}\n' for at in range(count))
    with Server(program) as server:
        server.ask({**OPENED, 'edits': [{'edit': 'set_text', 'file': 0, 'text': text}], 'shows': [{'show': 'find', 'name': 'old'}]})
        before = server.seconds()
        got = json.loads(server.ask({'shows': [{'show': 'find', 'name': name} for name in ('new', '::new', f'm{count - 1}::new')]}))
        took = server.seconds() - before
        tell([len(found) for found in got['shows']] == [count, 0, 1], f'find among {count} of one name', got)
        lines = [found['line'] for found in got['shows'][0]]
        tell(sorted(lines) == list(range(1, count + 1)), f'the lines of {count} of one name', lines)
        ends_well(server, 'many of one name')
    return took


def check_one_name(options):
    # Four times the file takes about four times as long.
    early, late = (min(find_seconds(options.program, count) for _ in range(2)) for count in (2000, 8000))
    tell(late <= 8 * early + 0.1, 'find reads a file once', f'{early} s, and {late} s for four times the file')


def added_seconds(program, count):
    """The processor time of 3,000 edits that add an item to a file among so many, each with a look at the names."""
    def edit(file, more=''):
        return {'edit': 'set_text', 'file': file, 'text': f'pub fn f{file}() {{}}\npub fn new() {{}}\nmod m {{ struct S{file}; }}\n{more}'}
    with Server(program) as server:
        server.ask({**OPENED, 'edits': [edit(file) for file in range(count)], 'shows': [{'show': 'find', 'name': 'f0'}]})
        before = server.seconds()
        for at in range(1, 3001):
            shows = [{'show': 'find', 'name': f'added{name}'} for name in (at, at - 1)]
            got = json.loads(server.ask({'edits': [edit(7, f'pub fn added{at}() {{}}\n')], 'shows': shows}))
            tell([len(found) for found in got['shows']] == [1, 0], f'an item added among {count} files', got)
        took = server.seconds() - before
        ends_well(server, 'many files')
    return took


def check_many_files(options):
    # Three hundred times as many files make an edit of one of them at most twice as slow.
    early, late = (min(added_seconds(options.program, count) for _ in range(2)) for count in (100, 30_000))
    tell(late <= 2 * early + 0.02, 'an edit among many files', f'{early} s, and {late} s among three hundred times as many files')


def check_many(options):
    check_one_name(options)
    check_many_files(options)
    # Others may have had the processor, so the best of some thousands counts, and a second run.
    for _ in range(2):
        marks = marks_of(options.program)
        took = [late[0] - early[0] for early, late in zip(marks, marks[1:])]
        early, late = min(took[1:5]), min(took[6:])
        if late <= 1.4 * early + 0.05:
            break
    tell(late <= 1.4 * early + 0.05, 'processor time stays level', f'the seconds for each 1,000 edits: {took}')
    tell(marks[10][1] <= marks[2][1] + 1024, 'memory stays level', f'kB after each 1,000 edits: {[mark[1] for mark in marks]}')
    print(f'serve: 10,000 edits took {marks[10][0]:.2f} s and {marks[10][1]} kB')


PARTS = {'examples': check_examples, 'errors': check_errors, 'lines': check_line_forms, 'places': check_places, 'typed': check_typed,
         'mended': check_mended, 'random': check_random,
         'damaged': check_random_wrong_forms, 'noise': check_noise, 'unread': check_unread, 'many': check_many}


def main():
    parser = argparse.ArgumentParser(description='Speaks with `itemtree serve` over pipes.')
    parser.add_argument('program')
    parser.add_argument('tool')
    parser.add_argument('--part', action='append', choices=PARTS)
    parser.add_argument('--sessions', type=int, default=1000)
    parser.add_argument('--seed', type=int, default=1)
    options = parser.parse_args()
    options.program, options.tool = os.path.abspath(options.program), os.path.abspath(options.tool)
    for program in (options.program, options.tool):
        if not os.access(program, os.X_OK):
            print(f'no program is at {program}', file=sys.stderr)
            print('serve: 0 passed, 1 failed')
            return 69
    for name in options.part or PARTS:
        start = time.monotonic()
        try:
            PARTS[name](options)
        except (Silent, ValueError, KeyError, IndexError, OSError, subprocess.SubprocessError) as fault:
            tell(False, f'{name}: {type(fault).__name__}', fault)
        print(f'serve: the part {name} took {time.monotonic() - start:.1f} s')
    print(f'serve: {passed} passed, {failed} failed')
    return 1 if failed or not passed else 0


if __name__ == '__main__':
    sys.exit(main())
