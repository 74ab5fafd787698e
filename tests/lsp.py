#!/usr/bin/env python3
"""Talks to `itemtree lsp` as an editor does, over pipes.

  lsp.py ITEMTREE [--edits N]   with N lists of random changes (200 without it)

A model of documents in Python, written from the protocol's page and not from the program, says what each text is; the
symbols of a document after changes have to be those of a new server that opened its text.
"""
import json
import os
import pathlib
import random
import re
import subprocess
import sys
import tempfile
import threading

passed = failed = 0


def check(is_so, said):
    global passed, failed
    if is_so:
        passed += 1
    else:
        failed += 1
        print(f"lsp.py: {said}", file=sys.stderr)


def framed(message):
    body = message if isinstance(message, bytes) else json.dumps(message, ensure_ascii=False).encode()
    return b"Content-Length: %d\r\n\r\n" % len(body) + body


def told(method, params=None, **more):
    return framed({"jsonrpc": "2.0", "method": method, "params": params, **more})


def opened(uri, text, language="rust", version=0):
    return told("textDocument/didOpen", {"textDocument": {"uri": uri, "languageId": language, "version": version, "text": text}})


def changes_told(uri, changes, version):
    return told("textDocument/didChange", {"textDocument": {"uri": uri, "version": version}, "contentChanges": changes})


def closed(uri):
    return told("textDocument/didClose", {"textDocument": {"uri": uri}})


class Server:
    """A server, and a client of it that waits for each answer."""

    def __init__(self, arguments=(), offers=("utf-8", "utf-16"), is_hierarchical=True, environment=None):
        self.process = subprocess.Popen([ITEMTREE, "lsp", *arguments], stdin=subprocess.PIPE, stdout=subprocess.PIPE, stderr=subprocess.PIPE, env=environment)
        self.last = 0
        self.told = []
        general = {"general": {"positionEncodings": list(offers)}} if offers else {}
        symbols = {"documentSymbol": {"hierarchicalDocumentSymbolSupport": is_hierarchical}}
        self.asked = {"processId": None, "rootUri": None, "capabilities": {**general, "textDocument": symbols}}
        self.opened = self.insist("initialize", self.asked)
        self.encoding = self.opened.get("result", {}).get("capabilities", {}).get("positionEncoding")
        self.tell("initialized", {})

    def write(self, data):
        try:
            self.process.stdin.write(data)
            self.process.stdin.flush()
        except BrokenPipeError:
            pass

    def read(self):
        length = None
        while True:
            line = self.process.stdout.readline()
            if not line:
                raise EOFError
            if line == b"\r\n":
                break
            name, value = line.split(b":")
            if name.lower() == b"content-length":
                length = int(value)
        return json.loads(self.process.stdout.read(length))

    def next(self, seconds=10):
        """The next message, or none where it does not come in that time."""
        timer = threading.Timer(seconds, self.process.kill)
        timer.start()
        try:
            return self.read()
        except EOFError:
            return None
        finally:
            timer.cancel()

    def tell(self, method, params=None):
        self.write(told(method, params))

    def answer(self, number):
        """The answer under an id; what is told before it is kept."""
        while True:
            message = self.read()
            if "id" in message and message["id"] in (number, None):
                return message
            self.told.append(message)

    def ask(self, method, params=None):
        self.last += 1
        self.write(told(method, params, id=self.last))
        return self.answer(self.last)

    def insist(self, method, params):
        """Asks, and again where a message was lost."""
        while True:
            self.last += 1
            self.write(told(method, params, id=self.last))
            message = self.read()
            while message.get("method") != "window/showMessage" or message["params"]["type"] != 1:
                if "id" in message and message["id"] in (self.last, None):
                    return message
                message = self.read()

    def notice(self):
        """What is told next, of problems or of memory."""
        while True:
            message = self.read()
            if message["method"] in ("textDocument/publishDiagnostics", "window/showMessage"):
                return message
            self.told.append(message)

    def open(self, uri, text, language="rust", version=0):
        self.write(opened(uri, text, language, version))

    def change(self, uri, changes, version=1):
        self.write(changes_told(uri, changes, version))

    def symbols(self, uri):
        return self.ask("textDocument/documentSymbol", {"textDocument": {"uri": uri}})

    def end(self):
        self.insist("shutdown", None)
        self.tell("exit")
        self.process.stdin.close()
        return self.process.wait(timeout=5)


# ---- texts as the protocol counts them


def width(character, encoding):
    return len(character.encode()) if encoding == "utf-8" else len(character.encode("utf-16-le")) // 2


def lines_of(text):
    """Where lines begin, and where what they hold ends: a line ends with CRLF, LF or CR, and with nothing else."""
    lines, start, at = [], 0, 0
    while at < len(text):
        if text[at] in "\r\n":
            end = at + (2 if text[at : at + 2] == "\r\n" else 1)
            lines.append((start, at))
            start = at = end
        else:
            at += 1
    lines.append((start, len(text)))
    return lines


def index_of(text, position, encoding):
    """The character at which a position stands, clamped as the protocol's page says."""
    lines = lines_of(text)
    if position["line"] >= len(lines):
        return len(text)
    at, end = lines[position["line"]]
    left = position["character"]
    while at < end and left >= width(text[at], encoding):
        left -= width(text[at], encoding)
        at += 1
    return at


def position_of(text, at, encoding):
    lines = lines_of(text)
    number = max(n for n, (start, _) in enumerate(lines) if start <= at)
    start, end = lines[number]
    return {"line": number, "character": sum(width(c, encoding) for c in text[start : min(at, end)])}


def changed(text, change, encoding):
    if "range" not in change:
        return change["text"]
    ends = [index_of(text, change["range"][it], encoding) for it in ("start", "end")]
    return text[: min(ends)] + change["text"] + text[max(ends) :]


# ---- the conversation


def refused(answer, code, said):
    check(answer is not None and answer.get("error", {}).get("code") == code, f"{said}: {answer}")


def try_order():
    process = subprocess.Popen([ITEMTREE, "lsp"], stdin=subprocess.PIPE, stdout=subprocess.PIPE)
    ask = lambda number, method: framed({"jsonrpc": "2.0", "id": number, "method": method, "params": {}})
    tell = lambda method: framed({"jsonrpc": "2.0", "method": method})
    out, _ = process.communicate(ask(1, "shutdown") + tell("textDocument/didOpen") + ask("two", "initialize") + ask(3, "initialize") + ask(4, "hover") + ask(5, "shutdown") + ask(6, "textDocument/documentSymbol") + tell("exit") + ask(7, "initialize"))
    answers = [json.loads(it.split(b"\r\n\r\n", 1)[1]) for it in out.split(b"Content-Length: ")[1:]]
    check([it["id"] for it in answers] == [1, "two", 3, 4, 5, 6], f"the order of answers: {answers}")
    codes = [it.get("error", {}).get("code") for it in answers]
    check(codes == [-32002, None, -32600, -32601, None, -32600], f"the codes of an odd order: {codes}")
    check(answers[4].get("result", 0) is None, f"shutdown has no result: {answers[4]}")
    check(process.returncode == 0, f"the status after a shutdown and an exit: {process.returncode}")
    for data, status in [(b"", 1), (tell("exit"), 1), (ask(1, "initialize") + tell("exit"), 1), (ask(1, "initialize"), 1), (b"Content-Length: 5\r\n\r\nab", 6), (b"garbage\r\n\r\n", 6), (b"Content-Length: 99999999999999999999\r\n\r\n", 6)]:
        ended = subprocess.run([ITEMTREE, "lsp"], input=data, stdout=subprocess.PIPE, stderr=subprocess.PIPE, timeout=5)
        check(ended.returncode == status, f"{data[:40]} ends with {ended.returncode}, and not {status}")


def try_faults():
    server = Server()
    for body, code in [(b"{", -32700), (b"[]", -32600), (b'"a"', -32600), (b"{}", -32600), (b"\xff", -32700), (b"[{}]", -32600)]:
        server.write(framed(body))
        refused(server.answer(None), code, f"{body}")
    for body in [b'{"jsonrpc":"2.0","id":3,"result":null}', b'{"id":3,"error":{}}', b'{"id":null,"error":{}}', b'{"method":"$/setTrace","params":{}}', b'{"method":"anything"}']:
        server.write(framed(body))
    for params in [None, {}, [], {"textDocument": {}}, {"textDocument": {"uri": 1}}, {"textDocument": {"uri": "file:///none.rs"}}]:
        refused(server.ask("textDocument/documentSymbol", params), -32602, f"symbols of {params}")
    refused(server.ask("textDocument/hover", {}), -32601, "hover")
    server.open("file:///a.rs", "fn a() {}")
    for params in [{}, {"textDocument": {"uri": "file:///a.rs"}}, {"textDocument": {"uri": "file:///b.rs"}, "contentChanges": []}]:
        server.tell("textDocument/didChange", params)
    refused(server.symbols("file:///a.rs"), -32602, "a document whose change cannot be read is closed")
    server.open("file:///a.rs", "fn a() {}")
    server.open("file:///a.rs", "fn b() {}")
    check([it["name"] for it in server.symbols("file:///a.rs")["result"]] == ["b"], "a document that is opened twice")
    server.open("file:///a.txt", "fn a() {}", language="plaintext")
    check(server.symbols("file:///a.txt")["result"] == [], "another language has no symbols")
    server.open("file:///c.rs", "fn c() {}", language="rs")
    check(len(server.symbols("file:///c.rs")["result"]) == 1, "a text is Rust by its name")
    server.tell("textDocument/didClose", {"textDocument": {"uri": "file:///a.rs"}})
    refused(server.symbols("file:///a.rs"), -32602, "a closed document")
    check(server.end() == 0, "the end")


def try_encodings():
    for offers, wanted in [((), "utf-16"), (("utf-16",), "utf-16"), (("utf-32", "utf-8"), "utf-8"), (("utf-8",), "utf-8")]:
        server = Server(offers=offers)
        check(server.encoding == wanted, f"{offers} gives {server.encoding}")
        server.end()


# ---- problems

TROUBLED = """\
use std::fmt;
mod m { use std::fmt; }
use std::{io, fmt as f};
/* 🦀 */ use std::{fmt};
#[cfg(unix)] use a::b; #[cfg(not(unix))] use a::b;
fn (
"""


def told_of(server, uri):
    """What is told of a document next."""
    while True:
        message = server.read()
        if message.get("method") == "textDocument/publishDiagnostics" and message["params"]["uri"] == uri:
            return message["params"]
        server.told.append(message)


def try_places_of_problems():
    uri = "file:///troubled.rs"
    for encoding in ("utf-8", "utf-16"):
        server = Server(offers=(encoding,))
        server.open(uri, TROUBLED, version=7)
        at = lambda line, start, end: {"start": {"line": line, "character": start}, "end": {"line": line, "character": end}}
        use = 7 + width("🦀", encoding)
        wanted = [(at(5, 0, 0), 1, "this item has no end"), (at(5, 3, 3), 1, "nothing closes this bracket"), (at(3, use, use + 15), 2, "std::fmt is imported again, first in line 1")]
        told = told_of(server, uri)
        got = [(it["range"], it["severity"], it["message"]) for it in told["diagnostics"]]
        check(got == wanted and told["version"] == 7, f"problems in {encoding}: {told}, and not {wanted}")
        server.change(uri, [{"range": at(5, 0, 4), "text": ""}, {"range": at(3, use + 10, use + 13), "text": "rc"}], 8)
        told = told_of(server, uri)
        check(told == {"uri": uri, "version": 8, "diagnostics": []}, f"what is mended has no problems: {told}")
        server.change(uri, [{"text": TROUBLED}], None)
        check(len(told_of(server, uri)["diagnostics"]) == 3, "problems of a whole text")
        server.tell("textDocument/didClose", {"textDocument": {"uri": uri}})
        check(told_of(server, uri) == {"uri": uri, "diagnostics": []}, "a closed document has no problems")
        server.open(uri, TROUBLED, language="rust", version=1)
        told_of(server, uri)
        server.open("file:///a.txt", TROUBLED, language="plaintext")
        check(told_of(server, "file:///a.txt")["diagnostics"] == [], "another language has no problems")
        check(server.end() == 0, "the end of problems")


def try_numbers():
    """Lines and characters may be written with zeros behind a point, and with an exponent."""
    server = Server()
    for number, is_whole in [("1.0", True), ("10e-1", True), ("0.1e1", True), ("1", True), ("1.5", False), ("-1.0", False), ("1e300", False), ("2147483648.0", False), ('"1"', False)]:
        server.open("file:///n.rs", "fn a() {}\nfn b() {}\n")
        place = b'{"line":%s,"character":3.0}' % number.encode()
        change = b'{"textDocument":{"uri":"file:///n.rs","version":1},"contentChanges":[{"range":{"start":%s,"end":%s},"text":"c"}]}' % (place, place)
        server.write(framed(b'{"jsonrpc":"2.0","method":"textDocument/didChange","params":%s}' % change))
        names = [it["name"] for it in server.symbols("file:///n.rs").get("result", [])]
        check(names == (["a", "cb"] if is_whole else []), f"a line that is written {number}: {names}")
    check(server.end() == 0, "the end of numbers")


# ---- symbols: `«` and `»` stand around what is told, `‹` and `›` around its name

KINDS = {"mod": 2, "extern": 3, "enum": 10, "trait": 11, "fn": 12, "macro_rules": 12, "const": 14, "static": 14, "impl": 19, "struct": 23, "union": 23, "type": 26, "method": 6, "field": 8, "variant": 22}

MARKED = """\ufeff// 🦀 é\tU+2028 \u2028 ends no line
«/// One.
pub fn ‹one›() {}» «pub(crate) const ‹A›: u8 = 1;»\r
«#[cfg(any())] static ‹𝔛é›: u8 = 0;»\r«mod ‹m› { «pub(in super) type ‹T› = u8;» use a::b; x!(); }»
«struct ‹S› { /* e\u0301 */ «pub ‹f›: u8», «‹r#type›: u8» }» extern crate z;
«enum ‹E› { «‹V›», «‹W›(u8)» }» «union ‹U› { «‹f›: u8» }»
«trait ‹Tr› { «fn ‹f›();» «const ‹C›: u8;» «type ‹A›;» }»
«impl Tr for S { «fn ‹f›() {}» }»
«extern "C" { «fn ‹g›();» }»
«macro_rules! ‹mr› { () => {} }»
«fn ‹in_body›() { fn no() {} }»
«mod ‹o› { «mod ‹i› { «struct ‹P› { «‹q›: u8» }» «fn ‹r›() {}» }» «const ‹Z›: u8 = 0;» }»
"""

TOLD = [
    ("one", "fn", "pub", []), ("A", "const", "pub(crate)", []), ("𝔛é", "static", "inactive", []),
    ("m", "mod", "", [("T", "type", "pub(super)", [])]),
    ("S", "struct", "", [("f", "field", "pub", []), ("type", "field", "", [])]),
    ("E", "enum", "", [("V", "variant", "", []), ("W", "variant", "", [])]),
    ("U", "union", "", [("f", "field", "", [])]),
    ("Tr", "trait", "", [("f", "method", "", []), ("C", "const", "", []), ("A", "type", "", [])]),
    ("impl Tr for S", "impl", "", [("f", "method", "", [])]),
    ("extern", "extern", "", [("g", "fn", "", [])]),
    ("mr", "macro_rules", "", []), ("in_body", "fn", "", []),
    ("o", "mod", "", [("i", "mod", "", [("P", "struct", "", [("q", "field", "", [])]), ("r", "fn", "", [])]), ("Z", "const", "", [])]),
]


def unmarked(marked):
    """The text without its marks, and the ranges that they stand around: each item's, then its name's."""
    text, whole, names, found = "", [], [], []
    for character in marked:
        if character == "«":
            whole.append(len(found))
            found.append([len(text), None, None])
        elif character == "»":
            found[whole.pop()][1] = len(text)
        elif character == "‹":
            names.append(len(text))
        elif character == "›":
            found[whole[-1]][2] = (names.pop(), len(text))
        else:
            text += character
    return text, found


def wanted_symbols(told, ranges, text, encoding):
    at = lambda start, end: {"start": position_of(text, start, encoding), "end": position_of(text, end, encoding)}
    symbols = []
    for name, kind, detail, inner in told:
        start, end, name_range = ranges.pop(0)
        selection = at(*name_range) if name_range else at(start, start)
        symbols.append({"name": name, "kind": KINDS[kind], "detail": detail, "range": at(start, end), "selectionRange": selection, "children": wanted_symbols(inner, ranges, text, encoding)})
    return symbols


def alone(symbols, uri, container):
    """Each of these symbols alone, in front of those that stand in it."""
    for it in symbols:
        yield {"name": it["name"], "kind": it["kind"], "location": {"uri": uri, "range": it["range"]}, **container}
        yield from alone(it["children"], uri, {"containerName": it["name"]})


def try_symbols():
    text, found = unmarked(MARKED)
    for encoding in ("utf-8", "utf-16"):
        for is_hierarchical in (True, False, None):
            server = Server(offers=(encoding,), is_hierarchical=is_hierarchical)
            server.open("file:///marked.rs", text)
            wanted = wanted_symbols(TOLD, list(found), text, encoding)
            wanted = wanted if is_hierarchical else list(alone(wanted, "file:///marked.rs", {}))
            got = server.symbols("file:///marked.rs").get("result")
            check(got == wanted, f"symbols in {encoding}:\n{json.dumps(got, ensure_ascii=False)}\nwanted\n{json.dumps(wanted, ensure_ascii=False)}")
            server.end()


# ---- lone surrogates: JavaScript writes each as an escape, and each stands for U+FFFD

LONE = ["/* \ud800 */ ", "/* \udfff\ud83e */ ", "/* \ud83e\udd80 */ ", "/* \udbff\ud83e\udd80\udd80é\u2028 */ ", "/* \\ud800 \\\\\ud800\\ */ ", "/* \ud8ff\n\udc00\ud800\t\udc00\" */ "]


def try_surrogates():
    for encoding in ("utf-8", "utf-16"):
        for lone in LONE:
            text = lone.encode("utf-16-le", "surrogatepass").decode("utf-16-le", "replace") + "fn a() {}"
            at = lambda it: {"start": position_of(text, text.index(it), encoding), "end": position_of(text, text.index(it) + len(it), encoding)}
            wanted = [{"name": "a", "kind": 12, "detail": "", "range": at("fn a() {}"), "selectionRange": {"start": at("a()")["start"], "end": at("() {}")["start"]}, "children": []}]
            server = Server(offers=(encoding,))
            opened = {"textDocument": {"uri": "file:///o.rs", "languageId": "rust", "version": 0, "text": lone + "fn a() {}"}}
            changes = [{"range": {"start": {"line": 0, "character": 0}, "end": {"line": 0, "character": 0}}, "text": lone + "fn a"}]
            server.open("file:///c.rs", "() {}")
            for method, params in [("textDocument/didOpen", opened), ("textDocument/didChange", {"textDocument": {"uri": "file:///c.rs", "version": 1}, "contentChanges": changes})]:
                body = json.dumps({"jsonrpc": "2.0", "method": method, "params": params})
                server.write(framed((re.sub(r"\\u(....)", lambda it: it[0][:2] + it[1].upper(), body) if encoding == "utf-8" else body).encode()))
            for uri in ("file:///o.rs", "file:///c.rs"):
                got = server.symbols(uri).get("result")
                check(got == wanted, f"{lone!r} of {uri} in {encoding}: {got}")
            server.end()


# ---- ranges: `«` and `»` stand around an item or a member, `‹` and `›` around its name, `⟨` and `⟩` around its braces

MARKS = {"«": "range", "»": "range", "‹": "name", "›": "name", "⟨": "braces", "⟩": "braces"}

RANGED = """\
// 🦀 é
«/// One.
#[inline]
fn ‹one›(
    a: u8,
) ⟨{
    fn no() {}
}⟩» «const ‹A›: u8 = 1;»\r
«mod ‹outer› {\r
    «pub mod ‹inner› { «fn ‹𝔛é›() ⟨{ }⟩»«type ‹T› =
        u8;» }»\r
    «use a::{
        b,
    };»\r}»
«struct ‹S› ⟨{
    «pub ‹f›: u8»,
    /* 🦀 */ «‹r#type›: Vec<
        u8,
    >»,
}⟩»«enum ‹E› ⟨{ «‹V›», «‹W›(
    u8,
)» }⟩»
«trait ‹Tr› ⟨{
    «fn ‹f›(
        &self,
    );»
}⟩»
«impl<T> Tr for T ⟨{ «fn ‹f›(
    &self,
) ⟨{
}⟩»}⟩» «macro_rules! ‹mr› ⟨{
    () => {}
}⟩»
«#[cfg(any())]
extern "C" {
    «fn ‹g›();»
}»
// e\u0301"""


def marked_parts(marked):
    """The text without its marks, and each item and member: the ranges that marks stand around."""
    text, opened, parts = "", [], []
    for character in marked:
        if character == "«":
            opened.append({})
            parts.append(opened[-1])
        if character not in MARKS:
            text += character
        elif MARKS[character] in opened[-1]:
            opened[-1][MARKS[character]] = (opened[-1][MARKS[character]][0], len(text))
        else:
            opened[-1][MARKS[character]] = (len(text), None)
        if character == "»":
            opened.pop()
    return text, parts


def span(text, start, end, encoding):
    return {"start": position_of(text, start, encoding), "end": position_of(text, end, encoding)}


def wanted_folds(text, parts):
    folds = []
    for part in parts:
        start, end = part.get("braces", (part.get("name", part["range"])[0], part["range"][1]))
        lines = [position_of(text, at, "utf-8")["line"] for at in (start, end)]
        if lines[0] < lines[1]:
            folds.append({"startLine": lines[0], "endLine": lines[1]})
    return folds


def wanted_selection(text, parts, at, encoding):
    """The whole text around the items around the name: of two that touch there, the first."""
    around = [(0, len(text))]
    for part in parts:
        for start, end in (part["range"], part.get("name", part["range"])):
            if start <= at <= end and around[-1][0] <= start and end <= around[-1][1] and (start, end) != around[-1]:
                around.append((start, end))
    selection = None
    for start, end in around:
        selection = {"range": span(text, start, end, encoding), **({"parent": selection} if selection else {})}
    return selection


def wanted_highlights(text, parts, at, encoding):
    for part in parts:
        braces = part.get("braces")
        marks = ([part["name"]] if "name" in part else []) + ([(braces[0], braces[0] + 1), (braces[1] - 1, braces[1])] if braces else [])
        if any(start <= at <= end for start, end in marks):
            return [{"range": span(text, start, end, encoding)} for start, end in marks]
    return []


def try_ranges():
    text, parts = marked_parts(RANGED)
    for encoding in ("utf-8", "utf-16"):
        server = Server(offers=(encoding,))
        can = server.opened["result"]["capabilities"]
        check(can["foldingRangeProvider"] and can["selectionRangeProvider"] and can["documentHighlightProvider"], f"what the server can do: {can}")
        document = {"textDocument": {"uri": "file:///ranged.rs"}}
        server.open("file:///ranged.rs", text)
        got, wanted = server.ask("textDocument/foldingRange", document).get("result"), wanted_folds(text, parts)
        check(got == wanted, f"folds: {got}, and not {wanted}")
        # (Each position of the text, and some beyond it: between CR and LF, within a character, behind a line, behind the text.)
        positions = [position_of(text, at, encoding) for at in range(len(text) + 1)]
        positions += [{"line": line, "character": at} for line in (0, 9, 12, 77) for at in range(0, 60, 1)] + [{"line": 2**31 - 1, "character": 2**31 - 1}]
        got = server.ask("textDocument/selectionRange", {**document, "positions": positions}).get("result")
        check(got is not None and len(got) == len(positions), "as many selections as positions")
        for number, position in enumerate(positions):
            at = index_of(text, position, encoding)
            wanted = wanted_selection(text, parts, at, encoding)
            check(got[number] == wanted, f"the selection at {position} in {encoding}: {got[number]}, and not {wanted}")
            marks, wanted = server.ask("textDocument/documentHighlight", {**document, "position": position}).get("result"), wanted_highlights(text, parts, at, encoding)
            check(marks == wanted, f"the highlights at {position} in {encoding}: {marks}, and not {wanted}")
        check(server.end() == 0, "the end of ranges")


def try_other_ranges():
    server = Server()
    start, place = {"line": 0, "character": 0}, {"line": 0, "character": 4}
    asked = {"foldingRange": {}, "selectionRange": {"positions": [start, place]}, "documentHighlight": {"position": place}}
    alone = lambda end: {"range": {"start": start, "end": {"line": 0, "character": end}}}
    for uri, text, language, answers in [
        ("file:///empty.rs", "", "rust", ([], [alone(0), alone(0)], [])),
        ("file:///a.txt", "fn a() {\n}", "plaintext", ([], [{"range": {"start": start, "end": {"line": 1, "character": 1}}}] * 2, [])),
        ("file:///blank.rs", "      ", "rust", ([], [alone(6), alone(6)], [])),
        ("file:///whole.rs", "fn a();", "rust", ([], [alone(7), {**{"range": {"start": {"line": 0, "character": 3}, "end": {"line": 0, "character": 4}}}, "parent": alone(7)}], [{"range": {"start": {"line": 0, "character": 3}, "end": {"line": 0, "character": 4}}}])),
    ]:
        server.open(uri, text, language=language)
        for (method, params), wanted in zip(asked.items(), answers):
            got = server.ask(f"textDocument/{method}", {"textDocument": {"uri": uri}, **params})
            check(got.get("result") == wanted, f"{method} of {text!r}: {got}")
            refused(server.ask(f"textDocument/{method}", {"textDocument": {"uri": "file:///none.rs"}, **params}), -32602, f"{method} of no document")
    for method, params, pointer in [
        ("selectionRange", {}, "/positions"), ("selectionRange", {"positions": place}, "/positions"), ("selectionRange", {"positions": [place, {"line": 0}]}, "/positions/1/character"),
        ("documentHighlight", {}, "/position"), ("documentHighlight", {"position": {"line": -1, "character": 0}}, "/position/line"),
    ]:
        answer = server.ask(f"textDocument/{method}", {"textDocument": {"uri": "file:///empty.rs"}, **params})
        refused(answer, -32602, f"{method} with {params}")
        check(answer.get("error", {}).get("message", "").endswith(f" {pointer}"), f"where {params} is wrong: {answer}")
    check(server.end() == 0, "the end of other ranges")


# ---- changes

PIECES = ["fn f() {}\n", "struct S { a: u8 }\r\n", "\r", "\n", "é", "🦀", "\u2028", "\ufeff", "mod m {", "}", "// c\n", "/*", "*/", '"', " ", "x", "enum E { A, B }", "impl S {", "\t"]


def random_position(text, encoding):
    if random.random() < 0.1:
        return {"line": random.choice([0, 3, 10**6, 2**31 - 1]), "character": random.choice([0, 5, 10**6, 2**31 - 1])}
    position = position_of(text, random.randint(0, len(text)), encoding)
    if random.random() < 0.2:
        position["character"] += random.choice([1, 2, 3])
    return position


def random_change(text, encoding):
    new = "".join(random.choice(PIECES) for _ in range(random.randint(0, 3)))
    if random.random() < 0.05:
        return {"text": new}
    start, end = random_position(text, encoding), random_position(text, encoding)
    if random.random() < 0.6:
        end = dict(start)
    return {"range": {"start": start, "end": end}, "text": new, "rangeLength": 77}


def try_edits(count):
    for number in range(count):
        random.seed(number)
        encoding = random.choice(["utf-8", "utf-16"])
        server = Server(offers=(encoding,))
        text = "".join(random.choice(PIECES) for _ in range(random.randint(0, 30)))
        server.open("file:///r.rs", text)
        for version in range(random.randint(1, 4)):
            changes = []
            for _ in range(random.randint(1, 4)):
                changes.append(random_change(text, encoding))
                text = changed(text, changes[-1], encoding)
            server.change("file:///r.rs", changes, version)
        server.open("file:///whole.rs", text)
        fresh = Server(offers=(encoding,))
        fresh.open("file:///r.rs", text)
        got, same, wanted = server.symbols("file:///r.rs"), server.symbols("file:///whole.rs"), fresh.symbols("file:///r.rs")
        check(got.get("result") == wanted.get("result") == same.get("result"), f"changes by seed {number}: {text!r}")
        check(server.end() == fresh.end() == 0, f"the end after changes by seed {number}")


# ---- problems, which are told when no message waits


def brief(message):
    """The id of an answer, or what a notice of problems is about: which document, in which version, and how many."""
    if message is None or message.get("method") != "textDocument/publishDiagnostics":
        return message and message.get("id")
    params = message["params"]
    return params["uri"], params.get("version"), len(params["diagnostics"])


def try_problems():
    server = Server()
    a, b, t, none = "file:///a.rs", "file:///b.rs", "file:///t.txt", "file:///none.rs"
    end = {"line": 2**31 - 1, "character": 0}
    typed = lambda uri, text, version: changes_told(uri, [{"range": {"start": end, "end": end}, "text": text}], version)
    symbols = lambda uri, id: told("textDocument/documentSymbol", {"textDocument": {"uri": uri}}, id=id)
    for said, data, wanted in [
        ("fifty changes have one notice", opened(a, "fn a() {}\n") + b"".join(typed(a, "}\n", version) for version in range(1, 51)), [(a, 50, 50)]),
        ("a request behind a change is answered before the problems are told", typed(a, "}", 51) + symbols(a, "behind"), ["behind", (a, 51, 51)]),
        (
            "each document is told once, as it stands then",
            opened(b, "fn b() {}") + typed(a, "}", 52) + typed(b, "}", 1) + typed(a, "}", 53) + typed(a, " ", 70) + opened(t, "}", "plaintext") + changes_told(none, [], 1),
            [(b, 1, 1), (a, 70, 53), (t, 0, 0), (none, None, 0)],
        ),
        ("what is mended is told", changes_told(a, [{"text": "fn a() {}"}], 71), [(a, 71, 0)]),
        ("a closed document is told at once, and that alone", typed(a, "}", 72) + closed(a) + symbols(a, "closed"), [(a, None, 0), "closed"]),
        ("a message that is lost closes all", typed(b, "}", 2) + framed(b"{") + symbols(b, "lost"), [None, "lost"]),
        ("nothing is told behind a shutdown", opened(a, "}") + told("shutdown", id="end"), ["end"]),
    ]:
        server.write(data)
        got = [brief(server.next()) for _ in wanted]
        check(got == wanted, f"{said}: {got}")
    check(server.end() == 0 and server.process.stdout.read() == b"" and server.told == [], f"nothing else is told: {server.told}")


# ---- streams


def try_streams():
    text = "fn a() {}\nfn b() {}\n"
    server = Server()
    data = b"".join(opened(f"file:///{n}.rs", text + f"fn n{n}() {{}}") for n in range(10))
    data += b"".join(framed({"jsonrpc": "2.0", "id": f"{n}", "method": "textDocument/documentSymbol", "params": {"textDocument": {"uri": f"file:///{n % 10}.rs"}}}) for n in range(200))
    server.write(data)
    answers = []
    while len(answers) < 200:
        message = server.read()
        (answers if "id" in message else server.told).append(message)
    check([it["id"] for it in answers] == [f"{n}" for n in range(200)], "200 requests in one write")
    check(all(it["result"][2]["name"] == f"n{n % 10}" for n, it in enumerate(answers)), "200 requests about ten documents")
    for header in [b"content-length: %d\r\n\r\n", b"CONTENT-LENGTH:%d\r\nContent-Type: application/vscode-jsonrpc; charset=utf-8\r\n\r\n", b"Content-Type: x\r\nContent-Length: %d\r\n\r\n"]:
        body = json.dumps({"id": 7, "method": "textDocument/documentSymbol", "params": {"textDocument": {"uri": "file:///1.rs"}}}).encode()
        for byte in header % len(body) + body:
            server.write(bytes([byte]))
        check(len(server.answer(7)["result"]) == 3, f"a message byte by byte behind {header}")
    check(server.end() == 0, "the end of streams")
    server = Server()
    server.process.stdout.close()
    server.tell("shutdown")
    server.write(told("shutdown", id=1))
    check(server.process.wait(timeout=5) == 6, "the end where nobody reads")


# ---- many edits


def try_many():
    """10,000 edits of one document, a hundred in one write: memory and time stay level."""
    server, uri, place = Server(), "file:///many.rs", {"line": 1, "character": 4}
    server.open(uri, "fn a() {\n    1\n}\n" + "// b\n" * 200)
    server.notice()
    put = {"range": {"start": place, "end": place}, "text": "x"}
    take = {"range": {"start": place, "end": {"line": 1, "character": 5}}, "text": ""}
    kilobytes, milliseconds = [], []
    for number in range(100):
        server.write(b"".join(changes_told(uri, [put if version % 2 else take], 100 * number + version) for version in range(1, 101)))
        while server.notice()["params"].get("version") != 100 * number + 100:
            pass
        kilobytes.append(int(re.search(r"^VmRSS:\s+(\d+)", pathlib.Path(f"/proc/{server.process.pid}/status").read_text(), re.M)[1]))
        milliseconds.append(int(pathlib.Path(f"/proc/{server.process.pid}/schedstat").read_text().split()[0]) / 1e6)
    check(kilobytes[-1] <= kilobytes[9] + 100, f"the memory of 10,000 edits: {kilobytes[9]} kB, and {kilobytes[-1]} at last")
    halves = milliseconds[49], milliseconds[-1] - milliseconds[49]
    check(halves[1] <= 2 * halves[0] + 20, f"the time of 10,000 edits: {halves} ms")
    check([it["name"] for it in server.symbols(uri)["result"]] == ["a"] and server.end() == 0, "the end of 10,000 edits")


# ---- each request for memory refused in turn


def talk(server):
    """The answers of a conversation, and of its last two requests, each about a text that is opened anew."""
    ask = lambda method, uri, **params: server.insist(f"textDocument/{method}", {"textDocument": {"uri": uri}, **params})
    answers = [server.opened]
    if "error" in server.opened:
        answers.append(server.insist("initialize", server.asked))
    server.open("file:///a.rs", TROUBLED)
    server.notice()
    answers.append(ask("documentSymbol", "file:///a.rs"))
    server.change("file:///a.rs", [{"range": {"start": {"line": 1, "character": 0}, "end": {"line": 1, "character": 3}}, "text": "fn a() {}"}])
    place = {"line": 1, "character": 4}
    answers += [ask("foldingRange", "file:///a.rs"), ask("selectionRange", "file:///a.rs", positions=[place]), ask("documentHighlight", "file:///a.rs", position=place)]
    last = []
    for _ in range(2):
        server.open("file:///b.rs", "mod m { struct S; }")
        last.append(ask("documentSymbol", "file:///b.rs"))
    return answers, last


def try_refusals():
    """Each answer is whole, or says that there is no memory, or that a document is not open; of the last two one is whole."""
    with tempfile.TemporaryDirectory() as folder:
        library, counted = f"{folder}/refuse_memory.so", f"{folder}/counted"
        subprocess.run(["cc", "-shared", "-fPIC", "-O1", "-o", library, pathlib.Path(__file__).with_name("refuse_memory.c"), "-ldl"], check=True)
        wholes, wanted = talk(Server())
        number = lambda answer: {**answer, "id": None}
        wholes, wanted = [number(it)["result"] for it in wholes], wanted[0]["result"]
        for request in range(1, 100_000):
            with open(counted, "w", encoding="ascii") as file:
                file.write(" " * 42)
            environment = {**os.environ, "LD_PRELOAD": library, "COUNT_REQUESTS": counted, "REFUSE_REQUEST": f"{request}"}
            server = Server.__new__(Server)
            try:
                server.__init__(environment=environment)
                answers, last = talk(server)
                status = server.end()
            except EOFError:
                said, status = server.process.stderr.read(), server.process.wait(timeout=5)
                check(status in (2, 6) and said == b"itemtree: out of memory\n", f"request {request} for memory refused: {status}, {said}")
                continue
            are_whole = [it.get("result", 0) in wholes or it["error"]["code"] in (-32603, -32602, -32600) for it in answers]
            check(all(are_whole), f"request {request} for memory refused: {answers[are_whole.index(False) if False in are_whole else 0]}")
            check(wanted in [it.get("result") for it in last], f"request {request} for memory refused, at last: {last}")
            check(status in (0, 1, 6), f"request {request} for memory refused: {status}")
            with open(counted, encoding="ascii") as file:
                if int(file.read().split()[0]) < request:
                    return


if __name__ == "__main__":
    ITEMTREE = sys.argv[1]
    try_order()
    try_faults()
    try_encodings()
    try_places_of_problems()
    try_numbers()
    try_symbols()
    try_surrogates()
    try_ranges()
    try_other_ranges()
    try_problems()
    try_streams()
    try_many()
    try_refusals()
    try_edits(int(sys.argv[sys.argv.index("--edits") + 1]) if "--edits" in sys.argv else 200)
    print(f"lsp: {passed} passed, {failed} failed")
    sys.exit(failed > 0)
