#!/usr/bin/env python3
"""Writes the reader of Rust source as plain Rust, without its contracts, so that rustc can build it: to time it beside the proved one, and to try
a change by callgrind before it is proved. The instructions are those of the proved reader, but for some 3 %.

    plain.py FOLDER    writes FOLDER/main.rs and its modules. The program reads standard input so many times:
                       plain lex TIMES, or plain read|members all|undocumented|conditions TIMES
"""

import pathlib
import re
import sys

HERE = pathlib.Path(__file__).resolve().parent
CRATES = HERE.parent / 'crates'
NAMES = 'hir_input rust_lexer rust_cursor rust_paths rust_metas rust_leaves rust_ids rust_items'.split()

MAIN = '''
mod memchr {
    pub fn memchr(byte: u8, bytes: &[u8]) -> Option<usize> { bytes.iter().position(|b| *b == byte) }
}

mod unicode_ident {
    pub fn is_xid_start(c: char) -> bool { c.is_alphabetic() }
    pub fn is_xid_continue(c: char) -> bool { c.is_alphanumeric() || c == '_' }
}

const EDITION: hir_input::EditionYear = hir_input::EditionYear::E2021;

fn read(text: &str, bodies: bool, metas: rust_metas::WantedMetas) -> plain_std::Vec<rust_items::ItemPlace> {
    let wanted = rust_items::Wanted { bodies, metas };
    rust_items::read_wanted(plain_std::Global, text, wanted, EDITION).unwrap().places
}

fn members(text: &str, place: &rust_items::ItemPlace, metas: rust_metas::WantedMetas) -> usize {
    use hir_input::AstIdKind::*;
    match (place.id.kind, place.body) {
        (Impl | Trait | Enum | Struct | Union, Some(body)) => {
            rust_items::read_members(plain_std::Global, place.id.kind, text, body, EDITION, metas).unwrap().len()
        }
        _ => 0,
    }
}

fn main() {
    let words: std::vec::Vec<_> = std::env::args().collect();
    let text = std::io::read_to_string(std::io::stdin()).unwrap();
    let times = words.last().unwrap().parse().unwrap();
    let metas = match words[2].as_str() {
        "conditions" => rust_metas::WantedMetas::Conditions,
        "undocumented" => rust_metas::WantedMetas::Undocumented,
        _ => rust_metas::WantedMetas::All,
    };
    let mut count = 0;
    for _ in 0..times {
        let text = std::hint::black_box(text.as_str());
        count = match words[1].as_str() {
            "lex" => rust_lexer::Lexer::new(text).count(),
            "read" => read(text, words[2] == "all", metas).len(),
            _ => read(text, false, metas).iter().map(|place| members(text, place, metas)).sum(),
        };
    }
    println!("{count}");
}
'''


def block_end(text, start):
    """The place behind the block in braces that begins at or behind `start`."""
    depth = 0
    for at in range(text.index('{', start), len(text)):
        depth += {'{': 1, '}': -1}.get(text[at], 0)
        if depth == 0:
            return at + 1
    raise ValueError('a block that is not closed')


def without(text, pattern):
    """The text without what begins with the pattern and ends with the block behind it."""
    while found := re.search(pattern, text, re.M):
        end = block_end(text, found.start())
        marks = ',' if 'ensures' in found[0] else ';,'
        text = text[:found.start()] + text[end:].lstrip(marks).removeprefix('\n')
    return text


def derives(found):
    """What a type derives, without what is none of Rust's, and a copy that takes memory."""
    words = [it for it in found[1].split(', ') if it not in ('Drop', 'Error') and (it != 'Clone' or 'Copy' in found[1])]
    return f'#[derive({", ".join(words)})]\n' if words else ''


def plain(text, crate):
    for pattern in (r'^ *(ensures|requires)\b[^{\n]*\{', r'^ *ghost \w+( =|:) \{', r'^impl[^{\n]* (Model|Drop) for [^{]*\{'):
        text = without(text, pattern)
    text = re.sub(r'^ *ghost [^;]*;\n|^ *#!?\[(tactic|cycle|error)\b[^\n]*\n|^use (std::marker|std::simd|thiserror|std::collections)\b[^\n]*\n', '', text, flags=re.M)
    text = re.sub(r'^impl Clone for', 'impl TryClone for', text, flags=re.M)
    text = re.sub(r"<('\w+, )?W: fmt::Write>", lambda found: f'<{found[1][:-2]}>' if found[1] else '', text)
    text = re.sub(r'\b(\w+): Drop\b', r'\1', text)
    text = text.replace('fmt::Formatter<W>', "fmt::Formatter<'_>").replace('std::alloc::', 'crate::plain_std::')
    text = re.sub(r'\bcrate::(?!plain_std)', f'crate::{crate}::', text)
    text = re.sub(r'^(pub )?mod laws;\n', '', text, flags=re.M)
    for name in [*NAMES, 'memchr', 'unicode_ident']:
        text = re.sub(rf'\buse {name}::', f'use crate::{name}::', text)
        text = re.sub(rf'(?<![\w:]){name}::(?=[a-z_]+\()', f'crate::{name}::', text)
    text = re.sub(r'#\[derive\(([^)]*)\)\]\n', derives, text)
    head = re.match(r'(//![^\n]*\n|#!\[[^\n]*\n|\n)*', text)[0]
    return f'{head}use crate::plain_std::*;\nuse std::fmt::Write as _;\n{text[len(head):]}'


def main():
    folder = pathlib.Path(sys.argv[1])
    for name in NAMES:
        source = CRATES / name / 'src'
        for file in sorted(source.rglob('*.rt')):
            page = file.relative_to(source).with_suffix('.rs')
            page = folder / name / ('mod.rs' if page == pathlib.Path('lib.rs') else page)
            page.parent.mkdir(parents=True, exist_ok=True)
            page.write_text(plain(file.read_text(), name))
    (folder / 'plain_std.rs').write_text((HERE / 'plain_std.rs').read_text())
    heads = ''.join(f'mod {name};\n' for name in [*NAMES, 'plain_std'])
    (folder / 'main.rs').write_text('#![allow(warnings)]\n' + heads + MAIN)


main()
