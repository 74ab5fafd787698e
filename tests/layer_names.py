#!/usr/bin/env python3
"""The public names of the layer, as its users call them: layer_names.py.

Each name below has to stand in the page of its crate in docs/api, which `docs/api.py --check` compares with the sources. A
line has a type, and after a colon its cases, fields, constants and functions; names without a colon stand by themselves. A
name goes, or becomes another, only with a line under "Breaking" in CHANGELOG.md.
"""
import os
import re
import sys

HOME = os.path.dirname(os.path.dirname(os.path.abspath(__file__)))
NAMES = {
    "hir_input": """
ast::Syntax: SourceFile attrs items MacroItems MacroStmts stmts tail Error
ast::BlockExpr: attrs stmts tail
ast::Stmt: Item MacroCall Other
ast::Tail: Nothing MacroCall Other
ast::Item: AsmExpr Const Enum ExternBlock ExternCrate Fn Impl MacroCall MacroDef MacroRules Module Static
    Struct Trait TypeAlias Union Use
ast::ExternItem: Fn MacroCall Static TypeAlias
ast::PlainKind: Enum Fn MacroDef Static Trait TypeAlias Union item ast_kind
ast::NamedNode: hash number attrs name visibility body new
ast::AsmExpr: hash number attrs body new
ast::ExternBlock: hash number attrs items body new
ast::ExternCrate: hash number attrs name visibility rename body new
ast::Impl: hash number attrs is_trait_impl body new
ast::MacroCall: hash number attrs path expand_to ctxt body new
ast::MacroRules: hash number attrs name body new
ast::Module: hash number attrs name visibility semicolon items body new outline
ast::Struct: hash number attrs name visibility kind body new
ast::StructKind: Record Tuple Unit
ast::TupleField: visibility
ast::Use: hash number attrs visibility use_tree body new
ast::UseTree: path star rename list new at
ast::Rename: name
ast::Visibility: Pub PubCrate PubSuper PubSelf InPath
ast::PathNode: Readable Unreadable
Attr: path input ctxt token_tree_value string_value_with_span
AttrId: from_item_tree_index item_tree_index
AttrInput: Literal TokenTree
Literal: rendered string span
Meta: Path path ctxt KeyValue value TokenTree tokens Cfg CfgAttr condition metas Unsafe
TokenTree: rendered
CfgAtom: Flag KeyValue key value
CfgExpr: Invalid Atom All Any Not
CfgOptions: new check
InEdition: new
Written: write
Edition: year reserved
EditionYear: E2015 E2018 E2021 E2024
ExpandTo: Statements Items Pattern Ty Expr
AstIdKind: Const Enum ExternBlock ExternCrate Fn Impl MacroDef MacroCall MacroRules Module Static Struct Trait
    TypeAlias Union Use
FileAstId: kind hash number
SyntaxContext: Root Expanded
ModPath: display from_segments kind segments as_ident
PathKind: Plain Super Crate Abs DollarCrate
Name: display new text
Span: start end ctxt
ast::Const ast::Enum ast::Fn ast::MacroDef ast::Static ast::Trait ast::TypeAlias ast::Union ModPathDisplay
NameDisplay BlockId Crate HirFileId
""",
    "item_tree_attrs": """
AttrError: TooMany OutOfMemory
AttrsOrCfg: Enabled attrs CfgDisabled empty lower is_empty merge
AttrsOwned: as_ref
MergeRefused: left right cause
AttrQuery: attrs tt_values string_value_with_span exists
Attrs: EMPTY as_slice by_key iter iter_after is_proc_macro is_proc_macro_attribute
AttrIter KeyedAttrs TtValues
""",
    "item_tree": """
CrateData: root cfg attrs
EditFault: TooManyEdits Lower
LowerError: TooManyItems TooManyVisibilities TooManyUseTrees TooManyAttributes TooManySupers OutOfMemory
Const: name visibility
Enum: name visibility
ExternBlock: children
ExternCrate: name visibility alias
FieldsShape: Record Tuple Unit has_value_ns_ctor
Function: name visibility
Impl: is_trait_impl
ItemTreeNode: KIND
Macro2: name visibility
MacroCall: path expand_to ctxt
MacroRules: name
Mod: name visibility kind
ModItemId: ast_id
ModItemKind: Const Enum ExternBlock ExternCrate Function Impl Macro2 MacroCall MacroRules Mod Static Struct
    Trait TypeAlias Union Use
ModKind: Inline items Outline
Static: name visibility
Struct: name visibility shape value_ns_ctor
StructValueNsCtor: NoValueNsCtor ValueNsCtorWithVis ValueNsCtorWithMinVis
Trait: name visibility
TypeAlias: name visibility
Union: name visibility
Use: visibility use_tree expand
ItemTree: pretty_print empty top_level_items top_level_attrs attrs contains has_visibility index
    item_tree_stats
ItemTreeDataStats: traits impls mods macro_calls macro_rules
ImportAlias: Underscore Alias display
ImportKind: Plain Glob TypeOnly
UseTree: kind
UseTreeKind: Single path alias Glob Prefixed prefix list
RawVisibility: Module PubSelf PubCrate Public
VisibilityExplicitness: Explicit Implicit is_explicit
lower_block lower_syntax lower_use_tree ImportAliasDisplay UseTreeIdx RawVisibilityId visibility_from_ast
""",
    "item_tree_db": """
AllRefused: place refused
Edit: SetFile file syntax RemoveFile SetBlock block RemoveBlock SetCfg krate options
EditRefused: edit cause
Place: File Block
Sources: new edit set_again edit_all knows cfg_options number changed changed_since changed_places
    changed_among file_syntax block_syntax tree
TreeId: new file_id is_block item_tree
ChangedSince file_item_tree
""",
    "item_tree_request": """
RunError: NotJson NotRequest Refused place cause OutOfMemory Read Write status
run run_with
""",
}


def members(text):
    """The cases and fields in the definition of a type."""
    text = re.sub(r"//.*|/\*.*?\*/", "", text).partition("\n")[2]
    return {field or first for field, first in re.findall(r"(\w+):(?!:)|^ +(?:pub )?(\w+)", text, re.M)}


def public_names(crate):
    """All that its page names, with what each type has."""
    with open(f"{HOME}/docs/api/{crate}.md", encoding="utf-8") as file:
        items = re.findall(r"^## (\S+)\n\n```rust\n(.*?)\n```", file.read(), re.M | re.S)
    found = set()
    for name, text in items:
        found.add(name)
        if re.match(r"pub (struct|enum)", text):
            found |= {f"{name}::{member}" for member in members(text)}
    return found


def wanted_names(lines):
    """The names of a list: a line that is set in goes on with the one before."""
    for line in re.sub(r"\n +", " ", lines).split("\n"):
        owner, colon, own = line.partition(": ")
        if colon:
            yield owner
            yield from (f"{owner}::{name}" for name in own.split())
        else:
            yield from line.split()


def main():
    passed = failed = 0
    for crate, lines in NAMES.items():
        found = public_names(crate)
        for name in wanted_names(lines):
            if name in found:
                passed += 1
            else:
                failed += 1
                print(f"{crate}: there is no public {name}")
    print(f"layer_names: {passed} passed, {failed} failed")
    return 1 if failed or passed == 0 else 0


if __name__ == "__main__":
    sys.exit(main())
