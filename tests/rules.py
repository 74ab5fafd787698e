#!/usr/bin/env python3
"""The rules of the reader, written as the Reference writes its own: for the page of definitions, and alone to look at.

Told are the rules that are data (`Grammar` and `Anchored`), the lookaheads that they name, and of bare readers those that are a sequence.
It reads `specs/`, and proves nothing.
"""
import pathlib
import re

CRATES = ("rust_paths", "rust_metas", "rust_leaves")
DEFINED = re.compile(r"^(?:abbrev |unfoldable )?pub (\w+) : (.*)$")
RULE = re.compile(r"(?:^|→ )(Grammar \w+|Anchored|Reader|Lookahead)(?: (?:\w+|\(.*\)))?$")
TOKEN = re.compile(r'"[^"]*"|[()]|\n *|[^\s()"]+')
# What reads nothing, and what only hands on a rule or changes its value, with the place of that rule.
EMPTY = {"gives", "gives_from", "pure", "shows", "look"}
SAME = {"reads": 1, "reads_from": 2, "from_outside": 1, "unplaced": 1, "reads_as": 2, "reads_from_as": 2}
NAMED = {"passes_tree": "tree", "takes_text": "tree", "passes_angles": "[generics]", "passes_field": "field-rest", "takes_any": "token",
         "bump": "token", "eat_colons": '["::"]', "takes_identifier": "[IDENTIFIER]"}
SEEN = {"at_identifier": "IDENTIFIER", "at_open": "open-bracket", "at_end": "end", "at_item": "item-word", "is_raw": "RAW_IDENTIFIER",
        "is_literal_kind": "LITERAL", "is_path_keyword": "PATH_KEYWORD"}
# Of a lookahead that is told by its name alone.
UNTOLD = "?"
# What one equation of several is for.
CASES = {"zero": "too deep", "true": "asked for", "false": "not asked for", "Outer": "outer", "Inner": "inner"}


class Terms:
    """Reads a term: a word, a list of terms, or `("do", steps)`."""

    def __init__(self, text):
        self.left = TOKEN.findall(text)[::-1]

    def steps(self):
        indent, steps = self.left[-1], []
        while self.left and self.left[-1] == indent:
            self.left.pop()
            if len(self.left) > 1 and self.left[-2] == "←":
                del self.left[-2:]
            steps.append(self.term(is_step=True))
        return ("do", steps)

    def term(self, is_step=False):
        words = []
        while self.left and self.left[-1] != ")":
            if is_step and self.left[-1].startswith("\n"):
                break
            word = self.left.pop()
            if word == "do":
                words.append(self.steps())
            elif word == "λ":
                while not self.left.pop().endswith("."):
                    pass
            elif word == "(":
                words.append(self.term())
                self.left.pop()
            elif not word.startswith("\n"):
                words.append(word)
        return words[0] if len(words) == 1 else words


def terms(text):
    """The terms of a line of arguments."""
    found = Terms(text).term()
    return [found] if isinstance(found, str) or text.startswith("(") and text.find(")") == len(text) - 1 else found


def definitions(page):
    """The rules and the lookaheads of a page of specs: each with its type and its equations, which are arguments and a term."""
    found, name = {}, None
    for line in page.read_text(encoding="utf-8").splitlines():
        defined = DEFINED.match(line)
        if defined:
            rule = RULE.search(defined[2])
            name = defined[1] if rule else None
            if rule:
                found[name] = (rule[1], [])
        elif name and re.match(rf"{name}( .*)? =", line):
            head, _, body = line.partition(" =")
            found[name][1].append([head[len(name):].strip(), body])
        elif name and line.startswith(" ") and found[name][1]:
            found[name][1][-1][1] += "\n" + line
        elif not line.startswith("unfolding "):
            name = None
    return {name: (kind, [(terms(head) if head else [], Terms(body).term()) for head, body in equations])
            for name, (kind, equations) in found.items()}


def code(*numbers):
    return f'"{"".join(chr(int(it)) for it in numbers)}"'


def put_in(term, values):
    """A term with these values in the place of its arguments."""
    if isinstance(term, str):
        return values.get(term, term)
    return type(term)(put_in(it, values) for it in term)


class Rules:
    def __init__(self):
        pages = [file for crate in CRATES for file in sorted(pathlib.Path("crates", crate, "specs").glob("*.antt"))]
        self.pages = {file: definitions(file) for file in pages}
        self.known = {name: it for page in self.pages.values() for name, it in page.items()}

    def called(self, term):
        """A rule by its name, with the words and the rules that it is given."""
        if isinstance(term, str):
            return NAMED.get(term, term.rpartition(".")[2])
        if term[0] == "codes":
            return term[1]
        given = [it for it in term[1:] if not isinstance(it, str) or it in self.known]
        given = [self.called(it) for it in given if isinstance(it, str) or it[0] == "codes" or it[0] in self.known]
        return self.called(term[0]) + (f"({', '.join(given)})" if given else "")

    def seen(self, term):
        """What is seen, token by token."""
        head, *rest = [term] if isinstance(term, str) else term
        if head in self.known and len(self.known[head][1]) == 1:
            arguments, body = self.known[head][1][0]
            found = self.seen(put_in(body, dict(zip(arguments, rest))))
            return found if all(UNTOLD not in it for it in found) else [self.called(term)]
        if head in ("symbol_is", "pair_is"):
            return [code(*rest)]
        if head == "word_is":
            return [self.called(rest[0])]
        if head in ("kind_is", "word_meets", "token_is"):
            return [SEEN.get(rest[0], UNTOLD) if isinstance(rest[0], str) else UNTOLD]
        if head == "then_seen":
            return self.seen(rest[0]) + self.seen(rest[2])
        if head == "past_seen":
            return [UNTOLD]
        if head in ("either_seen", "both_seen"):
            word = " or " if head == "either_seen" else " and "
            return [word.join(" ".join(self.seen(it)) for it in rest)]
        if head == "not_seen":
            return ["not " + " ".join(self.seen(rest[0]))]
        if head == "look_by" and rest[1] == ["fixed_look", "true"]:
            return [" or ".join(" ".join(self.seen(it)) for it in (rest[0], rest[2]))]
        return [UNTOLD if head == "look_by" else SEEN.get(head, self.called(term))]

    def taken(self, term, count):
        """The tokens that a lookahead takes, and behind them what it only sees."""
        seen = self.seen(term)
        if count and len(seen) < count:
            return seen[0]
        ahead = " ".join(seen[count:])
        return " ".join(seen[:count] + ([f"<{ahead}>"] if ahead else []))

    def ways(self, term):
        """The alternatives of a rule, of which the first that fits counts."""
        head = term[0] if isinstance(term, list) else None
        if head in ("on_seen", "from_seen"):
            front = self.taken(term[1], int(term[2]))
            return [" ".join(filter(None, (front, it))) for it in self.ways(term[4])] + self.ways(term[5])
        if head == "spans":
            return [self.taken(term[1], 1)] + self.ways(term[4])
        if head in SAME:
            return self.ways(term[SAME[head]] if len(term) == SAME[head] + 1 else term[SAME[head]:])
        return [self.sequence(term)]

    def part(self, term):
        ways = [it or "nothing" for it in self.ways(term)]
        return f"({' | '.join(ways)})" if len(ways) > 1 else ways[0] if ways != ["nothing"] else ""

    def joined(self, terms):
        return " ".join(filter(None, map(self.part, terms)))

    def sequence(self, term):
        if isinstance(term, tuple):
            return self.joined(term[1])
        head, *rest = [term] if isinstance(term, str) else term
        if head in EMPTY:
            return ""
        if head in ("and_then", "then_from"):
            return self.joined([rest[0], rest[1] if len(rest) == 2 else rest[1:]])
        if head in ("eats", "eat", "eats_pair"):
            return f"[{code(*(it for it in rest if it.isdigit()))}]"
        if head in ("eats_word", "eat_word"):
            return f"[{self.called(rest[0])}]"
        if head == "passes_closed":
            return f"rest-of {code(*rest)}"
        if head in ("repeats", "repeats_from"):
            return f"{{{self.part(rest[2])}}} up to {' '.join(self.seen(rest[0]))}"
        if head in ("in_bracket", "bracket_from"):
            return f"bracket({self.part(rest[0])})"
        if head == "pass":
            return self.called(rest[0])
        return self.called(term)

    def written(self, name, kind, arguments, term):
        """One equation, or nothing of a reader that is no sequence."""
        if kind == "Reader" and not isinstance(term, tuple):
            return None
        cases = [CASES[it] for it in arguments if isinstance(it, str) and it in CASES]
        title = f"{name} ({cases[0]})" if cases else name
        if kind == "Lookahead":
            return None
        return f"{title} = " + f"\n{' ' * len(title)} | ".join(it or "nothing" for it in self.ways(term))

    def text(self):
        """The rules, crate by crate."""
        for crate in CRATES:
            yield f"\n### Rules of `{crate}`\n\n```\n"
            for file, page in self.pages.items():
                if file.parts[1] == crate:
                    for name, (kind, equations) in page.items():
                        yield from (f"{it}\n" for it in (self.written(name, kind, *equation) for equation in equations) if it)
            yield "```\n"


if __name__ == "__main__":
    print("".join(Rules().text()))
