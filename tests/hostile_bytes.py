#!/usr/bin/env python3
"""Runs a program on requests that were damaged at random, and looks at what must hold of every answer.

    hostile_bytes.py PROGRAM [--seconds S] [--seed N] [--count C] [--only CASE]

A case is a request of tests/requests with bytes changed, cut or doubled, numbers replaced by the ends of ranges, and keys,
members and texts doubled, dropped or exchanged. The first cases are the requests as they stand. A case follows from the
seed and its number alone: the same seed and --count give the same cases, on any number of processors. Without --count
cases are made until the seconds are over; --only shows one case and what is found of it.

Of every case: the status is 0, 2, 3 or 4, with its exact line on standard error; nothing is on standard output unless it
is 0; it ends within a second; a second run answers the same. It is 2 exactly where the text is no JSON text (UTF-8, nested
127 deep at most, no number past the floats of 64 bits), and 3 where a number that counts is a float.

Of a case with status 0: other body texts, another order of keys and one more key that is ignored give the same output.
"""
import argparse
import json
import multiprocessing
import os
import random
import re
import resource
import subprocess
import sys
import time

REQUESTS = os.path.join(os.path.dirname(os.path.abspath(__file__)), "requests")
LINES = {0: b"", 2: b"not JSON\n", 3: b"not a request\n"}
CAUSES = "items|visibilities|use trees|attributes|supers|edits"
REFUSED = re.compile(rf"edit (0|[1-9][0-9]*) refused: too many ({CAUSES})\n".encode())
LIMIT, TRIES = 1.0, 3
DEEPEST = 127
# A path of more `super` than this is shown in no case: its text would fill the memory.
MOST_SUPERS = 65536
NUMBERS = ["0", "1", "65535", "65536", "4294967295", "4294967296", "18446744073709551615", "18446744073709551616",
           "-0", "-1", "1e0", "1E400", "0.5", "00", "9" * 400]
TEXTS = ["", "a", "_", "a\nb", "\0", "\r", "é", "\u2028", "\U0001f600", "self", "super", "true", "unreadable", "other",
         "x" * 70000]
BYTES = [bytes([byte]) for byte in b'{}[]",:\\\n 0123456789-+.eEntfu\x00\x7f\x80\xbf\xc3\xed\xf4\xff']
BYTES += [b"\xef\xbb\xbf", b"\xed\xa0\x80", b"\\ud800", b"null"]


class Number(str):
    """A number as it is written."""


class Members(list):
    """The members of an object as they are written, [key, value] each."""


def parsed(data):
    """The value of a text, with numbers and members as they are written. Raises ValueError where it is no JSON text."""
    def refuse(word):
        raise ValueError(word)
    value = json.loads(data.decode("utf-8"), object_pairs_hook=lambda pairs: Members(map(list, pairs)),
                       parse_int=Number, parse_float=Number, parse_constant=refuse)
    if depth(value) > DEEPEST or any(is_refused(part) for part in parts(value)):
        raise ValueError
    return value


def is_refused(part):
    """Whether a scalar or a key is refused by the program's reader, although Python's takes it."""
    if isinstance(part, Number):
        return float(part) in (float("inf"), float("-inf"))
    return isinstance(part, str) and any("\ud800" <= character <= "\udfff" for character in part)


def children(value):
    if isinstance(value, Members):
        return [member for _, member in value]
    return value if isinstance(value, list) else []


def parts(value):
    """The value, its keys, and everything inside."""
    yield value
    if isinstance(value, Members):
        yield from (key for key, _ in value)
    for child in children(value):
        yield from parts(child)


def depth(value):
    return max(map(depth, children(value)), default=0) + isinstance(value, list)


def held(value):
    """What counts of a value: of two equal keys the last one."""
    if isinstance(value, Members):
        return Members([key, held(member)] for key, member in dict(value).items())
    return [held(member) for member in value] if isinstance(value, list) else value


def is_float(part):
    return isinstance(part, Number) and not (
        re.fullmatch(r"-?[0-9]+", part) and part != "-0" and -2**63 <= int(part) < 2**64)


def has_long_path(value):
    return any(type(part) is list and len(part) > 1 and type(part[0]) is str and part[0] == "super"
               and isinstance(part[1], Number) and float(part[1]) > MOST_SUPERS for part in parts(value))


def written(value):
    """The text of a value, as it was written."""
    if isinstance(value, Members):
        return "{" + ",".join(json.dumps(key) + ":" + written(member) for key, member in value) + "}"
    if isinstance(value, list):
        return "[" + ",".join(map(written, value)) + "]"
    return str(value) if isinstance(value, Number) else json.dumps(value, ensure_ascii=False)


def encoded(value):
    return written(value).encode("utf-8")


class Damage:
    """One way of damaging a request after the other, by chance."""

    def __init__(self, chance):
        self.chance = chance

    def piece(self, data):
        start = self.chance.randrange(len(data) + 1)
        return start, min(len(data), start + self.chance.choice([1, 2, 5, 20, 100, 1000]))

    def bytes(self, data):
        start, end = self.piece(data)
        other = self.chance.choice(BYTES)
        return self.chance.choice([
            lambda: data[:start] + other + data[start + 1:],
            lambda: data[:start] + other + data[start:],
            lambda: data[:start] + bytes([self.chance.randrange(256)]) + data[start + 1:],
            lambda: data[:start],
            lambda: data[:start] + data[end:],
            lambda: data[:end] + data[start:],
            lambda: data + data[start:],
            lambda: data[:start] + data[start:end][::-1] + data[end:],
        ])()

    def number(self, data):
        """A number of the text, wherever it stands, replaced."""
        places = list(re.finditer(rb"-?[0-9][0-9.eE+-]*", data))
        if not places:
            return data
        place = self.chance.choice(places)
        return data[:place.start()] + self.chance.choice(NUMBERS).encode() + data[place.end():]

    def value(self, value):
        """A place of the value, damaged where it stands."""
        nodes = [part for part in parts(value) if isinstance(part, list) and part]
        if not nodes:
            return
        node = self.chance.choice(nodes)
        place = self.chance.randrange(len(node))
        self.chance.choice([self.drop, self.double, self.exchange, self.replace, self.replace])(node, place, nodes)

    def drop(self, node, place, nodes):
        del node[place]

    def double(self, node, place, nodes):
        twin = node[place]
        if isinstance(node, Members):
            twin = [twin[0], self.chance.choice([twin[1], self.any(nodes)])]
        node.insert(self.chance.randrange(len(node) + 1), twin)

    def exchange(self, node, place, nodes):
        other = self.chance.randrange(len(node))
        if isinstance(node, Members) and self.chance.random() < 0.5:
            node[place] = [self.chance.choice(node)[0], node[place][1]]
        else:
            node[place], node[other] = node[other], node[place]

    def replace(self, node, place, nodes):
        if isinstance(node, Members):
            node[place] = [node[place][0], self.other(node[place][1], nodes)]
        else:
            node[place] = self.other(node[place], nodes)

    def other(self, value, nodes):
        """Another value, mostly of the same kind."""
        alike = [part for node in nodes for part in children(node) if type(part) is type(value)]
        if self.chance.random() < 0.2:
            return self.any(nodes)
        if isinstance(value, str) and self.chance.random() < 0.7:
            return Number(self.chance.choice(NUMBERS)) if isinstance(value, Number) else self.chance.choice(TEXTS)
        return json_copy(self.chance.choice(alike)) if alike else value

    def any(self, nodes):
        """A copy of what stands elsewhere, or a plain value."""
        source = self.chance.choice(nodes)
        copied = self.chance.choice([source, *children(source)])
        plain = [None, True, False, Members(), [], self.chance.choice(TEXTS), Number(self.chance.choice(NUMBERS))]
        return self.chance.choice([json_copy(copied), json_copy(copied), self.chance.choice(plain)])


def json_copy(value):
    if isinstance(value, Members):
        return Members([key, json_copy(member)] for key, member in value)
    return [json_copy(member) for member in value] if isinstance(value, list) else value


def damaged(data, chance):
    damage = Damage(chance)
    try:
        value = parsed(data)
    except (ValueError, RecursionError):
        value = None
    if isinstance(value, list) and chance.random() < 0.8:
        for _ in range(chance.choice([1, 1, 1, 2, 3])):
            damage.value(value)
        return encoded(value)
    for _ in range(chance.choice([1, 1, 2, 3])):
        data = chance.choice([damage.bytes, damage.bytes, damage.number])(data)
    return data


def case_of(requests, seed, number):
    """The name and the bytes of a case."""
    chance = random.Random(f"{seed} {number}")
    name, data = requests[number % len(requests)]
    if number >= len(requests):
        data = damaged(data, chance)
    try:
        value = parsed(data)
    except (ValueError, RecursionError):
        return name, data, chance
    if isinstance(value, Members) and has_long_path(value):
        data = encoded(Members(member for member in value if member[0] != "shows"))
    return name, data, chance


def other_bodies(value, chance):
    """The value with another body text in each object of a kind."""
    if isinstance(value, Members):
        members = Members([key, other_bodies(member, chance)] for key, member in value)
        if any(key == "is" for key, _ in members):
            members = Members(member for member in members if member[0] != "body")
            if chance.random() < 0.9:
                members.append(["body", chance.choice(TEXTS[:-1]) * chance.randrange(3)])
        return members
    return [other_bodies(member, chance) for member in value] if isinstance(value, list) else value


def other_order(value, chance):
    """The value with its members in another order, equal keys apart."""
    if isinstance(value, Members):
        keys = [key for key, _ in value]
        values = {key: [member for other, member in value if other == key] for key in keys}
        chance.shuffle(keys)
        return Members([key, other_order(values[key].pop(0), chance)] for key in keys)
    return [other_order(member, chance) for member in value] if isinstance(value, list) else value


def one_key_more(value, chance):
    """The value with a key in one of its objects that is not named for any."""
    value = json_copy(value)
    objects = [part for part in parts(value) if isinstance(part, Members)]
    ignored = chance.choice([None, True, Number("7"), "text", Number("18446744073709551615")])
    if objects:
        members, key = chance.choice(objects), chance.choice(["ignored", "", "Is", "bodies", "\0", "name "])
        members.insert(chance.randrange(len(members) + 1), [key, ignored])
    return value


class Faulty(Exception):
    pass


def answer(program, data):
    """The status and both outputs. A run that takes too long is tried again, since others may have had the processor."""
    for _ in range(TRIES):
        try:
            done = subprocess.run([program], input=data, capture_output=True, timeout=LIMIT)
        except subprocess.TimeoutExpired:
            continue
        return done.returncode, done.stdout, done.stderr
    raise Faulty(f"not ended within {LIMIT} seconds")


def check_form(found):
    status, output, line = found
    if status not in (0, 2, 3, 4):
        raise Faulty(f"status {status}: {line!r}")
    if status == 4 and not REFUSED.fullmatch(line) or status != 4 and line != LINES[status]:
        raise Faulty(f"status {status} with the line {line!r}")
    if status != 0 and output:
        raise Faulty(f"status {status} with {len(output)} bytes of output")


def check_reading(status, data):
    """Gives the value where the text is a JSON text."""
    try:
        value = parsed(data)
    except (ValueError, RecursionError) as error:
        if status != 2:
            raise Faulty(f"status {status} of no JSON text: {error}") from None
        return None
    if status == 2:
        raise Faulty("status 2 of a JSON text")
    if any(is_float(part) for part in parts(held(value))) and status != 3:
        raise Faulty(f"status {status} with a float")
    return value


def check(program, data, chance):
    """Looks at a case, and gives its status."""
    found = answer(program, data)
    check_form(found)
    if answer(program, data) != found:
        raise Faulty("another answer at the second time")
    value = check_reading(found[0], data)
    if found[0] == 0:
        for change in (other_bodies, other_order, one_key_more):
            other = encoded(change(value, chance))
            if answer(program, other) != found:
                raise Faulty(f"another answer after {change.__name__}: {shown(other)}")
    return found[0]


def shown(data):
    return repr(data) if len(data) <= 4000 else repr(data[:4000]) + f" and {len(data) - 4000} bytes more"


def work(program, requests, options, first, step, results):
    """Looks at every `step`-th case from the first on, until the count is reached or the time is over."""
    statuses, faults, number = {}, [], first
    end = time.monotonic() + options.seconds
    try:
        while number < options.count if options.count else time.monotonic() < end:
            name, data, chance = case_of(requests, options.seed, number)
            try:
                status = check(program, data, chance)
                statuses[status] = statuses.get(status, 0) + 1
            except Faulty as fault:
                faults.append(f"case {number}, of {name}: {fault}\n    {shown(data)}")
            number += step
    except Exception as error:
        faults.append(f"case {number}: {error!r}")
    finally:
        results.put((statuses, faults))


def all_requests():
    """Each request with its name, in the order of the names."""
    requests = []
    for folder, _, files in sorted(os.walk(REQUESTS)):
        for file in sorted(files):
            if file.endswith(".json"):
                with open(os.path.join(folder, file), "rb") as request:
                    requests.append((os.path.join(os.path.basename(folder), file[:-5]), request.read()))
    return requests


def show(program, requests, options):
    name, data, chance = case_of(requests, options.seed, options.only)
    print(f"case {options.only}, of {name}: {shown(data)}")
    try:
        print(f"status {check(program, data, chance)}, as it must be")
        return 0
    except Faulty as fault:
        print(fault)
        return 1


def main():
    parser = argparse.ArgumentParser(description=__doc__.split("\n")[0])
    parser.add_argument("program")
    parser.add_argument("--seconds", type=float, default=60)
    parser.add_argument("--seed", type=int, default=1)
    parser.add_argument("--count", type=int)
    parser.add_argument("--only", type=int, metavar="CASE")
    options = parser.parse_args()
    program, requests = os.path.abspath(options.program), all_requests()
    if not os.access(program, os.X_OK):
        print(f"no program is at {options.program}", file=sys.stderr)
        print("hostile_bytes: 0 passed, 1 failed")
        return 69
    # A run that takes more than two gigabytes is out of memory, and so a failure.
    resource.setrlimit(resource.RLIMIT_AS, (2 << 30, 2 << 30))
    if options.only is not None:
        return show(program, requests, options)
    step, results = len(os.sched_getaffinity(0)), multiprocessing.SimpleQueue()
    workers = [multiprocessing.Process(target=work, args=(program, requests, options, first, step, results))
               for first in range(step)]
    for worker in workers:
        worker.start()
    found = [results.get() for _ in workers]
    for worker in workers:
        worker.join()
    statuses, faults = {}, [fault for _, some in found for fault in some]
    for some, _ in found:
        for status, count in some.items():
            statuses[status] = statuses.get(status, 0) + count
    for fault in faults[:10]:
        print(fault)
    counts = ", ".join(f"{statuses.get(status, 0)} of status {status}" for status in (0, 2, 3, 4))
    print(f"seed {options.seed}, {len(requests)} requests: {counts}")
    passed = sum(statuses.values())
    print(f"hostile_bytes: {passed} passed, {len(faults)} failed")
    return 1 if faults or not passed else 0


if __name__ == "__main__":
    sys.exit(main())
