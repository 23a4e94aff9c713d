#!/usr/bin/env python3
"""Python's json as a second opinion of the grammar (request #112).

    oracle/second-opinion.py N SEED

Random and damaged lines, written by `oracle json lines`, are put to the model (`oracle json judge`)
and to Python's json, which shares no code with it:

- A line that the model takes is JSON for Python, an event by the rules below, and has the same values.
- A line that is no JSON for Python is refused; with another refusal than 20 only for a fault that is
  told before the place where Python gives up.
- A line that is JSON for Python and refused by the model has a fault of that number, found here without
  a look at the model: a lone surrogate (20), a repeated name (21), a number (22), a field (23), depth (24).
- Where Python's place for a fault means the same as the reading's, the places are equal.
"""
import collections
import json
import os
import re
import subprocess
import sys
import threading

ORACLE = os.path.join(os.path.dirname(os.path.abspath(__file__)), "target", "release", "oracle")
INT = range(-2**63, 2**63)
REQUIRED = {"time", "namespace", "action", "kind", "logged", "context", "entities"}
FIELDS = REQUIRED | {"principal", "resource"}


class Number:
    """A number that is no integer within 64 bits."""


BAD_NUMBER = Number()


class Members(list):
    """The members of an object, repeated ones too."""


def integer(text):
    if len(text) > 20:
        return BAD_NUMBER
    number = int(text)
    return number if number in INT else BAD_NUMBER


def no_constant(text):
    raise ValueError(text)


DECODER = json.JSONDecoder(
    object_pairs_hook=Members,
    parse_int=integer,
    parse_float=lambda text: BAD_NUMBER,
    parse_constant=no_constant,
    strict=True,
)


class Faults:
    """All faults of a line that is JSON, whatever their places."""

    def __init__(self):
        self.found = set()

    def text(self, text):
        # An escaped pair is one character by now; a surrogate that is left is a lone one.
        if not text.isascii() and any("\ud800" <= character <= "\udfff" for character in text):
            self.found.add(20)

    def names(self, members):
        names = [name for name, _ in members]
        for name in names:
            self.text(name)
        if len(set(names)) < len(names):
            self.found.add(21)
        return names

    def inside(self, value):
        """Faults of what is not to be a value of the log, too: the reader may meet them first."""
        if value is BAD_NUMBER:
            self.found.add(22)
        elif isinstance(value, str):
            self.text(value)
        elif isinstance(value, Members):
            self.names(value)
            for _, member in value:
                self.inside(member)
        elif isinstance(value, list):
            for item in value:
                self.inside(item)

    def due(self, value, sort):
        if type(value) is not sort:
            self.found.add(23)
            return False
        return True

    def value(self, value, level):
        if level > 32:
            self.found.add(24)
            return
        if isinstance(value, Members):
            if len(value) == 1 and value[0][0] in ("__entity", "__extn"):
                self.form(*value[0])
            else:
                for _, member in value:
                    self.value(member, level + 1)
        elif isinstance(value, list):
            for item in value:
                self.value(item, level + 1)

    def form(self, name, inside):
        if not self.due(inside, Members):
            return
        parts = {"type", "id"} if name == "__entity" else {"fn", "arg"}
        if {name for name, _ in inside} != parts:
            self.found.add(23)
        for part, text in inside:
            if self.due(text, str) and part == "fn" and text != "decimal":
                self.found.add(23)

    def record(self, value):
        if self.due(value, Members):
            if len(value) == 1 and value[0][0] in ("__entity", "__extn"):
                self.found.add(23)
            self.value(value, 1)

    def entity(self, entity):
        if not self.due(entity, list) or len(entity) != 3:
            self.found.add(23)
            return
        self.due(entity[0], str)
        self.due(entity[1], str)
        self.record(entity[2])

    def field(self, name, value):
        if name == "time":
            if value is not BAD_NUMBER:
                self.due(value, int)
        elif name in ("action", "kind"):
            self.due(value, str)
        elif name in ("logged", "context"):
            self.record(value)
        elif name in ("principal", "resource"):
            self.value(value, 1)
        elif name in ("namespace", "entities") and self.due(value, list):
            for item in value:
                self.due(item, str) if name == "namespace" else self.entity(item)

    def event(self, event):
        self.inside(event)
        if not self.due(event, Members):
            return
        names = {name for name, _ in event}
        if not REQUIRED <= names <= FIELDS:
            self.found.add(23)
        for name, value in event:
            self.field(name, value)


def plain(value):
    """Values that can be compared: members by name, integers apart from truth values."""
    if isinstance(value, Members):
        return {name: plain(member) for name, member in value}
    if isinstance(value, list):
        return [plain(item) for item in value]
    return (type(value).__name__, value)


def plain_event(event):
    fields = plain(event)
    fields["entities"].sort(key=lambda entity: (entity[0][1].encode(), entity[1][1].encode()))
    return fields


# Python tells these at the byte that cannot stand there, as the reading does, unless a number stands before.
SAME_PLACE = ("Expecting ',' delimiter", "Expecting ':' delimiter", "Extra data", "Invalid control character at")


def utf8_place(error, line):
    """The first byte that does not fit; the line's end where it is cut short."""
    if error.reason == "invalid start byte":
        return error.start
    return len(line) if error.reason == "unexpected end of data" else error.end


def byte_place(text, place):
    return len(text[:place].encode("utf-8"))


def judge(line, said, counts):
    """Nothing, or what is wrong about what the model said of a line."""
    parts = said.split(b" ", 1) if said.startswith(b"0 ") else said.split()
    refusal = int(parts[0])
    place = int(parts[1]) if refusal else None
    try:
        text = line.decode("utf-8")
    except UnicodeDecodeError as error:
        fits_not = utf8_place(error, line)
        if refusal == 20 and place == fits_not:
            counts["no UTF-8 for Python, at the same place"] += 1
        elif refusal == 20 and place > error.start:
            return f"Python says {error.reason} at {fits_not}"
        return no_json(refusal, place, error.start, "no UTF-8", counts)
    try:
        event = DECODER.decode(text)
    except json.JSONDecodeError as error:
        given_up = byte_place(text, error.pos)
        if refusal == 20 and error.msg in SAME_PLACE and not known_to_differ(text[: error.pos]):
            counts["no JSON for Python, at the same place"] += 1
            if place != given_up:
                return f"Python says {error.msg} at {given_up}"
        return no_json(refusal, place, given_up, "no JSON", counts)
    except ValueError:
        return no_json(refusal, place, len(line), "a constant", counts)
    except RecursionError:
        counts["too deep for Python"] += 1
        return None if refusal else "taken, though too deep for Python"
    faults = Faults()
    faults.event(event)
    if not faults.found:
        counts["taken by both"] += 1
        if refusal:
            return "Python finds no fault"
        return None if plain_event(DECODER.decode(parts[1].decode())) == plain_event(event) else "other values"
    one = "the only fault" if len(faults.found) == 1 else "one of the faults"
    counts[f"JSON for Python, refused {refusal}, {one}"] += 1
    return None if refusal in faults.found else f"Python finds {sorted(faults.found)}"


def known_to_differ(before):
    """Behind a number, whose fraction Python takes for something else, and behind a lone surrogate."""
    if re.search(r"[0-9]\s*\Z", before):
        return True
    unescaped = before.replace("\\\\", "-")  # an escaped backslash begins no escape
    halves = re.sub(r"\\u[dD][89abAB][0-9a-fA-F]{2}\\u[dD][c-fC-F][0-9a-fA-F]{2}", "", unescaped)
    return re.search(r"\\u[dD][89a-fA-F][0-9a-fA-F]{2}", halves) is not None


def no_json(refusal, place, given_up, why, counts):
    counts[f"{why} for Python, refused {refusal}"] += 1
    if refusal == 0:
        return f"taken, though {why} for Python"
    if refusal != 20 and place > given_up:
        return f"another fault than 20, behind the place where Python gives up ({given_up})"
    return None


def main():
    if len(sys.argv) != 3:
        sys.exit(__doc__)
    lines = subprocess.Popen([ORACLE, "json", "lines", *sys.argv[1:]], stdout=subprocess.PIPE)
    model = subprocess.Popen([ORACLE, "json", "judge"], stdin=subprocess.PIPE, stdout=subprocess.PIPE)
    kept = collections.deque()
    enough = threading.Semaphore(20_000)

    def feed():
        for line in lines.stdout:
            enough.acquire()
            kept.append(line)
            model.stdin.write(line)
        model.stdin.close()

    feeder = threading.Thread(target=feed)
    feeder.start()
    counts, differences, compared = collections.Counter(), 0, 0
    for said in model.stdout:
        line = kept.popleft()
        enough.release()
        wrong = judge(line[:-1], said, counts)
        compared += 1
        if wrong:
            differences += 1
            if differences <= 20:
                print(f"DIFFERENCE {wrong}\n  line  {line!r}\n  model {said!r}")
    feeder.join()
    for what, count in sorted(counts.items()):
        print(f"{count:>9}  {what}")
    print(f"{compared} lines compared, {differences} differences")
    complete = lines.wait() == 0 and model.wait() == 0 and compared == int(sys.argv[1])
    sys.exit(0 if complete and differences == 0 else 1)


if __name__ == "__main__":
    main()
