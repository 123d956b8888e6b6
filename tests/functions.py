"""Reads Rattle's source by the words that rt fmt finds in it: what runs of a file, without contracts and what stands for
them alone; its functions, and what each does in order."""
import json
import pathlib
import re
import subprocess
import tempfile
from typing import NamedTuple

import kit

# Words after which a bracket or a bar begins something of its own, and those that a condition or a range follows.
HEADS = set("as crate else for if impl in let match mut pub return where while".split())
CLOSED_BY = {"(": ")", "[": "]", "{": "}"}


class Function(NamedTuple):
    """Its name, with that of the type or trait around it; where it, its body and what follows it begin; and where the impl
    or the trait around it does, if there is one."""

    name: str
    start: int
    body: int
    end: int
    owner: int


class Call(NamedTuple):
    """A call, a macro or a function that a path names: its name, where that stands, and where all of it ends."""

    name: str
    at: int
    end: int


def behind(words, i, opening, closing):
    """The place behind what opens at `i` or later and is closed."""
    depth = 0
    while True:
        depth += (words[i] == opening) - (words[i] == closing)
        i += 1
        if depth == 0 and words[i - 1] == closing:
            return i


class File:
    """What runs of a file: its words, their lines and the spaces before them, the partner of each bracket, its functions,
    and its attributes by the place of the next word."""

    def __init__(self, text, code):
        self.words, self.lines, self.spaces, self.attributes, self.partner = [], [], [], [], {}
        self.keep(text.split("\n"), code)
        self.words += [""] * 3
        self.lines += [0] * 3
        opened = []
        for i, word in enumerate(self.words):
            if word in CLOSED_BY:
                opened.append(i)
            elif word in CLOSED_BY.values():
                self.partner[i] = opened.pop()
                self.partner[self.partner[i]] = i
        self.functions = list(self.functions_in())
        self.spans = [("fn", function.start, function.end) for function in self.functions]
        for i, word in enumerate(self.words):
            if word in ("struct", "enum", "use"):
                end = self.up_to(i, "{", ";")
                self.spans.append((word, i, self.up_to(i, ";") if word == "use" else self.partner.get(end, end)))

    def keep(self, rows, code):
        """Takes in the words that the code has, each told with its line, but for those of attributes."""
        words, line, column, i = [], 0, 0, 0
        for told in code.splitlines():
            number, kind, word = told.split(" ", 2)
            word = json.loads(word)
            if kind == "Ghost" or word.startswith("///"):
                continue
            line, column = (line, column) if int(number) == line else (int(number), -1)
            at = rows[line - 1].find(word, max(column, 0))
            space, column = " " * (at != column), at + len(word)
            words += [(">", line, space), (">", line, "")] if word == ">>" else [(word, line, space)]
        while i < len(words):
            if words[i][0] == "#":
                end = behind([word for word, _, _ in words], i, "[", "]")
                self.attributes.append((len(self.words), [word for word, _, _ in words[i:end] if word[0].isalpha()]))
                i = end
                continue
            for kept, part in zip((self.words, self.lines, self.spaces), words[i]):
                kept.append(part)
            i += 1

    def names(self, beyond=False):
        """The names of its functions; or of those alone that other crates may call, the public ones and each trait's."""
        return {it.name.rpartition(":")[2] for it in self.functions if not beyond or self.is_public(it)}

    def is_of_trait(self, function):
        around = function.owner
        return around is not None and (self.words[around] == "trait" or "for" in self.head_of(around))

    def is_public(self, function):
        return self.is_of_trait(function) or self.words[function.start - 1] == "pub"

    def is_within(self, i, *kinds):
        return any(kind in kinds and start < i < end for kind, start, end in self.spans)

    def up_to(self, i, *ends):
        """The place of the first of these words from `i` on, past what other brackets enclose."""
        while self.words[i] not in ends:
            i = self.partner[i] + 1 if self.words[i] in CLOSED_BY else i + 1
        return i

    def head_of(self, i):
        """What an impl or a trait is of, and for."""
        return self.words[behind(self.words, i, "<", ">") if self.words[i + 1] == "<" else i + 1 : self.up_to(i, "{")]

    def functions_in(self):
        owner, around, close, i = "", None, 0, 0
        while i < len(self.words):
            owner, around = (owner, around) if i < close else ("", None)
            if self.words[i] in ("impl", "trait"):
                head, around, i = self.head_of(i), i, self.up_to(i, "{")
                owner, close = head[head.index("for") + 1 if "for" in head else 0], self.partner[i]
            elif self.words[i] == "fn":
                body = self.up_to(i, "{", ";")
                end = self.partner.get(body, body) + 1
                yield Function(f"{owner}::{self.words[i + 1]}" if owner else self.words[i + 1], i, body, end, around)
                i = end - 1
            i += 1

    def calls(self, first, end):
        for i in range(first, end):
            if not re.match("[a-z_]", self.words[i]) or self.words[i] in HEADS or self.words[i - 1] in ("fn", "mod"):
                continue
            after = i + 1
            if self.words[after : after + 2] == ["::", "<"]:
                after = behind(self.words, after, "<", ">")
            if self.words[after] == "!" and self.words[after + 1] in CLOSED_BY:
                yield Call(self.words[i] + "!", i, self.partner[after + 1] + 1)
            elif self.words[after] == "(":
                yield Call(self.words[i], i, self.partner[after] + 1)
            elif self.words[i - 1] == "::" and self.words[after] != "::":
                yield Call(self.words[i], i, after)

    def paths(self):
        """Each path that begins with a crate or a module, and each leaf of a `use`: its place and its text."""
        i = 0
        while i < len(self.words):
            start, end = i, i + 1
            if self.words[i] == "use":
                end = self.up_to(i, ";")
                first, _, rest = " ".join(self.words[i + 1 : end]).replace(" :: ", "::").partition("{")
                for leaf in rest.rstrip("}").split(",") if rest else [""]:
                    if leaf.strip() or not rest:
                        yield start, first.strip() + leaf.strip()
            elif re.match("[a-z_]", self.words[i]) and self.words[end] == "::" and self.words[end + 1] != "<":
                while self.words[end] == "::" and self.words[end + 1] != "<":
                    end += 2
                yield start, "".join(self.words[i:end])
            i = end

    def closures(self, first, end):
        """Where each closure begins. Behind a value a bar is an operator."""
        for i in range(first, end):
            last = self.words[i - 1]
            if self.words[i] in ("|", "||") and (last in HEADS or not re.search(r"[\w)\]}\"']$", last)):
                yield i

    def spelled(self, first, end):
        """The words as one line, however they were laid out, without what only ends an earlier piece."""
        text = "".join(self.spaces[i] + self.words[i] for i in range(first, end))
        return re.sub(r",? (?=[.)\]?])|,(?=[)\]])|(?<=[(\[]) ", "", text).strip().lstrip(")], ")

    def pieces(self, first, end):
        """The words cut at braces, at semicolons, and at commas that stand right within braces: where each begins and ends."""
        start, within, i = first, ["{"], first
        while i < end:
            word = self.words[i]
            if word in ("{", "}") or word in (",", ";") and within[-1] == "{":
                yield start, i
                start = i + 1
            if word in CLOSED_BY:
                within.append(word)
            elif word in CLOSED_BY.values():
                within.pop()
            i = behind(self.words, i + 1, "<", ">") if self.words[i : i + 2] == ["::", "<"] else i + 1
        yield start, end

    def deeds(self, function):
        """What it does in order, each with its line: every piece of its body. One that only names a value counts too, since
        a `let` of a name that was there, or another literal, changes what a later piece does."""
        pieces = self.pieces(function.body + 1, function.end - 1)
        return [(deed, self.lines[first]) for first, end in pieces if (deed := self.spelled(first, end))]

    def binds(self, i):
        """The names that a `let` or a `for` there binds, and the place behind its pattern."""
        end, names = self.up_to(i + 1, "=", ":", ";", "in"), []
        for at in range(i + 1, end):
            is_field = self.words[at + 1] == ":" and at + 1 < end
            if re.match("[a-z_]", self.words[at]) and not is_field and self.words[at + 1] not in ("(", "::", "{"):
                names.append(self.words[at])
        return [name for name in names if name not in ("mut", "ref", "_")], end

    def bound_anew(self, function):
        """Each place of a function that binds a name which it has there already."""
        given = range(function.start, function.body)
        scopes, waiting, i = [{self.words[at - 1] for at in given if self.words[at] == ":"}], set(), function.body
        while i < function.end:
            word, end = self.words[i], i + 1
            if word == "{":
                scopes, waiting = [*scopes, waiting], set()
            elif word == "}":
                scopes.pop()
            elif word in ("let", "for") and self.words[i + 1] != "<":
                names, end = self.binds(i)
                yield from ((i, name) for name in names if name in set().union(*scopes))
                is_within = word == "for" or self.words[i - 1] in ("if", "while")
                (waiting if is_within else scopes[-1]).update(names)
            i = end

    def constants(self):
        """Each constant outside of a function, with its line."""
        for i, word in enumerate(self.words):
            if word in ("const", "static") and not self.is_within(i, "fn"):
                yield self.spelled(i, self.up_to(i, ";")), self.lines[i]


KNOWN = {}


def files_of(texts):
    """The files of these texts, by their names. A text that was read before isn't read again."""
    new = sorted(set(texts.values()) - KNOWN.keys())
    with tempfile.TemporaryDirectory() as room:
        paths = [pathlib.Path(room, f"{at}.rt") for at in range(len(new))]
        for path, text in zip(paths, new):
            path.write_text(text)
        words = [kit.rt().rtlib.RATTLE, "fmt", "--code", *paths]
        told = subprocess.run(words, stdout=subprocess.PIPE, text=True, check=True).stdout if new else ""
    for text, code in zip(new, re.split(r"^file \d+\n", told, flags=re.M)[1:]):
        KNOWN[text] = File(text, code)
    return {name: KNOWN[text] for name, text in texts.items()}
