"""Wrong bodies of crates, crates/NAME/must-fail/*.edit: the prover must refuse each.

rt must-fail proves a whole crate for each wrong body. Here one check tries many of a crate, and proves no other function
but those that they call. A wrong body stands in a copy of its function, with the files of its proof, of another name, so
that the others call the right one. A function of a trait is edited in its place, by one body a check. A wrong body is
refused where a goal of its own function is open: the prover tried it, and found no proof. Where it stands in no function, or
another one's goal shows it, a line `refused in: NAME` of the edit, which rt passes over, names that one, and the wrong body
has a check for itself. What isn't refused so is tried on the whole crate. A check begins with what rt check left in the
crate's library, and so proves no function again that a wrong body calls. A library of rt ci has statements alone: over it,
and where there is none, these functions are proved first, and kept for all checks of the crate.

Where the text of the proof alone doesn't fit the wrong body, by a type, by a name that is gone, or by a path that `rw` doesn't
find, nothing is known of its goal: so that is no refusal here, as it is one of rt. Such an edit brings its proof's text with
it, in further pairs, or keeps the names.
The kit has no check of several wrong bodies at once, so all of this stands here.
"""
import collections
import contextlib
import os
import pathlib
import re
import shutil
import subprocess
import tempfile
import time
from typing import NamedTuple

import kit
from functions import files_of

PART = 44  # wrong bodies, at most, that one prover tries
LONG = 15  # seconds that a wrong body takes which is told
HEAD = re.compile(r"[^#/]*\bfn \w+")
TOLD = re.compile(r"(?:note: )?(?:\./)?(\S+?):(\d+):\d+: (.*)")
# What the prover says of a goal that it tried, or that a tactic of its proof did.
OPEN = re.compile(r"it is not proved that|: no proof of |does not follow|found no proof")


class Function(NamedTuple):
    name: str
    first: int  # its first line, attributes among them, and its last, from 1
    last: int
    owner: tuple  # the lines that begin its impl block, of a free function none; None of a trait's


class Body(NamedTuple):
    """A wrong body: the functions that must be refused, where it stands, if that is the only one of them, and what to add to
    that file for a copy, if it may be one, with the line that its first one has in the crate and the files of its proof."""

    edit: str
    texts: dict
    functions: tuple
    path: str = ""
    lines: tuple = (0, 0)
    copy: str = ""
    first: int = 0
    proof: dict = {}

    def in_crate(self, line, at):
        """What is told of that line of a copy, with the line and the names that the crate has."""
        if not self.copy:
            return line
        if self.lines[0] <= at <= self.lines[1]:
            line = line.replace(f"{self.path}:{at}:", f"{self.path}:{at - self.lines[0] + self.first}:", 1)
        name, _, number = self.functions[0].rpartition("::")[2].rpartition("_")
        return line.replace(f"{name}_{number}", name)


def function_at(file, lines, at):
    """The function that has the line. None where there is none."""
    for one in file.functions:
        first, last = file.lines[one.start], file.lines[one.end - 1]
        while lines[first - 2].lstrip().startswith("#["):
            first -= 1
        if first <= at + 1 <= last:
            break
    else:
        return None
    name = file.words[one.start + 1]
    if one.owner is None:
        return Function(name, first, last, ())
    of, _, to = " ".join(file.head_of(one.owner)).rpartition(" for ")
    is_impl, opens = file.words[one.owner] == "impl", file.lines[one.owner] - 1
    trait = re.sub(r" <.*", "", of).split(" ")[-1]
    uses = [line for line in lines[opens:first] if line.startswith("    ghost use ")]
    owner = (lines[opens], *uses) if is_impl and not trait and lines[opens].endswith("{") else None
    return Function(f"{to.split()[0]}{trait}::{name}" if is_impl else name, first, last, owner)


def proof_of(folder, name, number, texts):
    """The files of a function's proof, with what the edit changes there, as those of its copy."""
    ends = name.split("::")[-2:]
    made = {}
    for place in pathlib.Path(folder, "proofs").rglob(ends[-1]):
        if not place.is_dir() or [*place.parts[-len(ends) :]] != ends:
            continue
        module = ".".join(place.relative_to(pathlib.Path(folder, "proofs")).parts)
        own = re.compile(rf"\b(proofs\.{re.escape(module)})\b|\b({ends[-1]})(?=_spec\b)")
        for file in place.rglob("*.antt"):
            to = pathlib.Path(f"{place}_{number}", file.relative_to(place)).relative_to(folder)
            text = texts.get(str(file.relative_to(folder))) or file.read_text()
            made[str(to)] = own.sub(lambda it: f"{it[0]}_{number}", text)
    return made


def copy_of(function, text, number):
    """What a copy of the function of a text adds to its file, by another name."""
    lines = text.split("\n")[function.first - 1 : function.last]
    head = next(it for it, line in enumerate(lines) if HEAD.match(line))
    lines[head] = re.sub(r"\bfn (\w+)", rf"fn \1_{number}", lines[head], count=1)
    return "\n".join([*function.owner, *lines, "}"] if function.owner else lines)


def changed(folder, texts):
    """The functions that an edit changes, each with its file, and whether it changes nothing else but imports and proofs. None
    where it changes what is in no function."""
    found, is_within = set(), True
    for path, text in texts.items():
        before = pathlib.Path(folder, path).read_text()
        old, new = before.split("\n"), text.split("\n")
        if path.startswith("proofs/"):
            continue
        if len(old) != len(new) or not path.startswith("src/"):
            return None
        file = files_of({path: before})[path]
        for at, line in enumerate(old):
            if line == new[at]:
                continue
            if line.startswith("use "):
                is_within = False
            elif one := function_at(file, old, at):
                found.add((path, one))
            else:
                return None
    return found, is_within


def name_in(path, name):
    """A function's name as a check takes it: with its type, or else with its module."""
    module = pathlib.Path(path).stem
    return name if "::" in name or module in ("lib", "main") else f"{module}::{name}"


def read(rt, crate, edit, number):
    """The wrong body, or None where nothing tells which function shows it. By the number its copy is told from others."""
    texts, why = rt.read_edit(edit, crate.folder)
    if why:
        return None
    named = re.findall(r"^refused in: (\S+)$", pathlib.Path(edit).read_text(), re.M)
    if named:
        return Body(edit, texts, tuple(named))
    found, is_within = changed(crate.folder, texts) or (set(), False)
    names = tuple(name_in(path, one.name) for path, one in found)
    if len(found) != 1:
        return Body(edit, texts, names) if found else None
    path, one = found.pop()
    if not is_within or one.owner is None:
        return Body(edit, texts, names, path, (one.first, one.last))
    copy, proof = copy_of(one, texts[path], number), proof_of(crate.folder, names[0], number, texts)
    first = one.first - len(one.owner)
    return Body(edit, texts, (f"{names[0]}_{number}",), path, copy=copy, first=first, proof=proof)


def groups(bodies):
    """Sets of wrong bodies of which no two stand in one function."""
    made = []
    for body in bodies:
        fits = (it for it in made if body.path and all(one.path and one.functions != body.functions for one in it))
        group = next(fits, None)
        if group is None:
            made.append([body])
        else:
            group.append(body)
    return made


class Refusal(NamedTuple):
    """Whether a goal is open, or the text of a proof alone doesn't fit; and the line that tells it."""

    is_open: bool
    line: str


def refusal(body, said):
    """How a body's own function is refused, by an open goal where there is one. None where nothing tells it."""
    folders = [f"/{name.replace('::', '/')}/" for name in body.functions]
    found = []
    for line in said:
        told = TOLD.match(line)
        if not told:
            continue
        path, at, what = told[1], int(told[2]), told[3]
        is_there = not body.path or path == body.path and body.lines[0] <= at <= body.lines[1]
        # One that stands in no one function has its check for itself, and a lemma of its law may be what is open.
        of_proof = "error" in what and (not body.path or any(it in path for it in folders))
        if of_proof or is_there and "not proved" in what:
            found.append(Refusal(bool(OPEN.search(what)), body.in_crate(line, at)))
    return max(found, key=lambda it: it.is_open, default=None)


def is_unproved(body, said):
    """Whether one of the functions that must be refused is."""
    ends = tuple(f"::{name}" for name in body.functions)
    heads = (line.split(": ") for line in said if line.startswith("fn "))
    return any(head[0].endswith(ends) and head[1].startswith(("not proved", "no proof")) for head in heads)


def put(rt, room, group):
    """Puts wrong bodies into the copy of a crate, and gives them with where they stand, and those that have to wait."""
    tried, later = [], []
    for body in (it for it in group if not it.copy):
        # Its old text may stand in the new one of another.
        texts, why = rt.read_edit(body.edit, room)
        (later if why else tried).append(body)
        for path, text in (texts or {}).items():
            pathlib.Path(room, path).write_text(text)
    for body in (it for it in group if it.copy):
        file = pathlib.Path(room, body.path)
        before = file.read_text() + "\n"
        after = f"{before}{body.copy}\n"
        file.write_text(after)
        for path, text in body.proof.items():
            pathlib.Path(room, path).parent.mkdir(parents=True, exist_ok=True)
            pathlib.Path(room, path).write_text(text)
        tried.append(body._replace(lines=(before.count("\n") + 1, after.count("\n"))))
    return tried, later


def words_of(crate, only):
    """What a check of some functions takes. A static library is read as any other: for its own form a check reads all the code
    that it links, and proves the same."""
    words = crate.words(["--jobs", "1", *only], keeps=False)
    if crate.is_static:
        at = words.index("--crate-type")
        del words[at : at + 2]
    return words


@contextlib.contextmanager
def copied(rt, crate):
    """A copy of the crate, by whose name tests/timed knows its checks."""
    with tempfile.TemporaryDirectory(prefix="rt-edit-") as room:
        for part in rt.rtlib.PARTS:
            if os.path.isdir(f"{crate.folder}/{part}"):
                shutil.copytree(f"{crate.folder}/{part}", f"{room}/{part}")
        yield room


def try_group(rt, crate, group, kept):
    """How each wrong body is refused that is, all being tried by one check, over what is kept."""
    with copied(rt, crate) as room:
        tried, later = put(rt, room, group)
        only = [word for body in tried for name in body.functions for word in ("--only", name)]
        words = [rt.rtlib.RATTLE, "check", *words_of(crate, only), "--incremental", kept, "--progress"]
        status, said, lasted = run(rt, words, room)
    tell_longest(crate, tried, lasted)
    edited = {path: "" for body in tried for path in body.texts}
    found = try_group(rt, crate, later, kept) if later else {}
    if status == 1 and not any(rt.unread(line, edited) for line in said):
        found.update((it.edit, told) for it in tried if is_unproved(it, said) and (told := refusal(it, said)))
    return found


def run(rt, words, room):
    """A check's status, its lines, and how many seconds passed before each function's end, since the one before ended."""
    how = {"cwd": room, "stdin": subprocess.DEVNULL, "stdout": subprocess.PIPE, "stderr": subprocess.STDOUT}
    said, lasted, last = [], {}, time.monotonic()
    with subprocess.Popen([*rt.rtlib.guarded(), *words], text=True, errors="replace", **how) as running:
        for line in running.stdout:
            said.append(line.rstrip("\n"))
            if ended := re.match(r"checked (\S+), \d+ of \d+$", line):
                now = time.monotonic()
                lasted[ended[1]], last = now - last, now
    return running.returncode, said, lasted


def tell_longest(crate, tried, lasted):
    """Says which wrong bodies the gate waits for: a check is as long as its searches for proofs that there aren't."""
    for name, seconds in lasted.items():
        body = next((it for it in tried if name.endswith(tuple(f"::{one}" for one in it.functions))), None)
        if body and seconds >= LONG:
            kit.say(f"must-fail {crate.name}/{pathlib.Path(body.edit).name}: took {seconds:.0f} seconds")


def try_alone(rt, crate, edit, kept):
    """How an edit is refused that is tried on the whole crate, or else what rt says of it."""
    texts, why = rt.read_edit(edit, crate.folder)
    if not why:
        ran = rt.checked(crate, texts, ["--jobs", "1"], kept)
        said = ran.stdout.split("\n")
        is_read = ran.returncode == 1 and not any(rt.unread(line, texts) for line in said)
        if is_read and (line := next((it for it in said if TOLD.match(it) and OPEN.search(it)), None)):
            return Refusal(True, line), None
    # What is no edit is told as one that can't be read. A limit of the prover gives no verdict either.
    kind, text = rt.must_fail(crate, edit, ["--jobs", "1"], kept)
    is_refused = kind in {getattr(rt, name, True) for name in ("REFUSED", "AT_LIMIT")}
    return (Refusal(False, text.partition(": ")[2]), None) if is_refused else (None, text)


def unpack(rt, crate, kept):
    """Puts what is proved in the crate's library where checks keep what they proved: in the folder of the prover's build. It is
    there where the library was built over what checks had kept. Whether it is."""
    form = pathlib.Path(crate.rlib, "format")
    told = form.read_text() if form.exists() else ""
    has_proofs = re.search(r"^incremental$", told, re.M) is not None
    if has_proofs:
        place = pathlib.Path(kept, re.search(r"^rattle-build (.*)$", told, re.M)[1].replace("/", "_"))
        place.mkdir()
        unpacker = f"{rt.rtlib.KIT}/toolchain/bin/llvm-ar"
        subprocess.run([unpacker, "x", f"{crate.rlib}/toolchain/checked.a"], cwd=place, check=True)
    return has_proofs


def may_call(file, function, call, owner):
    """Whether a function that calls one of that name may call that of a type, or a free one, as far as words tell."""
    before, own = file.words[call.at - 1], function.name.rpartition("::")[0]
    if before == ".":
        is_own = file.words[call.at - 2] == "self" and file.words[call.at - 3] != "."
        return owner == own if is_own else owner not in ("", own)
    named = file.words[call.at - 2] if before == "::" else ""
    return owner == (own if named == "Self" else named if named[:1].isupper() else "")


def called(rt, crate, edits):
    """The functions of the crate that those with wrong bodies call, as a check takes their names."""
    sources = pathlib.Path(crate.folder, "src").rglob("*.rt")
    files = files_of({str(it.relative_to(crate.folder)): it.read_text() for it in sources})
    named = collections.defaultdict(set)
    for path, file in files.items():
        for one in file.functions:
            owner, _, name = one.name.rpartition("::")
            if not file.is_of_trait(one):
                named[name].add((owner, name_in(path, one.name)))
    texts = [texts for edit in edits if (texts := rt.read_edit(edit, crate.folder)[0])]
    wrong = {(path, it.name) for text in texts for path, it in (changed(crate.folder, text) or [()])[0]}
    return {
        name
        for path, file in files.items()
        for one in file.functions
        if (path, one.name) in wrong
        for call in file.calls(one.body, one.end)
        for owner, name in named[call.name]
        if may_call(file, one, call, owner)
    }


def prove_called(rt, crate, edits, kept):
    """Proves what wrong bodies call, for all checks that begin with what is kept. Where it can't, each does so for itself."""
    only = [word for name in sorted(called(rt, crate, edits)) for word in ("--only", name)]
    words = [rt.rtlib.RATTLE, "check", *words_of(crate, only), "--incremental", kept]
    silent = dict.fromkeys(("stdin", "stdout", "stderr"), subprocess.DEVNULL)
    with copied(rt, crate) as room:
        subprocess.run([*rt.rtlib.guarded(), *words], cwd=room, **silent)


class Part(NamedTuple):
    """Some of a crate's wrong bodies, and the folder of what is proved of what they call."""

    crate: object
    edits: list
    known: tempfile.TemporaryDirectory


def parts(rt, crate, edits):
    """The wrong bodies of a crate in parts, which are tried side by side: else a crate that has many would be waited for. One
    part takes every so many, since those that stand beside each other often have one function."""
    if not edits:
        return []
    count = -(-len(edits) // PART)
    known = tempfile.TemporaryDirectory(prefix="rt-known-")
    if not unpack(rt, crate, known.name) and count > 1:
        prove_called(rt, crate, edits, known.name)
    return [Part(crate, edits[at::count], known) for at in range(count)]


def try_part(rt, part):
    with tempfile.TemporaryDirectory(prefix="rt-edits-") as kept:
        shutil.copytree(part.known.name, kept, dirs_exist_ok=True)
        return try_all(rt, part.crate, part.edits, kept)


def try_all(rt, crate, edits, kept):
    """Tries wrong bodies of a crate in turn, says what comes of each, and counts them: those that are refused, those that
    aren't, those of which only a proof's text is, and those that had a check of the whole crate."""
    found, left = {}, [it for number, edit in enumerate(edits) if (it := read(rt, crate, edit, number))]
    is_waiting = True

    def say(refused):
        for edit, (is_open, line) in refused.items():
            how = "refused" if is_open else "only a proof's text is refused"
            kit.say(f"must-fail {crate.name}/{pathlib.Path(edit).name}: {how}: {line[:160]}")
        found.update(refused)

    # A function's goals wait for those that it calls, so where one of these had a wrong body in its place, it is tried again
    # after it. No function calls a copy.
    while left and is_waiting:
        for group in groups(left):
            say(try_group(rt, crate, group, kept))
        is_waiting = any(it.edit in found and not it.copy for it in left)
        left = [it for it in left if it.edit not in found]
    alone = [edit for edit in edits if edit not in found]
    for edit in alone:
        refused, told = try_alone(rt, crate, edit, kept)
        if refused:
            say({edit: refused})
        else:
            kit.say(told)
    by_goal = sum(it.is_open for it in found.values())
    counts = {"refused": by_goal, "passed": len(edits) - by_goal, "by_text": len(found) - by_goal, "alone": len(alone)}
    return collections.Counter(counts)


def tell(counts):
    if counts["by_text"]:
        kit.say(f"wrong bodies: of {counts['by_text']} only a proof's text is refused, which shows nothing")
    kit.say(f"wrong bodies: {counts['refused']} refused, {counts['passed']} not; {counts['alone']} of them were tried alone")
