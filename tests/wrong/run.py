#!/usr/bin/env python3
"""Tries wrong bodies of functions: the prover must refuse each.

    tests/wrong/run.py [--gate] [CRATE[/NAME]]..

Each file tests/wrong/CRATE/NAME.edit changes one function of the crate: a line `file: PATH`, and pairs of lines `old: TEXT` and
`new: TEXT`, where the text is in that file once. A line `only: FUNCTION` names the function whose contract refuses it, and a line
`gate: yes` has the gate try it. Edits of different functions are tried together: a copy of the crate has all of them, and these
functions and what they call are checked, over the libraries that `rt ci` left in crates/*/out. So run that before. Each function
has to be refused for a reason of its own: that it calls a function which is refused does not count, nor does a proof file that
names what is gone.
What does not come to that is tried once more, alone. Try all before a version, and those of a crate if a contract of it changes.
The last line is `N passed, M failed`.
"""
import concurrent.futures
import dataclasses
import os
import pathlib
import re
import shutil
import subprocess
import sys
import tempfile

HERE = pathlib.Path(__file__).resolve().parent
TOP = HERE.parent.parent
KIT = pathlib.Path(shutil.which("rt")).resolve().parent.parent
PARTS = ("src", "specs", "proofs")
DEPS = {}
for line in (TOP / "crates.txt").read_text().splitlines():
    if line and not line.startswith("#"):
        name, _, deps = line.partition(":")
        DEPS[name.split()[0]] = deps.split()


def below(crate):
    """Returns the repository's libraries below a crate."""
    found = []
    for dep in DEPS[crate]:
        if dep in DEPS:
            found += [it for it in [*below(dep), dep] if it not in found]
    return found


def rlib(crate):
    return TOP / f"crates/{crate}/out/rlib/{crate}.rlib" if crate in DEPS else KIT / f"rlibs/{crate}.rlib"


def command(crate, functions):
    """Returns the words that check these functions of the crate in the current folder."""
    words = [f"{KIT}/bin/rattle", "check", "--crate-name", crate, "src/lib.rt", "-L", f"dependency={KIT}/rlibs"]
    for dep in ["std", *DEPS[crate]]:
        words += ["--extern", f"{dep}={rlib(dep)}"]
    for dep in below(crate):
        words += ["-L", f"dependency={rlib(dep).parent}"]
    words += ["--antt-project", f"{KIT}/rattle/logic/antt-project.json", "--logic-built", f"{KIT}/logic_built"]
    for it in functions:
        words += ["--only", it]
    return words


@dataclasses.dataclass
class Edit:
    """A wrong body: its crate and name, the function whose contract refuses it, its text, and why it does not count as refused."""

    crate: str
    name: str
    function: str
    text: str
    why: str = None

    def label(self):
        return f"{self.crate}/{self.name}"

    def own_name(self):
        return self.function.split("::")[-1]


def edit_of(path):
    text = path.read_text()
    only = re.search(r"^only: (.+)$", text, re.M)
    return Edit(path.parent.name, path.stem, only[1] if only else "", text)


def change(texts, edit):
    """Changes these texts, by their paths in the crate, or returns what prevents it."""
    if not edit.function:
        return "no line `only: FUNCTION`"
    path = old = None
    changed = False
    for line in edit.text.splitlines():
        word, _, rest = line.partition(": ")
        if word == "file":
            path = TOP / "crates" / edit.crate / rest
            if not rest.startswith("src/") or not path.is_file():
                return f"{rest} is no source of the crate"
        elif word == "old":
            old = rest
        elif line.startswith("new:"):
            was = texts.get(path) or path.read_text()
            if was.count(old) != 1:
                return f"{was.count(old)} times in {path.name}: {old}"
            texts[path] = was.replace(old, line[4:].removeprefix(" "))
            changed = True
    return None if changed else "it changes nothing"


def groups_of(edits):
    """Puts edits of a crate together that change texts apart from one another, and functions of other names. Returns groups of edits,
    each with the changed texts."""
    groups = []
    for edit in edits:
        edit.why = change({}, edit)
        if edit.why:
            groups.append(([edit], {}))
            continue
        for group, texts in groups:
            more = dict(texts)
            fits = group[0].crate == edit.crate and all(it.own_name() != edit.own_name() for it in group)
            if fits and not group[0].why and not change(more, edit):
                group.append(edit)
                texts.update(more)
                break
        else:
            texts = {}
            change(texts, edit)
            groups.append(([edit], texts))
    return groups


def spans(folder, name):
    """Returns the files and lines of the functions of this name, from their attributes to the brace below their first column."""
    found = []
    for path in sorted((folder / "src").rglob("*.rt")):
        lines = path.read_text().splitlines()
        for at, line in enumerate(lines):
            begin = re.match(rf"( *)(?:pub(?:\([a-z]+\))? )?fn {name}\b", line)
            if begin:
                first = next(it for it in range(at, -1, -1) if not lines[it - 1].lstrip().startswith("#["))
                end = next((it for it in range(at, len(lines)) if lines[it] == f"{begin[1]}}}"), at)
                found.append((str(path.relative_to(folder)), first + 1, end + 1))
    return found


def is_refused(folder, edit, said):
    """Returns whether the prover refused the edit's function itself, and not only since it calls one that it refused."""
    name = edit.own_name()
    found = re.search(rf"^fn \S*\b{re.escape(edit.function)}: (no proof: .*|not proved.*)$", said, re.M)
    if not found or found[1].startswith("no proof: it calls "):
        return False
    if found[1].startswith("no proof: "):
        return True
    # With a proof file the line has no reason.
    places = spans(folder, name)
    for file, line in re.findall(r"^(?:note: )?(?:\./)?(src/[^\s:]+):(\d+):\d+: (?:it is not proved|error)", said, re.M):
        if any(file == path and first <= int(line) <= last for path, first, last in places):
            return True
    wrong = re.findall(rf"^(?:\./)?proofs/\S*\b{re.escape(name)}/\S+:\d+:\d+: (error.*)$", said, re.M)
    return any(not re.search(r"has no field|is not in scope|has no `|was not admitted", it) for it in wrong)


def tried(group):
    """Tries these edits together. Sets why each does not count as refused, and returns them."""
    edits, texts = group
    if edits[0].why:
        return edits
    crate = edits[0].crate
    with tempfile.TemporaryDirectory() as room:
        folder = pathlib.Path(room)
        for part in PARTS:
            if (TOP / "crates" / crate / part).is_dir():
                shutil.copytree(TOP / "crates" / crate / part, folder / part)
        for path, text in texts.items():
            (folder / path.relative_to(TOP / "crates" / crate)).write_text(text)
        how = {"stdin": subprocess.DEVNULL, "stdout": subprocess.PIPE, "stderr": subprocess.STDOUT, "text": True}
        ran = subprocess.run(command(crate, [it.function for it in edits]), cwd=folder, **how)
        has_verdict = ran.returncode == 1 and re.search(r"^only=\d+ proved=\d+$", ran.stdout, re.M)
        for edit in edits:
            if not has_verdict or not is_refused(folder, edit, ran.stdout):
                edit.why = f"not refused: {ran.stdout.strip()[-200:]}"
    return edits


def main(words):
    in_gate, words = "--gate" in words, [it for it in words if it != "--gate"]
    edits = [edit_of(it) for it in sorted(HERE.glob("*/*.edit"))]
    edits = [it for it in edits if not words or {it.crate, it.label()} & {*words}]
    edits = [it for it in edits if not in_gate or re.search(r"^gate: yes$", it.text, re.M)]
    if not edits:
        sys.exit("run.py: there is no such edit")
    failed, again = 0, []
    jobs = int(os.environ.get("RT_JOBS") or len(os.sched_getaffinity(0)))
    with concurrent.futures.ThreadPoolExecutor(jobs) as pool:
        # Those crates first that have most below them: their checks are the longest.
        groups = sorted(groups_of(edits), key=lambda it: -len(below(it[0][0].crate)))
        for done in pool.map(tried, groups):
            again += [it for it in done if it.why and len(done) > 1]
            for it in done:
                if not it.why or len(done) == 1:
                    print(f"{it.label()}: {it.why or 'refused'}", flush=True)
                    failed += it.why is not None
        alone = [group for it in again for group in groups_of([it])]
        for (it,) in pool.map(tried, alone):
            print(f"{it.label()}: {it.why or 'refused'}", flush=True)
            failed += it.why is not None
    print(f"{len(edits) - failed} passed, {failed} failed")
    return failed > 0


if __name__ == "__main__":
    sys.exit(main(sys.argv[1:]))
