#!/usr/bin/env python3
"""texts.py PROGRAM | --try: runs every script of examples/, of checks/rows/ and of the documents, and compares what is printed with its text.

A script is NAME.fsa in one of the two folders with its text NAME.txt, or in a document a block fenced as `fsa` with the
next block, fenced as `text`, where a line `..` stands for any lines; a file that the fence names has the same. A block
fenced as `why` behind these is what ./fsa says of a faulty line. A block fenced as `words` has the words with which the
program prints the text behind it, and reads nothing. One fenced as `python` is run with FSA set to the program, and prints
the text behind it. Every link to a file has to lead to one. With --try the program is not built but run by the unproved
run of the toolchain, and `python` is left out.
"""
import os
import re
import subprocess
import sys
import tempfile

TOP = os.path.dirname(os.path.dirname(os.path.realpath(__file__)))
FENCE = re.compile(r"^```(\w*) *([^\n]*)\n(.*?)^```[ \t]*$", re.M | re.S)


def documents():
    for at in (TOP, f"{TOP}/docs", f"{TOP}/checks/rows"):
        for name in sorted(os.listdir(at)):
            if name.endswith(".md"):
                yield os.path.relpath(f"{at}/{name}", TOP)


def read(path):
    with open(f"{TOP}/{path}", encoding="utf-8") as it:
        return it.read()


class Case:
    """A script or a program, with the text that it has to print and what is to be said of it."""

    def __init__(self, place, kind, source, text, why=None):
        self.place, self.kind, self.source, self.text, self.why = place, kind, source, text, why


def cases_of(document, faults):
    found = []
    for it in FENCE.finditer(read(document)):
        kind, path, source, line = it[1], it[2], it[3], read(document)[: it.start()].count("\n") + 2
        if path and (not os.path.isfile(f"{TOP}/{path}") or read(path) != source):
            faults.append(f"{document}:{line}: this isn't what {path} has")
        found.append((kind, source, line))
    for line in FENCE.sub("", read(document)).splitlines():
        if re.match(r"\s*(```|~~~)", line):
            faults.append(f"{document}: the fence {line.strip()!r} doesn't begin its line, or has no end, so its block isn't run")
    for number, (kind, source, line) in enumerate(found):
        if kind not in ("fsa", "python", "words"):
            before = found[number - 1][0] if number else ""
            if kind not in ("text", "why"):
                faults.append(f"{document}:{line}: a block fenced as {kind!r} isn't run; indent it instead")
            elif before not in (("fsa", "python", "words") if kind == "text" else ("text",)):
                faults.append(f"{document}:{line}: a block fenced as `{kind}` follows nothing that is run, so it isn't compared")
            continue
        following = found[number + 1 : number + 3] + [("", "", 0)] * 2
        if following[0][0] != "text":
            faults.append(f"{document}:{line}: no block fenced as `text` follows")
            continue
        why = following[1][1] if following[1][0] == "why" else None
        yield Case(f"{document}:{line}", kind, source, following[0][1], why)


def scripts_in(folder, faults):
    names = sorted(os.listdir(f"{TOP}/{folder}"))
    for name in names:
        if name.endswith(".txt") and name[: -len("txt")] + "fsa" not in names:
            faults.append(f"{folder}/{name} is a text without a script")
        if name.endswith(".fsa"):
            text = name[: -len("fsa")] + "txt"
            if text in names:
                yield Case(f"{folder}/{name}", "fsa", read(f"{folder}/{name}"), read(f"{folder}/{text}"))
            else:
                faults.append(f"{folder}/{name} has no text {folder}/{text}")


def lines_of(text):
    """Returns the lines of a text, and what stands behind its last line feed, which is nothing where it ends with one."""
    return text.split("\n")


def agree(wanted, printed):
    """Returns whether the text is this one, where a line `..` of it stands for any lines."""
    for at, line in enumerate(wanted):
        if line == "..":
            return any(agree(wanted[at + 1 :], printed[more:]) for more in range(at, len(printed) + 1))
        if at >= len(printed) or printed[at] != line:
            return False
    return len(wanted) == len(printed)


def first_difference(wanted, printed):
    """Says where a text and what is printed part."""
    if ".." in wanted:
        return "\n".join(["the text says", *wanted, "and what is printed is", *printed])
    pairs = zip([*wanted, "nothing"], [*printed, "nothing"])
    at, (left, right) = next((it for it in enumerate(pairs, 1) if it[1][0] != it[1][1]))
    return f"line {at} of the text says {left!r}, and what is printed is {right!r}"


def tried(cases):
    """Returns what the unproved run of the toolchain prints for each script."""
    with tempfile.TemporaryDirectory() as room:
        for number, case in enumerate(cases):
            with open(f"{room}/case{number:04}", "w", encoding="utf-8") as it:
                it.write(case.source)
        how = {"cwd": f"{TOP}/crates/fsa", "stdin": subprocess.DEVNULL, "stdout": subprocess.PIPE}
        ran = subprocess.run(["rt", "try", "--cases", room, "--", "run"], **how)
    parts = re.split(r"(?m)^== case(\d+)\n", ran.stdout.decode("utf-8", "replace"))
    return {int(number): text for number, text in zip(parts[1::2], parts[2::2])}


def main(program):
    faults = []
    cases = [*scripts_in("examples", faults), *scripts_in("checks/rows", faults)] + [case for it in documents() for case in cases_of(it, faults)]
    scripts = [it for it in cases if it.kind == "fsa"]
    by_try = tried(scripts) if program == "--try" else None
    for case in cases:
        if case.kind == "python":
            if by_try is None:
                ran = subprocess.run([sys.executable, "-"], input=case.source.encode(), stdout=subprocess.PIPE, cwd=TOP, env={**os.environ, "FSA": os.path.abspath(program)})
                printed = ran.stdout.decode("utf-8", "replace")
            else:
                printed = case.text
        elif case.kind == "words":
            command = ["rt", "try", "--", *case.source.split()] if by_try is not None else [os.path.abspath(program), *case.source.split()]
            ran = subprocess.run(command, stdin=subprocess.DEVNULL, stdout=subprocess.PIPE, cwd=f"{TOP}/crates/fsa")
            printed = ran.stdout.decode("utf-8", "replace")
        elif by_try is None:
            ran = subprocess.run([program, "run"], input=case.source.encode(), stdout=subprocess.PIPE)
            printed = ran.stdout.decode("utf-8", "replace")
            ends = {0: r"(?s).*^end \d+\n", 2: r"bad line \d+\n", 6: r"limit \w+\n"}
            if not re.fullmatch(ends.get(ran.returncode, r"(?!)"), printed, re.M):
                faults.append(f"{case.place}: status {ran.returncode} doesn't go with what is printed")
        else:
            printed = by_try.get(scripts.index(case), "")
        if not agree(lines_of(case.text), lines_of(printed)):
            faults.append(f"{case.place}: {first_difference(lines_of(case.text), lines_of(printed))}")
        if case.why is not None:
            line = re.match(r"bad line (\d+)$", printed)
            with tempfile.NamedTemporaryFile("w", encoding="utf-8") as it:
                it.write(case.source)
                it.flush()
                said = subprocess.run([sys.executable, f"{TOP}/tools/why.py", it.name, line[1] if line else "0"], stdout=subprocess.PIPE).stdout.decode()
            if said != case.why:
                faults.append(f"{case.place}: of the line the document says\n{case.why}and ./fsa says\n{said}")
    for document in documents():
        text = FENCE.sub("", read(document))
        for link in re.findall(r"\]\(([^)#\s]+)[^)]*\)", text):
            if "://" not in link and not os.path.exists(f"{TOP}/{os.path.dirname(document)}/{link}"):
                faults.append(f"{document}: a link leads to {link}, which is not there")
    for it in faults:
        print(f"texts: {it}", file=sys.stderr)
    print(f"texts: {len(cases)} scripts and programs of examples/, checks/rows/ and the documents, {len(faults)} faults", file=sys.stderr)
    return 1 if faults else 0


if __name__ == "__main__":
    if len(sys.argv) != 2:
        print(__doc__, file=sys.stderr)
        sys.exit(1)
    sys.exit(main(sys.argv[1]))
