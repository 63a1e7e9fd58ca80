#!/usr/bin/env python3
"""edits.py: prints the table of the must-fail edits of each crate, by their names, that docs/ARCHITECTURE.md has.

It also looks whether each edit can be applied: its old texts have to stand once each in the file that it names, the
later ones in what the earlier ones made. One that can't be is named on standard error, and then the status is 1.
"""
import os
import sys

TOP = os.path.dirname(os.path.dirname(os.path.realpath(__file__)))


def edits_in(folder):
    """Returns the names of the files of the edits in a folder."""
    return sorted(it for it in os.listdir(folder) if it.endswith(".edit")) if os.path.isdir(folder) else []


def fault(crate, edit):
    """Returns why an edit of a crate can't be applied, or nothing where it can."""
    texts, path, old = {}, "", None
    with open(edit, encoding="utf-8") as lines:
        for line in lines.read().split("\n"):
            if line.startswith("file: "):
                path = line.removeprefix("file: ").strip()
                if path not in texts:
                    with open(f"{crate}/{path}", encoding="utf-8") as it:
                        texts[path] = it.read()
            elif line.startswith("old: "):
                old = line.removeprefix("old: ")
            elif line.startswith("new:"):
                if not path or not old:
                    return "a new text has no file or no old text before it"
                if texts[path].count(old) != 1:
                    return f"its old text stands {texts[path].count(old)} times in {path}: {old}"
                texts[path], old = texts[path].replace(old, line.removeprefix("new:").removeprefix(" ")), None
    return "" if texts else "it names no file"


def main():
    is_well = True
    print("| Crate | Tried by the gate | By `checks/edits` alone |\n|---|---|---|")
    with open(f"{TOP}/crates.txt", encoding="utf-8") as lines:
        for line in lines:
            head, colon, _ = line.partition("#")[0].partition(":")
            if not colon:
                continue
            crate, cells = f"{TOP}/crates/{head.split()[0]}", []
            for folder in ("must-fail", "edits"):
                names = edits_in(f"{crate}/{folder}")
                cells.append("; ".join(it.removesuffix(".edit").replace("_", " ") for it in names))
                for name in names:
                    try:
                        why = fault(crate, f"{crate}/{folder}/{name}")
                    except OSError as it:
                        why = str(it)
                    if why:
                        is_well = False
                        print(f"edits: {os.path.relpath(crate, TOP)}/{folder}/{name}: {why}", file=sys.stderr)
            if any(cells):
                print(f"| `{head.split()[0]}` | {' | '.join(cells)} |")
    return 0 if is_well else 1


if __name__ == "__main__":
    sys.exit(main())
