#!/usr/bin/env python3
"""times.py [COMMAND ..]: runs `rt ci`, or the command given, and prints what each crate took of the processors.

It looks several times a second which crate each prover below the command works on, and what it does there: it proves the
crate or its tests, proves it once more so that edits are tried over that (and looks at its end whether that still holds),
or tries a must-fail edit. It sums up the processor time, and names the edits that took most. With a kit whose `rt ci`
keeps what it proved, that isn't proved again and doesn't count: `rt ci --anew` proves all. The tables go to standard
output, also where this is stopped by a signal, and what the command says to standard error.
"""
import os
import re
import signal
import subprocess
import sys
import time

TOP = os.path.dirname(os.path.dirname(os.path.realpath(__file__)))
TICK = os.sysconf("SC_CLK_TCK")
KINDS = ("proofs", "tests", "once more", "edits")
# how many of the edits that took most are named
DEAREST = 15


def processes():
    """Returns of each process its parent, when it began and the processor time that it took so far."""
    found = {}
    for name in os.listdir("/proc"):
        if name.isdigit():
            try:
                with open(f"/proc/{name}/stat", encoding="utf-8", errors="replace") as it:
                    said = it.read().rpartition(")")[2].split()
                found[int(name)] = int(said[1]), int(said[19]), int(said[11]) + int(said[12])
            except (OSError, IndexError):
                # it has ended meanwhile
                pass
    return found


def below(found, top):
    """Returns the processes that come from this one."""
    children = {}
    for pid, (parent, _, _) in found.items():
        children.setdefault(parent, []).append(pid)
    left, seen = [top], set()
    while left:
        pid = left.pop()
        seen.add(pid)
        left += [it for it in children.get(pid, []) if it not in seen]
    return seen


def of_prover(pid):
    """Returns the crate that a prover works on, what it does, and which edit it tries, or None where this is no prover."""
    try:
        with open(f"/proc/{pid}/cmdline", "rb") as it:
            words = it.read().decode("utf-8", "replace").split("\0")
        folder = os.readlink(f"/proc/{pid}/cwd")
    except OSError:
        return None
    if not words[0].endswith("/rattle") or "--crate-name" not in words:
        return None
    crate = words[words.index("--crate-name") + 1]
    if not re.search(r"/rt-edit-[^/]*$", folder):
        return crate, "tests" if "--test" in words else "proofs", None
    over = os.path.basename(words[words.index("--incremental") + 1]) if "--incremental" in words else ""
    return crate, "once more" if over == "seed" else "edits", int(over) if over.isdigit() else None


def edit_of(crate, number):
    """Returns the name of a crate's edit, by its place among them."""
    is_rest = any(it.endswith("checks/edits") for it in sys.argv)
    folder = f"{TOP}/crates/{crate}/{'edits' if is_rest else 'must-fail'}"
    names = sorted(it for it in os.listdir(folder) if it.endswith(".edit")) if os.path.isdir(folder) else []
    return names[number].removesuffix(".edit").replace("_", " ") if number < len(names) else str(number)


def place_of(crate):
    """Returns where crates.txt has this crate; what it doesn't have comes last."""
    with open(f"{TOP}/crates.txt", encoding="utf-8") as lines:
        names = [line.partition(":")[0].split()[0] for line in lines if ":" in line.partition("#")[0]]
    return names.index(crate) if crate in names else len(names)


def tell(spent, began):
    """Prints the tables."""
    table, edits = {}, {}
    for (crate, kind, number), ticks in spent.values():
        row = table.setdefault(crate, dict.fromkeys(KINDS, 0))
        row[kind] += ticks / TICK
        if number is not None:
            edits[crate, number] = edits.get((crate, number), 0) + ticks / TICK
    print("| Crate | Proofs | Tests | Once more | Edits |\n|---|---|---|---|---|")
    for crate, row in sorted(table.items(), key=lambda it: place_of(it[0])):
        print(f"| `{crate}` | " + " | ".join(f"{row[it]:.0f} s" if row[it] else "" for it in KINDS) + " |")
    sums = {it: sum(row[it] for row in table.values()) for it in KINDS}
    print("| all | " + " | ".join(f"{sums[it] / 60:.0f} min" for it in KINDS) + " |")
    print(f"\n{sum(sums.values()) / 60:.0f} minutes of processor time, {(time.monotonic() - began) / 60:.0f} minutes by the clock, on {len(os.sched_getaffinity(0))} processors")
    for (crate, number), took in sorted(edits.items(), key=lambda it: -it[1])[:DEAREST]:
        print(f"{took:.0f} s: {crate}, {edit_of(crate, number)}")


def main(*command):
    command = command or ("rt", "ci")
    began, spent, known = time.monotonic(), {}, {}
    ran = subprocess.Popen(command, stdin=subprocess.DEVNULL, stdout=sys.stderr)
    signal.signal(signal.SIGTERM, lambda *_: ran.terminate())
    signal.signal(signal.SIGINT, lambda *_: ran.terminate())
    while ran.poll() is None:
        found = processes()
        for pid in below(found, ran.pid):
            if pid in found:
                _, start, ticks = found[pid]
                if (pid, start) not in known or known[pid, start] is None:
                    known[pid, start] = of_prover(pid)
                if known[pid, start]:
                    spent[pid, start] = known[pid, start], ticks
        time.sleep(0.3)
    tell(spent, began)
    return ran.returncode


if __name__ == "__main__":
    sys.exit(main(*sys.argv[1:]))
