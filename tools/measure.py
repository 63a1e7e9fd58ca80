#!/usr/bin/env python3
"""measure.py PROGRAM [LINES ..]: times a built program on scripts of so many lines, 2,000, 8,000 and 32,000 if none is named.

The scripts are the same each time: eight clients open 50 files, write, lock, read, unlock and close them, and open them
again. It prints the processor seconds and the peak memory of the best of three runs. Memory below some 12 MB isn't the
program's, but that of the Python process that starts it.
"""
import os
import resource
import subprocess
import sys
import tempfile

CLIENTS = 8
FILES = 50


def script(lines):
    """Returns the text of a script of so many lines."""
    text = ["fsa 1"] + [f"client c{i} {i + 1}" for i in range(CLIENTS)]
    made = [0] * CLIENTS
    handles = {}
    step = 0

    def ask(client, rest):
        made[client] += 1
        text.append(f"c{client} {made[client]} {rest}")
        return made[client]

    while len(text) < lines:
        file, phase = step % FILES, step // FILES % 6
        client = (file + step // (6 * FILES)) % CLIENTS
        place = step * 64 % 65536
        if phase == 0:
            handles[file] = client, ask(client, f"create =\\f{file} 0x3 0x7 open_if 0x0 0x0 0")
        else:
            client, handle = handles[file]
            rest = (
                f"write {handle} {place} x00112233445566778899aabbccddeeff",
                f"lock {handle} {place} 64 ex now",
                f"read {handle} {place} 64",
                f"unlock {handle} {place} 64",
                f"close {handle}",
            )[phase - 1]
            ask(client, rest)
        step += 1
    return "\n".join(text) + "\n"


def run(program, path):
    """Returns the processor seconds and the peak memory, in MB, of one run."""
    reader, writer = os.pipe()
    child = os.fork()
    if child == 0:
        with open(path, "rb") as given, open(os.devnull, "wb") as taken:
            status = subprocess.run([program, "run"], stdin=given, stdout=taken).returncode
        used = resource.getrusage(resource.RUSAGE_CHILDREN)
        os.write(writer, f"{status} {used.ru_utime + used.ru_stime} {used.ru_maxrss / 1024}".encode())
        os._exit(0)
    os.close(writer)
    with os.fdopen(reader) as told:
        status, seconds, memory = told.read().split()
    os.waitpid(child, 0)
    if status != "0":
        sys.exit(f"the program ended with status {status}")
    return float(seconds), float(memory)


def main():
    if len(sys.argv) < 2:
        sys.exit(__doc__)
    print("| Lines | Processor | Peak memory |\n|---|---|---|")
    for lines in [int(word) for word in sys.argv[2:]] or [2000, 8000, 32000]:
        with tempfile.NamedTemporaryFile("w", suffix=".fsa") as file:
            file.write(script(lines))
            file.flush()
            best = min(run(sys.argv[1], file.name) for _ in range(3))
        print(f"| {lines:,} | {best[0]:.2f} s | {best[1]:.0f} MB |")


main()
