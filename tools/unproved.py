#!/usr/bin/env python3
"""unproved.py WORDS: runs the program with these words over standard input, unproved, and ends with its status, or with 70
where it doesn't compile or is stopped.

The toolchain's unproved run, `rt try`, compiles the program anew each time. So the program that it links is kept, in
build/unproved, under a sum of its sources and of the kit's name, and answers while these stay as they are. To come by it `rt` is
run from a folder of links to the kit's files, in which the linker copies what it has made. Where that yields no program, `rt`
has answered all the same, and nothing is kept. A kept program may run for longer than the minute that `rt try` gives one.
"""
import contextlib
import hashlib
import os
import shlex
import shutil
import subprocess
import sys
import tempfile

import build

KEPT = f"{build.BUILD}/unproved"
# how the line begins by which `rt` tells a program's status, and others that it has where one has ended
ENDED, OF_ENDED = b"run=ended ", (b"run=ended ", b"checked: ended ", b"races: not looked for")
# calls the kit's linker, and copies the program that it makes
LINKER = """#!/bin/sh
{linker} "$@" || exit
while [ $# -gt 1 ]; do
  [ "$1" != -o ] || {{ cp "$2" {made}.part && mv {made}.part {made}; }}
  shift
done
exit 0
"""


def sources():
    """Returns where the program of the sources as they are is kept, and when each of them changed; nothing where they can't be read."""
    with contextlib.suppress(OSError, build.Failed):
        uses = build.crates()
        files = [it for name in uses for it in build.files_of(name) if it.startswith(f"{build.TOP}/crates/{name}/src/")]
        # before they are read, so that a change meanwhile is seen
        changed = [(it, os.stat(it).st_mtime_ns, os.stat(it).st_ctime_ns) for it in files]
        found = hashlib.sha256(f"{build.said_by('rt', 'version')}\n{uses}".encode())
        for it in files:
            found.update(f"\n{os.path.relpath(it, build.TOP)} {build.sum_of_file(it)}".encode())
        return f"{KEPT}/{build.PROGRAM}-{found.hexdigest()[:32]}", changed


def link_kit(kit, folder, made):
    """Makes a folder of links to the kit's files, with an `rt` that takes it for the kit, and a linker that copies to `made`."""
    for at in ("", "bin/", "toolchain/", "toolchain/bin/"):
        os.makedirs(f"{folder}/{at}", exist_ok=True)
        for name in os.listdir(f"{kit}/{at}"):
            if at + name in ("bin/rt", "bin/rtlib.py"):
                # these find the kit by the place where they are
                shutil.copy(f"{kit}/{at}{name}", f"{folder}/{at}{name}")
            elif at + name not in ("bin", "toolchain", "toolchain/bin", "toolchain/bin/ld.lld"):
                os.symlink(f"{kit}/{at}{name}", f"{folder}/{at}{name}")
    linker = f"{folder}/toolchain/bin/ld.lld"
    with open(linker, "w", encoding="utf-8") as it:
        it.write(LINKER.format(linker=shlex.quote(f"{kit}/toolchain/bin/ld.lld"), made=shlex.quote(made)))
    os.chmod(linker, 0o755)


def compile_and_run(words, room):
    """Has `rt` compile the program and run it with these words; returns its status, or 70, and where it may have been copied to."""
    rt, made = "rt", f"{room}/program"
    with contextlib.suppress(OSError):
        link_kit(os.path.dirname(build.said_by("rt", "doc")), f"{room}/kit", made)
        rt = f"{room}/kit/bin/rt"
    with open(f"{room}/text", "w+b") as text, open(f"{room}/said", "w+b") as said:
        status = subprocess.run([rt, "try", "--", *words], cwd=f"{build.TOP}/crates/{build.PROGRAM}", stdout=text, stderr=said).returncode
        said.seek(0)
        lines = said.readlines()
        has_ended = any(it.startswith(ENDED) for it in lines)
        # where the program has ended its status tells how
        sys.stderr.buffer.writelines(it for it in lines if not (has_ended and it.startswith(OF_ENDED)))
        sys.stderr.flush()
        text.seek(0)
        shutil.copyfileobj(text, sys.stdout.buffer)
        sys.stdout.flush()
    return status if has_ended else 70, made


def keep(made, place):
    """Keeps this program there, and no other."""
    with contextlib.suppress(OSError):
        os.makedirs(KEPT, exist_ok=True)
        for name in os.listdir(KEPT):
            os.remove(f"{KEPT}/{name}")
        shutil.move(made, f"{place}.{os.getpid()}")
        os.replace(f"{place}.{os.getpid()}", place)


def main():
    before = sources()
    if before:
        with contextlib.suppress(OSError):
            os.execv(before[0], [before[0], *sys.argv[1:]])
    build.say("it is compiled first, which takes a minute or two; then it answers at once, until a source changes")
    with tempfile.TemporaryDirectory(prefix="fsa-unproved-") as room:
        status, made = compile_and_run(sys.argv[1:], room)
        # what was compiled while a source changed, also there and back, is kept for none
        if before and os.path.isfile(made) and sources() == before:
            keep(made, before[0])
    sys.exit(status)


if __name__ == "__main__":
    try:
        main()
    except KeyboardInterrupt:
        sys.exit(130)
