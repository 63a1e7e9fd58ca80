#!/usr/bin/env python3
"""Builds the proved program: proves the crates that it stands on, side by side where none needs another, and then the program.

It calls the prover itself, as `rt` does. A crate's library holds what other crates can cite of it, and not its proofs,
which then need not be loaded above. Such libraries fit only those that they were built over, so they stand apart, in
crates/fsa/out/rlib, where `rt` takes none from. Of a library whose own files changed since it was built here, and of all
where at most ten crates are to be proved, what is proved is kept function by function, in build/kept, and the library has
its proofs: from the second such time on only what changed is proved.

What was built is known by a mark, build/done-NAME, which has the kit's name, and sums of the crate's files, of its library
and of the same below it. The lock that `rt` takes of crates/fsa is held meanwhile, so that the gate waits for this and this for the
gate. All that it says goes to standard error. Its words, if there are any, are a command for an unproved answer, which it
names; with `--help` alone it prints this and builds nothing.
"""
import contextlib
import fcntl
import hashlib
import os
import re
import shutil
import signal
import subprocess
import sys
import threading
import time

TOP = os.path.dirname(os.path.dirname(os.path.realpath(__file__)))
PROGRAM = "fsa"
BUILD = f"{TOP}/build"
# the one folder with libraries' sources that the gate passes over
LIBRARIES = f"{TOP}/crates/{PROGRAM}/out/rlib"
# what one job of a check is likely to take at most, in bytes
MEMORY = 3_000_000_000
# how many jobs a check gains from
MOST_JOBS = 4
# A crate leads where what stands on it, with the crate itself, is at least this part of the longest chain.
NEAR = 0.95
# Where no more crates than these are to be proved, all of them are kept function by function.
FEW = 10
# begins a command in a process group of its own, so that it can be stopped with all that it starts, and so far behind others
BEGIN = "import os, sys; os.setpgid(0, 0); os.nice(int(sys.argv[1])); os.execv(sys.argv[2], sys.argv[2:])"


class Failed(Exception):
    """What was not to be done, in words."""


class Stopped(Exception):
    """The end of what was told already."""


def say(text):
    # where nobody listens, the work goes on
    with contextlib.suppress(OSError, ValueError):
        print(f"fsa: {text}", file=sys.stderr, flush=True)


def said_by(*words):
    """Returns what a command prints, or nothing where it fails."""
    with contextlib.suppress(OSError):
        return subprocess.run(words, stdin=subprocess.DEVNULL, capture_output=True, text=True).stdout.strip()
    return ""


def crates():
    """Returns the program's crate and those below it with the crates that each uses, the kit's too, each after those that it uses."""
    uses = {}
    with open(f"{TOP}/crates.txt", encoding="utf-8") as lines:
        for line in lines:
            head, _, names = line.partition("#")[0].partition(":")
            if head.strip():
                uses[head.split()[0]] = names.replace(",", " ").split()
    found = {}

    def add(name, above):
        if name in above:
            raise Failed(f"crates.txt: {name} stands on itself")
        if name in uses and name not in found:
            for it in uses[name]:
                add(it, (*above, name))
            found[name] = uses[name]

    add(PROGRAM, ())
    return found


def files_of(name):
    """Returns the files of a crate that a check of it reads."""
    found = []
    for part in ("src", "specs", "proofs"):
        for at, _, names in os.walk(f"{TOP}/crates/{name}/{part}"):
            # editors leave files whose names begin with a dot
            found += [f"{at}/{it}" for it in names if it.endswith((".rt", ".antt")) and not it.startswith(".")]
    return sorted(found)


def weights_of(names):
    """Returns what the proof of each crate takes about, by which the longest chain is found: the seconds of the table in docs/ARCHITECTURE.md, 'The gate', or else an eighth of its lines."""
    found = {}
    with contextlib.suppress(OSError), open(f"{TOP}/docs/ARCHITECTURE.md", encoding="utf-8") as text:
        for name, seconds in re.findall(r"(?m)^\| `(\w+)` \| (\d+) s \|", text.read()):
            found.setdefault(name, int(seconds))
    for name in {*names} - {*found}:
        found[name] = 10
        for file in files_of(name):
            with open(file, "rb") as it:
                found[name] += it.read().count(b"\n") // 8
    return found


def rooms(processors):
    """Returns how many jobs can run side by side: those of the crate that leads and, behind these, one for each other processor, where memory allows."""
    found = min(MOST_JOBS, processors) + processors - 1
    with contextlib.suppress(OSError, TypeError):
        with open("/proc/meminfo", encoding="utf-8") as it:
            free = 1024 * int(re.search(r"MemAvailable:\s+(\d+)", it.read())[1])
        with contextlib.suppress(OSError, ValueError), open("/sys/fs/cgroup/memory.max", encoding="utf-8") as it:
            free = min(free, int(it.read()))
        found = min(found, max(free // MEMORY, 1))
    return found


def tell_end(name):
    """Shows the end of a crate's log."""
    with contextlib.suppress(OSError, ValueError), open(f"{BUILD}/log-{name}", encoding="utf-8", errors="replace") as log:
        sys.stderr.write("".join(log.readlines()[-20:]))


@contextlib.contextmanager
def locked():
    """Holds the lock that rt takes of the program's folder, and gives its descriptor."""
    lock = os.open(f"{TOP}/crates/{PROGRAM}", os.O_RDONLY)
    try:
        try:
            fcntl.flock(lock, fcntl.LOCK_EX | fcntl.LOCK_NB)
        except BlockingIOError:
            say(f"waiting for another command that works in crates/{PROGRAM}")
            fcntl.flock(lock, fcntl.LOCK_EX)
        except OSError:
            # some file systems have no locks
            pass
        yield lock
    finally:
        os.close(lock)


def sum_of_file(file):
    """Returns a sum of what a file holds, or nothing where it can't be read."""
    with contextlib.suppress(OSError), open(file, "rb") as it:
        return hashlib.sha256(it.read()).hexdigest()
    return ""


def put(file, text):
    """Writes a small file whole, or not at all."""
    with open(f"{file}.new", "w", encoding="utf-8") as it:
        it.write(text)
    os.replace(f"{file}.new", file)


def text_of(file):
    """Returns what a small file holds, or nothing where it isn't there."""
    with contextlib.suppress(OSError), open(file, encoding="utf-8") as it:
        return it.read()
    return ""


class Builder:
    def __init__(self, lock, then):
        self.lock, self.then = lock, then
        self.kit, self.version = os.path.dirname(said_by("rt", "doc")), said_by("rt", "version")
        if not self.version or not os.path.isfile(f"{self.kit}/bin/rattle"):
            raise Failed("the kit's prover is not found: `rt doc` names no page in the folder of a kit that has bin/rattle")
        self.uses = crates()
        # the crates of this repository that each uses, and all below each
        self.under = {name: [it for it in used if it in self.uses] for name, used in self.uses.items()}
        self.below = {}
        for name, used in self.under.items():
            self.below[name] = sorted({*used}.union(*(self.below[it] for it in used)))
        self.states, self.own, self.to_do = {}, {}, []
        for name in self.uses:
            self.states[name] = self.state_of(name)
            self.own[name] = self.sum_of(name)
            if {*self.under[name]} & {*self.to_do} or text_of(f"{BUILD}/done-{name}") != self.mark_of(name):
                self.to_do.append(name)
        self.begun, self.done, self.running, self.failed = time.monotonic(), [], {}, None
        self.commands, self.leaders, self.turn, self.is_stopped = {}, set(), threading.Condition(), False
        self.processors = len(os.sched_getaffinity(0))
        self.rooms = rooms(self.processors)
        self.weights = weights_of(self.uses)
        # what stands on a crate, and the crate itself
        self.behind = dict(self.weights)
        for it in reversed(list(self.uses)):
            for under in self.under[it]:
                self.behind[under] = max(self.behind[under], self.weights[under] + self.behind[it])

    def state_of(self, name):
        """Returns when each file of a crate changed, so that one that changed and changed back is seen."""
        return [(it, os.stat(it).st_mtime_ns, os.stat(it).st_ctime_ns) for it in files_of(name)]

    def sum_of(self, name):
        """Returns a sum of what a crate uses and of its own files."""
        found = hashlib.sha256(repr(self.uses[name]).encode())
        for file in files_of(name):
            with open(file, "rb") as it:
                found.update(repr((os.path.relpath(file, TOP), it.read())).encode())
        return found.hexdigest()

    def made_of(self, name):
        """Returns a sum of what was built of a crate: of the program, or of the file `format` of its library, which has sums of its other files."""
        return sum_of_file(f"{BUILD}/{name}" if name == PROGRAM else f"{LIBRARIES}/{name}.rlib/format")

    def mark_of(self, name):
        """Returns the mark of a crate that is built as it stands here: the kit, what it is built of, what that made, and the same of all below."""
        lines = [f"{it} {self.own[it]} {self.made_of(it)}" for it in [name, *self.below[name]]]
        return "\n".join([self.version, *lines, ""]) if self.made_of(name) else "nothing"

    def words(self, name, jobs):
        """Returns the prover's command for a crate."""
        kit, root = self.kit, "main" if name == PROGRAM else "lib"
        words = [f"{kit}/bin/rattle", "build", "--crate-name", name, f"src/{root}.rt"]
        for it in ["std", *self.uses[name]]:
            words += ["--extern", f"{it}={LIBRARIES if it in self.uses else f'{kit}/rlibs'}/{it}.rlib"]
        words += ["-L", f"dependency={LIBRARIES}", "-L", f"dependency={kit}/rlibs"]
        words += ["--antt-project", f"{kit}/rattle/logic/antt-project.json", "--logic-built", f"{kit}/logic_built"]
        words += ["--links", f"{name}=", "--jobs", str(jobs)]
        if name == PROGRAM:
            return words + ["--backend", "llvm", "--toolchain", f"{kit}/toolchain", "-o", f"{BUILD}/{name}.o"]
        was = text_of(f"{BUILD}/own-{name}")
        keeps = was and (was != self.own[name] or len(self.to_do) <= FEW)
        words += ["--incremental", f"{BUILD}/kept/{name}"] if keeps else ["--statements"]
        return words + ["-o", f"{LIBRARIES}/{name}.rlib"]

    def link(self, log):
        """Links the program."""
        kit, made = self.kit, f"{BUILD}/{PROGRAM}"
        words = [f"{kit}/bin/rattle-link", "--target", "x86_64-unknown-linux-gnu", "--toolchain", f"{kit}/toolchain"]
        words += ["-o", f"{made}.linked", f"{made}.o", f"{kit}/c/libos_c.a", f"{kit}/c/liblibc_c.a"]
        if subprocess.run(words, stdin=subprocess.DEVNULL, stdout=log, stderr=log).returncode:
            raise Failed(f"the program was not linked; the whole log is build/log-{PROGRAM}")
        # `fsa` looks whether a file changed since
        os.utime(f"{made}.linked", (self.then, self.then))
        os.replace(f"{made}.linked", made)
        os.remove(f"{made}.o")

    def prove(self, name, jobs, log):
        """Proves a crate and builds its library or the program."""
        nice = "0" if name in self.leaders else "10"
        how = {"cwd": f"{TOP}/crates/{name}", "stdin": subprocess.DEVNULL, "stdout": log, "stderr": log}
        # whoever ends this script, the lock lasts as long as what it started
        command = subprocess.Popen([sys.executable, "-ISc", BEGIN, nice, *self.words(name, jobs)], pass_fds=[self.lock], **how)
        self.commands[name] = command
        if self.is_stopped:
            self.stop_all()
        status = command.wait()
        if status < 0:
            # what one that was killed left
            with contextlib.suppress(OSError):
                os.killpg(command.pid, signal.SIGKILL)
        del self.commands[name]
        if status == -signal.SIGKILL and jobs > 1 and not self.failed:
            # most likely for want of memory
            self.prove(name, 1, log)
        elif status == -signal.SIGKILL:
            raise Failed(f"the check of {name} was killed, most likely for want of memory; run this again")
        elif status:
            raise Failed(f"{name} was not proved; the whole log is build/log-{name}")
        elif name == PROGRAM:
            self.link(log)

    def build(self, name, jobs):
        """Builds a crate, and marks it where its files and the libraries below it stayed as they were meanwhile."""
        made = f"{LIBRARIES}/{name}.rlib"
        # the prover replaces nothing else
        if os.path.isdir(made) and not os.path.isfile(f"{made}/format"):
            shutil.rmtree(made)
        over = [self.made_of(it) for it in self.below[name]]
        with open(f"{BUILD}/log-{name}", "w", encoding="utf-8") as log:
            self.prove(name, jobs, log)
        put(f"{BUILD}/own-{name}", self.own[name])
        if self.state_of(name) == self.states[name] and over == [self.made_of(it) for it in self.below[name]]:
            put(f"{BUILD}/done-{name}", self.mark_of(name))

    def work(self, name, jobs):
        began, said = time.monotonic(), None
        try:
            self.build(name, jobs)
        except Failed as error:
            said = str(error)
        except Exception as error:
            said = f"{name}: {error}"
        with self.turn:
            del self.running[name]
            self.leaders.discard(name)
            if said and not self.is_stopped:
                self.failed = self.failed or said
                if "log" in said:
                    tell_end(name)
                say(f"{said}{'; what else runs is let end' if self.running else ''}")
            elif not said:
                self.done.append(name)
                now = time.monotonic()
                what = "is built" if name == PROGRAM else "is proved"
                say(f"{len(self.done)} of {len(self.to_do)}: {name} {what} ({now - began:.0f} s; {now - self.begun:.0f} s in all{self.rest(now)})")
            self.turn.notify_all()

    def stop_all(self, *_):
        """Stops all that was started, by a signal."""
        self.is_stopped = True
        if not self.failed:
            self.failed = "stopped; the crates that were proved are kept"
            say(self.failed)
        for it in list(self.commands.values()):
            with contextlib.suppress(OSError):
                try:
                    os.killpg(it.pid, signal.SIGTERM)
                except ProcessLookupError:
                    # it has no group so far
                    os.kill(it.pid, signal.SIGTERM)

    def chain(self):
        """Returns the weight of the longest chain of crates, one upon another, that are to be built."""
        return max((self.behind[it] for it in self.to_do if it not in self.done), default=0)

    def rest(self, now):
        """Returns a guess of how long it still takes, as the weight of what is left falls."""
        gone = sum(self.weights[it] for it in self.done)
        left = sum(self.weights[it] for it in self.to_do) - gone
        if 20 * gone < left or not left:
            return ""
        return f", about {max(1, round((now - self.begun) * left / gone / 60))} min more"

    def start(self, left):
        """Starts the checks for which there is room. Those on a chain that is about the longest share the processors, with several jobs each where they are few; the others have one job each, behind these."""
        ready = [it for it in left if not {*self.under[it]} & ({*self.to_do} - {*self.done})]
        leading = {it for it in ready if self.behind[it] >= NEAR * self.chain()}
        share = -(-self.processors // max(1, len(leading)))
        for at, name in enumerate(ready):
            room, jobs = self.rooms - sum(self.running.values()), 1
            if room < 1 or name not in leading and len(self.running) >= self.processors:
                break
            if name in leading:
                self.leaders.add(name)
                # those that can start behind it
                others = min(len(ready) - at, self.processors - len(self.running)) - 1
                jobs = max(1, min(MOST_JOBS, share, room - max(0, others)))
            left.remove(name)
            self.running[name] = jobs
            threading.Thread(target=self.work, args=(name, jobs)).start()

    def all(self):
        """Builds what is to be built."""
        say("building the proved program; from nothing this takes long (README.md, 'Try it').")
        if sys.argv[1:]:
            say(f"For an unproved answer within a minute or two, stop this and say: {' '.join(sys.argv[1:])}")
        say(f"{len(self.to_do)} crates are to be proved, several side by side; the first lines come after some minutes")
        left = sorted(self.to_do, key=lambda it: -self.behind[it])
        with self.turn:
            while (left and not self.failed) or self.running:
                if not self.failed:
                    self.start(left)
                self.turn.wait()
        if self.failed:
            raise Stopped


def main():
    with locked() as lock:
        for it in (f"{BUILD}/kept", LIBRARIES):
            os.makedirs(it, exist_ok=True)
        builder = None
        # once more where files changed meanwhile
        while True:
            then = time.time()
            was, builder = builder, Builder(lock, then)
            if was and was.is_stopped:
                raise Stopped
            if not builder.to_do:
                os.utime(f"{BUILD}/{PROGRAM}", (then, then))
                return
            for it in (signal.SIGINT, signal.SIGTERM, signal.SIGHUP):
                if signal.getsignal(it) != signal.SIG_IGN:
                    signal.signal(it, builder.stop_all)
            # what is not marked again isn't kept, whoever ends this
            for it in builder.to_do:
                with contextlib.suppress(FileNotFoundError):
                    os.remove(f"{BUILD}/done-{it}")
            builder.all()
            say(f"the program is built ({time.monotonic() - builder.begun:.0f} s in all)")


if __name__ == "__main__":
    if sys.argv[1:] in (["-h"], ["--help"]):
        print(__doc__.strip())
        sys.exit(0)
    try:
        main()
    except Stopped:
        sys.exit(1)
    except (Failed, OSError) as error:
        say(error)
        sys.exit(1)
    except KeyboardInterrupt:
        say("stopped")
        sys.exit(1)
