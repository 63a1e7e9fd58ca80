"""Random scripts that aim at rare states, each with its text by the second implementation.

A script is drawn from its seed alone. The second implementation runs beside: so a line can name a handle that is open,
answer a break that is in progress, meet a lock or an oplock of another client, or cancel a call that is pending. A
theme says which verbs are frequent. Of some scripts that one is taken which has most states that were rare so far.
"""
import collections
import math
import random

from answers import (DELETE, HANDLE_VERBS, LAST_NUMBER, LAST_PLACE, WRITE_ATTRIBUTES, WRITE_DAC, WRITE_DATA,
                     WRITE_OWNER, Pends, Volume, default_table, go_on, has_same_key, leavings, shown, text_of)

# How often a verb comes; and by theme, where `rest` stands for what isn't named
WEIGHTS = dict(create=14, close=5, read=3, write=4, flush=.6, lock=2, unlock=1, querydir=2, notify=2, query=2,
               setbasic=2, setend=1.5, setdelete=2.5, rename=3, link=2, setsecurity=1.5, setreparse=1, getreparse=.7,
               deletereparse=.7, setquota=.7, queryquota=.7, oplock=2, ack=1.5, cancel=1, tick=2, wait=.8)
THEMES = {
    "all": {},
    "oplocks": dict(create=14, oplock=9, ack=8, lock=4, unlock=2, read=4, write=5, rename=3, link=2, setdelete=2,
                    setend=2, close=5, cancel=3, tick=2, wait=.8, flush=.6, rest=.2),
    "locks": dict(create=14, lock=14, unlock=7, read=6, write=6, setend=2, oplock=3, ack=3, cancel=3, wait=2, close=4,
                  setdelete=2.5, rename=.7, link=.5, tick=2, rest=.15),
    "directories": dict(querydir=9, notify=8, rename=7, setdelete=6, close=7, link=3, setbasic=3, write=2, cancel=2,
                        setend=1, oplock=1, ack=1, lock=.1, unlock=.1),
    "links": dict(link=9, rename=9, setdelete=7, close=7, oplock=3, ack=3, lock=.2, unlock=.2, setquota=.1),
    "quotas": dict(write=9, setend=8, setquota=5, queryquota=5, setsecurity=5, close=4, setdelete=2, query=3,
                   oplock=.5, ack=.5, lock=.3, unlock=.3, notify=.5, querydir=.6),
    "security": dict(setsecurity=10, create=16, rename=4, link=4, setbasic=3, oplock=.5, ack=.5, lock=.5, unlock=.2),
    "points": dict(setreparse=7, getreparse=5, deletereparse=4, create=16, rename=4, link=3, query=3, querydir=3,
                   oplock=.5, ack=.5, lock=.2, unlock=.2),
    "streams": dict(create=16, query=6, setdelete=5, close=6, write=5, setend=3, notify=4, link=3, oplock=3, ack=2),
    "waits": dict(wait=6, lock=6, oplock=6, ack=4, notify=3, cancel=2, close=4, rename=2),
    "attributes": dict(setbasic=9, create=16, query=6, querydir=3, setdelete=4, link=3, rename=4, notify=3, write=3,
                       oplock=1, ack=1, lock=.3, unlock=.2),
    "many oplocks": dict(create=16, oplock=14, ack=4, rename=7, link=4, setdelete=3, write=3, lock=2, read=2, cancel=1,
                         setend=1, close=4, unlock=1, tick=2, wait=.5, notify=.4, rest=.1),
    "many locks": dict(create=7, lock=20, unlock=8, read=3, write=3, close=3, cancel=2, wait=2, oplock=2, ack=1,
                       setend=1, tick=2, setdelete=.5, rename=.3, link=.3, rest=.08),
    "many watches": dict(notify=14, create=14, rename=9, link=5, setdelete=6, close=6, write=4, setend=2, setbasic=4,
                         setsecurity=1.5, setreparse=1, deletereparse=1, querydir=1, cancel=2, oplock=1, ack=1, tick=2,
                         rest=.1),
    "many deletions": dict(create=18, close=10, setdelete=9, link=8, rename=8, query=4, querydir=3, notify=2, write=2,
                           oplock=2, ack=1, tick=2, rest=.2),
    "few files": dict(create=22, oplock=16, ack=3, rename=4, link=3, setdelete=.8, write=4, lock=4, read=5, setend=2,
                      cancel=2, close=7, unlock=2, wait=.7, notify=.3, setquota=.3, setbasic=.2, tick=.2, rest=.06),
}
OFTEN = ["few files"] * 3 + ["many oplocks"] * 2 + ["many watches", "many deletions", "security"]

ACCESS = ["0x1", "0x2", "0x3", "0x3", "0x4", "0x7", "0x10000", "0x10001", "0x10003", "0x10003", "0x1f01ff",
          "0x10000000", "0x80000000", "0x40000000", "0x20000000", "0xc0000000", "0x80", "0x100", "0x180", "0x100180",
          "0x20", "0x20000", "0x40000", "0x80000", "0xe0003", "0x10183", "0x103", "0x5", "0x10004", "0x60000"]
AMPLE_ACCESS = ["0x1f01ff", "0x10000000", "0x10183", "0xf0183", "0x10003", "0xf01ff"]
GRANTED = ACCESS + ["0x0", "0xffffffff", "0x1f01ff", "0x1f01ff", "0x10000000", "0x10000", "0x6", "0x2", "0x4",
                    "0x1effff", "0x1f01fd", "0x1f01fb", "0x1901ff"]
NAMES = ["a", "b", "c", "d", "x.y", "a.b.c", "é", "e", ".z", "q.", "\ud83d\ude00", "a b", "%n", "\x7f"]
FAULTY_NAMES = [".", "..", "", "a/b", "a*", "n" * 256, "\x1f", "a:b", "a|", "...", " ", "a:b:c:d", "a:", ":s",
                "::$DATA", "a::", "a:s:", "a:s:$data", "a::$DatA", "a::$Index", "a:" + "s" * 256, "a:" + "s" * 255,
                "a:\0", "a:/", "a:.", "a\"", "<", "a?"]
EXPRESSIONS = ["*", "*.*", "<.*", "<", "????", ">>>>", "*.", "\"", "<\"*", ".", "..", "?", ">\">", "*\"*",
               "n" * 254 + "*"]
ROOMS = [12, 13, 14, 16, 24, 28, 30, 32, 39, 40, 44, 56, 62, 64, 66, 68, 70, 72, 80, 82, 84, 86, 100, 120, 152, 160,
         200, 240, 300, 400]
TAGS = ["0c0000a0", "0d0000a0", "030000a0", "00000080", "ffffffff"]
FAULTY_POINTS = ["", "0c0000a0", "0c0000a003000000", "0000000000000000", "0100000000000000", "0c00002000000000",
                 "0c0000a0010000", "0200000000000000", "0c0000a00100000041"]
SIDS = [0, 7, 8, 9]


class Watched(Volume):
    """A volume that keeps which kinds of tries and breaks it met."""

    def __init__(self, upcased, clients):
        self.met = set()
        super().__init__(upcased, clients)

    def attempt(self, call):
        handle = self.handles.get((call.client, call.fields[0])) if call.verb in HANDLE_VERBS else None
        state = None if handle is None else (
            handle.file.is_directory, handle.link is None, handle.of_named_stream(),
            handle.link is not None and handle.link.marked, handle.stream is not None and handle.stream.marked,
            handle.file.point is not None, len(handle.file.links) > 1, handle.oplock is not None, breaking(handle))
        ends, changes = len(self.ends), len(self.changes)
        outcome = super().attempt(call)
        answer = outcome.interim if isinstance(outcome, Pends) else outcome.split(" ")[0]
        self.met.add((call.verb, answer, call.turn != self.turns,
                      min(len(self.ends) - ends, 3), min(len(self.changes) - changes, 3), state))
        return outcome

    def begin_breaks(self, request_class, handles, acting, key):
        for handle in handles:
            if handle.oplock is not None:
                who = acting is handle if has_same_key(acting, key, handle) else (acting is None, key != 0)
                self.met.add((request_class, handle.oplock.level, handle.oplock.target, who))
        return super().begin_breaks(request_class, handles, acting, key)


class NothingFits(Exception):
    """The verb has nothing at which it could aim."""


def breaking(handle):
    return handle.oplock is not None and handle.oplock.target is not None


def preferring(items, test):
    return [item for item in items if test(item)] or items


class Script:
    """A script as it is drawn, line by line."""

    def __init__(self, seed):
        self.random = random.Random(seed)
        self.pick, self.below = self.random.choice, self.random.randrange
        self.theme = self.pick(list(THEMES) + OFTEN)
        self.dense = self.theme.startswith(("many", "few"))
        # few faults, and rights that suffice
        self.smooth = self.dense or self.chance(.5)
        self.draw_weights()
        self.draw_head()
        self.draw_names()
        self.draw_chances()
        self.lines, self.text, self.calls = [], [], []
        self.made = [0] * len(self.clients)

    def chance(self, part):
        return self.random.random() < part

    def is_theme(self, *themes):
        return self.theme in themes

    # ---- what a script begins with

    def draw_weights(self):
        theme = THEMES[self.theme]
        weights = {verb: theme.get(verb, theme.get("rest", weight)) for verb, weight in WEIGHTS.items()}
        least = {verb: theme.get(verb, 0) * .3 if self.dense else 0 for verb in weights}
        for verb in weights:
            weights[verb] *= self.pick([.3, 1, 1, 1, 2.5])
        if self.chance(.25):
            for verb in self.random.sample(sorted(weights), 8):
                if verb != "create":
                    weights[verb] = 0
        if self.smooth and not self.is_theme("security"):
            weights["setsecurity"] *= .1
        if self.smooth and not self.is_theme("points"):
            for verb in ("setreparse", "getreparse", "deletereparse"):
                weights[verb] *= .2
        self.weights = {verb: max(weight, least[verb]) for verb, weight in weights.items()}

    def draw_head(self):
        sids = {"security": [1], "quotas": [3]}.get(self.theme, [1, 1, 1, 2, 3])
        names = "abcde"[:self.pick([1, 2, 2, 3, 3, 4, 5])]
        self.clients = [(name, self.random.sample(SIDS, self.pick(sids))) for name in names]
        self.head = ["fsa 1"]
        upcased = default_table()
        drawn = self.random.random()
        if drawn < .1:
            self.head.append("table default")
        elif drawn < .3:
            self.head.append("table pairs")
            upcased = self.draw_pairs()
        self.head += ["client %s %s" % (name, " ".join(map(str, sids))) for name, sids in self.clients]
        self.volume = Watched(upcased, self.clients)

    def draw_pairs(self):
        units = self.pick(["aAbBcCdDsStTxy", "aAbBdDsSéÉ", "aAbB.xX1*?", "aA:$dDtT\\x", "aA\ud83d\udc00\u0130iI",
                           "abcdefstxyABDESTXY"])
        upcased = {}
        for _ in range(self.below(8)):
            source, target = ord(self.pick(units)), ord(self.pick(units))
            if source == target or source in upcased or source in upcased.values() or target in upcased:
                continue
            upcased[source] = target
            self.head.append("up 0x%x 0x%x" % (source, target))
        return upcased

    def draw_names(self):
        few = self.is_theme("few files")
        self.names = self.random.sample(NAMES, self.pick([1, 2] if few else [2, 3, 4, 6]))
        if not few and self.chance(.15):
            self.names.append("n" * self.pick([100, 254, 255]))
        if not few and self.chance(.1):
            self.names += ["f%d" % number for number in range(12)]
        stream_names = ["s", "t", "S", "u.v", "$DATA", "a*b", "\x01", "|<>"]
        self.stream_names = self.random.sample(stream_names, 1 if few else self.pick([1, 2, 3]))

    def draw_chances(self):
        few, smooth, crowded = self.is_theme("few files"), self.smooth, self.is_theme("many oplocks", "many locks")
        waiting = self.is_theme("oplocks", "locks", "waits")
        self.depth = self.pick([0, 1] if few else [1, 2, 3, 3, 4])
        self.most_handles = self.pick([2, 3, 5] if few else [6, 10] if crowded else [3, 6, 10, 14])
        self.has_small_ranges = self.chance(.8)
        self.has_large_streams = self.chance(.04)
        self.keys = self.pick([1, 2] if few else [1, 2, 3])
        self.with_key = self.pick([0, .4, .8] if few else [0, .2, .5] if crowded else [0, .3, .6, .9])
        self.faulty = self.pick([.01] if smooth else [.12, .05, .015])
        # of opens
        self.ample = self.pick([.9, .97] if smooth else [.2, .5, .8])
        self.shared = self.pick([.4, .7, .9] if few else [.85, .95, .99] if smooth else [.5, .8, .95, 1])
        self.of_directories = self.pick([.04] if few else [.08] if crowded else [.1, .25, .4])
        self.with_attributes = self.pick([.03] if smooth else [.05, .2, .5])
        self.attributes_only = self.pick([.1, .3] if few else [.05, .25] if crowded or waiting else [.02, .15])
        self.completing = self.pick([.2, .6] if few else [.1, .4, .7] if waiting else [.05, .2, .5])
        self.going = self.pick([.02] if few or crowded else [.03, .1] if smooth else [.03, .1, .3])
        # of what is named, and of answers
        self.known = self.pick([.9] if few else [.4, .6, .8])
        self.busy = self.pick([.5, .8] if crowded else [.4, .7, .9] if waiting else [0, .3, .7])
        self.of_streams = self.pick([.1, .4] if few else [.05, .2, .5])
        self.behind_waits = self.pick([.02, .1, .4])
        self.answering = self.pick([.03, .1, .2])
        if self.is_theme("many deletions"):
            self.going = .35
        elif self.is_theme("many locks"):
            self.known = .9
        elif self.is_theme("directories"):
            self.of_directories = .45
        elif self.is_theme("attributes"):
            self.with_attributes = self.pick([.05, .2, .5])
        elif self.is_theme("streams", "many watches"):
            self.of_streams = .6

    def is_faulty(self):
        return self.chance(self.faulty)

    # ---- names and paths

    def in_some_case(self, units):
        other = self.pick([units.upper(), units.swapcase()])
        return other if self.chance(.25) and len(other) == len(units) else units

    def names_to(self, directory):
        out = []
        while directory is not self.volume.root:
            out.insert(0, directory.links[0].name)
            directory = directory.links[0].parent
        return out

    def some_directory(self):
        files = [file for file in self.volume.files.values() if file.is_directory]
        return self.names_to(self.pick(files))[:self.depth]

    def all_links(self):
        return [link for file in self.volume.files.values() for link in file.names.values()]

    def path_of(self, link):
        return "\\" + "\\".join(self.names_to(link.parent) + [self.in_some_case(link.name)])

    def faulty_path(self):
        drawn = self.random.random()
        if drawn < .1:
            return self.pick(["", "a", "\\\\", "\\a\\", "a\\b", "\\a\\\\b", "\\.\\a", "\\a:s\\b"])
        if drawn < .12:
            return "\\a" * self.pick([16380, 16381])
        names = self.some_directory()
        names.insert(self.below(len(names) + 1), self.pick(FAULTY_NAMES))
        return "\\" + "\\".join(names)

    def path(self, for_directory=False, with_stream=True):
        if self.chance(.03):
            return "\\"
        if self.is_faulty() and self.chance(.5):
            return self.faulty_path()
        links = self.all_links() if self.chance(self.known) else []
        if self.chance(.9 if for_directory else .5):
            links = preferring(links, lambda link: link.file.is_directory == for_directory)
        if with_stream and self.chance(self.busy):
            busy = [handle.link for handle in self.volume.handles.values() if handle.oplock is not None or handle.locks]
            links = preferring(links, lambda link: link in busy)
        if links:
            link = self.pick(links)
            names = self.names_to(link.parent) + [link.name]
            if not link.file.is_directory and with_stream and self.chance(self.of_streams):
                name = self.pick([stream.name for stream in link.file.streams.values()] + self.stream_names)
                names[-1] += (":" + self.in_some_case(name) + self.pick(["", "", ":$DATA", ":$dAta"]) if name else
                              self.pick(["::$DATA", "::$data", ""]))
            elif self.chance(.04):
                names.append(self.pick(self.names))
        else:
            names = self.some_directory() + ([self.pick(self.names)] if self.chance(.05) else [])
            names.append(self.pick(self.names))
            if with_stream and not for_directory and self.chance(self.of_streams):
                name = self.pick(self.stream_names)
                names[-1] += self.pick([":" + name, "::$DATA", ":" + name + ":$DATA"])
        return "\\" + "\\".join(map(self.in_some_case, names))

    # ---- handles

    def handles_of(self, client):
        return [handle for handle in self.volume.handles.values() if handle.client == client]

    def handle(self, client, test=None):
        """A number and, where the client has it open, the handle: mostly one that meets the test."""
        mine = self.handles_of(client)
        if not mine or self.chance(.03):
            if self.volume.handles and self.chance(.4):
                number = self.pick(list(self.volume.handles.values())).number
            else:
                number = self.below(max(2, self.made[client] + 3)) if self.chance(.95) else (1 << 32) - 1
            return number, self.volume.handles.get((client, number))
        if test and self.chance(.93):
            fitting = [handle for handle in mine if test(handle)]
            if not fitting and self.chance(.8):
                raise NothingFits
            mine = fitting or mine
        handle = self.pick(mine)
        return handle.number, handle

    def is_contended(self, handle):
        """A file's handle, and mostly one on a stream with another's oplock or lock."""
        if handle.file.is_directory or not self.chance(self.busy):
            return not handle.file.is_directory
        return any(other is not handle and other.stream is handle.stream and (other.oplock is not None or other.locks)
                   for other in self.volume.handles.values())

    def can_move(self, handle):
        if not handle.access & DELETE or handle.link is None or handle.of_named_stream():
            return False
        if self.is_theme("many oplocks") and self.chance(.5):
            below = self.volume.below(handle.file) if handle.file.is_directory else []
            return any(other.oplock is not None for other in below)
        return True

    @staticmethod
    def is_directory(handle):
        return handle.file.is_directory

    # ---- other fields

    def place(self):
        if self.has_small_ranges or self.chance(.6):
            return self.pick([0, 1, 2, 3, 5, 8, 10, 12, 15, 20])
        return self.pick([LAST_PLACE - 1, LAST_PLACE, LAST_PLACE + 1, LAST_NUMBER, LAST_NUMBER - 1, LAST_NUMBER - 10,
                          4095, 4096, 4097, 100])

    def room(self):
        return self.pick([16384, self.below(130), self.pick(ROOMS)])

    def expression(self, handle):
        if handle is not None and handle.file.names and self.chance(.5):
            return self.pattern(self.pick(list(handle.file.names.values())).name)
        if self.chance(.35):
            return ""
        if self.chance(.3):
            return self.in_some_case(self.pick(self.names))
        if self.chance(.15):
            return self.pick(EXPRESSIONS)
        units = "*?<>\"." + "".join(self.names)[:12] + "aB."
        fault = self.pick([":", "\\", "/", "|", "\x1f", "n" * 255]) if self.is_faulty() else ""
        return "".join(self.pick(units) for _ in range(self.below(1, 6))) + fault

    def pattern(self, name):
        """An expression that is made of a name."""
        out, place = "", 0
        while place < len(name):
            drawn = self.random.random()
            if drawn < .22:
                out += self.pick("?>")
            elif drawn < .32:
                out += self.pick("*<")
                place += self.below(4) - 1
            else:
                out += '"' if name[place] == "." and drawn < .6 else self.in_some_case(name[place])
            place += 1
        return (out + (self.pick("*<>>\"") if self.chance(.4) else ""))[:255]

    def sid(self):
        return self.pick(SIDS + [10])

    def access_list(self):
        if self.chance(.35):
            return self.pick(["null", "keep"])
        count = self.below(5) if self.chance(.95) else 32
        return "acl" + "".join(",%s%d:%s" % (self.pick("++++-"), self.sid(), self.pick(GRANTED)) for _ in range(count))

    def time(self):
        drawn = self.random.random()
        if drawn < .95 or self.smooth and drawn < .99:
            return 0 if drawn < .5 else self.below(1, 100) if drawn < .7 else self.pick([LAST_NUMBER, LAST_NUMBER - 1])
        return self.pick([LAST_PLACE, LAST_PLACE + 1, LAST_NUMBER - 2, 1 << 40])

    # ---- the fields of each verb

    def create(self, _client):
        is_directory = self.chance(self.of_directories)
        path = self.path(for_directory=is_directory)
        disposition = self.random.choices(["open", "open_if", "create", "supersede", "overwrite", "overwrite_if"],
                                          [30, 35, 14, 7, 6, 8])[0]
        wanted = self.pick(AMPLE_ACCESS) if self.chance(self.ample) else self.pick(ACCESS)
        if self.chance(self.attributes_only):
            wanted = self.pick(["0x80", "0x180", "0x100080", "0x100180"])
        if self.is_theme("security") and self.chance(.3):
            wanted = self.pick(["0x20000", "0x40000", "0x60000", "0x10000", "0x1", "0x80", "0x20001", "0x20", "0x4"])
            if not is_directory and self.chance(.5):
                disposition = self.pick(["overwrite", "overwrite_if", "supersede", "open_if"])
        if self.is_faulty() and self.chance(.3):
            wanted = self.pick(["0x0", "0x200", "0x2000000", "0x1000000", "0xffffffff", "0xf01f01ff", "0x100000"])
        options = 0x1 if is_directory else 0x40 if self.chance(.1) else 0
        if is_directory and self.chance(.95) and disposition in ("supersede", "overwrite", "overwrite_if"):
            disposition = "open_if"
        if self.chance(self.going):
            options |= 0x1000
            if self.chance(.9):
                wanted = "0x%x" % (int(wanted, 16) | DELETE)
        options |= 0x100 if self.chance(self.completing) else 0
        options |= 0x200000 if self.chance(.5 if self.is_theme("points") else .1) else 0
        if self.chance(.03):
            options |= self.pick([2, 4, 8, 0x10, 0x20, 0x200, 0x800, 0x4000, 0x8000, 0x400000, 0x60db7f])
        if self.is_faulty() and self.chance(.3):
            options |= self.pick([0x80, 0x400, 0x2000, 0x10000, 0x80000000, 0x41])
        attributes = 0
        if self.chance(self.with_attributes):
            attributes = sum(bit for bit in (1, 2, 4, 0x20, 0x80, 0x10, 0x100, 0x1000, 0x2000) if self.chance(.25))
        if self.is_faulty() and self.chance(.2):
            attributes |= self.pick([0x400, 0x40, 8, 0x200, 0x800])
        share = 7 if self.chance(self.shared) else self.below(8)
        if self.is_faulty() and self.chance(.2):
            share = self.pick([8, 0xff, 0x80000000])
        key = self.below(1, self.keys + 1) if self.chance(self.with_key) else LAST_NUMBER if self.chance(.005) else 0
        return ["=" + shown(path), wanted, "0x%x" % share, disposition, "0x%x" % options, "0x%x" % attributes, key]

    def close(self, client):
        return [self.handle(client)[0]]

    flush = close

    def read(self, client):
        count = self.pick([0, 1, 2, 5, 20, 100, 16384, self.below(5000)])
        return [self.handle(client, self.is_contended)[0], self.place(), count]

    def write(self, client):
        count = self.pick([0, 1, 1, 2, 5, 9]) if self.chance(.93) else self.pick([4095, 4096, 4097, 9000])
        place = "end" if self.chance(.25) else self.place()
        if self.is_theme("quotas") and self.chance(.5):
            place = self.pick([0, 4095, 4096, 8191, 8192, 12288, 20000])
        elif self.chance(.01):
            place = self.pick([67108863, 67108864, LAST_PLACE, LAST_PLACE - 1, LAST_PLACE + 1, LAST_NUMBER])
        return [self.handle(client, self.is_contended)[0], place, "x" + bytes([self.below(256)]).hex() * count]

    def setend(self, client):
        length = self.pick([0, 0, 1, 2, 5, 10, 20, 4096, 4097, 8192, 100])
        if self.chance(.03):
            length = self.pick([LAST_PLACE, LAST_PLACE + 1, LAST_NUMBER, 67108865])
        if self.has_large_streams and self.chance(.3):
            length = self.pick([67108864, 33554432, 40000000])
        return [self.handle(client, self.is_contended)[0], length]

    def range(self):
        length = self.pick([0, 0, 1, 1, 2, 5, 10, 10])
        if not self.has_small_ranges and self.chance(.3):
            length = self.pick([LAST_NUMBER, LAST_PLACE + 1, 1, 11, 12])
        return [self.place(), length]

    def lock(self, client):
        number, _ = self.handle(client, self.is_contended)
        return [number, *self.range(), self.pick(["sh", "ex"]), self.pick(["now", "wait", "wait"])]

    def unlock(self, client):
        number, handle = self.handle(client, lambda it: it.locks)
        if handle is not None and handle.locks and self.chance(.8):
            lock = self.pick(handle.locks)
            return [number, lock.start, lock.length]
        return [number, *self.range()]

    def querydir(self, client):
        number, handle = self.handle(client, self.is_directory)
        return [number, self.pick(["names", "names", "dir", "full", "idfull"]), "=" + shown(self.expression(handle)),
                "restart" if self.chance(.35) else "go", self.room()]

    def notify(self, client):
        bits = [1 << place for place in range(12)]
        mask = self.pick([0xfff, self.pick(bits), sum(bit for bit in bits if self.chance(.4))])
        if self.is_faulty() and self.chance(.3):
            mask = self.pick([0, 0x1000, 0x1fff, 0x80000000])
        room = self.room()
        if self.chance(.25):
            size = 12 + len(self.pick(self.names)) * 2
            room = size + self.pick([-1, 0, 0, 1]) + self.pick([0, 0, size, size + 4])
        return [self.handle(client, self.is_directory)[0], "0x%x" % mask, self.pick(["flat", "tree", "tree"]), room]

    def query(self, client):
        return [self.handle(client)[0],
                self.pick(["basic", "basic", "basic", "standard", "internal", "tag", "stream"]), self.room()]

    def setbasic(self, client):
        attributes = self.pick([0, self.pick([1, 2, 4, 0x20, 0x80, 0x100, 0x27]), self.below(0x40)])
        if self.is_faulty() and self.chance(.3):
            attributes |= self.pick([0x400, 0x10, 0x800, 8])
        elif self.chance(.85):
            attributes &= 0x31a7
        number, _ = self.handle(client, lambda it: it.access & WRITE_ATTRIBUTES)
        return [number, *(self.time() for _ in range(4)), "0x%x" % attributes]

    def setdelete(self, client):
        return [self.handle(client, lambda it: it.access & DELETE)[0], self.pick(["yes", "yes", "yes", "no"])]

    def rename(self, client):
        number, handle = self.handle(client, self.can_move)
        return [number, "=" + shown(self.new_name(handle)), self.pick(["keep", "replace", "replace"])]

    def link(self, client):
        number, handle = self.handle(client, lambda it: not it.file.is_directory and not it.of_named_stream())
        return [number, "=" + shown(self.new_name(handle, is_link=True)), self.pick(["keep", "replace", "replace"])]

    def new_name(self, handle, is_link=False):
        """Another file's name often, and the own one, or one below, now and then."""
        link = handle.link if handle is not None else None
        if link is not None and self.chance(.15):
            return self.path_of(link) if self.chance(.7) else "\\" + "\\".join(self.names_to(link.parent) + [link.name])
        if link is not None and handle.file.is_directory and self.chance(.07):
            return "\\" + "\\".join(self.names_to(handle.file) + [self.pick(self.names)])
        links = [it for it in self.all_links() if not it.file.is_directory]
        if links and self.chance(.6 if self.is_theme("links") or self.theme.startswith("many") else .3):
            if is_link and link is not None and self.chance(.8):
                links = preferring(links, lambda it: it.file is not handle.file)
            if self.chance(.75):
                links = preferring(links, self.is_replaceable)
            return self.path_of(self.pick(links))
        return self.path(with_stream=self.chance(.05))

    def is_replaceable(self, link):
        """No handle bars it, or oplocks have to be broken first."""
        handles = self.volume.on_link(link)
        return not handles or any(handle.oplock is not None for handle in handles)

    def setsecurity(self, client):
        owner = "keep" if self.chance(.55) else self.pick(self.clients[client][1]) if self.chance(.9) else self.sid()
        return [self.handle(client, lambda it: it.access & (WRITE_DAC | WRITE_OWNER))[0], owner, self.access_list()]

    def setreparse(self, client):
        count = self.pick([0, 1, 2, 2, 8])
        point = (self.pick(TAGS[:3] if self.chance(.85) else TAGS) + count.to_bytes(2, "little").hex()
                 + self.pick(["0000", "0000", "0102"]) + "41" * count)
        if self.is_faulty():
            point = self.pick(FAULTY_POINTS)
        return [self.handle(client, lambda it: it.access & (WRITE_DATA | WRITE_ATTRIBUTES))[0], "x" + point]

    def getreparse(self, client):
        number, _ = self.handle(client, lambda it: it.file.point is not None)
        return [number, self.pick([0, 7, 8, 9, 10, 16, 16384, 16384])]

    def deletereparse(self, client):
        number, handle = self.handle(
            client, lambda it: it.file.point is not None and it.access & (WRITE_DATA | WRITE_ATTRIBUTES))
        has_point = handle is not None and handle.file.point is not None and self.chance(.8)
        return [number, "0x%x" % (handle.file.point[0] if has_point else 0xa000000c)]

    def setquota(self, _client):
        return [self.sid(), self.pick([0, 1, 4096, 8191, 8192, 12288, 16384, 100000, LAST_NUMBER])]

    def queryquota(self, _client):
        return [self.sid()]

    def oplock(self, client):
        number, handle = self.handle(client, lambda it: not it.file.is_directory)
        levels = ["r", "rh", "rw", "rwh", "rh", "rwh"]
        if handle is not None and handle.stream is not None and self.chance(.7):
            others = self.volume.on_stream(handle.stream)
            is_alone = all(has_same_key(handle, handle.key, other) for other in others)
            levels = ["rw", "rwh", "rwh", "rh"] if is_alone else ["r", "rh", "rh"]
        return [number, self.pick(levels)]

    def ack(self, client):
        if not any(map(breaking, self.handles_of(client))) and self.chance(.7):
            raise NothingFits
        return [self.handle(client, breaking)[0], self.pick(["none", "r", "rh", "rw", "rwh"])]

    def cancel(self, client):
        mine = [call.number for call in self.volume.pending.values()
                if call.client == client and call.kind != "waiting"]
        if mine and self.chance(.93):
            return [self.pick(mine)]
        if self.chance(.8):
            raise NothingFits
        return [self.below(self.made[client] + 3)]

    wait = cancel

    def tick(self, _client):
        return [self.pick([0, 1, 1, 2, 5, 100]) if self.chance(.99) else (1 << 32) - 1]

    # ---- lines

    def give(self, client, verb, fields):
        self.made[client] += 1
        words = [str(field) for field in fields]
        self.lines.append(" ".join([self.clients[client][0], str(self.made[client]), verb] + words))
        self.calls.append((client, verb, words))
        self.text += go_on(self.volume, self.calls)

    def draw_first_lines(self):
        """A small tree, and opens by each client."""
        if self.chance(.8):
            for path in self.random.sample(self.names, min(len(self.names), self.pick([1, 2]))):
                for _ in range(self.below(min(1, self.depth), self.depth + 1)):
                    wanted = self.pick(["0x1", "0x10001", "0x1f01ff"])
                    self.give(0, "create", ["=\\" + shown(path), wanted, "0x7", "open_if", "0x1", "0x0", 0])
                    path += "\\" + self.pick(self.names)
        if self.dense or self.chance(.5):
            for client in range(len(self.clients)):
                for _ in range(4 if self.is_theme("many oplocks") else 2):
                    self.give(client, "create", ["=" + shown(self.path()), "0x1f01ff", "0x7", "open_if", "0x0", "0x0",
                                                 self.below(self.keys + 1)])

    def draw_line(self):
        client = self.below(len(self.clients))
        if not self.chance(self.behind_waits):
            client = self.pick([it for it in range(len(self.clients)) if not self.volume.waits(it)])
        mine = self.handles_of(client)
        verb = self.draw_verb()
        if len(mine) > self.most_handles and self.chance(.5):
            verb = "close"
        elif not mine and self.chance(.8):
            verb = "create"
        if any(map(breaking, mine)) and self.chance(self.answering):
            verb = "ack"
        for _ in range(12):
            try:
                self.give(client, verb, getattr(self, verb)(client))
                return
            except NothingFits:
                verb = self.draw_verb()
        self.give(client, "tick", [1])

    def draw_verb(self):
        return self.random.choices(list(self.weights), list(self.weights.values()))[0]

    def draw(self):
        """Draws the whole script; gives it and its text."""
        self.draw_first_lines()
        for _ in range(self.pick([120, 250, 400, 600])):
            self.draw_line()
        self.text += go_on(self.volume, self.calls + leavings(self.clients))
        return "\n".join(self.head + self.lines) + "\n", text_of(self.text, self.volume)


def chosen(count, seed, candidates=4):
    """Draws scripts from the seed on, and of so many each time takes the one whose states were the rarest so far, by
    its length. Gives `count` times a seed, its script, its text and how many requests it has."""
    met = collections.Counter()
    for first in range(seed, seed + count * candidates, candidates):
        best = None
        for here in range(first, first + candidates):
            script = Script(here)
            drawn = script.draw()
            worth = math.fsum(1 / (1 + met[it]) for it in script.volume.met) / (100 + len(script.lines))
            if best is None or worth > best[0]:
                best = worth, here, script, drawn
        _, here, script, drawn = best
        met.update(script.volume.met)
        yield here, *drawn, len(script.lines)
