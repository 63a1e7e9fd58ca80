#!/usr/bin/env python3
"""answers.py run < SCRIPT: a second implementation of `fsa run`, written from the rules in words. Sound scripts only.

It is meant to be read beside the rules, and to share nothing with the definitions or the code: plain lists and
dictionaries, no indexes, and each request tried in the order of its checks. README.md says how it came about.

Text of names and paths is a str of UTF-16 units, surrogates one by one. Each verb is a method `try_VERB` of Volume. It
returns its status with what stands behind it, raises Refused where a check inside a shared part gives the answer, or
raises Pends where the call can't end now.
"""
import dataclasses
import re
import struct
import sys

# Rights: [MS-DTYP] ACCESS_MASK
READ_DATA, WRITE_DATA, APPEND_DATA, EXECUTE = 0x1, 0x2, 0x4, 0x20
READ_ATTRIBUTES, WRITE_ATTRIBUTES = 0x80, 0x100
DELETE, READ_CONTROL, WRITE_DAC, WRITE_OWNER, SYNCHRONIZE = 0x10000, 0x20000, 0x40000, 0x80000, 0x100000
GENERIC = {0x10000000: 0x1F01FF, 0x20000000: 0x1200A0, 0x40000000: 0x120116, 0x80000000: 0x120089}
ANY_ACCESS = 0xF01F01FF

# Share access and options of an open
ANY_SHARE = 0x7
DIRECTORY_FILE, NON_DIRECTORY_FILE, COMPLETE_IF_OPLOCKED = 0x1, 0x40, 0x100
DELETE_ON_CLOSE, OPEN_REPARSE_POINT = 0x1000, 0x200000
ANY_OPTION = 0x60DB7F

# Attributes: [MS-FSCC] File Attributes
READONLY, HIDDEN, SYSTEM, DIRECTORY, ARCHIVE, NORMAL, REPARSE_POINT = 0x1, 0x2, 0x4, 0x10, 0x20, 0x80, 0x400
KEPT_ATTRIBUTES = READONLY | HIDDEN | SYSTEM | ARCHIVE
ANY_ATTRIBUTE = 0x31B7

# What a notify asks for, and actions: [MS-FSCC] FILE_NOTIFY_INFORMATION
FILE_NAME, DIR_NAME, ATTRIBUTES, SIZE, LAST_WRITE, LAST_ACCESS, CREATION = 0x1, 0x2, 0x4, 0x8, 0x10, 0x20, 0x40
SECURITY, STREAM_NAME, STREAM_SIZE, STREAM_WRITE = 0x100, 0x200, 0x400, 0x800
ANY_FILTER = 0xFFF
ACTIONS = [None, "ADDED", "REMOVED", "MODIFIED", "RENAMED_OLD_NAME", "RENAMED_NEW_NAME",
           "ADDED_STREAM", "REMOVED_STREAM", "MODIFIED_STREAM"]
(ADDED, REMOVED, MODIFIED, RENAMED_OLD_NAME, RENAMED_NEW_NAME,
 ADDED_STREAM, REMOVED_STREAM, MODIFIED_STREAM) = range(1, 9)

# Levels of an oplock: what its holder may cache
READ, WRITE, HANDLE = 1, 2, 4
LEVELS = {"none": 0, "r": READ, "rh": READ | HANDLE, "rw": READ | WRITE, "rwh": READ | WRITE | HANDLE}
LEVEL_NAMES = {level: name for name, level in LEVELS.items()}
# What each class of requests leaves of a level
KEPT_BY = {"Clash": READ | WRITE, "NameChange": READ | WRITE, "ReadOpen": READ | HANDLE, "Change": 0}

CREATED, ACCESSED, WRITTEN, CHANGED = range(4)
LEFT_TIMES = ((1 << 64) - 1, (1 << 64) - 2)
LAST_PLACE = (1 << 63) - 1
LAST_NUMBER = (1 << 64) - 1
CLUSTER, CLUSTERS_IN_ALL = 4096, 16384
LINKS_OF_A_FILE = 1024
UNITS_OF_A_NAME, UNITS_OF_A_PATH = 255, 32760
IO_REPARSE_TAG_SYMLINK = 0xA000000C
MICROSOFT_TAG = 0x80000000

# The fields of each verb, as they stand in a line
FIELDS = {
    "create": "path mask mask word mask mask number",
    "close": "handle",
    "read": "handle number number",
    "write": "handle word bytes",
    "flush": "handle",
    "setend": "handle number",
    "lock": "handle number number word word",
    "unlock": "handle number number",
    "rename": "handle path word",
    "link": "handle path word",
    "setdelete": "handle word",
    "querydir": "handle word path word number",
    "notify": "handle mask word number",
    "query": "handle word number",
    "setbasic": "handle number number number number mask",
    "setsecurity": "handle word word",
    "setreparse": "handle bytes",
    "getreparse": "handle number",
    "deletereparse": "handle mask",
    "setquota": "number number",
    "queryquota": "number",
    "oplock": "handle level",
    "ack": "handle level",
    "cancel": "number",
    "wait": "number",
    "tick": "number",
    "leave": "",
}
HANDLE_VERBS = {verb for verb, kinds in FIELDS.items() if kinds.startswith("handle")}


class Refused(Exception):
    """A check gives the answer."""

    def __init__(self, text):
        super().__init__(text)
        self.text = text


class Pends(Exception):
    """The call can't end now: what is printed behind PENDING, and what a held call waits for."""

    def __init__(self, interim, blockers=()):
        super().__init__(interim)
        self.interim, self.blockers = interim, blockers
        self.kind = "held" if blockers else interim.split(" ")[0]


# ---- what a volume consists of


@dataclasses.dataclass(eq=False)
class File:
    """A file or a directory; a directory has names, from upcased ones to links, and a file has streams."""
    number: int
    is_directory: bool
    attributes: int
    times: list
    owner: int
    access_list: list = None
    point: tuple = None
    streams: dict = dataclasses.field(default_factory=dict)
    names: dict = dataclasses.field(default_factory=dict)
    links: list = dataclasses.field(default_factory=list)


@dataclasses.dataclass(eq=False)
class Link:
    """A name of a file in a directory."""
    parent: File
    name: str
    file: File
    marked: bool = False


@dataclasses.dataclass(eq=False)
class Stream:
    """A stream of a file; the default one has the empty name."""
    file: File
    name: str
    content: "Content"
    marked: bool = False


@dataclasses.dataclass(eq=False)
class Handle:
    """What an open gave. The root has no link, and a directory no stream."""
    opened: int
    client: int
    number: int
    file: File
    link: Link
    stream: Stream
    access: int
    share: int
    key: int
    deletes_on_close: bool
    locks: list = dataclasses.field(default_factory=list)
    oplock: "Oplock" = None
    watch: "Watch" = None
    expression: str = None
    cursor: tuple = None

    def of_named_stream(self):
        return self.stream is not None and self.stream.name != ""


@dataclasses.dataclass
class Lock:
    """A locked range; others wait for its number."""
    number: int
    start: int
    length: int
    exclusive: bool


@dataclasses.dataclass
class Oplock:
    """An oplock, and the call that is pending as granted. While a break is in progress it has a target, no call, and a
    number for which others wait."""
    level: int
    call: "Call"
    target: int = None
    number: int = None


@dataclasses.dataclass
class Watch:
    """What a handle's notifies ask for, and how many changes were noted when it last reported."""
    filter: int
    tree: bool
    since: int


@dataclasses.dataclass(eq=False)
class Call:
    """A call of a client. Its kind and its blockers say how it is pending."""
    client: int
    number: int
    verb: str
    fields: list
    turn: int
    kind: str = None
    blockers: tuple = ()


@dataclasses.dataclass
class Asked:
    """What a create asks for."""
    call: Call
    wanted: int
    share: int
    disposition: str
    options: int
    attributes: int
    key: int

    def __post_init__(self):
        self.overwrites = self.disposition in ("supersede", "overwrite", "overwrite_if")
        self.makes_nothing = self.disposition in ("open", "overwrite")
        self.wants_directory = bool(self.options & DIRECTORY_FILE)
        self.deletes_on_close = bool(self.options & DELETE_ON_CLOSE)


class Content:
    """The bytes of a stream, by pages that are there once they were written."""
    PAGE = 4096

    def __init__(self):
        self.length = 0
        self.pages = {}

    def put(self, start, data):
        done = 0
        while done < len(data):
            page, at = divmod(start + done, self.PAGE)
            part = data[done:done + self.PAGE - at]
            self.pages.setdefault(page, bytearray(self.PAGE))[at:at + len(part)] = part
            done += len(part)
        self.length = max(self.length, start + len(data))

    def set_length(self, length):
        if length < self.length:
            last, at = divmod(length, self.PAGE)
            for page in [it for it in self.pages if it > last or (it == last and at == 0)]:
                del self.pages[page]
            if last in self.pages:
                self.pages[last][at:] = bytes(self.PAGE - at)
        self.length = length

    def part(self, start, count):
        out = bytearray()
        while len(out) < count:
            page, at = divmod(start + len(out), self.PAGE)
            size = min(self.PAGE - at, count - len(out))
            out += self.pages[page][at:at + size] if page in self.pages else bytes(size)
        return bytes(out)

    def clusters(self):
        return clusters_of(self.length)


def clusters_of(length):
    return (length + CLUSTER - 1) // CLUSTER


# ---- fields and texts


def units_of(field):
    """The units of a path or an expression, as a line has it."""
    return re.sub("%(....)", lambda it: chr(int(it[1], 16)), field[1:])


def shown(units):
    """Units as the text has them."""
    return "".join(it if 0x21 <= ord(it) <= 0x7E and it != "%" else "%%%04X" % ord(it) for it in units)


def shown_bytes(data):
    return "x" + bytes(data).hex()


def utf16(units):
    return units.encode("utf-16-le", "surrogatepass")


READERS = {"handle": int, "number": int, "word": str, "path": units_of, "level": LEVELS.get,
           "mask": lambda field: int(field, 16), "bytes": lambda field: bytes.fromhex(field[1:])}


def padded(size, align):
    return (size + align - 1) // align * align


def packed(entries, align):
    """Entries one behind the other, each but the last with the way to the next one in its first field."""
    out = b""
    for entry in entries[:-1]:
        size = padded(len(entry), align)
        out += struct.pack("<I", size) + entry[4:] + bytes(size - len(entry))
    return out + b"".join(entries[-1:])


def fitting(entries, align, room):
    """How many of the first entries fit, as they are packed."""
    start = 0
    for count, entry in enumerate(entries):
        if start + len(entry) > room:
            return count
        start += padded(len(entry), align)
    return len(entries)


# ---- rules that need no volume


def with_generic_mapped(mask):
    """[MS-DTYP] ACCESS_MASK: what generic rights stand for."""
    out = mask & 0x0FFFFFFF
    for generic, rights in GENERIC.items():
        if mask & generic:
            out |= rights
    return out


def sharing_bits(access):
    reads = access & (READ_DATA | EXECUTE)
    writes = access & (WRITE_DATA | APPEND_DATA)
    return (0x1 if reads else 0) | (0x2 if writes else 0) | (0x4 if access & DELETE else 0)


def clashes(access, share, handle):
    """[MS-FSA] Algorithm to Check Sharing Access to an Existing Stream or Directory."""
    mine, other = sharing_bits(access), sharing_bits(handle.access)
    return bool(mine and other and (mine & ~handle.share or other & ~share))


def has_same_key(acting, key, handle):
    return handle is acting or (key != 0 and key == handle.key)


def shown_attributes(file):
    """[MS-FSCC] File Attributes."""
    out = file.attributes | (DIRECTORY if file.is_directory else 0) | (REPARSE_POINT if file.point is not None else 0)
    return out or NORMAL


def listed_length(file):
    return 0 if file.is_directory else file.streams[""].content.length


def name_bit(file):
    return DIR_NAME if file.is_directory else FILE_NAME


def stopped(file, rest):
    """The answer where a path meets a reparse point."""
    tag, data = file.point
    status = "STOPPED_ON_SYMLINK" if tag == IO_REPARSE_TAG_SYMLINK else "REPARSE"
    return "%s 0x%x %s =%s" % (status, tag, shown_bytes(data), shown(rest))


@dataclasses.dataclass
class Path:
    """The units of a path, its names, its stream part or None, and where each name starts."""
    units: str
    components: list
    stream: str
    starts: list

    def rest(self, place):
        return self.units[self.starts[place]:]


def is_name(name):
    return (name not in ("", ".", "..") and len(name) <= UNITS_OF_A_NAME
            and not any(ord(unit) < 0x20 or unit in '"/:|<>*?' for unit in name))


def is_data_type(units):
    return (len(units) == 5 and units[0] == "$"
            and all(unit in (letter, letter.lower()) for unit, letter in zip(units[1:], "DATA")))


def split_path(path):
    """[MS-FSCC] Pathname, Filename, Streamname. None where it is no path."""
    if len(path) > UNITS_OF_A_PATH or path[:1] != "\\":
        return None
    if path == "\\":
        return Path(path, [], None, [])
    components = path[1:].split("\\")
    starts = [1]
    for component in components[:-1]:
        starts.append(starts[-1] + len(component) + 1)
    last, *stream = components[-1].split(":")
    components[-1] = last
    if not all(map(is_name, components)) or len(stream) > 2 or stream == [""]:
        return None
    if stream and (len(stream[0]) > UNITS_OF_A_NAME or "\0" in stream[0] or "/" in stream[0]):
        return None
    if len(stream) == 2 and not is_data_type(stream[1]):
        return None
    return Path(path, components, stream[0] if stream else None, starts)


class Volume:
    """The volume, what is pending, and the turns."""

    def __init__(self, upcased, clients):
        """`upcased` has units as numbers; each client is a name and its SIDs."""
        self.upcased = upcased
        self.names = [name for name, _ in clients]
        self.sids = [sids for _, sids in clients]
        self.clock = 0
        self.files = {}
        self.handles = {}  # by client and number, in the order of opening
        self.pending = {}  # by client and number, in the order of turns
        self.ended = set()
        self.blockers = set()  # the numbers of the locks and breaks that are there
        self.changes = []
        self.limits = {}
        self.left = set()
        self.turns = self.files_made = self.handles_made = self.blockers_made = 0
        self.made = [0] * len(clients)
        self.ends = []  # the lines of this turn's ends
        self.root = self.add_file(True, 0, 0)

    # ---- files, links and streams

    def up(self, units):
        return units.translate(self.upcased)

    def add_file(self, is_directory, attributes, owner):
        self.files_made += 1
        file = File(self.files_made, is_directory, attributes, [self.clock] * 4, owner)
        self.files[file.number] = file
        return file

    def add_stream(self, file, name):
        stream = file.streams[self.up(name)] = Stream(file, name, Content())
        return stream

    def add_link(self, parent, name, file):
        link = parent.names[self.up(name)] = Link(parent, name, file)
        file.links.append(link)
        return link

    def drop_link(self, link):
        """With its last link a file goes."""
        del link.parent.names[self.up(link.name)]
        link.file.links.remove(link)
        if not link.file.links:
            del self.files[link.file.number]

    def note(self, link, action, bits, stream=None):
        """Notes a change for each directory above.
        [MS-FSA] Algorithm for Reporting a Change Notification for a Directory."""
        if link is None or bits == 0:
            return
        name, seen = link.name + ("" if stream is None else ":" + stream.name), []
        while True:
            seen.append((link.parent, name))
            if link.parent is self.root:
                break
            link = link.parent.links[0]
            name = link.name + "\\" + name
        self.changes.append((action, bits, seen))

    def note_bytes(self, handle, changes_length):
        if handle.of_named_stream():
            bits = STREAM_WRITE | (STREAM_SIZE if changes_length else 0)
            self.note(handle.link, MODIFIED_STREAM, bits, handle.stream)
        else:
            self.note(handle.link, MODIFIED, LAST_WRITE | (SIZE if changes_length else 0))

    def denies(self, file, client, wanted):
        """[MS-DTYP] Access Check Algorithm Pseudocode."""
        sids = self.sids[client]
        if file.owner in sids:
            wanted &= ~(READ_CONTROL | WRITE_DAC)
        if file.access_list is None:
            return False
        for allows, sid, mask in file.access_list:
            if sid in sids:
                if allows:
                    wanted &= ~mask
                elif wanted & mask:
                    return True
        return wanted != 0

    def charge(self, owner):
        """The bytes of the clusters of all streams of an owner's files."""
        return sum(self.charge_of(file) for file in self.files.values() if file.owner == owner)

    @staticmethod
    def charge_of(file):
        return sum(stream.content.clusters() * CLUSTER for stream in file.streams.values())

    def limit(self, owner):
        return self.limits.get(owner, LAST_NUMBER)

    def check_growth(self, stream, length):
        """Where a stream takes more clusters, its owner's limit and then the volume's are asked."""
        more = clusters_of(length) - stream.content.clusters()
        if more <= 0:
            return
        owner = stream.file.owner
        if self.charge(owner) + more * CLUSTER > self.limit(owner):
            raise Refused("QUOTA_EXCEEDED")
        if sum(self.charge_of(file) for file in self.files.values()) // CLUSTER + more > CLUSTERS_IN_ALL:
            raise Refused("DISK_FULL")

    # ---- handles

    def on_stream(self, stream):
        return [handle for handle in self.handles.values() if handle.stream is stream]

    def on_link(self, link):
        return [handle for handle in self.handles.values() if handle.link is link]

    def on_directory(self, file):
        return [handle for handle in self.handles.values() if handle.file is file and handle.stream is None]

    def below(self, directory):
        """The handles of what is below a directory."""
        return [handle for handle in self.handles.values() if handle.link and self.is_below(handle.link, directory)]

    def is_below(self, link, directory):
        while link.parent is not directory:
            if link.parent is self.root:
                return False
            link = link.parent.links[0]
        return True

    # ---- blockers, breaks and ends

    def new_blocker(self):
        self.blockers_made += 1
        self.blockers.add(self.blockers_made)
        return self.blockers_made

    def order_of_breaks(self, handle):
        """Files by number, in each the default stream and then others by name, on each the handles as they opened."""
        if handle.stream is None:
            return handle.file.number, False, "", handle.opened
        return handle.file.number, handle.stream.name != "", self.up(handle.stream.name), handle.opened

    def begin_breaks(self, request_class, handles, acting, key):
        """Breaks the oplocks of handles with other keys; gives the numbers of those breaks for which the request waits.
        [MS-FSA] Algorithm to Check for an Oplock Break."""
        kept = KEPT_BY[request_class]
        waits = []
        for handle in sorted((it for it in handles if it.oplock is not None), key=self.order_of_breaks):
            if has_same_key(acting, key, handle):
                continue
            oplock = handle.oplock
            waits_for_level = oplock.level & WRITE and not kept & WRITE or (
                oplock.level & HANDLE and request_class in ("Clash", "NameChange"))
            if oplock.target is not None:
                if waits_for_level or oplock.target & ~kept:
                    waits.append(oplock.number)
                oplock.target &= kept
            elif oplock.level == READ and not kept & READ:
                handle.oplock = None
                self.end(oplock.call, "SUCCESS broken none")
            elif oplock.level & ~kept:
                oplock.target = oplock.level & kept
                oplock.number = self.new_blocker()
                call, oplock.call = oplock.call, None
                self.end(call, "SUCCESS broken " + LEVEL_NAMES[oplock.target] + " ack")
                if waits_for_level:
                    waits.append(oplock.number)
        return waits

    def break_oplocks(self, request_class, handles, acting, key):
        """The request is held where it waits for a break."""
        waits = self.begin_breaks(request_class, handles, acting, key)
        if waits:
            raise Pends("held", waits)

    def end(self, call, text):
        """A pending call ends."""
        del self.pending[(call.client, call.number)]
        self.ended.add((call.client, call.number))
        self.ends.append("%s %d %s" % (self.names[call.client], call.number, text))

    # ---- opens

    def walk(self, path):
        """Gives the directory of a path's last name. [MS-FSA] Server Requests an Open of a File."""
        directory = self.root
        for place, component in enumerate(path.components[:-1]):
            link = directory.names.get(self.up(component))
            if link is None:
                raise Refused("OBJECT_PATH_NOT_FOUND")
            if link.marked:
                raise Refused("DELETE_PENDING")
            if link.file.point is not None:
                raise Refused(stopped(link.file, path.rest(place + 1)))
            if not link.file.is_directory:
                raise Refused("OBJECT_PATH_NOT_FOUND")
            directory = link.file
        return directory

    def try_create(self, call, path, wanted, share, disposition, options, attributes, key):
        """Opens what is there, or makes it. [MS-FSA] Server Requests an Open of a File."""
        asked = Asked(call, with_generic_mapped(wanted), share, disposition, options, attributes, key)
        if share & ~ANY_SHARE or options & ~ANY_OPTION or attributes & ~ANY_ATTRIBUTE:
            return "INVALID_PARAMETER"
        if asked.wants_directory and (options & NON_DIRECTORY_FILE or asked.overwrites):
            return "INVALID_PARAMETER"
        if wanted == 0 or wanted & ~ANY_ACCESS:
            return "ACCESS_DENIED"
        if asked.deletes_on_close and not asked.wanted & DELETE:
            return "INVALID_PARAMETER"
        parts = split_path(path)
        if parts is None:
            return "OBJECT_NAME_INVALID"
        if parts.stream is not None and asked.wants_directory:
            return "NOT_A_DIRECTORY"
        if not parts.components:
            return self.open_found(asked, None, self.root, None)
        parent = self.walk(parts)
        link = parent.names.get(self.up(parts.components[-1]))
        if link is None:
            return self.create_file(asked, parent, parts.components[-1], parts.stream)
        return self.open_found(asked, link, link.file, parts.stream)

    def create_file(self, asked, parent, name, stream_part):
        """The open makes a file or a directory."""
        if asked.makes_nothing:
            return "OBJECT_NAME_NOT_FOUND"
        if asked.attributes & READONLY and asked.deletes_on_close:
            return "CANNOT_DELETE"
        client = asked.call.client
        if self.denies(parent, client, APPEND_DATA if asked.wants_directory else WRITE_DATA):
            return "ACCESS_DENIED"
        attributes = asked.attributes & KEPT_ATTRIBUTES | (0 if asked.wants_directory else ARCHIVE)
        file = self.add_file(asked.wants_directory, attributes, self.sids[client][0])
        link = self.add_link(parent, name, file)
        self.note(link, ADDED, name_bit(file))
        stream = None if asked.wants_directory else self.add_stream(file, "")
        if stream_part:
            stream = self.add_stream(file, stream_part)
            self.note(link, ADDED_STREAM, STREAM_NAME, stream)
        self.add_handle(asked, file, link, stream)
        return "SUCCESS created"

    def open_found(self, asked, link, file, stream_part):
        """What the name names is checked, then sharing and oplocks; then it, or its stream, is opened."""
        if link is not None and link.marked:
            return "DELETE_PENDING"
        if file.point is not None and not asked.options & OPEN_REPARSE_POINT:
            return stopped(file, "")
        if asked.disposition == "create" and not stream_part:
            return "OBJECT_NAME_COLLISION"
        if asked.wants_directory and not file.is_directory:
            return "NOT_A_DIRECTORY"
        if file.is_directory and (asked.options & NON_DIRECTORY_FILE or stream_part is not None or asked.overwrites):
            return "FILE_IS_A_DIRECTORY"
        stream = None if file.is_directory else file.streams.get(self.up(stream_part or ""))
        if stream_part:
            if stream is not None and stream.marked:
                return "DELETE_PENDING"
            if stream is not None and asked.disposition == "create":
                return "OBJECT_NAME_COLLISION"
            if stream is None and asked.makes_nothing:
                return "OBJECT_NAME_NOT_FOUND"
        makes = not file.is_directory and stream is None
        overwrites = asked.overwrites and not makes
        needed = asked.wanted | (WRITE_DATA if makes else 0)
        if overwrites:
            needed |= DELETE if asked.disposition == "supersede" else WRITE_DATA
        if self.denies(file, asked.call.client, needed):
            return "ACCESS_DENIED"
        writes = asked.wanted & (WRITE_DATA | APPEND_DATA) or overwrites or makes
        if not file.is_directory and file.attributes & READONLY and writes:
            return "ACCESS_DENIED"
        if asked.deletes_on_close and (file.attributes & READONLY or file is self.root):
            return "CANNOT_DELETE"
        if overwrites and file.attributes & (HIDDEN | SYSTEM) & ~asked.attributes:
            return "ACCESS_DENIED"
        handles = [] if makes else self.on_directory(file) if stream is None else self.on_stream(stream)
        if any(clashes(asked.wanted, asked.share, handle) for handle in handles):
            self.break_oplocks("Clash", handles, None, asked.key)
            return "SHARING_VIOLATION"
        status = "SUCCESS"
        if overwrites:
            self.break_oplocks("Change", handles, None, asked.key)
        elif asked.wanted & ~(READ_ATTRIBUTES | WRITE_ATTRIBUTES | SYNCHRONIZE):
            waits = self.begin_breaks("ReadOpen", handles, None, asked.key)
            if waits:
                if not asked.options & COMPLETE_IF_OPLOCKED:
                    raise Pends("held", waits)
                status = "OPLOCK_BREAK_IN_PROGRESS"
        done = "opened"
        if overwrites:
            self.overwrite(asked, file, link, stream)
            done = "superseded" if asked.disposition == "supersede" else "overwritten"
        elif makes:
            stream = self.add_stream(file, stream_part)
            self.note(link, ADDED_STREAM, STREAM_NAME, stream)
            done = "created"
        self.add_handle(asked, file, link, stream)
        return status + " " + done

    def overwrite(self, asked, file, link, stream):
        stream.content.set_length(0)
        file.attributes = asked.attributes & KEPT_ATTRIBUTES | ARCHIVE
        file.times[WRITTEN] = file.times[CHANGED] = self.clock
        if stream.name:
            self.note(link, MODIFIED_STREAM, STREAM_WRITE | STREAM_SIZE, stream)
        else:
            self.note(link, MODIFIED, ATTRIBUTES | SIZE | LAST_WRITE)

    def add_handle(self, asked, file, link, stream):
        self.handles_made += 1
        call = asked.call
        self.handles[(call.client, call.number)] = Handle(
            self.handles_made, call.client, call.number, file, link, stream,
            asked.wanted, asked.share, asked.key, asked.deletes_on_close)

    # ---- closing

    def try_close(self, call, handle):
        """The handle goes, and what is marked goes with its last handle. [MS-FSA] Server Requests Closing an Open."""
        self.close(handle)
        return "SUCCESS"

    def close(self, handle):
        """The calls that name a handle end, and then it goes, with what is marked and has no other handle."""
        for call in list(self.pending.values()):
            if call.client == handle.client and call.verb in HANDLE_VERBS and call.fields[0] == handle.number:
                statuses = {"watch": "NOTIFY_CLEANUP", "granted": "OPLOCK_HANDLE_CLOSED"}
                self.end(call, statuses.get(call.kind, "CANCELLED"))
        self.blockers -= {lock.number for lock in handle.locks}
        if handle.oplock is not None:
            self.blockers.discard(handle.oplock.number)
        del self.handles[(handle.client, handle.number)]
        file, link, stream = handle.file, handle.link, handle.stream
        if handle.deletes_on_close:
            if handle.of_named_stream():
                stream.marked = True
            elif not file.names:
                link.marked = True
        if handle.of_named_stream() and stream.marked and not self.on_stream(stream):
            self.note(link, REMOVED_STREAM, STREAM_NAME, stream)
            del file.streams[self.up(stream.name)]
        if link is not None and link.marked and not self.on_link(link):
            self.note(link, REMOVED, name_bit(file))
            self.drop_link(link)

    def try_leave(self, call):
        """A client's pending opens and waits end, its handles close, and it has left."""
        for other in list(self.pending.values()):
            if other.client == call.client and other.verb in ("create", "wait"):
                self.end(other, "CANCELLED")
        mine = [handle for handle in self.handles.values() if handle.client == call.client]
        for handle in sorted(mine, key=lambda it: it.number):
            self.close(handle)
        self.left.add(call.client)
        return "SUCCESS"

    # ---- bytes and locks

    def locks_in_the_way(self, use, handle, start, count):
        """The locks with which a use of a range conflicts: `read`, `write`, or a lock `ex` or `sh`.
        [MS-FSA] Algorithm for Determining if a Range Access Conflicts with Byte-Range Locks."""
        out = []
        for other in self.on_stream(handle.stream):
            for lock in other.locks:
                if not (start < lock.start + lock.length and lock.start < start + count):
                    continue
                bars_others = lock.exclusive and other is not handle
                if use == "ex" or bars_others or (use == "write" and not lock.exclusive):
                    out.append(lock.number)
        return out

    def try_read(self, call, handle, start, count):
        """Gives bytes, up to the end of the stream. [MS-FSA] Server Requests a Read."""
        if handle.stream is None:
            return "INVALID_DEVICE_REQUEST"
        if not handle.access & READ_DATA:
            return "ACCESS_DENIED"
        if start + count > LAST_PLACE:
            return "INVALID_PARAMETER"
        if count == 0:
            return "SUCCESS x"
        self.break_oplocks("ReadOpen", self.on_stream(handle.stream), handle, handle.key)
        if self.locks_in_the_way("read", handle, start, count):
            return "FILE_LOCK_CONFLICT"
        content = handle.stream.content
        if start >= content.length:
            return "END_OF_FILE"
        return "SUCCESS " + shown_bytes(content.part(start, min(count, content.length - start)))

    def try_write(self, call, handle, place, data):
        """Puts bytes at a place or at the end of the stream. [MS-FSA] Server Requests a Write."""
        if handle.stream is None:
            return "INVALID_DEVICE_REQUEST"
        if not (handle.access & WRITE_DATA or (handle.access & APPEND_DATA and place == "end")):
            return "ACCESS_DENIED"
        if not data:
            return "SUCCESS 0"
        content = handle.stream.content
        start = content.length if place == "end" else int(place)
        if start + len(data) > LAST_PLACE:
            return "INVALID_PARAMETER"
        self.break_oplocks("Change", self.on_stream(handle.stream), handle, handle.key)
        if self.locks_in_the_way("write", handle, start, len(data)):
            return "FILE_LOCK_CONFLICT"
        before = content.length
        self.check_growth(handle.stream, max(before, start + len(data)))
        content.put(start, data)
        handle.file.attributes |= ARCHIVE
        handle.file.times[WRITTEN] = handle.file.times[CHANGED] = self.clock
        self.note_bytes(handle, content.length != before)
        return "SUCCESS %d" % len(data)

    def try_flush(self, call, handle):
        """Nothing is kept back, so there is only the right to ask. [MS-FSA] Server Requests Flushing Cached Data."""
        return "SUCCESS" if handle.access & (WRITE_DATA | APPEND_DATA) else "ACCESS_DENIED"

    def try_setend(self, call, handle, length):
        """Gives the stream another length.
        [MS-FSA] Server Requests Setting of File Information, FileEndOfFileInformation."""
        if handle.stream is None:
            return "INVALID_PARAMETER"
        if not handle.access & WRITE_DATA:
            return "ACCESS_DENIED"
        if length > LAST_PLACE:
            return "INVALID_PARAMETER"
        self.break_oplocks("Change", self.on_stream(handle.stream), handle, handle.key)
        self.check_growth(handle.stream, length)
        if length != handle.stream.content.length:
            handle.stream.content.set_length(length)
            handle.file.times[WRITTEN] = handle.file.times[CHANGED] = self.clock
            self.note_bytes(handle, True)
        return "SUCCESS"

    def try_lock(self, call, handle, start, length, kind, patience):
        """Locks a range. Where other locks are in the way it waits or is refused.
        [MS-FSA] Server Requests a Byte-Range Lock."""
        if handle.stream is None:
            return "INVALID_PARAMETER"
        if not handle.access & (READ_DATA | WRITE_DATA):
            return "ACCESS_DENIED"
        if length > 0 and start + length - 1 > LAST_NUMBER:
            return "INVALID_LOCK_RANGE"
        self.break_oplocks("Change", self.on_stream(handle.stream), handle, handle.key)
        barring = self.locks_in_the_way(kind, handle, start, length)
        if barring:
            if patience == "wait":
                raise Pends("lock", barring)
            return "LOCK_NOT_GRANTED"
        handle.locks.append(Lock(self.new_blocker(), start, length, kind == "ex"))
        return "SUCCESS"

    def try_unlock(self, call, handle, start, length):
        """Takes away the handle's first lock on just this range. [MS-FSA] Server Requests an Unlock of a Byte-Range."""
        if handle.stream is None:
            return "INVALID_PARAMETER"
        for place, lock in enumerate(handle.locks):
            if (lock.start, lock.length) == (start, length):
                self.blockers.discard(lock.number)
                del handle.locks[place]
                return "SUCCESS"
        return "RANGE_NOT_LOCKED"

    # ---- names

    def new_place(self, path):
        """The directory and the name that a rename or a link asks for."""
        parts = split_path(path)
        if parts is None or not parts.components or parts.stream is not None:
            raise Refused("OBJECT_NAME_INVALID")
        return self.walk(parts), parts.components[-1]

    def check_replaced(self, handle, target, word):
        """What isn't replaced. [MS-FSA] Server Requests Setting of File Information, FileRenameInformation."""
        if target.marked:
            raise Refused("DELETE_PENDING")
        if word != "replace":
            raise Refused("OBJECT_NAME_COLLISION")
        if target.file.is_directory or handle.file.is_directory or target.file.attributes & READONLY:
            raise Refused("ACCESS_DENIED")
        if self.denies(target.file, handle.client, DELETE):
            raise Refused("ACCESS_DENIED")
        holding = self.on_link(target)
        self.break_oplocks("NameChange", holding, handle, handle.key)
        if holding:
            raise Refused("ACCESS_DENIED")

    def drop_replaced(self, target):
        self.note(target, REMOVED, FILE_NAME)
        self.drop_link(target)

    def try_rename(self, call, handle, path, word):
        """Gives the name of the handle another directory or other letters.
        [MS-FSA] Server Requests Setting of File Information, FileRenameInformation."""
        link, file = handle.link, handle.file
        if link is None or handle.of_named_stream():
            return "INVALID_PARAMETER"
        if not handle.access & DELETE or link.marked:
            return "ACCESS_DENIED"
        parent, name = self.new_place(path)
        if file.is_directory:
            if parent is file or (parent is not self.root and self.is_below(parent.links[0], file)):
                return "ACCESS_DENIED"
            below = self.below(file)
            self.break_oplocks("NameChange", below, handle, handle.key)
            if below:
                return "ACCESS_DENIED"
        stays = parent is link.parent
        if not stays and self.denies(parent, call.client, APPEND_DATA if file.is_directory else WRITE_DATA):
            return "ACCESS_DENIED"
        target = parent.names.get(self.up(name))
        if target is not None and target is not link:
            self.check_replaced(handle, target, word)
        self.break_oplocks("NameChange", self.on_link(link), handle, handle.key)
        if target is link and name == link.name:
            return "SUCCESS"
        if target is not None and target is not link:
            self.drop_replaced(target)
        self.note(link, RENAMED_OLD_NAME if stays else REMOVED, name_bit(file))
        del link.parent.names[self.up(link.name)]
        link.parent, link.name = parent, name
        parent.names[self.up(name)] = link
        self.note(link, RENAMED_NEW_NAME if stays else ADDED, name_bit(file))
        file.times[CHANGED] = self.clock
        return "SUCCESS"

    def try_link(self, call, handle, path, word):
        """Gives the file a further name. [MS-FSA] Server Requests Setting of File Information, FileLinkInformation."""
        file = handle.file
        if file.is_directory:
            return "FILE_IS_A_DIRECTORY"
        if handle.of_named_stream():
            return "INVALID_PARAMETER"
        if handle.link.marked:
            return "ACCESS_DENIED"
        if len(file.links) >= LINKS_OF_A_FILE:
            return "TOO_MANY_LINKS"
        parent, name = self.new_place(path)
        if self.denies(parent, call.client, WRITE_DATA):
            return "ACCESS_DENIED"
        target = parent.names.get(self.up(name))
        if target is not None:
            if target.file is file:
                return "SUCCESS" if word == "replace" else "OBJECT_NAME_COLLISION"
            self.check_replaced(handle, target, word)
            self.drop_replaced(target)
        self.note(self.add_link(parent, name, file), ADDED, FILE_NAME)
        file.times[CHANGED] = self.clock
        return "SUCCESS"

    def try_setdelete(self, call, handle, word):
        """Marks the name or the named stream, or clears its mark. What is marked goes with its last handle.
        [MS-FSA] Server Requests Setting of File Information, FileDispositionInformation."""
        if not handle.access & DELETE:
            return "ACCESS_DENIED"
        named = handle.of_named_stream()
        marked = handle.stream if named else handle.link
        if word == "no":
            if marked is not None:
                marked.marked = False
            return "SUCCESS"
        if handle.file.attributes & READONLY or marked is None:
            return "CANNOT_DELETE"
        if handle.file.names:
            return "DIRECTORY_NOT_EMPTY"
        handles = self.on_stream(marked) if named else self.on_link(marked)
        self.break_oplocks("NameChange", handles, handle, handle.key)
        marked.marked = True
        return "SUCCESS"

    # ---- directories

    def matches(self, expression, name):
        """[MS-FSA] Algorithm for Determining if a FileName Is in an Expression.
        From the expression's last unit to its first, `row` says for each place of the name whether the rest matches."""
        end = len(name)
        last_dot = name.rfind(".")
        row = [place == end for place in range(end + 1)]
        for unit in reversed(expression):
            behind, row = row, [False] * (end + 1)
            for place in range(end, -1, -1):
                at_end = place == end
                at_dot = not at_end and name[place] == "."
                if unit == "*":
                    row[place] = behind[place] or (not at_end and row[place + 1])
                elif unit == "<":
                    row[place] = behind[place] or (not at_end and place != last_dot and row[place + 1])
                elif unit == ">":
                    row[place] = behind[place] if at_end or at_dot else behind[place + 1]
                elif unit == '"':
                    row[place] = behind[place] if at_end else at_dot and behind[place + 1]
                elif not at_end:
                    row[place] = (unit == "?" or self.up(name[place]) == self.up(unit)) and behind[place + 1]
        return row[0]

    @staticmethod
    def listed(layout, name, file):
        """An entry of a listing. [MS-FSCC] File Information Classes."""
        units = utf16(name)
        if layout == "names":
            return struct.pack("<III", 0, 0, len(units)) + units
        length = listed_length(file)
        entry = struct.pack("<IIQQQQQQII", 0, 0, *file.times, length, clusters_of(length) * CLUSTER,
                            shown_attributes(file), len(units))
        if layout in ("full", "idfull"):
            entry += struct.pack("<I", 0)
        if layout == "idfull":
            entry += struct.pack("<IQ", 0, file.number)
        return entry + units

    def rows_behind(self, handle):
        """What is listed behind a handle's cursor: names, files, and the cursor behind each."""
        state, last = handle.cursor
        if handle.file is not self.root:
            if state == "start":
                yield ".", handle.file, ("dot", "")
            if state in ("start", "dot"):
                yield "..", handle.link.parent, ("dotdot", "")
        for upcased, link in sorted(handle.file.names.items()):
            if not link.marked and (state != "after" or upcased > last):
                yield link.name, link.file, ("after", upcased)

    def try_querydir(self, call, handle, layout, expression, word, room):
        """Lists what is behind the handle's cursor and matches its expression, as much as fits.
        [MS-FSA] Server Requests Querying a Directory."""
        if not handle.file.is_directory:
            return "INVALID_PARAMETER"
        if not handle.access & READ_DATA:
            return "ACCESS_DENIED"
        if len(expression) > UNITS_OF_A_NAME or any(ord(unit) < 0x20 or unit in "\\/:|" for unit in expression):
            return "OBJECT_NAME_INVALID"
        if room < {"names": 12, "dir": 64, "full": 68, "idfull": 80}[layout]:
            return "INFO_LENGTH_MISMATCH"
        if handle.expression is None or word == "restart":
            handle.expression = expression or handle.expression or "*"
            handle.cursor = ("start", "")
        rows = [row for row in self.rows_behind(handle) if self.matches(handle.expression, row[0])]
        if not rows:
            return "NO_SUCH_FILE" if handle.cursor[0] == "start" else "NO_MORE_FILES"
        entries = [self.listed(layout, name, file) for name, file, _ in rows]
        count = fitting(entries, 8, room)
        if count == 0:
            return "BUFFER_OVERFLOW"
        handle.cursor = rows[count - 1][2]
        text = "SUCCESS " + shown_bytes(packed(entries[:count], 8))
        for name, file, _ in rows[:count]:
            text += " =" + shown(name)
            if layout != "names":
                text += ",0x%x,%d" % (shown_attributes(file), listed_length(file))
        return text

    def due(self, handle):
        """The actions and names that are due to a handle's watch."""
        out = []
        for action, bits, seen in self.changes[handle.watch.since:]:
            if bits & handle.watch.filter:
                for directory, name in seen if handle.watch.tree else seen[:1]:
                    if directory is handle.file:
                        out.append((action, name))
        return out

    def report(self, handle, room):
        """All that is due, or that it exceeds the room; it is due no more."""
        due = self.due(handle)
        handle.watch.since = len(self.changes)
        entries = []
        for action, name in due:
            units = utf16(name)
            entries.append(struct.pack("<III", 0, action, len(units)) + units)
        out = packed(entries, 4)
        if len(out) > room:
            return "NOTIFY_ENUM_DIR"
        names = "".join(" %s=%s" % (ACTIONS[action], shown(name)) for action, name in due)
        return "SUCCESS " + shown_bytes(out) + names

    def try_notify(self, call, handle, mask, word, room):
        """The handle's first one makes its watch. What is due is told; where nothing is, the call waits.
        [MS-FSA] Server Requests Change Notifications for a Directory."""
        if not handle.file.is_directory:
            return "INVALID_PARAMETER"
        if not handle.access & READ_DATA:
            return "ACCESS_DENIED"
        if mask == 0 or mask & ~ANY_FILTER:
            return "INVALID_PARAMETER"
        if handle.link is not None and handle.link.marked:
            return "DELETE_PENDING"
        if handle.watch is None:
            handle.watch = Watch(mask, word == "tree", len(self.changes))
        if self.due(handle):
            return self.report(handle, room)
        raise Pends("watch")

    # ---- information

    def try_query(self, call, handle, kind, room):
        """Gives what is known of a file, in one of five layouts.
        [MS-FSA] Server Requests a Query of File Information."""
        file, link, stream = handle.file, handle.link, handle.stream
        if room < {"basic": 40, "standard": 24, "internal": 8, "tag": 8, "stream": 24}[kind]:
            return "INFO_LENGTH_MISMATCH"
        if kind in ("basic", "tag") and not handle.access & READ_ATTRIBUTES:
            return "ACCESS_DENIED"
        if kind == "stream":
            return self.listed_streams(file, room)
        if kind == "basic":
            out = struct.pack("<QQQQII", *file.times, shown_attributes(file), 0)
        elif kind == "standard":
            length = 0 if stream is None else stream.content.length
            marked = stream.marked if handle.of_named_stream() else link is not None and link.marked
            links = sum(not it.marked for it in file.links)
            out = struct.pack("<QQIBBH", clusters_of(length) * CLUSTER, length, links, marked, file.is_directory, 0)
        elif kind == "internal":
            out = struct.pack("<Q", file.number)
        else:
            out = struct.pack("<II", shown_attributes(file), 0 if file.point is None else file.point[0])
        return "SUCCESS " + shown_bytes(out)

    @staticmethod
    def listed_streams(file, room):
        if file.is_directory:
            return "SUCCESS"
        entries, names = [], []
        for _, stream in sorted(file.streams.items()):
            name = ":" + stream.name + ":$DATA"
            units, length = utf16(name), stream.content.length
            entries.append(struct.pack("<IIQQ", 0, len(units), length, clusters_of(length) * CLUSTER) + units)
            names.append(" =%s,%d" % (shown(name), length))
        count = fitting(entries, 8, room)
        status = "SUCCESS " if count == len(entries) else "BUFFER_OVERFLOW "
        return status + shown_bytes(packed(entries[:count], 8)) + "".join(names[:count])

    def try_setbasic(self, call, handle, created, accessed, written, changed, attributes):
        """Sets times and attributes; 0 leaves a field, but sets the change time to the clock.
        [MS-FSA] Server Requests Setting of File Information, FileBasicInformation."""
        file, times = handle.file, (created, accessed, written, changed)
        if not handle.access & WRITE_ATTRIBUTES:
            return "ACCESS_DENIED"
        if any(time > LAST_PLACE and time not in LEFT_TIMES for time in times):
            return "INVALID_PARAMETER"
        if attributes & ~ANY_ATTRIBUTE or (attributes & DIRECTORY and not file.is_directory):
            return "INVALID_PARAMETER"
        bits = 0
        for field, bit in (CREATED, CREATION), (ACCESSED, LAST_ACCESS), (WRITTEN, LAST_WRITE), (CHANGED, 0):
            if times[field] != 0 and times[field] not in LEFT_TIMES:
                file.times[field] = times[field]
                bits |= bit
        if changed == 0:
            file.times[CHANGED] = self.clock
        if attributes:
            file.attributes = attributes & KEPT_ATTRIBUTES
            bits |= ATTRIBUTES
        self.note(handle.link, MODIFIED, bits)
        return "SUCCESS"

    def try_setsecurity(self, call, handle, owner, entries):
        """Sets the owner and the access list, or one of them.
        [MS-FSA] Server Requests Setting of Security Information."""
        file = handle.file
        if owner != "keep" and not handle.access & WRITE_OWNER or entries != "keep" and not handle.access & WRITE_DAC:
            return "ACCESS_DENIED"
        if owner != "keep":
            if int(owner) not in self.sids[call.client]:
                return "ACCESS_DENIED"
            if int(owner) != file.owner:
                if self.charge(int(owner)) + self.charge_of(file) > self.limit(int(owner)):
                    return "QUOTA_EXCEEDED"
                file.owner = int(owner)
        if entries == "null":
            file.access_list = None
        elif entries != "keep":
            file.access_list = []
            for entry in entries.split(",")[1:]:
                sid, mask = entry[1:].split(":")
                file.access_list.append((entry[0] == "+", int(sid), with_generic_mapped(int(mask, 16))))
        file.times[CHANGED] = self.clock
        if (owner, entries) != ("keep", "keep"):
            self.note(handle.link, MODIFIED, SECURITY)
        return "SUCCESS"

    # ---- reparse points and quotas

    def try_setreparse(self, call, handle, data):
        """Puts a reparse point on the file or directory. [MS-FSA] FSCTL_SET_REPARSE_POINT."""
        file = handle.file
        if not handle.access & (WRITE_DATA | WRITE_ATTRIBUTES):
            return "ACCESS_DENIED"
        if file is self.root:
            return "INVALID_PARAMETER"
        if len(data) < 8 or struct.unpack("<H", data[4:6])[0] != len(data) - 8:
            return "IO_REPARSE_DATA_INVALID"
        tag = struct.unpack("<I", data[:4])[0]
        if tag in (0, 1) or not tag & MICROSOFT_TAG:
            return "IO_REPARSE_TAG_INVALID"
        if file.names:
            return "DIRECTORY_NOT_EMPTY"
        if file.point is not None and file.point[0] != tag:
            return "IO_REPARSE_TAG_MISMATCH"
        file.point = tag, data[8:]
        self.note(handle.link, MODIFIED, ATTRIBUTES)
        return "SUCCESS"

    def try_getreparse(self, call, handle, room):
        """Gives the reparse point, or as much of it as fits. [MS-FSA] FSCTL_GET_REPARSE_POINT."""
        if handle.file.point is None:
            return "NOT_A_REPARSE_POINT"
        if room < 8:
            return "BUFFER_TOO_SMALL"
        tag, data = handle.file.point
        out = struct.pack("<IHH", tag, len(data), 0) + data
        return ("BUFFER_OVERFLOW " if room < len(out) else "SUCCESS ") + shown_bytes(out[:room])

    def try_deletereparse(self, call, handle, tag):
        """Takes the reparse point away. [MS-FSA] FSCTL_DELETE_REPARSE_POINT."""
        if not handle.access & (WRITE_DATA | WRITE_ATTRIBUTES):
            return "ACCESS_DENIED"
        if handle.file.point is None:
            return "NOT_A_REPARSE_POINT"
        if handle.file.point[0] != tag:
            return "IO_REPARSE_TAG_MISMATCH"
        handle.file.point = None
        self.note(handle.link, MODIFIED, ATTRIBUTES)
        return "SUCCESS"

    def try_setquota(self, call, owner, limit):
        """Sets how many bytes an owner may be charged. [MS-FSA] Server Requests Setting Quota Information."""
        if 0 not in self.sids[call.client]:
            return "ACCESS_DENIED"
        self.limits[owner] = limit
        return "SUCCESS"

    def try_queryquota(self, call, owner):
        """Gives what an owner is charged, and his limit. [MS-FSA] Server Requests Querying Quota Information."""
        return "SUCCESS %d %d" % (self.charge(owner), self.limit(owner))

    # ---- oplocks

    def try_oplock(self, call, handle, level):
        """Grants a level where nothing stands against it. Other oplocks of the same key on the stream end.
        [MS-FSA] Server Requests an Oplock."""
        if handle.stream is None:
            return "INVALID_PARAMETER"
        handles = self.on_stream(handle.stream)
        others = [it for it in handles if not has_same_key(handle, handle.key, it)]
        own = [it for it in handles if it not in others and it.oplock is not None]
        if any(it.oplock is not None and it.oplock.target is not None for it in handles):
            return "OPLOCK_NOT_GRANTED"
        if level & WRITE and others or not level & WRITE and any(it.locks for it in handles):
            return "OPLOCK_NOT_GRANTED"
        if any(it.oplock is not None and it.oplock.level & WRITE for it in others):
            return "OPLOCK_NOT_GRANTED"
        if any(it.oplock.level & ~level for it in own):
            return "OPLOCK_NOT_GRANTED"
        for it in sorted(own, key=self.order_of_breaks):
            switched, it.oplock = it.oplock, None
            self.end(switched.call, "OPLOCK_SWITCHED_TO_NEW_HANDLE")
        handle.oplock = Oplock(level, call)
        raise Pends("granted " + LEVEL_NAMES[level])

    def try_ack(self, call, handle, level):
        """Answers a break. What stays is what the level that is named and the target have in common.
        [MS-FSA] Server Acknowledges an Oplock Break."""
        oplock = handle.oplock
        if oplock is None or oplock.target is None:
            return "INVALID_OPLOCK_PROTOCOL"
        self.blockers.discard(oplock.number)
        stays = level & oplock.target
        if not stays:
            handle.oplock = None
            return "SUCCESS none"
        handle.oplock = Oplock(stays, call)
        raise Pends("granted " + LEVEL_NAMES[stays])

    # ---- the clock and calls

    def try_tick(self, call, ticks):
        """The clock goes on."""
        self.clock += ticks
        return "SUCCESS"

    def try_wait(self, call, number):
        """The call ends once an earlier one of its client has ended."""
        if not 1 <= number < call.number:
            return "INVALID_PARAMETER"
        if (call.client, number) in self.ended:
            return "SUCCESS"
        raise Pends("waiting")

    def try_cancel(self, call, number):
        """Ends a pending call of the client, and with it the oplock that it was granted.
        [MS-FSA] Server Requests Canceling an Operation."""
        cancelled = self.pending.get((call.client, number))
        if cancelled is None:
            return "INVALID_PARAMETER"
        if cancelled.kind == "granted":
            self.handles[(call.client, cancelled.fields[0])].oplock = None
        self.end(cancelled, "CANCELLED")
        return "SUCCESS"

    # ---- turns

    def attempt(self, call):
        """One try of a call: its text where it ends, else a Pends."""
        if call.client in self.left:
            return "INVALID_HANDLE"
        fields = list(call.fields)
        if call.verb in HANDLE_VERBS:
            fields[0] = self.handles.get((call.client, fields[0]))
            if fields[0] is None:
                return "INVALID_HANDLE"
        try:
            return getattr(self, "try_" + call.verb)(call, *fields)
        except Refused as refused:
            return refused.text
        except Pends as pends:
            return pends

    def next_ready(self):
        """The ready pending call of the least turn."""
        watches = set()
        for call in self.pending.values():
            if call.kind == "held" and not any(it in self.blockers for it in call.blockers):
                return call
            if call.kind == "waiting" and (call.client, call.fields[0]) in self.ended:
                return call
            if call.kind == "watch":
                handle = (call.client, call.fields[0])
                if handle not in watches and self.due(self.handles[handle]):
                    return call
                watches.add(handle)
        return None

    def take_up(self, call):
        """A call that is ready ends, or is held anew."""
        if call.kind == "waiting":
            self.end(call, "SUCCESS")
        elif call.kind == "watch":
            self.end(call, self.report(self.handles[(call.client, call.fields[0])], call.fields[3]))
        else:
            outcome = self.attempt(call)
            if isinstance(outcome, Pends):
                assert outcome.kind == "held" and all(it in self.blockers for it in outcome.blockers)
                call.blockers = outcome.blockers
            else:
                self.end(call, outcome)

    def waits(self, client):
        return any(call.kind == "waiting" and call.client == client for call in self.pending.values())

    def end_stalled(self):
        """Where each client that hasn't left waits, all waits end."""
        here = set(range(len(self.names))) - self.left
        if here and all(map(self.waits, here)):
            waits = [call for call in self.pending.values() if call.kind == "waiting"]
            for call in sorted(waits, key=lambda it: (it.client, it.number)):
                self.end(call, "STALLED")

    def turn(self, client, verb, words):
        """One turn: its lines."""
        self.turns += 1
        self.made[client] += 1
        fields = [READERS[kind](word) for kind, word in zip(FIELDS[verb].split(), words)]
        call = Call(client, self.made[client], verb, fields, self.turns)
        self.ends = []
        outcome = self.attempt(call)
        if isinstance(outcome, Pends):
            call.kind, call.blockers = outcome.kind, outcome.blockers
            self.pending[(client, call.number)] = call
            outcome = "PENDING " + outcome.interim
        else:
            self.ended.add((client, call.number))
        while True:
            ready = self.next_ready()
            if ready is None:
                break
            self.take_up(ready)
        self.end_stalled()
        own = "%s %d" % (self.names[client], call.number)
        return ["> %s %s" % (own, verb), own + " " + outcome] + self.ends


# ---- scripts


def default_table():
    return {ord(lower): ord(lower.upper()) for lower in "abcdefghijklmnopqrstuvwxyz"}


def parts_of(script):
    """The case table of a script, its clients, and its calls."""
    lines = [line.split(" ") for line in script.split("\n")[1:-1]]
    upcased = default_table()
    if lines[0][0] == "table":
        if lines.pop(0)[1] == "pairs":
            upcased = {}
            while lines[0][0] == "up":
                _, source, target = lines.pop(0)
                upcased[int(source, 16)] = int(target, 16)
    clients = []
    while lines and lines[0][0] == "client":
        _, name, *sids = lines.pop(0)
        clients.append((name, [int(sid) for sid in sids]))
    places = {name: place for place, (name, _) in enumerate(clients)}
    calls = [(places[name], verb, words) for name, _, verb, *words in lines]
    return upcased, clients, calls


def go_on(volume, calls):
    """Makes calls, each time the first one whose client doesn't wait, and takes them from the list; gives the lines."""
    out = []
    while True:
        place = next((place for place, call in enumerate(calls) if not volume.waits(call[0])), None)
        if place is None:
            return out
        out += volume.turn(*calls.pop(place))


def leavings(clients):
    return [(client, "leave", []) for client in range(len(clients))]


def text_of(lines, volume):
    return "\n".join(lines + ["end %d" % volume.turns]) + "\n"


def run(script):
    """The text of a script."""
    upcased, clients, calls = parts_of(script)
    volume = Volume(upcased, clients)
    return text_of(go_on(volume, calls + leavings(clients)), volume)


if __name__ == "__main__":
    if sys.argv[1:] != ["run"]:
        print(__doc__, file=sys.stderr)
        sys.exit(1)
    sys.stdout.write(run(sys.stdin.buffer.read().decode("ascii")))
