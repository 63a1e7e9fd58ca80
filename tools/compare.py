#!/usr/bin/env python3
"""compare.py [--port N] [--program FILE] [--patience S] [--all] HOST SHARE USER%PASSWORD [NAME=USER%PASSWORD ..] < SCRIPT

Puts a script's requests to an SMB2 server, in the order of their turns, and shows where its answers differ from the
program's. The first user is that of every client but those that are named. Each client is a connection of its own, over
SMB 2.1. The script's volume is a new folder of the share, which is removed at the end: `\\` is that folder.

Where the two differ stands the program's line and under it, behind `server:`, what the server answered; with --all every
line stands there. A last line counts. What comes behind a difference may differ because of it. The status is 0 where nothing
differs, 1 where something does, 2 where nothing could be compared, and 3 where a request couldn't be put to the server: then
its line says why, and where the program went on from what it did, nothing behind it is compared.

Not compared are times, numbers of files, allocated bytes, the length of a directory, entries `.` and `..`, and what a create
prints that a reparse point stops. Waits, ticks and leavings are the program's own, and aren't put to the server; nor is it
compared that an oplock ends by a close, a switch or a cancellation, for which SMB2 has no message. Over SMB2 an open asks for
its level itself, so an `oplock` is put with its `create`, and only where nothing but waits and ticks stands between the end of
that and it. A key is another lease for each path, and FILE_CLOSED and UNSUCCESSFUL stand for INVALID_HANDLE and, of an `ack`,
INVALID_OPLOCK_PROTOCOL, as docs/SCRIPTS.md has it. OPLOCK_NOT_GRANTED stands for an open to which no lease was granted. A
client's first SID is that of its user, so users have to differ where a script sets owners or access lists; a SID that no
client has is one that no user has, and one that a client has besides its first can't be put, nor can quotas. A script with a
case table of its own isn't put at all.

It needs impacket, which speaks SMB2 and NTLM (in Debian the package python3-impacket). FILE is the program, build/fsa where it
isn't given. A request without an answer after S seconds, 0.3 where it isn't given, counts as pending; where the program has it
pending, a third of that is enough.
"""
import argparse
import os
import re
import struct
import subprocess
import sys
import time
import traceback

try:
    from impacket.nt_errors import ERROR_MESSAGES
    from impacket.smb3 import SessionError

    import smb2
except ImportError:
    print("compare: the Python library impacket is not found (in Debian it is the package python3-impacket)", file=sys.stderr)
    sys.exit(2)

TOP = os.path.dirname(os.path.dirname(os.path.realpath(__file__)))

DISPOSITIONS = "supersede open create open_if overwrite overwrite_if".split()
DID = "superseded opened created overwritten".split()
CACHING = {"r": smb2.READ_CACHING, "w": smb2.WRITE_CACHING, "h": smb2.HANDLE_CACHING}
# of each layout of a listing: its class, where an entry has the length of its name, and where the name
LAYOUTS = {"names": (smb2.NAMES, 8, 12), "dir": (smb2.DIRECTORY, 60, 64), "full": (smb2.FULL_DIRECTORY, 60, 68), "idfull": (smb2.ID_FULL_DIRECTORY, 60, 80)}
KINDS = {"basic": smb2.BASIC, "standard": smb2.STANDARD, "internal": smb2.INTERNAL, "tag": smb2.TAG, "stream": smb2.STREAM}
ACTIONS = [None, "ADDED", "REMOVED", "MODIFIED", "RENAMED_OLD_NAME", "RENAMED_NEW_NAME", "ADDED_STREAM", "REMOVED_STREAM", "MODIFIED_STREAM"]
# statuses of SMB2 that stand for others: docs/SCRIPTS.md, 'From the words of SMB2 to the words here'
OF_SMB2 = {"FILE_CLOSED": "INVALID_HANDLE"}
OF_AN_ACK = {"UNSUCCESSFUL": "INVALID_OPLOCK_PROTOCOL"}
# calls that are the program's own, and statuses behind which an answer has bytes
OWN = ("wait", "tick", "leave")
WITH_BYTES = ("SUCCESS", "BUFFER_OVERFLOW")
SEPARATOR = "\\".encode("utf-16-le")
# ends of an oplock for which SMB2 has no message
UNTOLD = ("OPLOCK_HANDLE_CLOSED", "OPLOCK_SWITCHED_TO_NEW_HANDLE", "CANCELLED")
# a handle that no server gives
NO_HANDLE = struct.pack("<QQ", 2**64 - 3, 2**64 - 3)


class CantPut(Exception):
    """A call can't be put to the server as it stands."""


def give_up(why):
    print(f"compare: {why}", file=sys.stderr)
    sys.exit(2)


def status_name(code):
    """The name of an NTSTATUS ([MS-ERREF], 'NTSTATUS Values') without STATUS_, as the program prints it."""
    name = ERROR_MESSAGES[code][0].removeprefix("STATUS_") if code in ERROR_MESSAGES else f"0x{code:08x}"
    return OF_SMB2.get(name, name)


def units(word):
    """The UTF-16 bytes of a path or an expression of a script."""
    found = re.sub(r"%([0-9A-F]{4})", lambda it: chr(int(it[1], 16)), word[1:])
    return found.encode("utf-16-le", "surrogatepass")


def shown(name):
    """A name as scripts write it, from its UTF-16 bytes."""
    values = struct.unpack(f"<{len(name) // 2}H", name)
    return "".join(chr(it) if 0x21 <= it <= 0x7E and it != 0x25 else f"%{it:04X}" for it in values)


def caching_of(level):
    return 0 if level == "none" else sum(CACHING[it] for it in level)


def level_of(caching):
    return "".join(it for it in "rwh" if caching & CACHING[it]) or "none"


class Call:
    """A request that was sent and hasn't ended."""

    def __init__(self, client, number, verb, fields):
        self.client, self.number, self.verb, self.fields = client, number, verb, fields
        # the number of its message
        self.sent = None
        # its asynchronous number; the handle that it names; the lease that it asks for, and the caching that was granted
        self.async_id, self.handle, self.lease, self.caching = None, None, None, 0


class Server:
    """The server's side of a script: its clients' handles, what is pending, and the leases."""

    def __init__(self, clients, folder):
        # the connection of each client, and the folder that is the script's volume
        self.clients, self.folder = clients, folder
        # by client and number of the create: the handle, and the key of its lease where it has one; and by handle the expression
        # that its listing goes by
        self.handles, self.keys, self.patterns = {}, {}, {}
        # by client and key: the call whose end tells that the lease is broken
        self.granted = {}
        self.pending, self.calls, self.paths = [], {}, []
        # the user's SID of the number that is a client's first, and the numbers that clients have besides
        self.sids, self.others = {}, set()

    def learn(self, sids):
        """Learns the SID of each client's user, who owns a file that he makes."""
        for client, (first, *others) in sids.items():
            it = self.clients[client]
            name = f"{self.folder}\\owner".encode("utf-16-le")
            status, message = it.ask(smb2.create(name, 0x30000, 0x7, DISPOSITIONS.index("open_if"), 0x1000, 0))
            if status != smb2.SUCCESS:
                raise smb2.Silent(f"the user of {client} can't make a file: {status_name(status)}")
            _, handle = smb2.created(message)
            status, message = it.ask(smb2.query_owner(handle))
            if status != smb2.SUCCESS:
                raise smb2.Silent(f"the owner of a file of {client} isn't told: {status_name(status)}")
            self.sids.setdefault(first, smb2.owner_of(message))
            self.others.update(others)
            it.ask(smb2.close(handle))

    # ---- what is sent

    def put(self, client, number, verb, fields, level):
        """Puts a call to the server, a create with the level that is asked for; returns it where it has an answer of its own."""
        call = Call(client, number, verb, fields)
        self.calls[client, number] = call
        if verb == "cancel":
            self.cancel(client, int(fields[0]))
            return None
        if verb == "create":
            path, wanted, share, disposition, options, attributes, key = fields
            if level or int(key):
                call.lease = self.key(number, int(key), path), caching_of(level or "none")
            masks = int(wanted, 16), int(share, 16), DISPOSITIONS.index(disposition), int(options, 16), int(attributes, 16)
            request = smb2.create(self.path(path), *masks, call.lease)
        elif hasattr(self, f"put_{verb}"):
            handle, *rest = fields
            call.handle = client, int(handle)
            request = getattr(self, f"put_{verb}")(self.handles.get(call.handle, NO_HANDLE), *rest)
        elif verb == "ack":
            call.handle = client, int(fields[0])
            if call.handle not in self.keys:
                raise CantPut("the handle has no lease")
            request = smb2.acknowledge(self.keys[call.handle], caching_of(fields[1]))
        elif verb == "oplock":
            raise CantPut("over SMB2 an open asks for its level; put the `oplock` behind its `create`, with only `wait` and `tick` between")
        else:
            raise CantPut("what it asks for isn't put to a server")
        call.sent = self.clients[client].send(request)
        self.pending.append(call)
        return call

    def cancel(self, client, number):
        call = self.calls.get((client, number))
        if call in self.pending:
            self.clients[client].cancel(call.sent, call.async_id)
        elif any(it[0] == client and of == number for it, of in self.granted.items()):
            raise CantPut("over SMB2 no lease is given up by a cancellation")

    def path(self, word):
        """The path in the share, where a path begins without a separator."""
        found = units(word)
        if not found.startswith(SEPARATOR):
            raise CantPut("a path that doesn't begin with `\\` can't be written")
        return self.folder.encode("utf-16-le") + (found if found != SEPARATOR else b"")

    def key(self, number, word, path):
        """The key of a lease: of the one given and the path, since a lease is of one file; or one of this handle alone."""
        if not word:
            return struct.pack("<QQ", number, 0)
        path = path.upper()
        if path not in self.paths:
            self.paths.append(path)
        return struct.pack("<QQ", word, 1 + self.paths.index(path))

    def sid(self, number):
        if number in self.others:
            raise CantPut("a user has one SID, and groups aren't put to a server")
        return self.sids.get(number) or smb2.sid(5, 21, 1, 2, 3, number)

    def put_close(self, handle):
        return smb2.close(handle)

    def put_flush(self, handle):
        return smb2.flush(handle)

    def put_read(self, handle, place, count):
        return smb2.read(handle, int(place), int(count))

    def put_write(self, handle, place, data):
        return smb2.write(handle, 2**64 - 1 if place == "end" else int(place), bytes.fromhex(data[1:]))

    def put_lock(self, handle, place, length, kind, how):
        flags = (smb2.EXCLUSIVE if kind == "ex" else smb2.SHARED) | (smb2.FAIL_IMMEDIATELY if how == "now" else 0)
        return smb2.lock(handle, int(place), int(length), flags)

    def put_unlock(self, handle, place, length):
        return smb2.lock(handle, int(place), int(length), smb2.UNLOCK)

    def put_setend(self, handle, length):
        return smb2.set_information(handle, smb2.END_OF_FILE, struct.pack("<Q", int(length)))

    def put_setdelete(self, handle, is_marked):
        return smb2.set_information(handle, smb2.DISPOSITION, struct.pack("<B", is_marked == "yes"))

    def put_rename(self, handle, path, how):
        return smb2.set_information(handle, smb2.RENAME, smb2.new_name(self.path(path), how == "replace"))

    def put_link(self, handle, path, how):
        return smb2.set_information(handle, smb2.LINK, smb2.new_name(self.path(path), how == "replace"))

    def put_setbasic(self, handle, *times_and_attributes):
        *times, attributes = times_and_attributes
        return smb2.set_information(handle, smb2.BASIC, struct.pack("<QQQQII", *map(int, times), int(attributes, 16), 0))

    def put_setsecurity(self, handle, owner, acl):
        entries = None if acl == "keep" else False
        if acl.startswith("acl"):
            entries = []
            for it in acl.split(",")[1:]:
                of, mask = it[1:].split(":")
                entries.append(smb2.entry(it[0] == "-", self.sid(int(of)), int(mask, 16)))
        return smb2.set_security(handle, None if owner == "keep" else self.sid(int(owner)), entries)

    def put_query(self, handle, kind, room):
        return smb2.query(handle, KINDS[kind], int(room))

    def put_querydir(self, handle, layout, expression, how, room):
        pattern = units(expression)
        flags = 0 if how == "go" else smb2.REOPEN if pattern else smb2.RESTART_SCANS
        kept = self.patterns.get(handle, "*".encode("utf-16-le"))
        if pattern and (how == "restart" or handle not in self.patterns):
            self.patterns[handle] = pattern
        return smb2.query_directory(handle, LAYOUTS[layout][0], flags, pattern or kept, int(room))

    def put_notify(self, handle, mask, scope, room):
        return smb2.change_notify(handle, scope == "tree", int(mask, 16), int(room))

    def put_setreparse(self, handle, point):
        return smb2.control(handle, smb2.SET_POINT, bytes.fromhex(point[1:]), 0)

    def put_getreparse(self, handle, room):
        return smb2.control(handle, smb2.GET_POINT, b"", int(room))

    def put_deletereparse(self, handle, tag):
        return smb2.control(handle, smb2.DELETE_POINT, struct.pack("<II", int(tag, 16), 0), 0)

    # ---- what comes back

    def collect(self):
        """The answers that have come since: client, number and text of each, in the order in which they came."""
        for client, connection in self.clients.items():
            for number, async_id, command, status, message in connection.receive():
                if command == smb2.OPLOCK_BREAK and number == smb2.UNASKED:
                    yield from self.told(client, message)
                    continue
                call = next((it for it in self.pending if it.client == client and it.sent == number), None)
                if call and status == smb2.PENDING:
                    call.async_id = async_id
                elif call:
                    self.pending.remove(call)
                    yield client, call.number, self.text(call, status_name(status), message)

    def told(self, client, message):
        """The end of the call whose lease is broken."""
        found = smb2.broken(message)
        if found and (client, found[1]) in self.granted:
            is_awaited, key, caching = found
            yield client, self.granted.pop((client, key)), f"SUCCESS broken {level_of(caching)}" + (" ack" if is_awaited else "")

    def text(self, call, status, message):
        """What the program would print of this answer, as far as the two can be compared."""
        if call.verb == "ack" and status == "SUCCESS":
            caching = smb2.acknowledged(message)
            if not caching:
                return "SUCCESS none"
            self.granted[call.client, self.keys[call.handle]] = call.number
            return f"PENDING granted {level_of(caching)}"
        if call.verb == "ack":
            return OF_AN_ACK.get(status, status)
        if call.verb == "create" and status == "SUCCESS":
            did, handle = smb2.created(message)
            self.handles[call.client, call.number] = handle
            if call.lease:
                self.keys[call.client, call.number], call.caching = call.lease[0], smb2.caching_of(message)
            return f"SUCCESS {DID[did]}"
        if call.verb == "write" and status == "SUCCESS":
            return f"SUCCESS {smb2.count_of(message)}"
        if call.verb == "read" and status == "SUCCESS":
            return f"SUCCESS x{smb2.bytes_of(message).hex()}"
        if call.verb == "getreparse" and status in WITH_BYTES:
            return f"{status} x{smb2.output(message).hex()}"
        if call.verb in ("query", "querydir", "notify") and status in WITH_BYTES:
            data = smb2.information(message)
            return comparable(call.verb, call.fields, " ".join([status, f"x{data.hex()}", *entries(call, data)]))
        return status

    def level(self, client, number, call):
        """What the server says to the `oplock` of this number, of a handle whose open, this call, asked for the level."""
        if (client, call.number) not in self.handles:
            return "INVALID_HANDLE"
        if not call.caching:
            return "OPLOCK_NOT_GRANTED"
        self.granted[client, call.lease[0]] = number
        return f"PENDING granted {level_of(call.caching)}"


def entries(call, data):
    """The entries of a packed answer, as the program prints them."""
    if call.verb == "notify":
        return [f"{ACTIONS[struct.unpack_from('<I', it, 4)[0]]}={shown(name)}" for it, name in smb2.entries(data, 8, 12)]
    if call.verb == "query":
        found = smb2.entries(data, 4, 24) if call.fields[1] == "stream" else ()
        return [f"={shown(name)},{struct.unpack_from('<Q', it, 8)[0]}" for it, name in found]
    found = smb2.entries(data, *LAYOUTS[call.fields[1]][1:])
    if call.fields[1] == "names":
        return [f"={shown(name)}" for _, name in found]
    return ["={},0x{:x},{}".format(shown(name), *struct.unpack_from("<Q8xI", it, 40)[::-1]) for it, name in found]


def is_held(answer):
    """Whether a call is pending whose end is its own answer, and not the notice of a break."""
    return answer.startswith("PENDING") and "granted" not in answer


def comparable(verb, fields, answer):
    """The part of an answer that can be compared."""
    words = answer.split(" ")
    if verb == "create" and words[0] not in ("SUCCESS", "PENDING"):
        return words[0]
    if verb in ("querydir", "notify") or verb == "query" and fields[1] == "stream":
        found = [it for it in words[2:] if not re.match(r"=\.\.?(,|$)", it)]
        # the length of a directory is the server's own
        return " ".join([words[0], *(re.sub(r"(,0x[0-9a-f]*[13579bdf][0-9a-f]),\d+$", r"\1,..", it) for it in found)])
    if verb == "query" and len(words) > 1:
        data = bytes.fromhex(words[1][1:])
        if fields[1] == "basic" and len(data) >= 36:
            return "{} attributes 0x{:x}".format(words[0], *struct.unpack_from("<I", data, 32))
        if fields[1] == "standard" and len(data) >= 22:
            return "{} length {}, links {}, marked {}, directory {}".format(words[0], *struct.unpack_from("<QIBB", data, 8))
        if fields[1] == "internal":
            return words[0]
        return f"{words[0]} {words[1]}"
    return answer


class Script:
    """A script's clients and calls, and the turns of its text."""

    def __init__(self, program, data):
        if not os.path.isfile(program) or not os.access(program, os.X_OK):
            give_up(f"{program} is not there; ./fsa run < examples/first.fsa builds it, or name another one by --program")
        ran = subprocess.run([program, "run"], input=data, stdout=subprocess.PIPE)
        text = ran.stdout.decode("ascii", "replace").splitlines()
        if ran.returncode != 0:
            give_up(f"the program ended with status {ran.returncode}: {' '.join(text[:1])}")
        self.clients, self.calls, self.turns, self.sids = [], {}, [], {}
        for line in data.decode("ascii").splitlines()[1:]:
            words = line.split(" ")
            if words[0] == "client":
                self.clients.append(words[1])
                self.sids[words[1]] = list(map(int, words[2:]))
            elif self.clients:
                self.calls[words[0], int(words[1])] = words[2], words[3:]
            elif words != ["table", "default"]:
                give_up("a case table of one's own can't be put to a server")
        for line in text[:-1]:
            words = line.split(" ", 2)
            if words[0] == ">":
                client, number = words[1], int(words[2].split(" ")[0])
                self.turns.append((client, number, []))
            else:
                self.turns[-1][2].append((words[0], int(words[1]), words[2]))

    def call(self, client, number):
        return self.calls.get((client, number), ("leave", []))

    def level_behind(self, place):
        """The level that is asked for behind the create of this turn, before any other call but waits and ticks once it has ended."""
        client, number, lines = self.turns[place]
        has_ended = not any(it[2].startswith("PENDING") for it in lines)
        for other, at, lines in self.turns[place + 1 :]:
            verb, fields = self.call(other, at)
            if verb == "oplock" and other == client and int(fields[0]) == number:
                return fields[1]
            if has_ended and verb not in ("wait", "tick"):
                return None
            has_ended = has_ended or any(it[:2] == (client, number) for it in lines)
        return None


class Comparison:
    """Goes through a script's turns, and counts what agrees."""

    def __init__(self, arguments, script, server):
        self.arguments, self.script, self.server = arguments, script, server
        self.same, self.differ, self.left = 0, 0, 0
        # the creates that asked for a level, until their `oplock`
        self.levels = set()

    def say(self, client, number, verb, here, there):
        line = f"{client} {number} {verb}: {here or 'nothing'}"
        if here == there:
            self.same += 1
            if self.arguments.all:
                print(line)
        else:
            self.differ += 1
            print(f"{line}\n  server: {there or 'nothing'}")

    def expected(self, client, number, lines):
        """What the program answered in this turn, as far as it can be compared, by the client and the number of each call."""
        found = {}
        for who, at, answer in lines:
            verb, fields = self.script.call(who, at)
            # a CANCEL has no answer of its own, and of a lease SMB2 tells breaks alone
            is_untold = (verb, who, at) == ("cancel", client, number) or verb in ("oplock", "ack") and answer in UNTOLD
            if verb not in OWN and not is_untold:
                found.setdefault((who, at), []).append(comparable(verb, fields, answer))
        return found

    def put(self, place, client, number, verb, fields):
        """Puts a turn's call to the server: what is answered at once, by client and number, and the request that is awaited."""
        if verb in OWN:
            return {}, None
        if verb == "oplock" and (client, int(fields[0])) in self.levels:
            self.levels.remove((client, int(fields[0])))
            return {(client, number): [self.server.level(client, number, self.server.calls[client, int(fields[0])])]}, None
        level = self.script.level_behind(place) if verb == "create" else None
        if level:
            self.levels.add((client, number))
        return {}, self.server.put(client, number, verb, fields, level)

    def listen(self, wanted, found, awaited):
        """Adds to what is found what the server answers until all that is wanted has come, or for as long as it has patience."""
        patience = self.arguments.patience
        until = time.monotonic() + patience
        ends = {it: len([answer for answer in answers if not is_held(answer)]) for it, answers in wanted.items()}
        may_pend = awaited is not None and any(map(is_held, wanted.get((awaited.client, awaited.number), [])))
        has_all = False
        while True:
            for who, at, answer in self.server.collect():
                found.setdefault((who, at), []).append(answer)
            now = time.monotonic()
            if now >= until:
                return
            is_answered = awaited is None or awaited not in self.server.pending
            if not has_all and (is_answered or may_pend) and all(len(found.get(it, [])) >= ends[it] for it in ends):
                # what the server does besides comes soon, if anything can
                has_all, until = True, min(until, now + (patience / 3 if self.server.pending or self.server.granted else 0))
            else:
                time.sleep(0.001)

    def turn(self, place):
        """One turn. A call that can't be put is an error."""
        client, number, lines = self.script.turns[place]
        verb, fields = self.script.call(client, number)
        wanted = self.expected(client, number, lines)
        found, awaited = self.put(place, client, number, verb, fields)
        self.listen(wanted, found, awaited)
        if awaited is not None and awaited in self.server.pending:
            found.setdefault((client, number), []).append("PENDING")
        for it in dict.fromkeys([*wanted, *found]):
            here, there = " and ".join(wanted.get(it, [])), " and ".join(found.get(it, []))
            # how a call waits the server doesn't say
            self.say(*it, self.script.call(*it)[0], here, here if there == "PENDING" and is_held(here) else there)

    def run(self):
        """All turns, as far as they can be put; returns the status."""
        status = 0
        for place, (client, number, lines) in enumerate(self.script.turns):
            verb, _ = self.script.call(client, number)
            if verb == "leave":
                break
            try:
                self.turn(place)
            except CantPut as why:
                answer = lines[0][2] if lines else ""
                print(f"{client} {number} {verb}: {answer}\n  not put to the server: {why}")
                self.left += 1
                status = 3
                if answer.startswith(("SUCCESS", "PENDING")):
                    print("  nothing behind it can be compared")
                    break
            except (OSError, smb2.Silent) as why:
                print(f"{client} {number} {verb}: {lines[0][2] if lines else ''}\n  {why}, and nothing behind it can be compared")
                self.differ += 1
                break
        print(f"{self.same} answers are the same, {self.differ} differ, {self.left} requests were not put to the server")
        return status or (1 if self.differ else 0)


def free(owners, path):
    """Takes the access list of what is there away, by whichever user may."""
    for it in owners:
        status, message = it.ask(smb2.create(path.encode("utf-16-le"), 0x40000, 0x7, DISPOSITIONS.index("open"), 0, 0))
        if status == smb2.SUCCESS:
            _, handle = smb2.created(message)
            it.ask(smb2.set_security(handle, None, False))
            it.ask(smb2.close(handle))
            return


def remove(own, folder, owners):
    """Removes a folder of the share with all that is in it, by the help of those that may own something in it."""
    for it in own.smb.listPath(own.share, f"{folder}\\*"):
        name = f"{folder}\\{it.get_longname()}"
        if it.get_longname() in (".", ".."):
            continue
        free(owners, name)
        if it.is_readonly():
            handle = own.smb.create(own.tree, name, 0x100, 0x7, 0, DISPOSITIONS.index("open"), 0)
            own.smb.setInfo(own.tree, handle, struct.pack("<QQQQII", 0, 0, 0, 0, 0x80, 0), fileInfoClass=smb2.BASIC)
            own.smb.close(own.tree, handle)
        # what has a reparse point may lead elsewhere
        if it.is_directory() and it.get_attributes() & 0x400:
            own.smb.rmdir(own.share, name)
        elif it.is_directory():
            remove(own, name, owners)
        else:
            own.smb.remove(own.share, name)
    own.smb.rmdir(own.share, folder)


def clear(own, folder, owners):
    """Removes the folder as soon as the server has closed what its connections had open, and says so where it can't be."""
    for tried in range(20):
        time.sleep(0.1)
        try:
            remove(own, folder, owners())
            return
        except (OSError, SessionError, smb2.Silent) as why:
            if tried == 19:
                print(f"compare: the folder {folder} couldn't be removed: {why}", file=sys.stderr)


def arguments():
    """The words of the command, with the user of each client that one names in `of`."""
    usage = __doc__.partition("\n")[0].replace("%", "%%")
    it = argparse.ArgumentParser(usage=usage, add_help=False)
    it.add_argument("--help", action="store_true")
    it.add_argument("--port", type=int, default=445)
    it.add_argument("--program", default=os.environ.get("FSA", f"{TOP}/build/fsa"))
    it.add_argument("--patience", type=float, default=0.3)
    it.add_argument("--all", action="store_true")
    it.add_argument("words", nargs="*")
    given = it.parse_args()
    if given.help:
        print(__doc__, end="")
        sys.exit(0)
    if len(given.words) < 3:
        it.error("a host, a share and a user have to be named; --help tells more")
    given.host, given.share, given.user, *named = given.words
    if any("=" not in word for word in named):
        it.error("behind the first user each word is NAME=USER%PASSWORD")
    given.of = dict(word.split("=", 1) for word in named)
    if given.patience <= 0:
        it.error("the patience is above 0")
    return given


def connections(given, script):
    """The comparison's own connection, and that of each client."""
    users = [given.user, *(given.of.get(it, given.user) for it in script.clients)]
    found = []
    for user in users:
        try:
            found.append(smb2.Connection(given.host, given.port, given.share, user))
        except (OSError, SessionError, smb2.Silent) as why:
            give_up(f"the user {user.partition('%')[0]}: {why}")
    return found[0], dict(zip(script.clients, found[1:]))


def main():
    given = arguments()
    script = Script(given.program, sys.stdin.buffer.read())
    if not set(given.of) <= set(script.clients):
        give_up(f"the script has no client {', '.join(sorted(set(given.of) - set(script.clients)))}")
    users = {given.of.get(it, given.user) for it in script.clients}
    sets_security = any(verb == "setsecurity" for verb, _ in script.calls.values())
    if sets_security and len(users) < len({sids[0] for sids in script.sids.values()}):
        give_up("the script sets owners or access lists, so name a user for each client, NAME=USER%PASSWORD")
    own, clients = connections(given, script)
    folder = f"fsa-{os.getpid()}-{time.time_ns()}"
    try:
        own.smb.mkdir(given.share, folder)
    except SessionError as why:
        give_up(f"the folder {folder} can't be made: {why}")
    try:
        server = Server(clients, folder)
        if sets_security:
            server.learn(script.sids)
        status = Comparison(given, script, server).run()
    except (OSError, smb2.Silent) as why:
        print(f"compare: {why}", file=sys.stderr)
        status = 2
    finally:
        for it in clients.values():
            it.socket.close()
        clear(own, folder, lambda: [smb2.Connection(given.host, given.port, given.share, it) for it in users] if sets_security else ())
    sys.exit(status)


if __name__ == "__main__":
    try:
        main()
    except Exception:  # its own fault, which is no difference
        traceback.print_exc()
        sys.exit(2)
