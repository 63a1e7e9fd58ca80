"""smb2.py: requests to an SMB2 server, their answers, and a connection that doesn't wait for them (tools/compare.py uses it).

A request is a command and the body behind its header; an answer is the whole message, its header too. The layouts are those of
[MS-SMB2], 'Message Syntax', of [MS-FSCC] and of [MS-DTYP]. Numbers of requests, signing and waiting are here; negotiation
and authentication are impacket's.
"""
import hmac
import select
import struct
import time

from impacket.smb3 import SMB3

# commands, flags of a header, and statuses that this module looks at
CREATE, CLOSE, FLUSH, READ, WRITE, LOCK, IOCTL, CANCEL = 5, 6, 7, 8, 9, 10, 11, 12
QUERY_DIRECTORY, CHANGE_NOTIFY, QUERY_INFO, SET_INFO, OPLOCK_BREAK = 14, 15, 16, 17, 18
ASYNC, SIGNED = 0x2, 0x8
SUCCESS, PENDING = 0, 0x103
HEADER = 64
# SMB 2.1: the first with leases, and signed as here
DIALECT = 0x210
# the number of a message that answers nothing
UNASKED = 2**64 - 1

# 'SMB2 LOCK_ELEMENT Structure'
SHARED, EXCLUSIVE, UNLOCK, FAIL_IMMEDIATELY = 0x1, 0x2, 0x4, 0x10
# 'SMB2 QUERY_DIRECTORY Request'
RESTART_SCANS, REOPEN = 0x1, 0x10
# 'SMB2_CREATE_REQUEST_LEASE'
LEASE, LEASE_CONTEXT = 0xFF, b"RqLs"
READ_CACHING, HANDLE_CACHING, WRITE_CACHING = 0x1, 0x2, 0x4
ACK_REQUIRED = 0x1
# kinds of information, and which of them this module asks for
OF_FILE, OF_SECURITY = 1, 3
OWNER, LIST = 0x1, 0x4
# [MS-FSCC], 'File Information Classes'
BASIC, STANDARD, INTERNAL, RENAME, LINK, DISPOSITION, END_OF_FILE, STREAM, TAG = 4, 5, 6, 10, 11, 13, 20, 22, 35
DIRECTORY, FULL_DIRECTORY, NAMES, ID_FULL_DIRECTORY = 1, 2, 12, 38
# 'File System Control Codes': of reparse points
SET_POINT, GET_POINT, DELETE_POINT = 0x900A4, 0x900A8, 0x900AC


class Silent(Exception):
    """The server has closed a connection, or gives no answer."""


class Connection:
    """A user's connection to a share, by SMB 2.1."""

    def __init__(self, host, port, share, user):
        name, _, password = user.partition("%")
        self.smb = SMB3(host, host, sess_port=port, timeout=10, preferredDialect=DIALECT)
        self.smb.login(name, password)
        self.share, self.tree = share, self.smb.connectTree(share)
        self.socket = self.smb.get_socket()
        # impacket has no calls for these; once this class has sent a request, impacket sends none on the same connection
        self.key = self.smb.getSessionKey() if self.smb._Session["SigningActivated"] else None
        self.session, self.next = self.smb._Session["SessionID"], self.smb._Connection["SequenceWindow"]
        self.bytes = b""

    def send(self, request):
        """Sends a request, and returns its number."""
        number, self.next = self.next, self.next + 1
        self.put(*request, number, 0, struct.pack("<II", 0, self.tree))
        return number

    def cancel(self, number, async_id):
        """Asks that the request of this number ends; `async_id` is that of its interim answer, or None where it had none."""
        place = struct.pack("<II", 0, self.tree) if async_id is None else struct.pack("<Q", async_id)
        self.put(CANCEL, struct.pack("<HH", 4, 0), number, 0 if async_id is None else ASYNC, place)

    def put(self, command, body, number, flags, place):
        flags |= SIGNED if self.key else 0
        head = struct.pack("<4sHHIHHIIQ8sQ", b"\xfeSMB", HEADER, 1, 0, command, 64, flags, 0, number, place, self.session)
        signature = hmac.new(self.key, head + bytes(16) + body, "sha256").digest()[:16] if self.key else bytes(16)
        message = head + signature + body
        self.socket.sendall(struct.pack(">I", len(message)) + message)

    def receive(self):
        """What has come so far: of each message number, asynchronous number or None, command, status, and the message itself."""
        while select.select([self.socket], [], [], 0)[0]:
            got = self.socket.recv(1 << 20)
            if not got:
                raise Silent("the server has closed the connection")
            self.bytes += got
        while len(self.bytes) >= 4:
            (length,) = struct.unpack(">I", self.bytes[:4])
            if len(self.bytes) < 4 + length:
                return
            message, self.bytes = self.bytes[4 : 4 + length], self.bytes[4 + length :]
            following = 1
            while following:
                status, command, _, flags, following, number, async_id = struct.unpack_from("<IHHIIQQ", message, 8)
                yield number, async_id if flags & ASYNC else None, command, status, message[: following or len(message)]
                message = message[following:]

    def ask(self, request):
        """Sends a request, waits for its end, and returns status and message."""
        number = self.send(request)
        until = time.monotonic() + 10
        while time.monotonic() < until:
            for found, _, _, status, message in self.receive():
                if found == number and status != PENDING:
                    return status, message
            time.sleep(0.001)
        raise Silent("the server doesn't answer")


# ---- requests


def create(path, wanted, share, disposition, options, attributes, lease=None):
    """A lease is its key, 16 bytes, and the caching that is asked for."""
    context, at = b"", HEADER + 56 + len(path) + -len(path) % 8
    if lease:
        context = struct.pack("<IHHHHI4s4x16sIIQ", 0, 16, 4, 0, 24, 32, LEASE_CONTEXT, *lease, 0, 0)
    kinds = LEASE if lease else 0, 2, 0, 0
    name_and_contexts = HEADER + 56, len(path), at if lease else 0, len(context)
    body = struct.pack("<HBBIQQIIIIIHHII", 57, 0, *kinds, wanted, attributes, share, disposition, options, *name_and_contexts)
    return CREATE, body + path + bytes(-len(path) % 8) + (context or bytes(8))


def close(handle):
    return CLOSE, struct.pack("<HHI16s", 24, 0, 0, handle)


def flush(handle):
    return FLUSH, struct.pack("<HHI16s", 24, 0, 0, handle)


def read(handle, place, count):
    return READ, struct.pack("<HBBIQ16sIIIHHB", 49, HEADER + 16, 0, count, place, handle, 0, 0, 0, 0, 0, 0)


def write(handle, place, data):
    return WRITE, struct.pack("<HHIQ16sIIHHI", 49, HEADER + 48, len(data), place, handle, 0, 0, 0, 0, 0) + (data or bytes(1))


def lock(handle, place, length, flags):
    return LOCK, struct.pack("<HHI16sQQII", 48, 1, 0, handle, place, length, flags, 0)


def set_information(handle, kind, data):
    return SET_INFO, struct.pack("<HBBIHHI16s", 33, OF_FILE, kind, len(data), HEADER + 32, 0, 0, handle) + data


def new_name(path, replaces):
    """The bytes of a FileRenameInformation or a FileLinkInformation for SMB2."""
    return struct.pack("<B7xQI", replaces, 0, len(path)) + path


def set_security(handle, owner, acl):
    """Sets an owner, where it isn't None, and a list of entries, where it isn't None; False takes the list away."""
    said = (0 if owner is None else OWNER) | (0 if acl is None else LIST)
    data = descriptor(owner, acl)
    return SET_INFO, struct.pack("<HBBIHHI16s", 33, OF_SECURITY, 0, len(data), HEADER + 32, 0, said, handle) + data


def query(handle, kind, room):
    return QUERY_INFO, struct.pack("<HBBIHHIII16s", 41, OF_FILE, kind, room, HEADER + 40, 0, 0, 0, 0, handle)


def query_owner(handle):
    return QUERY_INFO, struct.pack("<HBBIHHIII16s", 41, OF_SECURITY, 0, 1024, HEADER + 40, 0, 0, OWNER, 0, handle)


def query_directory(handle, kind, flags, pattern, room):
    return QUERY_DIRECTORY, struct.pack("<HBBI16sHHI", 33, kind, flags, 0, handle, HEADER + 32, len(pattern), room) + pattern


def change_notify(handle, is_tree, mask, room):
    return CHANGE_NOTIFY, struct.pack("<HHI16sII", 32, is_tree, room, handle, mask, 0)


def control(handle, code, data, room):
    return IOCTL, struct.pack("<HHI16sIIIIIIII", 57, 0, code, handle, HEADER + 56, len(data), 0, 0, 0, room, 1, 0) + (data or bytes(1))


def acknowledge(key, caching):
    return OPLOCK_BREAK, struct.pack("<HHI16sIQ", 36, 0, 0, key, caching, 0)


def sid(authority, *values):
    """[MS-DTYP], 'SID--Packet Representation'."""
    return struct.pack(">BBHI", 1, len(values), 0, authority) + struct.pack(f"<{len(values)}I", *values)


def entry(denies, of, mask):
    """[MS-DTYP], 'ACCESS_ALLOWED_ACE' and 'ACCESS_DENIED_ACE'."""
    return struct.pack("<BBHI", denies, 0, 8 + len(of), mask) + of


def descriptor(owner, acl):
    """[MS-DTYP], 'SECURITY_DESCRIPTOR', with no entry that is inherited."""
    control_bits, owner_at, acl_at, rest = 0x8000, 0, 0, b""
    if owner is not None:
        owner_at, rest = 20, owner
    if acl is not None:
        control_bits |= 0x1004
    if acl is not None and acl is not False:
        acl_at = 20 + len(rest)
        rest += struct.pack("<BBHHH", 2, 0, 8 + sum(map(len, acl)), len(acl), 0) + b"".join(acl)
    return struct.pack("<BBHIIII", 1, 0, control_bits, owner_at, 0, 0, acl_at) + rest


# ---- answers


def created(message):
    """Of a CREATE: the action, and the handle."""
    return struct.unpack_from("<I", message, HEADER + 4)[0], message[HEADER + 64 : HEADER + 80]


def caching_of(message):
    """Of a CREATE: the caching of its lease, 0 where it has none."""
    at, length = struct.unpack_from("<II", message, HEADER + 80)
    while length:
        following, name_at, name_length, _, data_at, _ = struct.unpack_from("<IHHHHI", message, at)
        if message[at + name_at : at + name_at + name_length] == LEASE_CONTEXT:
            return struct.unpack_from("<I", message, at + data_at + 16)[0]
        if not following:
            break
        at += following
    return 0


def bytes_of(message):
    """Of a READ."""
    length = struct.unpack_from("<I", message, HEADER + 4)[0]
    return message[message[HEADER + 2] :][:length]


def count_of(message):
    """Of a WRITE."""
    return struct.unpack_from("<I", message, HEADER + 4)[0]


def information(message):
    """Of a QUERY_INFO, a QUERY_DIRECTORY or a CHANGE_NOTIFY."""
    at, length = struct.unpack_from("<HI", message, HEADER + 2)
    return message[at:][:length] if length else b""


def output(message):
    """Of an IOCTL."""
    at, length = struct.unpack_from("<II", message, HEADER + 32)
    return message[at:][:length]


def owner_of(message):
    """Of a QUERY_INFO of an owner: his SID."""
    data = information(message)
    at = struct.unpack_from("<I", data, 4)[0]
    return data[at:][: 8 + 4 * data[at + 1]]


def broken(message):
    """Of the notification that a lease is broken: whether an acknowledgement is awaited, the key, and the caching that is left."""
    if len(message) < HEADER + 44:
        return None
    _, _, flags, key, _, caching = struct.unpack_from("<HHI16sII", message, HEADER)
    return bool(flags & ACK_REQUIRED), key, caching


def acknowledged(message):
    """Of an acknowledgement: the caching that is left."""
    return struct.unpack_from("<I", message, HEADER + 24)[0]


def entries(data, length_at, head):
    """The entries of packed information, from each on, and their names: the name's length stands there, and the name behind the head."""
    at = 0
    while at + head <= len(data):
        following, length = struct.unpack_from("<I", data, at)[0], struct.unpack_from("<I", data, at + length_at)[0]
        yield data[at:], data[at + head :][:length]
        if not following:
            return
        at += following
