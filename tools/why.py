#!/usr/bin/env python3
"""why.py SCRIPT LINE: shows the faulty line of a script that the program has refused, and its likely cause.

The program says which line is the first faulty one, by proof; the cause is this script's guess.
"""
import re
import sys

MOST_PLACE, MOST_COUNT, MOST_ID, MOST_KEY, MOST_TIME, MOST_LIMIT = 2**64 - 1, 16384, 2**32 - 1, 2**64 - 1, 2**64 - 1, 2**64 - 1
DISPOSITIONS = "supersede open create open_if overwrite overwrite_if".split()
# the fields of each verb, by their names and forms
VERBS = {
    "create": [("path", "text"), ("wanted access", "mask"), ("share access", "mask"), ("disposition", "disposition"), ("options", "mask"), ("attributes", "mask"), ("key", MOST_KEY)],
    "close": [("handle", MOST_ID)],
    "read": [("handle", MOST_ID), ("place", MOST_PLACE), ("count", MOST_COUNT)],
    "write": [("handle", MOST_ID), ("place", "start"), ("bytes", "bytes")],
    "flush": [("handle", MOST_ID)],
    "setend": [("handle", MOST_ID), ("length", MOST_PLACE)],
    "lock": [("handle", MOST_ID), ("place", MOST_PLACE), ("length", MOST_PLACE), ("kind of lock (`ex` or `sh`)", ("ex", "sh")), ("`wait` or `now`", ("wait", "now"))],
    "unlock": [("handle", MOST_ID), ("place", MOST_PLACE), ("length", MOST_PLACE)],
    "oplock": [("handle", MOST_ID), ("level", ("r", "rh", "rw", "rwh"))],
    "ack": [("handle", MOST_ID), ("level", ("none", "r", "rh", "rw", "rwh"))],
    "rename": [("handle", MOST_ID), ("path", "text"), ("`replace` or `keep`", ("replace", "keep"))],
    "link": [("handle", MOST_ID), ("path", "text"), ("`replace` or `keep`", ("replace", "keep"))],
    "setdelete": [("handle", MOST_ID), ("`yes` or `no`", ("yes", "no"))],
    "setsecurity": [("handle", MOST_ID), ("owner", "owner"), ("access list", "dacl")],
    "query": [("handle", MOST_ID), ("kind", ("basic", "standard", "internal", "tag", "stream")), ("room", MOST_COUNT)],
    "setbasic": [("handle", MOST_ID), ("time of creation", MOST_TIME), ("time of access", MOST_TIME), ("time of write", MOST_TIME), ("time of change", MOST_TIME), ("attributes", "mask")],
    "querydir": [("handle", MOST_ID), ("layout", ("names", "dir", "full", "idfull")), ("expression", "text"), ("`restart` or `go`", ("restart", "go")), ("room", MOST_COUNT)],
    "notify": [("handle", MOST_ID), ("filter", "mask"), ("`flat` or `tree`", ("flat", "tree")), ("room", MOST_COUNT)],
    "setreparse": [("handle", MOST_ID), ("bytes", "bytes")],
    "getreparse": [("handle", MOST_ID), ("room", MOST_COUNT)],
    "deletereparse": [("handle", MOST_ID), ("tag", "mask")],
    "setquota": [("SID", MOST_ID), ("limit", MOST_LIMIT)],
    "queryquota": [("SID", MOST_ID)],
    "cancel": [("number of a call", MOST_ID)],
    "tick": [("number of ticks", MOST_ID)],
    "wait": [("number of a call", MOST_ID)],
}


def number(word, most, what):
    if re.fullmatch(r"0|[1-9][0-9]*", word):
        return f"the {what} is at most {most:,} (without the commas)" if len(word) > 20 or int(word) > most else None
    if re.fullmatch(r"0[0-9]+", word):
        return f"the {what}, {word}, has a leading zero"
    if word.lower().startswith("0x"):
        return f"the {what}, {word}, is to be decimal"
    return f"the {what}, {word!r}, is no decimal number"


def mask(word, what):
    if re.fullmatch(r"0x(0|[1-9a-f][0-9a-f]{0,7})", word):
        return None
    if re.fullmatch(r"0[xX][0-9a-fA-F]+", word):
        good = f"0x{int(word, 16):x}"
        if len(good) > 10:
            return f"the {what}, {word}, has more than 32 bits"
        return f"a mask is written in lower case and without leading zeros: {good}, not {word}"
    if re.fullmatch(r"[0-9]{1,10}", word):
        return f"the {what}, {word}, is a mask and begins with 0x: 0x{int(word):x}"
    return f"the {what}, {word!r}, is no mask, as 0x{0x12019f:x} is"


def text(word, what):
    if not word.startswith("="):
        return f"the {what} begins with `=`, as =\\A.txt"
    for at in re.finditer("%", word):
        digits = word[at.end() : at.end() + 4]
        if not re.fullmatch(r"[0-9A-F]{4}", digits):
            return f"in a {what} `%` stands before four upper-case hexadecimal digits, as %0020 for a space"
    if re.search(r"[^\x21-\x7e]", word):
        return f"in a {what} a unit outside 0x21 to 0x7E is written %XXXX, as %0020 for a space and %00E4 for ä"
    return None


def data(word, what):
    if not word.startswith("x"):
        return f"{what} begin with `x`, as x6869"
    digits = word[1:]
    if re.search(r"[A-F]", digits) and re.fullmatch(r"[0-9a-fA-F]*", digits):
        return f"{what} are written in lower-case hexadecimal"
    if re.search(r"[^0-9a-f]", digits):
        return f"{what} are `x` and two hexadecimal digits each"
    if len(digits) % 2:
        return f"{what} have two hexadecimal digits each, and here one is over"
    return f"there are more than {MOST_COUNT:,} bytes" if len(digits) > 2 * MOST_COUNT else None


def dacl(word, what):
    if word in ("keep", "null"):
        return None
    if not word.startswith("acl"):
        return f"the {what} is `keep`, `null`, or `acl` and entries, as acl,-9:0x2,+9:0x1f01ff"
    entries = word[3:].split(",")
    if entries[0]:
        return f"each entry of the {what} stands behind a comma"
    if len(entries) > 33:
        return f"the {what} has more than 32 entries"
    for it in entries[1:]:
        found = re.fullmatch(r"[+-]([^:]*):(.*)", it)
        if not found:
            return f"an entry is `+` or `-`, a SID, `:` and a mask, as +9:0x1f01ff, not {it!r}"
        fault = number(found[1], MOST_ID, "SID") or mask(found[2], "mask")
        if fault:
            return fault
    return None


def field(word, what, form):
    if isinstance(form, int):
        return number(word, form, what)
    if isinstance(form, tuple):
        return None if word in form else f"{word!r} stands where {' or '.join(f'`{it}`' for it in form)} belongs"
    if form == "start":
        fault = None if word == "end" else number(word, MOST_PLACE, "place")
        return fault if not fault or re.fullmatch(r"[0-9]+", word) else f"{fault}; the end of the stream is `end`"
    if form == "owner":
        return None if word == "keep" else number(word, MOST_ID, "owner, if it isn't `keep`,")
    if form == "disposition":
        return None if word in DISPOSITIONS else f"the disposition is one of {', '.join(DISPOSITIONS)}, not {word!r}"
    return {"text": text, "mask": mask, "bytes": data, "dacl": dacl}[form](word, what)


def request(words, names, calls):
    name = words[0]
    if not re.fullmatch(r"[a-z0-9_]{1,16}", name):
        return f"the line is neither the first line, a table, a client nor a request: {name!r} is no client's name (1 to 16 of a to z, 0 to 9 and _)"
    if not names:
        return "a client is to be named before the first request, as `client a 7`"
    if len(words) > 1 and words[1] in names and name not in names:
        return f"a request begins with its client, not with {name}: {words[1]}, the number of the request, and the verb"
    if len(words) > 1 and number(words[1], MOST_ID, "number"):
        return number(words[1], MOST_ID, "number of the request")
    if len(words) < 3:
        return "a request is a client, a number, a verb and its fields"
    verb, fields = words[2], words[3:]
    if verb not in VERBS:
        if verb == "leave":
            return "`leave` is no line of a script: each client leaves by itself behind the last line"
        return f"there is no verb {verb!r}; the verbs are {', '.join(VERBS)}"
    wanted = VERBS[verb]
    if len(fields) > len(wanted) and re.match(r"#|//|;|--", fields[len(wanted)]):
        return "what stands behind the fields looks like a comment, and a script has none"
    if len(fields) != len(wanted):
        return f"`{verb}` has the fields {', '.join(it for it, _ in wanted)}: {len(wanted)}, not {len(fields)}" + (". A space in a path or an expression is written %0020" if verb in ("create", "rename", "link", "querydir") and len(fields) > len(wanted) else "")
    for word, (what, form) in zip(fields, wanted):
        fault = field(word, what, form)
        if fault:
            return fault
    if name not in names:
        return f"no client is named {name} above; there are {', '.join(names)}"
    expected = calls.get(name, 0) + 1
    if int(words[1]) != expected:
        return f"the next request of {name} has the number {expected}, not {words[1]}"
    return None


def client(words, names):
    if len(words) < 3:
        return "a client has a name and 1 to 16 SIDs, as `client a 7`"
    if not re.fullmatch(r"[a-z0-9_]{1,16}", words[1]) or words[1] == "client":
        return f"{words[1]!r} is no client's name: 1 to 16 of a to z, 0 to 9 and _, and not `client`"
    if len(words) > 18:
        return "a client has at most 16 SIDs"
    for it in words[2:]:
        if number(it, MOST_ID, "SID"):
            return number(it, MOST_ID, "SID")
    return f"the client {words[1]} is named twice" if words[1] in names else None


def cause(lines, at):
    """Returns the likely cause of the fault of the line at this place, of all the pieces between line feeds."""
    piece = lines[at] if at < len(lines) else b""
    if lines == [b""]:
        return "the script is empty"
    if at == len(lines) - 1 and piece:
        return "the last line has no line feed at its end"
    if at >= len(lines) - 1:
        return "the script ends before a client is named"
    if b"\0" in piece:
        return "it has bytes 0: the file may be in UTF-16; a script is plain bytes"
    if piece.startswith(b"\xef\xbb\xbf"):
        return "a byte order mark stands before it; save the file without one"
    if piece.endswith(b"\r"):
        return "it ends with a carriage return: lines end with a line feed alone (tr -d '\\r')"
    if not piece.strip():
        return "the line is blank, and a script has no blank lines"
    if b"\t" in piece:
        return "it has a tab; fields are divided by one space"
    if re.match(rb"\s*(#|//|;|--)", piece):
        return "it looks like a comment, and a script has none"
    if piece.startswith(b" ") or piece.endswith(b" ") or b"  " in piece:
        return "fields are divided by exactly one space, with none at the beginning or the end"
    said = piece.decode("latin-1")
    words = said.split(" ")
    if at == 0:
        return "the first line is `fsa 1`"
    before = [it.decode("latin-1").split(" ") for it in lines[:at]]
    names = [it[1] for it in before if it[0] == "client" and len(it) > 1]
    asked = [it for it in before if it[0] in names]
    if said == "fsa 1":
        return "`fsa 1` stands once, as the first line"
    if words[0] in ("table", "up"):
        if words[0] == "table" and (at > 1 or said not in ("table default", "table pairs")):
            return "a table is `table default` or `table pairs`, right behind the first line"
        if before[1:2] == [["table", "pairs"]] and len(words) == 3:
            fault = mask(words[1], "source") or mask(words[2], "target")
            if fault:
                return fault
        return "a pair stands behind `table pairs`, as `up 0x61 0x41`: both at most 0xffff, the source neither a source nor a target before, the target not a source before and not its own source"
    if words[0] == "client":
        if asked:
            return "clients are named before the first request"
        return client(words, names)
    calls = {}
    for it in asked:
        calls[it[0]] = calls.get(it[0], 0) + 1
    return request(words, names, calls)


def main(script, line):
    with open(script, "rb") as it:
        lines = it.read().split(b"\n")
    at = int(line) - 1
    piece = lines[at] if at < len(lines) else b""
    shown = re.sub(r"[\x00-\x1f\x7f-\xff]", lambda it: f"<{ord(it[0]):02X}>", piece.decode("latin-1"))
    print(f"fsa: line {line}: {shown if len(shown) < 200 else shown[:200] + ' ..'}")
    print(f"fsa: likely cause: {cause(lines, at) or 'none that is known here'}")


if __name__ == "__main__":
    if len(sys.argv) != 3:
        print(__doc__, file=sys.stderr)
        sys.exit(1)
    main(*sys.argv[1:])
