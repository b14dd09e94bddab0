"""Keys and records of etcd's bucket `key` (crates/bolt_etcd/specs), for the tools that make files."""

import struct

REVISION_KEY = struct.Struct(">QcQ")

# The tags of the fields of a record, in their order. Their last three bits are 2 if it has bytes.
TAGS = {"name": 0x0A, "created": 0x10, "modified": 0x18, "version": 0x20, "value": 0x2A, "lease": 0x30}


def revision_key(main, sub):
    """The key of a revision. That of a deletion has a `t` after it."""
    return REVISION_KEY.pack(main, b"_", sub)


def has_bytes(name):
    """Whether this field of a record has bytes. Otherwise it has a number."""
    return TAGS[name] % 8 == 2


def varint(number):
    """A number as protocol buffers have it: seven bits in a byte, the lowest first."""
    if number < 128:
        return bytes([number])
    return bytes([128 + number % 128]) + varint(number // 128)


def field(name, value):
    """A field of a record, unless it is empty or 0."""
    if not value:
        return b""
    tag = bytes([TAGS[name]])
    return tag + varint(len(value)) + value if has_bytes(name) else tag + varint(value)


def record(fields):
    """A record with these fields."""
    return b"".join(field(name, fields[name]) for name in TAGS if name in fields)
