"""Numbers and records of the file format (docs/FORMAT.md), for the tools that make files."""

import struct

BRANCH, LEAF, META, FREELIST = 0x01, 0x02, 0x04, 0x10
VALUE_FLAGS, BUCKET_FLAGS = 0, 1

HEADER = struct.Struct("<QHHI")
BRANCH_ELEMENT = struct.Struct("<IIQ")
LEAF_ELEMENT = struct.Struct("<IIII")
BUCKET_HEAD = struct.Struct("<QQ")
META_RECORD = struct.Struct("<IIIIQQQQQ")
CHECKSUM = struct.Struct("<Q")

MAGIC = 0xED0CDAED
VERSION = 2
META_BYTES = HEADER.size + META_RECORD.size + CHECKSUM.size

# The freelist field of a meta if no freelist was written, and the count of a freelist in the long form.
NONE_WRITTEN = 2**64 - 1
LONG_FORM = 0xFFFF


def checksum(data):
    """FNV-1a of 64 bits."""
    state = 0xCBF29CE484222325
    for byte in data:
        state = (state ^ byte) * 0x100000001B3 % 2**64
    return state


def meta_record(page_size, root, freelist, mark, txid, sequence=0, flags=0):
    """A meta's record with its checksum."""
    record = META_RECORD.pack(
        MAGIC, VERSION, page_size, flags, root, sequence, freelist, mark, txid
    )
    return record + CHECKSUM.pack(checksum(record))


def empty_bucket():
    """What the element of an empty inline bucket stores."""
    return BUCKET_HEAD.pack(0, 0) + HEADER.pack(0, LEAF, 0, 0)
