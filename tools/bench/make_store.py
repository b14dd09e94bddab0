#!/usr/bin/env python3
"""Makes a sound file as etcd keeps its keys, for `make bench`.

    make_store.py FILE VALUE [TRANSACTIONS]

The format is that of docs/FORMAT.md. Each transaction puts one of 60,000 keys, chosen at random but the
same in each run, with a value of VALUE bytes. The default is 200,000 transactions. The store was
compacted at half of them: of those up to there, only the newest of each key is in the file.
"""

import random
import sys

from etcd_format import record, revision_key
from file_format import BUCKET_FLAGS, BUCKET_HEAD, FREELIST, VALUE_FLAGS
from make_large import FREELIST_PAGE, Pages, put_bucket, put_meta

KEYS = 60_000
# Transaction 1 is that of the empty store.
FIRST = 2


def puts(transactions):
    """The records without values, by transaction."""
    numbers = random.Random(1)
    written = {}
    for main in range(FIRST, FIRST + transactions):
        name = b"/registry/pods/default/pod-%08d" % numbers.randrange(KEYS)
        created, version = written.get(name, (main, 0))
        written[name] = created, version + 1
        yield {"name": name, "created": created, "modified": main, "version": version + 1}


def compacted(records, last):
    """Those that a compaction at this transaction keeps."""
    newest = {it["name"]: it["modified"] for it in records if it["modified"] <= last}
    return [it for it in records if it["modified"] > last or newest[it["name"]] == it["modified"]]


def put_store(pages, transactions, value):
    """The number of the root page of a file with this store."""
    last = FIRST + transactions // 2
    kept = compacted(list(puts(transactions)), last)
    entries = ((VALUE_FLAGS, revision_key(it["modified"], 0), record(it | {"value": value})) for it in kept)
    notes = ((VALUE_FLAGS, name, revision_key(last, 0)) for name in (b"finishedCompactRev", b"scheduledCompactRev"))
    buckets = [(name, put_bucket(pages, elements)) for name, elements in ((b"key", entries), (b"meta", notes))]
    return put_bucket(pages, ((BUCKET_FLAGS, name, BUCKET_HEAD.pack(root, 0)) for name, root in buckets))


def main():
    value = bytes(int(sys.argv[2]))
    transactions = int(sys.argv[3]) if len(sys.argv) > 3 else 200_000
    with open(sys.argv[1], "wb") as out:
        pages = Pages(out)
        root = put_store(pages, transactions, value)
        pages.put_at(FREELIST_PAGE, FREELIST, 0, b"")
        put_meta(pages, 0, root)
        put_meta(pages, 1, root)


if __name__ == "__main__":
    main()
