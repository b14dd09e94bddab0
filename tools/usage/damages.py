"""The first page of docs/GUIDE.md, followed on four damaged files: what its lines print of each, and what comes of it."""

from guide import Section

DAMAGED = "My file is damaged"
CHECK = "luntsegi check --all FILE > RESCUE/check; tail RESCUE/check"
STATES = "luntsegi states FILE > RESCUE/states; head RESCUE/states"
REVISIONS = (
    "for state in $(cut -d ' ' -f 1 RESCUE/states); do echo $state "
    "$(luntsegi etcd-status --assume-meta $state FILE | grep -e newest -e index); done"
)
COPY = "luntsegi compact --recover --for-bbolt --assume-meta STATE -o RESCUE/new.db FILE > RESCUE/lost; tail RESCUE/lost"
SIZES = "luntsegi buckets --sizes RESCUE/new.db"
LEAF_LOST = r"page 9: wrong page number; lost: bucket 6b6579 \(key\), keys from \w+ to below \w+\n"
ROOT_LOST = "page 2: wrong page number; lost: everything\n"
TEN_BUCKETS = r"10 buckets from 616c61726d \(alarm\) to 6d657461 \(meta\)"
FIVE_BUCKETS = r"5 buckets from 00ff to 7573657273 \(users\)"
WHOLE_ETCD = "4096:4 newest 53 consistent index 57\n"
OLDER_ETCD = (
    "4096:3 newest 53 consistent index 57\n4096:16 newest 53 consistent index 57\n4096:14 newest 31 consistent index 35\n"
)
UNREAD = "error: file refused: page 9: wrong page number\n"
# What is so after each rescue.
RESCUED = [
    "cmp FILE RESCUE/saved.db",
    '[ "$(stat -c %a RESCUE)" = 700 ]',
    "luntsegi check --for-bbolt RESCUE/new.db | grep -x OK",
]
# A leaf of another bucket where the root page of etcd.db was. No meta leads to another root page.
MIXED = [
    "dd if=EXAMPLES/etcd.db of=FILE bs=4096 skip=2 seek=4 count=1 conv=notrunc status=none",
    "printf '\\4' | dd of=FILE bs=1 seek=16384 conv=notrunc status=none",
]
DAMAGES = [
    Section(
        "etcd.db",
        lost_pages=(9,),
        state="4096:4",
        wanted={
            CHECK: "0 " + LEAF_LOST + "1 errors found\n$",
            STATES: (
                f"0 4096:4 1 pages lost, {TEN_BUCKETS}, 76 keys; meta 0, txid 12; meta 1, txid 13\n4096:3 1 pages lost, "
            ),
            REVISIONS: f"0 {UNREAD}4096:4\n{UNREAD}4096:3\n",
            COPY: "0 " + LEAF_LOST + "69632 -> \\d+ bytes\n$",
            SIZES: r"0 (.*\n)*68 \d+ \d+ key\n",
        },
        after=RESCUED,
    ),
    Section(
        "app.db",
        lost_pages=(2,),
        state="4096:5",
        wanted={
            CHECK: "0 " + ROOT_LOST + "1 errors found\n$",
            STATES: (
                f"0 4096:5 0 pages lost, {FIVE_BUCKETS}, 28 keys; meta 0, txid 2\n.*\n4096:2 everything lost; meta 1, txid 3\n$"
            ),
            REVISIONS: "0 error: bucket not found\n4096:5\n",
            COPY: "0 36864 -> 20480 bytes\n$",
            SIZES: r"0 (.*\n)*\d+ \d+ \d+ users\n$",
        },
        after=[*RESCUED, "luntsegi list RESCUE/new.db > new.list", "luntsegi list --meta 0 EXAMPLES/app.db | cmp - new.list"],
    ),
    Section(
        "etcd.db",
        lost_pages=(0, 1),
        state="4096:4",
        wanted={
            CHECK: "0 error: invalid database\n$",
            STATES: f"0 4096:4 0 pages lost, {TEN_BUCKETS}, 81 keys\n",
            REVISIONS: f"0 {WHOLE_ETCD}{OLDER_ETCD}$",
            COPY: "0 69632 -> 53248 bytes\n$",
            SIZES: r"0 (.*\n)*73 25179 36864 key\n",
        },
        after=[*RESCUED, "luntsegi list RESCUE/new.db | cmp - EXAMPLES/etcd.list"],
    ),
    Section(
        "etcd.db",
        before=MIXED,
        state="4096:3",
        wanted={
            CHECK: "0 OK\n$",
            STATES: f"0 4096:3 0 pages lost, {TEN_BUCKETS}, 80 keys\n",
            REVISIONS: f"0 {OLDER_ETCD}error: bucket not found\n4096:4\n$",
            COPY: "0 69632 -> 53248 bytes\n$",
            SIZES: r"0 (.*\n)*73 25179 36864 key\n",
        },
        after=RESCUED,
    ),
]
