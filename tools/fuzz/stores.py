"""What holds of the commands that read what etcd keeps: random files have none of its buckets, but by chance."""

from program import want

BUCKETS = (b"auth", b"authRoles", b"authUsers", b"key", b"lease", b"meta")
READING = (
    ["etcd-revisions"],
    ["etcd-revisions", "--from", "1"],
    ["etcd-keys", "--values"],
    ["etcd-keys", "--at", "1"],
    ["etcd-get", "a"],
    ["etcd-get", "a", "--at", "1"],
    ["etcd-status"],
    ["etcd-status", "--at", "1"],
)


def compare_unread_store(file, checked):
    """Of a file that `check --all` refuses `etcd-check` prints what that prints."""
    result = file.run("etcd-check")
    is_same = (result.status, result.out, result.err) == (checked.status, checked.out, checked.err)
    want(is_same, "etcd-check printed:", result, "and check --all:", checked)


def compare_store(file, entries):
    """Of a sound file in which `check --all` finds nothing `etcd-check` prints which buckets are missing. Without the bucket
    `key` no command reads it."""
    lines = [b"bucket %b: missing\n" % name for name in BUCKETS if not isinstance(entries.get((name,)), int)]
    checked = file.run("check", "--all")
    result = file.run("etcd-check")
    if not checked.is_ok():
        compare_unread_store(file, checked)
        lines = []
    want(result.out.startswith(b"".join(lines)), "etcd-check printed:", result)
    if isinstance(entries.get((b"key",)), int):
        return
    is_whole = result.out == b"".join(lines) + b"%d errors found\n" % len(lines)
    want(is_whole or not checked.is_ok(), "etcd-check printed:", result)
    for words in READING:
        read = file.run(*words)
        want(read.err == b"error: bucket not found\n", *words, "printed:", read)
