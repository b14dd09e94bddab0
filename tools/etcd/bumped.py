"""Compares a server whose revisions went on far ahead, as after `etcdutl snapshot restore --bump-revision`."""

import os
import shutil
import subprocess

from answers import ask, last_revision
from compare import Difference
from server import REQUEST_SECONDS, EtcdFault, Server, clean_environment

# How far the revisions go ahead.
AHEAD = "1000000"


def can_bump():
    """Whether etcdutl is there and has the option, as that of etcd 3.5.10 and later."""
    if not shutil.which("etcdutl"):
        return False
    shown = subprocess.run(["etcdutl", "snapshot", "restore", "--help"], capture_output=True, timeout=REQUEST_SECONDS)
    return b"--bump-revision" in shown.stdout


def restore_ahead(snapshot, folder):
    """Makes a data folder from a snapshot, in which the next revision is far ahead of the last one."""
    words = ["etcdutl", "snapshot", "restore", snapshot, "--data-dir", folder, "--bump-revision", AHEAD, "--mark-compacted"]
    ended = subprocess.run(words, env=clean_environment(), capture_output=True, timeout=REQUEST_SECONDS)
    if ended.returncode != 0:
        raise EtcdFault(f"{words} fails: {ended.stderr[-300:]}")


def compare_bumped(writer, comparisons, folder, file, steps, count):
    """Compares a server that starts from a copy of a file with revisions far ahead, after more writes, at so many
    revisions."""
    if not can_bump():
        return
    snapshot, bumped = os.path.join(folder, "ahead.snapshot"), os.path.join(folder, "ahead")
    ended = comparisons.run("compact", "--for-bbolt", "--etcd-snapshot", "-o", snapshot, file)
    if ended.status != 0 or ended.err:
        raise Difference(f"compact {file}: {ended!r}")
    restore_ahead(snapshot, bumped)
    with Server(bumped) as server:
        writer.fork().write_to(server, steps)
        _, compacted = server.hash_kv(last_revision(server))
        if compacted < int(AHEAD):
            raise EtcdFault(f"etcd is compacted at {compacted} after {AHEAD} more revisions")
        last = ask(server, compacted, count)
    comparisons.compare_file(server.file, last)
