"""Has etcd print each message that docs/GUIDE.md explains, and follows what the guide says of a quota that is used up."""

import os
import shutil
import subprocess

from answers import base64_text, last_revision
from compare import Difference
from damage import KEY_BYTES, Store, spoiled
from files import read_file, write_file
from guide import MAKE_ROOM, MESSAGES_BY_ETCD, refuse_unknown
from server import START_SECONDS, EtcdFault, Server

FILE = os.path.join("member", "snap", "db")
# A file in which bbolt's check finds something.
UNSOUND = os.path.join("examples", "leaked.db")
# The quota and the length of each value: the quota is more than the length of a new file.
QUOTA, VALUE_BYTES = 2_000_000, 100_000
STATUS = "etcdutl snapshot status FILE"
# The texts of each message: some releases of etcd have the first, some the second.
UNREAD = ["cannot unmarshal event", "failed to unmarshal mvccpb.KeyValue"]
NOT_FOUND = ["range cannot find rev", "range failed to find revision pair"]
NO_SNAPSHOT = ["failed to find database snapshot file"]
FAILED_CHECK = ["snapshot file integrity check failed"]
NO_SPACE = ["mvcc: database space exceeded"]
MADE = [*UNREAD, *NOT_FOUND, *NO_SNAPSHOT, *FAILED_CHECK, *NO_SPACE]


def want_text(texts, printed, what):
    """Wants one of these texts."""
    if not any(text in printed for text in texts):
        raise Difference(f"{what} prints none of {texts}:\n{printed[-1000:]}")


def text_of(path):
    return read_file(path).decode(errors="replace")


class SmallServer(Server):
    """A server with a small quota."""

    def settings(self, client_url, peer_url):
        return super().settings(client_url, peer_url) | {"ETCD_QUOTA_BACKEND_BYTES": str(QUOTA)}


class Messages:
    """Makes the messages. `guide` has a data folder, an early state of its file, and rooms to run lines in."""

    def __init__(self, guide, early):
        refuse_unknown(MADE, MESSAGES_BY_ETCD)
        refuse_unknown(MESSAGES_BY_ETCD, MADE)
        self.guide = guide
        self.early = early

    def try_all(self):
        last = read_file(os.path.join(self.guide.path("member"), FILE))
        store = Store(last)
        key, record = store.last(store.leaves[-1])
        unread = last.replace(key + record, key + spoiled(record))
        want_text(UNREAD, self.end_with("unread", unread), "etcd with an entry that is no record")
        want_text(NO_SNAPSHOT, self.end_with("no_snapshot", self.early), "etcd with an early state")
        self.change_while_it_runs()
        self.check_snapshot()
        self.use_quota_up()
        return len(MADE)

    def end_with(self, name, data):
        """What a server prints that doesn't start with this file."""
        folder = self.guide.path(name)
        shutil.copytree(self.guide.path("member"), folder)
        write_file(os.path.join(folder, FILE), data)
        server = Server(folder)
        server.launch()
        return self.ended(server)

    def ended(self, server):
        """What a server has printed when it has ended by itself."""
        try:
            server.process.wait(START_SECONDS)
        except subprocess.TimeoutExpired:
            raise Difference(f"etcd doesn't end: {server.folder}") from None
        finally:
            server.stop()
        return text_of(server.folder + ".log")

    def change_while_it_runs(self):
        """The key of an entry changes in the file of a server that runs."""
        with Server(self.guide.path("changed")) as server:
            put = {"key": base64_text(b"one"), "value": base64_text(bytes(VALUE_BYTES))}
            server.request("kv/put", put)
            self.change_last_key(server)
            # What was put last is served from memory, until more is stored.
            server.request("kv/put", {"key": base64_text(b"two"), "value": ""})
            server.wait_until_stored()
            try:
                server.request("kv/range", {"key": put["key"]})
            except EtcdFault:
                want_text(NOT_FOUND, self.ended(server), "etcd with a file that changed")
                return
        raise Difference("etcd reads a key that the file doesn't have")

    def change_last_key(self, server):
        """Gives the revision that is put last another number in its transaction, wherever the file has it."""
        revision = last_revision(server)
        key = revision.to_bytes(8, "big") + b"_" + bytes(8)
        server.wait_until_stored()
        with open(server.file, "r+b") as file:
            data = file.read()
            at = data.find(key)
            while at >= 0:
                file.seek(at + KEY_BYTES - 1)
                file.write(b"\1")
                at = data.find(key, at + 1)

    def check_snapshot(self):
        """etcd looks at a snapshot whose freelist is wrong."""
        words = {"FILE": os.path.abspath(UNSOUND)}
        wanted = {STATUS: "1 .*" + FAILED_CHECK[0]}
        self.guide.run(self.guide.room(self.guide.folder, words), [STATUS], wanted)

    def use_quota_up(self):
        """Puts values until the quota is used up, and then makes room as the guide says."""
        put = {"key": base64_text(b"one"), "value": base64_text(bytes(VALUE_BYTES))}
        with SmallServer(self.guide.path("small")) as server:
            try:
                for _ in range(2 * QUOTA // VALUE_BYTES):
                    server.request("kv/put", put)
            except EtcdFault as fault:
                want_text(NO_SPACE, str(fault), "etcd with a small quota")
            else:
                raise Difference("etcd stores more than its quota")
            words = {"REVISION": str(last_revision(server))}
            self.guide.run(self.guide.client_room(server, words), MAKE_ROOM)
            server.request("kv/put", put)
