"""Runs the lines of docs/GUIDE.md for an etcd server: the recipe of the log, and the new cluster of a repaired copy, first
of one member and then of three, one of which is replaced."""

import os
import re
import shlex
import shutil
import time

from answers import base64_text, keys_at
from compare import Difference
from damage import Store
from files import read_file, write_file
from guide import (
    ADD,
    BY_ETCD,
    ENABLE,
    HASHES,
    REMOVE,
    REQUESTS,
    Room,
    WrongLine,
    add_programs,
    plain_blocks,
    refuse_unknown,
)
from members import Members
from messages import Messages
from server import HOST, NO_LOGIN, EtcdFault, Server

# How many keys are put before each end of the server, and after how many entries of its log it makes a `.snap` file.
PUTS = 125
VALUE_BYTES = 200
ENTRIES = 50
# How long members may lag, or not yet count as connected.
LAG_SECONDS = 20
# The one user.
NAME, PASSWORD = "root", "secret"
FILE = "member/snap/db"
OK = "0 OK\n$"
# The data folder that the guide names.
DATA = "/var/lib/etcd"
# The status and the text that are wanted of lines. Pages that etcd has freed may have the revisions that were lost.
WANTED = {
    "luntsegi etcd-repair --etcd-snapshot --assume-meta STATE -o RESCUE/new.snapshot FILE > RESCUE/lost; tail RESCUE/lost": (
        r"0 page .*; lost: bucket 6b6579 \(key\), .*\nrevisions up to \d+ may be missing\n\d+ revisions put back, "
    ),
    "luntsegi etcd-check RESCUE/new.snapshot > RESCUE/records; grep '[0-9]: missing' RESCUE/records | tail -n 1": (
        r"0 (revisions? [^ ]+( to [^ ]+)?: missing\n)?$"
    ),
    "luntsegi check --for-bbolt --etcd-snapshot RESCUE/new.snapshot": OK,
    "luntsegi get RESCUE/new.snapshot auth authEnabled": "0 01\n$",
    "luntsegi states member/snap/db": r"0 \d+:\d+ 0 pages lost, ",
    "luntsegi get --assume-meta STATE member/snap/db meta consistent_index": r"0 [0-9a-f]{16}\n$",
    "luntsegi check --for-bbolt new.db": OK,
}


def put_some(server, draw):
    """Puts some keys. If it is done again, it changes half of them."""
    for number in range(PUTS):
        name = b"kept%d" % number if number % 2 else draw.randbytes(8)
        server.request("kv/put", {"key": base64_text(name), "value": base64_text(draw.randbytes(VALUE_BYTES))})


def add_user(server):
    """Adds the user. All have to log in once that is enabled."""
    server.request("auth/user/add", {"name": NAME, "password": PASSWORD})
    server.request("auth/role/add", {"name": NAME})
    server.request("auth/user/grant", {"user": NAME, "role": NAME})


def served_keys(server):
    """All keys, of which nothing may be served before the user logs in."""
    try:
        keys_at(server, 0)
    except EtcdFault as fault:
        if NO_LOGIN not in str(fault):
            raise
    else:
        raise Difference("etcd serves keys to all")
    server.log_in(NAME, PASSWORD)
    return keys_at(server, 0)


def lose_root(store):
    """The file without the newest root page."""
    return store.zeroed("the newest root page", [store.newest_root]).data


def lose_meta(store):
    """The file without the newest meta."""
    return store.zeroed("the newest meta", [store.newest_meta]).data


class Guide:
    """The lines, and a folder with folders in which they are run."""

    def __init__(self, comparisons, folder):
        self.comparisons = comparisons
        self.folder = os.path.abspath(folder)
        self.recovery, self.log = (plain_blocks()[heading] for heading in BY_ETCD)
        refuse_unknown(WANTED, sum(self.recovery + self.log, []))
        self.count = 0
        self.keys = []

    def path(self, name):
        return os.path.join(self.folder, name)

    def room(self, name, words):
        return Room(self.path(name), self.path("programs"), words)

    def client_room(self, server, words=None):
        """A room in which etcdctl finds a server, and logs in if the user has."""
        room = self.room(self.folder, words or {})
        room.environment["ETCDCTL_ENDPOINTS"] = f"{HOST}:{server.port}"
        if server.token:
            room.environment["ETCDCTL_USER"] = f"{NAME}:{PASSWORD}"
        return room

    def run(self, room, lines, wanted=WANTED):
        self.count += len(lines)
        return room.run(lines, wanted)

    def try_all(self):
        """Runs all lines on files of a server that has keys, `.snap` files and a user. Returns how many."""
        os.mkdir(self.folder)
        add_programs(self.path("programs"), self.comparisons.program)
        early, last = self.make_files()
        store = Store(last)
        self.heal("newest_root", lose_root(store))
        self.heal("newest_meta", lose_meta(store))
        if self.heal("early", lose_root(Store(early))) < 2:
            raise Difference("etcd's log: the early state isn't older than two .snap files")
        self.start_anew()
        self.start_cluster(store)
        self.count += Messages(self, early).try_all()
        return self.count

    def make_files(self):
        """The file of a server, early and at its end. Both times it is killed."""
        with Server(self.path("member"), snapshot_count=ENTRIES) as server:
            put_some(server, self.comparisons.draw)
            server.kill()
        early = read_file(server.file)
        with Server(self.path("member"), snapshot_count=ENTRIES) as server:
            put_some(server, self.comparisons.draw)
            add_user(server)
            self.run(self.client_room(server), [ENABLE])
            self.keys = served_keys(server)
            server.kill()
        return early, read_file(server.file)

    def copied(self, name):
        """Copies the data folder as the guide does. Returns a room in the copy, and what `states` prints there."""
        rescue = self.path(name)
        os.mkdir(rescue)
        folder = os.path.join(rescue, "log")
        words = {DATA: self.path("damaged"), "RESCUE": rescue}
        *_, states = self.run(self.room(self.folder, words), self.log[0])
        return folder, states

    def heal(self, name, data):
        """Follows the recipe of the log for a data folder with this file. Returns how many `.snap` files were moved."""
        self.damage(data)
        folder, states = self.copied(name)
        words = {"STATE": re.search(r"(?m)^(\S+) 0 pages lost, .*; meta ", states)[1]}
        _, index, move, place, _ = self.log
        moved = 0
        while snapshot := self.newer_snapshot(self.run(self.room(folder, words), index)):
            self.run(self.room(folder, {"NAME": snapshot}), move)
            moved += 1
        self.run(self.room(folder, words), place)
        self.compare_keys(folder, f"the keys of {name} with its log")
        return moved

    def damage(self, data):
        """Makes a data folder with this file."""
        shutil.rmtree(self.path("damaged"), ignore_errors=True)
        shutil.copytree(self.path("member"), self.path("damaged"))
        write_file(os.path.join(self.path("damaged"), FILE), data)

    def compare_keys(self, folder, what):
        with Server(folder) as server:
            self.comparisons.want_same_lists(what, self.keys, served_keys(server))

    def start_anew(self):
        """Has etcd make the file from its log alone."""
        folder, _ = self.copied("anew")
        self.run(self.room(folder, {}), self.log[-1])
        self.compare_keys(folder, "the keys of the log alone")

    def newer_snapshot(self, printed):
        """The newest `.snap` file, if it is newer than the state. Both numbers are printed."""
        index, listed = printed
        name = re.fullmatch(r"member/snap/(.*)\.snap", listed.splitlines()[-1])[1]
        return name if int(name.split("-")[1], 16) > int(index, 16) else None

    def start_cluster(self, store):
        """Follows the recipe after a recovery: the new cluster has the keys of the copy, and its user must log in."""
        rescue, folder = self.path("rescue"), self.path("served")
        os.mkdir(rescue)
        write_file(self.path("lost.db"), store.zeroed("a leaf", [store.leaves[1]]).data)
        state = f"{store.page_size}:{store.newest_root}"
        words = {"FILE": self.path("lost.db"), "RESCUE": rescue, "STATE": state, "NEW_FOLDER": folder}
        repair, login, (restore, start), several = self.recovery
        room = self.room(self.folder, words)
        self.run(room, [*repair, *login, restore])
        shown = ("etcd-keys", "--values", "--form", "json-hex", os.path.join(rescue, "new.snapshot"))
        keys = [one for _, one in self.comparisons.lines(*shown)]
        self.count += 1
        with Server(folder, shlex.split(room.replaced(start))) as server:
            self.comparisons.want_same_lists("the keys of the new cluster", keys, served_keys(server))
            self.run(self.client_room(server, self.request_words(server)), REQUESTS)
            self.run(self.client_room(server, {"RESCUE": rescue}), several[:1])
        found = self.comparisons.get(self.path("saved"), b"single9")
        self.comparisons.want_same("the snapshot of the new cluster", (0, b"v49"), (found.status, found.out))
        self.start_members(rescue, several[1:])

    def request_words(self, server):
        """What the words of requests stand for: a file, and the one member, with an address that another one can reach."""
        [member] = server.request("cluster/member/list", {})["members"]
        return {"FILE": self.path("saved"), "ID": f"{int(member['ID']):x}", "URL": f"http://{HOST}:{server.port}"}

    def start_members(self, rescue, restore):
        """Restores the snapshot on three machines. All members then print the hash that the snapshot has."""
        members = Members(self.folder)
        for one in members.all:
            self.run(self.room(self.folder, {"RESCUE": rescue} | members.words(one)), restore)
        own = self.comparisons.status(os.path.join(rescue, "fixed.db"))["hash"]
        wanted = [own] * len(members.all)
        with members.running():
            first, *_, last = members.all
            first.log_in(NAME, PASSWORD)
            self.comparisons.want_same("the hashes of three members", wanted, self.hashes_by(first))
            self.replace_member(members, first, last)
            self.comparisons.want_same("the hashes with a new member", wanted, self.hashes_by(first))

    def replace_member(self, members, first, lost):
        """A member loses its data folder. The others have a majority, and so it joins them as a new one."""
        [number] = [it["ID"] for it in first.request("cluster/member/list", {})["members"] if it["name"] == lost.name]
        lost.stop()
        shutil.rmtree(lost.folder)
        self.run_again(first, f"{REMOVE} {int(number):x}", "unhealthy cluster")
        self.run_again(first, f"{ADD} {lost.name} --peer-urls={lost.peer_url}", "unhealthy cluster")
        members.start_new(lost)

    def hashes_by(self, member):
        """The hashes that etcdctl prints of all members. One that lags doesn't know yet that it has logged in."""
        printed = self.run_again(member, HASHES, "invalid auth token")
        return [int(line.split(", ")[1]) for line in printed.splitlines()]

    def run_again(self, member, line, refusal):
        """What a line prints, which may be refused for some seconds."""
        end = time.monotonic() + LAG_SECONDS
        self.count += 1
        while True:
            try:
                return self.client_room(member).run([line], {})[0]
            except WrongLine as fault:
                if refusal not in str(fault) or time.monotonic() > end:
                    raise
                time.sleep(0.2)


def try_guide(comparisons, folder):
    """Runs the lines in a new folder. Returns how many were run."""
    try:
        return Guide(comparisons, folder).try_all()
    except (WrongLine, ValueError) as fault:
        raise Difference(f"the guide: {fault}") from None
