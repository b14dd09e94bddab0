"""Runs three members on loopback, each from its own restored copy of one snapshot, as docs/GUIDE.md says."""

import os
import time
from contextlib import ExitStack

from server import HOST, NO_LOGIN, START_SECONDS, EtcdFault, Server, free_ports

COUNT = 3


class Member(Server):
    """One of several members, with the name and the address that it was restored with."""

    def __init__(self, folder, name, peer_url):
        super().__init__(folder)
        self.name = name
        self.peer_url = peer_url
        # Of a new member: what it reads of its cluster.
        self.joins = {}

    def settings(self, client_url, _):
        """What etcd reads of the environment. The cluster is in its file, unless it is new."""
        return self.joins | {
            "ETCD_NAME": self.name,
            "ETCD_DATA_DIR": self.folder,
            "ETCD_LISTEN_CLIENT_URLS": client_url,
            "ETCD_ADVERTISE_CLIENT_URLS": client_url,
            "ETCD_LISTEN_PEER_URLS": self.peer_url,
        }

    def start(self):
        """Starts the process alone: it serves once there is a quorum."""
        self.command = ["etcd"]
        self.launch()


class Members:
    """The members, which aren't there yet: their names, addresses and data folders."""

    def __init__(self, folder):
        ports = free_ports(COUNT)
        self.all = [
            Member(os.path.join(folder, f"node{i}"), f"node{i}", f"http://{HOST}:{port}") for i, port in enumerate(ports, 1)
        ]

    def words(self, one):
        """What the words of the guide's line stand for on the machine of one member, which is the first one there."""
        words = {"DATA_FOLDER": one.folder, "OWNER": str(os.getuid())}
        for i, member in enumerate([one, *(it for it in self.all if it is not one)], 1):
            words |= {f"NAME{i}": member.name, f"URL{i}": member.peer_url}
        return words

    def running(self):
        """Starts all, and waits until each serves. Use it in a `with` block."""
        stack = ExitStack()
        try:
            for one in self.all:
                stack.enter_context(one)
            for one in self.all:
                self.wait_for(one)
        except BaseException:
            stack.close()
            raise
        return stack

    def start_new(self, one):
        """Starts a member that was added without a data folder, and waits until it serves."""
        cluster = ",".join(f"{it.name}={it.peer_url}" for it in self.all)
        one.joins = {
            "ETCD_INITIAL_CLUSTER": cluster,
            "ETCD_INITIAL_CLUSTER_STATE": "existing",
            "ETCD_INITIAL_ADVERTISE_PEER_URLS": one.peer_url,
        }
        one.start()
        self.wait_for(one)

    def wait_for(self, one):
        """Waits until a member serves keys, for which there has to be a quorum. Whether it asks for a login is the same."""
        end = time.monotonic() + START_SECONDS
        while time.monotonic() < end:
            try:
                one.request("kv/range", {"key": "YQ=="})
                return
            except EtcdFault as fault:
                if NO_LOGIN in str(fault):
                    return
                one.connection.close()
                time.sleep(0.1)
        raise EtcdFault(f"{one.name} doesn't serve: see {one.folder}.log")
