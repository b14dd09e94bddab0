"""Runs an etcd server on loopback, and etcdctl. Each process and each request has a time limit."""

import http.client
import json
import os
import shutil
import socket
import subprocess
import time
import uuid
from contextlib import closing, contextmanager

HOST = "127.0.0.1"
# How long these may take: a request or a run of etcdctl, the start of a server, and its end.
REQUEST_SECONDS = 20
START_SECONDS = 20
END_SECONDS = 10
# By then etcd has stored what it was sent.
STORE_SECONDS = 0.5
# How often a start is tried: another process may take one of the ports first.
STARTS = 3
# What a server with users answers somebody who hasn't logged in.
NO_LOGIN = "user name is empty"


class EtcdFault(Exception):
    """etcd or etcdctl failed."""


def clean_environment():
    """The environment without settings for etcd, which could contradict the command line."""
    kept = {name: value for name, value in os.environ.items() if not name.startswith("ETCD")}
    return kept | {"ETCDCTL_API": "3"}


def free_ports(count):
    """Ports that no process uses now."""
    sockets = [socket.create_server((HOST, 0)) for _ in range(count)]
    ports = [one.getsockname()[1] for one in sockets]
    for one in sockets:
        one.close()
    return ports


def run_etcdctl(*words):
    """What etcdctl prints, which must succeed."""
    command = ["etcdctl", *words]
    try:
        ended = subprocess.run(
            command, env=clean_environment(), stdin=subprocess.DEVNULL, capture_output=True, timeout=REQUEST_SECONDS
        )
    except subprocess.TimeoutExpired:
        raise EtcdFault(f"{command} doesn't end") from None
    if ended.returncode != 0:
        raise EtcdFault(f"{command} fails: {ended.stderr[-300:]}")
    return ended.stdout


@contextmanager
def faults_named(path):
    """Names the request at which a connection fails."""
    try:
        yield
    except (OSError, http.client.HTTPException) as fault:
        raise EtcdFault(f"{path}: {fault!r}") from None


def send(connection, path, body=None, token=None):
    """The response to a request, which must have succeeded. A user who has logged in has a token."""
    if body is None:
        connection.request("GET", "/" + path)
    else:
        user = {"Authorization": token} if token else {}
        connection.request("POST", "/v3/" + path, json.dumps(body), {"Content-Type": "application/json"} | user)
    response = connection.getresponse()
    if response.status != 200:
        raise EtcdFault(f"{path}: {response.read()[-300:]}")
    return response


class Server:
    """A server of one member, and a connection to it. Its log is beside its data folder. Another command may start it,
    and it may make a `.snap` file after fewer entries than by default.

    Use it in a `with` block: the server ends with the block."""

    def __init__(self, folder, command=None, snapshot_count=None):
        self.folder = folder
        self.command = command or ["etcd", "--data-dir", folder]
        self.snapshot_count = snapshot_count
        self.file = os.path.join(folder, "member", "snap", "db")
        self.name = uuid.uuid4().hex
        self.process = None
        self.port = None
        self.connection = None
        self.version = None
        self.token = None

    def __enter__(self):
        try:
            self.start()
        except BaseException:
            self.stop()
            raise
        return self

    def __exit__(self, *_):
        self.stop()

    def start(self):
        """Starts the server, and waits until it serves."""
        for _ in range(STARTS):
            self.launch()
            if self.waits_until_it_serves():
                return
            self.stop()
        raise EtcdFault(f"etcd doesn't start: see {self.folder}.log")

    def launch(self):
        """Starts the process on free ports. With setpriv it is killed if this process ends, even if that was killed."""
        self.port, peers = free_ports(2)
        client_url, peer_url = f"http://{HOST}:{self.port}", f"http://{HOST}:{peers}"
        guard = ["setpriv", "--pdeathsig", "KILL"] if shutil.which("setpriv") else []
        with open(self.folder + ".log", "ab") as log:
            self.process = subprocess.Popen(
                [*guard, *self.command],
                env=clean_environment() | self.settings(client_url, peer_url),
                stdin=subprocess.DEVNULL,
                stdout=log,
                stderr=log,
            )
        self.connection = http.client.HTTPConnection(HOST, self.port, timeout=REQUEST_SECONDS)

    def settings(self, client_url, peer_url):
        """What etcd reads of the environment."""
        settings = {
            "NAME": self.name,
            "LISTEN_CLIENT_URLS": client_url,
            "ADVERTISE_CLIENT_URLS": client_url,
            "LISTEN_PEER_URLS": peer_url,
            "INITIAL_ADVERTISE_PEER_URLS": peer_url,
            "INITIAL_CLUSTER": f"{self.name}={peer_url}",
        }
        if self.snapshot_count:
            settings["SNAPSHOT_COUNT"] = str(self.snapshot_count)
        return {"ETCD_" + name: value for name, value in settings.items()}

    def waits_until_it_serves(self):
        """Whether the server serves in time, before its process ends."""
        end = time.monotonic() + START_SECONDS
        while time.monotonic() < end and self.process.poll() is None:
            if self.serves():
                return True
            time.sleep(0.05)
        return False

    def serves(self):
        """Whether this server serves. Another one may have taken the port: then the name of its member differs, unless it
        is kept from those who haven't logged in, as by etcd 3.5."""
        try:
            self.version = self.request("version")["etcdserver"]
            members = self.request("cluster/member/list", {})["members"]
        except EtcdFault as fault:
            self.connection.close()
            return NO_LOGIN in str(fault)
        return [member.get("name") for member in members] == [self.name]

    def stop(self):
        """Terminates the server, and kills it if it doesn't end in time."""
        if self.process is None:
            return
        self.connection.close()
        self.process.terminate()
        try:
            self.process.wait(END_SECONDS)
        except subprocess.TimeoutExpired:
            pass
        finally:
            self.process.kill()
            self.process.wait(END_SECONDS)
        self.process = None

    def wait_until_stored(self):
        """Waits until the server has stored what it was sent."""
        time.sleep(STORE_SECONDS)

    def kill(self):
        """Kills the server when it has stored what it was sent."""
        self.wait_until_stored()
        self.process.kill()
        self.process.wait(END_SECONDS)

    def request(self, path, body=None):
        """What the server returns for a request to its JSON gateway or, without a body, at a path beside that."""
        with faults_named(path):
            return json.loads(send(self.connection, path, body, self.token).read())

    def stream(self, path, body):
        """The messages that the server sends for a request, as they come, on a connection of their own."""
        connection = http.client.HTTPConnection(HOST, self.port, timeout=REQUEST_SECONDS)
        with closing(connection), faults_named(path):
            for line in send(connection, path, body, self.token):
                yield json.loads(line)["result"]

    def log_in(self, name, password):
        """Has this user make the requests that follow."""
        self.token = self.request("auth/authenticate", {"name": name, "password": password})["token"]

    def save_snapshot(self, path):
        """Saves a snapshot by etcdctl."""
        run_etcdctl("--endpoints", f"{HOST}:{self.port}", "snapshot", "save", path)

    def hash_kv(self, revision):
        """The HashKV at a revision by etcdctl, and the last compaction that the server had when it made this sum."""
        words = ("endpoint", "hashkv", "--rev", str(revision), "-w", "json")
        (answer,) = json.loads(run_etcdctl("--endpoints", f"{HOST}:{self.port}", *words))
        return answer["HashKV"]["hash"], answer["HashKV"]["compact_revision"]


def restore_snapshot(path, folder):
    """Makes a data folder of a snapshot by etcdctl."""
    run_etcdctl("snapshot", "restore", path, "--data-dir", folder)
