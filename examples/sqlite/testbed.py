"""A cluster of real processes in a folder, for the tests of this folder."""
import os
import pathlib
import re
import shlex
import signal
import socket
import subprocess
import time

HERE = pathlib.Path(__file__).resolve().parent
SIX = 6
SHELL = shlex.split(os.environ.get("SQLITE3", "sqlite3"))  # the command of SQLite's shell


def build(library, out, *goals):
    """Builds the programs."""
    words = ["make", "-s", "-j2", "-C", HERE, f"LIBRARY={pathlib.Path(library).resolve()}", f"OUT={out}", *goals]
    subprocess.run([str(word) for word in words], check=True)


def free_ports(count):
    """Returns free TCP ports."""
    sockets = [socket.socket() for _ in range(count)]
    for one in sockets:
        one.bind(("127.0.0.1", 0))
    ports = [one.getsockname()[1] for one in sockets]
    for one in sockets:
        one.close()
    return ports


class Cluster:
    """The processes of a cluster, their folders and their output."""

    def __init__(self, folder, programs, members=SIX, environment=None, under=(), tcp=False):
        self.folder, self.programs = pathlib.Path(folder), pathlib.Path(programs)
        self.environment = {**os.environ, **(environment or {})}
        self.under = list(under)
        self.nodes, self.authority, self.born = {}, None, set()
        self.file = self.folder / "cluster"
        (self.folder / "plan.json").write_bytes((HERE / "plan.json").read_bytes())
        names = [f"unix:{name}.sock" for name in ("a", *(f"n{member}" for member in range(members)))]
        if tcp:
            names = [f"tcp:127.0.0.1:{port}" for port in free_ports(members + 1)]
        rows = ['plan = "plan.json"', f'authority = "{names[0]}"']
        rows += [f'node.{member} = "{name}"' for member, name in enumerate(names[1:])]
        self.file.write_text("\n".join(rows) + "\n", encoding="utf-8")
        self.log = open(self.folder / "output", "ab")

    def uri(self, timeout=120000):
        """Returns the database's URI for SQLite."""
        return f"file:app.db?vfs=volume&cluster={self.file}&timeout={timeout}"

    def spawn(self, program, *words, **how):
        """Starts a program of the cluster."""
        how = {"stdout": self.log, "stderr": self.log, "env": self.environment, **how}
        return subprocess.Popen([*self.under, str(self.programs / program), *map(str, words)], **how)

    def start_authority(self, fresh=False):
        folder = self.folder / "authority"
        folder.mkdir(exist_ok=True)
        self.authority = self.spawn("volume_authority", "--cluster", self.file, "--dir", folder, *["--new"] * fresh)

    def start_node(self, member):
        """Starts a node, with --new if it has no snapshot."""
        folder = self.folder / f"node{member}"
        folder.mkdir(exist_ok=True)
        fresh = not (folder / "snapshot").exists()
        words = ["--cluster", self.file, "--member", member, "--dir", folder, *["--new"] * fresh]
        self.nodes[member] = self.spawn("volume_node", *words)

    def start(self):
        """Starts the authority and the first six nodes."""
        self.start_authority(fresh=True)
        for member in range(SIX):
            self.start_node(member)
        self.await_birth(range(SIX))

    def await_birth(self, members):
        """Waits until the nodes have their first snapshots."""
        until = time.monotonic() + 120
        while time.monotonic() < until:
            if all((self.folder / f"node{member}" / "snapshot").exists() for member in members):
                return
            time.sleep(0.01)
        raise AssertionError("the nodes aren't born")

    def kill_node(self, member):
        """Kills a node, and drops the unsynced bytes of its log."""
        process = self.nodes.pop(member)
        process.send_signal(signal.SIGKILL)
        process.wait()
        drop_unsynced(self.folder / f"node{member}")

    def kill_authority(self):
        self.authority.send_signal(signal.SIGKILL)
        self.authority.wait()
        self.authority = None

    def ctl(self, *words, seconds=30):
        """Runs the operator's tool; returns its status and output."""
        words = [self.programs / "volumectl", self.file, *words, "--seconds", seconds]
        how = {"text": True, "stdout": subprocess.PIPE, "stderr": subprocess.STDOUT, "env": self.environment}
        made = subprocess.run([str(word) for word in words], **how)
        self.log.write(made.stdout.encode())
        self.log.flush()
        return made.returncode, made.stdout

    def stop(self, number=signal.SIGTERM):
        """Ends all processes; returns those with another status than 0."""
        processes = [*self.nodes.items(), *([("authority", self.authority)] if self.authority else [])]
        for _, process in processes:
            process.send_signal(signal.SIGCONT)
            process.send_signal(number)
        bad = [name for name, process in processes if process.wait() != 0]
        self.nodes, self.authority = {}, None
        self.log.close()
        return bad


def drop_unsynced(folder):
    """Cuts a killed node's log after its last sync, as a failure of the machine may."""
    note = folder / "synced"
    if not note.exists():
        return
    generation, length = map(int, re.findall(r"\d+", note.read_text()))
    log = folder / f"log.{generation}"
    if log.exists() and log.stat().st_size > length:
        os.truncate(log, length)
