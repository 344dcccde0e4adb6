#!/usr/bin/env python3
"""slurm_node.py [--nodes N] COMMAND ..: runs the command beside a Slurm of this one machine, with the command's status.

Needs munge and slurm-wlm of Debian, and root. munged, slurmctld and slurmd run until the command ends, with a
configuration, a key, a socket, logs and ports of their own, in a folder that is removed. Jobs get 4 cores and 4 GB as
the scheduler counts; nothing holds them to that, and nothing keeps accounts. Where Slurm does not come up within 30
seconds the status is 77 and one line says why.

With --nodes each of N nodes is a host of its own as far as the network and its name go: a slurmd in a network namespace
and a UTS namespace, joined by a bridge (iproute2), of 2 cores. NODE_SPACES has the names of the namespaces: to kill all
that `ip netns pids` lists of one is to pull a node's plug, which the scheduler sees after some ten seconds."""
import os
import shutil
import signal
import socket
import subprocess
import sys
import tempfile
import time
from pathlib import Path
from typing import NamedTuple

NOT_UP = 77
CONFIGURATION = """
ClusterName=herd
SlurmctldHost={host}({address})
SlurmctldPort={ports[0]}
SlurmdPort={ports[1]}
AuthType=auth/munge
AuthInfo=socket={folder}/munge.socket
SlurmUser=root
StateSaveLocation={folder}/state
SlurmdSpoolDir={folder}/spool.%n
SlurmctldPidFile={folder}/slurmctld.pid
SlurmdPidFile={folder}/slurmd.%n.pid
SlurmdTimeout=10
ProctrackType=proctrack/linuxproc
TaskPlugin=task/none
SelectType=select/cons_tres
SelectTypeParameters=CR_Core_Memory
AccountingStorageType=accounting_storage/none
JobAcctGatherType=jobacct_gather/linux
JobAcctGatherFrequency=1
SlurmdParameters=config_overrides
SchedulerParameters=bf_interval=2,batch_sched_delay=0,sched_interval=2
MpiDefault=none
KillWait=2
ReturnToService=2
{nodes}
PartitionName=all Nodes=ALL Default=YES MaxTime=60 State=UP
"""
NODE = "NodeName={name} NodeAddr={address} CPUs={cores} RealMemory=4000"


class Node(NamedTuple):
    """A node, and the namespace of its network, where it has one of its own."""

    name: str
    address: str
    space: str | None


def nodes_of(count):
    """This machine as one node, or so many of their own."""
    if count == 0:
        return [Node(socket.gethostname().split(".")[0], "127.0.0.1", None)]
    return [Node(f"den{number}", f"10.213.{os.getpid() % 256}.{number + 1}", f"herd{os.getpid()}-{number}")
            for number in range(1, count + 1)]


class Network:
    """A bridge of this machine to the nodes' namespaces."""

    def __init__(self, nodes):
        self.nodes, self.bridge = [node for node in nodes if node.space], f"herd{os.getpid()}"
        self.address = f"{self.nodes[0].address.rpartition('.')[0]}.1" if self.nodes else "127.0.0.1"

    def ip(self, words, space=None):
        inside = ["-n", space] if space else []
        subprocess.run(["ip", *inside, *words.split()], check=True, stdout=subprocess.DEVNULL, stderr=subprocess.PIPE)

    def lay(self):
        """Makes the bridge, and a line from it into each namespace."""
        if not self.nodes:
            return
        self.ip(f"link add {self.bridge} type bridge")
        self.ip(f"address add {self.address}/24 dev {self.bridge}")
        self.ip(f"link set {self.bridge} up")
        for number, node in enumerate(self.nodes):
            end = f"v{os.getpid()}-{number}"
            self.ip(f"netns add {node.space}")
            self.ip(f"link add {end} type veth peer name eth0 netns {node.space}")
            self.ip(f"link set {end} master {self.bridge} up")
            self.ip(f"address add {node.address}/24 dev eth0", node.space)
            for device in ("eth0", "lo"):
                self.ip(f"link set {device} up", node.space)

    def remove(self):
        for node in self.nodes:
            subprocess.run(["ip", "netns", "delete", node.space], stderr=subprocess.DEVNULL)
        if self.nodes:
            subprocess.run(["ip", "link", "delete", self.bridge], stderr=subprocess.DEVNULL)


def free_ports(count):
    """Ports of the loopback that nobody listens on."""
    sockets = [socket.create_server(("127.0.0.1", 0)) for _ in range(count)]
    ports = [each.getsockname()[1] for each in sockets]
    for each in sockets:
        each.close()
    return ports


def configure(folder, nodes, address):
    """Writes the configuration and the key."""
    host = socket.gethostname().split(".")[0]
    (folder / "state").mkdir()
    lines = [NODE.format(name=node.name, address=node.address, cores=2 if node.space else 4) for node in nodes]
    (folder / "slurm.conf").write_text(CONFIGURATION.format(
        host=host, address=address, folder=folder, ports=free_ports(2), nodes="\n".join(lines)))
    key = folder / "munge.key"
    key.touch(0o600)
    key.write_bytes(os.urandom(128))


def commands(folder, nodes):
    """What is started, in order, by the name of its log."""
    munge = [f"--{name}={folder}/munge.{end}" for name, end in
             [("key-file", "key"), ("socket", "socket"), ("pid-file", "pid"), ("seed-file", "seed")]]
    yield "munged", ["munged", "--foreground", "--force", *munge]
    yield "slurmctld", ["slurmctld", "-D", "-f", f"{folder}/slurm.conf"]
    for node in nodes:
        daemon = ["slurmd", "-D", "-N", node.name, "-f", f"{folder}/slurm.conf"]
        if node.space:
            # `ip netns exec` would hide /sys/fs/cgroup, which slurmd wants.
            named = ["unshare", "--uts", "sh", "-c", 'hostname "$0" && exec "$@"', node.name, *daemon]
            daemon = ["nsenter", f"--net=/run/netns/{node.space}", *named]
        yield f"slurmd.{node.name}", daemon


def wait_until(holds, seconds):
    end = time.monotonic() + seconds
    while not holds():
        if time.monotonic() > end:
            return False
        time.sleep(0.2)
    return True


def answer(*words):
    """What a command of Slurm says, or nothing."""
    try:
        return subprocess.run(words, capture_output=True, text=True, timeout=10).stdout.strip()
    except subprocess.TimeoutExpired:
        return ""


class Slurm:
    """The daemons."""

    def __init__(self, folder, nodes):
        self.folder, self.nodes, self.network, self.daemons = folder, nodes, Network(nodes), []

    def __enter__(self):
        self.network.lay()
        configure(self.folder, self.nodes, self.network.address)
        os.environ["SLURM_CONF"] = f"{self.folder}/slurm.conf"
        os.environ["NODE_SPACES"] = " ".join(node.space for node in self.network.nodes)
        end = time.monotonic() + 30
        for name, command in commands(self.folder, self.nodes):
            with open(self.folder / f"{name}.log", "wb") as log:
                self.daemons.append(subprocess.Popen(command, stdin=subprocess.DEVNULL, stdout=log, stderr=log))
            if name == "munged":
                wait_until((self.folder / "munge.socket").exists, 10)
        self.is_up = wait_until(self.is_idle, end - time.monotonic())
        return self

    def is_idle(self):
        return answer("sinfo", "--noheader", "--Node", "--format=%t").split() == ["idle"] * len(self.nodes)

    def fault(self):
        """The last line of each daemon's log."""
        logs = [(path.stem, path.read_text(errors="replace").splitlines()) for path in self.folder.glob("*.log")]
        return "; ".join(f"{name}: {lines[-1]}" for name, lines in logs if lines)

    def __exit__(self, *_):
        if self.is_up:
            answer("scancel", "--partition=all")
            wait_until(lambda: not answer("squeue", "--noheader"), 10)
        for daemon in reversed(self.daemons):
            daemon.terminate()
            try:
                daemon.wait(10)
            except subprocess.TimeoutExpired:
                daemon.kill()
        self.network.remove()


def main():
    words, count = sys.argv[1:], 0
    if words[:1] == ["--nodes"]:
        words, count = words[2:], int(words[1])
    wanted = ["munged", "slurmctld", "slurmd", "sbatch", *(["ip", "unshare"] if count else [])]
    missing = [name for name in wanted if not shutil.which(name)]
    if missing or os.geteuid() != 0:
        print(f"slurm_node.py: {f'no {missing[0]}' if missing else 'not root'}", file=sys.stderr)
        return NOT_UP
    with tempfile.TemporaryDirectory(prefix="slurm.") as folder:
        os.chmod(folder, 0o711)
        try:
            with Slurm(Path(folder), nodes_of(count)) as slurm:
                if not slurm.is_up:
                    print(f"slurm_node.py: Slurm does not come up: {slurm.fault()}", file=sys.stderr)
                    return NOT_UP
                return subprocess.run(words).returncode
        except subprocess.CalledProcessError as fault:
            Network(nodes_of(count)).remove()
            print(f"slurm_node.py: {fault.stderr.decode(errors='replace').strip()}", file=sys.stderr)
            return NOT_UP


if __name__ == "__main__":
    os.environ["PATH"] += ":/usr/sbin"
    signal.signal(signal.SIGTERM, lambda *_: sys.exit(143))
    sys.exit(main())
