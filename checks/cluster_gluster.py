"""A GlusterFS volume of three replicas on three machines, with the terms of docs/CLUSTER.md or with the defaults."""
import os

from cluster_machines import wait_for

MOUNTED = "direct-io-mode=enable,attribute-timeout=0,entry-timeout=0"
TERMS = {"performance.quick-read": "off", "performance.stat-prefetch": "off", "client.strict-locks": "on",
         "cluster.quorum-type": "auto", "cluster.server-quorum-type": "server", "network.ping-timeout": "5",
         "cluster.eager-lock": "off", "cluster.post-op-delay-secs": "0"}
VOLUME, SECONDS = "tapes", 300
GEO_REPLICATION = "/usr/lib/x86_64-linux-gnu/glusterfs/gsyncd"


class Gluster:
    """Three servers and their volume."""
    name, kind, mortal, evicts = "GlusterFS", "gluster", (0, 1, 2), False

    def __init__(self, network, defaults=False, without=()):
        self.defaults, self.without = defaults, ["any term"] if defaults else list(without)
        self.servers = [network.machine(f"server{at}", at) for at in (1, 2, 3)]
        for server in self.servers:
            self.serve(server)
        for other in self.servers[1:]:
            self.ordered("peer", "probe", other.address)
        wait_for("the peers", lambda: self.ordered("peer", "status").count("Peer in Cluster (Connected)") == 2, SECONDS)
        bricks = [f"{server.address}:{server.folder}/brick" for server in self.servers]
        self.ordered("volume", "create", VOLUME, "replica", "3", *bricks, "force")
        for option, value in ({} if defaults else TERMS).items():
            if option not in without:
                self.ordered("volume", "set", VOLUME, option, value)
        self.ordered("volume", "start", VOLUME)
        self.wait_until_whole()

    def ordered(self, *words, check=True):
        """What an order of the administrator's, given at a server that runs, prints."""
        server = next(it for it in self.servers if it.first)
        return server.ran("gluster", "--mode=script", "--timeout=600", *words, check=check)

    def serve(self, server):
        """Starts the daemon. The program of geo-replication, which nobody uses and which is started some twenty times,
        only gives its name."""
        fake = server.own("/run/gsyncd")
        with open(fake, "w", encoding="ascii") as file:
            file.write("#!/bin/sh\necho gsyncd 10.3\n")
        os.chmod(fake, 0o755)
        server.ran("mount", "--bind", fake, GEO_REPLICATION)
        server.ran("glusterd")
        wait_for("glusterd", lambda: "Number of Peers" in server.ran("gluster", "peer", "status", check=False), SECONDS)

    def lose_server(self, at):
        self.servers[at].lose()

    def return_server(self, at):
        self.servers[at].start()
        self.serve(self.servers[at])

    def is_whole(self):
        """Whether each brick is served, and none has anything to heal."""
        status = self.ordered("volume", "status", VOLUME)
        found = self.ordered("volume", "heal", VOLUME, "info")
        bricks = [line for line in status.splitlines() if line.startswith("Brick") or " Y " in line]
        online = sum(" Y " in line for line in bricks)
        return online >= 3 and found.count("Number of entries: 0") == 3

    def wait_until_whole(self):
        return wait_for("a whole volume", self.is_whole, SECONDS, 1)

    def heal(self):
        """Copies what a server missed; the program was started anew since, and its files are open at each server. The
        order is refused while a server is not ready for it."""
        wait_for("a whole volume", lambda: self.asked_to_heal() and self.is_whole(),
                 SECONDS, 2)

    def asked_to_heal(self):
        self.ordered("volume", "heal", VOLUME, check=False)
        return True

    def prepare(self, machine):
        """What a machine needs beside its packages: nothing."""

    def mount(self, machine):
        """Mounts the volume, where the machine's own folder has `tapes`."""
        folder = os.path.join(machine.folder, "tapes")
        os.makedirs(folder, exist_ok=True)
        first, *others = (it.address for it in self.servers)
        options = [f"backup-volfile-servers={':'.join(others)}"] + ([] if self.defaults else [MOUNTED])
        machine.ran("mount", "-t", "glusterfs", "-o", ",".join(options), f"{first}:/{VOLUME}", folder)
        return folder
