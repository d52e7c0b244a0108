"""CephFS over one monitor, a manager, three object stores and two metadata servers on three machines, as
examples/cluster/ceph.sh makes it."""
import json
import os
from subprocess import DEVNULL

from cluster_machines import wait_for

EXAMPLES = os.path.join(os.path.dirname(os.path.dirname(os.path.abspath(__file__))), "examples", "cluster")
SECONDS, METADATA = 300, ("", "two", "three")
WATCHED = 'while sleep 10; do pgrep -x ceph-osd || ceph-osd -i "$0"; done'
# What the check adds, for files in the place of disks and for a small memory.
SMALL = """mon_data_avail_warn = 1
mon_data_avail_crit = 0
osd_pool_default_pg_autoscale_mode = off
bluestore_block_size = 6442450944
bluestore_cache_autotune = false
bluestore_cache_size = 67108864
osd_memory_target = 939524096
mgr_initial_modules =
"""


class Ceph:
    """Three servers and their file system; the first has the monitor and the manager, which are not lost."""
    name, kind, mortal, evicts = "CephFS", "ceph", (1, 2), True

    def __init__(self, network, without=()):
        self.without = list(without)
        self.servers = [network.machine(f"server{at}", at) for at in (1, 2, 3)]
        self.monitor = self.servers[0]
        with open(os.path.join(EXAMPLES, "ceph.conf"), encoding="utf-8") as file:
            self.config = "".join(it for it in file if it.partition(" =")[0] not in without) + SMALL
        self.has("ceph.conf", self.monitor, self.config)
        self.script(self.monitor, "monitor")
        for at, server in enumerate(self.servers):
            self.prepare(server)
            self.script(server, "store", str(at))
            self.watch(server, at)
        for server, name in zip(self.servers[1:], METADATA[1:]):
            self.script(server, "metadata", name)
        self.script(self.monitor, "files")
        wait_for("the file system", lambda: "up:active" in self.ordered("mds", "stat"), SECONDS)
        self.wait_until_whole()

    def script(self, machine, *words):
        machine.ran("sh", os.path.join(EXAMPLES, "ceph.sh"), *words)

    def ordered(self, *words):
        return self.monitor.ran("ceph", "--connect-timeout", "60", *words)

    def has(self, name, machine, text):
        with open(machine.own(f"/etc/ceph/{name}"), "w", encoding="utf-8") as file:
            file.write(text)

    def prepare(self, machine):
        """Gives a machine the cluster's configuration and the admin's key."""
        with open(self.monitor.own("/etc/ceph/ceph.client.admin.keyring"), encoding="utf-8") as file:
            key = file.read()
        self.has("ceph.conf", machine, self.config)
        self.has("ceph.client.admin.keyring", machine, key)

    def lose_server(self, at):
        self.servers[at].lose()

    def return_server(self, at):
        self.servers[at].start()
        self.script(self.servers[at], "again", str(at), METADATA[at])
        self.watch(self.servers[at], at)

    def watch(self, server, at):
        """Starts an object store again that ended, as its unit of systemd does: it may abort as peers come and go."""
        server.popen("sh", "-c", WATCHED, str(at), stdin=DEVNULL, stdout=DEVNULL, stderr=DEVNULL)

    def is_whole(self):
        """Whether each object store is up, and every placement group has all its copies."""
        status = json.loads(self.ordered("status", "--format", "json"))
        groups = status["pgmap"].get("pgs_by_state", [])
        clean = sum(it["count"] for it in groups if it["state_name"] == "active+clean")
        return status["osdmap"]["num_up_osds"] == 3 and clean == status["pgmap"]["num_pgs"] > 0

    def wait_until_whole(self):
        return wait_for("a whole store", self.is_whole, SECONDS, 1)

    def heal(self):
        """The store copies what a server missed by itself."""
        self.wait_until_whole()

    def mount(self, machine):
        folder = os.path.join(machine.folder, "tapes")
        os.makedirs(folder, exist_ok=True)
        self.prepare(machine)
        machine.ran("ceph-fuse", folder)
        return folder

    def evict(self, machine):
        """Ends the clients of a machine by hand, whichever they are."""
        active = next(it["name"] for it in json.loads(self.ordered("fs", "status", "--format", "json"))["mdsmap"]
                      if it["state"] == "active")
        for client in json.loads(self.ordered("tell", f"mds.{active}", "client", "ls", "--format", "json")):
            if client["client_metadata"].get("hostname") == machine.name:
                self.ordered("tell", f"mds.{active}", "client", "evict", f"id={client['id']}")
