"""Rounds in which Pacemaker decides who serves: three machines run it over the resources of examples/cluster, and hosts
speak to the library at the address that moves."""
import os
import shutil
import subprocess
import sys
import time

import cluster_initiator
from cluster_hosts import READY, WATCHER, Served, sense_of
from cluster_judge import Seen
from cluster_machines import wait_for
from cluster_rounds import CUT, KILLED, LOST, ask_late
from cluster_session import Session, make_library, stop

TOP = os.path.dirname(os.path.dirname(os.path.abspath(__file__)))
EXAMPLES = os.path.join(TOP, "examples", "cluster")
AGENTS, ADDRESS, PORT, FOLDER = "/usr/lib/ocf/resource.d", "10.77.0.100", "3000", "/srv/tapes/daily"
SECONDS, SHARES = 600, {KILLED: 2, LOST: 1, CUT: 1}
# Milliseconds after which corosync misses a machine: more than its 3,000, for one whose processors others take.
TOKEN = 10_000
# What each machine of the cluster has in mounts of its own: the programs, the agent, an empty /srv. Then corosync.
PLACES = f"""set -e
mount -t tmpfs tmpfs /usr/local/bin
printf '#!/bin/sh\\nexec %s "$@"\\n' "$0" > /usr/local/bin/vtl
printf '#!/bin/sh\\nexec %s "$@"\\n' "$3/vtl-iscsi" > /usr/local/bin/vtl-iscsi
cp "$1/vtl-socket" /usr/local/bin
chmod 755 /usr/local/bin/*
mount -t overlay -o "lowerdir=$2:{AGENTS}" overlay {AGENTS}
mount -t tmpfs tmpfs /srv
mkdir /srv/tapes
cd /var/lib/pacemaker
mkdir -p blackbox cib cores pengine /run/lock /run/resource-agents
chown hacluster:haclient blackbox cib cores pengine /var/log/pacemaker
chmod 750 blackbox cib cores pengine
corosync
"""
STANDS = """grep /srv/tapes /proc/mounts; tail -n 5 /run/resource-agents/vtl-library.*
ps -eo pid,etime,stat,wchan:20,args | grep -E 'vtl|gluster|fuse|mount'
grep -E 'library|store|Filesystem' /var/log/pacemaker/pacemaker.log | tail -n 60"""
QUIET = {"stdin": subprocess.DEVNULL, "stdout": subprocess.DEVNULL, "stderr": subprocess.DEVNULL,
         "env": {"PATH": "/usr/local/sbin:/usr/local/bin:/usr/sbin:/usr/bin:/sbin:/bin"}}


class Managed:
    """Three machines with Pacemaker before a store, a fourth one that tries to serve beside them, and a host."""

    def __init__(self, store, network, program, seed, iscsi=None):
        self.store, self.program, self.session, self.iscsi = store, program, Session(seed), iscsi
        self.agents = os.path.join(network.room, "agents")
        os.makedirs(os.path.join(self.agents, "vtl"))
        shutil.copy(os.path.join(EXAMPLES, "library"), os.path.join(self.agents, "vtl"))
        self.machines = [network.machine(f"client{at}", 10 + at) for at in (1, 2, 3)]
        self.witness, self.host = network.machine("witness", 20), network.machine("host", 30)
        self.folder = os.path.join(store.mount(self.witness), "daily")
        make_library(self.witness, self.folder, program)
        self.witness.ran("sh", "-c", 'umask 077; printf %s "$0" > "$1"/access.toml', cluster_initiator.access(),
                         self.folder)
        for machine in self.machines:
            self.manage(machine)
        wait_for("the cluster", lambda: self.online() == 3, SECONDS, 1)
        self.ordered("crm", "configure", "load", "update", self.resources(network.room))
        self.session.reserve(self.take_over())

    def resources(self, room):
        """The resources of the example, with the other front end if that is asked for."""
        with open(os.path.join(EXAMPLES, f"{self.store.kind}.crm"), encoding="utf-8") as file:
            text = file.read()
        if self.iscsi:
            text = text.replace(f'folder="{FOLDER}"', f'folder="{FOLDER}" front=vtl-iscsi port={PORT}')
        path = os.path.join(room, "resources.crm")
        with open(path, "w", encoding="utf-8") as file:
            file.write(text)
        return path

    def a_kind(self):
        return self.session.chance.choices(list(SHARES), list(SHARES.values()))[0]

    def manage(self, machine):
        """Starts corosync and Pacemaker on a machine."""
        self.store.prepare(machine)
        with open(os.path.join(EXAMPLES, "corosync.conf"), encoding="utf-8") as file:
            patient = file.read().replace("totem {", f"totem {{\n    token: {TOKEN}")
        with open(machine.own("/etc/corosync/corosync.conf"), "w", encoding="utf-8") as file:
            file.write(patient)
        machine.ran("sh", "-c", PLACES, self.program, EXAMPLES, self.agents, self.iscsi or "")
        machine.popen("pacemakerd", **QUIET)

    def ordered(self, *words, check=True):
        """What an order of the administrator's prints, given at a machine that runs and is not cut off."""
        return next(it for it in self.machines if it.is_joined).ran(*words, check=check)

    def online(self):
        said = self.ordered("crm_mon", "-1", check=False).partition("Online: [")[2].partition("]")[0]
        return len(said.split())

    def active(self):
        """The machine on which the library is started, as Pacemaker says."""
        said = self.ordered("crm_resource", "--locate", "--resource", "library", check=False)
        return next((it for it in self.machines if f"running on: {it.name}" in said), None)

    def connected(self, machine, address):
        if self.iscsi:
            return Served(machine, [sys.executable, cluster_initiator.__file__, os.path.join(self.iscsi, "tests"),
                                    address, PORT])
        return Served(machine, [os.path.join(EXAMPLES, "vtl-socket"), "connect", address, PORT])

    def take_over(self):
        """A connection of the host to the library that answers at the address."""
        begun = time.monotonic()
        while time.monotonic() - begun < SECONDS:
            served = self.connected(self.host, ADDRESS)
            if sense_of(served.ask(READY, host=WATCHER, seconds=5))[:2] in ("6,", "2,", "GO"):
                return served
            served.kill()
            time.sleep(0.2)
        raise OSError(f"nobody serves within {SECONDS} s: {self.ordered('crm_mon', '-1rf')}")

    def beside(self):
        return Served(self.witness, [self.program, "serve", "--config", "library.toml"], self.folder).end()

    def round(self, kind):
        """A round with this fault; what was seen in it, up to where it broke off."""
        seen = Seen(kind)
        try:
            self.go_through(seen)
        except OSError as error:
            seen.broken.append(str(error))
        return seen

    def go_through(self, seen):
        wait_for("all machines", lambda: self.online() == 3 and self.active(), SECONDS, 1)
        machine, old, session = self.active(), self.take_over(), self.session
        hosts = session.begin(seen, old)
        seen.beside.append(self.beside())
        begun = self.strike(seen.kind, machine, hosts)
        new = self.take_over()
        seen.seconds = time.monotonic() - begun
        session.look(seen, new)
        session.add(seen, new)
        self.end_old(seen, machine, old)
        stop(hosts)
        session.note(seen, hosts)
        session.look(seen, new)
        seen.beside.append(self.beside())
        new.end()
        self.hand_over()
        last = self.take_over()
        session.look(seen, last)
        last.end()
        session.end(seen)

    def evidence(self):
        """What Pacemaker says, and of each machine that runs what stands and runs there."""
        return "\n".join([self.ordered("crm_mon", "-1rf"), *(
            f"{it.name}:\n{it.ran('sh', '-c', STANDS, check=False)}" for it in self.machines if it.first)])

    def strike(self, kind, machine, hosts):
        """Makes the fault while hosts write, and gives its time."""
        for host in hosts:
            host.start()
        time.sleep(self.session.chance.uniform(0.3, 2))
        begun = time.monotonic()
        if kind == CUT:
            machine.cut()
        elif kind == LOST:
            machine.lose()
        else:
            machine.ran("sh", "-c", 'kill -s KILL -- "-$(cut -d " " -f 1 /run/resource-agents/vtl-library.group)"')
        return begun

    def end_old(self, seen, machine, old):
        """The machine comes back, and joins the cluster. Beside the new one a program that still runs there is asked
        what it must not acknowledge any more."""
        if seen.kind == CUT:
            machine.join()
            seen.late = ask_late(self.connected(machine, "127.0.0.1"))
        elif seen.kind == LOST:
            machine.start()
            self.manage(machine)
        old.kill()
        wait_for("the return", lambda: self.online() == 3, SECONDS, 1)

    def hand_over(self):
        """Moves the library to another machine in good order, once the failures of the round are forgotten."""
        self.ordered("crm_resource", "--cleanup", "--resource", "tapes")
        other = next(it for it in self.machines if it is not self.active())
        self.ordered("crm_resource", "--move", "--resource", "tapes", "--node", other.name)
        wait_for("the move", lambda: self.active() is other, SECONDS, 0.5)
        self.ordered("crm_resource", "--clear", "--resource", "tapes")
