"""Rounds of a fault and a take-over: a library is served on one machine, which is hit, and the other one goes on."""
import os
import time

from cluster_hosts import KEEPER, LOAD, MARK, READY, REGISTER, UNLOAD, WATCHER, Served, sense_of, write_of
from cluster_judge import Seen
from cluster_session import Session, make_library, stop

KILLED, LOST, BY_HAND, SERVER, SECOND, CUT, CUT_IDLE = (
    "program killed", "machine lost", "machine lost, ended by hand", "server lost", "server back, another lost",
    "cut while it writes", "cut while idle")
# How many rounds of twenty each fault has.
SHARES = {KILLED: 6, LOST: 2, BY_HAND: 2, SERVER: 2, SECOND: 2, CUT: 3, CUT_IDLE: 3}
LONGEST, PATIENCE = 600, 200
# A server that was lost comes back if nobody can serve for so many seconds.
NEEDED = 120
# A library is made anew after so many rounds, so that its tape stays short.
ROUNDS_OF_A_LIBRARY = 6


class Rounds:
    """Two machines before a store, and the library that one of them serves."""
    iscsi = None

    def __init__(self, store, network, program, seed):
        self.store, self.program, self.session = store, program, Session(seed)
        self.chance = self.session.chance
        self.machines = [network.machine(f"client{at}", 10 + at) for at in (1, 2)]
        self.folders = {machine.name: store.mount(machine) for machine in self.machines}
        self.served, self.made, self.lost = None, 0, None

    def a_kind(self):
        shares = {kind: share for kind, share in SHARES.items() if kind != BY_HAND or self.store.evicts}
        return self.chance.choices(list(shares), list(shares.values()))[0]

    def folder(self, machine):
        return os.path.join(self.folders[machine.name], f"library{self.made // ROUNDS_OF_A_LIBRARY}")

    def new_library(self):
        if self.served and self.served.end() != 0:
            raise OSError("a library that is given up does not end well")
        machine = self.chance.choice(self.machines)
        make_library(machine, self.folder(machine), self.program)
        self.served = self.started(machine)
        self.session.reserve(self.served)

    def started(self, machine):
        return Served(machine, [self.program, "serve", "--config", "library.toml"], self.folder(machine))

    def take_over(self, machine):
        """Starts on this machine until a start is not refused, as the cluster's agent does. Where two servers were lost
        the last one may be needed, and a start may wait for it."""
        begun = time.monotonic()
        while time.monotonic() - begun < LONGEST:
            served = self.started(machine)
            tag = served.send(READY, host=WATCHER)
            answer = served.answer(tag, max(0, begun + NEEDED - time.monotonic()))
            if time.monotonic() - begun >= NEEDED:
                self.return_server()
            if sense_of(answer or served.answer(tag, LONGEST)) == "6, 29/00":
                return served
            status = served.end(PATIENCE)
            if status != 2:
                raise OSError(f"a start that waits for the lock ended with status {status}")
            time.sleep(0.2)
        raise OSError(f"no take-over within {LONGEST} s")

    def round(self, kind):
        """A round with this fault; what was seen in it, up to where it broke off."""
        seen = Seen(kind)
        try:
            if self.made % ROUNDS_OF_A_LIBRARY == 0:
                self.new_library()
            self.go_through(seen)
        except OSError as error:
            seen.broken.append(str(error))
        return seen

    def go_through(self, seen):
        session, old = self.session, self.served
        other = next(it for it in self.machines if it is not old.machine)
        hosts = session.begin(seen, old)
        seen.beside.append(self.started(other).end(PATIENCE))
        begun = self.strike(seen.kind, old, hosts)
        new = self.take_over(other)
        seen.seconds = time.monotonic() - begun
        session.look(seen, new)
        session.note(seen, hosts)
        session.add(seen, new)
        self.end_old(seen, old, hosts)
        session.note(seen, hosts)
        session.look(seen, new)
        seen.beside.append(self.started(old.machine).end(PATIENCE))
        seen.ends.append(new.end(PATIENCE))
        self.served = self.take_over(old.machine)
        session.look(seen, self.served)
        session.end(seen)
        if seen.kind in (SERVER, SECOND):
            self.store.heal()
        self.made += 1

    def evidence(self):
        """What `vtl check` says of the library's files on each machine, once it is not served, and what these are."""
        if self.served:
            self.served.end()
        words = ("sh", "-c", 'cd "$0"; ls -l; for it in t1.tape d1.pr d2.pr; do "$1" check "$it"; done; md5sum *')
        return "\n".join(it.ran(*words, self.folder(it), self.program, check=False, seconds=PATIENCE)
                         for it in self.machines if it.first)

    def strike(self, kind, old, hosts):
        """Makes the fault while hosts write, or have just written, and gives its time."""
        for host in hosts:
            host.start()
        time.sleep(self.chance.uniform(0.3, 2))
        if kind in (SERVER, SECOND):
            self.lose_server(kind == SECOND)
        if kind == CUT_IDLE:
            stop(hosts)
            time.sleep(self.chance.uniform(0, 4))
        begun = time.monotonic()
        if kind in (CUT, CUT_IDLE):
            old.machine.cut()
        elif kind in (LOST, BY_HAND):
            old.machine.lose()
        else:
            old.kill()
        if kind == BY_HAND:
            self.store.evict(old.machine)
        return begun

    def lose_server(self, has_second):
        """A server is lost while hosts write, who go on; it comes back now, or after the take-over. Where it does,
        another one may be lost soon after."""
        self.lost, second = self.chance.sample(self.store.mortal, 2)
        self.store.lose_server(self.lost)
        time.sleep(self.chance.uniform(1, 15))
        if has_second or self.chance.random() < 0.5:
            self.return_server()
            time.sleep(self.chance.uniform(0, 3))
        if has_second:
            self.lost = second
            self.store.lose_server(second)
            time.sleep(self.chance.uniform(0, 10))

    def return_server(self):
        if self.lost is not None:
            self.store.return_server(self.lost)
            self.lost = None

    def end_old(self, seen, old, hosts):
        """The old machine comes back, and its program is asked for what it must not acknowledge any more. Then the
        machine is started anew."""
        if seen.kind in (CUT, CUT_IDLE):
            old.machine.join()
            # before its mount has found the store again, and behind that
            time.sleep(self.chance.choice((0, 10, 25)))
            stop(hosts)
            seen.late = ask_late(old, self.chance.random() < 0.3)
            seen.old_end = old.end(PATIENCE)
        stop(hosts)
        self.return_server()
        if seen.kind not in (KILLED, SERVER, SECOND):
            old.machine.lose()
            old.machine.start()
            self.folders[old.machine.name] = self.store.mount(old.machine)
        old.end(PATIENCE)


def ask_late(old, is_loaded=False):
    """What the old process answers beside the new one. Where its cartridge does not stay loaded it is loaded anew,
    since that heals a failed one."""
    asked = [("a block", write_of(b"late")), ("a filemark", [MARK])]
    if not is_loaded:
        asked += [("an unload", [UNLOAD]), ("a load", [LOAD]), ("a filemark behind a load", [MARK])]
    late = [(what, sense_of(old.greeted(*command, seconds=PATIENCE))) for what, command in asked]
    return [*late, ("a key", sense_of(old.order(REGISTER, 0, 1, KEEPER, 2, seconds=PATIENCE)))]
