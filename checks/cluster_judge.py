"""What a round of a fault and a take-over has to show, and what was wrong in one."""
import dataclasses


@dataclasses.dataclass
class Seen:
    """What the hosts saw in a round. After the fault there are three looks: at the take-over, after the old machine's
    return, and at a new start on the old machine."""
    kind: str
    # The objects that stood before, those that were sent, and how many of these a filemark acknowledged.
    before: list = dataclasses.field(default_factory=list)
    sent: list = dataclasses.field(default_factory=list)
    safe: int = 0
    # What each look read, or the answer where it cannot be read; and what was written and acknowledged between the
    # first and the second.
    read: list = dataclasses.field(default_factory=list)
    more: list = dataclasses.field(default_factory=list)
    # The keys that host 2 gave, from the one that it had on; the place of the last one that was acknowledged; and
    # what each look has of both drives: keys, and the key and the type of the reservation.
    given: list = dataclasses.field(default_factory=list)
    kept: int = 0
    reservations: list = dataclasses.field(default_factory=list)
    # The key of host 1, which holds the reservation of drive 1.
    key: int = 0
    # What a host that was fenced off before the fault was answered, at each look.
    fenced: list = dataclasses.field(default_factory=list)
    # The statuses of starts beside a library that was served: before the fault, and after the return.
    beside: list = dataclasses.field(default_factory=list)
    # What the old process answered once the other one served, and the status of the other one's end.
    late: list = dataclasses.field(default_factory=list)
    ends: list = dataclasses.field(default_factory=list)
    # Why the round broke off.
    broken: list = dataclasses.field(default_factory=list)
    # What nothing is asked of: seconds up to the take-over, the slowest answer, and how the old process went on.
    seconds: float = 0.0
    slowest: float = 0.0
    refusals: list = dataclasses.field(default_factory=list)
    old_end: object = None


LOOKS = 3
# What acknowledges that something is stored; a buffered block and an unload of a failed cartridge do not.
PROMISES = ("a filemark", "a filemark behind a load", "a load", "a key")


def wrong_tape(seen):
    """What is read first is a beginning of what was sent, with all that was acknowledged. Later all of that is there,
    and what was added."""
    whole, least = seen.before + seen.sent, len(seen.before) + seen.safe
    for at, found in enumerate(seen.read):
        if isinstance(found, str):
            yield f"look {at}: the tape cannot be read: {found}"
            continue
        if len(found) < least:
            yield f"look {at}: {least} objects were acknowledged, {len(found)} are there"
        elif found != whole[:len(found)]:
            yield f"look {at}: object {first_other(found, whole)} of {len(found)} is another one"
        if at == 0:
            whole = found + seen.more
            least = len(whole)


def first_other(found, whole):
    """The first object that is another one, or that is too many."""
    return next((at for at, pair in enumerate(zip(found, whole)) if pair[0] != pair[1]), len(whole))


def wrong_reservations(seen):
    """Drive 1 has the key and the reservation of host 1; drive 2 those of host 2, with a key from the last acknowledged
    one on, and the same one at each look."""
    allowed = [([key], (key, 5)) for key in seen.given[seen.kept:]]
    for at, (first, second) in enumerate(seen.reservations):
        if first != ([seen.key], (seen.key, 5)):
            yield f"look {at}: drive 1 has {first}, and key {seen.key} held it"
        if second not in allowed:
            yield f"look {at}: drive 2 has {second}, and none of the keys from {allowed[0][0]} on"
        allowed = [second]


def losses_in(seen):
    """What was acknowledged and is not there, or was acknowledged by a process that served no more; a line each."""
    late = [f"the old process acknowledged {what}" for what, answer in seen.late
            if answer == "GOOD" and what in PROMISES]
    return [*wrong_tape(seen), *wrong_reservations(seen), *late]


def wrong_in(seen):
    """What is wrong in a round, a line each: losses, and what else should not be."""
    found = [*losses_in(seen), *seen.broken]
    if {len(it) for it in (seen.read, seen.reservations, seen.fenced)} != {LOOKS} or len(seen.beside) != 2:
        found.append("not everything was looked at")
    found += [f"a start beside a library that was served ended with {it}" for it in seen.beside if it != 2]
    found += [f"a host that was fenced off was answered {it}" for it in seen.fenced if it != "CONFLICT"]
    found += [f"an end in good order had status {it}" for it in seen.ends if it != 0]
    return found
