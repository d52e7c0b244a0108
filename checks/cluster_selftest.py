"""The judge of a round, with a round that is right, and with rounds that are wrong in one thing each."""
import dataclasses

from cluster_hosts import MARK
from cluster_judge import Seen, losses_in, wrong_in


def a_good_round():
    """Three objects stood; of five that were sent a filemark acknowledged four; one key was acknowledged, one was on
    its way and is there."""
    held, second = ([0xA1], (0xA1, 5)), ([12], (12, 5))
    before, sent, more = [b"a", b"b", MARK], [b"c", b"d", b"e", MARK, b"f"], [b"g", MARK]
    found = before + sent[:4]
    return Seen("cut while it writes", before=before, sent=sent, safe=4, read=[found] + [found + more] * 2, more=more,
                given=[10, 11, 12], kept=1, reservations=[[held, second]] * 3, key=0xA1, fenced=["CONFLICT"] * 3,
                beside=[2, 2], late=[("a filemark", "4, 44/00"), ("a key", "no answer")], ends=[0])


def replaced(items, at, item):
    return [*items[:at], item, *items[at + 1:]]


def wrong_rounds():
    """Each mistake, with the round that has it."""
    good = a_good_round()
    first, held = good.read[0], good.reservations[0]

    def other(**fields):
        return dataclasses.replace(good, **fields)

    yield "an acknowledged object is gone", other(read=[first[:6], first[:6] + good.more, first[:6] + good.more])
    yield "all is gone", other(read=[[], good.more, good.more])
    yield "an object is another one", other(read=replaced(good.read, 0, [b"x", *first[1:]]))
    yield "two objects are exchanged", other(read=replaced(good.read, 0, [first[1], first[0], *first[2:]]))
    yield "an object is there twice", other(read=replaced(good.read, 0, [first[0], *first]))
    yield "there is more than was sent", other(read=replaced(good.read, 0, [*good.before, *good.sent, b"f"]))
    yield "the tape cannot be read", other(read=replaced(good.read, 0, "REWIND: 2, 3A/00"))
    yield "the tape cannot be read later", other(read=replaced(good.read, 2, "READ 3: 3, 11/00"))
    yield "what was added is gone later", other(read=replaced(good.read, 2, first))
    yield "an old write lands behind the return", other(read=replaced(good.read, 1, [*good.read[1], b"f"]))
    yield "an old write lands in the middle", other(read=replaced(good.read, 2, [*first, b"x", MARK]))
    yield "a registration of drive 1 is gone", other(reservations=replaced(good.reservations, 0, [([], None), held[1]]))
    yield "a reservation of drive 1 is gone", other(
        reservations=replaced(good.reservations, 1, [([0xA1], None), held[1]]))
    yield "an older key", other(reservations=[[held[0], ([10], (10, 5))]] * 3)
    yield "a key that was not given", other(reservations=[[held[0], ([13], (13, 5))]] * 3)
    yield "another key later", other(reservations=replaced(good.reservations, 2, [held[0], ([11], (11, 5))]))
    yield "the reservations cannot be read", other(reservations=replaced(good.reservations, 2, [None, None]))
    yield "the fence is open", other(fenced=replaced(good.fenced, 0, "GOOD"))
    yield "the fence is open later", other(fenced=replaced(good.fenced, 2, "GOOD"))
    yield "two serve at once", other(beside=[0, 2])
    yield "two serve at once later", other(beside=[2, 0])
    yield "a start beside was not tried", other(beside=[2])
    yield "a filemark is acknowledged beside the new one", other(late=[("a filemark", "GOOD")])
    yield "a filemark is acknowledged behind a load", other(late=[("a filemark behind a load", "GOOD")])
    yield "a key is acknowledged beside the new one", other(late=[("a key", "GOOD")])
    yield "an end that fails", other(ends=[2])
    yield "a look is missing", other(read=good.read[:2])
    yield "the round broke off", other(broken=["no take-over"])


# Of these nothing is lost.
NO_LOSS = ("the fence is open", "the fence is open later", "two serve at once", "two serve at once later",
           "a start beside was not tried", "an end that fails", "a look is missing", "the round broke off")


def failures():
    """What the judge says wrongly, a line each."""
    if said := wrong_in(a_good_round()):
        yield f"a good round is refused: {said}"
    for mistake, seen in wrong_rounds():
        if not wrong_in(seen):
            yield f"passed: {mistake}"
        if bool(losses_in(seen)) == (mistake in NO_LOSS):
            yield f"taken for a loss, or not: {mistake}"


def main():
    found = list(failures())
    print("\n".join(found) or f"the judge refuses each of {len(list(wrong_rounds()))} wrong rounds")
    return 1 if found else 0
