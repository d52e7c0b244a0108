"""Unit attention conditions that this front end establishes, and reports that it took in a host's place (SPC-4, 5.14).

A drive has its own. What is owed here is reported before a command goes there, one a command."""
from .hosts import MOST
from .sense import NEXUS_LOST, POWER_ON, UNIT_RESET, Reply

CHANGER = 0


class Attentions:
    def __init__(self) -> None:
        self._owed: dict[tuple[int, int], list[bytes]] = {}
        # hosts that have met the power on condition of a unit
        self._met: set[tuple[int, int]] = set()

    def power_on(self) -> None:
        """Of every unit: the drives report it by themselves."""
        self._met.clear()
        self._owed = {(number, CHANGER): [POWER_ON] for number in range(1, MOST + 1)}

    def owe(self, number: int, unit: int, sense: bytes) -> None:
        owed = self._owed.setdefault((number, unit), [])
        if sense not in owed:
            owed.insert(0 if sense == POWER_ON else len(owed), sense)

    def was_reset(self, unit: int) -> None:
        for number in range(1, MOST + 1):
            if (number, unit) in self._met:
                self.owe(number, unit, UNIT_RESET)

    def lost(self, number: int) -> None:
        """The nexus of a host is lost. Who has not met power on yet has nothing to lose."""
        for other, unit in list(self._met):
            if other == number:
                self.owe(number, unit, NEXUS_LOST)

    def changed(self, unit: int, sense: bytes, but: int) -> None:
        """For every other host that has met power on."""
        for number, other in list(self._met):
            if other == unit and number != but:
                self.owe(number, unit, sense)

    def take(self, number: int, unit: int) -> bytes | None:
        """The first that is owed, which is cleared as it is reported."""
        owed = self._owed.get((number, unit))
        return self._noted(number, unit, owed.pop(0)) if owed else None

    def reported(self, number: int, unit: int, reply: Reply) -> None:
        """What a drive has answered a host."""
        if reply.sense:
            self._noted(number, unit, reply.sense)

    def _noted(self, number: int, unit: int, sense: bytes) -> bytes:
        if sense == POWER_ON:
            self._met.add((number, unit))
        return sense
