"""What this front end asks of today's `vtl serve`, and will ask of one that can be operated, in one place.

Today a start loads each cartridge whose home is a drive, so each is unloaded here before a host is admitted; a move is
nobody's and waits for all commands before it; how full a cartridge is no frame says. With `--unloaded`, moves of a
host and status frames these three functions change, and nothing above them."""
from .served import Served, Then

# a start leaves the cartridges in drives loaded
STARTS_LOADED = True


def words(program: str, configuration: str) -> list[str]:
    return [program, "serve", "--explain", "--config", configuration]


def move(served: Served, _host: int, source: int, destination: int, then: Then) -> None:
    """Of the host, once a move can name one."""
    served.move(source, destination, then)


def places(served: Served, then: Then) -> None:
    """What stands where, as an inventory; once there is one a status, with capacities and what they hold."""
    served.inventory(then)
