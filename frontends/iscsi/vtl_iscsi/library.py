"""The library's configuration, and where each cartridge is.

The configuration says what the library has. Where hosts moved a cartridge to is kept in the file `places`, and `vtl` is
started over a configuration that is written here, with each cartridge's last place as its home. So nothing has to be
moved at a start, and no reservation refuses it."""
import json
import tomllib
from dataclasses import dataclass, field
from typing import Any

from .folder import Folder

PLACES, WRITTEN = "places.json", "served.toml"
FIRST_SLOT, SLOTS = 1001, 256


class Refused(Exception):
    """A file that cannot be used as it stands; the text says which, and why."""


@dataclass
class Cartridge:
    barcode: str
    file: str
    capacities: list[int]
    # its element address, and the slot that it came from, 0 where none is known
    at: int
    source: int = 0
    # sense code and qualifier of its last load, where that was refused
    refusal: tuple[int, int] | None = None


@dataclass
class Library:
    folder: Folder
    # number and file of reservations of each drive
    drives: dict[int, str]
    cartridges: dict[str, Cartridge]
    # the drives with a cartridge that is loaded, as far as answers have said
    loaded: set[int] = field(default_factory=set)

    def is_element(self, address: int) -> bool:
        return address in self.drives or FIRST_SLOT <= address < FIRST_SLOT + SLOTS

    def at(self, address: int) -> Cartridge | None:
        return next((it for it in self.cartridges.values() if it.at == address), None)

    def moved(self, source: int, destination: int) -> None:
        """A move that was answered GOOD, which is kept before the host hears of it."""
        cartridge = self.at(source)
        if not cartridge:
            return
        cartridge.at, cartridge.refusal = destination, None
        if source >= FIRST_SLOT:
            cartridge.source = source
        self.loaded.discard(source)
        if destination in self.drives:
            self.loaded.add(destination)
        self.keep()

    def keep(self) -> None:
        self.folder.keep(PLACES, {it.barcode: [it.at, it.source] for it in self.cartridges.values()})

    def write(self) -> str:
        """Writes the configuration that `vtl` is started over; its name."""
        lines = [f"[[drive]]\nnumber = {number}\nreservations = {_text(file)}\n"
                 for number, file in self.drives.items()]
        lines += [f"[[cartridge]]\nbarcode = {_text(it.barcode)}\nfile = {_text(it.file)}\n"
                  f"capacities = {it.capacities}\nhome = {it.at}\n" for it in self.cartridges.values()]
        self.folder.write(WRITTEN, "\n".join(lines))
        return self.folder.of(WRITTEN)


def _text(value: str) -> str:
    """A basic string of TOML: one of JSON, but for a byte that TOML wants escaped."""
    return json.dumps(value, ensure_ascii=False).replace("\x7f", "\\u007f")


def _entries(document: dict[str, Any], name: str, kinds: dict[str, type]) -> list[dict[str, Any]]:
    found = document.get(name, [])
    if not isinstance(found, list) or not all(isinstance(it, dict) and set(it) == set(kinds) and all(
            type(it[key]) is kind for key, kind in kinds.items()) for it in found):
        raise Refused(f"a {name} entry has another key or value than {', '.join(kinds)}; `vtl create` says which")
    return found


def _placed(cartridges: dict[str, Cartridge], places: dict[str, list[int]]) -> None:
    for barcode, (at, source) in places.items():
        if barcode in cartridges:
            cartridges[barcode].at, cartridges[barcode].source = at, source
    taken: dict[int, str] = {}
    for it in cartridges.values():
        if it.at in taken:
            raise Refused(f"{it.barcode} and {taken[it.at]} are both at {it.at}: a host moved one of them there; give "
                          "the other another home")
        taken[it.at] = it.barcode


def read_library(path: str, folder: Folder) -> Library:
    try:
        with open(path, "rb") as file:
            document = tomllib.load(file)
    except (tomllib.TOMLDecodeError, UnicodeDecodeError) as error:
        raise Refused(f"{path}: {error}") from error
    drives = {it["number"]: it["reservations"] for it in _entries(document, "drive", {
        "number": int, "reservations": str})}
    cartridges = {it["barcode"]: Cartridge(it["barcode"], it["file"], it["capacities"], it["home"])
                  for it in _entries(document, "cartridge", {
                      "barcode": str, "file": str, "capacities": list, "home": int})}
    _placed(cartridges, folder.read(PLACES) or {})
    library = Library(folder, dict(sorted(drives.items())), cartridges)
    if not drives:
        raise Refused(f"{path}: there is no drive")
    for it in cartridges.values():
        if not library.is_element(it.at):
            raise Refused(f"{it.barcode} is at {it.at}, which is no drive and no slot of the configuration")
    return library
