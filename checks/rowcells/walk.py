"""Goes through a row as the model has it: the cells that it shows, and where its answers are not those of the model."""
import os
import re
import sys

sys.path.insert(0, os.path.dirname(os.path.dirname(os.path.abspath(__file__))))
import rowfile  # noqa: E402

from . import sides, words  # noqa: E402
from .folder import FOLDER, Differs, Folder, Link, is_paired, is_possible  # noqa: E402
from .library import Library, stripped  # noqa: E402
from .work import Cartridge  # noqa: E402

BUILT_IN = {"drive": [{"number": 1, "reservations": "drive1.pr"}],
            "cartridge": [{"barcode": "BUILTIN", "file": "builtin.tape", "capacities": [16_777_216], "home": 1}]}
DEVICE = "vtl: device fault"


def names_nul(config):
    """Whether a name of the configuration has a NUL."""
    return any("\0" in name for name in [*(it["file"] for it in config["cartridge"]),
                                         *(it["reservations"] for it in config["drive"])])


class Walk(Folder):
    """A row that is gone through."""

    def all(self):
        try:
            for step in self.row.steps:
                self.number = step.number
                if isinstance(step, rowfile.Run):
                    self.run(step)
                else:
                    self.step(step)
        except Differs as differs:
            self.said.append(f"{self.row.path}:{differs.number}: {differs}")
        return self

    # runs

    def run(self, run):
        asked = words.read(run.words)
        for cell in asked.cells:
            self.see(cell)
        if asked.kind == "refused":
            named = [self.folder.get(os.path.normpath(it.rpartition(b"=")[2] or b".")) for it in run.words]
            for it in named:
                if isinstance(it, bytes) and words.config_faults(it)[1]:
                    self.see("faults | 1 before 2")
            self.ends(run, 1, "vtl: command line refused", "the words ask for nothing", [])
        elif asked.kind == "help":
            self.ends(run, 0, None, "done")
        elif asked.kind == "check" and asked.config is None:
            self.check(run, asked.file)
        elif asked.kind == "reclaim":
            self.reclaim(run, asked)
        else:
            self.configured(run, asked)

    def ends(self, run, status, error, cause, output=None):
        found = run.error.decode(errors="replace") if run.error is not None else None
        if (run.status, found) != (status, error):
            raise Differs(run.number, f"ends with {status} {error or ''} as the model has it: {cause}")
        if output is not None and [text.decode(errors="replace") for _, text in run.output] != output:
            raise Differs(run.number, f"the output is {output}, as the model has it")
        self.see(f"exit | {cause}")

    def check(self, run, name):
        entry, second = self.pair(os.fsdecode(name))
        if entry is None or FOLDER in (entry, second):
            self.see(f"check | {'a folder' if entry else 'no file'}")
            self.ends(run, 2, DEVICE, "a file is missing", [])
            return
        try:
            side, notes, which = sides.read_pair(entry, second)
            if (entry, second)[which] is side:
                said = [text.decode() for _, text in run.output]
                frames = re.search(r" frames (\d+)", said[0]) if said else None
                self.see(f"check | a {side.kind} that a run left")
                self.ends(run, 0, None, "done", side.lines(int(frames[1]) if frames else 0))
                return
        except sides.Refused as why:
            self.see(f"file | {why.line.partition(' at ')[0]}: {why.why}")
            self.see(f"damaged | check | {why.line.partition(' at ')[0]}")
            self.ends(run, 1, None, "check: the file is neither", [why.line])
            return
        for note in [*notes, f"a {side.kind} of {'no' if not side.frames else 'some'} frames"]:
            self.see(f"file | {note}")
        self.ends(run, 0, None, "done", side.lines(side.frames))

    def check_all(self, run, config):
        """Each cartridge and then each drive; the first that is not whole decides."""
        said, ends = [], []
        for kind, what in (("cartridge", "cartridge"), ("store", "drive")):
            for entry in config[what]:
                name = entry["file" if kind == "cartridge" else "reservations"]
                label = entry["barcode"] if kind == "cartridge" else f"DRIVE{entry['number']}"
                said.append(f"{label} {name}")
                lines, end = self.checked(run, name, kind, label, len(said))
                said += lines
                ends.append(end)
        wrong = [end for end in ends if end]
        if len(set(wrong)) > 1:
            self.see("check of a configuration | the first that is not whole decides")
        if not wrong:
            self.ends(run, 0, None, "done", said)
        elif wrong[0] == 1:
            self.ends(run, 1, None, "check: the file is neither", said)
        else:
            self.ends(run, 2, DEVICE, "a file is missing", said)

    def checked(self, run, name, kind, label, at):
        """The lines of a file in a check of a configuration, the first of which stands there in the output, and its
        status."""
        entry, second = self.pair(name)
        if entry is None or FOLDER in (entry, second):
            self.see("check of a configuration | a file that is not read")
            return ["device fault"], 2
        try:
            side, _, which = sides.read_pair(entry, second)
        except sides.Refused as why:
            self.see(f"damaged | check --config | {why.line.partition(' at ')[0]}")
            return [why.line], 1
        frames = side.frames
        if (entry, second)[which] is side:
            found = re.search(rb" frames (\d+)", run.output[at][1] if at < len(run.output) else b"")
            frames = int(found[1]) if found else 0
        word = "cartridge" if kind == "cartridge" else "reservations"
        if (side.kind, side.name) == (kind, label):
            self.see("check of a configuration | a file that is whole")
            return side.lines(frames), 0
        what = "another name in the header" if side.kind == kind else "another kind of side"
        self.see(f"check of a configuration | {what}")
        return [*side.lines(frames), f"configured as {word} {label}"], 0 if side.kind == kind else 1

    def reclaim(self, run, asked):
        self.configured(run, asked)

    def reclaim_one(self, run, config, barcode):
        entry = next((it for it in config["cartridge"] if it["barcode"] == barcode), None)
        if entry is None:
            self.see("reclaim | no such barcode")
            self.ends(run, 1, "vtl: command line refused", "the words ask for nothing", [])
            return
        name = os.path.normpath(os.fsencode(entry["file"]))
        first, second = self.pair(entry["file"])
        if first is None or FOLDER in (first, second):
            self.see(f"reclaim | {'a folder under the second name' if first else 'no file'}")
            self.ends(run, 2, DEVICE, "a file is missing", [])
            return
        is_open = is_paired(first)
        is_link = isinstance(self.folder.get(name + b".2"), Link)
        if not is_open and isinstance(second, bytes) and (is_link or len(second) > 10):
            self.see("reclaim | somebody else's second file")
            self.ends(run, 1, None, "reclaim: not reclaimed", ["not reclaimed"])
            return
        if second is None and is_open:
            self.see("reclaim | a second file behind an open pair gate is missing")
            second = b""
        elif second is None:
            self.see("reclaim | a second file is made")
            self.folder[name + b".2"] = second = b""
        try:
            side, _, which = sides.read_pair(first, second)
            if side.kind == "store":
                raise sides.Refused("not a side", "a store under the name of a cartridge")
        except sides.Refused as why:
            self.see(f"damaged | reclaim | {why.line.partition(' at ')[0]}")
            self.ends(run, 1, None, "check: the file is neither", [why.line])
            return
        if side.epoch == 2 ** 64 - 1:
            self.see("reclaim | the last epoch")
            self.ends(run, 1, None, "reclaim: not reclaimed", ["not reclaimed"])
            return
        self.copy(name, side, which)
        self.see(f"reclaim | a copy in the {('second', 'first')[which]} file")
        self.ends(run, 0, None, "done", [f"reclaimed {barcode} epoch {side.epoch + 1}"])

    def configured(self, run, asked):
        if asked.config is None:
            config, raw = BUILT_IN, None
        else:
            raw = self.find(os.fsdecode(asked.config))
            if not isinstance(raw, bytes):
                self.see(f"configuration | {'a folder' if raw is FOLDER else 'no file'}")
                self.ends(run, 2, DEVICE, "a file is missing", [])
                return
            config, faults = words.config_faults(raw)
            if config is None:
                if len(set(faults)) == 1:
                    self.see(f"configuration | refused: {faults[0]}")
                if run.lines:
                    self.see("faults | 2 before 5")
                self.ends(run, 1, "vtl: configuration refused", "the configuration's file is not UTF-8", [])
                return
        if raw is not None and asked.kind != "check" and not (
                asked.memory and asked.kind in ("run", "serve")) and names_nul(config):
            self.see("configuration | a name with a NUL")
            self.ends(run, 2, DEVICE, "a file is missing", [])
            return
        if asked.kind == "create":
            self.create(run, config, raw)
        elif asked.kind == "reclaim":
            self.reclaim_one(run, config, asked.file.decode())
        elif asked.kind == "check":
            self.check_all(run, config)
        else:
            slots = [entry["file"].encode() for entry in config["cartridge"] if entry["home"] > 16]
            for said in run.says:
                what = f"a {'store' if b', for reservations ' in said else 'cartridge'} at a start"
                if said.startswith(b"found: frames behind the end at "):
                    is_moved = said.rpartition(b", in the file ")[2] in slots
                    what = f"frames behind the end {'behind a move' if is_moved else 'at a start'}"
                self.see(f"said at once | {what}")
            self.opened(run, config, raw, asked.memory or raw is None)

    def create(self, run, config, raw):
        lines, failed = [], False
        for what in ("cartridge", "drive"):
            for entry in config[what]:
                name = entry["file" if what == "cartridge" else "reservations"]
                shown = entry["barcode"] if what == "cartridge" else f"DRIVE{entry['number']}"
                at = os.path.normpath(os.fsencode(name))
                if is_possible(name) and at in self.folder:
                    if self.folder[at] is FOLDER:
                        self.see("create | a folder under the name")
                        failed = True
                        break
                    kind = "a side" if isinstance(self.folder[at], sides.Side) else "another file"
                    self.see(f"create | kept: {kind}")
                    lines.append(f"kept {shown}")
                    continue
                folder = os.path.dirname(at)
                if not is_possible(name) or folder and self.folder.get(folder) is not FOLDER:
                    failed = True
                    break
                if what == "cartridge" and self.folder.get(at + b".2"):
                    if self.folder[at + b".2"] is not FOLDER:
                        self.see("create | a second file with a byte")
                    failed = True
                    break
                content = Cartridge(entry["capacities"]) if what == "cartridge" else sides.Reservations()
                self.folder[at] = sides.Side("cartridge" if what == "cartridge" else "store", shown, content)
                self.see(f"create | created: a {self.folder[at].kind}")
                if what == "cartridge":
                    found = "there, of no byte" if at + b".2" in self.folder else "made"
                    self.see("create | a second file is " + found)
                    self.folder.setdefault(at + b".2", b"")
                lines.append(f"created {shown}")
            if failed:
                break
        if failed:
            self.see("create | a file that cannot be made: the lines before it stand")
            self.ends(run, 2, DEVICE, "a file is missing", lines)
            return
        for cell in words.config_shows(raw, config):
            self.see(cell)
        self.ends(run, 0, None, "done", lines)

    def opened(self, run, config, raw, in_memory):
        """The files are opened, and the drives switched on; then the script."""
        found, names = {}, {}
        entries = [("cartridge", it, it["file"]) for it in config["cartridge"]]
        entries += [("drive", it, it["reservations"]) for it in config["drive"]]
        for what, entry, name in [] if in_memory else entries:
            side, why = self.open(what, name, names)
            if why:
                self.see(f"run | a {'cartridge' if what == 'cartridge' else 'store'}: {why}")
                bad = any(Library(config, {}, lambda _: None).bad(it, stripped(it)) for it in run.lines)
                if bad:
                    self.see(f"faults | {3 if what == 'cartridge' else 4} before 5")
                is_store = what == "drive" and why in ("not a side", "damaged", "bad record")
                self.ends(run, 2, DEVICE, "run, serve: the file of a drive's reservations is refused" if is_store else
                          "a file is missing", [])
                if is_store:
                    self.see("damaged | run | a damaged store of reservations")
                return
            found[name] = side
        library = Library(config, {name: side.content for name, side in found.items()}, self.see)
        if raw is not None:
            for cell in words.config_shows(raw, config):
                self.see(cell)
        self.script(run, library)
        for name, side in found.items():
            if side.name:
                self.folder[os.path.normpath(os.fsencode(name)) + b".2" * side.is_second] = side

    # scripts

    def script(self, run, library):
        lines, start = run.lines, 0
        if not lines:
            self.see("script | no line")
        while start < len(lines):
            stop = next((at + 1 for at in range(start, len(lines)) if lines[at].kind in ("end", "move") and
                         not library.bad(lines[at], stripped(lines[at]))), len(lines))
            phase = lines[start:stop]
            bad = [(at, why) for at, line in enumerate(phase, start + 1)
                   if (why := library.bad(line, stripped(line))) is not None]
            if bad:
                self.refused(run, phase, bad, start)
                return
            self.phase(phase, library)
            start = stop
        self.ends(run, 0, None, "done")

    def refused(self, run, phase, bad, start):
        number, cells = bad[0]
        self.number = run.lines[number - 1].number
        for cell in cells:
            self.see(cell)
        for shown, what in ((start, "the answers of the phases before it stand"),
                            (start and run.lines[start - 1].kind == "move", "behind a move, whose answer stands"),
                            (number > start + 1, "no line of its phase is run"),
                            (len(bad) > 1, "the first of two is returned"),
                            (any(it.kind == "skipped" for it in run.lines[:number - 1]), "skipped lines count"),
                            (any(it.kind == "end" for it in run.lines[:number - 1]), "a line -- counts"),
                            (number == len(run.lines) and not run.lines[-1].has_end, "the last, without its LF")):
            if shown:
                self.see(f"bad line | {what}")
        self.ends(run, 1, f"vtl: script line {number} refused", "a bad line")

    def phase(self, phase, library):
        commands = [line for line in phase if line.kind == "command"]
        order = sorted(commands, key=lambda line: line.host)
        self.number = phase[0].number
        if order != commands:
            self.see("script | hosts run by rising number")
        if not commands:
            self.see("script | a phase without a command has no answer")
        self.see({"end": "script | -- ends a phase", "move": "script | a move ends a phase"}.get(
            phase[-1].kind, "script | the end of the script ends a phase"))
        for line in phase:
            self.number = line.number
            library.shows(line, stripped(line))
        for line in order + [line for line in phase if line.kind == "move"]:
            self.number = line.number
            answer = library.answer(line)
            if line.answer is not None and line.answer != answer.encode():
                raise Differs(line.answered_at, f"{short(line.answer.decode())} in the place of {short(answer)}, "
                              "as the model has it")


def short(text):
    return text if len(text) <= 120 else f"{text[:80]}.. ({len(text):,} characters)"
