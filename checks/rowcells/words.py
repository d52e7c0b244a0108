"""The command line and configurations as docs/FORMATS.md says them, and the cells that they show."""
import re
import tomllib

WORDS = {b"run": {b"--memory": False, b"--config": True, b"--explain": False},
         b"serve": {b"--memory": False, b"--config": True, b"--explain": False},
         b"create": {b"--config": True, b"--explain": False}, b"check": {b"--config": True, b"--data": False,
                                                                  b"--explain": False},
         b"reclaim": {b"--config": True, b"--explain": False}}
# what stands behind these words
NAMED = {b"check": "FILE", b"reclaim": "BARCODE"}
KEYS = {"drive": {"number": int, "reservations": str},
        "cartridge": {"barcode": str, "file": str, "capacities": list, "home": int}}
BARCODE = re.compile(r"[A-Z0-9]{1,16}")


class Words:
    """What the words ask for: `help`, `run`, `serve`, `create`, `check`, `reclaim`, or `refused` and why. What is the
    file in a reclaim is the barcode."""

    def __init__(self, kind, cells, config=None, memory=False, file=None):
        self.kind, self.cells, self.config, self.memory, self.file = kind, cells, config, memory, file


def refused(why):
    return Words("refused", [f"words | refused: {why}"])


def is_text(word):
    try:
        word.decode()
    except UnicodeDecodeError:
        return False
    return True


def read(words):
    if not all(is_text(word) for word in words):
        return refused("a word that is not UTF-8")
    if words and words[0] in (b"--help", b"-h", b"--version", b"-V"):
        return Words("help", [f"words | {words[0].decode()}"])
    if not words:
        return refused("no word")
    word, rest = words[0], words[1:]
    if word not in WORDS:
        what = word.decode(errors="replace") if word in (b"help", b"version") else \
            "another option in its place" if word.startswith(b"-") else "another word"
        is_short = any(name.startswith(word) for name in WORDS)
        return refused("a shortened word" if word and is_short else what)
    if rest and rest[0] in (b"--help", b"-h"):
        return Words("help", [f"words | {word.decode()} {rest[0].decode()}"])
    return options(word, rest)


def options(word, rest):
    name, known, found, files, cells, is_open = word.decode(), WORDS[word], {}, [], [], True
    while rest:
        given, rest = rest[0], rest[1:]
        option, has_value, value = given.partition(b"=")
        if not is_open or not given.startswith(b"-"):
            files.append(given)
        elif given == b"--":
            is_open = False
            cells.append(f"words | {name} -- {NAMED.get(word, 'FILE')}")
        elif option not in known:
            is_short = any(other.startswith(option) for other in known)
            if is_short:
                return refused(f"{name}, a shortened name")
            return refused(f"{name}, {option.decode(errors='replace')}" if option in (b"--memory", b"--config") else
                           f"{name}, another option")
        elif option in found:
            return refused(f"{name}, {option.decode()} twice")
        elif not known[option]:
            if has_value:
                return refused(f"{name}, a flag with a value")
            found[option] = True
        elif has_value:
            found[option] = value
            cells.append(f"words | {name} --config=FILE")
        elif not rest or (rest[0].startswith(b"-") and rest[0] != b"-"):
            return refused(f"{name}, --config without its file")
        else:
            found[option], rest = rest[0], rest[1:]
    if word == b"check" and files == [b""]:
        cells.append("words | an empty name is a name")
    if len(files) > (1 if word in NAMED else 0):
        return refused(f"{name}, a word too many" + ("" if is_open else " behind --"))
    if word == b"check" and not files and b"--config" not in found:
        return refused("check without a file")
    if word == b"check" and files and b"--config" in found:
        return refused("check, FILE and --config")
    if word in (b"create", b"reclaim") and b"--config" not in found:
        return refused(f"{name} without --config")
    if word == b"reclaim" and not files:
        return refused("reclaim without a barcode")
    if word == b"reclaim" and not BARCODE.fullmatch(files[0].decode(errors="replace")):
        return refused("reclaim, what is no barcode")
    if word == b"check" and files and files[0].startswith(b"-"):
        cells.append("words | behind -- a word like an option is a file")
    names = " ".join([name, *(["--memory"] if b"--memory" in found else []),
                      *(["--config FILE"] if b"--config" in found else []), *([NAMED[word]] if files else []),
                      *(["--data"] if b"--data" in found else []), *(["--explain"] if b"--explain" in found else [])])
    if list(found) == [b"--config", b"--memory"]:
        cells.append("words | run --config FILE --memory")
    return Words(name, [*cells, f"words | {names}"], found.get(b"--config"), b"--memory" in found,
                 files[0] if files else None)


# configurations

def kind_of(value):
    return {bool: "a truth value", int: "a whole number", float: "a fraction", str: "a text", list: "a list",
            dict: "a table"}.get(type(value), "a date")


def entry_faults(what, entry):
    if type(entry) is not dict:
        return [f"an entry of {what} is no table"]
    faults = [f"another key of a {what}" for key in entry if key not in KEYS[what]]
    for key, kind in KEYS[what].items():
        if key not in entry:
            faults.append(f"{what} without {key}")
        elif type(entry[key]) is not kind:
            faults.append(f"{key} is {kind_of(entry[key])}")
        else:
            faults += value_faults(key, entry[key])
    return faults


def value_faults(key, value):
    if key == "number" and not 1 <= value <= 16:
        return [f"number {value}"]
    if key == "home" and not (1 <= value <= 16 or 1001 <= value <= 1256):
        return [f"home {value}"]
    if key == "barcode" and not BARCODE.fullmatch(value):
        return [f"a barcode of {len(value)} characters" if len(value) in (0, 17) else f"a barcode with {other}"
                for other in [next((it for it in value if not re.fullmatch("[A-Z0-9]", it)), "")]]
    if key != "capacities":
        return []
    if not 1 <= len(value) <= 4:
        return [f"{len(value)} capacities"]
    return [f"a capacity of {it:,}" if type(it) is int else f"a capacity is {kind_of(it)}" for it in value
            if type(it) is not int or not 4_096 <= it <= 1_099_511_627_776]


def doubles(values):
    return len(set(values)) < len(values)


def config_faults(raw):
    """The configuration, None where it is refused, and why."""
    try:
        text = raw.decode()
    except UnicodeDecodeError:
        return None, ["not UTF-8"]
    try:
        top = tomllib.loads(text)
    except tomllib.TOMLDecodeError:
        return None, ["no TOML document"]
    faults = ["another key at the top" for key in top if key not in KEYS]
    lists = {what: top.get(what, []) for what in KEYS}
    for what, entries in lists.items():
        if type(entries) is not list:
            faults.append(f"{what} is no list")
            continue
        for entry in entries:
            faults += entry_faults(what, entry)
    if faults:
        return None, faults
    drives, cartridges = lists["drive"], lists["cartridge"]
    numbers = [it["number"] for it in drives]
    stores, files = [it["reservations"] for it in drives], [it["file"] for it in cartridges]
    faults += ["two drives of one number"] if doubles(numbers) else []
    faults += [f"two cartridges of one {key}" for key in ("barcode", "home") if doubles([it[key] for it in cartridges])]
    faults += ["two drives of one file"] if doubles(stores) else []
    faults += ["two cartridges of one file"] if doubles(files) else []
    faults += ["a cartridge and a drive of one file"] if set(stores) & set(files) else []
    seconds = {name + ".2" for name in files}
    faults += ["a cartridge of another's second file"] if seconds & set(files) else []
    faults += ["a drive of a cartridge's second file"] if seconds & set(stores) else []
    faults += ["a home that is a drive not listed" for it in cartridges
               if it["home"] <= 16 and it["home"] not in numbers]
    return (None if faults else lists), faults


def config_shows(raw, config):
    """The cells of a configuration that is taken."""
    text, cells = raw.decode(), []
    top = tomllib.loads(text)
    bare = re.sub(r"#.*", "", text)
    for shown, what in ((not top, "an empty document"), ("drive" not in top and top, "no list of drives"),
                        ("cartridge" not in top and top, "no list of cartridges"), ("{" in bare, "inline tables"),
                        (re.search(r"=\s*\[\s*\]", bare), "an empty list"), ("0x" in bare, "a number in hexadecimal"),
                        (re.search(r"\d_\d", bare), "a number with _"), (re.search(r"\[\[", bare), "lists of tables")):
        if shown:
            cells.append(what)
    for drive in config["drive"]:
        cells += [f"number {drive['number']}"] if drive["number"] in (1, 16) else []
        cells += ["an empty name is a name"] if not drive["reservations"] else []
    for it in config["cartridge"]:
        cells += [f"home {it['home']}"] if it["home"] in (1, 16, 1001, 1256) else []
        cells += [f"a barcode of {len(it['barcode'])} characters"] if len(it["barcode"]) in (1, 16) else []
        cells += [f"{len(it['capacities'])} capacities"] if len(it["capacities"]) in (1, 4) else []
        cells += [f"a capacity of {size:,}" for size in it["capacities"] if size in (4_096, 1_099_511_627_776)]
        cells += ["a barcode of A, Z, 0 and 9"] if set("AZ09") <= set(it["barcode"]) else []
        cells += ["an empty name is a name"] if not it["file"] else []
    names = [it["reservations"] for it in config["drive"]] + [it["file"] for it in config["cartridge"]]
    cells += ["a and ./a are two names"] if any(f"./{name}" in names for name in names) else []
    return [f"configuration | {cell}" for cell in dict.fromkeys(cells)]
