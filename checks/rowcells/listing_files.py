"""The cells of moves, scripts, words, configurations and files."""


def of_moves():
    cells = []
    for what in ("FROM", "TO"):
        cells += [f"moves | {what} {at} is no address" for at in (0, 17, 1000, 1257, 99999)]
        cells += [f"moves | {what} is a drive that is not configured"]
    cells += [f"moves | a reservation is held at the {what}, {how} a cartridge in it"
              for what, how in (("source", "with"), ("source", "without"), ("destination", "with"),
                                ("destination", "without"))]
    cells += [f"moves | nothing is at the source, a {what}" for what in ("drive", "slot")]
    cells += [f"moves | something is at the destination, {what}" for what in ("the same address", "a drive", "a slot")]
    cells += [f"moves | {at} is an address" for at in (1, 16, 1001, 1256)]
    cells += [f"moves | from a {one} to a {other}" for one in ("drive", "slot") for other in ("drive", "slot")]
    return cells + [f"moves | a damaged cartridge is back at its source, a {what}" for what in ("drive", "slot")]


def of_lines():
    cells = [f"line | {what}" for what in (
        "2,200,000 bytes, a remark", "2,200,000 bytes, spaces", "2,200,000 bytes, a command", "a CR before the LF",
        "a CR before the LF, a remark or empty", "the last has no LF", "spaces before it", "spaces behind it",
        "a remark", "empty", "of spaces", "several spaces between fields",
        "move, an address of five digits with leading zeros",
        "with data", "a number of five digits, leading zeros included", "host 1", "host 64", "drive 1", "drive 16",
        "hexadecimal in capitals")]
    cells += [f"bad line | {what}" for what in (
        "2,200,001 bytes, a remark", "2,200,001 bytes, a line of spaces", "2,200,001 bytes, a command",
        "move with fewer fields", "move with more fields", "move in capitals", "1 field", "2 fields", "more fields",
        "host 0", "host 65", "drive 0", "drive 17", "drive that is not configured",
        "the answers of the phases before it stand",
        "behind a move, whose answer stands", "no line of its phase is run", "the first of two is returned",
        "skipped lines count", "a line -- counts", "the last, without its LF")]
    for what in ("HOST", "DRIVE"):
        cells += [f"bad line | {what} {why}" for why in ("of six digits", "with a sign", "with 0x", "with a tab",
                                                         "that is no number")]
    for what in ("FROM", "TO"):
        cells += [f"bad line | move, {what} {why}" for why in ("of six digits", "with a sign", "with 0x",
                                                               "that is no number")]
    cells += ["bad line | move, TO with a CR"]
    for what in ("CDB", "DATA"):
        cells += [f"bad line | {what} {why}" for why in ("with a tab", "with a CR", "with 0x",
                                                         "of an odd count of digits",
                                                         "that is no hexadecimal")]
    return cells + [f"script | {what}" for what in (
        "no line", "hosts run by rising number", "a phase without a command has no answer", "-- ends a phase",
        "a move ends a phase", "the end of the script ends a phase")]


def of_words():
    cells = [f"words | {what}" for what in (
        "run", "run --memory", "run --config FILE", "run --memory --config FILE", "run --config FILE --memory",
        "run --config=FILE", "create --config FILE", "create --config=FILE", "check FILE", "check -- FILE",
        "check FILE --data", "check --config FILE", "check --config=FILE", "check --config FILE --data --explain",
        "reclaim --config FILE BARCODE", "reclaim --config=FILE", "reclaim -- BARCODE",
        "behind -- a word like an option is a file", "an empty name is a name", "--help", "-h", "--version",
        "-V",
        "serve", "serve --memory", "serve --config FILE", "serve --memory --config FILE", "serve --config=FILE",
        "serve --explain", "run --explain", "create --config FILE --explain", "check FILE --explain",
        "reclaim --config FILE BARCODE --explain")]
    cells += [f"words | {word} {option}" for word in ("run", "serve", "create", "check", "reclaim")
              for option in ("--help", "-h")]
    cells += [f"words | refused: {why}" for why in (
        "no word", "help", "version", "another word", "another option in its place", "a shortened word",
        "a word that is not UTF-8",
        "run, --memory twice", "run, --explain twice", "run, --config twice", "create, --config twice",
        "run, a word too many",
        "create, a word too many", "check, a word too many", "check, a word too many behind --",
        "run, another option", "create, another option", "check, another option", "create, --memory", "check, --memory",
        "check, FILE and --config", "run, a shortened name", "create, a shortened name", "run, a flag with a value",
        "run, --config without its file", "serve, a word too many",
        "serve, --memory twice", "serve, --config without its file", "serve, a flag with a value",
        "serve, a shortened name", "serve, another option", "create, --config without its file",
        "create without --config", "check without a file", "reclaim, a word too many", "reclaim, --memory",
        "reclaim without --config", "reclaim without a barcode", "reclaim, what is no barcode")]
    return cells + [f"faults | {pair}" for pair in ("1 before 2", "2 before 5", "3 before 5", "4 before 5")]


def of_configurations():
    numbers = ("a truth value", "a fraction", "a text", "a list", "a table", "a date")
    texts = ("a truth value", "a whole number", "a fraction", "a list", "a table", "a date")
    refused = ["not UTF-8", "no TOML document", "another key at the top", "drive is no list", "cartridge is no list"]
    for what in ("drive", "cartridge"):
        refused += [f"an entry of {what} is no table", f"another key of a {what}"]
    refused += [f"drive without {key}" for key in ("number", "reservations")]
    refused += [f"cartridge without {key}" for key in ("barcode", "file", "capacities", "home")]
    refused += [f"{key} is {kind}" for key in ("number", "home") for kind in numbers]
    refused += [f"{key} is {kind}" for key in ("reservations", "barcode", "file") for kind in texts]
    refused += [f"capacities is {kind}" for kind in ("a truth value", "a whole number", "a text", "a table")]
    refused += [f"a capacity is {kind}" for kind in ("a truth value", "a fraction", "a text", "a list", "a table")]
    refused += [f"number {at}" for at in (0, 17, -1)] + [f"home {at}" for at in (0, 17, 1000, 1257, -1)]
    refused += ["a barcode of 0 characters", "a barcode of 17 characters"]
    refused += [f"a barcode with {it}" for it in ("a", "z", " ", "-", "@", "[", "/", ":")]
    refused += ["0 capacities", "5 capacities", "a capacity of 4,095", "a capacity of 1,099,511,627,777"]
    refused += ["two drives of one number", "two cartridges of one barcode", "two cartridges of one home",
                "two drives of one file", "two cartridges of one file", "a cartridge and a drive of one file",
                "a cartridge of another's second file", "a drive of a cartridge's second file",
                "a home that is a drive not listed"]
    taken = ["an empty document", "no list of drives", "no list of cartridges", "inline tables", "an empty list",
             "a number in hexadecimal", "a number with _", "lists of tables", "number 1", "number 16", "home 1",
             "home 16", "home 1001", "home 1256", "a barcode of 1 characters", "a barcode of 16 characters",
             "1 capacities", "4 capacities", "a capacity of 4,096", "a capacity of 1,099,511,627,776",
             "a barcode of A, Z, 0 and 9", "a and ./a are two names", "no file", "a folder"]
    return [f"configuration | refused: {why}" for why in refused] + [f"configuration | {what}" for what in taken]


def of_sides():
    none = ["empty", "shorter than a header", "the header's gate is closed", "the header's gate has another value",
            "another name of the format", "a store's pair gate is not 00h", "a store of partitions",
            "a store of another name", "0 partitions", "5 partitions", "a barcode that is none",
            "a capacity is missing", "a capacity of 4,095",
            "a capacity of 1,099,511,627,777", "a copy behind a closed pair gate",
            "the pair gate is open, and the second file does not begin so", "both pair gates are open",
            "no gate is open", "an open file without a header", "both are of one epoch"]
    damaged = ["the first gate is missing", "the length is missing", "a length of 0", "a length of 8,388,609",
               "the body is missing", "the gate behind the body is missing"]
    damaged += [f"{why} of a later frame" for why in damaged[1:]] + ["fewer frames than the base"]
    bad = ["a change is cut short", "kind 00h", "kind 04h", "a partition that is not there",
           "more objects stay than there are", "an erase of another number than 0", "a block of 0 bytes",
           "a block of 1,048,577 bytes", "0 filemarks", "16,000,001 filemarks", "the bytes of a block are cut short",
           "more than the capacity"]
    stores = ["another length than its registrations take", "an APTPL above 1", "type 02h", "type 04h", "type 09h",
              "65 registrations", "nexus 0", "nexus 65", "a nexus twice", "nexuses that do not rise", "a key of 0",
              "a holder under type 0", "a holder under type 7", "a holder under type 8",
              "type 7 without a registration", "type 8 without a registration", "a holder that is not registered",
              "a type without a holder"]
    cells = [f"file | not a side: {why}" for why in none] + [f"file | damaged: {why}" for why in damaged]
    cells += [f"file | bad record: cartridge: {why}" for why in bad]
    cells += [f"file | bad record: store: {why}" for why in stores]
    cells += [f"file | a {kind} of {count} frames" for kind in ("cartridge", "store") for count in ("no", "some")]
    cells += ["file | what lies behind a closed gate counts for nothing",
              "file | a gate of another value ends the frames"]
    cells += [f"file | {why}" for why in (
        "the pair gate is closed", "the pair gate is closed, beside a second file",
        "first file is of the greater epoch", "second file is of the greater epoch", "first file is open alone",
        "second file is open alone")]
    cells += [f"reclaim | {what}" for what in (
        "no such barcode", "no file", "a folder under the second name", "a second file is made", "the last epoch",
        "a copy in the first file", "a copy in the second file", "each step of it, stopped", "a device fault")]
    cells += ["create | a second file is made", "create | a second file is there, of no byte",
              "create | a second file with a byte", "run | a second file is made",
              "reclaim | somebody else's second file", "configuration | a name with a NUL"]
    cells += [f"{order} | a second file behind an open pair gate is missing" for order in ("run", "reclaim")]
    cells += [f"damaged | {order} | {line}" for order in ("check", "run", "reclaim")
              for line in ("not a side", "damaged", "bad record")]
    cells += [f"damaged | check --config | {line}" for line in ("not a side", "damaged", "bad record")]
    cells += [f"check of a configuration | {what}" for what in (
        "a file that is whole", "a file that is not read", "another name in the header", "another kind of side",
        "the first that is not whole decides")]
    cells += [f"said at once | {what}" for what in (
        "a cartridge at a start", "a store at a start", "frames behind the end at a start",
        "frames behind the end behind a move", "a call that failed")]
    cells += ["damaged | run | a store's header", "damaged | run | a damaged store of reservations",
              "power | the cartridge in the drive is damaged: the drive is on, the medium unloaded",
              "sense | 11/00 | LOAD UNLOAD"]
    cells += [f"run | a {what}: {why}" for what in ("cartridge", "store") for why in
              ("missing", "a folder", "a second name of one file")]
    cells += [f"run | a store: {why}" for why in ("not a side", "damaged", "bad record")]
    cells += [f"create | {what}" for what in (
        "created: a cartridge", "created: a store", "kept: a side", "kept: another file", "a folder under the name",
        "a file that cannot be made: the lines before it stand")]
    cells += [f"check | {what}" for what in ("no file", "a folder", "a cartridge that a run left",
                                           "a store that a run left")]
    return cells + [f"files | a {kind} with {frames}, by its bytes" for kind in ("cartridge", "store")
                    for frames in ("no frame", "frames")] + ["files | a file that stays as it was"]


def cells():
    return [*of_moves(), *of_lines(), *of_words(), *of_configurations(), *of_sides()]
