"""What is written by hand on docs/HEADLINE.md: the promises, the notation, the calls and why these, what is left out,
and the words of the library (headline.py)."""

HEAD = """# What has to be believed

Made by `checks/headline.py`. This page leads from two promises to the clauses that carry them, through every definition
that these clauses name, and ends at what is trusted. The prover shows that the code keeps the clauses. Whether they say
what you want is for you to judge. What is here is all that you need for it: no proof, and no code but what the last
section names.

"""
PROMISES = """## The two promises

1. **Data that was acknowledged survives.** Once a WRITE FILEMARKS, or another [command that
   flushes](FORMATS.md#the-commands-that-flush), was acknowledged, everything that the cartridge accepted before it
   survives a stop at any moment, inside any later call too, wherever the cartridge is then.
   *Each call is a list of steps* (`IsEvent`): accept, store, make safe. At each moment inside it, each pair of images
   that a crash may leave gives what is safe or what is stored (`ShowsBetween`). A command that flushes is acknowledged
   only where all that was accepted is safe (`IsSafeIn`). What was accepted then begins all that is accepted later
   (`StopsKeepThrough`), and a start opens just what the images give (`Wakes`).
2. **A host that is fenced off stays fenced off**, over a loss of power too where APTPL was set.
   *A command of a host that the reservations do not allow*, of those that the table says (`row_of`), is answered
   RESERVATION CONFLICT, or by an earlier check, and nothing more is done (`verdict`, `ExecutesAs`). Only a host's order
   changes the reservations (`OrdersStand`). At each moment the store's images open as what a loss of power leaves of
   these, or of a state that an order makes whose save is in progress or failed (`LeavesHeld`). A drive is switched on
   with that (`left_of`).

"""
NOTATION = """## How to read the text

Text in boxes is Rattle, as it stands in the file. `f x y` is a function with its arguments, without brackets.

- `T : Type 0` is a statement, or a type. To prove a statement is to give a value of it. `(x : A) → B`: for each `x`
  of A, B holds. `A → B`: if A, then B. `(x : A) × B`: there is an `x` of A for which B holds. `A × B`: both hold.
  `A ⊎ B`: one of them holds. `⊥` never holds, `Unit {0}` always.
- `x ≡ y`: they are equal; `x ≢ y`: they are not. `λ x. e`: the function that makes `e` of `x`.
- `abbrev` names what stands behind its `=`, often by cases; `_` fits whatever no case before it fits. `record` has
  fields, and a record that is a statement holds if all its fields do; `x.field` is one of them. `record x { f = v }`
  is `x` with another `f`. `data` is a choice of cases. `pub`: other crates may use it.
- ℕ: 0, 1, 2 and so on, without an upper bound. `List A`: `[]`, or `x ∷ rest`; `xs ++ ys` is one behind the other.
  `Option`, `Result`, `struct` and `enum` are Rust's. `{D : Type 0}` is an argument that is not written.
- Here `D` is the type of a disk, and `state` says what a contract sees of one. In a clause `self.old` and `self.new`
  are a value before and after the call, `self.now` is one that stays, `result` is what is returned. `ensures` is what
  holds after a call, `requires` what its caller owes; `ghost` stands before what only contracts see.
- What stands in brackets behind a comment is the rule's source. Where none stands, the rule is this project's own.

"""
# The clauses, in the order of reading: crate, file, call, the labels of its clauses ([""]: the one without a label),
# what they say, and why they are here.
SEEDS = [
    ("tape_disk", "disk.rt", "Disk", None, "the disk model: what each call makes of the bytes and of the images",
     "without it `may_leave` and `honest` would be words"),
    ("bay_moves", "bays.rt", "Bay::power_on", ["on", "moments"], "a drive is switched on with what its disks give",
     "what survives is found again; the only start of a drive"),
    ("library", "places/answers.rt", "FrontPlace::execute_alone", [""], "a command by the hosts' half of a drive",
     "where a WRITE is accepted, and a fenced host stopped; it acknowledges no flush"),
    ("library", "places/answers.rt", "FrontPlace::execute_both", [""], "a command by both halves of a drive",
     "every acknowledged flush, and what a crash leaves inside it"),
    ("library", "libraries.rt", "Library::command", [""], "a host's command at a drive that threads share",
     "the one call by which the program gives a command to a drive; it is answered by one of the two above"),
    ("library", "places.rt", "BackPlace::turn", [""], "a flusher's turn of the disk's half",
     "the only call that stores beside hosts' commands"),
    ("library", "moving.rt", "Library::move_medium", ["moved"], "a move of a cartridge",
     "a cartridge keeps what it accepted, wherever it is"),
    ("library", "finishing.rt", "Library::finish", ["left"], "the end of a library", "the last call that writes"),
    ("tape_buffer", "reclaiming.rt", "reclaim", [""], "a cartridge is copied to its other side (`vtl reclaim`)",
     "the one call beside these that writes a cartridge with data: what it holds goes into the copy"),
    ("bay_moves", "laws.rt", "laws::stop_keeps", ["changes"], "what was acknowledged begins all that is accepted later",
     "joins the calls above to one promise: it is about every list of steps"),
    ("aptpl_store", "opening.rt", "AptplStore::open", ["ok", "gives", "recovers"], "a store of reservations is opened",
     "what a drive is switched on with comes from the images"),
    ("bay_moves", "laws/reservations.rt", "laws::reservations_outlive_each_stop", ["outlive", "stand"],
     "what any events and a stop leave of reservations", "joins the calls above to the second promise"),
]
# Reasons for which text is left out.
OTHERS = ("cases of commands and events that accept no change (`SeatGrows`, `StoresFound`, `KeepsCartridges`) and"
          " change no reservation (`OrdersStand`)")
FAULTS = "cases in which nothing is acknowledged: an error is answered, or a cartridge is refused"
TABLE = "tables of the SCSI standards. Believe them as the standards have them, or compare the files with those"
LAYOUT = "the bytes of layouts, which [FORMATS](FORMATS.md) has in words"
UPKEEP = ("room, rings, counts and positions, or what proofs carry from one call to the next. A record without some"
          " fields says less than what is proved")
# What the reasons are called on the page.
MARKS = {OTHERS: "other cases", FAULTS: "errors", TABLE: "a standard's table", LAYOUT: "a layout", UPKEEP: "upkeep"}
NOT_NEEDED = ("TestUnitReady", "Rewind", "RequestSense", "ReadBlockLimits", "Read", "Space", "Inquiry", "ModeSelect",
              "ModeSense", "LoadUnload", "Locate", "ReadPosition", "PersistentReserveIn")
EVENTS = ("FlushTurn", "Load", "Insert", "Unload", "PowerOn")
# What is left out, by its reason: names of definitions, and of some only these cases or fields.
LEFT_OUT = {
    OTHERS: {"MediumWork": NOT_NEEDED, "DriveWork": NOT_NEEDED, "code_of": NOT_NEEDED, "suits": NOT_NEEDED,
             "sent_length": NOT_NEEDED, "Step": EVENTS, "GoesBy": EVENTS},
    FAULTS: {"AppendWork": ("NoMemory", "SideFull", "Writing", "_"), "AppendAnswer": ("NoRoom", "_"),
             "WakesFrom": ("NoMemory", "Device", "Unreadable", "Failed", "_"), "ChangesBase": ("Err",)},
    TABLE: dict.fromkeys((
        "effect_of", "ReserveOutWork", "command_by_fields", "list_decoded", "condition_due", "cleared",
        "with_attention", "no_attentions", "invalid_field", "medium_not_present", "medium_failed",
        "invalid_operation_code", "attention_sense", "deferred_write_error", "fault_sense", "made_reply"), ()),
    LAYOUT: dict.fromkeys(("spell_side_head", "spell_front", "IsHead", "spell_state", "spell_change"), ()),
    UPKEEP: dict.fromkeys(("contents_on", "room_found", "request_needs_disk", "NotedBeginning",
                           "refusal_in", "copy_frames", "Parts", "Looks"), ()) | {
        "StoresFound": ("answer", "frame", "stores"), "ExecutesBoth": ("stood", "positioned", "settled"),
        "Takes": ("stores", "counted"), "TakesTurn": ("step", "turns", "stores", "accepted"),
        "KeepsDiskHalf": ("follows", "within"), "KeepsHostsHalf": ("end", "within", "positioned"),
        "Joins": ("ends_are",), "SeatGrows": ("host", "nexus", "answered", "moved"), "Opens": ("room_is",),
        "MovesEach": ("answer",), "KeepsDrive": ("positioned",),
        "ReclaimsShelved": ("ok", "copy", "refused", "unwritten", "untouched")},
}
SECTIONS = {
    "Numbers and limits": ("vtl_base",),
    "Disks and images": ("tape_disk",),
    "Volumes and changes": ("volume_core",),
    "Records": ("change_records",),
    "Frames and gates": ("gate_journal",),
    "The cartridge and its two sides": ("cartridge_sides", "cartridge"),
    "What is accepted, stored and safe": ("accepted_changes",),
    "The buffer": ("tape_buffer",),
    "What hosts ask, and are answered": ("scsi_attention", "scsi_sense", "scsi_lists", "scsi_opcodes", "positioning"),
    "Reservations": ("pr_core",),
    "Saved reservations": ("aptpl_store",),
    "The drive machine": ("drive_commands",),
    "A drive over its disks": ("element_slots", "bay_moves"),
    "Two halves of a drive": ("split_bay",),
    "The library": ("library",),
}
TRUSTED = """## What is trusted

- **The toolchain**: the logic, the prover, the compiler, the C library; and the statements of the ported crates. Of
  them this page needs only the locks: who takes one finds what its last holder left.
- **The system's files.** It is proved that a disk over an open file keeps the disk model wherever the file keeps the
  laws of `RawFile`, below. That a real file keeps them is the premise, and [PREMISES](PREMISES.md#honest-files) says in
  words what it asks of each call. `honest` means this, and that nobody else writes the file. A file that is opened
  after a stop reads one of the images that the stop might have left.
- **What has to be read**, since no clause says it ([PREMISES](PREMISES.md#not-proved)): that a half of a drive is
  reached through its lock alone, and asked by `FrontPlace::execute_alone` and `execute_both` alone: `command` says that
  some half in some state answers. Two more calls take both halves: `FrontPlace::report_fault`, which calls no disk,
  and `renew`, which stores what waits where memory runs out. That the program calls a drive's disks through the calls
  above alone.
- **The script** that made this page. It follows the words of each text, and says so where one that is a definition is
  not here.

The laws of an open file, which the system has to keep:

"""
# Words of the library, and types of the sources that a contract sees as something else.
LIBRARY = {
    "Bool": "`true` or `false`", "true": "yes", "false": "no", "not": "the other of `true` and `false`",
    "◌&&◌": "both are `true`", "◌||◌": "one is `true`", "◌==◌": "whether two numbers are equal",
    "IsTrue": "it is `true`", "if◌then◌else◌": "one of two values, by a `Bool`",
    "ℕ": "the numbers 0, 1, 2 ...", "ℤ": "the whole numbers", "◌+◌": "sum",
    "◌-◌": "difference, 0 where it would be less", "◌^◌": "power", "◌<◌": "less", "◌≤◌": "at most", "◌*◌": "product",
    "◌%◌": "the rest of a division",
    "nat_lt": "`<` as a `Bool`", "nat_le": "`≤` as a `Bool`", "min": "the smaller one",
    "◌≡◌": "equal", "◌≢◌": "not equal", "◌⊎◌": "one of two statements holds", "◌↔◌": "each follows from the other",
    "Option": "Rust's", "Some": "a value is there", "None": "no value is there", "is_some": "whether one is there",
    "is_none": "whether none is there", "option_map": "a function of the value, if one is there",
    "option_to_list": "a list of the value, if one is there", "IfSome": "it holds of the value, if one is there",
    "IsSomeAnd": "a value is there, and it holds of that",
    "Result": "Rust's", "Ok": "it went well", "Err": "it did not", "OnOk": "if it is Ok, this holds",
    "OnErr": "if it is Err, this holds", "IfOk": "it holds of the value of an Ok",
    "IfErr": "it holds of the value of an Err",
    "IsOkAnd": "it is Ok, and it holds of the value",
    "List": "a list", "◌∷◌": "one item and then a list", "◌++◌": "one list behind another", "length": "how many items",
    "take": "the first so many items", "drop": "all but the first so many", "map": "a function of each item",
    "flat_map": "the lists that a function makes of each item, one behind another",
    "filter_map": "the values that a function has for items", "find": "the first item for which it is `true`",
    "replicate": "so many times the same item", "sum_by": "the sum of a number of each item",
    "count_by": "for how many items it is `true`", "All": "it holds of each item",
    "list_any": "whether it is `true` of an item", "range_with_len": "so many numbers, from one on",
    "slice_get": "the item at a place, if there is one", "slice_index": "the item at a place",
    "slice_index_or": "the item at a place, or else this value", "slice_set": "the list with another item at a place",
    "slice_range": "the items from one place up to another", "IsPrefix": "the second list begins with the first",
    "codes": "the bytes of a text", "to_be_bytes": "the bytes of a number, the highest first",
    "w32": "of 32 bits", "w64": "of 64 bits", "bit_at": "a bit of a number", "unwrap_or": "the value, or else this one",
    "big_number": "the number of these bytes, the highest first", "big_bytes": "these bytes, the highest first",
    "Bytes": "seen as a list of bytes", "Nexus": "a host: seen as its number, 1 to 64",
    "Shelved": "a closed cartridge: seen as a `ClosedCartridge`", "BeginningNote": "a note of proofs",
    "SeenNote": "a note of proofs",
    "NotedValue": "a value that proofs alone see",
}
