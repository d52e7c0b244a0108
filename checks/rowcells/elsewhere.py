"""What no script reaches, and the tests that have it: a name of a test function of crates/, or of a file of checks/."""
import os
import re

from .tables import TOP

DRIVES, FAULTS, ENDINGS = "a_drive_answers", "faults.py", "endings.py"
STORES = "what_is_pending_is_stored_first"
UNLOADS = "an_unloading_meets_a_fault"
OPENS = "a_fault_at_each_call_of_a_loading"
SAVES = "a_fault_at_each_call_of_a_save"
SERVED = "served_endings.py"
FRAMES = ["in_any_pieces", "each_frame_written", "refused_frames"]
# by cell: the tests
CELLS = {
    # a block of no byte has no line
    "codes | no byte": ["every_code_at_every_length"],
    # who meets one of these has given no command since, and so cannot be registered for the other
    "attentions | 2A/03 is reported before 2A/05": ["a_set_has_its_conditions"],
    # a cartridge's file is full at 1,099,511,627,776 bytes
    "does | ERASE | the file is full": [DRIVES, "a_side_fills_and_a_device_fails"],
    "full file | WRITE": [DRIVES],
    "full file | WRITE FILEMARKS": [DRIVES],
    # the device fails
    "does | LOAD UNLOAD, LOAD 1 | a loaded cartridge, its medium failed": [UNLOADS, DRIVES],
    "does | LOAD UNLOAD, LOAD 0 | a loaded cartridge, and a device fault": [UNLOADS],
    "does | LOAD UNLOAD, LOAD 0 | a loaded cartridge, its medium failed already": [UNLOADS],
    "out | drive | a device fault in that": ["each_call_of_the_disk_of_a_cartridge_fails", FAULTS],
    "out | drive | its medium failed already": ["each_call_of_the_disk_of_a_cartridge_fails", FAULTS],
    "back | out of memory": ["each_call_of_the_disk_of_a_cartridge_fails", FAULTS],
    "exit | run, serve: a buffer could not be written out": ["the_first_fault_is_reported", FAULTS],
    "exit | a read or write of the streams failed": [ENDINGS],
    "exit | out of memory": [ENDINGS, FAULTS],
    "said at once | a call that failed": ["explained_faults.py"],
    "order of checks | a deferred error is reported, once": ["a_deferred_error_outlives_a_cartridge"],
    "fault | out of memory": ["faults_are_reported", FAULTS],
    "fault | device fault while all that is pending is stored": [STORES, FAULTS],
    "fault | device fault while a block is read, with nothing pending any more": [DRIVES, FAULTS],
    "fault | the medium has failed": [DRIVES, STORES],
    "fault | device fault in a flusher's turn": ["a_deferred_error_outlives_a_cartridge", DRIVES],
    "fault | device fault while reservations are saved": ["the_device_fails_in_a_save", SAVES],
    "fault | the store of reservations is full": ["a_store_is_full", "a_store_fills"],
    "fault | the power comes on, and the medium in the drive cannot be opened for one of these causes":
        ["a_side_that_is_refused", FAULTS],
    "memory | READ": [FAULTS], "memory | WRITE, WRITE FILEMARKS, ERASE": [FAULTS],
    "memory | INQUIRY, READ KEYS": [FAULTS],
    "memory | PERSISTENT RESERVE OUT": ["memory_runs_out_in_a_save", FAULTS],
    "memory | LOAD UNLOAD, LOAD 1": [OPENS, FAULTS],
    # a line too many for a script: what waits is seen from outside
    "flush | READ of at least one byte": [STORES], "flush | REWIND": [STORES], "flush | LOCATE": [STORES],
    "flush | SPACE, except over 0 blocks or 0 filemarks": [STORES], "flush | READ POSITION": [STORES],
    "flush | WRITE FILEMARKS with IMMED 0, of any count, 0 too": [STORES, DRIVES],
    "flush | LOAD UNLOAD of a loaded cartridge whose medium has not failed": [STORES, UNLOADS],
    "flush | in unbuffered mode also WRITE of at least one byte, and ERASE": ["writes_wait_for_one_frame"],
    "buffer | 256 changes, 4,194,304 bytes of blocks": ["a_change_too_many_is_preceded_by_a_settle"],
    # the streams
    "stream | an interrupted read": ["reads_that_fail"],
    "stream | any other error of the reader, or a script that is too long": ["reads_that_fail", ENDINGS],
    "stream | an interrupted write": ["writes_that_fail"],
    "stream | any other error of the writer, and an interrupted flush": ["writes_that_fail", ENDINGS],
    "stream | after a fault, and where memory runs out": ["writes_that_fail", ENDINGS],
    # frames, which are no lines of a row
    "exit | serve: a frame that is refused": [SERVED],
    "serving | the input ends behind a frame": [SERVED],
    "serving | a frame is refused, this is frame N": [SERVED, "what_stands_before_a_refused_frame_is_answered"],
    "serving | a read fails": [SERVED, "streams_that_fail"],
    "serving | a write fails: a beginning of the answers is written": [SERVED, "a_writer_fails_behind_each_byte"],
    "serving | memory runs out: for more than 24 bytes of data, for an inventory, or before the first read": [
        "nomemory_rows.py"],
    **{f"frame, byte | {at}": FRAMES for at in ("0", "1", "2", "3", "4 to 7", "8 to 11", "12 to 15", "16 on")},
    **{f"frame | {what}": [test] for test, those in (
        ("in_any_pieces", ["TEST UNIT READY of host 1 to drive 2, tag 7",
                          "WRITE(6) of the three bytes 61h 62h 63h, host 3, drive 1, tag FFFFFFFEh",
                          "a move from slot 1001 to drive 1, tag 9", "an inventory, tag 01000000h"]),
        ("each_frame_written", ["its answer from an empty drive", "an answer with these three bytes",
                         "CONFLICT for host 64, tag 0", "its answer, GOOD",
                         "an answer with drive 1, in which nothing is, and slot 1001 with T00001L6"]))
       for what in those},
    # what an answer means, which no program writes yet
    **{f"words of | {what}": [test] for test, those in (
        ("each_condition_of_a_tape_in_words", [
            "ILI, 0, 00/00", "0, 00/01", "0, 00/02", "0, 00/04", "8, 00/05", "Dh, 00/02"]),
        ("each_refusal_in_words", [
            "0, 00/00", "2, 3A/00", "5, 20/00", "5, 24/00", "5, 1A/00", "5, 26/00", "5, 26/04",
            "5, 21/01", "5, 3B/0D", "5, 3B/0E", "5, 55/04"]),
        ("each_fault_in_words", [
            "3, 0C/00", "3, 11/00", "4, 44/00", "Bh, 55/03", "any other",
            "6, 29/00", "6, 28/00", "6, 2A/03", "6, 2A/05", "6, 2A/04", "6, 2A/01"]))
       for what in those},
    "words where | deferred": ["each_fault_in_words"],
    "words where | INFORMATION is valid and not 0, ILI is 0": ["each_condition_of_a_tape_in_words"],
    "words where | INFORMATION is valid and not 0, ILI is 1": ["each_condition_of_a_tape_in_words"],
    "words where | FILEMARK, EOM, ILI": ["each_condition_of_a_tape_in_words"],
    "words where | CONFLICT": ["a_conflict_in_words"],
    "limits | a script of 2,147,483,648 bytes, and one of a byte more": ["limits_of_bytes_and_reads", ENDINGS],
    "limits | a script of 4,294,967,296 reads, and one more": ["limits_of_bytes_and_reads", "reads_are_counted"],
    "limits | PRGENERATION wraps at 2^32": ["the_generation_wraps"],
    "run | a file that is open in another process": [ENDINGS],
    "reclaim | each step of it, stopped": ["a_stop_at_each_call_of_both", "reclaim_stops.py"],
    "reclaim | a device fault": ["a_fault_at_each_call_of_either", FAULTS],
    "create | a file that could not be completed is taken away": [ENDINGS, "a_creation_takes_away_what_is_not_whole"],
    "opening | what the first sync writes again": ["what_an_opening_writes_again", "a_gate_is_written_again"],
    "opening | what the next sync writes after one that failed": ["a_sync_behind_one_that_failed"],
}


def missing():
    """What is named that is not there."""
    tests = set()
    for folder, _, files in os.walk(os.path.join(TOP, "crates")):
        for name in files:
            if name.endswith(".rt"):
                with open(os.path.join(folder, name), encoding="utf-8") as lines:
                    tests |= set(re.findall(r"#\[test\]\nfn (\w+)\(", lines.read()))
    benches = set(os.listdir(os.path.join(TOP, "checks")))
    return [f"elsewhere: {cell}: there is no test {name}" for cell, names in CELLS.items()
            for name in names if name not in tests | benches]
