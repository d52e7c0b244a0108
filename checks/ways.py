#!/usr/bin/env python3
"""Counts the files on the way of a WRITE and of a WRITE FILEMARKS, as docs/LAYERS.md names them.

    python3 checks/ways.py           the two counts; fails where a count is above its limit or the table is wrong
    python3 checks/ways.py --list    the files of each way too

A way is that of one command of a script, over files of the system, at the end of data, with no error, no doubt of a
file and no reservation: from the bytes of its line to those of its reply, and until its bytes are safe. A WRITE is
buffered: the hosts' half answers it, and a turn of the flusher stores it; with what makes room behind that it is
counted too, without a limit. A WRITE FILEMARKS has IMMED 0, and its disks were away: both halves answer it, and it
stores what waits. A file is counted once, if the table has a function in it that runs on the way. Not counted are the
start of the library, declarations of traits, values of one number or of bytes (`vtl_base`), and calls that only proofs
see (`known`). The table is by hand. Each of its functions must stand in the file named, and its name must be called
in some file of the way, unless a thread begins with it.
"""
import os
import re
import sys

TOP = os.path.join(os.path.dirname(os.path.abspath(__file__)), "..", "crates")
STARTS = {"run_script", "flusher"}
LIMITS = {"WRITE": 82, "WRITE FILEMARKS": 90}

# The parts of the ways: crate, then its files, and of each file functions that run.
LINE = """
vtl_script scripts:run_script,run_item items:read_items phases:read_phase line_readers:find read_buffers:pass
  splits:place_of script_limits:within_reads interruptions:is_interrupted lines:parse hosts:sort_by_host
  texts:print_replies answer_texts:add,write_out
library_scripts crews:run_lines phases:deal_all,give_all stages:deal,give serving:serve_jobs threads:each_beside
  jobs:serve,add
library sessions:serve_line libraries:command shared:serve places:accepted places/answers:execute_alone
  places/entries:enter_if_risen places/seats:count_answer,enter
ledgers shares:enter tally:enter
split_bay fronts:execute
drive_commands drives/alone:execute_alone drives/verdicts:verdict drives/looking:accepted appends:append
scsi_opcodes opcodes:of commands:of
scsi_attention attentions:first
scsi_sense replies:good
pr_core reservations:allowed states:allows
positioning reports:is_near_end
tape_buffer media:accept catalogs:shown
cartridge shown:refusal_shown,enter_shown
volume_core refusals:refusal changes:demand volumes:is_in_early_zone
change_records records:of
object_index index:apply partitions:apply tables:cut,add places:of
"""
STORE = """
tape_buffer storing:settle_over,store_all pending:as_slice,clear
cartridge storing:store bodies:size_of_body placing:place_frame noted:with_frame cartridges:room
change_records spelling:spelled_parts
gate_journal placing:append_frame frame:write_behind gathering:write_frame journal:room
noted_values lib:note
file_disk disk:write_at,sync transfers:write_all doubt:begun,settled written:noted system:write_some,sync
"""
WRITE = """
split_bay ends:send
drive_commands drives/lending:write_lent drives/lifting:lift,lower bays:fill writes:write
scsi_opcodes fields:write
tape_buffer aways:accept_away detaching:take_loose pending:block_bytes
vtl_power_on pace:after_turn
library flushers:flusher shared:turn places:turn
split_bay backs:turn taking:take_known
tape_buffer disks:flush_turn storing:turn_over
"""
MARKS = """
library places/answers:execute_both places/held:fit
split_bay halves:execute_both both:attach_bay,detach_bay taking:take_known ends:receive joined:begin_span noted:of
bay_moves answering:answer
scsi_opcodes fields:write_filemarks
drive_commands drives/lending:execute_lent drives/performing:perform,on_medium drives/lifting:lift,lower bays:fill
  dispatch:carry_out marks:write_marks storing:store_pending
tape_buffer adding:accept_over detaching:attach,detach holding:hold lending:allow aways:away_of media:settle
object_index runs:push
"""
ROOM = """
library places/answers:renew
split_bay halves:make_room both:attach_bay,detach_bay joined:begin_span noted:of
tape_buffer detaching:attach,detach holding:hold lending:allow
"""
WAYS = {"WRITE": (LINE, WRITE, STORE), "WRITE FILEMARKS": (LINE, MARKS, STORE),
        "WRITE, with make_room behind it": (LINE, WRITE, STORE, ROOM)}


def entries(parts):
    """Each file of the parts, with the functions that are named of it."""
    found = {}
    for part in parts:
        crate = ""
        for word in part.split():
            if ":" not in word:
                crate = word
                continue
            name, functions = word.split(":")
            found.setdefault(f"{crate}/src/{name}.rt", []).extend(functions.split(","))
    return found


def main():
    wrong = 0
    for way, parts in WAYS.items():
        files = entries(parts)
        texts = {}
        for file in files:
            path = os.path.join(TOP, file)
            texts[file] = open(path, encoding="utf-8").read() if os.path.exists(path) else ""
        code = "\n".join(re.sub(r"(?m)^ *//.*$|\bfn \w+", "", text) for text in texts.values())
        for file, functions in files.items():
            for function in functions:
                if not re.search(rf"(?m)^ *(pub(\(\w+\))? )?fn {function}\b", texts[file]):
                    print(f"{way}: {file} has no function {function}")
                    wrong += 1
                elif function not in STARTS and not re.search(rf"\b{function}(::<[^(]*>)?\(", code):
                    print(f"{way}: nothing on the way calls {function} of {file}")
                    wrong += 1
        limit = LIMITS.get(way, len(files))
        wrong += len(files) > limit
        print(f"{way}: {len(files)} files" + (f", at most {limit}" if way in LIMITS else ""))
        if "--list" in sys.argv[1:]:
            print("".join(f"    {file}\n" for file in sorted(files)), end="")
    return 1 if wrong else 0


if __name__ == "__main__":
    sys.exit(main())
