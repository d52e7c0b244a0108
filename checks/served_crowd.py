#!/usr/bin/env python3
"""64 hosts at 16 drives of one `vtl serve` send WRITE and READ POSITION in a random order. They have to be answered as
some order of the commands at each drive gives, in which each host's come in their order: the tape that is read back
says in which order the blocks were written, and a position that is answered is how many of them stood there.

--program PATH: another program than the proved one; --seed S; --selftest: answers that no order gives are found."""
import argparse
import os
import random
import struct
import subprocess
import sys
import tempfile
import threading

import front_end

TOP = os.path.dirname(os.path.dirname(os.path.abspath(__file__)))
PROVED = os.path.join(TOP, "crates", "vtl", "out", "vtl")
HOSTS, DRIVES, COMMANDS = 64, 16, 4_000
READY, WRITE, POSITION, REWIND, READ = (bytes.fromhex(it) for it in (
    "000000000000", "0a0000000400", "34000000000000000000", "010000000000", "080000000400"))
POWER_ON = bytes.fromhex("700006000000000a00000000290000000000")
CHECK = 0x02


def crowd(chance):
    """Host, drive and block of each command. The first of a host at a drive takes its power on condition."""
    made, met = [], set()
    for _ in range(COMMANDS):
        host, drive = chance.randint(1, HOSTS), chance.randint(1, DRIVES)
        made += [] if (host, drive) in met else [(host, drive, READY)]
        met.add((host, drive))
        made.append((host, drive, chance.choice((WRITE, WRITE, POSITION))))
    return made


def readers(made):
    """The commands of host 1 that read each tape back, once all others are answered."""
    return [(1, drive, block) for drive in range(1, DRIVES + 1)
            for block in [READY, REWIND, *(READ for _, at, it in made if (at, it) == (drive, WRITE)), READ]]


def frames(made, behind):
    """All of it in frames; the tag of a command is its number, from 1 on, and that of the inventory between is 0."""
    parts = [front_end.HEADER.pack(front_end.COMMAND, host, drive, len(block), 4 * (block == WRITE), tag) + block
             + (struct.pack(">I", tag) if block == WRITE else b"")
             for tag, (host, drive, block) in enumerate([*made, *behind], 1)]
    return b"".join([*parts[:len(made)], front_end.HEADER.pack(3, 0, 0, 0, 0, 0), *parts[len(made):]])


def answered(output):
    """Tag, host, status, sense data and data of each answer, in the order in which they came."""
    found, at = [], 0
    while at < len(output):
        _, host, status, sense, length, tag = front_end.HEADER.unpack(output[at:at + 16])
        at += 16 + sense + length
        found.append((tag, host, status, output[at - length - sense:at - length], output[at - length:at]))
    return found


def at_drive(drive, commands, tape):
    """Why no order of these commands at a drive, tag, host, block and answer, gives what they are answered."""
    place = {tag: at for at, tag in enumerate(tape)}
    if sorted(tape) != [tag for tag, _, block, _ in commands if block == WRITE]:
        return [f"drive {drive}: the tape has not each block once"]
    wrong, least = [], {}
    for tag, host, block, answer in commands:
        if block == READY:
            is_right, stood = answer == (CHECK, POWER_ON, b""), 0
        elif block == WRITE:
            # it stands behind all that the host has seen there
            is_right, stood = answer == (0, b"", b"") and place[tag] >= least[host], place[tag] + 1
        else:
            stood = struct.unpack(">I", answer[2][4:8])[0] if len(answer[2]) == 20 else -1
            is_right = least[host] <= stood <= len(tape)
        least[host] = max(stood, least.get(host, 0))
        if not is_right:
            wrong.append(f"drive {drive}: tag {tag} of host {host} is answered by no order")
    return wrong


def faults(made, behind, found):
    """What is wrong with the answers that were found."""
    every = [*made, *behind]
    if sorted(tag for tag, *_ in found) != list(range(len(every) + 1)):
        return [f"{len(found)} answers to {len(every) + 1} requests, or one to none of them"]
    answers = {tag: answer for tag, _, *answer in found}
    wrong = [f"tag {tag} is answered to host {host}" for tag, host, *_ in found if tag and every[tag - 1][0] != host]
    came = {host: [tag for tag, at, *_ in found if tag and at == host] for host in range(1, HOSTS + 1)}
    wrong += [f"host {host} is answered out of order" for host, tags in came.items() if tags != sorted(tags)]
    if [tag for tag, *_ in found].index(0) != len(made):
        wrong.append("the inventory is not answered behind all before it")
    for drive in range(1, DRIVES + 1):
        commands = [(tag, host, block, tuple(answers[tag])) for tag, (host, at, block) in enumerate(made, 1)
                    if at == drive]
        blocks = [answers[tag][2] for tag, (_, at, block) in enumerate(behind, len(made) + 1)
                  if (at, block) == (drive, READ) and answers[tag][0] == 0]
        wrong += at_drive(drive, commands, [int.from_bytes(block, "big") for block in blocks])
    return wrong


def exchange(program, given):
    """What a program over 16 new cartridges in memory writes, its status and its standard error."""
    with tempfile.TemporaryDirectory(prefix="vtl-crowd-") as room:
        with open(os.path.join(room, "library.toml"), "w", encoding="utf-8") as file:
            for at in range(1, DRIVES + 1):
                file.write(f'[[drive]]\nnumber = {at}\nreservations = "{at}.pr"\n[[cartridge]]\nbarcode = "T{at}"\n'
                           f'file = "{at}.tape"\ncapacities = [1_048_576]\nhome = {at}\n')
        child = subprocess.Popen([program, "serve", "--memory", "--config", "library.toml"], cwd=room,
                                 stdin=subprocess.PIPE, stdout=subprocess.PIPE, stderr=subprocess.PIPE)

        def give():
            with child.stdin:
                child.stdin.write(given)

        giver = threading.Thread(target=give)
        giver.start()
        output, said = child.stdout.read(), child.stderr.read()
        giver.join()
        return output, child.wait(), said


def wrong_in(program, seed=1):
    """What is wrong with a crowd that this program serves."""
    made = crowd(random.Random(seed))
    behind = readers(made)
    output, status, said = exchange(program, frames(made, behind))
    wrong = [f"status {status}: {said.decode()}"] if status or said else faults(made, behind, answered(output))
    print("\n".join([*wrong[:10], f"served crowd: {len(made)} commands of {HOSTS} hosts at {DRIVES} drives, "
                                  f"{len(wrong)} faults"]))
    return len(wrong)


def served_by_hand(made, behind):
    """The answers of a library that serves one command after another."""
    tapes, places, met, found = {}, {}, set(), []
    for tag, (host, drive, block) in enumerate([*made, *behind], 1):
        tape, first = tapes.setdefault(drive, []), (host, drive) not in met
        met.add((host, drive))
        answer = (0, b"", b"")
        if block == READY and first:
            answer = (CHECK, POWER_ON, b"")
        elif block == WRITE:
            tape.append(tag)
        elif block == POSITION:
            answer = (0, b"", bytes(4) + struct.pack(">I", len(tape)) + bytes(12))
        elif block == READ:
            at = places[drive] = places.get(drive, -1) + 1
            answer = (0, b"", struct.pack(">I", tape[at])) if at < len(tape) else (CHECK, bytes(18), b"")
        found.append((tag, host, *answer))
        if tag == len(made):
            found.append((0, 0, 0, b"", b""))
    return found


def selftest():
    """How many wrong answers are not found."""
    made = crowd(random.Random(1))
    behind = readers(made)
    right = served_by_hand(made, behind)
    write = next(at for at, it in enumerate(right) if it[0] and made[it[0] - 1][2] == WRITE)
    position = [at for at, it in enumerate(right) if 0 < it[0] <= len(made) and made[it[0] - 1][2] == POSITION][-1]
    reads = [at for at, it in enumerate(right) if len(it[4]) == 4][:2]
    host = [at for at, it in enumerate(right) if it[1] == 2][:2]

    def changed(**at):
        found = list(right)
        for name, value in at.items():
            found[int(name[1:])] = value
        return found

    one = right[position]
    wrong = {
        "an answer twice": [*right, right[-1]], "none": right[:-1], "none to the inventory": [*right[:len(made)],
                                                                                             *right[len(made) + 1:]],
        "another host": changed(**{f"_{write}": (right[write][0], right[write][1] % HOSTS + 1, *right[write][2:])}),
        "out of order": changed(**{f"_{host[0]}": right[host[1]], f"_{host[1]}": right[host[0]]}),
        "a position before what was seen": changed(**{f"_{position}": (*one[:4], bytes(20))}),
        "a position behind the end": changed(**{f"_{position}": (*one[:4], bytes(4) + b"\0\1\0\0" + bytes(12))}),
        "a block twice": changed(**{f"_{reads[1]}": (*right[reads[1]][:4], right[reads[0]][4])}),
        "an early inventory": [right[len(made)], *right[:len(made)], *right[len(made) + 1:]],
    }
    missed = [name for name, found in wrong.items() if not faults(made, behind, found)]
    missed += ["the right one is refused"] if faults(made, behind, right) else []
    print("\n".join([*missed, f"served crowd --selftest: {len(wrong)} wrong answers, {len(missed)} not found"]))
    return len(missed)


def main():
    parser = argparse.ArgumentParser()
    parser.add_argument("--program", default=PROVED)
    parser.add_argument("--seed", type=int, default=1)
    parser.add_argument("--selftest", action="store_true")
    given = parser.parse_args()
    return 1 if (selftest() if given.selftest else wrong_in(os.path.abspath(given.program), given.seed)) else 0


if __name__ == "__main__":
    sys.exit(main())
