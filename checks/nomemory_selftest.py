"""The self-test of nomemory.py: ends of runs that are invented are judged, and programs that stand here are swept."""
import contextlib
import io
import os
import subprocess
import tempfile

from nomemory import ERRORS, ROOM, ROUND, WAYS, Run, ended, shim_in, swept
from nomemory_rows import (ABORTED, AT_END, AT_MARK, BLOCK_TAPE, DEFERRED, FAILED, MARK_TAPE, NEW_TAPE, NOT_PRESENT,
                           ONE_HOLDER, ONE_KEY, POWER_ON, READ_ERROR, SCRIPTS, TAPE, WRITE_ERROR, Script, held)

ONCE, AGAIN = WAYS
FILE, MEMORY, FRAMES, _, KEPT, LATER, _, MOVES, _ = SCRIPTS
BLOCK = "GOOD 68656c6c6f"
WHOLE = [POWER_ON, "GOOD", "GOOD", "GOOD", "GOOD", BLOCK, AT_MARK]
NO_WRITE = [POWER_ON, "GOOD", ABORTED, "GOOD", "GOOD", AT_MARK, AT_END]
NO_MARK = [POWER_ON, "GOOD", "GOOD", ABORTED, "GOOD", BLOCK, AT_END]
NO_READ = [POWER_ON, "GOOD", "GOOD", "GOOD", "GOOD", ABORTED, BLOCK]
WRITE_AGAIN = [*WHOLE[:2], ABORTED, *WHOLE[2:]]
LATE = [*WHOLE[:3], DEFERRED, *3 * [FAILED]]

# the script, the way, the line, the status, the answers, what the tape or the store of drive 1 holds
STAND = [
    (FILE, ONCE, 0, 3, [], NEW_TAPE), (FILE, ONCE, 3, 3, WHOLE[:2], NEW_TAPE),
    (FILE, ONCE, 3, 3, WHOLE[:2], BLOCK_TAPE), (FILE, ONCE, 3, 3, WHOLE[:3], BLOCK_TAPE),
    (FILE, AGAIN, 8, 3, WHOLE, TAPE), (FILE, ONCE, 3, 0, NO_WRITE, MARK_TAPE),
    # the halves of a drive part without room for what hosts send
    (FILE, ONCE, 3, 0, WHOLE, TAPE), (FILE, ONCE, 0, 0, WHOLE, TAPE),
    (FILE, ONCE, 4, 0, NO_MARK, BLOCK_TAPE), (FILE, ONCE, 6, 0, NO_READ, TAPE), (FILE, ONCE, 6, 0, NO_READ, TAPE[1:]),
    (FILE, AGAIN, 3, 0, WRITE_AGAIN, TAPE), (MEMORY, ONCE, 0, 0, [POWER_ON] + 6 * [NOT_PRESENT], None),
    (MEMORY, ONCE, 3, 2, LATE, None), (MEMORY, AGAIN, 6, 2, [*WHOLE[:5], READ_ERROR, FAILED], None),
    (KEPT, ONCE, 2, 0, [POWER_ON, ABORTED, "CONFLICT"], held(KEPT, 0)["store1"]),
    (KEPT, AGAIN, 3, 0, [POWER_ON, "GOOD", ABORTED, "GOOD"], ONE_HOLDER),
]
FOUND = [
    # a command that changed something, also its position; one that changed less
    (FILE, ONCE, 3, 0, WHOLE, BLOCK_TAPE), (FILE, ONCE, 3, 0, NO_WRITE, TAPE),
    (FILE, ONCE, 3, 0, [*WHOLE[:2], ABORTED, *WHOLE[3:]], TAPE),
    (FILE, ONCE, 6, 0, [*WHOLE[:5], ABORTED, AT_MARK], TAPE),
    (FILE, ONCE, 4, 0, NO_MARK, TAPE), (FILE, ONCE, 4, 0, NO_MARK, NEW_TAPE), (FILE, ONCE, 6, 0, NO_READ, BLOCK_TAPE),
    # another command than that of the line; one that takes no memory; two of them; another answer to it
    (FILE, ONCE, 4, 0, NO_WRITE, MARK_TAPE), (FILE, ONCE, 5, 0, [*WHOLE[:4], ABORTED, *WHOLE[5:]], TAPE),
    (FILE, ONCE, 3, 0, [*NO_WRITE[:3], ABORTED, "GOOD", AT_END, AT_END], NEW_TAPE),
    (FILE, ONCE, 3, 0, [*WHOLE[:2], NOT_PRESENT, *NO_WRITE[3:]], MARK_TAPE),
    # given again it has not its answer, or it was done twice
    (FILE, AGAIN, 3, 0, [*WHOLE[:2], ABORTED, ABORTED, *NO_WRITE[3:]], MARK_TAPE),
    (FILE, AGAIN, 3, 0, NO_WRITE, MARK_TAPE),
    (FILE, AGAIN, 3, 0, [*WRITE_AGAIN[:-1], BLOCK], TAPE), (FILE, AGAIN, 3, 0, WRITE_AGAIN, BLOCK_TAPE),
    # the program ends early or late, with lost data, or with another status
    (FILE, ONCE, 4, 3, WHOLE[:2], NEW_TAPE), (FILE, ONCE, 3, 3, WHOLE[:4], TAPE),
    (FILE, ONCE, 4, 3, WHOLE[:3], NEW_TAPE),
    (FILE, ONCE, 3, 3, [POWER_ON, "GOOD", ABORTED], NEW_TAPE), (FILE, ONCE, 0, 3, [], BLOCK_TAPE),
    (FILE, ONCE, 3, 2, WHOLE[:2], NEW_TAPE), (FILE, ONCE, 3, 0, WHOLE[:2], NEW_TAPE), (FILE, ONCE, 8, 2, WHOLE, TAPE),
    # a device fault over files, where no disk had to grow, at another line, or of which less follows
    (FILE, ONCE, 4, 2, [*WHOLE[:3], WRITE_ERROR, *3 * [FAILED]], BLOCK_TAPE), (MEMORY, ONCE, 5, 2, LATE, None),
    (MEMORY, ONCE, 4, 0, LATE, None), (MEMORY, ONCE, 4, 2, [*LATE[:-1], AT_MARK], None),
    (MEMORY, ONCE, 1, 0, [POWER_ON] + 6 * [NOT_PRESENT], None), (MEMORY, ONCE, 3, 0, [*WHOLE[:2], *5 * [FAILED]], None),
    (MEMORY, ONCE, 0, 2, [], None), (MEMORY, AGAIN, 6, 0, [*WHOLE[:5], READ_ERROR, AT_MARK], None),
    # an order that was refused is saved, or an earlier one is lost; a move whose cartridge is gone
    (KEPT, ONCE, 3, 0, [POWER_ON, "GOOD", ABORTED], ONE_HOLDER),
    (KEPT, ONCE, 3, 0, [POWER_ON, "GOOD", ABORTED], held(KEPT, 0)["store1"]),
    (LATER, ONCE, 4, 0, [*[answer for _, answer in LATER.lines[:3]], ABORTED], ONE_KEY),
    (MOVES, ONCE, 13, 0, [*[answer for _, answer in MOVES.lines[:12]], ABORTED, "GOOD", BLOCK], BLOCK_TAPE),
]

# A program that numbers its lines and asks for memory for each. One that gets none is not counted, and is answered so,
# but where the word says otherwise.
STAND_IN = r"""
#include <stdio.h>
#include <stdlib.h>
#include <string.h>
#include <unistd.h>
int main(int count, char **words) {
    char line[4096], answer[64], *volatile kept, *way = words[1];
    int number = 0, refused = 0;
    if (!(kept = malloc(1))) return strcmp(way, "starts") ? write(2, "vtl: out of memory\n", 19), 3 : 0;
    while (read(0, line, sizeof line) > 0) {
        kept = malloc(1);
        if (!strcmp(way, "passes") || !strcmp(way, "asks") && (kept || (kept = malloc(1)))) kept = line;
        if (!kept && !strcmp(way, "ends")) return 1;
        if (!kept && !strcmp(way, "dies")) abort();
        if (!strcmp(way, "always") || !strcmp(way, "ever") && refused) kept = NULL;
        refused |= !kept;
        number += kept || !strcmp(way, "counts");
        int size = kept ? sprintf(answer, "GOOD %d\n", number) : sprintf(answer, "@\n");
        write(1, answer, size);
        if (!strcmp(way, "writes") && !kept) write(1, answer, size);
    }
    return 0;
}
""".replace("@", ABORTED)
LINES = [(str(number), f"GOOD {number}") for number in (1, 2, 3)]
WITHOUT = {0: (["GOOD 1", "GOOD 2"], {}), 1: (["GOOD 2"], {}), 2: ([], {})}
RIGHT = "counts none"
WRONG = ["passes", "asks", "ends", "dies", "always", "ever", "counts", "writes", "starts"]


# How many threads an invented run has.
THREADS = 2


def run_of(script, status, answers, content):
    """Such a run; the other files are as they are at its end."""
    files = {name: possible[0] for name, possible in held(script, len(script.lines)).items()}
    if content:
        files["store1" if script in (KEPT, LATER) else "tape"] = content[0]
    return Run(status, "".join(f"{answer}\n" for answer in answers), ERRORS[status], files, 1, True, THREADS)


def misjudged():
    """The invented ends that are not judged as they should be."""
    runs = [(row, run_of(row[0], *row[3:])) for rows in (STAND, FOUND) for row in rows]
    wrong = [f"{row}: {run}" for row, run in runs if bool(ended(*row[:3], run, THREADS)) != (row in STAND)]
    # a thread that does not start, two, and one that does not start in a run that has another answer or another file
    whole, fewer = run_of(FILE, 0, WHOLE, TAPE), THREADS + 1
    if ended(FILE, ONCE, 0, whole, fewer) != "a thread":
        wrong.append(f"not let through: {whole}")
    wrong += [f"let through, of {threads} threads: {run}" for threads, run in [
        (THREADS + 2, whole), (fewer, run_of(FILE, 0, NO_MARK, TAPE)),
        (fewer, run_of(FILE, 0, WHOLE, BLOCK_TAPE)), (fewer, run_of(FILE, 2, WHOLE, TAPE))]
        if ended(FILE, ONCE, 0, run, threads)]
    # frames are then served in a round more, and a script is not; a round has its threads
    counts, owed = [ROUND, 2 * ROUND, ROUND - 1, 2 * ROUND + 1, 0], ["a thread", "a thread", None, ROOM, None]
    for script, ways in [(FRAMES, owed), (FILE, ["a thread", None, None, None, None])]:
        judged = [ended(script, ONCE, 0, run_of(script, 0, WHOLE, TAPE)._replace(threads=count), ROUND + 1)
                  for count in counts]
        if judged != ways:
            wrong.append(f"threads of rounds are not judged as they should be: {script.name}: {judged}")
    row, good = STAND[1], run_of(FILE, 3, *STAND[1][4:])
    bare = good._replace(files={name: good.files[name] for name in good.files if name != "tape"})
    others = [good._replace(err=""), good._replace(err=2 * good.err), good._replace(out=good.out[:-1]), bare,
              good._replace(out=good.out + good.err), good._replace(files={**good.files, "more": b""}),
              good._replace(refused=False), good._replace(status=-9)]
    return len(runs) + len(others) + 15, wrong + [
        f"let through: {run}" for run in others if ended(*row[:3], run, THREADS)]


def unfound(folder):
    """The programs that stand here and are not judged as they should be."""
    program, source = os.path.join(folder, "program"), os.path.join(folder, "program.c")
    with open(source, "w", encoding="ascii") as file:
        file.write(STAND_IN)
    subprocess.run(["cc", "-w", "-fno-builtin", "-o", program, source], check=True)
    scripts = [Script(f"a program that {way}", [way], {}, LINES, {}, WITHOUT, [0, 1, 2], (), False)
               for way in [RIGHT, *WRONG]]
    shim = shim_in(folder)
    with contextlib.redirect_stdout(io.StringIO()):
        found = {script.name: swept((program, shim), [script]) for script in scripts}
    return len(found), [f"{name}: {wrong}" for name, wrong in found.items() if bool(wrong) == name.endswith(RIGHT)]


def main():
    invented, wrong = misjudged()
    with tempfile.TemporaryDirectory(prefix="vtl-nomemory-") as folder:
        programs, others = unfound(folder)
    print("\n".join([*wrong, *others, f"self-test: {invented} ends and {programs} programs, {len(wrong) + len(others)} "
                     "not judged as they should be"]))
    return 1 if wrong or others else 0
