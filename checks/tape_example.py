"""examples/tape.py, run behind the files of 01-backup and 02-append, as README has it: two folders are saved, a third
save is killed with its program, both are restored and compared, and a folder that does not fit leaves them as they
are. One has a link to an absolute path, and a name that is no UTF-8. A cartridge that was in a slot is saved to, and
erased; a save that is not the folder any more, and one with a changed byte, are found."""
import filecmp
import os
import shutil
import subprocess
import sys

TAPE = os.path.join(os.path.dirname(os.path.dirname(os.path.abspath(__file__))), "examples", "tape.py")
# A program that has the real one serve, and kills it once it was given so many bytes.
KILLED = """#!{python}
import subprocess, sys
served, left = subprocess.Popen(["{program}", *sys.argv[1:]], stdin=subprocess.PIPE), 3_000_000
while left > 0:
    given = sys.stdin.buffer.read1(left)
    served.stdin.write(given)
    served.stdin.flush()
    left -= len(given)
served.kill()
served.wait()
"""
# Names and contents; the cartridge has 16,777,216 bytes. The third one is killed on its way, the fourth does not fit.
FOLDERS = {"letters": {"a": b"alpha\n", "empty": b"", "deep/b": b"beta\n" * 1000, "\udcff": b"no UTF-8\n"},
           "blocks": {"exact": b"\x00\xff" * 131_072, "more": bytes(range(256)) * 4096},
           "long": {"long": b"0123456789abcdef" * 524_288},
           "large": {"large": b"too much\n" * 2_000_000}}
NONE = "save {} is no folder, or it broke off"
# The scripts' files come first.
LISTED = "\n".join(map(NONE.format, range(1, 5))) + """
save 5
  .
  ./a
  ./deep
  ./deep/b
  ./empty
  ./link
  ./\udcff
save 6
  .
  ./exact
  ./more
"""


def lay_out(room):
    for folder, files in FOLDERS.items():
        for name, content in files.items():
            path = os.path.join(room, folder, name)
            os.makedirs(os.path.dirname(path), exist_ok=True)
            with open(path, "wb") as file:
                file.write(content)
    os.symlink(os.path.join(room, "letters", "a"), os.path.join(room, "letters", "link"))


def target(path):
    return os.readlink(path) if os.path.islink(path) else None


def differing(one, other):
    """The names that two folders do not share, or whose bytes or links differ."""
    found = filecmp.dircmp(one, other)
    apart = filecmp.cmpfiles(one, other, found.common_files, shallow=False)
    names = [*found.left_only, *found.right_only, *found.common_funny, *apart[1], *apart[2]]
    names += [name for name in found.common_files if len({target(os.path.join(it, name)) for it in (one, other)}) > 1]
    return names + [name for each in found.common_dirs for name in differing(os.path.join(one, each),
                                                                             os.path.join(other, each))]


class Tape:
    """The runs of tape.py in a folder with a library, and how many ended other than expected."""

    def __init__(self, program, room):
        self.room, self.compared, self.wrong = room, 0, 0
        self.environment = {**os.environ, "VTL": program}

    def check(self, what, is_so, why=""):
        self.compared += 1
        if not is_so:
            self.wrong += 1
            print(f"tape.py {what}: other than expected {why}")

    def ends(self, wanted, *words, **environment):
        """Status, standard output and standard error of a run."""
        done = subprocess.run([sys.executable, TAPE, *words], cwd=self.room, env={**self.environment, **environment},
                              stdin=subprocess.DEVNULL, stdout=subprocess.PIPE, stderr=subprocess.PIPE, text=True,
                              errors="surrogateescape")
        found = (done.returncode, done.stdout, done.stderr)
        self.check(" ".join(words), found == wanted, f"{found} in the place of {wanted}")

    def is_refused(self, *words):
        """The words are refused before the program is started."""
        done = subprocess.run([sys.executable, TAPE, *words], cwd=self.room, env={**self.environment, "VTL": "missing"},
                              stdin=subprocess.DEVNULL, stdout=subprocess.PIPE, stderr=subprocess.PIPE, text=True)
        self.check(" ".join(words), (done.returncode, done.stdout) == (2, "") and ": error: " in done.stderr,
                   done.stderr)

    def killed(self, folder):
        """A save whose program is killed on its way, once it was given some of the blocks."""
        path = os.path.join(self.room, "killed.py")
        with open(path, "w") as file:
            file.write(KILLED.format(python=sys.executable, program=self.environment["VTL"]))
        os.chmod(path, 0o755)
        self.ends((1, "", "tape: vtl has ended\n"), "save", folder, VTL=path)

    def restored(self, number, folder):
        self.ends((0, "", ""), "restore", str(number), f"{folder}.back")
        back = os.path.join(self.room, f"{folder}.back")
        names = differing(os.path.join(self.room, folder), back) if os.path.isdir(back) else ["all of it"]
        self.check(f"restore {number}", not names, ", ".join(names))
        shutil.rmtree(back, ignore_errors=True)


def other(tape):
    """A cartridge that is in a slot at each start, by drive 2: saved to, damaged, erased."""
    words = ("--drive", "2", "--barcode", "DAILY2L6")
    names = "save 1\n  .\n  ./a\n  ./deep\n  ./deep/b\n  ./empty\n  ./link\n  ./\udcff\n"
    tape.ends((0, "", ""), *words, "save", "letters")
    tape.ends((0, names, ""), *words, "list")
    tape.ends((0, "", ""), *words, "verify", "1", "letters")
    path = os.path.join(tape.room, "daily2.tape")
    with open(path, "rb") as file:
        content = file.read()
    with open(path, "wb") as file:
        file.write(content.replace(b"alpha\n", b"alphb\n"))
    tape.ends((0, names + "save 1 is not what was saved\n", ""), *words, "list")
    tape.ends((1, "differs: letters/a\n", "tape: the folder is not what was saved\n"), *words, "verify", "1", "letters")
    tape.ends((1, "", "tape: save 1 is not what was saved\n"), *words, "restore", "1", "spoilt")
    tape.ends((0, "", ""), *words, "erase")
    tape.ends((0, "", ""), *words, "list")


def folders(program, room):
    """All of it in a folder with a library's configuration and files: comparisons, and how many were wrong."""
    lay_out(room)
    tape = Tape(program, room)
    tape.is_refused("save")
    tape.is_refused("erase")
    tape.ends((1, "", "tape: [Errno 2] No such file or directory: 'missing'\n"), "list", VTL="missing")
    tape.ends((1, "", "tape: [Errno 2] No such file or directory: 'missing'\n"), "save", "missing")
    tape.ends((0, "", ""), "save", "letters")
    tape.ends((0, "", ""), "save", "blocks")
    tape.killed("long")
    tape.restored(5, "letters")
    tape.restored(6, "blocks")
    full = "tape: the end of the partition is near\ntape: the partition is full\n"
    tape.ends((1, "", full), "save", "large")
    tape.ends((0, LISTED, ""), "list")
    tape.ends((1, "", f"tape: {NONE.format(4)}\n"), "restore", "4", "nothing")
    for number in ("0", "7", "16777217", "x"):
        tape.ends((1, "", f"tape: there is no save {number}\n"), "restore", number, "nothing")
    tape.restored(6, "blocks")
    tape.ends((0, "", ""), "verify", "6", "blocks")
    with open(os.path.join(room, "blocks", "more"), "ab") as file:
        file.write(b"!")
    open(os.path.join(room, "blocks", "new"), "w").close()
    changed = "differs: blocks/more\ndiffers: blocks/new\n"
    tape.ends((1, changed, "tape: the folder is not what was saved\n"), "verify", "6", "blocks")
    tape.ends((1, "", "tape: there is no cartridge DAILY9L6\n"), "--barcode", "DAILY9L6", "list")
    other(tape)
    return tape.compared, tape.wrong
