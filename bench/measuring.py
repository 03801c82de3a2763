"""What bench/run, bench/grow and bench/compile share: models, solvers, and what a run of one on the other says."""
import csv
import os
import re
import shutil
import signal
import subprocess
import tempfile
import threading
import time

HERE = os.path.dirname(os.path.realpath(__file__))
PROGRAM = os.path.join(os.path.dirname(HERE), "crates", "cachesolve_cli", "out", "cachesolve_cli")
LIBRARY = os.path.join(os.path.dirname(HERE), "minizinc", "cachesolve.msc")
FAMILIES = os.path.join(HERE, "families")
SMALLEST = b"var 1..1: x;\nsolve satisfy;\n"
# The constraints that fzn-gecode calls otherwise.
NAMES = {b"fzn_all_different_int": b"all_different_int"}


class Run:
    """One run of a command: its status, or None where the limit passed; what it printed; the seconds and megabytes that it took."""

    def __init__(self, words, given, limit):
        with tempfile.TemporaryFile() as model, tempfile.TemporaryFile() as printed:
            model.write(given)
            model.seek(0)
            begun = time.monotonic()
            process = subprocess.Popen(words, stdin=model, stdout=printed, stderr=subprocess.DEVNULL)
            late = threading.Timer(limit, os.kill, (process.pid, signal.SIGKILL))
            late.start()
            try:
                _, status, used = os.wait4(process.pid, 0)
                process.returncode = os.waitstatus_to_exitcode(status)
            finally:
                late.cancel()
                process.kill()
            self.wall = time.monotonic() - begun
            self.processor, self.megabytes = used.ru_utime + used.ru_stime, used.ru_maxrss // 1000
            printed.seek(0)
            text = printed.read().decode("ascii", "replace")
        is_late = process.returncode == -signal.SIGKILL and self.wall >= limit
        self.status = None if is_late else process.returncode
        # The statistics and empty lines are no part of the answer.
        self.text = re.sub(r"(?m)^(%%%mzn-stat.*)?\n", "", text)
        self.stats = {name: int(number) for name, number in re.findall(r"(?m)^%%%mzn-stat: (\w+)=(\d+)$", text)}


class Model:
    """A model: its name, its bytes, the name of its goal where it has one, and what is known of what must be printed: the whole
    text, or what it says of the goal. A model of a family also has a size: small, middle or large."""

    def __init__(self, name, given, out=None, answer=None, size=None):
        self.name, self.bytes, self.out, self.size = name, given, out, size
        goal = re.search(rb"(?:minimize|maximize)\s+(\w+)\s*;", given)
        self.goal = goal and goal[1].decode()
        self.answer = self.verdict(out) if out else answer

    def verdict(self, text):
        """Gives what the printed text says of the goal."""
        value = self.goal and re.findall(rf"(?m)^{self.goal} = (-?\d+);$", text)
        lines = text.splitlines()
        if "----------" in lines and not self.goal:
            return "a solution"
        if "----------" in lines and value:
            return f"{value[-1]}, {'optimal' if '==========' in lines else 'undecided'}"
        return "unsatisfiable" if "=====UNSATISFIABLE=====" in lines else "undecided"

    def is_right(self, text, is_ours):
        """Returns whether the text is the one wanted. Of another solver, and where the whole text isn't known, the goal alone is
        compared. Any queens that don't attack each other are right, which is looked at here."""
        if self.name.startswith("queens"):
            rows = re.fullmatch(r"row = array1d\(1\.\.\d+, \[([-\d, ]+)\]\);\n----------\n", text)
            rows = rows and [int(it) for it in rows[1].split(", ")]
            size = int(re.search(rb"\[1\.\.(\d+)\] of var int: row\b", self.bytes)[1])
            return (
                bool(rows)
                and sorted(rows) == list(range(1, size + 1))
                and all(len({row + sign * at for at, row in enumerate(rows)}) == size for sign in (1, -1))
            )
        return text == self.out if is_ours and self.out else self.verdict(text) == self.answer


class Solver:
    """The program with some words, or another solver, which is fzn-gecode. Without a command it can't be run."""

    def __init__(self, name, command, is_ours):
        self.name, self.command, self.is_ours = name, command, is_ours

    def run(self, model, limit):
        """Runs it on the model; gives the run, with what it says of the goal where it ended, and its nodes; None without a command."""
        if self.command is None:
            return None
        given = model.bytes
        if not self.is_ours:
            for name, other in NAMES.items():
                given = given.replace(name, other)
        run = Run(self.command, given, limit)
        run.nodes = run.stats.get("nodes")
        if not self.is_ours and run.nodes is not None:
            # Its nodes are also those where nothing is left to branch at.
            run.nodes -= run.stats.get("failures", 0) + run.stats.get("solutions", 0)
        run.answer = model.verdict(run.text) if run.status in (0, 3) else f"status {run.status}"
        return run


def ours(program, words, common=(), limit=60):
    """Gives the program with these words, by which it is called, and those that are common to all; also with -s where it then tells
    its nodes. It has no command where the program isn't there or doesn't take the words."""
    name, words = " ".join(["cachesolve", *words]), [*common, *words]
    for more in (["-s"], []) if os.access(program, os.X_OK) else ():
        run = Run([program, *words, *more], SMALLEST, limit)
        if run.status == 0:
            return Solver(name, [program, *words, *more], True)
        if run.status != 2:
            raise SystemExit(f"bench: the program ended with status {run.status} on a model of one variable")
    return Solver(name, None, True)


def gecode():
    """Gives fzn-gecode with one thread, without a command where it isn't installed."""
    # It reads standard input where the file's name is a hyphen.
    return Solver("fzn-gecode", ["fzn-gecode", "-s", "-"] if shutil.which("fzn-gecode") else None, False)


def family_rows():
    """Gives the models of the families, a row each: family, n, size, answer."""
    with open(os.path.join(FAMILIES, "models.csv"), encoding="ascii", newline="") as it:
        return list(csv.DictReader(it))


def compiled(family, n, folder):
    """Gives the FlatZinc of a family's model, which MiniZinc makes with the library of this repository."""
    file = os.path.join(folder, "model.fzn")
    words = ["minizinc", "--solver", LIBRARY, "-c", "-D", f"n={n};", "--fzn", file, "--no-output-ozn"]
    subprocess.run([*words, os.path.join(FAMILIES, f"{family}.mzn")], check=True, stderr=subprocess.DEVNULL)
    with open(file, "rb") as it:
        return it.read()


def read_model(file):
    """Reads a FlatZinc file, and what must be printed: the file beside it that ends in .out, or a row of the families."""
    start = file.removesuffix(".fzn")
    name, out, row = os.path.basename(start), None, {}
    with open(f"{start}.fzn", "rb") as it:
        given = it.read()
    if os.path.dirname(os.path.realpath(file)) == FAMILIES:
        row = next((it for it in family_rows() if f"{it['family']}_{it['n']}" == name), {})
    elif os.path.exists(f"{start}.out"):
        with open(f"{start}.out", encoding="ascii") as it:
            out = it.read()
    return Model(name, given, out, row.get("answer"), row.get("size"))


def models_in(folder):
    """Gives the names of the FlatZinc files of a folder, those of families by their rows."""
    files = {it for it in os.listdir(folder) if it.endswith(".fzn")}
    if os.path.realpath(folder) == FAMILIES:
        wanted = [f"{it['family']}_{it['n']}.fzn" for it in family_rows()]
        return [os.path.join(folder, it) for it in wanted if it in files]
    return [os.path.join(folder, it) for it in sorted(files)]
