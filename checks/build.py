#!/usr/bin/env python3
"""Proves and builds the program, several crates beside each other, and tells on standard error how far it is.

In one checkout `rt` proves one crate at a time, since it locks a crate with all below it. So each crate is proved in one of a few
copies of the sources, the lanes: what is proved in one checkout, `rt` hands to the others on the same machine, in the end to this
one. The crates that the most work waits for go first, and before the others. The lanes of a run that was interrupted stay, and
the next run goes on where that one was.

A program that was built is kept under the sum of the kit's name and of all sources, so that another clone of the same sources on
this machine need not build it again.
"""
import hashlib
import os
import shutil
import subprocess
import sys
import tempfile
import threading
import time

TOP = os.path.dirname(os.path.dirname(os.path.realpath(__file__)))
PROGRAM = "qe"
CORES = len(os.sched_getaffinity(0))
# A check takes up to 5 GB.
MEMORY = os.sysconf("SC_PAGE_SIZE") * os.sysconf("SC_PHYS_PAGES")
LANES = max(1, min(CORES, MEMORY // (5 << 30)))
MARK = hashlib.sha256(TOP.encode()).hexdigest()[:12]
ROOM = f"{tempfile.gettempdir()}/qe-build-{os.getuid()}-{MARK}"
BUILT = f"{TOP}/crates/{PROGRAM}/out/{PROGRAM}"
KEPT = f"{os.environ.get('XDG_CACHE_HOME') or os.path.expanduser('~/.cache')}/qe"
MOST_KEPT = 4


def say(text):
    print(f"qe: {text}", file=sys.stderr, flush=True)


def read_crates():
    """The crates that the program stands on, and the program, each with those of this repository that it uses."""
    with open(f"{TOP}/crates.txt", encoding="utf-8") as lines:
        pairs = [line.split("#")[0].split(":") for line in lines if ":" in line.split("#")[0]]
    names = {pair[0].split()[0] for pair in pairs}
    uses = {pair[0].split()[0]: [it for it in pair[1].split() if it in names] for pair in pairs}
    needed, left = {}, [PROGRAM]
    while left:
        name = left.pop()
        if name not in needed:
            needed[name] = uses[name]
            left += uses[name]
    return needed


def sources(folder):
    """The sources of the repository, and nothing that was built of them."""
    shutil.copytree(f"{TOP}/crates", f"{folder}/crates", ignore=shutil.ignore_patterns("out"))
    for name in ("crates.txt", "HANDLES"):
        shutil.copy(f"{TOP}/{name}", f"{folder}/{name}")


def sum_of_sources(crates):
    """A sum of all that the program is made of: the kit's name, crates.txt, and the sources of its crates."""
    kit = subprocess.run(["rt", "version"], stdout=subprocess.PIPE, check=True).stdout
    parts = [f"{TOP}/crates/{crate}/{part}" for crate in sorted(crates) for part in ("src", "specs", "proofs")]
    files = [f"{at}/{name}" for part in parts for at, _, names in os.walk(part) for name in names]
    whole = hashlib.sha256(kit)
    for file in [f"{TOP}/crates.txt", *sorted(files)]:
        with open(file, "rb") as it:
            whole.update(f"{os.path.relpath(file, TOP)}\0{hashlib.sha256(it.read()).hexdigest()}\n".encode())
    return whole.hexdigest()


def take_kept(mark):
    """Takes the program that was built of these sources before, and returns whether there was one."""
    try:
        os.makedirs(os.path.dirname(BUILT), exist_ok=True)
        shutil.copy(f"{KEPT}/{mark}", f"{BUILT}.new")
        os.rename(f"{BUILT}.new", BUILT)
        os.utime(f"{KEPT}/{mark}")
    except OSError:
        return False
    return True


def keep(mark):
    """Keeps the program, and the last few that were used. Where it cannot be kept, nothing is lost."""
    try:
        os.makedirs(KEPT, 0o700, exist_ok=True)
        shutil.copy(BUILT, f"{KEPT}/{mark}.new")
        os.rename(f"{KEPT}/{mark}.new", f"{KEPT}/{mark}")
        for old in sorted(os.listdir(KEPT), key=lambda it: -os.stat(f"{KEPT}/{it}").st_mtime)[MOST_KEPT:]:
            os.remove(f"{KEPT}/{old}")
    except OSError:
        pass


def make_lane(number):
    """A copy of the sources as they are now, over what an earlier run kept there."""
    lane, new = f"{ROOM}/{number}", f"{ROOM}/{number}.new"
    shutil.rmtree(new, ignore_errors=True)
    os.makedirs(new)
    sources(new)
    for name in os.listdir(f"{new}/crates"):
        if os.path.isdir(f"{lane}/crates/{name}/out"):
            os.rename(f"{lane}/crates/{name}/out", f"{new}/crates/{name}/out")
    shutil.rmtree(lane, ignore_errors=True)
    os.rename(new, lane)
    return lane


def cost_of(crate):
    """What the proof of a crate costs, by the size of its code, and of its proofs at a twentieth: loading the libraries is as
    dear as some 2,000 bytes of code."""
    def size(part):
        files = [f"{at}/{name}" for at, _, names in os.walk(f"{TOP}/crates/{crate}/{part}") for name in names]
        return sum(map(os.path.getsize, files))

    return 2000 + size("src") + size("proofs") // 20


def longest(uses):
    """For each crate the most that a chain of crates costs which ends with it, its own cost among it."""
    found = {}

    def of(name):
        if name not in found:
            found[name] = cost_of(name) + max([of(it) for it in uses[name]], default=0)
        return found[name]

    for name in uses:
        of(name)
    return found


class Build:
    def __init__(self, uses):
        self.uses = uses
        below = longest(uses)
        above = longest({name: [it for it, used in uses.items() if name in used] for name in uses})
        whole = {name: below[name] + above[name] - cost_of(name) for name in uses}
        # The whole waits for the crates on a chain that is nearly as long as the longest. Half as long a chain has a weight
        # that lets it end in time, and what is on none has what is left.
        most = max(whole.values())
        self.nice = {name: 0 if it >= 0.85 * most else 2 if it >= 0.5 * most else 15 for name, it in whole.items()}
        self.left = sorted(uses, key=lambda it: -above[it])
        self.done, self.failed = set(), None
        self.lanes = [make_lane(number) for number in range(LANES)]
        self.turn = threading.Condition()
        self.start = time.monotonic()

    def next(self):
        """The crate that the most work waits for, of those that may be proved now."""
        return next((it for it in self.left if it != PROGRAM and self.done >= set(self.uses[it])), None)

    def time(self):
        minutes, seconds = divmod(int(time.monotonic() - self.start), 60)
        return f"{minutes} min {seconds:02} s"

    def run_lane(self, lane):
        with self.turn:
            while True:
                self.turn.wait_for(lambda: self.failed or self.next() or self.left == [PROGRAM] or not self.left)
                name = None if self.failed else self.next()
                if not name:
                    return
                self.left.remove(name)
                self.turn.release()
                ran = self.prove(lane, name)
                self.turn.acquire()
                if ran.returncode:
                    self.failed = self.failed or (name, ran.stdout)
                else:
                    self.done.add(name)
                    say(f"{len(self.done)} of {len(self.uses)} proved after {self.time()}: {name}")
                self.turn.notify_all()

    def prove(self, lane, name):
        words = ["nice", "-n", str(self.nice[name]), "rt", "lib", "--jobs", str(CORES)]
        folder = f"{lane}/crates/{name}"
        how = {"stdin": subprocess.DEVNULL, "stdout": subprocess.PIPE, "stderr": subprocess.STDOUT}
        return subprocess.run(words, cwd=folder, text=True, errors="replace", check=False, **how)

    def run(self):
        threads = [threading.Thread(target=self.run_lane, args=(lane,)) for lane in self.lanes]
        for it in threads:
            it.start()
        for it in threads:
            it.join()
        if self.failed:
            name, said = self.failed
            say(f"{name} is not proved:\n{said}")
            return 1
        # The program itself, here: `rt run` takes what the lanes proved, builds it, and runs it on nothing.
        ran = subprocess.run(
            ["rt", "run"], cwd=f"{TOP}/crates/{PROGRAM}", stdin=subprocess.DEVNULL, stdout=subprocess.DEVNULL,
            stderr=subprocess.PIPE, text=True, errors="replace", check=False)
        if not os.access(BUILT, os.X_OK):
            say(f"{PROGRAM} is not built:\n{ran.stderr}")
            return 1
        say(f"{len(self.uses)} of {len(self.uses)} proved after {self.time()}: {PROGRAM}")
        shutil.rmtree(ROOM, ignore_errors=True)
        return 0


def main():
    uses = read_crates()
    mark = sum_of_sources(uses)
    if take_kept(mark):
        return 0
    say(f"proving {len(uses)} crates and building the program: from nothing about ten minutes on four processors;")
    say("what is proved already is not proved again, and an interrupted run goes on where it was")
    status = Build(uses).run()
    if not status:
        keep(mark)
    return status


sys.exit(main())
