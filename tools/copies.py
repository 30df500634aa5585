"""Copies of the crates in which rt checks side by side what tools/check-edits and tools/check-axioms ask of it.

rt works on one crate of a checkout at a time, with all that lie below it. So each of a few lanes gets a copy: the files of the crates, and
the libraries that rt has built of them here. The copies lie among the temporary files, since rt ci refuses a .rt or .antt file that
stands in the repository and in no crate of it. They are gone at the end.
"""
import contextlib
import fcntl
import hashlib
import os
import queue
import shutil
import subprocess
import sys
import tempfile
from concurrent.futures import ThreadPoolExecutor

ROOT = os.path.dirname(os.path.dirname(os.path.realpath(__file__)))
PARTS = ("src", "specs", "proofs")
# What a check may take of the memory, in bytes: as many lanes as it holds, and no more than there are processors.
NEED = 3_000_000_000


def linked(folder, to, is_linked):
    """Copies what rt has kept, and gives the files that is_linked names a second name where that can be done: rt puts another file in the
    place of such a file and never writes into it."""

    def copy(one, other):
        with contextlib.suppress(OSError):
            if is_linked(one):
                return os.link(one, other)
        return shutil.copy2(one, other)

    shutil.rmtree(to, ignore_errors=True)
    if os.path.isdir(folder):
        shutil.copytree(folder, to, copy_function=copy)


def lanes():
    with open("/proc/meminfo", encoding="ascii") as it:
        free = next(1024 * int(line.split()[1]) for line in it if line.startswith("MemAvailable:"))
    return max(1, min(len(os.sched_getaffinity(0)), free // NEED))


def crates():
    """Returns the names of the crates, as crates.txt has them, and whether each is a library that other crates can use."""
    found = {}
    with open(f"{ROOT}/crates.txt", encoding="utf-8") as it:
        for line in it:
            words = line.partition("#")[0].partition(":")[0].split()
            if words:
                is_program = os.path.isfile(f"{ROOT}/crates/{words[0]}/src/main.rt")
                found[words[0]] = not is_program and "staticlib" not in words
    return found


def copy_to(lane):
    os.makedirs(f"{lane}/crates")
    for name in ("crates.txt", "HANDLES"):
        if os.path.isfile(f"{ROOT}/{name}"):
            shutil.copyfile(f"{ROOT}/{name}", f"{lane}/{name}")
    for name in crates():
        for part in PARTS:
            if os.path.isdir(f"{ROOT}/crates/{name}/{part}"):
                shutil.copytree(f"{ROOT}/crates/{name}/{part}", f"{lane}/crates/{name}/{part}")
        linked(f"{ROOT}/crates/{name}/out/rlib", f"{lane}/crates/{name}/out/rlib", lambda file: True)


def check(lane, crate, *flags):
    """Checks a crate of the copy as its files now stand, over what the checkout has kept of it, and returns all that rt said."""
    folder = f"{lane}/crates/{crate}"
    linked(f"{ROOT}/crates/{crate}/out/incremental", f"{folder}/out/incremental", lambda file: file.endswith(".oantt"))
    how = {"stdin": subprocess.DEVNULL, "stdout": subprocess.PIPE, "stderr": subprocess.STDOUT, "errors": "replace"}
    ran = subprocess.run(["rt", "check", "--jobs", "1", *flags], cwd=folder, **how)
    return ran.returncode, ran.stdout


def side_by_side(call, things):
    """Calls call(lane, thing) for each of the things, each lane's one after the other, and returns what it gave, in their order."""
    # (always the same folder for a checkout: rt remembers each folder in which it has checked a crate)
    room = f"{tempfile.gettempdir()}/workerwax-{os.geteuid()}-{hashlib.sha256(ROOT.encode()).hexdigest()[:12]}"
    things = list(things)
    if not things:
        return []
    os.makedirs(room, 0o700, exist_ok=True)
    if os.lstat(room).st_uid != os.geteuid() or os.path.islink(room):
        sys.exit(f"{room} is not this user's folder")
    os.makedirs(f"{ROOT}/target", exist_ok=True)
    with open(f"{ROOT}/target/copies.lock", "w", encoding="ascii") as lock:
        fcntl.flock(lock, fcntl.LOCK_EX)
        try:
            free = queue.Queue()
            number = min(lanes(), len(things))
            for at in range(number):
                shutil.rmtree(f"{room}/{at}", ignore_errors=True)
                copy_to(f"{room}/{at}")
                free.put(f"{room}/{at}")

            def one(thing):
                lane = free.get()
                try:
                    return call(lane, thing)
                finally:
                    free.put(lane)

            with ThreadPoolExecutor(number) as pool:
                return list(pool.map(one, things))
        finally:
            shutil.rmtree(room, ignore_errors=True)
