"""Crates of this repository in a folder of their own, where the tool takes them for a whole repository."""
import contextlib
import os
import re
import shutil
import signal
import subprocess
import time

TOP = os.path.dirname(os.path.dirname(os.path.realpath(__file__)))
# The lists of crates, each with the folder in which they stand. The second ones are no part of the gate, which wants each .rt and .antt file
# in a crate of the first list: so these have names that end in .txt there.
LISTS = {"crates.txt": "crates", "bench/programs.txt": "bench/programs"}
MARKED = re.compile(r"(\.rt|\.antt)\.txt$")
# What is not copied of a crate: its wrong bodies, and what the tool makes.
LEFT_OUT = {"must-fail", "out"}


def lines_of(path):
    try:
        with open(f"{TOP}/{path}") as it:
            return it.read().splitlines()
    except OSError:
        return []


def folder_of(top, crate):
    """The folder of a crate below a folder."""
    places = [f"{top}/{it}/{crate}" for it in LISTS.values()]
    return next((it for it in places if os.path.isdir(f"{it}/src")), places[0])


def files_of(top, crate):
    """The files of a crate below a folder that the tool takes, each with its name as the tool wants it."""
    here = folder_of(top, crate)
    for at, folders, names in os.walk(here):
        folders[:] = [it for it in folders if it not in LEFT_OUT or at != here]
        yield from ((MARKED.sub(r"\1", f"{crate}{at[len(here):]}/{it}"), f"{at}/{it}") for it in names if not it.endswith(".md"))


def crates_below(tops):
    """The crates of this repository that some stand on, and these, each with its line in the lists."""
    lines = {re.split("[ :]", line)[0]: line for it in LISTS for line in lines_of(it) if line and not line.startswith("#")}
    found, left = {}, list(tops)
    while left:
        crate = left.pop()
        if crate in lines and crate not in found:
            found[crate] = lines[crate]
            left += lines[crate].partition(":")[2].split()
    return found


def copy(crates, place):
    """Copies crates, as crates_below gives them, into an empty folder."""
    # With this the tool takes the copy for the top of a repository, wherever it lies.
    os.mkdir(f"{place}/.git")
    with open(f"{place}/crates.txt", "w") as it:
        it.writelines(f"{line}\n" for line in crates.values())
    if os.path.isfile(f"{TOP}/HANDLES"):
        shutil.copyfile(f"{TOP}/HANDLES", f"{place}/HANDLES")
    for crate in crates:
        here = folder_of(TOP, crate)
        how = {"symlinks": True, "copy_function": lambda file, to: shutil.copy2(file, MARKED.sub(r"\1", to))}
        shutil.copytree(here, f"{place}/crates/{crate}", ignore=lambda at, names, here=here: LEFT_OUT if at == here else (), **how)


def jobs_here():
    """How many processes are to prove at a time, in digits: as RT_JOBS says, or else as `jobs` does; nothing where the tool is to reckon."""
    return os.environ.get("RT_JOBS") or subprocess.run([f"{TOP}/checks/jobs"], stdout=subprocess.PIPE, text=True).stdout.strip()


@contextlib.contextmanager
def proving(place, jobs=None):
    """Begins `rt ci` in such a folder, by so many processes at a time, and gives it, its output lines of text. It ends with the caller."""
    jobs = jobs or jobs_here()
    how = {"cwd": place, "stdin": subprocess.DEVNULL, "stdout": subprocess.PIPE, "stderr": subprocess.STDOUT, "start_new_session": True}
    how["env"] = {**os.environ, "RT_JOBS": jobs} if jobs else None
    tool = subprocess.Popen(["rt", "ci"], encoding="utf-8", errors="replace", **how)
    try:
        yield tool
    finally:
        if tool.poll() is None:
            os.killpg(tool.pid, signal.SIGTERM)
            tool.wait()
            # What it started ends a moment after it, and may write into the copy until then.
            time.sleep(0.5)
