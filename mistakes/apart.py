"""Tries wrong bodies one by one, and reports of each whether the proof of its function refuses it.

    python3 mistakes/apart.py [CRATE..]

The wrong bodies of a crate are those of crates/CRATE/must-fail, one a file, which the gate tries too, and those of
mistakes/CRATE, several a file, each under a comment line with its name. The default is all crates.

Each crate is proved unchanged first. Then the bodies are tried on copies of the repository, as many side by side as there are
processors, or as RT_JOBS says; each check reuses the proofs of the unchanged crate. A check takes the bodies of a file
together, and reports of each function whether its proof fails. A body is checked alone if it shares its function with another,
if it changes no function, and if the function was not tried because one that it calls is not proved either. The status is 0 if
each body is refused.
"""

import concurrent.futures
import os
import queue
import re
import shutil
import subprocess
import sys
import tempfile

ROOT = os.path.dirname(os.path.dirname(os.path.abspath(__file__)))
# The number of checks side by side.
JOBS = int(os.environ.get("RT_JOBS") or os.cpu_count())
# A function whose own proof fails, in the output of a check.
UNPROVED = re.compile(r"^fn (\S+): (?:not proved|no proof: (?!it calls))", re.M)
# A theorem of proofs/ that fails, as a worked example of a definition.
FALSE = re.compile(r"^\./proofs/\S+: error: `(\S+)`", re.M)


def read(path):
    with open(path, encoding="utf-8") as it:
        return it.read()


def write(path, text):
    with open(path, "w", encoding="utf-8") as it:
        it.write(text)


class Body:
    """A wrong body: its name, and the file, the old and the new text of each of its changes."""

    def __init__(self, name):
        self.name, self.changes = name, []

    def put_into(self, texts, crate):
        """Applies its changes to the texts of files, and returns whether each old text occurred there just once."""
        fits = True
        for file, old, new in self.changes:
            text = texts.get(file) or read(f"{crate}/{file}")
            fits = fits and text.count(old) == 1
            texts[file] = text.replace(old, new)
        return fits

    def place(self, crate):
        """The file that it changes, and the start and name of the function there; `None` if it changes none."""
        file, old, _ = self.changes[0]
        text = read(f"{crate}/{file}")
        above = list(re.finditer(r"\bfn (\w+)", text[: text.find(old) + len(old)]))
        # A line that begins with `}` or `{}` ends the function, or its `impl`: a constant or a ghost follows.
        if not above or not file.startswith("src/") or re.search(r"^{?}", text[above[-1].start() : text.find(old)], re.M):
            return None
        return file, above[-1].start(), above[-1][1]


def bodies_of(path):
    """The wrong bodies of a file. A single one may be named by the file alone."""
    bodies, file, old, name = [], None, None, os.path.basename(path).removesuffix(".edit")
    for line in read(path).split("\n"):
        word, _, text = line.partition(" ")
        if word == "#":
            name = text
        elif word == "file:":
            file = text
        elif word == "old:":
            old = text
        elif word == "new:":
            if not bodies or bodies[-1].name != name:
                bodies.append(Body(name))
            bodies[-1].changes.append((file, old, text))
    return bodies


def check(crate, jobs):
    """The output of a check of the crate, with `jobs` parts side by side, and whether the crate is refused."""
    command = ["rt", "check", "--jobs", str(jobs)]
    ended = subprocess.run(command, cwd=crate, stdin=subprocess.DEVNULL, stdout=subprocess.PIPE, stderr=subprocess.STDOUT, text=True, errors="replace")
    return ended.stdout, ended.returncode != 0


def files_below(folder):
    """The files below a folder, by their path from there, each with its size and time."""
    paths = [os.path.join(above, name) for above, _, names in os.walk(folder) for name in names]
    return {os.path.relpath(path, folder): (os.path.getsize(path), os.stat(path).st_mtime_ns) for path in paths}


def put_back(crate):
    """Restores in the copy of a crate the proofs of the unchanged crate, and removes what an earlier wrong body left."""
    kept, folder = (f"{above}/out/incremental" for above in (f"{ROOT}/crates/{os.path.basename(crate)}", crate))
    wanted, found = files_below(kept), files_below(folder)
    for path in found.keys() - wanted.keys():
        os.remove(f"{folder}/{path}")
    for path in wanted:
        if found.get(path) != wanted[path]:
            os.makedirs(os.path.dirname(f"{folder}/{path}"), exist_ok=True)
            shutil.copy2(f"{kept}/{path}", f"{folder}/{path}")


def unproved(crate, bodies):
    """The functions whose proof fails in a check of the crate with these wrong bodies, or the theorems that fail if no function
    does; and whether the crate is refused."""
    texts = {}
    for body in bodies:
        body.put_into(texts, crate)
    was = {file: read(f"{crate}/{file}") for file in texts}
    put_back(crate)
    try:
        for file, text in texts.items():
            write(f"{crate}/{file}", text)
        said, is_refused = check(crate, 1)
    finally:
        for file, text in was.items():
            write(f"{crate}/{file}", text)
    return UNPROVED.findall(said) or FALSE.findall(said), is_refused


def try_together(crate, bodies):
    """Tries wrong bodies of one crate, prints the outcome of each, and returns how many were refused."""
    places = {body: body.place(crate) for body in bodies if body.put_into({}, crate)}
    together = [body for body in places if places[body] and list(places.values()).count(places[body]) == 1]
    found = unproved(crate, together)[0] if together else []
    count = 0
    for body in bodies:
        function = places.get(body) and places[body][2]
        by = [it for it in found if it.endswith(f"::{function}")]
        # The crate may have two functions of one name; both must then be found.
        if body in places and (body not in together or len(by) < sum(places[it][2] == function for it in together)):
            by, is_refused = unproved(crate, [body])
            by = [it for it in by if is_refused and function in (None, it.rpartition("::")[2])]
        count += body in places and bool(by)
        said = f"refused by the proof of {function or ' and '.join(by)}" if by else "NOT REFUSED" if body in places else "ITS OLD TEXT IS GONE"
        print(f"{os.path.basename(crate)}: {body.name}: {said}", flush=True)
    return count


def edits_in(folder):
    """The paths of the wrong bodies in a folder, which need not exist."""
    names = os.listdir(folder) if os.path.isdir(folder) else []
    return [f"{folder}/{name}" for name in sorted(names) if name.endswith(".edit")]


def files_of_bodies(name):
    """The wrong bodies of a crate, in lists that are tried together: the gate's, and those of each file of mistakes/."""
    alone = [body for path in edits_in(f"{ROOT}/crates/{name}/must-fail") for body in bodies_of(path)]
    return [it for it in [alone] + [bodies_of(path) for path in edits_in(f"{ROOT}/mistakes/{name}")] if it]


def copy_of_all(folder):
    """Copies the repository into a folder, without the results of checks, and returns the folder."""
    shutil.copytree(f"{ROOT}/crates", f"{folder}/crates", ignore=shutil.ignore_patterns("must-fail", "incremental"))
    for name in ("crates.txt", "HANDLES"):
        shutil.copy(f"{ROOT}/{name}", folder)
    return folder


def main(names):
    # So that what is known is in a file too, if a long run is ended.
    sys.stdout.reconfigure(line_buffering=True)
    tasks = [(name, bodies) for name in names or sorted(os.listdir(f"{ROOT}/crates")) for bodies in files_of_bodies(name)]
    for name in sorted({name for name, _ in tasks}):
        if check(f"{ROOT}/crates/{name}", JOBS)[1]:
            sys.exit(f"{name} is not proved as it stands")
    copies = queue.Queue()

    def try_one(task):
        """Tries the bodies of a file in a copy that no other check uses."""
        name, bodies = task
        copy = copies.get()
        try:
            return try_together(f"{copy}/crates/{name}", bodies)
        finally:
            copies.put(copy)

    with tempfile.TemporaryDirectory() as folder, concurrent.futures.ThreadPoolExecutor(JOBS) as pool:
        for number in range(JOBS):
            copies.put(copy_of_all(f"{folder}/{number}"))
        # The longest files first, so that no copy waits long for the last.
        refused = sum(pool.map(try_one, sorted(tasks, key=lambda task: -len(task[1]))))
    tried = sum(len(bodies) for _, bodies in tasks)
    print(f"{tried} wrong bodies: {refused} refused by their own function, {tried - refused} not")
    return 0 if refused == tried else 1


if __name__ == "__main__":
    sys.exit(main(sys.argv[1:]))
