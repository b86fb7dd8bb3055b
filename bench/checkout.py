"""What the scripts of bench/ share: this checkout, the crates and programs of others, and how a script ends."""
import os
import subprocess
import sys

BENCH = os.path.dirname(os.path.abspath(__file__))
ROOT = os.path.dirname(BENCH)


def end(text):
    sys.exit(f"bench/{os.path.basename(sys.argv[0])}: {text}")


def number(name, default, least):
    """A number of the environment, or the default, but not under the least."""
    said = os.environ.get(name, "") or str(default)
    if not said.isdecimal():
        end(f"{name} is no number: {said}")
    return max(least, int(said))


def crates(path):
    """Of each crate that a file like crates.txt lists, in its order, those it stands on."""
    below = {}
    with open(path, encoding="utf-8") as text:
        for line in text:
            if line.strip() and not line.startswith("#"):
                name, _, rest = line.partition(":")
                below[name.split()[0]] = rest.split()
    return below


def with_those_below(below, names):
    """The crates of these names and those that they stand on: in crates.txt a crate stands behind those below it."""
    wanted = set(names)
    for name in reversed(below):
        if name in wanted:
            wanted.update(below[name])
    return wanted


def program(root, crate):
    return os.path.join(os.path.abspath(root), "crates", crate, "out", crate)


def sources(root, crate):
    """The .rt files of a crate and of those that it stands on."""
    for name in sorted(with_those_below(crates(os.path.join(root, "crates.txt")), [crate])):
        for folder, _, files in os.walk(os.path.join(root, "crates", name, "src")):
            yield from (os.path.join(folder, file) for file in files if file.endswith(".rt"))


def check_programs(roots, crate):
    """Each folder has the program, newer than its sources, and no two have the same file."""
    for side, root in roots.items():
        path = program(root, crate)
        if not os.path.isfile(path):
            end(f"{side} has no program {path}: bench/old makes OLD (--edits: gv_bench too), and `rt ci` in what tools/lay-long laid NEW")
        newest = max(sources(root, crate), key=os.path.getmtime)
        if os.path.getmtime(newest) > os.path.getmtime(path):
            anew = f"`rt run` in crates/{crate} there builds it anew; where that says that nothing has changed, touch {path}"
            end(f"{side}'s program is older than its source {newest}: {anew}")
    files = [os.stat(program(root, crate)) for root in roots.values()]
    if len({(file.st_dev, file.st_ino) for file in files}) < len(files):
        end(f"{' and '.join(roots)} have the same file as program {crate}")


def git(folder, *words, given=""):
    """What git answers, or nothing where it refuses."""
    line = ["git", "-C", folder, *words]
    return subprocess.run(line, input=given, stdout=subprocess.PIPE, stderr=subprocess.DEVNULL, text=True).stdout.strip()


def commit(side, folder):
    """The short name of a folder's commit, and ' with changes' if its crates have other sources. A NEW without git, as tools/lay-long
    lays it, has the commit of this checkout."""
    top, listed = git(folder, "rev-parse", "--show-toplevel"), os.path.join(folder, "crates.txt")
    own = top and os.path.samefile(top, folder)
    if not os.path.isfile(listed) or side == "OLD" and not own:
        end(f"{side} is no checkout: {folder}")
    home = folder if own else ROOT
    name = git(home, "rev-parse", "--short=7", "HEAD") or end(f"git knows no commit in {home}")
    programs = crates(os.path.join(ROOT, "long", "crates"))
    paths = [f"crates/{crate}/src" for crate in crates(listed) if crate not in programs]
    rows = [line.split(maxsplit=3) for line in git(home, "ls-tree", "-r", "HEAD", "--", *paths).splitlines()]
    files = "".join(os.path.join(os.path.abspath(folder), row[3]) + "\n" for row in rows)
    same = git(home, "hash-object", "--no-filters", "--stdin-paths", given=files).split() == [row[2] for row in rows]
    return name, "" if same else " with changes"
