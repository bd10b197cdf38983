"""The kit's rattle over the libraries that `rt ci`, `rt check` or `rt lib` left in crates/*/out: its words for a crate, as rt gives them."""
import functools
import os
import pathlib
import subprocess


@functools.cache
def home():
    """The kit's folder."""
    return pathlib.Path(subprocess.run(["rt", "doc"], capture_output=True, text=True, check=True).stdout.strip()).parent


@functools.cache
def leans():
    """crates.txt: each crate with the libraries that it lists."""
    out = {}
    for line in pathlib.Path("crates.txt").read_text().split("\n"):
        head, _, deps = line.split("#")[0].partition(":")
        if head.strip():
            out[head.split()[0]] = deps.split()
    return out


def below(crate):
    """The repository's libraries below a crate, each behind those that it leans on."""
    out = []
    for name in leans()[crate]:
        if name in leans():
            out += [it for it in [*below(name), name] if it not in out]
    return out


def rlib(crate):
    return pathlib.Path("crates", crate, "out/rlib", f"{crate}.rlib").resolve()


def words(verb, crate, root):
    """The words of a check or a build of a crate whose root file is given."""
    kit = home() / "rlibs"
    out = [home() / "bin/rattle", verb, "--crate-name", crate, root, "--extern", f"std={kit}/std.rlib", "-L", f"dependency={kit}"]
    for name in leans()[crate]:
        out += ["--extern", f"{name}={rlib(name) if name in leans() else kit / f'{name}.rlib'}"]
    for name in below(crate):
        out += ["-L", f"dependency={rlib(name).parent}"]
    out += ["--antt-project", home() / "rattle/logic/antt-project.json", "--logic-built", home() / "logic_built"]
    return [str(word) for word in out]


def jobs():
    return ["--jobs", str(min(2, len(os.sched_getaffinity(0))))]
