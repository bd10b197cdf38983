#!/usr/bin/env python3
"""archive.py CRATE..: builds crates/CRATE/out/libCRATE.a, a static library for C. Run it anywhere.

It holds the functions that CRATE exports, and what they call. The crate is proved once more, over the libraries that `rt ci`,
`rt check` or `rt lib` left below it; where these are not there, or are not those of the files as they are, `rt lib` builds them
first. It fails (exit status 1) where a crate is not proved. An archive that C callers had under another name has that name too.
"""
import os
import pathlib
import shutil
import subprocess
import sys

sys.dont_write_bytecode = True
sys.path.insert(0, str(pathlib.Path(__file__).resolve().parent))
import kit  # noqa: E402


# The name that an archive had first, beside its crate's.
FIRST = {"c_api": "fit_c"}


def built(crate):
    """What rattle says of a build that fails, or None."""
    if any(not kit.rlib(name).is_dir() for name in kit.below(crate)):
        return "a library below it is not built"
    folder = pathlib.Path("crates", crate)
    kept = ["--incremental", "out/incremental"] if (folder / "out/incremental").is_dir() else []
    words = [*kit.words("build", crate, "src/lib.rt"), "--crate-type", "staticlib", "--links", f"{crate}="]
    words += ["--toolchain", str(kit.home() / "toolchain"), "--backend", "llvm", *kit.jobs(), *kept, "-o", f"out/lib{crate}.a"]
    (folder / "out").mkdir(exist_ok=True)
    ran = subprocess.run(words, cwd=folder, stdout=subprocess.PIPE, stderr=subprocess.STDOUT, text=True, errors="replace")
    return ran.stdout if ran.returncode else None


def main():
    os.chdir(pathlib.Path(__file__).resolve().parent.parent)
    unknown = [name for name in sys.argv[1:] if name not in kit.leans()]
    if not sys.argv[1:] or unknown:
        sys.exit(f"{unknown[0]}: no such crate" if unknown else __doc__)
    for crate in sys.argv[1:]:
        said = built(crate)
        if said:
            libraries = subprocess.run(["rt", "lib"], cwd=f"crates/{crate}", stdin=subprocess.DEVNULL)
            said = "rt lib built no library" if libraries.returncode else built(crate)
        if said:
            sys.exit(f"{said}\n{crate}: no archive")
        if crate in FIRST:
            shutil.copyfile(f"crates/{crate}/out/lib{crate}.a", f"crates/{crate}/out/lib{FIRST[crate]}.a")
        print(f"crates/{crate}/out/lib{crate}.a", flush=True)


main()
