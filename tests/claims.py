#!/usr/bin/env python3
"""claims.py [--self-test | --lines]: whether README.md and docs/ are true of the files that they speak of. Run it anywhere.

It fails (exit status 1) where
- docs/CLAIMS.md or docs/FOR-THE-EXAMINER.md names a file, a theorem, a statement or an edit that is not there;
- their tables 'What must be believed' leave out a file of specs/ that a statement cited beside them uses (claims/closure.py), down
  to the definitions that the code is proved equal to, and no word below the table sets it aside; or, of the second, where a file's
  column `For` leaves out a question that needs it;
- a count of lines, crates or edits is stale, or a row has another count of cells than its table's head;
- a capitalised public name of specs/ is declared in two crates;
- a crate, file, program or command that README.md or docs/ names does not exist.

--self-test breaks a copy of each document in each of these ways and fails where the fault is not seen. --lines writes the lines of
files, and those of the questions, into the tables of the documents.
"""
import os
import pathlib
import sys

sys.dont_write_bytecode = True
sys.path.insert(0, str(pathlib.Path(__file__).resolve().parent / "claims"))
import believed  # noqa: E402
import broken  # noqa: E402
import cited  # noqa: E402
import counts  # noqa: E402
import names  # noqa: E402
import repository  # noqa: E402

CHECKS = (cited, believed, counts, names)


def main():
    os.chdir(pathlib.Path(__file__).resolve().parent.parent)
    if sys.argv[1:] == ["--self-test"]:
        made, found = broken.unseen()
        told = f"{made} broken documents, {len(found)} of which nothing was seen"
    elif sys.argv[1:] == ["--lines"]:
        for path in map(pathlib.Path, repository.Repository().documents()):
            path.write_text("\n".join(cited.counted(path.read_text().split("\n"))))
        return 0
    elif sys.argv[1:]:
        sys.exit(__doc__)
    else:
        found = [fault for check in CHECKS for fault in check.faults(repository.Repository())]
        told = f"{len(repository.Repository().documents())} documents, {len(found)} faults"
    for fault in found:
        print(fault, file=sys.stderr)
    print(told)
    return 1 if found else 0


sys.exit(main())
