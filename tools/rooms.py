#!/usr/bin/env python3
"""Gives the crates of a tree from before the rooms their names of today, so that it can be read beside this one (docs/PORT.md).

usage: python3 tools/rooms.py FOLDER

Renames folders below FOLDER/crates, and the crates that paths in .rt, .antt and .edit files name. Where two crates are one today, a
file of the second whose name is taken gets its crate's name in front. What it leaves is for reading, not for proving.
"""
import os
import re
import shutil
import sys

ROOMS = {
    "bare_jobs": "test_bare_jobs",
    "bench": "test_values",
    "bracketing": "linesearch_moves",
    "buffer": "lines_buffer",
    "dense_hessian": "quasinewton_dense",
    "descents": "quasinewton_record",
    "differences_dialogue": "test_differences",
    "fields": "lines_field",
    "fit_c": "c_api",
    "fits_sample": "test_fits",
    "fits_theory": "optim_fits_theory",
    "float_vectors": "test_float",
    "forms": "lines_forms",
    "hessian": "quasinewton_model",
    "hessian_theory": "quasinewton_model_theory",
    "limited_hessian": "quasinewton_limited",
    "lines": "lines_print",
    "moves": "optim_rules",
    "openings": "optim_start",
    "outcomes": "quasinewton_record",
    "questions": "quasinewton_answer",
    "reader": "lines_reader",
    "reasons": "lines_print",
    "records": "optim_record",
    "rosenbrock": "bench_rosenbrock",
    "rounds": "quasinewton_round",
    "rows": "test_rows",
    "searches": "linesearch_moves",
    "stands": "optim_reply",
    "starts": "optim_first_record",
    "states": "fit_state",
    "talk": "fit_dialogue",
    "talk_theory": "fit_theory",
    "text": "lines_options",
    "text_theory": "lines_theory",
    "trials": "linesearch_trials",
    "turns": "fit_line",
    "vertices": "neldermead_vertices",
}


def merge(source, room, crate):
    for folder, _, names in os.walk(source):
        for name in names:
            target = os.path.join(room, os.path.relpath(os.path.join(folder, name), source))
            if os.path.exists(target):
                target = os.path.join(os.path.dirname(target), f"{crate}_{name}")
            os.makedirs(os.path.dirname(target), exist_ok=True)
            shutil.move(os.path.join(folder, name), target)
    shutil.rmtree(source)


def turned(text):
    def room(found):
        return found[1] + ROOMS.get(found[2], found[2]) + found[3]

    text = re.sub(r"(\bRattle\.)(\w+)(\.)", room, text)
    return re.sub(r"((?<![\w:]))([a-z]\w*)(::)", room, text)


def main():
    if len(sys.argv) != 2:
        sys.exit(__doc__)
    crates = os.path.join(sys.argv[1], "crates")
    for crate, name in sorted(ROOMS.items(), key=lambda it: (it[1] in ROOMS, it)):
        source, room = os.path.join(crates, crate), os.path.join(crates, name)
        if os.path.isdir(room):
            merge(source, room, crate)
        elif os.path.isdir(source):
            os.rename(source, room)
    for folder, _, names in os.walk(crates):
        for name in names:
            if name.endswith((".rt", ".antt", ".edit")):
                path = os.path.join(folder, name)
                with open(path, encoding="utf-8") as f:
                    text = f.read()
                with open(path, "w", encoding="utf-8") as f:
                    f.write(turned(text))


if __name__ == "__main__":
    main()
