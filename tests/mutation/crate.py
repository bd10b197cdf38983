"""The mutants of one crate: which are still to be tried, what is tried in one run, and what became of each."""
import hashlib
import json
import pathlib
import re

import items
import sites
import trials

REFUSED, SHAPE, STANDS, FRONT = "refused", "shape", "stands", "front end"
# How many mutants are tried in one run.
TOGETHER = 24


def used_constants(name, text):
    """The constants that a file of the crate `name` has from other files, by their names."""
    out = {}
    for constant, crate in sites.used_constants(text).items():
        for path in pathlib.Path("crates", name if crate == "crate" else crate, "src").glob("*.rt"):
            out |= {k: v for k, v in sites.constants_of(path.read_text()).items() if k == constant}
    return out


def stamp_of(name):
    """The sum of a crate's files. A dependency's are not in it: its contracts, and the constants that are used, which are in it,
    are all that the crate's proofs see of it."""
    total = hashlib.sha256()
    for part in ("src", "specs", "proofs"):
        for path in sorted(pathlib.Path("crates", name, part).rglob("*")):
            if path.is_file():
                total.update(f"{path}\n".encode() + path.read_bytes())
            if path.suffix == ".rt":
                used = used_constants(name, path.read_text())
                total.update("".join(f"{key} {used[key].spelled()}\n" for key in sorted(used)).encode())
    return total.hexdigest()[:16]


def proof_of(where, function):
    """Where the files of a function's proof stand."""
    return where / "proofs" / "/".join(function.split("::")[1:])


def copy_proof(crate, where, function, copy, names):
    """Gives a copy of a function a copy of its proof."""
    for path in sorted(proof_of(pathlib.Path("crates", crate), function).glob("*.antt")):
        to = proof_of(where, copy)
        to.mkdir(parents=True, exist_ok=True)
        (to / path.name).write_text(sites.copied_proof(path.read_text(), crate, function, copy, names))


class Crate:
    def __init__(self, name):
        self.name, self.room, self.copy = name, trials.ROOM / name, trials.COPIES / name
        self.results_file, self.stamp = self.room / "results", stamp_of(name)
        self.texts, self.sites = items.texts_of(name), []
        self.functions = items.functions_in(name, self.texts)
        for file, text in self.texts.items():
            own = {function: item for function, (place, item) in self.functions.items() if place == file}
            self.sites += sites.sites_of(file, text, own, used_constants(name, text))
        if len({site.key() for site in self.sites}) != len(self.sites):
            raise ValueError(f"{name}: two sites of one name")

    def results(self):
        """What was recorded of the crate as it is: the best record of each site, with the number of changes tried, and the seconds
        of all runs."""
        best, seconds = {}, 0.0
        for line in self.results_file.read_text().splitlines() if self.results_file.exists() else []:
            record = json.loads(line)
            if record["stamp"] == self.stamp:
                seconds += record.get("seconds", 0.0)
                if "site" in record:
                    old = best.get(record["site"], record)
                    kept = old if record["verdict"] == FRONT else record
                    best[record["site"]] = {**kept, "tried": record["which"] + 1}
        return best, seconds

    def record(self, **fields):
        with self.results_file.open("a") as file:
            file.write(json.dumps({"stamp": self.stamp, **fields}, ensure_ascii=False) + "\n")

    def pending(self):
        """Each site that has no verdict yet, with the change to be tried next."""
        best, _ = self.results()
        out = []
        for site in self.sites:
            record = best.get(site.key(), {"verdict": FRONT, "tried": 0})
            if record["verdict"] in (SHAPE, FRONT) and record["tried"] < len(site.news):
                out.append((site, record["tried"]))
        return out

    def write(self, where, chosen):
        """The changes into a copy of the crate."""
        trials.fresh(self.name, where)
        for file, text in self.texts.items():
            (where / "src" / file).write_text(sites.changed(text, [trial for trial in chosen if trial[0].file == file]))

    def write_alone(self, where, trial):
        """A change into a copy of the crate, and into the proof the names that its function then has. Returns the function's goals
        before, and what the front end says where it refuses the change."""
        function, none = trial[0].function, ([], [])
        self.write(where, [])
        before, _ = trials.names(self.name, where)
        self.write(where, [trial])
        after, refused = trials.names(self.name, where)
        own = before.get(function, none)
        if after is not None:
            copy_proof(self.name, where, function, function, trials.other_names(own, after.get(function, none)))
        return own[0], refused

    def copy_name(self, trial):
        return f"{trial[0].function}_c{self.sites.index(trial[0])}"

    def add(self, where, file, text):
        """A text into a copy of the crate, behind the file's last line. Returns its lines."""
        path = where / "src" / file
        before = path.read_text()
        path.write_text(before + text + "\n")
        first = before.count("\n") + 1
        return file, range(first, first + text.count("\n") + 1)

    def write_beside(self, where, chosen):
        """A mutant of its function beside it, for each trial, with no proof yet. Returns the lines of each."""
        trials.fresh(self.name, where)
        lines = []
        for trial in chosen:
            site, which = trial
            text = sites.copied(self.texts[site.file], site.item, self.copy_name(trial), site, which)
            lines.append(self.add(where, site.file, "\n".join([*site.needed(which), text])))
        return lines

    def write_proofs(self, where, chosen, names):
        """The proof of each mutant: that of its function, with the names that are others in the mutant."""
        for trial in chosen:
            function, copy = trial[0].function, self.copy_name(trial)
            other = trials.other_names(names[function], names[copy]) if function in names and copy in names else {}
            copy_proof(self.name, where, function, copy, other)

    def write_controls(self, where):
        """An unchanged copy of each function beside it, where one may stand there. Returns the functions that have one."""
        trials.fresh(self.name, where)
        beside = {function: own for function, own in self.functions.items() if not own[1].lone}
        for function, (file, item) in beside.items():
            self.add(where, file, sites.copied(self.texts[file], item, function + "_c"))
            copy_proof(self.name, where, function, function + "_c", {})
        return beside

    def against(self, said, functions):
        """What the prover said against functions that are to be proved."""
        lines = {function: said.lines.get(function, "no line") for function in functions}
        return [f"{function}: {line}" for function, line in lines.items() if line != "proved"]

    def judged(self, said, function, file, span, goals):
        """The verdict on a mutant that is this function, on these lines of a file, and its reason. `goals` are those of the function
        that it was made of: one that nothing proves shows something if it is among them, or if no error says that names are gone."""
        line, closures = said.lines.get(function, "no line"), trials.closures(said, function)
        if line == "proved" and all(said.lines[closure].startswith("proved") for closure in closures):
            return STANDS, ""
        errors = [error for own in (function, *closures) for error in said.errors.get(own, [])]
        errors = [error for error in errors if not trials.FOLLOWS.search(error[1])]
        facts = [f"{place}: {message}" for place, message in errors if not trials.SHAPE.search(message)]
        for place, at, words, goal in said.open:
            if place == f"src/{file}" and at in span and (not errors or goal.split("-clause-")[0] in goals):
                facts.append(f"{place}:{at}: {words}")
        if facts:
            return REFUSED, facts[0][:400]
        if errors:
            return SHAPE, f"{errors[0][0]}: {errors[0][1]}"[:400]
        raise RuntimeError(f"no verdict on {function}: {line}")

    def note(self, trial, verdict, reason):
        site, which = trial
        self.record(
            site=site.key(), function=site.function, file=site.file, line=site.line, old=site.old, which=which,
            new="".join(site.needed(which)) or site.new(which), verdict=verdict, reason=reason,
        )  # fmt: skip

    def control(self):
        """Whether each function's unchanged copy is proved, so that a mutant is refused for its change."""
        beside = self.write_controls(self.copy)
        said = trials.run(self.name, self.copy, "--incremental", str(self.copy / "inc"))
        self.record(seconds=round(said.seconds, 2))
        return self.against(said, [*self.functions, *(function + "_c" for function in beside)])

    def tried_alone(self, trial):
        """A mutant by itself, in its function's place and from nothing: the verdict, its reason, whether the crate is proved, seconds."""
        site, where = trial[0], self.copy / "alone"
        goals, refused = self.write_alone(where, trial)
        if refused:
            return FRONT, "".join(message for _, _, message in refused.stray[:1]), False, 0.0
        said = trials.run(self.name, where)
        first = self.texts[site.file].count("\n", 0, site.item.start) + 1
        span = range(first, self.texts[site.file].count("\n", 0, site.item.end) + 2)
        return *self.judged(said, site.function, site.file, span, goals), said.proved, said.seconds

    def try_in_place(self, trial):
        """A mutant of a function that no copy may stand beside, by itself, and a record of it. A fault where the crate is not proved
        just as the mutant is."""
        verdict, reason, proved, seconds = self.tried_alone(trial)
        self.record(seconds=round(seconds, 2))
        self.note(trial, verdict, reason)
        return [] if proved == (verdict == STANDS) else [f"{trial[0].key()}: {verdict}, and proved is {proved}: {reason}"]

    def try_together(self, chosen):
        """One run, and a record of each trial. Where the front end refuses some of them, the others are tried without those."""
        lines = self.write_beside(self.copy, chosen)
        names, refused = trials.names(self.name, self.copy)
        if names is not None:
            self.write_proofs(self.copy, chosen, names)
            said = trials.run(self.name, self.copy, "--incremental", str(self.copy / "inc"))
            self.record(seconds=round(said.seconds, 2))
            if said.verdict:
                for trial, (file, span) in zip(chosen, lines):
                    goals = names[trial[0].function][0] if trial[0].function in names else []
                    self.note(trial, *self.judged(said, self.copy_name(trial), file, span, goals))
                return self.against(said, self.functions)
            refused = said
        bad = [
            (trial, message)
            for trial, (file, span) in zip(chosen, lines)
            for place, line, message in refused.stray
            if pathlib.Path(place).name == file and line in span
        ]
        if not bad:
            raise RuntimeError(f"no verdict: {self.room}/log")
        for trial, message in {id(trial): (trial, message) for trial, message in bad}.values():
            self.note(trial, FRONT, message)
        rest = [trial for trial in chosen if all(trial is not other for other, _ in bad)]
        return self.try_together(rest) if rest else []
