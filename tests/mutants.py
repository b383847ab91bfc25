#!/usr/bin/env python3
"""usage: mutants.py [--check] [--results FILE] [--document FILE] [NAME..]

Applies the edits of tests/mutants/*.txt, one after the other, to a copy of the repository and asks the proofs and then the compared
tests. NAME is a crate or CRATE/MUTANT; all mutants without one. --check only tells whether each edit fits. The answers are printed and
appended to FILE (build/mutants.tsv). --document FILE prints the tables of docs/MUTANTS.md from such a file.

A list has the mutants of a crate. `mutant:` begins one; `kind:` and `breaks:` say what it is; `ask:` names crates that are asked first
among those that depend on the changed ones; `file:` (below crates/), `old:` and `new:` are an edit, of which there may be more. `old`
occurs once in its file; the sign ⏎ stands for the end of a line. `equivalent:` says why the mutant is no other program, and `reason:`
why a comparison and no proof is what catches it.

Asked in this order, until one of them refuses: the proofs of the changed crates; those of the crates that depend on them; the vectors,
the limits, the header, labels in parts, the line program, and the second implementation. The copy is in a temporary folder, or in the folder that
MUTANTS_PLACE names, which is kept for the next run."""
import os
import re
import shutil
import subprocess
import sys
import tempfile
import time

ROOT = os.path.dirname(os.path.dirname(os.path.abspath(__file__)))
LISTS = os.path.join(ROOT, "tests", "mutants")
KINDS = ("operand", "constant", "field", "dropped case", "wrong entry", "order", "definition", "definition and code", "claim")
# what is compared, by which command, and the crates whose change it can see
COMPARISONS = (
    ("stored readings", ["tests/vectors.sh"], ("face",)),
    ("limits", ["build/tests/limits"], ("face",)),
    ("header", ["tests/header.sh"], ("face",)),
    ("labels in parts", ["tests/typing.sh", "1000"], ("face",)),
    ("line program", ["tests/lines.sh"], ("label_lines",)),
    ("second implementation", ["tests/independent.sh"], ("face", "label_lines")),
)
# what is made of a crate for the comparisons
MADE = {
    "face": ["build/libthalinguze.a", "build/thalinguze"]
    + ["build/tests/" + name for name in ("limits", "header", "typing", "typing-plain", "rewrite", "words", "convert")],
    "label_lines": ["build/label-lines"],
}
# where what was said of its proofs is then
LOGS = {"face": "build/library.log", "label_lines": "build/lines.log"}


class Mutant:
    def __init__(self, crate, name):
        self.crate, self.name = crate, name
        self.kind = self.breaks = self.equivalent = self.reason = ""
        self.ask, self.edits = [], []

    def title(self):
        return self.crate + "/" + self.name

    def changed(self):
        """the crates whose files the mutant edits, in the order of crates.txt"""
        return [c for c in CRATES if any(edit[0].startswith(c + "/") for edit in self.edits)]


def crates():
    found = {}
    with open(os.path.join(ROOT, "crates.txt"), encoding="utf-8") as lines:
        for line in lines:
            line = line.split("#")[0].strip()
            if line:
                name, needs = line.split(":")
                found[name.split()[0]] = needs.split()
    return found


CRATES = crates()


def depending_on(changed):
    """the crates that depend on one of these, in the order of crates.txt"""
    found = list(changed)
    for crate, needs in CRATES.items():
        if crate not in found and any(need in found for need in needs):
            found.append(crate)
    return [crate for crate in CRATES if crate in found and crate not in changed]


def read_list(path):
    crate = os.path.basename(path)[: -len(".txt")]
    mutants, file, old = [], "", ""
    with open(path, encoding="utf-8") as lines:
        for line in lines:
            key, _, value = line.rstrip("\n").partition(": ")
            if key == "mutant":
                mutants.append(Mutant(crate, value))
            elif key in ("kind", "breaks", "equivalent", "reason"):
                setattr(mutants[-1], key, value)
            elif key == "ask":
                mutants[-1].ask = value.split()
            elif key == "file":
                file = value
            elif key == "old":
                old = value.replace("⏎", "\n")
            elif key == "new":
                mutants[-1].edits.append((file, old, value.replace("⏎", "\n")))
    return mutants


def all_mutants():
    found = []
    for crate in CRATES:
        path = os.path.join(LISTS, crate + ".txt")
        if os.path.exists(path):
            found += read_list(path)
    return found


def fault(mutant, root):
    """what is wrong with the mutant's entry, or nothing"""
    if mutant.kind not in KINDS:
        return "no such kind: " + mutant.kind
    if not mutant.breaks or not mutant.edits:
        return "it lacks a line"
    for file, old, new in mutant.edits:
        with open(os.path.join(root, "crates", file), encoding="utf-8") as source:
            count = source.read().count(old)
        if count != 1 or old == new:
            return "%s has %d times: %s" % (file, count, old)
    return ""


class Copy:
    """a copy of the repository with its proofs, and what rt kept in each crate's out/ before a mutant"""

    def __init__(self, place):
        self.root = os.path.join(place, "repository")
        self.saved, self.built = os.path.join(place, "out"), os.path.join(place, "build")
        if not os.path.exists(self.saved):
            shutil.copytree(ROOT, self.root, symlinks=True, ignore=shutil.ignore_patterns(".git", "out"))
            for crate in CRATES:
                self.need(["rt", "check"], crate)
            self.need(["make", "--silent"] + MADE["face"] + MADE["label_lines"])
            self.need(["tests/second.sh", "5000", "1", "1"])
            self.need(["tests/independent.sh"])
            shutil.copytree(os.path.join(self.root, "build"), self.built)
            for crate in CRATES:
                shutil.copytree(self.out(crate), os.path.join(self.saved, crate))
        elif subprocess.run(["diff", "-rq", "-x", "out", os.path.join(ROOT, "crates"), os.path.join(self.root, "crates")], stdout=subprocess.DEVNULL).returncode:
            sys.exit("the copy in %s has other crates: remove it" % place)

    def out(self, crate):
        return os.path.join(self.root, "crates", crate, "out")

    def need(self, command, crate=""):
        status, said = self.run(command, crate)
        if status != 0:
            sys.exit("%s fails without a mutant:\n%s" % (" ".join(command + [crate]), said[-2000:]))

    def run(self, command, crate=""):
        """the status of a command and what it says, at the top of the copy or in a crate's folder"""
        folder = os.path.join(self.root, "crates", crate) if crate else self.root
        done = subprocess.run(command, cwd=folder, stdin=subprocess.DEVNULL, stdout=subprocess.PIPE, stderr=subprocess.STDOUT)
        return done.returncode, done.stdout.decode("utf-8", "replace")

    def apply(self, mutant):
        before = {}
        for file, old, new in mutant.edits:
            path = os.path.join(self.root, "crates", file)
            with open(path, encoding="utf-8") as source:
                text = source.read()
            before.setdefault(path, text)
            with open(path, "w", encoding="utf-8") as source:
                source.write(text.replace(old, new))
        return before

    def restore(self, before, proved, made):
        for path, text in before.items():
            with open(path, "w", encoding="utf-8") as source:
                source.write(text)
        if made:
            shutil.rmtree(os.path.join(self.root, "build"))
            shutil.copytree(self.built, os.path.join(self.root, "build"))
        for crate in proved:
            shutil.rmtree(self.out(crate), ignore_errors=True)
            shutil.copytree(os.path.join(self.saved, crate), self.out(crate))


# an error's place and text, or a note's; places are below the crate's folder
ERROR = re.compile(r"(?:note: )?(?:\./)?(\S+?):(\d+):\d+: (?:error(?:\[[\w-]+\])?: )?(.*)")


def errors(said):
    """the file of each error, and where it is and what it says, cut short; of each note where nothing is called an error"""
    lines = [line for line in said.split("\n") if ERROR.match(line)]
    found = [ERROR.match(line) for line in [line for line in lines if ": error" in line] or lines]
    return [(m.group(1), "%s:%s: %s" % (m.group(1), m.group(2), m.group(3)[:240])) for m in found]


# what the checker says where a proof does not fit the shape of the code or names what is gone, whatever the facts are; and of what cites such a proof
SHAPE = ("that can be named from here", "has no field", "has no `", "is not in scope", "binders, but its type has room")
CITED = ("was not admitted", "were not admitted")


def refusal(crate, said):
    """the verdict where a check of the crate, or of a library below it, failed"""
    below = re.search(r"^rt: the library (\w+) did not build", said, re.M)
    crate = below.group(1) if below else crate
    found = errors(said)
    told = [error for _, error in found if not any(sign in error for sign in CITED)]
    lines = [line for line in said.split("\n") if "error" in line or ": not proved" in line] or said.strip().split("\n")
    error = crate + ": " + (told + [lines[0][:200]])[0]
    if "\nlogic=not-proved" not in said or any(file.startswith("specs/") for file, _ in found):
        return "error of the list", error
    if told and any(sign in told[0] for sign in SHAPE):
        return "error of the list", error
    return "refused", error


def ask(copy, mutant, proved, made):
    """the verdict on a mutant, and where it comes from; the crates that were proved anew and what was made of them are put down"""
    changed = mutant.changed()
    asked = [crate for crate in CRATES if crate in changed or crate in depending_on(changed)]
    first = changed[:1] + [crate for crate in asked if crate in mutant.ask]
    for crate in dict.fromkeys(first + asked):
        proved.update([crate] + [c for c in asked if c in CRATES[crate]])
        # rt check of these would prove them once more than their making does
        if crate in MADE and crate != changed[0]:
            continue
        status, said = copy.run(["rt", "check"], crate)
        if status != 0:
            return refusal(crate, said)
    for crate in (c for c in MADE if c in proved):
        made.add(crate)
        status, said = copy.run(["make", "--silent"] + MADE[crate])
        if status != 0:
            with open(os.path.join(copy.root, LOGS[crate]), encoding="utf-8") as log:
                return refusal(crate, log.read())
    for name, command, seen in COMPARISONS:
        if made.intersection(seen):
            status, said = copy.run(command)
            if status != 0:
                return "caught", name + ": " + said.strip().split("\n")[-1][:160]
    return ("equivalent" if mutant.equivalent else "survived"), ""


def run(names, results):
    wanted = [m for m in all_mutants() if not names or m.crate in names or m.title() in names]
    place = os.environ.get("MUTANTS_PLACE") or tempfile.mkdtemp(prefix="mutants")
    copy = Copy(place)
    os.makedirs(os.path.dirname(results), exist_ok=True)
    for mutant in wanted:
        began, proved, made = time.time(), set(), set()
        wrong = fault(mutant, copy.root)
        if wrong:
            verdict, where = "error of the list", wrong
        else:
            before = copy.apply(mutant)
            verdict, where = ask(copy, mutant, proved, made)
            copy.restore(before, proved, made)
        line = "%s\t%s\t%s\t%d" % (mutant.title(), verdict, where.replace("\t", " ").replace("\n", " "), time.time() - began)
        print(line, flush=True)
        with open(results, "a", encoding="utf-8") as out:
            out.write(line + "\n")
    if not os.environ.get("MUTANTS_PLACE"):
        shutil.rmtree(place)


VERDICTS = ("refused", "caught", "equivalent", "survived")


def tally(title, rows, answers):
    """a table with the counts of each verdict in each of the rows: a name and its mutants"""
    print("| %s | Mutants | Refused by a proof | Caught by a comparison | Equivalent | Survived |" % title)
    print("|---|---|---|---|---|---|")
    rows.append(("all", [m for _, mutants in rows for m in mutants]))
    for name, mutants in rows:
        verdicts = [answers[m.title()][0] for m in mutants]
        print("| %s | %d | %s |" % (name, len(mutants), " | ".join(str(verdicts.count(v)) for v in VERDICTS)))
    print()


def document(results):
    answers = {}
    with open(results, encoding="utf-8") as lines:
        for line in lines:
            title, verdict, where, _ = line.rstrip("\n").split("\t")
            answers[title] = (verdict, where)
    mutants = all_mutants()
    missing = [m.title() for m in mutants if answers.get(m.title(), ("",))[0] not in VERDICTS]
    if missing:
        sys.exit("not asked, or errors of the list: " + " ".join(missing))
    tally("Crate", [("`%s`" % c, [m for m in mutants if m.crate == c]) for c in CRATES], answers)
    tally("Kind of edit", [(k, [m for m in mutants if m.kind == k]) for k in KINDS], answers)
    elsewhere = [m for m in mutants if answers[m.title()][0] == "refused" and not answers[m.title()][1].startswith(m.changed()[0] + ":")]
    print("These are refused by the proofs of a crate that depends on the first one changed; all other refusals are by that crate's own.")
    print()
    print("| Mutant | What it would break | Refused in |")
    print("|---|---|---|")
    for m in elsewhere:
        print("| `%s` | %s | `%s` |" % (m.title(), m.breaks, answers[m.title()][1].split(":")[0]))
    print()
    for verdict in VERDICTS[1:]:
        found = [m for m in mutants if answers[m.title()][0] == verdict]
        if found:
            print("| %s | What it would break | %s |" % (verdict.capitalize(), "Why" if verdict == "equivalent" else "By, and why"))
            print("|---|---|---|")
            for m in found:
                where = answers[m.title()][1].split(":")[0]
                print("| `%s` | %s | %s |" % (m.title(), m.breaks, ": ".join(w for w in (where, m.equivalent or m.reason) if w)))
            print()


def main():
    arguments, results, mode = sys.argv[1:], os.path.join(ROOT, "build", "mutants.tsv"), "run"
    names = []
    while arguments:
        word = arguments.pop(0)
        if word == "--check":
            mode = "check"
        elif word in ("--results", "--document"):
            results = arguments.pop(0)
            mode = "document" if word == "--document" else mode
        else:
            names.append(word)
    if mode == "check":
        faults = [(m.title(), fault(m, ROOT)) for m in all_mutants()]
        for title, wrong in faults:
            if wrong:
                print("%s: %s" % (title, wrong))
        print("%d mutants" % len(faults))
        sys.exit(1 if any(wrong for _, wrong in faults) else 0)
    if mode == "document":
        return document(results)
    return run(names, results)


if __name__ == "__main__":
    main()
