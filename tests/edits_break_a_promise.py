"""Tries each must-fail edit, and says where the prover refuses it.

An edit is of src/ or specs/, and has to be refused at a promise or a fact. It holds one wrong answer or several, of different
functions, each under a line `# name: the rule that it breaks`.
For an edit of src/ a complaint of the prover is about a goal whose name begins with `returns`, or about what a loop has written so
far (`FilledTo`, `SweptTo`, or what is pasted over a list, `paste`, in a goal `loop-..-init` or `loop-..-preserved`), and every other
one follows from such a complaint; and each function that the edit changes is refused so by itself. A complaint about a sum that may
not fit or an index that may be too large, or about a proof file that names what is no longer there, shows nothing about the answer. That the edited answer is wrong,
and not only another way to the right one, the prover cannot say: that is for the line with the rule.
For an edit of specs/ a fact that docs/PROMISES.md lists is not proved any more, every complaint is that a law does not hold, and one
of those laws is a closed case (proofs/Cases.antt): the definition computes to something else, and is not only said in another way.

Each edit is tried in a copy of crates/, which begins with what rt has kept in the crates' folders out/. What the prover says on it is
left in target/must-fail/CRATE/EDIT.log.
"""

import concurrent.futures
import os
import re
import shutil
import subprocess
import sys
import tempfile

NAMED = re.compile(r"(?m)^# ([A-Za-z0-9_]+): .")
FUNCTION = re.compile(r"\s*(?:pub(?:\(crate\))? )?(?:extern \"C\" )?fn ([a-z0-9_]+)[<(]")

# a complaint about the answer to a goal of a function, or that no answer was found for it, and one about a law
ANSWERED = re.compile(r"\S*proofs/(?:\S+/)?([a-z0-9_]+)/(?:Answers|Invariants)\.antt:\d+:\d+: error: `([^`]*)`: (.*)")
SEARCHED = re.compile(r"fn (?:\w+::)*(\w+): no proof: .*`search` did not prove ([^;]*).*")
STATED = re.compile(r"note: (`[^`]*`)(?: and (`[^`]*`))* of \S*proofs/\S* must prove: (.*)")
UNPROVED = re.compile(r"note: \S+:\d+:\d+: it is not proved that .*?\((`[^`]*`(?:, `[^`]*`)*)\).*")
LAW = re.compile(r"\S*proofs/(\w+)\.antt:\d+:\d+: error: `([^`]*)`: (.*)")

PROMISED = re.compile(r"returns(?:-|$)")
WRITTEN = re.compile(r"loop(?:-.*)?-(?:init|preserved)(?:-|$)")
SO_FAR = re.compile(r"(?:`search`: no proof of `)?(?:(?:[\w.]*\.)?(?:FilledTo|SweptTo) |\S*◌≡◌ .*\bpaste |.* ≡ paste )")
FOLLOWS = re.compile(r"error: \d+ declarations? that depends? on `([^`]*)`, which was (?:rejected|not admitted), (?:was|were) not checked: (.*)")
FALSE = re.compile(r"(?:as printed|computed as far as they go), the two types (?:first )?differ|`omega`: the goal does not follow|`search`: no proof of")


def read(path):
    with open(path, encoding="utf-8") as f:
        return f.read()


def edited(edit, crate):
    """The texts that the edit makes, by their paths in the crate."""
    path, old, texts = None, None, {}
    for line in read(edit).split("\n"):
        if line.startswith("file: "):
            path = line[len("file: ") :].strip()
        elif line.startswith("old: "):
            old = line[len("old: ") :]
        elif line.startswith("new:"):
            text = texts.get(path) or read(f"{crate}/{path}")
            if text.count(old) != 1:
                sys.exit(f"{edit}: '{old}' stands in {path} {text.count(old)} times, and not once")
            texts[path] = text.replace(old, line[len("new:") :].removeprefix(" "))
    return texts


def changed(texts, crate):
    """The functions of src/ that the edit changes; a constant outside all of them belongs to none."""
    found = set()
    for path, text in texts.items():
        name = None
        for was, now in zip(read(f"{crate}/{path}").split("\n"), text.split("\n")):
            at = FUNCTION.match(was)
            name = at[1] if at else name
            if was != now and name:
                found.add(name)
            if was.startswith("}"):
                name = None
    return found


def linked_or_copied(one, other):
    """Gives a file that rt has kept a second name, since rt makes such a file anew and never writes into it; others are copied."""
    try:
        if not one.endswith(".oantt"):
            raise OSError
        os.link(one, other)
    except OSError:
        shutil.copy2(one, other)


def at_once():
    """How many checks run side by side: one a processor, and no more than the memory that is free has room for."""
    free = re.search(r"(?m)^MemAvailable: *(\d+) kB$", read("/proc/meminfo"))
    return max(1, min(os.cpu_count() or 1, int(free[1]) // 3_000_000 if free else 1))


def tried(edit):
    """What the prover says of the crate with the edit."""
    crate = os.path.dirname(os.path.dirname(edit))
    name = os.path.basename(crate)
    with tempfile.TemporaryDirectory() as room:
        shutil.copy("crates.txt", room)
        shutil.copytree("crates", f"{room}/crates", copy_function=linked_or_copied)
        for path, text in edited(edit, crate).items():
            os.remove(f"{room}/{crate}/{path}")
            with open(f"{room}/{crate}/{path}", "w", encoding="utf-8") as f:
                f.write(text)
        how = {"capture_output": True, "text": True, "errors": "replace", "stdin": subprocess.DEVNULL}
        ran = subprocess.run(["rt", "check", "--jobs", "1"], cwd=f"{room}/{crate}", **how)
    log = ran.stdout + ran.stderr
    os.makedirs(f"target/must-fail/{name}", exist_ok=True)
    with open(f"target/must-fail/{name}/{os.path.basename(edit)[: -len('.edit')]}.log", "w", encoding="utf-8") as f:
        f.write(log)
    return log


def stated(log):
    """What a goal says that no answer was found for, by the goal's name."""
    said = {}
    for line in log.split("\n"):
        at = STATED.match(line)
        if at:
            for goal in re.findall(r"`([^`]*)`", line.split(" of ")[0]):
                said.setdefault(goal, "")
                said[goal] += at[3]
    return said


def judged(edit, log, listed):
    """What is wrong with how the edit is refused: nothing, if it is refused as it has to be."""
    crate = os.path.dirname(os.path.dirname(edit))
    texts = edited(edit, crate)
    named = NAMED.findall(read(edit))
    if not re.match(r"# [A-Za-z0-9_]+: .", read(edit)):
        yield "its first line does not name a wrong answer and the rule that it breaks"
    if not re.search(r"(?m)^logic=not-proved", log):
        yield "it is not refused"
        return
    lines = [it.removeprefix("./") for it in log.split("\n") if not it.startswith("so far: ")]
    complaints = [it for it in lines if ": error" in it and not FOLLOWS.search(it)]
    unproved = {law for it in lines for at in [FOLLOWS.search(it)] if at for law in re.findall(r"(?:^|, )([^\s,]+)", re.sub(r" \(via [^)]*\)", "", at[2]))}
    if all(it.startswith("specs/") for it in texts):
        laws = [LAW.fullmatch(it) for it in complaints]
        for it, law in zip(complaints, laws):
            if not law or not FALSE.match(law[3]):
                yield f"refused elsewhere than at a law: {it[:200]}"
        if not (unproved | {law[2] for law in laws if law}) & listed:
            yield "no fact of docs/PROMISES.md is refused"
        if not any(law and law[1] == "Cases" for law in laws):
            yield "no closed case is refused"
        return
    if not all(it.startswith("src/") for it in texts):
        yield "it is no edit of src/ alone or of specs/ alone"
        return
    said, refused = stated(log), set()
    for it in complaints:
        at = ANSWERED.fullmatch(it)
        if not at or not FALSE.match(at[3]):
            yield f"refused elsewhere than at a promise: {it[:200]}"
        elif PROMISED.match(at[2]) or (WRITTEN.match(at[2]) and SO_FAR.match(at[3])):
            refused.add(at[1])
        else:
            yield f"refused elsewhere than at a promise: {it[:200]}"
    for it in lines:
        at = SEARCHED.fullmatch(it) or UNPROVED.fullmatch(it)
        for goal in re.findall(r"`([^`]*)`", at[at.lastindex]) if at else []:
            if not PROMISED.match(goal) and not (WRITTEN.match(goal) and SO_FAR.match(said.get(goal, ""))):
                yield f"refused elsewhere than at a promise: {it[:200]}"
            elif at.re is SEARCHED:
                refused.add(at[1])
    functions = changed(texts, crate)
    if functions - refused:
        yield "not refused by themselves: " + " ".join(sorted(functions - refused))
    if len(named) > 1 and len(functions) < len(named):
        yield "it names more wrong answers than it changes functions: " + " ".join(sorted(functions))
    if not refused:
        yield "it is refused at no promise"


def facts():
    """The laws that docs/PROMISES.md lists, one or several a row, beside the file that they are in."""
    rows = re.findall(r"(?m)^\| .* \| (`[^|]*`) \| `crates/[^|]*` \|$", read("docs/PROMISES.md"))
    return {law for row in rows for law in re.findall(r"`([^`]*)`", row)}


def main():
    listed = facts()
    if not listed:
        sys.exit("docs/PROMISES.md lists no fact")
    edits = sorted(f"crates/{c}/must-fail/{e}" for c in os.listdir("crates") if os.path.isdir(f"crates/{c}/must-fail") for e in os.listdir(f"crates/{c}/must-fail"))
    os.makedirs("target/must-fail", exist_ok=True)
    answers = sum(len(NAMED.findall(read(it))) for it in edits)
    unfit = 0
    with concurrent.futures.ThreadPoolExecutor(at_once()) as pool:
        for edit, log in zip(edits, pool.map(tried, edits)):
            wrong = list(judged(edit, log, listed))
            unfit += bool(wrong)
            for it in wrong:
                print(f"{edit}: {it}", file=sys.stderr)
    print(f"wrong answers refused at a promise or a fact: {answers} in {len(edits)} edits, {unfit} unfit")
    return int(unfit > 0 or not edits)


if __name__ == "__main__":
    sys.exit(main())
