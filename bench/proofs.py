#!/usr/bin/env python3
"""Tells where the time of a crate's check went, and finds answers for goals at which the tactics search long.

    bench/proofs.py times CRATE          each module of the crate that took a second or more in its last check, and the sums by kind
    bench/proofs.py answers CRATE F ..   answers for the functions F, as `times` names them, without `proofs.` and `.Proof`

Both read what `rt check` keeps in the crate's out/, so check the crate first, with `--jobs 1` for `times`. More than PAUSE seconds between two files
are taken for the time between two checks, and count for nothing. What a check takes before its first module is not counted.
`answers` writes `search rules` for each goal of F that has no answer, and at those that are refused the other tactics in turn. What the first
search finds needs no answer and gets none; a goal at which none of them is enough is left as it was.
"""
import collections
import os
import re
import subprocess
import sys
import tempfile

TOP = os.path.dirname(os.path.dirname(os.path.realpath(__file__)))
KINDS = ("Proof", "Answers", "Lts", "Tie", "Reads", "Layout", "Kinds", "Named", "Code", "Mir", "Goals")
# More seconds than this between two files are a pause between two checks; a module can take more than a minute.
PAUSE = 300
# What a goal without an answer is tried with, in this order.
TACTICS = (
    "search rules",
    "omega arith",
    "grind (arith, common_steps)",
    "grind (arith, elements)",
    "search (pieces, arith) depth 5 fits 300",
    "grind (arith, common_steps) steps 4000000",
)
# Where the words of tactics stand.
WORDS = {
    "Rattle.std.proofs.Common": ("rules", "arith"),
    "Rattle.std.proofs.lemmas.Grind": ("common_steps", "elements", "pieces"),
}


def seconds(crate):
    """Returns the seconds of each module, and its bytes: a check with one job writes a module's file as it ends with it."""
    files = []
    for at, _, names in os.walk(f"{TOP}/crates/{crate}/out/incremental"):
        for name in names:
            if name.endswith(".oantt"):
                found = os.stat(f"{at}/{name}")
                files.append((found.st_mtime, found.st_size, name))
    took, size, before = collections.Counter(), collections.Counter(), None
    for time, bytes_, name in sorted(files):
        module = re.sub(f"^Rattle-{crate}-", "", name.replace(".decls.oantt", ".oantt")[: -len(".oantt")])
        took[module] += time - before if before and time - before < PAUSE else 0
        size[module] = max(size[module], bytes_)
        before = time
    return took, size


def times(crate):
    took, size = seconds(crate)
    kinds = collections.Counter()
    for module, time in took.items():
        last = module.rsplit(".", 1)[-1].split("-")[0]
        kinds[last if last in KINDS else "others"] += time
    print(f"{sum(took.values()):.0f} s in {len(took)} modules: " + ", ".join(f"{kind} {time:.0f}" for kind, time in kinds.most_common()))
    for module, time in took.most_common():
        if time >= 1:
            print(f"{time:6.1f} s {size[module] / 1e6:5.2f} MB  {module}")


def check(crate, *flags):
    """Runs a check of one job in the crate, and returns what it said."""
    words = ["rt", "check", *flags, "--jobs", "1"]
    how = {"stdout": subprocess.PIPE, "stderr": subprocess.STDOUT, "stdin": subprocess.DEVNULL, "text": True}
    return subprocess.run(words, cwd=f"{TOP}/crates/{crate}", **how).stdout


def file_of(crate, function):
    return f"{TOP}/crates/{crate}/proofs/{function.replace('.', '/')}/Answers.antt"


def text_of(path):
    if not os.path.isfile(path):
        return ""
    with open(path, encoding="utf-8") as file:
        return file.read()


def open_goals(crate, functions, old):
    """Returns the goals of each function that have no answer: their arguments by their names."""
    with tempfile.TemporaryDirectory() as room:
        starts = [word for it in functions for word in ("--start", it.replace(".", "::"))]
        check(crate, "--generated", room, *starts)
        goals = {}
        for function in functions:
            offered = text_of(f"{room}/Rattle-{crate}-proofs/{function.replace('.', '/')}/AnswersOffered.antt")
            has = re.findall(r"^(?:pub )?(\S+) :", old[function], re.M)
            is_part = lambda one, other: one == other or one.startswith(f"{other}-clause-")
            found = re.findall(r"^pub (\S+) : goal\.\S+\n\S+((?: \S+)*) = \?", offered, re.M)
            goals[function] = {goal: rest for goal, rest in found if not any(is_part(goal, it) or is_part(it, goal) for it in has)}
    return goals


def with_import(text, module, words):
    words = [it for it in words if not re.search(rf"^use .*[{{ ]{it}[,}}]", text, re.M)]
    line = re.search(rf"^use {re.escape(module)}\.\{{(.*)\}}$", text, re.M)
    if not words:
        return text
    if line:
        return f"{text[: line.end(1)]}, {', '.join(words)}{text[line.end(1) :]}"
    return f"use {module}.{{{', '.join(words)}}}\n{text}"


def remove(path):
    """Removes an answers file where there is one, and its folder where nothing else stands there."""
    if os.path.isfile(path):
        os.remove(path)
        if not os.listdir(os.path.dirname(path)):
            os.rmdir(os.path.dirname(path))


def write(crate, function, old, goals, chosen):
    """Writes a function's answers: those that stood there, and the chosen tactics."""
    path = file_of(crate, function)
    if not chosen and not old:
        remove(path)
        return
    text = old or f"use Rattle.{crate}.proofs.{function}.Goals as goal\n"
    for module, words in WORDS.items():
        text = with_import(text, module, [it for it in words if any(re.search(rf"\b{it}\b", tactic) for tactic in chosen.values())])
    for goal, tactic in chosen.items():
        text += f"\npub {goal} : goal.{goal}\n{goal}{goals[goal]} = {tactic}\n"
    os.makedirs(os.path.dirname(path), exist_ok=True)
    with open(path, "w", encoding="utf-8") as file:
        file.write(text)


def refused(said):
    """Returns the goals whose answers a check refused, by function."""
    found = collections.defaultdict(set)
    for path, goal in re.findall(r"proofs/(\S+)/Answers\.antt:\d+:\d+: error: `([^`]+)`", said):
        found[path.replace("/", ".")].add(goal)
    return found


def answers(crate, functions):
    old = {it: text_of(file_of(crate, it)) for it in functions}
    goals = open_goals(crate, functions, old)
    tried = {it: dict.fromkeys(goals[it], 0) for it in functions}
    only = [word for it in functions for word in ("--only", it.replace(".", "::"))]
    while True:
        for function in functions:
            chosen = {goal: TACTICS[at] for goal, at in tried[function].items() if at < len(TACTICS)}
            write(crate, function, old[function], goals[function], chosen)
        bad = refused(check(crate, *only))
        if not any(goal in tried[function] for function in functions for goal in bad[function]):
            break
        for function in functions:
            for goal in bad[function] & tried[function].keys():
                tried[function][goal] += 1
    for function in functions:
        chosen = {goal: TACTICS[at] for goal, at in tried[function].items() if 0 < at < len(TACTICS)}
        write(crate, function, old[function], goals[function], chosen)
        left = [goal for goal, at in tried[function].items() if at == len(TACTICS)]
        print(f"{function}: {len(chosen)} answers" + (f"; left: {' '.join(left)}" if left else ""))


def main(words):
    if len(words) == 2 and words[0] == "times":
        times(words[1])
    elif len(words) > 2 and words[0] == "answers":
        answers(words[1], words[2:])
    else:
        print(__doc__, file=sys.stderr)
        return 2
    return 0


if __name__ == "__main__":
    sys.exit(main(sys.argv[1:]))
