#!/usr/bin/env python3
"""Looks whether each function of rvf_c is refused for its own wrong answer, in each of the crate's two must-fail edits.

usage: python3 tools/wrong_answers.py      anywhere in the repository, once the crates prove

Each edit has a wrong answer for every function of the crate. `rt ci` sees that the crate is not proved with the edit, which one wrong answer
is enough for; and that a function is not proved says too little too: neither is a function that calls one which is not. So the edits are
checked here, on a copy of the crates, and each function has to fail at what it ensures itself: at a goal of its own, `returns` or one
that begins so. The last line is `ok`, and else the exit status is not 0.
"""
import os
import re
import shutil
import subprocess
import sys
import tempfile

CRATE = "rvf_c"
EDITS = ["every_call_answers_another_value", "every_call_is_asked_something_else"]


def edited(edit, folder):
    """The files that an edit changes, with their new texts: each `old:` stands once in what the edit's earlier lines made."""
    texts, path, old = {}, None, None
    with open(edit, encoding="utf-8") as lines:
        for line in lines.read().splitlines():
            word, _, rest = line.partition(":")
            if word == "file":
                path = f"{folder}/{rest.strip()}"
            elif word == "old":
                old = rest[1:]
            elif word == "new":
                if path not in texts:
                    with open(path, encoding="utf-8") as it:
                        texts[path] = it.read()
                if texts[path].count(old) != 1:
                    sys.exit(f"{edit}: `{old}` stands {texts[path].count(old)} times in {path}")
                texts[path] = texts[path].replace(old, rest[1:])
    return texts


def checked(folder):
    """What `rt check` says of each function, and of the proof files that it could not take."""
    how = {"cwd": folder, "stdin": subprocess.DEVNULL, "stdout": subprocess.PIPE, "stderr": subprocess.STDOUT, "text": True}
    ran = subprocess.run(["rt", "check"], errors="replace", **how)
    return dict(re.findall(rf"(?m)^fn {CRATE}::(\S+): (.*)$", ran.stdout)), ran


def own_goals(function, said, output):
    """The goals of a function that are not proved: those that the search was left with, and those whose answer is not one."""
    left = re.search(r"`search` did not prove ((?:`[^`]+`(?:, )?)+)", said)
    place = re.escape(function.replace("::", "/"))
    wrong = re.findall(rf"(?m)^\./proofs/{place}/\w+\.antt:\d+:\d+: error: `([^`]+)`: (.*)$", output)
    unread = r"is not in scope|has no field|has no `|is no name|was not admitted"
    return re.findall(r"`([^`]+)`", left[1] if left else "") + [goal for goal, why in wrong if not re.search(unread, why)]


def with_edit(name, folder):
    """What the check says with an edit; the copy is then as it was."""
    edit = f"{folder}/must-fail/{name}.edit"
    if not os.path.isfile(edit):
        sys.exit(f"crates/{CRATE}/must-fail/{name}.edit is missing")
    texts, kept = edited(edit, folder), {}
    for path, text in texts.items():
        with open(path, encoding="utf-8") as it:
            kept[path] = it.read()
        with open(path, "w", encoding="utf-8") as it:
            it.write(text)
    found = checked(folder)
    for path, text in kept.items():
        with open(path, "w", encoding="utf-8") as it:
            it.write(text)
    return found


def main():
    root = os.path.dirname(os.path.dirname(os.path.abspath(__file__)))
    is_lacking = False
    with tempfile.TemporaryDirectory() as room:
        # (rt takes it for the top of a repository)
        os.mkdir(f"{room}/.git")
        shutil.copytree(f"{root}/crates", f"{room}/crates", ignore=lambda at, _: ["out"] if os.path.dirname(at) == f"{root}/crates" else [])
        shutil.copy(f"{root}/crates.txt", room)
        folder = f"{room}/crates/{CRATE}"
        functions, ran = checked(folder)
        if ran.returncode or not functions or set(functions.values()) != {"proved"}:
            sys.exit(f"{ran.stdout[-3000:]}{CRATE} is not proved as it stands")
        for name in EDITS:
            said, ran = with_edit(name, folder)
            if set(said) != set(functions):
                sys.exit(f"{ran.stdout[-3000:]}the check with {name} does not speak of each function")
            fails = {it for it in functions if any(goal.startswith("returns") for goal in own_goals(it, said[it], ran.stdout))}
            print(f"{name}: {len(fails)} of {len(functions)} functions are refused for their own wrong answer", flush=True)
            for function in sorted(set(functions) - fails):
                is_lacking = True
                print(f"{CRATE}::{function} lacks its wrong answer in crates/{CRATE}/must-fail/{name}.edit: {said[function]}")
    if is_lacking:
        sys.exit(1)
    print("ok")


main()
