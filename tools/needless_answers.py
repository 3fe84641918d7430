#!/usr/bin/env python3
"""Answers that the check may find alone. usage: needless_answers.py CRATE, at the top of the checkout, where the crates below it prove.

Checks a copy of the repository in which the crate has no Answers.antt, and prints for each function the answers whose goals the check did not
leave open. They are candidates: where a callee, or the loop before the goal, is not proved without its own answers, the goal was
not tried. So take them away one function at a time, callees first, and check.
"""
import glob
import os
import re
import shutil
import subprocess
import sys
import tempfile

crate = sys.argv[1]
copy = tempfile.mkdtemp()
top = os.path.join(copy, "top")
shutil.copytree(".", top, ignore=shutil.ignore_patterns(".git", "target"))
folder = os.path.join(top, "crates", crate)
answers = {}
for path in glob.glob(f"{folder}/proofs/**/Answers.antt", recursive=True):
    name = os.path.relpath(os.path.dirname(path), f"{folder}/proofs")
    answers[name] = re.findall(r"^pub ([^\s:]+) : goal\.", open(path).read(), re.M)
    os.remove(path)
run = subprocess.run(["rt", "check"], cwd=folder, capture_output=True, text=True)
log = run.stdout + run.stderr
shutil.rmtree(copy)
left = {}
for name, rest in re.findall(r"^fn \w+::(\S+): (.*)$", log, re.M):
    goals = set(re.findall(r"`([^`]+)`", rest)) if "did not prove" in rest else set()
    left[name.replace("::", "/")] = (goals, "it calls" in rest)
for name, goals in sorted(answers.items()):
    still, waits = left.get(name, (set(), True))
    spare = [goal for goal in goals if goal not in still]
    if spare:
        print(name, *spare, "(a callee is not proved without its answers)" if waits else "")
