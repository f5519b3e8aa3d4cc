#!/usr/bin/env python3
"""What the gate costs, in processor minutes (user and system).

bench/gate.py [WORD..]               runs `rt ci` with these words (--anew for all; none for what isn't kept) at the top of the
                                     repository, and prints what each crate took: its proof, its second proof with its test
                                     functions, its must-fail edits with the proof that they begin with, and its programs' compiling
bench/gate.py functions CRATE [--test]
                                     proves one crate by one job, and prints the 30 functions that took longest, in processor
                                     seconds; the crates below it must be built (`rt check` in its folder does that)

Only what the run itself started counts, but other work on the machine makes each figure larger, so compare runs of a quiet one. The status is that of `rt ci`.
"""
import collections
import os
import re
import subprocess
import sys
import time

TOP = os.path.dirname(os.path.dirname(os.path.realpath(__file__)))
KIT = os.path.dirname(subprocess.run(["rt", "doc"], capture_output=True, text=True, check=True).stdout.strip())
HZ = os.sysconf("SC_CLK_TCK")
KINDS = ("proof", "tests", "edits", "compiling")


def seconds_of(pid):
    """The processor seconds of a process, and when it began."""
    with open(f"/proc/{pid}/stat", encoding="utf8") as file:
        words = file.read().rpartition(")")[2].split()
    return (int(words[11]) + int(words[12])) / HZ, words[19]


def kind_of(words, folder):
    if "rt-edit" in folder:
        return "edits"
    if "--test" in words:
        return "tests"
    return "compiling" if "--crate-checked" in words else "proof"


def is_below(pid, top):
    """Whether a process is the top one, or was started by one that is below it."""
    while pid > 1 and pid != top:
        with open(f"/proc/{pid}/stat", encoding="utf8") as file:
            pid = int(file.read().rpartition(")")[2].split()[1])
    return pid == top


def look(seen, top):
    """Notes each process of the prover below the top one, and what it has taken so far."""
    for pid in filter(str.isdigit, os.listdir("/proc")):
        try:
            took, begun = seconds_of(pid)
            if (pid, begun) not in seen:
                with open(f"/proc/{pid}/cmdline", "rb") as file:
                    words = file.read().decode(errors="replace").split("\0")
                if words[0] != f"{KIT}/bin/rattle" or "--crate-name" not in words or not is_below(int(pid), top):
                    continue
                name = words[words.index("--crate-name") + 1]
                seen[pid, begun] = [name, kind_of(words, os.readlink(f"/proc/{pid}/cwd")), 0.0, words[1] == "check"]
            seen[pid, begun][2] = took
        except (OSError, ValueError, IndexError):
            # (it has ended meanwhile)
            continue


def gate(words):
    """Runs the gate; a check that is forked into copies counts with them."""
    seen, begun = {}, time.time()
    ran = subprocess.Popen(["rt", "ci", *words], cwd=TOP)
    while ran.poll() is None:
        look(seen, ran.pid)
        time.sleep(0.2)
    table, count = collections.defaultdict(float), collections.Counter()
    for name, kind, took, is_check in seen.values():
        table[name, kind] += took / 60
        count[name] += kind == "edits" and is_check
    names = sorted({name for name, _ in table}, key=lambda it: -sum(table[it, kind] for kind in KINDS))
    print("| crate | " + " | ".join(KINDS) + " | all |\n|---|" + "---|" * (len(KINDS) + 1))
    for name in [*names, "all"]:
        row = [sum(table[it, kind] for it in (names if name == "all" else [name])) for kind in KINDS]
        print(f"| {name} | " + " | ".join(f"{it:.2f}" if it else "" for it in row) + f" | {sum(row):.2f} |")
    print(f"{(time.time() - begun) / 60:.1f} minutes by the clock on {os.cpu_count()} processors")
    return ran.returncode


def crates():
    """Each crate of the repository, with what it stands on."""
    with open(f"{TOP}/crates.txt", encoding="utf8") as file:
        lines = [it.partition("#")[0].partition(":") for it in file]
    return {name.split()[0]: needs.split() for name, colon, needs in lines if colon}


def below(name, needs, found):
    for it in needs[name]:
        if it in needs and it not in found:
            found.append(it)
            below(it, needs, found)
    return found


def functions(name, flags):
    needs = crates()
    root = f"{TOP}/crates/{name}"
    top = "src/main.rt" if os.path.isfile(f"{root}/src/main.rt") else "src/lib.rt"
    words = [f"{KIT}/bin/rattle", "check", "--crate-name", name, top, "-L", f"dependency={KIT}/rlibs"]
    for it in ["std", *needs[name]]:
        rlib = f"{TOP}/crates/{it}/out/rlib/{it}.rlib" if it in needs else f"{KIT}/rlibs/{it}.rlib"
        words += ["--extern", f"{it}={rlib}"]
    for it in below(name, needs, []):
        words += ["-L", f"dependency={TOP}/crates/{it}/out/rlib"]
    words += ["--antt-project", f"{KIT}/rattle/logic/antt-project.json", "--logic-built", f"{KIT}/logic_built"]
    words += ["--links", f"{name}=", "--jobs", "1", "--progress", *flags]
    ran = subprocess.Popen(words, cwd=root, stdout=subprocess.PIPE, stderr=subprocess.STDOUT, text=True, errors="replace")
    last, rows = 0.0, []
    for line in ran.stdout:
        found = re.match(r"checked (.*), \d+ of \d+", line)
        if found:
            now = seconds_of(ran.pid)[0]
            rows.append((now - last, found[1]))
            last = now
        elif line.startswith(("error", "logic=")):
            print(line[:120].rstrip())
    print(f"{last:.1f} processor seconds, {len(rows)} functions; the first has the reading of the libraries in it")
    for took, function in sorted(rows, reverse=True)[:30]:
        print(f"{took:7.2f} {function}")
    return ran.wait()


if sys.argv[1:2] == ["functions"]:
    sys.exit(functions(sys.argv[2], sys.argv[3:]))
sys.exit(gate(sys.argv[1:]))
