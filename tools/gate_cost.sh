#!/usr/bin/env bash
# Tells what the gate costs: tools/gate_cost.sh [--kept] [FOLDER [CRATE..]]
# It runs `rt ci --anew` in a clean clone of what FOLDER (or this repository) has committed; with --kept, `rt ci`, which does
# only what no earlier run passed; with names, for these crates and those below them alone.
# Prints a line for each crate, dearest first: the processor seconds of its check, of its tests' check, of the check that its
# must-fail edits begin with (seed), of the edits (with their number), and of compiling, linking and running. Then the wall
# time, the processor minutes and the gate's last line; all that it says goes to stderr. The status is that of `rt ci`, which
# tells no times: its processes are looked at in /proc, four times a second.
set -euo pipefail
words=(rt ci --anew)
[[ ${1-} != --kept ]] || { words=(rt ci) && shift; }
folder=$(cd "${1:-$(dirname "$0")/..}" && pwd)
work=$(mktemp -d)
trap 'rm -rf "$work"' EXIT
git clone -q "$folder" "$work/clone"
cd "$work/clone"

cat > "$work/cost.py" <<'PYTHON'
import collections, os, re, resource, signal, subprocess, sys, threading, time

KINDS = ("check", "tests", "seed", "edits", "run")
TICKS = os.sysconf("SC_CLK_TCK")


def look(seen, root):
    """Notes each process below the root, with the processor seconds that it has taken itself."""
    procs = {}
    for pid in filter(str.isdigit, os.listdir("/proc")):
        try:
            with open(f"/proc/{pid}/stat", errors="replace") as text:
                stat = text.read().rpartition(")")[2].split()
            procs[int(pid)] = int(stat[1]), (int(stat[11]) + int(stat[12])) / TICKS, stat[19]
        except OSError:
            pass  # it has ended
    below, size = {root}, 0
    while size < len(below):
        size = len(below)
        below |= {pid for pid, (parent, _, start) in procs.items() if parent in below or (pid, start) in seen}
    for pid in below & procs.keys():
        parent, own, start = procs[pid]
        it = seen.setdefault((pid, start), {"pid": pid, "ppid": parent, "cmd": [], "cwd": ""})
        it["own"] = own
        try:
            with open(f"/proc/{pid}/cmdline", errors="replace") as text:
                it["cmd"] = text.read().split("\0")[:-1] or it["cmd"]
            it["cwd"] = os.readlink(f"/proc/{pid}/cwd")
        except OSError:
            pass


def place(it, by_pid, higher=3):
    """The crate that a process is for, what it does there, and for an edit which one; or None."""
    words, folder = it["cmd"], it["cwd"]
    if "--crate-name" in words:
        crate = words[words.index("--crate-name") + 1]
        # over the seed, or over a copy of it that has the edit's number; an edit tried from nothing has neither
        over = next((word for word in words if "/rt-edits-" in word), None)
        if over or "/rt-edit-" in folder:
            name = os.path.basename(over or folder)
            return crate, "seed" if name == "seed" else "edits", name
        return crate, "run" if "--crate-checked" in words else "tests" if "--test" in words else "check", None
    ran = re.search(r"/rt-run-[^/]*/bin/(\w+?)(_tests)?( |$)", " ".join(words)) or re.search(r"/crates/(\w+)$", folder)
    above = by_pid.get(it["ppid"]) if higher else None
    found = ran and [ran[1]] or above and place(above, by_pid, higher - 1)
    return found and (found[0], "run", None)


def table(rows, total):
    """The lines of the table, of rows as `look` notes them. What the total has beyond them is other."""
    by_pid, spent, tried = {it["pid"]: it for it in rows}, {}, set()
    for it in rows:
        crate, kind, edit = place(it, by_pid) or ("other", "run", None)
        spent.setdefault(crate, collections.Counter())[kind] += it["own"]
        tried |= {(crate, edit)} if kind == "edits" else set()
    unseen = total - sum(sum(it.values()) for it in spent.values())
    spent.setdefault("other", collections.Counter())["run"] += max(unseen, 0)
    lines = ["{:15}{:>9}{:>9}{:>9}{:>9}{:>6}{:>9}{:>10}".format("crate", *KINDS[:4], "", "run", "all")]
    dearest = sorted(spent.items(), key=lambda it: -sum(it[1].values()))
    for crate, of in [*dearest, ("all", sum(spent.values(), collections.Counter()))]:
        count = sum(crate in (name, "all") for name, _ in tried)
        shown = [f"{of[kind]:.1f}" if of[kind] else "-" for kind in KINDS]
        shown.insert(4, f"({count})" if count else "")
        lines.append("{:15}{:>9}{:>9}{:>9}{:>9}{:>6}{:>9}{:>10.1f}".format(crate, *shown, sum(of.values())))
    return lines


def main():
    seen, last, begun = {}, [""], time.monotonic()
    signal.signal(signal.SIGTERM, lambda *_: sys.exit(143))
    how = {"stdin": subprocess.DEVNULL, "stdout": subprocess.PIPE, "stderr": subprocess.STDOUT, "errors": "replace"}
    with subprocess.Popen(sys.argv[1:], **how) as gate:

        def hand_on():
            for line in gate.stdout:
                last[0] = line.strip() or last[0]
                print(line, end="", file=sys.stderr, flush=True)

        reader = threading.Thread(target=hand_on)
        reader.start()
        try:
            while gate.poll() is None:
                look(seen, gate.pid)
                time.sleep(0.25)
        finally:
            gate.terminate()
            reader.join()
    used = resource.getrusage(resource.RUSAGE_CHILDREN)
    wall, total = time.monotonic() - begun, used.ru_utime + used.ru_stime
    print(*table(list(seen.values()), total), sep="\n")
    print(f"wall {wall / 60:.1f} min, processor {total / 60:.1f} min, {len(os.sched_getaffinity(0))} processors", last[0], sep="\n")
    sys.exit(gate.returncode)


main() if __name__ == "__main__" else None
PYTHON
python3 "$work/cost.py" "${words[@]}" "${@:2}" &
gate=$!
trap 'kill "$gate" && wait "$gate" || exit 143' INT TERM HUP
wait "$gate"
