"""What `pie-inspect why` tells before a build by what changed, held against what the build then did."""
import json
import os
import subprocess


def everything():
    """Each file below the current directory, with its bytes and its time."""
    found = {}
    for at, _, names in os.walk("."):
        for name in names:
            path = os.path.join(at, name)
            with open(path, "rb") as it:
                found[path] = it.read(), os.stat(path).st_mtime_ns
    return found


def asked(inspect, words, names):
    """What the program answers, and its status."""
    done = subprocess.run([inspect, *words], input=names.encode(), capture_output=True, timeout=60, check=False)
    return done.stdout.decode(), done.returncode


class Whys:
    """What is told of the current directory, as lines and as JSON, where these paths are named; and the tasks of its store."""

    def __init__(self, inspect, names):
        before, listed = everything(), "".join(name + "\n" for name in names)
        self.names = set(names) | pending()
        self.lines, self.status = asked(inspect, ["why"], listed)
        text, status = asked(inspect, ["why", "--json"], listed)
        self.object = json.loads(text) if status == 0 else None
        tasks, has_store = asked(inspect, ["tasks"], "")
        self.stored = tasks.splitlines() if has_store == 0 else []
        self.alone = [asked(inspect, ["why", task], "") for task in self.stored[:3]]
        self.is_same = everything() == before and status == self.status

    def runs(self):
        return [item["task"] for item in self.object["runs"]]

    def counts(self):
        """How many tasks run, and may run."""
        return [len(self.object["runs"]), len(self.object["may_run"])] if self.object else [0, 0]

    def wanted(self):
        """The lines that say what the JSON says, without the reasons."""
        told = self.object
        if told["fresh"]:
            return [f"fresh {told['fresh']}", "every task runs"]
        return [*(f"runs {task}" for task in self.runs()), *(f"may run {task}" for task in told["may_run"]), f"kept {told['kept']}"]

    def faults(self):
        """What is wrong with the answer by itself."""
        if not self.is_same:
            yield "files changed, or two answers differ"
        if self.object is None:
            return
        if [line for line in self.lines.splitlines() if not line.startswith("  ")] != self.wanted():
            yield "the lines aren't the JSON"
        for item in self.object["runs"]:
            if not item["reasons"] or any(it["named"] not in self.names for it in item["reasons"] if it["named"] is not None):
                yield f"no reason, or one that isn't named: {item}"
        if not self.object["fresh"] and len(self.stored) != len(self.runs()) + len(self.object["may_run"]) + self.object["kept"]:
            yield "the tasks of the store aren't told once each"
        for task, (text, status) in zip(self.stored, self.alone):
            if not self.object["fresh"] and (status, text.splitlines()[:1]) != (0, [task]):
                yield f"of {task}: {status} {text}"


def pending():
    """The names that refused builds kept."""
    try:
        with open(".pie/pending", encoding="utf-8") as it:
            return set(it.read().splitlines())
    except FileNotFoundError:
        return set()


def unasked(whys, told, wanted):
    """What is wrong with what was told before a build that printed this, where a clean build printed that; or nothing."""
    if whys is None:
        return ""
    faults = list(whys.faults())
    if whys.object:
        faults += against(whys, told, {line[len("ran "):] for line in wanted if line.startswith("ran ")})
    elif told[:1] and not told[0].startswith("bad "):
        faults.append("the project wasn't read")
    return f"why: {faults}, {whys.lines}" if faults else ""


def against(whys, told, entered):
    """What the build did otherwise."""
    causes = [line[len("fresh "):] for line in told if line.startswith("fresh ")]
    if whys.object["fresh"] or (causes and not causes[0].startswith("Union")):
        if causes != [whys.object["fresh"]]:
            yield f"started afresh: {causes}"
        return
    ran = {line[len("ran "):] for line in told if line.startswith("ran ")}
    sure = set(whys.runs())
    missed = [] if causes else sorted(ran & set(whys.stored) - sure - set(whys.object["may_run"]))
    if missed:
        yield f"ran and wasn't told: {missed}"
    idle = [] if causes or told[0] != "accepted" else sorted((sure & entered) - ran)
    if idle:
        yield f"was to run: {idle}"
