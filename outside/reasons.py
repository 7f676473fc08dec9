"""Why each task of a build by what changed ran, judged by what docs/BUILDING.md says and not by the builder: by clean evaluations (outside/reference.py) on
the files of the last accepted build and on those of now.
"""
import hashlib

import reference


def sha(data):
    return hashlib.sha256(data).digest()


def stamp(kind, path, found):
    """The stamp of a file that is seen at a path: its bytes and its mark, or nothing."""
    if not found:
        return b"\0"
    if kind == 1:
        return b"\1"
    if kind == 3 and not reference.is_out(path):
        return b"\3" + found[1].to_bytes(8, "big")
    return b"\2" + sha(found[0])


class Now:
    """Evaluations on the files of now, each of one task by itself. A task that is done is evaluated once."""

    def __init__(self, functions, directory):
        self.functions, self.directory = functions, directory
        self.done, self.alone = {}, {}

    def of(self, task):
        """The run of a task by itself, with an output where it is done."""
        if task not in self.alone:
            build = reference.Build(self.functions, self.directory)
            build.done = self.done
            try:
                build.enter(task)
            except (reference.Fault, reference.Cycle):
                self.alone[task] = build.runs[task]
            else:
                self.alone[task] = self.done[task]
        return self.alone[task]

    def retaken(self, run, place):
        """The stamp now of an observation of an old run, or None where nothing can be stamped."""
        kind, what = run.observed[place][0], run.asked[place]
        if kind > 5:
            if self.of(what).output is None:
                return None
            output = reference.text_bytes(self.of(what).output)
            return {6: b"\4" + output, 7: b"\2" + sha(output), 8: b"\5"}[kind]
        if kind == 5:
            return b"\2" + sha(reference.listing(self.directory, what)[1])
        if reference.is_reserved(what):
            return b"\0"
        if not reference.is_out(what):
            return stamp(kind, what, self.directory.get(what))
        if what in run.writes:
            return stamp(kind, what, (run.writes[what], None))
        return self.provided(run, place, kind, what)

    def provided(self, run, place, kind, path):
        """The stamp now of a file under `out` that other tasks write, by those that an old run had required before."""
        kids = [task for (k, _, _), task in zip(run.observed[:place], run.asked) if k > 5]
        if any(self.of(kid).output is None for kid in kids):
            return None
        found = [t for t in self.reached(kids) if path in self.done[t].writes]
        if len(found) > 1:
            return None
        return stamp(kind, path, (self.done[found[0]].writes[path], None) if found else None)

    def reached(self, tasks):
        build = reference.Build(self.functions, self.directory)
        build.done = self.done
        return build.reached(tasks)


class Judge:
    """A build by what changed: the clean build of the last accepted one (None where there is none), and the functions, roots and files before it."""

    def __init__(self, base, functions, roots, directory):
        self.base, self.roots = base, roots
        self.now = Now(functions, directory)
        self.spellings = {f.name: f.tokens() for f in functions}

    def reason(self, task):
        """Why a task may run, or None."""
        if task not in self.base.done:
            return "new"
        if self.base.functions[task[0]].tokens() != self.spellings.get(task[0]):
            return "code"
        run = self.base.done[task]
        for path, data in run.writes.items():
            found = self.now.directory.get(path)
            if not found or sha(found[0]) != sha(data):
                return f"its file {path}"
        differs = [i for i in range(len(run.observed)) if self.now.retaken(run, i) != run.observed[i][2]]
        return f"place {differs[0]}" if differs else None

    def edges(self, task):
        """What a task requires by its old record, or in its evaluation now."""
        old = self.base.done[task].kids if task in self.base.done else []
        return [*old, *self.now.of(task).required]

    def reachable(self):
        """The tasks that the roots reach by such edges, by their printed form."""
        found, left = {}, list(self.roots)
        while left:
            task = left.pop()
            if reference.shown(task) not in found:
                found[reference.shown(task)] = task
                left += self.edges(task)
        return found

    def entered(self):
        """The tasks that a clean build enters now."""
        build = reference.Build(self.now.functions, self.now.directory)
        try:
            for root in self.roots:
                build.enter(root)
        except (reference.Fault, reference.Cycle):
            pass
        return build.ran

    def against(self, ran, cause):
        """What is wrong with the tasks that ran, told by their printed forms, or with the cause to start afresh; or nothing."""
        tasks = self.reachable()
        entered = [reference.shown(t) for t in self.entered()]
        if cause:
            ran = without(ran, entered)
        wrong = [name for name in ran if name not in tasks or not self.reason(tasks[name])]
        if wrong:
            return f"ran without a reason: {wrong}"
        if len(set(ran)) < len(ran):
            return f"ran twice: {ran}"
        if cause:
            return self.ring(cause, ran, tasks)
        missed = [name for name in entered if name not in ran and self.reason(tasks[name])]
        return f"didn't run: {[(name, self.reason(tasks[name])) for name in missed]}" if missed else ""

    def ring(self, cause, ran, tasks):
        """What is wrong with a cycle of old and new requires that a build started afresh for, or nothing."""
        names = cause.split(" -> ")
        known = [tasks.get(name) for name in names]
        if None in known:
            return f"not reached: {names}"
        if any(after not in self.edges(one) for one, after in zip(known, known[1:] + known[:1])):
            return f"no cycle of requires: {names}"
        if known[0] != min(known, key=reference.task_bytes):
            return f"doesn't begin with its least task: {names}"
        return "" if set(names) & set(ran) else f"none of the cycle ran: {names}"


def without(names, others):
    """Names, less one for each of the others."""
    left = list(names)
    for other in others:
        if other in left:
            left.remove(other)
    return left
