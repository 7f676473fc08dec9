"""A clean build as docs/LANGUAGE.md, docs/BUILDING.md and docs/FORMATS.md tell it, written apart from the program: outside/random holds the program against it.

A project is a list of functions (outside/pipelines.py), a list of roots, and a directory: a dict from paths to (bytes, mark). Tasks are pairs of a name and a
tuple of texts, and each output is a text.
"""
import hashlib


class Fault(Exception):
    """A task failed: the task in which it began, and what is printed behind it."""

    def __init__(self, task, kind):
        super().__init__(kind)
        self.task, self.kind = task, kind


class Cycle(Exception):
    """A task required one that is entered and not done: the tasks from that one down."""

    def __init__(self, tasks):
        super().__init__()
        self.tasks = tasks


def sha(data):
    return hashlib.sha256(data).digest()


def be32(number):
    return number.to_bytes(4, "big")


def sized(data):
    return be32(len(data)) + data


def text_bytes(text):
    return b"\x03" + sized(text.encode())


def task_bytes(task):
    name, args = task
    return sized(name.encode()) + be32(len(args)) + b"".join(map(text_bytes, args))


def quoted(text):
    escapes = {'"': '\\"', "\\": "\\\\", "\n": "\\n", "\t": "\\t"}
    return '"' + "".join(escapes.get(c, c) for c in text) + '"'


def shown(task):
    return f"{task[0]}({', '.join(map(quoted, task[1]))})"


def is_path(text):
    raw = text.encode()
    parts = text.split("/")
    return 0 < len(raw) <= 255 and all(p not in ("", ".", "..") for p in parts) and not any(b < 32 or b == 127 for b in raw)


def is_out(path):
    return path.startswith("out/")


def is_reserved(path):
    return path == "out" or path.split("/")[0] in (".pie", "pie.pipeline", "pie.roots")


def in_order(paths):
    return sorted(paths, key=str.encode)


def listing(directory, path):
    """The entries of a folder in path order, and their canonical bytes."""
    below = {p[len(path) + 1:].split("/")[0] for p in directory if p.startswith(path + "/") and not is_out(p) and not is_reserved(p)}
    found = in_order(f"{path}/{n}" for n in below)
    return found, b"\x05" + be32(len(found)) + b"".join(b"\x04" + sized(p.encode()) for p in found)


class Run:
    """One task while it runs: what it observed, wrote and required so far. The forms of outside/pipelines.py ask it."""

    def __init__(self, build, task):
        self.build, self.task = build, task
        self.observed, self.writes, self.kids, self.looked = [], {}, [], set()
        # what each observation asked for, each task that was required, answered or not, and the output once it is done
        self.asked, self.required, self.output = [], [], None

    def fail(self, kind):
        raise Fault(self.task, kind)

    def said(self, text):
        self.fail(f"Said {quoted(text)}")

    def path(self, text):
        return text if is_path(text) else self.fail("BadPath")

    def seen(self, path):
        """The bytes and the mark of the file that the task sees at a path, or None."""
        self.looked.add(path)
        if is_reserved(path):
            return None
        if not is_out(path):
            return self.build.directory.get(path)
        if path in self.writes:
            return self.writes[path], None
        found = [t for t in self.build.reached(self.kids) if path in self.build.done[t].writes]
        if len(found) > 1:
            self.fail("Clash")
        return (self.build.done[found[0]].writes[path], None) if found else None

    def digest_at(self, path):
        found = self.look(4, path)
        return None if found is None else sha(found).hex()

    def look(self, kind, path):
        """An observation of one file by its kind, and what is there."""
        found = self.seen(path)
        stamp = b"\0"
        if found and kind == 1:
            stamp = b"\1"
        elif found and kind == 3 and not is_out(path):
            stamp = b"\3" + found[1].to_bytes(8, "big")
        elif found:
            stamp = b"\2" + sha(found[0])
        self.observed.append((kind, sized(path.encode()), stamp))
        self.asked.append(path)
        return found and found[0]

    def text_at(self, kind, path):
        found = self.look(kind, path)
        try:
            return None if found is None else found.decode()
        except UnicodeDecodeError:
            return self.fail("NotText")

    def names(self, path):
        if is_out(path) or is_reserved(path):
            self.fail("BadList")
        found, answer = listing(self.build.directory, path)
        self.observed.append((5, sized(path.encode()), b"\2" + sha(answer)))
        self.asked.append(path)
        return found

    def write(self, path, text):
        if not is_out(path):
            self.fail("BadWrite")
        if path in self.writes:
            self.fail("WroteTwice")
        if path in self.looked:
            self.fail("ReadThenWrite")
        self.writes[path] = text.encode()

    def require(self, kind, task):
        self.required.append(task)
        self.build.enter(task)
        output = text_bytes(self.build.done[task].output)
        self.kids.append(task)
        stamp = {6: b"\4" + output, 7: b"\2" + sha(output), 8: b"\5"}[kind]
        self.observed.append((kind, task_bytes(task), stamp))
        self.asked.append(task)
        return self.build.done[task].output


class Build:
    """A clean build: each task is run at most once."""

    def __init__(self, functions, directory):
        self.functions, self.directory = {f.name: f for f in functions}, directory
        self.above, self.ran, self.runs, self.done, self.failed = [], [], {}, {}, {}

    def reached(self, tasks):
        """The tasks, and all that they require, directly or through others."""
        found, left = set(), list(tasks)
        while left:
            task = left.pop()
            if task not in found:
                found.add(task)
                left += self.done[task].kids
        return found

    def enter(self, task):
        if task in self.above:
            raise Cycle(self.above[self.above.index(task):])
        if task in self.failed:
            raise self.failed[task]
        if task in self.done:
            return
        self.ran.append(task)
        self.above.append(task)
        run = self.runs[task] = Run(self, task)
        try:
            run.output = self.functions[task[0]].run(run, task[1])
        except Fault as fault:
            self.failed[task] = fault
            raise
        self.above.pop()
        self.done[task] = run

    def refusal(self, roots):
        """Why the build is refused, as it is printed, or None."""
        try:
            for root in roots:
                self.enter(root)
        except Fault as fault:
            return f"fault {shown(fault.task)}: {fault.kind}"
        except Cycle as cycle:
            return "cycle " + " -> ".join(map(shown, cycle.tasks))
        return self.overlap() or self.nested() or self.hidden()

    def tasks(self):
        return sorted(self.done, key=task_bytes)

    def files(self):
        return {path: data for run in self.done.values() for path, data in run.writes.items()}

    def writers(self, path):
        return [t for t in self.tasks() if path in self.done[t].writes]

    def overlap(self):
        for path in in_order(self.files()):
            writers = self.writers(path)
            if len(writers) > 1:
                return f"overlap {path}: {shown(writers[0])}, {shown(writers[1])}"
        return None

    def nested(self):
        files = in_order(self.files())
        pairs = [(one, other) for one in files for other in files if other.startswith(one + "/")]
        return pairs and f"nested {pairs[0][0]}, {pairs[0][1]}" or None

    def hidden(self):
        for path in in_order(self.files()):
            missed = [t for t in self.tasks() if any(k < 5 and p == sized(path.encode()) and s == b"\0" for k, p, s in self.done[t].observed)]
            others = [(one, other) for one in missed for other in self.writers(path) if one != other]
            if others:
                return f"hidden {path}: {shown(others[0][0])}, {shown(others[0][1])}"
        return None

    def height(self, task, known):
        if task not in known:
            known[task] = 1 + max((self.height(kid, known) for kid in self.done[task].kids), default=-1)
        return known[task]

    def record(self, task):
        run = self.done[task]
        observed = b"".join(bytes([k]) + what + stamp for k, what, stamp in run.observed)
        writes = b"".join(sized(p.encode()) + sha(data) for p, data in run.writes.items())
        return task_bytes(task) + be32(len(run.observed)) + observed + be32(len(run.writes)) + writes + text_bytes(run.output)

    def store(self, roots):
        """The text of the store that an accepted build leaves."""
        known = {}
        functions = sorted(self.functions.values(), key=lambda f: (len(f.name), f.name))
        rows = sorted(self.done, key=lambda t: (self.height(t, known), task_bytes(t)))
        text = b"PIES\2" + be32(len(functions)) + b"".join(sized(f.name.encode()) + sha(" ".join(f.tokens()).encode()) for f in functions)
        text += be32(len(roots)) + b"".join(map(task_bytes, roots)) + be32(len(rows)) + b"".join(map(self.record, rows))
        return text + sha(text)


def removed(directory, files):
    """The files below `out` that no task wrote, in path order."""
    return [p for p in in_order(directory) if is_out(p) and p not in files]


def clean_build(functions, roots, directory):
    """What `fresh` prints, its exit status, and where it is accepted the files below `out` and the store's text."""
    build = Build(functions, directory)
    refusal = build.refusal(roots)
    ran = [f"ran {shown(t)}" for t in sorted(build.ran, key=task_bytes)]
    if refusal:
        return "\n".join([f"refused {refusal}", *ran]) + "\n", 1, None, None
    files = build.files()
    lines = ["accepted", *ran, *[f"wrote {p}" for p in in_order(files)], *[f"removed {p}" for p in removed(directory, files)], f"live {len(build.done)}"]
    lines += [f"output {shown(t)} = {quoted(build.done[t].output)}" for t in roots]
    return "\n".join(lines) + "\n", 0, files, build.store(roots)

