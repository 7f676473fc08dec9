"""Small random projects in the current directory, and their edits: for outside/random and outside/changes."""
import os

import pipelines
import reference

STEPS = 4


def put(path, data):
    os.makedirs(os.path.dirname(path) or ".", exist_ok=True)
    with open(path, "wb") as it:
        it.write(data)


def directory():
    """Each file below the current directory but those of `.pie`, with its bytes and its mark."""
    found = {}
    for at, folders, names in os.walk("."):
        folders[:] = [f for f in folders if f != ".pie"]
        for name in names:
            path = os.path.join(at, name)
            with open(path, "rb") as it:
                found[path[2:]] = it.read(), os.stat(path).st_mtime_ns
    return found


def store():
    try:
        with open(".pie/store", "rb") as it:
            return it.read()
    except FileNotFoundError:
        return None


class Project:
    """A random project in the current directory."""

    def __init__(self, seed):
        self.chance = pipelines.chance_of(seed)
        self.maker = pipelines.Maker(self.chance, self.chance.randrange(2, 10))
        self.functions = self.maker.functions()
        self.roots = pipelines.some_roots(self.functions, self.chance)
        for path, data in pipelines.first_files(self.chance).items():
            put(path, data)
        self.save()

    def save(self):
        put("pie.pipeline", pipelines.layout(self.functions, self.chance).encode())
        put("pie.roots", "".join(reference.shown(t) + "\n" for t in self.roots).encode())

    def edit(self):
        """One to three changes: a source is written or removed, a function or the roots are made anew, a stray file comes under `out`."""
        for _ in range(self.chance.randrange(1, 4)):
            kind, source = self.chance.randrange(10), self.chance.choice(pipelines.SOURCES)
            if kind < 5:
                put(source, pipelines.contents(self.chance))
            elif kind < 7 and os.path.exists(source):
                os.remove(source)
            elif kind == 7:
                at = self.chance.randrange(len(self.functions))
                self.functions[at] = self.maker.function(self.functions[at].name)
            elif kind == 8:
                self.roots = pipelines.some_roots(self.functions, self.chance)
            elif not os.path.exists("out/stray") and not os.path.isfile("out"):
                put("out/stray", b"stray")
        self.save()
