"""Small random pipelines: each form knows its tokens and, for outside/reference.py, what it does when a task runs it. All values are texts.

A function has one parameter, `t`. Its arguments are taken from few texts (literals, names of entries, its own argument), so that there are few tasks, while what a
task requires depends on what it reads.
"""
import random

WORDS = ["a", "b", "x"]
SOURCES = [f"src/{w}" for w in ["a", "b", "x", "sub/a", "sub/b"]] + ["inc"]
FOLDERS = ["src", "src/sub", "none"]
OUTS = ["out/a", "out/b", "out/deep", "out/deep/a"]


def literal(text):
    escapes = {'"': '\\"', "\\": "\\\\", "\n": "\\n", "\t": "\\t"}
    return '"' + "".join(escapes.get(c, c) for c in text) + '"'


class Text:
    def __init__(self, text):
        self.text = text

    def tokens(self):
        return [literal(self.text)]

    def value(self, run, scope):
        return self.text


class Name:
    def __init__(self, name):
        self.name = name

    def tokens(self):
        return [self.name]

    def value(self, run, scope):
        return scope[self.name]


class Sum:
    def __init__(self, *parts):
        self.parts = parts

    def tokens(self):
        found = ["("]
        for part in self.parts:
            found += [*part.tokens(), "+"]
        return [*found[:-1], ")"]

    def value(self, run, scope):
        return "".join([part.value(run, scope) for part in self.parts])


class Place:
    """A path: a folder and, below it, a text, or nothing."""

    def __init__(self, folder, below=None):
        self.folder, self.below = folder, below

    def tokens(self):
        folder = ["path", "(", literal(self.folder), ")"]
        return ["join", "(", *folder, ",", *self.below.tokens(), ")"] if self.below else folder

    def value(self, run, scope):
        return run.path(f"{self.folder}/{self.below.value(run, scope)}") if self.below else run.path(self.folder)


class Read:
    """What a file holds, or `default` where there is none; without one the fault Null."""

    FORMS = {2: [], 3: ["by", "mark"]}

    def __init__(self, kind, place, default):
        self.kind, self.place, self.default = kind, place, default

    def asked(self):
        word = "digest" if self.kind == 4 else "read"
        return [word, "(", *self.place.tokens(), *self.FORMS.get(self.kind, []), ")"]

    def tokens(self):
        if self.default is None:
            return ["get", "(", *self.asked(), ")"]
        # (a list of one item gives the answer a name inside an expression)
        one = ["if", "is_null", "(", "r", ")", "{", literal(self.default), "}", "else", "{", "get", "(", "r", ")", "}"]
        return ["at", "(", "[", *one, "for", "r", "in", "[", *self.asked(), "]", "]", ",", "0", ")"]

    def value(self, run, scope):
        path = self.place.value(run, scope)
        found = run.digest_at(path) if self.kind == 4 else run.text_at(self.kind, path)
        if found is None:
            return run.fail("Null") if self.default is None else self.default
        return found


class Exists:
    def __init__(self, place, there, absent):
        self.place, self.there, self.absent = place, there, absent

    def tokens(self):
        return ["if", "exists", "(", *self.place.tokens(), ")", "{", *self.there.tokens(), "}", "else", "{", *self.absent.tokens(), "}"]

    def value(self, run, scope):
        return (self.there if run.look(1, self.place.value(run, scope)) is not None else self.absent).value(run, scope)


class Contains:
    def __init__(self, text, word, yes, no):
        self.text, self.word, self.yes, self.no = text, word, yes, no

    def tokens(self):
        asked = ["contains", "(", *self.text.tokens(), ",", literal(self.word), ")"]
        return ["if", *asked, "{", *self.yes.tokens(), "}", "else", "{", *self.no.tokens(), "}"]

    def value(self, run, scope):
        return (self.yes if self.word in self.text.value(run, scope) else self.no).value(run, scope)


class Require:
    FORMS = {6: ("require", []), 7: ("require", ["by", "hash"])}

    def __init__(self, kind, function, arg):
        self.kind, self.function, self.arg = kind, function, arg

    def tokens(self):
        word, behind = self.FORMS[self.kind]
        return [word, self.function, "(", *self.arg.tokens(), ")", *behind]

    def value(self, run, scope):
        return run.require(self.kind, (self.function, (self.arg.value(run, scope),)))


class Each:
    """A function required for the name of each entry of a directory; what they give, joined."""

    def __init__(self, place, function, kind):
        self.place, self.function, self.kind = place, function, kind

    def tokens(self):
        word, behind = Require.FORMS[self.kind]
        item = [word, self.function, "(", "name", "(", "p", ")", ")", *behind]
        return ["join_text", "(", "[", *item, "for", "p", "in", "list", "(", *self.place.tokens(), ")", "]", ",", literal("+"), ")"]

    def value(self, run, scope):
        names = [p.split("/")[-1] for p in run.names(self.place.value(run, scope))]
        return "+".join([run.require(self.kind, (self.function, (n,))) for n in names])


class Count:
    def __init__(self, place):
        self.place = place

    def tokens(self):
        return ["to_text", "(", "len", "(", "list", "(", *self.place.tokens(), ")", ")", ")"]

    def value(self, run, scope):
        return str(len(run.names(self.place.value(run, scope))))


class Fail:
    def __init__(self, text):
        self.text = text

    def tokens(self):
        return ["fail", "text", "(", *self.text.tokens(), ")"]

    def value(self, run, scope):
        return run.said(self.text.value(run, scope))


class Let:
    def __init__(self, name, value):
        self.name, self.what = name, value

    def tokens(self):
        return ["val", self.name, "=", *self.what.tokens(), ";"]

    def do(self, run, scope):
        scope[self.name] = self.what.value(run, scope)


class Write:
    def __init__(self, place, text):
        self.place, self.text = place, text

    def tokens(self):
        return ["write", "(", *self.place.tokens(), ",", *self.text.tokens(), ")", ";"]

    def do(self, run, scope):
        path = self.place.value(run, scope)
        run.write(path, self.text.value(run, scope))


class Run:
    def __init__(self, function, arg):
        self.function, self.arg = function, arg

    def tokens(self):
        return ["run", self.function, "(", *self.arg.tokens(), ")", ";"]

    def do(self, run, scope):
        run.require(8, (self.function, (self.arg.value(run, scope),)))


class Function:
    def __init__(self, name, body, last):
        self.name, self.body, self.last = name, body, last

    def tokens(self):
        inner = [token for part in self.body for token in part.tokens()]
        return ["func", self.name, "(", "t", ":", "text", ")", "->", "text", "{", *inner, *self.last.tokens(), "}"]

    def run(self, run, args):
        scope = {"t": args[0]}
        for part in self.body:
            part.do(run, scope)
        return self.last.value(run, scope)


class Maker:
    """Makes functions by a random source. Those that a function requires stand mostly behind it, so that cycles are rare."""

    def __init__(self, chance, count):
        self.chance, self.names = chance, [f"f{n}" for n in range(count)]

    def one(self, *choices):
        return self.chance.choice(choices)

    def often(self, much):
        return self.chance.random() < much

    def function(self, name):
        self.at, self.scope = self.names.index(name), ["t"]
        self.written = 0
        body = [self.part() for _ in range(self.chance.randrange(6))]
        return Function(name, body, self.text(2))

    def functions(self):
        return [self.function(name) for name in self.names]

    def part(self):
        kind = self.chance.randrange(10)
        if kind == 9 and self.may_call():
            return Run(*self.called())
        if kind > 6:
            return Write(self.out(), self.text(1))
        made = Let(f"v{len(self.scope)}", self.text(2))
        self.scope.append(made.name)
        return made

    def may_call(self):
        """The last function requires others, and so closes a cycle, only now and then."""
        return self.at + 1 < len(self.names) or self.often(0.05)

    def called(self):
        behind = self.names[self.at + 1:]
        return self.chance.choice(behind if behind and self.often(0.985) else self.names), self.argument()

    def argument(self):
        return Text(self.chance.choice(WORDS)) if self.often(0.5) else Name("t")

    def known(self):
        return Name(self.chance.choice(self.scope))

    def source(self):
        return Place("src", Name("t")) if self.often(0.3) else Place(self.chance.choice(SOURCES if self.often(0.97) else ["pie.roots", "out"]))

    def out(self):
        if self.often(0.02):
            return Place("src/a")
        self.written += self.often(0.95)
        own = Sum(Text(self.names[self.at] + "_" * self.written), Name("t"))
        return Place("out", own) if self.often(0.85) else Place(self.chance.choice(OUTS))

    def seen(self):
        """A place to look at: a source, or a file that a function before or behind may write."""
        if self.often(0.6):
            return self.source()
        other = self.chance.choice(self.names[self.at + 1:] or self.names)
        return Place("out", Sum(Text(other + "_"), self.argument())) if self.often(0.8) else Place(self.chance.choice(OUTS))

    def text(self, depth):
        kind = self.chance.randrange(20)
        if depth == 0 or kind < 3:
            return self.known()
        inner = lambda: self.text(depth - 1)
        if kind < 8:
            return Read(self.one(2, 2, 3, 4), self.seen(), None if self.often(0.04) else self.chance.choice(WORDS))
        if kind < 14 and self.may_call():
            return Require(self.one(6, 6, 7), *self.called())
        if kind < 15 and self.at + 1 < len(self.names):
            return Each(Place(self.chance.choice(FOLDERS)), self.chance.choice(self.names[self.at + 1:]), self.one(6, 7))
        if kind < 16:
            return Count(Place(self.chance.choice(FOLDERS)))
        if kind < 17:
            return Exists(self.seen(), inner(), inner())
        if kind < 19:
            no = Fail(self.known()) if self.often(0.05) else inner()
            return Contains(self.known(), self.chance.choice(WORDS), inner(), no)
        return Sum(inner(), inner())


def layout(functions, chance):
    """A text with these functions' tokens, laid out at random."""
    between = [" ", " ", " ", "\n", "\t", " // a comment\n", "  "]
    return "".join(token + chance.choice(between) for f in functions for token in f.tokens())


def first_files(chance):
    """Contents of the sources that are there at first."""
    return {path: contents(chance) for path in SOURCES if chance.random() < 0.7}


def contents(chance):
    return b"\xff" if chance.random() < 0.01 else chance.choice(WORDS + ["", "ab", "a/b"]).encode()


def some_roots(functions, chance):
    names = [f.name for f in functions]
    return [(chance.choice(names[:2] if chance.random() < 0.8 else names), (chance.choice(WORDS),)) for _ in range(chance.randrange(1, 4))]


def chance_of(seed):
    return random.Random(seed)
