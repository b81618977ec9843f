"""Random scripts over up to sixteen channels."""

# Each verb, and how often it is drawn. Where each channel has volumes of its own, nothing is asked of all.
VERBS = {
    "write": 30, "read": 16, "flush": 4, "put": 5, "setx": 4, "getx": 4, "delx": 2, "sync": 2, "create": 3,
    "snapshot": 6, "clone": 6, "delete": 5, "inflate": 2, "decouple": 3, "resize": 3, "rename": 2, "readonly": 1,
    "info": 3,
}
OF_ALL = {"list": 1, "df": 2}


def value(draw):
    """A value of an attribute: mostly short, sometimes longer than half a metadata page, sometimes empty."""
    kind = draw.randrange(10)
    if kind == 0:
        return "t:"
    if kind == 1:
        return "h:" + draw.randbytes(draw.randrange(1, 9)).hex()
    return "t:" + chr(draw.randrange(97, 123)) * (draw.randrange(1800, 2400) if kind == 2 else draw.randrange(1, 12))


class Family:
    """Names of volumes, those that are there if each command is done at once, and which of these are read-only."""

    def __init__(self, draw, names):
        self.draw, self.names = draw, names
        self.there, self.fixed = [], []

    def some(self, known):
        """Mostly one of these, and sometimes any name."""
        return self.draw.choice(known if known and self.draw.randrange(8) else self.names)

    def new(self):
        return self.some([name for name in self.names if name not in self.there])

    def note(self, verb, words):
        """Notes what a command makes, and what it removes."""
        if verb in ("create", "clone", "snapshot"):
            self.there.append(str(words[0] if verb == "create" else words[1]))
        if verb in ("snapshot", "readonly"):
            self.fixed.append(words[-1])
        if verb == "delete":
            self.there = [name for name in self.there if name != words[0]]
            self.fixed = [name for name in self.fixed if name != words[0]]

    def words(self, verb):
        """The words of a command."""
        draw, volume, key = self.draw, self.some(self.there), self.draw.choice("klm")
        if verb == "create":
            return [self.new(), draw.randrange(1, 5), draw.choice(("thin", "thin", "thick"))]
        if verb == "clone":
            return [self.some(self.fixed), self.new()]
        if verb in ("snapshot", "rename"):
            return [volume, self.new()]
        if verb == "write":
            return [volume, draw.randrange(14), draw.choice((1, 1, 1, 2, 3)), draw.randrange(1, 1 << 32)]
        if verb == "read":
            return [volume, draw.randrange(14), draw.choice((1, 1, 4))]
        if verb in ("setx", "put"):
            return [volume, key, value(draw)]
        if verb in ("getx", "delx"):
            return [volume, draw.choice((key, "name"))]
        if verb == "resize":
            return [volume, draw.randrange(1, 6)]
        return [] if verb in ("flush", "list", "df") else [volume]

    def line(self, channel, verb):
        words = self.words(verb)
        self.note(verb, words)
        return " ".join(map(str, [channel, verb, *words]))

    def drawn(self, channel, verbs):
        return self.line(channel, self.draw.choices(list(verbs), list(verbs.values()))[0])


def of_shared(draw):
    """A script whose channels use the same volumes."""
    channels = draw.sample(range(16), draw.randrange(1, 17))
    family = Family(draw, "abcdefgh")
    lines = [family.line(draw.choice(channels), "create") for _ in range(4)]
    for _ in range(draw.randrange(20, 160)):
        lines.append(family.drawn(draw.choice(channels), {**VERBS, **OF_ALL}))
    return "".join(f"{line}\n" for line in lines)


def of_own(draw):
    """A script each of whose channels has volumes of its own, with its number behind their letter, so that its answers
    don't depend on the others."""
    lines = []
    for channel in draw.sample(range(16), draw.randrange(2, 17)):
        family = Family(draw, [f"{letter}{channel}" for letter in "abcd"])
        lines.append([family.line(channel, "create"), family.line(channel, "create")])
        lines[-1] += [family.drawn(channel, VERBS) for _ in range(draw.randrange(10, 60))]
    mixed = []
    while any(lines):
        mixed.append(draw.choice([own for own in lines if own]).pop(0))
    return "".join(f"{line}\n" for line in mixed)
