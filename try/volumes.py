"""Plain volumes: what docs/FORMAT.md says of each command's answer, over volumes that are lists of pages, without
clusters, maps or metadata pages. Which head a new volume gets, and how much space is free, is taken from the answer."""
import copy

PAGES_IN_SLOT = 4
MOST_SLOTS, MOST_SLOTS_TOGETHER = 1 << 20, 1 << 24
RESERVED = ("name", "uuid")


# What may refuse a command of each verb, in the order of the replies.
CHECKS = {
    "create": "name large",
    "clone": "volume not_read_only name large",
    "snapshot": "volume read_only name large",
    "delete": "volume busy short",
    "inflate": "volume read_only",
    "decouple": "volume read_only no_parent short",
    "setx": "volume reserved read_only long",
    "put": "volume reserved read_only long",
    "delx": "volume reserved read_only no_value",
    "getx": "volume no_value",
    "sync": "volume read_only",
    "readonly": "volume read_only",
    "resize": "volume read_only short large",
    "rename": "volume read_only name",
    "write": "volume range read_only",
    "read": "volume range",
    "info": "volume",
}


# Those by which every page that was written before lasts, where they are done.
FLUSHING = "flush create put sync resize snapshot clone inflate decouple delete rename readonly".split()


class Wrong(Exception):
    """An answer that plain volumes don't give."""


class Volume:
    """A volume: `pages` has the words of those pages that aren't zeros; `name` and `uuid` are no attributes here."""

    def __init__(self, name, slots, thin):
        self.name, self.slots, self.thin = name, slots, thin
        self.read_only, self.parent = False, None
        self.pages, self.live, self.synced = {}, {}, {}

    def length(self):
        return self.slots * PAGES_IN_SLOT

    def line(self, head):
        parent = "-" if self.parent is None else f"@{self.parent}"
        kind, access = "thin" if self.thin else "thick", "ro" if self.read_only else "rw"
        return f"volume @{head} {self.name} slots {self.slots} parent {parent} {kind} {access} xattrs {self.count()}"

    def count(self):
        return len(self.live) + len(RESERVED)


class Volumes:
    """The volumes of a store by their heads, with what each command does to them."""

    def __init__(self):
        self.by_head = {}
        # By head and page, what each page had before, that was written since the last command that flushes.
        self.before = {}

    def copy(self):
        return copy.deepcopy(self)

    def head_of(self, word):
        """The head of the volume that a word names, or None."""
        if word.startswith("@"):
            head = int(word[1:])
            return head if head in self.by_head else None
        return next((head for head, volume in self.by_head.items() if volume.name == word), None)

    def clones_of(self, head):
        return [clone for clone, volume in self.by_head.items() if volume.parent == head]

    def refusal(self, verb, words):
        """What refuses a command, the first in the order of the replies; None where nothing does."""
        for check in CHECKS.get(verb, "").split():
            said = getattr(self, f"check_{check}")(verb, words)
            if said:
                return said
        return None

    def volume_in(self, words):
        return self.by_head[self.head_of(words[0])]

    def check_volume(self, _verb, words):
        return "no volume" if self.head_of(words[0]) is None else None

    def check_reserved(self, _verb, words):
        return "reserved" if words[1] in RESERVED else None

    def check_range(self, _verb, words):
        return None if int(words[1]) < self.volume_in(words).length() else "out of range"

    def check_read_only(self, _verb, words):
        return "read only" if self.volume_in(words).read_only else None

    def check_not_read_only(self, _verb, words):
        return None if self.volume_in(words).read_only else "not read only"

    def check_name(self, verb, words):
        name = words[0] if verb == "create" else words[1]
        return "name taken" if any(volume.name == name for volume in self.by_head.values()) else None

    def check_busy(self, _verb, words):
        clones = len(self.clones_of(self.head_of(words[0])))
        return f"busy {clones}" if clones >= 2 else None

    def check_no_parent(self, _verb, words):
        return "no parent" if self.volume_in(words).parent is None else None

    def check_short(self, verb, words):
        volume = self.volume_in(words)
        parent = self.by_head.get(volume.parent)
        if verb == "resize":
            is_short = parent and int(words[1]) > volume.slots and parent.slots > volume.slots
        elif verb == "delete":
            clones = self.clones_of(self.head_of(words[0]))
            is_short = parent and clones and volume.slots < min(parent.slots, self.by_head[clones[0]].slots)
        else:
            above = self.by_head.get(parent.parent)
            is_short = above and parent.slots < min(above.slots, volume.slots)
        return "short" if is_short else None

    def check_large(self, verb, words):
        together = sum(volume.slots for volume in self.by_head.values())
        if verb in ("create", "resize"):
            slots = int(words[1])
            together -= 0 if verb == "create" else self.volume_in(words).slots
        else:
            slots = self.volume_in(words).slots
        return "too large" if slots > MOST_SLOTS or together + slots > MOST_SLOTS_TOGETHER else None

    def check_long(self, _verb, words):
        return "too long" if len(words[1]) + len(value_of(words[2])) > 4063 else None

    def check_no_value(self, _verb, words):
        return None if words[1] in self.volume_in(words).live or words[1] in RESERVED else "no value"

    def apply(self, verb, words, reply):
        """Makes the command, whose answer this is, or raises Wrong where plain volumes answer otherwise."""
        wanted = self.refusal(verb, words)
        if wanted is None:
            wanted = self.do(verb, words, reply)
        if wanted != reply:
            raise Wrong(f"{verb} {' '.join(words)[:60]} is answered by {reply!r} in place of {wanted!r}")

    def answer(self, verb, words):
        """Makes the command, and gives its answer; a new volume gets the next head."""
        return self.refusal(verb, words) or self.do(verb, words, f"ok @{max(self.by_head, default=-1) + 1}")

    def do(self, verb, words, reply):
        """Makes a command that nothing refuses, and gives its answer, in which this one tells a new head."""
        said = getattr(self, f"do_{verb}")(words, reply)
        if verb in FLUSHING:
            self.before.clear()
        return said

    def make(self, volume, reply):
        """Takes in a new volume, at the head that the answer says."""
        head = int(reply[4:]) if reply.startswith("ok @") else None
        if head is None or head in self.by_head:
            return "ok @ and a new head"
        self.by_head[head] = volume
        return reply

    def do_create(self, words, reply):
        return self.make(Volume(words[0], int(words[1]), words[2] == "thin"), reply)

    def do_clone(self, words, reply):
        source = self.volume_in(words)
        clone = Volume(words[1], source.slots, True)
        clone.pages, clone.parent = dict(source.pages), self.head_of(words[0])
        return self.make(clone, reply)

    def do_snapshot(self, words, reply):
        volume = self.volume_in(words)
        snapshot = Volume(words[1], volume.slots, volume.thin)
        snapshot.pages, snapshot.parent, snapshot.read_only = dict(volume.pages), volume.parent, True
        said = self.make(snapshot, reply)
        if said == reply:
            volume.thin, volume.parent = True, int(reply[4:])
        return said

    def do_delete(self, words, _reply):
        head = self.head_of(words[0])
        for clone in self.clones_of(head):
            self.by_head[clone].parent = self.by_head[head].parent
        del self.by_head[head]
        return "ok"

    def do_inflate(self, words, _reply):
        volume = self.volume_in(words)
        volume.thin, volume.parent = False, None
        return "ok"

    def do_decouple(self, words, _reply):
        volume = self.volume_in(words)
        volume.parent = self.by_head[volume.parent].parent
        return "ok"

    def do_setx(self, words, _reply):
        self.volume_in(words).live[words[1]] = value_of(words[2])
        return "ok"

    def do_delx(self, words, _reply):
        del self.volume_in(words).live[words[1]]
        return "ok"

    def do_getx(self, words, reply):
        volume = self.volume_in(words)
        if words[1] == "uuid":
            return reply
        value = volume.name.encode() + b"\0" if words[1] == "name" else volume.live[words[1]]
        return f"value {value.hex() or '-'}"

    def do_sync(self, words, _reply):
        volume = self.volume_in(words)
        volume.synced = dict(volume.live)
        return "ok"

    def do_put(self, words, reply):
        self.do_setx(words, reply)
        return self.do_sync(words, reply)

    def do_readonly(self, words, reply):
        self.volume_in(words).read_only = True
        return self.do_sync(words, reply)

    def do_rename(self, words, _reply):
        self.volume_in(words).name = words[1]
        return "ok"

    def do_resize(self, words, _reply):
        volume = self.volume_in(words)
        volume.slots = int(words[1])
        volume.pages = {page: word for page, word in volume.pages.items() if page < volume.length()}
        return "ok"

    def do_write(self, words, _reply):
        pages, page = self.volume_in(words).pages, int(words[1])
        self.before.setdefault((self.head_of(words[0]), page), set()).add(pages.get(page, 0))
        pages[page] = int(words[2])
        return "ok"

    def do_read(self, words, _reply):
        return f"page fill {self.volume_in(words).pages.get(int(words[1]), 0):016x}"

    def do_flush(self, _words, _reply):
        return "ok"

    def do_info(self, words, _reply):
        head = self.head_of(words[0])
        return self.by_head[head].line(head)

    def do_list(self, _words, _reply):
        lines = [volume.line(head) for head, volume in sorted(self.by_head.items())]
        return "\n".join([f"list {len(lines)}", *lines])

    def do_df(self, _words, reply):
        return reply if reply.startswith("df clusters ") else "df clusters F of C pages F of P"

    def stable(self):
        """What a later run finds: attributes that were not brought to the disk are lost."""
        left = self.copy()
        for volume in left.by_head.values():
            volume.live = dict(volume.synced)
        return left

    def shown(self):
        """All that is shown of the volumes, by their names and not by their heads."""
        names = {head: volume.name for head, volume in self.by_head.items()}
        shown = {}
        for volume in self.by_head.values():
            live, pages = sorted(volume.live.items()), sorted(item for item in volume.pages.items() if item[1])
            shown[volume.name] = (volume.slots, volume.thin, volume.read_only, names.get(volume.parent), live, pages)
        return shown

    def fits(self, shown):
        """Whether this may be shown where the last writes may be lost: a page that was written since the last command
        that flushes may be as before."""
        wanted = self.shown()
        if [shown[name][:5] for name in sorted(shown)] != [wanted[name][:5] for name in sorted(wanted)]:
            return False
        return sorted(shown) == sorted(wanted) and all(
            dict(shown[volume.name][5]).get(page, 0) in {volume.pages.get(page, 0), *self.before.get((head, page), ())}
            for head, volume in self.by_head.items()
            for page in range(volume.length())
        )


def value_of(word):
    """The bytes of a VALUE."""
    return word[2:].encode() if word.startswith("t:") else bytes.fromhex(word[2:])


def commands_of(script):
    """The commands of a script, a list for each of the sixteen channels: a verb and its words. A write and a read of
    several pages are as many commands."""
    commands = [[] for _ in range(16)]
    for line in script.splitlines():
        channel, verb, *words = line.split(" ")
        if verb in ("write", "read"):
            volume, page, count, *word = words
            for number in range(int(count)):
                given = [str((int(word[0]) + number) % (1 << 64))] if word else []
                commands[int(channel)].append((verb, [volume, str(int(page) + number), *given]))
        else:
            commands[int(channel)].append((verb, words))
    return commands


def entries_of(log):
    """The entries of a log: the channel, the command's number in it, and the reply, of which that of a list has more
    than one line."""
    entries = []
    for line in log.splitlines():
        if line.startswith("volume "):
            entries[-1][2] += f"\n{line}"
        else:
            channel, number, reply = line.split(" ", 2)
            entries.append([int(channel), int(number), reply])
    return entries
