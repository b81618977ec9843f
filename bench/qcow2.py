"""The same pages and flushes on a qcow2 image, by qemu-io."""
import dataclasses
import shutil
import subprocess

from running import Failure, output_of

PAGE = 4096


@dataclasses.dataclass(frozen=True)
class Qcow2:
    """An image of so many bytes in clusters of so many, and what is done on it, as qemu-io reads it."""

    size: int
    cluster: int
    commands: str

    def make(self, path):
        path.unlink(missing_ok=True)
        making = ["qemu-img", "create", "-q", "-f", "qcow2", "-o", f"cluster_size={self.cluster}", path, str(self.size)]
        subprocess.run(making, check=True)

    def words(self, path):
        """Written pages stay in the host's cache until a flush asks for more, as those of blobtool do."""
        return ["qemu-io", "-f", "qcow2", "-t", "writeback", path]

    def try_out(self, path, source):
        """Sees that each write is made."""
        self.make(path)
        output = output_of(self.words(path), source)
        wrote, wanted = output.count(b"wrote 4096/4096 bytes"), self.commands.count("write")
        if wrote != wanted:
            raise Failure(f"qemu-io made {wrote} of {wanted} writes")


def is_there():
    return bool(shutil.which("qemu-io") and shutil.which("qemu-img"))


def commands_of(writes, flush_each):
    """Writes of a page each, as pairs of a page and a word, with a flush after each or after all."""
    lines = []
    for page, word in writes:
        lines.append(f"write -P {word % 256} {page * PAGE} {PAGE}")
        if flush_each:
            lines.append("flush")
    if not flush_each:
        lines.append("flush")
    return "".join(f"{line}\n" for line in lines)
