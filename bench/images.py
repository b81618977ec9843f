"""Images: sparse files, and copies of them."""
import errno
import os


def make_sparse(path, size):
    """A file of so many bytes that takes no room yet."""
    with open(path, "wb") as file:
        file.truncate(size)


def pieces(file, size):
    """The parts of a file that aren't holes, as pairs of a first byte and the byte behind the last."""
    at = 0
    while at < size:
        try:
            first = os.lseek(file.fileno(), at, os.SEEK_DATA)
        except OSError as error:
            if error.errno == errno.ENXIO:
                return
            raise
        at = os.lseek(file.fileno(), first, os.SEEK_HOLE)
        yield first, at


def copy_sparse(source, target):
    """Copies a file, its holes as holes. The copy shares nothing with it."""
    size = os.stat(source).st_size
    target.unlink(missing_ok=True)
    with open(source, "rb") as old, open(target, "wb") as new:
        new.truncate(size)
        for first, behind in pieces(old, size):
            os.lseek(new.fileno(), first, os.SEEK_SET)
            while first < behind:
                first += os.sendfile(new.fileno(), old.fileno(), first, behind - first)


def file_system(path):
    """The kind of the file system that a path is on."""
    path = os.path.realpath(path)
    found = ("", "unknown")
    with open("/proc/mounts", encoding="utf-8") as mounts:
        for line in mounts:
            _device, folder, kind, *_ = line.split()
            if os.path.commonpath([path, folder]) == folder and len(folder) >= len(found[0]):
                found = (folder, kind)
    return found[1]
