"""A file system in memory on which closing a file fails, as it does on network drives that have no room left.

    python3 lossy.py FOLDER

mounts it on the folder, and ends with the mount once it is told to (SIGTERM). A file whose name ends with `.ENOSPC`,
`.EDQUOT`, `.EIO` or another name of an error takes all writes, and when it is closed answers that error and is empty; any
other file keeps what was written. Needs `fusepy`."""

import errno
import stat
import sys

from fusepy import FUSE, FuseOSError, Operations


class Lossy(Operations):
    """Files in one folder, by their paths."""

    def __init__(self):
        self.files = {}

    def getattr(self, path, fh=None):
        if path == "/":
            return {"st_mode": stat.S_IFDIR | 0o755, "st_nlink": 2}
        if path not in self.files:
            raise FuseOSError(errno.ENOENT)
        return {"st_mode": stat.S_IFREG | 0o644, "st_nlink": 1, "st_size": len(self.files[path])}

    def create(self, path, mode, fi=None):
        self.files[path] = b""
        return 0

    def truncate(self, path, length, fh=None):
        self.files[path] = self.files[path][:length]

    def read(self, path, size, offset, fh):
        return self.files[path][offset : offset + size]

    def write(self, path, data, offset, fh):
        held = self.files[path]
        self.files[path] = held[:offset] + data + held[offset + len(data) :]
        return len(data)

    def flush(self, path, fh):
        error = getattr(errno, path.rpartition(".")[2], None)
        if error is not None:
            self.files[path] = b""
            raise FuseOSError(error)


if __name__ == "__main__":
    FUSE(Lossy(), sys.argv[1], foreground=True, nothreads=True)
