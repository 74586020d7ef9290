"""Which pages of a file are in memory, for host/test-pages and outside/card."""

import ctypes
import mmap
import os
import time

PAGE = mmap.PAGESIZE


def resident(path):
    """The pages of a file that are in memory, told of a mapping by which nothing is read."""
    with open(path, "rb") as file:
        memory = mmap.mmap(file.fileno(), 0, flags=mmap.MAP_PRIVATE)
    told = (ctypes.c_ubyte * -(-len(memory) // PAGE))()
    start = ctypes.addressof(ctypes.c_char.from_buffer(memory))
    if ctypes.CDLL(None, use_errno=True).mincore(ctypes.c_void_p(start), ctypes.c_size_t(len(memory)), told) != 0:
        raise OSError(ctypes.get_errno(), "mincore")
    return {page for page, there in enumerate(bytes(told)) if there & 1}


def is_dropped(path):
    """Drops a file from memory. Answers whether none of its pages is left."""
    for _ in range(20):
        with open(path, "rb") as file:
            os.fsync(file.fileno())
            os.posix_fadvise(file.fileno(), 0, 0, os.POSIX_FADV_DONTNEED)
        if not resident(path):
            return True
        time.sleep(0.05)
    return False


def settled(path):
    """The pages in memory, when what is read ahead has come too: a page shows only then."""
    time.sleep(0.1)
    return resident(path)
