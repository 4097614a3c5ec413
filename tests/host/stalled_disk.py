#!/usr/bin/env python3
"""stalled_disk.py FOLDER CALL: mounts a disk at FOLDER, kept in memory, with one file, `note`. From the first CALL on it answers no more.
CALL is lookup, open, getattr, getxattr, listxattr, statfs, read, create; or none. From a line `stall` of standard input on it answers no
more either, and after `go` it answers all that waits. Signals end a wait, as on NFS; after `deaf` they do not any more, as on a broken
device. Prints `ready`, and a line for each line that it has obeyed; ends, and frees what waits, at the end of its standard input, or at
`end`. Only root may run it. Exit status 77: there is no /dev/fuse, or nothing can be mounted."""
import ctypes
import os
import stat
import struct
import sys
import threading

(LOOKUP, FORGET, GETATTR, SETATTR, MKDIR, UNLINK, RMDIR, OPEN, READ, WRITE, STATFS, RELEASE, FSYNC, GETXATTR, LISTXATTR, FLUSH, INIT, OPENDIR,
 READDIR, RELEASEDIR, FSYNCDIR, CREATE, INTERRUPT, BATCH_FORGET, RENAME2) = (
     1, 2, 3, 4, 9, 10, 11, 14, 15, 16, 17, 18, 20, 22, 23, 25, 26, 27, 28, 29, 30, 35, 36, 42, 45)
CALLS = {"lookup": LOOKUP, "open": OPEN, "getattr": GETATTR, "getxattr": GETXATTR, "listxattr": LISTXATTR, "statfs": STATFS, "read": READ,
         "create": CREATE, "none": 0}
NO_CALL, NO_DATA, NO_FILE, IS_THERE, INTERRUPTED = 38, 61, 2, 17, 4
EXCHANGE, NO_REPLACE = 2, 1
ONLY_MODE, ONLY_SIZE = 1, 8
MS_NOSUID, MS_NODEV, MNT_DETACH = 2, 4, 2
libc = ctypes.CDLL(None, use_errno=True)


class Node:
    """A file, or with `names` a folder."""
    every = {}

    def __init__(self, mode, text=b""):
        self.number, self.mode, self.text = len(Node.every) + 1, mode, bytearray(text)
        self.names = {} if stat.S_ISDIR(mode) else None
        self.time = self.number
        Node.every[self.number] = self

    def attributes(self):
        """As the kernel reads them (`struct fuse_attr`): number, size, blocks, times, mode, links, and the rest."""
        size = len(self.text) if self.names is None else 4096
        return struct.pack("<QQQQQQIIIIIIIIII", self.number, size, 8, self.time, self.time, self.time, 0, 0, 0, self.mode,
                           1 if self.names is None else 2, 0, 0, 0, 4096, 0)

    def entry(self):
        return struct.pack("<QQQQII", self.number, 0, 0, 0, 0, 0) + self.attributes()

    def add(self, name, node):
        self.names[name] = node
        return node


def names_in(body):
    return body.rstrip(b"\0").split(b"\0")


def rename(folder, body):
    """Renames, exchanges, or renames only to a free name."""
    target, flags = struct.unpack_from("<QI", body)
    old, new = names_in(body[16:])
    there = Node.every[target]
    if old not in folder.names or (flags & EXCHANGE and new not in there.names):
        return NO_FILE, b""
    if flags & NO_REPLACE and new in there.names:
        return IS_THERE, b""
    moved, other = folder.names.pop(old), there.names.get(new)
    if flags & EXCHANGE:
        folder.names[old] = other
    there.names[new] = moved
    return 0, b""


def list_names(node, body):
    """The entries of a folder from an offset on."""
    start, size = struct.unpack_from("<QI", body, 8)
    listed = b""
    for at, (name, entry) in enumerate(list(node.names.items())[start:], start + 1):
        one = struct.pack("<QQII", entry.number, at, len(name), entry.mode >> 12) + name
        one += bytes(-len(one) % 8)
        if len(listed) + len(one) > size:
            break
        listed += one
    return 0, listed


def change(node, body):
    """Sets a mode and a size; owners and times stay."""
    wanted, size, mode = struct.unpack_from("<I", body)[0], struct.unpack_from("<Q", body, 16)[0], struct.unpack_from("<I", body, 68)[0]
    if wanted & ONLY_MODE:
        node.mode = stat.S_IFMT(node.mode) | stat.S_IMODE(mode)
    if wanted & ONLY_SIZE:
        node.text[size:] = bytes(max(0, size - len(node.text)))
    return 0, struct.pack("<QII", 0, 0, 0) + node.attributes()


def write(node, body):
    start, size = struct.unpack_from("<QI", body, 8)
    node.text.extend(bytes(max(0, start - len(node.text))))
    node.text[start:start + size] = body[40:40 + size]
    node.time += 1
    return 0, struct.pack("<II", size, 0)


def in_folder(call, node, body):
    """The answer to a call about a name in a folder."""
    if call == LOOKUP:
        found = node.names.get(names_in(body)[0])
        return (0, found.entry()) if found else (NO_FILE, b"")
    if call == MKDIR:
        return 0, node.add(names_in(body[8:])[0], Node(stat.S_IFDIR | struct.unpack_from("<I", body)[0] & 0o7777)).entry()
    if call == CREATE:
        made = node.add(names_in(body[16:])[0], Node(stat.S_IFREG | struct.unpack_from("<II", body)[1] & 0o7777))
        return 0, made.entry() + struct.pack("<QII", 1, 0, 0)
    if call == RENAME2:
        return rename(node, body)
    if node.names.pop(names_in(body)[0], None) is None:  # UNLINK, RMDIR
        return NO_FILE, b""
    return 0, b""


def answer_to(call, node, body):
    """The answer's error, and its bytes."""
    if call == INIT:
        return 0, struct.pack("<IIIIHHIIHHI7I", 7, 31, 65536, 0, 12, 9, 65536, 1, 0, 0, 0, *[0] * 7)
    if call in (LOOKUP, MKDIR, CREATE, RENAME2, UNLINK, RMDIR):
        return in_folder(call, node, body)
    if call == GETATTR:
        return 0, struct.pack("<QII", 0, 0, 0) + node.attributes()
    if call == SETATTR:
        return change(node, body)
    if call in (OPEN, OPENDIR):
        return 0, struct.pack("<QII", 1, 0, 0)
    if call == READ:
        start, size = struct.unpack_from("<QI", body, 8)
        return 0, bytes(node.text[start:start + size])
    if call == WRITE:
        return write(node, body)
    if call == READDIR:
        return list_names(node, body)
    if call == STATFS:
        return 0, struct.pack("<QQQQQIIII6I", 1000, 900, 900, 10, 10, 4096, 255, 4096, 0, *[0] * 6)
    if call in (GETXATTR, LISTXATTR):
        return NO_DATA, b""
    return (0, b"") if call in (RELEASE, RELEASEDIR, FSYNC, FSYNCDIR, FLUSH) else (NO_CALL, b"")


class Disk:
    """Answers the kernel, but for what waits while it is stalled."""

    def __init__(self, device, stalled):
        self.device, self.stalled = device, stalled
        self.is_stalled, self.is_deaf, self.waiting, self.lock = False, False, {}, threading.Lock()

    def say(self, number, error, body=b""):
        try:
            os.write(self.device, struct.pack("<IiQ", 16 + len(body), -error, number) + body)
        except OSError:
            pass

    def obey(self, request):
        _, call, number, node, _, _, _, _ = struct.unpack_from("<IIQQIIII", request)
        self.is_stalled = self.is_stalled or call == self.stalled
        if call in (FORGET, BATCH_FORGET):
            return
        if call == INTERRUPT:
            waiting = struct.unpack_from("<Q", request, 40)[0]
            if not self.is_deaf and self.waiting.pop(waiting, None):
                self.say(waiting, INTERRUPTED)
        elif self.is_stalled:
            self.waiting[number] = request
        else:
            self.say(number, *answer_to(call, Node.every.get(node), request[40:]))

    def serve(self):
        while True:
            try:
                request = os.read(self.device, 1 << 20)
            except OSError:
                return
            with self.lock:
                self.obey(request)

    def take(self, word):
        """Obeys a line of standard input."""
        with self.lock:
            if word in ("stall", "deaf"):
                self.is_stalled, self.is_deaf = True, word == "deaf"
            else:
                self.is_stalled, self.stalled = False, 0
                for number in sorted(self.waiting):
                    self.obey(self.waiting.pop(number))


def main():
    folder, stalled = sys.argv[1], CALLS[sys.argv[2]]
    try:
        device = os.open("/dev/fuse", os.O_RDWR)
    except OSError:
        return 77
    how = f"fd={device},rootmode=40000,user_id=0,group_id=0,allow_other".encode()
    if libc.mount(b"stalled", folder.encode(), b"fuse", MS_NOSUID | MS_NODEV, how) != 0:
        return 77
    Node(stat.S_IFDIR | 0o755).add(b"note", Node(stat.S_IFREG | 0o644, b"old\n"))
    disk = Disk(device, stalled)
    threading.Thread(target=disk.serve, daemon=True).start()
    print("ready", flush=True)
    for line in map(str.strip, sys.stdin):
        if line == "end":
            break
        disk.take(line)
        print(line, flush=True)
    libc.umount2(folder.encode(), MNT_DETACH)
    return 0


if __name__ == "__main__":
    sys.exit(main())
