"""Case files, as in docs/FORMATS.md: written and read."""


def write(target, kind, data):
    target.write(b"%s %d\n%s\n" % (kind.encode(), len(data), data))


def read(source):
    """The kind and the bytes of each case, in their order."""
    while head := source.readline():
        kind, length = head.decode().split()
        data = source.read(int(length))
        if len(data) != int(length) or source.read(1) != b"\n":
            raise ValueError("the case file is cut")
        yield kind, data
