"""Prefixes of IPv4: an address as a number, and the length."""
ALL = 2**32 - 1


def number_of(address):
    """The number that an address of four groups is."""
    return int.from_bytes(bytes(map(int, address.split("."))), "big")


def dotted(number):
    return ".".join(map(str, number.to_bytes(4, "big")))


def masked(number, length):
    """An address with the bits behind a length cleared."""
    return number & ALL << (32 - length) & ALL


def parsed(prefix):
    address, length = prefix.split("/")
    return number_of(address), int(length)


def written(number, length):
    """A prefix, with the bits behind its length cleared."""
    return f"{dotted(masked(number, length))}/{length}"
