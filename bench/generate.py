#!/usr/bin/env python3
"""Writes an input of `ncroute eval`: a code file in hexadecimal, then route lines `NET METRIC SIZE`. Or a filter's text, for
`ncroute check`.

usage: generate.py INPUT [ROUTES [SEED [SIZE]]]

INPUT is one of

    accept_alone       ACCEPT
    add_two_and_clip   a filter that adds 2 to the metric
    set_of_1024        a set of 1,024 patterns; it matches about half of the routes
    case_of_64         a `case` of 64 parts, each with a label of three ranges; about half of the metrics of the largest domain are in none
    straight_filter    about 1,000 instructions of arithmetic, local variables, comparisons and branches forward

or a code file in hexadecimal, or one of these texts, which are written alone (ROUTES and SIZE mean nothing there):

    text_of_sets         61 KB: 33 sets of 100 patterns each (with another seed a few more or fewer)
    text_of_expressions  60 KB: assignments of arithmetic, conditions, and the accept of a metric
    text_of_case         2 KB: the filter whose code is that of case_of_64
    text_of_labels       60 KB: a `case` of 64 parts, whose labels have some 60 ranges each

ROUTES is the number of route lines (100,000 for `straight_filter`, 200,000 otherwise), SEED the seed of the generator (1), SIZE the size of the
domain on each line (2 to 250; without it sizes differ). The same words give the same bytes on every machine: the numbers come from a small
generator in this file. One route line in 500 is one that `eval` refuses, and before every thousandth there is a comment line, which is no route
line.
"""
import sys

ROUTES = 200_000
SEED = 1
COMMENT_EVERY = 1_000
REFUSED_ONE_IN = 500
PATTERNS = 1_024
PATTERNS_OF_A_TEXT = 100
TEXT_BYTES = 60_000
PARTS = 64
RANGES_OF_A_LABEL = 58
LEAST_INSTRUCTIONS = 990


class Numbers:
    """The SplitMix64 generator: a counter, and a mix of its bits."""

    def __init__(self, seed):
        self.state = seed

    def below(self, bound):
        """A number from 0 to bound - 1."""
        self.state = (self.state + 0x9E3779B97F4A7C15) % 2**64
        mixed = self.state
        mixed = ((mixed ^ (mixed >> 30)) * 0xBF58476D1CE4E5B9) % 2**64
        mixed = ((mixed ^ (mixed >> 27)) * 0x94D049BB133111EB) % 2**64
        return (mixed ^ (mixed >> 31)) % bound

    def within(self, least, most):
        """A number from least to most."""
        return least + self.below(most - least + 1)

    def one_of(self, choices):
        return choices[self.below(len(choices))]


# Code files. An instruction is its bytes, code a list of instructions.


def plain(opcode):
    return bytes([opcode])


def with_byte(opcode, operand):
    return bytes([opcode, operand])


def number(value):
    return b"\x01" + value.to_bytes(4, "big")


def address_of(value):
    return b"\x03" + value.to_bytes(4, "big")


def prefix(value, length):
    return b"\x04" + cut(value, length).to_bytes(4, "big") + bytes([length])


def jump(opcode, distance):
    return bytes([opcode]) + distance.to_bytes(2, "big")


def cut(word, length):
    """An address with the bits past the length cleared."""
    return word >> 32 - length << 32 - length


TRUE, FALSE = b"\x02\x01", b"\x02\x00"
NET, METRIC, RECEIVED, SETMETRIC = map(plain, (0x12, 0x13, 0x14, 0x15))
ADD, SUB, MUL, DIV, MAX = map(plain, (0x20, 0x21, 0x22, 0x23, 0x24))
EQ, LT, LE, NOT = map(plain, (0x30, 0x31, 0x32, 0x33))
ADDR, LEN, WITHIN, ACCEPT, REJECT = map(plain, (0x40, 0x41, 0x50, 0x70, 0x71))
LOAD, STORE, MASK, MEMBER, INSET, JUMP, JUMPIFNOT = 0x10, 0x11, 0x42, 0x51, 0x52, 0x60, 0x61


def file_of(local_variables, sets, code, int_sets=()):
    """The code file in hexadecimal. A set is a list of patterns (address, length, low, high), a set of ints one of ranges (low, high)."""
    written = b"NCF2" + bytes([local_variables, len(sets)])
    for patterns in sets:
        written += len(patterns).to_bytes(2, "big")
        written += b"".join(word.to_bytes(4, "big") + bytes(lengths) for word, *lengths in patterns)
    written += bytes([len(int_sets)])
    for ranges in int_sets:
        written += len(ranges).to_bytes(2, "big")
        written += b"".join(low.to_bytes(4, "big") + high.to_bytes(4, "big") for low, high in ranges)
    return (written + len(code).to_bytes(2, "big") + b"".join(code)).hex()


def pattern(numbers):
    """A pattern of length 8 to 28: itself alone, or with longer ones, or with shorter ones, or with some longer ones."""
    length = numbers.within(8, 28)
    bounds = ((length, length), (length, 32), (0, length), (length, numbers.within(length, 32)))
    return cut(numbers.below(2**32), length), length, *numbers.one_of(bounds)


def set_of_1024(patterns):
    """`if net ~ the set then accept; reject`"""
    return file_of(0, [patterns], [NET, with_byte(MEMBER, 0), jump(JUMPIFNOT, 1), ACCEPT, REJECT])


def label_of(part):
    """The three ranges of a label of `case_of_64`."""
    return [(part, part), (PARTS + part, PARTS + part), (1000 + 2 * part, 1001 + 2 * part)]


def case_of_64():
    """`case rip_metric { .. }`, as `check` compiles it: of 64 parts, half accept and half reject, and so does what comes after the `case`."""
    code = []
    for part in range(PARTS):
        verdict = ACCEPT if part % 2 else REJECT
        code += [METRIC, with_byte(INSET, part), jump(JUMPIFNOT, 2), verdict, jump(JUMP, 5 * (PARTS - 1 - part))]
    return file_of(0, [], code + [REJECT], [label_of(part) for part in range(PARTS)])


CODES = {
    "case_of_64": case_of_64(),
    "accept_alone": file_of(0, [], [ACCEPT]),
    "add_two_and_clip": file_of(0, [], [METRIC, number(2), ADD, RECEIVED, MAX, SETMETRIC, ACCEPT, REJECT]),
}


# The local variables of the straight filter: eight ints, two bools, an address and a prefix, each always of that kind.
INTS, BOOLS, ADDRESS, PREFIX = range(8), (8, 9), 10, 11
LOCALS = 12


def load(local):
    return with_byte(LOAD, local)


def store(local):
    return with_byte(STORE, local)


def int_term(numbers):
    return numbers.one_of(
        (
            [load(numbers.one_of(INTS))],
            [load(numbers.one_of(INTS))],
            [number(numbers.below(2 ** numbers.within(1, 32)))],
            [METRIC],
            [RECEIVED],
            [NET, LEN],
        )
    )


def int_sum(numbers):
    """Two terms and a sign. A divisor is a number from 1 up, so that no run has a fault."""
    if numbers.below(5) == 0:
        return int_term(numbers) + [number(numbers.within(1, 64)), DIV]
    return int_term(numbers) + int_term(numbers) + [numbers.one_of((ADD, SUB, MUL, MAX))]


def condition(numbers):
    net = numbers.below(2**32), numbers.within(0, 4)
    return numbers.one_of(
        (
            int_term(numbers) + int_sum(numbers) + [numbers.one_of((LT, LE, EQ))],
            int_term(numbers) + int_term(numbers) + [numbers.one_of((LT, LE))],
            [load(numbers.one_of(BOOLS)), NOT],
            [NET, ADDR, with_byte(MASK, numbers.within(1, 8)), address_of(net[0]), numbers.one_of((LT, LE))],
            [load(ADDRESS), prefix(*net), WITHIN],
            [NET, load(PREFIX), WITHIN],
        )
    )


def assignment(numbers):
    if numbers.below(8) == 0:
        return condition(numbers) + [store(numbers.one_of(BOOLS))]
    return int_sum(numbers) + [store(numbers.one_of(INTS))]


def branch(numbers):
    """`if condition then assignment; else assignment;`, or without the `else`"""
    test, first, second = condition(numbers), assignment(numbers), assignment(numbers)
    if numbers.below(2) == 0:
        return test + [jump(JUMPIFNOT, len(first))] + first
    return test + [jump(JUMPIFNOT, len(first) + 1)] + first + [jump(JUMP, len(second))] + second


def straight_filter(numbers):
    """Straight code: local variables are set, then assignments and branches; the metric takes a part of all ints."""
    code = [NET, ADDR, store(ADDRESS), prefix(numbers.below(2**32), 1), store(PREFIX)]
    for local in INTS:
        code += [number(numbers.below(2**32)), store(local)]
    for local in BOOLS:
        code += [numbers.one_of((TRUE, FALSE)), store(local)]
    ending = [load(INTS[0])]
    for local in INTS[1:]:
        ending += [load(local), ADD]
    # the highest six bits, as a metric
    ending += [number(2**26), DIV, RECEIVED, MAX, SETMETRIC, ACCEPT]
    while len(code) + len(ending) < LEAST_INSTRUCTIONS:
        code += numbers.one_of((assignment, assignment, branch))(numbers)
    return file_of(LOCALS, [], code + ending)


# Lines.


def written_address(word):
    return f"{word >> 24}.{word >> 16 & 255}.{word >> 8 & 255}.{word & 255}"


def any_net(numbers):
    return f"{written_address(numbers.below(2**32))}/{numbers.below(33)}"


def net_near(patterns):
    """Nets of which about half match the patterns: two in five are made to, and of the others some do by chance."""

    def net(numbers):
        word = numbers.below(2**32)
        if numbers.below(5) >= 2:
            return f"{written_address(word)}/{numbers.within(8, 32)}"
        near, length, low, high = numbers.one_of(patterns)
        return f"{written_address(near | word & 2 ** (32 - length) - 1)}/{numbers.within(low, high)}"

    return net


def size_within(numbers, size):
    """The size that is given, or any from 2 to 250."""
    return size or 2 + numbers.below(249)


def route(numbers, net, size):
    """A route line that is answered: a metric of 0 to the size."""
    size = size_within(numbers, size)
    return f"{net(numbers)} {numbers.below(size + 1)} {size}"


def refused(numbers, size):
    """A line that is refused: a length of 33, a metric over the size, a word too few, a metric that is no number."""
    size = size_within(numbers, size)
    net = any_net(numbers)
    return (
        f"{written_address(numbers.below(2**32))}/33 0 {size}",
        f"{net} {size + 1} {size}",
        f"{net} {size}",
        f"{net} -1 {size}",
    )[numbers.below(4)]


def lines(numbers, code, net, routes, size):
    yield code
    for index in range(routes):
        if index % COMMENT_EVERY == 0:
            yield f"# route {index} and those after it"
        is_refused = numbers.below(REFUSED_ONE_IN) == 0
        yield refused(numbers, size) if is_refused else route(numbers, net, size)


# Texts of filters.


def text_of(declared, commands, ending):
    """A filter of so many commands, one a line, that its text has just over TEXT_BYTES."""
    text = f"filter generated\n{declared}{{\n"
    while len(text) < TEXT_BYTES:
        text += f"  {next(commands)}\n"
    return f"{text}  {ending}\n}}\n"


def written_pattern(numbers):
    """A prefix of length 8 to 28, as itself alone, with longer ones, with shorter ones, or with some longer ones."""
    length = numbers.within(8, 28)
    low = numbers.within(length, 32)
    lengths = numbers.one_of(("", "+", "-", f"{{{low},{numbers.within(low, 32)}}}"))
    return f"{written_address(cut(numbers.below(2**32), length))}/{length}{lengths}"


def tests_of_sets(numbers):
    while True:
        patterns = ", ".join(written_pattern(numbers) for _ in range(PATTERNS_OF_A_TEXT))
        yield f"if net ~ [ {patterns} ] then {numbers.one_of(('accept', 'reject'))};"


def written_int(numbers):
    return numbers.one_of(("a", "b", "c", "rip_metric", "net.len", str(numbers.below(100))))


def written_sum(numbers):
    first, second, third = written_int(numbers), written_int(numbers), written_int(numbers)
    return f"{first} {numbers.one_of('+-*')} ({second} {numbers.one_of('+-*')} {third})"


def assignments(numbers):
    while True:
        test = f"if {written_sum(numbers)} {numbers.one_of(('<', '<=', '=', '>'))} {written_int(numbers)} then "
        yield f"{numbers.one_of(('', '', test))}{numbers.one_of('abc')} = {written_sum(numbers)};"


def written_range(bounds):
    low, high = bounds
    return str(low) if low == high else f"{low}..{high}"


def text_of_case(labels):
    """A filter that is a `case` of the metric. Of its parts half accept and half reject."""
    text = "filter generated\n{\n  case rip_metric {\n"
    for part, ranges in enumerate(labels):
        text += f"    {', '.join(map(written_range, ranges))}: {'accept' if part % 2 else 'reject'};\n"
    return f"{text}  }}\n}}\n"


def labels_of_ranges(numbers):
    """The labels of a `case`: ranges one after another, each in a label of its own."""
    labels, next_low = [[] for _ in range(PARTS)], 0
    for at in range(PARTS * RANGES_OF_A_LABEL):
        low = next_low + numbers.below(100_000)
        high = low + numbers.one_of((0, numbers.below(100_000)))
        labels[at % PARTS].append((low, high))
        next_low = high + 1
    return labels


def text(name, numbers):
    """The text of a name, or None."""
    if name == "text_of_sets":
        return text_of("", tests_of_sets(numbers), "reject;")
    if name == "text_of_expressions":
        return text_of("int a;\nint b;\nint c;\n", assignments(numbers), "accept;")
    if name == "text_of_case":
        return text_of_case([label_of(part) for part in range(PARTS)])
    if name == "text_of_labels":
        return text_of_case(labels_of_ranges(numbers))
    return None


def parts(name, numbers):
    """The code file of an input, its nets, and how many routes it has where that is left out."""
    if name == "set_of_1024":
        patterns = [pattern(numbers) for _ in range(PATTERNS)]
        return set_of_1024(patterns), net_near(patterns), ROUTES
    if name == "straight_filter":
        return straight_filter(numbers), any_net, ROUTES // 2
    return CODES.get(name, name), any_net, ROUTES


def main(words):
    if not 1 <= len(words) <= 4:
        sys.exit(__doc__)
    numbers = Numbers(int(words[2]) if len(words) > 2 else SEED)
    written = text(words[0], numbers)
    if written is not None:
        sys.stdout.write(written)
        return
    code, net, routes = parts(words[0], numbers)
    routes = int(words[1]) if len(words) > 1 else routes
    size = int(words[3]) if len(words) > 3 else None
    sys.stdout.writelines(f"{line}\n" for line in lines(numbers, code, net, routes, size))


if __name__ == "__main__":
    main(sys.argv[1:])
