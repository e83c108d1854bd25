#!/usr/bin/env python3
"""reader.py FILE            prints the orders of a table, one line each: key, total, displayed, in version 2 also price, by rising key.
reader.py FILE path KEY   prints the numbers of the blocks on the way down to a key, held or not.
Bytes that are no image are refused: a reason on standard error, exit status 4. Written from docs/format.md alone."""
import sys

P = 2147483647
WIDTH = {1: 12, 2: 16}  # the bytes of a node, by version


class NoImage(Exception):
    pass


def need(holds, why):
    if not holds:
        raise NoImage(why)


def number(data, at, width):
    return int.from_bytes(data[at:at + width], "big")


class Table:
    """Bytes whose header is right."""

    def __init__(self, data):
        need(len(data) >= 53, "fewer than 53 bytes")
        need(data[0] in WIDTH, "version")
        self.version, self.width = data[0], WIDTH[data[0]]
        self.gamma, self.room, most, self.count, self.held = data[5], data[6], number(data, 7, 2), number(data, 9, 2), number(data, 11, 2)
        self.seed = [number(data, 13 + 4 * i, 4) for i in range(10)]
        need(2 <= self.gamma <= 64 and 2 <= self.room <= 32 and most >= 1, "sizes")
        self.beta, power = 2, 1
        while power < most:
            self.beta, power = self.beta + 1, power * self.gamma
        need(self.count >= self.beta, "too few blocks")
        need(max(self.seed) < P, "seed")
        size = 8 + self.width * self.room
        need(len(data) == number(data, 1, 4) == 53 + self.count * size, "length")
        need(self.held <= most, "more orders than N")
        self.blocks = [data[53 + i * size:53 + (i + 1) * size] for i in range(self.count)]
        self.found = 0

    def hashed(self, start, x):
        return sum(c * pow(x, i, P) for i, c in enumerate(self.seed[start:start + 5])) % P

    def level_of(self, key):
        level, rest = 1, self.hashed(0, key)
        while level < self.beta and rest % self.gamma == 0:
            level, rest = level + 1, rest // self.gamma
        return level

    def nodes(self, block):
        """The nodes in use, as (key, total, displayed), in version 2 with a price."""
        starts = range(8, 8 + self.width * block[1], self.width)
        return [tuple(number(block, at + i, 4) for i in range(0, self.width, 4)) for at in starts]

    def rank(self, label):
        """Labels compare as this does: by level, in version 2 the higher one first, then first key, then chunk number."""
        level, first, chunk = label
        return (level if self.version == 1 else -level, first, chunk)

    def find(self, label):
        """The number of the block that has a label."""
        home = (self.hashed(5, label[1]) + 65536 * label[0] + label[2]) % P % self.count
        for i in range(self.count):
            place = (home + i) % self.count
            block = self.blocks[place]
            here = (block[0], number(block, 4, 4), number(block, 2, 2))
            if not any(block) or self.rank(here) > self.rank(label):
                return None
            if here == label:
                return place
        return None

    def partition(self, level, first):
        """All nodes of one partition, which must be as it should."""
        nodes, place = [], self.find((level, first, 0))
        need(place is not None, f"no chunk ({level}, {first}, 0) where it should be")
        while place is not None:
            block = self.blocks[place]
            self.found += 1
            need(1 <= block[1] <= self.room and not any(block[8 + self.width * block[1]:]), "count, or bytes behind it")
            nodes += self.nodes(block)
            place = self.find((level, first, len(nodes) // self.room)) if block[1] == self.room else None
        need(nodes[0][0] == first, "a partition that does not start with its first key")
        for (before, *_), (key, *_) in zip(nodes, nodes[1:]):
            need(before < key < P and self.level_of(key) == level, "a key that does not belong there")
        for key, total, displayed, *price in nodes:
            order = level == 1 and key > 0
            need(displayed <= total and (total > 0) == order, "quantities")
            need(all((one > 0) == order for one in price), "price")
        return nodes

    def walk(self, level, first, end):
        nodes = self.partition(level, first)
        need(nodes[-1][0] < end, "a partition that runs into the next")
        for node, after in zip(nodes, [key for key, *_ in nodes[1:]] + [end]):
            if level > 1:
                yield from self.walk(level - 1, node[0], after)
            elif node[0] > 0:
                yield node


def read(data):
    """The orders, as nodes are given."""
    table = Table(data)
    orders = list(table.walk(table.beta, 0, P))
    need(len(orders) == table.held, "number of orders")
    need(table.found == sum(any(block) for block in table.blocks), "a block that belongs to no list")
    return orders


def path(data, sought):
    """The blocks on the way down to a key. The way relies on the table, so all of it is read before."""
    read(data)
    table, way, first = Table(data), [], 0
    for level in range(table.beta, 0, -1):
        chunk, head = 0, first
        place = table.find((level, head, 0))
        while place is not None and table.nodes(table.blocks[place])[0][0] <= sought:
            way.append(place)
            first = max(key for key, *_ in table.nodes(table.blocks[place]) if key <= sought)
            chunk += 1
            place = table.find((level, head, chunk))
    return way


def main(words):
    if not (len(words) == 1 or len(words) == 3 and words[1] == "path" and words[2].isdecimal() and 1 <= int(words[2]) < P):
        sys.exit(__doc__)
    with open(words[0], "rb") as file:
        data = file.read()
    try:
        lines = read(data) if len(words) == 1 else [path(data, int(words[2]))]
    except NoImage as why:
        print("no image:", why, file=sys.stderr)
        sys.exit(4)
    for line in lines:
        print(*line)


if __name__ == "__main__":
    main(sys.argv[1:])
