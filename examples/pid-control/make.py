#!/usr/bin/env python3
"""Makes blocks.csv and loops.csv from pid.dump, the disassembly of pid.c."""
import re

# How often the header of a loop is visited in one stay, by its address. Each of these loops tests at its end, so this is the count of rounds.
LIMITS = {
    0x5D: 4,    # probes
    0x29: 8,    # samples of a probe
    0xAA: 15,   # segments of the curve: from 15 down, left at 0 at the latest
    0x1C2: 7,   # bytes of the record that move
    0x1FF: 11,  # bytes under the CRC
    0x206: 8,   # bits of a byte
}


def instructions(text):
    """(address, mnemonic, target of a jump or None), in order of address."""
    found = []
    for address, mnemonic, operands in re.findall(r"^ *([0-9a-f]+):\t(\S+) *(.*)$", text, re.M):
        assert not mnemonic.startswith(("call", "loop", "notrack")) and not operands.startswith("*")
        target = int(operands.split()[0], 16) if mnemonic.startswith("j") else None
        found.append((int(address, 16), mnemonic, target))
    return found


def basic_blocks(code):
    """The first address of each block, its count of instructions, and its successors as block numbers."""
    leaders = {code[0][0]} | {t for _, _, t in code if t is not None}
    leaders |= {b[0] for a, b in zip(code, code[1:]) if a[2] is not None or a[1] == "ret"}
    starts = sorted(leaders)
    number = {a: i for i, a in enumerate(starts)}
    cost = [0] * len(starts)
    next_ = [[] for _ in starts]
    block = 0
    for k, (address, mnemonic, target) in enumerate(code):
        block = number.get(address, block)
        cost[block] += 1
        last = k + 1 == len(code) or code[k + 1][0] in number
        if last and target is not None:
            next_[block].append(number[target])
        if last and mnemonic not in ("jmp", "ret"):
            next_[block].append(number[code[k + 1][0]])
    return starts, cost, next_


def dominators(next_):
    every = set(range(len(next_)))
    dom = [{0}] + [every] * (len(next_) - 1)
    before = [[u for u in every if v in next_[u]] for v in every]
    while True:
        new = [{0}] + [{v} | set.intersection(*(dom[u] for u in before[v])) for v in every - {0}]
        if new == dom:
            return dom
        dom = new


def natural_loops(next_):
    """The blocks of the natural loop of each header; loop 0 is the whole routine, and an outer loop stands before an inner one."""
    dom = dominators(next_)
    body = {0: set(range(len(next_)))}
    for u in range(len(next_)):
        for h in next_[u]:
            if h in dom[u]:
                inside = body.setdefault(h, {h})
                work = [u]
                while work:
                    b = work.pop()
                    if b not in inside:
                        inside.add(b)
                        work += [a for a in range(len(next_)) if b in next_[a]]
    headers = sorted(body, key=lambda h: (-len(body[h]), h))
    return headers, [body[h] for h in headers]


def longest(n, start, edges):
    """The longest way from each block to `start`, against the edges (u, v, weight); None where there is none."""
    best = [None] * n
    best[start] = 0
    for _ in range(n + 1):
        changed = False
        for u, v, weight in edges:
            if best[v] is not None and (best[u] is None or best[u] < best[v] + weight):
                best[u] = best[v] + weight
                changed = True
        if not changed:
            return best
    raise SystemExit("a cycle that no loop declares")


def main():
    with open("pid.dump") as f:
        starts, cost, next_ = basic_blocks(instructions(f.read()))
    n = len(starts)
    headers, bodies = natural_loops(next_)
    m = len(headers)
    limit = [1] + [LIMITS[starts[h]] for h in headers[1:]]
    inner = [max(l for l in range(m) if b in bodies[l]) for b in range(n)]
    parent = [0] + [max(l for l in range(k) if bodies[k] < bodies[l]) for k in range(1, m)]
    edges = [(u, v) for u in range(n) for v in next_[u]]
    assert next_[n - 1] == [] and all(next_[:-1]) and all(v != 0 for _, v in edges)

    multiplier = [0] * m

    def weight(u, v):
        """What an edge's inequality asks of the difference of the figures."""
        l = inner[v]
        if headers[l] != v:
            return cost[v]
        if u in bodies[l]:
            return cost[v] - multiplier[l]
        return cost[v] + multiplier[l] * (limit[l] - 1)

    # A multiplier is the longest round of its loop, inner loops first: the longest way from the header to a block that returns to it.
    for l in range(m - 1, 0, -1):
        h, body = headers[l], bodies[l]
        within = [(u, v, weight(u, v)) for u, v in edges if u in body and v in body and v != h]
        rounds = [longest(n, u, within)[h] for u in body if h in next_[u]]
        multiplier[l] = max(r for r in rounds if r is not None) + cost[h]

    # A figure is the longest way to the exit.
    figure = longest(n, n - 1, [(u, v, weight(u, v)) for u, v in edges])

    def write(name, rows):
        with open(name, "w", newline="") as f:
            f.writelines(",".join(str(x) for x in row) + "\r\n" for row in rows)

    write("blocks.csv", [[b, cost[b], inner[b], *(next_[b] + ["", ""])[:2], figure[b]] for b in range(n)])
    write("loops.csv", [[l, parent[l], headers[l], limit[l], multiplier[l]] for l in range(m)])
    with open("expected", "w") as f:
        f.write("accepted %d\n" % (cost[0] + figure[0] - figure[n - 1]))


main()
