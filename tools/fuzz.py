#!/usr/bin/env python3
"""Tries the program on random and damaged run files, and compares it with what docs/RUNFILE.md and docs/SWITCH.md say.

    tools/fuzz.py [PROGRAM] [--count N] [--seed S]

It is outside the gate. PROGRAM is crates/gaps/out/gaps where none is given (`./gaps` builds it). Each file must end in the
listing that this script works out by itself, from the description of the format and of the schedule alone.
"""

import argparse
import random
import subprocess
import sys
from fractions import Fraction

BODY = {1: 7, 2: 4, 3: 0, 4: 7, 5: 0}


def number(data):
    return int.from_bytes(data, "big")


class Switch:
    """A switch after its seal, tick by tick, with exact fractions."""

    def __init__(self, ports, longest, parts, weights, store, rule):
        self.ports, self.longest, self.parts, self.weights = ports, longest, parts, weights
        self.store, self.rule = store, rule
        self.clock, self.lines, self.departed = 0, [], 0
        self.flows = {flow: [] for flow, w in weights.items() if w > 0}
        self.last, self.count, self.held, self.peak = {}, {}, {}, {}
        self.crossing, self.sending = [0] * ports, [None] * ports
        self.pointers = [0] * 32

    def full(self, flow):
        if self.store == 1:
            return len(self.flows[flow]) >= 2
        return sum(map(len, self.flows.values())) >= 512

    def arrive(self, i, j, b):
        """The number of the refusal, or None."""
        if i >= self.ports or j >= self.ports:
            return 4
        if not 1 <= b <= self.longest:
            return 8
        if self.weights.get((i, j), 0) == 0:
            return 9
        if self.full((i, j)):
            return 10
        start = max(Fraction(self.clock), self.last.get((i, j), Fraction(0)))
        finish = start + Fraction(b * self.parts, self.weights[i, j])
        serial = self.count.get((i, j), 0)
        self.last[i, j], self.count[i, j] = finish, serial + 1
        self.flows[i, j].append({"bytes": b, "serial": serial, "arrival": self.clock, "start": start, "finish": finish, "crossing": None, "sending": None})
        return None

    def choose(self, code, heads, waiting):
        """Among ready heads, by position: the one that the rule picks of the smallest finish."""
        soonest = min(p["finish"] for p in heads.values())
        tied = [k for k, p in heads.items() if p["finish"] == soonest]
        if self.rule == 1:
            return min(tied)
        if self.rule == 2:
            winner = min(tied, key=lambda k: (k - self.pointers[code]) % 16)
            self.pointers[code] = (winner + 1) % 16
            return winner
        return min(tied, key=lambda k: (-waiting(k), k))

    def crossed(self, p):
        return p["crossing"] is not None and p["crossing"] + p["bytes"] <= self.clock

    def step(self):
        t = self.clock
        for i in range(self.ports):
            if self.crossing[i] > t:
                continue
            waits = {j: [p for p in ps if p["crossing"] is None] for (a, j), ps in self.flows.items() if a == i}
            heads = {j: ps[0] for j, ps in waits.items() if ps and ps[0]["start"] <= t}
            if heads:
                j = self.choose(i, heads, lambda k: sum(p["bytes"] for p in waits[k]))
                heads[j]["crossing"] = t
                self.crossing[i] = t + heads[j]["bytes"]
                self.held[i, j] = self.held.get((i, j), 0) + heads[j]["bytes"]
                self.peak[i, j] = max(self.peak.get((i, j), 0), self.held[i, j])
        for j in range(self.ports):
            if self.sending[j] is not None:
                continue
            waits = {i: [p for p in ps if p["sending"] is None] for (i, c), ps in self.flows.items() if c == j}
            heads = {i: ps[0] for i, ps in waits.items() if ps and self.crossed(ps[0]) and ps[0]["start"] + self.longest <= t}
            if heads:
                i = self.choose(self.ports + j, heads, lambda k: sum(p["bytes"] for p in waits[k] if self.crossed(p)))
                heads[i]["sending"] = t
                self.sending[j] = (i, t + heads[i]["bytes"])
        self.clock = t + 1
        for j in range(self.ports):
            if self.sending[j] is not None and self.sending[j][1] == self.clock:
                i = self.sending[j][0]
                p = self.flows[i, j].pop(0)
                self.sending[j] = None
                self.held[i, j] -= p["bytes"]
                self.departed += p["bytes"]
                whole = p["finish"].numerator // p["finish"].denominator
                numerator = (p["finish"] - whole) * self.weights[i, j]
                self.lines.append(f"D {self.clock} {i} {j} {p['serial']} {p['arrival']} {p['crossing']} {p['sending']} {whole} {numerator}\n")

    def inside(self):
        return any(self.flows.values())


def listing(data, most_ticks):
    """The listing of a file; None where it runs longer than so many ticks."""

    def refusal(layer, code, place):
        return ("".join(switch.lines if switch else []) + f"R {layer} {code} {place}\n").encode()

    switch = None
    if len(data) > 65536:
        return refusal(1, 14, 65536)
    place, expected, weights = 0, (1,), {}
    while True:
        if place >= len(data):
            return refusal(1, 16, len(data))
        kind = data[place]
        if kind not in BODY:
            return refusal(1, 15, place)
        end = place + 1 + BODY[kind]
        if end > len(data):
            return refusal(1, 16, len(data))
        body = data[place + 1:end]
        if kind not in expected:
            return refusal(1, 17, place)
        if kind == 1:
            ports, longest, parts, store, rule = body[0], number(body[1:3]), number(body[3:5]), body[5], body[6]
            if store not in (1, 2) or rule not in (1, 2, 3):
                return refusal(1, 19, place)
            if not 1 <= ports <= 16:
                return refusal(2, 1, place)
            if not 1 <= longest <= 1500:
                return refusal(2, 2, place)
            if not 1 <= parts <= 10000:
                return refusal(2, 3, place)
            expected = (2, 3)
        elif kind == 2:
            i, j, w = body[0], body[1], number(body[2:4])
            if i >= ports or j >= ports:
                return refusal(2, 4, place)
            if w > parts:
                return refusal(2, 5, place)
            changed = dict(weights)
            changed[i, j] = w
            if sum(v for (a, _), v in changed.items() if a == i) > parts:
                return refusal(2, 6, place)
            if sum(v for (_, b), v in changed.items() if b == j) > parts:
                return refusal(2, 7, place)
            weights = changed
        elif kind == 3:
            expected = (4, 5)
            switch = Switch(ports, longest, parts, weights, store, rule)
        elif kind == 4:
            tick, i, j, b = number(body[0:3]), body[3], body[4], number(body[5:7])
            if tick < switch.clock:
                return refusal(1, 18, place)
            if tick > most_ticks:
                return None
            while switch.clock < tick:
                switch.step()
            why = switch.arrive(i, j, b)
            if why == 10:
                switch.lines.append(f"N {tick} {i} {j} {b}\n")
            elif why is not None:
                return refusal(3, why, place)
        else:
            if end < len(data):
                return refusal(1, 20, end)
            while switch.inside():
                if switch.clock > most_ticks:
                    return None
                switch.step()
            peaks = [f"X {i} {j} {switch.peak.get((i, j), 0)}\n" for (i, j), w in sorted(weights.items()) if w > 0]
            return ("".join(switch.lines + peaks) + f"E {switch.clock} {switch.departed}\n").encode()
        place = end


def valid(rng):
    """A run file that is mostly valid."""
    ports, longest, parts = rng.randint(1, 16), rng.choice([4, 20, 1500, rng.randint(1, 1500)]), rng.randint(1, 10000)
    if rng.randrange(3):
        ports, longest, parts = rng.randint(1, 4), rng.randint(1, 12), rng.randint(1, 12)
    data = bytes([1, ports]) + longest.to_bytes(2, "big") + parts.to_bytes(2, "big")
    data += bytes([rng.randint(1, 2), rng.randint(1, 3)])
    flows = []
    for _ in range(rng.randint(0, 30)):
        weight = rng.choice([0, 1, parts // ports, parts, rng.randint(0, parts)])
        i, j = rng.randrange(ports), rng.randrange(ports)
        flows.append((i, j))
        data += bytes([2, i, j]) + weight.to_bytes(2, "big")
    data += bytes([3])
    tick = 0
    for _ in range(rng.choice([0, 1, 5, 40])):
        tick += rng.choice([0, 0, 0, 1, 2, longest])
        i, j = rng.choice(flows) if flows and rng.randrange(20) else (rng.randrange(ports + 1), rng.randrange(ports))
        data += bytes([4]) + tick.to_bytes(3, "big") + bytes([i, j]) + rng.randint(0 if rng.randrange(30) == 0 else 1, longest).to_bytes(2, "big")
    return data + bytes([5])


def damaged(rng, data):
    """A file with some bytes changed, dropped, doubled or cut off."""
    data = bytearray(data)
    for _ in range(rng.randint(1, 3)):
        at = rng.randrange(len(data) + 1)
        how = rng.randrange(5)
        if how == 0 and at < len(data):
            data[at] = rng.choice([0, 1, 2, 3, 4, 5, 6, 16, 17, 255, rng.randrange(256)])
        elif how == 1:
            del data[at:at + rng.randint(1, 8)]
        elif how == 2:
            data[at:at] = bytes([rng.randrange(8)])
        elif how == 3:
            data = data[:at]
        else:
            data += bytes(rng.randrange(6) for _ in range(rng.randint(1, 4)))
    return bytes(data)


def example(rng):
    kind = rng.randrange(10)
    if kind == 0:
        return bytes(rng.randrange(256) for _ in range(rng.randint(0, 40)))
    if kind == 1:
        return bytes(rng.randrange(7) for _ in range(rng.randint(0, 40)))
    if kind < 7:
        return valid(rng)
    return damaged(rng, valid(rng))


def long_files():
    head, share = bytes([1, 16, 0, 9, 39, 16, 1, 1]), bytes([2, 0, 0, 0, 1])
    whole = head + share * 13105 + bytes([3, 5])
    yield whole
    yield whole + bytes(65536 - len(whole))
    yield whole + bytes(65537 - len(whole))
    yield bytes(70000)


def main():
    parser = argparse.ArgumentParser(description=__doc__)
    parser.add_argument("program", nargs="?", default="crates/gaps/out/gaps")
    parser.add_argument("--count", type=int, default=2000)
    parser.add_argument("--seed", type=int, default=1)
    parser.add_argument("--most-ticks", type=int, default=3000, help="leave out files that run longer")
    options = parser.parse_args()
    rng = random.Random(options.seed)
    files = list(long_files()) + [example(rng) for _ in range(options.count)]
    compared = departures = 0
    for data in files:
        wanted = listing(data, options.most_ticks)
        if wanted is None:
            continue
        done = subprocess.run([options.program], input=data, capture_output=True, timeout=60)
        if done.stdout != wanted or done.returncode != 0:
            sys.exit(f"differs on {data[:300].hex()}: got {done.stdout!r}, status {done.returncode}, wanted {wanted!r}")
        compared += 1
        departures += wanted.count(b"D ")
    print(f"{compared} files compared ({len(files) - compared} run too long), {departures} departures: all as the format says")


if __name__ == "__main__":
    main()
