"""What the examples output: worked out here from what each program is to compute, and never by running xcsim.

A model gives (tick, port, value) for each output, in order, taken(value) for each word that is taken from a channel, and Read(tick, port,
value) for each input from a port. A port of another core than 0 has the core in front, as 3:8A. What is read are the pins of the example's
stimulus, which is told here too."""

import binascii
import math
import re
from typing import NamedTuple

WIDTHS = re.compile(r"([0-9]+)[A-P]")


class Read(NamedTuple):
    tick: int
    port: str
    value: int


class Taken(NamedTuple):
    word: int
    core: int


def taken(word, core=0):
    return Taken(word, core)


def edges_of(outputs):
    """The edges of a wire that is driven so, and is 0 at first."""
    driven = [(tick, level) for tick, _, level in outputs]
    return [(tick, level) for (tick, level), (_, before) in zip(driven, [(0, 0), *driven]) if level != before]


def level_at(edges, tick):
    """What a wire is at a tick, by its edges: each with its tick and what the wire is from there on."""
    return [0, *(level for at, level in edges if at <= tick)][-1]


def edge_behind(edges, tick, level):
    """The first tick behind another one at which a wire becomes this level."""
    return min(at for at, now in edges if at > tick and now == level)


# pressed, let go, a spike, pressed, let go and pressed; what is at rest behind each is the last edge of its line
BUTTON = [
    *[(5000, 1), (5060, 0), (5110, 1), (5300, 0), (5340, 1)],
    *[(20000, 0), (20080, 1), (20150, 0)],
    *[(30000, 1), (30040, 0)],
    *[(40000, 1), (40030, 0), (40200, 1)],
    *[(55000, 0), (55020, 1), (55100, 0)],
    *[(70000, 1), (70050, 0), (70090, 1)],
]


def button():
    made, level, tick, presses = [], 0, 0, 0
    while presses < 3:
        edge = edge_behind(BUTTON, tick, 1 - level)
        tick = edge + 1000
        now = level_at(BUTTON, tick)
        made += [Read(edge, "1B", 1 - level), Read(tick, "1B", now)]
        if now != level:
            level, presses = now, presses + now
            made += [(tick + 100, "1A", level), *([(tick + 200, "8A", presses)] if level else [])]
    return made


def bits():
    return [(1000 * i, "8A", bin(3 ** (i - 1)).count("1")) for i in range(1, 13)]


def crc():
    check = binascii.crc_hqx(b"123456789", 0xFFFF)
    shifted = [(11000 + 100 * i, "1A", int(bit)) for i, bit in enumerate(f"{check:016b}")]
    return [(10000, "16A", check), *shifted]


def dimmer():
    made = []
    for i, width in enumerate([200, 400, 600, 800, 1000, 800, 600, 400, 200]):
        made += [(2000 * (i + 1), "1A", 1), (2000 * (i + 1) + width, "1A", 0)]
    return made


def divide():
    made = []
    for tick, n, d in [(3000, 1000000, 7), (6000, 4294967295, 65537), (9000, 4000000000, 3000000001)]:
        made += [(tick, "32A", n // d), (tick + 100, "32A", n % d)]
    return made


def filters():
    made, sample, samples, differences = [], 40, [0], []
    for i in range(1, 13):
        samples.append(sample)
        differences.append(samples[-1] - samples[-2])
        total = sum(differences[-4:])
        shown = min(max(total, 0), 255)
        made += [(1000 * i, "1A", i), *map(taken, [sample, differences[-1], total, shown]), (1000 * i + 500, "8A", shown)]
        sample = (sample * 29 + 47) % 301
    return made


def gather():
    sent = sorted((pace * i, core) for core, pace in enumerate([1000, 1700, 2300], 1) for i in (1, 2, 3))
    made = []
    for number, (time, core) in enumerate(sent, 1):
        shown = [(time + 50, f"{core}:1A", 1), (time + 100, "8A", number), (time + 150, f"{core}:1A", 0)]
        made += [taken(time), *shown]
    return made


def gcd():
    made = []
    for tick, a, b in [(2000, 1071, 462), (4000, 4000000000, 3000000000), (6000, 2971215073, 1836311903)]:
        made += [(tick, "32A", a), (tick + 100, "32A", b), (tick + 200, "32A", math.gcd(a, b))]
    return made


def greatest():
    numbers = [17, 5, 42, 23]
    first = [taken(max(numbers[:core]), core % 4) for core in range(1, 5)]
    second = [taken(max(numbers), core % 4) for core in range(1, 5)]
    return [*first, *second, *((2000, f"{core}:8A", max(numbers)) for core in range(4))]


def lanes():
    text = b"Hello!"
    wires = [(900, "1A", 0), (1900, "1A", 1)]
    for bit in range(8):
        tick = 1000 + 100 * bit
        wires += [(tick, "1B", 0), (tick + 50, "1B", 1)]
        wires += [(tick, f"1{lane}", byte >> (7 - bit) & 1) for lane, byte in zip("CDEFGH", text)]
    ones = sum(bin(byte).count("1") for byte in text)
    return [*sorted(wires), (2000, "8A", ones)]


def lights():
    starts = [1000, 6000, 6500, 10500, 11000, 16000, 16500, 20500, 21000]
    return [(tick, "4A", lamps) for tick, lamps in zip(starts, [1, 3, 4, 2, 1, 3, 4, 2, 2])]


METER = [(1000, 1), (1750, 0), (64800, 1), (70000, 0), (80000, 1), (80040, 0)]


def meter():
    made, before = [], None
    for (rise, _), (fall, _) in zip(METER[::2], METER[1::2]):
        made += [Read(rise, "1B", 1), Read(fall, "1B", 0), (fall + 500, "16A", fall - rise)]
        made += [(fall + 600, "32A", fall - before)] if before else []
        before = fall
    return made


def outside():
    return [(1000 + 100 * i, "8A", i * i) for i in range(4)]


PACKETS = [(2000, b"Hi"), (30000, b"XC")]


def frames_of(start, text):
    """What drives a wire that sends these bytes without a pause: a start bit, eight bits, the lowest first, and a stop bit."""
    bits = "".join("0" + f"{byte:08b}"[::-1] + "1" for byte in text)
    return [(start + 868 * i, "1A", int(bit)) for i, bit in enumerate(bits)]


def packets():
    made = [Read(1000, "1B", 1)]
    for start, text in PACKETS:
        for i, (tick, _, bit) in enumerate(frames_of(start, text)):
            made.append(Read(tick if i % 10 == 0 else tick + 434, "1B", bit))  # the edge of a start bit, else the middle
        made += [(made[-1].tick + 5000 + 200 * i, "8A", byte) for i, byte in enumerate(text, 1)]
    return made


def pipeline():
    made, squares = [], [0, 0, 0]
    for i in range(1, 11):
        sample = i * 7 % 16 - 8
        squares.append(sample**2)
        mean = sum(squares[-4:]) // 4
        made += [(1000 * i, "1A", i), taken(sample, 1), taken(squares[-1], 2), taken(mean, 3), (1000 * i + 500, "3:8A", mean)]
    return made


def producer():
    numbers = [12]
    while numbers[-1] != 1:
        numbers.append(3 * numbers[-1] + 1 if numbers[-1] % 2 else numbers[-1] // 2)
    return [record for i, number in enumerate(numbers, 1) for record in (taken(number), (1000 * i, "8A", number))]


def receiver():
    made = [Read(1000, "1B", 1)]
    for number, byte in enumerate(b"Hi!"):
        start = 2000 + 8680 * number
        middles = [start + 868 * bit + 434 for bit in range(1, 10)]
        bits = f"1{byte:08b}"[::-1]  # the lowest first, and the stop bit behind the highest
        made += [Read(start, "1B", 0), *(Read(tick, "1B", int(bit)) for tick, bit in zip(middles, bits))]
        made.append((middles[-1] + 200, "8A", byte))
    return made


def ring():
    made, token = [], 1000
    for turn in range(18):
        length = 200 + 100 * (turn % 6)
        made += [taken(token)] if turn else []
        made += [(token, f"1{'ABCDEF'[turn % 6]}", 1), (token + length, f"1{'ABCDEF'[turn % 6]}", 0)]
        token += length + 100
    return [*made, taken(token)]


def search():
    numbers = [(7 * i + 5) % 32 for i in range(20)]
    return [(2000 + 1000 * i, "8A", numbers.index(value) if value in numbers else 20) for i, value in enumerate([5, 1, 10, 31])]


def serial():
    return [(1000, "1A", 1), *frames_of(2000, b"Hi!")]


def server():
    asked = sorted((first + i * pause, port) for first, pause, port in [(1000, 3000, "8A"), (2000, 12000, "8B")] for i in range(3))
    made, asleep = [], 0  # since when the server sleeps, or from when on where nobody asks before
    for number, (tick, port) in enumerate(asked, 1):
        slept = asleep < tick
        made += [(asleep + 200, "1A", 0)] if slept and asleep else []
        made += [taken(tick), taken(number), *([(tick + 200, "1A", 1)] if slept else []), (tick + 500, port, number)]
        asleep = tick + 5000
    return [*made, (asleep + 200, "1A", 0)]


def sieve():
    left = list(range(1, 64, 2))
    at = 1
    while at < len(left):
        step = left[at]
        left = [number for i, number in enumerate(left, 1) if i % step]
        at += 1
    return [(40000 + 500 * i, "8A", number) for i, number in enumerate(left)]


def sort():
    numbers, x = [], 17
    for _ in range(10):
        x = (x * 29 + 47) % 101
        numbers.append(x - 50)
    before = [(1000 + 100 * i, "32A", number) for i, number in enumerate(numbers)]
    return before + [(8000 + 100 * i, "32A", number) for i, number in enumerate(sorted(numbers))]


# pressed, once more while the light is lit and once while it is dim; pressed and held when it is out again
STAIRCASE = [(2000, 1), (2400, 0), (6000, 1), (6500, 0), (15000, 1), (15400, 0), (30000, 1), (34000, 0)]


def staircase():
    made, ends = [], []
    for tick, level in STAIRCASE:
        made += [(end + 100, "4A", lamps) for end, lamps in ends if end < tick]
        ends = [it for it in ends if it[0] > tick]
        made.append(Read(tick, "1B", level))
        if level:
            made.append((tick + 100, "4A", 3))
            ends = [(tick + 8000, 1), (tick + 10000, 0)]
    return made + [(end + 100, "4A", lamps) for end, lamps in ends]


def strobe():
    """One thread executes an instruction a tick, so the stamps are counts of instructions."""
    made, text, total, turn = [], int.from_bytes(b"tick", "little"), 0, 9
    while text:
        rise = turn + 11
        total ^= text & 15
        steps = 6  # a nibble goes into the sum
        for bit in range(4):
            steps += 15 + (7 if total & 1 else 4) - (bit == 3)  # the last turn doesn't branch back
            total = total >> 1 ^ (0x8C if total & 1 else 0)
        fall = rise + steps + 4
        made += [(turn + 7, "4A", text), (rise, "1A", 1), (fall, "1A", 0)]
        turn, text = fall + 6, text >> 4
    return [*made, (turn + 5, "8A", total)]


MODELS = {
    "bits": bits,
    "button": button,
    "crc": crc,
    "dimmer": dimmer,
    "divide": divide,
    "filters": filters,
    "gather": gather,
    "gcd": gcd,
    "greatest": greatest,
    "lanes": lanes,
    "lights": lights,
    "meter": meter,
    "outside": outside,
    "packets": packets,
    "pipeline": pipeline,
    "producer": producer,
    "receiver": receiver,
    "ring": ring,
    "search": search,
    "serial": serial,
    "server": server,
    "sieve": sieve,
    "sort": sort,
    "staircase": staircase,
    "strobe": strobe,
}

# the edges of the wire at port 1B, of the examples that read it
STIMULI = {
    "button": BUTTON,
    "meter": METER,
    "packets": edges_of([(1000, "1A", 1), *(bit for start, text in PACKETS for bit in frames_of(start, text))]),
    "receiver": edges_of(serial()),
    "staircase": STAIRCASE,
}

# what stands behind the outputs, where the program doesn't just finish
ENDS = {"outside": "err 0 12:5 index\nend trapped\n"}


def trace_of(name):
    """The trace that the model of a program gives, with its end line."""
    lines = []
    for record in MODELS[name]():
        if isinstance(record, Taken):
            lines.append(f"com {record.core} {record.word % 2 ** 32}\n")
            continue
        tick, place, value = record
        core, port = place.split(":") if ":" in place else ("0", place)
        kind, width = "in" if isinstance(record, Read) else "out", int(WIDTHS.fullmatch(port).group(1))
        lines.append(f"{kind} {core} {port} @{tick % 65536} {value % 2 ** width}\n")
    return "".join(lines) + ENDS.get(name, "end finished\n")


def stimulus_of(name):
    """The lines of an example's stimulus, without its comments."""
    return [f"{tick} 0 1B {level}" for tick, level in STIMULI[name]]
