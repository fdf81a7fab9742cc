"""What cores are busy with: listings of four cores with eight threads each."""

from __future__ import annotations

THREADS, CORES = range(8), range(4)

ARITHMETIC = (
    "LDC r1, 1664525", "LDC r2, 1013904223", "LDC r8, 13",
    "MUL r0, r0, r1", "ADD r0, r0, r2", "SHR r3, r0, r8", "XOR r4, r4, r3", "SUB r5, r4, r0", "LSU r6, r5, r4", "OR r7, r7, r6", "BRBU 3",
)  # fmt: skip
MEMORY = (
    "LDC r1, 63",
    "LDWDP r0, 1", "ADDI r0, r0, 1", "STWDP r0, 1", "AND r3, r0, r1", "LDW r4, r5, r3", "ADD r4, r4, r0", "STW r4, r5, r3", "BRBU 1",
)  # fmt: skip
# What a thread works between a word that it sends and one that it takes, so that it never waits: of a core's instructions 1 in 23 goes over a
# link.
WORK = (
    "MUL r2, r2, r3", "ADD r2, r2, r4", "SHR r5, r2, r6", "XOR r7, r7, r5", "ADDI r8, r8, 1", "STWDP r7, 1", "LDWDP r9, 1", "SUB r10, r9, r2",
    "AND r10, r10, r7", "OR r10, r10, r8",
) * 2  # fmt: skip
LINKS = {(0, 1): 3, (2, 3): 3, (0, 2): 3, (1, 3): 3, (0, 3): 2, (1, 2): 2}  # how many channels join two cores

Channel = tuple  # a core, its end, the other core, its end


def end_name(core: int, end: int) -> int:
    return core * 2**24 + end * 2**8 + 2


def ring(core: int) -> list[str]:
    """Thread t sends to the next thread by end 2t, and takes from the one before by end 2t + 1."""
    code = []
    for t in THREADS:
        code += [f"LDC r6, {end_name(core, 2 * t)}", f"LDC r7, {end_name(core, 2 * t + 1)}"]
        code += ["OUT r6, r0", "IN r1, r7", "ADDI r0, r1, 1", f"BRBU {6 * t + 2}"]
    return code


def ring_channels(core: int) -> list[Channel]:
    return [(core, 2 * t, core, 2 * ((t + 1) % 8) + 1) for t in THREADS]


def core_text(core: int, ends: int, roots: list[int], code: list[str]) -> str:
    """A core of a listing."""
    head = [f".core {core}", ".words 64", ".timers 0", f".ends {ends}", *(f".root {root}" for root in roots)]
    return "\n".join(head + [f"{i}: {text} @1:1" for i, text in enumerate(code)]) + "\n"


def channel_text(channel: Channel) -> str:
    return f".chan {' '.join(map(str, channel))}\n"


def listings() -> dict[str, str]:
    """The works of bench/core, by their names: each core has the same code, but for the names of its ends."""
    alike = {name: [core_text(c, 0, [0] * 8, list(code)) for c in CORES] for name, code in (("arithmetic", ARITHMETIC), ("memory", MEMORY))}
    rings = [core_text(c, 16, [6 * t for t in THREADS], ring(c)) for c in CORES]
    rings += [channel_text(it) for c in CORES for it in ring_channels(c)]
    return {name: "code\n" + "".join(parts) for name, parts in {**alike, "ring": rings}.items()}


def busy_listing() -> str:
    """Four cores of eight busy threads, each of which has a channel of its own to a thread of another core: the listing of bench/windows."""
    used, channels = [0] * 4, []
    for (a, b), count in LINKS.items():
        for _ in range(count):
            channels.append((a, used[a], b, used[b]))
            used[a] += 1
            used[b] += 1
    cores = []
    for core in CORES:
        code = [it for t in THREADS for it in (f"LDC r0, {end_name(core, t)}", "BRFU 16")]
        code += ["LDC r3, 1664525", "LDC r4, 1013904223", "LDC r6, 13", "OUT r0, r7", *WORK, "IN r1, r0", "BRBU 19"]
        cores.append(core_text(core, 8, [2 * t for t in THREADS], code))
    return "".join(cores) + "".join(map(channel_text, channels))
