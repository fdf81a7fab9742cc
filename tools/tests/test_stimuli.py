"""The stimuli of waveforms and of runs. What is expected was worked out from what the waveforms were made of (data/waves/README.md)."""

import io
import os
import shutil
import subprocess
import tempfile
import unittest

from stimuli import replay, waveform
from stimuli.pins import Pins
from stimuli.vcd import Dump
from stimuli.waveform import duration
from stimuli.wires import read_table
from traces.lines import Refused
from traces.stimulus import read_stimulus
from traces.times import timed
from traces.vcd import Dump as trace_dump
from traces.vcd import write_changes

from .samples import PROGRAMS, data, listing_of, output_of, output_of_example, written
from .test_commands import called

WAVES = data("waves")
HEAD = "$timescale 1 ns $end $scope module t $end {} $upscope $end $enddefinitions $end\n"


def wave(name):
    return os.path.join(WAVES, name)


def dump(changes, *variables):
    """A waveform with these variables, each as "KIND WIDTH CODE NAME", in nanoseconds."""
    return HEAD.format(" ".join(f"$var {it} $end" for it in variables or ["wire 1 ! a"])) + changes


class Stimuli(unittest.TestCase):
    def made(self, tool, *words, text="", notes=None):
        """The lines of a stimulus but for comments, which can be read as one."""
        answer = called(tool, *words, text=text)
        self.assertEqual(answer.returncode, 0, answer.stderr)
        if notes is not None:
            self.assertEqual(answer.stderr.splitlines(), [f"{tool}: {it}" for it in notes])
        read_stimulus(io.BytesIO(answer.stdout.encode()), "made")
        return [line for line in answer.stdout.splitlines() if not line.startswith("#")]

    def refused(self, expected, tool, *words, text=""):
        answer = called(tool, *words, text=text)
        self.assertEqual((answer.returncode, answer.stdout), (1, ""), expected)
        self.assertEqual(answer.stderr, expected + "\n")


class Waveforms(Stimuli):
    def check(self, expected, *words, text="", notes=None):
        self.assertEqual(self.made("stim-from-vcd", *words, text=text, notes=notes), expected)

    def check_dump(self, expected, changes, *words, variables=(), notes=None):
        self.check(expected, "-", *(words or ["a=0:1A"]), text=dump(changes, *variables), notes=notes)

    def check_refused(self, expected, text, *words):
        self.refused(expected, "stim-from-vcd", "-", *(words or ["a=0:1A"]), text=text)

    # samples 100 ns, so ten ticks, apart; of a: 0 0 1 1 0 0 1, of b: 0 0 0 1 1 0 1
    SIGROK = ["20 0 1A 1", "30 3 1B 1", "40 0 1A 0", "50 3 1B 0", "60 0 1A 1", "60 3 1B 1"]

    def test_sigrok(self):
        self.check(self.SIGROK, wave("sigrok.vcd"), "a=0:1A", "libsigrok.b=3:1B", notes=[])
        self.check(["30 0 8A 4", "50 0 8A 0", "60 0 8A 4"], wave("sigrok.vcd"), "b=0:8A[2]", notes=["not mapped: libsigrok.a"])
        # the two wires together: b is the high one, so 0 0 1 3 2 0 3
        both = ["20 0 4A 1", "30 0 4A 3", "40 0 4A 2", "50 0 4A 0", "60 0 4A 3"]
        self.check(both, wave("sigrok.vcd"), "a=0:4A[0]", "b=0:4A[1]")
        self.check(both, wave("sigrok.vcd"), "b,a=0:4A[1:0]")

    @unittest.skipUnless(shutil.which("sigrok-cli"), "sigrok-cli is missing")
    def test_sigrok_itself(self):
        words = ["-I", "csv:samplerate=10000000:header=true:column_formats=2l", "-i", wave("samples.csv"), "-O", "vcd"]
        text = subprocess.run(["sigrok-cli", *words], capture_output=True, text=True, check=True).stdout
        self.check(self.SIGROK, "-", "a=0:1A", "b=3:1B", text=text)

    def test_verilator(self):
        # rising edges at 5 ns, which is seen at tick 1, and then every tick: 250 to 255 and 0 to 3
        counts = [(tick, (249 + tick) % 256) for tick in range(1, 11)]
        self.check([f"{tick} 0 8A {count}" for tick, count in counts if tick != 7 or count == 0], wave("verilator.vcd"), "TOP.count=0:8A")
        self.check([f"{tick} 0 1A {count % 2}" for tick, count in counts[1:]], wave("verilator.vcd"), "odd=0:1A")
        # the four high bits of the inverted count are 15 at 0, 0 from 250 on, and 15 again from 0 on
        self.check(["0 1 4A 15", "1 1 4A 0", "7 1 4A 15"], wave("verilator.vcd"), "part[11:8]=1:4A")
        # an odd count is stored a tick later in memory[1]: 251, 253, 255, 1
        stored = ["3 0 8A 251", "5 0 8A 253", "7 0 8A 255", "9 0 8A 1"]
        self.check(stored, wave("verilator.vcd"), "memory[1]=0:8A")
        self.check(stored, wave("verilator.vcd"), "inner.memory[1][7:0]=0:8A")

    ICARUS = ["1 0 1A 1", "1 0 8A 15", "3 0 1A 0", "4 0 8A 169", "8 0 1A 1", "8 0 8A 129"]  # 169: 1x10z001 over 15

    def check_icarus(self, name, text=""):
        notes = [
            "not mapped: bench.tock, bench.turned[0:3], bench.shared[3:0], bench.drives, bench.level, bench.below.line_seen",
            "bench.below.line has bits that are neither 0 nor 1 in 2 of its values: the pins stay as they are there",
            "bench.bus has bits that are neither 0 nor 1 in 3 of its values: the pins stay as they are there",
            "0:1A is without 1 of its values, each of which lasts for less than a tick",
        ]
        self.check(self.ICARUS, name, "bench.line=0:1A", "bus=0:8A", text=text, notes=notes)

    def test_icarus(self):
        self.check_icarus(wave("icarus.vcd"))
        # numbered upwards, the first bit is the highest: 11 of 1111, then 10 of z001 with the z as it was, then 00 of 0001
        self.check(["1 0 4B 3", "4 0 4B 2", "8 0 4B 0"], wave("icarus.vcd"), "turned[0:1]=0:4B[1:0]")
        self.check(["0 0 1B 1"], wave("icarus.vcd"), "shared[0]=0:1B", "--unknown", "1")  # 1 wherever it is known
        # shared is driven from tick 2 to 9, but for its highest bit from tick 4 on and for the time without a dump
        self.check(["2 0 4A 15", "4 0 4A 1", "6 0 4A 0", "8 0 4A 1", "9 0 4A 0"], wave("icarus.vcd"), "shared=0:4A", "--unknown", "0")

    @unittest.skipUnless(shutil.which("iverilog"), "iverilog is missing")
    def test_icarus_itself(self):
        with tempfile.TemporaryDirectory() as room:
            subprocess.run(["iverilog", "-o", f"{room}/bench", wave("bench.v")], capture_output=True, check=True)
            subprocess.run([f"{room}/bench"], cwd=room, capture_output=True, check=True)
            self.check_icarus(f"{room}/icarus.vcd")

    def test_names_of_signals(self):
        names = called("stim-from-vcd", wave("icarus.vcd"), "--list").stdout.split()
        self.assertEqual(names[1:4] + names[-1:], ["bench.turned[0:3]", "bench.shared[3:0]", "bench.bus[7:0]", "bench.below.line_seen"])

    def test_times(self):
        # at 1, 10 and 11 ns: seen at the ticks 1, 1 and 2
        self.check_dump(["1 0 1A 1", "2 0 1A 0"], "#0 0! #1 1! #11 0!")
        self.check_dump(["1 0 1A 1"], "#0 0! #10 1!")
        self.check_dump(["0 0 1A 1", "9 0 1A 0"], "#0 1! #9 0!", "a=0:1A", "--tick", "1ns")
        self.check_dump(["3 0 1A 1"], "#0 0! #7 1!", "a=0:1A", "--tick", "2.5ns")
        self.check_dump(["5 0 1A 1", "7 0 1A 0"], "#0 0! #50 1! #120 0! #130 1!", "a=0:1A", "--from", "0.1us", "--to", "125ns", "--at", "5")
        self.assertEqual([duration(it) for it in ("1s", "20 ps", "1.5ms", "0.0001fs")], [10**15, 20_000, 1_500_000_000_000, 0])

    def test_units(self):
        for unit, ticks in (("1s", 10**8), ("100 us", 10**4), ("10\nns", 1), ("1ns", 1), ("100 fs", 1)):
            text = dump("#0 0! #1 1!").replace("1 ns", unit)
            self.check([f"{ticks} 0 1A 1"], "-", "a=0:1A", text=text)

    def test_values(self):
        variables = ["wire 8 ! a [7:0]", "wire 1 # b"]
        self.check_dump(["0 0 8A 5", "1 0 8A 255", "2 0 8A 0"], "#0 b101 ! #10 b11111111 ! #20 0!", "a=0:8A", variables=variables)
        # x in front goes on to the left, so only the low two bits are told
        self.check_dump(["0 0 8A 255", "1 0 8A 253"], "#0 b11111111 ! #10 bx01 !", "a=0:8A", variables=variables)
        self.check_dump(["0 0 1A 1", "1 0 1A 0"], "#0 H# #10 L#", "b=0:1A", variables=variables)
        self.check_dump(["0 0 8A 3"], "#0 b11 !", "d=0:8A", variables=["reg 8 ! d[7:0]"])  # as GHDL writes it
        self.check_dump(["1 0 1A 1"], "#0 0# $comment 1# $end #10 sword ~ r1.5 ~ 1#", "b=0:1A", variables=variables)

    def test_bits_one_by_one(self):
        variables = [f"wire 1 {code} d [{index}]" for index, code in enumerate("!#")]
        self.check_dump(["0 0 4A 2", "1 0 4A 1"], "#0 0! 1# #10 1! 0#", "d[0]=0:4A[0]", "d[1]=0:4A[1]", variables=variables)

    def test_several_ports_of_one_signal(self):
        self.check_dump(["1 0 1A 1", "1 0 8A 16", "1 2 1A 1"], "#0 0! #10 1!", "a=0:1A", "a=2:1A", "a=0:8A[4]")

    def test_what_cannot_be_mapped(self):
        two = dump("#0 0!", "wire 1 ! x.a", "wire 4 # b [3:0]", "real 64 $ level")
        self.check_refused("there is no signal c; there are t.x.a, t.b[3:0], t.level[63:0]", two, "c=0:1A")
        self.check_refused("there is no signal b[4]; there are t.x.a, t.b[3:0], t.level[63:0]", two, "b[4]=0:1A")
        self.check_refused("level is of the kind real, which has no bits", two, "level=0:1A")
        self.check_refused("b has 4 bits and 0:1A has 1: choose 1 of them by [HIGH:LOW] or [BIT]", two, "b=0:1A")
        self.check_refused("x.a has 1 bit and 0:4A has 4", two, "x.a=0:4A")
        self.check_refused("b[0:3]: the bits of t.b[3:0] are written the other way round", two, "b[0:3]=0:4A")
        same = dump("#0 0!", "wire 1 ! a", "wire 1 # x.a")
        self.check_refused("a may be t.a or t.x.a: write more of its scopes", same)

    def test_entries(self):
        for words, expected in [
            (["a"], "a: expected SOURCE=CORE:PORT"),
            (["a=1A"], "a=1A: expected SOURCE=CORE:PORT"),
            (["a=4:1A"], "a=4:1A: there is no core 4 or no port 1A"),
            (["a=0:2A"], "a=0:2A: there is no core 0 or no port 2A"),
            (["a=0:4A[4]"], "a=0:4A[4]: the port 4A has the bits 3 to 0"),
            (["a=0:4A[0:1]"], "a=0:4A[0:1]: the port 4A has the bits 3 to 0"),
            (["a=0:4A", "b=0:4A[2]"], "0:4A[2] is driven twice"),
            (["c,b,a=0:4A"], "c,b,a=0:4A: 3 sources for 4 bits"),
            (["b,=0:4A[1:0]"], "=0:4A[0]: expected SOURCE=CORE:PORT"),
        ]:
            with self.assertRaises(Refused) as caught:
                read_table(words)
            self.assertEqual(str(caught.exception)[: len(expected)], expected)
        wires = [(it.source.name, it.target) for it in read_table(["c,b[4],a=1:8A[6:4]"])]
        self.assertEqual(wires, [("c", "1:8A[6]"), ("b", "1:8A[5]"), ("a", "1:8A[4]")])
        entry = read_table(["top.bus[3][7:4]=2:8A[5:2]"])[0]
        self.assertEqual((entry.source.name, entry.source.bits, entry[1:], entry.target), ("top.bus[3]", (7, 4), (2, "8A", 2, 4), "2:8A[5:2]"))

    def test_what_is_no_waveform(self):
        for text, expected in [
            ("", '1: expected "$enddefinitions $end"'),
            ("code\n", "1: expected a keyword"),
            ("$date today\n", "1: expected the $end of $date"),
            (dump("").replace("$timescale 1 ns $end", ""), '1: expected "$timescale" in front'),
            (dump("").replace("1 ns", "2 ns"), '1: expected a time as in "1 ns"'),
            (dump("", "wire one ! a"), '1: expected "$var KIND WIDTH CODE NAME $end"'),
            (dump("#0 0!\n#5 1!\n#4 0!"), "4: expected a time that isn't below 5"),
            (dump("#0\n0! *"), "3: expected a change"),
            (dump("#0 b012 !"), "2: expected a value of 1 bits at most"),
            (dump("#0 b00 !"), "2: expected a value of 1 bits at most"),
        ]:
            with self.assertRaises(Refused, msg=text) as caught:
                for _ in Dump(io.BytesIO(text.encode()), "a.vcd").changes({"!"}):
                    pass
            self.assertEqual(str(caught.exception)[: len(expected) + 6], f"a.vcd:{expected}")

    def test_limits(self):
        changes = "".join(f"#{10 * it} {it % 2}!\n" for it in range(100_000))
        self.check_refused("more than 100000 lines, the most that a stimulus can have: choose a part with --from and --to", dump(changes))
        self.assertEqual(len(self.made("stim-from-vcd", "-", "a=0:1A", "--to", "999970ns", text=dump(changes))), 99_997)
        expected = "the tick 4294967296 is above 4294967295, the last of a stimulus: choose a part with --from and --to"
        self.check_refused(expected, dump("#0 0! #42949672960 1!"))
        self.check_dump(["4294967295 0 1A 1"], "#0 0! #42949672950 1!")

    def test_wrong_words(self):
        for words in (["a.vcd"], ["a.vcd", "a=0:1A", "--tick", "0ns"], ["a.vcd", "a=0:1A", "--from", "5"], []):
            self.assertEqual(called("stim-from-vcd", *words).returncode, 2)


class Runs(Stimuli):
    def test_port_to_port(self):
        lines = self.made("stim-from-trace", "-", "0:1A=2:1B", text=output_of_example("serial"), notes=[])
        # at rest from 1000 on, then the bits of "H" from 2000 on, 868 ticks each: 0 00010010 1, of which the changes remain
        bits = [0, 0, 0, 0, 1, 0, 0, 1, 0, 1]
        frame = [(1000, 1)] + [(2000 + 868 * i, bit) for i, bit in enumerate(bits)]
        changes = [(tick, bit) for (tick, bit), (_, before) in zip(frame, [(0, 0), *frame]) if bit != before]
        self.assertEqual(lines[: len(changes)], [f"{tick} 2 1B {bit}" for tick, bit in changes])

    def test_stamps_are_unwrapped(self):
        lines = self.made("stim-from-trace", "-", "0:1A=0:1A", "0:8B=1:8A", text=output_of_example("bus"))
        self.assertEqual(lines, ["8 1 8A 85", "1000 0 1A 1", "1500 0 1A 0", "65535 1 8A 44", "67536 0 1A 1"])

    def test_part_of_a_run(self):
        words = ["-", "0:8B[3:0]=1:4A", "--from", "1000", "--to", "65535", "--at", "7"]
        self.assertEqual(self.made("stim-from-trace", *words, text=output_of_example("bus")), ["7 1 4A 5", "64542 1 4A 12"])

    def test_lockstep(self):
        text = listing_of((0, 0, ["1A out"]), (1, 0, ["1A out"])) + "out 0 1A @100 1\nout 1 1A @50 1\nend finished\n"
        words = ["-", "0:1A=0:1B", "1:1A=0:1C"]
        self.assertEqual(self.made("stim-from-trace", *words, text=text), ["50 0 1C 1", "100 0 1B 1"])
        self.assertEqual(self.made("stim-from-trace", *words, "--lockstep", text=text), ["100 0 1B 1", "65586 0 1C 1"])

    def test_several_at_one_tick(self):
        text = written(data("script.out"))  # 5 and then 9 at tick 0, 5 at tick 4464
        notes = ["0:4A is without 1 of its values, each of which another one follows at its tick"]
        self.assertEqual(self.made("stim-from-trace", "-", "0:4A=0:4A", text=text), ["0 0 4A 9", "4464 0 4A 5"])
        later = text.replace("@0", "@3")
        self.assertEqual(self.made("stim-from-trace", "-", "0:4A=0:4A", text=later, notes=notes), ["3 0 4A 9", "4464 0 4A 5"])

    def test_what_cannot_be_mapped(self):
        for entry, expected in [
            ("0:1B=0:1A", "0:1B: the run outputs to 0:8A, 3:32A, written as CORE:PORT"),
            ("tx=0:1A", "tx: the run outputs to 0:8A, 3:32A, written as CORE:PORT"),
            ("0:8A=0:1A", "0:8A has 8 bits and 0:1A has 1: choose 1 of them by [HIGH:LOW] or [BIT]"),
            ("0:8A[8]=0:1A", "0:8A[8]: the port 8A has the bits 7 to 0, from the highest to the lowest"),
        ]:
            self.refused(expected, "stim-from-trace", data("two_cores.out"), entry)

    def test_the_same_by_way_of_a_waveform(self):
        for name in PROGRAMS:
            output = output_of(output_of_example(name))
            ports = [it.name for it in output.listing.cores[0].ports.values() if it.does("out")]
            entries = read_table(f"0:{it}=1:{it}" for it in ports)
            events = [*timed(output.records(), is_lockstep=False)]
            by_trace = [*Pins(replay.wires_of(output.listing, entries)).lines(replay.changes(events, 0, 1 << 64, 0))]
            written_dump, text = trace_dump(output.listing, set()), io.StringIO()
            text.writelines(f"{line}\n" for line in written_dump.header(False, 0))
            write_changes(written_dump, events, 0, text)
            read = Dump(io.BytesIO(text.getvalue().encode()), name)
            wires = waveform.wires_of(read.header, read_table(f"core0.port_{it}=1:{it}" for it in ports))
            times = waveform.Times(read.header.unit, duration("10ns"), 0, None, 0)
            by_waveform = [*Pins(wires).lines(waveform.Waveform(read, times, "keep").changes(wires))]
            self.assertEqual(by_trace, by_waveform, name)
            self.assertEqual(len({line.split()[2] for line in by_trace} - {*ports}), 0)
