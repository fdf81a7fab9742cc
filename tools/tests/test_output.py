"""What is read of an output, and what is refused."""

import io
import unittest

from traces.lines import Refused
from traces.output import Record
from traces.stimulus import read_stimulus

from .samples import PULSE, data, listing_of, output_of

TWO_CORES = listing_of((0, 1, ["8A both", "1B in"]), (3, 1, ["32A out"]), channels=".chan 0 0 3 0\n")


class Reading(unittest.TestCase):
    def test_ports_and_records(self):
        output = output_of(PULSE)
        self.assertEqual(list(output.listing.cores), [0])
        self.assertEqual([*output.listing.cores[0].ports.values()], [("1A", "out")])
        self.assertEqual([*output.records()], [Record("out", 0, 100, "1A", 1), Record("out", 0, 350, "1A", 0)])
        self.assertEqual(output.end, "finished")

    def test_each_kind_of_record(self):
        with open(data("two_cores.out"), encoding="ascii") as file:
            records = [*output_of(file.read()).records()]
        self.assertEqual(records[0], Record("in", 0, 500, "1B", 1))
        self.assertEqual(records[1], Record("com", 3, value=7))
        self.assertEqual(records[4], Record("out", 3, 650, "32A", 4294967295))
        self.assertEqual(records[6], Record("err", 0, text="3:9 arithmetic"))

    def test_empty_trace(self):
        output = output_of(listing_of((0, 0, [])) + "end stuck")
        self.assertEqual([*output.records()], [])
        self.assertEqual(output.end, "stuck")

    def test_sender_by_code(self):
        core = ".core {}\n.words 0\n.timers 0\n.ends {}\n.root 0\n"
        middle = core.format(1, 2) + "0: LDC r0, {} @1:1\n1: IN r1, r0 @1:1\n{}"
        rest = core.format(2, 1) + "0: FREET @1:1\n.chan 0 0 1 0\n.chan 1 1 2 0\ntrace\nend finished\n"
        first = "code\n" + core.format(0, 1) + "0: FREET @1:1\n"
        near, far = 0x1000002, 0x1000102  # the ends 0 and 1 of core 1
        for number, more, senders in [
            (near, "", {0}),
            (far, "", {2}),
            (near, "2: BRBU 0 @1:1\n", {0}),
            (near, "2: BRBU 1 @1:1\n", {0, 2}),  # the IN is reached on another way too
            (near, "2: LDWDP r0, 3 @1:1\n3: IN r1, r0 @1:1\n", {0, 2}),  # a number from memory
        ]:
            output = output_of(first + middle.format(number, more) + rest)
            self.assertEqual(output.listing.senders(1), senders, (number, more))
            self.assertEqual(output.listing.senders(2), {1})


class Refusals(unittest.TestCase):
    def refused(self, text, expected):
        with self.assertRaises(Refused) as caught:
            output = output_of(text)
            for _ in output.records():
                pass
        self.assertEqual(str(caught.exception)[: len(expected)], expected)

    def test_listing(self):
        self.refused("", 'a.out:1: expected "code"')
        self.refused("accepted\n", 'a.out:1: expected "code"')
        self.refused("code\ntrace\nend finished\n", 'a.out:2: expected ".core N"')
        self.refused(PULSE.replace(".core 0", ".core 4"), 'a.out:2: expected ".core N", N below 4')
        self.refused(PULSE.replace(".words 0", ".words 00"), 'a.out:3: expected ".words N"')
        self.refused(PULSE.replace(".timers 0\n", ""), 'a.out:4: expected ".timers N"')
        self.refused(PULSE.replace(".ends 0", ".ends 4294967296"), 'a.out:5: expected ".ends N", N below 4294967296')
        self.refused(PULSE.replace("1A out", "2A out"), 'a.out:6: expected ".port ID DIR"')
        self.refused(PULSE.replace("1A out\n.root", "1A out\n.port 1A in\n.root"), "a.out:7: expected a port that core 0 doesn't have")
        self.refused(PULSE.replace("1: FREET", "2: FREET"), "a.out:9: expected the instruction 1")
        self.refused(PULSE.replace("FREET @2:18", "FREET"), "a.out:9: expected the instruction 1")
        self.refused(PULSE.replace("trace\n", ""), "a.out:10: expected an instruction")
        self.refused(PULSE.replace("trace\n", ".chan 0 0 0 1\ntrace\n"), "a.out:10: expected a channel end that the listing has")
        self.refused(TWO_CORES.replace(".core 3", ".core 0"), "a.out:10: expected a core above the one before")
        self.refused(TWO_CORES.replace("trace", ".chan 0 0 3 0\ntrace"), "a.out:18: expected a channel end")

    def test_trace(self):
        for line, expected in [
            ("out 0 8A 5", '"out CORE PORT @STAMP VALUE"'),
            ("out 0 8A @05 5", '"out CORE PORT @STAMP VALUE"'),
            ("out 0 8A @5 5 ", '"out CORE PORT @STAMP VALUE"'),
            ("in 0 8A @5", '"in CORE PORT @STAMP VALUE"'),
            ("out 1 8A @5 5", "a core of the listing, not 1"),
            ("out 0 8B @5 5", "an out port of core 0, not 8B"),
            ("out 0 1B @5 1", "an out port of core 0, not 1B"),
            ("in 3 32A @5 1", "an in port of core 3, not 32A"),
            ("out 0 8A @65536 5", "a stamp below 65536, not 65536"),
            ("out 0 8A @5 256", "a value below 256, not 256"),
            ("out 3 32A @5 4294967296", "a value below 4294967296, not 4294967296"),
            ("com 0", '"com CORE VALUE"'),
            ("com 2 5", "a core of the listing, not 2"),
            ("com 0 4294967296", "a value below 4294967296"),
            ("err 0 3:9 overflow", '"err CORE LINE:COL KIND"'),
            ("err 1 3:9 index", "a core of the listing, not 1"),
            ("show 0 8 ready pc 0", '"show CORE THREAD STATE pc K"'),
            ("end done", '"end WORD"'),
            ("put 0 8A @5 5", "a record (out, in, com, err or show) or"),
            ("", "a record (out, in, com, err or show) or"),
        ]:
            self.refused(f"{TWO_CORES}com 3 1\n{line}\nend finished\n", f"a.out:20: expected {expected}")

    def test_end(self):
        self.refused(PULSE.replace("end finished\n", ""), "a.out:13: expected a record")
        self.refused(PULSE + "\n", "a.out:14: expected nothing behind the end word")
        self.refused(PULSE[:-4], 'a.out:13: expected "end WORD"')
        self.refused(listing_of((0, 0, [])) + "com 0 5\nend stuck\n", "a.out:9: expected a core with channel ends, not 0")

    def test_no_text_at_all(self):
        self.refused("\xff\x00" * 40, 'a.out:1: expected "code"')
        self.refused(PULSE.replace("@100", "@" + "9" * 9999), 'a.out:11: expected "out CORE PORT @STAMP VALUE"')


class Stimuli(unittest.TestCase):
    def test_lines(self):
        read = read_stimulus(io.BytesIO(b"# first\n5 0 1B 1\r\n\n  007  3 32A 4294967295 \n7 0 4F 15"), "s.txt")
        self.assertEqual(
            read,
            [
                (5, Record("pins", 0, port="1B", value=1)),
                (7, Record("pins", 3, port="32A", value=4294967295)),
                (7, Record("pins", 0, port="4F", value=15)),
            ],
        )

    def test_refusals(self):
        form = '"TICK CORE PORT VALUE"'
        for text, expected in [
            ("7 0 1B", f"1: expected {form}"),
            ("7 0 1B 1 1", f"1: expected {form}"),
            ("7 0 1B -1", f"1: expected {form}"),
            ("7\t0 1B 1", f"1: expected {form}"),
            ("7 0 1B 1\r", f"1: expected {form}"),  # only in front of a line feed it is dropped
            ("4294967296 0 1B 1", "1: expected numbers below 2^32"),
            ("7 0 1B 1\n# x\n6 0 1B 0\n", "3: expected a tick that isn't below 7"),
            ("7 4 1B 1", "1: expected a core below 4 and a port, not 4 1B"),
            ("7 0 2B 1", "1: expected a core below 4 and a port, not 0 2B"),
            ("7 0 1B 2", "1: expected a value below 2, not 2"),
            ("\n" * 100_001, "100001: expected at most 100000 lines"),
        ]:
            with self.assertRaises(Refused) as caught:
                read_stimulus(io.BytesIO(text.encode()), "s.txt")
            self.assertEqual(str(caught.exception)[: len(expected) + 6], f"s.txt:{expected}")
