"""The ticks that records get."""

import unittest

from traces.output import Record
from traces.times import BATCH, Store, timed


def out(core, stamp):
    return Record("out", core, stamp, "1A", 1)


def word(core, value):
    return Record("com", core, value=value)


def ticks(records, is_lockstep=False):
    return [(tick, record.core) for tick, record in timed(records, is_lockstep)]


class Ticks(unittest.TestCase):
    def test_stamps_are_unwrapped(self):
        records = [out(0, 65535), out(0, 20000), out(0, 20000), out(0, 19999)]
        self.assertEqual([tick for tick, _ in ticks(records)], [65535, 85536, 85536, 151071])

    def test_each_core_by_itself(self):
        self.assertEqual(ticks([out(0, 100), out(1, 50), out(0, 99), out(1, 60)]), [(50, 1), (60, 1), (100, 0), (65635, 0)])

    def test_one_clock_in_lockstep(self):
        self.assertEqual(ticks([out(0, 100), out(1, 50), out(0, 60)], is_lockstep=True), [(100, 0), (65586, 1), (65596, 0)])

    def test_first_step_of_a_run_is_at_tick_1(self):
        self.assertEqual(ticks([out(0, 0)]), [(0, 0)])
        self.assertEqual(ticks([out(0, 0)], is_lockstep=True), [(65536, 0)])

    def test_words_stand_between_stamps(self):
        records = [word(3, 1), word(3, 2), out(3, 4), word(3, 3), word(3, 4), word(3, 5), out(3, 6), word(3, 6), word(3, 7)]
        self.assertEqual([tick for tick, _ in ticks(records)], [1, 2, 4, 5, 6, 6, 6, 7, 8])

    def test_words_go_by_all_stamps_in_lockstep(self):
        records = [word(1, 0), out(3, 60), word(1, 1), word(2, 6), out(3, 157)]
        self.assertEqual(ticks(records, is_lockstep=True), [(2, 1), (60, 3), (61, 1), (62, 2), (157, 3)])
        self.assertEqual(ticks(records), [(1, 1), (1, 2), (2, 1), (60, 3), (157, 3)])

    def test_order_at_one_tick_is_that_of_the_cores(self):
        self.assertEqual(ticks([out(2, 5), out(0, 5), out(1, 5)]), [(5, 0), (5, 1), (5, 2)])


class Stores(unittest.TestCase):
    def test_items_come_back_in_order_however_many(self):
        for count in (0, 1, BATCH, BATCH + 1, 3 * BATCH - 1):
            store = Store()
            for number in range(count):
                store.append((number, "x"))
            pairs = list(zip(store, store))  # two readers side by side
            self.assertEqual(pairs, [((number, "x"), (number, "x")) for number in range(count)])
            store.close()

    def test_a_long_trace_keeps_its_order(self):
        records = [out(number % 2, number) if number % 3 else word(0, number) for number in range(3 * BATCH)]
        given = [*timed(records, False)]
        self.assertEqual(len(given), len(records))
        self.assertEqual([tick for tick, _ in given], sorted(tick for tick, _ in given))
        self.assertTrue(all(tick == record.stamp for tick, record in given if record.stamp is not None))
