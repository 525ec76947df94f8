"""The Python module, tried on the library: each call's answer and refusals, what a refusal leaves, positions in every form.

    python3 -m unittest discover -s bindings/python

In the repository it needs `bindings/shared` first."""

import array
import copy
import ctypes
import math
import os
import pathlib
import pickle
import random
import struct
import subprocess
import sys
import threading
import unittest

import a5_faces
from a5_faces import CaptionBox, Face, LonLat, Panel, Place, Refusal, Refused, Set, Sides, Store, Table, Window

HERE = pathlib.Path(__file__).resolve().parent
TURNED = (HERE.parent / "turned.eat").read_bytes()
NAN, INFINITY = math.nan, math.inf
# positions of all faces, poles and the date line among them
EVERYWHERE = [(-179.0 + 0.89 * k, 85.0 * math.sin(k)) for k in range(400)] + [(-93, 90), (0, -90), (180, 0), (-360, 12.5), (360, -12.5)]


class Calls(unittest.TestCase):
    def refuses(self, number, call, *arguments):
        with self.assertRaises(Refused) as caught:
            call(*arguments)
        self.assertEqual(caught.exception.number, number)


class TheSet(Calls):
    def test_there_and_back(self):
        s = Set()
        self.assertEqual(s.place(-0.1278, 51.5074), Place(4, -0.5852177768157802, -0.08927914048748557))
        for longitude, latitude in EVERYWHERE:
            place = s.place(longitude, latitude)
            self.assertIn(place.origin, range(12))
            back = s.unplace(*place)
            east = (back.longitude - longitude + 180) % 360 - 180
            self.assertLess(abs(east) * math.cos(math.radians(latitude)), 1e-11)
            self.assertAlmostEqual(back.latitude, latitude, delta=1e-11)

    def test_parts_of_place(self):
        s = Set()
        for longitude, latitude in EVERYWHERE:
            at = a5_faces.from_lon_lat(longitude, latitude)
            origin = a5_faces.nearest(*at)
            face = s.forward(*at, origin)
            self.assertEqual(s.place(longitude, latitude), Place(origin, *face))
            self.assertEqual(s.unplace(origin, *face), a5_faces.to_lon_lat(*s.inverse(origin, *face)))

    def test_refusals_leave_the_set(self):
        s = Set()
        s.place(16, 48)
        before = s.buffers()
        self.refuses(6, s.place, 0, 91)
        self.refuses(6, s.place, 400, NAN)
        self.refuses(5, s.place, INFINITY, 91)
        self.refuses(4, s.unplace, 12, 0, 0)
        self.refuses(6, s.unplace, 0, 0, 4.5)
        self.refuses(19, s.unplace, 7, 1.235847662, -0.125812592)
        self.refuses(4, s.forward, 0, 0, 255)
        self.refuses(6, s.inverse, 0, 4.1, 0)
        self.refuses(15, s.region, [])
        self.refuses(15, s.region, [(16, 48)] * 257)
        self.refuses(6, s.region, [(0, 48), (16, 48), (0, 91)])
        self.refuses(16, s.region, [(0, 48), (16, 48)])
        self.assertEqual(s.buffers(), before)

    def test_numbers_that_fit_no_argument(self):
        s, window = Set(), Window()
        for wrong in (-1, 256):
            self.assertRaises(OverflowError, s.unplace, wrong, 0, 0)
            self.assertRaises(OverflowError, s.forward, 0, 0, wrong)
            self.assertRaises(OverflowError, window.add, 0, wrong)
        self.assertRaises(OverflowError, window.add, 2**32, 0)
        self.assertRaises(OverflowError, a5_faces.fair_turns, [65536] * 16)
        self.assertRaises(TypeError, s.unplace, 1.0, 0, 0)

    def test_what_is_no_number(self):
        s, table = Set(), Table.load(TURNED)
        turned = Set(table)
        calls = [(s.place, 2), (turned.place, 2), (table.nearest, 2), (a5_faces.nearest, 2), (a5_faces.from_lon_lat, 2), (a5_faces.to_lon_lat, 2),
                 (CaptionBox().take_in, 2), (a5_faces.sqrt, 1), (a5_faces.sqrt_rounds, 1), (lambda x, y: s.unplace(0, x, y), 2),
                 (lambda x, y: turned.inverse(0, x, y), 2), (lambda theta, phi: s.forward(theta, phi, 0), 2)]
        before = s.buffers()
        for call, count in calls:
            for at in range(count):
                for wrong, error in (("16", TypeError), (None, TypeError), (b"1", TypeError), (1j, TypeError), (10**400, OverflowError)):
                    numbers = [0.5] * count
                    numbers[at] = wrong
                    self.assertRaises(error, call, *numbers)
        self.assertEqual(s.buffers(), before)

    def test_show(self):
        s = Set()
        self.assertIsNone(s.show(Store.SPHERE, 0))
        s.place(-93, 89)
        shown = [(store, slot) for store, slots in ((Store.FACE, 30), (Store.SPHERE, 240)) for slot in range(slots) if s.slot_state(store, slot)]
        self.assertEqual(len(shown), 2)
        self.assertEqual([len(s.show(*slot)) for slot in shown], [6, 9])
        self.refuses(10, s.show, Store.FACE, 30)
        self.refuses(10, s.slot_state, Store.SPHERE, 240)

    def test_conversions_and_roots(self):
        self.refuses(6, a5_faces.from_lon_lat, 0, 90.5)
        self.refuses(5, a5_faces.to_lon_lat, 0, NAN)
        self.refuses(6, a5_faces.nearest, 8.5, 0)
        self.assertEqual(a5_faces.sqrt(2), math.sqrt(2))
        self.assertTrue(math.isnan(a5_faces.sqrt(-1)))
        self.assertEqual([a5_faces.sqrt_rounds(x) for x in (4, 9, 2, 0)], [1, 2, 53, 0])

    def test_two_threads_with_a_set_each(self):
        def run(results):
            s = Set()
            results.append([s.place(*position) for position in EVERYWHERE])

        results = []
        threads = [threading.Thread(target=run, args=(results,)) for _ in range(4)]
        for thread in threads:
            thread.start()
        for thread in threads:
            thread.join()
        self.assertTrue(len(results) == 4 and all(other == results[0] for other in results))


class Lists(Calls):
    def test_a_list_is_its_positions_singly(self):
        positions = EVERYWHERE + [(0, 91), (NAN, 0), (0, NAN), (361, 0)]
        one, other = Set(), Set()
        singly = []
        for position in positions:
            try:
                singly.append(one.place(*position))
            except Refused as refused:
                singly.append(refused.refusal)
        places = other.place_list(positions)
        self.assertEqual(list(places), singly)
        self.assertEqual(one.buffers(), other.buffers())
        self.assertEqual([places[k] for k in range(len(places))], singly)
        self.assertEqual((places[-1], places[:3], places[-2:]), (Refusal.OUT_OF_RANGE, singly[:3], singly[-2:]))
        self.assertRaises(IndexError, lambda: places[len(positions)])

    def test_every_form_of_positions(self):
        flat = array.array("d", [number for position in EVERYWHERE for number in position])
        pairs = [flat[k : k + 2] for k in range(0, len(flat), 2)]
        wanted = list(Set().place_list(EVERYWHERE))
        shifted = memoryview(bytearray(b"\0" + flat.tobytes()))[1:].cast("d")
        forms = [flat, pairs, tuple(EVERYWHERE), iter(EVERYWHERE), [LonLat(*p) for p in EVERYWHERE], memoryview(flat), memoryview(flat.tobytes()).cast("d"),
                 memoryview(flat.tobytes()).cast("d", (len(pairs), 2)), shifted]
        for form in forms:
            self.assertEqual(list(Set().place_list(form)), wanted)
        self.assertEqual(list(Set().place_list(memoryview(flat)[2:6])), wanted[1:3])
        no_rows = (ctypes.c_double * 2 * 0)()
        self.assertEqual(memoryview(no_rows).shape, (0, 2))
        for empty in ([], (), iter(()), array.array("d"), memoryview(b"").cast("d"), no_rows):
            s = Set()
            self.assertEqual(list(s.place_list(empty)), [])
            self.assertEqual(s.buffers(), Set().buffers())

    def test_what_is_no_list_of_positions(self):
        s = Set()
        for wrong in (array.array("d", [1.0]), [(1,)], [(1, 2, 3)], memoryview(bytes(48)).cast("d", (2, 3)), (ctypes.c_double * 3 * 0)()):
            self.assertRaises(ValueError, s.place_list, wrong)
        for wrong in (array.array("f", [1, 2]), b"12345678abcdefgh", [1.0, 2.0], None, [("16", 48)], [(16, None)], ["16"]):
            self.assertRaises(TypeError, s.place_list, wrong)
            self.assertRaises(TypeError, s.region, wrong)

    def test_positions_are_only_read(self):
        flat = array.array("d", [16, 48, 0, 91])
        kept = flat[:]
        Set().place_list(flat)
        self.assertEqual(flat, kept)
        flat.append(0)  # nothing holds the buffer any more

    def test_results_as_a_buffer(self):
        places = Set().place_list([(16, 48), (0, 91)])
        rows = list(struct.iter_unpack("BB6xdd", bytes(places.array)))
        self.assertEqual(rows, [(0, *places[0]), (6, 0, 0.0, 0.0)])

    def test_thousands(self):
        flat = array.array("d", (n for k in range(20000) for n in (-180 + 0.018 * k, 80 * math.sin(k))))
        places = Set().place_list(flat)
        self.assertEqual(len(places), 20000)
        s = Set()
        for k in random.Random(1).sample(range(20000), 200):
            self.assertEqual(places[k], s.place(flat[2 * k], flat[2 * k + 1]))


class Regions(Calls):
    def test_a_region(self):
        outline = [(10, 47), (11, 47), (11, 48)]
        s, other = Set(), Set()
        region = s.region(outline)
        places = list(other.place_list(outline))
        self.assertEqual({region.origin}, {place.origin for place in places})
        self.assertEqual(region.points, [Face(place.x, place.y) for place in places])
        xs, ys = zip(*region.points)
        self.assertEqual(region.sides, Sides(min(xs), max(xs), min(ys), max(ys)))
        self.assertEqual(s.buffers(), other.buffers())
        self.assertEqual(len(Set().region([(16, 48)] * 256).points), 256)


class Tables(Calls):
    def test_a_turned_set(self):
        table = Table.load(TURNED)
        self.assertEqual(table.save(), TURNED)
        self.assertEqual(Table(table.numbers), table)
        self.assertEqual({table: 1}[Table.read(HERE.parent / "turned.eat")], 1)
        s = Set(table)
        self.assertIs(s.table, table)
        self.assertIsNone(Set().table)
        places = list(s.place_list(EVERYWHERE))
        self.assertEqual(places, [s.place(*position) for position in EVERYWHERE])
        self.assertNotEqual(places, list(Set().place_list(EVERYWHERE)))
        for position, place in zip(EVERYWHERE, places):
            self.assertEqual(table.nearest(*a5_faces.from_lon_lat(*position)), place.origin)
            self.assertAlmostEqual(s.unplace(*place).latitude, position[1], delta=1e-11)

    def test_open_again(self):
        table = Table.load(TURNED)
        s = Set()
        s.place(16, 48)
        s.open()
        self.assertEqual(s.buffers(), Set().buffers())
        s.open(table)
        self.assertEqual(s.buffers(), Set(table).buffers())
        s.open()
        self.assertEqual(s.buffers(), Set(table).buffers())

    def test_refused_tables(self):
        numbers = list(Table.load(TURNED).numbers)
        self.refuses(20, Table, numbers[:83])
        self.refuses(20, Table, [])
        self.refuses(20, Table.load, b"")
        self.refuses(20, Table.load, TURNED + b"\0")
        self.refuses(20, Table.load, b"EAD" + TURNED[3:])
        self.refuses(21, Table, [8.5, *numbers[1:]])
        self.refuses(22, Table, [*numbers[:2], 0.5, *numbers[3:]])
        for wrong in (5, "EAT", None, list(TURNED)):
            self.assertRaises(TypeError, Table.load, wrong)
        self.assertRaises(TypeError, Table, ["0"] * 84)
        wrong_angle = Table([*numbers[:6], 1.0, *numbers[7:]])
        self.refuses(7, Set, wrong_angle)
        s = Set()
        before = s.buffers()
        self.refuses(7, s.open, wrong_angle)
        self.assertEqual((s.buffers(), s.table), (before, None))


class Windows(Calls):
    def test_against_a_plain_list(self):
        window, strikes, last = Window(), [], 0
        generator = random.Random(5)
        for _ in range(20000):
            minute, origin = last + generator.choice((0, 0, 0, 0, 1, 2, -1)), generator.randrange(14)
            kept = [strike for strike in strikes if minute - strike[0] < 180]
            wanted = 4 if origin > 11 else 17 if minute < last else 18 if len(kept) == 4096 else 0
            if minute < 0:
                continue
            if wanted:
                self.refuses(wanted, window.add, minute, origin)
            else:
                window.add(minute, origin)
                strikes, last = [*kept, (minute, origin)], minute
            if generator.random() < 0.02:
                self.assertEqual(len(window), len(strikes))
                self.assertEqual(window.counts, tuple(sum(strike[1] == k for strike in strikes) for k in range(12)))
        window.clear()
        self.assertEqual((len(window), window.counts), (0, (0,) * 12))

    def test_a_full_window(self):
        window = Window()
        for _ in range(Window.MOST):
            window.add(7, 3)
        self.refuses(18, window.add, 7 + 179, 3)
        window.add(7 + 180, 3)
        self.assertEqual(len(window), 1)

    def test_sheet(self):
        window = Window()
        for k in range(97):
            window.add(k, k % 11)
        lines = window.sheet().splitlines()
        self.assertEqual((len(lines), {len(line) for line in lines}), (60, {80}))
        self.assertEqual(lines[0].rstrip(), "STORM COUNTS")
        self.assertEqual([int(line.split()[1]) for line in lines[2:14]], list(window.counts))
        self.assertEqual(lines[14].split(), ["ALL", "97"])


class Boxes(Calls):
    def test_a_box(self):
        box = CaptionBox()
        self.assertEqual((bool(box), box.sides), (False, None))
        self.refuses(6, box.take_in, 4.5, 0)
        self.assertFalse(box)
        box.take_in(1, 2)
        self.assertEqual(box.sides, (1, 1, 2, 2))
        self.refuses(5, box.take_in, 3, NAN)
        self.assertEqual(box.sides, (1, 1, 2, 2))
        points = [(1, 2), (-0.5, 3), (0.25, -4)]
        self.assertEqual(CaptionBox(points).sides, CaptionBox(reversed(points)).sides)
        self.assertEqual(CaptionBox(points).sides, Sides(-0.5, 1, -4, 3))


class Turns(Calls):
    def test_turns(self):
        wishes = [0] * 16
        wishes[2], wishes[5], wishes[15] = 65535, 300, 86
        grants = a5_faces.fair_turns(wishes)
        self.assertEqual([grants[k] for k in (2, 5, 15)], [86, 85, 85])
        self.assertEqual(sum(grants), 256)
        self.assertEqual(a5_faces.fair_turns(range(16)), list(range(16)))
        for count in (0, 15, 17):
            self.refuses(24, a5_faces.fair_turns, [1] * count)


class Panels(Calls):
    def test_place_and_back(self):
        s, panel = Set(), Panel()
        panel.mask = 3
        panel.command(Panel.PLACE, -1278000, 515074000, origin=77)
        panel.step(s)
        place = Set().place(-0.1278, 51.5074)
        self.assertEqual((panel.status, panel.interrupt, panel.refusal), (Panel.DONE, True, None))
        self.assertEqual((panel.origin, *panel.result), place)
        panel.command(Panel.UNPLACE, -585217777, -89279140)
        panel.step(s)
        self.assertEqual(panel.result, Set().unplace(4, -0.585217777, -0.08927914))
        self.assertEqual(panel.block[0], 0)

    def test_refusals_in_the_registers(self):
        s, panel = Set(), Panel()
        panel.command(Panel.PLACE, 160000000, 480000000)
        panel.step(s)
        result = panel.result
        for command, origin, refusal in ((Panel.UNPLACE, 12, 4), (3, 12, 12), (255, 0, 12)):
            panel.command(command, 0, 0, origin=origin)
            panel.step(s)
            self.assertEqual((panel.status, panel.interrupt, panel.refusal, panel.origin, panel.result), (Panel.REFUSED, False, refusal, origin, result))
        panel.command(Panel.PLACE, 0, 2**31 - 1)
        panel.step(s)
        self.assertEqual(panel.refusal, 6)
        panel.mask = 2
        panel.command(Panel.NOTHING)
        panel.step(s)
        self.assertEqual((panel.status, panel.interrupt, panel.refusal), (2, True, 6))

    def test_bytes_that_no_step_alters(self):
        generator = random.Random(3)
        s = Set(Table.load(TURNED))
        for _ in range(500):
            block = bytearray(generator.randbytes(32))
            block[0] %= 4
            panel = Panel(block)
            panel.step(s)
            self.assertEqual((panel.block[2], panel.block[6:16], panel.block[0]), (block[2], block[6:16], 0))

    def test_another_length(self):
        s = Set()
        for size in (0, 31, 33):
            panel = Panel(bytes(range(size)))
            self.refuses(23, panel.step, s)
            self.assertEqual(panel.block, bytes(range(size)))
        for wrong in (5, "0" * 32, [0] * 32):
            self.assertRaises(TypeError, Panel, wrong)
        panel = Panel()
        self.assertRaises(struct.error, panel.command, 1, 2**31, 0)
        self.assertRaises(OverflowError, panel.command, 1, 5, 5, 256)
        self.assertEqual(panel.block, bytes(32))


class TheModule(Calls):
    def test_refused(self):
        refused = Refused(16)
        self.assertEqual((refused.number, refused.name, refused.refusal), (16, "ORIGINS_DIFFER", Refusal.ORIGINS_DIFFER))
        self.assertEqual(str(refused), "refused with 16, ORIGINS_DIFFER")
        self.assertIsInstance(refused, ValueError)
        self.assertEqual(pickle.loads(pickle.dumps(refused)).number, 16)
        self.assertEqual(copy.copy(refused).number, 16)
        self.assertEqual([int(refusal) for refusal in Refusal], list(range(1, 27)))

    def test_names_of_the_header(self):
        """Each refusal has the name and the number that a5.h gives it."""
        header = HERE.parent / "a5.h"
        lines = [line.split() for line in header.read_text().splitlines() if line.strip().startswith("A5_REFUSED_")]
        named = {words[0].removeprefix("A5_REFUSED_"): int(words[2].rstrip(",")) for words in lines}
        self.assertEqual(named, {refusal.name: int(refusal) for refusal in Refusal})

    def test_everything_public_is_described(self):
        for name in a5_faces.__all__:
            self.assertTrue(getattr(a5_faces, name).__doc__, name)

    def test_a_library_elsewhere(self):
        """The variable names a folder; one without the library is passed over."""
        program = "import a5_faces; print(a5_faces.Set().place(16, 48).origin)"
        for folder in (HERE.parent.parent / "target" / "sharedlib", HERE):
            self.assertEqual(self.run_with(folder, program), "5\n")

    def test_a_module_that_lies_less_deep(self):
        """Without three folders above it the variable still holds."""
        for path in ("/a5_faces.py", "/modules/a5_faces.py"):
            program = f"names = {{'__name__': 'a5_faces', '__file__': {path!r}}}\n"
            program += f"exec(open({str(HERE / 'a5_faces.py')!r}, encoding='utf-8').read(), names)\n"
            program += "print(names['Set']().place(16, 48).origin)"
            self.assertEqual(self.run_with(HERE.parent.parent / "target" / "sharedlib", program), "5\n")

    def run_with(self, folder, program):
        environment = {**os.environ, "A5_LIBRARY": str(folder), "PYTHONPATH": str(HERE)}
        run = subprocess.run([sys.executable, "-c", program], env=environment, capture_output=True, text=True)
        self.assertEqual(run.returncode, 0, run.stderr)
        return run.stdout


if __name__ == "__main__":
    unittest.main()
