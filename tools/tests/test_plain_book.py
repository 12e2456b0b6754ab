"""The plain book in Python, held to the run case of docs/FORMAT.md, moves, cuttings and refusals, and to what its programs have to write."""
import subprocess
import sys
import unittest
from copy import deepcopy

from paths import ROOT
import book_run
import book_shell
from plain_book import DESKS, MOST_BODY, MOST_WORD, SLABS_END
from plain_book import Book, cutting, loads_to, lowest, made, padding, pages_of, stream_len, total_told
from sizes import PAGE, Refused, by_bytes, form_len, with_slack


def ones(count, first=1):
    """Numbers side by side."""
    return list(range(first, first + count))


class Refusing(unittest.TestCase):
    """Tests of a book, which may refuse."""

    def refused(self, number, call, *words):
        """A call is refused with a number, and changes nothing."""
        before = deepcopy(vars(self.book))
        with self.assertRaises(Refused) as caught:
            call(*words)
        self.assertEqual(caught.exception.args, (number,))
        self.assertEqual(before, vars(self.book))


class TestPlainBook(Refusing):
    def setUp(self):
        self.book = Book(65536, 4)

    def test_run_case(self):
        told = [(self.book.append(0, n), self.book.places[0]) for n in (5, 300, 301, 302, 303)]
        slab, larger = ("slab", 0, 4096), ("slab", 1, 4112)
        self.assertEqual(told, [(0, ("inline",)), (1, slab), (0, slab), (0, slab), (4, larger)])
        self.assertEqual(self.book.read(0, 5), ([5, 300, 301, 302, 303], 0, 0))
        self.assertEqual((self.book.mark, self.book.stacks[0]), (4144, [4096]))

    def test_a_freed_slab_is_taken_again(self):
        for n in (5, 300, 301, 302, 303):
            self.book.append(0, n)
        self.book.append(1, 7)
        self.book.append(1, 9)
        self.assertEqual(self.book.places[1], ("slab", 0, 4096))
        self.assertEqual(self.book.mark, 4144)

    def test_moves_of_one_account(self):
        moves = [rewritten for n in ones(300) if (rewritten := self.book.append(0, n))]
        self.assertEqual(moves, [1, 4, 8, 16, 32, 64, 128, 256])
        self.assertEqual(self.book.places[0][0], "pages")
        self.assertEqual(sum(moves), 509)

    def test_an_extend_is_its_appends(self):
        beside = deepcopy(self.book)
        self.assertEqual(self.book.extend(0, []), (0, None, 0, 0))
        self.assertEqual(self.book.extend(0, ones(5000)), (5000, None, 8, 509))
        for n in ones(5000):
            beside.append(0, n)
        self.assertEqual(vars(beside), vars(self.book))

    def test_an_extend_stops_at_a_refused_number(self):
        for bad, number in ((0, 12), (2**63, 13), (2**62, 14), (6, 32), (5, 32)):
            count, refused, *moves = self.book.extend(0, [5, 6, bad, 7])
            self.assertEqual((count, refused.args, moves), (2, (number,), [1, 1]))
            self.assertEqual(self.book.read(0, 2)[0], [5, 6])
            self.book.drop(0)
        self.refused(2, self.book.extend, 4, [0])

    def test_a_tight_list_moves_with_slack(self):
        self.book.load_tight(0, ones(31))
        self.assertEqual(self.book.places[0], ("slab", 2, 4096))
        self.assertEqual(self.book.append(0, 32), 31)
        self.assertEqual(self.book.places[0], ("slab", 4, 4160))

    def test_a_loaded_list_has_a_spare_slot(self):
        for count in (2, 3, 4, 7, 14, 31, 127, 255):
            book = Book(65536, 1)
            book.load(0, ones(count))
            self.assertEqual((book.append(0, count + 1), len(book.lists[0])), (0, count + 1))
        self.book.load(0, ones(256))
        self.assertEqual(self.book.append(0, 257), 256)

    def test_classes_of_loads(self):
        counts = (2, 3, 4, 7, 8, 14, 15, 31, 32, 127, 128, 254, 255, 256, 257)
        self.assertEqual([loads_to(ones(n), False) for n in counts], [0, 0, 1, 1, 2, 2, 2, 3, 4, 5, 6, 6, 6, 6, None])
        self.assertEqual([loads_to(ones(n), True) for n in counts], [0, 0, 0, 0, 0, 0, 1, 2, 2, 4, 4, 4, 5, 5, None])
        for n, step, to in ((2, 2**42, 0), (2, 2**49, 1), (255, 2**49, 7), (256, 2**49, None)):
            wide = [step * k for k in ones(n)]
            self.assertEqual((loads_to(wide, False), loads_to(wide, True)), (to, to))

    def test_loads_of_one_number_and_of_pages_are_the_same(self):
        for ns in ([], [5], ones(257), ones(5000)):
            spare, tight = Book(65536, 1), Book(65536, 1)
            self.assertEqual(spare.load(0, ns), tight.load_tight(0, ns))
            self.assertEqual((spare.places, spare.mark, spare.stacks), (tight.places, tight.mark, tight.stacks))

    def test_load_of_pages(self):
        self.assertEqual(self.book.load(2, ones(4089)), 2)
        self.assertEqual([(off, room, len(part)) for off, room, part in self.book.places[2][1]], [(4096, 4088, 4088), (8192, 4072, 1)])
        self.assertEqual(self.book.read(2, 4089), (ones(4089), 2, 0))
        self.assertEqual(self.book.drop(2), 4089)
        self.assertEqual(self.book.stacks[8], [4096, 8192])

    def test_cutting_fits_a_last_page(self):
        for count, lengths in ((4072, [4072]), (4073, [4072, 1]), (4088, [4072, 16]), (4089, [4088, 1])):
            self.assertEqual([len(part) for part in cutting(ones(count))], lengths)

    def test_load_behind_a_slab_carves_the_gap(self):
        self.book.load(0, [5, 300])
        self.book.load(1, ones(5000))
        self.assertEqual(self.book.places[1][1][0][0], 8192)
        self.assertEqual([len(stack) for stack in self.book.stacks[:8]], [1] * 8)
        self.assertEqual(self.book.stacks[7], [4112])

    def test_a_page_takes_a_number_more_up_to_its_last_byte(self):
        self.book.load(0, ones(4071))
        self.book.append(0, 4072)
        self.assertEqual(len(self.book.places[0][1]), 1)
        self.book.append(0, 4073)
        self.assertEqual([page[0] for page in self.book.places[0][1]], [4096, 8192])

    def test_refusals(self):
        self.book.append(0, 5)
        for number, call, *words in (
            (2, self.book.read, 4, 9), (3, self.book.load, 0, [6]), (10, self.book.load, 1, ones(65536)),
            (2, self.book.load_tight, 4, [6]), (3, self.book.load_tight, 0, [6]), (10, self.book.load_tight, 1, ones(65536)),
            (12, self.book.load_tight, 1, [0, 5]), (32, self.book.load_tight, 1, [5, 5]), (36, self.book.load_tight, 1, ones(65535)),
            (12, self.book.append, 1, 0), (12, self.book.load, 1, [0, 5]), (13, self.book.append, 0, 2**63), (14, self.book.append, 0, 2**62),
            (32, self.book.append, 0, 5), (32, self.book.load, 1, [5, 5]), (34, self.book.read, 0, 0), (36, self.book.load, 1, ones(65535)),
        ):
            with self.subTest(number=number, call=call.__name__):
                self.refused(number, call, *words)

    def test_out_of_shape(self):
        for size, heads in ((4096, 1), (8193, 1), (8192, 0), (2**41 + 4096, 1), (8192, 65537)):
            self.book = Book(size, heads)
            self.refused(1, self.book.read, 0, 9)
        for size in (8192, 2**30 + 4096, 2**41):
            self.assertEqual(Book(size, 1).read(0, 0), ([], 0, 0))

    def begin(self, mark):
        """The largest book, from a mark on."""
        self.book = Book(MOST_BODY, 4)
        self.book.mark = mark

    def test_slabs_end_at_2_40(self):
        for c, count in ((0, 2), (1, 4), (2, 8), (6, 256)):
            self.begin(SLABS_END - 16 * 2**c)
            self.book.load(0, ones(count))
            self.assertEqual((self.book.places[0], self.book.mark), (("slab", c, SLABS_END - 16 * 2**c), SLABS_END))
            self.refused(36, self.book.load, 1, ones(count))
            self.begin(SLABS_END - 16 * 2**c + 16)
            self.refused(36, self.book.load, 0, ones(count))
        self.begin(SLABS_END - 16)
        self.refused(36, self.book.load, 0, ones(4))
        self.book.load_tight(0, ones(4))
        self.book.append(1, 5)
        self.refused(36, self.book.append, 1, 6)
        self.assertEqual(self.book.load(2, ones(300)), 1)
        self.assertEqual(self.book.places[2][1][0][0], SLABS_END)

    def test_pages_end_with_the_body(self):
        self.begin(MOST_BODY - 8192)
        self.refused(36, self.book.load, 0, ones(9000))
        self.book.load(0, ones(4072))
        self.book.append(0, 4073)
        self.refused(36, self.book.load, 1, ones(300))
        self.book.drop(0)
        self.assertEqual(self.book.stacks[8], [MOST_BODY - 8192, MOST_BODY - 4096])

    def test_gaps_past_2_40_go_on_no_list(self):
        for mark, freed in ((SLABS_END - 16, [SLABS_END - 16]), (SLABS_END + 16, [])):
            self.begin(mark)
            self.book.load(0, ones(300))
            self.assertEqual((self.book.stacks[0], sum(map(len, self.book.stacks))), (freed, len(freed)))

    def test_a_slab_across_2_40(self):
        self.begin(SLABS_END + 16)
        self.book.lists[0], self.book.places[0] = ones(3), ("slab", 1, SLABS_END - 16)
        self.assertEqual((self.book.append(0, 4), self.book.read(0, 4), self.book.drop(0)), (0, (ones(4), 0, 0), 4))
        self.refused(35, self.book.load, 1, ones(4))
        self.refused(35, self.book.load_tight, 1, ones(20))
        self.book.stacks[8].append(SLABS_END)
        self.book.load_tight(2, [5])
        self.refused(36, self.book.append, 2, 6)
        self.assertEqual(self.book.take(0, 8), SLABS_END)

    def hold(self, place, ns, stored):
        """Key 0 as another program left it: so many bytes in each form."""
        self.book.lists[0], self.book.places[0], self.book.padded[0] = ns, place, padding(ns, stored)
        self.book.held[0] = pages_of(place)

    def test_padded_forms(self):
        self.assertEqual(padding([1, 3], [2, 1]), {1: 1})
        self.assertEqual(padding([127, 255, 383], [1, 2, 3]), {383: 1})
        self.assertEqual(padding([5, 300, 301], [10, 2, 9]), {5: 9, 301: 8})

    def test_padded_numbers_stay_until_a_move(self):
        self.book.mark = 4112
        self.hold(("slab", 0, 4096), [1, 3], [2, 1])
        self.refused(34, self.book.read, 0, 1)
        self.assertEqual(self.book.read(0, 2), ([1, 3], 0, 1))
        self.assertEqual(book_run.answer(self.book, book_run.READ, 0, 2), [0, book_run.READ, 0, 1, 2, 1, 3])
        shell = book_shell.Shell()
        shell.book = self.book
        self.assertEqual(shell.read(0), "read: 2 numbers, 0 pages, 1 padded: 1 3")
        self.assertEqual((self.book.append(0, 4), self.book.append(0, 5), self.book.read(0, 4)), (0, 0, ([1, 3, 4, 5], 0, 1)))
        self.assertEqual((self.book.append(0, 6), self.book.places[0], self.book.read(0, 5)), (4, ("slab", 1, 4112), ([1, 3, 4, 5, 6], 0, 0)))

    def test_padded_bytes_count_for_room(self):
        for length, rewritten in ((9, 0), (10, 3)):
            self.setUp()
            self.hold(("slab", 0, 4096), [1, 2, 3], [length, 2, 2])
            self.book.mark = 4112
            self.assertEqual((self.book.append(0, 4), self.book.places[0]), (rewritten, ("slab", 1, 4112) if rewritten else ("slab", 0, 4096)))

    def test_padded_pages(self):
        for last, pages in ((2036, 1), (2037, 2)):
            self.setUp()
            self.book.mark = 8192
            self.hold(("pages", [[4096, 4072, ones(last - 1)]]), ones(last - 1), [2] * (last - 1))
            self.book.append(0, last)
            self.assertEqual(self.book.read(0, last), (ones(last), pages, last - 1))
            self.assertEqual(self.book.drop(0), last)
            self.book.load(0, ones(last))
            self.assertEqual(self.book.read(0, last), (ones(last), 1, 0))

    def test_own_lists_have_no_padded_number(self):
        for n in ones(300):
            self.book.append(0, 200 * n)
            self.assertEqual(self.book.read(0, n)[2], 0)
        self.book.load(1, ones(5000))
        self.book.load_tight(2, ones(20))
        self.assertEqual([self.book.read(key, 5000)[2] for key in range(4)], [0] * 4)

    def test_totals(self):
        self.assertEqual([total_told(n) for n in (257, 2**32 - 1, 2**32, 2**32 + 1)], [257, 2**32 - 1, 0, 0])
        self.book.load(0, ones(300))
        self.book.append(0, 301)
        self.assertEqual([self.book.total(0), self.book.total(1)], [301, None])

    def test_lengths_and_classes(self):
        self.assertEqual([form_len(n) for n in (0, 127, 128, 16383, 16384)], [1, 1, 2, 2, 3])
        self.assertEqual(stream_len([5, 300, 301]), 4)
        self.assertEqual([by_bytes(n) for n in (0, 1, 16, 17, 2048, 2049)], [None, 0, 0, 1, 7, None])
        self.assertEqual([with_slack(n) for n in (1, 3, 4, 255, 256, 257)], [0, 0, 1, 6, 6, None])


def of_desks(others, **some):
    """A value for each desk: those of some, named d0 to d15, and one for the others."""
    return [some.get(f"d{desk}", others) for desk in range(DESKS)]


def reserves(**some):
    return of_desks(0, **some)


def ceilings(**some):
    return of_desks(MOST_WORD, **some)


class TestDesks(Refusing):
    """Desks, for each point that the requests leave open by its smallest input; offsets in pages."""

    def begin(self, pages, mark=1, reserve=None, ceiling=None, desks=(0, 0)):
        """A book of two keys without limits but those given."""
        self.book = Book(pages * PAGE, len(desks), desks, reserve, ceiling)
        self.book.mark = int(mark * PAGE)

    def full(self, pages, mark, **limits):
        """One whose key 0 has 4,072 numbers on page 1."""
        self.begin(pages, mark, **limits)
        self.book.put(0, ones(4072), ("pages", [[PAGE, 4072, ones(4072)]]))

    def inline(self, pages, mark=1, **limits):
        """One whose key 0 holds 1."""
        self.begin(pages, mark, **limits)
        self.book.put(0, [1], ("inline",))

    def making(self, number, pages, desks=(0,), reserve=None, ceiling=None):
        """What a making in so many pages with one head is refused with, 0 for accepted."""
        try:
            book = made(pages * PAGE, 1, desks, reserve or reserves(), ceiling or ceilings())
            self.assertEqual((book.held, book.mark, book.desks), (reserves(), PAGE, list(desks)))
            got = 0
        except Refused as refused:
            got = refused.args[0]
        self.assertEqual(got, number)

    def test_every_call_is_lent_the_list(self):
        for desks in ([], [0], [0, 0, 0], [16, 0], [0, 16], [255, 255]):
            self.begin(2)
            self.book.desks = desks
            calls = ((self.book.read, 0, 9), (self.book.append, 0, 5), (self.book.load, 0, [5]), (self.book.load_tight, 0, [5]), (self.book.drop, 0))
            for call, *words in calls:
                self.refused(39, call, *words)
            self.refused(39, self.book.read, 2, 9)
        self.begin(2, desks=(15, 15))
        self.refused(2, self.book.read, 2, 9)
        self.assertEqual(self.book.append(0, 5), 0)

    def test_makings(self):
        self.making(0, 2)
        self.making(1, 2, reserve=reserves(d0=3), ceiling=ceilings(d0=3))
        self.making(39, 2, reserve=reserves(d0=2))
        self.making(0, 2, reserve=reserves(d0=1), ceiling=ceilings(d0=1))
        self.making(39, 2, reserve=reserves(d0=1), ceiling=ceilings(d0=0))
        self.making(39, 2, reserve=reserves(d3=1, d4=1))
        self.making(1, 2, reserve=reserves(d0=2**63, d1=2**63))
        self.making(0, 9, reserve=reserves(d0=4, d9=4))
        self.making(39, 9, reserve=reserves(d0=4, d9=5))
        self.making(1, 1)

    def test_lists_of_makings(self):
        for desks in ((), (0, 0), (16,)):
            self.making(39, 2, desks)
            self.making(1, 2, desks, reserve=reserves(d0=3))
        self.making(1, 1, ())

    def test_stored_limits_are_no_ground(self):
        self.begin(2, reserve=reserves(d0=1), ceiling=ceilings(d0=0))
        self.assertEqual(self.book.append(0, 5), 0)

    def test_a_slab_of_those_freed(self):
        self.inline(2, 2, reserve=reserves(d1=1))
        self.book.stacks[0] = [PAGE]
        self.refused(41, self.book.append, 0, 2)
        self.refused(41, self.book.load, 1, [1, 2])
        self.book.reserve = reserves()
        self.assertEqual(self.book.append(0, 2), 1)

    def test_what_takes_nothing(self):
        self.begin(2, 2, reserve=reserves(d1=1))
        self.assertEqual((self.book.append(0, 1), self.book.load(1, []), self.book.load(1, [7]), self.book.drop(1)), (0, 0, 0, 1))
        self.assertEqual(self.book.read(0, 1), ([1], 0, 0))
        self.full(2, 2, reserve=reserves(d1=1), ceiling=ceilings(d0=0))
        self.book.places[0][1][0][1] += 1
        self.assertEqual((self.book.append(0, 4073), self.book.drop(0)), (0, 4073))

    def test_slabs_at_the_mark(self):
        for mark, number in ((1 + 1 / 256, 0), (2 - 1 / 256, 0), (2, 41)):
            self.inline(3, mark, reserve=reserves(d1=1))
            if number:
                self.refused(number, self.book.append, 0, 2)
            else:
                self.assertEqual(self.book.append(0, 2), 1)

    def test_slabs_are_no_pages(self):
        self.inline(2, ceiling=ceilings(d0=0))
        self.assertEqual((self.book.append(0, 2), self.book.held[0]), (1, 0))

    def test_a_desk_above_its_reserve_lends_nothing(self):
        self.full(3, 2, reserve=reserves(d1=1, d2=1))
        self.book.held[1] = 2
        self.refused(41, self.book.append, 0, 4073)
        self.book.reserve = reserves(d1=1)
        self.assertEqual((self.book.append(0, 4073), self.book.held[0]), (0, 2))

    def test_the_takers_lack_falls(self):
        self.full(3, 2, reserve=reserves(d0=2))
        self.assertEqual((self.book.append(0, 4073), self.book.held[0], self.book.mark), (0, 2, 3 * PAGE))
        self.full(3, 2, reserve=reserves(d0=2, d1=1))
        self.refused(41, self.book.append, 0, 4073)

    def test_pages_of_a_drop(self):
        self.full(4, 2, desks=(5, 0))
        self.book.append(0, 4073)
        self.assertEqual((self.book.held[5], self.book.drop(0), self.book.held, self.book.stacks[8]), (2, 4073, reserves(), [PAGE, 2 * PAGE]))

    def test_runs(self):
        for reserve, number in ((reserves(), 0), (reserves(d1=1), 0), (reserves(d1=2), 41), (reserves(d0=2, d1=1), 0)):
            self.begin(5, 1 + 1 / 256, reserve=reserve, ceiling=ceilings(d0=2))
            self.refused(40, self.book.load, 0, ones(9000))
            if number:
                self.refused(number, self.book.load, 0, ones(8000))
            else:
                self.assertEqual((self.book.load(0, ones(8000)), self.book.held[0], self.book.mark), (2, 2, 4 * PAGE))

    def test_spare_and_tight_loads(self):
        self.begin(3, 2 - 1 / 256, reserve=reserves(d1=1))
        self.refused(41, self.book.load, 0, ones(4))
        self.assertEqual(self.book.load_tight(0, ones(4)), 0)

    def test_order(self):
        limits = {"ceiling": ceilings(d0=1), "reserve": reserves(d1=1)}
        self.full(3, 3, **limits)
        self.refused(36, self.book.append, 0, 4073)
        self.book.stacks[8] = [2 * PAGE]
        self.refused(40, self.book.append, 0, 4073)
        self.book.ceiling = ceilings(d0=2)
        self.refused(41, self.book.append, 0, 4073)
        self.book.reserve = reserves()
        self.assertEqual(self.book.append(0, 4073), 0)
        self.begin(3, **limits)
        self.refused(36, self.book.load, 0, ones(9000))
        self.refused(40, self.book.load, 0, ones(8000))

    def test_a_reserve_is_kept(self):
        self.book = made(5 * PAGE, 2, [0, 1], reserves(d1=2), ceilings(d1=2))
        self.book.load_tight(1, ones(256))
        self.refused(41, self.book.load, 0, ones(4073))
        self.assertEqual((self.book.load(0, ones(4072)), self.book.append(1, 257)), (1, 256))
        self.assertEqual((self.book.held[:3], self.book.places[1][1][0][0]), ([1, 1, 0], 3 * PAGE))


class TestRuns(Refusing):
    """Runs out of freed pages, for each point that the request leaves open by its smallest input; offsets in pages."""

    def begin(self, pages, mark, freed, **limits):
        """A book of four keys where pages are freed, from the top of their stack."""
        self.book = Book(pages * PAGE, 4, **limits)
        self.book.mark, self.book.stacks[8] = int(mark * PAGE), [page * PAGE for page in reversed(freed)]

    def taken(self, key, pages, tight=False):
        """Loads a run: where it begins, and what is left, from the top."""
        self.assertEqual(self.book.load(key, ones(4000 * pages), tight), pages)
        self.assertEqual([p[0] - self.book.places[key][1][0][0] for p in self.book.places[key][1]], [i * PAGE for i in range(pages)])
        return self.book.places[key][1][0][0] // PAGE, [o // PAGE for o in reversed(self.book.stacks[8])]

    def test_a_run_of_one_is_the_lowest(self):
        self.begin(4, 4, [3, 1])
        self.assertEqual(self.taken(0, 1), (1, [3]))
        self.begin(5, 5, [4, 2])
        self.book.put(0, ones(4072), ("pages", [[PAGE, 4072, ones(4072)]]))
        self.book.append(0, 4073)
        self.assertEqual((self.book.places[0][1][1][0], self.book.stacks[8]), (4 * PAGE, [2 * PAGE]))

    def test_the_lowest_stretch(self):
        for pages, begins, left in ((1, 1, [6, 4, 3, 5, 8]), (2, 3, [6, 5, 1, 8]), (3, 3, [6, 1, 8]), (4, 3, [1, 8])):
            for tight in (False, True):
                self.begin(9, 9, [6, 4, 3, 5, 1, 8])
                self.assertEqual(self.taken(0, pages, tight), (begins, left))
        self.begin(9, 9, [6, 4, 3, 5, 1, 8])
        self.refused(36, self.book.load, 0, ones(20000))

    def test_those_left_keep_their_order(self):
        self.begin(7, 7, [4, 5, 1, 3, 6])
        self.assertEqual((self.taken(0, 2), self.book.held[0]), ((3, [5, 1, 6]), 2))

    def test_the_mark_stays(self):
        self.begin(4, 2 + 1 / 256, [1])
        self.assertEqual((self.taken(0, 1), self.book.mark, self.book.stacks[:8]), ((1, []), 2 * PAGE + 16, [[]] * 8))
        self.assertEqual((self.taken(1, 1), self.book.mark), ((3, []), 4 * PAGE))

    def test_freed_pages_are_not_joined_with_those_past_the_mark(self):
        self.begin(4, 3, [2])
        self.refused(36, self.book.load, 0, ones(8000))
        self.begin(5, 3, [2])
        self.assertEqual(self.taken(0, 2), (3, [2]))

    def test_pages_apart(self):
        self.begin(5, 5, [1, 3], reserve=reserves(d0=2))
        self.refused(36, self.book.load, 0, ones(8000))
        self.assertEqual(self.taken(0, 1), (1, [3]))

    def test_limits_bind_a_run_of_freed_pages(self):
        self.begin(5, 5, [2, 3], reserve=reserves(d1=1), ceiling=ceilings(d0=1))
        self.refused(36, self.book.load, 0, ones(12000))
        self.refused(40, self.book.load, 0, ones(8000))
        self.book.ceiling = ceilings(d0=2)
        self.refused(41, self.book.load, 0, ones(8000))
        self.book.reserve = reserves()
        self.assertEqual(self.taken(0, 2), (2, []))

    def test_lowest(self):
        self.assertEqual((lowest([], 1), lowest([PAGE], 1), lowest([PAGE], 2), lowest([PAGE, 3 * PAGE], 2)), (None, PAGE, None, None))
        self.assertEqual(lowest([3 * PAGE, PAGE, 5 * PAGE, 4 * PAGE], 2), 3 * PAGE)


class TestPrograms(unittest.TestCase):
    """What programs have to write is what these scripts compute."""

    def holds(self, program):
        crate = ROOT / "crates" / program
        with open(crate / "stdin") as script:
            ran = subprocess.run([sys.executable, ROOT / "tools" / f"{program}.py"], stdin=script, capture_output=True, text=True)
        self.assertEqual(ran.stderr, "")
        self.assertEqual(ran.stdout, (crate / "stdout").read_text())

    def test_book_run(self):
        self.holds("book_run")

    def test_book_shell(self):
        self.holds("book_shell")


if __name__ == "__main__":
    unittest.main()
