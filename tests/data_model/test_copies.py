"""Copies: how they compare by view and position, and how they come and go."""
import unittest

from data_model.copies import Began, Copy, Told
from data_model.play import Whole


def copy(writes, *views):
    """A whole, durable copy of these writes."""
    made = Copy()
    made.put(list(writes), [Began(*it) for it in views], True)
    return made


OLD = copy([7, 8], (0, 0))
NEW = copy([7, 9, 10], (0, 0), (5, 1))


class Comparing(unittest.TestCase):
    """Views and positions."""

    def test_the_later_view_is_greater_and_then_the_longer_copy(self):
        self.assertEqual(max(Told(0, 9), Told(5, 1), Told(5, 2)), Told(5, 2))

    def test_a_beginning_ends_where_the_next_view_begins(self):
        self.assertTrue(NEW.begins_with(Told(0, 1)))
        self.assertFalse(NEW.begins_with(Told(0, 2)))
        self.assertTrue(NEW.begins_with(Told(5, 3)))
        self.assertFalse(NEW.begins_with(Told(5, 4)))
        self.assertFalse(NEW.begins_with(Told(3, 1)))

    def test_what_is_told_is_durable(self):
        it = copy([7], (0, 0))
        it.writes.append(8)
        self.assertEqual((it.told(), it.all, it.told(is_flushed=False)), (Told(0, 1), Told(0, 2), Told(0, 2)))
        self.assertEqual(it.sent(durable_first=True).writes, [7])
        it.flush()
        self.assertEqual(it.told(), Told(0, 2))
        self.assertIsNone(Copy().told())


class Following(unittest.TestCase):
    """A copy that comes."""

    def take(self, mine, source, most=9, **rules):
        """Mine gets some of the source."""
        mine.take(source, min(most, source.position), **{"resumes": True, "waits": True, "beside": True} | rules)
        return mine

    def test_a_beginning_goes_on(self):
        mine = self.take(copy([7], (0, 0)), NEW, most=2)
        self.assertEqual((mine.writes, mine.all), ([7, 9], Told(5, 2)))

    def test_a_view_comes_with_all_writes_before_it(self):
        later = copy([7, 9], (0, 0), (5, 2))
        self.assertEqual(self.take(copy([7], (0, 0)), later, most=1).all, Told(0, 1))
        self.assertEqual(self.take(copy([7], (0, 0)), later, most=1, in_turn=False).all, Told(5, 1))
        self.assertEqual(self.take(copy([7], (0, 0)), later).all, Told(5, 2))

    def test_another_list_is_copied_beside(self):
        mine = self.take(copy([7, 8], (0, 0)), NEW, most=1)
        self.assertEqual((mine.all, mine.part.position), (Told(0, 2), 1))
        self.take(mine, NEW)
        self.assertEqual((mine.writes, mine.part, mine.all), ([7, 9, 10], None, Told(5, 3)))

    def test_who_has_more_waits(self):
        self.assertEqual(self.take(copy([7, 9, 10], (0, 0), (5, 1)), OLD).all, Told(5, 3))

    def test_nothing_is_whole_only_at_the_end(self):
        mine = self.take(Copy(), NEW, most=2)
        self.assertEqual((mine.all, mine.told(tells_part=True)), (None, Told(5, 2)))
        self.assertEqual(self.take(mine, NEW).all, Told(5, 3))


class Losing(unittest.TestCase):
    """Crashes, and disks that go back."""

    def test_a_crash_loses_what_is_not_durable(self):
        it = copy([7], (0, 0))
        it.writes += [8, 9]
        self.assertEqual(it.crash(Whole()), [8, 9])
        self.assertEqual(it.all, Told(0, 1))
        self.assertEqual(it.crash(Whole()), [])

    def test_a_disk_that_went_back_is_in_doubt_until_it_has_all(self):
        it = copy([7, 9, 10], (0, 0), (5, 1))
        self.assertEqual(it.go_back(2), [10])
        self.assertEqual((it.all, it.doubted()), (None, Told(5, 2)))
        it.take(NEW, 3, resumes=True, waits=True, beside=True)
        self.assertEqual((it.all, it.doubted()), (Told(5, 3), None))


if __name__ == "__main__":
    unittest.main()
