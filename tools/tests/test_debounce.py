"""When a change is acted on, and a router that changes again and again."""
import unittest

from mrttools.agent.debounce import LATEST, OFTEN, QUIET, SLOW_LATEST, SLOW_QUIET, WITHIN, Debounce


def due(course: Debounce) -> float:
    found = course.due()
    assert found is not None
    return found


class WhenDue(unittest.TestCase):
    def test_after_quiet(self) -> None:
        course = Debounce()
        self.assertIsNone(course.due())
        course.note(10, {1})
        course.note(10.1, {2})
        self.assertAlmostEqual(due(course), 10.1 + QUIET)
        self.assertEqual(course.acted(10.3, {1, 2}), (10, 10.1))
        self.assertIsNone(course.due())

    def test_at_the_latest(self) -> None:
        """However often the area changes: routers in turn, each but now and then."""
        course = Debounce()
        for number in range(100):
            course.note(10 + number / 10, {number})
        self.assertEqual(course.due(), 10 + LATEST)

    def flapping(self, course: Debounce, router: int) -> float:
        """A router that changes until it is dampened; when that was."""
        for number in range(OFTEN):
            course.note(10 + number, {router})
            course.acted(10 + number, {1, 2})
        return 10 + OFTEN

    def test_a_router_that_flaps_is_dampened_alone(self) -> None:
        course = Debounce()
        now = self.flapping(course, 1)
        self.assertEqual(course.dampened(now), [1])
        course.note(now, {1})
        self.assertEqual(course.due(), now + SLOW_QUIET)
        course.note(now + 1, {2})
        self.assertAlmostEqual(due(course), now + 1 + QUIET)
        # Another one's change makes tables of all that there is.
        course.acted(now + 2, {1, 2})
        self.assertIsNone(course.due())

    def test_it_is_acted_on_all_the_same(self) -> None:
        course = Debounce()
        now = self.flapping(course, 1)
        for number in range(60):
            course.note(now + number, {1})
        self.assertEqual(course.due(), now + SLOW_LATEST)

    def test_it_stays_so_as_long_as_it_flaps(self) -> None:
        course = Debounce()
        now = self.flapping(course, 1)
        for number in range(300):
            course.note(now + number, {1})
            self.assertGreaterEqual(due(course), now + number)
            if due(course) <= now + number + 1:
                course.acted(now + number + 1, {1, 2})
        self.assertEqual(course.dampened(now + 300), [1])

    def test_many_words_of_one_change_are_one(self) -> None:
        """As a replaced LSA that goes and comes."""
        course = Debounce()
        for number in range(5 * OFTEN):
            course.note(10 + number / 100, {1})
        course.acted(12, {1})
        self.assertEqual(course.dampened(12), [])

    def test_what_is_at_hand_never_waits(self) -> None:
        course = Debounce()
        for number in range(30):
            course.note(10 + number)
            self.assertAlmostEqual(due(course), 10 + number + QUIET)
            course.acted(10 + number)

    def test_it_calms_down_and_is_forgotten(self) -> None:
        course = Debounce()
        now = self.flapping(course, 1)
        self.assertEqual(course.dampened(now + WITHIN), [])
        course.acted(now + WITHIN, {2})
        self.assertEqual(course.times, {})


if __name__ == "__main__":
    unittest.main()
