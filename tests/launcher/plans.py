"""The order of a build, and what it is reckoned from."""

import subprocess
import sys
import unittest

from maplabel_launch import machine, schedule

MUCH = 1000 * schedule.GIGABYTE
TENTH = schedule.GIGABYTE // 10


def steps(**told: tuple[int | str, ...]) -> dict[str, schedule.Step]:
    """Steps by name, each as (its work, the crates that it waits for); one prover takes a
    gigabyte.
    """
    found = {}
    for name, (work, *uses) in told.items():
        below = tuple(map(str, uses))
        found[name] = schedule.Step(below, int(work), schedule.GIGABYTE)
    return found


def begun(plan: schedule.Plan, **jobs: int) -> dict[str, schedule.Check]:
    """Checks with so many provers that have just begun."""
    return {name: schedule.Check(count, plan.steps[name].work) for name, count in jobs.items()}


class Order(unittest.TestCase):
    def test_longest_chain_first(self) -> None:
        plan = schedule.Plan(
            steps(a=(900,), b=(10,), c=(10, "b"), d=(900, "c"), e=(900, "d")), 1, MUCH
        )
        self.assertEqual(plan.next(set(), {}, MUCH), ("b", 1))
        self.assertEqual(plan.next({"b"}, {}, MUCH), ("c", 1))
        self.assertEqual(plan.next({"b", "c", "d", "e"}, {}, MUCH), ("a", 1))

    def test_waits_for_what_it_uses(self) -> None:
        plan = schedule.Plan(steps(a=(10,), b=(10, "a")), 4, MUCH)
        self.assertIsNone(plan.next(set(), begun(plan, a=1), MUCH))
        self.assertEqual((plan.next({"a"}, {}, MUCH) or ("none", 0))[0], "b")

    def test_no_more_crates_than_processors(self) -> None:
        plan = schedule.Plan(steps(a=(10,), b=(20,), c=(30,)), 2, MUCH)
        self.assertEqual(plan.next(set(), {}, MUCH), ("c", 2))
        self.assertEqual(plan.next(set(), begun(plan, c=2), MUCH), ("b", 1))
        self.assertIsNone(plan.next(set(), begun(plan, c=2, b=1), MUCH))

    def test_provers(self) -> None:
        for processors, provers in ((1, 1), (2, 2), (3, 3), (4, 3), (8, 3)):
            with self.subTest(processors=processors):
                plan = schedule.Plan(steps(a=(10,), b=(20,), c=(30,)), processors, MUCH)
                self.assertEqual(plan.next(set(), {}, MUCH), ("c", provers))
        # what is far shorter has one, and beside as many of those as there are processors but one
        # the longest has several
        plan = schedule.Plan(steps(a=(10,), b=(20,), c=(30,), d=(5,), e=(5,)), 4, MUCH)
        self.assertEqual(plan.next(set(), begun(plan, c=3), MUCH), ("b", 1))
        self.assertEqual(plan.next(set(), begun(plan, b=1, d=1, e=1), MUCH), ("c", 3))
        self.assertEqual(plan.next(set(), begun(plan, a=1, b=1, d=1, e=1), MUCH), ("c", 3))

    def test_two_chains_of_one_length(self) -> None:
        plan = schedule.Plan(steps(a=(100,), b=(99,), c=(90,)), 4, MUCH)
        # the second has what the first and the third leave
        self.assertEqual(plan.next(set(), {}, MUCH), ("a", 3))
        self.assertEqual(plan.next(set(), begun(plan, a=3), MUCH), ("b", 1))
        self.assertEqual(plan.next(set(), begun(plan, a=2), MUCH), ("b", 2))
        self.assertEqual(plan.next(set(), begun(plan, a=3, b=1), MUCH), ("c", 1))

    def test_what_has_little_left_takes_little(self) -> None:
        plan = schedule.Plan(steps(a=(100,), b=(100,), c=(100,), d=(100,)), 4, MUCH)
        # (all three at work are near: so much is behind each that its chain is as long as the
        # other)
        for left, provers in ((100, 2), (50, 3)):
            with self.subTest(left=left):
                plan.behind.update(dict.fromkeys("bcd", 200 - left))
                at_work = {it: schedule.Check(1, left) for it in "bcd"}
                self.assertEqual(plan.next(set(), at_work, MUCH), ("a", provers))


class Niceness(unittest.TestCase):
    # the chains behind these take 1200, 1000, 900, 500 and 200
    PLAN = schedule.Plan(
        steps(a=(200,), b=(1000, "a"), c=(900, "a"), d=(500, "a"), e=(200, "a")), 4, MUCH
    )

    def test_longest_chain_gives_way_to_none(self) -> None:
        self.assertEqual(self.PLAN.niceness("a", set(), {}), 0)
        self.assertEqual(self.PLAN.niceness("b", {"a"}, {}), 0)

    def test_shorter_chains_give_way(self) -> None:
        # a tenth shorter, which is near, half as long, and less than that
        self.assertEqual([self.PLAN.niceness(it, {"a"}, {}) for it in "cde"], [0, 19, 19])

    def test_what_is_longest_once_others_are_done(self) -> None:
        self.assertEqual([self.PLAN.niceness(it, {"a", "b"}, {}) for it in "cde"], [0, 14, 19])
        self.assertEqual(self.PLAN.niceness("e", {"a", "b", "c", "d"}, {}), 0)

    def test_what_is_left_of_those_at_work(self) -> None:
        # of b so much is left: c's chain is shorter by 50 of 950 and d's by 450, or c's is the
        # longest
        for left, more in ((1000, [0, 19]), (950, [0, 17]), (900, [0, 14]), (400, [0, 14])):
            with self.subTest(left=left):
                running = {"b": schedule.Check(3, left)}
                self.assertEqual([self.PLAN.niceness(it, {"a"}, running) for it in "cd"], more)


class AtWork(unittest.TestCase):
    """What begins beside others at work on four processors."""

    def test_chain_that_has_become_the_longest(self) -> None:
        # the chains take 15600 and 14000, and once repair has 150 of its 3000 left, 12750 and 14000
        told = steps(
            repair=(3000,), json=(1400,), editor=(2600, "repair", "json"), rest=(10000, "editor")
        )
        plan = schedule.Plan(told, 4, MUCH)
        running = begun(plan, repair=3)
        self.assertEqual(
            (plan.next(set(), running, MUCH), plan.niceness("json", set(), running)),
            (("json", 1), 0),
        )
        running["repair"] = schedule.Check(3, 150)
        self.assertEqual(
            (plan.next(set(), running, MUCH), plan.niceness("json", set(), running)),
            (("json", 3), 0),
        )

    def test_no_more_provers_than_find_a_processor(self) -> None:
        plan = schedule.Plan(steps(a=(100,), b=(100,), c=(90,), d=(90,), e=(50,)), 4, MUCH)
        # b, c and d take one each, so that a has one, of which a second prover finds a part; e is
        # not near
        self.assertEqual(plan.next(set(), begun(plan, b=1), MUCH), ("a", 2))
        self.assertEqual(plan.next({"d"}, begun(plan, b=1), MUCH), ("a", 3))
        self.assertEqual(plan.next({"c", "d"}, begun(plan, b=1, e=1), MUCH), ("a", 3))
        self.assertEqual(plan.next(set(), begun(plan, b=2), MUCH), ("a", 1))

    def test_far_crates_take_no_place(self) -> None:
        plan = schedule.Plan(steps(a=(1000,), b=(800,), c=(760,), d=(750,), e=(740,)), 4, MUCH)
        # the near ones begin also where all processors are busy, by 2.4 + 1 + 1
        self.assertEqual(plan.next(set(), begun(plan, a=3, b=1, c=1), MUCH), ("d", 1))
        self.assertIsNone(plan.next({"d"}, begun(plan, a=3, b=1, c=1), MUCH))
        self.assertEqual(plan.next({"d"}, begun(plan, a=2, b=1, c=1), MUCH), ("e", 1))
        self.assertEqual(plan.next({"c", "d"}, begun(plan, a=3, b=1), MUCH), ("e", 1))

    def test_near_crates_wait_for_near_ones_alone(self) -> None:
        plan = schedule.Plan(
            steps(a=(1000,), b=(900,), c=(100,), d=(100,), e=(100,), f=(100,)), 4, MUCH
        )
        far = begun(plan, c=1, d=1, e=1, f=1)
        self.assertEqual(plan.next({"a"}, far, MUCH), ("b", 3))
        self.assertEqual(plan.next(set(), {**far, **begun(plan, a=3)}, MUCH), ("b", 1))
        plan = schedule.Plan(steps(a=(100,), b=(100,), c=(100,)), 2, MUCH)
        self.assertIsNone(plan.next(set(), begun(plan, a=1, b=1), MUCH))


class Memory(unittest.TestCase):
    """One prover takes a gigabyte here, two take 1.3 and three 1.7."""

    def setUp(self) -> None:
        self.plan = schedule.Plan(steps(a=(100,), b=(200,), c=(900,)), 8, 30 * TENTH)

    def test_fewer_provers(self) -> None:
        self.assertEqual(self.plan.next(set(), {}, MUCH), ("c", 3))
        self.assertEqual(self.plan.next(set(), {}, 17 * TENTH), ("c", 3))
        self.assertEqual(self.plan.next(set(), {}, 16 * TENTH), ("c", 2))
        self.assertEqual(self.plan.next(set(), begun(self.plan, b=1), MUCH), ("c", 3))
        self.assertEqual(self.plan.next(set(), begun(self.plan, b=1, a=1), MUCH), ("c", 1))

    def test_nothing_beyond_what_is_free(self) -> None:
        # by what is reckoned for those at work, and by what the machine has now
        self.assertEqual(self.plan.next(set(), begun(self.plan, c=3), MUCH), ("b", 1))
        self.assertIsNone(self.plan.next(set(), begun(self.plan, c=3, b=1), MUCH))
        self.assertEqual(self.plan.next(set(), begun(self.plan, c=1), 10 * TENTH), ("b", 1))
        self.assertIsNone(self.plan.next(set(), begun(self.plan, c=1), 9 * TENTH))

    def test_smaller_crate_where_the_larger_does_not_fit(self) -> None:
        self.plan.steps["b"] = self.plan.steps["b"]._replace(memory=20 * TENTH)
        self.assertEqual(self.plan.next(set(), begun(self.plan, c=3), MUCH), ("a", 1))

    def test_first_begins_where_there_is_never_enough(self) -> None:
        self.assertEqual(schedule.Plan(steps(a=(10,)), 8, 0).next(set(), {}, 0), ("a", 1))


class Reckoning(unittest.TestCase):
    def test_own_lines_and_those_below(self) -> None:
        small, large, high = (
            schedule.step_of(("a",), lines, below)
            for lines, below in ((100, 0), (300, 0), (100, 10000))
        )
        self.assertEqual(small.uses, ("a",))
        # the start, each line, and each line below by its part
        self.assertEqual([it.work for it in (small, large, high)], [150, 350, 550])
        self.assertLess(small.memory, large.memory)
        self.assertLess(small.memory, high.memory)

    def test_measured_seconds(self) -> None:
        # whatever the lines; memory is reckoned by these
        new, old = schedule.step_of(("a",), 100, 0), schedule.step_of(("a",), 100, 0, 20.0)
        self.assertEqual((old.work, old.memory), (20 * schedule.LINES_A_SECOND, new.memory))


class Guess(unittest.TestCase):
    def test_what_is_left(self) -> None:
        plan = schedule.Plan(steps(a=(400,), b=(300,)), 2, MUCH)
        # of the two processors, 1.7 for the longer chain and 0.3 for the other, each for 10 seconds
        # at 10 lines
        found = plan.checks({"b": (1, 10.0), "a": (2, 10.0)}, 10)
        self.assertEqual([found[it].jobs for it in "ab"], [2, 1])
        self.assertAlmostEqual(found["a"].left, 230)
        self.assertAlmostEqual(found["b"].left, 270)
        # a twentieth is left of what takes longer than was reckoned, and all where the rate is not
        # known yet
        self.assertEqual(plan.checks({"a": (1, 1000.0)}, 10), {"a": schedule.Check(1, 20)})
        self.assertEqual(plan.checks({"a": (1, 1000.0)}, 0.0), {"a": schedule.Check(1, 400)})

    def test_one_after_another(self) -> None:
        plan = schedule.Plan(steps(a=(200,), b=(400, "a")), 1, MUCH)
        # at 10 lines a second
        self.assertAlmostEqual(plan.seconds_left(set(), {}, 10), 60)
        self.assertAlmostEqual(plan.seconds_left(set(), plan.checks({"a": (1, 5.0)}, 10), 10), 55)
        self.assertAlmostEqual(plan.seconds_left({"a"}, {}, 10), 40)

    def test_several_provers(self) -> None:
        plan = schedule.Plan(steps(a=(400,)), 4, MUCH)
        self.assertAlmostEqual(plan.seconds_left(set(), {}, 10), 40 / schedule.BUSY[3])

    def test_shorter_chain_has_what_is_left(self) -> None:
        plan = schedule.Plan(steps(a=(600,), b=(400,)), 2, MUCH)
        two = schedule.BUSY[2]
        self.assertEqual(plan.processors_of({"b": 1, "a": 2}), {"a": two, "b": 2 - two})
        # 60 seconds of one processor for a; then b has had its part of the other, and goes on by
        # its one prover
        first = 60 / two
        self.assertAlmostEqual(plan.seconds_left(set(), {}, 10), first + 40 - first * (2 - two))

    def test_late(self) -> None:
        plan = schedule.Plan(steps(a=(400,)), 1, MUCH)
        self.assertGreater(plan.seconds_left(set(), plan.checks({"a": (1, 1000.0)}, 10), 10), 0)
        self.assertEqual(plan.seconds_left({"a"}, {}, 10), 0)


class Machine(unittest.TestCase):
    def test_time_of_what_has_ended(self) -> None:
        before = machine.spent_by_ended()
        process = subprocess.Popen(
            [sys.executable, "-c", "import time\nwhile time.process_time() < 0.3: pass"]
        )
        self.assertEqual(machine.spent_by_ended(), before)
        process.wait()
        self.assertGreater(machine.spent_by_ended() - before, 0.25)
