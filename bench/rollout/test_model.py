"""The model beside closed forms: fleets so simple that each time and each sum of bytes can be written down."""
import dataclasses
import unittest

from rollout.costs import Costs, response_bytes, response_frame
from rollout.measure import fitted, solved
from rollout.model import Fleet, Outcome, Rollout, nth

# a link of 1,000 bytes a second, and responses that it carries in a tenth of a second
PLAIN = Fleet(proxies=200, bandwidth=1000.0, response_bytes=100, ack_bytes=10, nack_bytes=20, first_request_bytes=30,
              admit_seconds=0.0)


def outcome(**changes) -> Outcome:
    return Rollout(dataclasses.replace(PLAIN, **changes)).run()


class OneLink(unittest.TestCase):
    """n proxies over one link of b bytes a second: the k-th of them has s bytes after k times s / b seconds."""

    def test_the_kth_proxy(self):
        for k, time in enumerate(outcome().taken, 1):
            self.assertAlmostEqual(time, k * 0.1, places=9)

    def test_shares(self):
        got = outcome()
        for share, wanted in ((0.5, 10.0), (0.99, 19.8), (1, 20.0)):
            self.assertAlmostEqual(got.reached(share), wanted, places=9)

    def test_twice_the_bandwidth_takes_half_the_time(self):
        self.assertAlmostEqual(outcome(bandwidth=2000.0).reached(1), 10.0, places=9)

    def test_time_on_the_way_and_judging_add_to_each(self):
        got = outcome(round_trip=0.4, admit_seconds=3.0)
        for k, time in enumerate(got.taken, 1):
            self.assertAlmostEqual(time, k * 0.1 + 0.2 + 3.0, places=9)

    def test_the_time_for_each_response_counts_where_it_is_the_greater(self):
        self.assertAlmostEqual(outcome(send_seconds=0.25).reached(1), 200 * 0.25, places=9)
        self.assertAlmostEqual(outcome(send_seconds=0.05).reached(1), 200 * 0.1, places=9)

    def test_bytes(self):
        got = outcome()
        self.assertEqual((got.bytes_sent, got.bytes_received, got.refusals), (200 * 100, 200 * 10, 0))

    def test_it_ends_with_the_last_answer(self):
        # judged at 20.0, half a round trip back, ten bytes
        self.assertAlmostEqual(outcome(round_trip=0.4).ended, 20.0 + 0.2 + 0.2, places=9)

    def test_a_link_without_limit(self):
        got = outcome(bandwidth=1e15, round_trip=0.4, admit_seconds=3.0)
        self.assertAlmostEqual(got.reached(0.5), 3.2, places=6)
        self.assertAlmostEqual(got.reached(1), 3.2, places=6)


class Losses(unittest.TestCase):
    def alone(self, **changes):
        """One proxy that loses its stream at once, on a link without limit."""
        return outcome(proxies=1, losing=1.0, bandwidth=1e15, **changes)

    def test_the_first_try_that_reaches_the_control_plane(self):
        # tries at 0.25, and 0.5, 1, 2, 4 later: 0.75, 1.75, 3.75, 7.75
        for outage, wanted in ((0.0, 0.25), (0.2, 0.25), (0.3, 0.75), (1.0, 1.75), (3.0, 3.75), (4.0, 7.75)):
            self.assertAlmostEqual(self.alone(outage=outage).reached(1), wanted, places=6)

    def test_the_wait_is_doubled_up_to_the_greatest(self):
        # 1, 2, 4, 4, 4 seconds: tries at 1, 3, 7, 11, 15
        got = self.alone(outage=12.0, first_backoff=1.0, greatest_backoff=4.0)
        self.assertAlmostEqual(got.reached(1), 15.0, places=6)

    def test_a_connection_and_a_request_take_two_round_trips(self):
        self.assertAlmostEqual(self.alone(round_trip=0.4, admit_seconds=3.0).reached(1), 0.25 + 2 * 0.4 + 3.0, places=6)

    def test_bytes(self):
        got = self.alone()
        self.assertTrue(100 <= got.bytes_sent < 200)
        self.assertEqual(got.bytes_received, 30 + 10)

    def test_half_of_a_lost_response_is_sent_on_average(self):
        got = outcome(proxies=20_000, losing=1.0, bandwidth=1e15)
        self.assertAlmostEqual(got.bytes_sent / 20_000, 100 + 49.5, delta=1.0)

    def test_the_others_do_not_wait(self):
        got = outcome(losing=0.25, outage=100.0)
        self.assertLess(got.reached(0.75), 150 * 0.1 + 50 * 0.1)
        self.assertGreater(got.reached(0.76), 100.0)


class Refusals(unittest.TestCase):
    def test_all_refuse(self):
        got = outcome(refusing=1.0)
        self.assertEqual((got.taken, got.refusals, len(got.refused)), ([], 200, 200))
        self.assertEqual((got.bytes_sent, got.bytes_received), (200 * 100, 200 * 20))
        self.assertAlmostEqual(nth(got.refused, 200), 20.0, places=9)
        self.assertIsNone(got.reached(0.5))

    def test_some_refuse(self):
        got = outcome(refusing=0.1)
        self.assertEqual((len(got.taken), got.refusals), (180, 20))
        self.assertIsNotNone(got.reached(0.9))
        self.assertIsNone(got.reached(0.91))
        self.assertEqual(got.bytes_received, 180 * 10 + 20 * 20)

    def test_a_control_plane_that_sends_again(self):
        # on a link without limit each proxy judges at 0, 1, 2 .. 10 seconds; the answer at 10 comes after the end
        got = outcome(refusing=1.0, bandwidth=1e15, nack_pause=1.0, sends_again=9.5)
        self.assertEqual(got.refusals, 200 * 11)
        self.assertEqual((got.bytes_sent, got.bytes_received), (got.refusals * 100, got.refusals * 20))

    def test_without_a_pause_the_round_trip_alone_slows_it(self):
        got = outcome(proxies=1, refusing=1.0, bandwidth=1e15, round_trip=0.5, nack_pause=0.0, sends_again=5.1)
        # judged at 0.25, 0.75 ..; an answer arrives at 0.5, 1.0 .. 5.0, and the response to the last is judged too
        self.assertEqual(got.refusals, 11)

    def test_the_link_slows_it_where_it_is_full(self):
        # 200 proxies of 0.1 s each: a round takes 20 s, more than the pause
        got = outcome(refusing=1.0, nack_pause=1.0, sends_again=60.0)
        self.assertAlmostEqual(got.bytes_sent / 1000.0, 60.0 + 20.0, delta=0.5)


class Words(unittest.TestCase):
    def test_the_same_seed_gives_the_same(self):
        one, two, other = (outcome(losing=0.3, outage=2.0, seed=seed) for seed in (5, 5, 6))
        self.assertEqual(one, two)
        self.assertNotEqual(one.taken, other.taken)

    def test_faults(self):
        for changes, fault in (({"losing": 1.5}, "losing is above 1"), ({"proxies": 0}, "proxies is zero"),
                               ({"outage": -1.0}, "outage is below zero"), ({"first_backoff": 40.0}, "above greatest_backoff")):
            with self.assertRaisesRegex(ValueError, fault):
                Rollout(dataclasses.replace(PLAIN, **changes))

    def test_nth(self):
        self.assertEqual([nth([1.0, 2.0], count) for count in range(4)], [0.0, 1.0, 2.0, None])


class Sizes(unittest.TestCase):
    def test_the_time_of_a_response(self):
        costs = Costs(1, 2, 3, response_seconds=1.0, filter_seconds=0.1, policy_seconds=0.01, decide_seconds=0.0)
        self.assertAlmostEqual(costs.admit_seconds(3, 20), 1.0 + 3 * (0.1 + 20 * 0.01))

    def test_the_bytes_of_a_response(self):
        self.assertEqual(response_bytes(2, 10), len(response_frame(2, 10)))
        self.assertEqual(response_frame(2, 10), response_frame(2, 10))
        # a further filter of the same size adds the same bytes
        self.assertEqual(response_bytes(3, 10) - response_bytes(2, 10), response_bytes(4, 10) - response_bytes(3, 10))

    def test_a_response_that_no_proxy_reads(self):
        with self.assertRaisesRegex(ValueError, "at most 1,048,576"):
            response_bytes(8, 2000)


class Fits(unittest.TestCase):
    def test_equations(self):
        # x + y + z = 6, 2y + 5z = -4, 2x + 5y - z = 27: by hand x = 5, y = 3, z = -2
        for found, wanted in zip(solved([[1, 1, 1, 6], [0, 2, 5, -4], [2, 5, -1, 27]]), (5, 3, -2)):
            self.assertAlmostEqual(found, wanted)

    def test_measures_that_fit_exactly(self):
        rows = [((filters, policies), 1e-4 + filters * (2e-5 + policies * 3e-6))
                for filters, policies in ((1, 1), (1, 64), (1, 256), (4, 64), (8, 1), (8, 128))]
        for found, wanted in zip(fitted(rows), (1e-4, 2e-5, 3e-6)):
            self.assertAlmostEqual(found / wanted, 1)

    def test_no_part_is_below_zero(self):
        rows = [((1, 1), 1e-3), ((1, 64), 64e-3), ((1, 256), 254e-3), ((8, 1), 9e-3)]
        self.assertTrue(all(part >= 0 for part in fitted(rows)))


if __name__ == "__main__":
    unittest.main()
