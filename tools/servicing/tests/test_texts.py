"""What is shown of states that were written by hand, on the page and in a terminal alike."""
import unittest

from servicing.texts import attention, headline, since, tables, text
from servicing.state import Queue
from servicing.tests.support import AT, CLIENTS, FULL_DISK, HELD, connection, first_state, state, troubled_state

STATUS = """\
port 7011: serving, run 12, 1,204 elements, the first 3.25 s late, 3 clients served, 1 lost run
serving for 66.7 min, as of 2026-11-26 08:00:00 UTC

Numbers
  what                                                                         value
  Elements in the queue, expired or not                                        1,204
  Time since the first element expired, below 0 before it does, 0 without one  3.25 s
  When the server last answered about its queue                                2026-11-26 07:59:59
  Elements offered a second, in the last minute                                1,234.50
  Elements given, removed or cleared a second, in the last minute              0.25
  Failures a second, in the last run that ended in good order                  1.11
  Clients that have a worker                                                   3
  Clients that wait for a worker                                               1
  Clients that have sent nothing for 10 seconds                                1
  The longest of these silences, or 0                                          12.1 min
  Clients that do not read their replies                                       1
  Clients that can be served at once                                           8
  Elements that were offered, including jobs that came back                    600,000
  Elements that were given, removed or cleared                                 590,000
  Jobs that failed and came back, in runs that ended in good order             16,345
  Runs in this folder, including this one                                      12
  When the run began                                                           2026-11-26 06:53:20
  Elements with which the run began                                            1,200
  Elements beyond those that an opening may have, which wait in a file         7
  Calls that the run can have used when last seen                              400,000
  Calls for which the run has room                                             1,000,000
  Time between the last two runs without a server for new clients              310 ms
  Sessions that were cut at the end of the last run                            0
  Jobs of the last run that failed and could not come back                     0
  Runs in this folder that were lost                                           1
  Jobs in this folder that failed in a full run, and could not come back       0
  When the last run that was lost ended                                        2026-11-26 05:53:20
  How long that run had lasted                                                 23.3 min
  Elements with which that run began                                           900
  Bytes of files that could not be written yet                                 0

Clients
  client  last heard    not read by it  not read by the server
  41001   12.1 min ago  0 B             0 B                     says nothing
  41004   30.0 s ago    163,298 B       7 B                     does not read
  41003   2.00 s ago    0 B             7 B                     waits for a worker
  41000   100 ms ago    0 B             0 B                     has hung up

This run
  run  began                lasted    at the start  calls    left
  12   2026-11-26 06:53:20  66.7 min  1,200         400,000  1,204  still running

Runs that have ended
  run  began                lasted    at the start  calls      left   how it ended
  11   2026-11-26 05:53:20  60.0 min  900           250,000    1,200  its time was up; new clients waited 310 ms
  10   2026-11-26 05:30:00  23.3 min  900           ?          ?      lost: its server was killed; the next run began \
with the same 900 elements; new clients waited 1.25 s
  9    2026-11-25 07:00:00  22.5 h    0             1,000,000  900    few calls were left; new clients waited 61.5 s; \
1 session cut; 3 jobs lost, which failed and could not come back, since the run was full
"""


class TextsTest(unittest.TestCase):
    maxDiff = None

    def test_a_service_with_runs_behind_it(self) -> None:
        self.assertEqual(text(state()), STATUS)

    def test_what_needs_attention(self) -> None:
        it = troubled_state()
        self.assertEqual(since(it), "ending for 42.0 s (few calls were left), as of 2026-11-26 08:00:00 UTC")
        self.assertTrue(headline(it).startswith("3 alerts, ending, run 12, 987,654 elements, the first 24.0 h late, "))
        told = attention(it)
        self.assertEqual(told[1:4], [
            "Run 10 was lost after 23 min: its opening had 900 elements. (since 2026-11-26 05:53:20 UTC)",
            f"{FULL_DISK.text} (since 2026-11-26 06:53:20 UTC)",
            "the service waits: client 42000"])
        self.assertEqual(text(it).splitlines()[2:9], [*(f"! {it}" for it in told), ""])

    def test_what_is_not_known_is_left_out(self) -> None:
        numbers, clients, run, runs = tables(first_state())
        self.assertEqual(headline(first_state()), "starting")
        self.assertEqual([row[1] for row in numbers.rows], ["0"] * 7)
        self.assertEqual((clients.rows, run.rows, runs.rows), ([], [], []))

    def test_lateness(self) -> None:
        for late, says in ((-65.0, "-65.0 s"), (0.0, "0 ns"), (0.004, "4.00 ms"), (86_400.5, "24.0 h")):
            self.assertEqual(tables(state(queue=Queue(AT, 1, late)))[0].rows[1][1], says)

    def test_more_than_are_listed(self) -> None:
        waiting = tuple(connection(40_000 + it, is_served=False) for it in range(130))
        _, clients, _, runs = tables(state(clients=CLIENTS + waiting, runs=(HELD,) * 105))
        self.assertEqual([len(it.rows) for it in (clients, runs)], [32, 100])
        self.assertEqual([*clients.notes, *runs.notes], ["102 more are not listed.", "5 more are not listed."])
