"""That acts of daemons are put in order, and that what has none is told."""
import struct
import unittest

import context
from hags_tools import acts


def call(at, name, node=0, number=0):
    """A line of strace: a send or a receive of the only piece of a message; a receive of node 0 brings nothing."""
    if not node:
        return f"{at:.6f} recvfrom(3, 0x1, 65536, 0, 0x2, [16]) = -1 EAGAIN (Resource temporarily unavailable) <0.020000>"
    piece = struct.pack(">B2sBBIQII", 1, b"RP", node, 0, 1, number, 0, 1) + b"RG\x01\x01"
    data = "".join(f"\\x{byte:02x}" for byte in piece)
    return f'{at:.6f} {name}(3, "{data}", 65536, 0, NULL) = {len(piece)} <0.000010>'


class Acts(unittest.TestCase):
    def test_ticks_that_cross_have_an_order(self):
        """Each sends in its tick, and receives in the same turn what the other's tick sent."""
        first = [call(1.0, "recvfrom"), call(2.0, "sendto", 1, 1), call(2.5, "recvfrom", 2, 1)]
        second = [call(1.1, "recvfrom"), call(2.1, "sendto", 2, 1), call(2.6, "recvfrom", 1, 1)]
        said = acts.found([first, second])
        self.assertIn("order  6 acts of 2 daemons: 2 of 2 datagrams", said[0])
        self.assertIn("1 sets of whole turns wait for each other, 2 turns in them", said[2])

    def test_what_is_received_before_it_is_sent_has_none(self):
        """Each receives what the other sends behind that."""
        first = [call(2.0, "recvfrom", 2, 1), call(2.5, "sendto", 1, 1)]
        second = [call(2.1, "recvfrom", 1, 1), call(2.6, "sendto", 2, 1)]
        with self.assertRaises(acts.Wrong):
            acts.found([first, second])

    def test_times_against_the_order_are_told(self):
        """There is an order by who sent what, and it is not that of the times."""
        first = [call(5.0, "recvfrom"), call(6.0, "sendto", 1, 1)]
        second = [call(2.0, "recvfrom", 1, 1)]
        with self.assertRaises(acts.Wrong):
            acts.found([first, second])

    def test_traces_in_which_nothing_came_are_no_answer(self):
        with self.assertRaises(acts.Unknown):
            acts.found([[call(1.0, "recvfrom")], [call(1.0, "recvfrom")]])


if __name__ == "__main__":
    unittest.main()
