"""What is a packet and a piece, and scripts by chance, which are the same everywhere."""
import hashlib
import unittest

import context
from hags_tools import packets, random_scripts


class Packets(unittest.TestCase):
    def test_samples(self):
        found = packets.samples(2, 1, 1, 1)
        self.assertEqual({name.split(" ")[0] for name in found}, set(packets.KINDS.values()))
        for name, packet in found.items():
            self.assertTrue(packets.is_packet(packet), name)
            self.assertFalse(packets.is_packet(packet[:-1]), name)
            self.assertFalse(packets.is_packet(packet + b"\0"), name)

    def test_pieces(self):
        found = packets.pieces(2, 1, 9, bytes(packets.PIECE_DATA + 1))
        self.assertEqual([len(piece) for piece in found], [24 + packets.PIECE_DATA, 25])
        self.assertTrue(all(map(packets.is_piece, found)))
        for broken in (found[0][:-1], found[0] + b"\0", found[1][:-1], found[1] + bytes(packets.PIECE_DATA)):
            self.assertFalse(packets.is_piece(broken))


class Scripts(unittest.TestCase):
    def test_a_seed_is_a_script(self):
        digest = hashlib.sha256("".join(map(random_scripts.random_script, range(20))).encode()).hexdigest()
        self.assertEqual(digest[:16], "6077ab07c9072ad1")


if __name__ == "__main__":
    unittest.main()
