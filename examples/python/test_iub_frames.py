#!/usr/bin/env python3
"""Checks the Iub frames of another implementation by a Node B of dch, under unittest or pytest. In place of `frame` put
a call of the implementation. PYTHONPATH has tools/dchtools."""
import unittest
from pathlib import Path

from dchtools import Iub, IubBad, Node

TEXT = (Path(__file__).parent.parent / 'speech.toml').read_text()


def frame(cfn: int, tfi: int, blocks: bytes) -> bytes:
    """A downlink frame of a set of one channel. The checks are made by division, bit after bit."""
    def divided(bits: str, polynomial: str) -> str:
        register = list(bits + '0' * (len(polynomial) - 1))
        for at in range(len(bits)):
            if register[at] == '1':
                for i, term in enumerate(polynomial):
                    register[at + i] = '01'[register[at + i] != term]
        return ''.join(register[len(bits):])
    header = divided(f'0{cfn:08b}{tfi:08b}', '11000101') + '0'
    check = divided(''.join(f'{octet:08b}' for octet in blocks), '11000000000000101') if blocks else '0' * 16
    return bytes([int(header, 2), cfn, tfi]) + blocks + int(check, 2).to_bytes(2)


class OtherFrames(unittest.TestCase):
    def test_frames_are_taken(self) -> None:
        with Node('nodeb', TEXT) as node_b:
            for number in range(4):
                self.assertEqual(node_b.iub(1, frame(4 * number, 1, bytes(range(19)))), [])
            self.assertEqual(node_b.iub(1, frame(0, 0, b'')), [])

    def test_changed_bits_are_seen(self) -> None:
        whole = frame(8, 1, bytes(range(19)))
        with Node('nodeb', TEXT) as node_b:
            for place in range(8 * len(whole)):
                octets = bytearray(whole)
                octets[place // 8] ^= 128 >> place % 8
                number = 3 if place == 7 else 2 if place < 24 else 6
                self.assertEqual(node_b.iub(1, bytes(octets)), [IubBad('down', 1, number)], f'bit {place}')

    def test_frames_of_dch_are_the_same(self) -> None:
        with Node('rnc', TEXT) as rnc:
            rnc.unit(4, b'hello')
            sent = [told for told in rnc.tick() if isinstance(told, Iub) and told.set == 1]
        self.assertEqual([told.octets for told in sent],
                         [frame(told.octets[1], told.octets[2], told.octets[3:-2]) for told in sent])
        self.assertEqual(len(sent), 1)


if __name__ == '__main__':
    unittest.main()
