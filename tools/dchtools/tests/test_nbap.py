"""The message of NBAP, against octets that are worked by hand from the types of TS 25.433 9.3 by the rules of aligned
PER (X.691)."""
from __future__ import annotations

import unittest

from dchtools.config import TransportChannel
from dchtools.nbap import Encoder, channels_to_add, context_identity, reconfiguration

CODED = TransportChannel(20, 12, 0, [(0, 0), (1, 81)], 'third', 200)
UNCODED = TransportChannel(10, 0, 0, [(0, 0), (2, 148)], 'none', 256)

# Behind each row stand the fields of its octets, and how many bits each has. A field of a whole number of octets starts
# at one, and bits of padding are before it.
CHANNELS = bytes.fromhex(
    '0000'      # DCHs to add: 1 (7); no extensions (2), payload CRC included (2), normal mode (2), padding
    '0000 0000'  # ToAWS, ToAWE
    '0000'      # DCHs that go together: 1 (7); no extensions (2), padding
    '07'        # DCH ID
    # The uplink.
    '0200'      # no extensions (2), transport formats: 2 (5); no block size, no extensions (3), padding
    '0000'      # no block
    '50'        # mode: not applicable (2); a block size, no extensions (3), padding
    '0001 0051'  # 1 block of 81 bits
    '5094'      # mode (2); a coding rate, no extensions (3), 20 ms (4), convolutional (3), rate 1/3 (2), padding
    'c7'        # rate matching attribute 200, counted from 1
    # The parity and the mode stand in one octet with the front of the downlink.
    '2408'      # 12 bits of parity (4), mode (2); no extensions (2), formats: 2 (5); no block size, no extensions (3)
    '0000'      # no block
    '50'        # mode (2); a block size, no extensions (3), padding
    '0002 0094'  # 2 blocks of 148 bits
    '4000'      # mode (2); no coding rate, no extensions (3), 10 ms (4), not coded (3), padding
    'ff'        # rate matching attribute 256
    '040000')   # no parity (4), mode (2); no extensions (2), priority 0 (4), pre-emption (2), priority 0 (4), QE (1)

MESSAGE = bytes.fromhex(
    '00'        # an initiating message (3), padding
    '1f'        # procedure 31, the preparation of a synchronised radio link reconfiguration
    '2414'      # FDD (3), reject (2), dedicated (1), a short transaction identity (1): 5 (7), padding
    '56'        # 86 octets
    '00'        # no extensions (2), padding
    '0004'      # protocol elements: 4
    '008f 00 03'  # Node B communication context, reject (2), padding, 3 octets
    '40 012c'   # an integer of 2 octets (2), padding, 300
    '002c 40 03'  # CRNC communication context, ignore (2), padding, 3 octets
    '40 012c'
    '0030 00 24') + CHANNELS + bytes.fromhex(  # DCHs to add, reject, 36 octets
    '00d6 00 19'  # radio links, reject, 25 octets
    '00'        # radio links: 1 (4), padding
    '00d0 00 14'  # a radio link, reject, 20 octets
    '01 00'     # only extensions of all that is optional (8), radio link 0 (5), padding
    '0000'      # extensions: 1
    '0067 40 0c'  # its DCHs, ignore, 12 octets
    '00c0'      # DCHs: 1 (7); a binding identity and an address, no extensions (4), padding
    '07'        # DCH ID
    '20 c000'   # 2 octets (3), padding, UDP port 49152
    '0f80'      # 32 bits (9), padding
    '0a000001')  # 10.0.0.1


class Message(unittest.TestCase):
    def test_whole(self) -> None:
        message = reconfiguration(5, 300, [(7, CODED, UNCODED)], True, bytes([10, 0, 0, 1]), 49152)
        self.assertEqual(message.hex(' '), MESSAGE.hex(' '))

    def test_transaction(self) -> None:
        """An identity has seven bits."""
        for number in (0, 127, 128):
            message = reconfiguration(number, 300, [(7, CODED, UNCODED)], True, bytes([10, 0, 0, 1]), 49152)
            self.assertEqual(int.from_bytes(message[2:4]), 0x2400 | number % 128 << 2)

    def test_channels(self) -> None:
        self.assertEqual(channels_to_add([(7, CODED, UNCODED)], True).hex(' '), CHANNELS.hex(' '))
        # CRC not included is the second value of two bits behind nine: bit 10 of the text.
        self.assertEqual(channels_to_add([(7, CODED, UNCODED)], False)[:2], b'\x00\x20')
        # The number of DCHs, less one, is the seven bits in front of the two of the first DCH.
        self.assertEqual(channels_to_add([(7, CODED, UNCODED), (8, CODED, UNCODED)], True)[6:9], b'\x02\x00\x07')

    def test_values_of_channels(self) -> None:
        """Each TTI, code and parity has the place of its value in its type, and stands at the same octets."""
        for parity, number in ((0, 0), (8, 1), (12, 2), (16, 3), (24, 4)):
            for tti, place in ((10, 0), (20, 1), (40, 2), (80, 3)):
                for code, coding in (('half', 0b00100), ('third', 0b00101)):
                    channel = TransportChannel(tti, parity, 0, [(1, 81)], code, 1)
                    found = channels_to_add([(1, channel, channel)], True)
                    # Formats: 1, and a block size (10 bits); 1 block; 81 bits; then the mode, and what is told here.
                    self.assertEqual(found[9:15], bytes.fromhex('0080 0001 0051'))
                    told = 0b01 << 12 | 0b010 << 9 | place << 5 | coding
                    self.assertEqual(int.from_bytes(found[15:17]) >> 2, told)
                    self.assertEqual((found[17], found[18] >> 2), (0, number << 2 | 0b01))


class Rules(unittest.TestCase):
    def test_lengths(self) -> None:
        """X.691 10.9.3: a length below 128 has one octet, a longer one two with the front bits 10."""
        for length, octets in ((0, '00'), (127, '7f'), (128, '8080'), (200, '80c8'), (16383, 'bfff')):
            it = Encoder()
            it.put(1, 1)
            it.open_type(bytes(length))
            self.assertEqual(it.octets(), b'\x80' + bytes.fromhex(octets) + bytes(length))

    def test_integers(self) -> None:
        """X.691 10.5.7.4: a large integer has the fewest octets, and their number, less one, before them."""
        for number, octets in ((0, '0000'), (1, '0001'), (255, '00ff'), (256, '400100'), (65536, '80010000'),
                               (1048575, '800fffff')):
            self.assertEqual(context_identity(number).hex(), octets)
