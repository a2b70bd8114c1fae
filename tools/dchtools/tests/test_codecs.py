"""Iub frames, RLC PDUs, packets and configurations, each against values of the standards or of a writer of its own."""
from __future__ import annotations

import struct
import unittest

from dchtools import BadFrame, BadInput, packets
from dchtools.capture import length_of
from dchtools.config import Configuration, parts_of, read_configuration
from dchtools.iub import Block, Frame, header_check, payload_check, read_frame, write_frame
from dchtools.rlc import DataPdu, ResetPdu, StatusPdu, bearer_of, read_pdu

from .cases import cases_of, top


def speech() -> Configuration:
    return read_configuration((top / 'examples/speech.toml').read_text(), 'speech')


class Frames(unittest.TestCase):
    def test_parity(self) -> None:
        # A polynomial is its own parity: the remainder of 1 followed by zeros.
        self.assertEqual(header_check(bytes([1])), 0b1000101)
        self.assertEqual(payload_check(bytes([1])), 0x8005)
        self.assertEqual((header_check(bytes(4)), payload_check(b'')), (0, 0))

    def test_all_that_were_sent(self) -> None:
        """Each Iub frame of the examples and cases is read, and is written again as it was."""
        count = 0
        for case in cases_of('link', 'rnc', 'nodeb', 'soft'):
            if case.answer[:1] != ['open']:
                continue
            configuration = read_configuration(case.text, case.name)
            for line in case.answer:
                words = line.split(' ')
                if words[0] not in ('iubup', 'iubdown') or configuration.later:
                    continue
                way, frame_set, octets = words[0][3:], int(words[1]), bytes.fromhex(words[2])
                frame = read_frame(configuration, way, frame_set, octets)
                self.assertEqual(write_frame(configuration, way, frame), octets)
                count += 1
        self.assertGreater(count, 100)

    def test_refusals_in_the_order_of_the_program(self) -> None:
        configuration = speech()
        whole = write_frame(configuration, 'up', Frame(0, [1], [Block(3, bytes(19), 148)], 0))
        turned = bytearray(whole)
        turned[5] ^= 1
        format_31 = bytearray([0, 0, 31]) + whole[3:]
        format_31[0] = header_check(bytes(format_31[:3])) << 1
        for octets, number in ((b'', 1), (b'\1', 3), (b'\0', 1), (whole[:2], 1), (b'\1' + whole[1:], 3),
                               (b'\0' + whole[1:], 2), (bytes(format_31), 4), (whole[:-1], 5), (whole + b'\0', 5),
                               (bytes(turned), 6)):
            with self.subTest(octets.hex()), self.assertRaises(BadFrame) as fault:
                read_frame(configuration, 'up', 1, octets)
            self.assertEqual(fault.exception.number, number)
        self.assertEqual(read_frame(configuration, 'up', 1, whole).tfis, [1])


class Pdus(unittest.TestCase):
    def test_data(self) -> None:
        self.assertEqual(read_pdu('am', bytes.fromhex('800507fe00')), DataPdu(0, True, 1))
        self.assertEqual(read_pdu('am', bytes.fromhex('fff800')), DataPdu(4095, False, 0))
        self.assertEqual(read_pdu('um', bytes.fromhex('0b04ff')), DataPdu(5, False, 1))
        self.assertIsNone(read_pdu('um', b''))
        self.assertIsNone(read_pdu('am', b'\x80'))

    def test_status(self) -> None:
        # ACK up to 3; a list of 5 and the two after it, then ACK; a bitmap of 8 from 16 in which 17 is missing.
        self.assertEqual(read_pdu('am', bytes.fromhex('02003000')), StatusPdu(3, []))
        self.assertEqual(read_pdu('am', bytes.fromhex('03100522009000')), StatusPdu(9, [5, 6, 7]))
        self.assertEqual(read_pdu('am', bytes.fromhex('040010bf0000')), StatusPdu(None, [17]))
        self.assertIsNone(read_pdu('am', bytes.fromhex('0200')))

    def test_reset(self) -> None:
        self.assertEqual(read_pdu('am', bytes.fromhex('1800001000')), ResetPdu(False, 1, 1))
        self.assertEqual(read_pdu('am', bytes.fromhex('20fffff000')), ResetPdu(True, 0, 0xfffff))

    def test_shared_channel(self) -> None:
        taken = bearer_of(speech(), 'up', Block(3, bytes.fromhex('1800') + bytes(17), 148))
        assert taken
        self.assertEqual((taken[0].number, taken[1][:2], len(taken[1])), (4, bytes.fromhex('8000'), 18))
        self.assertIsNone(bearer_of(speech(), 'up', Block(3, b'\xf0' + bytes(18), 148)))


class Captures(unittest.TestCase):
    def test_written_packets_are_read(self) -> None:
        packet = packets.udp(b'\x0a\0\0\1', 7, b'\x0a\0\0\2', 8, b'abc')
        self.assertEqual(packets.internet_checksum(packet[:20]), 0)
        file = packets.pcapng([(5, packet, ['a remark']), (6, packet, [])])
        found = [packets.udp_of(link, octets) for link, octets in packets.read_packets(file, 'file')]
        self.assertEqual(found, [(b'\x0a\0\0\1', 7, b'\x0a\0\0\2', 8, b'abc')] * 2)

    def test_what_stands_before_the_packet(self) -> None:
        """Ethernet with VLAN tags or without, Linux cooked, and IP alone, by octets of a writer of its own."""
        segment = struct.pack('>HHHH', 7, 8, 11, 0) + b'abc'
        four = struct.pack('>BBHHHBBH4s4s', 0x45, 0, 31, 1, 0, 64, 17, 0, b'\x0a\0\0\1', b'\x0a\0\0\2') + segment
        options = struct.pack('>BB6x', 17, 0)
        six = struct.pack('>IHBB16s16s', 6 << 28, 19, 0, 64, b'\1' * 16, b'\2' * 16) + options + segment
        for packet, kind, near, far in ((four, b'\x08\0', b'\x0a\0\0\1', b'\x0a\0\0\2'),
                                        (six, b'\x86\xdd', b'\1' * 16, b'\2' * 16)):
            for link, front in ((packets.ETHERNET, bytes(12) + kind), (packets.LINUX_COOKED, bytes(14) + kind),
                                (packets.ETHERNET, bytes(12) + b'\x88\xa8\0\1\x81\0\0\2' + kind),
                                (packets.RAW_IP, b'')):
                self.assertEqual(packets.udp_of(link, front + packet + b'pad'), (near, 7, far, 8, b'abc'))
        self.assertIsNone(packets.udp_of(packets.RAW_IP, four[:6] + b'\x20\0' + four[8:]))  # more of it comes
        self.assertIsNone(packets.udp_of(packets.RAW_IP, four[:24]))

    def test_sctp(self) -> None:
        """A chunk of data (RFC 9260 3.3.1) with its length, number, stream, place and protocol, and padding."""
        packet = packets.sctp(b'\x0a\0\0\1', b'\x0a\0\0\2', 29118, 3, 25, b'abcde')
        self.assertEqual((packets.internet_checksum(packet[:20]), packet[9], len(packet)), (0, 132, 56))
        ports, check, chunk = packet[20:28], packet[28:32], packet[32:]
        self.assertEqual(ports[:4], struct.pack('>HH', 29118, 29118))
        self.assertEqual(chunk, bytes.fromhex('0003 0015 00000003 0000 0002 00000019') + b'abcde' + bytes(3))
        self.assertEqual(check, struct.pack('<I', packets.crc32c(ports + bytes(4) + chunk)))

    def test_lengths_in_a_log(self) -> None:
        """A length is one octet below 128, and otherwise has their number before it (X.690 8.1.3)."""
        for length, octets in ((0, '00'), (127, '7f'), (128, '8180'), (255, '81ff'), (256, '820100')):
            self.assertEqual(length_of(length).hex(), octets)

    def test_checksum_of_sctp(self) -> None:
        self.assertEqual(packets.crc32c(b'123456789'), 0xe3069283)

    def test_cut_files(self) -> None:
        head = struct.pack('<IHHiIII', 0xa1b2c3d4, 2, 4, 0, 0, 65535, 101)
        for octets in (b'', b'abcd', head[:9], head + b'\0' * 15):
            with self.subTest(octets), self.assertRaises(BadInput):
                list(packets.read_packets(octets, 'file'))


class Configurations(unittest.TestCase):
    def test_two(self) -> None:
        text = (top / 'examples/change.txt').read_text().split('\n---\n')[0]
        configuration = read_configuration(text, 'change')
        self.assertEqual((len(configuration.parts()), configuration.later and configuration.later[0]), (2, 8))
        self.assertIs(configuration.at(7), configuration)
        self.assertIsNot(configuration.at(8), configuration)
        self.assertEqual(parts_of('a\n--- 8\nb'), (['a', 'b'], 8))

    def test_what_is_none(self) -> None:
        for text in ('', 'a = ', '[uplink]\n', 'a = 1\n--- x\nb = 2'):
            with self.subTest(text), self.assertRaises(BadInput):
                read_configuration(text, 'text')
