"""Packets and the files that hold them: pcap and pcapng read, pcapng written; IPv4 and IPv6 with UDP read, IPv4 with
UDP and SCTP written."""
from __future__ import annotations

import struct
from collections.abc import Iterable, Iterator

from .faults import BadInput

Udp = tuple[bytes, int, bytes, int, bytes]  # source and its port, destination and its port, payload

ETHERNET, RAW_IP, IPV4, IPV6, LINUX_COOKED = 1, 101, 228, 229, 113


# Files.

def pcapng(packets: Iterable[tuple[int, bytes, list[str]]]) -> bytes:
    """A file of IP packets: pairs of the time in microseconds, the octets, and the lines of a comment."""
    def block(kind: int, body: bytes) -> bytes:
        length = 12 + len(body)
        return struct.pack('<II', kind, length) + body + struct.pack('<I', length)

    def option(code: int, value: bytes) -> bytes:
        return struct.pack('<HH', code, len(value)) + value + bytes(-len(value) % 4)
    parts = [block(0x0a0d0d0a, struct.pack('<IHHq', 0x1a2b3c4d, 1, 0, -1)), block(1, struct.pack('<HHI', RAW_IP, 0, 0))]
    for time, octets, comment in packets:
        head = struct.pack('<IIIII', 0, time >> 32, time & 0xffffffff, len(octets), len(octets))
        body = head + octets + bytes(-len(octets) % 4)
        if comment:
            body += option(1, '\n'.join(comment).encode()) + option(0, b'')
        parts.append(block(6, body))
    return b''.join(parts)


def read_packets(octets: bytes, name: str) -> Iterator[tuple[int, bytes]]:
    """The packets of a capture: pairs of the link type and the octets."""
    magic = octets[:4]
    if magic == b'\x0a\x0d\x0d\x0a':
        return read_pcapng(octets, name)
    for order in '<>':
        if magic in (struct.pack(order + 'I', 0xa1b2c3d4), struct.pack(order + 'I', 0xa1b23c4d)):
            return read_pcap(octets, order, name)
    raise BadInput(f'{name}: this is neither pcap nor pcapng')


def read_pcap(octets: bytes, order: str, name: str) -> Iterator[tuple[int, bytes]]:
    if len(octets) < 24:
        raise BadInput(f'{name}: the file header is cut')
    link = struct.unpack_from(order + 'I', octets, 20)[0] & 0xffff
    at = 24
    while at < len(octets):
        if len(octets) < at + 16 or len(octets) < at + 16 + struct.unpack_from(order + 'I', octets, at + 8)[0]:
            raise BadInput(f'{name}: the last packet is cut')
        length = struct.unpack_from(order + 'I', octets, at + 8)[0]
        yield link, octets[at + 16:at + 16 + length]
        at += 16 + length


def read_pcapng(octets: bytes, name: str) -> Iterator[tuple[int, bytes]]:
    order, links, at = '<', list[int](), 0
    while at < len(octets):
        if len(octets) < at + 12:
            raise BadInput(f'{name}: the last block is cut')
        if octets[at:at + 4] == b'\x0a\x0d\x0d\x0a':
            order = '<' if octets[at + 8:at + 12] == b'\x4d\x3c\x2b\x1a' else '>'
            links = []
        kind, length = struct.unpack_from(order + 'II', octets, at)
        if length < 12 or length % 4 or len(octets) < at + length:
            raise BadInput(f'{name}: the block at octet {at} has a length of {length}')
        body = octets[at + 8:at + length - 4]
        try:
            if kind == 1:
                links.append(struct.unpack_from(order + 'H', body)[0])
            elif kind == 6:
                interface, _, _, captured = struct.unpack_from(order + 'IIII', body)
                yield links[interface], body[20:20 + captured]
            elif kind == 3:
                yield links[0], body[4:4 + struct.unpack_from(order + 'I', body)[0]]
        except (struct.error, IndexError):
            raise BadInput(f'{name}: the block at octet {at} is damaged') from None
        at += length


# Packets read.

def udp_of(link: int, octets: bytes) -> Udp | None:
    """The addresses, ports and payload of a UDP packet; None of any other packet, and of a part of one."""
    kind, packet = network_layer(link, octets)
    try:
        if kind == 0x0800 and packet[0] >> 4 == 4:
            start, end = 4 * (packet[0] & 15), struct.unpack_from('>H', packet, 2)[0]
            part = struct.unpack_from('>H', packet, 6)[0] & 0x3fff
            if packet[9] != 17 or part:
                return None
            return udp_payload(packet[12:16], packet[16:20], packet[start:end])
        if kind == 0x86dd and packet[0] >> 4 == 6:
            start, end = 40, 40 + struct.unpack_from('>H', packet, 4)[0]
            following = packet[6]
            while following in (0, 43, 60):  # hop-by-hop options, routing, destination options
                following, start = packet[start], start + 8 * packet[start + 1] + 8
            return udp_payload(packet[8:24], packet[24:40], packet[start:end]) if following == 17 else None
    except (IndexError, struct.error):
        pass
    return None


def network_layer(link: int, octets: bytes) -> tuple[int, bytes]:
    """The Ethernet type and the packet of the network layer."""
    if link in (ETHERNET, LINUX_COOKED):
        at = 12 if link == ETHERNET else 14
        kind = int.from_bytes(octets[at:at + 2])
        while kind in (0x8100, 0x88a8):  # VLAN tags
            at += 4
            kind = int.from_bytes(octets[at:at + 2])
        return kind, octets[at + 2:]
    if link in (RAW_IP, IPV4, IPV6) and octets:
        return {4: 0x0800, 6: 0x86dd}.get(octets[0] >> 4, 0), octets
    return 0, b''


def udp_payload(source: bytes, destination: bytes, segment: bytes) -> Udp | None:
    source_port, destination_port, length, _ = struct.unpack_from('>HHHH', segment)
    if length < 8 or length > len(segment):
        return None
    return source, source_port, destination, destination_port, segment[8:length]


# Packets written.

def ipv4(protocol: int, source: bytes, destination: bytes, payload: bytes) -> bytes:
    length = 20 + len(payload)
    header = bytearray(struct.pack('>BBHHHBBH4s4s', 0x45, 0, length, 0, 0x4000, 64, protocol, 0, source, destination))
    header[10:12] = struct.pack('>H', internet_checksum(bytes(header)))
    return bytes(header) + payload


def internet_checksum(octets: bytes) -> int:
    octets += bytes(len(octets) % 2)
    total = sum(struct.unpack(f'>{len(octets) // 2}H', octets))
    while total >> 16:
        total = (total & 0xffff) + (total >> 16)
    return ~total & 0xffff


def udp(source: bytes, source_port: int, destination: bytes, destination_port: int, payload: bytes) -> bytes:
    """A UDP packet over IPv4."""
    length = 8 + len(payload)
    pseudo = source + destination + struct.pack('>BBH', 0, 17, length)
    head = struct.pack('>HHH', source_port, destination_port, length)
    check = internet_checksum(pseudo + head + bytes(2) + payload) or 0xffff
    return ipv4(17, source, destination, head + struct.pack('>H', check) + payload)


def sctp(source: bytes, destination: bytes, port: int, number: int, protocol: int, payload: bytes) -> bytes:
    """An SCTP packet over IPv4 with one chunk of data, the number counted from 1, for an upper protocol."""
    length = 16 + len(payload)
    chunk = struct.pack('>BBHIHHI', 0, 3, length, number, 0, number - 1, protocol) + payload + bytes(-length % 4)
    head = struct.pack('>HHI', port, port, 0x64636800)
    return ipv4(132, source, destination, head + struct.pack('<I', crc32c(head + bytes(4) + chunk)) + chunk)


def crc32c(octets: bytes) -> int:
    register = 0xffffffff
    for octet in octets:
        register ^= octet
        for _ in range(8):
            register = register >> 1 ^ (0x82f63b78 if register & 1 else 0)
    return register ^ 0xffffffff
