"""One message of NBAP (TS 25.433): a radio link reconfiguration that adds the transport channels of a frame set, from
which a reader of a capture learns what its Iub frames hold. It is written in aligned PER (X.691) and has the mandatory
parts and those that tell of the channels, and nothing else."""
from __future__ import annotations

from .config import TransportChannel

# Channels that are added: an identity from 1 to 255, and the channel uplink and downlink.
Added = list[tuple[int, TransportChannel, TransportChannel]]


class Encoder:
    """Aligned PER: bits, and fields that start at a whole octet."""

    def __init__(self) -> None:
        self.bits = ''

    def put(self, value: int, width: int) -> None:
        self.bits += f'{value:0{width}b}' if width else ''

    def align(self) -> None:
        self.bits += '0' * (-len(self.bits) % 8)

    def aligned(self, value: int, octets: int) -> None:
        self.align()
        self.put(value, 8 * octets)

    def octets(self) -> bytes:
        self.align()
        return int(self.bits or '0', 2).to_bytes(len(self.bits) // 8)

    def open_type(self, content: bytes) -> None:
        """A value whose length goes before it."""
        if len(content) < 128:
            self.aligned(len(content), 1)
        else:
            self.aligned(0x8000 | len(content), 2)
        self.bits += ''.join(f'{octet:08b}' for octet in content)

    def element(self, identity: int, criticality: int, content: bytes) -> None:
        """A field of a container of protocol elements or extensions."""
        self.aligned(identity, 2)
        self.put(criticality, 2)
        self.open_type(content)


REJECT, IGNORE = 0, 1
PREPARATION = 31  # the procedure
# The protocol elements.
CONTEXT, CONTROLLER_CONTEXT, CHANNELS_TO_ADD, LINKS, LINK, LINK_CHANNELS = 143, 44, 48, 214, 208, 103


def reconfiguration(transaction: int, context: int, channels: Added, payload_check: bool, address: bytes,
                    port: int) -> bytes:
    """The message. Frames of the set go to and come from the UDP port at the controller's address."""
    body = Encoder()
    body.put(0, 2)
    body.aligned(4, 2)
    body.element(CONTEXT, REJECT, context_identity(context))
    # Not of this message, and to be ignored: Wireshark tells terminals apart by it.
    body.element(CONTROLLER_CONTEXT, IGNORE, context_identity(context))
    body.element(CHANNELS_TO_ADD, REJECT, channels_to_add(channels, payload_check))
    body.element(LINKS, REJECT, links(channels[0][0], address, port))
    message = Encoder()
    message.put(0, 3)  # an initiating message
    message.aligned(PREPARATION, 1)
    message.put(0b001, 3)  # FDD
    message.put(REJECT, 2)
    message.put(1, 1)  # dedicated
    message.put(0, 1)
    message.put(transaction % 128, 7)
    message.open_type(body.octets())
    return message.octets()


def context_identity(number: int) -> bytes:
    it = Encoder()
    length = max(1, (number.bit_length() + 7) // 8)
    it.put(length - 1, 2)
    it.aligned(number, length)
    return it.octets()


def channels_to_add(channels: Added, payload_check: bool) -> bytes:
    """One item: the channels whose frames go together."""
    it = Encoder()
    it.put(0, 7)
    it.put(0, 2)
    it.put(0 if payload_check else 1, 2)
    it.put(0, 2)  # normal mode: a frame in each TTI
    it.aligned(0, 2)  # window of time of arrival, start and end
    it.aligned(0, 2)
    it.put(len(channels) - 1, 7)
    for identity, up, down in channels:
        it.put(0, 2)
        it.aligned(identity, 1)
        format_set(it, up)
        format_set(it, down)
        it.put(0, 2)
        it.put(0, 4)  # priority of allocation: none given
        it.put(0, 2)
        it.put(0, 4)  # priority of frames: the lowest
        it.put(0, 1)
    return it.octets()


def format_set(it: Encoder, channel: TransportChannel) -> None:
    it.put(0, 2)
    it.put(len(channel.formats) - 1, 5)
    for count, size in channel.formats:
        it.put(0b010 if count else 0b000, 3)
        it.aligned(count, 2)
        if count:
            it.aligned(size, 2)
        it.put(0b01, 2)
    coded = channel.code != 'none'
    it.put(0b010 if coded else 0b000, 3)
    it.put((10, 20, 40, 80).index(channel.tti), 4)
    it.put(1 if coded else 0, 3)
    if coded:
        it.put(('half', 'third').index(channel.code), 2)
    it.aligned(channel.attribute - 1, 1)
    it.put((0, 8, 12, 16, 24).index(channel.crc), 4)
    it.put(0b01, 2)


def links(first_channel: int, address: bytes, port: int) -> bytes:
    item = Encoder()
    item.put(0, 1)
    item.put(0b0000001, 7)
    item.put(0, 5)
    item.aligned(0, 2)
    item.element(LINK_CHANNELS, IGNORE, link_channels(first_channel, address, port))
    it = Encoder()
    it.put(0, 4)
    it.element(LINK, REJECT, item.octets())
    return it.octets()


def link_channels(first_channel: int, address: bytes, port: int) -> bytes:
    it = Encoder()
    it.put(0, 7)
    it.put(0b0110, 4)
    it.aligned(first_channel, 1)
    it.put(0b001, 3)  # a binding identity of two octets, the port
    it.aligned(port, 2)
    it.put(0, 1)
    it.put(31, 8)  # an address of 32 bits
    it.aligned(int.from_bytes(address), 4)
    return it.octets()
