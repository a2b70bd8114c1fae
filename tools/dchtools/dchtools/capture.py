"""Makes a capture for Wireshark of the Iub frames of a run of `dch`, or of the RLC PDUs of a run of `dch pair`."""
from __future__ import annotations

import argparse
import sys
from collections.abc import Iterator
from dataclasses import dataclass, field
from pathlib import Path

from . import nbap, packets
from .config import DIRECTIONS, Bearer, Configuration
from .events import LoseIub, Spoil, TakeIub
from .faults import BadInput, run_command
from .iub import BadFrame, read_frame
from .rlc import bearer_of
from .timeline import OF_BEARER, Moment, Run, moments_of, read_run
from .values import (BadTti, EndSent, Full, Iub, IubBad, Leg, Phy, PhyNone, Plain, Took, Wrong, line_of)

HELP = """
INPUT is what dch got (a configuration, a line ---, a script; of pair its lines alone), and REPORT what link, soft,
nodeb, rnc or pair answered without --quiet. The name of the OUTPUT says its form:

  NAME.pcapng   IP packets. A message of NBAP for each frame set tells Wireshark of its transport channels, and so it
                reads the Iub frames by itself: FP, MAC with the C/T field, and RLC. Wireshark takes a block of 148
                bits that stands alone in format 1 (or of 340 bits on a shared channel) for one with a C/T field, of
                which logical channel 1 is unacknowledged, 5 to 7 are transparent and the others acknowledged; blocks
                of 336 bits for acknowledged data without the field; all others for transparent ones. Where a
                configuration is otherwise this tool says so; take the second form then. Lines of the report on a
                frame are its comments.
                  tshark -r NAME.pcapng --disable-protocol rrc -o rlc.perform_reassembly:FALSE \\
                    -o 'uat:expert_severity:"mac.faked_logical_channel_id","Chat"'
                shows SDUs that are neither RRC messages nor IP packets as octets, and doesn't warn that transparent
                channels have no number. A run of pair has no IP packets.
  NAME.out      A log of the Catapult DCT2000. Beside each frame stands what FP needs: the channels, and the number
                and size of their blocks. Each PDU of RLC follows as an entry of its own with its mode and its bearer,
                counted from 1 (16 has no room), so any configuration is read as it is. MAC can't be shown. Lines of
                the report stand between the frames. Of pair the PDUs are those of bearer 1, of end `a` in the
                downlink.
                  tshark -r NAME.out -o fp.call_mac:FALSE

The frames are those that were sent, with the time at which they were, 10 ms to a radio frame; of a node alone also
those that came. In soft handover each leg is a Node B with an address and ports of its own, and each gets a copy of
the downlink frames; what the uplink frames are combined to isn't sent over Iub. Of pair each line of the input takes
1 ms.
"""

CONTROLLER = bytes([10, 0, 0, 1])
FIRST_PORT, NBAP_PORT, NBAP_OVER_SCTP = 49152, 29118, 25
LOGICAL_CHANNEL_MODES = {1: 'um', 5: 'tm', 6: 'tm', 7: 'tm'}
MODES = {'tm': 1, 'um': 2, 'am': 3}


@dataclass
class Sent:
    """An Iub frame: when it was sent, in microseconds, its direction, set and octets, the leg on which it is, the
    configuration that was active, and remarks on it."""
    time: int
    way: str
    frame_set: int
    octets: bytes
    leg: int
    configuration: Configuration
    remarks: list[str] = field(default_factory=list)


class Frames:
    """The Iub frames of a run in order of time, and the other lines of its report with their time."""

    def __init__(self, run: Run) -> None:
        self.command = run.command
        self.legs = sorted({it.leg for it in run.told if isinstance(it, Leg)}) or [0]
        self.frames: list[Sent] = []
        self.lines: list[tuple[int, str]] = []
        self.time = 0
        moments = moments_of(run)
        self.damage = [moment for moment in moments if isinstance(moment.what, (LoseIub, Spoil))]
        for moment in moments:
            self.moment(moment)

    def moment(self, moment: Moment) -> None:
        it, command = moment.what, self.command
        if isinstance(it, TakeIub) and command in ('nodeb', 'rnc'):
            way, offset = ('down', 2000) if command == 'nodeb' else ('up', -1000)
            self.sent(moment, it, way, offset, [0])
        elif isinstance(it, Iub):
            offset = 0 if it.direction == 'down' else 9000
            is_combined = command == 'soft' and it.direction == 'up' and moment.leg is None
            legs = [] if is_combined else self.legs if moment.leg is None else [moment.leg]
            self.sent(moment, it, it.direction, offset, legs)
        elif not moment.from_script and command in ('link', 'soft') and not isinstance(it, (Phy, PhyNone)):
            told: Plain = it  # type: ignore[assignment]
            text = line_of(told if moment.leg is None else Leg(moment.leg, told))
            self.time = max(self.time + 10, 10000 * (moment.tick + 1))
            self.lines.append((self.time, text))
            self.remark(moment, told, text)

    def sent(self, moment: Moment, frame: Iub | TakeIub, way: str, offset: int, legs: list[int]) -> None:
        """An Iub frame, which is sent so many microseconds after its radio frame begins, on each of these legs."""
        moment.configuration.of_set(way, frame.set)
        for leg in legs:
            self.time = max(self.time + 100, 10000 * (moment.tick + 1) + offset)
            remarks = [damage.line for at in self.damage for damage in [at.what] if isinstance(damage, (LoseIub, Spoil))
                       and (at.tick, damage.direction, damage.set, at.leg or 0) == (moment.tick, way, frame.set, leg)]
            self.frames.append(Sent(self.time, way, frame.set, frame.octets, leg, moment.configuration, remarks))

    def remark(self, moment: Moment, it: Plain, text: str) -> None:
        """Puts a line of the report with the last frame of the set that it is about."""
        way: str = getattr(it, 'direction', '')
        if isinstance(it, (Took, Full, Wrong)) or isinstance(it, BadTti) and way == 'up' or not way:
            return
        configuration = moment.configuration
        if isinstance(it, IubBad):
            frame_set = it.set
        else:
            channel: int = configuration.bearers[it.bearer].channels[way] if isinstance(it, OF_BEARER) \
                else getattr(it, 'channel')
            frame_set = configuration.channels[way][channel].frame_set
        for frame in reversed(self.frames):
            if (frame.way, frame.frame_set) == (way, frame_set) and moment.leg in (None, frame.leg):
                frame.remarks.append(text)
                return


# IP packets.

Ports = dict[tuple[str, int], int]


def flows_of(configuration: Configuration, first_port: int) -> tuple[Ports, dict[int, dict[str, list[int]]]]:
    """For each direction and set its UDP port, and for each port the channels in both directions, as far as they are
    there."""
    ports: Ports = {}
    flows: dict[int, dict[str, list[int]]] = {}
    for frame_set in sorted({*configuration.sets('up'), *configuration.sets('down')}):
        both = {way: configuration.of_set(way, frame_set) for way in DIRECTIONS if frame_set in configuration.sets(way)}
        together = len(both) == 2 and len(both['up']) == len(both['down'])
        for way in both:
            port = ports['up', frame_set] if together and way == 'down' else first_port + 2 * len(flows)
            ports[way, frame_set] = port
            flows.setdefault(port, {})[way] = both[way]
    return ports, flows


def identities(configuration: Configuration, way: str, members: list[int]) -> list[int]:
    """Identities of the channels of a set. Wireshark knows a shared channel of blocks of 340 bits by 24."""
    def is_shared(member: int) -> bool:
        formats = configuration.channels[way][member].formats
        return len(configuration.on(way, member)) > 1 and any(size == 340 for _, size in formats)
    return [24 if is_shared(member) else i + 1 for i, member in enumerate(members)]


def node_b(leg: int) -> bytes:
    """The address of the Node B of a leg."""
    return bytes([10, 0, 0, 2 + leg])


def as_pcapng(configuration: Configuration, found: Frames) -> bytes:
    """The frame sets of each configuration and leg have ports of their own, and all are told of at the beginning."""
    written: list[tuple[int, bytes, list[str]]] = []
    ports: dict[tuple[int, int], Ports] = {}
    for part in configuration.parts():
        for leg in found.legs:
            ports[id(part), leg], flows = flows_of(part, FIRST_PORT + 2 * len(written))
            for port, both in flows.items():
                way, other = next(iter(both)), 'down' if 'down' in both else 'up'
                channels = [(identity, part.channels[way][a], part.channels[other][b])
                            for identity, a, b in zip(identities(part, way, both[way]), both[way], both[other])]
                number = len(written)
                # Wireshark tells terminals apart by the context, and so the legs, each of which has all PDUs.
                message = nbap.reconfiguration(number, 1 + leg, channels, part.payload_check, CONTROLLER, port)
                packet = packets.sctp(CONTROLLER, node_b(leg), NBAP_PORT, number + 1, NBAP_OVER_SCTP, message)
                written.append((number, packet, []))
    for frame in found.frames:
        port = ports[id(frame.configuration), frame.leg][frame.way, frame.frame_set]
        near, far = (CONTROLLER, port), (node_b(frame.leg), port + 1)
        source, destination = (near, far) if frame.way == 'down' else (far, near)
        written.append((frame.time, packets.udp(*source, *destination, frame.octets), frame.remarks))
    return packets.pcapng(written)


def misread(configuration: Configuration) -> Iterator[str]:
    """What Wireshark takes for something else in IP packets: the first such thing of each channel."""
    for way in DIRECTIONS:
        for number, channel in enumerate(configuration.channels[way]):
            for tfi, (count, size) in enumerate(channel.formats):
                text = misread_format(configuration.on(way, number), tfi, count, size) if count * size else None
                if text:
                    yield f'channel {number} {way}, format {tfi}: {text}'
                    break


def misread_format(bearers: list[Bearer], tfi: int, count: int, size: int) -> str | None:
    shared = (tfi, count, size) == (1, 1, 148) or size == 340 and len(bearers) > 1
    if bearers and shared != (len(bearers) > 1):
        return f'Wireshark takes its blocks for ones with{"" if shared else "out"} a C/T field'
    for bearer in bearers:
        taken = LOGICAL_CHANNEL_MODES.get(bearer.logical, 'am') if shared else 'am' if size == 336 else 'tm'
        if taken != bearer.mode:
            return f'Wireshark takes bearer {bearer.number}, which is {bearer.mode}, for {taken}'
    return None


# A log of the DCT2000.

def as_log(entries: list[tuple[int, list[str]]]) -> str:
    entries.sort(key=lambda entry: entry[0])
    head = ['Session Transcript of dch', 'January 1, 2000     00:00:00.0000']
    return '\n'.join(head + [line for _, some in entries for line in some]) + '\n'


def stamp(time: int) -> str:
    return f'{time // 1000000}.{time % 1000000 // 100:04d}'


def note(time: int, text: str) -> tuple[int, list[str]]:
    """The entry of a line of the report."""
    return time, [f'dch/////  tm {stamp(time)} l ${text}']


def entries_of(frame: Sent) -> list[str]:
    """The entry of a frame, and one for each PDU of RLC in it."""
    configuration, direction = frame.configuration, 's' if frame.way == 'down' else 'r'
    members = configuration.of_set(frame.way, frame.frame_set)
    formats = []
    for member, octet in zip(members, frame.octets[2:2 + len(members)] + bytes(len(members))):
        known = configuration.channels[frame.way][member].formats
        formats.append(known[octet & 31] if octet & 31 < len(known) else (0, 0))
    # A dedicated channel (12), seen at the controller (2), with the payload check or without, no paging; then channels,
    # sizes and numbers. Four octets of AAL2 stand before a frame; nothing in them is read.
    values = [12, 2, int(configuration.payload_check), 0, len(members), *(size for _, size in formats),
              *(count for count, _ in formats)]
    link = 16 * frame.leg + frame.frame_set
    listing = ','.join(map(str, values))
    found = [f'iub.{link}/fp/1,{listing}/$0000000000{link:02x}/1/ {direction} tm {stamp(frame.time)} '
             f'l $00000000{frame.octets.hex()}']
    try:
        blocks = read_frame(configuration, frame.way, frame.frame_set, frame.octets).blocks
    except BadFrame:
        return found
    for block in blocks:
        taken = None if block.bad else bearer_of(configuration, frame.way, block)
        if taken:
            found.append(entry_of_pdu(link, frame.way, taken[0].mode, taken[0].number, frame.time, taken[1]))
    return found


def entry_of_pdu(link: int, way: str, mode: str, bearer: int, time: int, pdu: bytes) -> str:
    terminal = 1 + link // 16  # one for each leg
    head = bytes([0xc0 if way == 'down' else 0xc1, 0x72, 0, 0, 0, terminal, 0xa2, 1, bearer + 1, 0x41])
    head, direction = head + length_of(len(pdu)), 's' if way == 'down' else 'r'
    return f'rlc.{link}/rlc/1,1,{MODES[mode]}/ {direction} tm {stamp(time)} l ${(head + pdu).hex()}'


def length_of(length: int) -> bytes:
    if length < 128:
        return bytes([length])
    return bytes([0x81, length]) if length < 256 else bytes([0x82, length >> 8, length & 255])


def log_of_pair(run: Run) -> str:
    entries, time = [], 0
    for it in run.told[1:-1]:
        time += 1000
        if isinstance(it, EndSent):
            way = 'down' if it.end == 'a' else 'up'
            entries.append((time, [entry_of_pdu(0, way, 'am', 0, time, it.octets)]))
        else:
            entries.append(note(time, line_of(it)))
    return as_log(entries)


def main() -> None:
    words = argparse.ArgumentParser('dch-capture', description=__doc__, epilog=HELP,
                                    formatter_class=argparse.RawDescriptionHelpFormatter)
    words.add_argument('input', metavar='INPUT')
    words.add_argument('report', metavar='REPORT')
    words.add_argument('output', metavar='OUTPUT')
    given = words.parse_args()
    output = Path(given.output)
    if output.suffix not in ('.pcapng', '.out'):
        raise BadInput(f'{output}: its name ends neither in .pcapng nor in .out')
    run = read_run(given.input, given.report)
    if run.configuration is None:
        if output.suffix != '.out':
            raise BadInput(f'{output}: a run of pair has no IP packets; take a name that ends in .out')
        output.write_text(log_of_pair(run))
        return
    found = Frames(run)
    if not found.frames:
        raise BadInput(f'{given.report}: no Iub frames are in it')
    if output.suffix == '.out':
        entries = [(frame.time, entries_of(frame)) for frame in found.frames]
        output.write_text(as_log(entries + [note(time, text) for time, text in found.lines]))
        return
    for part in run.configuration.parts():
        when = '' if part is run.configuration or not run.configuration.later \
            else f' from radio frame {run.configuration.later[0]} on'
        for text in misread(part):
            print(f'dch-capture: {text}{when}; {output.stem}.out would be read as it is', file=sys.stderr)
    output.write_bytes(as_pcapng(run.configuration, found))


def command() -> None:
    run_command('dch-capture', main)


if __name__ == '__main__':
    command()
