"""Tools around `dch`, the user plane of the UMTS dedicated channel (UTRA FDD): its nodes driven from Python over the
program's pipes (`Node`) and in process (`Rnc`, `Ue`, `NodeB`), its coder and transport channels in process (`Coder`,
`Channel`), and the codecs and commands that work on its inputs, reports and recorded frames."""
from .channel import Blocks, Channel, TransportFormat
from .config import Configuration, read_configuration
from .faults import BadInput, Ended, Refused
from .iub import BadFrame, read_frame, write_frame
from .library import CodeBlocks, Coder, Status
from .node import LinkNode, Node, NodeBNode, PairNode, RncNode, SoftNode, UeNode
from .session import NodeB, Rnc, Ue
from .values import (Bad, BadTti, Differs, End, EndFull, EndGot, EndOutside, EndOverlong, EndPduBad, EndRestart,
                     EndSent, EndTook, EndWrong, Full, Got, GotBits, Iub, IubBad, Leg, NoBearer, Nobody, Open, Outside,
                     Overlong, PduBad, Phy, PhyNone, Reserved, Told, Took, Wrong)

__all__ = [
    'Bad', 'BadFrame', 'BadInput', 'BadTti', 'Blocks', 'Channel', 'CodeBlocks', 'Coder', 'Configuration', 'Differs',
    'End', 'EndFull', 'EndGot', 'EndOutside', 'EndOverlong', 'EndPduBad', 'EndRestart', 'EndSent', 'EndTook',
    'EndWrong', 'Ended', 'Full', 'Got', 'GotBits', 'Iub', 'IubBad', 'Leg', 'LinkNode', 'NoBearer', 'Nobody', 'Node',
    'NodeB', 'NodeBNode', 'Open', 'Outside', 'Overlong', 'PairNode', 'PduBad', 'Phy', 'PhyNone', 'Refused', 'Reserved',
    'Rnc', 'RncNode', 'SoftNode', 'Status', 'Told', 'Took', 'TransportFormat', 'Ue', 'UeNode', 'Wrong',
    'read_configuration', 'read_frame', 'write_frame']
