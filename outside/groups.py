"""The balise group memory, a second reading of the last part of docs/TELEGRAMS.md."""

from dataclasses import dataclass, replace
from typing import NamedTuple, Optional, Union

from telegrams import (
    BOTH, NOMINAL, REVERSE, TOTAL_PLACE, Header, Refusal, Tbl1Packet,
    read_frame, read_header, read_packets,
)


@dataclass(frozen=True)
class OpenGroup:
    """A group whose telegrams are still being gathered. None stands for what is not known."""

    country: int
    group: int
    total: int
    first_position: int
    direction: Optional[int] = None
    nominal_code: Optional[str] = None
    reverse_code: Optional[str] = None


@dataclass(frozen=True)
class ClosedGroup:
    """A group that has given its code, if it had one."""

    country: int
    group: int


Memory = Union[None, OpenGroup, ClosedGroup]


class Hearing(NamedTuple):
    """The memory after a telegram was heard, and the code acted on in this call, if any."""

    memory: Memory
    passed_over: bool = False
    code: Optional[str] = None


def is_of_group(memory: Memory, header: Header) -> bool:
    """Whether a group is remembered and this header is of that group."""
    return memory is not None and (memory.country, memory.group) == (header.country, header.group)


def store_codes(memory: OpenGroup, packets: list[Tbl1Packet]) -> OpenGroup:
    """The memory with the codes of these packets, later codes in the place of earlier ones."""
    for packet in packets:
        if packet.direction in (NOMINAL, BOTH):
            memory = replace(memory, nominal_code=packet.code)
        if packet.direction in (REVERSE, BOTH):
            memory = replace(memory, reverse_code=packet.code)
    return memory


def settle_direction(memory: OpenGroup, position: int) -> OpenGroup:
    """The memory with its direction of travel, as far as this position tells it."""
    if memory.direction is not None or position == memory.first_position:
        return memory
    return replace(memory, direction=NOMINAL if position > memory.first_position else REVERSE)


def go_on(memory: OpenGroup, header: Header, packets: list[Tbl1Packet]) -> Hearing:
    """A further telegram of the open group: settle, store, and close where the group ends."""
    memory = store_codes(settle_direction(memory, header.position), packets)
    closed = ClosedGroup(memory.country, memory.group)
    if memory.direction == NOMINAL and header.position == header.total:
        return Hearing(closed, code=memory.nominal_code)
    if memory.direction == REVERSE and header.position == 0:
        return Hearing(closed, code=memory.reverse_code)
    return Hearing(memory)


def hear_telegram(memory: Memory, row: bytes, crc_good: bool, plug: int) -> Hearing:
    """Hear a telegram for the balise group memory. A refusal leaves the memory as it was."""
    bits = read_frame(row, crc_good)
    header = read_header(bits, plug)
    same_group = is_of_group(memory, header)
    if same_group and isinstance(memory, OpenGroup) and header.total != memory.total:
        raise Refusal(9, TOTAL_PLACE)
    packets = read_packets(bits)
    if not same_group:
        begun = OpenGroup(header.country, header.group, header.total, header.position)
        return Hearing(store_codes(begun, packets))
    if isinstance(memory, ClosedGroup):
        return Hearing(memory, passed_over=True)
    return go_on(memory, header, packets)
