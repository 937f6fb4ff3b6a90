"""Document 02's tickets 1, 4, 5 and 6 computed a second time, by their definitions alone, over document 01's (document01.py).
Packed traces are those of ticket 7."""

import itertools
import struct

import document01
import loss_rle
from document01 import (LAYOUTS, LOST, MOST_PACKETS, UNAVAILABLE, WORDS, Refused, measured_sources, number_at, packet_blocks, reason,
                        refuse_if)


# Ticket 1: two packets compared

def fields(kind, specific, body):
    """The fields of a typed block "in layout order from 0, the flag first, reserved bits left out"."""
    flag = (specific // 64,) if kind in (17, 18) else ()
    return flag + struct.unpack(">" + LAYOUTS[kind], body)


def contents(packet):
    """For each block its type, its fields where it is typed, and its bytes, "header included", where it is not."""
    blocks = packet_blocks(packet)
    sources = measured_sources(blocks)
    found = []
    for at, kind, specific, body in blocks:
        if kind in WORDS and reason(kind, specific, body, sources) == 0:
            found.append((kind, fields(kind, specific, body), None))
        else:
            found.append((kind, None, packet[at:at + 4 + len(body)]))
    return found


def block_entries(index, one, other):
    """The entries of a pair of blocks, None standing for one that is not there."""
    if one is None or other is None:
        return [(3 if other is None else 4, index, 0, 0, 0)]
    if one == other:
        return []
    (kind, readings, _), (other_kind, other_readings, _) = one, other
    if kind != other_kind or readings is None or other_readings is None:
        return [(2, index, 0, 0, 0)]
    pairs = enumerate(zip(readings, other_readings))
    return [(1, index, field, *pair) for field, pair in pairs if pair[0] != pair[1]]


def compare(first, second):
    """The entries of two packets, each of five numbers: kind, block, field, both readings."""
    blocks, others = contents(first), contents(second)
    sender, other = number_at(first, 4, 4), number_at(second, 4, 4)
    entries = [(0, 0, 0, sender, other)] if sender != other else []
    for index, pair in enumerate(itertools.zip_longest(blocks, others)):
        entries += block_entries(index, *pair)
    return entries


def differences(first, second, room):
    """The same as a list of numbers, for which there is so much room."""
    entries = compare(first, second)
    refuse_if(room < 5 * len(entries), 8)
    return list(itertools.chain.from_iterable(entries))


# Ticket 4: the front panel

DARK = (None, None)


def needles(kind, flag, rates):
    """The burst and the gap needle of a block: a fraction, or None where it is dark. "The panel shows only a block 17 or 18 that
    refusal 16 lets through"."""
    if kind not in (17, 18) or flag not in (1, 2, 3) or any(32768 < rate < UNAVAILABLE for rate in rates):
        return DARK
    return tuple(None if rate == UNAVAILABLE else rate / 32768 for rate in rates)


def needles_of(kind, specific, body, sources):
    """The needles of a block that was read; "dropped blocks included" are dark."""
    if kind not in WORDS or reason(kind, specific, body, sources) != 0:
        return DARK
    return needles(kind, specific // 64, [number_at(body, at, 2) for at in (4, 6)])


def needles_at(index, packet):
    """The needles of a block of a packet; none where the packet or the index is refused."""
    try:
        blocks = packet_blocks(packet)
        refuse_if(index >= len(blocks), 7)
    except Refused:
        return DARK
    return needles_of(*blocks[index][1:], measured_sources(blocks))


def panel(needles):
    """Each needle by the bits of its f32 and the lamp, which "is on exactly when at least one needle is lit"."""
    burst, gap = ("dark" if needle is None else struct.pack(">f", needle).hex() for needle in needles)
    return f"burst {burst} gap {gap} lamp {'off' if needles == DARK else 'on'}"


# Ticket 5: Loss RLE

def read_out(index, packet, room):
    """The trace of a block, for which there is so much room: "7 too if that block is not a good type 1"."""
    blocks = packet_blocks(packet)
    refuse_if(index >= len(blocks) or blocks[index][1] != loss_rle.RLE, 7)
    _, trace = loss_rle.read(*blocks[index][2:])
    refuse_if(trace is None, 7)
    refuse_if(room < len(trace), 8)
    return trace


def with_trace(buffer, source, begin, trace):
    """The packet at the front of the buffer with a trace more."""
    packet_blocks(buffer, len(buffer))
    refuse_if(not 1 <= len(trace) <= loss_rle.MOST_PACKETS, 10)
    for place, packet in enumerate(trace):
        refuse_if(packet > 1, 9, place)
    added, words = loss_rle.block_bytes(source, begin, trace), number_at(buffer, 2, 2) + 1
    length = words - 1 + len(added) // 4
    refuse_if(length > 65535, 17)
    refuse_if(4 * (length + 1) > len(buffer), 8)
    return buffer[:2] + struct.pack(">H", length) + buffer[4:4 * words] + added


# Tickets 6 and 7: packed traces, as lists of words

WORD = 64


def packed(event, trace, room):
    """The words of a trace, for which there is so much room: "packet i in word i / 64 at bit i modulo 64", "bits past the end zero",
    and by ticket 7 "a one for each packet counted by the choice"; "packing no longer refuses 2"."""
    document01.accepted(trace)
    words = [0] * -(-len(trace) // WORD)
    refuse_if(room < len(words), 8)
    for place, one in enumerate(document01.counted(event, trace)):
        words[place // WORD] += one * 2 ** (place % WORD)
    return words


def packets_in(words, packets):
    """The trace of so many packets, 1 for each one. Refused with 10, "8 for a word slice too short to read", and "9 at the index,
    counted on from the packets, of the first nonzero bit past the end in the last needed word"."""
    refuse_if(not 1 <= packets <= MOST_PACKETS, 10)
    needed = -(-packets // WORD)
    refuse_if(len(words) < needed, 8)
    bits = [words[place // WORD] // 2 ** (place % WORD) % 2 for place in range(WORD * needed)]
    for place in range(packets, WORD * needed):
        refuse_if(bits[place] == 1, 9, place)
    return bytes(bits[:packets])


def unpacked(words, packets, room):
    """The same with so much room, which comes last."""
    trace = packets_in(words, packets)
    refuse_if(room < packets, 8)
    return trace


def packed_loss(words, packets, batch, threshold):
    """Effective loss, "the same from the packed form as from the byte form", but that 15 comes before the words. It counts the
    ones, which stand as 1 in their trace."""
    document01.batch_settings(batch, threshold)
    return document01.loss(LOST, batch, threshold, packets_in(words, packets))


def packed_plan(words, packets, batch, threshold, room):
    """The plan, "still written a byte a packet", in the same way."""
    document01.batch_settings(batch, threshold)
    return document01.plan(LOST, batch, threshold, packets_in(words, packets), room)
