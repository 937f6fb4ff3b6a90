"""Blocks of type 1, Loss RLE, by RFC 3611, section 4.1, and document 02, ticket 5, packet by packet."""
import struct

RLE, GOOD = 1, 254  # the type, and the verdict of a good block
MOST_PACKETS = 65533


def packets_of(chunk):
    """The packets of a chunk, 0 received and 1 lost. "The leftmost bit": 0 a run, of the kind of the next bit and with 14 bits of
    length; 1 a vector, "read from left to right in order of increasing sequence number"."""
    first, *rest = f"{chunk:016b}"
    if first == "0":
        return [int(rest[0] == "0")] * int("".join(rest[1:]), 2)
    return [int(bit == "0") for bit in rest]


def trace_of(begin, end, chunks):
    """The packets of the interval; None for D5."""
    interval, trace = (end - begin) % 65536, []
    if interval > MOST_PACKETS:
        return None
    for chunk in chunks:
        before_the_end = len(trace) < interval
        if before_the_end == (chunk == 0):
            return None  # a null chunk before the end, or another chunk behind it
        trace += packets_of(chunk)[:interval - len(trace)]
    return bytes(trace) if len(trace) == interval else None


def read(specific, body):
    """The reason and None, or 0 and the trace."""
    if len(body) < 8 or len(body) % 4 != 0:
        return 1, None
    if specific % 16 != 0:
        return 2, None
    _, _, *numbers = struct.unpack(f">{len(body) // 2}H", body)
    trace = trace_of(*numbers[:2], numbers[2:])
    return (5, None) if trace is None else (0, trace)


def text(specific, body):
    """A block's line in a listing, behind its number."""
    reason, trace = read(specific, body)
    if reason:
        return f"dropped type {RLE} reason {reason}"
    begin, end = struct.unpack(">HH", body[4:8])
    return f"rle source {body[:4].hex()} begin {begin} end {end} lost {sum(trace)}"


def vectors(trace):
    """"Our writer uses vector chunks alone, unused bits zero, and a null chunk where the count is odd"."""
    fifteens = [trace[at:at + 15] for at in range(0, len(trace), 15)]
    bits = ["1" + "".join(str(1 - packet) for packet in some).ljust(15, "0") for some in fifteens]
    return [int(some, 2) for some in bits] + [0] * (len(bits) % 2)


def block_bytes(source, begin, trace):
    """The block of a trace."""
    chunks = vectors(trace)
    head = struct.pack(">BBHIHH", RLE, 0, 2 + len(chunks) // 2, source, begin, (begin + len(trace)) % 65536)
    return head + struct.pack(f">{len(chunks)}H", *chunks)
