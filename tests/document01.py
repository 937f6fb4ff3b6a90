"""Document 01 computed a second time, by its definitions alone, for tests/cases.py; the variance and the last line of a sound
tally are those of document 02, ticket 3, blocks of type 1 read as ticket 5 has it, and the caller chooses what counts, by ticket 7.

Each function answers as the paper's paragraph of its name has it; a call that says no raises Refused with the number and
place of the table "When the set says no". Speed does not matter here: plans are searched for, batches counted one by one.
"""
import heapq
import itertools
import struct

import loss_rle

WORDS = {14: 7, 17: 3, 18: 2, 240: 2, 241: 11}
# The words after the first, as struct has them; 2x stands for 16 reserved bits.
LAYOUTS = {14: "I2xHIIIII", 17: "IHHHH", 18: "IHH", 240: "IH2x", 241: "IHHI8I"}
UNAVAILABLE, OVER_RANGE, GREATEST = 65535, 65534, 65533
MOST_PACKETS, MOST_DURATION = 65536, 2621440
LOST, DISCARDED, EITHER = 1, 2, 3  # the events
COUNTED = {LOST: (1,), DISCARDED: (2,), EITHER: (1, 2)}  # the packets of a trace that they count


class Refused(Exception):
    def __init__(self, number, place=0):
        super().__init__(number, place)
        self.number, self.place = number, place


def refuse_if(condition, number, place=0):
    if condition:
        raise Refused(number, place)


def number_at(some, start, size):
    return int.from_bytes(some[start:start + size], "big")


# The packet

def packet_blocks(packet, room=None):
    """The blocks as (offset, type, type-specific byte, body). With a room, the packet is the front of a buffer to add to."""
    refuse_if(len(packet) < 8, 1)
    refuse_if(packet[0] // 64 != 2, 2)
    refuse_if(packet[1] != 207, 3)
    size = 4 * (number_at(packet, 2, 2) + 1)
    if room is None:
        refuse_if(size != len(packet), 4)
    else:
        refuse_if(size > room or size < 8, 4)
    refuse_if(packet[0] // 32 % 2 == 1, 5)
    blocks, at = [], 8
    while at < size:
        end = at + 4 + 4 * number_at(packet, at + 2, 2)
        refuse_if(end > size, 6, at)
        blocks.append((at, packet[at], packet[at + 1], packet[at + 4:end]))
        at = end
    return blocks


def read(packet):
    blocks = packet_blocks(packet)
    return f"ssrc {packet[4:8].hex()} blocks {len(blocks)}"


def measured_sources(blocks):
    return {body[:4] for _, kind, _, body in blocks if kind == 14 and len(body) == 28}


def reason(kind, specific, body, sources):
    """The number of the first reason to drop a listed block, or 0. Sources are None where a block is read by itself."""
    if len(body) != 4 * WORDS[kind]:
        return 1
    if kind not in (17, 18):
        return 0
    if specific // 64 == 0:
        return 2
    if any(32768 < number_at(body, at, 2) < 65535 for at in (4, 6)):
        return 3
    if sources is not None and body[:4] not in sources:
        return 4
    return 0


def figure(number):
    return {UNAVAILABLE: "none", OVER_RANGE: "over"}.get(number, str(number))


def typed_text(kind, specific, body):
    source = "source " + body[:4].hex()
    halves = [number_at(body, at, 2) for at in range(0, len(body), 2)]
    words = [number_at(body, at, 4) for at in range(0, len(body), 4)]
    if kind == 14:
        return (f"meas {source} first {halves[3]} efirst {words[2]} elast {words[3]} interval {words[4]} "
                f"seconds {words[5]} fraction {words[6]}")
    if kind == 240:
        return f"eli {source} index {halves[2]}"
    if kind == 241:
        begin, end = halves[2], halves[3]
        counts = " ".join(str(word) for word in words[3:])
        return f"ts {source} begin {begin} end {end} packets {(end - begin) % 65536} streams {words[2]} counts {counts}"
    rates = f"burst {figure(halves[2])} gap {figure(halves[3])}"
    if kind == 18:
        return f"discard {source} i {specific // 64} {rates}"
    return f"loss {source} i {specific // 64} {rates} mean {figure(halves[4])} var {figure(halves[5])}"


def block_text(kind, specific, body, sources):
    if kind == loss_rle.RLE:
        return loss_rle.text(specific, body)
    if kind not in WORDS:
        return f"unknown type {kind} bytes {len(body)}"
    why = reason(kind, specific, body, sources)
    return f"dropped type {kind} reason {why}" if why else typed_text(kind, specific, body)


def block(index, packet):
    blocks = packet_blocks(packet)
    refuse_if(index >= len(blocks), 7)
    _, kind, specific, body = blocks[index]
    return f"{index} " + block_text(kind, specific, body, measured_sources(blocks))


def alone(kind, specific, body):
    return "0 " + block_text(kind, specific, body, None)


def body_part(index, packet):
    """Where the body of a block stands and its size; both 0 where the block is refused."""
    try:
        blocks = packet_blocks(packet)
        refuse_if(index >= len(blocks), 7)
    except Refused:
        return 0, 0
    return blocks[index][0] + 4, len(blocks[index][3])


def places_and_verdicts(packet, room):
    """Two numbers a block: its offset, and 0 typed, 1 to 5 dropped, 254 a good type 1, 255 unknown."""
    blocks = packet_blocks(packet)
    refuse_if(room < 2 * len(blocks), 8)
    sources = measured_sources(blocks)
    entries = []
    for at, kind, specific, words in blocks:
        rle = kind == loss_rle.RLE and (loss_rle.read(specific, words)[0] or loss_rle.GOOD)
        entries += [at, rle or (reason(kind, specific, words, sources) if kind in WORDS else 255)]
    return entries


# Writing

def new_packet(sender, room):
    refuse_if(room < 8, 8)
    return struct.pack(">BBHI", 128, 207, 1, sender)


def block_bytes(kind, flag, numbers):
    """A block from the numbers of its layout."""
    return struct.pack(">BBH", kind, flag * 64, WORDS[kind]) + struct.pack(">" + LAYOUTS[kind], *numbers)


def added(buffer, kind, flag, rates, numbers):
    """The packet at the front of the buffer with one block more."""
    packet_blocks(buffer, len(buffer))
    if kind in (17, 18):
        refuse_if(flag not in (1, 2, 3) or any(32768 < rate < 65535 for rate in rates), 16)
    size = 4 * (number_at(buffer, 2, 2) + 1)
    length = number_at(buffer, 2, 2) + 1 + WORDS[kind]
    refuse_if(length > 65535, 17)
    refuse_if(4 * (length + 1) > len(buffer), 8)
    front = buffer[:2] + struct.pack(">H", length) + buffer[4:size]
    return front + block_bytes(kind, flag, numbers)


# The trace and its figures

def burst_settings(gmin, spacing):
    refuse_if(not (1 <= gmin <= 255 and 1 <= spacing <= 40000), 15)


def batch_settings(batch, threshold):
    refuse_if(not (1 <= batch <= 1024 and 0 <= threshold <= 1024), 15)


def accepted(trace):
    refuse_if(not 1 <= len(trace) <= MOST_PACKETS, 10)
    for place, packet in enumerate(trace):
        refuse_if(packet > 2, 9, place)


def counted(event, trace):
    """The trace as lost and received packets alone: 1 for each packet that counts, 0 for each other."""
    return bytes(packet in COUNTED[event] for packet in trace)


def groups(positions, gmin):
    """Positions of events cut where at least Gmin packets stand between two."""
    cut = []
    for at in positions:
        if cut and at - cut[-1][-1] - 1 < gmin:
            cut[-1].append(at)
        else:
            cut.append([at])
    return cut


def duration(packets, spacing):
    return packets * spacing // 1000


def sums(trace, event, gmin, spacing):
    """E, L, Eb, Lb, n, S, Q of a trace."""
    positions = [at for at, packet in enumerate(trace) if packet in COUNTED[event]]
    bursts = [group for group in groups(positions, gmin) if len(group) >= 2]
    lengths = [group[-1] - group[0] + 1 for group in bursts]
    times = [duration(length, spacing) for length in lengths]
    return (len(trace), len(positions), sum(lengths), sum(map(len, bursts)), len(bursts), sum(times),
            sum(time * time for time in times))


def sent(measure):
    return measure if measure <= GREATEST else OVER_RANGE


def figures_of(E, L, Eb, Lb, n, S, Q):
    """Burst rate, gap rate, mean and variance, as a listing has them."""
    burst = Lb * 32768 // Eb if Eb else UNAVAILABLE
    gap = (L - Lb) * 32768 // (E - Eb) if E != Eb else UNAVAILABLE
    mean = sent(S // n) if n else UNAVAILABLE
    variance = sent((n * Q - S * S) // (n * n)) if n else UNAVAILABLE
    return [figure(number) for number in (burst, gap, mean, variance)]


def figures_text(counts):
    return "burst {} gap {} mean {} var {}".format(*figures_of(*counts))


def figures(event, gmin, spacing, trace):
    burst_settings(gmin, spacing)
    accepted(trace)
    return figures_text(sums(trace, event, gmin, spacing))


def summary_text(event, counts, source, flag):
    """The listing's line, without its number, of the block whose events these are: 17 the lost, 18 the discarded. A block 18
    has no mean and no variance. The flag is as given: a bad one is refused where the block is added."""
    burst, gap, mean, variance = figures_of(*counts)
    rates = f"source {source:08x} i {flag} burst {burst} gap {gap}"
    return f"loss {rates} mean {mean} var {variance}" if event == LOST else f"discard {rates}"


def block_of_trace(event, gmin, spacing, source, flag, trace):
    burst_settings(gmin, spacing)
    accepted(trace)
    return summary_text(event, sums(trace, event, gmin, spacing), source, flag)


# A tally: E, L, Eb, Lb, n, S, Q over closed bursts, then events, packets and packets since of the open stretch

def tally(event, gmin, spacing, trace):
    """A tally opened, given each packet and closed, by what its closing has to equal: the formulas over the trace."""
    burst_settings(gmin, spacing)
    refuse_if(any(packet > 2 for packet in trace[:MOST_PACKETS]), 9)
    refuse_if(len(trace) > MOST_PACKETS, 10)
    return figures_text(sums(trace, event, gmin, spacing))


def with_stretch(spacing, counts):
    """E to Q with the open stretch counted in: two or more events are one more burst."""
    E, L, Eb, Lb, n, S, Q, events, packets, _ = counts
    if events < 2:
        return E, L, Eb, Lb, n, S, Q
    time = duration(packets, spacing)
    return E, L, Eb + packets, Lb + events, n + 1, S + time, Q + time * time


def sound(gmin, spacing, counts):
    E, L, Eb, Lb, n, S, Q = with_stretch(spacing, counts)
    return all((
        1 <= gmin <= 255 and 1 <= spacing <= 40000,
        E <= MOST_PACKETS,
        Eb <= E,
        Lb <= Eb,
        Lb <= L,
        L - Lb <= E - Eb,
        2 * n <= Eb,
        all(count <= E for count in counts[7:]),
        S <= MOST_DURATION,
        Q <= S * S,
        n * Q >= S * S,
    ))


def close(gmin, spacing, counts):
    refuse_if(not sound(gmin, spacing, counts), 15)
    return figures_text(with_stretch(spacing, counts))


def block_of_tally(event, gmin, spacing, counts, source, flag):
    """Document 02, ticket 7: "Blocks 17 and 18 keep their own events", so that none has either: a setting outside its range."""
    refuse_if(not sound(gmin, spacing, counts) or event == EITHER, 15)
    return summary_text(event, with_stretch(spacing, counts), source, flag)


def take(event, gmin, spacing, counts, packet):
    """The ten counts after one packet more."""
    refuse_if(not sound(gmin, spacing, counts), 15)
    refuse_if(counts[0] == MOST_PACKETS, 10)
    refuse_if(packet > 2, 9)
    E, L, Eb, Lb, n, S, Q, events, packets, since = counts
    if packet not in COUNTED[event]:
        return E + 1, L, Eb, Lb, n, S, Q, events, packets, since + 1
    if events and since < gmin:
        return E + 1, L + 1, Eb, Lb, n, S, Q, events + 1, packets + since + 1, 0
    _, _, Eb, Lb, n, S, Q = with_stretch(spacing, counts)
    return E + 1, L + 1, Eb, Lb, n, S, Q, 1, 1, 0


# Effective loss and the plan

def batch_trace(batch, threshold, trace):
    batch_settings(batch, threshold)
    accepted(trace)
    refuse_if(batch > len(trace), 14)


def loss(event, batch, threshold, trace):
    batch_trace(batch, threshold, trace)
    N, ones = len(trace) - batch + 1, counted(event, trace)
    over = [at for at in range(N) if ones.count(1, at, at + batch) > threshold]
    return f"over {len(over)} of {N} index {len(over) * 65535 // N} first {over[0] if over else 'none'}"


def plan(event, batch, threshold, trace, room):
    """Demand 3's plan, by search where the trace is short, and by shortest paths."""
    batch_trace(batch, threshold, trace)
    refuse_if(room < len(trace), 8)
    ones = counted(event, trace)
    found = by_paths(batch, threshold, ones)
    assert len(trace) > 16 or by_search(batch, threshold, ones) == found, "two plans"
    return found


def by_search(batch, threshold, ones):
    """All plans that mark counted packets only, fewest marks first: of the first that leave no batch over the threshold, the
    one that has no mark where another first differs from it, which is the least as a list."""
    places = [at for at, one in enumerate(ones) if one]
    batches = [set(places).intersection(range(at, at + batch)) for at in range(len(ones) - batch + 1)]
    for count in range(len(places) + 1):
        plans = itertools.combinations(places, count)
        good = [marks for marks in plans if all(len(some.difference(marks)) <= threshold for some in batches)]
        if good:
            return min(bytes(at in marks for at in range(len(ones))) for marks in good)


def by_paths(batch, threshold, ones):
    """Let x(i) be the counted packets left without a mark among the first i. A plan is good exactly when x(0) = 0,
    0 <= x(i + 1) - x(i) <= 1 for a counted packet i and 0 for another, and x(i + B) - x(i) <= T. Such differences have a
    greatest solution, the distances from 0 over steps of these lengths: it leaves most packets in all, and in each prefix."""
    size = len(ones)
    distance = [None] * (size + 1)
    waiting = [(0, 0)]
    while waiting:
        so_far, at = heapq.heappop(waiting)
        if distance[at] is not None:
            continue
        distance[at] = so_far
        if at > 0:
            heapq.heappush(waiting, (so_far, at - 1))
        if at < size:
            heapq.heappush(waiting, (so_far + ones[at], at + 1))
        if at + batch <= size:
            heapq.heappush(waiting, (so_far + threshold, at + batch))
    left = [distance[at + 1] - distance[at] for at in range(size)]
    return bytes(ones[at] - left[at] for at in range(size))


# The settings card

RANGES = ((1, 255), (1, 1024), (0, 1024), (1, 40000))


def in_range(settings):
    return all(low <= value <= high for value, (low, high) in zip(settings, RANGES))


def card(text):
    refuse_if(len(text) != 20 or any(not 48 <= byte <= 57 for byte in text), 11)
    refuse_if(int(text) % 97 != 1 or text[18:] in (b"00", b"01", b"99"), 12)
    settings = [int(text[start:end]) for start, end in ((0, 3), (3, 8), (8, 13), (13, 18))]
    refuse_if(not in_range(settings), 13)
    return "gmin {} batch {} threshold {} spacing {}".format(*settings)


def written_card(settings, room):
    """The one card of the settings: the check is sought among all."""
    refuse_if(not in_range(settings), 15)
    refuse_if(room < 20, 8)
    payload = "{:03}{:05}{:05}{:05}".format(*settings)
    check, = [check for check in range(2, 99) if int(f"{payload}{check:02}") % 97 == 1]
    return f"{payload}{check:02}".encode()
