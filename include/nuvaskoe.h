/* Made by tools/boundary.py from the Rattle source; not edited by hand. */
/*
 * nuvaskoe.h: the boundary of the Nuvaskoe library to C (C99 and C++, self-contained).
 *
 * Link with libnuvaskoe.a. Every function here is total: it takes any bytes and any numbers, returns, and either
 * answers or refuses. A refused call changes no byte of any buffer that it was lent. docs/PROMISES.md says what each
 * promises.
 *
 * Buffers: a pointer and a length in elements: bytes, 32-bit numbers for the lists of nuvaskoe_packet_list and
 * nuvaskoe_packet_compare, or 64-bit words for packed traces. Where the length is 0 the pointer may be NULL, and nothing
 * is read or written through it. What stands behind a pointer belongs to the caller, and nothing is kept of it after
 * the call. Buffers that are only read may overlap, or be the same. `out` shares no byte with any of them: nothing is
 * promised of a call where it does.
 *
 * Threads: the library has no state and allocates nothing. Every call can be made from any threads at once, as long as
 * none writes to a buffer that another one is lent.
 */
#ifndef NUVASKOE_H
#define NUVASKOE_H

#include <stddef.h>
#include <stdint.h>

#ifdef __cplusplus
extern "C" {
#endif

/* The version of this header: major * 10,000 + minor * 100 + patch. */
#define NUVASKOE_VERSION_MAJOR 0
#define NUVASKOE_VERSION_MINOR 7
#define NUVASKOE_VERSION_PATCH 0
#define NUVASKOE_VERSION 700

/* The version of the archive that is linked: that of this header is NUVASKOE_VERSION. */
uint32_t nuvaskoe_version(void);

/*
 * Why a call said no, by the numbers of the table of refusals; where a call means more by one, its comment says so.
 * nuvaskoe_refusal_meaning and nuvaskoe_refusal_advice, at
 * the end, say what went wrong and what to do.
 */
enum {
    NUVASKOE_OK = 0,
    NUVASKOE_REFUSAL_PACKET_SHORT = 1, /* the packet has under 8 bytes */
    NUVASKOE_REFUSAL_VERSION = 2, /* its version is not 2 */
    NUVASKOE_REFUSAL_PACKET_TYPE = 3, /* its second byte is not 207 */
    NUVASKOE_REFUSAL_PACKET_LENGTH = 4, /* its length field does not fit its bytes */
    NUVASKOE_REFUSAL_PADDING = 5, /* its padding bit is set */
    NUVASKOE_REFUSAL_BLOCK_PAST_END = 6, /* a block runs past the end */
    NUVASKOE_REFUSAL_NO_SUCH_BLOCK = 7, /* it has no block with that number */
    NUVASKOE_REFUSAL_BUFFER_SHORT = 8, /* the buffer is too short for the result, or there are fewer words than the packets need */
    NUVASKOE_REFUSAL_TRACE_BYTE = 9, /* a byte of the trace is above 2, or a bit past the end of a packed one is not 0 */
    NUVASKOE_REFUSAL_TRACE_LENGTH = 10, /* the trace is empty or over 65,536 packets, or a tally is full */
    NUVASKOE_REFUSAL_CARD_DIGITS = 11, /* the card is not exactly twenty digits */
    NUVASKOE_REFUSAL_CARD_CHECK = 12, /* the card's check does not fit */
    NUVASKOE_REFUSAL_CARD_FIELD = 13, /* the card's digits are right, a setting is not */
    NUVASKOE_REFUSAL_BATCH_LENGTH = 14, /* the batch is longer than the trace */
    NUVASKOE_REFUSAL_SETTING = 15, /* a setting is outside its range, or a tally is not sound */
    NUVASKOE_REFUSAL_BLOCK_VALUE = 16, /* a block 17 or 18 to be written has a bad flag or rate */
    NUVASKOE_REFUSAL_PACKET_FULL = 17 /* the packet is full */
};

/* Why a call said no: a row of the table of refusals by its number, and the place. */
typedef struct nuvaskoe_refusal {
    uint32_t number; /* from 1; at the boundary to C 0 is no refusal, and the rest of the answer then holds */
    size_t place; /* 6: the block's offset; 9: the byte's index in a trace, the bit's in a packed one; 0 elsewhere */
} nuvaskoe_refusal;

/* The four settings of a card, and the range of each. */
typedef struct nuvaskoe_settings {
    uint32_t gmin; /* 1 to 255 packets */
    uint32_t batch; /* 1 to 1,024 packets */
    uint32_t threshold; /* 0 to 1,024 losses */
    uint32_t spacing; /* between packets: 1 to 40,000 microseconds */
} nuvaskoe_settings;

/* The answer of a call that fills a lent buffer from its front. */
typedef struct nuvaskoe_written {
    nuvaskoe_refusal refusal;
    size_t size; /* how many bytes or entries at the front are the result; 0 where refused */
} nuvaskoe_written;

/* The answer of reading a card. */
typedef struct nuvaskoe_card {
    nuvaskoe_refusal refusal;
    nuvaskoe_settings settings; /* all 0 where refused */
} nuvaskoe_card;

/* The size of a card in bytes. */
#define NUVASKOE_CARD_BYTES 20

/*
 * The settings on a card: twenty ASCII digits, Gmin (3), batch (5), threshold (5), spacing (5) and the check (2),
 * and nothing else in the buffer. Refusals, in this order: 11, 12, 13.
 */
nuvaskoe_card nuvaskoe_card_read(const uint8_t *card, size_t card_len);

/*
 * Writes the one card of these settings into the first 20 bytes of out; the bytes after them keep what they held.
 * A good write answers size 20. Refusals, in this order: 15, 8.
 */
nuvaskoe_written nuvaskoe_card_write(nuvaskoe_settings settings, uint8_t *out, size_t out_len);

/*
 * Report packets: one RTCP XR packet (RFC 3611) as a buffer of bytes. A call that takes a packet judges all of it first;
 * its refusals, in this order: 1, 2, 3, 4, 5, 6 (placed at the block that runs past the end), then what its own line names.
 */

/* The largest packet, in bytes: its length field then holds 65,535. */
#define NUVASKOE_PACKET_BYTES_MAX 262144

/* What a packet says of itself. */
typedef struct nuvaskoe_packet {
    nuvaskoe_refusal refusal;
    uint32_t sender; /* 0 where refused */
    size_t blocks; /* how many blocks it has; 0 where refused */
} nuvaskoe_packet;

/* The types of the five kinds of block, and of Loss RLE. */
enum {
    NUVASKOE_BLOCK_RLE = 1, /* Loss RLE, which packets were lost: RFC 3611 */
    NUVASKOE_BLOCK_MEASUREMENT = 14, /* measurement information: RFC 6776 */
    NUVASKOE_BLOCK_LOSS = 17, /* bursts and gaps of lost packets: RFC 7004 */
    NUVASKOE_BLOCK_DISCARD = 18, /* bursts and gaps of discarded packets: RFC 7004 */
    NUVASKOE_BLOCK_EFFECTIVE = 240, /* effective loss; the number is ours */
    NUVASKOE_BLOCK_STREAMS = 241 /* transport stream counts; the number is ours */
};

/* What reading a block comes to: its verdict. */
enum {
    NUVASKOE_VERDICT_TYPED = 0, /* one of the five kinds; fields hold it */
    /* dropped, D1: one of the five types with another length; a type 1 of fewer than two words, or not of whole words */
    NUVASKOE_VERDICT_BAD_SIZE = 1,
    NUVASKOE_VERDICT_BAD_FLAG = 2, /* dropped, D2: interval flag 0; of a type 1, a thinning other than 0 */
    NUVASKOE_VERDICT_BAD_RATE = 3, /* dropped, D3: a rate from 32,769 to 65,534 */
    NUVASKOE_VERDICT_UNMEASURED = 4, /* dropped, D4: no measurement block for its source in the packet */
    /* dropped, D5: a type 1 on over 65,533 packets, or whose chunks cover too few, are null before the end or not null behind it */
    NUVASKOE_VERDICT_BAD_CHUNKS = 5,
    NUVASKOE_VERDICT_RLE = 254, /* a good type 1; fields hold it, and nuvaskoe_packet_rle gives its trace */
    NUVASKOE_VERDICT_UNKNOWN = 255 /* a type that is not listed: its body is all there is */
};

/* Figures as blocks hold them. A rate is in parts of NUVASKOE_RATE_MAX. */
#define NUVASKOE_RATE_MAX 32768
#define NUVASKOE_OVER_RANGE 65534 /* of a mean or variance */
#define NUVASKOE_UNAVAILABLE 65535 /* of a rate, mean or variance: it could not be measured */
#define NUVASKOE_FULL_LOSS 65535 /* of an effective loss index, which has no reserved number */

/* How many numbers the fields of any block take, and their places by type. */
#define NUVASKOE_FIELDS 13
enum {
    NUVASKOE_FIELD_RLE_SOURCE = 0,
    NUVASKOE_FIELD_RLE_BEGIN = 1,
    NUVASKOE_FIELD_RLE_END = 2,
    NUVASKOE_FIELD_RLE_PACKETS = 3,
    NUVASKOE_FIELD_RLE_LOST = 4
};
enum {
    NUVASKOE_FIELD_MEASUREMENT_SOURCE = 0,
    NUVASKOE_FIELD_MEASUREMENT_FIRST = 1,
    NUVASKOE_FIELD_MEASUREMENT_EXTENDED_FIRST = 2,
    NUVASKOE_FIELD_MEASUREMENT_EXTENDED_LAST = 3,
    NUVASKOE_FIELD_MEASUREMENT_INTERVAL = 4,
    NUVASKOE_FIELD_MEASUREMENT_SECONDS = 5,
    NUVASKOE_FIELD_MEASUREMENT_FRACTION = 6
};
enum {
    NUVASKOE_FIELD_LOSS_FLAG = 0,
    NUVASKOE_FIELD_LOSS_SOURCE = 1,
    NUVASKOE_FIELD_LOSS_BURST_RATE = 2,
    NUVASKOE_FIELD_LOSS_GAP_RATE = 3,
    NUVASKOE_FIELD_LOSS_BURST_MEAN = 4,
    NUVASKOE_FIELD_LOSS_BURST_VARIANCE = 5
};
enum {
    NUVASKOE_FIELD_DISCARD_FLAG = 0,
    NUVASKOE_FIELD_DISCARD_SOURCE = 1,
    NUVASKOE_FIELD_DISCARD_BURST_RATE = 2,
    NUVASKOE_FIELD_DISCARD_GAP_RATE = 3
};
enum {
    NUVASKOE_FIELD_EFFECTIVE_SOURCE = 0,
    NUVASKOE_FIELD_EFFECTIVE_INDEX = 1
};
enum {
    NUVASKOE_FIELD_STREAMS_SOURCE = 0,
    NUVASKOE_FIELD_STREAMS_BEGIN = 1,
    NUVASKOE_FIELD_STREAMS_END = 2,
    NUVASKOE_FIELD_STREAMS_PACKETS = 3,
    NUVASKOE_FIELD_STREAMS_STREAMS = 4,
    NUVASKOE_FIELD_STREAMS_SYNC_LOSSES = 5,
    NUVASKOE_FIELD_STREAMS_SYNC_BYTE_ERRORS = 6,
    NUVASKOE_FIELD_STREAMS_CONTINUITY_ERRORS = 7,
    NUVASKOE_FIELD_STREAMS_TRANSPORT_ERRORS = 8,
    NUVASKOE_FIELD_STREAMS_PCR_ERRORS = 9,
    NUVASKOE_FIELD_STREAMS_PCR_REPETITION_ERRORS = 10,
    NUVASKOE_FIELD_STREAMS_PCR_DISCONTINUITY_ERRORS = 11,
    NUVASKOE_FIELD_STREAMS_PTS_ERRORS = 12
};

/* One block. */
typedef struct nuvaskoe_block {
    nuvaskoe_refusal refusal;
    uint32_t block_type; /* 0 where refused */
    uint32_t verdict; /* NUVASKOE_VERDICT_UNKNOWN where refused */
    uint32_t fields[NUVASKOE_FIELDS]; /* where typed, or Loss RLE, by the names of its type's places; all others 0 */
} nuvaskoe_block;

/* Where a part of a packet lies. */
typedef struct nuvaskoe_part {
    size_t start; /* the offset of its first byte */
    size_t length;
} nuvaskoe_part;

/* The sender and the number of blocks. */
nuvaskoe_packet nuvaskoe_packet_read(const uint8_t *packet, size_t packet_len);

/* Block number index, from 0. Further refusal: 7, no block with that index. */
nuvaskoe_block nuvaskoe_packet_block(const uint8_t *packet, size_t packet_len, size_t index);

/*
 * Where the body of block number index lies in the packet: the words after the block's first. Start 0 and length 0
 * where nuvaskoe_packet_block refuses.
 */
nuvaskoe_part nuvaskoe_packet_body(const uint8_t *packet, size_t packet_len, size_t index);

/*
 * All blocks in one call: for each block two entries of out, its offset in the packet and its verdict; the entries
 * after them keep what they held. out_len counts entries, not bytes. Further refusal: 8, fewer than two entries for
 * each block.
 */
nuvaskoe_written nuvaskoe_packet_list(const uint8_t *packet, size_t packet_len, uint32_t *out, size_t out_len);

/* The kinds of difference of two packets, and how many numbers one takes. */
enum {
    NUVASKOE_DIFFERENCE_SENDER = 0, /* the senders: both readings are used */
    NUVASKOE_DIFFERENCE_FIELD = 1, /* a field of two typed blocks of one type: all numbers are used */
    /* the whole block: two types; typed in one packet alone, even with the same bytes; or in neither, with other bytes */
    NUVASKOE_DIFFERENCE_BLOCK = 2,
    NUVASKOE_DIFFERENCE_ONLY_FIRST = 3, /* a block that the first packet alone has */
    NUVASKOE_DIFFERENCE_ONLY_SECOND = 4 /* a block that the second packet alone has */
};
#define NUVASKOE_DIFFERENCE_NUMBERS 5

/* The answer of comparing two packets. */
typedef struct nuvaskoe_compared {
    nuvaskoe_refusal refusal;
    size_t differences; /* how many there are, of five numbers each; 0 where refused */
} nuvaskoe_compared;

/*
 * Every differing field of two packets, their blocks paired by index: for each difference five numbers of out, its kind, the
 * block's index, the field's number, and the reading of each packet; those that a kind does not use are 0. The sender comes
 * first, then block by block, in a block the fields in layout order from 0, the interval flag first. Reserved bits are left
 * out, and so are the packets that a block 241 covers: its fields after end have numbers one lower than their places above.
 * The answer counts differences; the numbers after the last keep what they held. out_len counts numbers: five for every
 * difference, and 5 * (3 * longer / 8) are always enough, longer being the bytes of the longer packet. Refusals: 1 to 6 of the
 * first packet, then 1 to 6 of the second, then 8, fewer than five numbers for each difference. The refusal does not say whose it
 * is: it is the first packet's exactly where nuvaskoe_packet_read refuses the first. Takes about 64 KiB of the stack where a
 * packet has over 2,048 bytes.
 */
nuvaskoe_compared nuvaskoe_packet_compare(const uint8_t *first, size_t first_len, const uint8_t *second,
                                          size_t second_len, uint32_t *out, size_t out_len);

/*
 * One block by itself, from its type, type-specific byte and body: never refused, and never
 * NUVASKOE_VERDICT_UNMEASURED.
 */
nuvaskoe_block nuvaskoe_block_read(uint8_t block_type, uint8_t specific, const uint8_t *body, size_t body_len);

/*
 * The five kinds of block as they are written. Every number that a field can hold is good, unless the comment of a flag
 * or a rate names a range: those outside it are refused with 16.
 */

/* Type 14, Measurement Information: RFC 6776, section 4. */
typedef struct nuvaskoe_measurement {
    uint32_t source;
    uint16_t first; /* first sequence number */
    uint32_t extended_first; /* extended first sequence number of the interval */
    uint32_t extended_last; /* extended last sequence number */
    uint32_t interval; /* interval duration */
    uint32_t seconds; /* cumulative duration, its seconds */
    uint32_t fraction; /* cumulative duration, its fraction */
} nuvaskoe_measurement;

/* Type 17, Burst/Gap Loss Summary Statistics: RFC 7004, section 3.1. */
typedef struct nuvaskoe_loss_summary {
    uint8_t flag; /* interval flag, 1 to 3 */
    uint32_t source;
    uint16_t burst_rate; /* 0 to 32,768, or 65,535 for unavailable */
    uint16_t gap_rate; /* 0 to 32,768, or 65,535 for unavailable */
    uint16_t burst_mean; /* milliseconds; 65,534 for over range, 65,535 for unavailable */
    uint16_t burst_variance; /* the same two marks */
} nuvaskoe_loss_summary;

/* Type 18, Burst/Gap Discard Summary Statistics: RFC 7004, section 3.2. */
typedef struct nuvaskoe_discard_summary {
    uint8_t flag; /* interval flag, 1 to 3 */
    uint32_t source;
    uint16_t burst_rate; /* 0 to 32,768, or 65,535 for unavailable */
    uint16_t gap_rate; /* 0 to 32,768, or 65,535 for unavailable */
} nuvaskoe_discard_summary;

/* Type 240, effective loss: draft-zheng-xrblock-effective-loss-index. The number is ours, the length RFC 3611's. */
typedef struct nuvaskoe_effective_summary {
    uint32_t source;
    uint16_t index; /* effective loss index; 65,535 is full loss */
} nuvaskoe_effective_summary;

/*
 * Type 241, TR 101 290 decodability: draft-huang-xrblock-rtcp-xr-decodability, section 3. The number is ours. Every
 * word from the third on is one of the fields after end, in their order.
 */
typedef struct nuvaskoe_stream_counts {
    uint32_t source;
    uint16_t begin; /* first sequence number */
    uint16_t end; /* sequence number after the last: it covers end minus begin packets, modulo 65,536 */
    uint32_t streams; /* number of transport streams */
    uint32_t sync_losses;
    uint32_t sync_byte_errors;
    uint32_t continuity_errors;
    uint32_t transport_errors;
    uint32_t pcr_errors;
    uint32_t pcr_repetition_errors;
    uint32_t pcr_discontinuity_errors;
    uint32_t pts_errors;
} nuvaskoe_stream_counts;

/*
 * Writes a packet with this sender and no blocks into the first 8 bytes of out; the bytes after them keep what they
 * held. A good write answers size 8. Refusal: 8.
 */
nuvaskoe_written nuvaskoe_packet_new(uint32_t sender, uint8_t *out, size_t out_len);

/*
 * Adding a block to the packet at the front of out, which may be longer than the packet. A good add answers the packet's
 * new size in bytes. Only the length field and the new bytes change, reserved bits are written zero, and the bytes after
 * the packet keep what they held. Refusals, in this order: 1 to 6 of the packet at the front, where 4 is a length field
 * that asks for more than out or for under 8 bytes; then
 *   16  a block 17 or 18 with a flag or rate outside its range
 *   17  the length field would pass 65,535
 *    8  out has no room for the block
 * An added 17 or 18 reads as NUVASKOE_VERDICT_UNMEASURED until a block 14 for its source is there.
 */

/* Adds a block 14 to the packet at the front of out. */
nuvaskoe_written nuvaskoe_packet_add_measurement(uint8_t *out, size_t out_len, nuvaskoe_measurement block);

/* Adds a block 17. */
nuvaskoe_written nuvaskoe_packet_add_loss(uint8_t *out, size_t out_len, nuvaskoe_loss_summary block);

/* Adds a block 18. */
nuvaskoe_written nuvaskoe_packet_add_discard(uint8_t *out, size_t out_len, nuvaskoe_discard_summary block);

/* Adds a block 240. */
nuvaskoe_written nuvaskoe_packet_add_effective(uint8_t *out, size_t out_len, nuvaskoe_effective_summary block);

/* Adds a block 241. */
nuvaskoe_written nuvaskoe_packet_add_streams(uint8_t *out, size_t out_len, nuvaskoe_stream_counts block);

/*
 * Loss RLE: which packets of an interval were lost, as 16-bit chunks of runs and of bits (RFC 3611, section 4.1). A block of
 * type 1 is none of the five kinds: its verdict is NUVASKOE_VERDICT_RLE or a reason, nuvaskoe_packet_compare looks at its bytes,
 * and its panel is dark. Only vectors of bits are written; all chunks are read, a run past the end up to the end.
 */

/* The most packets of its interval. */
#define NUVASKOE_INTERVAL_MAX 65533

/*
 * Reads the trace of block number index, a good block of type 1, into the front of out: a byte a packet, 0 received and 1 lost.
 * A good read answers how many packets it has, those of the block's interval; the bytes after them keep what they held.
 * Refusals: 1 to 7, 7 too where that block is not a good one of type 1, then 8.
 */
nuvaskoe_written nuvaskoe_packet_rle(const uint8_t *packet, size_t packet_len, size_t index, uint8_t *out,
                                     size_t out_len);

/*
 * Adds a trace of received and lost packets as a block of type 1 to the packet at the front of out: begin is the sequence number
 * of its first packet, and the block's end is begin plus the packets, modulo 65,536. A good add answers the packet's new size
 * in bytes, as adding any block does. Refusals, after the packet's own: 10 for a trace empty or over 65,533, 9 for a byte other
 * than 0 and 1, 17, 8.
 */
nuvaskoe_written nuvaskoe_packet_add_rle(uint8_t *out, size_t out_len, uint32_t source, uint16_t begin,
                                         const uint8_t *trace, size_t trace_len);

/*
 * Bursts and gaps of a trace: one byte a packet, 0 received, 1 lost, 2 discarded, from 1 to NUVASKOE_TRACE_MAX packets.
 * Settings: Gmin 1 to 255 packets, spacing 1 to 40,000 microseconds.
 */
#define NUVASKOE_TRACE_MAX 65536

/* Which packets are counted, by the caller's choice; every other number is refused with 15. */
enum {
    NUVASKOE_EVENT_LOST = 1, /* the lost, for a block 17 */
    NUVASKOE_EVENT_DISCARDED = 2, /* the discarded, for a block 18 */
    NUVASKOE_EVENT_EITHER = 3 /* the lost and the discarded alike; no block is for these */
};

/* The figures as blocks 17 and 18 hold them. */
typedef struct nuvaskoe_burst_figures {
    uint16_t burst_rate; /* 0 to 32,768, or 65,535 for unavailable */
    uint16_t gap_rate; /* 0 to 32,768, or 65,535 for unavailable */
    uint16_t burst_mean; /* milliseconds; 65,534 for over range, 65,535 for unavailable */
    uint16_t burst_variance; /* square milliseconds, divided by the number of bursts (RFC 7004: by one less); the same two marks */
} nuvaskoe_burst_figures;

/* The answer of a call that measures. */
typedef struct nuvaskoe_figured {
    nuvaskoe_refusal refusal;
    nuvaskoe_burst_figures figures; /* all unavailable where refused */
} nuvaskoe_figured;

/*
 * The figures of a whole trace: those of a tally that took all its packets. Refusals, in this order: 15, 10, 9 (placed
 * at the index of the first byte above 2).
 */
nuvaskoe_figured nuvaskoe_figures(const uint8_t *trace, size_t trace_len, uint32_t gmin, uint32_t spacing,
                                  uint32_t event);

/*
 * The answer of a call that makes the block of a measurement. A block that is not filled is all 0, and adding it to a
 * packet is refused with 16.
 */
typedef struct nuvaskoe_summary {
    nuvaskoe_refusal refusal;
    uint32_t block_type; /* NUVASKOE_BLOCK_LOSS or NUVASKOE_BLOCK_DISCARD: the block that is filled; 0 where refused */
    nuvaskoe_loss_summary loss;
    nuvaskoe_discard_summary discard;
} nuvaskoe_summary;

/*
 * The block 17 of a whole trace: the figures of its lost packets, with this source and interval flag. Refusals as of
 * nuvaskoe_figures. Adding the block to a packet is not refused with 16 where the flag is 1, 2 or 3.
 */
nuvaskoe_summary nuvaskoe_loss_of_trace(const uint8_t *trace, size_t trace_len, uint32_t gmin, uint32_t spacing,
                                        uint32_t source, uint8_t flag);

/* The block 18 of a whole trace: the figures of its discarded packets, in the same way. */
nuvaskoe_summary nuvaskoe_discard_of_trace(const uint8_t *trace, size_t trace_len, uint32_t gmin, uint32_t spacing,
                                           uint32_t source, uint8_t flag);

/*
 * The block 17 with these figures, source and interval flag, each as given. Nothing looks at where
 * the figures come from: a block that was measured comes from nuvaskoe_loss_of_trace or nuvaskoe_tally_block.
 */
nuvaskoe_loss_summary nuvaskoe_loss_block(nuvaskoe_burst_figures figures, uint32_t source, uint8_t flag);

/* The block 18 with these rates, in the same way. */
nuvaskoe_discard_summary nuvaskoe_discard_block(nuvaskoe_burst_figures figures, uint32_t source, uint8_t flag);

/* What is summed over the packets so far: E, L, Eb, Lb, n, S and Q of document 01, in its order. */
typedef struct nuvaskoe_sums {
    uint64_t packets; /* all packets */
    uint64_t events; /* those that are counted */
    uint64_t burst_packets; /* the packets of bursts */
    uint64_t burst_events; /* the events of bursts */
    uint64_t bursts; /* how many bursts */
    uint64_t durations; /* the sum of their durations, in milliseconds */
    uint64_t squares; /* the sum of the squares of their durations */
} nuvaskoe_sums;

/* The last group of events, which the next event may join; its burst is not yet in the sums. */
typedef struct nuvaskoe_stretch {
    uint64_t events; /* 0 where there was no event so far */
    uint64_t packets; /* from its first event to its last; 0 where there was none */
    uint64_t since; /* packets since its last event, or since the start */
} nuvaskoe_stretch;

/*
 * A tally: it is passed by value, takes one packet and is handed back. Every tally may be handed in;
 * docs/PROMISES.md, "tally::Tally::take", says which are sound, and those that are not are refused with 15. A tally
 * that was opened and took packets is sound at every point.
 */
typedef struct nuvaskoe_tally {
    uint32_t gmin;
    uint32_t spacing;
    uint32_t event; /* NUVASKOE_EVENT_LOST, NUVASKOE_EVENT_DISCARDED or NUVASKOE_EVENT_EITHER */
    nuvaskoe_sums sums;
    nuvaskoe_stretch stretch;
} nuvaskoe_tally;

/* The answer of opening a tally and of giving it a packet. */
typedef struct nuvaskoe_tallied {
    nuvaskoe_refusal refusal;
    nuvaskoe_tally tally; /* where refused: all 0 of an opening, else as given */
} nuvaskoe_tallied;

/* A tally that has taken no packet. Refusal: 15. */
nuvaskoe_tallied nuvaskoe_tally_open(uint32_t gmin, uint32_t spacing, uint32_t event);

/*
 * The tally after one more packet, 0, 1 or 2. Refusals, in this order: 15; 10, it has taken 65,536 packets; 9, with
 * place 0.
 */
nuvaskoe_tallied nuvaskoe_tally_take(nuvaskoe_tally tally, uint8_t packet);

/* The figures of all packets taken, each unavailable where there was none. Refusal: 15. */
nuvaskoe_figured nuvaskoe_tally_close(nuvaskoe_tally tally);

/*
 * The block of all packets taken, with this source and interval flag: a 17 of a tally that counts lost packets, an 18 of
 * one that counts discarded ones. Refusal: 15, also of one that counts either: no block has its events.
 */
nuvaskoe_summary nuvaskoe_tally_block(nuvaskoe_tally tally, uint32_t source, uint8_t flag);

/*
 * Batches: all runs of `batch` consecutive packets of a trace. A loss is a packet that `event` counts, and no other is. A
 * batch is over the threshold when it holds more than `threshold` losses. The refusals of both calls, in this order: 15 (batch
 * 1 to 1,024, threshold 0 to 1,024, event), 10, 9 (placed at the first bad byte), 14.
 */

/* How many batches of a trace are over the threshold. Where refused, all after refusal is 0. */
typedef struct nuvaskoe_loss {
    nuvaskoe_refusal refusal;
    size_t over; /* batches over the threshold */
    size_t batches; /* all batches */
    size_t first; /* the first batch that is over, by its first packet's index; 0 where none is */
    uint32_t index; /* the integer part of over * 65,535 / batches */
    uint32_t found; /* 1 where a batch is over the threshold, else 0 */
} nuvaskoe_loss;

/* The answer of making a resend plan. */
typedef struct nuvaskoe_marks {
    nuvaskoe_refusal refusal;
    size_t marks; /* how many packets the plan marks; 0 where refused */
} nuvaskoe_marks;

/* The effective loss of a trace, with the packets that the event counts as its losses. */
nuvaskoe_loss nuvaskoe_effective_loss(const uint8_t *trace, size_t trace_len, uint32_t batch, uint32_t threshold,
                                      uint32_t event);

/*
 * Writes the smallest resend plan into the front of out, one byte a packet: 1 for a counted packet to resend and 0 for any
 * other. With the marked packets received no batch is over the threshold, and no plan of fewer marks does that. The
 * bytes after the plan keep what they held. Further refusal: 8, out is shorter than the trace.
 */
nuvaskoe_marks nuvaskoe_resend_plan(const uint8_t *trace, size_t trace_len, uint32_t batch, uint32_t threshold,
                                    uint32_t event, uint8_t *out, size_t out_len);

/*
 * A packed trace: 64 packets a word, packet i in word i / 64 at bit i modulo 64 (bit 0 is the lowest), 1 for a packet that was
 * counted by the event that it was packed by and 0 for any other. It does not keep which event that was: its ones are the losses.
 * The bits of the last needed word that are past the end are 0. Words behind that one are neither read nor changed. The refusals
 * of the words, in this order: 10, so many packets are none or over 65,536; 8, there are fewer words than they need; 9, a bit past
 * the end is not 0, placed at the first one by its index, counted on from the packets.
 */

/*
 * Packs a trace into the front of out, by the event that counts: a word for each 64 packets, the last one filled up with zeros. A
 * good call answers how many words these are; the words after them keep what they held. Refusals: 15 for the event, 10, 9 for a
 * byte above 2, 8.
 */
nuvaskoe_written nuvaskoe_trace_pack(const uint8_t *trace, size_t trace_len, uint32_t event, uint64_t *out,
                                     size_t out_len);

/*
 * Unpacks the words of so many packets into the front of out: a byte a packet, 1 for each one and 0 for each zero. A good call
 * answers how many packets these are; the bytes after them keep what they held. Refusals: those of the words, then 8 for out.
 */
nuvaskoe_written nuvaskoe_trace_unpack(const uint64_t *words, size_t words_len, size_t packets, uint8_t *out,
                                       size_t out_len);

/* The effective loss of a packed trace, with its ones as the losses. Refusals: 15, those of the words, 14. */
nuvaskoe_loss nuvaskoe_packed_loss(const uint64_t *words, size_t words_len, size_t packets, uint32_t batch,
                                   uint32_t threshold);

/*
 * Writes the smallest resend plan of a packed trace into the front of out, one byte a packet, as nuvaskoe_resend_plan does.
 * Refusals: 15, those of the words, 14, 8 for out.
 */
nuvaskoe_marks nuvaskoe_packed_plan(const uint64_t *words, size_t words_len, size_t packets, uint32_t batch,
                                    uint32_t threshold, uint8_t *out, size_t out_len);

/*
 * The front panel: two needles, burst and gap, and a lamp, as one block sets them. Shown is a block 17 or 18 that is given as
 * a value or was read as typed, where adding it to a packet would not be refused with 16: each needle is lit at its rate, or
 * dark where that is unavailable. Everything else leaves both needles dark and the lamp off: a refused packet or index, and a
 * block that is unknown, dropped or of another type. None of these calls is refused.
 */

/* A needle of the front panel. */
typedef struct nuvaskoe_needle {
    uint32_t lit; /* 1 where it is lit, 0 where it is dark */
    float position; /* from 0 to 1: the rate divided by NUVASKOE_RATE_MAX, exactly; 0 where it is dark */
} nuvaskoe_needle;

/* The setting of the front panel. */
typedef struct nuvaskoe_panel {
    nuvaskoe_needle burst;
    nuvaskoe_needle gap;
    uint32_t lamp; /* 1 exactly where at least one needle is lit */
} nuvaskoe_panel;

/* The panel of block number index of a packet. Both needles are dark where nuvaskoe_packet_block refuses. */
nuvaskoe_panel nuvaskoe_panel_of_packet(const uint8_t *packet, size_t packet_len, size_t index);

/*
 * The panel of what was read: of a block that nuvaskoe_packet_block or nuvaskoe_block_read answered. One made by hand is shown
 * where its refusal is 0, its verdict typed, its type 17 or 18, and its interval flag and rates are good.
 */
nuvaskoe_panel nuvaskoe_panel_of_read(nuvaskoe_block block);

/* The panel of a block 17. */
nuvaskoe_panel nuvaskoe_panel_of_loss(nuvaskoe_loss_summary block);

/* The panel of a block 18. */
nuvaskoe_panel nuvaskoe_panel_of_discard(nuvaskoe_discard_summary block);

/* What went wrong, by a refusal's number. Empty for any other number. */
static inline const char *nuvaskoe_refusal_meaning(uint32_t number)
{
    switch (number) {
    case NUVASKOE_REFUSAL_PACKET_SHORT:
        return "the packet has under 8 bytes";
    case NUVASKOE_REFUSAL_VERSION:
        return "its version is not 2";
    case NUVASKOE_REFUSAL_PACKET_TYPE:
        return "its second byte is not 207";
    case NUVASKOE_REFUSAL_PACKET_LENGTH:
        return "its length field does not fit its bytes";
    case NUVASKOE_REFUSAL_PADDING:
        return "its padding bit is set";
    case NUVASKOE_REFUSAL_BLOCK_PAST_END:
        return "a block runs past the end";
    case NUVASKOE_REFUSAL_NO_SUCH_BLOCK:
        return "it has no block with that number";
    case NUVASKOE_REFUSAL_BUFFER_SHORT:
        return "the buffer is too short for the result, or there are fewer words than the packets need";
    case NUVASKOE_REFUSAL_TRACE_BYTE:
        return "a byte of the trace is above 2, or a bit past the end of a packed one is not 0";
    case NUVASKOE_REFUSAL_TRACE_LENGTH:
        return "the trace is empty or over 65,536 packets, or a tally is full";
    case NUVASKOE_REFUSAL_CARD_DIGITS:
        return "the card is not exactly twenty digits";
    case NUVASKOE_REFUSAL_CARD_CHECK:
        return "the card's check does not fit";
    case NUVASKOE_REFUSAL_CARD_FIELD:
        return "the card's digits are right, a setting is not";
    case NUVASKOE_REFUSAL_BATCH_LENGTH:
        return "the batch is longer than the trace";
    case NUVASKOE_REFUSAL_SETTING:
        return "a setting is outside its range, or a tally is not sound";
    case NUVASKOE_REFUSAL_BLOCK_VALUE:
        return "a block 17 or 18 to be written has a bad flag or rate";
    case NUVASKOE_REFUSAL_PACKET_FULL:
        return "the packet is full";
    default:
        return "";
    }
}

/* What to do about it. Empty for any other number. */
static inline const char *nuvaskoe_refusal_advice(uint32_t number)
{
    switch (number) {
    case NUVASKOE_REFUSAL_PACKET_SHORT:
        return "it was cut off, or is no report packet: take it again";
    case NUVASKOE_REFUSAL_VERSION:
        return "it is no RTCP packet, or was damaged";
    case NUVASKOE_REFUSAL_PACKET_TYPE:
        return "it is an RTCP packet, but no XR report";
    case NUVASKOE_REFUSAL_PACKET_LENGTH:
        return "it was cut off, or two packets stand together: hand in one";
    case NUVASKOE_REFUSAL_PADDING:
        return "padded packets are not read: the sender must send them without";
    case NUVASKOE_REFUSAL_BLOCK_PAST_END:
        return "the packet was damaged: nothing of it is read";
    case NUVASKOE_REFUSAL_NO_SUCH_BLOCK:
        return "blocks are numbered from 0";
    case NUVASKOE_REFUSAL_BUFFER_SHORT:
        return "lend more: 20 bytes for a card, a byte a packet for a plan, two entries a block for a list; a packed trace has a word for each 64 packets";
    case NUVASKOE_REFUSAL_TRACE_BYTE:
        return "a packet is 0 received, 1 lost or 2 discarded; the last word of a packed trace is filled up with zeros";
    case NUVASKOE_REFUSAL_TRACE_LENGTH:
        return "hand in at least one packet, and measure in shorter stretches";
    case NUVASKOE_REFUSAL_CARD_DIGITS:
        return "look for a missing digit, a letter or a space";
    case NUVASKOE_REFUSAL_CARD_CHECK:
        return "a digit is wrong, or two are exchanged: compare with the master card";
    case NUVASKOE_REFUSAL_CARD_FIELD:
        return "Gmin 1 to 255, batch 1 to 1,024, threshold 0 to 1,024, spacing 1 to 40,000";
    case NUVASKOE_REFUSAL_BATCH_LENGTH:
        return "measure longer, or take a smaller batch";
    case NUVASKOE_REFUSAL_SETTING:
        return "Gmin 1 to 255, batch 1 to 1,024, threshold 0 to 1,024, spacing 1 to 40,000, event 1 to 3; a tally is used as it was handed out; a block is of lost or of discarded packets, not of either";
    case NUVASKOE_REFUSAL_BLOCK_VALUE:
        return "flag 1 to 3, rates 0 to 32,768 or 65,535";
    case NUVASKOE_REFUSAL_PACKET_FULL:
        return "begin another";
    default:
        return "";
    }
}

/* Why a block was dropped, by its verdict. Empty for any other number. */
static inline const char *nuvaskoe_reason_meaning(uint32_t verdict)
{
    switch (verdict) {
    case NUVASKOE_VERDICT_BAD_SIZE:
        return "its length is not that of its type";
    case NUVASKOE_VERDICT_BAD_FLAG:
        return "its interval flag is 0, which is reserved, or the thinning of Loss RLE (1) is not 0";
    case NUVASKOE_VERDICT_BAD_RATE:
        return "a rate is between 32,769 and 65,534, which no rate can be";
    case NUVASKOE_VERDICT_UNMEASURED:
        return "no measurement block (14) for its source is in the packet, so its figures have no span";
    case NUVASKOE_VERDICT_BAD_CHUNKS:
        return "the chunks of Loss RLE (1) end before its packets do or go on behind them, or it is on over 65,533 packets";
    default:
        return "";
    }
}

/* What to do about it. Empty for any other number. */
static inline const char *nuvaskoe_reason_advice(uint32_t verdict)
{
    switch (verdict) {
    case NUVASKOE_VERDICT_BAD_SIZE:
        return "its sender lays this type out in another way: tell its maker";
    case NUVASKOE_VERDICT_BAD_FLAG:
        return "its sender must set the flag to 1, 2 or 3, or report on every packet: tell its maker";
    case NUVASKOE_VERDICT_BAD_RATE:
        return "take no figure of this block: its sender measures wrongly";
    case NUVASKOE_VERDICT_UNMEASURED:
        return "its sender must put a block 14 for this source into the same packet";
    case NUVASKOE_VERDICT_BAD_CHUNKS:
        return "take no trace of this block: its sender writes it wrongly";
    default:
        return "";
    }
}

#ifdef __cplusplus
}
#endif

#endif
