/* The dialogue unit, and the message frame, for C, over target/staticlib/libembed.a (`tests/build embed`, x86-64). Every rule is that of 01.
 *
 * The caller holds the unit as an image of 618 octets. Setup writes it, each event reads and writes it; it may be copied, stored and moved, since it
 * holds no pointer. No call keeps a pointer, allocates, or fails in any other way than by the number that it answers.
 * No pointer may be null, also where its length is 0; what a call writes (image, block, buffer) may overlap nothing else that it is lent. */
#ifndef STELQUORUM_H
#define STELQUORUM_H

#include <stddef.h>
#include <stdint.h>

#ifdef __cplusplus
extern "C" {
#endif

enum {
    STELQUORUM_IMAGE = 618,   /* octets of an image */
    STELQUORUM_BUFFER = 1024, /* octets that the lent buffer has at least; no event's lines take more */
    STELQUORUM_NAME = 32,     /* the longest name */
    STELQUORUM_BLOCK = 26,    /* octets of what the frame's reader answers */
    STELQUORUM_FRAME = 554    /* the longest frame that is written; one that is read may have 1,024 */
};

/* Places of an image; numbers are big-endian. */
enum {
    STELQUORUM_AT_NAME = 0,
    STELQUORUM_AT_WAITING = 32,
    STELQUORUM_AT_KEPT = 48,
    STELQUORUM_AT_STATE = 602,
    STELQUORUM_AT_START = 603,
    STELQUORUM_AT_END = 605,
    STELQUORUM_AT_INACTIVITY = 607,
    STELQUORUM_AT_ELAPSED = 609,
    STELQUORUM_AT_CLASS = 611,
    STELQUORUM_AT_PRIORITY = 612,
    STELQUORUM_AT_RER = 613,
    STELQUORUM_AT_LETTERS = 614,
    STELQUORUM_AT_COUNT = 615,
    STELQUORUM_AT_OCTETS = 616
};

/* Octet 0 of a frame: which fields are present, and whether it is maintained (multi-shot). */
enum {
    STELQUORUM_HAS_EXTENSIONS = 0x80, /* not for the writer */
    STELQUORUM_HAS_TYPE = 0x40,
    STELQUORUM_HAS_IDENTIFIER = 0x20,
    STELQUORUM_HAS_REFERENCE = 0x10,
    STELQUORUM_HAS_SENDER = 0x08,
    STELQUORUM_HAS_DATA = 0x04,
    STELQUORUM_MAINTAINED = 0x01
};

/* Octet 1 of a frame, confirmation. */
enum {
    STELQUORUM_UNCONFIRMED_REQ = 0,
    STELQUORUM_CONFIRMED_REQ = 1,
    STELQUORUM_CONFIRMED_OK = 2,
    STELQUORUM_CONFIRMED_NOT_OK = 3,
    STELQUORUM_CONFIRMED_UNKNOWN = 4
};

/* Places of a block, which the frame's reader writes. Each field has its place in the frame and its length, 2 octets each, big-endian; place 0: the
 * field is absent. */
enum {
    STELQUORUM_IN_BLOCK_MAINTAINED = 0, /* 0 or 1 */
    STELQUORUM_IN_BLOCK_CONFIRMATION = 1,
    STELQUORUM_IN_BLOCK_TYPE = 2,
    STELQUORUM_IN_BLOCK_IDENTIFIER = 6,
    STELQUORUM_IN_BLOCK_REFERENCE = 10,
    STELQUORUM_IN_BLOCK_SENDER = 14,
    STELQUORUM_IN_BLOCK_DATA = 18,
    STELQUORUM_IN_BLOCK_END = 22,       /* the place after the fields, 2 octets */
    STELQUORUM_IN_BLOCK_EXTENSIONS = 24 /* how many extension fields follow, 2 octets */
};

/* States. */
enum {
    STELQUORUM_IDLE = 0,
    STELQUORUM_START_SINGLE = 1,
    STELQUORUM_START_MULTI = 2,
    STELQUORUM_ENDING = 3,
    STELQUORUM_ASSOCIATED = 4
};

/* Kinds of events: an event is its kind and a body. */
enum {
    STELQUORUM_IN_TRANSFER = 0x01,           /* terms, frame */
    STELQUORUM_IN_CONFIRMED_TRANSFER = 0x02, /* terms, frame */
    STELQUORUM_IN_END = 0x03,
    STELQUORUM_IN_TICK = 0x04,
    STELQUORUM_IN_D_START = 0x10,           /* terms, frame or nothing */
    STELQUORUM_IN_D_START_CONFIRMED = 0x11, /* result, frame or nothing */
    STELQUORUM_IN_D_DATA = 0x12,            /* frame */
    STELQUORUM_IN_D_END = 0x13,
    STELQUORUM_IN_D_END_CONFIRMED = 0x14, /* result */
    STELQUORUM_IN_D_ABORT = 0x15,
    STELQUORUM_IN_D_P_ABORT = 0x16
};

/* Kinds of lines. */
enum {
    STELQUORUM_OUT_TRANSFER = 0x20,           /* terms, frame without extensions */
    STELQUORUM_OUT_CONFIRMED_TRANSFER = 0x21, /* terms, frame without extensions */
    STELQUORUM_OUT_CONFIRMATION = 0x22,       /* how it went, frame without extensions */
    STELQUORUM_OUT_END = 0x23,
    STELQUORUM_OUT_LOST = 0x24,             /* reason */
    STELQUORUM_OUT_EXTENSIONS_SEEN = 0x25,  /* number, 2 octets */
    STELQUORUM_OUT_D_START = 0x30,          /* terms, frame or nothing */
    STELQUORUM_OUT_D_START_RESPONSE = 0x31, /* result, frame or nothing */
    STELQUORUM_OUT_D_DATA = 0x32,           /* frame */
    STELQUORUM_OUT_D_END = 0x33,
    STELQUORUM_OUT_D_END_RESPONSE = 0x34, /* result */
    STELQUORUM_OUT_D_ABORT = 0x35         /* reason */
};

/* Residual error rate, the third octet of terms. */
enum { STELQUORUM_RER_NOT_PROVIDED = 0, STELQUORUM_RER_LOW = 1, STELQUORUM_RER_HIGH = 2 };

/* Results. */
enum { STELQUORUM_ACCEPTED = 0, STELQUORUM_REJECTED = 1 };

/* How a confirmed transfer went. */
enum { STELQUORUM_SUCCESSFUL = 0, STELQUORUM_FAILED = 1, STELQUORUM_UNCERTAIN = 2 };

/* Reasons. */
enum {
    STELQUORUM_REASON_PEER_ABORT = 0,
    STELQUORUM_REASON_PROVIDER_ABORT = 1,
    STELQUORUM_REASON_TIMER = 2,
    STELQUORUM_REASON_REJECTED = 3,
    STELQUORUM_REASON_FRAME_NOT_EXPECTED = 10,
    STELQUORUM_REASON_FRAME_TOO_LONG = 11,
    STELQUORUM_REASON_FRAME_CUT = 12,
    STELQUORUM_REASON_FRAME_BAD_OCTET = 13,
    STELQUORUM_REASON_FRAME_BAD_LENGTH = 14,
    STELQUORUM_REASON_FRAME_LACKING = 15,
    STELQUORUM_REASON_FRAME_LEFT_OVER = 16
};

/* Refusals. The frame's reader and writer refuse with 6, or with a frame's fault: the numbers 11 to 16 under 'Reasons'. */
enum {
    STELQUORUM_REFUSED_STATE = 1,
    STELQUORUM_REFUSED_FRAME = 2,
    STELQUORUM_REFUSED_TERMS = 3,
    STELQUORUM_REFUSED_ALREADY_WAITING = 4,
    STELQUORUM_REFUSED_EIGHT_WAITING = 5,
    STELQUORUM_REFUSED_BUFFER = 6, /* also: the block lent to setup isn't one of 618 octets, or that lent to the reader has fewer than 26 */
    STELQUORUM_REFUSED_SETUP = 7,
    STELQUORUM_REFUSED_EVENT = 8,
    STELQUORUM_REFUSED_UNIT = 9 /* the image isn't one of 618 octets, or its unit isn't sound */
};

/* An answer: 0xffffff00 and the number of a refusal; else 65,536 for each line, and the octets that they take in the buffer. */
static inline int stelquorum_refused(uint32_t answer) { return answer >= 0xffffff00u; }
static inline unsigned stelquorum_refusal(uint32_t answer) { return answer - 0xffffff00u; }
static inline size_t stelquorum_lines(uint32_t answer) { return answer / 65536; }
static inline size_t stelquorum_octets(uint32_t answer) { return answer % 65536; }

/* Lines lie in the buffer one after the other, each as a length of two octets and its octets. */
static inline size_t stelquorum_line_length(const uint8_t *line) { return 256 * (size_t)line[0] + line[1]; }

/* A new unit in Idle: its limits in ticks (1 to 65,535 each) and its name (1 to 32 octets). Answers 0, or a refusal: 7 leaves an image whose every
 * octet is 0, 6 leaves the block as it was. */
uint32_t stelquorum_setup(uint8_t *image, size_t image_length, uint16_t start, uint16_t end, uint16_t inactivity, const uint8_t *name,
                          size_t name_length);

/* One event: the image becomes that of the unit after it, and the buffer receives its lines; octets after them stay. A refusal changes neither. */
uint32_t stelquorum_event(uint8_t *image, size_t image_length, const uint8_t *event, size_t event_length, uint8_t *buffer, size_t buffer_length);

/* Two octets of a block or an image as a number. */
static inline size_t stelquorum_number(const uint8_t *octets) { return 256 * (size_t)octets[0] + octets[1]; }

/* Reads a frame: where its fields stand, at the front of the block, which has 26 octets or more. Answers 0, or a refusal, which changes nothing. The
 * frame of an event or a line stands after its kind and fixed part. */
uint32_t stelquorum_read(const uint8_t *frame, size_t frame_length, uint8_t *block, size_t block_length);

/* Writes an edition 1 frame at the front of the buffer, which has 1,024 octets or more; octets after it stay. Answers how many octets it has, or a
 * refusal, which changes nothing: 6, then 13 (bit 7 or bit 1 of the flags set, confirmation above 4), 15, 14. The flags are octet 0 of the frame; a
 * value whose field is not present is not looked at. */
uint32_t stelquorum_write(uint8_t flags, uint8_t confirmation, uint8_t type, uint16_t identifier, uint16_t reference, const uint8_t *sender,
                          size_t sender_length, const uint8_t *data, size_t data_length, uint8_t *buffer, size_t buffer_length);

#ifdef __cplusplus
}
#endif

#endif
