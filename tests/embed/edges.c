/* The edges of the four calls: what is refused, and that a refusal changes nothing. Prints each failure, and how many cases passed. */
#include "stelquorum.h"
#include <stdio.h>
#include <string.h>

static unsigned passed, failed;

static void check(const char *what, int holds) {
    if (holds) passed++;
    else failed++, printf("edges: %s\n", what);
}

static uint8_t image[STELQUORUM_IMAGE + 1], before[STELQUORUM_IMAGE + 1], buffer[STELQUORUM_BUFFER + 1], lent[STELQUORUM_BUFFER + 1];

/* An event that must be refused with this number, and change nothing. */
static void refused(const char *what, size_t long_image, const uint8_t *event, size_t length, size_t room, unsigned number) {
    memcpy(before, image, sizeof image);
    memcpy(lent, buffer, sizeof buffer);
    uint32_t answer = stelquorum_event(image, long_image, event, length, buffer, room);
    check(what, answer == 0xffffff00u + number && !memcmp(before, image, sizeof image) && !memcmp(lent, buffer, sizeof buffer));
}

static void fresh(void) {
    memset(image, 0xee, sizeof image);
    memset(buffer, 0xdd, sizeof buffer);
    check("setup", stelquorum_setup(image, STELQUORUM_IMAGE, 1, 2, 65535, (const uint8_t *)"Z", 1) == 0 && image[STELQUORUM_IMAGE] == 0xee);
}

/* A frame of 01's table: its fault, or 0 and its number of extension fields. */
static void reads(const char *what, const uint8_t *frame, size_t length, unsigned fault, size_t extensions) {
    uint8_t block[STELQUORUM_BLOCK + 1], as_it_was[STELQUORUM_BLOCK + 1];
    memset(block, 0xcc, sizeof block);
    memset(as_it_was, 0xcc, sizeof as_it_was);
    uint32_t answer = stelquorum_read(frame, length, block, STELQUORUM_BLOCK);
    if (fault) check(what, answer == 0xffffff00u + fault && !memcmp(block, as_it_was, sizeof block));
    else check(what, answer == 0 && stelquorum_number(block + STELQUORUM_IN_BLOCK_EXTENSIONS) == extensions && block[STELQUORUM_BLOCK] == 0xcc);
    check(what, stelquorum_read(frame, length, block, STELQUORUM_BLOCK - 1) == 0xffffff06u);
}
#define READS(fault, extensions, ...) reads("frame " #__VA_ARGS__, (const uint8_t[]){__VA_ARGS__}, sizeof((const uint8_t[]){__VA_ARGS__}), fault, extensions)

/* A message that must be refused with this number, and leave the buffer as it was. */
static void unwritten(const char *what, uint8_t flags, uint8_t confirmation, size_t letters, size_t length, size_t room, unsigned number) {
    static const uint8_t octets[1024];
    memset(buffer, 0xdd, sizeof buffer);
    memcpy(lent, buffer, sizeof buffer);
    uint32_t answer = stelquorum_write(flags, confirmation, 1, 2, 3, octets, letters, octets, length, buffer, room);
    check(what, answer == 0xffffff00u + number && !memcmp(lent, buffer, sizeof buffer));
}

static void frames(void) {
    reads("the empty frame", buffer, 0, 12, 0);
    READS(0, 0, 0x00, 0x00);
    READS(13, 0, 0x00, 0x05);
    READS(12, 0, 0x00);
    READS(15, 0, 0x00, 0x01);
    READS(16, 0, 0x00, 0x00, 0x00);
    READS(0, 0, 0x04, 0x00, 0x00, 0x00);
    READS(12, 0, 0x80, 0x00);
    READS(13, 0, 0x80, 0x00, 0x00);
    READS(0, 1, 0x80, 0x00, 0x01, 0x00);
    READS(12, 0, 0x04, 0x00, 0x02, 0x00);
    READS(14, 0, 0x04, 0x00, 0x02, 0x01);

    unwritten("a buffer of 1,023 octets, and all else wrong", 0xff, 9, 0, 513, STELQUORUM_BUFFER - 1, 6);
    unwritten("bit 7", 0x80, 0, 1, 1, STELQUORUM_BUFFER, 13);
    unwritten("bit 1", 0x02, 0, 1, 1, STELQUORUM_BUFFER, 13);
    unwritten("confirmation 5", 0x00, 5, 1, 1, STELQUORUM_BUFFER, 13);
    unwritten("no identifier", 0x00, 1, 1, 1, STELQUORUM_BUFFER, 15);
    unwritten("no sender", 0x10, 2, 1, 1, STELQUORUM_BUFFER, 15);
    unwritten("no reference", 0x08, 4, 0, 1, STELQUORUM_BUFFER, 15);
    unwritten("a sender of no octets", 0x08, 0, 0, 1, STELQUORUM_BUFFER, 14);
    unwritten("a sender of 33 octets", 0x08, 0, 33, 1, STELQUORUM_BUFFER, 14);
    unwritten("user data of 513 octets", 0x04, 0, 1, 513, STELQUORUM_BUFFER, 14);

    /* The longest frame, written and read back; and the octets after it. */
    uint8_t octets[512], block[STELQUORUM_BLOCK];
    for (size_t i = 0; i < sizeof octets; i++) octets[i] = (uint8_t)(i * 7 + 1);
    memset(buffer, 0xdd, sizeof buffer);
    uint32_t answer = stelquorum_write(0x7d, STELQUORUM_CONFIRMED_OK, 5, 0x0102, 0xfffe, octets, 32, octets, 512, buffer, STELQUORUM_BUFFER);
    check("the longest frame", answer == STELQUORUM_FRAME && buffer[STELQUORUM_FRAME] == 0xdd && buffer[STELQUORUM_BUFFER] == 0xdd);
    check("read back", stelquorum_read(buffer, answer, block, sizeof block) == 0);
    const size_t places[] = {2, 1, 3, 2, 5, 2, 8, 32, 42, 512, 554, 0};
    for (size_t i = 0; i < 12; i++) check("a place or a length", stelquorum_number(block + 2 + 2 * i) == places[i]);
    check("its head", block[0] == 1 && block[1] == 2 && buffer[2] == 5 && stelquorum_number(buffer + 3) == 0x0102 && stelquorum_number(buffer + 5) == 0xfffe);
    check("its octets", !memcmp(buffer + 8, octets, 32) && !memcmp(buffer + 42, octets, 512));
    check("one that is not there", stelquorum_write(0, 0, 9, 9, 9, octets, 99, octets, 999, buffer, STELQUORUM_BUFFER) == 2 && buffer[0] == 0 && buffer[1] == 0);
}

int main(void) {
    const uint8_t tick[] = {STELQUORUM_IN_TICK}, end[] = {STELQUORUM_IN_END}, none[] = {0xff};
    const uint8_t request[] = {STELQUORUM_IN_TRANSFER, 9, 8, STELQUORUM_RER_HIGH, 0, 0};
    const uint8_t line[] = {0, 6, STELQUORUM_OUT_D_START, 9, 8, STELQUORUM_RER_HIGH, 0, 0};
    static const uint8_t zero[STELQUORUM_IMAGE], long_name[STELQUORUM_NAME + 1];

    fresh();
    check("the limits", image[STELQUORUM_AT_START + 1] == 1 && image[STELQUORUM_AT_END + 1] == 2 && image[STELQUORUM_AT_INACTIVITY] == 255
              && image[STELQUORUM_AT_INACTIVITY + 1] == 255 && image[0] == 'Z' && image[STELQUORUM_AT_LETTERS] == 1);
    refused("an image of 617 octets", STELQUORUM_IMAGE - 1, tick, 1, STELQUORUM_BUFFER, STELQUORUM_REFUSED_UNIT);
    refused("an image of 619 octets", STELQUORUM_IMAGE + 1, tick, 1, STELQUORUM_BUFFER, STELQUORUM_REFUSED_UNIT);
    refused("no image", 0, tick, 1, STELQUORUM_BUFFER, STELQUORUM_REFUSED_UNIT);
    refused("a buffer of 1,023 octets", STELQUORUM_IMAGE, tick, 1, STELQUORUM_BUFFER - 1, STELQUORUM_REFUSED_BUFFER);
    refused("a short buffer and no image", 0, tick, 1, STELQUORUM_BUFFER - 1, STELQUORUM_REFUSED_BUFFER);
    refused("an empty event", STELQUORUM_IMAGE, none, 0, STELQUORUM_BUFFER, STELQUORUM_REFUSED_EVENT);
    refused("an unknown kind", STELQUORUM_IMAGE, none, 1, STELQUORUM_BUFFER, STELQUORUM_REFUSED_EVENT);
    refused("03 in Idle", STELQUORUM_IMAGE, end, 1, STELQUORUM_BUFFER, STELQUORUM_REFUSED_STATE);
    check("a tick in Idle", stelquorum_event(image, STELQUORUM_IMAGE, tick, 1, buffer, STELQUORUM_BUFFER) == 0);

    uint32_t answer = stelquorum_event(image, STELQUORUM_IMAGE, request, sizeof request, buffer, STELQUORUM_BUFFER);
    check("a request's answer", !stelquorum_refused(answer) && stelquorum_lines(answer) == 1 && stelquorum_octets(answer) == sizeof line);
    check("a request's line", !memcmp(buffer, line, sizeof line) && buffer[sizeof line] == 0xdd && buffer[STELQUORUM_BUFFER] == 0xdd);
    check("a request's state", image[STELQUORUM_AT_STATE] == STELQUORUM_START_SINGLE && image[STELQUORUM_AT_CLASS] == 9
              && image[STELQUORUM_AT_PRIORITY] == 8 && image[STELQUORUM_AT_RER] == 2);

    /* Each octet of a good image made 0xff: where that isn't a sound unit, refusal 9, and nothing changes. In Start-single only the name's first
     * octet, the limits, the class and the priority may be 0xff. */
    for (size_t i = 0; i < STELQUORUM_IMAGE; i++) {
        uint8_t was = image[i];
        image[i] = 0xff;
        if (i > 0 && i != 603 && i != 604 && i != 605 && i != 606 && i != 607 && i != 608 && i != 611 && i != 612)
            refused("an unsound image", STELQUORUM_IMAGE, none, 1, STELQUORUM_BUFFER, STELQUORUM_REFUSED_UNIT);
        else refused("a sound image", STELQUORUM_IMAGE, none, 1, STELQUORUM_BUFFER, STELQUORUM_REFUSED_EVENT);
        image[i] = was;
    }

    check("a limit of 0", stelquorum_setup(image, STELQUORUM_IMAGE, 0, 1, 1, none, 1) == 0xffffff07u && !memcmp(image, zero, STELQUORUM_IMAGE));
    refused("the image of a refused setup", STELQUORUM_IMAGE, tick, 1, STELQUORUM_BUFFER, STELQUORUM_REFUSED_UNIT);
    fresh();
    check("no name", stelquorum_setup(image, STELQUORUM_IMAGE, 1, 1, 1, none, 0) == 0xffffff07u && !memcmp(image, zero, STELQUORUM_IMAGE));
    fresh();
    check("a name of 33", stelquorum_setup(image, STELQUORUM_IMAGE, 1, 1, 1, long_name, 33) == 0xffffff07u && !memcmp(image, zero, STELQUORUM_IMAGE));
    check("a name of 32", stelquorum_setup(image, STELQUORUM_IMAGE, 1, 1, 1, long_name, 32) == 0 && image[STELQUORUM_AT_LETTERS] == 32);
    memcpy(before, image, sizeof image);
    check("setup of 617 octets", stelquorum_setup(image, STELQUORUM_IMAGE - 1, 1, 1, 1, none, 1) == 0xffffff06u && !memcmp(before, image, sizeof image));
    frames();
    printf("edges: %u passed, %u failed\n", passed, failed);
    return failed != 0;
}
