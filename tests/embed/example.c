/* 01's session ("A session and its edges") through the static library; prints what the listing program prints. The load sheet's frame is written by
 * the frame's writer; of each confirmation the frame's reader says which message it names, on standard error. */
#include "stelquorum.h"
#include <stdio.h>
#include <string.h>

static void print(const uint8_t *octets, size_t length) {
    for (size_t i = 0; i < length; i++) printf("%02x", octets[i]);
    putchar('\n');
}

static void print_state(const uint8_t *image) { printf("f0%02x\n", image[STELQUORUM_AT_STATE]); }

/* Of a confirmation, line 22: which message was answered, and how it went. */
static void tell(const uint8_t *line, size_t length) {
    uint8_t block[STELQUORUM_BLOCK];
    if (length < 2 || line[0] != STELQUORUM_OUT_CONFIRMATION) return;
    const uint8_t *frame = line + 2;
    if (stelquorum_refused(stelquorum_read(frame, length - 2, block, sizeof block))) return;
    size_t reference = stelquorum_number(block + STELQUORUM_IN_BLOCK_REFERENCE);
    fprintf(stderr, "message %zu: %s\n", stelquorum_number(frame + reference), line[1] == STELQUORUM_SUCCESSFUL ? "delivered" : "not known to be delivered");
}

static void hand(uint8_t *image, const uint8_t *event, size_t length) {
    uint8_t buffer[STELQUORUM_BUFFER];
    uint32_t answer = stelquorum_event(image, STELQUORUM_IMAGE, event, length, buffer, sizeof buffer);
    if (stelquorum_refused(answer)) {
        printf("ff%02x\n", stelquorum_refusal(answer));
    } else {
        const uint8_t *line = buffer;
        for (size_t n = stelquorum_lines(answer); n > 0; n--) {
            print(line + 2, stelquorum_line_length(line));
            tell(line + 2, stelquorum_line_length(line));
            line += 2 + stelquorum_line_length(line);
        }
    }
    print_state(image);
}

/* A confirmed transfer of a text: its kind and terms, and the frame straight after them. */
static void send(uint8_t *image, uint16_t identifier, const char *text) {
    uint8_t event[4 + STELQUORUM_BUFFER] = {STELQUORUM_IN_CONFIRMED_TRANSFER, 2, 3, STELQUORUM_RER_NOT_PROVIDED};
    uint8_t flags = STELQUORUM_HAS_IDENTIFIER | STELQUORUM_HAS_DATA | STELQUORUM_MAINTAINED;
    const uint8_t *data = (const uint8_t *)text;
    uint32_t answer = stelquorum_write(flags, STELQUORUM_CONFIRMED_REQ, 0, identifier, 0, data, 0, data, strlen(text), event + 4, STELQUORUM_BUFFER);
    if (!stelquorum_refused(answer)) hand(image, event, 4 + stelquorum_octets(answer));
}

#define HAND(...) hand(image, (const uint8_t[]){__VA_ARGS__}, sizeof((const uint8_t[]){__VA_ARGS__}))

int main(void) {
    uint8_t image[STELQUORUM_IMAGE];
    uint32_t answer = stelquorum_setup(image, sizeof image, 60, 60, 300, (const uint8_t *)"G1", 2);
    if (stelquorum_refused(answer)) {
        printf("ff%02x\n", stelquorum_refusal(answer));
        return 0;
    }
    print_state(image);
    send(image, 7, "OK");
    HAND(STELQUORUM_IN_D_START_CONFIRMED, STELQUORUM_ACCEPTED);
    HAND(STELQUORUM_IN_D_DATA, 0x19, 2, 0, 7, 2, 'A', '9');
    HAND(STELQUORUM_IN_END);
    HAND(STELQUORUM_IN_D_END_CONFIRMED, STELQUORUM_ACCEPTED);
    return 0;
}
