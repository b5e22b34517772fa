/* The stack of one event. A thread whose stack is ours hands each kind of event to a unit in each state; the stack below a call is painted before it,
 * and the deepest octet that isn't paint any more after it is what the call took (its return address not counted). Every event goes to the
 * embedding's call and to the by-value engine, which must say the same and leave the same. The embedding's must stay within the bound given; the by-value
 * engine, which hands whole units about, must not: so the bound can be missed. Linux on x86-64.
 *
 *     stack BOUND */
#define _XOPEN_SOURCE 700
#include "../embed/stelquorum.h"
#include <pthread.h>
#include <stdio.h>
#include <stdlib.h>
#include <string.h>

typedef uint32_t call(uint8_t *, size_t, const uint8_t *, size_t, uint8_t *, size_t);

/* The by-value engine's call gives one octet: 0, or the number of a refusal. Of what is declared here the low octet counts. */
uint32_t stelquorum_by_value(uint8_t *, size_t, const uint8_t *, size_t, uint8_t *, size_t);

enum { STACK = 1 << 18, PAINTED = 1 << 14, STATES = 5, KINDS = 12 };
static _Alignas(4096) uint64_t stack[STACK / 8];
static unsigned passed, failed;

static void check(const char *what, int holds) {
    if (holds) passed++;
    else failed++, printf("stack: %s\n", what);
}

/* ---- one call on a painted stack */

struct job {
    call *f;
    uint8_t *image, *buffer;
    const uint8_t *event;
    size_t long_image, length, room;
    uint32_t answer;
    size_t deepest;
};

static size_t unused; /* what the call of a function that does nothing takes */

static __attribute__((noinline)) void run(struct job *j, uint64_t paint) {
    volatile uint64_t *here, *p;
    __asm__ volatile("mov %%rsp, %0" : "=r"(here));
    for (p = here - PAINTED / 8; p < here; p++) *p = paint;
    j->answer = j->f(j->image, j->long_image, j->event, j->length, j->buffer, j->room);
    for (p = here - PAINTED / 8; p < here && *p == paint; p++) continue;
    size_t taken = (size_t)((volatile uint8_t *)here - (volatile uint8_t *)p);
    if (taken > j->deepest) j->deepest = taken;
}

/* What a call takes, by words of 8 octets; twice, in two colours, so that no value that it writes is taken for paint. */
static void measure(struct job *j) {
    static uint8_t image[STELQUORUM_IMAGE + 1], buffer[STELQUORUM_BUFFER];
    memcpy(image, j->image, sizeof image);
    memcpy(buffer, j->buffer, sizeof buffer);
    j->deepest = 0;
    run(j, 0xa5a5a5a5a5a5a5a5u);
    memcpy(j->image, image, sizeof image);
    memcpy(j->buffer, buffer, sizeof buffer);
    run(j, 0x5c5c5c5c5c5c5c5cu);
    j->deepest -= unused;
}

static __attribute__((noinline)) uint32_t nothing(uint8_t *a, size_t b, const uint8_t *c, size_t d, uint8_t *e, size_t f) {
    (void)a, (void)b, (void)c, (void)d, (void)e, (void)f;
    return 0;
}

static __attribute__((noinline)) uint32_t thousand(uint8_t *a, size_t b, const uint8_t *c, size_t d, uint8_t *e, size_t f) {
    volatile uint8_t octets[1000];
    octets[0] = (uint8_t)(b + d + f);
    (void)a, (void)c, (void)e;
    return octets[0];
}

/* ---- events */

struct event {
    uint8_t octets[1100];
    size_t length;
};
static struct event events[400];
static size_t event_count;

static void put(struct event *e, unsigned octet) { e->octets[e->length++] = (uint8_t)octet; }

/* A frame: octet 0 without bit 7, its fields with these lengths, and so many extension fields of so many octets. */
static void put_frame(struct event *e, unsigned flags, unsigned confirmation, unsigned number, size_t letters, size_t octets, size_t fields, size_t each) {
    put(e, flags | (fields ? STELQUORUM_HAS_EXTENSIONS : 0));
    put(e, confirmation);
    if (flags & STELQUORUM_HAS_TYPE) put(e, 5);
    if (flags & STELQUORUM_HAS_IDENTIFIER) put(e, number / 256), put(e, number);
    if (flags & STELQUORUM_HAS_REFERENCE) put(e, number / 256), put(e, number);
    if (flags & STELQUORUM_HAS_SENDER) {
        put(e, (unsigned)letters);
        for (size_t i = 0; i < letters; i++) put(e, 'A');
    }
    if (flags & STELQUORUM_HAS_DATA) {
        put(e, (unsigned)(octets / 256)), put(e, (unsigned)octets);
        for (size_t i = 0; i < octets; i++) put(e, (unsigned)i * 7 + 1);
    }
    for (size_t i = 0; i < fields; i++) {
        put(e, 1), put(e, (unsigned)each);
        for (size_t k = 0; k < each; k++) put(e, 9);
    }
}

static struct event *begin(const uint8_t *head, size_t length) {
    struct event *e = &events[event_count++];
    if (event_count > sizeof events / sizeof *events) exit(2);
    memcpy(e->octets, head, length);
    e->length = length;
    return e;
}
#define BEGIN(...) begin((const uint8_t[]){__VA_ARGS__}, sizeof((const uint8_t[]){__VA_ARGS__}))

/* Every frame that is tried, after this head: each confirmation, single and maintained, shortest and 554 octets, with one, four long and the most
 * extension fields; and one with each fault. */
static void with_frames(const uint8_t *head, size_t length) {
    enum { all = 0x7c, needed = STELQUORUM_HAS_IDENTIFIER | STELQUORUM_HAS_REFERENCE | STELQUORUM_HAS_SENDER };
    for (unsigned confirmation = 0; confirmation < 5; confirmation++)
        for (unsigned maintained = 0; maintained < 2; maintained++) {
            unsigned short_one = maintained | (confirmation == 0 ? 0 : confirmation == 1 ? STELQUORUM_HAS_IDENTIFIER : needed);
            put_frame(begin(head, length), short_one, confirmation, 1, 1, 0, 0, 0);
            put_frame(begin(head, length), all | maintained, confirmation, 1, 32, 512, 0, 0);
            put_frame(begin(head, length), short_one, confirmation, 9, 1, 0, 1, 2);
            put_frame(begin(head, length), all | maintained, confirmation, 8, 32, 512, 1, 200);
        }
    put_frame(begin(head, length), 1, 0, 1, 0, 0, 511, 0);
    put_frame(begin(head, length), 1, 0, 1, 0, 0, 4, 250);
    put_frame(begin(head, length), 0x7d, 1, 65535, 32, 512, 0, 0);
    put_frame(begin(head, length), 0x05, 0, 1, 0, 512, 0, 0);
    put_frame(begin(head, length), 0x21, 1, 7777, 0, 0, 0, 0);
    struct event *e = begin(head, length); /* 11 to 16: too long, cut, a bad octet, a bad length, lacking, left over */
    put_frame(e, 0, 0, 0, 0, 0, 0, 0);
    while (e->length < length + 1025) put(e, 0);
    put(begin(head, length), 1);
    put_frame(begin(head, length), 2, 0, 0, 0, 0, 0, 0);
    put_frame(begin(head, length), 0x09, 0, 0, 0, 0, 0, 0);
    put_frame(begin(head, length), 1, 1, 0, 0, 0, 0, 0);
    e = begin(head, length);
    put_frame(e, 1, 0, 0, 0, 0, 0, 0);
    put(e, 0);
}
#define WITH_FRAMES(...) with_frames((const uint8_t[]){__VA_ARGS__}, sizeof((const uint8_t[]){__VA_ARGS__}))

static const uint8_t kinds[KINDS] = {0x01, 0x02, 0x03, 0x04, 0x10, 0x11, 0x12, 0x13, 0x14, 0x15, 0x16, 0xff};

static size_t kind_of(const struct event *e) {
    for (size_t k = 0; k + 1 < KINDS; k++)
        if (e->length > 0 && e->octets[0] == kinds[k]) return k;
    return KINDS - 1;
}

static void make_events(void) {
    WITH_FRAMES(0x01, 2, 3, 1);
    WITH_FRAMES(0x02, 2, 3, 1);
    put_frame(BEGIN(0x01, 2, 4, 1), 1, 0, 0, 0, 0, 0, 0); /* terms other than the dialogue's */
    put_frame(BEGIN(0x02, 2, 3, 0), 0x21, 1, 4242, 0, 0, 0, 0);
    BEGIN(0x03), BEGIN(0x04), BEGIN(0x10, 2, 3, 1), BEGIN(0x11, 0), BEGIN(0x11, 1), BEGIN(0x13), BEGIN(0x14, 0), BEGIN(0x14, 1), BEGIN(0x15), BEGIN(0x16);
    WITH_FRAMES(0x10, 2, 3, 2);
    WITH_FRAMES(0x11, 0);
    WITH_FRAMES(0x11, 1);
    WITH_FRAMES(0x12);
    BEGIN(0x12);
    /* malformed: empty, no such kind, cut, octets after it, a result or a rate out of range */
    begin(events[0].octets, 0);
    BEGIN(0x99), BEGIN(0x01, 2, 3), BEGIN(0x02, 2, 3, 3, 0, 0), BEGIN(0x03, 0), BEGIN(0x04, 0), BEGIN(0x10, 2, 3, 0), BEGIN(0x11), BEGIN(0x11, 2);
    BEGIN(0x13, 0), BEGIN(0x14), BEGIN(0x14, 2), BEGIN(0x15, 0), BEGIN(0x16, 0);
}

/* ---- units */

struct unit {
    uint8_t image[STELQUORUM_IMAGE + 1];
};
static struct unit units[64];
static size_t unit_count;
static uint8_t buffer[STELQUORUM_BUFFER];

static void hand(struct unit *u, const struct event *e) {
    if (stelquorum_refused(stelquorum_event(u->image, STELQUORUM_IMAGE, e->octets, e->length, buffer, sizeof buffer))) failed++, puts("stack: a unit isn't reached");
}

/* A unit that has been handed these; then the same one tick before its limit, unless it is idle. */
static void reach(size_t letters, const struct event *first, const struct event *each, size_t waiting, int ends) {
    static const uint8_t name[] = "ABCDEFGHIJKLMNOPQRSTUVWXYZ012345";
    for (unsigned late = 0; late <= (first != 0); late++) {
        if (unit_count == sizeof units / sizeof *units) exit(2);
        struct unit *u = &units[unit_count++];
        if (stelquorum_setup(u->image, STELQUORUM_IMAGE, 2, 2, 2, name, letters)) exit(2);
        if (first) hand(u, first);
        for (size_t i = 0; i < waiting; i++) {
            struct event e = *each;
            e.octets[7] = (uint8_t)(i + 1);
            hand(u, &e);
        }
        struct event end = {{0x03}, 1}, tick = {{0x04}, 1};
        if (ends) hand(u, &end);
        if (late) hand(u, &tick);
    }
}

static void make_units(size_t letters) {
    struct event opened = {{0x10, 2, 3, 1}, 4}, sure = {{0x02, 2, 3, 1, 0x21, 1, 0, 0}, 8};
    reach(letters, 0, 0, 0, 0);
    for (unsigned maintained = 0; maintained < 2; maintained++)
        for (unsigned confirmed = 0; confirmed < 2; confirmed++)
            for (unsigned all = 0; all < 2; all++) {
                struct event e = {{(uint8_t)(1 + confirmed), 2, 3, 1}, 4};
                put_frame(&e, maintained | (all ? 0x7c : confirmed ? 0x20 : 0), confirmed, 1, 32, 512, 0, 0);
                reach(letters, &e, 0, 0, 0);
            }
    for (int ends = 0; ends < 2; ends++) reach(letters, &opened, &sure, 0, ends), reach(letters, &opened, &sure, 1, ends), reach(letters, &opened, &sure, 8, ends);
}

/* ---- every event to every unit */

static size_t deepest[STATES][KINDS], most, by_value_most, most_waiting;
static unsigned refusals[10], lines[256];

static void both(const struct unit *u, size_t long_image, const struct event *e, size_t room, size_t *taken) {
    static struct unit a, b;
    static uint8_t one[STELQUORUM_BUFFER], other[STELQUORUM_BUFFER];
    a = b = *u;
    memset(one, 0xdd, sizeof one);
    memset(other, 0xdd, sizeof other);
    struct job ours = {stelquorum_event, a.image, one, e->octets, long_image, e->length, room, 0, 0};
    struct job theirs = {stelquorum_by_value, b.image, other, e->octets, long_image, e->length, room, 0, 0};
    measure(&ours);
    measure(&theirs);
    unsigned refusal = stelquorum_refused(ours.answer) ? stelquorum_refusal(ours.answer) : 0;
    if (refusal != (theirs.answer & 0xff) || memcmp(&a, &b, sizeof a) || memcmp(one, other, sizeof one)) failed++, puts("stack: the engines differ");
    *taken = ours.deepest;
    if (ours.deepest > most) most = ours.deepest;
    if (theirs.deepest > by_value_most) by_value_most = theirs.deepest;
    if (refusal) refusals[refusal % 10]++;
    else {
        const uint8_t *line = one;
        size_t count = stelquorum_lines(ours.answer);
        for (size_t i = 0; i < count; i++, line += 2 + stelquorum_line_length(line)) lines[line[2]]++;
        if (count >= 9 && ours.deepest > most_waiting) most_waiting = ours.deepest;
    }
}

static void *all(void *given) {
    static const struct event tick = {{0x04}, 1};
    static const unsigned unused_octets[] = {31, 47, 601, 602};
    size_t taken, bound = *(size_t *)given;
    struct unit blank = {{0}};
    struct job j = {nothing, blank.image, buffer, buffer, 1, 1, 1, 0, 0};
    measure(&j);
    unused = j.deepest;
    j.f = thousand;
    measure(&j);
    printf("stack: 1,000 octets on the stack are measured as %zu\n", j.deepest);
    check("1,000 octets aren't measured as 1,000", j.deepest >= 1000 && j.deepest <= 1064);

    make_events();
    make_units(1);
    make_units(32);
    for (size_t i = 0; i < unit_count; i++) {
        for (size_t k = 0; k < event_count; k++) {
            size_t *known = &deepest[units[i].image[STELQUORUM_AT_STATE]][kind_of(&events[k])];
            both(&units[i], STELQUORUM_IMAGE, &events[k], STELQUORUM_BUFFER, &taken);
            if (taken > *known) *known = taken;
        }
        both(&units[i], STELQUORUM_IMAGE, &events[i], STELQUORUM_BUFFER - 1, &taken);
        both(&units[i], STELQUORUM_IMAGE - 1, &events[i], STELQUORUM_BUFFER, &taken);
        for (size_t n = 0; n < 4; n++) {
            struct unit bad = units[i];
            bad.image[unused_octets[n]] ^= 0x80;
            both(&bad, STELQUORUM_IMAGE, &tick, STELQUORUM_BUFFER, &taken);
        }
    }

    printf("stack: %zu events to %zu units; the deepest octet, by the event's kind and the state ('*': above the bound):\n  state", event_count, unit_count);
    for (size_t s = 0; s < STATES; s++) printf("%7zu ", s);
    for (size_t k = 0; k < KINDS; k++) {
        if (k + 1 < KINDS) printf("\n  %02x   ", kinds[k]);
        else printf("\n  other");
        for (size_t s = 0; s < STATES; s++) {
            int holds = deepest[s][k] > 0 && deepest[s][k] <= bound;
            printf("%7zu%c", deepest[s][k], holds ? ' ' : '*');
            *(holds ? &passed : &failed) += 1;
        }
    }
    putchar('\n');
    for (unsigned n = 1; n < 10; n++)
        if (n != 7) check("a refusal that was never met", refusals[n] > 0);
    for (unsigned n = 0x20; n < 0x36; n++)
        if (n < 0x26 || n >= 0x30) check("a line that was never met", lines[n] > 0);
    check("no fall with eight waiting", most_waiting > 0);
    printf("stack: an event takes %zu octets at most, a fall with eight waiting %zu; the by-value engine %zu; bound %zu\n", most, most_waiting, by_value_most, bound);
    check("more than the bound", most <= bound);
    check("the by-value engine stays within the bound: it measures nothing", by_value_most > bound);
    return 0;
}

int main(int count, char **words) {
    size_t bound = count == 2 ? strtoul(words[1], 0, 10) : 0;
    pthread_attr_t own;
    pthread_t thread;
    if (pthread_attr_init(&own) || pthread_attr_setstack(&own, stack, sizeof stack) || pthread_create(&thread, &own, all, &bound) || pthread_join(thread, 0)) {
        puts("stack: no thread");
        return 2;
    }
    printf("stack: %u passed, %u failed\n", passed, failed);
    return failed != 0;
}
