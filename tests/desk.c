/* Calls the desk from C, as the proof editor does: the samples through the whole check and through places 1 to 12, derivations as deep
 * as they may be, and the samples through the translation. */
#include <stdio.h>

#include "cases.h"

static unsigned passed, failed;

typedef uint64_t entry(const uint8_t *, size_t, const uint8_t *, size_t);

static void expect(const char *name, uint64_t packed, struct desk_answer wanted)
{
    struct desk_answer a = desk_unpack(packed);
    if (a.refusal == wanted.refusal && a.file == wanted.file && a.record == wanted.record && a.nodes == wanted.nodes) {
        passed++;
    } else {
        failed++;
        printf("%s: %u %u %lu %lu\n", name, a.refusal, a.file, a.record, a.nodes);
    }
}

/* The reading ends at place 12: it answers none of the walk's refusals, and counts no node. */
static struct desk_answer of_reading(struct desk_answer whole)
{
    struct desk_answer none = {0, 0, 0, 0};
    return whole.refusal <= 12 && whole.refusal > 0 ? whole : none;
}

static uint64_t ask(entry *call, const struct pair *p)
{
    return call(p->obligation.bytes, p->obligation.length, p->second.bytes, p->second.length);
}

static void check(const struct sample *s)
{
    struct pair p = pair_of(s);
    bool derivation = s->base->derivation;
    expect(s->name, ask(derivation ? desk_check_derivation : desk_check_proof, &p), s->answer);
    expect(s->name, ask(derivation ? desk_read_derivation : desk_read_proof, &p), of_reading(s->answer));
}

static void check_deep(uint32_t depth, struct desk_answer wanted)
{
    static uint8_t deep[TOO_DEEP_BYTES];
    struct file obligation = file_of(true_goal, COUNT(true_goal));
    size_t length = put_deep(deep, depth);
    expect("a deep derivation", desk_check_derivation(obligation.bytes, obligation.length, deep, length), wanted);
}

/* The bytes that a case's translation may need at most, and bytes behind the largest buffer that is lent. */
enum { MOST_ROOM = 16 * (1 + 64 * (MOST_CASE_BYTES / 16)), BEHIND = 64 };

/* A byte of the pattern that the area of the buffer is filled with. */
static uint8_t pattern(size_t place)
{
    return (uint8_t)(37 * place + place / 256 + 101);
}

static void expect_number(const char *name, const char *what, uint64_t found, uint64_t wanted)
{
    if (found == wanted) {
        passed++;
    } else {
        failed++;
        printf("%s: %s %llu, wanted %llu\n", name, what, (unsigned long long)found, (unsigned long long)wanted);
    }
}

/* The least buffer that is not too short: n + 1 are the proof's records with its header. */
static size_t room(const struct pair *p)
{
    return 16 * (1 + 64 * (p->second.length / 16));
}

/* The sum of a number for each rule node of the proof. */
static size_t over_nodes(const struct pair *p, const unsigned numbers[15])
{
    size_t sum = 0;
    for (size_t i = 16; i < p->second.length; i += 16) {
        unsigned kind = p->second.bytes[i];
        if (kind >= 32 && kind <= 46)
            sum += numbers[kind - 32];
    }
    return sum;
}

/* The bytes of an accepted proof's translation: its header, the proof's records, those for each rule node, and five. */
static uint64_t translated_length(const struct pair *p)
{
    static const unsigned records[] = {1, 7, 6, 6, 17, 10, 10, 15, 16, 14, 21, 18, 9, 5, 17};
    return 16 * (p->second.length / 16 + 5 + over_nodes(p, records));
}

/* The answer to that derivation: it has nodes for each of the proof's, and two. */
static struct desk_answer derivation_answer(const struct pair *p)
{
    static const unsigned nodes[] = {1, 3, 3, 3, 5, 3, 4, 6, 7, 5, 9, 7, 3, 2, 5};
    return (struct desk_answer){0, 0, 0, 2 + over_nodes(p, nodes)};
}

/* Translates with so large a buffer: the answer, the length, what is in the buffer and behind it, and the check of the derivation. */
static void translate(const char *name, const struct pair *p, size_t size, struct desk_answer wanted)
{
    static uint8_t area[MOST_ROOM + BEHIND];
    uint64_t length = UINT64_MAX, wanted_length = wanted.refusal == 0 ? translated_length(p) : 0;
    size_t changed = 0;
    for (size_t i = 0; i < sizeof area; i++)
        area[i] = pattern(i);
    expect(name, desk_translate(p->obligation.bytes, p->obligation.length, p->second.bytes, p->second.length, area, size, &length), wanted);
    expect_number(name, "length", length, wanted_length);
    for (size_t i = wanted_length; i < sizeof area; i++)
        changed += area[i] != pattern(i);
    expect_number(name, "changed bytes past the length", changed, 0);
    if (wanted.refusal == 0)
        expect(name, desk_check_derivation(p->obligation.bytes, p->obligation.length, area, wanted_length), derivation_answer(p));
}

/* A sample as a proof, in buffers of no bytes, of one byte too few, of just enough and of more: a refusal of the proof comes first. */
static void check_translation(const struct sample *s)
{
    struct pair p = pair_of(s);
    struct desk_answer whole = s->base->derivation ? desk_unpack(ask(desk_check_proof, &p)) : s->answer;
    struct desk_answer of_short = whole.refusal == 0 ? (struct desk_answer){19, 2, 0, whole.nodes} : whole;
    size_t enough = room(&p);
    translate(s->name, &p, 0, of_short);
    translate(s->name, &p, translated_length(&p), of_short);
    translate(s->name, &p, enough - 1, of_short);
    translate(s->name, &p, enough, whole);
    translate(s->name, &p, enough + 1, whole);
    translate(s->name, &p, MOST_ROOM, whole);
}

/* The first sample, its numbers written out. */
static void check_first_translation(void)
{
    struct pair p = pair_of(&samples[0]);
    expect_number("d1", "room", room(&p), 12304);
    expect_number("d1", "length of the translation", translated_length(&p), 656);
    translate("d1", &p, 12303, (struct desk_answer){19, 2, 0, 2});
    translate("d1", &p, 12304, (struct desk_answer){0, 0, 0, 2});
}

int main(void)
{
    for (size_t k = 0; k < COUNT(samples); k++)
        check(&samples[k]);
    struct pair p = pair_of(&samples[0]);
    expect("a proof as a derivation", ask(desk_read_derivation, &p), (struct desk_answer){3, 2, 12, 0});
    check_deep(TOO_DEEP - 1, (struct desk_answer){0, 0, 0, TOO_DEEP - 1});
    check_deep(TOO_DEEP, (struct desk_answer){18, 2, 4, TOO_DEEP});
    check_first_translation();
    for (size_t k = 0; k < COUNT(samples); k++)
        check_translation(&samples[k]);
    printf("%u passed, %u failed\n", passed, failed);
    return failed != 0;
}
