/* The cases that are stored as samples and called from C: two files and the four numbers of their answer. */
#ifndef CASES_H
#define CASES_H

#include <stdbool.h>
#include <string.h>

#include "../include/desk.h"

#define COUNT(list) (sizeof(list) / sizeof *(list))

enum { MOST_CASE_BYTES = 2048 };

typedef uint32_t words[4];

struct file {
    size_t length;
    uint8_t bytes[MOST_CASE_BYTES];
};

struct pair {
    struct file obligation, second;
};

/* The records of an obligation, and of a proof or a derivation. */
struct base {
    bool derivation;
    const words *obligation;
    size_t obligation_count;
    const words *second;
    size_t second_count;
};

/* A base whose record i (the second file's; m its header) is another where i is not 0, and of whose second file only the first bytes are there where length is not 0. */
struct sample {
    const char *name;
    const struct base *base;
    unsigned i;
    words record;
    size_t length;
    struct desk_answer answer;
};

/* The goal ∀x·x=x. */
static const words obligation1[] = {{1, 6, 0, 6}, {2, 83, 0, 0}, {3, 1, 0, 0}, {9, 0, 2, 0}, {20, 3, 3, 0}, {19, 2, 4, 0}, {18, 5, 0, 0}};

static const words proof1[] = {{1, 11, 17, 6}, {2, 99, 0, 0}, {7, 2, 7, 0}, {20, 8, 8, 0}, {18, 9, 0, 0}, {1, 10, 0, 0},
                               {35, 11, 0, 0}, {1, 9, 0, 0}, {1, 8, 0, 13}, {1, 6, 0, 14}, {1, 12, 0, 0}, {43, 15, 16, 0}};

/* The goal ∀x·x=c. */
static const words obligation12[] = {{1, 8, 0, 8}, {2, 83, 0, 0}, {3, 1, 0, 0}, {2, 99, 0, 0}, {7, 2, 3, 0},
                                     {9, 0, 2, 0}, {20, 5, 4, 0}, {19, 2, 6, 0}, {18, 7, 0, 0}};

static const words proof12[] = {{1, 9, 17, 8}, {20, 4, 4, 0}, {18, 9, 0, 0}, {1, 10, 0, 0}, {35, 11, 0, 0},
                                {1, 9, 0, 0}, {1, 4, 0, 13}, {1, 8, 0, 14}, {1, 12, 0, 0}, {43, 15, 16, 0}};

/* The goal ∀x·x=x by all seventeen rules. */
static const words every_rule[] = {
    {1, 73, 79, 6},  {2, 99, 0, 0},   {7, 2, 7, 0},    {20, 8, 8, 0},   {15, 0, 0, 0},   {14, 0, 0, 0},   {17, 10, 5, 0},  {16, 5, 10, 0},
    {16, 10, 5, 0},  {19, 2, 5, 0},   {80, 0, 0, 0},   {1, 9, 0, 0},    {1, 8, 0, 17},   {1, 16, 0, 0},   {77, 18, 19, 0}, {80, 0, 0, 0},
    {1, 5, 0, 0},    {1, 9, 0, 22},   {1, 5, 0, 23},   {1, 20, 0, 0},   {1, 21, 0, 25},  {79, 24, 26, 0}, {1, 8, 0, 22},   {1, 27, 0, 0},
    {77, 28, 29, 0}, {1, 8, 0, 0},    {1, 15, 0, 31},  {1, 30, 0, 0},   {78, 32, 33, 0}, {66, 0, 0, 0},   {1, 35, 0, 0},   {1, 34, 0, 36},
    {75, 22, 37, 0}, {66, 0, 0, 0},   {1, 38, 0, 0},   {1, 39, 0, 40},  {70, 0, 41, 0},  {1, 14, 0, 0},   {1, 42, 0, 0},   {72, 43, 44, 0},
    {66, 0, 0, 0},   {1, 46, 0, 0},   {1, 45, 0, 47},  {70, 0, 48, 0},  {1, 13, 0, 0},   {1, 49, 0, 0},   {71, 50, 51, 0}, {1, 10, 0, 0},
    {1, 52, 0, 0},   {65, 53, 54, 0}, {1, 55, 0, 0},   {73, 0, 56, 0},  {1, 12, 0, 0},   {1, 57, 0, 0},   {74, 58, 59, 0}, {64, 0, 0, 0},
    {1, 60, 0, 0},   {73, 0, 62, 0},  {1, 63, 0, 0},   {1, 61, 0, 64},  {69, 58, 65, 0}, {68, 0, 0, 0},   {66, 0, 0, 0},   {66, 0, 0, 0},
    {1, 11, 0, 0},   {1, 69, 0, 0},   {1, 68, 0, 71},  {76, 70, 72, 0}, {1, 73, 0, 0},   {1, 67, 0, 74},  {76, 53, 75, 0}, {1, 66, 0, 0},
    {1, 76, 0, 77},  {67, 53, 78, 0}};

/* R7 by a constant of another type: types don't count. */
static const words other_type[] = {{1, 9, 15, 6}, {2, 99, 0, 0}, {4, 2, 0, 0}, {7, 8, 7, 0}, {20, 9, 9, 0},
                                   {80, 0, 0, 0}, {1, 10, 0, 0}, {1, 9, 0, 12}, {1, 11, 0, 0}, {77, 13, 14, 0}};

/* R7 with c still in the goal. */
static const words still_there[] = {{1, 6, 14, 8}, {20, 4, 4, 0}, {80, 0, 0, 0}, {1, 9, 0, 0}, {1, 4, 0, 11}, {1, 10, 0, 0}, {77, 12, 13, 0}};

/* The goal ¬⊥, by BR6. */
static const words true_goal[] = {{1, 3, 0, 3}, {14, 0, 0, 0}, {18, 1, 0, 0}, {18, 2, 0, 0}};

static const words one_node[] = {{1, 1, 4, 3}, {68, 0, 0, 0}};

/* The goal ∀x·x=x beside a constant, and a proof with a constant of its own: the two have one name, é as C3 A9 and as 65 CC 81. */
static const words medoc[] = {{1, 8, 0, 8}, {2, 83, 0, 0}, {3, 1, 0, 0}, {2, 1688847181, 25455, 0}, {7, 2, 3, 0},
                              {9, 0, 2, 0}, {20, 5, 5, 0}, {19, 2, 6, 0}, {18, 7, 0, 0}};

static const words medoc_again[] = {{1, 11, 19, 8}, {2, 2177656141u, 6516580, 0}, {7, 2, 9, 0}, {20, 10, 10, 0}, {18, 11, 0, 0}, {1, 12, 0, 0},
                                    {35, 13, 0, 0}, {1, 11, 0, 0}, {1, 10, 0, 15}, {1, 8, 0, 16}, {1, 14, 0, 0}, {43, 17, 18, 0}};

/* The goal ⊥ from ⊤⇒⊥, by a proof with branches. */
static const words from_true[] = {{1, 5, 5, 4}, {15, 0, 0, 0}, {14, 0, 0, 0}, {17, 1, 2, 0}, {18, 2, 0, 0}, {1, 3, 0, 0}};

static const words branches[] = {{1, 11, 16, 5}, {1, 3, 0, 0}, {33, 0, 0, 0}, {32, 0, 0, 0}, {1, 8, 0, 0},  {1, 7, 0, 9},
                                 {41, 6, 10, 0}, {1, 1, 0, 0}, {33, 0, 0, 0}, {1, 13, 0, 0}, {1, 11, 0, 14}, {37, 12, 15, 0}};

/* Axiom SET5, ∃x·(x ∈ s) ⇒ choice(s) ∈ s for all types, as a hypothesis, a ∈ s as another; the goal choice(s) ∈ s. */
static const words choice_axiom[] = {
    {1, 27, 27, 25}, {2, 83, 0, 0},  {3, 1, 0, 0},   {4, 2, 0, 0},    {2, 97, 0, 0},   {7, 2, 4, 0},    {2, 115, 0, 0},  {7, 3, 6, 0},
    {23, 7, 2, 0},   {6, 0, 0, 0},   {4, 9, 0, 0},   {9, 0, 9, 0},    {9, 1, 10, 0},   {9, 0, 10, 0},   {21, 11, 12, 0}, {18, 14, 0, 0},
    {19, 9, 15, 0},  {18, 16, 0, 0}, {23, 13, 9, 0}, {21, 18, 13, 0}, {17, 17, 19, 0}, {19, 10, 20, 0}, {22, 1, 21, 0},  {21, 5, 7, 0},
    {21, 8, 7, 0},   {18, 24, 0, 0}, {1, 23, 0, 0},  {1, 22, 0, 26}};

static const words by_choice_axiom[] = {
    {1, 44, 71, 27}, {9, 0, 2, 0},    {9, 1, 3, 0},    {9, 0, 3, 0},   {21, 28, 29, 0}, {18, 31, 0, 0}, {19, 2, 32, 0}, {18, 33, 0, 0},
    {23, 30, 2, 0},  {21, 35, 30, 0}, {17, 34, 36, 0}, {19, 3, 37, 0}, {21, 28, 7, 0},  {18, 39, 0, 0}, {19, 2, 40, 0}, {18, 41, 0, 0},
    {17, 42, 24, 0}, {18, 23, 0, 0},  {1, 23, 0, 0},   {34, 45, 0, 0}, {1, 44, 0, 0},   {1, 5, 0, 47},  {1, 41, 0, 48}, {1, 46, 0, 0},
    {44, 49, 50, 0}, {18, 42, 0, 0},  {1, 52, 0, 0},   {1, 51, 0, 0},  {38, 53, 54, 0}, {1, 24, 0, 0},  {34, 56, 0, 0}, {1, 43, 0, 0},
    {1, 57, 0, 0},   {1, 55, 0, 59},  {41, 58, 60, 0}, {1, 43, 0, 0},  {1, 7, 0, 62},   {1, 38, 0, 63}, {1, 61, 0, 0},  {44, 64, 65, 0},
    {1, 2, 0, 0},    {1, 38, 0, 67},  {1, 22, 0, 68},  {1, 66, 0, 0},  {45, 69, 70, 0}};

/* The hypothesis choice(s) = a, the goal a = choice(s): what the translation writes has a variable of the choice's type. */
static const words choice_equals[] = {{1, 12, 12, 11}, {2, 83, 0, 0}, {3, 1, 0, 0},  {4, 2, 0, 0},  {2, 97, 0, 0},  {7, 2, 4, 0}, {2, 115, 0, 0},
                                      {7, 3, 6, 0},    {23, 7, 2, 0}, {20, 8, 5, 0}, {20, 5, 8, 0}, {18, 10, 0, 0}, {1, 9, 0, 0}};

static const words turned[] = {{1, 2, 14, 12}, {1, 9, 0, 0}, {36, 13, 0, 0}};

/* The hypothesis choice(s) ∈ s as a cut formula with another own type. */
static const words choice_in_set[] = {{1, 9, 9, 8}, {2, 83, 0, 0}, {3, 1, 0, 0},  {4, 2, 0, 0},  {2, 115, 0, 0},
                                      {7, 3, 4, 0}, {23, 5, 2, 0}, {21, 6, 5, 0}, {18, 7, 0, 0}, {1, 7, 0, 0}};

static const words own_type_dropped[] = {{1, 8, 17, 9}, {23, 5, 3, 0},  {21, 10, 5, 0}, {66, 0, 0, 0},   {66, 0, 0, 0},
                                         {1, 13, 0, 0}, {1, 12, 0, 14}, {1, 11, 0, 0},  {67, 16, 15, 0}};

#define BASE(derivation, obligation, second) {derivation, obligation, COUNT(obligation), second, COUNT(second)}

static const struct base d1 = BASE(false, obligation1, proof1);
static const struct base d12 = BASE(false, obligation12, proof12);
static const struct base e1 = BASE(true, obligation1, every_rule);
static const struct base e2 = BASE(true, obligation1, other_type);
static const struct base e3 = BASE(true, obligation12, still_there);
static const struct base e17 = BASE(true, true_goal, one_node);
static const struct base m1 = BASE(false, medoc, medoc_again);
static const struct base m3 = BASE(true, medoc, medoc_again);
static const struct base t1 = BASE(false, from_true, branches);
static const struct base c1 = BASE(false, choice_axiom, by_choice_axiom);
static const struct base c4 = BASE(false, choice_equals, turned);
static const struct base c5 = BASE(true, choice_in_set, own_type_dropped);

/* D1 to D12 of paper 01, derivations, and both spellings of an accent: E CC 81 in a derivation, the two Médocs, another name for one of them; a proof with
 * branches, and one refused in its second branch; the choice operator: SET5 used, another own type, a kind that is none,
 * a choice on the left of =, the own type dropped in a derivation. */
static const struct sample samples[] = {
    {"d1", &d1, 0, {0}, 0, {0, 0, 0, 2}},
    {"d2", &d1, 6, {1, 11, 12, 6}, 0, {12, 2, 12, 0}},
    {"d3", &d1, 13, {1, 4, 0, 0}, 0, {15, 2, 17, 1}},
    {"d4", &d1, 12, {36, 11, 0, 0}, 0, {13, 2, 12, 2}},
    {"d5", &d1, 12, {34, 11, 0, 0}, 0, {14, 2, 12, 2}},
    {"d6", &d1, 9, {20, 8, 2, 0}, 0, {5, 2, 9, 0}},
    {"d7", &d1, 7, {2, 83, 0, 0}, 0, {0, 0, 0, 2}},
    {"d8", &d1, 7, {2, 99, 1, 0}, 0, {8, 2, 8, 0}},
    {"d9", &d1, 7, {2, 35267, 0, 0}, 0, {0, 0, 0, 2}},
    {"d10", &d1, 7, {2, 8506437, 0, 0}, 0, {0, 0, 0, 2}},
    {"d11", &d1, 0, {0}, 15, {1, 2, 0, 0}},
    {"d12", &d12, 0, {0}, 0, {16, 2, 17, 1}},
    {"e1", &e1, 0, {0}, 0, {0, 0, 0, 26}},
    {"e2", &e2, 0, {0}, 0, {0, 0, 0, 2}},
    {"e3", &e3, 0, {0}, 0, {16, 2, 14, 1}},
    {"e4", &e1, 0, {0}, 15, {1, 2, 0, 0}},
    {"e5", &e1, 6, {1, 73, 79, 7}, 0, {2, 2, 0, 0}},
    {"e6", &e1, 16, {35, 0, 0, 0}, 0, {3, 2, 16, 0}},
    {"e7", &e1, 10, {15, 1, 0, 0}, 0, {4, 2, 10, 0}},
    {"e8", &e1, 9, {20, 8, 2, 0}, 0, {5, 2, 9, 0}},
    {"e9", &e1, 7, {2, 99, 1, 0}, 0, {8, 2, 8, 0}},
    {"e10", &e1, 6, {1, 73, 5, 6}, 0, {11, 2, 0, 0}},
    {"e11", &e1, 6, {1, 73, 16, 6}, 0, {12, 2, 16, 0}},
    {"e12", &e1, 16, {68, 0, 0, 0}, 0, {13, 2, 16, 24}},
    {"e13", &e1, 16, {66, 0, 0, 0}, 0, {14, 2, 16, 24}},
    {"e14", &e1, 35, {64, 0, 0, 0}, 0, {14, 2, 35, 25}},
    {"e15", &e1, 13, {16, 10, 10, 0}, 0, {15, 2, 52, 13}},
    {"e16", &e1, 17, {1, 4, 0, 0}, 0, {15, 2, 20, 23}},
    {"e17", &e17, 0, {0}, 0, {0, 0, 0, 1}},
    {"e18", &e1, 7, {2, 8506437, 0, 0}, 0, {0, 0, 0, 26}},
    {"m1", &m1, 0, {0}, 0, {9, 2, 10, 0}},
    {"m2", &m1, 9, {2, 8506437, 0, 0}, 0, {0, 0, 0, 2}},
    {"m3", &m3, 0, {0}, 0, {9, 2, 10, 0}},
    {"t1", &t1, 0, {0}, 0, {0, 0, 0, 5}},
    {"t2", &t1, 8, {33, 0, 0, 0}, 0, {14, 2, 8, 4}},
    {"c1", &c1, 0, {0}, 0, {0, 0, 0, 7}},
    {"c2", &c1, 35, {23, 30, 3, 0}, 0, {10, 2, 35, 0}},
    {"c3", &c1, 35, {24, 30, 2, 0}, 0, {3, 2, 35, 0}},
    {"c4", &c4, 0, {0}, 0, {0, 0, 0, 1}},
    {"c5", &c5, 0, {0}, 0, {0, 0, 0, 3}},
};

static void put_record(uint8_t *bytes, const words record)
{
    for (size_t i = 0; i < 16; i++)
        bytes[i] = (uint8_t)(record[i / 4] >> (8 * (i % 4)));
}

static struct file file_of(const words *records, size_t count)
{
    struct file f = {16 * count, {0}};
    for (size_t i = 0; i < count; i++)
        put_record(f.bytes + 16 * i, records[i]);
    return f;
}

/* The files of a sample. */
static struct pair pair_of(const struct sample *s)
{
    const struct base *base = s->base;
    struct pair p = {file_of(base->obligation, base->obligation_count), file_of(base->second, base->second_count)};
    if (s->i != 0)
        put_record(p.second.bytes + 16 * (s->i + 1 - base->obligation_count), s->record);
    if (s->length != 0)
        p.second.length = s->length;
    return p;
}

/* One past the deepest derivation that is accepted, and the bytes of one so deep, or of a proof. */
enum { TOO_DEEP = 8193, TOO_DEEP_BYTES = 32 * TOO_DEEP + 16 };

/* Writes a branch of so many nodes to a second file of e17's obligation, each node but its leaf of that kind, with those parts and the node below it as its premise, and
 * the header; records up to the leaf's are there. The file's length. */
static size_t put_branch(uint8_t *bytes, uint32_t leaf, uint32_t depth, uint32_t kind, uint32_t parts)
{
    uint32_t root = leaf;
    for (; root < leaf + 2 * (depth - 1); root += 2) {
        put_record(bytes + 16 * (root - 2), (words){1, root, 0, 0});
        put_record(bytes + 16 * (root - 1), (words){kind, parts, root + 1, 0});
    }
    put_record(bytes, (words){1, root - 3, root, 3});
    return 16 * (root - 2);
}

/* Writes a derivation of e17's goal that is so many nodes deep: BR6 below BR2 nodes that keep nothing. Its length. */
static size_t put_deep(uint8_t *bytes, uint32_t depth)
{
    put_record(bytes + 16, (words){68, 0, 0, 0});
    return put_branch(bytes, 4, depth, 65, 0);
}

/* Writes a proof of e17's goal that is so many nodes deep: the rule for ⊥ below nodes that each take ⊥ from ¬¬⊥. Its length. */
static inline size_t put_deep_proof(uint8_t *bytes, uint32_t depth)
{
    put_record(bytes + 16, (words){1, 3, 0, 0});
    put_record(bytes + 32, (words){32, 0, 0, 0});
    return put_branch(bytes, 5, depth, 38, 4);
}

#endif
