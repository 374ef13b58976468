/* The entries of libfavashears.a. Each takes two byte areas and changes neither; any bytes are answered. The translation alone
 * writes, to the buffer that it is lent. */
#ifndef DESK_H
#define DESK_H

#include <stddef.h>
#include <stdint.h>

/* The answer's four numbers.
 *   refusal  0 where the files are accepted; else the first refusal that applies, places top to bottom:
 *            1 length; 2 header; 3 kind; 4 a word out of range; 5 a reference; 6 a chain's length; 7 weight; 8 a name; 9 a name
 *            taken; 10 typing; 11 hypotheses, goal or root; 12 a rule node not named exactly once; then, at a node of the walk:
 *            13 number, class or form of its parts or premises; 14 a needed member; 15 what its parts must fit; 16 a constant
 *            not fresh; 17 a premise of over 1,024 members (2,048 in a derivation); 18 over 8,192 nodes deep, derivations only;
 *            after acceptance, by the translation only: 19 a buffer too short
 *   file     1 the obligation, 2 the other; 0 on acceptance
 *   record   the record's number, counted through both files, 0 for the file itself; 0 on acceptance
 *   nodes    the rule nodes that the walk entered, the refused one among them; 0 before the walk */
struct desk_answer {
    unsigned refusal;
    unsigned file;
    unsigned long record;
    unsigned long nodes;
};

/* The whole check of a proof: refusals 1 to 17, or acceptance. */
uint64_t desk_check_proof(const uint8_t *obligation, size_t obligation_length, const uint8_t *proof, size_t proof_length);

/* The whole check of a derivation: refusals 1 to 18 but for 10 of its own records, or acceptance. It has its tables on the
 * stack, and calls itself for each node from the root on: 6.2 MiB at the greatest depth. Call it on a stack of 8 MiB. */
uint64_t desk_check_derivation(const uint8_t *obligation, size_t obligation_length, const uint8_t *derivation, size_t derivation_length);

/* The translation of an accepted proof into a derivation: the proof check's refusal; else 19, file 2, record 0 and all nodes, where
 * the buffer has under 16 * (1 + 64 * (n + 1)) bytes, n being the proof's records after its header; else acceptance with the
 * proof check's count. 16 * (1 + 64 * 3073) bytes are always enough. On acceptance `*length` is the number of bytes that it has
 * written at the buffer's beginning, which desk_check_derivation accepts beside the same obligation; those after them are
 * unchanged. On refusal `*length` is 0 and the buffer is unchanged. Neither may overlap the other areas. Call it on a stack of at least 3 MiB. */
uint64_t desk_translate(const uint8_t *obligation, size_t obligation_length, const uint8_t *proof, size_t proof_length,
                        uint8_t *buffer, size_t buffer_length, uint64_t *length);

/* Refusals 1 to 12 of an obligation and a proof, or a derivation; 0 where none applies. The second takes 3 MiB of stack. */
uint64_t desk_read_proof(const uint8_t *obligation, size_t obligation_length, const uint8_t *proof, size_t proof_length);
uint64_t desk_read_derivation(const uint8_t *obligation, size_t obligation_length, const uint8_t *derivation, size_t derivation_length);

/* An entry's answer: the refusal in bits 56 to 63, the file in 48 to 55, the record in 24 to 47, the nodes in 0 to 23. */
static inline struct desk_answer desk_unpack(uint64_t packed)
{
    struct desk_answer a;
    a.refusal = (unsigned)(packed >> 56);
    a.file = (unsigned)(packed >> 48 & 0xff);
    a.record = (unsigned long)(packed >> 24 & 0xffffff);
    a.nodes = (unsigned long)(packed & 0xffffff);
    return a;
}

#endif
