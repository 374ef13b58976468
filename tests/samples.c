/* `samples DIR` writes the files of the samples there, as they stand in tests/samples, and the answer of each in `expected`.
 * `samples DIR KIND DEPTH` writes a derivation or a proof that is so deep there, `deep.KIND`; its obligation is that of e17. */
#include <stdio.h>
#include <stdlib.h>

#include "cases.h"

static void write_file(const char *directory, const char *name, const char *extension, const uint8_t *bytes, size_t length)
{
    char path[1024];
    snprintf(path, sizeof path, "%s/%s.%s", directory, name, extension);
    FILE *out = fopen(path, "wb");
    if (out == NULL || fwrite(bytes, 1, length, out) != length || fclose(out) != 0)
        perror(path);
}

static void write_sample(const char *directory, FILE *expected, const struct sample *s)
{
    const char *kind = s->base->derivation ? "derivation" : "proof";
    struct desk_answer a = s->answer;
    struct pair p = pair_of(s);
    write_file(directory, s->name, "obligation", p.obligation.bytes, p.obligation.length);
    write_file(directory, s->name, kind, p.second.bytes, p.second.length);
    fprintf(expected, "%s %s %u %u %lu %lu\n", kind, s->name, a.refusal, a.file, a.record, a.nodes);
}

static int write_samples(const char *directory)
{
    char path[1024];
    snprintf(path, sizeof path, "%s/expected", directory);
    FILE *expected = fopen(path, "w");
    if (expected == NULL)
        return 1;
    for (size_t k = 0; k < COUNT(samples); k++)
        write_sample(directory, expected, &samples[k]);
    return fclose(expected) != 0;
}

int main(int count, char **arguments)
{
    static uint8_t deep[TOO_DEEP_BYTES];
    if (count == 2)
        return write_samples(arguments[1]);
    uint32_t depth = count == 4 ? (uint32_t)atol(arguments[3]) : 0;
    if (depth < 1 || depth > TOO_DEEP)
        return 2;
    const char *kind = arguments[2];
    bool proof = strcmp(kind, "proof") == 0;
    if (!proof && strcmp(kind, "derivation") != 0)
        return 2;
    write_file(arguments[1], "deep", kind, deep, proof ? put_deep_proof(deep, depth) : put_deep(deep, depth));
    return 0;
}
