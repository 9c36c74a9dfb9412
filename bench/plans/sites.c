/* Writes sites of the benchmark as case files into a folder, for plans: of each group the first cases, with every set allowed to stand,
 * and the sites of equal sets. Usage: sites FOLDER CASES_OF_A_GROUP */
#include "cases.h"

#include <stdio.h>
#include <stdlib.h>

enum { SIZES = 6, MARK_AT = 22 };

static const uint32_t sizes[SIZES] = {1, 2, 4, 8, 16, 32};
static struct group group;

static void write_case(const char *folder, const char *name, const struct case_file *c)
{
    char path[4096];
    snprintf(path, sizeof path, "%s/%s.case", folder, name);
    FILE *file = fopen(path, "wb");
    if (!file || fwrite(c->bytes, 1, c->length, file) != c->length || fclose(file) != 0) {
        perror(path);
        exit(1);
    }
}

static void let_stand(struct case_file *c)
{
    uint32_t units = (uint32_t)c->bytes[2] << 8 | c->bytes[3];
    for (uint32_t i = 0; i < units; i++) {
        const uint8_t *entry = c->bytes + 8 + 4 * i;
        c->bytes[((uint32_t)entry[0] << 8 | entry[1]) + MARK_AT + 1] = 0;
    }
}

/* A group as bench.c makes it. */
static void write_group(const char *folder, uint32_t cases, int index, uint32_t units, uint32_t zones, uint32_t edition)
{
    char name[64];
    make_group(&group, units, zones, edition, UINT64_C(20240601) + (uint64_t)index);
    for (uint32_t i = 0; i < cases && i < CASES_IN_GROUP; i++) {
        let_stand(&group.cases[i]);
        snprintf(name, sizeof name, "%u-%u%s-%02u", (unsigned)units, (unsigned)zones, edition == 2 ? "-edition-2" : "", (unsigned)i);
        write_case(folder, name, &group.cases[i]);
    }
}

int main(int count, char **words)
{
    if (count != 3) {
        fprintf(stderr, "usage: sites FOLDER CASES_OF_A_GROUP\n");
        return 2;
    }
    uint32_t cases = (uint32_t)strtoul(words[2], NULL, 10);
    for (int i = 0; i < 2 * SIZES; i++)
        write_group(words[1], cases, i, sizes[i % SIZES], i < SIZES ? 0 : 4, 1);
    for (int i = 0; i < 2; i++)
        write_group(words[1], cases, 2 * SIZES + i, sizes[SIZES - 1], i == 0 ? 0 : 4, 2);
    for (int i = 3; i < SIZES; i++) {
        static struct case_file equal;
        char name[64];
        make_equal_case(&equal, sizes[i]);
        snprintf(name, sizeof name, "%u-equal", (unsigned)sizes[i]);
        write_case(words[1], name, &equal);
    }
    return 0;
}
