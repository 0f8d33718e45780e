/* Lists the entries of the header of the VCF on standard input, or shows one value: cc -O2 -o example example.c ../../target/bindings/libvcfh.a
   ./example <FILE
   ./example cell W07 K <FILE */
#include <stdio.h>
#include <string.h>
#include "vcfh.h"

static uint8_t header[1048576];
static uint64_t table[65536];
static char text[1048576];

static void list(size_t length, vcfh_answer a) {
    size_t words = VCFH_WORDS(VCFH_FIRST) * a.entries;
    printf("version %u.%u, %lu entries, %lu samples\n", a.major, a.minor, (unsigned long)a.entries, (unsigned long)a.samples);
    for (uint64_t i = 0; i < a.entries; i++) {
        vcfh_described e = vcfh_describe(header, length, table, words, VCFH_FIRST, i);
        vcfh_meant id = vcfh_meaning(header + e.id_start, e.id_length, e.quoted, text, sizeof text);
        if (e.has_id) printf("%.*s %.*s\n", (int)e.key_length, (const char *)header + e.key_start, (int)id.length, text);
    }
}

int main(int count, char **names) {
    size_t length = vcfh_header_end(header, fread(header, 1, sizeof header, stdin));
    vcfh_answer a = vcfh_read(header, length, 0, 0, 0, VCFH_FIRST, table, 65536);
    if (a.number) return fprintf(stderr, "line %lu: %s\n", (unsigned long)a.line, vcfh_message(a.number)), 1;
    if (count != 4) return list(length, a), 0;
    vcfh_meant found = vcfh_find_text(header, length, table, VCFH_WORDS(VCFH_FIRST) * a.entries, VCFH_FIRST, a.major, a.minor, names[1],
                                      strlen(names[1]), names[2], strlen(names[2]), names[3], strlen(names[3]), text, sizeof text);
    if (found.number) return fprintf(stderr, "%s\n", vcfh_message(found.number)), 1;
    printf("%.*s\n", (int)found.length, text);
}
