/* Reads one header over and over, by htslib or by vcfh in the first or the second form, or in pieces of 4,096, of 64 bytes or of one, or
   writes its house form or its dictionaries, in either form, its cells, or holds it against its house form, or writes the contigs of a SAM
   header: bench hts|read|second|fed4096|fed64|fed1|house|house-second|dictionaries|dictionaries-second|register|register-second|is-house|sam FILE TIMES. Or
   builds the index of its IDs, or looks each of its contigs up once, at random, by htslib or in an index of twice as many places as entries,
   in either form: bench index|hts-find|find|find-second FILE TIMES.
   Prints the best round's nanoseconds for one header. */
#include <stdio.h>
#include <stdlib.h>
#include <string.h>
#include <time.h>
#ifdef HTS
#include <htslib/vcf.h>
#endif
#include "../bindings/c/vcfh.h"

enum { ROUNDS = 5, WORDS = 10485760, SIZE = 16777216 };
static char header[SIZE + 1];
static size_t length;
static uint64_t table[WORDS];
static uint8_t out[2 * SIZE];
static uint64_t strings[SIZE / 8], contigs[SIZE / 8];

static int hts(void) {
#ifdef HTS
    bcf_hdr_t *parsed = bcf_hdr_init("r");
    int status = bcf_hdr_parse(parsed, header);
    bcf_hdr_destroy(parsed);
    return status == 0;
#else
    return 0;
#endif
}

static int read_in(uint64_t form) {
    return vcfh_read((const uint8_t *)header, length, 0, 0, 0, form, table, WORDS).number == 0;
}

static int read_first(void) { return read_in(VCFH_FIRST); }
static int read_second(void) { return read_in(VCFH_SECOND); }

static int house_in(uint64_t form) {
    return vcfh_house((const uint8_t *)header, length, 0, 0, 0, form, table, WORDS, out, sizeof out).number == 0;
}

static int house(void) { return house_in(VCFH_FIRST); }
static int house_second(void) { return house_in(VCFH_SECOND); }

static int dictionaries_in(uint64_t form) {
    const uint8_t *bytes = (const uint8_t *)header;
    return vcfh_dictionaries(bytes, length, 0, 0, 0, form, table, WORDS, strings, SIZE / 8, contigs, SIZE / 8).number == 0;
}

static int dictionaries_first(void) { return dictionaries_in(VCFH_FIRST); }
static int dictionaries_second(void) { return dictionaries_in(VCFH_SECOND); }

static int cells_in(uint64_t form) { return vcfh_register((const uint8_t *)header, length, 0, 0, 0, form, table, WORDS).number == 0; }
static int cells(void) { return cells_in(VCFH_FIRST); }
static int cells_second(void) { return cells_in(VCFH_SECOND); }
static int sam_contigs(void) { return vcfh_contigs((const uint8_t *)header, length, out, sizeof out).number == 0; }

/* The contigs of the header in the order in which they are looked up: their names, and their entries' numbers. */
static char names[SIZE];
static const char *name[SIZE / 16];
static uint64_t entry[SIZE / 16];
static size_t contig_count, entries;
static uint32_t index_[WORDS];

static size_t words_in(uint64_t form) { return VCFH_WORDS(form) * entries; }

static int index_in(uint64_t form) {
    return vcfh_build_index((const uint8_t *)header, length, table, words_in(form), form, index_, 2 * entries).number == 0;
}

static int index_first(void) { return index_in(VCFH_FIRST); }

/* Reads the header and keeps its contigs' names, then puts them out of order. */
static int prepare(uint64_t form) {
    const uint8_t *bytes = (const uint8_t *)header;
    vcfh_answer answer = vcfh_read(bytes, length, 0, 0, 0, form, table, WORDS);
    char *next = names;
    entries = answer.entries;
    if (answer.number || 2 * entries > WORDS) return 0;
    for (uint64_t n = 0; n < entries; n++) {
        vcfh_part line = vcfh_entry(bytes, length, table, words_in(form), form, n), id = vcfh_id(bytes, length, table, words_in(form), form, n);
        if (id.number || strncmp(header + line.start, "##contig", 8) != 0) continue;
        memcpy(next, header + id.start, id.length);
        name[contig_count] = next, entry[contig_count++] = n;
        next += id.length + 1;
    }
    uint64_t random = 1;
    for (size_t i = contig_count; i > 1; i--) {
        random = random * 6364136223846793005 + 1442695040888963407;
        size_t other = (random >> 33) % i;
        const char *text = name[i - 1];
        uint64_t number = entry[i - 1];
        name[i - 1] = name[other], entry[i - 1] = entry[other], name[other] = text, entry[other] = number;
    }
    return index_in(form);
}

static int find_in(uint64_t form) {
    size_t words = words_in(form);
    for (size_t i = 0; i < contig_count; i++) {
        vcfh_found found = vcfh_find((const uint8_t *)header, length, table, words, form, index_, 2 * entries, 6, name[i], strlen(name[i]));
        if (!found.found || found.entry != entry[i]) return 0;
    }
    return 1;
}

static int find_first(void) { return find_in(VCFH_FIRST); }
static int find_second(void) { return find_in(VCFH_SECOND); }

#ifdef HTS
static bcf_hdr_t *known;
#endif

static int hts_find(void) {
#ifdef HTS
    for (size_t i = 0; i < contig_count; i++)
        if (bcf_hdr_name2id(known, name[i]) < 0) return 0;
    return 1;
#else
    return 0;
#endif
}

/* What is looked up in, where something is. */
static int ready(const char *what) {
    if (strcmp(what, "find-second") == 0) return prepare(VCFH_SECOND);
    if (strcmp(what, "find") != 0 && strcmp(what, "hts-find") != 0 && strcmp(what, "index") != 0) return 1;
#ifdef HTS
    known = bcf_hdr_init("r");
    if (bcf_hdr_parse(known, header)) return 0;
#endif
    return prepare(VCFH_FIRST);
}

static int is_house(void) {
    return vcfh_is_house((const uint8_t *)header, length, 0, 0, 0, VCFH_FIRST, table, WORDS).number == 0;
}

static int fed(size_t size) {
    vcfh_feeding state = vcfh_feed_start(0, 0, 0);
    for (size_t at = 0; at < length; at += size) {
        size_t left = length - at;
        state = vcfh_feed(state, (const uint8_t *)header + at, left < size ? left : size, VCFH_FIRST, out, SIZE, table, WORDS).state;
    }
    return vcfh_close(state, VCFH_FIRST, out, SIZE, table, WORDS).number == 0;
}

static int fed_4096(void) { return fed(4096); }
static int fed_64(void) { return fed(64); }
static int fed_1(void) { return fed(1); }

static double now(void) {
    struct timespec t;
    clock_gettime(CLOCK_MONOTONIC, &t);
    return 1e9 * (double)t.tv_sec + (double)t.tv_nsec;
}

int main(int count, char **words) {
    if (count != 4) return 2;
    FILE *file = fopen(words[2], "rb");
    if (!file) return 2;
    length = fread(header, 1, SIZE, file);
    int (*call)(void) = strcmp(words[1], "hts") == 0 ? hts : strcmp(words[1], "house") == 0 ? house
                        : strcmp(words[1], "house-second") == 0 ? house_second
                        : strcmp(words[1], "dictionaries") == 0 ? dictionaries_first
                        : strcmp(words[1], "dictionaries-second") == 0 ? dictionaries_second
                        : strcmp(words[1], "register") == 0 ? cells : strcmp(words[1], "register-second") == 0 ? cells_second : strcmp(words[1], "sam") == 0 ? sam_contigs
                        : strcmp(words[1], "fed4096") == 0 ? fed_4096
                        : strcmp(words[1], "fed64") == 0 ? fed_64
                        : strcmp(words[1], "fed1") == 0 ? fed_1
                        : strcmp(words[1], "is-house") == 0 ? is_house
                        : strcmp(words[1], "second") == 0 ? read_second : strcmp(words[1], "index") == 0 ? index_first
                        : strcmp(words[1], "hts-find") == 0 ? hts_find : strcmp(words[1], "find") == 0 ? find_first
                        : strcmp(words[1], "find-second") == 0 ? find_second : read_first;
    if (!ready(words[1])) return 1;
    long times = atol(words[3]);
    double best = 1e300;
    for (int round = 0; round < (times ? ROUNDS : 0); round++) {
        double start = now();
        for (long i = 0; i < times; i++)
            if (!call()) return 1;
        double spent = (now() - start) / (double)times;
        if (spent < best) best = spent;
    }
    if (times) printf("%.0f\n", best);
}
