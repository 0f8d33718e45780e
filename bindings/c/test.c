/* The library's numbers in their order: what stands side by side never has one value. Prints how many checks passed and failed. */
#include <stdio.h>
#include <string.h>
#include "vcfh.h"

#define COLUMNS "#CHROM\tPOS\tID\tREF\tALT\tQUAL\tFILTER\tINFO"
#define PLAIN "##fileformat=VCFv4.3\n##cell=<ID=W07,K=0.98>\n" COLUMNS "\n"
#define WORDS 24

static uint64_t table[WORDS];
static uint8_t out[4096];
static unsigned passed, failed;

static void same(const char *what, uint64_t got, uint64_t wanted) {
    if (got == wanted) { passed++; return; }
    failed++;
    printf("%s: %lu, not %lu\n", what, (unsigned long)got, (unsigned long)wanted);
}

static const uint8_t *bytes(const char *text) { return (const uint8_t *)text; }

static vcfh_answer read_by(const char *header, uint64_t imposed, uint32_t major, uint32_t minor) {
    return vcfh_read(bytes(header), strlen(header), imposed, major, minor, VCFH_FIRST, table, WORDS);
}

static vcfh_answer read_in(const char *header, uint64_t form) {
    return vcfh_read(bytes(header), strlen(header), 0, 0, 0, form, table, WORDS);
}

static vcfh_form house_by(const char *header, uint64_t imposed, uint32_t major, uint32_t minor, size_t space) {
    return vcfh_house(bytes(header), strlen(header), imposed, major, minor, VCFH_FIRST, table, WORDS, out, space);
}

/* From 4.3 on a META's Values may stand in brackets with a comma. */
static void versions(void) {
    const char *meta = "##fileformat=VCFv4.2\n##META=<ID=x,Values=[a,b]>\n" COLUMNS "\n";
    same("its own version", read_by(meta, 0, 4, 3).number, 9);
    same("4.3 imposed", read_by(meta, 1, 4, 3).number, 0);
    same("3.4 imposed", read_by(meta, 1, 3, 4).number, 9);
    same("the form by its own version", house_by(meta, 0, 4, 3, 4096).number, 9);
    same("the form by 4.3", house_by(meta, 1, 4, 3, 4096).number, 0);
    same("the form by 3.4", house_by(meta, 1, 3, 4, 4096).number, 9);
}

/* Two entries are kept, and line 3 is refused, which begins at byte 51. */
static void places(void) {
    const char *twice = "##fileformat=VCFv4.3\n##FILTER=<ID=q,Description=x>\n##FILTER=<ID=\"q\",Description=x>\n";
    vcfh_answer a = read_in(twice, VCFH_FIRST);
    same("number", a.number, 19), same("line", a.line, 3), same("start", a.start, 51), same("entries", a.entries, 2);
    vcfh_form f = house_by(twice, 0, 0, 0, 4096);
    same("the form's number", f.number, 19), same("the form's line", f.line, 3), same("the form's start", f.start, 51);
    same("the form's entries", f.entries, 2), same("the form's length", f.length, 0);
}

/* A header of three lines and 87 bytes with a form of 83, and too small an output. */
static void forms(void) {
    const char *quoted = "##fileformat=VCFv4.3\n##cell=<K=\"0.98\",ID=\"W07\">\n" COLUMNS "\n";
    vcfh_form f = house_by(quoted, 0, 0, 0, 4096);
    same("accepted", f.number, 0), same("lines", f.line, 3), same("bytes", f.start, 87), same("all entries", f.entries, 3);
    same("form's bytes", f.length, 83), same("the form", memcmp(out, PLAIN, 83) == 0, 1);
    same("no room", house_by(quoted, 0, 0, 0, 82).number, 28);
}

/* Entry 2 has three fields, entry 1 none: exchanged, entry and field show something else. In the other form no entry is well formed. */
static void parts(uint64_t form, uint64_t other) {
    const char *header = "##fileformat=VCFv4.3\n##b=text\n##c=<K=1,L=\"2,3\",ID=\"W07\">\n" COLUMNS "\n";
    const uint8_t *h = bytes(header);
    size_t length = strlen(header);
    read_in(header, form);
    vcfh_part entry = vcfh_entry(h, length, table, WORDS, form, 2), id = vcfh_id(h, length, table, WORDS, form, 2);
    same("entry's number", entry.number, 0), same("entry's start", entry.start, 30), same("entry's length", entry.length, 26);
    same("ID's number", id.number, 0), same("ID's start", id.start, 51), same("ID's length", id.length, 3);
    vcfh_part field = vcfh_field(h, length, table, WORDS, form, 2, 4, 3, 1);
    same("field's number", field.number, 0), same("field's start", field.start, 39), same("field's length", field.length, 7);
    same("field 2 of entry 1", vcfh_field(h, length, table, WORDS, form, 1, 4, 3, 2).number, 29);
    same("by 3.4 a text", vcfh_field(h, length, table, WORDS, form, 2, 3, 4, 1).number, 29);
    same("entry in the other form", vcfh_entry(h, length, table, WORDS, other, 2).number, 29);
    same("ID in the other form", vcfh_id(h, length, table, WORDS, other, 2).number, 29);
    same("field in the other form", vcfh_field(h, length, table, WORDS, other, 2, 4, 3, 1).number, 29);
}

/* Major and minor exchanged, the first line is a text under 3.4, so that 29 comes; the list is one word too short, and its last word stays. */
static void odd(uint64_t form, uint64_t other) {
    const char *header = "##fileformat=VCFv4.3\n##c=<L=1,ID=x>\n##contig=<ID=a,length=007>\n##contig=<ID=b,IDX=+5>\n" COLUMNS "\n";
    const uint8_t *h = bytes(header);
    size_t length = strlen(header);
    uint64_t list[3] = {7, 7, 7};
    size_t words = VCFH_WORDS(form) * read_in(header, form).entries;
    vcfh_listed found = vcfh_odd(h, length, table, words, form, 4, 3, list, 3);
    same("listed", found.number, 0), same("how many", found.listed, 2);
    same("first", list[0], 2), same("second", list[1], 3), same("third", list[2], 7);
    same("a list too short", vcfh_odd(h, length, table, words, form, 4, 3, list, 1).number, 31);
    same("not as the entry says", vcfh_odd(h, length, table, words, form, 3, 4, list, 3).number, 29);
    same("list in the other form", vcfh_odd(h, length, table, words, other, 4, 3, list, 3).number, 29);
}

/* Two contigs of four lines and 56 bytes; then too small an output, and a name that appears twice. */
static void contigs(void) {
    const char *sam = "@HD\tVN:1.6\n@SQ\tSN:a,b\tLN:07\n@CO\n@SQ\tUR:u\tLN:2\tM5:m\tSN:c\n@SQ\tSN:c\tLN:1\n";
    const char *lines = "##contig=<ID=\"a,b\",length=7>\n##contig=<ID=c,length=2,md5=m,URL=u>\n";
    vcfh_contig_lines c = vcfh_contigs(bytes(sam), 56, out, 4096);
    same("read", c.number, 0), same("SAM lines", c.line, 4), same("SAM bytes", c.start, 56), same("contigs", c.contigs, 2);
    same("contig bytes", c.length, strlen(lines)), same("the lines", memcmp(out, lines, strlen(lines)) == 0, 1);
    c = vcfh_contigs(bytes(sam), strlen(sam), out, 4096);
    same("twice", c.number, 43), same("its line", c.line, 5), same("its start", c.start, 56), same("none", c.contigs, 0), same("nothing", c.length, 0);
    same("no room for lines", vcfh_contigs(bytes(sam), 56, out, strlen(lines) - 1).number, 28);
}

/* The entries of PLAIN in each form. */
static const uint64_t firsts[] = {0x1000000014000000, 0, 0x7000150016000000, 0x000B000300000000, 0x90002C0026000000, 0};
static const uint64_t seconds[] = {0x1000000000014000, 0, 0x00000A0000000000, 0x7000015000016000, 0x00000B0000030000, 0x0000040000020000, 0x900002C000026000, 0, 0};

static void same_words(const char *what, const uint64_t *got, const uint64_t *wanted, size_t count) {
    for (size_t i = 0; i < count; i++) same(what, got[i], wanted[i]);
}

static void stored(const char *what, uint64_t form, const uint64_t *wanted) {
    same(what, read_in(PLAIN, form).entries, 3), same_words(what, table, wanted, 3 * VCFH_WORDS(form));
}

/* Into a table of ten words; what is turned stands there, and the others stay; where the call is refused all stay. */
static void turned(const char *what, uint64_t to_form, const uint64_t *from, size_t to_words, uint64_t number, uint64_t minor) {
    uint64_t to[] = {7, 7, 7, 7, 7, 7, 7, 7, 7, 7}, wanted[] = {7, 7, 7, 7, 7, 7, 7, 7, 7, 7};
    int second = to_form == VCFH_SECOND;
    vcfh_turned t = second ? vcfh_to_second(bytes(PLAIN), strlen(PLAIN), from, 6, 4, (uint32_t)minor, to, to_words)
                           : vcfh_to_first(bytes(PLAIN), strlen(PLAIN), from, 9, to, to_words);
    if (!number) memcpy(wanted, second ? seconds : firsts, 8 * 3 * VCFH_WORDS(to_form));
    same(what, t.number, number), same(what, t.entries, number ? 0 : 3), same_words(what, to, wanted, 10);
}

/* Both ways; then with a destination one word short, with a fileformat entry that has an ID, and by a version that refuses a line. */
static void turning(void) {
    uint64_t bad[9];
    turned("to second", VCFH_SECOND, firsts, 10, 0, 3), turned("to first", VCFH_FIRST, seconds, 10, 0, 3);
    turned("second too short", VCFH_SECOND, firsts, 8, 24, 3), turned("first too short", VCFH_FIRST, seconds, 5, 24, 3);
    memcpy(bad, firsts, sizeof firsts), bad[1] = firsts[3];
    turned("bad first entry", VCFH_SECOND, bad, 5, 29, 3);
    memcpy(bad, seconds, sizeof bad), bad[1] = seconds[4];
    turned("bad second entry", VCFH_FIRST, bad, 5, 29, 3);
    memcpy(bad, firsts, sizeof firsts), bad[2] = 0x6000150016000000;
    turned("a line of another kind", VCFH_SECOND, bad, 10, 29, 3);
}

/* The key and the number of fields of each entry, in the second form; none in the first, and none where the third word is wrong. */
static void keys(void) {
    const char *header = "##fileformat=VCFv4.3\n##META=<ID=x,Values=[a,K=b]>\n##n=t\n" COLUMNS "\n";
    const uint64_t starts[] = {2, 23, 52, 0}, lengths[] = {10, 4, 1, 0}, fields[] = {0, 2, 0, 0}, kinds[] = {1, 7, 8, 9};
    read_in(header, VCFH_SECOND);
    for (uint64_t n = 0; n < 4; n++) {
        vcfh_key_part k = vcfh_key(bytes(header), strlen(header), table, WORDS, VCFH_SECOND, n);
        same("key's number", k.number, n < 3 ? 0 : 29), same("key's start", k.start, starts[n]), same("key's length", k.length, lengths[n]);
        same("key's fields", k.fields, fields[n]), same("kind", vcfh_describe(bytes(header), strlen(header), table, WORDS, VCFH_SECOND, n).kind, kinds[n]);
    }
    same("key past the table", vcfh_key(bytes(header), strlen(header), table, 12, VCFH_SECOND, 4).number, 29);
    same("field by 4.3", vcfh_field(bytes(header), strlen(header), table, WORDS, VCFH_SECOND, 1, 4, 3, 0).number, 0);
    same("three fields by 4.2", vcfh_field(bytes(header), strlen(header), table, WORDS, VCFH_SECOND, 1, 4, 2, 0).number, 29);
    table[5]++;
    same("a bit that is no number's", vcfh_key(bytes(header), strlen(header), table, WORDS, VCFH_SECOND, 1).number, 29);
    read_in(header, VCFH_FIRST);
    same("key in the first form", vcfh_key(bytes(header), strlen(header), table, WORDS, VCFH_FIRST, 1).number, 29);
    same("kind in the first form", vcfh_describe(bytes(header), strlen(header), table, WORDS, VCFH_FIRST, 1).kind, 7);
}

static uint8_t large[0x100001];

/* One text entry of the second form, turned to the first in a header of 2^20 + 1 bytes. */
static void fitting(const char *what, uint64_t word, uint64_t number, uint64_t wanted) {
    uint64_t from[] = {word, 0, 0}, to[] = {7, 7};
    same(what, vcfh_to_first(large, sizeof large, from, 3, to, 2).number, number), same(what, to[0], wanted);
}

/* Starts end at 2^20 - 1 in the first form, and lengths at 2^16 - 1. */
static void fits(void) {
    fitting("last start", 0x80FFFFF000001000, 0, 0x8FFFFF0001000000), fitting("start too large", 0x8100000000001000, 32, 7);
    fitting("last length", 0x800000000FFFF000, 0, 0x800000FFFF000000), fitting("length too large", 0x8000000010000000, 32, 7);
}

/* A line of 65,536 bytes between the fileformat line and the column line; returns the header's length. */
static size_t put_long_line(void) {
    const char *head = "##fileformat=VCFv4.3\n##a=", *tail = "\n" COLUMNS;
    memset(large, 'x', 21 + 65536);
    memcpy(large, head, strlen(head)), memcpy(large + 21 + 65536, tail, strlen(tail));
    return 21 + 65536 + strlen(tail);
}

/* Every call that reads refuses it in the first form. In the second the output is too small for the house form, and wells are missing. */
static void long_line(uint64_t form, uint64_t number, uint64_t entries, uint64_t house, uint64_t cells) {
    size_t length = put_long_line();
    uint64_t strings[2], names[2];
    vcfh_answer a = vcfh_read(large, length, 0, 0, 0, form, table, WORDS);
    same("long line", a.number, number), same("long line's entries", a.entries, entries);
    same("long line's length", vcfh_entry(large, length, table, VCFH_WORDS(form) * entries, form, 1).length, number ? 0 : 65536);
    same("long line's house form", vcfh_house(large, length, 0, 0, 0, form, table, WORDS, out, 4096).number, house);
    same("long line's cells", vcfh_register(large, length, 0, 0, 0, form, table, WORDS).number, cells);
    same("long line's names", vcfh_dictionaries(large, length, 0, 0, 0, form, table, WORDS, strings, 2, names, 2).number, number);
}

/* Where very many entries are written notes stand in the table for a while: afterwards it is what reading left. */
static void many_lines(uint64_t form) {
    enum { LINES = 100000, KEYS = 10, LENGTH = 21 + 5 * LINES + sizeof COLUMNS };
    static uint8_t header[LENGTH], wanted[LENGTH], put[LENGTH];
    static uint64_t as_read[3 * LINES + 6], after[3 * LINES + 6];
    memcpy(header, "##fileformat=VCFv4.3\n", 21), memcpy(header + LENGTH - sizeof COLUMNS, COLUMNS "\n", sizeof COLUMNS);
    memcpy(wanted, header, LENGTH);
    for (unsigned i = 0; i < LINES; i++) {
        uint8_t line[5] = {'#', '#', 'a' + i % KEYS, '=', '\n'};
        memcpy(header + 21 + 5 * i, line, 5);
        line[2] = 'a' + i / (LINES / KEYS);
        memcpy(wanted + 21 + 5 * i, line, 5);
    }
    memset(as_read, 0, sizeof as_read), memset(after, 0, sizeof after);
    same("many lines", vcfh_read(header, LENGTH, 0, 0, 0, form, as_read, 3 * LINES + 6).entries, LINES + 2);
    same("many lines' form", vcfh_house(header, LENGTH, 0, 0, 0, form, after, 3 * LINES + 6, put, LENGTH).length, LENGTH);
    same("many lines, by key", memcmp(put, wanted, LENGTH) != 0, 0), same("many lines' table", memcmp(after, as_read, sizeof after) != 0, 0);
    same("many lines differ", vcfh_is_house(header, LENGTH, 0, 0, 0, form, after, 3 * LINES + 6).differs, 28);
    same("many lines' table again", memcmp(after, as_read, sizeof after) != 0, 0);
}

/* Entry 1 is the FILTER x, entry 2 the INFO x and entry 3 the contig a"b, each at another place of eight; that of a contig x is open. */
static void indexes(uint64_t form, uint64_t other) {
    const char *header = "##fileformat=VCFv4.3\n##FILTER=<ID=x,Description=d>\n##INFO=<ID=x,Number=1,Type=Float,Description=d>\n"
                         "##contig=<ID=\"a\\\"b\">\n" COLUMNS "\n";
    const uint8_t *h = bytes(header);
    size_t length = strlen(header), entries = read_in(header, form).entries, words = VCFH_WORDS(form) * entries;
    uint32_t index[9] = {7, 7, 7, 7, 7, 7, 7, 7, 7};
    same("too few places", vcfh_build_index(h, length, table, words, form, index, 2).number, 33), same("kept", index[0], 7);
    same("index in the other form", vcfh_build_index(h, length, table, words, other, index, 8).number, 29), same("kept too", index[7], 7);
    vcfh_indexed built = vcfh_build_index(h, length, table, words, form, index, 8);
    same("built", built.number, 0), same("placed", built.placed, 3), same("past the places", index[8], 7);
    vcfh_found found = vcfh_find(h, length, table, words, form, index, 8, 2, "x", 1);
    same("found", found.found, 1), same("INFO x", found.entry, 2), same("looked", found.looked, 1);
    same("FILTER x", vcfh_find(h, length, table, words, form, index, 8, 3, "x", 1).entry, 1);
    same("contig", vcfh_find(h, length, table, words, form, index, 8, 6, "a\"b", 3).entry, 3);
    found = vcfh_find(h, length, table, words, form, index, 8, 6, "x", 1);
    same("none", found.found, 0), same("no entry", found.entry, 0), same("looked for none", found.looked, 1);
    same("other kind", vcfh_find(h, length, table, words, form, index, 8, 7, "x", 1).looked, 0);
    same("no places", vcfh_find(h, length, table, words, form, index, 0, 2, "x", 1).looked, 0);
}

/* Each total in its place, in either form; and a sheet that is full stays. */
static void season(uint64_t form) {
    const char *probe = "##fileformat=VCFv4.3\n##cell=<ID=W07,K=0.98>\n#CHROM\tPOS\tID\tREF\tALT\tQUAL\tFILTER\tINFO\tFORMAT\ta\tb\n";
    const char *twice = "##fileformat=VCFv4.3\n##FILTER=<ID=q,Description=x>\n##FILTER=<ID=q,Description=x>\n";
    uint64_t table[64];
    vcfh_sheet empty = {{0}}, full = {{0}};
    vcfh_added a = vcfh_season_add(bytes(probe), strlen(probe), 0, 9, 9, form, table, 64, empty);
    same("season, accepted", a.number, 0), same("season, lines", a.line, 3), same("season, bytes", a.start, strlen(probe)), same("season, entries", a.entries, 5);
    vcfh_added b = vcfh_season_add(bytes(twice), strlen(twice), 1, 4, 2, form, table, 64, a.sheet);
    same("season, refused", b.number, 19), same("season, line", b.line, 3), same("season, start", b.start, 51), same("season, kept", b.entries, 2);
    for (unsigned i = 0; i < 39; i++) {
        uint64_t total = i == VCFH_SEASON_READ || i == VCFH_SEASON_ENTRIES(10) ? 2 : 0;
        if (i == VCFH_SEASON_ACCEPTED || i == VCFH_SEASON_REFUSED(19) || i == VCFH_SEASON_ENTRIES(1) || i == VCFH_SEASON_ENTRIES(7) || i == VCFH_SEASON_ENTRIES(9)) total = 1;
        same("season, total", b.sheet.totals[i], total);
        same("season, merged", vcfh_season_merge(a.sheet, b.sheet).sheet.totals[i], a.sheet.totals[i] + b.sheet.totals[i]);
    }
    same("season, merged number", vcfh_season_merge(a.sheet, b.sheet).number, 0);
    full.totals[VCFH_SEASON_ENTRIES(10)] = UINT64_MAX - 1;
    a = vcfh_season_add(bytes(probe), strlen(probe), 0, 0, 0, form, table, 64, full);
    same("season, full", a.number, 30), same("season, no line", a.line, 0), same("season, no start", a.start, 0), same("season, read all the same", a.entries, 5);
    same("season, as it was", memcmp(&a.sheet, &full, sizeof full), 0);
    vcfh_merged m = vcfh_season_merge(full, b.sheet);
    same("season, not merged", m.number, 30), same("season, first as it was", memcmp(&m.sheet, &full, sizeof full), 0);
}

static vcfh_verdict judged(const char *header, uint64_t imposed, uint64_t form) {
    return vcfh_is_house(bytes(header), strlen(header), imposed, 4, 2, form, table, WORDS);
}

/* A form, a header that differs from its form at byte 29, one that lacks its last LF, a refused one, and a version imposed. */
static void verdicts(uint64_t form) {
    vcfh_verdict v = judged(PLAIN, 0, form);
    same("a form", v.house, 1), same("no difference", v.differs, 0), same("a form's number", v.number, 0);
    same("a form's lines", v.line, 3), same("a form's bytes", v.start, 83), same("a form's entries", v.entries, 3);
    v = judged("##fileformat=VCFv4.3\n##cell=<K=\"0.98\",ID=\"W07\">\n" COLUMNS "\n", 0, form);
    same("no form", v.house, 0), same("where it differs", v.differs, 29), same("no form is accepted", v.number, 0);
    v = judged("##fileformat=VCFv4.3\n" COLUMNS, 0, form);
    same("a form without its end", v.house, 0), same("the shorter one's length", v.differs, 21 + strlen(COLUMNS));
    v = judged("##fileformat=VCFv4.3\nx\n", 0, form);
    same("a refused header", v.number, 6), same("the refused line", v.line, 2), same("its start", v.start, 21);
    same("the entries kept", v.entries, 1), same("no verdict", v.house, 0), same("no place", v.differs, 0);
    v = judged(PLAIN, 1, form);
    same("imposed", v.house, 0), same("the version differs", v.differs, 19);
}

/* A header of 83 bytes in pieces of this size, and its close; the table's words are those of reading it whole. */
static vcfh_fed fed_in(const char *header, size_t piece, uint64_t form, uint64_t imposed, uint32_t major, uint32_t minor, uint8_t *buffer, size_t space) {
    size_t length = strlen(header);
    vcfh_feeding state = vcfh_feed_start(imposed, major, minor);
    for (size_t at = 0; at < length; at += piece) {
        vcfh_fed f = vcfh_feed(state, bytes(header) + at, length - at < piece ? length - at : piece, form, buffer, space, table, WORDS);
        state = f.state;
    }
    return vcfh_close(state, form, buffer, space, table, WORDS);
}

static void same_state(const char *what, vcfh_feeding a, vcfh_feeding b) {
    same(what, memcmp(&a, &b, sizeof a) == 0, 1);
}

/* Cut into pieces of each size. */
static void pieces(uint64_t form) {
    uint8_t buffer[100];
    uint64_t whole[WORDS];
    memset(table, 7, sizeof table);
    read_in(PLAIN, form);
    memcpy(whole, table, sizeof table);
    for (size_t piece = 1; piece <= 84; piece++) {
        memset(table, 7, sizeof table);
        vcfh_fed f = fed_in(PLAIN, piece, form, 0, 9, 9, buffer, sizeof buffer);
        same("fed", f.number, 0), same("fed lines", f.line, 3), same("fed bytes", f.start, 83), same("fed entries", f.entries, 3);
        same("fed table", memcmp(table, whole, sizeof table) == 0, 1), same("fed buffer", memcmp(buffer, PLAIN, 83) == 0, 1);
        same("its phase", f.state.phase, 2), same("major", f.state.major, 4), same("minor", f.state.minor, 3), same("samples", f.state.samples, 0);
        same("held", f.state.held, 83), same("at", f.state.at, 83), same("lines", f.state.lines, 3), same("kept", f.state.kept, 3), same("over", f.state.over, 1);
    }
}

/* Answers between pieces, a refusal that is repeated, a piece that does not fit, and states that cannot be. */
static void feeding(void) {
    uint8_t buffer[100];
    const char *twice = "##fileformat=VCFv4.3\n##FILTER=<ID=q,Description=x>\n##FILTER=<ID=\"q\",Description=x>\n";
    vcfh_feeding start = vcfh_feed_start(0, 8, 9), by = vcfh_feed_start(1, 4, 2);
    same("imposed none", start.imposed, 0), same("imposed", by.imposed, 1), same("imposed major", by.imposed_major, 4), same("imposed minor", by.imposed_minor, 2);
    vcfh_fed f = vcfh_feed(start, bytes(twice), 30, VCFH_FIRST, buffer, 100, table, WORDS);
    same("so far", f.number, 0), same("lines so far", f.line, 1), same("bytes so far", f.start, 30), same("entries so far", f.entries, 1), same("not over", f.state.over, 0);
    vcfh_fed g = vcfh_feed(f.state, bytes(twice) + 30, strlen(twice) - 30, VCFH_FIRST, buffer, 100, table, WORDS);
    same("fed twice", g.number, 19), same("twice line", g.line, 3), same("twice start", g.start, 51), same("twice entries", g.entries, 2);
    vcfh_fed again = vcfh_feed(g.state, bytes("x"), 1, VCFH_FIRST, buffer, 100, table, WORDS), closed = vcfh_close(again.state, VCFH_FIRST, buffer, 100, table, WORDS);
    same("again", again.number, 19), same("again line", again.line, 3), same("again start", again.start, 51), same("again entries", again.entries, 2);
    same("closed", closed.number, 19), same_state("the state stays", g.state, closed.state);
    f = vcfh_feed(f.state, bytes(twice), 71, VCFH_FIRST, buffer, 100, table, WORDS);
    same("too long", f.number, 27), same("no line", f.line, 0), same("no start", f.start, 0), same("entries then", f.entries, 1), same("nothing taken", f.state.held, 30);
    same("no line at all", vcfh_close(start, VCFH_FIRST, buffer, 100, table, WORDS).number, 25);
    vcfh_feeding wrong = g.state;
    wrong.phase = 3;
    vcfh_fed w = vcfh_close(wrong, VCFH_FIRST, buffer, 100, table, WORDS);
    same("no phase", w.number, 29), same("29 line", w.line, 0), same("29 start", w.start, 0), same("29 entries", w.entries, 0), same_state("29 keeps the state", wrong, w.state);
    wrong = start, wrong.phase = 0x100000000;
    same("no such phase", vcfh_feed(wrong, bytes("x"), 1, VCFH_FIRST, buffer, 100, table, WORDS).number, 29);
    wrong = g.state, wrong.held = 101;
    same("held past the buffer", vcfh_feed(wrong, bytes("x"), 1, VCFH_FIRST, buffer, 100, table, WORDS).number, 29);
    wrong = start, wrong.held = 20, wrong.at = 21;
    same("places out of order", vcfh_close(wrong, VCFH_FIRST, buffer, 100, table, WORDS).number, 29);
    wrong = start, wrong.held = 20, wrong.at = 10, wrong.lines = 11;
    same("more lines than bytes", vcfh_close(wrong, VCFH_FIRST, buffer, 100, table, WORDS).number, 29);
    wrong = start, wrong.kept = WORDS / 2 + 1;
    same("more entries than room", vcfh_close(wrong, VCFH_FIRST, buffer, 100, table, WORDS).number, 29);
    table[0] = 0;
    same("a broken entry", vcfh_close(g.state, VCFH_FIRST, buffer, 100, table, WORDS).number, 29);
    same("imposed in pieces", fed_in("##fileformat=VCFv4.3\n##META=<ID=x,Values=[a,b]>\n", 7, VCFH_FIRST, 1, 4, 2, buffer, 100).number, 9);
    same("not imposed", fed_in("##fileformat=VCFv4.3\n##META=<ID=x,Values=[a,b]>\n", 7, VCFH_FIRST, 0, 4, 2, buffer, 100).number, 26);
}

static void same_bytes(const char *what, const void *got, size_t length, const char *wanted) {
    same(what, length, strlen(wanted)), same(what, length == strlen(wanted) && memcmp(got, wanted, length) == 0, 1);
}

#define LINES "##fileformat=VCFv4.3\n##b=text\n##c=<K=1,L=\"2,\\\"3\\\\\",ID=\"a\\\"b\">\n##c=<ID=\"x\",K=\"\">\n" COLUMNS "\tFORMAT\ts1\t##s2"

/* The version in force and the number of samples; the version imposed; nothing of a refused header. */
static void told(uint64_t form) {
    vcfh_answer a = read_in(LINES "\n", form);
    same("told", a.number, 0), same("samples", a.samples, 2), same("major", a.major, 4), same("minor", a.minor, 3), same("told entries", a.entries, 7);
    a = read_by(PLAIN, 1, 9, 7);
    same("no samples", a.samples, 0), same("major imposed", a.major, 9), same("minor imposed", a.minor, 7);
    a = read_by(LINES "\n##after=1\n", 1, 9, 7);
    same("a line after", a.number, 1), same("refused samples", a.samples, 0), same("refused major", a.major, 0), same("refused minor", a.minor, 0);
}

/* Each number of each entry: a line, its key, its ID and whether that is quoted. A sample's name may begin as a key does. */
static void describing(uint64_t form, uint64_t other) {
    const uint8_t *h = bytes(LINES);
    const char *lines[] = {"##fileformat=VCFv4.3", "##b=text", "##c=<K=1,L=\"2,\\\"3\\\\\",ID=\"a\\\"b\">", "##c=<ID=\"x\",K=\"\">", COLUMNS "\tFORMAT\ts1\t##s2", "s1", "##s2"};
    const char *keys[] = {"fileformat", "b", "c", "c", "", "", ""}, *ids[] = {"", "", "a\\\"b", "x", "", "", ""};
    const uint64_t kinds[] = {VCFH_FILEFORMAT, VCFH_OTHER_TEXT, VCFH_OTHER_MAP, VCFH_OTHER_MAP, VCFH_COLUMNS, VCFH_SAMPLE, VCFH_SAMPLE};
    size_t length = strlen(LINES), words = VCFH_WORDS(form) * read_in(LINES, form).entries;
    for (uint64_t n = 0; n < 7; n++) {
        vcfh_described e = vcfh_describe(h, length, table, words, form, n);
        same("described", e.number, 0), same("its kind", e.kind, kinds[n]), same_bytes("its line", h + e.start, e.length, lines[n]);
        same_bytes("its key", h + e.key_start, e.key_length, keys[n]), same_bytes("its ID", h + e.id_start, e.id_length, ids[n]);
        same("its ID is there", e.has_id, n == 2 || n == 3), same("its quotes", e.quoted, n == 2 || n == 3);
        if (!*keys[n]) same("no key's place", e.key_start, 0);
        if (!*ids[n]) same("no ID's place", e.id_start, 0);
    }
    vcfh_described none = vcfh_describe(h, length, table, words, form, 7), zeros = {29, 0, 0, 0, 0, 0, 0, 0, 0, 0};
    same("not described", memcmp(&none, &zeros, sizeof none), 0);
    same("described in the other form", vcfh_describe(h, length, table, words, other, 2).number, 29);
}

/* Fields by number and by key, each with its key's and its value's place. */
static void values(uint64_t form) {
    const uint8_t *h = bytes(LINES);
    size_t length = strlen(LINES), words = VCFH_WORDS(form) * read_in(LINES, form).entries;
    const char *keys[] = {"K", "L", "ID"}, *texts[] = {"1", "2,\\\"3\\\\", "a\\\"b"};
    for (uint64_t i = 0; i < 3; i++) {
        vcfh_field_part f = vcfh_field_parts(h, length, table, words, form, 2, 4, 3, i);
        vcfh_value_part v = vcfh_value(h, length, table, words, form, 2, 4, 3, keys[i], strlen(keys[i]));
        same("a field apart", f.number, 0), same_bytes("its key", h + f.key_start, f.key_length, keys[i]), same_bytes("its value", h + f.start, f.length, texts[i]);
        same("its quotes", f.quoted, i > 0), same("a value", v.number, 0), same("value's start", v.start, f.start), same("value's length", v.length, f.length);
        same("value's quotes", v.quoted, f.quoted);
    }
    vcfh_field_part empty = vcfh_field_parts(h, length, table, words, form, 3, 4, 3, 1);
    same("an empty value", empty.number, 0), same("nothing between quotes", empty.length, 0), same("quotes of nothing", empty.quoted, 1), same("between its quotes", h[empty.start], '"');
    same("no field 3", vcfh_field_parts(h, length, table, words, form, 2, 4, 3, 3).number, 29);
    same("no field of a text", vcfh_field_parts(h, length, table, words, form, 1, 4, 3, 0).number, 29);
    same("no field M", vcfh_value(h, length, table, words, form, 2, 4, 3, "M", 1).number, 29);
    same("no value of a text", vcfh_value(h, length, table, words, form, 1, 4, 3, "K", 1).number, 29);
    same("by 3.4 a text, not a map", vcfh_value(h, length, table, words, form, 2, 3, 4, "ID", 2).number, 29);
}

/* The first entry under a key whose ID means this, its value, and what that means. */
static void finding(uint64_t form) {
    const uint8_t *h = bytes(LINES);
    char text[8] = "-------";
    size_t length = strlen(LINES), words = VCFH_WORDS(form) * read_in(LINES, form).entries;
    vcfh_under u = vcfh_find_entry(h, length, table, words, form, "c", 1, "a\"b", 3);
    same("found under", u.number, 0), same("which", u.entry, 2);
    same("found x", vcfh_find_entry(h, length, table, words, form, "c", 1, "x", 1).entry, 3);
    u = vcfh_find_entry(h, length, table, words, form, "c", 1, "a\\\"b", 4);
    same("as it is written", u.number, 29), same("no entry then", u.entry, 0);
    same("under another key", vcfh_find_entry(h, length, table, words, form, "b", 1, "x", 1).number, 29);
    same("a text has no ID", vcfh_find_entry(h, length, table, words, form, "b", 1, "", 0).number, 29);
    same("a part of the key", vcfh_find_entry(h, length, table, words, form, "", 0, "x", 1).number, 29);
    same("past the table", vcfh_find_entry(h, length, table, VCFH_WORDS(form) * 3, form, "c", 1, "x", 1).number, 29);
    vcfh_value_part v = vcfh_find_value(h, length, table, words, form, 4, 3, "c", 1, "a\"b", 3, "L", 1);
    same("a value under", v.number, 0), same("quoted", v.quoted, 1), same_bytes("as written", h + v.start, v.length, "2,\\\"3\\\\");
    same("no value under", vcfh_find_value(h, length, table, words, form, 4, 3, "c", 1, "x", 1, "L", 1).number, 29);
    same("no value of none", vcfh_find_value(h, length, table, words, form, 4, 3, "c", 1, "y", 1, "K", 1).number, 29);
    vcfh_meant m = vcfh_find_text(h, length, table, words, form, 4, 3, "c", 1, "a\"b", 3, "L", 1, text, 4);
    same("too small", m.number, 28), same("nothing of it", m.length, 0), same("as it was", memcmp(text, "-------", 8), 0);
    m = vcfh_find_text(h, length, table, words, form, 4, 3, "c", 1, "a\"b", 3, "L", 1, text, 5);
    same("meant", m.number, 0), same_bytes("its meaning", text, m.length, "2,\"3\\"), same("no more than that", text[5], '-');
    m = vcfh_find_text(h, length, table, words, form, 4, 3, "c", 1, "y", 1, "K", 1, text, 5);
    same("no text", m.number, 29), same("no text's length", m.length, 0);
}

/* Between quotes two escapes are dropped; bare they stay. */
static void meanings(void) {
    const uint8_t *raw = bytes("a\\\"b\\\\c\\d");
    char text[9];
    vcfh_meant quoted = vcfh_meaning(raw, 9, 1, text, 7);
    same("meaning", quoted.number, 0), same_bytes("unescaped", text, quoted.length, "a\"b\\c\\d");
    same("any number but 0", vcfh_meaning(raw, 9, 0x100000000, text, 7).number, 0), same("no room", vcfh_meaning(raw, 9, 1, text, 6).number, 28);
    vcfh_meant bare = vcfh_meaning(raw, 9, 0, text, 9);
    same("bare", bare.number, 0), same_bytes("as it stands", text, bare.length, "a\\\"b\\\\c\\d"), same("no room for bare", vcfh_meaning(raw, 9, 0, text, 8).number, 28);
    same("means", vcfh_means(raw, 9, 1, "a\"b\\c\\d", 7), 1), same("means less", vcfh_means(raw, 9, 1, "a\"b\\c\\d", 6), 0);
    same("bare means", vcfh_means(raw, 9, 0, "a\"b\\c\\d", 7), 0), same("bare means itself", vcfh_means(raw, 9, 0, (const char *)raw, 9), 1);
}

/* Past the column line, whatever follows; a column line at the end; no column line; a line that only holds its name. */
static void ends(void) {
    const char *whole = PLAIN "1\t2\n#CHROM\n";
    same("a whole VCF", vcfh_header_end(bytes(whole), strlen(whole)), 83), same("a header", vcfh_header_end(bytes(PLAIN), 83), 83);
    same("without LF", vcfh_header_end(bytes(PLAIN), 82), 82), same("no column line", vcfh_header_end(bytes(PLAIN), 44), 44);
    same("nothing", vcfh_header_end(bytes(""), 0), 0), same("not at its start", vcfh_header_end(bytes("##x=#CHROM\na\n"), 13), 13);
    same("CR too", vcfh_header_end(bytes("#CHROM\r\nx"), 9), 8);
}

static char cells[2000];

/* Forty cell lines, of which W07 has this constant. */
static vcfh_cells register_of(const char *constant, uint64_t form) {
    uint64_t room[200];
    size_t at = (size_t)sprintf(cells, "##fileformat=VCFv4.3\n");
    for (int w = 1; w <= 40; w++) at += (size_t)sprintf(cells + at, "##cell=<ID=W%02d,K=%s>\n", w, w == 7 ? constant : "1.00");
    strcpy(cells + at, COLUMNS);
    return vcfh_register(bytes(cells), strlen(cells), 0, 0, 0, form, room, 200);
}

static void registers(uint64_t form) {
    vcfh_cells old_ones = register_of("0.98", form), new_ones = register_of("\"2.00\"", form), bad = register_of("2.01", form);
    same("a register", old_ones.number, 0), same("its lines", old_ones.line, 42), same("its entries", old_ones.entries, 42), same("W07", old_ones.constants[6], 98), same("W40", old_ones.constants[39], 100);
    vcfh_differences d = vcfh_compare(old_ones, new_ones);
    same("one differs", d.count, 1), same("the well", d.wells[0], 7), same("before", d.before[0], 98), same("after", d.after[0], 200), same("no second", d.wells[1], 0);
    same("none differs", vcfh_compare(new_ones, new_ones).count, 0);
    same("no constant", bad.number, 40), same("its line", bad.line, 8), same("no register", bad.constants[0], 0);
}

/* PASS is written last and is 0 all the same; contigs are a list of their own. */
static void dictionaries(uint64_t form) {
    const char *header = "##fileformat=VCFv4.3\n##FILTER=<ID=q,Description=x>\n##contig=<ID=c>\n##FILTER=<ID=PASS,Description=x>\n" COLUMNS "\n";
    uint64_t strings[] = {7, 7, 7, 7, 7}, contigs_[] = {7, 7, 7};
    vcfh_numbers n = vcfh_dictionaries(bytes(header), strlen(header), 0, 0, 0, form, table, WORDS, strings, 5, contigs_, 3);
    same("dictionaries", n.number, 0), same("strings", n.strings, 2), same("contigs", n.contigs, 1), same("lines read", n.line, 5);
    const uint64_t wanted[] = {1, 1, 3, 0, 7}, others[] = {2, 0, 7};
    same_words("pairs of strings", strings, wanted, 5), same_words("pairs of contigs", contigs_, others, 3);
    same("too few words", vcfh_dictionaries(bytes(header), strlen(header), 0, 0, 0, form, table, WORDS, strings, 3, contigs_, 3).number, 36);
}

static void messages(void) {
    same("said", strcmp(vcfh_message(21), "the ID appears twice among the lines of its key"), 0), same("said of none", strcmp(vcfh_message(0), "accepted"), 0);
    for (uint64_t n = 0; n < 44; n++)
        for (uint64_t m = n + 1; m < 45; m++) same("one sentence each", strcmp(vcfh_message(n), vcfh_message(m)) != 0, 1);
    same("past them", strcmp(vcfh_message(44), vcfh_message(UINT64_MAX)), 0);
}

int main(void) {
    told(VCFH_FIRST), told(VCFH_SECOND), messages(), meanings(), ends();
    describing(VCFH_FIRST, VCFH_SECOND), describing(VCFH_SECOND, VCFH_FIRST), describing(0, VCFH_SECOND);
    values(VCFH_FIRST), values(VCFH_SECOND), values(3), finding(VCFH_FIRST), finding(VCFH_SECOND), finding(0);
    registers(VCFH_FIRST), registers(VCFH_SECOND), dictionaries(VCFH_FIRST), dictionaries(VCFH_SECOND);
    versions(), places(), forms(), contigs();
    verdicts(VCFH_FIRST), verdicts(VCFH_SECOND), verdicts(0);
    parts(VCFH_FIRST, VCFH_SECOND), parts(VCFH_SECOND, VCFH_FIRST), parts(0, VCFH_SECOND), parts(3, VCFH_SECOND);
    odd(VCFH_FIRST, VCFH_SECOND), odd(VCFH_SECOND, VCFH_FIRST), odd(0, VCFH_SECOND), odd(3, VCFH_SECOND);
    stored("first form", VCFH_FIRST, firsts), stored("second form", VCFH_SECOND, seconds);
    stored("form 0", 0, firsts), stored("form 3", 3, firsts), stored("form 2^32 + 2", 0x100000002, firsts);
    turning(), fits(), keys();
    indexes(VCFH_FIRST, VCFH_SECOND), indexes(VCFH_SECOND, VCFH_FIRST), indexes(0, VCFH_SECOND), indexes(3, VCFH_SECOND);
    season(VCFH_FIRST), season(VCFH_SECOND);
    long_line(VCFH_FIRST, 2, 1, 2, 2), long_line(VCFH_SECOND, 0, 3, 28, 39);
    many_lines(VCFH_FIRST), many_lines(VCFH_SECOND);
    pieces(VCFH_FIRST), pieces(VCFH_SECOND), feeding();
    same("UTF-8", vcfh_utf8(bytes("\xc3\xa9"), 2), 1);
    same("no UTF-8", vcfh_utf8(bytes("\xc3\xa9"), 1), 0);
    printf("%u passed, %u failed\n", passed, failed);
    return failed != 0;
}
