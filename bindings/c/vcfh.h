/* VCF headers, read by proved code. This file and libvcfh.a or libvcfh.so, which bindings/build makes, are all that is needed.
   No pointer may be NULL, even where its length is 0, and nothing that a call writes may overlap what it reads.
   Any bytes, words and numbers may be given.

   Reads a header into a table, and the field K of the line ##cell=<ID=W07,...> into text:

       uint64_t table[4096];
       char text[16];
       vcfh_answer a = vcfh_read(header, length, 0, 0, 0, VCFH_FIRST, table, 4096);
       if (a.number) return fprintf(stderr, "line %lu: %s\n", (unsigned long)a.line, vcfh_message(a.number)), 1;
       vcfh_meant k = vcfh_find_text(header, length, table, VCFH_WORDS(VCFH_FIRST) * a.entries, VCFH_FIRST, a.major, a.minor,
                                     "cell", 4, "W07", 3, "K", 1, text, sizeof text);
       if (k.number == 0) printf("%.*s\n", (int)k.length, text); */
#ifndef VCFH_H
#define VCFH_H
#include <stddef.h>
#include <stdint.h>
#ifdef __cplusplus
extern "C" {
#endif

/* The two forms in which a table's entries can be stored. In the first a header has at most 1,048,575 bytes and a line 65,535, in the
   second both have at most 16,777,215. Name one form when a table is read and whenever it is used; any number but 2 counts as 1. */
#define VCFH_FIRST 1
#define VCFH_SECOND 2

/* How many words of a table an entry takes. */
#define VCFH_WORDS(form) ((form) == VCFH_SECOND ? 3 : 2)

/* The kinds of entries. */
enum {
    VCFH_FILEFORMAT = 1, VCFH_INFO, VCFH_FILTER, VCFH_FORMAT, VCFH_ALT, VCFH_CONTIG, VCFH_OTHER_MAP, VCFH_OTHER_TEXT, VCFH_COLUMNS, VCFH_SAMPLE
};

/* number: 0 if accepted, else why not (vcfh_message says it in words). line: from 1. start: of the line, in bytes.
   Of an accepted header, line and start are the number of lines and of bytes. entries: how many the table holds, of which the last ones
   are its samples. samples, major and minor: how many samples there are, and the version in force, all 0 if refused. */
typedef struct { uint64_t number, line, start, entries, samples; uint32_t major, minor; } vcfh_answer;

/* number, line, start and entries as in an answer, and the length of the house form, 0 if refused. */
typedef struct { uint64_t number, line, start, entries, length; } vcfh_form;

/* The first four as in an answer, and the constants of the wells W01 to W40 in whole hundredths, all 0 if refused. */
typedef struct { uint64_t number, line, start, entries, constants[40]; } vcfh_cells;

/* How many wells differ; then, lowest first, each well's number, 1 to 40, what it had and what it has; 0 past these. */
typedef struct { uint64_t count, wells[40], before[40], after[40]; } vcfh_differences;

/* The first four as in an answer, and how many pairs were written of strings and of contigs, 0 if refused. */
typedef struct { uint64_t number, line, start, entries, strings, contigs; } vcfh_numbers;

/* number, line and start as in an answer, how many contigs were written and in how many bytes, both 0 if refused. */
typedef struct { uint64_t number, line, start, contigs, length; } vcfh_contig_lines;

/* number: 0, or 29 where there is nothing to show. start and length: a part of the header, in bytes. */
typedef struct { uint64_t number, start, length; } vcfh_part;

/* 1 if the bytes are UTF-8, else 0. */
uint64_t vcfh_utf8(const uint8_t *bytes, size_t length);

/* Reads a header into the table, VCFH_WORDS(form) for each entry; each line and each tab of the header gives one entry at most.
   imposed: 0, or else major and minor are the version by which the header is read, whatever its first line says. */
vcfh_answer vcfh_read(const uint8_t *header, size_t length, uint64_t imposed, uint32_t major, uint32_t minor,
                      uint64_t form, uint64_t *table, size_t words);

/* Reads a header so and writes its house form, the one form of all headers with the same meaning; nothing is written if it is
   refused. Twice the header's bytes are never too small an output. */
vcfh_form vcfh_house(const uint8_t *header, size_t length, uint64_t imposed, uint32_t major, uint32_t minor,
                     uint64_t form, uint64_t *table, size_t words, uint8_t *out, size_t space);

/* Reads a header so, and its cell register: each of the wells W01 to W40 has one cell line, whose K is its constant. */
vcfh_cells vcfh_register(const uint8_t *header, size_t length, uint64_t imposed, uint32_t major, uint32_t minor,
                         uint64_t form, uint64_t *table, size_t words);

/* The wells in which the constants of two registers differ. */
vcfh_differences vcfh_compare(vcfh_cells old_ones, vcfh_cells new_ones);

/* Reads a header so and writes the two dictionaries of BCF: FILTER, INFO and FORMAT IDs, and contigs. A pair is the number of the
   entry at which an ID first stands, and the ID's number; PASS is 0 and, where it is not written, not listed. Nothing is written to
   strings and contigs if it is refused. Two words for each line are never too few. */
vcfh_numbers vcfh_dictionaries(const uint8_t *header, size_t length, uint64_t imposed, uint32_t major, uint32_t minor,
                               uint64_t form, uint64_t *table, size_t words, uint64_t *strings, size_t string_words,
                               uint64_t *contigs, size_t contig_words);

/* Writes a contig line in house form, with ID, length, md5 and URL, for each @SQ line of the header of an alignment file, in file order;
   nothing is written if it is refused. Twice the header's bytes and 40 for each of its lines are never too small an output. */
vcfh_contig_lines vcfh_contigs(const uint8_t *sam, size_t length, uint8_t *out, size_t space);

/* Where the header of a whole VCF ends: past its column line, the first line that begins with #CHROM; the length where there is none. */
uint64_t vcfh_header_end(const uint8_t *bytes, size_t length);

/* number: 0, or 29 where there is no such entry or it is not well formed, and then all are 0. The line, or a sample's name, the key after
   the ##, and the ID, without quotes, are parts of the header, in bytes. key_start and key_length are 0 of the column line and of samples;
   has_id is 1, and quoted says with 1 that the ID stands between quotes, in kinds 2 to 7, which have an ID. */
typedef struct {
    uint64_t number, kind, start, length, key_start, key_length, has_id, id_start, id_length, quoted;
} vcfh_described;

/* An entry, from 0, with all that it tells. */
vcfh_described vcfh_describe(const uint8_t *header, size_t length, const uint64_t *table, size_t words, uint64_t form, uint64_t entry);

/* number: 0, or 29 where there is no such entry or field. A field's key, and its value without quotes, as parts of the header; quoted: 1
   if the value stands between quotes. */
typedef struct { uint64_t number, key_start, key_length, start, length, quoted; } vcfh_field_part;

/* A field of an entry, both from 0, by the version given: the one in force when the header was read. */
vcfh_field_part vcfh_field_parts(const uint8_t *header, size_t length, const uint64_t *table, size_t words, uint64_t form,
                                 uint64_t entry, uint32_t major, uint32_t minor, uint64_t field);

/* The same of a value alone. */
typedef struct { uint64_t number, start, length, quoted; } vcfh_value_part;

/* The value of an entry's field with this key. */
vcfh_value_part vcfh_value(const uint8_t *header, size_t length, const uint64_t *table, size_t words, uint64_t form,
                           uint64_t entry, uint32_t major, uint32_t minor, const char *field, size_t field_length);

/* number: 0, or 29 where there is none. */
typedef struct { uint64_t number, entry; } vcfh_under;

/* The first entry of the table under this key, such as cell or INFO, whose ID means this. All entries are walked over, so give the table as
   the words of those that it holds; for many searches in a large header there is vcfh_build_index. */
vcfh_under vcfh_find_entry(const uint8_t *header, size_t length, const uint64_t *table, size_t words, uint64_t form,
                           const char *key, size_t key_length, const char *id, size_t id_length);

/* The value of that entry's field with this key. */
vcfh_value_part vcfh_find_value(const uint8_t *header, size_t length, const uint64_t *table, size_t words, uint64_t form,
                                uint32_t major, uint32_t minor, const char *key, size_t key_length, const char *id, size_t id_length,
                                const char *field, size_t field_length);

/* number: 0, 28 where the output is too small, 29 where there is nothing to write. length: how many bytes were written, 0 if refused. */
typedef struct { uint64_t number, length; } vcfh_meant;

/* What that value means, written into the output without quotes and escapes, and without a zero at its end. */
vcfh_meant vcfh_find_text(const uint8_t *header, size_t length, const uint64_t *table, size_t words, uint64_t form,
                          uint32_t major, uint32_t minor, const char *key, size_t key_length, const char *id, size_t id_length,
                          const char *field, size_t field_length, char *out, size_t space);

/* What an ID or a value means, as the calls above show it and say whether it stands between quotes: there a backslash before a quote or a
   backslash is dropped. Written into the output, for which the text's own length is never too small; or held against bytes: 1 if it means
   these, else 0. */
vcfh_meant vcfh_meaning(const uint8_t *text, size_t length, uint64_t quoted, char *out, size_t space);
uint64_t vcfh_means(const uint8_t *text, size_t length, uint64_t quoted, const char *meaning, size_t meaning_length);

/* The line of an entry, from 0, or a sample's name; its ID, without quotes. */
vcfh_part vcfh_entry(const uint8_t *header, size_t length, const uint64_t *table, size_t words, uint64_t form, uint64_t entry);
vcfh_part vcfh_id(const uint8_t *header, size_t length, const uint64_t *table, size_t words, uint64_t form, uint64_t entry);

/* A field of an entry, from 0, key through value with its quotes, by the version given. */
vcfh_part vcfh_field(const uint8_t *header, size_t length, const uint64_t *table, size_t words, uint64_t form,
                     uint64_t entry, uint32_t major, uint32_t minor, uint64_t field);

/* number: 0, or 29 where there is no key to show: in the first form, and of the column line and samples. start and length: the key, as a
   part of the header, in bytes. fields: how many the record has, 0 for fileformat and other texts. */
typedef struct { uint64_t number, start, length, fields; } vcfh_key_part;

/* The key of an entry, after its ##, and the number of its fields, which the second form has beside the entry; the line is not read. */
vcfh_key_part vcfh_key(const uint8_t *header, size_t length, const uint64_t *table, size_t words, uint64_t form, uint64_t entry);

/* number: 0, 29 where an entry is not well formed or its line, read alone, is not what the entry says, 31 where the list is too short.
   listed: how many entries were listed, 0 if refused. */
typedef struct { uint64_t number, listed; } vcfh_listed;

/* The numbers of the entries that carry a Number, IDX or length with a sign or a leading zero, such as +5 or 007, in table order, by the
   version given. Nothing is written if it is refused; one word for each entry is never too few. */
vcfh_listed vcfh_odd(const uint8_t *header, size_t length, const uint64_t *table, size_t words, uint64_t form,
                     uint32_t major, uint32_t minor, uint64_t *list, size_t list_words);

/* number: 0, 29 where an entry is not well formed in this header or, to the second form, its line is not what the entry says, 32 where one does not fit the first form, 24 where the table that is
   written has no room. entries: how many were turned, 0 if refused. */
typedef struct { uint64_t number, entries; } vcfh_turned;

/* Turn a table of one form into one of the other. Every entry of the table that is read is turned, so give it as VCFH_WORDS of its form
   for each entry that it holds. The second form has the key's length and the number of fields too, so to_second reads the lines again,
   by the version given: the one in force when the header was read. An entry fits the first form if its start is below 1,048,576 and its length below 65,536. Both tables stay as
   they were if it is refused. */
vcfh_turned vcfh_to_second(const uint8_t *header, size_t length, const uint64_t *first, size_t first_words,
                           uint32_t major, uint32_t minor, uint64_t *second, size_t second_words);
vcfh_turned vcfh_to_first(const uint8_t *header, size_t length, const uint64_t *second, size_t second_words,
                          uint64_t *first, size_t first_words);

/* The first four as in an answer; house: 1 if the header is its own house form, else 0; differs: of an accepted one that is not, the first place where the
   two differ, or the shorter one's length, else 0. */
typedef struct { uint64_t number, line, start, entries, house, differs; } vcfh_verdict;

/* Reads a header so and says whether it is in house form, without writing that form. number is that of the reading, or 27 or 2 where
   the form is longer than a header or a line may be. */
vcfh_verdict vcfh_is_house(const uint8_t *header, size_t length, uint64_t imposed, uint32_t major, uint32_t minor,
                           uint64_t form, uint64_t *table, size_t words);

/* The sheet of a season: 39 totals over the headers that were added to it, all 0 where there are none. */
typedef struct { uint64_t totals[39]; } vcfh_sheet;

/* Which total is which: headers read, accepted, refused by number n (1 to 27), and entries of kind k (1 to 10) in accepted headers. */
#define VCFH_SEASON_READ 0
#define VCFH_SEASON_ACCEPTED 1
#define VCFH_SEASON_REFUSED(n) (1 + (n))
#define VCFH_SEASON_ENTRIES(k) (28 + (k))

/* The first four as in an answer, or number 30 where a total would be larger than 18446744073709551615; and the sheet after it, as it was where that is 30. */
typedef struct { uint64_t number, line, start, entries; vcfh_sheet sheet; } vcfh_added;

/* number: 0, or 30. sheet: the first one as it was where that is 30. */
typedef struct { uint64_t number; vcfh_sheet sheet; } vcfh_merged;

/* Reads a header into the table as vcfh_read does, and adds it to the sheet, whether it is accepted or refused. The totals are the same in
   whatever order headers are added. */
vcfh_added vcfh_season_add(const uint8_t *header, size_t length, uint64_t imposed, uint32_t major, uint32_t minor,
                           uint64_t form, uint64_t *table, size_t words, vcfh_sheet sheet);

/* The sheet of all headers of two sheets. */
vcfh_merged vcfh_season_merge(vcfh_sheet sheet, vcfh_sheet other);

/* A header that comes in pieces. Begin with vcfh_feed_start, hand each piece to vcfh_feed with the state that the call before handed back,
   and end with vcfh_close. The buffer is the caller's and holds the header so far, from its first byte on: hand the same one, or a larger
   copy of it, and the same table, or a larger copy, to each call. A line is read when its LF is there, the last one at the close; however
   a header is cut, the last answer and the table are those of vcfh_read of it whole.

   vcfh_feed answers 0 with the lines, bytes and entries so far, or as vcfh_read does as soon as a line is refused, and 27 where the piece
   does not fit whole into the buffer and the form's limit, of which nothing is taken then. vcfh_close answers as vcfh_read does. After a
   refusal or a close every call answers the same again and changes nothing. Each call looks at all entries kept so far first, so send
   pieces of some kilobytes; 29 where one of them is not well formed, or a number of the state cannot be so, and then nothing changes.

   The state may be copied and stored; its numbers are the version imposed, the phase (0 before the fileformat line, 1 after it, 2 after
   the column line) with the version in force and the number of samples, the bytes held, where the next line begins, the lines read and the
   entries kept; over is 0 until the last answer, which the four numbers after it are. */
typedef struct {
    uint64_t imposed; uint32_t imposed_major, imposed_minor;
    uint64_t phase; uint32_t major, minor; uint64_t samples;
    uint64_t held, at, lines, kept;
    uint64_t over, number, line, start, entries;
} vcfh_feeding;

typedef struct { uint64_t number, line, start, entries; vcfh_feeding state; } vcfh_fed;

vcfh_feeding vcfh_feed_start(uint64_t imposed, uint32_t major, uint32_t minor);
vcfh_fed vcfh_feed(vcfh_feeding state, const uint8_t *piece, size_t length, uint64_t form, uint8_t *buffer, size_t space,
                   uint64_t *table, size_t words);
vcfh_fed vcfh_close(vcfh_feeding state, uint64_t form, const uint8_t *buffer, size_t space, uint64_t *table, size_t words);

/* What a refusal's number says, in words; of 0, and of a number that no refusal has, "accepted" or "no refusal has this number". */
static inline const char *vcfh_message(uint64_t number) {
    switch (number) {
    case 0: return "accepted";
    /* bindings/messages begins */
    case 1: return "a line follows the column line";
    case 2: return "the line is longer than 65,535 bytes, or than 16,777,215 in the second form";
    case 3: return "the line is not UTF-8";
    case 4: return "the first line is a record, but not the fileformat line";
    case 5: return "there is a second fileformat line";
    case 6: return "the line does not begin with ##, has no =, or has nothing between them";
    case 7: return "the fileformat value is not VCFv, digits, a point and digits";
    case 8: return "the value is not a whole map: < or > is missing, or something else follows a value or the >";
    case 9: return "a field has a bad key or value, or is missing after a comma or in a META or PEDIGREE line";
    case 10: return "a field appears twice in the map, or the map has two IDs";
    case 11: return "the Number is neither a count nor one of the letters allowed here";
    case 12: return "the Type is not one of those allowed here";
    case 13: return "the IDX or length is not a number of at most 18446744073709551615";
    case 14: return "the ID is missing";
    case 15: return "the Number is missing";
    case 16: return "the Type is missing";
    case 17: return "the Description is missing";
    case 18: return "a reserved ID is declared with a Number or Type that is not the specification's";
    case 19: return "the ID appears twice among the lines of its kind";
    case 20: return "the key has text in one line and a map in another";
    case 21: return "the ID appears twice among the lines of its key";
    case 22: return "a column is wrong or missing";
    case 23: return "a sample name appears twice";
    case 24: return "the table has no room for the entries";
    case 25: return "the input is empty";
    case 26: return "the column line is missing";
    case 27: return "the header is longer than 1,048,575 bytes, or than 16,777,215 in the second form";
    case 28: return "the house form, the contig lines or the text is longer than the output";
    case 29: return "there is no such entry, ID or field, or an entry is not well formed";
    case 30: return "a total of the sheet would be larger than 18446744073709551615";
    case 31: return "more entries are to be listed than the list has room for";
    case 32: return "an entry does not fit the first form";
    case 33: return "an index has fewer places than there are entries to index";
    case 34: return "some lines of a dictionary have an IDX and others have none";
    case 35: return "one ID has two numbers, or two IDs have one number";
    case 36: return "a dictionary has more pairs than its slice has room for";
    case 37: return "a cell register needs version 4.3 or later";
    case 38: return "the ID of the cell line is none of W01 to W40";
    case 39: return "one of the wells W01 to W40 has no cell line";
    case 40: return "the cell line has no K, or its K is not a number such as 0.98, from 0.50 through 2.00";
    case 41: return "a tag is not a letter, a letter or digit, a colon and a value, or it appears twice";
    case 42: return "the @SQ line has no SN, or no LN from 1 to 2147483647";
    case 43: return "the SN appears twice among the @SQ lines";
    /* bindings/messages ends */
    default: return "no refusal has this number";
    }
}

/* number: 0, 29 where an entry is not well formed, 33 where an index has fewer places than there are entries to index.
   placed: how many entries were placed, 0 if refused. */
typedef struct { uint64_t number, placed; } vcfh_indexed;

/* Clears an index and places every INFO, FILTER, FORMAT, ALT and contig entry of the table there, in table order. Give the table as the
   words of the entries that it holds; twice as many places as entries keep searches short. The index stays if it is refused. */
vcfh_indexed vcfh_build_index(const uint8_t *header, size_t length, const uint64_t *table, size_t words, uint64_t form,
                              uint32_t *index, size_t places);

/* found: 1, and entry is its number; or 0. looked: how many places of the index were looked at. */
typedef struct { uint64_t found, entry, looked; } vcfh_found;

/* Looks for an entry of this kind (2 to 6) whose ID has these bytes, unescaped. In an index that was built from this
   header and this table it is found exactly where the table has one, and it is the first. */
vcfh_found vcfh_find(const uint8_t *header, size_t length, const uint64_t *table, size_t words, uint64_t form,
                     const uint32_t *index, size_t places, uint64_t kind, const char *id, size_t id_length);

#ifdef __cplusplus
}
#endif
#endif
