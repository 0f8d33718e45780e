/* Appends our library's answers to the lines of the comparison: a filter between `compare generate` and compare.py, for a machine
   whose processor is not the library's. cc -O2 -I bindings/c compare/library.c target/bindings/libvcfh.a */
#include <stdio.h>
#include <stdlib.h>
#include <string.h>
#include "vcfh.h"

static uint8_t header[1 << 21], form[1 << 23];
static uint64_t table[1 << 22];

static int hex(int c) { return c <= '9' ? c - '0' : (c | 32) - 'a' + 10; }

/* The bytes that a text of the comparison stands for: a backslash before n, r, t, another backslash or x and two digits. */
static size_t unescape(const char *s, uint8_t *out) {
    size_t n = 0;
    while (*s && *s != '\t') {
        int c = (unsigned char)*s++;
        if (c == '\\') {
            c = *s++;
            if (c == 'x') c = hex(s[0]) * 16 + hex(s[1]), s += 2;
            else c = c == 'n' ? '\n' : c == 'r' ? '\r' : c == 't' ? '\t' : c;
        }
        out[n++] = (uint8_t)c;
    }
    return n;
}

static void escape(const uint8_t *s, size_t n) {
    for (size_t i = 0; i < n; i++) {
        if (s[i] == '\\') fputs("\\\\", stdout);
        else if (s[i] == '\n') fputs("\\n", stdout);
        else if (s[i] == '\r') fputs("\\r", stdout);
        else if (s[i] == '\t') fputs("\\t", stdout);
        else if (s[i] >= 32 && s[i] <= 126) putchar(s[i]);
        else printf("\\x%02x", s[i]);
    }
}

int main(void) {
    char *line = NULL;
    size_t size = 0;
    for (ssize_t n; (n = getline(&line, &size, stdin)) > 0;) {
        if (line[n - 1] == '\n') line[--n] = 0;
        const char *version = strchr(line, '\t');
        if (version == NULL) {
            puts(line);
            continue;
        }
        unsigned major = 0, minor = 0;
        uint64_t imposed = sscanf(version + 1, "%u.%u", &major, &minor) == 2;
        size_t length = unescape(line, header);
        size_t room = 2 * length + 2, output = 4 * length + 1024;
        vcfh_answer a = vcfh_read(header, length, imposed, major, minor, VCFH_FIRST, table, room);
        vcfh_form f = vcfh_house(header, length, imposed, major, minor, VCFH_FIRST, table, room, form, output);
        printf("%s\t%lu\t%lu\t%lu\t%lu\t%lu\t", line, (unsigned long)a.number, (unsigned long)a.line, (unsigned long)a.start,
               (unsigned long)a.entries, (unsigned long)f.number);
        escape(form, f.length);
        putchar('\n');
    }
    free(line);
}
