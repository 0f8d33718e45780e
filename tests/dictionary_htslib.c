/* Prints htslib's numbers: a header on standard input, and for each argument, sID or cID, the number of that string or contig, -1 if it has none. */
#include <htslib/vcf.h>
#include <stdio.h>
#include <stdlib.h>

int main(int argc, char **argv) {
    static char text[1 << 21];
    hts_set_log_level(HTS_LOG_OFF);
    text[fread(text, 1, sizeof text - 1, stdin)] = 0;
    bcf_hdr_t *header = bcf_hdr_init("r");
    if (!header || bcf_hdr_parse(header, text) != 0) {
        puts("refused");
        return 0;
    }
    for (int k = 1; k < argc; k++)
        printf("%d\n", bcf_hdr_id2int(header, argv[k][0] == 's' ? BCF_DT_ID : BCF_DT_CTG, argv[k] + 1));
    return 0;
}
