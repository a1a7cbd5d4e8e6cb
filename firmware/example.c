/* Loads the job that stands on standard input, runs it with its own budget and prints its sheet. */
#include "pezhkadu.h"
#include <stdio.h>

/* A box has room for one stage; a job is at most 32,768 bytes, and one byte more is read so that a longer one is seen. */
static struct pezhkadu_stage stage;
static uint8_t job[32769];

int main(void)
{
    size_t length = fread(job, 1, sizeof job, stdin);
    uint64_t refused = pezhkadu_load(job, length, stage.header, PEZHKADU_HEADER, stage.records, PEZHKADU_RECORDS,
                                     PEZHKADU_JOB(&stage), PEZHKADU_STATE(&stage));
    if (refused != 0) {
        printf("refused %u\n", (unsigned)refused);
        return 0;
    }
    uint64_t answer[PEZHKADU_ANSWER] = {0, 0};
    refused = pezhkadu_run(stage.records, PEZHKADU_RECORDS, stage.header[PEZHKADU_HEADER_BUDGET], PEZHKADU_JOB(&stage),
                           PEZHKADU_STATE(&stage), answer, PEZHKADU_ANSWER);
    if (refused != 0)
        return 1;
    uint64_t position = PEZHKADU_FIRST_LINE;
    for (;;) {
        uint8_t line[PEZHKADU_LINE];
        uint64_t next[PEZHKADU_NEXT] = {0, PEZHKADU_NO_LINE};
        refused = pezhkadu_sheet_line(stage.header, PEZHKADU_HEADER, stage.records, PEZHKADU_RECORDS,
                                      answer, PEZHKADU_ANSWER, position, stage.job64, PEZHKADU_JOB64,
                                      stage.ends, PEZHKADU_ENTRIES, stage.rests, PEZHKADU_ENTRIES,
                                      line, PEZHKADU_LINE, next, PEZHKADU_NEXT);
        if (refused != 0)
            return 1;
        if (next[0] == 0)
            return 0;
        fwrite(line, 1, (size_t)next[0], stdout);
        position = next[1];
    }
}
