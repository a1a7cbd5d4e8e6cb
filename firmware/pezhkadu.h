/* The register stage as a static library: `rt lib` in crates/pezhkadu_c writes crates/pezhkadu_c/out/libpezhkadu_c.a,
 * and firmware/test copies it to target/staticlib/libpezhkadu.a.
 *
 * Every function is proved to meet its contract in crates/pezhkadu_c/src. What is proved says nothing of a caller in C,
 * who answers for this alone: each pointer points to as many numbers as the length after it says (never null, even
 * where the length is 0, and aligned for its type), no two slices of one call overlap, and nothing else reads or
 * writes them during the call. A slice that is too short is refused with 15; a longer one keeps its tail.
 *
 * No function allocates, and none keeps a pointer. A refusal is its number in document 01, and changes nothing; 0
 * says that the call was carried out.
 */
#ifndef PEZHKADU_H
#define PEZHKADU_H

#include <stddef.h>
#include <stdint.h>

#ifdef __cplusplus
extern "C" {
#endif

/* How many numbers each slice must have. */
#define PEZHKADU_HEADER 8
#define PEZHKADU_RECORDS 512
#define PEZHKADU_JOB64 576
#define PEZHKADU_JOB32 1536
#define PEZHKADU_JOB16 2067
#define PEZHKADU_JOB8 2560
#define PEZHKADU_WEIGHTS 1536
#define PEZHKADU_ENTRIES 2560
#define PEZHKADU_QUEUE 1024
#define PEZHKADU_LAST 512
#define PEZHKADU_ANSWER 2
#define PEZHKADU_LINE 256
#define PEZHKADU_NEXT 2

/* The words of a header: counts, the budget that the job asks for, and its probe range. */
#define PEZHKADU_HEADER_REGS 0
#define PEZHKADU_HEADER_CLASSES 1
#define PEZHKADU_HEADER_VIRT_REGS 2
#define PEZHKADU_HEADER_BUDGET 3
#define PEZHKADU_HEADER_HAS_PROBE 4
#define PEZHKADU_HEADER_PROBE_FROM 5
#define PEZHKADU_HEADER_PROBE_TO 6

/* How a run ended: the first word of its answer. The second is how many dequeues it made. */
#define PEZHKADU_DONE 1
#define PEZHKADU_SPENT 2
#define PEZHKADU_TOOMANY 3

/* What pezhkadu_standing answers: waiting, left over, or PEZHKADU_IN and the register's number. */
#define PEZHKADU_WAITS 0
#define PEZHKADU_LEFT 1
#define PEZHKADU_IN 256

/* Positions in the printed sheet: before its first line, and after its last. */
#define PEZHKADU_FIRST_LINE UINT64_C(0)
#define PEZHKADU_NO_LINE UINT64_MAX

/* The slices of one stage, each of the size that it needs: 77,416 bytes in all. */
struct pezhkadu_stage {
    uint64_t header[PEZHKADU_HEADER];
    uint64_t records[PEZHKADU_RECORDS];
    /* the job, its numbers together by size: job64 has the registers' maps of units and, from 64, the fixed uses; job32
     * the segments' froms and, from 512, tos, and from 1,024 the sizes; job16 where each class begins and, from 17, the
     * sets, from 529 the segments' values, from 1,041 and 1,554 where each one's hints and segments begin; job8 the
     * classes' registers and, from 1,024, each one's class, from 1,536 the hinted registers; weights the spill weights
     * and, from 512, those of the hints */
    uint64_t job64[PEZHKADU_JOB64];
    uint32_t job32[PEZHKADU_JOB32];
    uint16_t job16[PEZHKADU_JOB16];
    uint8_t job8[PEZHKADU_JOB8];
    float weights[PEZHKADU_WEIGHTS];
    /* what calls change beside the records: the table, the queue, the register last given to each set */
    uint64_t ends[PEZHKADU_ENTRIES];
    uint64_t rests[PEZHKADU_ENTRIES];
    uint64_t queue[PEZHKADU_QUEUE];
    uint8_t last[PEZHKADU_LAST];
};

/* The slices of a job, of a state, as parameters and, of a stage's address, as arguments. */
#define PEZHKADU_JOB_PARAMETERS(constant) \
    constant uint64_t *job64, size_t job64_len, constant uint32_t *job32, size_t job32_len, \
    constant uint16_t *job16, size_t job16_len, constant uint8_t *job8, size_t job8_len, \
    constant float *weights, size_t weights_len

#define PEZHKADU_JOB(s) \
    (s)->job64, PEZHKADU_JOB64, (s)->job32, PEZHKADU_JOB32, (s)->job16, PEZHKADU_JOB16, (s)->job8, PEZHKADU_JOB8, \
    (s)->weights, PEZHKADU_WEIGHTS

#define PEZHKADU_STATE(s) \
    (s)->ends, PEZHKADU_ENTRIES, (s)->rests, PEZHKADU_ENTRIES, (s)->queue, PEZHKADU_QUEUE, (s)->last, PEZHKADU_LAST

/* Loads the job of these bytes: tests 15, the job's length (4), its fields in byte order, then 2, 10, 11, 12. Loaded,
 * all its virtual registers wait. */
uint64_t pezhkadu_load(const uint8_t *bytes, size_t bytes_len, uint64_t *header, size_t header_len,
                       uint64_t *records, size_t records_len, PEZHKADU_JOB_PARAMETERS(),
                       uint64_t *ends, size_t ends_len, uint64_t *rests, size_t rests_len,
                       uint64_t *queue, size_t queue_len, uint8_t *last, size_t last_len);

/* Runs with a budget of so many dequeues (the job's own is header[PEZHKADU_HEADER_BUDGET]). The answer takes how the run
 * ended and how many dequeues it made. Refused with 15 alone. */
uint64_t pezhkadu_run(uint64_t *records, size_t records_len, uint64_t budget, PEZHKADU_JOB_PARAMETERS(const),
                      uint64_t *ends, size_t ends_len, uint64_t *rests, size_t rests_len,
                      uint64_t *queue, size_t queue_len, uint8_t *last, size_t last_len,
                      uint64_t *answer, size_t answer_len);

/* Places the virtual register v in a register, with the weight of these binary32 bits. Refused with 15, 8, 9, 13, 14. */
uint64_t pezhkadu_assign(const uint64_t *header, size_t header_len, uint64_t *records, size_t records_len,
                         uint64_t v, uint64_t reg, uint64_t weight, PEZHKADU_JOB_PARAMETERS(const),
                         uint64_t *ends, size_t ends_len, uint64_t *rests, size_t rests_len,
                         uint64_t *queue, size_t queue_len, uint8_t *last, size_t last_len);

/* Evicts the virtual register v, and stores the register that it held in the answer's first word (one word is enough).
 * Refused with 15, 8, 13. */
uint64_t pezhkadu_evict(const uint64_t *header, size_t header_len, uint64_t *records, size_t records_len,
                        uint64_t v, PEZHKADU_JOB_PARAMETERS(const),
                        uint64_t *ends, size_t ends_len, uint64_t *rests, size_t rests_len,
                        uint64_t *queue, size_t queue_len, const uint8_t *last, size_t last_len,
                        uint64_t *answer, size_t answer_len);

/* How the virtual register v stands: PEZHKADU_WAITS, PEZHKADU_LEFT, or PEZHKADU_IN and its register; or 15, or 8 where
 * there is no such virtual register. */
uint64_t pezhkadu_standing(const uint64_t *header, size_t header_len, const uint64_t *records, size_t records_len,
                           uint64_t v);

/* Stores the line of the sheet at this position in `line`, with its end of line and no 0 behind it, and in `next` its
 * length and the position after it. Past the last line it stores the length 0 and PEZHKADU_NO_LINE. `answer` is what
 * the run answered. Refused with 15. */
uint64_t pezhkadu_sheet_line(const uint64_t *header, size_t header_len, const uint64_t *records, size_t records_len,
                             const uint64_t *answer, size_t answer_len, uint64_t position,
                             const uint64_t *job64, size_t job64_len, const uint64_t *ends, size_t ends_len,
                             const uint64_t *rests, size_t rests_len,
                             uint8_t *line, size_t line_len, uint64_t *next, size_t next_len);

#ifdef __cplusplus
}
#endif

#endif
