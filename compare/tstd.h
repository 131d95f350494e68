/*
 * The T-STD buffer replay of ITU-T H.222.0 (2.4.2): one function, which takes numbers and arrays only.
 * Link with target/staticlib/libexports.a, which `sh compare/libraries.sh exports` makes.
 */
#ifndef TSTD_H
#define TSTD_H

#include <stddef.h>
#include <stdint.h>

#ifdef __cplusplus
extern "C" {
#endif

/*
 * The profile: 69 words.
 *   0 PCR PID   1 streams in use   2 system PIDs in use   3 queue depth   4 clock depth
 *   then 8 slots of 6 words, one for each stream:
 *     0 PID   1 Rxn in bit/s   2 kind
 *     kind TSTD_MAIN:   3 BSn in bytes      4, 5 not looked at
 *     kind TSTD_VIDEO:  3 Rbxn in bit/s     4 MBSn in bytes    5 EBSn in bytes
 *   then 16 system PIDs.
 * Words of slots past the counts are not looked at.
 */
#define TSTD_PROFILE_WORDS 69
#define TSTD_STREAMS 5          /* where the slots of the streams begin */
#define TSTD_STREAM_WORDS 6
#define TSTD_MAX_STREAMS 8
#define TSTD_SYSTEM_PIDS 53     /* where the system PIDs begin */
#define TSTD_MAX_SYSTEM_PIDS 16
#define TSTD_MAIN 0
#define TSTD_VIDEO 1

/*
 * The work. What it held before does not enter an answer; numbers 1 to 4 leave it as it was, any other answer leaves
 * zeros in so many first entries and the rest as it was:
 *   times   8 * queue depth * streams + 3 * clock depth
 *   places  2 * clock depth
 */
#define TSTD_TIMES(streams, queue_depth, clock_depth) (8 * (size_t)(queue_depth) * (size_t)(streams) + 3 * (size_t)(clock_depth))
#define TSTD_PLACES(clock_depth) (2 * (size_t)(clock_depth))

/*
 * The row: a record for each stream in the order of the slots, and one more for the system chain if a system PID is in use.
 *   0 PID   1 peak of TBn   2 peak of Bn, MBn or Bsys   3 peak of EBn   4 access units
 *   5 bits of the greatest delay in seconds (the uint64_t with the bits of the double)
 * Peaks are in bytes. The length of the row divided by 6 is the number of records that it holds.
 */
#define TSTD_ROW_WORDS 6
#define TSTD_MAX_CHAINS 9

/*
 * The report: 324 words.
 *   0 events   1 PCR samples   2 bits of the modelled seconds   3 lines in use
 *   then 64 lines of 5 words:
 *     0 kind   1 PID   2 limit in bytes   3 bits of the decode time in seconds
 *     4 figure: bytes as a number, seconds as bits
 * A field that a kind does not have is 0, and so are the words of a line that is not in use.
 */
#define TSTD_REPORT_WORDS 324
#define TSTD_LINES 4            /* where the lines begin */
#define TSTD_LINE_WORDS 5
#define TSTD_MAX_LINES 64

/* Kinds of violation, with what their line has besides the PID. */
#define TSTD_TB_OVERFLOW 0               /* peak bytes */
#define TSTD_TB_BUSY_OVER_ONE_SECOND 1   /* seconds */
#define TSTD_MAIN_OVERFLOW 2             /* limit, peak bytes */
#define TSTD_MAIN_UNDERFLOW 3            /* decode time, missing bytes */
#define TSTD_MB_OVERFLOW 4               /* limit, peak bytes */
#define TSTD_MB_BUSY_OVER_ONE_SECOND 5   /* seconds */
#define TSTD_EB_UNDERFLOW 6              /* decode time, missing bytes */
#define TSTD_DELAY_OVER_ONE_SECOND 7     /* decode time, delay in seconds */
#define TSTD_BSYS_OVERFLOW 8             /* peak bytes; PID 0 */

/* Numbers of an answer. */
#define TSTD_ACCEPTED 0
#define TSTD_OUTSIDE_LIMITS 1             /* a profile of another length, or a field outside its limit */
#define TSTD_WORK_TOO_SHORT 2             /* times, places or row too short, or a report of another length */
#define TSTD_RECORDING_TOO_LONG 3
#define TSTD_NO_PACKET_LAYOUT 4
#define TSTD_TOO_FEW_PCRS 5
#define TSTD_DISCONTINUITY_BEFORE_RATE 6  /* place: the sample */
#define TSTD_REPEATED_PCR 7               /* place: the sample */
#define TSTD_CLOCK_FULL 8                 /* place: the clock depth */
#define TSTD_RATE_OUTSIDE_LIMITS 9        /* place: the sample */
#define TSTD_QUEUE_FULL 10                /* place: the packet; PID: the chain's */

/* The parts of an answer: number + 256 * PID + 2^24 * place. */
#define TSTD_NUMBER(answer) ((unsigned)((answer) & 0xff))
#define TSTD_PID(answer) ((unsigned)(((answer) >> 8) & 0xffff))
#define TSTD_PLACE(answer) ((uint64_t)(answer) >> 24)

/*
 * Replays a recording. Number 0: row and report are written. Any other number: they are as they were.
 *
 * Every array is a pointer and the number of its elements. A pointer is never NULL and is aligned for its elements, also
 * where the number is 0. times, places, row and report are changed, and overlap neither each other nor bytes or profile.
 * Of the arrays' contents and lengths nothing else is asked.
 */
uint64_t tstd_replay(const uint8_t *bytes, size_t bytes_len,
                     const uint64_t *profile, size_t profile_len,
                     double *times, size_t times_len,
                     uint64_t *places, size_t places_len,
                     uint64_t *row, size_t row_len,
                     uint64_t *report, size_t report_len);

#ifdef __cplusplus
}
#endif

#endif
