/* The calls of Bailcurlew for C: CHECK, INITIATE, GENERATE and TERMINATE; the feeder, which takes the records in
 * pieces cut anywhere; the report file, two agents' reports in one output; and a printed sheet read back and
 * repaired. docs/ABI.md tells more.
 *
 * Link with target/staticlib/libreport_c.a (-lreport_c); for the calls of the feeder also, or only, with
 * target/staticlib/libfeeder_c.a (-lfeeder_c), for those of the report file with
 * target/staticlib/libreport_file_c.a (-lreport_file_c), for those that read and repair with
 * target/staticlib/libreader_c.a (-lreader_c). No call allocates, keeps a pointer or needs anything checked
 * beforehand: any bytes are taken as description, state, record, feeder, chunk, codes, report file and sheet. What
 * the caller must guarantee:
 *
 * - No pointer is NULL, also where its length is 0; a pointer with length 0 is never read or written through
 *   and may point anywhere else.
 * - `description`, `record`, `chunk`, `output`, `sheet`, `copy` and `list` point to as many bytes as the length beside
 *   them says (`length`, `record_length`, `chunk_length`, `room`, `copy_room`, `list_room`), at most PTRDIFF_MAX;
 *   `state` to BAILCURLEW_STATE bytes, `feeder` to BAILCURLEW_FEEDER, `file` to BAILCURLEW_REPORT_FILE, `codes` to
 *   BAILCURLEW_CODES; `answer` to as many uint64_t as its declaration says, three, four or seven, aligned as such.
 *   They stay valid, and nobody else writes them, until the call returns.
 * - What a call writes (`state`, `feeder`, `file`, `output`, `copy`, `list`, `answer`) overlaps nothing else that it is
 *   lent. `description`, `record`, `chunk`, `codes` and `sheet` are only read and may overlap each other.
 *
 * Length 0 is an answer like any other: an empty description breaks rule 1 (refusal 1, extra number 1); an empty
 * record has not the described length (refusal 5, unless 1 to 4 come first); an empty chunk is refused with 18;
 * without room a call that prints nothing is accepted, and one that prints is refused with 9; an empty sheet is
 * at its end at offset 0, and repaired it is empty. `output`, `copy`, `list` and `answer` need not be set beforehand.
 *
 * Stack: a call needs less than 36 KiB (measured, docs/AUDIT.md).
 */
#ifndef BAILCURLEW_H
#define BAILCURLEW_H

#include <stddef.h>
#include <stdint.h>

#ifdef __cplusplus
extern "C" {
#endif

/* Bytes of a state. Numbers low byte first: page 4 at 0, line 2 at 4, saved 2 at 6, phase 1 at 8 (0 idle,
 * 1 started, 2 running), body-seen flag 1 at 9, eight indicate flags at 10, 32 sums of 8 at 18 (two's
 * complement), kept record 256 at 274. */
#define BAILCURLEW_STATE 530

/* Bytes of a feeder: its state at 0, the detail number 8 at 530, how many bytes of an unfinished record it holds
 * 2 at 538, those bytes at the front of 256 at 540. */
#define BAILCURLEW_FEEDER 796

/* The most bytes of a chunk. */
#define BAILCURLEW_CHUNK 4096

/* Bytes of two codes: two of the first agent, two of the second. */
#define BAILCURLEW_CODES 4

/* Bytes of a report file: the first agent's state at 0, the second's at 530, their codes 2 at 1060 and 2 at 1062, the
 * place 8 at 1064. */
#define BAILCURLEW_REPORT_FILE 1072

/* The agents. Every number but 0 is the second. */
#define BAILCURLEW_FIRST 0
#define BAILCURLEW_SECOND 1

/* Places in an answer. */
#define BAILCURLEW_NUMBER 0 /* 0 accepted, else the refusal's number */
#define BAILCURLEW_EXTRA 1  /* the refusal's extra number, else 0 */
#define BAILCURLEW_COUNT 2  /* bytes written to the output */
#define BAILCURLEW_TAKEN 3  /* bytes taken of the chunk; the feeder's calls only */

/* Places in the answer of bailcurlew_read, behind number and extra number. */
#define BAILCURLEW_READ_KIND 2 /* BAILCURLEW_RECORD, BAILCURLEW_END or BAILCURLEW_REFUSED */
#define BAILCURLEW_READ_PAGE 3 /* of a record, 1 to 999,999; else 0 */
#define BAILCURLEW_READ_LINE 4 /* of a record, 1 to 999; else 0 */
#define BAILCURLEW_READ_TEXT 5 /* the offset in the sheet where the W characters of a record start; else 0 */
#define BAILCURLEW_READ_NEXT 6 /* the offset behind a record, to read at next; else the offset itself */

/* What is read. */
#define BAILCURLEW_RECORD 0
#define BAILCURLEW_END 1
#define BAILCURLEW_REFUSED 2

/* Places in the answer of bailcurlew_repair, behind number and extra number. */
#define BAILCURLEW_COPIED 2 /* bytes written to the copy */
#define BAILCURLEW_LISTED 3 /* bytes written to the list */

/* Bytes of an entry of the list, and its last byte: why the W + 10 bytes at the offset were dropped. */
#define BAILCURLEW_ENTRY 9
#define BAILCURLEW_FORM 1  /* they are no well-formed record, or only the beginning of one */
#define BAILCURLEW_ORDER 2 /* the record comes no later than the last one kept */

/* The refusals. 1 to 9 are tried in this order; 18 before 1, 11 after 1, 10 after 3. 5 is GENERATE's alone, 10 and 18
 * are the feeder's, 11 is the report file's, 12 is for sheets that are read back: repair tries 9 after it. */
enum bailcurlew_refusal {
    BAILCURLEW_ACCEPTED = 0,
    BAILCURLEW_DESCRIPTION = 1, /* the description breaks a rule; extra: the first one, 1 to 9 */
    BAILCURLEW_BAD_STATE = 2,   /* the state breaks its rules; a feeder holds a whole record or more */
    BAILCURLEW_PHASE = 3,       /* INITIATE when not idle; GENERATE, feed or TERMINATE when idle */
    BAILCURLEW_DETAIL = 4,      /* the number names no detail group */
    BAILCURLEW_LENGTH = 5,      /* the record's length is not the described one */
    BAILCURLEW_MALFORMED = 6,   /* a field's bytes are malformed; extra: the first such field, from 0 */
    BAILCURLEW_SUM = 7,         /* an addition would leave the sum range */
    BAILCURLEW_PAGE = 8,        /* a page change would pass page 999,999 */
    BAILCURLEW_ROOM = 9,        /* the output has less room than the call's lines need, or ends before the place; the
                                   copy or the list has less than what goes into it */
    BAILCURLEW_UNFINISHED = 10, /* the feeder's TERMINATE with bytes held; extra: how many */
    BAILCURLEW_BAD_CODES = 11,  /* the codes are equal, or a byte of them is outside 32 to 126 */
    BAILCURLEW_BAD_SHEET = 12,  /* W is outside 1 to 132, extra: 0; or no well-formed record stands at the offset,
                                   extra: the offset */
    BAILCURLEW_BAD_CHUNK = 18   /* a chunk of 0 bytes or of over BAILCURLEW_CHUNK */
};

/* CHECK: 0 where the description is accepted, else the first broken rule, 1 to 9. */
uint32_t bailcurlew_check(const uint8_t *description, size_t length);

/* Writes a fresh state. */
void bailcurlew_fresh(uint8_t state[BAILCURLEW_STATE]);

/* The three calls below answer in `answer`. Accepted, `state` becomes the next state and the first count
 * bytes of `output` are the call's lines; refused, `state` and all of `output` stay as they were. */

/* INITIATE begins a report; it prints nothing. */
void bailcurlew_initiate(const uint8_t *description, size_t length, uint8_t state[BAILCURLEW_STATE],
                         uint64_t answer[3]);

/* GENERATE prints one record as detail number `detail`, counted from 0. */
void bailcurlew_generate(const uint8_t *description, size_t length, uint8_t state[BAILCURLEW_STATE],
                         size_t detail, const uint8_t *record, size_t record_length, uint8_t *output,
                         size_t room, uint64_t answer[3]);

/* TERMINATE ends the report: the footings still due. */
void bailcurlew_terminate(const uint8_t *description, size_t length, uint8_t state[BAILCURLEW_STATE],
                          uint8_t *output, size_t room, uint64_t answer[3]);

/* ---- the feeder: a report whose records come in pieces */

/* Writes a fresh feeder: a fresh state, no bytes held. All its records are detail number `detail`, counted from 0;
 * a number that names none is refused by bailcurlew_feeder_feed. */
void bailcurlew_feeder_fresh(size_t detail, uint8_t feeder[BAILCURLEW_FEEDER]);

/* INITIATE, feed and TERMINATE answer in `answer`, with the bytes taken in its fourth place; only feed takes any.
 * Accepted, `feeder` becomes the next feeder; refused with none taken, it stays as it was. The first count bytes of
 * `output` are the lines printed, all bytes behind them stay as they were. */

/* INITIATE begins a report; it prints nothing, and no bytes are held afterwards. Refusals: 1, 2, 3. */
void bailcurlew_feeder_initiate(const uint8_t *description, size_t length, uint8_t feeder[BAILCURLEW_FEEDER],
                                uint64_t answer[4]);

/* Takes the next 1 to BAILCURLEW_CHUNK bytes: GENERATE of each record that they finish; the bytes of an unfinished
 * one are held. Refusals: 18, 1, 2, 3, 4 at every chunk, which take nothing; then 6, 7, 8, 9 of a record, which stop
 * the chunk in front of it: the records before it stand, with their lines in `output`, and taken counts the bytes
 * of the chunk up to where the refused record begins; where an earlier chunk has begun it that is 0, and its
 * earlier bytes stay held. To go on, feed the rest of the chunk from there, after 9 with an output for the lines
 * still due. */
void bailcurlew_feeder_feed(const uint8_t *description, size_t length, uint8_t feeder[BAILCURLEW_FEEDER],
                            const uint8_t *chunk, size_t chunk_length, uint8_t *output, size_t room,
                            uint64_t answer[4]);

/* Drops the bytes held; all else in the feeder stays. Nothing refuses it. */
void bailcurlew_feeder_discard(uint8_t feeder[BAILCURLEW_FEEDER]);

/* TERMINATE ends the report: the footings still due. Refusals: 1, 2, 3, 10 while bytes are held, 7, 8, 9. */
void bailcurlew_feeder_terminate(const uint8_t *description, size_t length, uint8_t feeder[BAILCURLEW_FEEDER],
                                 uint8_t *output, size_t room, uint64_t answer[4]);

/* ---- the report file: the reports of two agents under one description, printed into one output */

/* Writes a fresh report file: two fresh states, the codes as they are, place 0. Codes that tell no records apart are
 * taken, and refused by the calls below. */
void bailcurlew_report_file_fresh(const uint8_t codes[BAILCURLEW_CODES], uint8_t file[BAILCURLEW_REPORT_FILE]);

/* The three calls below are those of one agent's report, `agent` BAILCURLEW_FIRST or BAILCURLEW_SECOND; the calls of
 * the two may alternate freely. Each printed record has the agent's code in front, W + 12 bytes in all. `output` is
 * the whole common output, the same in each call: the lines go behind those of the calls before, from the place that
 * the report file keeps. Accepted, the count bytes from that place on are the call's lines, the bytes of `output`
 * before and behind them stay as they were, and `file` has the agent's next state and the place behind the lines.
 * Refused, `file` and all of `output` stay as they were. */

/* INITIATE begins the agent's report; it prints nothing and does not look at the place. Refusals: 1, 11, 2, 3. */
void bailcurlew_report_file_initiate(const uint8_t *description, size_t length,
                                     uint8_t file[BAILCURLEW_REPORT_FILE], uint32_t agent, uint64_t answer[3]);

/* GENERATE prints one record of the agent as detail number `detail`, counted from 0. Refusals: 1, 11, then 2 to 9 as
 * for the agent's own report; 9 is for less room behind the place than the lines need, and for a place past the
 * output's end, also where the call prints nothing. */
void bailcurlew_report_file_generate(const uint8_t *description, size_t length,
                                     uint8_t file[BAILCURLEW_REPORT_FILE], uint32_t agent, size_t detail,
                                     const uint8_t *record, size_t record_length, uint8_t *output, size_t room,
                                     uint64_t answer[3]);

/* TERMINATE ends the agent's report: the footings still due. Refusals: 1, 11, 2, 3, 7, 8, 9. */
void bailcurlew_report_file_terminate(const uint8_t *description, size_t length,
                                      uint8_t file[BAILCURLEW_REPORT_FILE], uint32_t agent, uint8_t *output,
                                      size_t room, uint64_t answer[3]);

/* ---- a printed sheet read back, without the codes of a report file
 *
 * The sheet is `length` bytes, its lines have `w` characters. A well-formed record is W + 10 bytes: six digits of page
 * and three of line, each 1 or more, W bytes 32 to 126, byte 10. */

/* What stands at the offset `at`, any number: a well-formed record; the end, where `at` is `length`; or refusal 12, for
 * W first, then for the bytes there. To walk from record to record, begin at 0 and go on at the next offset. */
void bailcurlew_read(const uint8_t *sheet, size_t length, size_t at, size_t w, uint64_t answer[7]);

/* Repairs a sheet: looks at each W + 10 bytes from the start, puts the records that are well-formed and have a later
 * page, or a later line on the same page, than the last one kept to the start of `copy`, one behind the other, and for
 * each other W + 10 bytes, and for a shorter tail, an entry of BAILCURLEW_ENTRY bytes to the start of `list`: 8 bytes of
 * offset, low byte first, then BAILCURLEW_FORM or BAILCURLEW_ORDER. The bytes behind stay as they were. Refusals: 12 for
 * W, then 9 where either has too little room; then all of `copy` and `list` stays as it was. `length` bytes for the copy
 * and `length` + BAILCURLEW_ENTRY for the list always suffice. */
void bailcurlew_repair(const uint8_t *sheet, size_t length, size_t w, uint8_t *copy, size_t copy_room,
                       uint8_t *list, size_t list_room, uint64_t answer[4]);

#ifdef __cplusplus
}
#endif

#endif
