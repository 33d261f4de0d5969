/* Quadrilhel: settlement routines, their numbered base, and runs of both.
 *
 * Link with libabi.a, which `rt lib` in crates/abi makes in crates/abi/out:
 *
 *     cc -Iinclude program.c -Lcrates/abi/out -labi -o program
 *
 * Routines, bases and relative bases are bytes, eight to a record:
 *
 *     byte 0      the kind
 *     bytes 2-3   x, low byte first
 *     bytes 4-5   y, low byte first
 *     the others  zero
 *
 * Records, reply bytes and the bytes of a text are numbered from 1.
 *
 * A list of names is bytes too, sixteen to an entry: a name of 1 to 16 letters or
 * digits, then zeros. Entry 1 names action 1, and so on to 999. An entry that is
 * not so is allowed and is the name of nothing; of two alike the first counts.
 *
 * Every function takes any bytes whatever. Each pointer is followed by the
 * number of bytes it may use; where that is 0 the pointer is not followed. The
 * buffers of a call must not overlap. Nothing is kept from one call to the next,
 * so calls may be made from several threads at once.
 *
 * No call allocates. The machine stack that each needs at most, in bytes, is
 * measured on the deepest and longest inputs, and a test holds it to that; a
 * thread needs as much and what its own frames take:
 *
 *     qh_check_routine      51,200    qh_list              198,656
 *     qh_check_base          1,024    qh_run_routine        53,248
 *     qh_check_relative      1,024    qh_run_base            3,072
 *     qh_convert            59,392    qh_step_routine       54,272
 *     qh_to_relative         1,024    qh_step_base           3,072
 *     qh_to_absolute         1,024    qh_read_text          16,384
 *                                     qh_write_text         13,312
 *
 * A call that is refused says why by one of the numbers below and writes to no
 * lent buffer.
 */
#ifndef QUADRILHEL_H
#define QUADRILHEL_H

#include <stddef.h>
#include <stdint.h>

#ifdef __cplusplus
extern "C" {
#endif

/* Limits. A buffer of QH_BASE_BYTES has room for every base and relative base,
 * one of QH_LISTING_BYTES for every listing, one of QH_TEXT_BYTES for every text that
 * is written. */
#define QH_ROUTINE_RECORDS 512
#define QH_BASE_RECORDS 4096
#define QH_RECORD_BYTES 8
#define QH_BASE_BYTES (QH_RECORD_BYTES * QH_BASE_RECORDS)
#define QH_LISTING_BYTES (16 + 18 * QH_BASE_RECORDS)
#define QH_STACK_ENTRIES 96
#define QH_NAME_BYTES 16
#define QH_NAMES 999
#define QH_TEXT_BYTES (19 * QH_ROUTINE_RECORDS + 2 * (QH_ROUTINE_RECORDS - 1))

/* Refusals, tried in the order 1, 2; then the lowest record with 3 or 4, 3 first
 * within it; then 5, 14, 6, 7, 11, 8, 9, 10. 12 and 13 are of texts. */
enum qh_refusal {
    QH_ACCEPTED = 0,
    QH_RAGGED = 1,  /* the byte count is no multiple of 8; place 0 */
    QH_LONG = 2,    /* more records than allowed; place 0 */
    QH_KIND = 3,    /* a kind not of this notation, or byte 1, 6 or 7 not zero;
                       place: the record */
    QH_FIELD = 4,   /* x or y outside its range; place: the record */
    QH_NESTING = 5, /* not one body; place: the first separator or end that does
                       not fit, or else the lowest opener never closed */
    QH_SKIP = 6,    /* a plain test directly before a kind that adds places;
                       place: the lowest such test */
    QH_GROWTH = 7,  /* the converted length is above 4,096; place 0 */
    QH_ROOM = 8,    /* a lent buffer is too short; place 0 */
    QH_REPLY = 9,   /* a reply byte not 0 or 1; place: the first such byte */
    QH_STATE = 10,  /* a machine state that is not sound; place 0 */
    QH_FAR = 11,    /* relative to absolute gives a number above 9,999; place: the
                       first such record */
    QH_TEXT = 12,   /* not a text; place: the first byte that no text could have there,
                       one past the end if it stops short */
    QH_NAME = 13,   /* an action's name that is not in the list, or a thousandth label;
                       place: its first byte. Of a routine that is written: the first
                       record whose action has no name in the list. Place 0: the list
                       is no multiple of 16 bytes, or has more than 999 entries */
    QH_LABEL = 14   /* a goto whose target is not there: ##[s] without an [s], or
                       ##[s][t] without a [t] behind the leftmost [s]; place: the
                       lowest such goto */
};

/* Why a run or a step stopped, tried in the order 1, 5, 2, 3, 4. */
enum qh_status {
    QH_ENDED = 1,       /* position 0 */
    QH_NO_REPLY = 2,    /* the next record needs a reply and none is left */
    QH_LOG_FULL = 3,    /* the next record logs and under two bytes are left */
    QH_STACK_FULL = 4,  /* the next record pushes and all 96 entries are in use */
    QH_BUDGET_SPENT = 5 /* as many steps as the budget allows were taken */
};

/* A verdict. */
typedef struct qh_verdict {
    uint32_t refusal; /* an enum qh_refusal; 0 if accepted */
    uint32_t place;   /* where, 0 if accepted or of the whole */
    uint32_t count;   /* records, or bytes of a listing or text; 0 if refused */
} qh_verdict;

/* A machine state. Sound if at is at most the record count, depth at most 96,
 * the first depth entries at most 9,999 and the others 0. A run starts at
 * position 1, or 0 if there are no records, with depth 0 and 96 zeros. */
typedef struct qh_state {
    uint32_t at;    /* the record to be done next; 0 means ended */
    uint32_t depth; /* how many entries are in use */
    uint16_t entries[QH_STACK_ENTRIES];
} qh_state;

/* What a run or a step did. If it was refused: status, steps, replies and actions
 * are 0; a step hands back the state it was given, a run a fresh one (96 zeros,
 * depth 0) at position 0. */
typedef struct qh_ran {
    uint32_t refusal; /* an enum qh_refusal; 0 if accepted */
    uint32_t place;
    uint32_t status;  /* an enum qh_status; 0 if refused */
    qh_state state;   /* where it stopped */
    uint64_t steps;   /* steps taken */
    uint64_t replies; /* replies used */
    uint64_t actions; /* actions logged, two bytes each */
} qh_ran;

/* Checks a routine: refusals 1 to 7 and 14. count: its records. */
qh_verdict qh_check_routine(const uint8_t *bytes, size_t bytes_len);

/* Checks a base: refusals 1 to 4. count: its records. */
qh_verdict qh_check_base(const uint8_t *bytes, size_t bytes_len);

/* Checks a relative base: refusals 1 to 4. count: its records. */
qh_verdict qh_check_relative(const uint8_t *bytes, size_t bytes_len);

/* Converts a routine to its base: refusals 1 to 8 and 14. count: the base's
 * records. The first 8 * count bytes of out are the base, and the rest of out is as
 * it was. All of work is then zero. Each of the two needs 8 * count bytes. */
qh_verdict qh_convert(const uint8_t *routine, size_t routine_len,
                      uint8_t *out, size_t out_len,
                      uint8_t *work, size_t work_len);

/* Translates a base to relative jumps: refusals 1 to 4 and 8. count: records. The
 * first 8 * count bytes of out are the relative base, the rest is as it was. */
qh_verdict qh_to_relative(const uint8_t *base, size_t base_len,
                          uint8_t *out, size_t out_len);

/* Translates a relative base to absolute jumps: refusals 1 to 4, 11 and 8. Fills
 * out as qh_to_relative does. */
qh_verdict qh_to_absolute(const uint8_t *relative, size_t relative_len,
                          uint8_t *out, size_t out_len);

/* Writes the listing of a routine: refusals 1 to 7 and 14, and 8 if text is shorter
 * than the listing. count: the bytes of text written, every line with its line
 * feed; no zero byte is put behind them. */
qh_verdict qh_list(const uint8_t *routine, size_t routine_len,
                   uint8_t *text, size_t text_len);

/* Reads a routine from the text that a desk types: refusals 13 at 0; then 12 and 13,
 * whichever stands first in the text; then 2 and 8. No other: whether the routine
 * is well built is for qh_check_routine. count: records. The first 8 * count bytes
 * of out are the routine, the rest is as it was.
 *
 * Instructions are those of the notation, with names from the list for actions and
 * any 1 to 16 letters or digits for labels, parted by `;`, with bytes 9, 10, 13 and
 * 32 free around them; `!` is ##0. Labels are numbered as they come. */
qh_verdict qh_read_text(const uint8_t *text, size_t text_len,
                        const uint8_t *names, size_t names_len,
                        uint8_t *out, size_t out_len);

/* Writes a routine as text: refusals 1 to 4, 13 at 0, 13 and 8. count: the bytes of
 * text written; the rest is as it was, and no zero byte is put behind them. Label x
 * is written Lx. What qh_read_text made of a text, with a list of different names,
 * is written and, read again, gives the same records. */
qh_verdict qh_write_text(const uint8_t *routine, size_t routine_len,
                         const uint8_t *names, size_t names_len,
                         uint8_t *text, size_t text_len);

/* Runs a routine from its start for at most budget steps: refusals 1 to 7, 14 and
 * 9. Each outside action uses one reply (0 no, 1 yes) and puts its number into the
 * log in two bytes, low first; the rest of the log is as it was. All reply bytes
 * are looked at, used or not. */
qh_ran qh_run_routine(const uint8_t *routine, size_t routine_len,
                      const uint8_t *replies, size_t replies_len,
                      uint8_t *log, size_t log_len,
                      uint64_t budget);

/* Runs a base likewise: refusals 1 to 4 and 9. */
qh_ran qh_run_base(const uint8_t *base, size_t base_len,
                   const uint8_t *replies, size_t replies_len,
                   uint8_t *log, size_t log_len,
                   uint64_t budget);

/* Takes one step of a routine from a given state: refusals 1 to 7, 14, 9 and 10. It
 * is a run with budget 1, so a step that was taken and did not end has status 5.
 * Replies and log count from their first byte in every call. */
qh_ran qh_step_routine(const uint8_t *routine, size_t routine_len,
                       const uint8_t *replies, size_t replies_len,
                       uint8_t *log, size_t log_len,
                       qh_state state);

/* Takes one step of a base likewise: refusals 1 to 4, 9 and 10. */
qh_ran qh_step_base(const uint8_t *base, size_t base_len,
                    const uint8_t *replies, size_t replies_len,
                    uint8_t *log, size_t log_len,
                    qh_state state);

#ifdef __cplusplus
}
#endif

#endif
