/*
 * Pool sheets: GitHub Flavored Markdown tables out of a Markdown text of at most 65,536 bytes.
 * C99 and C++. Link with libpoolsheet.a. No call allocates, keeps what it is lent, or has any state.
 *
 * What every call keeps to:
 *
 * - A list is a pointer and a length, one parameter each. Lengths count elements, not bytes.
 * - No pointer may be null, also where the length is 0. Pointers are aligned for their type.
 * - What a call writes to must not overlap anything else that it is lent.
 * - The call returns 0 (accepted), or the number of the first question that was answered no (refused).
 * - `counts` is written in the order that the call's comment gives. Refused, every count is 0.
 * - A byte order mark (the bytes EF BB BF) at offset 0 is passed over: line 1 then starts at offset 3, in column 1, and no line starts at
 *   offsets 0, 1 and 2. Offsets count from the sheet's first byte, mark included, and so do the 65,536 bytes.
 * - Slots that are lent for an answer are all written: the answer first, then blank records, or zeros. Refused, all are blank.
 *   Edit slots are no such slots.
 */
#ifndef POOLSHEET_H
#define POOLSHEET_H

#include <stddef.h>
#include <stdint.h>
#ifndef __cplusplus
#include <stdbool.h>
#endif

#ifdef __cplusplus
extern "C" {
#endif

/* An event: a part of a table is entered, or left, at a place of the sheet. */
typedef struct poolsheet_event {
    uint8_t kind;    /* enum poolsheet_kind */
    uint8_t name;    /* enum poolsheet_name; 0 in a blank record */
    uint32_t line;   /* from 1 */
    uint32_t column; /* from 1; bytes, a tab runs to the next tab stop */
    uint32_t index;  /* offset in the sheet, in bytes */
    uint8_t vs;      /* place inside a tab; 0 in every event that is read from a sheet */
    uint8_t link;    /* enum poolsheet_link */
} poolsheet_event;

/* The compiler refuses this line if a record is not the 20 bytes that the library takes it for. */
typedef char poolsheet_event_has_20_bytes[sizeof(poolsheet_event) == 20 ? 1 : -1];

enum poolsheet_kind {
    POOLSHEET_BLANK = 0,
    POOLSHEET_ENTER = 1,
    POOLSHEET_EXIT = 2
};

enum poolsheet_link {
    POOLSHEET_LINK_NONE = 0,
    POOLSHEET_LINK_TEXT = 1
};

enum poolsheet_name {
    POOLSHEET_SPACE_OR_TAB = 1,
    POOLSHEET_LINE_ENDING = 2,
    POOLSHEET_DATA = 3,
    POOLSHEET_TABLE = 4,
    POOLSHEET_BODY = 5,
    POOLSHEET_HEAD = 6,
    POOLSHEET_ROW = 7,
    POOLSHEET_CELL = 8,
    POOLSHEET_CELL_TEXT = 9,
    POOLSHEET_CELL_DIVIDER = 10,
    POOLSHEET_DELIMITER_ROW = 11,
    POOLSHEET_DELIMITER_MARKER = 12,
    POOLSHEET_DELIMITER_CELL = 13,
    POOLSHEET_DELIMITER_CELL_VALUE = 14,
    POOLSHEET_DELIMITER_FILLER = 15
};

enum poolsheet_alignment {
    POOLSHEET_ALIGN_UNUSED = 0,
    POOLSHEET_ALIGN_NONE = 1,
    POOLSHEET_ALIGN_LEFT = 2,
    POOLSHEET_ALIGN_RIGHT = 3,
    POOLSHEET_ALIGN_CENTRE = 4
};

/* What a call returns: accepted, or why not. */
enum poolsheet_number {
    POOLSHEET_ACCEPTED = 0,
    POOLSHEET_SHEET_TOO_LONG = 1,
    POOLSHEET_NO_LINE_START = 2,
    POOLSHEET_INDENT_TOO_WIDE = 3,
    POOLSHEET_NO_HEAD_LINE = 4,
    POOLSHEET_LAZY_OR_PIERCED = 5,
    POOLSHEET_NO_DELIMITER_ROW = 6,
    POOLSHEET_COLUMNS_DIFFER = 7,
    POOLSHEET_BLANK_ROW = 8,
    POOLSHEET_TOO_FEW_RAW_SLOTS = 9,
    POOLSHEET_NO_RAW_TABLES = 10,
    POOLSHEET_EDITS_DO_NOT_FIT = 11,
    POOLSHEET_TOO_FEW_RESULT_SLOTS = 12,
    POOLSHEET_NO_TABLE_TO_ALIGN = 13,
    POOLSHEET_TOO_FEW_ALIGNMENT_SLOTS = 14,
    POOLSHEET_NO_KIND_TABLE = 20,
    POOLSHEET_WHITESPACE_KINDS_DIFFER = 21,
    POOLSHEET_PUNCTUATION_KINDS_DIFFER = 22
};

/* The number that a call returned, in words. */
static inline const char *poolsheet_text(uint8_t number) {
    switch (number) {
    case POOLSHEET_ACCEPTED: return "accepted";
    case POOLSHEET_SHEET_TOO_LONG: return "the sheet has more than 65,536 bytes";
    case POOLSHEET_NO_LINE_START: return "no line starts at the offset";
    case POOLSHEET_INDENT_TOO_WIDE: return "the head line is indented too far";
    case POOLSHEET_NO_HEAD_LINE: return "the line is no head line: nothing is in it but whitespace or one divider, or no line end closes it";
    case POOLSHEET_LAZY_OR_PIERCED: return "the line is lazy or pierced";
    case POOLSHEET_NO_DELIMITER_ROW: return "the line under the head line is no delimiter row";
    case POOLSHEET_COLUMNS_DIFFER: return "the delimiter row has another number of columns than the head line";
    case POOLSHEET_BLANK_ROW: return "the line is blank";
    case POOLSHEET_TOO_FEW_RAW_SLOTS: return "more raw slots are needed than were lent";
    case POOLSHEET_NO_RAW_TABLES: return "the list is not made of raw tables";
    case POOLSHEET_EDITS_DO_NOT_FIT: return "the edits overlap, or reach past the list or the pool";
    case POOLSHEET_TOO_FEW_RESULT_SLOTS: return "more result slots are needed than were lent";
    case POOLSHEET_NO_TABLE_TO_ALIGN: return "the event enters no table, or no whole delimiter row follows it";
    case POOLSHEET_TOO_FEW_ALIGNMENT_SLOTS: return "more alignment slots are needed than were lent";
    case POOLSHEET_NO_KIND_TABLE: return "the table of kinds has more or fewer than 256 entries, or a kind above 6";
    case POOLSHEET_WHITESPACE_KINDS_DIFFER: return "the bytes of kind 1 are not tab and space, or those of kind 2 not line feed and carriage return";
    case POOLSHEET_PUNCTUATION_KINDS_DIFFER: return "one of the kinds 3 to 6 has no byte or several, or the byte > has one of them";
    default: return "no such number";
    }
}

/*
 * The kind of each byte, 16 bytes a line: 1 tab and space, 2 line feed and carriage return, 3 the pipe, 4 the backslash, 5 the hyphen,
 * 6 the colon, 0 any other. `poolsheet_sheet` is given this table, or one of the firm's own. Where a firm writes `;` for the pipe, that
 * is a copy in which `;` has the pipe's kind, and the pipe is a byte like any other:
 *
 *     uint8_t kinds[256];
 *     memcpy(kinds, poolsheet_kinds, sizeof kinds);
 *     kinds[';'] = kinds['|'];
 *     kinds['|'] = 0;
 *
 * A table passes if it has 256 entries, none above 6 (20 if not), bytes 9 and 32 and no others have kind 1, bytes 10 and 13 and no others
 * have kind 2 (21), one byte and no other has each of the kinds 3 to 6, and the byte `>` (62) has kind 0 (22).
 *
 * What is said below of pipe, backslash, hyphen and colon holds of the bytes that have their kinds. A byte order mark is passed over, and a
 * remark begins with `>`, whatever the table. `poolsheet_head` and `poolsheet_row` always read with this one.
 */
static const uint8_t poolsheet_kinds[256] = {
    0, 0, 0, 0, 0, 0, 0, 0, 0, 1, 2, 0, 0, 2, 0, 0,
    0, 0, 0, 0, 0, 0, 0, 0, 0, 0, 0, 0, 0, 0, 0, 0,
    1, 0, 0, 0, 0, 0, 0, 0, 0, 0, 0, 0, 0, 5, 0, 0,
    0, 0, 0, 0, 0, 0, 0, 0, 0, 0, 6, 0, 0, 0, 0, 0,
    0, 0, 0, 0, 0, 0, 0, 0, 0, 0, 0, 0, 0, 0, 0, 0,
    0, 0, 0, 0, 0, 0, 0, 0, 0, 0, 0, 0, 4, 0, 0, 0,
    0, 0, 0, 0, 0, 0, 0, 0, 0, 0, 0, 0, 0, 0, 0, 0,
    0, 0, 0, 0, 0, 0, 0, 0, 0, 0, 0, 0, 3, 0, 0, 0,
    0, 0, 0, 0, 0, 0, 0, 0, 0, 0, 0, 0, 0, 0, 0, 0,
    0, 0, 0, 0, 0, 0, 0, 0, 0, 0, 0, 0, 0, 0, 0, 0,
    0, 0, 0, 0, 0, 0, 0, 0, 0, 0, 0, 0, 0, 0, 0, 0,
    0, 0, 0, 0, 0, 0, 0, 0, 0, 0, 0, 0, 0, 0, 0, 0,
    0, 0, 0, 0, 0, 0, 0, 0, 0, 0, 0, 0, 0, 0, 0, 0,
    0, 0, 0, 0, 0, 0, 0, 0, 0, 0, 0, 0, 0, 0, 0, 0,
    0, 0, 0, 0, 0, 0, 0, 0, 0, 0, 0, 0, 0, 0, 0, 0,
    0, 0, 0, 0, 0, 0, 0, 0, 0, 0, 0, 0, 0, 0, 0, 0
};

/* The longest sheet that is read. */
#define POOLSHEET_SHEET_MAX 65536

/*
 * Slots that suffice for any sheet of n bytes. The worst one is a table of one column whose body rows have one byte each.
 *
 * Raw events: a table has 2 for each piece and for each line end between its lines, 2 for each row, 2 for its head. Pieces and line
 * ends are bytes of the table, a body row has at least 2 of them with the line end before it, and head line, line end and delimiter
 * row have at least 4: at most 3b + 2 for b bytes. Behind each table but the last stand at least 2 bytes of no table.
 * Result events: in each row at most as many cells and cell texts come in addition as the row has bytes, and 1 more: with the line
 * end at most 5b for a body row of b bytes, and 5b + 8 for a table.
 * Alignments: a table of c columns has at least c bytes in its head line, a line end, and 2c - 1 in its delimiter row.
 */
#define POOLSHEET_RAW_SLOTS(n) (3 * (size_t)(n) + 2)
#define POOLSHEET_RESULT_SLOTS(n) (5 * (size_t)(n) + 8)
#define POOLSHEET_ALIGNMENT_SLOTS(n) ((size_t)(n) / 3)

/*
 * A whole sheet: the raw events, the result events and the alignments of all its tables, in sheet order.
 *
 * A table ends at a blank line, at a remark, or with the sheet. A remark is a line with at most 3 columns of indent and then `>`; it is
 * no part of any table, whatever `code_indented` says.
 *
 * Reads `sheet`, and `kinds`, the kind of each byte: `poolsheet_kinds` or a firm's own table, which is tested first. With
 * `code_indented`, a line that is indented by 4 columns or more is no head line.
 * Writes `raw`, `results`, `alignments`, one alignment for each column of each table, and `counts`: tables, raw events, result
 * events, alignments.
 * Refuses by 20, 21, 22, 1, 9, 12, 14.
 */
uint8_t poolsheet_sheet(const uint8_t *sheet, size_t sheet_len,
                        const uint8_t *kinds, size_t kinds_len,
                        bool code_indented,
                        poolsheet_event *raw, size_t raw_len,
                        poolsheet_event *results, size_t results_len,
                        uint8_t *alignments, size_t alignments_len,
                        size_t counts[4]);

/*
 * One head: a head line that starts at `offset`, and the delimiter row under it.
 *
 * Reads `sheet`. `lazy` and `pierced` say it of the second line.
 * Writes `raw` and `counts`: raw events, the offset where the delimiter row ends, cells.
 * Refuses by 1, 2, 3, 4, 5, 6, 7, 9.
 */
uint8_t poolsheet_head(const uint8_t *sheet, size_t sheet_len, size_t offset,
                       bool code_indented, bool lazy, bool pierced,
                       poolsheet_event *raw, size_t raw_len,
                       size_t counts[3]);

/*
 * One body row: the line that starts at `offset`.
 *
 * Reads `sheet`. `lazy` says it of the line.
 * Writes `raw` and `counts`: raw events, the offset where the line ends.
 * Refuses by 1, 2, 5, 8, 9.
 */
uint8_t poolsheet_row(const uint8_t *sheet, size_t sheet_len, size_t offset, bool lazy,
                      poolsheet_event *raw, size_t raw_len,
                      size_t counts[2]);

/*
 * The result events of raw tables: table, body, cell and value events are added, and a cell's text is joined.
 *
 * Reads `list`, raw events of whole tables, no blank records behind them. An empty list is accepted.
 * Writes `results` and `counts`: result events.
 * Refuses by 10, 12.
 */
uint8_t poolsheet_resolve(const poolsheet_event *list, size_t list_len,
                          poolsheet_event *results, size_t results_len,
                          size_t counts[1]);

/*
 * A list with edits made.
 *
 * Reads `list` and `pool`. An edit is five numbers of `edits`: the position in the list, the number of records removed there, where
 * the added records start in the pool, their number, and whether they come before earlier additions at that position (0 is no).
 * Numbers behind the last whole five are not looked at.
 * Writes `results` and `counts`: result events. Accepted, `edits` holds the same edits by rising position, those at equal positions in
 * the order given; an edit that removes and adds nothing stands at its position too, also one beyond the list. Refused, it is as it was.
 * The time for n edits grows as n (log n)^2 at most, as n where their positions rise already (lists and edits below 2^32).
 * Refuses by 11, 12.
 */
uint8_t poolsheet_edit(const poolsheet_event *list, size_t list_len,
                       size_t *edits, size_t edits_len,
                       const poolsheet_event *pool, size_t pool_len,
                       poolsheet_event *results, size_t results_len,
                       size_t counts[1]);

/*
 * The alignments of the table that the event at `index` of the list enters.
 *
 * Reads `list`, result events.
 * Writes `alignments` and `counts`: alignments.
 * Refuses by 13, 14.
 */
uint8_t poolsheet_align(const poolsheet_event *list, size_t list_len, size_t index,
                        uint8_t *alignments, size_t alignments_len,
                        size_t counts[1]);

#ifdef __cplusplus
}
#endif

#endif
