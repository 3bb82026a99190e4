/*
 * column FILE NAME: the cells of the column NAME, of each table of a Markdown file that has a head cell with that text.
 *
 * Each body row gives one line: the text of its cell in that column, empty where the cell is empty or missing. Where two head cells
 * of a table have the text, the first counts. The exit status is 0 if a table has the column, 1 if none has, or if the file cannot be
 * read or is refused, 2 if the program is called wrongly.
 */
#include "poolsheet.h"

#include <stdio.h>
#include <stdlib.h>
#include <string.h>

/* A part of the sheet. */
struct text {
    const uint8_t *start;
    size_t length;
};

/* Where the walk over the events is. `column` is the place of the column in this table, or NO_COLUMN. */
struct walk {
    bool in_head;
    bool printed;
    bool found;
    size_t column;
    size_t cell;
    struct text text;
};

#define NO_COLUMN SIZE_MAX

/* A line of output. */
static void print_text(struct text text) {
    fwrite(text.start, 1, text.length, stdout);
    putchar('\n');
}

/* The end of a cell: a head cell may be the column's, a body cell is printed if it is in the column. */
static void leave_cell(struct walk *w, const char *name) {
    if (w->in_head) {
        bool same = w->text.length == strlen(name) && memcmp(w->text.start, name, w->text.length) == 0;
        if (same && w->column == NO_COLUMN) {
            w->column = w->cell;
            w->found = true;
        }
    } else if (w->cell == w->column) {
        print_text(w->text);
        w->printed = true;
    }
    w->cell++;
}

/* Something is entered. */
static void enter(struct walk *w, const poolsheet_event *e, const uint8_t *sheet) {
    switch (e->name) {
    case POOLSHEET_TABLE: w->column = NO_COLUMN; break;
    case POOLSHEET_HEAD: w->in_head = true; break;
    case POOLSHEET_ROW:
        w->cell = 0;
        w->printed = false;
        break;
    case POOLSHEET_CELL:
    case POOLSHEET_CELL_TEXT:
        w->text.start = sheet + e->index;
        w->text.length = 0;
        break;
    default: break;
    }
}

/* Something is left. */
static void leave(struct walk *w, const poolsheet_event *e, const uint8_t *sheet, const char *name) {
    switch (e->name) {
    case POOLSHEET_HEAD: w->in_head = false; break;
    case POOLSHEET_CELL_TEXT: w->text.length = (size_t)(sheet + e->index - w->text.start); break;
    case POOLSHEET_CELL: leave_cell(w, name); break;
    case POOLSHEET_ROW:
        if (!w->in_head && w->column != NO_COLUMN && !w->printed) putchar('\n');
        break;
    default: break;
    }
}

/* Prints the column, and says whether a table has it. */
static bool print_column(const poolsheet_event *events, size_t count, const uint8_t *sheet, const char *name) {
    struct walk w = {false, false, false, NO_COLUMN, 0, {sheet, 0}};
    for (size_t i = 0; i < count; i++) {
        if (events[i].kind == POOLSHEET_ENTER) {
            enter(&w, &events[i], sheet);
        } else {
            leave(&w, &events[i], sheet, name);
        }
    }
    return w.found;
}

/* The file's first bytes, at most one more than a sheet may have; -1 if it cannot be read. */
static long read_file(const char *path, uint8_t *bytes) {
    FILE *file = fopen(path, "rb");
    if (file == NULL) return -1;
    size_t length = fread(bytes, 1, POOLSHEET_SHEET_MAX + 1, file);
    bool failed = ferror(file) != 0;
    fclose(file);
    return failed ? -1 : (long)length;
}

/* Reads the sheet into slots of its own, and prints the column. */
static int column(const uint8_t *sheet, size_t length, const char *path, const char *name) {
    size_t n = length < POOLSHEET_SHEET_MAX ? length : POOLSHEET_SHEET_MAX;
    size_t raw_slots = POOLSHEET_RAW_SLOTS(n), result_slots = POOLSHEET_RESULT_SLOTS(n), alignment_slots = POOLSHEET_ALIGNMENT_SLOTS(n) + 1;
    poolsheet_event *raw = malloc(raw_slots * sizeof *raw), *results = malloc(result_slots * sizeof *results);
    uint8_t *alignments = malloc(alignment_slots);
    int status = EXIT_FAILURE;
    if (raw == NULL || results == NULL || alignments == NULL) {
        fprintf(stderr, "column: no memory\n");
    } else {
        size_t counts[4];
        uint8_t number =
            poolsheet_sheet(sheet, length, poolsheet_kinds, sizeof poolsheet_kinds, true, raw, raw_slots, results,
                            result_slots, alignments, alignment_slots, counts);
        if (number != POOLSHEET_ACCEPTED) {
            fprintf(stderr, "column: %s: refused by %d: %s\n", path, number, poolsheet_text(number));
        } else if (!print_column(results, counts[2], sheet, name)) {
            fprintf(stderr, "column: %s: no table has a column %s\n", path, name);
        } else {
            status = EXIT_SUCCESS;
        }
    }
    free(raw);
    free(results);
    free(alignments);
    return status;
}

int main(int argc, char **argv) {
    static uint8_t sheet[POOLSHEET_SHEET_MAX + 1];
    if (argc != 3) {
        fprintf(stderr, "usage: column FILE NAME\n");
        return 2;
    }
    long length = read_file(argv[1], sheet);
    if (length < 0) {
        fprintf(stderr, "column: %s cannot be read\n", argv[1]);
        return EXIT_FAILURE;
    }
    int status = column(sheet, (size_t)length, argv[1], argv[2]);
    if (fflush(stdout) != 0 || ferror(stdout)) {
        fprintf(stderr, "column: standard output cannot be written\n");
        return EXIT_FAILURE;
    }
    return status;
}
