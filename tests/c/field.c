/*
 * A controller in the field: plans a map, starts a session from the plan, and reports to it that processors fail and recover. Before each report
 * it previews it, on the session and on a copy in memory that cannot be written to. After the report it compares both previews with what the
 * report did, and the session with one that is started afresh from the same map and directions.
 *
 *     field [FILE REPORT...]
 *
 * FILE is a map. A report is a sign, a row, a comma and a column: -2,5 for a processor that fails, +2,5 for one that recovers. Without arguments
 * it has a map and reports of its own. The exit status is 0 where all reports are made, accepted or refused, 1 where the map is refused or has
 * no plan, 2 where the file or a report cannot be read or there is no memory to protect, 3 where an answer is not what chantspruce.h promises.
 */
#define _DEFAULT_SOURCE
#include <chantspruce.h>
#include <stdio.h>
#include <string.h>
#include <sys/mman.h>

enum { B = CHANTSPRUCE_BUFFER };
enum { DONE = 0, NO_PLAN = 1, NOT_READ = 2, BROKEN = 3 };

typedef struct report {
    bool failing;
    size_t row, column;
} report;

static const char *const directions_in_words[] = {"no path", "south", "north", "east", "west"};

/* Prints the four counters of each processor that has one which is not 0. */
static void print_counters(const chantspruce_session *s)
{
    for (size_t row = 1; row <= s->rows; row++)
        for (size_t column = 1; column <= s->columns; column++) {
            size_t p = CHANTSPRUCE_POSITION(row, column);
            if (s->south[p] || s->north[p] || s->east[p] || s->west[p])
                printf("    %zu,%zu: %u south, %u north, %u east, %u west\n", row, column, (unsigned)s->south[p], (unsigned)s->north[p],
                       (unsigned)s->east[p], (unsigned)s->west[p]);
        }
}

/* Whether a session is the one that is started from its own map and directions. */
static bool is_sound(const chantspruce_session *s)
{
    chantspruce_started afresh = chantspruce_start_session(s->rows, s->columns, s->grid, B, s->directions, B);
    return afresh.number == CHANTSPRUCE_ACCEPTED && memcmp(&afresh.session, s, sizeof *s) == 0;
}

/* The position of a row and a column, or one where no processor is. */
static size_t position_of(size_t row, size_t column)
{
    return row < 32 && column < 32 ? CHANTSPRUCE_POSITION(row, column) : B;
}

/* Previews a report on a copy of a session that can only be read: a write to it would end the program. */
static bool preview_protected(const chantspruce_session *s, bool failing, size_t p, chantspruce_preview *seen)
{
    chantspruce_session *copy = mmap(NULL, sizeof *s, PROT_READ | PROT_WRITE, MAP_PRIVATE | MAP_ANONYMOUS, -1, 0);
    if (copy == MAP_FAILED)
        return false;
    *copy = *s;
    if (mprotect(copy, sizeof *s, PROT_READ) != 0)
        return false;
    *seen = chantspruce_preview_processor(copy, failing, p);
    return munmap(copy, sizeof *s) == 0;
}

/* Whether the direction and all counters of a preview are 0. */
static bool is_empty(const chantspruce_preview *seen)
{
    bool empty = seen->direction == 0;
    for (size_t p = 0; p < B; p++)
        empty = empty && !seen->south[p] && !seen->north[p] && !seen->east[p] && !seen->west[p];
    return empty;
}

/* Whether a preview is what the report answered and left. */
static bool foretells(const chantspruce_preview *seen, chantspruce_verdict told, const chantspruce_session *after, size_t p)
{
    if (seen->number != told.number || seen->place != told.place || seen->second != told.second)
        return false;
    if (told.number != CHANTSPRUCE_ACCEPTED)
        return is_empty(seen);
    return seen->direction == after->directions[p] && memcmp(seen->south, after->south, B) == 0 && memcmp(seen->north, after->north, B) == 0
           && memcmp(seen->east, after->east, B) == 0 && memcmp(seen->west, after->west, B) == 0;
}

/* Previews a report, makes it and prints what happened. */
static int make_report(chantspruce_session *s, report r)
{
    chantspruce_session before = *s;
    chantspruce_preview seen, seen_protected;
    size_t p = position_of(r.row, r.column);
    printf("%c%zu,%zu: ", r.failing ? '-' : '+', r.row, r.column);
    if (!preview_protected(s, r.failing, p, &seen_protected)) {
        puts("no memory to protect");
        return NOT_READ;
    }
    seen = chantspruce_preview_processor(s, r.failing, p);
    if (memcmp(&before, s, sizeof *s) != 0) {
        puts("the preview alters the session");
        return BROKEN;
    }
    chantspruce_verdict told = chantspruce_report_processor(s, r.failing, p);
    if (!foretells(&seen, told, s, p) || !foretells(&seen_protected, told, s, p)) {
        puts("the preview is another");
        return BROKEN;
    }
    if (told.number != CHANTSPRUCE_ACCEPTED) {
        printf("refused with %u, place %zu, second %zu\n", (unsigned)told.number, told.place, told.second);
        return memcmp(&before, s, sizeof *s) == 0 ? DONE : BROKEN;
    }
    if (r.failing)
        printf("takes %s\n", directions_in_words[s->directions[p]]);
    else
        printf("gives up %s\n", directions_in_words[before.directions[p]]);
    print_counters(s);
    return is_sound(s) ? DONE : BROKEN;
}

/* Plans a map, starts a session and makes the reports. */
static int run_session(const uint8_t *file, size_t length, const report *reports, size_t count)
{
    static uint8_t grid[B], directions[B];
    static chantspruce_started field;
    chantspruce_head map = chantspruce_read_map(file, length, grid, B);
    chantspruce_plan plan = chantspruce_plan_exactly(map.rows, map.columns, grid, B, directions, B);
    if (plan.number != CHANTSPRUCE_ACCEPTED || plan.outcome != CHANTSPRUCE_REPAIRED) {
        puts("no map, or no plan");
        return NO_PLAN;
    }
    field = chantspruce_start_session(map.rows, map.columns, grid, B, directions, B);
    printf("%zu x %zu cells, faults: %zu\n", field.session.rows, field.session.columns, map.count);
    print_counters(&field.session);
    int status = is_sound(&field.session) ? DONE : BROKEN;
    for (size_t i = 0; i < count && status == DONE; i++)
        status = make_report(&field.session, reports[i]);
    return status;
}

static bool read_report(const char *word, report *to)
{
    char sign, rest;
    if (sscanf(word, "%c%zu,%zu%c", &sign, &to->row, &to->column, &rest) != 3 || (sign != '-' && sign != '+'))
        return false;
    to->failing = sign == '-';
    return true;
}

int main(int count, char **words)
{
    /* 2 x 2 cells without a fault */
    static const uint8_t own_map[] = {2, 2, 0};
    static const report own_reports[] = {
        {true, 1, 1}, {true, 1, 1},  {true, 2, 1}, {true, 3, 1},  {true, 2, 2},  {true, 1, 3}, {true, 0, 2},
        {true, 1, 2}, {false, 1, 3}, {true, 1, 2}, {false, 1, 1}, {false, 1, 1}, {true, 0, 0}, {true, 4, 1},
        {true, 0, 33}, {true, 1, 32},
    };
    static uint8_t file[2 * CHANTSPRUCE_MAP_ROOM];
    static report reports[B];
    if (count < 2)
        return run_session(own_map, sizeof own_map, own_reports, sizeof own_reports / sizeof own_reports[0]);
    FILE *from = fopen(words[1], "rb");
    if (from == NULL) {
        perror(words[1]);
        return NOT_READ;
    }
    size_t length = fread(file, 1, sizeof file, from);
    fclose(from);
    for (int i = 2; i < count; i++)
        if (i - 2 >= B || !read_report(words[i], &reports[i - 2])) {
            fprintf(stderr, "%s: no report\n", words[i]);
            return NOT_READ;
        }
    return run_session(file, length, reports, (size_t)(count - 2));
}
