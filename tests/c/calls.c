/*
 * Calls every function of the header that the controller does not call, accepted and refused, and prints all fields of each result. What is
 * printed is right only where the declarations and structs of chantspruce.h are those of the library.
 */
#include <chantspruce.h>
#include <stdio.h>

enum { B = CHANTSPRUCE_BUFFER };

static uint8_t grid[B], directions[B], across[B], down[B];
static uint16_t places[B];
static uint8_t out[CHANTSPRUCE_LISTING_ROOM];

/* 2 x 2 cells with a fault at row 1, column 1, and the plan that sends its path south: with 300 trials on record, without
 * any, and with a byte after them */
static const uint8_t map_file[] = {2, 2, 1, 1, 1};
static const uint8_t plan_file[] = {2, 2, 1, 1, 1, CHANTSPRUCE_SOUTH, 0xAC, 2};
static const uint8_t no_trials_file[] = {2, 2, 1, 1, 1, CHANTSPRUCE_SOUTH};
static const uint8_t long_plan_file[] = {2, 2, 1, 1, 1, CHANTSPRUCE_SOUTH, 0xAC, 2, 0};
static const uint8_t wrong_plan_file[] = {2, 2, 1, 1, 1, 5};
static const uint8_t unordered_plan_file[] = {2, 2, 2, 2, 1, CHANTSPRUCE_SOUTH, 1, 1, CHANTSPRUCE_NORTH};

/* 2 x 2 cells with a dead processor at row 2, column 2, and a file that has one at a spare */
static const uint8_t dead_map_file[] = {2, 2, 0, 1, 2, 2};
static const uint8_t dead_spare_file[] = {2, 2, 0, 1, 3, 2};

/* 3 x 3 cells with faults at row 1, column 1 and at row 3, column 3, and with faulty spares outside of them: none is settled */
static const uint8_t unsettled_map_file[] = {3, 3, 6, 0, 1, 1, 0, 1, 1, 3, 3, 3, 4, 4, 3};

/* 2 x 2 cells with three faults, whose first plan is west, north, east; and one cell that is faulty, with every spare */
static const uint8_t three_faults_file[] = {2, 2, 6, 0, 1, 1, 1, 1, 2, 2, 0, 2, 1, 3, 1};
static const uint8_t no_plan_file[] = {1, 1, 5, 0, 1, 1, 0, 1, 1, 1, 2, 2, 1};

static void print_first(const char *call, uint32_t number, size_t place, size_t second)
{
    printf("%s: number %u, place %zu, second %zu", call, (unsigned)number, place, second);
}

static void print_number(chantspruce_number a)
{
    print_first("read_number", a.number, a.place, a.second);
    printf(", value %u, next %zu\n", (unsigned)a.value, a.next);
}

static void print_head(const char *call, chantspruce_head a)
{
    print_first(call, a.number, a.place, a.second);
    printf(", rows %zu, columns %zu, count %zu\n", a.rows, a.columns, a.count);
}

static void print_plan_head(chantspruce_plan_head a)
{
    print_first("read_plan", a.number, a.place, a.second);
    printf(", rows %zu, columns %zu, count %zu, trials %u\n", a.rows, a.columns, a.count, (unsigned)a.trials);
}

static void print_plan(const char *call, chantspruce_plan a)
{
    print_first(call, a.number, a.place, a.second);
    printf(", outcome %u, count %u, links %zu\n", (unsigned)a.outcome, (unsigned)a.count, a.links);
}

static void print_link(chantspruce_link a)
{
    print_first("follow_link", a.number, a.place, a.second);
    printf(", position %zu, port %u, switches %u\n", a.position, (unsigned)a.port, (unsigned)a.switches);
}

static unsigned sum_of(const uint8_t *buffer)
{
    unsigned sum = 0;
    for (size_t p = 0; p < B; p++)
        sum += buffer[p];
    return sum;
}

/* Prints a result, and of its session the size, the sums of the marks and of the directions, and those of the counters. */
static void print_started(chantspruce_started a)
{
    const uint8_t *const buffers[] = {a.session.grid, a.session.directions, a.session.south, a.session.north, a.session.east, a.session.west};
    print_first("start_session", a.number, a.place, a.second);
    printf(", rows %zu, columns %zu, sums", a.session.rows, a.session.columns);
    for (size_t i = 0; i < sizeof buffers / sizeof buffers[0]; i++)
        printf(" %u", sum_of(buffers[i]));
    puts("");
}

/* Prints a result and the sums of its counters. */
static void print_preview(chantspruce_preview a)
{
    const uint8_t *const buffers[] = {a.south, a.north, a.east, a.west};
    print_first("preview_processor", a.number, a.place, a.second);
    printf(", direction %u, sums", (unsigned)a.direction);
    for (size_t i = 0; i < sizeof buffers / sizeof buffers[0]; i++)
        printf(" %u", sum_of(buffers[i]));
    puts("");
}

static void print_verdict(const char *call, chantspruce_verdict a)
{
    print_first(call, a.number, a.place, a.second);
    puts("");
}

/* Prints a result and the listing that it tells of. */
static void print_listing(const char *call, chantspruce_length a)
{
    print_first(call, a.number, a.place, a.second);
    printf(", length %zu\n%.*s", a.length, (int)a.length, (const char *)out);
}

/* Prints a result and the bytes that it tells of. */
static void print_bytes(const char *call, chantspruce_length a)
{
    print_first(call, a.number, a.place, a.second);
    printf(", length %zu:", a.length);
    for (size_t i = 0; i < a.length; i++)
        printf(" %u", (unsigned)out[i]);
    puts("");
}

static void call_readers(void)
{
    static const uint8_t numbers[] = {7, 0xAC, 2, 0x82, 0, 0xFF, 0xFF, 0x7F, 0x80, 0x80, 0, 0x80, 0x80};
    print_number(chantspruce_read_number(numbers, sizeof numbers, 1));
    print_number(chantspruce_read_number(numbers, sizeof numbers, 3));
    print_number(chantspruce_read_number(numbers, sizeof numbers, 5));
    print_number(chantspruce_read_number(numbers, sizeof numbers, 8));
    print_number(chantspruce_read_number(numbers, sizeof numbers, 11));
    print_number(chantspruce_read_number(numbers, sizeof numbers, SIZE_MAX));
    print_head("read_map", chantspruce_read_map(map_file, sizeof map_file, grid, B));
    print_plan_head(chantspruce_read_plan(plan_file, sizeof plan_file, directions, B));
    print_plan_head(chantspruce_read_plan(no_trials_file, sizeof no_trials_file, directions, B));
    print_plan_head(chantspruce_read_plan(long_plan_file, sizeof long_plan_file, directions, B));
    print_plan_head(chantspruce_read_plan(wrong_plan_file, sizeof wrong_plan_file, directions, B));
    print_plan_head(chantspruce_read_plan(unordered_plan_file, sizeof unordered_plan_file, directions, B));
}

static void call_writers(void)
{
    print_bytes("write_map", chantspruce_write_map(2, 2, grid, B, out, sizeof out));
    print_bytes("write_map", chantspruce_write_map(2, 2, grid, B, out, 4));
    print_bytes("write_plan", chantspruce_write_plan(2, 2, directions, B, 2097151, out, sizeof out));
    print_plan_head(chantspruce_read_plan(out, 9, directions, B));
    print_bytes("write_plan", chantspruce_write_plan(2, 2, directions, B, 2097152, out, 8));
    print_bytes("write_plan", chantspruce_write_plan(2, 2, directions, B, 2097151, out, 8));
    print_bytes("write_plan", chantspruce_write_plan(2, 3, directions, B - 1, 300, out, sizeof out));
}

/* Prints what a run has written at the fault of the first map. */
static void print_fault(void)
{
    const size_t fault = CHANTSPRUCE_POSITION(1, 1);
    printf("cell [1, 1] is at %u, the switches right of and below the fault are %c and %c\n", (unsigned)places[fault],
           across[fault], down[fault]);
}

static void call_run(void)
{
    print_plan("repair_run", chantspruce_repair_run(2, 2, grid, B, 1000, directions, B, places, B, across, B, down, B));
    print_fault();
    print_plan("repair_run", chantspruce_repair_run(2, 2, grid, B, 0, directions, B, places, B, across, B, down, B));
    print_plan("repair_run", chantspruce_repair_run(2, 3, grid, B, 1000, directions, B, places, B, across, B, down, B));
}

static void call_checks(void)
{
    static const chantspruce_fault listed[] = {{CHANTSPRUCE_POSITION(1, 1), CHANTSPRUCE_EAST}, {CHANTSPRUCE_POSITION(2, 2), CHANTSPRUCE_WEST}};
    chantspruce_verdict one = chantspruce_check_fault_list(2, 2, grid, B, listed, 1);
    print_first("check_fault_list", one.number, one.place, one.second);
    puts("");
    grid[CHANTSPRUCE_POSITION(2, 2)] = CHANTSPRUCE_FAULTY;
    chantspruce_verdict two = chantspruce_check_fault_list(2, 2, grid, B, listed, 2);
    print_first("check_fault_list", two.number, two.place, two.second);
    puts("");
}

/* A dead processor: its path goes north from row N, and a link that enters it ends there. */
static void call_dead(void)
{
    const size_t dead = CHANTSPRUCE_POSITION(2, 2);
    print_head("read_map", chantspruce_read_map(dead_spare_file, sizeof dead_spare_file, grid, B));
    print_head("read_map", chantspruce_read_map(dead_map_file, sizeof dead_map_file, grid, B));
    print_bytes("write_map", chantspruce_write_map(2, 2, grid, B, out, sizeof out));
    print_plan("repair_run", chantspruce_repair_run(2, 2, grid, B, 1000, directions, B, places, B, across, B, down, B));
    printf("the path of the dead processor has direction %u\n", (unsigned)directions[dead]);
    print_link(chantspruce_follow_link(2, 2, grid, B, directions, B, across, B, down, B, dead, CHANTSPRUCE_SIDE_SOUTH));
    grid[dead] = CHANTSPRUCE_FAULTY;
    print_link(chantspruce_follow_link(2, 2, grid, B, directions, B, across, B, down, B, dead, CHANTSPRUCE_SIDE_SOUTH));
    grid[dead] = CHANTSPRUCE_DEAD;
    directions[dead] = CHANTSPRUCE_SOUTH;
    chantspruce_verdict checked = chantspruce_check_plan(2, 2, grid, B, directions, B);
    print_first("check_plan", checked.number, checked.place, checked.second);
    puts("");
}

/* The quick planner: a fault that is settled, so that there is no trial, and two that take three trials. */
static void call_quickly(void)
{
    print_head("read_map", chantspruce_read_map(map_file, sizeof map_file, grid, B));
    print_plan("plan_quickly", chantspruce_plan_quickly(2, 2, grid, B, directions, B, 0));
    printf("the path of the fault has direction %u\n", (unsigned)directions[CHANTSPRUCE_POSITION(1, 1)]);
    print_plan("plan_quickly", chantspruce_plan_quickly(2, 3, grid, B, directions, B, 1000));
    print_plan("run_quickly", chantspruce_run_quickly(2, 2, grid, B, 0, directions, B, places, B, across, B, down, B));
    print_fault();
    print_plan("run_quickly", chantspruce_run_quickly(2, 2, grid, B, 0, directions, B, places, B - 1, across, B, down, B));
    print_listing("report_quickly", chantspruce_report_quickly(map_file, sizeof map_file, out, sizeof out));
    print_bytes("report_quickly", chantspruce_report_quickly(map_file, sizeof map_file, out, 10));
    print_head("read_map", chantspruce_read_map(unsettled_map_file, sizeof unsettled_map_file, grid, B));
    chantspruce_plan found = chantspruce_plan_quickly(3, 3, grid, B, directions, B, 3);
    print_plan("plan_quickly", found);
    print_bytes("write_plan", chantspruce_write_plan(3, 3, directions, B, found.count, out, sizeof out));
    print_plan("plan_quickly", chantspruce_plan_quickly(3, 3, grid, B, directions, B, 2));
    print_bytes("write_plan", chantspruce_write_plan(3, 3, directions, B, 0, out, sizeof out));
}

/* The exact planner, which takes no limit and counts no trials: the first map, one that takes chantspruce_plan_repair 13
 * trials, and one without a plan. */
static void call_exactly(void)
{
    print_head("read_map", chantspruce_read_map(map_file, sizeof map_file, grid, B));
    print_plan("plan_exactly", chantspruce_plan_exactly(2, 2, grid, B, directions, B));
    printf("the path of the fault has direction %u\n", (unsigned)directions[CHANTSPRUCE_POSITION(1, 1)]);
    print_plan("plan_exactly", chantspruce_plan_exactly(2, 3, grid, B, directions, B));
    print_plan("run_exactly", chantspruce_run_exactly(2, 2, grid, B, directions, B, places, B, across, B, down, B));
    print_fault();
    print_plan("run_exactly", chantspruce_run_exactly(2, 2, grid, B, directions, B, places, B, across, B, down, B - 1));
    print_listing("report_exactly", chantspruce_report_exactly(map_file, sizeof map_file, out, sizeof out));
    print_bytes("report_exactly", chantspruce_report_exactly(map_file, sizeof map_file, out, 10));
    print_head("read_map", chantspruce_read_map(three_faults_file, sizeof three_faults_file, grid, B));
    print_plan("plan_repair", chantspruce_plan_repair(2, 2, grid, B, directions, B, 12));
    print_plan("plan_exactly", chantspruce_plan_exactly(2, 2, grid, B, directions, B));
    print_bytes("write_plan", chantspruce_write_plan(2, 2, directions, B, 0, out, sizeof out));
    print_head("read_map", chantspruce_read_map(no_plan_file, sizeof no_plan_file, grid, B));
    print_plan("run_exactly", chantspruce_run_exactly(1, 1, grid, B, directions, B, places, B, across, B, down, B));
    print_bytes("write_plan", chantspruce_write_plan(1, 1, directions, B, 0, out, sizeof out));
    print_listing("report_exactly", chantspruce_report_exactly(no_plan_file, sizeof no_plan_file, out, sizeof out));
}

/* A session of the first map: of its start, accepted and refused, and of a report to one whose bytes are no session. */
static void call_session(void)
{
    print_head("read_map", chantspruce_read_map(map_file, sizeof map_file, grid, B));
    print_plan_head(chantspruce_read_plan(plan_file, sizeof plan_file, directions, B));
    print_started(chantspruce_start_session(2, 2, grid, B, directions, B - 1));
    print_started(chantspruce_start_session(2, 3, grid, B, directions, B));
    chantspruce_started field = chantspruce_start_session(2, 2, grid, B, directions, B);
    print_started(field);
    field.session.rows = SIZE_MAX;
    print_verdict("report_processor", chantspruce_report_processor(&field.session, true, SIZE_MAX));
    field.session.rows = 2;
    print_verdict("report_processor", chantspruce_report_processor(&field.session, true, SIZE_MAX));
    field.session.directions[CHANTSPRUCE_POSITION(1, 1)] = 0;
    print_verdict("report_processor", chantspruce_report_processor(&field.session, false, CHANTSPRUCE_POSITION(1, 1)));
    field.session.directions[CHANTSPRUCE_POSITION(1, 1)] = CHANTSPRUCE_SOUTH;
    print_verdict("report_processor", chantspruce_report_processor(&field.session, false, CHANTSPRUCE_POSITION(1, 1)));
    print_started(field);
}

/* Previews of a session that has another mark and direction at a position: there is no processor at the one that is reported. */
static void preview_damaged(chantspruce_session s, size_t p, uint8_t mark, uint8_t direction)
{
    s.grid[p] = mark;
    s.directions[p] = direction;
    print_preview(chantspruce_preview_processor(&s, true, SIZE_MAX));
}

/* Previews of a session of the first map: accepted ones, and one with each refusal that there is. A session has no length that could be wrong. */
static void call_preview(void)
{
    const size_t right = CHANTSPRUCE_POSITION(1, 2), below = CHANTSPRUCE_POSITION(2, 1), across_from = CHANTSPRUCE_POSITION(2, 2);
    print_head("read_map", chantspruce_read_map(map_file, sizeof map_file, grid, B));
    print_plan_head(chantspruce_read_plan(plan_file, sizeof plan_file, directions, B));
    chantspruce_started field = chantspruce_start_session(2, 2, grid, B, directions, B);
    print_preview(chantspruce_preview_processor(&field.session, true, across_from));
    print_preview(chantspruce_preview_processor(&field.session, true, CHANTSPRUCE_POSITION(0, 2)));
    print_preview(chantspruce_preview_processor(&field.session, false, CHANTSPRUCE_POSITION(1, 1)));
    print_preview(chantspruce_preview_processor(&field.session, true, SIZE_MAX));
    print_preview(chantspruce_preview_processor(&field.session, false, across_from));
    print_preview(chantspruce_preview_processor(&field.session, true, below));
    preview_damaged(field.session, right, CHANTSPRUCE_NO_PROCESSOR, 0);
    preview_damaged(field.session, right, CHANTSPRUCE_FAULTY, 0);
    preview_damaged(field.session, below, CHANTSPRUCE_FAULTY, CHANTSPRUCE_WEST);
    preview_damaged(field.session, across_from, CHANTSPRUCE_FAULTY, CHANTSPRUCE_WEST);
    preview_damaged(field.session, across_from, CHANTSPRUCE_FAULTY, CHANTSPRUCE_NORTH);
    field.session.south[right] = field.session.north[right] = field.session.east[right] = 255;
    print_preview(chantspruce_preview_processor(&field.session, true, right));
    field.session.columns = 0;
    print_preview(chantspruce_preview_processor(&field.session, true, right));
}

int main(void)
{
    call_readers();
    call_writers();
    call_run();
    call_checks();
    call_dead();
    call_quickly();
    call_exactly();
    call_session();
    call_preview();
    print_listing("report", chantspruce_report(map_file, sizeof map_file, out, sizeof out));
    print_bytes("report", chantspruce_report(map_file, sizeof map_file, out, 10));
    return 0;
}
