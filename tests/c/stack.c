/*
 * Measures how many bytes of stack each function of the header takes, prints them, and fails where they are more than the
 * header says. Each call runs on a stack of its own that is filled with one byte before: what holds another byte was used.
 */
#define _XOPEN_SOURCE 700
#include <chantspruce.h>
#include <stdio.h>
#include <string.h>
#include <ucontext.h>

enum { B = CHANTSPRUCE_BUFFER, FILLED = 0xA5, KIB = 1024 };

static uint8_t grid[B], directions[B], across[B], down[B];
static uint16_t places[B];
static uint8_t out[CHANTSPRUCE_LISTING_ROOM];
static chantspruce_fault faults[3];

/* 4 x 4 cells: of the three faults inside, the quick planner settles the first and takes three trials for the others; the
 * exact planner comes to try one direction of a fault that has two */
static const uint8_t map_file[] = {4, 4, 7, 0, 1, 1, 4, 2, 0, 2, 1, 4, 3, 4, 5, 5, 3};
static const uint8_t plan_file[] = {4, 4, 3, 1, 4, CHANTSPRUCE_EAST, 2, 1, CHANTSPRUCE_SOUTH, 4, 3, CHANTSPRUCE_NORTH,
                                    0xFF, 0xFF, 0x7F};

/* THE CALLS. Each is accepted, in the order of the table below, but for one preview. */

static uint32_t number;

static void call_nothing(void)
{
    number = CHANTSPRUCE_ACCEPTED;
}

static void call_read_number(void)
{
    number = chantspruce_read_number(plan_file, sizeof plan_file, sizeof plan_file - 3).number;
}

static void call_read_map(void)
{
    number = chantspruce_read_map(map_file, sizeof map_file, grid, B).number;
}

static void call_read_plan(void)
{
    number = chantspruce_read_plan(plan_file, sizeof plan_file, directions, B).number;
}

static void call_write_map(void)
{
    number = chantspruce_write_map(4, 4, grid, B, out, sizeof out).number;
}

static void call_write_plan(void)
{
    number = chantspruce_write_plan(4, 4, directions, B, 2097151, out, sizeof out).number;
}

static void call_plan_repair(void)
{
    number = chantspruce_plan_repair(4, 4, grid, B, directions, B, 1000).number;
}

static void call_plan_quickly(void)
{
    number = chantspruce_plan_quickly(4, 4, grid, B, directions, B, 1000).number;
}

static void call_plan_exactly(void)
{
    number = chantspruce_plan_exactly(4, 4, grid, B, directions, B).number;
}

static void call_check_plan(void)
{
    number = chantspruce_check_plan(4, 4, grid, B, directions, B).number;
}

static void call_check_fault_list(void)
{
    for (size_t i = 0; i < 3; i++) {
        faults[i].position = CHANTSPRUCE_POSITION(plan_file[3 + 3 * i], plan_file[4 + 3 * i]);
        faults[i].direction = plan_file[5 + 3 * i];
    }
    number = chantspruce_check_fault_list(4, 4, grid, B, faults, 3).number;
}

static void call_place_cells(void)
{
    number = chantspruce_place_cells(4, 4, grid, B, directions, B, places, B).number;
}

static void call_route_switches(void)
{
    number = chantspruce_route_switches(4, 4, grid, B, directions, B, across, B, down, B).number;
}

static void call_follow_link(void)
{
    const size_t cell = CHANTSPRUCE_POSITION(2, 1);
    number = chantspruce_follow_link(4, 4, grid, B, directions, B, across, B, down, B, cell, CHANTSPRUCE_SIDE_EAST).number;
}

static void call_repair_run(void)
{
    number = chantspruce_repair_run(4, 4, grid, B, 1000, directions, B, places, B, across, B, down, B).number;
}

static void call_run_quickly(void)
{
    number = chantspruce_run_quickly(4, 4, grid, B, 1000, directions, B, places, B, across, B, down, B).number;
}

static void call_run_exactly(void)
{
    number = chantspruce_run_exactly(4, 4, grid, B, directions, B, places, B, across, B, down, B).number;
}

static chantspruce_started field;

static void call_start_session(void)
{
    field = chantspruce_start_session(4, 4, grid, B, directions, B);
    number = field.number;
}

/* A processor that gets a path, and its recovery. */
static void call_report_processor(void)
{
    number = chantspruce_report_processor(&field.session, true, CHANTSPRUCE_POSITION(4, 4)).number;
    number |= chantspruce_report_processor(&field.session, false, CHANTSPRUCE_POSITION(4, 4)).number;
}

/* Previews of a processor that would get a path, of a recovery and of a failure that is refused. */
static void call_preview_processor(void)
{
    static chantspruce_preview seen;
    seen = chantspruce_preview_processor(&field.session, true, CHANTSPRUCE_POSITION(4, 4));
    number = seen.number;
    seen = chantspruce_preview_processor(&field.session, false, CHANTSPRUCE_POSITION(2, 1));
    number |= seen.number;
    seen = chantspruce_preview_processor(&field.session, true, CHANTSPRUCE_POSITION(2, 1));
    number |= seen.number != CHANTSPRUCE_NOTHING_NEW;
}

static void call_report(void)
{
    number = chantspruce_report(map_file, sizeof map_file, out, sizeof out).number;
}

static void call_report_quickly(void)
{
    number = chantspruce_report_quickly(map_file, sizeof map_file, out, sizeof out).number;
}

static void call_report_exactly(void)
{
    number = chantspruce_report_exactly(map_file, sizeof map_file, out, sizeof out).number;
}

/* what the header says of each function, in KiB */
static const struct {
    const char *name;
    void (*call)(void);
    size_t most;
} calls[] = {
    {"read_number", call_read_number, 16},
    {"read_map", call_read_map, 16},
    {"read_plan", call_read_plan, 16},
    {"write_map", call_write_map, 16},
    {"write_plan", call_write_plan, 16},
    {"plan_repair", call_plan_repair, 16},
    {"plan_quickly", call_plan_quickly, 16},
    {"plan_exactly", call_plan_exactly, 16},
    {"check_plan", call_check_plan, 16},
    {"check_fault_list", call_check_fault_list, 16},
    {"place_cells", call_place_cells, 16},
    {"route_switches", call_route_switches, 16},
    {"follow_link", call_follow_link, 16},
    {"repair_run", call_repair_run, 16},
    {"run_quickly", call_run_quickly, 16},
    {"run_exactly", call_run_exactly, 16},
    {"start_session", call_start_session, 24},
    {"report_processor", call_report_processor, 24},
    {"preview_processor", call_preview_processor, 40},
    {"report", call_report, 64},
    {"report_quickly", call_report_quickly, 64},
    {"report_exactly", call_report_exactly, 64},
};

/* THE STACK */

static uint8_t stack[4 * CHANTSPRUCE_STACK];

/* How many bytes of a filled stack a call changes. */
static size_t changed(void (*call)(void))
{
    static ucontext_t here, there;
    size_t kept = 0;
    memset(stack, FILLED, sizeof stack);
    getcontext(&there);
    there.uc_stack.ss_sp = stack;
    there.uc_stack.ss_size = sizeof stack;
    there.uc_link = &here;
    makecontext(&there, call, 0);
    swapcontext(&here, &there);
    while (kept < sizeof stack && stack[kept] == FILLED)
        kept++;
    return sizeof stack - kept;
}

int main(void)
{
    int failed = 0;
    size_t nothing = changed(call_nothing);
    for (size_t i = 0; i < sizeof calls / sizeof calls[0]; i++) {
        /* the second time, when the loader has found memcpy and memset */
        size_t bytes = changed(calls[i].call);
        bytes = changed(calls[i].call) - nothing;
        printf("chantspruce_%s: %zu bytes of stack\n", calls[i].name, bytes);
        if (number != CHANTSPRUCE_ACCEPTED || calls[i].most * KIB < bytes || CHANTSPRUCE_STACK < bytes) {
            printf("chantspruce_%s: refused with %u, or more than %zu KiB\n", calls[i].name, (unsigned)number, calls[i].most);
            failed = 1;
        }
    }
    return failed;
}
