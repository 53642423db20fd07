/*
 * A field controller over the library: plans the repair of a map file, with the exact planner where the trials are spent,
 * checks the plan, follows every link, and prints the switches.
 *
 *     controller [FILE]
 *
 * Without a file it plans a map of its own. The exit status is 0 after a repair, 1 where the map is refused or not repaired, 2 where the file
 * cannot be read, 3 where an answer is not what chantspruce.h promises.
 */
#include <chantspruce.h>
#include <stdio.h>

enum { B = CHANTSPRUCE_BUFFER, LIMIT = 1000000 };
enum { DONE = 0, NOT_REPAIRED = 1, NO_FILE = 2, BROKEN = 3 };

/* a wafer: its size, its faults, and what is planned for it */
typedef struct wafer {
    size_t rows, columns;
    uint8_t grid[B], directions[B], across[B], down[B];
    uint16_t places[B];
} wafer;

/* what a number of a refusal means */
static const char *reason(uint32_t number)
{
    static const char *const reasons[] = {
        "accepted",
        "the size is not 1 to 30",
        "a buffer has the wrong length",
        "a wrong mark in the grid",
        "a wrong direction",
        "a path is not open",
        "two paths meet",
        "two paths are a near-miss",
        "the file is cut",
        "a wrong number in the file",
        "a record at a wrong position",
        "a record repeats a position",
        "the file goes on after its last record",
        "a wrong direction in the file",
        "the room is too short",
        "no such cell or side, or no such processor",
        "a wrong letter of a switch",
        "the track ends",
        "a fourth switch",
        "a record is out of row order",
        "a dead processor that is not inside the array",
        "too many trials to be written",
        "a report of nothing new",
        "a failing processor on a path, or a recovering one that is dead",
        "no direction for a failing processor",
    };
    return number < sizeof reasons / sizeof reasons[0] ? reasons[number] : "an unknown number";
}

/* Says that a call which should be accepted is not. */
static int broken(const char *call, uint32_t number, size_t place)
{
    printf("%s is refused: %s (%u), place %zu\n", call, reason(number), (unsigned)number, place);
    return BROKEN;
}

/* THE PICTURE: a processor, an across switch, a processor, ..., and the down switches below their upper processors. */

static char processor(const wafer *w, size_t position)
{
    static const char arrows[] = {'x', 'v', '^', '>', '<'};
    static const char letters[] = {'?', 'S', 'N', 'E', 'W'};
    if (w->grid[position] == CHANTSPRUCE_NO_PROCESSOR)
        return ' ';
    if (w->grid[position] == CHANTSPRUCE_FAULTY)
        return arrows[w->directions[position]];
    if (w->grid[position] == CHANTSPRUCE_DEAD)
        return letters[w->directions[position]];
    for (size_t cell = 0; cell < B; cell++)
        if (w->places[cell] == position)
            return 'o';
    return '.';
}

static char letter(uint8_t byte)
{
    return byte == CHANTSPRUCE_NO_SWITCH ? ' ' : (char)byte;
}

/* Prints a line without the spaces at its end. */
static void print_line(char *line, size_t length)
{
    while (0 < length && line[length - 1] == ' ')
        length--;
    line[length] = 0;
    puts(line);
}

/* Prints a row of processors with the across switches between them. */
static void print_row(const wafer *w, size_t row)
{
    char line[4 * 32 + 1];
    size_t length = 0;
    for (size_t column = 0; column <= w->columns + 1; column++) {
        size_t position = CHANTSPRUCE_POSITION(row, column);
        line[length++] = processor(w, position);
        line[length++] = ' ';
        line[length++] = letter(w->across[position]);
        line[length++] = ' ';
    }
    print_line(line, length);
}

/* Prints the down switches between a row and the next. */
static void print_between(const wafer *w, size_t row)
{
    char line[4 * 32 + 1];
    size_t length = 0;
    for (size_t column = 0; column <= w->columns + 1; column++) {
        line[length++] = letter(w->down[CHANTSPRUCE_POSITION(row, column)]);
        line[length++] = ' ';
        line[length++] = ' ';
        line[length++] = ' ';
    }
    print_line(line, length);
}

static void print_picture(const wafer *w)
{
    puts("o holds a cell, . is a free spare, x a faulty one, v ^ > < a fault with its path, S N E W a dead one; small letters are switches");
    for (size_t row = 0; row <= w->rows + 1; row++) {
        print_row(w, row);
        if (row <= w->rows)
            print_between(w, row);
    }
}

/* THE LINKS */

/* Whether the link of a cell on a side leads to the processor that holds the neighbour, by this port and over at most three switches. */
static int reaches(const wafer *w, size_t cell, size_t side, size_t neighbour, uint32_t port)
{
    chantspruce_link link = chantspruce_follow_link(w->rows, w->columns, w->grid, B, w->directions, B, w->across, B, w->down, B, cell, side);
    if (link.number != CHANTSPRUCE_ACCEPTED) {
        printf("the link of cell %zu on side %zu is refused: %s (%u), place %zu\n", cell, side, reason(link.number), (unsigned)link.number,
               link.place);
        return 0;
    }
    if (link.position != w->places[neighbour] || link.port != port || 3 < link.switches) {
        printf("the link of cell %zu on side %zu ends elsewhere: it enters %zu by port %u over %u switches\n", cell, side, link.position,
               (unsigned)link.port, (unsigned)link.switches);
        return 0;
    }
    return 1;
}

/* Follows the links of every cell to its right and to its lower neighbour, and counts those that arrive. */
static size_t count_links(const wafer *w)
{
    size_t count = 0;
    for (size_t i = 1; i <= w->rows; i++) {
        for (size_t j = 1; j <= w->columns; j++) {
            size_t cell = CHANTSPRUCE_POSITION(i, j);
            if (j < w->columns && reaches(w, cell, CHANTSPRUCE_SIDE_EAST, CHANTSPRUCE_POSITION(i, j + 1), CHANTSPRUCE_PORT_W))
                count++;
            if (i < w->rows && reaches(w, cell, CHANTSPRUCE_SIDE_SOUTH, CHANTSPRUCE_POSITION(i + 1, j), CHANTSPRUCE_PORT_N))
                count++;
        }
    }
    return count;
}

/* THE REPAIR */

/* Lists the faults inside the array with the directions of their paths, and gives their number. */
static size_t list_faults(const wafer *w, chantspruce_fault *faults)
{
    size_t count = 0;
    for (size_t p = 0; p < B; p++) {
        if (w->directions[p] != CHANTSPRUCE_NO_PATH) {
            faults[count].position = p;
            faults[count].direction = w->directions[p];
            count++;
        }
    }
    return count;
}

/* Checks a plan twice, in the buffer and as a list. */
static chantspruce_verdict check(const wafer *w)
{
    static chantspruce_fault faults[B];
    chantspruce_verdict checked = chantspruce_check_plan(w->rows, w->columns, w->grid, B, w->directions, B);
    if (checked.number != CHANTSPRUCE_ACCEPTED)
        return checked;
    return chantspruce_check_fault_list(w->rows, w->columns, w->grid, B, faults, list_faults(w, faults));
}

/* Checks a plan, places the cells, sets the switches and follows the links. */
static int complete(wafer *w)
{
    size_t links = w->rows * (w->columns - 1) + w->columns * (w->rows - 1);
    chantspruce_verdict checked = check(w);
    if (checked.number != CHANTSPRUCE_ACCEPTED)
        return broken("the plan", checked.number, checked.place);
    chantspruce_verdict placed = chantspruce_place_cells(w->rows, w->columns, w->grid, B, w->directions, B, w->places, B);
    if (placed.number != CHANTSPRUCE_ACCEPTED)
        return broken("the placement", placed.number, placed.place);
    chantspruce_verdict routed = chantspruce_route_switches(w->rows, w->columns, w->grid, B, w->directions, B, w->across, B, w->down, B);
    if (routed.number != CHANTSPRUCE_ACCEPTED)
        return broken("the routing", routed.number, routed.place);
    size_t found = count_links(w);
    printf("%zu of %zu links reach their neighbours\n", found, links);
    print_picture(w);
    return found == links ? DONE : BROKEN;
}

/* Plans a map with the exact planner, which decides every map. */
static int decide(wafer *w)
{
    chantspruce_plan plan = chantspruce_plan_exactly(w->rows, w->columns, w->grid, B, w->directions, B);
    if (plan.number != CHANTSPRUCE_ACCEPTED)
        return broken("the map", plan.number, plan.place);
    switch (plan.outcome) {
    case CHANTSPRUCE_REPAIRED:
        puts("repaired");
        return complete(w);
    case CHANTSPRUCE_BEYOND:
        puts("beyond repair: there is no plan");
        return NOT_REPAIRED;
    default:
        printf("the exact planner has outcome %u\n", (unsigned)plan.outcome);
        return BROKEN;
    }
}

/* Plans a map, with the exact planner where the trials are spent. */
static int plan_map(wafer *w)
{
    chantspruce_plan plan = chantspruce_plan_repair(w->rows, w->columns, w->grid, B, w->directions, B, LIMIT);
    if (plan.number != CHANTSPRUCE_ACCEPTED)
        return broken("the map", plan.number, plan.place);
    switch (plan.outcome) {
    case CHANTSPRUCE_REPAIRED:
        printf("repaired, trials: %u\n", (unsigned)plan.count);
        return complete(w);
    case CHANTSPRUCE_BEYOND:
        printf("beyond repair: there is no plan, trials: %u\n", (unsigned)plan.count);
        return NOT_REPAIRED;
    default:
        printf("not decided within %u trials; now the exact planner\n", (unsigned)plan.count);
        return decide(w);
    }
}

/* Plans the repair of a map file. */
static int repair(const uint8_t *file, size_t length)
{
    static wafer w;
    chantspruce_head map = chantspruce_read_map(file, length, w.grid, B);
    if (map.number != CHANTSPRUCE_ACCEPTED) {
        printf("no map: %s (%u) at byte %zu\n", reason(map.number), (unsigned)map.number, map.place);
        return NOT_REPAIRED;
    }
    w.rows = map.rows;
    w.columns = map.columns;
    printf("%zu x %zu cells, faults: %zu\n", map.rows, map.columns, map.count);
    return plan_map(&w);
}

int main(int count, char **words)
{
    /* a map of 2 x 2 cells with a fault at row 1, column 1 */
    static const uint8_t own[] = {2, 2, 1, 1, 1};
    /* twice as long as any map: of a longer file this much is enough to refuse it */
    static uint8_t file[2 * CHANTSPRUCE_MAP_ROOM];
    if (count < 2)
        return repair(own, sizeof own);
    FILE *from = fopen(words[1], "rb");
    if (from == NULL) {
        perror(words[1]);
        return NO_FILE;
    }
    size_t length = fread(file, 1, sizeof file, from);
    int failed = ferror(from);
    fclose(from);
    if (failed) {
        fprintf(stderr, "%s: cannot be read\n", words[1]);
        return NO_FILE;
    }
    return repair(file, length);
}
