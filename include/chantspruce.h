/*
 * Chantspruce: plans the repair of a processor array.
 *
 * An array of N x M processors, all alike, has a ring of spares around it and switches between its processors. From a map of the faulty
 * processors the library chooses a straight path from each faulty processor inside the array to a spare, tells which healthy processor holds
 * each logical cell, gives the letter of every switch so that neighbouring cells are linked, and follows any link through the switches to
 * where it arrives. Where there is no plan it says so. While the array is in the field it keeps the plan up to date, one report of a processor
 * that fails or recovers at a time. The result of every function and every buffer and session after it are proved to be what their definitions
 * say, for all arguments: there is no argument that a caller must test before a call.
 *
 * A whole repair is one call of chantspruce_repair_run, or these calls one after the other:
 *
 *     enum { B = CHANTSPRUCE_BUFFER };
 *     uint8_t grid[B], directions[B], across[B], down[B];
 *     uint16_t places[B];
 *     chantspruce_head map = chantspruce_read_map(file, file_length, grid, B);
 *     if (map.number != CHANTSPRUCE_ACCEPTED) { ... the file is no map: map.number says why, map.place where ... }
 *     chantspruce_plan plan = chantspruce_plan_repair(map.rows, map.columns, grid, B, directions, B, 1000000);
 *     if (plan.outcome == CHANTSPRUCE_REPAIRED) {
 *         chantspruce_place_cells(map.rows, map.columns, grid, B, directions, B, places, B);
 *         chantspruce_route_switches(map.rows, map.columns, grid, B, directions, B, across, B, down, B);
 *     }
 *
 * From the plan a controller can start a session and report to it, as processors fail and recover:
 *
 *     chantspruce_started field = chantspruce_start_session(map.rows, map.columns, grid, B, directions, B);
 *     chantspruce_preview seen = chantspruce_preview_processor(&field.session, true, CHANTSPRUCE_POSITION(2, 5));
 *     if (seen.number == CHANTSPRUCE_ACCEPTED) { ... seen.direction is the path that the processor would get ... }
 *     chantspruce_verdict told = chantspruce_report_processor(&field.session, true, CHANTSPRUCE_POSITION(2, 5));
 *     if (told.number == CHANTSPRUCE_ACCEPTED) { ... field.session.directions is a plan with that fault ... }
 *
 * In place of chantspruce_plan_repair a controller may call chantspruce_plan_quickly, which usually takes fewer trials.
 * Each of the two may decide a map on which the other is spent. chantspruce_plan_exactly takes no limit and decides
 * every map.
 *
 * Link with libcapi.a (`tests/archive` writes target/staticlib/libcapi.a, for x86-64 Linux; it needs memcpy and memset and nothing else).
 * tests/c/controller.c and tests/c/field.c are small programs over it.
 *
 *
 * THE ARRAY
 *
 * The logical cells stand in N rows and M columns; N and M are 1 to 30. Rows count downward and columns to the right, from 0. There is a
 * processor at every row from 0 to N + 1 and column from 0 to M + 1, except at the four corners. Those in rows 1 to N and columns 1 to M are
 * inside; the others are the spares. Cell [i, j] belongs at row i, column j. The position of a row and a column is the number
 * 32 * row + column. Positions in ascending order are called row order.
 *
 * A faulty processor inside the array can be made to conduct, unless it is dead. A dead processor conducts nothing; in all else it is faulty
 * like any other.
 *
 * A path (a compensation path, in the paper of Kung, Jean and Chang) runs straight from a faulty processor inside the array to the spare at
 * the end of its row or column. Every cell on it moves one processor along it. A path is open where it runs over no other fault and ends on
 * a healthy spare. From a dead processor only these paths can be open: south from row 1, north from row N, east from column 1, west from
 * column M. Then no link to a neighbour needs to run through that processor. A plan gives each fault inside the array an open path so that no
 * two paths share a processor and no two are a near-miss. A near-miss: a path south and a path north in adjacent columns where the one that
 * goes south starts above the other, or a path east and a path west in adjacent rows where the one that goes east starts left of the other.
 *
 *
 * BUFFERS
 *
 * Each buffer other than the bytes of a file and a list of faults has 1,024 elements, neither more nor fewer, and is indexed by position:
 *
 *     grid        uint8_t    CHANTSPRUCE_HEALTHY or CHANTSPRUCE_FAULTY at a processor, or CHANTSPRUCE_DEAD at one inside the array;
 *                            CHANTSPRUCE_NO_PROCESSOR everywhere else
 *     directions  uint8_t    CHANTSPRUCE_SOUTH, _NORTH, _EAST or _WEST at each faulty processor inside the array, 0 everywhere else
 *     places      uint16_t   at the position of cell [i, j]: the position of the processor that holds it; 0 everywhere else
 *     across      uint8_t    the letter of the across switch at that position; 0 where there is none
 *     down        uint8_t    the letter of the down switch at that position; 0 where there is none
 *
 * Where row x has processors at columns y and y + 1, the across switch at row x, column y lies between them. Its port W leads to the first,
 * E to the second, N and S to the across switches above and below it, if any. Where column y has processors at rows x and x + 1, the down
 * switch at row x, column y lies between them. Its port N leads to the first, S to the second, W and E to the down switches beside it, if
 * any. The letter of a switch says which of its ports are joined:
 *
 *     letter    across switch       down switch
 *     a         N-S                 W-E
 *     b         W-E                 N-S
 *     c         W-S and E-N         N-E and S-W
 *     d         W-N and E-S         N-W and S-E
 *
 * A fault inside the array that is not dead joins its own N and S where its path goes south or north, its own W and E where it goes east or
 * west. Every other processor joins nothing: a link that enters a healthy one arrives there, and at a faulty spare or a dead processor the track
 * ends.
 *
 *
 * SESSIONS
 *
 * A session is a map with a plan for it and four counters for each processor inside the array, one for each direction: how many paths of the
 * plan that start at other processors share a processor with a path from there in that direction or are a near-miss with it. The caller holds
 * the session and hands it to each report, which alters it in place. Where chantspruce_start_session accepts a plan the session begins: from
 * then on, after any reports, refused ones among them, its directions are a plan for its grid, and every counter equals its count made afresh.
 * Where it refuses, the session is all 0, and every report to it is refused with 1, and so is every preview.
 *
 * A preview tells what a report would do and alters nothing: the session is only read, and may lie in memory that cannot be written to.
 *
 * A session is the caller's memory like any buffer: it may be copied and kept. Where it is changed by hand, the next report or preview tests N, M,
 * the grid and the directions. Counters are taken as they stand: a report adds 1 to them or takes 1 away, and they stop at 255 and at 0. With
 * wrong counters a report may take a path that is not clear of another; the next one then refuses the session with 6 or 7.
 *
 *
 * FILES
 *
 * A number, 0 to 2,097,151, is one to three bytes, as few as hold it: seven bits in each, the low ones first, and the top
 * bit set in all but the last.
 * A map file: N, M, the number of faults that are not dead, spares among them, then for each its row and its column. Where there are dead
 * processors it goes on with their number and the row and the column of each; else it ends there.
 * A plan file: N, M, the number of paths, then for each path the row and the column of its start and its direction
 * (1 to 4), then the trials on record: any number, as a rule the `count` of the planner's result.
 * Each list is in row order by itself. Each map has one file, and so has each plan with its trials: what the library
 * reads without a refusal is byte for byte what it writes of it again.
 *
 *
 * RESULTS
 *
 * Each result begins with `number`, `place` and `second`. An accepted call has number CHANTSPRUCE_ACCEPTED, which is 0, and 0 in both places;
 * its values follow. A refused call has one of the numbers below and 0 in every value, and leaves every buffer and session as it was. Today these
 * are 1 to 24; what is proved is that none is above 29, which leaves later functions room for more.
 * Tests are made in a fixed order, which each function states, and the first that fails is returned.
 *
 *
 * WHAT THE CALLER MUST SEE TO
 *
 * Any number may be passed for any size, cell, side, position, offset, limit or trials, any bytes in any buffer or session, and any length: a
 * wrong one is refused, but for the counters of a session. Beyond that, as for all C functions:
 *  - A pointer is valid for as many elements as the length after it says, and is aligned for its type. A length is in elements, not in bytes.
 *    A null pointer is never allowed. Where the length is 0 nothing is read or written, and any other pointer will do. A pointer to a session
 *    has no length after it and is valid for one session. That of a report can be written to, also where the report is refused; that of a
 *    preview need not be. A bool is true or false.
 *  - A buffer that a call writes to (a parameter that is no pointer to const) overlaps no other buffer of the same call. Two buffers
 *    that are only read may be the same.
 *  - While a call runs, nothing else writes to its buffers or its session, and nothing else reads those that it writes to.
 *  - CHANTSPRUCE_STACK bytes of stack are free. (This is measured and not proved: each of the three listings takes less
 *    than that, 64 KiB, a preview less than 40 KiB, the start of a session and a report less than 24 KiB each, any other
 *    function less than 16 KiB.)
 *    Nothing is allocated and nothing is kept between calls, so that calls on different buffers and sessions may run at
 *    the same time, and so may calls that only read the same ones, such as previews of one session.
 * Where one of these is not met the behaviour is undefined, and nothing is promised of the result.
 */
#ifndef CHANTSPRUCE_H
#define CHANTSPRUCE_H

#include <stdbool.h>
#include <stddef.h>
#include <stdint.h>

#ifdef __cplusplus
extern "C" {
#endif

/* SIZES */

#define CHANTSPRUCE_BUFFER 1024        /* elements of every buffer that is indexed by position */
#define CHANTSPRUCE_MAX_SIZE 30        /* the largest N, and the largest M */
#define CHANTSPRUCE_MAP_ROOM 2046      /* bytes of the longest map file */
#define CHANTSPRUCE_PLAN_ROOM 2707     /* bytes of the longest plan file */
#define CHANTSPRUCE_LISTING_ROOM 32768 /* bytes that are room for every listing */
#define CHANTSPRUCE_STACK 65536        /* bytes of stack that are enough for every call */

/* The row and the column are below 32, or it is the position of another: 0 and 33 would give that of 1 and 1. */
#define CHANTSPRUCE_POSITION(row, column) (32 * (size_t)(row) + (size_t)(column))
#define CHANTSPRUCE_ROW(position) ((size_t)(position) / 32)
#define CHANTSPRUCE_COLUMN(position) ((size_t)(position) % 32)

/* WHAT BUFFERS HOLD */

enum {
    CHANTSPRUCE_HEALTHY = 0,
    CHANTSPRUCE_FAULTY = 1,
    CHANTSPRUCE_NO_PROCESSOR = 2,
    CHANTSPRUCE_DEAD = 3 /* faulty, and conducts nothing */
};

enum {
    CHANTSPRUCE_NO_PATH = 0,
    CHANTSPRUCE_SOUTH = 1,
    CHANTSPRUCE_NORTH = 2,
    CHANTSPRUCE_EAST = 3,
    CHANTSPRUCE_WEST = 4
};

/* the letters of switches are ASCII */
enum {
    CHANTSPRUCE_NO_SWITCH = 0,
    CHANTSPRUCE_LETTER_A = 97,
    CHANTSPRUCE_LETTER_B = 98,
    CHANTSPRUCE_LETTER_C = 99,
    CHANTSPRUCE_LETTER_D = 100
};

/* SIDES AND PORTS OF A LINK */

/* the side of its cell that a link leaves by */
enum {
    CHANTSPRUCE_SIDE_EAST = 0,
    CHANTSPRUCE_SIDE_SOUTH = 1
};

/* the port of a processor that a link enters by */
enum {
    CHANTSPRUCE_PORT_W = 0,
    CHANTSPRUCE_PORT_E = 1,
    CHANTSPRUCE_PORT_N = 2,
    CHANTSPRUCE_PORT_S = 3
};

/* OUTCOMES OF A PLANNER */

enum {
    CHANTSPRUCE_NO_OUTCOME = 0, /* the call is refused */
    CHANTSPRUCE_REPAIRED = 1,   /* there is a plan, and it is written */
    CHANTSPRUCE_BEYOND = 2,     /* there is no plan at all */
    CHANTSPRUCE_SPENT = 3       /* the limit of trials was reached before either was known; never from the exact planner */
};

/* NUMBERS OF REFUSALS
 *
 * In a function that takes buffers or a session `place` is a position and, for 6 and 7, `second` the other one; in one that reads a file
 * `place` is a byte offset. Where nothing is said of a place it is 0.
 */
enum {
    CHANTSPRUCE_ACCEPTED = 0,
    /* N or M is not 1 to 30. In a file: place is the offset of that number. */
    CHANTSPRUCE_WRONG_SIZE = 1,
    /* A buffer that is indexed by position is not 1,024 elements long. */
    CHANTSPRUCE_WRONG_LENGTH = 2,
    /* The grid has a mark that cannot stand there: not 0, 1 or 3 inside the array, neither 0 nor 1 at a spare, or not 2 elsewhere. Place: the
       lowest such position. */
    CHANTSPRUCE_WRONG_MARK = 3,
    /* A direction is above 4, or is 0 at a fault inside the array, or is not 0 elsewhere. Place: the lowest such position. In
       chantspruce_write_plan, which takes no grid: above 4, or not 0 at a position that is not inside. In chantspruce_check_fault_list: the
       list is not the faults inside the array in row order, each with a direction of 1 to 4; its comment has the place. */
    CHANTSPRUCE_WRONG_DIRECTION = 4,
    /* A path is not open: it runs over another fault, ends on a faulty spare, or starts at a dead processor without being one of the four kinds
       that such a processor may have. Place: where the path starts, the lowest of these. */
    CHANTSPRUCE_PATH_CLOSED = 5,
    /* Two paths share a processor. Place and second: where they start. */
    CHANTSPRUCE_PATHS_MEET = 6,
    /* Two paths are a near-miss. Place and second: where they start. */
    CHANTSPRUCE_NEAR_MISS = 7,
    /* The file ends before all that it announces, or a plan file before its trials. Place: the length of the file. */
    CHANTSPRUCE_FILE_CUT = 8,
    /* The third byte of a number has its top bit set, or its last byte is 0 and not its only one. Place: the offset of
       the number. */
    CHANTSPRUCE_WRONG_NUMBER = 9,
    /* A fault of a map's first list is at no processor, or a path starts at a position that is not inside. Place: the offset of the record's
       row. */
    CHANTSPRUCE_WRONG_POSITION = 10,
    /* A record has the position of an earlier one, in the same list or in the other. Place: the offset of the later record's row. */
    CHANTSPRUCE_REPEATED = 11,
    /* Bytes follow the last record of a map file or the trials of a plan file. A number of dead processors that is 0
       counts as such. Place: the offset of the first of them. */
    CHANTSPRUCE_FILE_GOES_ON = 12,
    /* The direction of a path in a file is not 1 to 4. Place: the offset of the record's row. */
    CHANTSPRUCE_WRONG_FILE_DIRECTION = 13,
    /* The room for what is to be written is too short. Place: the length that is needed. */
    CHANTSPRUCE_NO_ROOM = 14,
    /* There is no such cell, or the side is neither 0 nor 1. In a report or a preview: there is no processor at the position. */
    CHANTSPRUCE_NO_CELL = 15,
    /* A switch buffer has a byte that cannot stand there: not a to d at a switch, or not 0 elsewhere. Place: the lowest such position in
       either buffer. */
    CHANTSPRUCE_WRONG_LETTER = 16,
    /* The track ends: at a port that is not joined, where there is no switch, at a faulty spare or at a dead processor. Place: the last switch
       that the link entered, or the processor of the cell where it entered none. */
    CHANTSPRUCE_TRACK_ENDS = 17,
    /* The link would enter a fourth switch. Place: that switch. */
    CHANTSPRUCE_FOURTH_SWITCH = 18,
    /* A record of a file has a lower position than the record before it in its list. Place: the offset of the record's row. */
    CHANTSPRUCE_WRONG_ORDER = 19,
    /* A dead processor of a map file is at a position that is not inside. Place: the offset of the record's row. */
    CHANTSPRUCE_WRONG_DEAD_POSITION = 20,
    /* The trials to be written are more than 2,097,151, the highest number of a file. */
    CHANTSPRUCE_WRONG_TRIALS = 21,
    /* A processor is reported as failing that is faulty already, or as recovering that is healthy. Place: its position. */
    CHANTSPRUCE_NOTHING_NEW = 22,
    /* A processor is reported as failing that lies on a path of the plan, a spare at its end among them, or as recovering that is dead. Place:
       its position. */
    CHANTSPRUCE_IN_USE_OR_DEAD = 23,
    /* A processor inside the array is reported as failing, and no direction qualifies: each of its paths is closed or has a counter that is
       not 0. Place: its position. */
    CHANTSPRUCE_NO_DIRECTION = 24
};

/* A FAULT OF A LIST */

typedef struct chantspruce_fault {
    size_t position;
    uint8_t direction; /* CHANTSPRUCE_SOUTH, _NORTH, _EAST or _WEST: where its path goes */
} chantspruce_fault;

/* A SESSION */

typedef struct chantspruce_session {
    size_t rows;    /* N */
    size_t columns; /* M */
    uint8_t grid[CHANTSPRUCE_BUFFER];
    uint8_t directions[CHANTSPRUCE_BUFFER];
    /* the counters of each direction, by position; 0 where no processor inside the array is */
    uint8_t south[CHANTSPRUCE_BUFFER];
    uint8_t north[CHANTSPRUCE_BUFFER];
    uint8_t east[CHANTSPRUCE_BUFFER];
    uint8_t west[CHANTSPRUCE_BUFFER];
} chantspruce_session;

/* RESULTS */

/* Of the plan checks, the placement, the routing and the reports to a session. */
typedef struct chantspruce_verdict {
    uint32_t number;
    size_t place;
    size_t second;
} chantspruce_verdict;

/* Of the start of a session. */
typedef struct chantspruce_started {
    uint32_t number;
    size_t place;
    size_t second;
    chantspruce_session session; /* all 0 where the call is refused */
} chantspruce_started;

/* Of the preview of a report. */
typedef struct chantspruce_preview {
    uint32_t number;
    size_t place;
    size_t second;
    uint32_t direction; /* that the processor would have: CHANTSPRUCE_SOUTH, _NORTH, _EAST or _WEST; 0 for a spare and for a recovery */
    /* all counters as they would be, as in a session; all 0 where the call is refused */
    uint8_t south[CHANTSPRUCE_BUFFER];
    uint8_t north[CHANTSPRUCE_BUFFER];
    uint8_t east[CHANTSPRUCE_BUFFER];
    uint8_t west[CHANTSPRUCE_BUFFER];
} chantspruce_preview;

/* Of the planners and of the runs. */
typedef struct chantspruce_plan {
    uint32_t number;
    size_t place;
    size_t second;
    uint32_t outcome; /* CHANTSPRUCE_REPAIRED, _BEYOND or _SPENT; CHANTSPRUCE_NO_OUTCOME where the call is refused */
    uint32_t count;   /* the trials made; the limit where the outcome is _SPENT; 0 from the exact planner, always */
    size_t links;     /* of a run after _REPAIRED: the links to a neighbour that were followed and found to reach it; else 0 */
} chantspruce_plan;

/* Of the follower. */
typedef struct chantspruce_link {
    uint32_t number;
    size_t place;
    size_t second;
    size_t position;   /* of the processor that the link enters */
    uint32_t port;     /* CHANTSPRUCE_PORT_W, _E, _N or _S of that processor */
    uint32_t switches; /* how many switches the link passes: 0 to 3 */
} chantspruce_link;

/* Of the number reader. */
typedef struct chantspruce_number {
    uint32_t number;
    size_t place;
    size_t second;
    uint32_t value; /* the number read: 0 to 2,097,151 */
    size_t next;    /* the offset of the byte after it */
} chantspruce_number;

/* Of the map reader. */
typedef struct chantspruce_head {
    uint32_t number;
    size_t place;
    size_t second;
    size_t rows;    /* N */
    size_t columns; /* M */
    size_t count;   /* of faults, spares and dead processors among them */
} chantspruce_head;

/* Of the plan reader. */
typedef struct chantspruce_plan_head {
    uint32_t number;
    size_t place;
    size_t second;
    size_t rows;     /* N */
    size_t columns;  /* M */
    size_t count;    /* of paths */
    uint32_t trials; /* on record: 0 to 2,097,151 */
} chantspruce_plan_head;

/* Of the file writers and of the listings. */
typedef struct chantspruce_length {
    uint32_t number;
    size_t place;
    size_t second;
    size_t length; /* how many bytes were written */
} chantspruce_length;

/* THE REPAIR. `rows` is N and `columns` is M. */

/* Makes the plan of a map and writes it to `directions`, whatever that holds. The faults inside the array are taken in row order and offered
 * south, north, east and west in this order; each offer is a trial. A fault keeps the first direction whose path is open and is compatible
 * with the paths before it; where it has none left the fault before it goes on to its next direction. So the plan is the first of all
 * plans in this order, and the trials it takes depend on the map alone.
 * The outcome is _SPENT exactly where the map takes more trials than `limit`; else _BEYOND exactly where there is no plan; else _REPAIRED.
 * After _BEYOND and _SPENT the whole of `directions` is 0.
 * Refuses 1, 2, 3, in this order. */
chantspruce_plan chantspruce_plan_repair(size_t rows, size_t columns,
                                         const uint8_t *grid, size_t grid_length,
                                         uint8_t *directions, size_t directions_length,
                                         uint32_t limit);

/* The quick planner: it does the same, but settles outer faults before any trial. The sides are west, east, north and
 * south, in this order. For each it looks only at one line, the outermost with an unsettled fault inside the array: for
 * west the leftmost such column, for east the rightmost, for north the uppermost such row, for south the lowest. On the
 * first of these sides that has one, the fault of lowest position whose path there is open is settled with this path.
 * This is done again, with the lines of the faults that are still unsettled and from west on, until no side has such a
 * fault. A settled fault still closes every other path that runs over it. The faults that are left are offered directions
 * as above, beside the settled paths, and only these offers are trials. They are usually few, and none where all faults
 * are settled.
 * The outcome is _SPENT exactly where these trials are more than `limit`; else _BEYOND exactly where there is no plan;
 * else _REPAIRED. So, where neither this planner nor chantspruce_plan_repair is spent, both have the same outcome; and
 * each may decide a map on which the other is spent. The plan may be another one.
 * After _BEYOND and _SPENT the whole of `directions` is 0.
 * Refuses 1, 2, 3, in this order. */
chantspruce_plan chantspruce_plan_quickly(size_t rows, size_t columns,
                                          const uint8_t *grid, size_t grid_length,
                                          uint8_t *directions, size_t directions_length,
                                          uint32_t limit);

/* The exact planner: it takes no limit and decides every map. The outcome is _BEYOND exactly where there is no plan, else
 * _REPAIRED, and never _SPENT; `count` is 0, since no trials are counted. The plan is the first of all plans in the order
 * of chantspruce_plan_repair. So, wherever that planner is not spent, both have the same outcome and write the same.
 * After _BEYOND the whole of `directions` is 0. docs/SPEED.md has its time, on the hardest maps found too.
 * Refuses 1, 2, 3, in this order. */
chantspruce_plan chantspruce_plan_exactly(size_t rows, size_t columns,
                                          const uint8_t *grid, size_t grid_length,
                                          uint8_t *directions, size_t directions_length);

/* Writes to `places` which processor holds each cell, for a plan.
 * Refuses 1 to 7, in this order, 6 and 7 pair by pair: what it refuses is no plan for this grid. */
chantspruce_verdict chantspruce_place_cells(size_t rows, size_t columns,
                                            const uint8_t *grid, size_t grid_length,
                                            const uint8_t *directions, size_t directions_length,
                                            uint16_t *places, size_t places_length);

/* Writes the letters of all switches to `across` and `down`, for a plan.
 * Refuses 1 to 7, in this order, 6 and 7 pair by pair. */
chantspruce_verdict chantspruce_route_switches(size_t rows, size_t columns,
                                               const uint8_t *grid, size_t grid_length,
                                               const uint8_t *directions, size_t directions_length,
                                               uint8_t *across, size_t across_length,
                                               uint8_t *down, size_t down_length);

/* Follows the link of a cell, which is given by its position, on a side (CHANTSPRUCE_SIDE_EAST or _SOUTH) through switches that may
 * hold any letters. With the letters that chantspruce_route_switches writes for a plan, the link of each cell that has a right neighbour leads
 * on its east side to the processor that holds this neighbour, by port W, and that of each cell with a lower neighbour on its south side to
 * that one's, by port N, each over at most three switches and on track that no other of these links uses. A side without a neighbour may be
 * followed too: its link ends on a spare or is refused.
 * Refuses 1 to 7, 15, 16, in this order, then 17 or 18. */
chantspruce_link chantspruce_follow_link(size_t rows, size_t columns,
                                         const uint8_t *grid, size_t grid_length,
                                         const uint8_t *directions, size_t directions_length,
                                         const uint8_t *across, size_t across_length,
                                         const uint8_t *down, size_t down_length,
                                         size_t cell, size_t side);

/* One run: chantspruce_plan_repair, and after _REPAIRED also the placement, the routing and the follower, for every link
 * to a neighbour. `links` is then N * (M - 1) + M * (N - 1), all of these links. After _BEYOND and _SPENT `places`,
 * `across` and `down` are as before the call.
 * Refuses 1, 2 (of any of the five buffers), 3, in this order. */
chantspruce_plan chantspruce_repair_run(size_t rows, size_t columns,
                                        const uint8_t *grid, size_t grid_length,
                                        uint32_t limit,
                                        uint8_t *directions, size_t directions_length,
                                        uint16_t *places, size_t places_length,
                                        uint8_t *across, size_t across_length,
                                        uint8_t *down, size_t down_length);

/* The same run with chantspruce_plan_quickly in place of chantspruce_plan_repair.
 * Refuses 1, 2 (of any of the five buffers), 3, in this order. */
chantspruce_plan chantspruce_run_quickly(size_t rows, size_t columns,
                                         const uint8_t *grid, size_t grid_length,
                                         uint32_t limit,
                                         uint8_t *directions, size_t directions_length,
                                         uint16_t *places, size_t places_length,
                                         uint8_t *across, size_t across_length,
                                         uint8_t *down, size_t down_length);

/* The same run with chantspruce_plan_exactly, without a limit.
 * Refuses 1, 2 (of any of the five buffers), 3, in this order. */
chantspruce_plan chantspruce_run_exactly(size_t rows, size_t columns,
                                         const uint8_t *grid, size_t grid_length,
                                         uint8_t *directions, size_t directions_length,
                                         uint16_t *places, size_t places_length,
                                         uint8_t *across, size_t across_length,
                                         uint8_t *down, size_t down_length);

/* Tells whether `directions` is a plan for the grid, whoever made it. It writes nothing.
 * Refuses 1 to 7, in this order, 6 and 7 pair by pair: pairs are taken by the first path and then by the second, in row order. */
chantspruce_verdict chantspruce_check_plan(size_t rows, size_t columns,
                                           const uint8_t *grid, size_t grid_length,
                                           const uint8_t *directions, size_t directions_length);

/* The same for a plan that is held as a list: whether it is the faults inside the array in row order, each with the direction of its path in a
 * plan. `count` is the number of elements and may be any.
 * Refuses 1, 2 (of the grid), 3, 4, 5, then 6 and 7 pair by pair, in this order. For 4 the list and the faults inside the array are compared
 * from the first on. Where they part, the place is the lower of the two positions, or, where one of them has ended, the position of the other. */
chantspruce_verdict chantspruce_check_fault_list(size_t rows, size_t columns,
                                                 const uint8_t *grid, size_t grid_length,
                                                 const chantspruce_fault *faults, size_t count);

/* FIELD REPORTS */

/* Starts a session from a plan, with every counter made afresh.
 * Refuses 1 to 7, in this order, 6 and 7 pair by pair: what it refuses is no plan for this grid. */
chantspruce_started chantspruce_start_session(size_t rows, size_t columns,
                                              const uint8_t *grid, size_t grid_length,
                                              const uint8_t *directions, size_t directions_length);

/* Reports to a session that the processor at a position fails, or recovers where `failing` is false, and alters the session.
 * A failing processor inside the array gets the mark CHANTSPRUCE_FAULTY and a path: south, north, east and west are taken in this order, and it
 * keeps the first whose path is open and whose counter is 0. session->directions has it afterwards. A failing spare is only marked, and may
 * fail where no path of the plan ends on it. A processor that recovers gets the mark CHANTSPRUCE_HEALTHY and loses its path, if it has one. No
 * other path changes. The counters in which the path that comes or goes is counted change by 1, and no others; none goes below 0 or above 255.
 * Refuses 1 to 7 of the session, in this order, 6 and 7 pair by pair, then 15, 22, 23, 24, in this order. */
chantspruce_verdict chantspruce_report_processor(chantspruce_session *session, bool failing, size_t position);

/* Previews that report: gives what chantspruce_report_processor would answer and leave, and alters nothing. An accepted preview has the direction
 * that the processor would have, which is 0 for a spare and for a recovery, and all counters as they would be, those that would stay as they
 * are among them; in a refused one the direction and all counters are 0. The same report made next, of a session that was not changed in between,
 * has the same number, place and second; where it is accepted the session then has this direction at the position and these counters.
 * The session is only read: it may lie in memory that cannot be written to, and others may read it during the call.
 * Refuses what the report refuses: 1 to 7 of the session, in this order, 6 and 7 pair by pair, then 15, 22, 23, 24, in this order. */
chantspruce_preview chantspruce_preview_processor(const chantspruce_session *session, bool failing, size_t position);

/* FILES */

/* Reads the number at the offset `at` of a file.
 * Refuses 8, 9. An offset past the end is 8. */
chantspruce_number chantspruce_read_number(const uint8_t *file, size_t file_length, size_t at);

/* Reads a map file and writes its grid.
 * Refuses 2, then what comes first in the file: 1 at N and M, 8 and 9 at every number; 10, 11, 19 in this order at each record, when all its
 * numbers are read, and 20 instead of 10 in the list of dead processors; 12 at a number of dead processors that is 0 and at the end. */
chantspruce_head chantspruce_read_map(const uint8_t *file, size_t file_length,
                                      uint8_t *grid, size_t grid_length);

/* Reads a plan file and writes its directions. Only chantspruce_check_plan tells whether they are a plan for a grid.
 * Refuses 2, then what comes first in the file: 1 at N and M, 8 and 9 at every number; 10, 11, 13, 19 in this order at each record, when all
 * its numbers are read; 12 after the trials. */
chantspruce_plan_head chantspruce_read_plan(const uint8_t *file, size_t file_length,
                                            uint8_t *directions, size_t directions_length);

/* Writes the map file of a grid to `out`, which has room for `out_length` bytes, and keeps the bytes after it. CHANTSPRUCE_MAP_ROOM is
 * always enough.
 * Refuses 1, 2, 3, 14, in this order. */
chantspruce_length chantspruce_write_map(size_t rows, size_t columns,
                                         const uint8_t *grid, size_t grid_length,
                                         uint8_t *out, size_t out_length);

/* Writes the plan file of directions, with `trials` on record, to `out`, which has room for `out_length` bytes, and keeps
 * the bytes after it. CHANTSPRUCE_PLAN_ROOM is always enough.
 * Refuses 1, 2, 4, 21, 14, in this order. */
chantspruce_length chantspruce_write_plan(size_t rows, size_t columns,
                                          const uint8_t *directions, size_t directions_length,
                                          uint32_t trials,
                                          uint8_t *out, size_t out_length);

/* Writes the listing of a map file, as lines of ASCII text without a 0 at the end, to `out`, which has room for
 * `out_length` bytes, and keeps the bytes after it. CHANTSPRUCE_LISTING_ROOM is always enough. The map is planned as by
 * chantspruce_plan_repair, with a limit of 1,000,000 trials. The lines are
 *     map N M faults                      all faults, spares and dead processors among them
 *     repaired trials | beyond trials | spent limit
 *     path row column letter              of each fault inside the array, in row order; the letter is S, N, E or W
 *     cell i j row column                 of each cell, with the processor that holds it
 *     across letters                      of all across switches, in row order
 *     down letters                        of all down switches, in row order
 * with the last four kinds only after `repaired`. For a file that is no map the listing is the line `refused number place`, and the call
 * is accepted.
 * Refuses 14. */
chantspruce_length chantspruce_report(const uint8_t *file, size_t file_length,
                                      uint8_t *out, size_t out_length);

/* The same listing, planned as by chantspruce_plan_quickly.
 * Refuses 14. */
chantspruce_length chantspruce_report_quickly(const uint8_t *file, size_t file_length,
                                              uint8_t *out, size_t out_length);

/* The same listing, planned as by chantspruce_plan_exactly. After the first line of a map comes `repaired` or `beyond`
 * with no number.
 * Refuses 14. */
chantspruce_length chantspruce_report_exactly(const uint8_t *file, size_t file_length,
                                              uint8_t *out, size_t out_length);

/* The library is built for machines whose size_t has 64 bits and is aligned to 8 bytes. */
typedef char chantspruce_size_t_has_64_bits[sizeof(size_t) == 8 ? 1 : -1];
typedef char chantspruce_fault_has_16_bytes[sizeof(chantspruce_fault) == 16 ? 1 : -1];
typedef char chantspruce_session_has_6160_bytes[sizeof(chantspruce_session) == 6160 ? 1 : -1];
typedef char chantspruce_preview_has_4128_bytes[sizeof(chantspruce_preview) == 4128 ? 1 : -1];

#ifdef __cplusplus
}
#endif

#endif
