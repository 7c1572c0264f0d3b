/* Plays a sheet from standard input over the engine by hand and writes its listing to standard output, as the proved program does. Neither
   has a display, so its turns keep no index. */
#include "libc.h"
#include "step.h"

enum { LONGEST_SHEET = 16384, MOST_BOARD = BUCKET_WORDS * MOST_BUCKETS, HEAD = 3 };
enum { FLOOR = 1, CALL = 2, TURNS = 3 };
enum { MALFORMED = 8, SHEET_TOO_LONG = 9 };

/* A line takes at most 34 bytes, 20 of them for the answer, and a call that ends has taken a field of 13 bytes and four turns or more: 16,384
   bytes of sheet come to less than 33 KiB of listing. */
enum { MOST_LISTING = 36864 };

static uint8_t sheet[LONGEST_SHEET + 1];
static size_t length;
static char listing[MOST_LISTING];
static size_t listed_bytes;

static uint64_t board[MOST_BOARD];
static desk_worker records[MOST_WORKERS];
static uint64_t index[DESK_INDEX_WORDS]; /* for the opening, which makes one */
static size_t words, listed;
static desk_floor floor;
static desk_totals totals;

/* ---- the listing */

static void put_number(uint64_t number) {
    char digits[20];
    size_t first = sizeof digits;
    do digits[--first] = (char)('0' + number % 10);
    while ((number /= 10) != 0);
    listing[listed_bytes++] = ' ';
    while (first < sizeof digits) listing[listed_bytes++] = digits[first++];
}

static void put_line(char letter, const uint64_t *numbers, size_t many) {
    listing[listed_bytes++] = letter;
    for (size_t i = 0; i < many; i++) put_number(numbers[i]);
    listing[listed_bytes++] = '\n';
}

static void put_end(size_t worker, uint8_t kind, uint64_t answer) {
    put_line('E', (const uint64_t[]){totals.turns, worker, kind, answer}, 4);
}

static void put_totals(void) {
    put_line('T', (const uint64_t[]){totals.turns, totals.changes, totals.lost, totals.full}, 4);
}

static void put_refusal(uint8_t refusal, size_t offset) {
    put_line('R', (const uint64_t[]){refusal, offset}, 2);
}

/* ---- the fields; each answers its refusal, or 0 */

static uint64_t number_at(const uint8_t *bytes, size_t many) {
    uint64_t number = 0;
    for (size_t i = 0; i < many; i++) number = number << 8 | bytes[i];
    return number;
}

static size_t least(size_t a, size_t b) {
    return a < b ? a : b;
}

/* lends no more than there is: the engine refuses a floor that asks for more */
static uint8_t play_floor(const uint8_t *value, size_t size) {
    if (size != 7) return MALFORMED;
    desk_plan plan = {.workers = value[0], .buckets = number_at(value + 1, 2), .version = (uint32_t)number_at(value + 3, 4)};
    words = least(BUCKET_WORDS * plan.buckets, MOST_BOARD);
    listed = least(plan.workers, MOST_WORKERS);
    desk_outcome opened = plain_open_floor(board, words, records, listed, index, DESK_INDEX_WORDS, floor, plan);
    floor = opened.floor;
    return opened.refusal;
}

static desk_outcome start(uint8_t kind, size_t worker, uint64_t lot, uint64_t ticket) {
    desk_bid bid = {.lot = lot, .ticket = ticket};
    if (kind == LOOK) return plain_start_look(board, words, records, listed, floor, worker, lot);
    if (kind == REMOVE) return plain_start_remove(board, words, records, listed, floor, worker, lot);
    return plain_start_insert(board, words, records, listed, floor, worker, bid);
}

/* worker, kind and lot come first; behind them an insert has its ticket, in four bytes or in eight (§8.3) */
enum { ASKED = 10, SHORT_TICKET = 4, LONG_TICKET = 8 };

static bool call_fits(uint8_t kind, size_t size) {
    if (kind == INSERT) return size == ASKED + SHORT_TICKET || size == ASKED + LONG_TICKET;
    return (kind == LOOK || kind == REMOVE) && size == ASKED;
}

/* of a call that has no ticket no byte is left for one, which makes 0 */
static uint8_t play_call(const uint8_t *value, size_t size) {
    if (size < ASKED || !call_fits(value[1], size)) return MALFORMED;
    desk_outcome started = start(value[1], value[0], number_at(value + 2, 8), number_at(value + ASKED, size - ASKED));
    floor = started.floor;
    return started.refusal;
}

/* of the stores, only the one that ends a call is a change */
static void add_up(const desk_report *report) {
    totals.turns++;
    totals.changes += report->action == DESK_WON || (report->action == DESK_STORE && report->ended);
    totals.lost += report->action == DESK_LOST;
    totals.full += report->full;
}

static uint8_t give_turn(size_t worker, desk_report *report) {
    if (!hall_fits(words, listed, floor.workers, floor.buckets)) return DESK_WRONG_SIZES;
    size_t number;
    uint8_t refusal = refuse_turn(board, records, &floor, worker, &number);
    if (refusal != 0) return refusal;
    *report = do_turn(board, records, worker, number);
    let_sleep(records, listed, worker);
    return 0;
}

static uint8_t play_turns(const uint8_t *value, size_t size) {
    if (size == 0) return MALFORMED;
    for (size_t i = 0; i < size; i++) {
        size_t worker = value[i];
        /* a turn that ends the call leaves an idle record, so the kind is taken before */
        uint8_t kind = worker < listed ? records[worker].kind : 0;
        desk_report report;
        uint8_t refusal = give_turn(worker, &report);
        if (refusal != 0) return refusal;
        add_up(&report);
        if (report.ended) put_end(worker, kind, report.answer);
    }
    return 0;
}

static uint8_t play_field(size_t offset, size_t size) {
    uint8_t tag = sheet[offset];
    const uint8_t *value = sheet + offset + HEAD;
    if ((tag == FLOOR) != (offset == 0)) return MALFORMED;
    switch (tag) {
    case FLOOR: return play_floor(value, size);
    case CALL: return play_call(value, size);
    case TURNS: return play_turns(value, size);
    default: return MALFORMED;
    }
}

/* ---- the sheet */

static void play(void) {
    size_t offset = 0;
    do {
        size_t left = length - offset;
        size_t size = left < HEAD ? 0 : number_at(sheet + offset + 1, 2);
        bool cut = left < HEAD || left - HEAD < size;
        uint8_t refusal = cut ? MALFORMED : play_field(offset, size);
        if (refusal != 0) {
            put_refusal(refusal, offset);
            return;
        }
        offset += HEAD + size;
    } while (offset < length);
    put_totals();
}

static void read_sheet(void) {
    long got;
    while (length < sizeof sheet && (got = read(0, sheet + length, sizeof sheet - length)) > 0) length += (size_t)got;
}

static bool write_listing(void) {
    size_t done = 0;
    while (done < listed_bytes) {
        long put = write(1, listing + done, listed_bytes - done);
        if (put <= 0) return false;
        done += (size_t)put;
    }
    return true;
}

int main(void) {
    read_sheet();
    if (length > LONGEST_SHEET) put_refusal(SHEET_TOO_LONG, 0);
    else play();
    return write_listing() ? 0 : 1;
}
