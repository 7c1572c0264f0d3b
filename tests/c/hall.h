/* A hall: a floor with the board, the records and the index that belong to it, and the library's calls on it. For the program that checks
   them, which is desk.c, tickets.c, asleep.c, reports.c, orders.c, retire.c, display.c, move.c and refusals.c. */
#ifndef HALL_H
#define HALL_H

#include "desk.h"

/* Room for more than the rules allow, so that too much can be lent, and what stands past the end can be seen to stay. */
enum { ROOM_FOR_WORKERS = 66, ROOM_FOR_BUCKETS = 257, ROOM_FOR_ENTRIES = 8, ROOM_FOR_TURNS = 65536 };
enum { ROOM_FOR_WORDS = DESK_BUCKET_WORDS * ROOM_FOR_BUCKETS };

typedef struct {
    uint64_t board[ROOM_FOR_WORDS];
    size_t words;
    desk_worker records[ROOM_FOR_WORKERS];
    size_t listed;
    uint64_t index[ROOM_FOR_ENTRIES];
    size_t entries;
    desk_floor floor;
} hall;

extern hall one, two, before;
extern uint8_t many[ROOM_FOR_TURNS];

/* Counts a check, and says where it does not hold. */
void check(bool holds, const char *what, const char *file, int line);
#define CHECK(holds) check((holds), #holds, __FILE__, __LINE__)

/* What a refused turn reports, and what a run keeps that did no turn. */
extern const desk_report refused_report, no_turn;

bool same_report(desk_report a, desk_report b);
bool same_record(const desk_worker *a, const desk_worker *b);
bool same_floor(desk_floor a, desk_floor b);
bool same_hall(const hall *a, const hall *b);
void copy_hall(hall *to, const hall *from);

/* Puts something into every word, record, entry and the floor that an opening has to clear and no other call may touch. */
void fill(hall *h);
/* A hall that was filled and then opened. In the floor's spare, where the opening has left 0, is another number then: every other call has to
   hand on what it finds there, whatever it is (§2.1). */
void opened(hall *h, size_t workers, size_t buckets, uint32_t version);

/* Whether a record is busy and not broken: a start for its worker is then refused by 4. */
bool is_busy(desk_worker w);

/* The valid slots of a bucket, by its mark word. */
size_t valid_slots(uint64_t word);
/* Makes the index anew, by a full reading of the board: for a board on which words were put by hand, so that no call kept it. */
void read_anew(hall *h);
/* Whether the index is what a full reading would make it (§21.1). */
bool is_true(const hall *h);

/* Numbers that look random and are the same each time (Steele, Lea and Flood's SplitMix). */
size_t below(size_t bound);

/* The calls; each keeps the floor that comes back, which is held to what an opening or a start may change of it. Of a turn that is done the
   report's bucket is held to the lot, its two words to the board, every record to §20.2 and the index to §21.2, and one that is refused to
   leaving all of these; of a run the last report and all that it leaves to the same turns one by one; a retiring to what it may change, and
   to changing nothing where it is refused; and all orders to changing nothing. */
uint8_t open_hall(hall *h, size_t workers, size_t buckets, uint32_t version);
uint8_t start_look(hall *h, size_t worker, uint64_t lot);
uint8_t start_insert(hall *h, size_t worker, uint64_t lot, uint64_t ticket);
uint8_t start_remove(hall *h, size_t worker, uint64_t lot);
desk_turn_outcome turn(hall *h, size_t worker);
desk_run_outcome run(hall *h, const uint8_t *turns, size_t count);
uint8_t retire(hall *h, size_t worker);
desk_orders_outcome orders(const hall *h, size_t depth);
desk_total_outcome total(const hall *h);
desk_next_outcome next_occupied(const hall *h, size_t from);

/* Moves the lots of one hall to another, which has a board of its own with something in every word, and the first one's records, index and
   floor. Of the first nothing may change. The second one's board, index and floor are held to what a move leaves (§22), and to staying where
   it is refused; its records to staying, and what stands before and after its board too. `move_to` lends so many words, `move` eight for
   each bucket. */
uint8_t move_to(const hall *from, hall *to, size_t words, size_t buckets);
uint8_t move(const hall *from, hall *to, size_t buckets);

/* The same on hall `one`, where they are refused: the number, once all else that came back is seen to tell nothing. */
uint8_t refused_turn(size_t worker);
uint8_t refused_run(const uint8_t *turns, size_t count);
uint8_t refused_orders(size_t depth);

/* A call on hall `one` that gives this number, and leaves everything as it was. */
#define REFUSED(number, call)                  \
    do {                                       \
        copy_hall(&before, &one);              \
        CHECK((call) == (number));             \
        CHECK(same_hall(&one, &before));       \
    } while (0)

/* Whether a run came to these numbers. */
bool counts(desk_run_outcome r, uint32_t turns, uint32_t changes, uint32_t lost, uint32_t full, uint8_t stop);

/* Whether all orders came to these numbers, and were not refused. */
bool walked(desk_orders_outcome o, uint64_t finished, uint64_t cut, uint64_t lost, uint64_t most);

/* The checks of tickets.c, of asleep.c, of reports.c, of orders.c, of retire.c, of display.c, of move.c and of refusals.c. */
void test_tickets(void);
void test_asleep(void);
void test_reports(void);
void test_orders(void);
void test_retire(void);
void test_display(void);
void test_move(void);
void test_refusals(void);

#endif
