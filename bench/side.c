#include "side.h"
#include "plain.h"
#include "reading.h"

const side proved = {
    .name = "desk",
    .open_floor = desk_open_floor,
    .start_look = desk_start_look,
    .start_insert = desk_start_insert,
    .start_remove = desk_start_remove,
    .turn = desk_turn,
    .run = desk_run,
    .retire = desk_retire,
    .move = desk_move,
    .show = desk_show,
    .show_refusal = desk_show_refusal,
    .count = desk_count,
    .total = desk_total,
    .next_occupied = desk_next_occupied,
    .orders = desk_orders,
};

const side by_hand = {
    .name = "plain",
    .open_floor = plain_open_floor,
    .start_look = plain_start_look,
    .start_insert = plain_start_insert,
    .start_remove = plain_start_remove,
    .turn = plain_turn,
    .run = plain_run,
    .retire = plain_retire,
    .move = plain_move,
    .show = plain_show,
    .show_refusal = plain_show_refusal,
    .count = plain_count,
    .total = plain_total,
    .next_occupied = plain_next_occupied,
    .orders = plain_orders,
};

const side tuned = {.name = "tuned", .orders = tuned_orders};

const side reading = {.name = "read", .total = read_total, .next_occupied = read_next, .occupied = read_occupied};

const side nobody = {.name = "nobody"};
