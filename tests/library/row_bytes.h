// A row written out byte by byte, and what becomes of it: the places of document 01, Part 4, without the reference's word for them.
#ifndef ROW_BYTES_H
#define ROW_BYTES_H

#include "desk_reference.h"

// A ready time token with period 1 and d = 3, and one error below its limit.
static const uint8_t ready_row[DL_ROW_BYTES] = {
    2, 0, 3, 6, 1, 5, 4, 16, 0x88, 0x89, 0x8a, 0x8b, 0x8c, 0x8d, 0x8e, 0x8f,
    'a', ' ', 'k', 'e', 'y', ' ', 'o', 'f', ' ', '1', '6', ' ', 'b', 'y', 't', 'e', 0, 0, 0, 0, 0, 0, 0, 0, 0, 0, 0, 0, 0, 0, 0, 0,
    0, 0, 0, 0x12, 0x34, 0x56, 0x78, 0x90, 0x02, 0x5b, 0, 0, 0, 0, 0, 60,
    0, 0, 0, 0xf0, 0, 0, 0, 0, 0, 0, 0, 0, 0, 0, 0, 0,
    0, 0, 0, 0x05, 0x04, 0x03, 0x02, 0x01, 0, 0, 0, 0, 0, 0, 0, 0};

#define READY_SERIAL UINT64_C(0x88898a8b8c8d8e8f)
#define READY_CLOCK UINT64_C(0x123456789a)

struct new_byte {
    uint8_t at, byte;
};

enum { NEW_BYTES = 8 };

// By the password of the step five ahead of the clock's: no errors, next six ahead, d = 5, last used now.
static const struct new_byte by_right_login[NEW_BYTES] = {
    {6, 0}, {55, 0xa0}, {57, 0x5d}, {83, 0x12}, {84, 0x34}, {85, 0x56}, {86, 0x78}, {87, 0x9a}};

// By a wrong one: state 3, five errors, locked at now.
static const struct new_byte by_wrong_login[NEW_BYTES] = {
    {0, 3}, {6, 5}, {74, 0}, {75, 0x12}, {76, 0x34}, {77, 0x56}, {78, 0x78}, {79, 0x9a}};

// What the ready row is with this one of its bytes set to ff: damaged, still well formed, or of another serial.
static const char with_ff[] =
    "dddddd.d" "ssssssss" "................" "dddddddddddddddd"
    "ddd....." "d." "dd" "dd.." "ddd....." "dddddddd" "ddd....." "dddddddd";

#endif
