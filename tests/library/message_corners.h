// Messages written out byte by byte, with the answers and rows that document 02, request 1, gives them, without the reference.
#ifndef MESSAGE_CORNERS_H
#define MESSAGE_CORNERS_H

#include "plain_row.h"

// ---- parts of the messages, of which the first two come before every body's length

#define PLAIN_HEAD "15 00 01 0000000000000000 3132333435363738 "
#define SEALED_HEAD "19 80 01 0000000000000000 3132333435363738 "
#define SERIAL_7 " 00 0002 08 0000000000000007"
#define OF_STEP_35 " 00 0003 06 313233343536" // the password 123456
#define OF_STEP_36 " 00 0004 06 313830313330" // the following one, 180130
#define OF_STEPS_42_AND_43 " 00 0003 06 363331363733 00 0004 06 333431353534"
#define QUAY " 00 0006 04 71756179"
#define BY_QUAY " 00 0007 06 363139323435" // the password of step 35 for this challenge, 619245

// The example of a login, serial 7 and password 123456, plain and with its MAC.
#define PLAIN_EXAMPLE "15000100000000000000003132333435363738001b000100000200000208000000000000000700000306313233343536"
#define SEALED_EXAMPLE "19800100000000000000003132333435363738001b9a719e86000100000200000208000000000000000700000306313233343536"

// ---- the messages

// The plain row, whose serial is 7, in a state; but for a clock of 2^40, five bytes of a table, and zero rows. Else the clock is 1060.
enum corner_place {
    NOT_ACTIVATED = 1, READY, LOCKED = 4, SUSPENDED, AT_CLOCK_END, ON_FIVE_BYTES, ON_ZERO_ROWS,
};

struct message_corner {
    const char *name, *hex;
    enum corner_place place;
    uint16_t code;
    size_t values_set;
    int64_t values[DL_MOST_VALUES];
    struct change after[MOST_CHANGES];
};

#define STEP_35 2, {35, 0}, {ACCEPTED(35, 1060)}
#define STEP_36 2, {36, 1}, {ACCEPTED(36, 1060), OFFSET(1)}
#define UNCHANGED 0, {0}, KEPT

// Every service, plain or with its MAC, and what is no fault of a message.
static const struct message_corner served_corners[] = {
    {"the example", PLAIN_EXAMPLE, READY, 0x0001, STEP_35},
    {"the example with a MAC", SEALED_EXAMPLE, READY, 0x0001, STEP_35},
    {"items in the other order", PLAIN_HEAD "001b 0001 0000 02" OF_STEP_35 SERIAL_7, READY, 0x0001, STEP_35},
    {"the same with a MAC", SEALED_HEAD "001b 1de8cfa6 0001 0000 02" OF_STEP_35 SERIAL_7, READY, 0x0001, STEP_35},
    {"any caller and call number", "15 00 01 ffffffffffffffff 0000000000000000 001b 0001 0000 02" SERIAL_7 OF_STEP_35, READY, 0x0001, STEP_35},
    {"challenge login", PLAIN_HEAD "0023 0002 0000 03" SERIAL_7 QUAY BY_QUAY, READY, 0x0002, STEP_35},
    {"challenge login with a MAC", SEALED_HEAD "0023 198a9375 0002 0000 03" SERIAL_7 QUAY BY_QUAY, READY, 0x0002, STEP_35},
    {"activate", PLAIN_HEAD "0025 0101 0000 03" OF_STEP_36 OF_STEP_35 SERIAL_7, NOT_ACTIVATED, 0x0101, 2, {36, 1},
     {{ROW_STATE, 2}, ACCEPTED(36, 1060), OFFSET(1)}},
    {"lock", SEALED_HEAD "0011 5ce3a45f 0102 0000 01" SERIAL_7, READY, 0x0102, 0, {0}, {{ROW_STATE, 4}}},
    {"unlock", PLAIN_HEAD "001b 0103 0000 02" SERIAL_7 OF_STEP_35, LOCKED, 0x0103, 2, {35, 0}, {{ROW_STATE, 2}, ACCEPTED(35, 1060)}},
    {"suspend", SEALED_HEAD "0011 5a87ca3d 0104 0000 01" SERIAL_7, READY, 0x0104, 0, {0}, {{ROW_STATE, 5}}},
    {"resume", PLAIN_HEAD "001b 0105 0000 02" SERIAL_7 OF_STEP_35, SUSPENDED, 0x0105, 2, {35, 0}, {{ROW_STATE, 2}, ACCEPTED(35, 1060)}},
    {"sync, medium", PLAIN_HEAD "0025 0108 0001 03" SERIAL_7 OF_STEP_36 OF_STEP_35, READY, 0x0108, STEP_36},
    {"sync, large", SEALED_HEAD "0025 3f741970 0108 0002 03" SERIAL_7 OF_STEP_35 OF_STEP_36, READY, 0x0108, STEP_36},
    {"sync, steps of the large window, medium", PLAIN_HEAD "0025 0108 0001 03" SERIAL_7 OF_STEPS_42_AND_43, READY, 0x8105, 0, {0},
     {{ROW_ERRORS, 1}}},
    {"sync, steps of the large window, large", PLAIN_HEAD "0025 0108 0002 03" SERIAL_7 OF_STEPS_42_AND_43, READY, 0x0108, 2, {43, 8},
     {ACCEPTED(43, 1060), OFFSET(8)}},
    {"void", PLAIN_HEAD "0011 010a 0000 01" SERIAL_7, READY, 0x010a, 0, {0}, {{ROW_STATE, 6}, {ROW_KEY, 0}}},
    {"query", SEALED_HEAD "0011 f7b6ba5e 010b 0000 01" SERIAL_7, READY, 0x010b, 3, {2, 0, 0}, KEPT},
    {"query of the last serial", PLAIN_HEAD "0011 010b 0000 01 00 0002 08 ffffffffffffffff", ON_ZERO_ROWS, 0x8402, UNCHANGED},
    {"serial 7 as if its bytes were turned round", PLAIN_HEAD "0011 0102 0000 01 00 0002 08 0700000000000000", READY, 0x8402, UNCHANGED},
    {"the example on zero rows", PLAIN_EXAMPLE, ON_ZERO_ROWS, 0x8402, UNCHANGED},
    {"the example, not activated", SEALED_EXAMPLE, NOT_ACTIVATED, 0x8406, UNCHANGED},
    {"activate with its passwords exchanged", PLAIN_HEAD "0025 0101 0000 03" SERIAL_7 " 00 0003 06 313830313330 00 0004 06 313233343536",
     NOT_ACTIVATED, 0x8102, 0, {0}, {{ROW_ERRORS, 1}}},
    {"challenge login with the login's password", PLAIN_HEAD "0023 0002 0000 03" SERIAL_7 QUAY " 00 0007 06 313233343536", READY, 0x8002, 0, {0},
     {{ROW_ERRORS, 1}}},
    {"seven digits", PLAIN_HEAD "001c 0001 0000 02" SERIAL_7 " 00 0003 07 31323334353637", READY, 0x8002, 0, {0}, {{ROW_ERRORS, 1}}},
    {"eight digits, as many as the serial has bytes, before it", PLAIN_HEAD "001d 0001 0000 02 00 0003 08 3132333435363738" SERIAL_7, READY,
     0x8002, 0, {0}, {{ROW_ERRORS, 1}}},
    {"a password of no bytes", PLAIN_HEAD "0015 0001 0000 02" SERIAL_7 " 00 0003 00", READY, 0x9005, UNCHANGED},
    {"a password with a letter", PLAIN_HEAD "001b 0001 0000 02" SERIAL_7 " 00 0003 06 31323334356f", READY, 0x9005, UNCHANGED},
    {"a challenge of no bytes", PLAIN_HEAD "001f 0002 0000 03" SERIAL_7 " 00 0006 00" BY_QUAY, READY, 0x9005, UNCHANGED},
    {"a response of no bytes", PLAIN_HEAD "001d 0002 0000 03" SERIAL_7 QUAY " 00 0007 00", READY, 0x9005, UNCHANGED},
    {"the example at 2^40", PLAIN_EXAMPLE, AT_CLOCK_END, 0x9005, UNCHANGED},
    {"the example on five bytes", SEALED_EXAMPLE, ON_FIVE_BYTES, 0x9005, UNCHANGED},
    {"query at 2^40", PLAIN_HEAD "0011 010b 0000 01" SERIAL_7, AT_CLOCK_END, 0x9005, UNCHANGED},
};

// What only 9001, 9002 or 9004 can be the answer to, whatever the place.
static const struct {
    const char *name, *hex;
    uint16_t code;
} refused_corners[] = {
    {"no bytes", "", 0x9001},
    {"20 bytes", "15 00 01 0000000000000000 3132333435363738 00", 0x9001},
    {"the header alone", PLAIN_HEAD "001b", 0x9001},
    {"the header alone, as it says", PLAIN_HEAD "0000", 0x9001},
    {"the header with a MAC alone", SEALED_HEAD "001b 9a719e86", 0x9001},
    {"one byte more", PLAIN_EXAMPLE "00", 0x9001},
    {"one byte less", PLAIN_HEAD "001b 0001 0000 02" SERIAL_7 " 00 0003 06 3132333435", 0x9001},
    {"a body one longer than it says", PLAIN_HEAD "001a 0001 0000 02" SERIAL_7 OF_STEP_35, 0x9001},
    {"a body one shorter than it says", PLAIN_HEAD "001c 0001 0000 02" SERIAL_7 OF_STEP_35, 0x9001},
    {"the header counted in", PLAIN_HEAD "0030 0001 0000 02" SERIAL_7 OF_STEP_35, 0x9001},
    {"one item said, of two", PLAIN_HEAD "001b 0001 0000 01" SERIAL_7 OF_STEP_35, 0x9001},
    {"three items said, of two", PLAIN_HEAD "001b 0001 0000 03" SERIAL_7 OF_STEP_35, 0x9001},
    {"a byte behind the items", PLAIN_HEAD "0012 0102 0000 01" SERIAL_7 "00", 0x9001},
    {"a byte behind no items", PLAIN_HEAD "0006 9999 0000 00 00", 0x9001},
    {"a body of four bytes", PLAIN_HEAD "0004 0001 0000", 0x9001},
    {"an item's length at offset 4", PLAIN_HEAD "001d 0001 0000 02 00 0002 00 08 0000000000000007 00 0003 00 06 313233343536", 0x9001},
    {"header of 25 bytes and no MAC", "19 00 01 0000000000000000 3132333435363738 001b 0001 0000 02" SERIAL_7 OF_STEP_35, 0x9001},
    {"header of 25 bytes, a MAC and the type of none",
     "19 00 01 0000000000000000 3132333435363738 001b 9a719e86 0001 0000 02" SERIAL_7 OF_STEP_35, 0x9001},
    {"header of 21 bytes and a MAC", "15 80 01 0000000000000000 3132333435363738 001b 9a719e86 0001 0000 02" SERIAL_7 OF_STEP_35, 0x9001},
    {"the type of a MAC set on the plain bytes", "15 80 01 0000000000000000 3132333435363738 001b 0001 0000 02" SERIAL_7 OF_STEP_35, 0x9001},
    {"type 02", "15 02 01 0000000000000000 3132333435363738 001b 0001 0000 02" SERIAL_7 OF_STEP_35, 0x9001},
    {"type 40", "15 40 01 0000000000000000 3132333435363738 001b 0001 0000 02" SERIAL_7 OF_STEP_35, 0x9001},
    {"type 82", "19 82 01 0000000000000000 3132333435363738 001b 9a719e86 0001 0000 02" SERIAL_7 OF_STEP_35, 0x9001},
    {"version 0", "15 00 00 0000000000000000 3132333435363738 001b 0001 0000 02" SERIAL_7 OF_STEP_35, 0x9001},
    {"version 2", "15 00 02 0000000000000000 3132333435363738 001b 0001 0000 02" SERIAL_7 OF_STEP_35, 0x9001},
    {"a reply", "15 01 01 0000000000000000 3132333435363738 001b 0001 0000 02" SERIAL_7 OF_STEP_35, 0x9001},
    {"a reply with its MAC", "19 81 01 0000000000000000 3132333435363738 001b cc5da4e1 0001 0000 02" SERIAL_7 OF_STEP_35, 0x9001},
    {"a reply with a wrong MAC", "19 81 01 0000000000000000 3132333435363738 001b cc5da4e0 0001 0000 02" SERIAL_7 OF_STEP_35, 0x9001},
    {"a reply for no service", "15 01 01 0000000000000000 3132333435363738 0005 9999 0000 00", 0x9001},
    {"serial twice", PLAIN_HEAD "001d 0001 0000 02" SERIAL_7 SERIAL_7, 0x9001},
    {"serial twice, and the password", PLAIN_HEAD "0027 0001 0000 03" SERIAL_7 SERIAL_7 OF_STEP_35, 0x9001},
    {"password twice", PLAIN_HEAD "0025 0001 0000 03" SERIAL_7 OF_STEP_35 OF_STEP_35, 0x9001},
    {"password twice and no serial", PLAIN_HEAD "0019 0001 0000 02" OF_STEP_35 OF_STEP_35, 0x9001},
    {"no item", PLAIN_HEAD "0005 0001 0000 00", 0x9001},
    {"serial alone", PLAIN_HEAD "0011 0001 0000 01" SERIAL_7, 0x9001},
    {"item 0001 besides", PLAIN_HEAD "0020 0001 0000 03" SERIAL_7 OF_STEP_35 " 00 0001 01 07", 0x9001},
    {"item 0102 for 0002", PLAIN_HEAD "001b 0001 0000 02 00 0102 08 0000000000000007" OF_STEP_35, 0x9001},
    {"serial of 7 bytes", PLAIN_HEAD "001a 0001 0000 02 00 0002 07 00000000000007" OF_STEP_35, 0x9001},
    {"serial of 9 bytes", PLAIN_HEAD "001c 0001 0000 02 00 0002 09 000000000000000007" OF_STEP_35, 0x9001},
    {"lock with a password", PLAIN_HEAD "001b 0102 0000 02" SERIAL_7 OF_STEP_35, 0x9001},
    {"challenge login with 0003 for 0007", PLAIN_HEAD "0023 0002 0000 03" SERIAL_7 QUAY " 00 0003 06 363139323435", 0x9001},
    {"challenge login with 0003 besides", PLAIN_HEAD "002d 0002 0000 04" SERIAL_7 QUAY BY_QUAY OF_STEP_35, 0x9001},
    {"activate without 0004", PLAIN_HEAD "001b 0101 0000 02" SERIAL_7 OF_STEP_35, 0x9001},
    {"sync with options 0", PLAIN_HEAD "0025 0108 0000 03" SERIAL_7 OF_STEP_35 OF_STEP_36, 0x9001},
    {"sync with options 3", PLAIN_HEAD "0025 0108 0003 03" SERIAL_7 OF_STEP_35 OF_STEP_36, 0x9001},
    {"sync with options 0101", PLAIN_HEAD "0025 0108 0101 03" SERIAL_7 OF_STEP_35 OF_STEP_36, 0x9001},
    {"login with options 1", PLAIN_HEAD "001b 0001 0001 02" SERIAL_7 OF_STEP_35, 0x9001},
    {"login with options 0100", PLAIN_HEAD "001b 0001 0100 02" SERIAL_7 OF_STEP_35, 0x9001},
    {"the same with its MAC", SEALED_HEAD "001b 0e820c23 0001 0100 02" SERIAL_7 OF_STEP_35, 0x9001},
    {"the same with one bit of the MAC wrong", SEALED_HEAD "001b 0e820c22 0001 0100 02" SERIAL_7 OF_STEP_35, 0x9001},
    {"attribute 80", PLAIN_HEAD "001b 0001 0000 02" SERIAL_7 " 80 0003 06 313233343536", 0x9001},
    {"attribute 01", PLAIN_HEAD "001b 0001 0000 02 01 0002 08 0000000000000007" OF_STEP_35, 0x9001},
    {"attribute 80 with service 9999", PLAIN_HEAD "000a 9999 0077 01 80 0009 01 07", 0x9001},
    {"attribute 01 with service 0003", PLAIN_HEAD "0009 0003 0000 01 01 0002 00", 0x9001},
    {"one bit of the MAC wrong", SEALED_HEAD "001b 9a719e87 0001 0000 02" SERIAL_7 OF_STEP_35, 0x9002},
    {"its first bit wrong", SEALED_HEAD "001b 1a719e86 0001 0000 02" SERIAL_7 OF_STEP_35, 0x9002},
    {"the first four bytes of the hash", SEALED_HEAD "001b d132e706 0001 0000 02" SERIAL_7 OF_STEP_35, 0x9002},
    {"the MAC of a header with a MAC of zeros", SEALED_HEAD "001b a43f3220 0001 0000 02" SERIAL_7 OF_STEP_35, 0x9002},
    {"the MAC of a header of 21 bytes", SEALED_HEAD "001b 31f685ae 0001 0000 02" SERIAL_7 OF_STEP_35, 0x9002},
    {"the MAC of the body alone", SEALED_HEAD "001b 8e7f9c9b 0001 0000 02" SERIAL_7 OF_STEP_35, 0x9002},
    {"the MAC of the plain message", SEALED_HEAD "001b 832ab266 0001 0000 02" SERIAL_7 OF_STEP_35, 0x9002},
    {"one bit of the MAC wrong, and service 0003", SEALED_HEAD "001b c80cd623 0003 0000 02" SERIAL_7 OF_STEP_35, 0x9002},
    {"one bit of the MAC wrong, and service 9999", SEALED_HEAD "0005 63962ec0 9999 0000 00", 0x9002},
    {"service 0003", SEALED_HEAD "001b c80cd622 0003 0000 02" SERIAL_7 OF_STEP_35, 0x9004},
    {"service 9999", SEALED_HEAD "0005 63962ec8 9999 0000 00", 0x9004},
    {"service 9999 with options 77 and item 0009", PLAIN_HEAD "000a 9999 0077 01 00 0009 01 07", 0x9004},
    {"service 0106 with a serial of 7 bytes", PLAIN_HEAD "0010 0106 0000 01 00 0002 07 00000000000007", 0x9004},
    {"service 0107", PLAIN_HEAD "0011 0107 0000 01" SERIAL_7, 0x9004},
    {"service 0109 with items twice", PLAIN_HEAD "001d 0109 0001 02" SERIAL_7 SERIAL_7, 0x9004},
    {"service 0140, a load", PLAIN_HEAD "0011 0140 0000 01" SERIAL_7, 0x9004},
    {"service 9 with no items", PLAIN_HEAD "0005 0009 0000 00", 0x9004},
    {"service 0201", PLAIN_HEAD "001b 0201 0000 02" SERIAL_7 OF_STEP_35, 0x9004},
};

enum {
    SERVED_CORNERS = sizeof served_corners / sizeof *served_corners,
    REFUSED_CORNERS = sizeof refused_corners / sizeof *refused_corners,
};

#endif
