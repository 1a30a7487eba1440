// Messages of GM/T 0021-2012, Annex D, read and written through the C interface (document 02, requests 1 and 3), compared with
// wire_reference.h.
//   wire         the full run: 50,000 random cases to a test, more than a million messages in all
//   wire COUNT   the short run, for valgrind: COUNT cases to a test, fewer values, no great lengths
#define _DEFAULT_SOURCE
#include "wire_damage.h"
#include "wire_examples.h"
#include "wire_great.h"
#include "wire_headers.h"
#include "wire_outputs.h"
#include "wire_pairs.h"

// The tests before this one are made for every code of every function, and for every fault.
static void wire_everything_came(void)
{
    printf("%ld messages\n", wire_messages);
    for (size_t function = 0; function < WIRE_FUNCTIONS; function++)
        for (size_t i = 0; i < WIRE_CODES; i++) {
            const int of_readers = wire_codes[i] == DL_BAD_MESSAGE || wire_codes[i] == DL_BAD_MAC;
            const long came = wire_came[function][i];
            printf("%s answered %04x %ld times\n", wire_names[function], wire_codes[i], came);
            check(function == WIRE_WRITE && of_readers ? came == 0 : came > 0, "%s, code %04x", wire_names[function], wire_codes[i]);
        }
    for (int fault = WIRE_RIGHT; fault < WIRE_FAULTS; fault++)
        check(wire_met[fault] > 0, "never came: %s", wire_fault_names[fault]);
}

static const struct test tests[] = {
    {"the header's numbers", wire_header_numbers, 0},
    {"messages written out", wire_written_out, 0},
    {"short messages, written and read", wire_short_rounds, 0},
    {"0 to 255 items, written and read", wire_rounds_of_many_items, 0},
    {"bodies of up to 65,535 bytes, written and read", wire_long_rounds, 0},
    {"items in any order, read", wire_any_items, 0},
    {"many items in any order, read", wire_many_any_items, 0},
    {"any service and any options, written and read", wire_any_services, 0},
    {"the writer refuses other types", wire_other_types, 0},
    {"the writer refuses values over 65,535", wire_large_values, 0},
    {"the writer refuses items repeated and out of order", wire_out_of_order, 0},
    {"contents of up to 255 bytes", wire_content_sizes, 0},
    {"up to 255 items", wire_counts, 0},
    {"bodies of up to 65,535 bytes", wire_body_sizes, 0},
    {"outputs too short", wire_short_outputs, 0},
    {"outputs too short for a long message", wire_short_outputs_of_long, 0},
    {"no room for the length", wire_nothing_for_the_length, 0},
    {"null with length 0", wire_nothing_at_all, 0},
    {"several faults at once", wire_several_faults, 0},
    {"more or fewer lengths than identifiers", wire_counts_that_differ, 0},
    {"more or fewer contents than the lengths say", wire_sums_that_differ, 0},
    {"lengths whose sum would wrap", wire_sums_that_wrap, 0},
    {"slices in one memory", wire_slices_in_one, 0},
    {"slices of 2^32 elements", wire_great_slices, 1},
    {"lengths whose sum is over 2^64", wire_sum_of_64_bits, 1},
    {"an output of 2^32 bytes", wire_great_output, 1},
    {"right messages with bytes behind them", wire_long_messages, 0},
    {"right messages with 2^32 bytes behind them", wire_great_messages, 1},
    {"each byte changed", wire_each_byte, 0},
    {"each two neighbouring bytes exchanged", wire_each_pair_of_neighbours, 0},
    {"cut to each length, and with bytes added", wire_each_length, 0},
    {"each bit of the MAC flipped", wire_each_bit_of_the_mac, 0},
    {"MACs made otherwise", wire_other_macs, 0},
    {"each header length with each type", wire_each_header, 0},
    {"each body length and each count", wire_each_body_length, 0},
    {"random damage", wire_random_damage, 0},
    {"random damage to long messages", wire_long_damage, 0},
    {"lengths of items moved", wire_moved_lengths, 0},
    {"random bytes", wire_random_bytes, 0},
    {"random bodies", wire_random_bodies, 0},
    {"too few fields", wire_few_fields, 0},
    {"pairs with one change: equal exactly when their bytes are", wire_pairs_with_one_change, 0},
    {"pairs of few messages: equal exactly when their bytes are", wire_pairs_of_few, 0},
    {"every code of every function came, and every fault", wire_everything_came, 0},
};

int main(int argc, char **argv)
{
    return run_tests(tests, sizeof tests / sizeof *tests, 50000, argc, argv);
}
