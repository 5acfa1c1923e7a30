/*
 * The proved change history of a cabinet of managed switches, for C.
 *
 * The functions are those of the static library libtolbezun.a, which ./library proves, builds and
 * leaves in target/staticlib. They are proved: for every argument the answer and what stands in every
 * table after the call is what the definitions in crates/model/specs/Calls say, the answer as a number
 * by crates/answer_numbers/specs/Numbers. They allocate nothing, keep nothing between calls and end on
 * every input.
 *
 * Each table is lent as a pointer and the number of its entries (NAME_len). The caller sees to it that
 * a pointer is aligned and has that many initialised entries, that no table that a call may write
 * overlaps another, and that no other thread writes a lent table, or reads one that the call may
 * write, before it returns. A pointer with length 0 is not used. Nothing else is required: a call
 * refuses lengths and contents that it cannot use.
 *
 *   n               the capacity N, 1 to 4,096
 *   held            1 entry: the held count
 *   timestamps      N entries: the timestamp at each place, in order of arrival
 *   order           N entries: the places by rising timestamp
 *   status          N entries: 0 New, 1 Valid, 2 Invalid
 *   withdrawn       N entries: 0 or 1
 *   length          N entries: the program length in instructions
 *   programs        256 x N bytes: the programs
 *   read_count      N entries: the number of settings read
 *   write_count     N entries: the number of settings written
 *   read_settings   32 x N entries: the settings read
 *   seen_values     32 x N entries: the values seen
 *   write_settings  32 x N entries: the settings written
 *   written_values  32 x N entries: the values written
 *   view            1,024 entries: the current value of each setting
 *   versions        N entries: the version of each change, 0 or 1, which says by what rules it runs
 *   cutoff          1 entry: the cutoff, 0 to 2^64 - 2. No change stamped below it is held or taken in
 *   kept            1,024 entries: the value of each setting as of the cutoff
 *
 * Set up fills the tables; after that only these functions write them. A refused call alters nothing.
 */
#ifndef TOLBEZUN_H
#define TOLBEZUN_H

#include <stddef.h>
#include <stdint.h>

#ifdef __cplusplus
extern "C" {
#endif

/* Why a call is turned down, in checking order. The first that applies is the answer. */
enum tolbezun_refusal {
    TOLBEZUN_LENGTH = 1,         /* a lent slice has another length than stated, or n is outside 1 to 4,096 */
    TOLBEZUN_FORM = 2,           /* the tables are not in form */
    TOLBEZUN_PACKAGE = 3,        /* the package breaks its layout or length */
    TOLBEZUN_TIMESTAMP = 4,      /* the timestamp is 0 or 2^64 - 1; value as of allows 2^64 - 1 */
    TOLBEZUN_CUTOFF = 14,        /* the timestamp is below the cutoff */
    TOLBEZUN_SETTING = 5,        /* the setting number is above 1,023 */
    TOLBEZUN_PROGRAM_LENGTH = 6, /* the program is over 256 bytes or no multiple of 8 */
    TOLBEZUN_VERSION = 13,       /* the version is above 1 */
    TOLBEZUN_INSTRUCTION = 7,    /* an instruction is not in the table, or a part of it is wrong */
    TOLBEZUN_OTHER_PROGRAM = 8,  /* the timestamp is held with another program or version */
    TOLBEZUN_FULL = 9,           /* the held count equals n and the timestamp is not held */
    TOLBEZUN_NOT_HELD = 10,      /* the timestamp is not held */
    TOLBEZUN_WITHDRAWN = 11,     /* the change is withdrawn already */
    TOLBEZUN_UNSETTLED = 15,     /* a New or Invalid change is stamped below the new cutoff */
    TOLBEZUN_ROOM = 12           /* the package would pass its own limits or the lent slice */
};

/*
 * Sets up the tables: every slot 0, the view and the kept values at the start values.
 *
 * Alters every table. Answers 0 done or refusal 1.
 */
uint8_t tolbezun_set_up(
    size_t n,
    uint16_t *held, size_t held_len,
    uint64_t *timestamps, size_t timestamps_len,
    uint16_t *order, size_t order_len,
    uint16_t *status, size_t status_len,
    uint16_t *withdrawn, size_t withdrawn_len,
    uint16_t *length, size_t length_len,
    uint8_t *programs, size_t programs_len,
    uint16_t *read_count, size_t read_count_len,
    uint16_t *write_count, size_t write_count_len,
    uint16_t *read_settings, size_t read_settings_len,
    int32_t *seen_values, size_t seen_values_len,
    uint16_t *write_settings, size_t write_settings_len,
    int32_t *written_values, size_t written_values_len,
    int32_t *view, size_t view_len,
    uint16_t *versions, size_t versions_len,
    uint64_t *cutoff, size_t cutoff_len,
    int32_t *kept, size_t kept_len);

/*
 * Takes in a change: the next place, New, not withdrawn, lists empty.
 *
 * timestamp       1 to 2^64 - 2, not below the cutoff
 * version         0 or 1: the rules that the program runs by. A run of version 0 faults where it reads
 *                 a setting that it has written, and where it writes one twice. A run of version 1
 *                 reads the value that it has written, which enters no read list, and a second write
 *                 replaces the value of the first, in its place in the write list
 * program         its bytes, 8 an instruction; program_len is their number, 0 to 256
 *
 * Alters held, timestamps, order, length, programs and versions. Answers 0 done, 255 already held (the
 * same timestamp with the same version and program; nothing is altered) or refusal 1, 2, 4, 14, 6, 13,
 * 7, 8 or 9.
 */
uint8_t tolbezun_take_in(
    size_t n,
    uint16_t *held, size_t held_len,
    uint64_t *timestamps, size_t timestamps_len,
    uint16_t *order, size_t order_len,
    const uint16_t *status, size_t status_len,
    const uint16_t *withdrawn, size_t withdrawn_len,
    uint16_t *length, size_t length_len,
    uint8_t *programs, size_t programs_len,
    const uint16_t *read_count, size_t read_count_len,
    const uint16_t *write_count, size_t write_count_len,
    const uint16_t *read_settings, size_t read_settings_len,
    const int32_t *seen_values, size_t seen_values_len,
    const uint16_t *write_settings, size_t write_settings_len,
    const int32_t *written_values, size_t written_values_len,
    const int32_t *view, size_t view_len,
    uint16_t *versions, size_t versions_len,
    const uint64_t *cutoff, size_t cutoff_len,
    const int32_t *kept, size_t kept_len,
    uint64_t timestamp,
    uint16_t version,
    const uint8_t *program, size_t program_len);

/*
 * Withdraws a change.
 *
 * timestamp       of a held change that is not withdrawn
 *
 * Alters status and withdrawn. Answers 0 done or refusal 1, 2, 4, 14, 10 or 11.
 */
uint8_t tolbezun_withdraw(
    size_t n,
    const uint16_t *held, size_t held_len,
    const uint64_t *timestamps, size_t timestamps_len,
    const uint16_t *order, size_t order_len,
    uint16_t *status, size_t status_len,
    uint16_t *withdrawn, size_t withdrawn_len,
    const uint16_t *length, size_t length_len,
    const uint8_t *programs, size_t programs_len,
    const uint16_t *read_count, size_t read_count_len,
    const uint16_t *write_count, size_t write_count_len,
    const uint16_t *read_settings, size_t read_settings_len,
    const int32_t *seen_values, size_t seen_values_len,
    const uint16_t *write_settings, size_t write_settings_len,
    const int32_t *written_values, size_t written_values_len,
    const int32_t *view, size_t view_len,
    const uint16_t *versions, size_t versions_len,
    const uint64_t *cutoff, size_t cutoff_len,
    const int32_t *kept, size_t kept_len,
    uint64_t timestamp);

/*
 * Takes in a package: its entries in order, each as take in or withdraw would.
 *
 * package         its bytes; package_len is their number. First comes the number of entries (2 bytes, 0
 *                 to 512); then for each its timestamp (8), kind (0 change, 1 withdrawal), instruction
 *                 count (0 to 32), version (0 or 1) and a zero byte, where a withdrawal has count and
 *                 version 0; then the programs in that order. Numbers are low byte first
 * answers         512 bytes; each entry's gets 0 done, 255 already held or its refusal, later ones
 *                 keep their contents
 *
 * Alters held, timestamps, order, status, withdrawn, length, programs, versions and answers. Answers 0
 * done or refusal 1, 2 or 3. A refused entry stops nothing.
 */
uint8_t tolbezun_take_in_package(
    size_t n,
    uint16_t *held, size_t held_len,
    uint64_t *timestamps, size_t timestamps_len,
    uint16_t *order, size_t order_len,
    uint16_t *status, size_t status_len,
    uint16_t *withdrawn, size_t withdrawn_len,
    uint16_t *length, size_t length_len,
    uint8_t *programs, size_t programs_len,
    const uint16_t *read_count, size_t read_count_len,
    const uint16_t *write_count, size_t write_count_len,
    const uint16_t *read_settings, size_t read_settings_len,
    const int32_t *seen_values, size_t seen_values_len,
    const uint16_t *write_settings, size_t write_settings_len,
    const int32_t *written_values, size_t written_values_len,
    const int32_t *view, size_t view_len,
    uint16_t *versions, size_t versions_len,
    const uint64_t *cutoff, size_t cutoff_len,
    const int32_t *kept, size_t kept_len,
    const uint8_t *package, size_t package_len,
    uint8_t *answers, size_t answers_len);

/*
 * Gives a turn to the change of the lowest timestamp that is New or Invalid.
 *
 * values          2 entries: the first gets the timestamp of the change whose turn it was, unless the
 *                 answer is idle or a refusal; the second gets the place of the instruction that broke
 *                 off, counted from 0, if the answer is faulted; else they keep their contents
 *
 * Alters status, read_count, write_count, read_settings, seen_values, write_settings, written_values,
 * view and values. Answers 0 idle, 1 ran, 2 stood, 3 cleared, 4 faulted, or 16 + refusal 1 or 2.
 */
uint8_t tolbezun_turn(
    size_t n,
    const uint16_t *held, size_t held_len,
    const uint64_t *timestamps, size_t timestamps_len,
    const uint16_t *order, size_t order_len,
    uint16_t *status, size_t status_len,
    const uint16_t *withdrawn, size_t withdrawn_len,
    const uint16_t *length, size_t length_len,
    const uint8_t *programs, size_t programs_len,
    uint16_t *read_count, size_t read_count_len,
    uint16_t *write_count, size_t write_count_len,
    uint16_t *read_settings, size_t read_settings_len,
    int32_t *seen_values, size_t seen_values_len,
    uint16_t *write_settings, size_t write_settings_len,
    int32_t *written_values, size_t written_values_len,
    int32_t *view, size_t view_len,
    const uint16_t *versions, size_t versions_len,
    const uint64_t *cutoff, size_t cutoff_len,
    const int32_t *kept, size_t kept_len,
    uint64_t *values, size_t values_len);

/*
 * Makes turns until one is idle.
 *
 * totals          1,024 entries, four for each console: from place console x 4 they get how many turns of
 *                 its changes ran, stood, were cleared and faulted. The console of a change is the lowest
 *                 8 bits of its timestamp. All are stored, zeros too, unless the answer is a refusal
 *
 * Alters what a turn alters, and totals. Answers 0 done or refusal 1 or 2.
 */
uint8_t tolbezun_drain(
    size_t n,
    const uint16_t *held, size_t held_len,
    const uint64_t *timestamps, size_t timestamps_len,
    const uint16_t *order, size_t order_len,
    uint16_t *status, size_t status_len,
    const uint16_t *withdrawn, size_t withdrawn_len,
    const uint16_t *length, size_t length_len,
    const uint8_t *programs, size_t programs_len,
    uint16_t *read_count, size_t read_count_len,
    uint16_t *write_count, size_t write_count_len,
    uint16_t *read_settings, size_t read_settings_len,
    int32_t *seen_values, size_t seen_values_len,
    uint16_t *write_settings, size_t write_settings_len,
    int32_t *written_values, size_t written_values_len,
    int32_t *view, size_t view_len,
    const uint16_t *versions, size_t versions_len,
    const uint64_t *cutoff, size_t cutoff_len,
    const int32_t *kept, size_t kept_len,
    uint16_t *totals, size_t totals_len);

/*
 * Drops every change stamped below a timestamp, the new cutoff, and keeps the value of each setting as
 * of it. The other changes close up in order of arrival, and freed places, with 0 in every slot, take
 * new changes.
 *
 * timestamp       the new cutoff, 1 to 2^64 - 2, not below the one there is; with that one again nothing
 *                 is altered
 *
 * Alters every table but view. Answers 0 done or refusal 1, 2, 4, 14 or 15.
 */
uint8_t tolbezun_cutoff(
    size_t n,
    uint16_t *held, size_t held_len,
    uint64_t *timestamps, size_t timestamps_len,
    uint16_t *order, size_t order_len,
    uint16_t *status, size_t status_len,
    uint16_t *withdrawn, size_t withdrawn_len,
    uint16_t *length, size_t length_len,
    uint8_t *programs, size_t programs_len,
    uint16_t *read_count, size_t read_count_len,
    uint16_t *write_count, size_t write_count_len,
    uint16_t *read_settings, size_t read_settings_len,
    int32_t *seen_values, size_t seen_values_len,
    uint16_t *write_settings, size_t write_settings_len,
    int32_t *written_values, size_t written_values_len,
    const int32_t *view, size_t view_len,
    uint16_t *versions, size_t versions_len,
    uint64_t *cutoff, size_t cutoff_len,
    int32_t *kept, size_t kept_len,
    uint64_t timestamp);

/*
 * The current value of a setting, from the view.
 *
 * setting         0 to 1,023
 *
 * Alters nothing. Answers the value, -2^31 to 2^31 - 1, or 4,294,967,296 + refusal 1, 2 or 5.
 */
int64_t tolbezun_current_value(
    size_t n,
    const uint16_t *held, size_t held_len,
    const uint64_t *timestamps, size_t timestamps_len,
    const uint16_t *order, size_t order_len,
    const uint16_t *status, size_t status_len,
    const uint16_t *withdrawn, size_t withdrawn_len,
    const uint16_t *length, size_t length_len,
    const uint8_t *programs, size_t programs_len,
    const uint16_t *read_count, size_t read_count_len,
    const uint16_t *write_count, size_t write_count_len,
    const uint16_t *read_settings, size_t read_settings_len,
    const int32_t *seen_values, size_t seen_values_len,
    const uint16_t *write_settings, size_t write_settings_len,
    const int32_t *written_values, size_t written_values_len,
    const int32_t *view, size_t view_len,
    const uint16_t *versions, size_t versions_len,
    const uint64_t *cutoff, size_t cutoff_len,
    const int32_t *kept, size_t kept_len,
    size_t setting);

/*
 * The value of a setting as of a timestamp: of the highest write stamped below it, else the kept value.
 *
 * timestamp       1 to 2^64 - 1, not below the cutoff
 * setting         0 to 1,023
 *
 * Alters nothing. Answers the value, -2^31 to 2^31 - 1, or 4,294,967,296 + refusal 1, 2, 4, 14 or 5.
 */
int64_t tolbezun_value_as_of(
    size_t n,
    const uint16_t *held, size_t held_len,
    const uint64_t *timestamps, size_t timestamps_len,
    const uint16_t *order, size_t order_len,
    const uint16_t *status, size_t status_len,
    const uint16_t *withdrawn, size_t withdrawn_len,
    const uint16_t *length, size_t length_len,
    const uint8_t *programs, size_t programs_len,
    const uint16_t *read_count, size_t read_count_len,
    const uint16_t *write_count, size_t write_count_len,
    const uint16_t *read_settings, size_t read_settings_len,
    const int32_t *seen_values, size_t seen_values_len,
    const uint16_t *write_settings, size_t write_settings_len,
    const int32_t *written_values, size_t written_values_len,
    const int32_t *view, size_t view_len,
    const uint16_t *versions, size_t versions_len,
    const uint64_t *cutoff, size_t cutoff_len,
    const int32_t *kept, size_t kept_len,
    uint64_t timestamp,
    size_t setting);

/*
 * The standing of a timestamp.
 *
 * timestamp       of a held change
 *
 * Alters nothing. Answers status + 256 x flag (status 0 New, 1 Valid, 2 Invalid; flag 1 withdrawn, else
 * 0), or 65,536 + refusal 1, 2, 4, 14 or 10.
 */
uint32_t tolbezun_standing(
    size_t n,
    const uint16_t *held, size_t held_len,
    const uint64_t *timestamps, size_t timestamps_len,
    const uint16_t *order, size_t order_len,
    const uint16_t *status, size_t status_len,
    const uint16_t *withdrawn, size_t withdrawn_len,
    const uint16_t *length, size_t length_len,
    const uint8_t *programs, size_t programs_len,
    const uint16_t *read_count, size_t read_count_len,
    const uint16_t *write_count, size_t write_count_len,
    const uint16_t *read_settings, size_t read_settings_len,
    const int32_t *seen_values, size_t seen_values_len,
    const uint16_t *write_settings, size_t write_settings_len,
    const int32_t *written_values, size_t written_values_len,
    const int32_t *view, size_t view_len,
    const uint16_t *versions, size_t versions_len,
    const uint64_t *cutoff, size_t cutoff_len,
    const int32_t *kept, size_t kept_len,
    uint64_t timestamp);

/*
 * Runs all held changes in timestamp order, withdrawn ones passed over, on settings of its own, which
 * begin at the kept values.
 *
 * settings        1,024 entries, which get what the changes leave
 *
 * Alters settings alone. Answers 0 done or refusal 1 or 2.
 */
uint8_t tolbezun_plain_run(
    size_t n,
    const uint16_t *held, size_t held_len,
    const uint64_t *timestamps, size_t timestamps_len,
    const uint16_t *order, size_t order_len,
    const uint16_t *status, size_t status_len,
    const uint16_t *withdrawn, size_t withdrawn_len,
    const uint16_t *length, size_t length_len,
    const uint8_t *programs, size_t programs_len,
    const uint16_t *read_count, size_t read_count_len,
    const uint16_t *write_count, size_t write_count_len,
    const uint16_t *read_settings, size_t read_settings_len,
    const int32_t *seen_values, size_t seen_values_len,
    const uint16_t *write_settings, size_t write_settings_len,
    const int32_t *written_values, size_t written_values_len,
    const int32_t *view, size_t view_len,
    const uint16_t *versions, size_t versions_len,
    const uint64_t *cutoff, size_t cutoff_len,
    const int32_t *kept, size_t kept_len,
    int32_t *settings, size_t settings_len);

/*
 * Writes all held changes by rising timestamp, each with its version, then the withdrawals of the
 * withdrawn ones by rising timestamp, as one package, in the layout that take in a package reads. Where
 * the cutoff is 0, the package, taken into tables just set up that have room for the changes, and
 * drained, gives what these tables have once they are drained. It has no kept values.
 *
 * package         its first bytes get the package, later ones keep their contents; package_len is
 *                 their number, which may be any: a package has at most 65,535 bytes
 *
 * Alters package alone. Answers the length that was written, 2 to 65,535, or 65,536 + refusal 1, 2 or
 * 12. Refusal 12 is for a package of more than 512 entries, of more than 65,535 bytes or of more than
 * package_len.
 */
uint32_t tolbezun_package_out(
    size_t n,
    const uint16_t *held, size_t held_len,
    const uint64_t *timestamps, size_t timestamps_len,
    const uint16_t *order, size_t order_len,
    const uint16_t *status, size_t status_len,
    const uint16_t *withdrawn, size_t withdrawn_len,
    const uint16_t *length, size_t length_len,
    const uint8_t *programs, size_t programs_len,
    const uint16_t *read_count, size_t read_count_len,
    const uint16_t *write_count, size_t write_count_len,
    const uint16_t *read_settings, size_t read_settings_len,
    const int32_t *seen_values, size_t seen_values_len,
    const uint16_t *write_settings, size_t write_settings_len,
    const int32_t *written_values, size_t written_values_len,
    const int32_t *view, size_t view_len,
    const uint16_t *versions, size_t versions_len,
    const uint64_t *cutoff, size_t cutoff_len,
    const int32_t *kept, size_t kept_len,
    uint8_t *package, size_t package_len);

/*
 * The start values: what a new switch comes up with. Setting port x 16 + field starts at 1 in field 2,
 * the untagged VLAN, and at 0 in every other field.
 *
 * settings        1,024 entries, which get the value that each setting starts at
 *
 * Alters settings alone. Answers 0 done or refusal 1.
 */
uint8_t tolbezun_start_values(int32_t *settings, size_t settings_len);

#ifdef __cplusplus
}
#endif

#endif
