/* Calls at the edges of the header: each line is what a call answers and leaves. */
#include "tolbezun.h"

#include <inttypes.h>
#include <stdio.h>
#include <string.h>

#define N 2
static uint16_t held[1], order[N], status[N], withdrawn[N], length[N], read_count[N], write_count[N];
static uint16_t read_settings[32 * N], write_settings[32 * N], versions[N];
static uint64_t timestamps[N], cutoff[1];
static uint8_t programs[256 * N];
static int32_t seen_values[32 * N], written_values[32 * N], view[1024], kept[1024];

#define LENT(CAPACITY)                                                                              \
    CAPACITY, held, 1, timestamps, N, order, N, status, N, withdrawn, N, length, N, programs,       \
        256 * N, read_count, N, write_count, N, read_settings, 32 * N, seen_values, 32 * N,         \
        write_settings, 32 * N, written_values, 32 * N, view, 1024, versions, N, cutoff, 1, kept,   \
        1024
#define TABLES LENT(N)
#define NOTHING                                                                                     \
    NULL, 0, NULL, 0, NULL, 0, NULL, 0, NULL, 0, NULL, 0, NULL, 0, NULL, 0, NULL, 0, NULL, 0, NULL, \
        0, NULL, 0, NULL, 0, NULL, 0, NULL, 0, NULL, 0, NULL, 0

/* r0 = -5; setting 1023 = r0 */
static const uint8_t change[] = {1, 0, 0, 0, 0xFB, 0xFF, 0xFF, 0xFF, 13, 0, 0, 0, 0xFF, 3, 0, 0};

/* The same twice, so that the second write, at place 3, faults. */
static const uint8_t twice[] = {1, 0, 0, 0, 0xFB, 0xFF, 0xFF, 0xFF, 13, 0, 0, 0, 0xFF, 3, 0, 0,
                                1, 0, 0, 0, 0xFB, 0xFF, 0xFF, 0xFF, 13, 0, 0, 0, 0xFF, 3, 0, 0};

/* r0 = -5; setting 1023 = r0; r1 = setting 1023; r1 = r1 + r1; setting 1023 = r1. In version 0 the
 * read, at place 2, faults. */
static const uint8_t read_back[] = {1,  0, 0, 0, 0xFB, 0xFF, 0xFF, 0xFF, 13, 0, 0, 0, 0xFF, 3, 0, 0,
                                    11, 1, 0, 0, 0xFF, 3,    0,    0,    3,  1, 1, 1, 0,    0, 0, 0,
                                    13, 1, 0, 0, 0xFF, 3,    0,    0};

/* One entry: the withdrawal of 15. */
static const uint8_t package[] = {1, 0, 15, 0, 0, 0, 0, 0, 0, 0, 1, 0, 0, 0};

static uint64_t values[3] = {77, 77, 77};
static uint16_t totals[1025];
static uint8_t answers[513];
static int32_t settings[1025];
static uint8_t written[57];

static void turn(size_t entries)
{
    int answer = tolbezun_turn(TABLES, values, entries);
    printf("turn %d %" PRIu64 " %" PRIu64 " %" PRIu64 "\n", answer, values[0], values[1], values[2]);
}

/* Lends so many totals, of 1,025 that are all 77. Of the first 1,024 it prints how many still are and,
 * by their places, the others that are not 0; then the last. */
static void drain(size_t entries)
{
    size_t unaltered = 0;
    for (size_t i = 0; i < 1025; i++)
        totals[i] = 77;
    printf("drain %d", tolbezun_drain(TABLES, totals, entries));
    for (size_t i = 0; i < 1024; i++)
        unaltered += totals[i] == 77;
    printf(" %zu", unaltered);
    for (size_t i = 0; i < 1024; i++)
        if (totals[i] != 77 && totals[i] != 0)
            printf(" %zu:%" PRIu16, i, totals[i]);
    printf(" %" PRIu16 "\n", totals[1024]);
}

/* Lends so many bytes, of 57 that are all 99. */
static void package_out(size_t bytes)
{
    memset(written, 99, sizeof written);
    printf("package_out %" PRIu32 " ", tolbezun_package_out(TABLES, written, bytes));
    for (size_t i = 0; i < sizeof written; i++)
        printf("%02x", written[i]);
    printf("\n");
}

/* Takes in read_back in this version. */
static int take_in_read_back(uint64_t timestamp, uint16_t version)
{
    return tolbezun_take_in(TABLES, timestamp, version, read_back, sizeof read_back);
}

/* Sets up, and takes in a change that faults, of console 255, and one that does not, of console 0. */
static void take_in_faulting(void)
{
    printf("faulting %d", tolbezun_set_up(TABLES));
    printf(" %d", tolbezun_take_in(TABLES, 255, 0, twice, sizeof twice));
    printf(" %d\n", tolbezun_take_in(TABLES, 256, 0, change, sizeof change));
}

int main(void)
{
    printf("set_up %d %d %d\n", tolbezun_set_up(LENT(0)), tolbezun_set_up(LENT(N + 1)), tolbezun_set_up(TABLES));
    printf("nothing lent %d %d\n", tolbezun_set_up(1, NOTHING), tolbezun_plain_run(0, NOTHING, NULL, 0));
    printf("take_in %d", tolbezun_take_in(TABLES, 1, 0, NULL, 0));
    printf(" %d", tolbezun_take_in(TABLES, 1, 0, NULL, 0));
    printf(" %d", tolbezun_take_in(TABLES, 1, 0, change, sizeof change));
    printf(" %d", tolbezun_take_in(TABLES, UINT64_MAX - 1, 1, change, sizeof change));
    printf(" %d", tolbezun_take_in(TABLES, 2, 0, change, sizeof change));
    printf(" %d", tolbezun_take_in(TABLES, UINT64_MAX, 0, change, sizeof change));
    printf(" %d", tolbezun_take_in(TABLES, 2, 0, change, 7));
    printf(" %d\n", tolbezun_take_in(TABLES, 2, 0, change + 1, 8));
    turn(0);
    turn(1);
    turn(3);
    turn(2);
    turn(2);
    values[0] = 78;
    turn(2);
    drain(1024);
    printf("current_value %" PRId64 " %" PRId64 " %" PRId64 "\n", tolbezun_current_value(TABLES, 1023),
           tolbezun_current_value(TABLES, 1024), tolbezun_current_value(LENT(3), 0));
    printf("value_as_of %" PRId64 " %" PRId64 " %" PRId64 "\n", tolbezun_value_as_of(TABLES, UINT64_MAX, 1023),
           tolbezun_value_as_of(TABLES, UINT64_MAX - 1, 1023), tolbezun_value_as_of(TABLES, 0, 1023));
    printf("withdraw %d", tolbezun_withdraw(TABLES, 1));
    printf(" %d", tolbezun_withdraw(TABLES, 1));
    printf(" %d\n", tolbezun_withdraw(TABLES, 2));
    printf("standing %" PRIu32 " %" PRIu32 " %" PRIu32 "\n", tolbezun_standing(TABLES, 1),
           tolbezun_standing(TABLES, UINT64_MAX - 1), tolbezun_standing(TABLES, 2));
    package_out(0);
    package_out(53);
    package_out(54);
    package_out(56);
    printf("package_out %" PRIu32 " %" PRIu32 "\n", tolbezun_package_out(TABLES, NULL, 0),
           tolbezun_package_out(LENT(3), written, 54));
    answers[1] = 99;
    printf("take_in_package %d", tolbezun_take_in_package(TABLES, package, sizeof package, answers, 511));
    printf(" %d", tolbezun_take_in_package(TABLES, package, sizeof package, answers, 513));
    printf(" %d", tolbezun_take_in_package(TABLES, package, sizeof package - 1, answers, 512));
    printf(" %d", tolbezun_take_in_package(TABLES, package, sizeof package, answers, 512));
    printf(": %d %d\n", answers[0], answers[1]);
    settings[0] = settings[1024] = 99;
    printf("plain_run %d", tolbezun_plain_run(TABLES, settings, 1025));
    printf(" %" PRId32, settings[0]);
    printf(" %d", tolbezun_plain_run(TABLES, settings, 1024));
    printf(": %" PRId32 " %" PRId32 " %" PRId32 "\n", settings[0], settings[1023], settings[1024]);
    settings[2] = settings[3] = 99;
    printf("start_values %d %d", tolbezun_start_values(settings, 1023), tolbezun_start_values(NULL, 0));
    printf(" %" PRId32, settings[2]);
    printf(" %d", tolbezun_start_values(settings, 1024));
    printf(": %" PRId32 " %" PRId32 " %" PRId32 "\n", settings[2], settings[3], settings[1024]);
    take_in_faulting();
    drain(4);
    drain(1023);
    drain(1025);
    drain(1024);
    drain(1024);
    take_in_faulting();
    turn(2);
    turn(2);
    turn(2);
    printf("withdraw %d\n", tolbezun_withdraw(TABLES, 255));
    turn(2);
    printf("versions %d", tolbezun_set_up(TABLES));
    printf(" %d", take_in_read_back(3, UINT16_MAX));
    printf(" %d", take_in_read_back(3, 2));
    printf(" %d", tolbezun_take_in(TABLES, 3, 2, read_back, 7));
    printf(" %d", tolbezun_take_in(TABLES, 3, 2, read_back + 1, 8));
    printf(" %d", take_in_read_back(3, 1));
    printf(" %d", take_in_read_back(3, 0));
    printf(" %d", take_in_read_back(3, 1));
    printf(" %d", take_in_read_back(2, 0));
    printf(": %" PRIu16 " %" PRIu16 "\n", versions[0], versions[1]);
    turn(2);
    turn(2);
    printf("current_value %" PRId64 "\n", tolbezun_current_value(TABLES, 1023));
    versions[1] = 2;
    turn(2);
    versions[1] = 0;
    /* 3, which arrived first, reads back; 2 has faulted. */
    printf("cutoff %d %d", tolbezun_cutoff(LENT(3), 3), tolbezun_cutoff(TABLES, 0));
    printf(" %d", tolbezun_cutoff(TABLES, UINT64_MAX));
    printf(" %d", tolbezun_withdraw(TABLES, 2));
    printf(" %d", tolbezun_cutoff(TABLES, 3));
    printf(" %d", tolbezun_cutoff(TABLES, 2));
    printf(": %" PRIu16 " %" PRIu64 " %" PRId32 "\n", held[0], cutoff[0], kept[1023]);
    turn(2);
    printf("cutoff %d", tolbezun_cutoff(TABLES, 3));
    printf(": %" PRIu16 " %" PRIu64 " %" PRId32 "\n", held[0], cutoff[0], kept[1023]);
    printf("cutoff %d", tolbezun_cutoff(TABLES, 4));
    printf(": %" PRIu16 " %" PRIu64 " %" PRId32 "\n", held[0], cutoff[0], kept[1023]);
    printf("below %d %d", tolbezun_cutoff(TABLES, 3), tolbezun_take_in(TABLES, 3, 2, read_back, 7));
    printf(" %d", tolbezun_withdraw(TABLES, 3));
    printf(" %" PRId64 " %" PRIu32 "\n", tolbezun_value_as_of(TABLES, 3, 1024), tolbezun_standing(TABLES, 3));
    printf("value_as_of %" PRId64 " %" PRId64 "\n", tolbezun_value_as_of(TABLES, 4, 1023),
           tolbezun_value_as_of(TABLES, 4, 2));
    printf("plain_run %d", tolbezun_plain_run(TABLES, settings, 1024));
    printf(": %" PRId32 " %" PRId32 "\n", settings[1023], settings[2]);
    printf("take_in_package %d", tolbezun_take_in_package(TABLES, package, sizeof package, answers, 512));
    printf(" %d", tolbezun_cutoff(TABLES, 16));
    printf(" %d", answers[0]);
    printf(" %d", tolbezun_take_in_package(TABLES, package, sizeof package, answers, 512));
    printf(" %d\n", answers[0]);
    cutoff[0] = UINT64_MAX;
    turn(2);
    cutoff[0] = 16;
    printf("cutoff %d", tolbezun_cutoff(TABLES, UINT64_MAX - 1));
    printf(" %d", tolbezun_take_in(TABLES, UINT64_MAX - 1, 0, change, sizeof change));
    printf(" %d", tolbezun_cutoff(TABLES, UINT64_MAX - 1));
    printf(": %" PRIu16 " %" PRIu64 "\n", held[0], cutoff[0]);
    printf("set_up %d", tolbezun_set_up(TABLES));
    printf(": %" PRIu64 " %" PRId32 " %" PRId32 "\n", cutoff[0], kept[1023], kept[2]);
    status[0] = 3;
    printf("not in form %d", tolbezun_withdraw(TABLES, 1));
    printf(" %d", tolbezun_turn(TABLES, values, 2));
    printf(" %" PRIu32, tolbezun_standing(TABLES, 1));
    printf(" %" PRIu32 "\n", tolbezun_package_out(TABLES, written, sizeof written));
    drain(1023);
    drain(1024);
    return 0;
}
