/*
 * The power budget of a port, kept by three changes, one of which arrives late.
 *
 *     ./library
 *     cc -std=c99 -Iinclude examples/power.c target/staticlib/libtolbezun.a -o power
 */
#include "tolbezun.h"

#include <inttypes.h>
#include <stdio.h>

/* Port 2, field 4, is power left; field 5 is the power alarm. */
#define POWER_LEFT (2 * 16 + 4)
#define POWER_ALARM (2 * 16 + 5)

/* The tables of one cabinet, for 128 changes. */
#define N 128
static uint16_t held[1], order[N], status[N], withdrawn[N], length[N], read_count[N], write_count[N];
static uint16_t read_settings[32 * N], write_settings[32 * N], versions[N];
static uint64_t timestamps[N], cutoff[1];
static uint8_t programs[256 * N];
static int32_t seen_values[32 * N], written_values[32 * N], view[1024], kept[1024];

#define TABLES                                                                                      \
    N, held, 1, timestamps, N, order, N, status, N, withdrawn, N, length, N, programs, 256 * N,     \
        read_count, N, write_count, N, read_settings, 32 * N, seen_values, 32 * N, write_settings,  \
        32 * N, written_values, 32 * N, view, 1024, versions, N, cutoff, 1, kept, 1024

/* r0 = 400; power left = r0 */
static const uint8_t budget_400[] = {
    1,  0, 0, 0, 0x90, 1, 0, 0,
    13, 0, 0, 0, POWER_LEFT, 0, 0, 0,
};

/* r0 = power left - POWER; power left = r0; if r0 < 0 then alarm = 1 */
#define TAKE(POWER)                                         \
    {                                                       \
        11, 0, 0, 0, POWER_LEFT, 0, 0, 0,                   \
        1,  1, 0, 0, (POWER) % 256, (POWER) / 256, 0, 0,    \
        4,  0, 0, 1, 0, 0, 0, 0,                            \
        13, 0, 0, 0, POWER_LEFT, 0, 0, 0,                   \
        15, 0, 0, 0, 1, 0, 0, 0,                            \
        0,  0, 0, 0, 0, 0, 0, 0,                            \
        1,  1, 0, 0, 1, 0, 0, 0,                            \
        13, 1, 0, 0, POWER_ALARM, 0, 0, 0,                  \
    }
static const uint8_t take_300[] = TAKE(300);
static const uint8_t take_200[] = TAKE(200);

static void show(const char *when)
{
    /* Four totals for each console, and what they sum to. */
    uint16_t totals[1024] = {0};
    unsigned sums[4] = {0};
    if (tolbezun_drain(TABLES, totals, 1024) != 0) {
        printf("the drain was refused\n");
        return;
    }
    for (size_t place = 0; place < 1024; place++)
        sums[place % 4] += totals[place];
    printf("%s: %u ran, %u stood, %u cleared, %u faulted; ",
           when, sums[0], sums[1], sums[2], sums[3]);
    printf("power left %" PRId64 ", alarm %" PRId64 "\n",
           tolbezun_current_value(TABLES, POWER_LEFT),
           tolbezun_current_value(TABLES, POWER_ALARM));
}

int main(void)
{
    tolbezun_set_up(TABLES);
    /* All three have version 0. */
    tolbezun_take_in(TABLES, 10, 0, budget_400, sizeof budget_400);
    tolbezun_take_in(TABLES, 30, 0, take_300, sizeof take_300);
    show("10 gives 400, 30 takes 300");
    tolbezun_take_in(TABLES, 20, 0, take_200, sizeof take_200);
    show("20 takes 200, late");
    tolbezun_withdraw(TABLES, 20);
    show("20 is withdrawn");
    return 0;
}
