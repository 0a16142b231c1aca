/* Where the transactions of a list stand: good lists of few and of many, damaged lists, and a chip that hears them one at a time. */
#include <string.h>

#include "check.h"
#include "groups.h"
#include "walk.h"

#define HUGE_NUMBER 0xFFFFFFFFu

enum { MOST = 65535 / 3 }; /* as many transactions as t has room for */

uint32_t get_two(const uint8_t *at)
{
    return at[0] + 256u * at[1];
}

static void put_two(uint8_t *at, uint32_t value)
{
    at[0] = (uint8_t)(value % 256);
    at[1] = (uint8_t)(value / 256);
}

uint32_t walk(const uint8_t *list, size_t size)
{
    const uint32_t n = get_two(list);
    uint32_t offset = OUT_UNTOUCHED, length = OUT_UNTOUCHED, answer;
    size_t end = 4 + 2 * n;

    answer = lp586x_transaction(list, size, n, &offset, &length);
    check(answer == 26, "index %u of %u answers %u", n, n, answer);
    check(offset == OUT_UNTOUCHED && length == OUT_UNTOUCHED, "index %u of %u is stored", n, n);
    for (uint32_t i = 0; i < n; i++) {
        answer = lp586x_transaction(list, size, i, &offset, &length);
        check(answer == 0 && offset == end && length == get_two(list + 4 + 2 * i), "index %u: %u, %u bytes at %u", i, answer,
              length, offset);
        end += get_two(list + 4 + 2 * i);
    }
    check(end == size, "the last transaction ends at %zu of %zu", end, size);
    return n;
}

void feed_one_by_one(struct world *world, const uint8_t *list)
{
    static uint8_t single[6 + 65535];
    const uint32_t n = get_two(list), t = get_two(list + 2);

    for (uint32_t i = 0; i < n; i++) {
        uint32_t offset, length;

        if (lp586x_transaction(list, 4 + 2 * n + t, i, &offset, &length) != 0) {
            check(0, "transaction %u of %u is refused", i, n);
            return;
        }
        put_two(single, 1);
        put_two(single + 2, length);
        put_two(single + 4, length);
        memcpy(single + 6, list + offset, length);
        check(lp586x_chip_feed(world->chip, sizeof world->chip, single, 6 + length) == 0, "transaction %u of %u is not fed", i, n);
    }
}

/* ---- Good lists */

static void expect_at(const uint8_t *list, size_t size, uint32_t index, uint32_t offset, uint32_t length)
{
    struct call call = transaction_call(list, size, index);
    struct outcome outcome = both(&call);

    check(outcome.answer == 0 && outcome.n == offset && outcome.t == length, "%s: answers %u, %u bytes at %u", call_text(&call),
          outcome.answer, outcome.t, outcome.n);
}

static void expect_refused(uint32_t number, const uint8_t *list, size_t size, uint32_t index)
{
    struct call call = transaction_call(list, size, index);
    struct outcome outcome = both(&call);

    check(outcome.answer == number, "%s: answers %u, not %u", call_text(&call), outcome.answer, number);
    check(outcome.n == OUT_UNTOUCHED && outcome.t == OUT_UNTOUCHED, "%s: stores %u, %u", call_text(&call), outcome.n, outcome.t);
}

/* No index of n or more, however large: none wraps to one that there is. */
static void expect_end(const uint8_t *list, size_t size)
{
    const uint32_t n = get_two(list);

    expect_refused(26, list, size, n);
    expect_refused(26, list, size, n + 1);
    expect_refused(26, list, size, 65536);
    expect_refused(26, list, size, 65536 + n);
    expect_refused(26, list, size, 0x80000000u);
    expect_refused(26, list, size, HUGE_NUMBER);
}

static void bench_list(void)
{
    static const uint8_t list[] = {0x03, 0x00, 0x09, 0x00, 0x03, 0x00, 0x03, 0x00, 0x03, 0x00,
                                   0x80, 0x00, 0x01, 0x80, 0x01, 0x58, 0x84, 0x02, 0x40};

    context("the bench list");
    expect_at(list, sizeof list, 0, 10, 3);
    expect_at(list, sizeof list, 1, 13, 3);
    expect_at(list, sizeof list, 2, 16, 3);
    expect_end(list, sizeof list);
    check(walk(list, sizeof list) == 3, "n is not 3");
}

static void short_and_long(void)
{
    static const uint8_t none[] = {0, 0, 0, 0};
    static const uint8_t unlike[] = {3, 0, 12, 0, 4, 0, 3, 0, 5, 0, 1, 2, 3, 4, 5, 6, 7, 8, 9, 10, 11, 12};
    static uint8_t longest[4 + 2 + 65535] = {1, 0, 0xFF, 0xFF, 0xFF, 0xFF};
    static uint8_t two[4 + 4 + 65535] = {2, 0, 0xFF, 0xFF, 0xFC, 0xFF, 3, 0};

    context("lists of none, of unlike and of long transactions");
    expect_end(none, sizeof none);
    check(walk(none, sizeof none) == 0, "n is not 0");
    expect_at(unlike, sizeof unlike, 0, 10, 4);
    expect_at(unlike, sizeof unlike, 1, 14, 3);
    expect_at(unlike, sizeof unlike, 2, 17, 5);
    expect_end(unlike, sizeof unlike);
    expect_at(longest, sizeof longest, 0, 6, 65535);
    expect_end(longest, sizeof longest);
    expect_at(two, sizeof two, 0, 8, 65532);
    expect_at(two, sizeof two, 1, 65540, 3);
    expect_end(two, sizeof two);
}

/* n of two bytes: 300, and as many as a list can have. */
static void many(void)
{
    static uint8_t list[4 + 5 * MOST];
    const uint32_t counts[] = {255, 256, 300, MOST};

    context("lists of many transactions");
    for (int c = 0; c < 4; c++) {
        const uint32_t n = counts[c];
        const size_t size = 4 + 5 * (size_t)n;

        memset(list, 0x5A, sizeof list);
        put_two(list, n);
        put_two(list + 2, 3 * n);
        for (uint32_t i = 0; i < n; i++)
            put_two(list + 4 + 2 * i, 3);
        expect_at(list, size, 0, 4 + 2 * n, 3);
        expect_at(list, size, 255 % n, 4 + 2 * n + 3 * (255 % n), 3);
        expect_at(list, size, n - 1, 4 + 2 * n + 3 * (n - 1), 3);
        expect_end(list, size);
        if (n < MOST)
            walk(list, size);
    }
}

/* ---- Damaged lists */

/* 11 comes before 26, and neither stores anything. */
static void damaged(void)
{
    static const uint8_t good[] = {2, 0, 7, 0, 3, 0, 4, 0, 0x80, 0x00, 0x01, 0x84, 0x00, 0x01, 0x02, 0x55};
    static const uint32_t indices[] = {0, 1, 2, 3, 65536, HUGE_NUMBER};
    uint8_t list[sizeof good];

    context("damaged lists");
    for (int i = 0; i < 6; i++)
        for (size_t size = 0; size <= sizeof good; size++)
            if (size != 15)
                expect_refused(11, good, size, indices[i]);
    for (uint32_t at = 0; at < 8; at++)
        for (uint32_t bit = 0; bit < 8; bit++)
            for (int i = 0; i < 6; i++) {
                memcpy(list, good, sizeof good);
                list[at] ^= (uint8_t)(1 << bit);
                expect_refused(11, list, 15, indices[i]);
            }
    expect_at(good, 15, 0, 8, 3);
    expect_at(good, 15, 1, 11, 4);
    expect_end(good, 15);
}

/* Lengths that add up to t, one of them below 3. */
static void short_lengths(void)
{
    for (uint32_t length = 0; length < 3; length++) {
        uint8_t list[4 + 4 + 6] = {2, 0, 6, 0};

        put_two(list + 4, 6 - length);
        put_two(list + 6, length);
        expect_refused(11, list, sizeof list, 0);
        expect_refused(11, list, sizeof list, 1);
        expect_refused(11, list, sizeof list, 2);
    }
}

/* ---- Updates */

/* The bench update's transactions, sent one at a time, leave the chip that the whole list leaves. */
static void sent_one_by_one(void)
{
    struct world world, other;
    struct outcome update;

    context("transactions sent one at a time");
    for (uint32_t bus = 0; bus < 2; bus++) {
        world_open(&world, 0, bus, 0);
        other = world;
        world_set(&world, REGISTER, 0x000, 0x01, 0);
        world_set(&world, REGISTER, 0x001, 0x58, 0);
        world_set(&world, LAMP, 0, 2, 0x40);
        update = world_sync(&world);
        check(walk(update.buffer, 4 + 2 * update.n + update.t) == update.n, "n is not %u", update.n);
        feed_one_by_one(&other, update.buffer);
        check(memcmp(other.chip, world.chip, sizeof world.chip) == 0, "another chip");
    }
}

void group_transactions(void)
{
    group("transactions");
    bench_list();
    short_and_long();
    many();
    damaged();
    short_lengths();
    sent_one_by_one();
    group_done("");
}
