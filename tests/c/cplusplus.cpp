/* The header from C++: a record is opened, gets a lamp, is updated and locked, and the last transaction is found; four records get a
 * round. */
#include "lp586x.h"

#include <algorithm>
#include <array>
#include <cstdint>

#include "check.h"
#include "groups.h"

static void four_records(void)
{
    static const std::array<std::uint8_t, 24> expected = {0x04, 0x00, 0x0C, 0x00, 0x03, 0x00, 0x03, 0x00, 0x03, 0x00, 0x03, 0x00,
                                                          0x80, 0x00, 0x01, 0x88, 0x00, 0x01, 0x90, 0x00, 0x01, 0x98, 0x00, 0x01};
    std::array<std::uint8_t, LP586X_RECORDS_SIZE> records;
    std::array<std::uint8_t, LP586X_ROUND_SIZE> buffer;
    std::uint32_t n = 0, t = 0;

    for (std::uint32_t place = 0; place < 4; place++) {
        std::uint8_t *record = records.data() + place * LP586X_RECORD_SIZE;

        check(lp586x_open(record, LP586X_RECORD_SIZE, LP586X_LP5860, LP586X_I2C, place) == LP586X_OK, "open at %u", place);
        check(lp586x_register(record, LP586X_RECORD_SIZE, 0x000, 0x01) == LP586X_OK, "register 000h at %u", place);
    }
    check(lp586x_round(records.data(), records.size(), 15, 11, buffer.data(), buffer.size(), &n, &t) == LP586X_ROUND_LIMIT, "limit");
    check(lp586x_round(records.data(), records.size(), 15, 12, buffer.data(), buffer.size(), &n, &t) == LP586X_OK, "round");
    check(n == 4 && t == 12, "n is %u, t is %u", n, t);
    check(std::equal(expected.begin(), expected.end(), buffer.begin()), "other list bytes");
}

void group_cplusplus(void)
{
    static const std::array<std::uint8_t, 19> expected = {0x03, 0x00, 0x09, 0x00, 0x03, 0x00, 0x03, 0x00, 0x03, 0x00,
                                                          0x80, 0x00, 0x01, 0x80, 0x01, 0x58, 0x84, 0x02, 0x40};
    std::array<std::uint8_t, LP586X_RECORD_SIZE> record;
    std::array<std::uint8_t, LP586X_UPDATE_SIZE> buffer;
    std::uint32_t n = 0, t = 0, stored = 0, needed = 0, offset = 0, length = 0;
    bool equal = true;

    group("C++");
    check(lp586x_open(record.data(), record.size(), LP586X_LP5860, LP586X_I2C, 0) == LP586X_OK, "open");
    check(lp586x_register(record.data(), record.size(), 0x000, 0x01) == LP586X_OK, "register 000h");
    check(lp586x_register(record.data(), record.size(), 0x001, 0x58) == LP586X_OK, "register 001h");
    check(lp586x_lamp(record.data(), record.size(), 0, 2, 0x40) == LP586X_OK, "lamp");
    check(lp586x_update(record.data(), record.size(), buffer.data(), buffer.size(), &n, &t, &stored, &needed) == LP586X_OK, "update");
    check(n == 3 && t == 9 && stored == 3, "n is %u, t is %u, stored is %u", n, t, stored);
    for (std::size_t i = 0; i < expected.size(); i++)
        equal = equal && buffer[i] == expected[i];
    check(equal, "other list bytes");
    check(lp586x_transaction(buffer.data(), expected.size(), 2, &offset, &length) == 0, "transaction");
    check(offset == 16 && length == 3, "%u bytes at %u", length, offset);
    check(lp586x_lock(record.data(), record.size()) == LP586X_OK, "lock");
    check(lp586x_lock(record.data(), record.size()) == LP586X_NOT_LOCKABLE, "lock, once more");
    check(lp586x_register(record.data(), record.size(), 0x003, 0x00) == LP586X_LOCKED, "register 003h");
    four_records();
    group_done("");
}
