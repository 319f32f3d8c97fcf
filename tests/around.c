/* Identifier, version talk and parameter groups from C: every function once, with answers worked out by hand from document
 * 01 and 001. Exits 1 where something differs.
 *   cc -std=c11 -Wall -Wextra -Werror -pedantic -Iinclude tests/around.c target/staticlib/libkospelna.a -o target/around
 */
#include "kospelna.h"

#include <stdio.h>
#include <string.h>

static int wrong = 0;

static void check(bool holds, int line, const char *what)
{
    if (!holds) {
        printf("tests/around.c:%d: not so: %s\n", line, what);
        wrong = 1;
    }
}

#define CHECK(fact) check((fact), __LINE__, #fact)

static const uint8_t none[8] = {0};

static bool same(const uint8_t *a, const uint8_t *b)
{
    return memcmp(a, b, 8) == 0;
}

static void identifier(void)
{
    kospelna_identifier_parts parts = {3, 0, 0, 0x38, KOSPELNA_VEHICLE_ADDRESS, KOSPELNA_CHARGER_ADDRESS};
    kospelna_identifier_joining joining = kospelna_identifier_join(parts);
    CHECK(joining.refusal == 0 && joining.identifier == 0x0C38F456);

    kospelna_identifier_splitting splitting = kospelna_identifier_split(joining.identifier);
    CHECK(splitting.refusal == 0);
    CHECK(splitting.parts.p == 3 && splitting.parts.edp == 0 && splitting.parts.dp == 0);
    CHECK(splitting.parts.pf == 0x38 && splitting.parts.ps == 0xF4 && splitting.parts.sa == 0x56);

    parts.sa = 256;
    joining = kospelna_identifier_join(parts);
    CHECK(joining.refusal == KOSPELNA_REFUSAL_IDENTIFIER && joining.identifier == 0);
    splitting = kospelna_identifier_split(0x20000000);
    CHECK(splitting.refusal == KOSPELNA_REFUSAL_IDENTIFIER && splitting.parts.p == 0 && splitting.parts.sa == 0);

    CHECK(kospelna_charger_address() == 0x56 && KOSPELNA_CHARGER_ADDRESS == 0x56);
    CHECK(kospelna_vehicle_address() == 0xF4 && KOSPELNA_VEHICLE_ADDRESS == 0xF4);
    CHECK(kospelna_charger_version_identifier() == 0x0C38F456 && KOSPELNA_CHARGER_VERSION_IDENTIFIER == 0x0C38F456);
    CHECK(kospelna_vehicle_version_identifier() == 0x0C3656F4 && KOSPELNA_VEHICLE_VERSION_IDENTIFIER == 0x0C3656F4);
}

/* Whose version message an identifier names: the header's constants are usable in a switch. */
static int speaker(uint32_t identifier)
{
    switch (identifier) {
    case KOSPELNA_CHARGER_VERSION_IDENTIFIER:
        return KOSPELNA_CHARGER;
    case KOSPELNA_VEHICLE_VERSION_IDENTIFIER:
        return KOSPELNA_VEHICLE;
    default:
        return -1;
    }
}

static void groups(void)
{
    /* what the vehicle asks for: 400.0 V, 125.0 A, constant voltage */
    kospelna_group group = {KOSPELNA_GROUP_VEHICLE_DEMAND, 4000, 1250, KOSPELNA_MODE_VOLTAGE, 0};
    const uint8_t expected[8] = {0x73, 0xA0, 0x0F, 0xE2, 0x04, 0x02, 0xFF, 0xFF};
    uint8_t bytes[KOSPELNA_GROUP_LENGTH] = {0};
    CHECK(kospelna_group_write(group, bytes, sizeof bytes).refusal == 0 && same(bytes, expected));

    kospelna_group_reading reading = kospelna_group_read(bytes, sizeof bytes);
    CHECK(reading.refusal == 0 && reading.group.code == 0x73);
    CHECK(reading.group.first == 4000 && reading.group.second == 1250);
    CHECK(reading.group.third == 2 && reading.group.fourth == 0);

    /* a refusal leaves the bytes */
    group.third = 3;
    CHECK(kospelna_group_write(group, bytes, 8).refusal == KOSPELNA_REFUSAL_VALUE && same(bytes, expected));
    CHECK(kospelna_group_write(group, bytes, 7).refusal == KOSPELNA_REFUSAL_GROUP && same(bytes, expected));
    bytes[7] = 0;
    reading = kospelna_group_read(bytes, 8);
    CHECK(reading.refusal == KOSPELNA_REFUSAL_GROUP && reading.group.code == 0);
}

/* The header's table of groups: each row's code, length, side, reliability and kinds of fields. */
static void group_table(void)
{
    enum {
        NONE = KOSPELNA_FIELD_NONE, READY = KOSPELNA_FIELD_READY, VOLTAGE = KOSPELNA_FIELD_VOLTAGE,
        CURRENT = KOSPELNA_FIELD_CURRENT, MODE = KOSPELNA_FIELD_MODE, CHARGE = KOSPELNA_FIELD_CHARGE,
        TIME = KOSPELNA_FIELD_TIME, REASON = KOSPELNA_FIELD_REASON, CELL = KOSPELNA_FIELD_CELL,
        TEMPERATURE = KOSPELNA_FIELD_TEMPERATURE, PAUSE = KOSPELNA_FIELD_PAUSE
    };
    static const kospelna_group_row rows[] = {
        {KOSPELNA_GROUP_CHARGER_READY, 2, KOSPELNA_CHARGER, false, READY, NONE, NONE, NONE},
        {KOSPELNA_GROUP_VEHICLE_READY, 4, KOSPELNA_VEHICLE, false, READY, VOLTAGE, NONE, NONE},
        {KOSPELNA_GROUP_VEHICLE_DEMAND, 6, KOSPELNA_VEHICLE, false, VOLTAGE, CURRENT, MODE, NONE},
        {KOSPELNA_GROUP_VEHICLE_CHARGING, 5, KOSPELNA_VEHICLE, false, CHARGE, TIME, NONE, NONE},
        {KOSPELNA_GROUP_CHARGER_OUTPUT, 4, KOSPELNA_CHARGER, false, CURRENT, REASON, NONE, NONE},
        {KOSPELNA_GROUP_CHARGER_CHARGING, 5, KOSPELNA_CHARGER, false, VOLTAGE, CURRENT, NONE, NONE},
        {KOSPELNA_GROUP_VEHICLE_BATTERY, 7, KOSPELNA_VEHICLE, false, CELL, CELL, TEMPERATURE, TEMPERATURE},
        {KOSPELNA_GROUP_CHARGER_PAUSE, 2, KOSPELNA_CHARGER, true, PAUSE, NONE, NONE, NONE},
        {KOSPELNA_GROUP_VEHICLE_PAUSE, 2, KOSPELNA_VEHICLE, true, PAUSE, NONE, NONE, NONE},
    };
    for (uint8_t code = 0x71; code <= 0x79; code++) {
        const kospelna_group_finding finding = kospelna_group_find(code);
        const kospelna_group_row is = finding.row, due = rows[code - 0x71];
        CHECK(finding.refusal == 0 && is.code == code && due.code == code && is.length == due.length);
        CHECK(is.side == due.side && is.reliable == due.reliable && is.first == due.first && is.second == due.second
              && is.third == due.third && is.fourth == due.fourth);
    }
    CHECK(kospelna_group_find(0x70).refusal == KOSPELNA_REFUSAL_GROUP && kospelna_group_find(0x70).row.length == 0);
    CHECK(kospelna_group_find(0x7A).refusal == KOSPELNA_REFUSAL_GROUP);
}

/* The bytes of a group of these values; none where it is refused. */
static const uint8_t *written(uint8_t code, int first, int second, int third)
{
    static uint8_t bytes[8];
    const kospelna_group group = {code, (uint16_t)first, (uint16_t)second, (uint16_t)third, 0};
    const uint8_t refusal = kospelna_group_write(group, bytes, 8).refusal;
    CHECK(refusal == 0 || refusal == KOSPELNA_REFUSAL_VALUE);
    return refusal == 0 ? bytes : none;
}

static bool takes(uint8_t code, int first, int second, int third)
{
    return written(code, first, second, third) != none;
}

/* The named values are taken and written as 001 tables H.5 to H.11 have them; one that has no name is refused. */
static void group_values(void)
{
    const uint8_t demand = KOSPELNA_GROUP_VEHICLE_DEMAND, output = KOSPELNA_GROUP_CHARGER_OUTPUT;
    const uint8_t battery = KOSPELNA_GROUP_VEHICLE_BATTERY, pause = KOSPELNA_GROUP_VEHICLE_PAUSE;
    CHECK(written(demand, 0, 0, KOSPELNA_MODE_CURRENT)[5] == 0x01 && !takes(demand, 0, 0, 0));
    CHECK(written(demand, 0, 0, KOSPELNA_MODE_VOLTAGE)[5] == 0x02 && !takes(demand, 0, 0, 3));
    CHECK(written(output, 0, KOSPELNA_REASON_NONE, 0)[3] == 0x00 && takes(output, 0, KOSPELNA_REASON_NONE, 0));
    CHECK(written(output, 0, KOSPELNA_REASON_GRID, 0)[3] == 0x01);
    CHECK(written(output, 0, KOSPELNA_REASON_CHARGER, 0)[3] == 0x02);
    CHECK(written(output, 0, KOSPELNA_REASON_OTHER, 0)[3] == 0xFF && !takes(output, 0, 3, 0));
    const uint8_t abnormal[8] = {0x77, 0xFE, 0xFF, 0xFF, 0xFF, 0xFE, 0x00, 0xFF};
    CHECK(same(written(battery, KOSPELNA_CELL_ABNORMAL, KOSPELNA_CELL_INVALID, KOSPELNA_TEMPERATURE_ABNORMAL), abnormal));
    CHECK(written(battery, 0, 0, KOSPELNA_TEMPERATURE_INVALID)[5] == 0xFF && !takes(battery, 0xFFFD, 0, 0));
    CHECK(written(pause, KOSPELNA_PAUSE, 0, 0)[1] == 0xAA && written(pause, KOSPELNA_RESUME, 0, 0)[1] == 0x00);
    CHECK(takes(pause, KOSPELNA_RESUME, 0, 0) && !takes(pause, 1, 0, 0));
}

/* A group goes to the other end: a reliable one by begin, any other by post, and is read from the short delivery. */
static void group_sent(void)
{
    static uint8_t buffer[KOSPELNA_BUFFER_LENGTH];
    const kospelna_group pause = {KOSPELNA_GROUP_CHARGER_PAUSE, KOSPELNA_PAUSE, 0, 0, 0};
    const kospelna_receiver receiver = kospelna_receiver_make(10, 1, 9).receiver;
    uint8_t bytes[8];
    CHECK(kospelna_group_write(pause, bytes, 8).refusal == 0);
    kospelna_sender_answer sent = kospelna_sender_begin(kospelna_sender_make(1, 10, 100).sender, bytes, 8);
    kospelna_receiver_answer heard = kospelna_receiver_hear(receiver, sent.frame, buffer, sizeof buffer);
    kospelna_group_reading reading = kospelna_group_read(heard.bytes, 8);
    CHECK(heard.outcome == KOSPELNA_DELIVERED_SHORT && heard.emits && reading.refusal == 0);
    CHECK(reading.group.code == KOSPELNA_GROUP_CHARGER_PAUSE && reading.group.first == KOSPELNA_PAUSE);
    CHECK(kospelna_sender_hear(sent.next, heard.frame).outcome == KOSPELNA_SENT);

    sent = kospelna_sender_post(kospelna_sender_make(1, 10, 100).sender, bytes, 8);
    heard = kospelna_receiver_hear(receiver, sent.frame, buffer, sizeof buffer);
    CHECK(heard.outcome == KOSPELNA_DELIVERED_SHORT && !heard.emits && same(heard.bytes, bytes));
}

static void message(void)
{
    kospelna_version_message said = {KOSPELNA_VERDICT_SUCCESS, KOSPELNA_VERSION(2, 0, 0), 0x0A};
    const uint8_t expected[8] = {0x00, 0x01, 0x02, 0x00, 0x00, 0x0A, 0x01, 0xFF};
    kospelna_version_writing writing = kospelna_version_message_write(said);
    CHECK(writing.refusal == 0 && same(writing.bytes.bytes, expected));

    kospelna_version_reading reading = kospelna_version_message_read(writing.bytes);
    CHECK(reading.refusal == 0 && reading.message.verdict == KOSPELNA_VERDICT_SUCCESS);
    CHECK(reading.message.version == 0x020000 && reading.message.control == 0x0A);
    writing.bytes.bytes[1] = 3;
    reading = kospelna_version_message_read(writing.bytes);
    CHECK(reading.refusal == KOSPELNA_REFUSAL_VALUE && reading.message.version == 0);

    /* a result above 2 is not written */
    said.verdict = 3;
    writing = kospelna_version_message_write(said);
    CHECK(writing.refusal == KOSPELNA_REFUSAL_VALUE && same(writing.bytes.bytes, none));
    said.verdict = KOSPELNA_VERDICT_FAILURE;
    writing = kospelna_version_message_write(said);
    CHECK(writing.refusal == 0 && writing.bytes.bytes[1] == 0x02);
}

/* Fifty ticks: the last one sends, and none before it. */
static kospelna_talker_answer period(kospelna_talker talker)
{
    kospelna_talker_answer answer = kospelna_talker_tick(talker);
    for (int i = 1; i < 50; i++) {
        CHECK(!answer.emits && answer.outcome == 0);
        answer = kospelna_talker_tick(answer.next);
    }
    CHECK(answer.emits && answer.outcome == 0);
    return answer;
}

static kospelna_talker made(uint8_t side, const uint8_t *bytes, size_t length)
{
    kospelna_version_listing listing = kospelna_version_list(bytes, length);
    CHECK(listing.refusal == 0 && listing.versions.count == length / 3);
    kospelna_talker_made made = kospelna_talker_make(side, listing.versions, 0x0A);
    CHECK(made.refusal == 0 && made.talker.side == side);
    CHECK(made.talker.state == KOSPELNA_TALKER_S0 && made.talker.place == length / 3 - 1);
    return made.talker;
}

/* The charger supports 1.1.0 and 2.0.0, the vehicle 2.0.0 and 2.1.0. */
static const uint8_t charger_versions[6] = {1, 1, 0, 2, 0, 0};
static const uint8_t vehicle_versions[6] = {2, 0, 0, 2, 1, 0};

static void talk(void)
{
    const uint8_t charger_first[8] = {0x00, 0x00, 0x02, 0x00, 0x00, 0x0A, 0x01, 0xFF};
    const uint8_t vehicle_first[8] = {0x00, 0x00, 0x02, 0x01, 0x00, 0x0A, 0x01, 0xFF};
    const uint8_t success[8] = {0x00, 0x01, 0x02, 0x00, 0x00, 0x0A, 0x01, 0xFF};

    kospelna_talker_answer charger = kospelna_talker_connect(made(KOSPELNA_CHARGER, charger_versions, 6));
    kospelna_talker_answer vehicle = kospelna_talker_connect(made(KOSPELNA_VEHICLE, vehicle_versions, 6));
    CHECK(charger.emits && charger.next.state == KOSPELNA_TALKER_S1 && same(charger.bytes.bytes, charger_first));
    CHECK(vehicle.emits && vehicle.next.state == KOSPELNA_TALKER_S1 && same(vehicle.bytes.bytes, vehicle_first));

    /* the vehicle finds the charger's version in its list; the charger's is lower than the vehicle's */
    const kospelna_version_bytes from_charger = charger.bytes, from_vehicle = vehicle.bytes;
    charger = kospelna_talker_hear(charger.next, from_vehicle);
    vehicle = kospelna_talker_hear(vehicle.next, from_charger);
    CHECK(!charger.emits && charger.next.state == KOSPELNA_TALKER_S1);
    CHECK(charger.next.verdict == KOSPELNA_VERDICT_CONTINUE && charger.next.place == 1);
    CHECK(!vehicle.emits && vehicle.next.state == KOSPELNA_TALKER_S1);
    CHECK(vehicle.next.verdict == KOSPELNA_VERDICT_SUCCESS && vehicle.next.place == 0);

    /* the vehicle's success settles the charger, whose success settles the vehicle */
    vehicle = period(vehicle.next);
    CHECK(same(vehicle.bytes.bytes, success));
    charger = kospelna_talker_hear(charger.next, vehicle.bytes);
    CHECK(charger.next.state == KOSPELNA_TALKER_S3 && charger.outcome == KOSPELNA_AGREED && charger.refusal == 0);
    CHECK(charger.version == KOSPELNA_VERSION(2, 0, 0) && charger.emits && same(charger.bytes.bytes, success));
    CHECK(!charger.next.timing);
    vehicle = kospelna_talker_hear(vehicle.next, charger.bytes);
    CHECK(vehicle.next.state == KOSPELNA_TALKER_S3 && vehicle.outcome == KOSPELNA_AGREED && vehicle.refusal == 0);
    CHECK(vehicle.version == KOSPELNA_VERSION(2, 0, 0) && vehicle.emits && same(vehicle.bytes.bytes, success));
    CHECK(vehicle.next.timing);

    /* the vehicle goes on sending success until the functions are heard */
    vehicle = period(vehicle.next);
    CHECK(same(vehicle.bytes.bytes, success));
    vehicle = kospelna_talker_functions_heard(vehicle.next);
    CHECK(!vehicle.emits && vehicle.next.state == KOSPELNA_TALKER_S3 && !vehicle.next.timing);
}

/* The charger supports 1.1.0 alone, the vehicle that and 2.0.0: they agree on 1.1.0, end in S2 and fall silent. */
static void old_talk(void)
{
    const uint8_t success[8] = {0x00, 0x01, 0x01, 0x01, 0x00, 0x0A, 0x01, 0xFF};
    kospelna_talker_answer charger = kospelna_talker_connect(made(KOSPELNA_CHARGER, charger_versions, 3));
    kospelna_talker_answer vehicle = kospelna_talker_connect(made(KOSPELNA_VEHICLE, charger_versions, 6));
    vehicle = period(kospelna_talker_hear(vehicle.next, charger.bytes).next);
    CHECK(same(vehicle.bytes.bytes, success));
    charger = kospelna_talker_hear(charger.next, vehicle.bytes);
    CHECK(charger.next.state == KOSPELNA_TALKER_S2 && charger.outcome == KOSPELNA_AGREED && charger.refusal == 0);
    CHECK(charger.version == KOSPELNA_VERSION(1, 1, 0) && charger.emits && same(charger.bytes.bytes, success));
    vehicle = kospelna_talker_hear(vehicle.next, charger.bytes);
    CHECK(vehicle.next.state == KOSPELNA_TALKER_S2 && vehicle.outcome == KOSPELNA_AGREED && vehicle.refusal == 0);
    CHECK(vehicle.version == KOSPELNA_VERSION(1, 1, 0) && vehicle.emits && same(vehicle.bytes.bytes, success));
    for (int i = 0; i < KOSPELNA_TALKER_PERIOD; i++) {
        charger = kospelna_talker_tick(charger.next);
        vehicle = kospelna_talker_tick(vehicle.next);
        CHECK(!charger.emits && !vehicle.emits && charger.next.state == KOSPELNA_TALKER_S2);
    }
}

static void other_calls(void)
{
    const uint8_t failure[8] = {0x00, 0x02, 0xFF, 0xFF, 0xFF, 0x0A, 0x01, 0xFF};
    kospelna_talker vehicle = made(KOSPELNA_VEHICLE, vehicle_versions, 6);

    kospelna_talker_answer answer = kospelna_talker_greet(vehicle);
    CHECK(answer.next.state == KOSPELNA_TALKER_S4 && answer.outcome == KOSPELNA_FAILED);
    CHECK(answer.emits && same(answer.bytes.bytes, failure));

    answer = kospelna_talker_connect(vehicle);
    answer = kospelna_talker_stop(answer.next);
    CHECK(answer.next.state == KOSPELNA_TALKER_S5 && answer.outcome == KOSPELNA_LEFT);
    CHECK(!answer.emits && same(answer.bytes.bytes, none));

    kospelna_version_bytes unknown = {{1, 0, 2, 0, 0, 0, 1, 0xFF}};
    answer = kospelna_talker_hear(vehicle, unknown);
    CHECK(answer.outcome == KOSPELNA_REFUSED && answer.refusal == KOSPELNA_REFUSAL_VALUE);
    CHECK(!answer.emits && answer.next.state == KOSPELNA_TALKER_S0);

    kospelna_version_listing listing = kospelna_version_list(charger_versions, 5);
    CHECK(listing.refusal == KOSPELNA_REFUSAL_VERSIONS && listing.versions.count == 0);

    /* unknown numbers are read as the charger, S0 and continue */
    vehicle.side = 7;
    vehicle.state = 9;
    vehicle.verdict = 5;
    answer = kospelna_talker_connect(vehicle);
    CHECK(answer.next.side == KOSPELNA_CHARGER && answer.next.state == KOSPELNA_TALKER_S1);
    CHECK(answer.next.verdict == KOSPELNA_VERDICT_CONTINUE && answer.emits);
}

/* Nobody answers: the talker fails at its limit, and has sent a message every period until then. */
static void limit(void)
{
    kospelna_talker_answer answer = kospelna_talker_connect(made(KOSPELNA_CHARGER, charger_versions, 6));
    int said = 0;
    for (int i = 1; i < KOSPELNA_TALKER_LIMIT; i++) {
        answer = kospelna_talker_tick(answer.next);
        CHECK(answer.outcome == KOSPELNA_QUIET && answer.emits == (i % KOSPELNA_TALKER_PERIOD == 0));
        said += answer.emits;
    }
    answer = kospelna_talker_tick(answer.next);
    CHECK(said == 299 && answer.outcome == KOSPELNA_FAILED && answer.next.state == KOSPELNA_TALKER_S4);
}

static bool is_made(uint32_t count, uint32_t first, uint32_t second)
{
    const kospelna_versions versions = {count, {first, second}};
    const kospelna_talker_made made = kospelna_talker_make(KOSPELNA_VEHICLE, versions, 0x0A);
    if (made.refusal == 0)
        return true;
    CHECK(made.refusal == KOSPELNA_REFUSAL_VERSIONS && made.talker.side == 0 && made.talker.control == 0);
    CHECK(made.talker.versions.count == 0 && made.talker.versions.numbers[0] == 0 && made.talker.place == 0);
    return false;
}

/* A talker is made of 1 to 8 strictly rising versions below 2^24, and of nothing else. */
static void bad_lists(void)
{
    kospelna_versions eight = {KOSPELNA_VERSIONS_MAX, {1, 2, 3, 4, 5, 6, 7, 8}};
    CHECK(is_made(1, 0, 0) && is_made(2, 0x010100, 0x020000) && is_made(1, 0x020000, 0x010100));
    CHECK(!is_made(0, 0x020000, 0) && !is_made(2, 0x020000, 0x010100) && !is_made(2, 0x020000, 0x020000));
    CHECK(!is_made(1, 0x1000000, 0) && !is_made(257, 0x020000, 0) && !is_made(UINT32_MAX, 0x020000, 0x030000));
    CHECK(kospelna_talker_make(KOSPELNA_CHARGER, eight, 1).refusal == 0);
    eight.count = KOSPELNA_VERSIONS_MAX + 1;
    CHECK(kospelna_talker_make(KOSPELNA_CHARGER, eight, 1).refusal == KOSPELNA_REFUSAL_VERSIONS);
}

int main(void)
{
    identifier();
    CHECK(speaker(kospelna_charger_version_identifier()) == KOSPELNA_CHARGER);
    CHECK(speaker(kospelna_vehicle_version_identifier()) == KOSPELNA_VEHICLE && speaker(0) == -1);
    groups();
    group_table();
    group_values();
    group_sent();
    message();
    talk();
    old_talk();
    other_calls();
    limit();
    bad_lists();
    if (!wrong)
        puts("around: all as expected");
    return wrong;
}
