/*
 * A client and a server walk-through of quic_version.h, both with flights that do not convert to
 * every version and with reserved numbers, the test of a server's configuration, lists as words,
 * transport parameters, the record's layout, the journal of an attempt, and NULL with length 0.
 * After `scripts/install PREFIX`, with PREFIX/lib/pkgconfig in PKG_CONFIG_PATH:
 *
 *     gcc -std=c99 example.c $(pkg-config --cflags --libs quic-version) -o example
 */
#include <quic_version.h>

#include <stdio.h>
#include <stdlib.h>
#include <string.h>

/* The layout, when this is compiled: a false condition is an array of -1 places. */
#define ASSERT_LAYOUT(name, condition) typedef char name[(condition) ? 1 : -1]
#define AT(field) offsetof(struct qv_attempt, field)
#define PAST(field) (AT(field) + sizeof(((struct qv_attempt *)0)->field))
#define FOLLOWS(field, before) ASSERT_LAYOUT(field##_follows, AT(field) == PAST(before))
ASSERT_LAYOUT(rows_first, AT(rows) == 0);
FOLLOWS(table, rows);
FOLLOWS(destination, table);
FOLLOWS(source, destination);
FOLLOWS(table_len, source);
FOLLOWS(destination_len, table_len);
FOLLOWS(source_len, destination_len);
FOLLOWS(original, source_len);
FOLLOWS(attempted, original);
FOLLOWS(acted, attempted);
FOLLOWS(heard, acted);
FOLLOWS(end_mark, heard);
FOLLOWS(end_value, end_mark);
FOLLOWS(journal, end_value);
ASSERT_LAYOUT(journal_last, sizeof(struct qv_attempt) == PAST(journal));
ASSERT_LAYOUT(attempt_size, sizeof(struct qv_attempt) == 12 * QV_MAX_TABLE + 2 * QV_MAX_ID + 48);
ASSERT_LAYOUT(answers_first, offsetof(struct qv_journal, answers) == 0);
ASSERT_LAYOUT(count_follows, offsetof(struct qv_journal, count) == QV_JOURNAL_PLACES);
ASSERT_LAYOUT(journal_size, sizeof(struct qv_journal) == QV_JOURNAL_PLACES + 4);
ASSERT_LAYOUT(refusal_follows, offsetof(struct qv_started, refusal) == sizeof(struct qv_attempt));
ASSERT_LAYOUT(started_size, sizeof(struct qv_started) == sizeof(struct qv_attempt) + 8);
ASSERT_LAYOUT(pair_size, sizeof(struct qv_pair) == 8);
ASSERT_LAYOUT(number_first, offsetof(struct qv_reserved, number) == 0);
ASSERT_LAYOUT(place_follows, offsetof(struct qv_reserved, place) == 4);
ASSERT_LAYOUT(reserved_size, sizeof(struct qv_reserved) == 8);
ASSERT_LAYOUT(size_t_size, sizeof(size_t) == 8);

#define EXPECT(condition) expect((condition), #condition, __LINE__)

static void expect(int holds, const char *what, int line)
{
    if (!holds) {
        fprintf(stderr, "c/example.c:%d: not so: %s\n", line, what);
        exit(1);
    }
}

/* The layout, as the library has it: field by field. */
static void layout(void)
{
    const struct qv_attempt record = qv_known_record();
    size_t i;

    EXPECT(qv_interface_version() == QV_INTERFACE_VERSION);
    EXPECT(qv_interface_9() == QV_INTERFACE_VERSION);
    EXPECT(qv_record_size() == sizeof(struct qv_attempt));
    for (i = 0; i < QV_MAX_TABLE; i++) {
        EXPECT(record.rows[i] == UINT64_C(0x1112131415161718));
        EXPECT(record.table[i] == 0x21222324u);
    }
    for (i = 0; i < QV_MAX_ID; i++) {
        EXPECT(record.destination[i] == 0x31);
        EXPECT(record.source[i] == 0x32);
    }
    EXPECT(record.table_len == 0x41);
    EXPECT(record.destination_len == 0x42);
    EXPECT(record.source_len == 0x43);
    EXPECT(record.original == 0x44);
    EXPECT(record.attempted == 0x45);
    EXPECT(record.acted == 0x46);
    EXPECT(record.heard == 0x47);
    EXPECT(record.end_mark == 0x48);
    EXPECT(record.end_value == 0x49);
    for (i = 0; i < QV_JOURNAL_PLACES; i++) {
        EXPECT(record.journal.answers[i] == 0x51);
    }
    EXPECT(record.journal.count == 0x52);
}

/* A first flight in version 12: what the version layer reads of it, a byte, and zeros. */
static const uint8_t first_flight[QV_MIN_ANSWERED_DATAGRAM] = {0xc0, 0,    0, 0,    12,   2,
                                                               0xaa, 0xbb, 1, 0xcc, 0xff};

/*
 * The server: a first flight in, a Version Negotiation packet out, which ends with a reserved
 * number that every client has to ignore. Returns its count of bytes.
 */
static size_t server(uint8_t packet[QV_MAX_PACKET])
{
    static const uint32_t readable[] = {14, 13, 10};
    static const uint32_t accepted[] = {14, 13, 10};
    static const uint32_t reserved[] = {0x1a2a3a4au};
    static const uint8_t expected[] = {0xc0, 0, 0, 0, 0,  1, 0xcc, 2, 0xaa, 0xbb, 0,    0,    0,
                                       14,   0, 0, 0, 13, 0, 0,    0, 10,   0x1a, 0x2a, 0x3a, 0x4a};
    uint32_t form = 0, version = 0, decision = 0;
    size_t places[QV_PLACES], count = 0;

    /* What came. */
    EXPECT(qv_read_header(first_flight, sizeof first_flight, 0, &form, &version, places) == QV_OK);
    EXPECT(form == QV_LONG && version == 12);
    EXPECT(places[QV_DESTINATION_START] == 6 && places[QV_DESTINATION_END] == 8);
    EXPECT(places[QV_SOURCE_START] == 9 && places[QV_SOURCE_END] == 10);
    EXPECT(places[QV_REST_START] == 10 && places[QV_REST_END] == sizeof first_flight);

    /* What to do: 12 cannot be read here. No pairs, nothing barred, no information to look at. */
    EXPECT(qv_server_choice(readable, 3, accepted, 3, NULL, 0, NULL, 0, version, QV_MISSING, NULL,
                            0, &decision) == QV_OK);
    EXPECT(decision == QV_NEGOTIATE);

    /* Fewer bytes get no answer, and leave all as found. So does a buffer that is too short. */
    memset(packet, 0x77, QV_MAX_PACKET);
    EXPECT(qv_write_version_negotiation(first_flight, 11, accepted, 3, reserved, 1, 64, packet,
                                        QV_MAX_PACKET, &count) == QV_DATAGRAM_TOO_SMALL);
    EXPECT(packet[0] == 0x77 && count == 0);
    EXPECT(qv_write_version_negotiation(first_flight, sizeof first_flight, accepted, 3, reserved, 1,
                                        64, packet, sizeof expected - 1,
                                        &count) == QV_NO_ROOM_FOR_PACKET);
    EXPECT(packet[0] == 0x77 && count == 0);

    /* Without a reserved number: the same, but for the last four bytes. */
    EXPECT(qv_write_version_negotiation(first_flight, sizeof first_flight, accepted, 3, NULL, 0, 64,
                                        packet, QV_MAX_PACKET, &count) == QV_OK);
    EXPECT(count == sizeof expected - 4 && memcmp(packet, expected, count) == 0);
    EXPECT(packet[count] == 0x77);

    EXPECT(qv_write_version_negotiation(first_flight, sizeof first_flight, accepted, 3, reserved, 1,
                                        64, packet, QV_MAX_PACKET, &count) == QV_OK);
    EXPECT(count == sizeof expected && memcmp(packet, expected, count) == 0);
    EXPECT(count <= sizeof first_flight);
    EXPECT(packet[count] == 0x77);
    return count;
}

/* Reserved numbers that no packet ends with: 28, after 26, and all is left as found. */
static void bad_reserved_in_packet(void)
{
    static const uint32_t offered[] = {14, 13};
    static const struct {
        uint32_t reserved[QV_MAX_RESERVED + 1];
        size_t reserved_len;
    } bad[] = {
        {{0x0a0a0a0bu}, 1},                                                     /* not reserved */
        {{0x1a2a3a4au, 0x0a0a0a0au, 0x1a2a3a4au}, 3},                           /* repeated */
        {{0x0a0a0a0au, 0x5a5a5a5au}, 2},                                        /* received */
        {{0x0a0a0a0au, 0x1a1a1a1au, 0x2a2a2a2au, 0x3a3a3a3au, 0x4a4a4a4au}, 5}, /* too many */
    };
    uint8_t received[sizeof first_flight], packet[QV_MAX_PACKET];
    size_t i, need, count = 7;

    /* A first flight in a reserved version, 0x5a5a5a5a. */
    memcpy(received, first_flight, sizeof received);
    memset(received + 1, 0x5a, 4);
    memset(packet, 0x77, sizeof packet);
    for (i = 0; i < sizeof bad / sizeof bad[0]; i++) {
        need = 10 + 4 * (2 + bad[i].reserved_len);
        EXPECT(qv_write_version_negotiation(received, sizeof received, offered, 2, bad[i].reserved,
                                            bad[i].reserved_len, 64, packet, need - 1,
                                            &count) == QV_NO_ROOM_FOR_PACKET);
        EXPECT(qv_write_version_negotiation(received, sizeof received, offered, 2, bad[i].reserved,
                                            bad[i].reserved_len, 64, packet, need,
                                            &count) == QV_BAD_RESERVED_IN_PACKET);
        EXPECT(count == 7 && packet[0] == 0x77 && packet[need - 1] == 0x77);
    }
    EXPECT(qv_close_code(QV_BAD_RESERVED_IN_PACKET, QV_CALL_WRITING) == QV_CLOSE_NONE);

    /* That version is answered, with other numbers or none. */
    EXPECT(qv_write_version_negotiation(received, sizeof received, offered, 2, bad[0].reserved, 0,
                                        64, packet, sizeof packet, &count) == QV_OK);
    EXPECT(qv_write_version_negotiation(received, sizeof received, offered, 2, bad[3].reserved,
                                        QV_MAX_RESERVED, 64, packet, sizeof packet,
                                        &count) == QV_OK);
    EXPECT(count == 10 + 4 * (2 + QV_MAX_RESERVED));
}

/* The server's choice after a first flight that it can read: 3, which is compatible with 4. */
static void server_choice(void)
{
    static const uint32_t readable[] = {3};
    static const uint32_t accepted[] = {4, 3};
    static const struct qv_pair there[] = {{3, 4}};
    static const struct qv_pair back[] = {{4, 3}};
    static const uint8_t information[] = {0, 0, 0, 3, 0, 0, 0, 3, 0, 0, 0, 4};
    uint32_t decision = 99, refusal;

    EXPECT(qv_server_choice(readable, 1, accepted, 2, there, 1, NULL, 0, 3, QV_GIVEN, information,
                            sizeof information, &decision) == QV_OK);
    EXPECT(decision == 4);
    EXPECT(qv_server_choice(readable, 1, accepted, 2, back, 1, NULL, 0, 3, QV_GIVEN, information,
                            sizeof information, &decision) == QV_OK);
    EXPECT(decision == 3);

    /* Malformed information: close with the code. The decision is left as found. */
    refusal = qv_server_choice(readable, 1, accepted, 2, there, 1, NULL, 0, 3, QV_GIVEN,
                               information, 3, &decision);
    EXPECT(refusal == QV_INFORMATION_TOO_SHORT && decision == 3);
    EXPECT(qv_close_code(refusal, QV_CALL_READING) == QV_TRANSPORT_PARAMETER_ERROR);
    EXPECT(qv_close_code(refusal, QV_CALL_WRITING) == QV_CLOSE_NONE);
}

/*
 * What that server decides with pair 3 to 4, after a first flight in 3 with Chosen 3, Available 3
 * and 4, where these versions are barred for the flight.
 */
static uint32_t decision_barring(const uint32_t *accepted, size_t accepted_len, uint32_t presence,
                                 const uint32_t *barred, size_t barred_len)
{
    static const uint32_t readable[] = {3};
    static const struct qv_pair pairs[] = {{3, 4}};
    static const uint8_t information[] = {0, 0, 0, 3, 0, 0, 0, 3, 0, 0, 0, 4};
    uint32_t decision = 99;

    EXPECT(qv_server_choice(readable, 1, accepted, accepted_len, pairs, 1, barred, barred_len, 3,
                            presence, information, sizeof information, &decision) == QV_OK);
    return decision;
}

/* Versions that the flight at hand does not convert to. */
static void server_choice_barring(void)
{
    static const uint32_t four_and_three[] = {4, 3}, three[] = {3}, four[] = {4};
    /* Any value may be barred: 0, a reserved version, one of no table, one of them twice. */
    static const uint32_t any[] = {0, 0x1a2a3a4au, 9, 9}, any_and_four[] = {0, 0x1a2a3a4au, 4, 4};

    EXPECT(decision_barring(four_and_three, 2, QV_GIVEN, NULL, 0) == 4);
    EXPECT(decision_barring(four_and_three, 2, QV_GIVEN, any, 4) == 4);
    EXPECT(decision_barring(four_and_three, 2, QV_GIVEN, four, 1) == 3);
    EXPECT(decision_barring(four_and_three, 2, QV_GIVEN, any_and_four, 4) == 3);

    /* Chosen among the barred versions has no effect. */
    EXPECT(decision_barring(four_and_three, 2, QV_GIVEN, three, 1) == 4);
    EXPECT(decision_barring(four_and_three, 2, QV_GIVEN, four_and_three, 2) == 3);

    /* Nothing is left. */
    EXPECT(decision_barring(four, 1, QV_GIVEN, NULL, 0) == 4);
    EXPECT(decision_barring(four, 1, QV_GIVEN, four, 1) == QV_NEGOTIATE);

    /* Where information is missing, nothing that is barred has an effect. */
    EXPECT(decision_barring(four_and_three, 2, QV_MISSING, NULL, 0) == 3);
    EXPECT(decision_barring(four_and_three, 2, QV_MISSING, four_and_three, 2) == 3);
    EXPECT(decision_barring(four, 1, QV_MISSING, four_and_three, 2) == QV_NEGOTIATE);
}

/* As many barred versions as there may be, and one more: 43, after 41 and before "negotiate". */
static void server_choice_at_the_limit(void)
{
    static const uint32_t four_and_three[] = {4, 3}, three[] = {3};
    uint32_t barred[QV_MAX_BARRED + 1] = {0}, decision = 99;

    barred[QV_MAX_BARRED - 1] = 4;
    EXPECT(decision_barring(four_and_three, 2, QV_GIVEN, barred, QV_MAX_BARRED) == 3);
    EXPECT(qv_server_choice(three, 1, three, 1, NULL, 0, barred, QV_MAX_BARRED + 1, 9, QV_MISSING,
                            NULL, 0, &decision) == QV_BAD_PAIRS);
    EXPECT(qv_server_choice(three, 1, three, 1, NULL, 0, barred, QV_MAX_BARRED + 1, 3, QV_GIVEN,
                            NULL, 0, &decision) == QV_BAD_PAIRS);
    EXPECT(qv_server_choice(three, 1, three, 0, NULL, 0, barred, QV_MAX_BARRED + 1, 3, QV_GIVEN,
                            NULL, 0, &decision) == QV_BAD_TABLE);
    EXPECT(decision == 99);
    EXPECT(qv_close_code(QV_BAD_PAIRS, QV_CALL_READING) == QV_CLOSE_NONE);
}

/* The lists of a server: readable, accepted, offered and Available. Its pair is 1 to 2. */
struct lists {
    uint32_t versions[4][4];
    size_t counts[4];
};

/* Tests them. The answer is the refusal. */
static uint32_t judge(const struct lists *lists, const struct qv_pair *pairs, size_t pairs_len,
                      uint32_t *part, uint32_t *version)
{
    return qv_judge_configuration(lists->versions[0], lists->counts[0], lists->versions[1],
                                  lists->counts[1], lists->versions[2], lists->counts[2],
                                  lists->versions[3], lists->counts[3], pairs, pairs_len, part,
                                  version);
}

/* A server's configuration: safe, or the first part of the rule that is broken, and by what. */
static void configuration(void)
{
    static const struct qv_pair pairs[] = {{1, 2}};
    static const struct {
        struct lists lists;
        uint32_t part, version;
    } cases[] = {
        {{{{2, 1}, {2, 1}, {2, 1}, {2, 1}}, {2, 2, 2, 2}}, QV_SAFE, 0},
        /* Readable may hold more. Order does not matter, nor do repeats in Available. */
        {{{{3, 1, 2}, {2, 1}, {1, 2}, {1, 2, 1, 1}}, {3, 2, 2, 4}}, QV_SAFE, 0},
        {{{{2, 1}, {2, 1}, {1}, {1}}, {2, 2, 1, 1}}, QV_ACCEPTED_NOT_OFFERED, 2},
        {{{{2, 1}, {1}, {2, 1}, {2, 1}}, {2, 1, 2, 2}}, QV_OFFERED_NOT_ACCEPTED, 2},
        {{{{1}, {2, 1}, {2, 1}, {2, 1}}, {1, 2, 2, 2}}, QV_OFFERED_NOT_READABLE, 2},
        {{{{2, 1}, {1}, {1}, {1, 2}}, {2, 1, 1, 2}}, QV_AVAILABLE_NOT_OFFERED, 2},
        {{{{2, 1}, {1}, {1}, {1, 0}}, {2, 1, 1, 2}}, QV_AVAILABLE_NOT_OFFERED, 0},
        {{{{1}, {1}, {1}, {0x1a2a3a4au, 1}}, {1, 1, 1, 2}}, QV_AVAILABLE_NOT_OFFERED, 0x1a2a3a4au},
        {{{{2, 1}, {2, 1}, {2, 1}, {1}}, {2, 2, 2, 1}}, QV_OFFERED_NOT_AVAILABLE, 2},
        {{{{2, 1}, {2, 1}, {2, 1}, {0}}, {2, 2, 2, 0}}, QV_OFFERED_NOT_AVAILABLE, 2},
        /* All five are broken, and then one less at a time. */
        {{{{1}, {5, 1, 4}, {1, 3, 2}, {7, 6}}, {1, 3, 3, 2}}, QV_ACCEPTED_NOT_OFFERED, 5},
        {{{{1}, {1}, {1, 3, 2}, {7, 6}}, {1, 1, 3, 2}}, QV_OFFERED_NOT_ACCEPTED, 3},
        {{{{1}, {1, 2, 3}, {1, 3, 2}, {7, 6}}, {1, 3, 3, 2}}, QV_OFFERED_NOT_READABLE, 3},
        {{{{1, 2, 3}, {1, 2, 3}, {1, 3, 2}, {7, 6}}, {3, 3, 3, 2}}, QV_AVAILABLE_NOT_OFFERED, 7},
        {{{{1, 2, 3}, {1, 2, 3}, {1, 3, 2}, {1}}, {3, 3, 3, 1}}, QV_OFFERED_NOT_AVAILABLE, 3},
    };
    uint32_t part, version;
    size_t i;

    for (i = 0; i < sizeof cases / sizeof cases[0]; i++) {
        part = 77;
        version = 78;
        EXPECT(judge(&cases[i].lists, pairs, 1, &part, &version) == QV_OK);
        EXPECT(part == cases[i].part && version == cases[i].version);
    }
    EXPECT(strcmp(qv_part_text(QV_SAFE), "the configuration is safe") == 0);
    EXPECT(strcmp(qv_part_text(QV_OFFERED_NOT_READABLE),
                  "an offered version is not readable") == 0);
    EXPECT(strcmp(qv_part_text(QV_OFFERED_NOT_AVAILABLE + 1), "an unknown number") == 0);
}

/* Lists that break a rule of their own: a refusal, the lowest number, and no part is told. */
static void configuration_refused(void)
{
    static const struct qv_pair pairs[] = {{1, 2}}, equal[] = {{1, 1}};
    static const struct {
        struct lists lists;
        const struct qv_pair *pairs;
        uint32_t refusal;
    } cases[] = {
        /* An entry twice, 0, a reserved number, no entry at all. */
        {{{{1}, {1}, {1, 1}, {1}}, {1, 1, 2, 1}}, pairs, QV_BAD_OFFERED_TABLE},
        {{{{1, 0}, {1}, {1}, {1}}, {2, 1, 1, 1}}, pairs, QV_BAD_TABLE},
        {{{{1}, {0x1a2a3a4au, 1}, {1}, {1}}, {1, 2, 1, 1}}, pairs, QV_BAD_TABLE},
        {{{{1}, {0}, {1}, {1}}, {1, 0, 1, 1}}, pairs, QV_BAD_TABLE},
        {{{{1}, {1}, {1}, {1}}, {1, 1, 1, 1}}, equal, QV_BAD_PAIRS},
        {{{{0}, {0}, {0}, {1}}, {1, 1, 1, 1}}, equal, QV_BAD_OFFERED_TABLE},
        {{{{0}, {2}, {1}, {1}}, {1, 1, 1, 1}}, equal, QV_BAD_TABLE},
        {{{{1}, {2}, {3}, {4}}, {1, 1, 1, 1}}, equal, QV_BAD_PAIRS},
    };
    uint32_t part = 77, version = 78;
    size_t i;

    for (i = 0; i < sizeof cases / sizeof cases[0]; i++) {
        EXPECT(judge(&cases[i].lists, cases[i].pairs, 1, &part, &version) == cases[i].refusal);
        EXPECT(part == 77 && version == 78);
        EXPECT(qv_close_code(cases[i].refusal, QV_CALL_WRITING) == QV_CLOSE_NONE);
    }
}

/* As much as a configuration may hold, and one more of each. */
static void configuration_at_the_limits(void)
{
    static struct qv_pair pairs[QV_MAX_PAIRS + 1];
    uint32_t table[QV_MAX_TABLE + 1], available[QV_MAX_AVAILABLE + 1], part = 77, version = 78;
    const size_t full = QV_MAX_TABLE;
    size_t i;

    for (i = 0; i <= QV_MAX_TABLE; i++) {
        table[i] = (uint32_t)i + 1;
    }
    for (i = 0; i <= QV_MAX_AVAILABLE; i++) {
        available[i] = table[i % QV_MAX_TABLE];
    }
    for (i = 0; i <= QV_MAX_PAIRS; i++) {
        pairs[i].from = 1;
        pairs[i].to = 2;
    }
    EXPECT(qv_judge_configuration(table, full, table, full, table, full + 1, available,
                                  QV_MAX_AVAILABLE + 1, pairs, QV_MAX_PAIRS + 1, &part,
                                  &version) == QV_BAD_OFFERED_TABLE);
    EXPECT(qv_judge_configuration(table, full, table, full + 1, table, full, available,
                                  QV_MAX_AVAILABLE + 1, pairs, QV_MAX_PAIRS + 1, &part,
                                  &version) == QV_INFORMATION_TOO_LONG);
    EXPECT(qv_judge_configuration(table, full, table, full + 1, table, full, available,
                                  QV_MAX_AVAILABLE, pairs, QV_MAX_PAIRS + 1, &part,
                                  &version) == QV_BAD_TABLE);
    EXPECT(qv_judge_configuration(table, full, table, full, table, full, available,
                                  QV_MAX_AVAILABLE, pairs, QV_MAX_PAIRS + 1, &part,
                                  &version) == QV_BAD_PAIRS);
    EXPECT(part == 77 && version == 78);
    EXPECT(qv_judge_configuration(table, full, table, full, table, full, available,
                                  QV_MAX_AVAILABLE, pairs, QV_MAX_PAIRS, &part, &version) == QV_OK);
    EXPECT(part == QV_SAFE && version == 0);

    /* The last of each list counts. */
    available[QV_MAX_AVAILABLE - 1] = full + 1;
    EXPECT(qv_judge_configuration(table, full, table, full, table, full, available,
                                  QV_MAX_AVAILABLE, pairs, QV_MAX_PAIRS, &part, &version) == QV_OK);
    EXPECT(part == QV_AVAILABLE_NOT_OFFERED && version == full + 1);
    EXPECT(qv_judge_configuration(table, full - 1, table, full, table, full, available,
                                  QV_MAX_AVAILABLE, pairs, QV_MAX_PAIRS, &part, &version) == QV_OK);
    EXPECT(part == QV_OFFERED_NOT_READABLE && version == full);
}

/* An attempt with table 14, 12, 10 whose first flight goes out in 12. */
static struct qv_attempt start(void)
{
    static const uint32_t table[] = {14, 12, 10};
    static const uint8_t destination[] = {0xaa, 0xbb};
    static const uint8_t source[] = {0xcc};
    const struct qv_started started = qv_start(table, 3, NULL, 0, NULL, 0, 12, destination,
                                               sizeof destination, source, sizeof source);

    EXPECT(started.refusal == QV_OK);
    EXPECT(started.attempt.attempted == 12 && started.attempt.end_mark == QV_OPEN);
    return started.attempt;
}

/* The client, to its end. The packet is the server's: it lists 14, 13, 10 and a reserved number. */
static void client(const uint8_t *packet, size_t packet_len)
{
    /* What the handshake authenticated: Chosen 14, Available 13 and 14. */
    static const uint8_t authenticated[] = {0, 0, 0, 14, 0, 0, 0, 13, 0, 0, 0, 14};
    /* At the front of the list as it is sent. */
    static const struct qv_reserved reserved[] = {{0x2a3a4a5au, 0}};
    struct qv_attempt attempt = start();
    uint32_t own[QV_MAX_TABLE] = {7, 7}, chosen = 0, version = 0;
    uint8_t information[QV_MAX_INFORMATION];
    size_t own_count = 0, count = 0, from = 0, to = 0;

    /* No Version Negotiation packet: ignored. */
    EXPECT(qv_datagram(&attempt, first_flight, sizeof first_flight) == QV_NOT_VERSION_NEGOTIATION);

    /* The server's packet: attempt 14 now. */
    EXPECT(qv_datagram(&attempt, packet, packet_len) == QV_OK);
    EXPECT(attempt.attempted == 14 && attempt.end_mark == QV_OPEN);

    /* The new first flight has the own list in its Version Information. */
    EXPECT(qv_own_list(&attempt, own, &own_count) == QV_OK);
    EXPECT(own_count == 1 && own[0] == 14 && own[1] == 7);
    EXPECT(qv_write_information(QV_CLIENT, attempt.attempted, own, own_count, information,
                                sizeof information, &count) == QV_OK);
    EXPECT(count == 8 && information[3] == 14 && information[7] == 14);

    /* Written from the record, with a reserved number that every server has to ignore. */
    EXPECT(qv_write_client_information(&attempt, reserved, 1, information, sizeof information,
                                       &count) == QV_OK);
    EXPECT(count == 12 && information[3] == 14 && information[4] == 0x2a && information[11] == 14);
    EXPECT(qv_read_information(QV_CLIENT, information, count, &chosen, &from, &to) == QV_OK);
    EXPECT(chosen == 14 && from == 4 && to == 12);
    EXPECT(qv_entry(information + from, to - from, 0, &version) == 1 && version == 0x2a3a4a5au);
    EXPECT(qv_entry(information + from, to - from, 1, &version) == 1 && version == 14);
    EXPECT(qv_entry(information + from, to - from, 2, &version) == 0 && version == 14);

    /* A genuine packet came; a second Version Negotiation packet is too late. */
    EXPECT(qv_packet_processed(&attempt) == QV_OK && attempt.heard == 1);
    EXPECT(qv_datagram(&attempt, packet, packet_len) == QV_TOO_LATE);

    /* The handshake ends in 14. */
    EXPECT(qv_outcome(&attempt, 14, authenticated, sizeof authenticated) == QV_OK);
    EXPECT(attempt.end_mark == QV_COMPLETED && attempt.end_value == 14);
}

/* The same client, and a server whose Available Versions are empty: 74, close with 0x11. */
static void client_refuses(const uint8_t *packet, size_t packet_len)
{
    static const uint8_t authenticated[] = {0, 0, 0, 14};
    struct qv_attempt attempt = start();
    uint32_t refusal;

    EXPECT(qv_datagram(&attempt, packet, packet_len) == QV_OK);
    refusal = qv_outcome(&attempt, 14, authenticated, sizeof authenticated);
    EXPECT(refusal == QV_AVAILABLE_EMPTY);
    EXPECT(attempt.end_mark == QV_CLOSED && attempt.end_value == QV_AVAILABLE_EMPTY);
    EXPECT(qv_close_code(refusal, QV_CALL_READING) == QV_VERSION_NEGOTIATION_ERROR);
    printf("%u: %s\n", (unsigned)refusal, qv_refusal_text(refusal));
}

/* NULL is allowed where the length is 0. */
static void null_with_length_0(void)
{
    static const uint32_t one[] = {1};
    struct qv_started started;
    uint32_t form = 7, version = 7, chosen = 7, decision = 7, part = 7;
    size_t places[QV_PLACES] = {7, 7, 7, 7, 7, 7}, count = 7, from = 7, to = 7;

    EXPECT(qv_is_table(NULL, 0) == 0);
    EXPECT(qv_are_pairs(NULL, 0) == 1);
    EXPECT(qv_read_header(NULL, 0, 0, &form, &version, places) == QV_TRUNCATED);
    EXPECT(form == 7 && version == 7 && places[QV_REST_END] == 7);
    EXPECT(qv_write_version_negotiation(NULL, 0, NULL, 0, NULL, 0, 0, NULL, 0, &count) ==
           QV_TRUNCATED);
    EXPECT(qv_write_version_negotiation(first_flight, sizeof first_flight, one, 1, NULL, 0, 0, NULL,
                                        0, &count) == QV_NO_ROOM_FOR_PACKET);
    EXPECT(qv_read_information(QV_SERVER, NULL, 0, &chosen, &from, &to) ==
           QV_INFORMATION_TOO_SHORT);
    EXPECT(qv_write_information(QV_SERVER, 1, NULL, 0, NULL, 0, &count) ==
           QV_NO_ROOM_FOR_INFORMATION);
    EXPECT(chosen == 7 && from == 7 && to == 7 && count == 7);
    EXPECT(qv_entry(NULL, 0, 0, &version) == 0);
    EXPECT(qv_choose(one, 1, NULL, 0, &version) == QV_NOTHING_IN_COMMON);
    EXPECT(qv_choose(NULL, 0, NULL, 0, &version) == QV_BAD_TABLE);
    EXPECT(qv_choose_from_bytes(one, 1, NULL, 0, &version) == QV_NOTHING_IN_COMMON);
    EXPECT(qv_server_choice(one, 1, one, 1, NULL, 0, NULL, 0, 1, QV_GIVEN, NULL, 0, &decision) ==
           QV_INFORMATION_TOO_SHORT);
    EXPECT(version == 7 && decision == 7);
    EXPECT(qv_judge_configuration(NULL, 0, NULL, 0, NULL, 0, NULL, 0, NULL, 0, &part, &version) ==
           QV_BAD_OFFERED_TABLE);
    EXPECT(part == 7 && version == 7);
    EXPECT(qv_judge_configuration(one, 1, one, 1, one, 1, NULL, 0, NULL, 0, &part, &version) ==
           QV_OK);
    EXPECT(part == QV_OFFERED_NOT_AVAILABLE && version == 1);

    /* Empty connection IDs. */
    started = qv_start(one, 1, NULL, 0, NULL, 0, 1, NULL, 0, NULL, 0);
    EXPECT(started.refusal == QV_OK);
    EXPECT(qv_write_client_information(&started.attempt, NULL, 0, NULL, 0, &count) ==
           QV_NO_ROOM_FOR_INFORMATION);
    EXPECT(count == 7);
    EXPECT(qv_datagram(&started.attempt, NULL, 0) == QV_NOT_VERSION_NEGOTIATION);
    EXPECT(qv_outcome_without_information(&started.attempt, 1) == QV_OK);
    EXPECT(started.attempt.end_mark == QV_COMPLETED && started.attempt.end_value == 1);
}

/* The same for lists as words: an empty list has the word 0 and no refusal, but no choice. */
static void null_with_length_0_as_words(void)
{
    static const uint32_t one[] = {1};
    uint32_t version = 7;
    uint64_t word = 7;
    size_t count = 7;

    EXPECT(qv_list_word(NULL, 0, NULL, 0, &word) == QV_BAD_TABLE && word == 7);
    EXPECT(qv_count_held(NULL, 0, NULL, 0, &count) == QV_BAD_TABLE && count == 7);
    EXPECT(qv_choose_by_word(NULL, 0, NULL, 0, &version) == QV_BAD_TABLE);
    EXPECT(qv_choose_from_word(NULL, 0, 1, &version) == QV_BAD_TABLE);
    EXPECT(qv_choose_by_word(one, 1, NULL, 0, &version) == QV_NOTHING_IN_COMMON);
    EXPECT(qv_choose_by_word_from_bytes(one, 1, NULL, 0, &version) == QV_NOTHING_IN_COMMON);
    EXPECT(version == 7);

    EXPECT(qv_list_word(one, 1, NULL, 0, &word) == QV_OK && word == 0);
    EXPECT(qv_count_held(one, 1, NULL, 0, &count) == QV_OK && count == 0);
    word = 7;
    count = 7;
    EXPECT(qv_list_word_from_bytes(one, 1, NULL, 0, &word) == QV_OK && word == 0);
    EXPECT(qv_count_held_from_bytes(one, 1, NULL, 0, &count) == QV_OK && count == 0);
}

/* The same for transport parameters: in an empty sequence Version Information is missing. */
static void null_with_length_0_as_parameters(void)
{
    static const uint8_t expected[] = {QV_VERSION_INFORMATION, 0};
    uint8_t buffer[3] = {7, 7, 7};
    uint32_t found = 7;
    uint64_t value = 7;
    size_t width = 7, count = 7, from = 7, to = 7;

    EXPECT(qv_read_integer(NULL, 0, &value, &width) == QV_RUNS_PAST_THE_END);
    EXPECT(value == 7 && width == 7);
    EXPECT(qv_write_integer(0, NULL, 0, &count) == QV_NO_ROOM_TO_WRITE && count == 7);
    EXPECT(qv_read_parameters(NULL, 0, &found, &from, &to) == QV_OK);
    EXPECT(found == QV_MISSING && from == 0 && to == 0);
    EXPECT(qv_write_parameters(NULL, 0, NULL, 0, NULL, 0, &count) == QV_NO_ROOM_TO_WRITE);
    EXPECT(count == 7);

    /* Nothing to keep, and a value of no bytes: it is not judged. */
    EXPECT(qv_write_parameters(NULL, 0, NULL, 0, buffer, sizeof buffer, &count) == QV_OK);
    EXPECT(count == sizeof expected && memcmp(buffer, expected, count) == 0 && buffer[2] == 7);
    EXPECT(qv_read_parameters(buffer, count, &found, &from, &to) == QV_OK);
    EXPECT(found == QV_GIVEN && from == 2 && to == 2);
}

/* Every call refuses this record with 255, and leaves it as found, its journal too. */
static void no_attempt(struct qv_attempt attempt)
{
    static const uint8_t information[] = {0, 0, 0, 1, 0, 0, 0, 1};
    static const uint8_t sevens[QV_JOURNAL_PLACES] = {7, 7, 7, 7, 7, 7, 7, 7};
    const struct qv_attempt found = attempt;
    uint32_t own[QV_MAX_TABLE] = {7}, events = 7;
    uint8_t buffer[8] = {7}, answers[QV_JOURNAL_PLACES];
    size_t count = 7, used = 7;

    memcpy(answers, sevens, sizeof answers);
    EXPECT(qv_read_journal(&attempt, answers, &used, &events) == QV_NOT_VALID);
    EXPECT(memcmp(answers, sevens, sizeof answers) == 0 && used == 7 && events == 7);
    EXPECT(qv_datagram(&attempt, first_flight, sizeof first_flight) == QV_NOT_VALID);
    EXPECT(qv_packet_processed(&attempt) == QV_NOT_VALID);
    EXPECT(qv_outcome(&attempt, 1, information, sizeof information) == QV_NOT_VALID);
    EXPECT(qv_outcome_without_information(&attempt, 0) == QV_NOT_VALID);
    EXPECT(qv_own_list(&attempt, own, &count) == QV_NOT_VALID && own[0] == 7 && count == 7);
    EXPECT(qv_write_client_information(&attempt, NULL, 0, buffer, sizeof buffer, &count) ==
           QV_NOT_VALID);
    EXPECT(qv_write_client_information(&attempt, NULL, 0, NULL, 0, &count) == QV_NOT_VALID);
    EXPECT(buffer[0] == 7 && count == 7);
    EXPECT(memcmp(&attempt, &found, sizeof attempt) == 0);
}

/* Document 01's P10: table 3, 4, 1, 2, pairs 1 to 2 and 3 to 4, Original Version 1. */
static struct qv_started start_barring(const struct qv_pair *barred, size_t barred_len)
{
    static const uint32_t table[] = {3, 4, 1, 2};
    static const struct qv_pair pairs[] = {{1, 2}, {3, 4}};
    static const uint8_t destination[] = {0xaa, 0xbb};
    static const uint8_t source[] = {0xcc};

    return qv_start(table, 4, pairs, 2, barred, barred_len, 1, destination, sizeof destination,
                    source, sizeof source);
}

/* The own list is these versions. */
static void owns(const struct qv_attempt *attempt, const uint32_t *versions, size_t versions_len)
{
    uint32_t own[QV_MAX_TABLE];
    size_t count = 0;

    EXPECT(qv_own_list(attempt, own, &count) == QV_OK && count == versions_len);
    EXPECT(memcmp(own, versions, versions_len * sizeof own[0]) == 0);
}

/* P10 with pairs barred for the attempt's flights. With 3 to 4 among them Chosen 4 is a 72. */
static void client_barring(void)
{
    /* The packet lists 4 and 3. Chosen 4, Available 4 and 3. */
    static const uint8_t packet[] = {0xc0, 0, 0, 0, 0, 1, 0xcc, 2, 0xaa,
                                     0xbb, 0, 0, 0, 4, 0, 0,    0, 3};
    static const uint8_t authenticated[] = {0, 0, 0, 4, 0, 0, 0, 4, 0, 0, 0, 3};
    static const uint32_t one_and_two[] = {1, 2}, three_and_four[] = {3, 4};
    static const struct {
        struct qv_pair barred[2];
        size_t barred_len, own_before, own_after;
        uint32_t refusal;
    } cases[] = {
        {{{0, 0}}, 0, 2, 2, QV_OK},
        {{{3, 4}}, 1, 2, 1, QV_CHOSEN_NOT_OURS},
        {{{3, 4}, {3, 4}}, 2, 2, 1, QV_CHOSEN_NOT_OURS},
        {{{1, 2}, {3, 4}}, 2, 1, 1, QV_CHOSEN_NOT_OURS},
        /* Not turned round, not chained, not read for the Original Version after the packet. */
        {{{4, 3}}, 1, 2, 2, QV_OK},
        {{{3, 1}, {1, 4}}, 2, 2, 2, QV_OK},
        {{{1, 2}}, 1, 1, 2, QV_OK},
    };
    size_t i;

    for (i = 0; i < sizeof cases / sizeof cases[0]; i++) {
        struct qv_started started = start_barring(cases[i].barred, cases[i].barred_len);
        struct qv_attempt *attempt = &started.attempt;

        EXPECT(started.refusal == QV_OK);
        owns(attempt, one_and_two, cases[i].own_before);
        EXPECT(qv_datagram(attempt, packet, sizeof packet) == QV_OK && attempt->attempted == 3);
        owns(attempt, three_and_four, cases[i].own_after);
        EXPECT(qv_outcome(attempt, 4, authenticated, sizeof authenticated) == cases[i].refusal);
        if (cases[i].refusal == QV_OK) {
            EXPECT(attempt->end_mark == QV_COMPLETED && attempt->end_value == 4);
        } else {
            EXPECT(attempt->end_mark == QV_CLOSED && attempt->end_value == cases[i].refusal);
        }
    }
    EXPECT(qv_close_code(QV_CHOSEN_NOT_OURS, QV_CALL_READING) == QV_VERSION_NEGOTIATION_ERROR);
}

/* The list as sent is these versions, for these reserved numbers. */
static void sends(const struct qv_attempt *attempt, const struct qv_reserved *reserved,
                  size_t reserved_len, const uint32_t *versions, size_t versions_len)
{
    uint8_t buffer[4 + 4 * (QV_MAX_TABLE + QV_MAX_RESERVED) + 1];
    uint32_t chosen = 0, version = 0;
    size_t i, count = 0, from = 0, to = 0;

    memset(buffer, 0x77, sizeof buffer);
    EXPECT(qv_write_client_information(attempt, reserved, reserved_len, buffer, sizeof buffer,
                                       &count) == QV_OK);
    EXPECT(count == 4 + 4 * versions_len && buffer[count] == 0x77);
    EXPECT(qv_read_information(QV_CLIENT, buffer, count, &chosen, &from, &to) == QV_OK);
    EXPECT(chosen == attempt->attempted && to - from == 4 * versions_len);
    for (i = 0; i < versions_len; i++) {
        EXPECT(qv_entry(buffer + from, to - from, i, &version) == 1 && version == versions[i]);
    }
}

/* P10's own list, 1 and 2, with reserved numbers: as sent, and as may be answered. */
static void client_reserved(void)
{
    static const struct qv_reserved given[] = {
        {0x1a1a1a1au, 3}, {0x0a0a0a0au, 0}, {0xfafafafau, 5}, {0x2a2a2a2au, 2}};
    static const uint32_t none[] = {1, 2};
    static const uint32_t one[] = {0x0a0a0a0au, 1, 2};
    static const uint32_t all[] = {0x0a0a0a0au, 1, 0x2a2a2a2au, 0x1a1a1a1au, 2, 0xfafafafau};
    /* Chosen 0x0a0a0a0a, which was sent, and Available 1. */
    static const uint8_t authenticated[] = {0x0a, 0x0a, 0x0a, 0x0a, 0, 0, 0, 1};
    struct qv_attempt attempt = start_barring(NULL, 0).attempt;
    const struct qv_attempt found = attempt;

    sends(&attempt, NULL, 0, none, 2);
    sends(&attempt, given + 1, 1, one, 3);
    sends(&attempt, given, 4, all, 6);
    owns(&attempt, none, 2);
    EXPECT(memcmp(&attempt, &found, sizeof attempt) == 0);

    /* A reserved number is sent, but may not be answered. The attempt ends; the call does not. */
    EXPECT(qv_outcome(&attempt, 0x0a0a0a0au, authenticated, sizeof authenticated) ==
           QV_CHOSEN_NOT_OURS);
    EXPECT(attempt.end_mark == QV_CLOSED);
    sends(&attempt, given, 4, all, 6);
}

/* Reserved numbers that no list is sent with: 47, after 37, and all is left as found. */
static void bad_reserved_in_list(void)
{
    static const struct {
        struct qv_reserved reserved[QV_MAX_RESERVED + 1];
        size_t reserved_len;
    } bad[] = {
        {{{0x0a0a0a0bu, 0}}, 1},                            /* not reserved */
        {{{0x0a0a0a0au, 0}, {0x0a0a0a0au, 1}}, 2},          /* repeated */
        {{{0x0a0a0a0au, 1}, {0x1a1a1a1au, 1}}, 2},          /* a place twice */
        {{{0x0a0a0a0au, 3}}, 1},                            /* one past the end */
        {{{0x0a0a0a0au, 0}, {0x1a1a1a1au, UINT32_MAX}}, 2}, /* far past it */
        {{{0x0a0a0a0au, 0}, {0x1a1a1a1au, 1}, {0x2a2a2a2au, 2}, {0x3a3a3a3au, 3}, {0x4a4a4a4au, 4}},
         5}, /* too many */
    };
    const struct qv_attempt attempt = start_barring(NULL, 0).attempt;
    uint8_t buffer[QV_MAX_INFORMATION];
    size_t i, need, count = 7;

    memset(buffer, 0x77, sizeof buffer);
    for (i = 0; i < sizeof bad / sizeof bad[0]; i++) {
        need = 4 + 4 * (2 + bad[i].reserved_len);
        EXPECT(qv_write_client_information(&attempt, bad[i].reserved, bad[i].reserved_len, buffer,
                                           need - 1, &count) == QV_NO_ROOM_FOR_INFORMATION);
        EXPECT(qv_write_client_information(&attempt, bad[i].reserved, bad[i].reserved_len, buffer,
                                           need, &count) == QV_BAD_RESERVED_IN_LIST);
        EXPECT(count == 7 && buffer[0] == 0x77 && buffer[need - 1] == 0x77);
    }
    EXPECT(qv_close_code(QV_BAD_RESERVED_IN_LIST, QV_CALL_WRITING) == QV_CLOSE_NONE);
}

/* Barred pairs that break the pairs' rule: 43, after 41 and before 44. */
static void bad_barred_pairs(void)
{
    static const struct qv_pair bad[] = {
        {0, 4}, {3, 0}, {0x1a2a3a4au, 4}, {3, 0x1a2a3a4au}, {3, 3}};
    static const uint32_t one[] = {1};
    struct qv_pair barred[QV_MAX_PAIRS + 1];
    struct qv_started started;
    size_t i;

    for (i = 0; i < sizeof bad / sizeof bad[0]; i++) {
        started = start_barring(&bad[i], 1);
        EXPECT(started.refusal == QV_BAD_PAIRS);
        no_attempt(started.attempt);
        EXPECT(qv_start(one, 0, NULL, 0, &bad[i], 1, 2, NULL, 0, NULL, 0).refusal == QV_BAD_TABLE);
        EXPECT(qv_start(one, 1, NULL, 0, &bad[i], 1, 2, NULL, 0, NULL, 0).refusal == QV_BAD_PAIRS);
    }

    /* As many as there may be, the last of them from the Original Version, and one more. */
    for (i = 0; i <= QV_MAX_PAIRS; i++) {
        barred[i].from = i < QV_MAX_PAIRS - 1 ? 2 : 1;
        barred[i].to = i < QV_MAX_PAIRS - 1 ? 1 : 2;
    }
    started = start_barring(barred, QV_MAX_PAIRS);
    EXPECT(started.refusal == QV_OK);
    owns(&started.attempt, one, 1);
    EXPECT(start_barring(barred, QV_MAX_PAIRS + 1).refusal == QV_BAD_PAIRS);
}

/* The journal of an attempt is these answers, and so many events were counted. */
static void journals(const struct qv_attempt *attempt, const uint8_t *answers, size_t answers_len,
                     uint32_t events)
{
    const struct qv_attempt found = *attempt;
    uint8_t kept[QV_JOURNAL_PLACES];
    size_t used = SIZE_MAX, i;
    uint32_t count = 77;

    memset(kept, 0x77, sizeof kept);
    EXPECT(qv_read_journal(attempt, kept, &used, &count) == QV_OK);
    EXPECT(used == answers_len && count == events);
    for (i = 0; i < QV_JOURNAL_PLACES; i++) {
        EXPECT(kept[i] == (i < used ? answers[i] : 0));
    }
    EXPECT(memcmp(attempt, &found, sizeof found) == 0);
}

/* Every event is noted: ignored ones, and those after the end. The last eight are kept. */
static void journal(void)
{
    /* Other connection IDs; then 12, the Original Version; then 14, on which the attempt acts. */
    static const uint8_t other[] = {0xc0, 0, 0, 0, 0, 1, 0xcd, 2, 0xaa, 0xbb, 0, 0, 0, 14};
    static const uint8_t listed[] = {0xc0, 0, 0, 0, 0, 1, 0xcc, 2, 0xaa, 0xbb, 0, 0, 0, 12};
    static const uint8_t packet[] = {0xc0, 0, 0, 0, 0, 1, 0xcc, 2, 0xaa, 0xbb, 0, 0, 0, 14};
    static const uint8_t authenticated[] = {0, 0, 0, 14, 0, 0, 0, 14};
    /* All that follow, in their order. */
    static const uint8_t all[] = {61, 63, 64, 0, 62, 0, 0, 62, 61, 62, 62};
    struct qv_attempt attempt = start(), found;

    journals(&attempt, all, 0, 0);
    EXPECT(qv_datagram(&attempt, NULL, 0) == QV_NOT_VERSION_NEGOTIATION);
    journals(&attempt, all, 1, 1);
    EXPECT(qv_datagram(&attempt, other, sizeof other) == QV_OTHER_CONNECTION);
    EXPECT(qv_datagram(&attempt, listed, sizeof listed) == QV_LISTS_ORIGINAL);
    journals(&attempt, all, 3, 3);
    /* Nothing else has changed. */
    found = start();
    found.journal = attempt.journal;
    EXPECT(memcmp(&attempt, &found, sizeof attempt) == 0);

    EXPECT(qv_datagram(&attempt, packet, sizeof packet) == QV_OK);
    EXPECT(qv_datagram(&attempt, packet, sizeof packet) == QV_TOO_LATE);
    EXPECT(qv_packet_processed(&attempt) == QV_OK);
    EXPECT(qv_outcome(&attempt, 14, authenticated, sizeof authenticated) == QV_OK);
    journals(&attempt, all, 7, 7);

    /* After the end, up to eight and past them. */
    EXPECT(qv_packet_processed(&attempt) == QV_TOO_LATE);
    journals(&attempt, all, 8, 8);
    EXPECT(qv_datagram(&attempt, packet, 9) == QV_NOT_VERSION_NEGOTIATION);
    journals(&attempt, all + 1, 8, 9);
    EXPECT(qv_outcome(&attempt, 14, authenticated, 3) == QV_TOO_LATE);
    EXPECT(qv_outcome_without_information(&attempt, 14) == QV_TOO_LATE);
    journals(&attempt, all + 3, 8, 11);
    EXPECT(attempt.end_mark == QV_COMPLETED && attempt.end_value == 14);

    /* An unknown kind is no event. */
    EXPECT(qv_event(&attempt, 4, 14, packet, sizeof packet) == QV_NOT_VALID);
    journals(&attempt, all + 3, 8, 11);

    /* Reading and writing are none either. */
    owns(&attempt, &found.table[0], 1);
    journals(&attempt, all + 3, 8, 11);

    /* Starting again empties it. */
    attempt = start();
    journals(&attempt, all, 0, 0);
}

/* An ending is noted with its number. */
static void journal_of_an_ending(void)
{
    static const uint8_t nothing[] = {0xc0, 0, 0, 0, 0, 1, 0xcc, 2, 0xaa, 0xbb, 0, 0, 0, 13};
    static const uint8_t answers[] = {QV_NO_VERSION_LEFT, QV_TOO_LATE};
    static const uint8_t closed[] = {QV_CHOSEN_NOT_IN_USE};
    struct qv_attempt attempt = start();

    EXPECT(qv_datagram(&attempt, nothing, sizeof nothing) == QV_NO_VERSION_LEFT);
    EXPECT(qv_packet_processed(&attempt) == QV_TOO_LATE);
    journals(&attempt, answers, 2, 2);
    attempt = start();
    EXPECT(qv_outcome_without_information(&attempt, 14) == QV_CHOSEN_NOT_IN_USE);
    journals(&attempt, closed, 1, 1);
}

/* The count stops, while the answers go on. Here the journal is written by hand, near the stop. */
static void journal_at_its_stop(void)
{
    static const uint8_t answers[] = {31, 32, 33, 34, 35, 61, 62, 63, 0, 61, 0};
    struct qv_attempt attempt = start();

    memcpy(attempt.journal.answers, answers, QV_JOURNAL_PLACES);
    attempt.journal.count = QV_MAX_EVENTS - 1;
    journals(&attempt, answers, 8, QV_MAX_EVENTS - 1);
    EXPECT(qv_packet_processed(&attempt) == QV_OK);
    journals(&attempt, answers + 1, 8, QV_MAX_EVENTS);
    EXPECT(qv_datagram(&attempt, NULL, 0) == QV_NOT_VERSION_NEGOTIATION);
    journals(&attempt, answers + 2, 8, QV_MAX_EVENTS);
    EXPECT(qv_packet_processed(&attempt) == QV_OK);
    journals(&attempt, answers + 3, 8, QV_MAX_EVENTS);
}

/* Records that could not be an attempt's, and kinds that the header does not name: 255. */
static void not_valid(void)
{
    static const uint8_t information[] = {0, 0, 0, 1, 0, 0, 0, 1};
    static const uint32_t one[] = {1};
    struct qv_attempt attempt = start(), found;
    uint32_t chosen = 7, decision = 7;
    size_t count = 7, from = 7, to = 7;

    attempt.table_len = QV_MAX_TABLE + 1;
    no_attempt(attempt);
    attempt = start();
    EXPECT(qv_packet_processed(&attempt) == QV_OK);
    EXPECT(qv_datagram(&attempt, NULL, 0) == QV_NOT_VERSION_NEGOTIATION);
    attempt.attempted = 13;
    no_attempt(attempt);
    memset(&attempt, 0, sizeof attempt);
    no_attempt(attempt);
    attempt = qv_start(one, 0, NULL, 0, NULL, 0, 1, NULL, 0, NULL, 0).attempt;
    no_attempt(attempt);
    EXPECT(attempt.journal.count == 0 && attempt.journal.answers[0] == 0);
    attempt = start();
    found = attempt;
    EXPECT(qv_event(&attempt, 4, 0, NULL, 0) == QV_NOT_VALID);
    EXPECT(qv_close_code(QV_DOWNGRADED, 2) == QV_UNKNOWN_CALL);
    EXPECT(qv_close_code(QV_DOWNGRADED + 256, QV_CALL_READING) == QV_CLOSE_NONE);
    EXPECT(memcmp(&attempt, &found, sizeof attempt) == 0);
    EXPECT(qv_read_information(2, information, sizeof information, &chosen, &from, &to) ==
           QV_NOT_VALID);
    EXPECT(qv_write_information(2, 1, one, 1, NULL, 0, &count) == QV_NOT_VALID);
    EXPECT(qv_server_choice(one, 1, one, 1, NULL, 0, NULL, 0, 1, 2, information, sizeof information,
                            &decision) == QV_NOT_VALID);
    EXPECT(chosen == 7 && decision == 7 && from == 7 && to == 7 && count == 7);
}

/* The header's limits are the library's. The datagram to answer has two IDs of 255 bytes of 255. */
static void limits(void)
{
    uint32_t table[QV_MAX_TABLE + 1];
    struct qv_pair pairs[QV_MAX_PAIRS + 1];
    static const uint32_t reserved[] = {0x0a0a0a0au, 0x1a1a1a1au, 0x2a2a2a2au, 0x3a3a3a3au};
    uint8_t received[QV_MIN_ANSWERED_DATAGRAM], packet[QV_MAX_PACKET];
    size_t i, count = 0;

    EXPECT(QV_MAX_PACKET == 789 && sizeof reserved / sizeof reserved[0] == QV_MAX_RESERVED);
    for (i = 0; i <= QV_MAX_TABLE; i++) {
        table[i] = (uint32_t)i + 1;
    }
    for (i = 0; i <= QV_MAX_PAIRS; i++) {
        pairs[i].from = 1;
        pairs[i].to = 2;
    }
    memset(received, 255, sizeof received);
    EXPECT(qv_is_table(table, QV_MAX_TABLE) == 1 && qv_is_table(table, QV_MAX_TABLE + 1) == 0);
    EXPECT(qv_are_pairs(pairs, QV_MAX_PAIRS) == 1 && qv_are_pairs(pairs, QV_MAX_PAIRS + 1) == 0);
    EXPECT(qv_write_version_negotiation(received, sizeof received - 1, table, QV_MAX_TABLE,
                                        reserved, QV_MAX_RESERVED, 0, packet, sizeof packet,
                                        &count) == QV_DATAGRAM_TOO_SMALL);
    EXPECT(qv_write_version_negotiation(received, sizeof received, table, QV_MAX_TABLE, reserved,
                                        QV_MAX_RESERVED, 0, packet, sizeof packet - 1,
                                        &count) == QV_NO_ROOM_FOR_PACKET);
    EXPECT(qv_write_version_negotiation(received, sizeof received, table, QV_MAX_TABLE, reserved,
                                        QV_MAX_RESERVED, 0, packet, sizeof packet,
                                        &count) == QV_OK);
    EXPECT(count == QV_MAX_PACKET);
}

/* The longest list that is sent: every entry of a full table, and reserved numbers about them. */
static void longest_list(void)
{
    static const struct qv_reserved reserved[] = {{0x0a0a0a0au, 0},
                                                  {0x1a1a1a1au, QV_MAX_TABLE + 3},
                                                  {0x2a2a2a2au, 1},
                                                  {0x3a3a3a3au, QV_MAX_TABLE + 2}};
    uint32_t table[QV_MAX_TABLE], list[QV_MAX_TABLE + QV_MAX_RESERVED];
    struct qv_pair pairs[QV_MAX_TABLE - 1];
    struct qv_started started;
    size_t i;

    for (i = 0; i < QV_MAX_TABLE; i++) {
        table[i] = (uint32_t)i + 1;
        list[2 + i] = table[i];
    }
    for (i = 0; i < QV_MAX_TABLE - 1; i++) {
        pairs[i].from = QV_MAX_TABLE;
        pairs[i].to = table[i];
    }
    list[0] = 0x0a0a0a0au;
    list[1] = 0x2a2a2a2au;
    list[QV_MAX_TABLE + 2] = 0x3a3a3a3au;
    list[QV_MAX_TABLE + 3] = 0x1a1a1a1au;
    started = qv_start(table, QV_MAX_TABLE, pairs, QV_MAX_TABLE - 1, NULL, 0, QV_MAX_TABLE, NULL, 0,
                       NULL, 0);
    EXPECT(started.refusal == QV_OK);
    sends(&started.attempt, NULL, 0, table, QV_MAX_TABLE);
    sends(&started.attempt, reserved, QV_MAX_RESERVED, list, QV_MAX_TABLE + QV_MAX_RESERVED);
}

static void small_calls(void)
{
    static const uint32_t table[] = {14, 12, 10};
    static const uint32_t list[] = {10, 13, 14};
    static const uint8_t bytes[] = {0, 0, 0, 10, 0, 0, 0, 13, 0, 0, 0, 12, 0};
    static const struct qv_pair equal[] = {{3, 3}};
    uint32_t version = 0;

    EXPECT(qv_is_reserved(0x1a2a3a4au) == 1 && qv_is_reserved(0x1b2a3a4au) == 0);
    EXPECT(qv_is_table(table, 3) == 1 && qv_are_pairs(equal, 1) == 0);
    EXPECT(qv_choose(table, 3, list, 3, &version) == QV_OK && version == 14);
    EXPECT(qv_choose_from_bytes(table, 3, bytes, sizeof bytes, &version) == QV_OK);
    EXPECT(version == 12);
}

/* Lists as words: bit j is entry j of the table. The version at the lowest bit is the choice. */
static void words(void)
{
    static const uint32_t table[] = {14, 12, 10};
    static const uint32_t list[] = {10, 13, 14};
    static const uint8_t bytes[] = {0, 0, 0, 10, 0, 0, 0, 13, 0, 0, 0, 12, 0};
    uint32_t version = 0;
    uint64_t word = 0, other = 0;
    size_t count = 0;

    /* The list holds 14 and 10, the first and the last of the table. */
    EXPECT(qv_list_word(table, 3, list, 3, &word) == QV_OK && word == 5);
    EXPECT(qv_choose_by_word(table, 3, list, 3, &version) == QV_OK && version == 14);
    EXPECT(qv_count_held(table, 3, list, 3, &count) == QV_OK && count == 2);

    /* On the wire: 10, 13 and 12, and a byte that is no entry. */
    EXPECT(qv_list_word_from_bytes(table, 3, bytes, sizeof bytes, &other) == QV_OK && other == 6);
    EXPECT(qv_choose_by_word_from_bytes(table, 3, bytes, sizeof bytes, &version) == QV_OK);
    EXPECT(version == 12);
    EXPECT(qv_count_held_from_bytes(table, 3, bytes, sizeof bytes, &count) == QV_OK && count == 2);

    /* Both lists joined hold all three. */
    EXPECT((word | other) == 7);
    EXPECT(qv_choose_from_word(table, 3, word | other, &version) == QV_OK && version == 14);

    /* A word of any origin: a bit past the table is nobody's. No bit: 42, and 14 is left. */
    EXPECT(qv_choose_from_word(table, 3, UINT64_C(1) << 3, &version) == QV_NOTHING_IN_COMMON);
    EXPECT(qv_choose_from_word(table, 3, 0, &version) == QV_NOTHING_IN_COMMON && version == 14);
    EXPECT(qv_choose_from_word(table, 3, ~UINT64_C(1), &version) == QV_OK && version == 12);
}

/* A full table, of which a list as long as it may be holds the last entry alone. */
static void words_at_the_limits(void)
{
    static uint32_t list[QV_MAX_LIST + 1];
    uint32_t table[QV_MAX_TABLE], last = QV_MAX_TABLE, version = 0;
    uint64_t word = 0;
    size_t i, count = 0;

    for (i = 0; i < QV_MAX_TABLE; i++) {
        table[i] = (uint32_t)i + 1;
    }
    list[QV_MAX_LIST - 1] = last;
    EXPECT(qv_list_word(table, QV_MAX_TABLE, list, QV_MAX_LIST, &word) == QV_OK);
    EXPECT(word == UINT64_C(1) << 63);
    EXPECT(qv_choose_by_word(table, QV_MAX_TABLE, list, QV_MAX_LIST, &version) == QV_OK);
    EXPECT(version == last);
    EXPECT(qv_count_held(table, QV_MAX_TABLE, list, QV_MAX_LIST, &count) == QV_OK && count == 1);
    EXPECT(qv_choose_from_word(table, QV_MAX_TABLE, word, &version) == QV_OK && version == last);
    EXPECT(qv_choose_from_word(table, QV_MAX_TABLE - 1, word, &version) == QV_NOTHING_IN_COMMON);

    /* The table itself as a list: every bit. */
    EXPECT(qv_list_word(table, QV_MAX_TABLE, table, QV_MAX_TABLE, &word) == QV_OK);
    EXPECT(word == UINT64_MAX);

    /* One entry more than a list may have leaves all as found, whatever the table. */
    EXPECT(qv_list_word(table, 0, list, QV_MAX_LIST + 1, &word) == QV_LIST_TOO_LONG);
    EXPECT(qv_choose_by_word(table, 0, list, QV_MAX_LIST + 1, &version) == QV_LIST_TOO_LONG);
    EXPECT(qv_count_held(table, 0, list, QV_MAX_LIST + 1, &count) == QV_LIST_TOO_LONG);
    EXPECT(word == UINT64_MAX && version == last && count == 1);
}

/* An integer and its shortest form: read, written, and refused where a byte is missing. */
static void integer(uint64_t value, const uint8_t *bytes, size_t bytes_len)
{
    uint8_t buffer[9], found[9];
    uint64_t read = 0;
    size_t width = 0, count = 0;

    memset(buffer, 0x77, sizeof buffer);
    memcpy(found, buffer, sizeof buffer);
    EXPECT(qv_read_integer(bytes, bytes_len - 1, &read, &width) == QV_RUNS_PAST_THE_END);
    EXPECT(qv_write_integer(value, buffer, bytes_len - 1, &count) == QV_NO_ROOM_TO_WRITE);
    EXPECT(read == 0 && width == 0 && count == 0 && memcmp(buffer, found, sizeof buffer) == 0);

    EXPECT(qv_read_integer(bytes, bytes_len, &read, &width) == QV_OK);
    EXPECT(read == value && width == bytes_len);
    EXPECT(qv_write_integer(value, buffer, sizeof buffer, &count) == QV_OK);
    EXPECT(count == bytes_len && memcmp(buffer, bytes, count) == 0);
    EXPECT(memcmp(buffer + count, found + count, sizeof buffer - count) == 0);
}

/* Variable-length integers: the examples of RFC 9000 section A.1, and the borders of the widths. */
static void integers(void)
{
    static const uint8_t longest[] = {0xc2, 0x19, 0x7c, 0x5e, 0xff, 0x14, 0xe8, 0x8c};
    static const uint8_t of_four[] = {0x9d, 0x7f, 0x3e, 0x7d};
    static const uint8_t of_two[] = {0x7b, 0xbd};
    static const uint8_t of_one[] = {0x25};
    static const uint8_t not_shortest[] = {0x40, 0x25};
    static const struct {
        uint64_t value;
        size_t width;
    } borders[] = {
        {0, 1},     {63, 1},         {64, 2},         {16383, 2},
        {16384, 4}, {1073741823, 4}, {1073741824, 8}, {QV_MAX_INTEGER, 8},
    };
    uint8_t buffer[9];
    uint64_t value = 0;
    size_t i, width = 0, count = 0;

    integer(UINT64_C(151288809941952652), longest, sizeof longest);
    integer(494878333, of_four, sizeof of_four);
    integer(15293, of_two, sizeof of_two);
    integer(37, of_one, sizeof of_one);

    /* Read in any width, but written in the shortest. */
    EXPECT(qv_read_integer(not_shortest, sizeof not_shortest, &value, &width) == QV_OK);
    EXPECT(value == 37 && width == 2);
    for (i = 0; i < sizeof borders / sizeof borders[0]; i++) {
        EXPECT(qv_write_integer(borders[i].value, buffer, sizeof buffer, &count) == QV_OK);
        EXPECT(count == borders[i].width);
        integer(borders[i].value, buffer, count);
    }

    /* One more than the largest, before the room is looked at. */
    memset(buffer, 0x77, sizeof buffer);
    EXPECT(qv_write_integer(QV_MAX_INTEGER + 1, buffer, sizeof buffer, &count) ==
           QV_INTEGER_TOO_LARGE);
    EXPECT(qv_write_integer(UINT64_MAX, buffer, 0, &count) == QV_INTEGER_TOO_LARGE);
    EXPECT(count == 8);
    for (i = 0; i < sizeof buffer; i++) {
        EXPECT(buffer[i] == 0x77);
    }
    EXPECT(qv_close_code(QV_INTEGER_TOO_LARGE, QV_CALL_WRITING) == QV_CLOSE_NONE);
}

/* Writes a sequence, and compares what was written, and that what follows it is as found. */
static void rewritten(const uint8_t *old, size_t old_len, const uint8_t *value, size_t value_len,
                      const uint8_t *expected, size_t expected_len)
{
    uint8_t buffer[64], found[64];
    size_t count = 7;

    memset(buffer, 0x77, sizeof buffer);
    memcpy(found, buffer, sizeof buffer);
    EXPECT(qv_write_parameters(old, old_len, value, value_len, buffer, expected_len - 1, &count) ==
           QV_NO_ROOM_TO_WRITE);
    EXPECT(count == 7 && memcmp(buffer, found, sizeof buffer) == 0);
    EXPECT(qv_write_parameters(old, old_len, value, value_len, buffer, sizeof buffer, &count) ==
           QV_OK);
    EXPECT(count == expected_len && memcmp(buffer, expected, count) == 0);
    EXPECT(memcmp(buffer + count, found + count, sizeof buffer - count) == 0);
}

/* Transport parameters: Version Information is found, replaced in its place, or appended. */
static void parameters(void)
{
    /* max_idle_timeout of 10,000 ms; Chosen 1, in wider integers than it takes; an empty
       initial_source_connection_id. */
    static const uint8_t with[] = {0x01, 0x02, 0x67, 0x10, 0x40, 0x11, 0x40,
                                   0x04, 0,    0,    0,    1,    0x0f, 0x00};
    static const uint8_t without[] = {0x01, 0x02, 0x67, 0x10, 0x0f, 0x00};
    /* Chosen 1, Available 2 and 1. */
    static const uint8_t value[] = {0, 0, 0, 1, 0, 0, 0, 2, 0, 0, 0, 1};
    static const uint8_t replaced[] = {0x01, 0x02, 0x67, 0x10, 0x11, 12, 0, 0, 0,    1,
                                       0,    0,    0,    2,    0,    0,  0, 1, 0x0f, 0x00};
    static const uint8_t appended[] = {0x01, 0x02, 0x67, 0x10, 0x0f, 0x00, 0x11, 12, 0, 0,
                                       0,    1,    0,    0,    0,    2,    0,    0,  0, 1};
    static const uint8_t shortest[] = {0x01, 0x02, 0x67, 0x10, 0x11, 0x04, 0, 0, 0, 1, 0x0f, 0x00};
    uint32_t found = 7, chosen = 0;
    size_t from = 7, to = 7, start = 0, end = 0;

    EXPECT(qv_read_parameters(without, sizeof without, &found, &from, &to) == QV_OK);
    EXPECT(found == QV_MISSING && from == 0 && to == 0);
    EXPECT(qv_read_parameters(with, sizeof with, &found, &from, &to) == QV_OK);
    EXPECT(found == QV_GIVEN && from == 8 && to == 12);

    /* Written with the value that was found: the shortest form of the same sequence. */
    rewritten(with, sizeof with, with + from, to - from, shortest, sizeof shortest);
    rewritten(shortest, sizeof shortest, with + from, to - from, shortest, sizeof shortest);

    /* Another value, in its place and last. Once more changes nothing. */
    rewritten(with, sizeof with, value, sizeof value, replaced, sizeof replaced);
    rewritten(replaced, sizeof replaced, value, sizeof value, replaced, sizeof replaced);
    rewritten(without, sizeof without, value, sizeof value, appended, sizeof appended);
    rewritten(appended, sizeof appended, value, sizeof value, appended, sizeof appended);

    /* What was written is found, and is Version Information. */
    EXPECT(qv_read_parameters(appended, sizeof appended, &found, &from, &to) == QV_OK);
    EXPECT(found == QV_GIVEN && to - from == sizeof value);
    EXPECT(memcmp(appended + from, value, sizeof value) == 0);
    EXPECT(qv_read_information(QV_CLIENT, appended + from, to - from, &chosen, &start, &end) ==
           QV_OK);
    EXPECT(chosen == 1 && start == 4 && end == 12);
}

/* Reader and writer refuse a sequence with the same number, and leave all as found. */
static void refused(const uint8_t *sequence, size_t sequence_len, uint32_t refusal)
{
    static uint8_t buffer[QV_MAX_SEQUENCE];
    uint32_t found = 7;
    size_t i, from = 7, to = 7, count = 7;

    EXPECT(qv_read_parameters(sequence, sequence_len, &found, &from, &to) == refusal);
    EXPECT(found == 7 && from == 7 && to == 7);
    EXPECT(qv_close_code(refusal, QV_CALL_READING) == QV_TRANSPORT_PARAMETER_ERROR);

    memset(buffer, 0x77, sizeof buffer);
    EXPECT(qv_write_parameters(sequence, sequence_len, NULL, 0, buffer, sizeof buffer, &count) ==
           refusal);
    EXPECT(qv_write_parameters(sequence, sequence_len, NULL, 0, NULL, 0, &count) == refusal);
    EXPECT(count == 7);
    for (i = 0; i < sizeof buffer; i++) {
        EXPECT(buffer[i] == 0x77);
    }
    EXPECT(qv_close_code(refusal, QV_CALL_WRITING) == QV_CLOSE_NONE);
}

/* Empty parameters with so many identifiers in a row. Returns the count of bytes. */
static size_t empty_parameters(uint64_t first, size_t parameters, uint8_t *sequence)
{
    size_t i, width = 0, at = 0;

    for (i = 0; i < parameters; i++) {
        EXPECT(qv_write_integer(first + i, sequence + at, 8, &width) == QV_OK);
        at += width;
        sequence[at] = 0;
        at++;
    }
    return at;
}

/* Each refusal of a sequence that was there, the lowest number first over all of it. */
static void parameters_refused(void)
{
    static const uint8_t cut_identifier[] = {0x05, 0x00, 0x40};
    static const uint8_t cut_length[] = {0x05, 0x00, 0x06};
    static const uint8_t cut_value[] = {0x05, 0x02, 0xa1};
    static const uint8_t repeated[] = {0x05, 0x00, 0x06, 0x00, 0x40, 0x05, 0x00};
    static const uint8_t ours_twice[] = {0x11, 0x00, 0x11, 0x00};
    static const uint8_t cut_behind_a_repeat[] = {0x05, 0x00, 0x05, 0x00, 0x06};
    static uint8_t sequence[QV_MAX_SEQUENCE + 1];
    size_t count;

    refused(sequence, sizeof sequence, QV_SEQUENCE_TOO_LONG);
    refused(cut_identifier, sizeof cut_identifier, QV_RUNS_PAST_THE_END);
    refused(cut_length, sizeof cut_length, QV_RUNS_PAST_THE_END);
    refused(cut_value, sizeof cut_value, QV_RUNS_PAST_THE_END);
    refused(repeated, sizeof repeated, QV_IDENTIFIER_REPEATED);
    refused(ours_twice, sizeof ours_twice, QV_IDENTIFIER_REPEATED);
    refused(cut_behind_a_repeat, sizeof cut_behind_a_repeat, QV_RUNS_PAST_THE_END);

    count = empty_parameters(0, QV_MAX_PARAMETERS + 1, sequence);
    refused(sequence, count, QV_TOO_MANY_PARAMETERS);
    refused(sequence, count - 1, QV_RUNS_PAST_THE_END);
    count += empty_parameters(0, 1, sequence + count);
    refused(sequence, count, QV_IDENTIFIER_REPEATED);

    /* As many as a long sequence holds, far past the limit, and one of them once more. */
    count = empty_parameters(64, 5460, sequence);
    refused(sequence, count, QV_TOO_MANY_PARAMETERS);
    count += empty_parameters(64, 1, sequence + count);
    EXPECT(count == QV_MAX_SEQUENCE - 1);
    refused(sequence, count, QV_IDENTIFIER_REPEATED);
    refused(sequence, count - 1, QV_RUNS_PAST_THE_END);
}

/* The limits of sequences: what keeps them, and what a new one breaks, in the order 80, 84, 85. */
static void parameters_at_the_limits(void)
{
    static uint8_t sequence[QV_MAX_SEQUENCE], buffer[QV_MAX_SEQUENCE + 8];
    uint32_t found = 7;
    size_t count = 0, from = 7, to = 7, old;

    /* As many parameters as there may be, ours among them. */
    old = empty_parameters(0, QV_MAX_PARAMETERS, sequence);
    EXPECT(qv_read_parameters(sequence, old, &found, &from, &to) == QV_OK);
    EXPECT(found == QV_GIVEN && from == 2 * QV_VERSION_INFORMATION + 2 && to == from);
    EXPECT(qv_write_parameters(sequence, old, sequence, 4, buffer, old + 4, &count) == QV_OK);
    EXPECT(count == old + 4);

    /* As many others: ours does not go with them, but that there is no room comes first. */
    old = empty_parameters(QV_VERSION_INFORMATION + 1, QV_MAX_PARAMETERS, sequence);
    EXPECT(qv_read_parameters(sequence, old, &found, &from, &to) == QV_OK);
    EXPECT(found == QV_MISSING && from == 0 && to == 0);
    memset(buffer, 0x77, sizeof buffer);
    EXPECT(qv_write_parameters(sequence, old, NULL, 0, buffer, old + 2, &count) ==
           QV_TOO_MANY_PARAMETERS);
    EXPECT(qv_write_parameters(sequence, old, NULL, 0, buffer, old + 1, &count) ==
           QV_NO_ROOM_TO_WRITE);
    EXPECT(qv_write_parameters(sequence, old, buffer, QV_MAX_SEQUENCE, NULL, 0, &count) ==
           QV_SEQUENCE_TOO_LONG);
    EXPECT(count == QV_MAX_PARAMETERS * 2 + 4 && buffer[0] == 0x77 && buffer[old + 1] == 0x77);

    /* As many bytes as there may be, in one parameter: identifier 5, and a length in two bytes. */
    memset(sequence, 0, sizeof sequence);
    sequence[0] = 0x05;
    EXPECT(qv_write_integer(QV_MAX_SEQUENCE - 3, sequence + 1, 2, &count) == QV_OK && count == 2);
    EXPECT(qv_read_parameters(sequence, sizeof sequence, &found, &from, &to) == QV_OK);
    EXPECT(found == QV_MISSING);
    EXPECT(qv_write_parameters(sequence, sizeof sequence, NULL, 0, buffer, sizeof buffer, &count) ==
           QV_SEQUENCE_TOO_LONG);
    EXPECT(count == 2 && buffer[0] == 0x77);

    /* Ours alone, as long as it may be, and a byte longer. */
    EXPECT(qv_write_parameters(NULL, 0, sequence, QV_MAX_SEQUENCE - 3, buffer, sizeof buffer,
                               &count) == QV_OK);
    EXPECT(count == QV_MAX_SEQUENCE && buffer[QV_MAX_SEQUENCE] == 0x77);
    EXPECT(qv_read_parameters(buffer, count, &found, &from, &to) == QV_OK);
    EXPECT(found == QV_GIVEN && from == 3 && to == QV_MAX_SEQUENCE);
    EXPECT(qv_write_parameters(NULL, 0, sequence, QV_MAX_SEQUENCE - 2, buffer, sizeof buffer,
                               &count) == QV_SEQUENCE_TOO_LONG);
    EXPECT(count == QV_MAX_SEQUENCE);
}

int main(void)
{
    uint8_t packet[QV_MAX_PACKET];
    size_t count;

    layout();
    limits();
    longest_list();
    small_calls();
    words();
    words_at_the_limits();
    integers();
    parameters();
    parameters_refused();
    parameters_at_the_limits();
    count = server(packet);
    bad_reserved_in_packet();
    server_choice();
    server_choice_barring();
    server_choice_at_the_limit();
    configuration();
    configuration_refused();
    configuration_at_the_limits();
    client(packet, count);
    client_refuses(packet, count);
    client_barring();
    bad_barred_pairs();
    client_reserved();
    bad_reserved_in_list();
    journal();
    journal_of_an_ending();
    journal_at_its_stop();
    null_with_length_0();
    null_with_length_0_as_words();
    null_with_length_0_as_parameters();
    not_valid();
    puts("c example ok");
    return 0;
}
