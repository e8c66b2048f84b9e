/*
 * Runs the C of docs/INTEGRATION.md: its client and its server between layers that write down what
 * they are asked, and the mistakes that the page warns of.
 *
 *     awk '/^```c$/ { f = 1; next } /^```$/ { f = 0 } f' docs/INTEGRATION.md >target/integration.c
 *     gcc -std=c99 -pedantic-errors -Wall -Wextra -Werror -Iinclude -Itarget c/advice.c \
 *         target/staticlib/libc_interface.a -o target/c_advice
 */
#include "integration.c"

#include <stdio.h>
#include <stdlib.h>
#include <string.h>

#define EXPECT(condition) expect((condition), #condition, __LINE__)

static void expect(int holds, const char *what, int line)
{
    if (!holds) {
        fprintf(stderr, "c/advice.c:%d: not so: %s\n", line, what);
        exit(1);
    }
}

#define VERSION_1 1u
#define VERSION_2 0x6b3343cfu

/* What the layers were asked since the last time, as words; version and code of the last. */
static char asked[256];
static uint32_t asked_version;
static uint64_t asked_code;
static uint8_t sent[QV_MAX_SEQUENCE];
static size_t sent_len;

static void ask(const char *word)
{
    EXPECT(strlen(asked) + strlen(word) + 2 <= sizeof asked);
    strcat(asked, word);
    strcat(asked, " ");
}

static int was_asked(const char *words)
{
    int same = strcmp(asked, words) == 0;

    if (!same)
        fprintf(stderr, "asked: %s\n", asked);
    asked[0] = 0;
    return same;
}

static void send_bytes(const char *word, const uint8_t *bytes, size_t count)
{
    ask(word);
    EXPECT(count <= sizeof sent);
    memcpy(sent, bytes, count);
    sent_len = count;
}

/*
 * The stack's transport parameters: max_idle_timeout, and a reserved one (27) whose identifier and
 * length are not in the shortest form. The same in the shortest form.
 */
static const uint8_t plain[] = {0x01, 0x02, 0x67, 0x10, 0x40, 0x1b, 0x40, 0x02, 0xaa, 0xbb};
static const uint8_t shortest[] = {0x01, 0x02, 0x67, 0x10, 0x1b, 0x02, 0xaa, 0xbb};
static const uint8_t *stack = plain;
static size_t stack_size = sizeof plain;

const uint8_t *stack_parameters(size_t *stack_len)
{
    *stack_len = stack_size;
    return stack;
}

/* The client's layers. */

void send_first_flight(uint32_t version, const uint8_t *parameters, size_t parameters_len)
{
    send_bytes("flight", parameters, parameters_len);
    asked_version = version;
}

void remove_protection(uint32_t version, const uint8_t *datagram, size_t datagram_len)
{
    (void)datagram;
    (void)datagram_len;
    ask("protection");
    asked_version = version;
}

void keep_packet(const uint8_t *packet, size_t packet_len)
{
    (void)packet;
    EXPECT(packet_len > 0);
    ask("keep");
}

void report(const struct qv_attempt *attempt, uint32_t in_use, const uint8_t *information,
            size_t information_len)
{
    (void)information;
    (void)information_len;
    EXPECT(attempt->end_mark == QV_CLOSED);
    ask("report");
    asked_version = in_use;
}

void close_connection(uint64_t code)
{
    EXPECT(code != 0);
    ask("close");
    asked_code = code;
}

void give_up(void)
{
    ask("give-up");
}

void connected(uint32_t version)
{
    ask("connected");
    asked_version = version;
}

void fault(const char *text)
{
    EXPECT(text != NULL && *text != 0);
    ask("fault");
}

/*
 * The server's layers. The handshake layer has transport parameters with one byte before them that
 * counts their bytes. A datagram whose rest begins with 0xee cannot be read.
 */
static uint8_t collected[256];
static size_t collected_len;
static int connection;

int has_connection(const uint8_t *id, size_t id_len)
{
    (void)id;
    return connection && id_len == OUR_ID_LENGTH;
}

void to_connection(const uint8_t *id, size_t id_len, const uint8_t *datagram, size_t datagram_len)
{
    (void)id;
    (void)id_len;
    (void)datagram;
    (void)datagram_len;
    ask("to-connection");
}

struct flight add_to_flight(const uint8_t *id, size_t id_len, uint32_t version,
                            const uint8_t *datagram, size_t datagram_len)
{
    struct flight flight = {FLIGHT_UNREADABLE, NULL, 0};
    const uint8_t *rest = datagram + 7 + 2 * OUR_ID_LENGTH;
    size_t rest_len;

    (void)id;
    EXPECT(id_len == OUR_ID_LENGTH && version != 14);
    if (datagram_len < QV_MIN_ANSWERED_DATAGRAM)
        return flight;
    rest_len = *rest++; /* of the part; then padding */
    if (rest_len == 0 || rest[0] == 0xee)
        return flight;
    EXPECT(collected_len + rest_len <= sizeof collected);
    memcpy(collected + collected_len, rest, rest_len);
    collected_len += rest_len;
    flight.state = FLIGHT_INCOMPLETE;
    if (collected_len == 1u + collected[0]) {
        flight.state = FLIGHT_WHOLE;
        flight.parameters = collected + 1;
        flight.parameters_len = collected_len - 1;
    }
    return flight;
}

void go_on(uint32_t version, const uint8_t *parameters, size_t parameters_len)
{
    send_bytes("go-on", parameters, parameters_len);
    asked_version = version;
}

void send_datagram(const uint8_t *datagram, size_t datagram_len)
{
    send_bytes("send", datagram, datagram_len);
}

static size_t too_small;

void unanswered(uint32_t refusal)
{
    EXPECT(refusal == QV_DATAGRAM_TOO_SMALL);
    too_small++;
}

/* A conversion that is not well defined: from a version, 0 for every one, to a version. */
static struct qv_pair no_conversion;
static size_t conversions_asked;

static int converts(uint32_t from, uint32_t to)
{
    conversions_asked++;
    return (no_conversion.from != 0 && no_conversion.from != from) || no_conversion.to != to;
}

int flights_convert(uint32_t from, uint32_t to)
{
    return converts(from, to);
}

int flight_converts(const struct flight *flight, uint32_t to)
{
    EXPECT(flight->state == FLIGHT_WHOLE);
    return converts(VERSION_1, to);
}

/* What goes over the link. */

static const uint8_t destination[OUR_ID_LENGTH] = {0xd1, 0xd1, 0xd1, 0xd1, 0xd1, 0xd1, 0xd1, 0xd1};
static const uint8_t source[OUR_ID_LENGTH] = {0x51, 0x51, 0x51, 0x51, 0x51, 0x51, 0x51, 0x51};

static void put(uint8_t *at, uint32_t version)
{
    at[0] = (uint8_t)(version >> 24);
    at[1] = (uint8_t)(version >> 16);
    at[2] = (uint8_t)(version >> 8);
    at[3] = (uint8_t)version;
}

/* A long form; returns its length. */
static size_t long_form(uint8_t *packet, uint32_t version, const uint8_t *to, const uint8_t *from,
                        const uint8_t *rest, size_t rest_len)
{
    packet[0] = 0xc0;
    put(packet + 1, version);
    packet[5] = OUR_ID_LENGTH;
    memcpy(packet + 6, to, OUR_ID_LENGTH);
    packet[6 + OUR_ID_LENGTH] = OUR_ID_LENGTH;
    memcpy(packet + 7 + OUR_ID_LENGTH, from, OUR_ID_LENGTH);
    if (rest_len != 0)
        memcpy(packet + 7 + 2 * OUR_ID_LENGTH, rest, rest_len);
    return 7 + 2 * OUR_ID_LENGTH + rest_len;
}

/* Version Information of a server; returns its length. */
static size_t information_of(uint8_t *bytes, uint32_t chosen, const uint32_t *available,
                             size_t available_len)
{
    size_t count = 0;

    EXPECT(qv_write_information(QV_SERVER, chosen, available, available_len, bytes,
                                QV_MAX_INFORMATION, &count) == QV_OK);
    return count;
}

/* Transport parameters of a server: its Version Information behind others; returns their length. */
static size_t parameters_of(uint8_t *bytes, uint32_t chosen, const uint32_t *available,
                            size_t available_len)
{
    uint8_t information[QV_MAX_INFORMATION];
    size_t count = information_of(information, chosen, available, available_len);

    EXPECT(count < 64);
    memcpy(bytes, plain, sizeof plain);
    bytes[sizeof plain] = QV_VERSION_INFORMATION;
    bytes[sizeof plain + 1] = (uint8_t)count;
    memcpy(bytes + sizeof plain + 2, information, count);
    return sizeof plain + 2 + count;
}

/* Whether the shortest form of the stack's parameters was sent, and then Version Information. */
static int was_sent(uint32_t chosen, const uint32_t *available, size_t available_len)
{
    uint8_t information[4 + 4 * 8] = {0};
    size_t i;

    EXPECT(available_len <= 8);
    put(information, chosen);
    for (i = 0; i < available_len; i++)
        put(information + 4 + 4 * i, available[i]);
    return sent_len == sizeof shortest + 2 + 4 + 4 * available_len &&
           memcmp(sent, shortest, sizeof shortest) == 0 && sent[sizeof shortest] == 0x11 &&
           sent[sizeof shortest + 1] == 4 + 4 * available_len &&
           memcmp(sent + sizeof shortest + 2, information, 4 + 4 * available_len) == 0;
}

/* An attempt with table 14, 12, 10 and Original Version 12. */
static struct qv_attempt attempting(void)
{
    static const uint32_t table[] = {14, 12, 10};
    struct qv_started started = qv_start(table, 3, NULL, 0, NULL, 0, 12, destination,
                                         sizeof destination, source, sizeof source);

    EXPECT(started.refusal == QV_OK);
    return started.attempt;
}

/* A Version Negotiation packet that lists one version reaches an attempt. */
static void negotiation_with(struct qv_attempt *attempt, uint32_t version, const uint8_t *to,
                             const uint8_t *from)
{
    uint8_t packet[64], list[4];

    put(list, version);
    client_datagram(attempt, packet, long_form(packet, 0, to, from, list, sizeof list));
}

/* The client: compatible versions, packets that it drops, the end. */
static void client(void)
{
    static const uint32_t both[] = {VERSION_2, VERSION_1};
    struct qv_attempt attempt;
    uint8_t packet[64], parameters[64];
    size_t count;

    EXPECT(client_start(&attempt, destination, sizeof destination, source, sizeof source));
    EXPECT(was_asked("flight ") && asked_version == VERSION_1 && was_sent(VERSION_1, both, 2));

    client_datagram(&attempt, packet, long_form(packet, VERSION_1, source, destination, NULL, 0));
    EXPECT(was_asked("protection ") && asked_version == VERSION_1);
    client_datagram(&attempt, packet, long_form(packet, VERSION_2, source, destination, NULL, 0));
    EXPECT(was_asked("protection ") && asked_version == VERSION_2);
    client_datagram(&attempt, packet, long_form(packet, 14, source, destination, NULL, 0));
    client_datagram(&attempt, packet, 9);
    client_datagram(&attempt, NULL, 0);
    EXPECT(was_asked(""));
    memset(packet, 0x40, sizeof packet);
    client_datagram(&attempt, packet, sizeof packet);
    EXPECT(was_asked("protection ") && asked_version == 0);

    /* A packet, or a Retry, was processed: Version Negotiation is too late. */
    client_packet_processed(&attempt);
    negotiation_with(&attempt, VERSION_2, source, destination);
    EXPECT(was_asked("") && attempt.attempted == VERSION_1);

    count = parameters_of(parameters, VERSION_2, both, 2);
    client_handshake_done(&attempt, VERSION_2, parameters, count);
    EXPECT(was_asked("connected ") && asked_version == VERSION_2);
    client_handshake_done(&attempt, VERSION_2, NULL, 0);
    client_packet_processed(&attempt);
    EXPECT(was_asked(""));
}

/* The client is led to 10: 74 and 75 are reported and closed; IDs are free after the act. */
static void client_led_to_10(void)
{
    static const uint32_t all[] = {14, 12, 10};
    static const uint32_t ten[] = {10};
    static const uint8_t other[OUR_ID_LENGTH] = {1, 2, 3, 4, 5, 6, 7, 8};
    uint8_t parameters[64];
    size_t available_len;

    for (available_len = 0; available_len <= 3; available_len += 3) {
        struct qv_attempt attempt = attempting();

        negotiation_with(&attempt, 10, source, other);
        EXPECT(was_asked("") && attempt.attempted == 12);
        negotiation_with(&attempt, 10, source, destination);
        EXPECT(was_asked("keep flight ") && asked_version == 10 && was_sent(10, ten, 1));
        negotiation_with(&attempt, 14, source, destination);
        negotiation_with(&attempt, 14, other, other);
        EXPECT(was_asked("") && attempt.attempted == 10);
        client_handshake_done(&attempt, 10, parameters,
                              parameters_of(parameters, 10, all, available_len));
        EXPECT(was_asked("report close ") && asked_code == QV_VERSION_NEGOTIATION_ERROR);
        EXPECT(attempt.end_value == (available_len == 0 ? QV_AVAILABLE_EMPTY : QV_DOWNGRADED));
    }
}

static void client_ends(void)
{
    static const struct information missing = {QV_MISSING, NULL, 0};
    static const struct information three = {QV_GIVEN, source, 3};
    struct qv_attempt attempt = attempting();

    negotiation_with(&attempt, 13, source, destination);
    EXPECT(was_asked("give-up ") && attempt.end_mark == QV_CLOSED);

    attempt = attempting();
    negotiation_with(&attempt, 10, source, destination);
    EXPECT(was_asked("keep flight "));
    client_handshake_done(&attempt, 10, plain, sizeof plain);
    EXPECT(was_asked("close ") && asked_code == QV_VERSION_NEGOTIATION_ERROR);

    /* A stack that has read the parameters itself hands the value over. */
    attempt = attempting();
    client_outcome(&attempt, 12, three);
    EXPECT(was_asked("close ") && asked_code == QV_TRANSPORT_PARAMETER_ERROR);
    attempt = attempting();
    client_outcome(&attempt, 12, missing);
    EXPECT(was_asked("connected ") && asked_version == 12);
}

/* No record of qv_start: a fault on this side, and 0 is never handed on as a close code. */
static void client_faults(void)
{
    struct qv_attempt attempt = attempting();

    attempt.table_len = QV_MAX_TABLE + 1;
    client_datagram(&attempt, source, sizeof source);
    client_packet_processed(&attempt);
    client_handshake_done(&attempt, 12, NULL, 0);
    first_flight(&attempt);
    EXPECT(was_asked("fault fault fault fault "));
}

/* A datagram of a first flight: a part of the parameters, its length before it, and padding. */
static size_t datagram_of(uint8_t datagram[QV_MIN_ANSWERED_DATAGRAM], uint32_t version,
                          const uint8_t *part, size_t part_len)
{
    uint8_t rest[64];

    EXPECT(part_len < sizeof rest);
    rest[0] = (uint8_t)part_len;
    if (part_len != 0)
        memcpy(rest + 1, part, part_len);
    memset(datagram, 0, QV_MIN_ANSWERED_DATAGRAM);
    long_form(datagram, version, destination, source, rest, 1 + part_len);
    return QV_MIN_ANSWERED_DATAGRAM;
}

/* A first flight in a version, cut in two; the second part may be empty. */
static void flight(uint32_t version, const uint8_t *parameters, size_t first, size_t all)
{
    uint8_t datagram[QV_MIN_ANSWERED_DATAGRAM];

    collected_len = 0;
    server_datagram(datagram, datagram_of(datagram, version, parameters, first));
    if (first < all) {
        EXPECT(was_asked("")); /* it waits */
        server_datagram(datagram, datagram_of(datagram, version, parameters + first, all - first));
    }
}

static void server(void)
{
    static const uint8_t upgrade[] = {17, 0x1b, 1, 0xff, 0x11, 12, 0, 0, 0, 1, 0x6b, 0x33, 0x43,
                                      0xcf, 0, 0, 0, 1};
    static const uint8_t missing[] = {4, 0x01, 2, 0x67, 0x10};
    static const uint8_t none_at_all[] = {0};
    static const uint8_t empty[] = {2, 0x11, 0};
    static const uint8_t too_short[] = {5, 0x11, 3, 0, 0, 1};
    static const uint8_t other_version[] = {10, 0x11, 8, 0, 0, 0, 2, 0, 0, 0, 2};
    static const uint8_t runs_past[] = {4, 0x11, 3, 0, 0};
    static const uint8_t repeated[] = {5, 0x11, 0, 0x40, 0x11, 0};
    static const uint8_t unreadable[] = {0xee};
    uint8_t packet[64], small[QV_MIN_ANSWERED_DATAGRAM];
    size_t cut;

    EXPECT(server_is_configured());
    for (cut = 1; cut <= sizeof upgrade; cut++) {
        flight(VERSION_1, upgrade, cut, sizeof upgrade);
        EXPECT(was_asked("go-on ") && asked_version == VERSION_2);
        EXPECT(was_sent(VERSION_2, server_table, 2));
    }
    flight(VERSION_1, missing, 2, sizeof missing);
    EXPECT(was_asked("go-on ") && asked_version == VERSION_1);
    EXPECT(was_sent(VERSION_1, server_table, 2));
    flight(VERSION_1, none_at_all, 1, 1);
    EXPECT(was_asked("go-on ") && asked_version == VERSION_1);
    flight(VERSION_1, empty, 2, sizeof empty);
    EXPECT(was_asked("close ") && asked_code == QV_TRANSPORT_PARAMETER_ERROR);
    flight(VERSION_1, too_short, 2, sizeof too_short);
    EXPECT(was_asked("close ") && asked_code == QV_TRANSPORT_PARAMETER_ERROR);
    flight(VERSION_1, runs_past, 2, sizeof runs_past);
    EXPECT(was_asked("close ") && asked_code == QV_TRANSPORT_PARAMETER_ERROR);
    flight(VERSION_1, repeated, 2, sizeof repeated);
    EXPECT(was_asked("close ") && asked_code == QV_TRANSPORT_PARAMETER_ERROR);
    flight(VERSION_1, other_version, 2, sizeof other_version);
    EXPECT(was_asked("close ") && asked_code == QV_VERSION_NEGOTIATION_ERROR);
    flight(VERSION_1, unreadable, 1, 1);
    EXPECT(was_asked(""));

    /* A version that is not readable: negotiated at once. */
    flight(14, unreadable, 1, 1);
    EXPECT(was_asked("send ") && sent_len == 7 + 2 * OUR_ID_LENGTH + 8);

    /* The same in a datagram that is too small to open a connection: counted, and no log. */
    datagram_of(small, 14, unreadable, 1);
    for (cut = 0; cut < sizeof small; cut++)
        server_datagram(small, cut);
    EXPECT(was_asked("") && too_small == sizeof small - 7 - 2 * OUR_ID_LENGTH);

    /* In a readable version the stack drops it, and nothing is decided. */
    datagram_of(small, VERSION_1, missing, sizeof missing);
    server_datagram(small, sizeof small - 1);
    EXPECT(was_asked("") && too_small == sizeof small - 7 - 2 * OUR_ID_LENGTH);

    /* Version Negotiation, a datagram cut short, a short form of no connection: silence. */
    server_datagram(packet, long_form(packet, 0, destination, source, missing, 2));
    server_datagram(packet, long_form(packet, 0, destination, source, upgrade + 6, 4));
    server_datagram(packet, 9);
    memset(packet, 0x40, sizeof packet);
    server_datagram(packet, sizeof packet);
    EXPECT(was_asked(""));
    connection = 1;
    server_datagram(packet, sizeof packet);
    EXPECT(was_asked("to-connection "));
    connection = 0;
}

/*
 * What the page warns of: readable 1; accepted 2, 1; offered 1; pair 1 to 2 at both ends. An honest
 * server, and the client answers 75.
 */
static void accepted_through_a_pair_but_not_offered(void)
{
    static const uint32_t table[] = {VERSION_2, VERSION_1, 14};
    static const uint32_t accepted[] = {VERSION_2, VERSION_1};
    static const uint32_t one[] = {VERSION_1};
    static const struct qv_pair pairs[] = {{VERSION_1, VERSION_2}};
    struct qv_started started = qv_start(table, 3, pairs, 1, NULL, 0, 14, destination,
                                         sizeof destination, source, sizeof source);
    struct information information = {QV_MISSING, NULL, 0};
    uint8_t first[QV_MIN_ANSWERED_DATAGRAM], answer[QV_MAX_PACKET], parameters[64];
    uint32_t decision = 0;
    size_t count = 0;

    EXPECT(started.refusal == QV_OK);
    count = datagram_of(first, 14, NULL, 0);
    EXPECT(qv_server_choice(one, 1, accepted, 2, pairs, 1, NULL, 0, 14, QV_MISSING, NULL, 0,
                            &decision) == QV_OK);
    EXPECT(decision == QV_NEGOTIATE);
    EXPECT(qv_write_version_negotiation(first, count, one, 1, NULL, 0, 64, answer, sizeof answer,
                                        &count) == QV_OK);
    client_datagram(&started.attempt, answer, count);
    EXPECT(was_asked("keep flight ") && asked_version == VERSION_1);
    EXPECT(find_information(sent, sent_len, &information) == QV_OK);
    EXPECT(qv_server_choice(one, 1, accepted, 2, pairs, 1, NULL, 0, VERSION_1, information.presence,
                            information.bytes, information.len, &decision) == QV_OK);
    EXPECT(decision == VERSION_2);
    count = parameters_of(parameters, VERSION_2, one, 1);
    client_handshake_done(&started.attempt, VERSION_2, parameters, count);
    EXPECT(was_asked("report close ") && asked_version == VERSION_2);
    EXPECT(started.attempt.attempted == VERSION_1 && started.attempt.end_value == QV_DOWNGRADED);
}

/* The lists of a server: readable, accepted, offered and Available; and its pairs. */
struct lists {
    uint32_t versions[4][4];
    size_t counts[4];
    struct qv_pair pairs[2];
    size_t pairs_len;
};

/* At the start: tests the lists. A server that is not safe serves nobody, and logs why. */
static int serves(const struct lists *lists, uint32_t *part, uint32_t *version)
{
    uint32_t refusal = qv_judge_configuration(
        lists->versions[0], lists->counts[0], lists->versions[1], lists->counts[1],
        lists->versions[2], lists->counts[2], lists->versions[3], lists->counts[3], lists->pairs,
        lists->pairs_len, part, version);

    if (refusal != QV_OK)
        fault(qv_refusal_text(refusal));
    else if (*part != QV_SAFE)
        fault(qv_part_text(*part));
    return refusal == QV_OK && *part == QV_SAFE;
}

/* What a server with these lists does after a first flight in the version attempted. */
static uint32_t decision_with(const struct lists *lists, const struct qv_attempt *attempt)
{
    uint8_t information[QV_MAX_INFORMATION];
    uint32_t decision = 7;
    size_t count = 0;

    EXPECT(qv_write_client_information(attempt, NULL, 0, information, sizeof information, &count) ==
           QV_OK);
    EXPECT(qv_server_choice(lists->versions[0], lists->counts[0], lists->versions[1],
                            lists->counts[1], lists->pairs, lists->pairs_len, NULL, 0,
                            attempt->attempted, QV_GIVEN, information, count, &decision) == QV_OK);
    return decision;
}

/*
 * An exchange that nobody attacks, with a server that serves all the same: QV_OK where the client
 * completes, its refusal where it closes, or 24 where the server has no packet, and it waits in
 * vain.
 */
static uint32_t exchange(const struct lists *lists, struct qv_attempt *attempt)
{
    uint8_t first[QV_MIN_ANSWERED_DATAGRAM], packet[QV_MAX_PACKET], answer[QV_MAX_INFORMATION];
    uint32_t decision, refusal;
    size_t count = 0;

    while ((decision = decision_with(lists, attempt)) == QV_NEGOTIATE) {
        datagram_of(first, attempt->attempted, NULL, 0);
        refusal = qv_write_version_negotiation(first, sizeof first, lists->versions[2],
                                               lists->counts[2], NULL, 0, 64, packet,
                                               sizeof packet, &count);
        if (refusal == QV_OK)
            refusal = qv_datagram(attempt, packet, count);
        if (refusal != QV_OK)
            return refusal;
    }
    count = information_of(answer, decision, lists->versions[3], lists->counts[3]);
    return qv_outcome(attempt, decision, answer, count);
}

/* A client's table, pairs and Original Version. */
struct client {
    uint32_t table[4];
    size_t table_len;
    struct qv_pair pairs[2];
    size_t pairs_len;
    uint32_t original;
};

/* The page's table: the smallest lists that break each part of the safe rule, and the end. */
static void each_part_of_the_safe_rule(void)
{
    static const struct {
        struct lists lists;
        struct client client;
        uint32_t part, version, end;
    } cases[] = {
        /* Safe: with one table for all four, and with readable ones that are not accepted. */
        {{{{2, 1}, {2, 1}, {2, 1}, {2, 1}}, {2, 2, 2, 2}, {{1, 2}}, 1},
         {{2, 1, 14}, 3, {{1, 2}}, 1, 14}, QV_SAFE, 0, QV_OK},
        {{{{2, 1}, {1}, {1}, {1}}, {2, 1, 1, 1}, {{1, 2}}, 1},
         {{2, 1, 14}, 3, {{1, 2}}, 1, 14}, QV_SAFE, 0, QV_OK},
        {{{{4, 3}, {4, 3}, {4, 3}, {4, 3}}, {2, 2, 2, 2}, {{3, 4}}, 1},
         {{3, 4, 1, 2}, 4, {{1, 2}, {3, 4}}, 2, 1}, QV_SAFE, 0, QV_OK},
        /* The rows. */
        {{{{2, 1}, {2, 1}, {1}, {1}}, {2, 2, 1, 1}, {{1, 2}}, 1},
         {{2, 1, 14}, 3, {{1, 2}}, 1, 14}, QV_ACCEPTED_NOT_OFFERED, 2, QV_DOWNGRADED},
        {{{{1, 2}, {1}, {1, 2}, {1, 2}}, {2, 1, 2, 2}, {{0, 0}}, 0},
         {{2, 14}, 2, {{0, 0}}, 0, 14}, QV_OFFERED_NOT_ACCEPTED, 2, QV_RECEIVED_VERSION_OFFERED},
        {{{{1}, {2}, {2}, {2}}, {1, 1, 1, 1}, {{0, 0}}, 0},
         {{2, 14}, 2, {{0, 0}}, 0, 14}, QV_OFFERED_NOT_READABLE, 2, QV_RECEIVED_VERSION_OFFERED},
        {{{{1}, {1}, {1}, {1, 2}}, {1, 1, 1, 2}, {{0, 0}}, 0},
         {{2, 1, 14}, 3, {{0, 0}}, 0, 14}, QV_AVAILABLE_NOT_OFFERED, 2, QV_DOWNGRADED},
        {{{{4, 3}, {4, 3}, {4, 3}, {4}}, {2, 2, 2, 1}, {{3, 4}}, 1},
         {{3, 4, 1, 2}, 4, {{1, 2}, {3, 4}}, 2, 1}, QV_OFFERED_NOT_AVAILABLE, 3, QV_DOWNGRADED},
        {{{{1}, {1}, {1}, {0}}, {1, 1, 1, 0}, {{0, 0}}, 0},
         {{1, 14}, 2, {{0, 0}}, 0, 14}, QV_OFFERED_NOT_AVAILABLE, 1, QV_AVAILABLE_EMPTY},
    };
    size_t i;

    for (i = 0; i < sizeof cases / sizeof cases[0]; i++) {
        const struct client *client = &cases[i].client;
        struct qv_started started =
            qv_start(client->table, client->table_len, client->pairs, client->pairs_len, NULL, 0,
                     client->original, destination, sizeof destination, source, sizeof source);
        uint32_t part = 7, version = 7;
        int safe = cases[i].part == QV_SAFE;

        EXPECT(started.refusal == QV_OK);
        EXPECT(serves(&cases[i].lists, &part, &version) == safe);
        EXPECT(was_asked(safe ? "" : "fault "));
        EXPECT(part == cases[i].part && version == cases[i].version);
        EXPECT(exchange(&cases[i].lists, &started.attempt) == cases[i].end);
    }
}

/* Lists that break a rule of their own are a fault too, and no part is told. */
static void no_service_with_bad_lists(void)
{
    static const struct lists bad = {{{1}, {1}, {1, 1}, {1}}, {1, 1, 2, 1}, {{0, 0}}, 0};
    uint32_t part = 7, version = 7;

    EXPECT(!serves(&bad, &part, &version) && was_asked("fault "));
    EXPECT(part == 7 && version == 7);
    EXPECT(qv_close_code(QV_BAD_OFFERED_TABLE, QV_CALL_WRITING) == QV_CLOSE_NONE);

    /* The page's own server is safe, and starts. */
    EXPECT(server_is_configured() && was_asked(""));
    EXPECT(qv_judge_configuration(server_table, 2, server_table, 2, server_table, 2, server_table,
                                  2, server_pairs, 1, &part, &version) == QV_OK);
    EXPECT(part == QV_SAFE && version == 0);
}

/* A client with the table 5, 1, 6, 2 begins in 6, and a forged packet lists one version. */
static struct qv_attempt led_to(uint32_t version)
{
    static const uint32_t table[] = {5, 1, 6, 2};
    struct qv_started started = qv_start(table, 4, NULL, 0, NULL, 0, 6, destination,
                                         sizeof destination, source, sizeof source);

    EXPECT(started.refusal == QV_OK);
    negotiation_with(&started.attempt, version, source, destination);
    EXPECT(was_asked("keep flight ") && asked_version == version);
    return started.attempt;
}

/*
 * What the page tells those who speak version 1: a safe server has 1, 3, 4 and 5, and the client
 * would choose 5. Where information is missing, a forged packet leads it to 1 all the same.
 */
static void missing_information_in_version_1(void)
{
    static const uint32_t offered[] = {1, 3, 4, 5};
    static const struct lists safe = {
        {{1, 3, 4, 5}, {1, 3, 4, 5}, {1, 3, 4, 5}, {1, 3, 4, 5}}, {4, 4, 4, 4}, {{0, 0}}, 0};
    struct qv_attempt attempt = led_to(1);
    uint8_t parameters[64];
    uint32_t part = 7, version = 7, best = 0;
    size_t count;

    EXPECT(serves(&safe, &part, &version) && part == QV_SAFE && version == 0);
    EXPECT(qv_choose(attempt.table, attempt.table_len, offered, 4, &best) == QV_OK && best == 5);

    client_handshake_done(&attempt, 1, plain, sizeof plain);
    EXPECT(was_asked("connected ") && asked_version == 1);

    /* With the server's information it is found out, and missing in another version it is too. */
    attempt = led_to(1);
    count = parameters_of(parameters, 1, offered, 4);
    client_handshake_done(&attempt, 1, parameters, count);
    EXPECT(was_asked("report close ") && attempt.end_value == QV_DOWNGRADED);
    attempt = led_to(2);
    client_handshake_done(&attempt, 2, plain, sizeof plain);
    EXPECT(was_asked("close ") && attempt.end_value == QV_INFORMATION_MISSING);
}

/* The page's client and the page's server, by what each has TLS send. */
static void client_and_server(void)
{
    struct qv_attempt attempt;
    uint8_t datagram[QV_MIN_ANSWERED_DATAGRAM], part[64];

    EXPECT(client_start(&attempt, destination, sizeof destination, source, sizeof source));
    EXPECT(was_asked("flight ") && sent_len < sizeof part - 1);
    part[0] = (uint8_t)sent_len;
    memcpy(part + 1, sent, sent_len);
    collected_len = 0;
    server_datagram(datagram, datagram_of(datagram, VERSION_1, part, 1 + sent_len));
    EXPECT(was_asked("go-on ") && asked_version == VERSION_2);
    client_handshake_done(&attempt, VERSION_2, sent, sent_len);
    EXPECT(was_asked("connected ") && asked_version == VERSION_2);
}

/* What the page's server does after a flight in version 1 with these parameters, where it bars. */
static uint32_t decision_barring(const uint8_t *parameters, size_t parameters_len)
{
    const struct flight flight = {FLIGHT_WHOLE, parameters, parameters_len};
    struct information information = {QV_MISSING, NULL, 0};
    uint32_t decision = 7;

    EXPECT(find_information(parameters, parameters_len, &information) == QV_OK);
    EXPECT(server_choice_barring(&flight, VERSION_1, &information, &decision) == QV_OK);
    return decision;
}

/* Flights that do not convert from version 1 to version 2: the client bars, or the server. */
static void barring(void)
{
    static const struct qv_pair one_to_two = {VERSION_1, VERSION_2}, one_to_one = {0, VERSION_1};
    static const struct qv_pair everything_converts = {0, 0};
    static const uint32_t one[] = {VERSION_1};
    struct qv_attempt attempt, other;
    uint8_t parameters[64], packet[64];
    size_t parameters_len;

    /* The client bars: version 2 is not sent, and its packets are dropped. */
    no_conversion = one_to_two;
    EXPECT(client_start_barring(&attempt, destination, sizeof destination, source, sizeof source));
    EXPECT(was_asked("flight ") && asked_version == VERSION_1 && was_sent(VERSION_1, one, 1));
    client_datagram(&attempt, packet, long_form(packet, VERSION_2, source, destination, NULL, 0));
    EXPECT(was_asked(""));
    other = attempt;

    /* An honest server, which bars nothing, uses version 1, and the client completes. */
    no_conversion = everything_converts;
    EXPECT(decision_barring(sent, sent_len) == VERSION_1);
    server_goes_on(VERSION_1);
    EXPECT(was_asked("go-on ") && was_sent(VERSION_1, server_table, 2));
    client_handshake_done(&attempt, VERSION_1, sent, sent_len);
    EXPECT(was_asked("connected ") && asked_version == VERSION_1);

    /* A server that uses version 2 all the same: 72. */
    parameters_len = parameters_of(parameters, VERSION_2, server_table, 2);
    client_handshake_done(&other, VERSION_2, parameters, parameters_len);
    EXPECT(was_asked("close ") && asked_code == QV_VERSION_NEGOTIATION_ERROR);
    EXPECT(other.end_value == QV_CHOSEN_NOT_OURS);

    /* The client bars nothing and lists both. The server bars, and answers Chosen. */
    EXPECT(client_start_barring(&attempt, destination, sizeof destination, source, sizeof source));
    EXPECT(was_asked("flight ") && was_sent(VERSION_1, client_table, 2));
    EXPECT(decision_barring(sent, sent_len) == VERSION_2);
    no_conversion = one_to_one; /* Chosen, which has no effect */
    EXPECT(decision_barring(sent, sent_len) == VERSION_2);
    no_conversion = one_to_two;
    EXPECT(decision_barring(sent, sent_len) == VERSION_1);
    server_goes_on(VERSION_1);
    EXPECT(was_asked("go-on ") && was_sent(VERSION_1, server_table, 2)); /* all of its list */
    client_handshake_done(&attempt, VERSION_1, sent, sent_len);
    EXPECT(was_asked("connected ") && asked_version == VERSION_1);

    /* Information is missing: the flight is not asked about. */
    conversions_asked = 0;
    EXPECT(decision_barring(plain, sizeof plain) == VERSION_1 && conversions_asked == 0);
}

/* A client with the pairs 1 to 2 and 3 to 4 starts in 1, with a pair barred, and is led to 3. */
static void led_to_3_barring(uint32_t from, uint32_t to)
{
    static const uint32_t table[] = {3, 4, 1, 2};
    static const struct qv_pair pairs[] = {{1, 2}, {3, 4}};
    const struct qv_pair barred[] = {{from, to}};
    struct qv_started started = qv_start(table, 4, pairs, 2, barred, 1, 1, destination,
                                         sizeof destination, source, sizeof source);

    EXPECT(started.refusal == QV_OK);
    negotiation_with(&started.attempt, 3, source, destination);
    EXPECT(was_asked("keep flight ") && asked_version == 3);
}

/* What the page warns of. */
static void barring_wrongly(void)
{
    static const uint32_t three_and_four[] = {3, 4}, fourteen_and_ten[] = {14, 10}, ten[] = {10};
    static const uint32_t table[] = {14, 12, 10};
    static const struct qv_pair ten_to_14[] = {{10, 14}}, equal[] = {{1, 1}};
    struct qv_started started;
    struct information information = {QV_MISSING, NULL, 0};
    struct qv_attempt attempt;
    uint32_t barred[QV_MAX_BARRED + 1] = {14}, decision = 7;
    uint8_t parameters[64];
    size_t count;

    /* Barred from the Original Version alone: after the act 4 is listed. */
    led_to_3_barring(1, 2);
    EXPECT(was_sent(3, three_and_four, 2));
    led_to_3_barring(3, 4);
    EXPECT(was_sent(3, three_and_four, 1));

    /* Left out of the server's Available Versions: a forged packet is not found out. */
    started = qv_start(table, 3, ten_to_14, 1, NULL, 0, 12, destination, sizeof destination, source,
                       sizeof source);
    EXPECT(started.refusal == QV_OK);
    negotiation_with(&started.attempt, 10, source, destination);
    EXPECT(was_asked("keep flight ") && was_sent(10, fourteen_and_ten, 2));
    EXPECT(find_information(sent, sent_len, &information) == QV_OK);
    EXPECT(qv_server_choice(fourteen_and_ten, 2, fourteen_and_ten, 2, ten_to_14, 1, barred, 1, 10,
                            information.presence, information.bytes, information.len,
                            &decision) == QV_OK && decision == 10);
    attempt = started.attempt;
    count = parameters_of(parameters, 10, fourteen_and_ten, 2);
    client_handshake_done(&attempt, 10, parameters, count);
    EXPECT(was_asked("report close ") && attempt.end_value == QV_DOWNGRADED);
    count = parameters_of(parameters, 10, ten, 1);
    client_handshake_done(&started.attempt, 10, parameters, count);
    EXPECT(was_asked("connected "));

    /* A version barred from itself; more versions than a table can have. */
    EXPECT(qv_start(table, 3, NULL, 0, equal, 1, 12, NULL, 0, NULL, 0).refusal == QV_BAD_PAIRS);
    decision = 7;
    EXPECT(qv_server_choice(ten, 1, ten, 1, NULL, 0, barred, QV_MAX_BARRED + 1, 10,
                            information.presence, information.bytes, information.len,
                            &decision) == QV_BAD_PAIRS && decision == 7);
    EXPECT(qv_close_code(QV_BAD_PAIRS, QV_CALL_READING) == QV_CLOSE_NONE);
}

/* Given, missing and refused are three answers. */
static void missing_is_neither_empty_nor_refused(void)
{
    static const uint8_t empty[] = {0x11, 0};
    static const uint8_t repeated[] = {0x11, 4, 0, 0, 0, 12, 0x40, 0x11, 4, 0, 0, 0, 14};
    static const uint8_t cut[] = {0x01, 2, 0x67};
    static uint8_t many[3 * (QV_MAX_PARAMETERS + 1)], too_long[QV_MAX_SEQUENCE + 1];
    struct information information = {QV_MISSING, NULL, 0};
    struct qv_attempt attempt = attempting();
    uint32_t decision = 7;
    size_t i;

    /* An empty value is given, and a 31; who tells it by its length takes it for missing. */
    EXPECT(find_information(empty, sizeof empty, &information) == QV_OK);
    EXPECT(information.presence == QV_GIVEN && information.len == 0);
    client_handshake_done(&attempt, 12, empty, sizeof empty);
    EXPECT(was_asked("close ") && asked_code == QV_TRANSPORT_PARAMETER_ERROR);
    EXPECT(attempt.end_value == QV_INFORMATION_TOO_SHORT);
    attempt = attempting();
    EXPECT(qv_outcome_without_information(&attempt, 12) == QV_OK);

    /* Missing, and handed over as no bytes: a 31 for an honest peer. */
    attempt = attempting();
    client_handshake_done(&attempt, 12, plain, sizeof plain);
    EXPECT(was_asked("connected "));
    attempt = attempting();
    EXPECT(qv_outcome(&attempt, 12, NULL, 0) == QV_INFORMATION_TOO_SHORT);
    EXPECT(qv_server_choice(server_table, 2, server_table, 2, server_pairs, 1, NULL, 0, VERSION_1,
                            QV_GIVEN, NULL, 0, &decision) == QV_INFORMATION_TOO_SHORT);
    EXPECT(qv_server_choice(server_table, 2, server_table, 2, server_pairs, 1, NULL, 0, VERSION_1,
                            QV_MISSING, NULL, 0, &decision) == QV_OK && decision == VERSION_1);

    /* 82, 81, 85, 80: closed with 0x08; the attempt is as it was, to be forgotten. */
    for (i = 0; i <= QV_MAX_PARAMETERS; i++) {
        many[3 * i] = 0x40;
        many[3 * i + 1] = (uint8_t)(64 + i);
    }
    attempt = attempting();
    client_handshake_done(&attempt, 12, repeated, sizeof repeated);
    EXPECT(was_asked("close ") && asked_code == QV_TRANSPORT_PARAMETER_ERROR);
    client_handshake_done(&attempt, 12, cut, sizeof cut);
    EXPECT(was_asked("close ") && asked_code == QV_TRANSPORT_PARAMETER_ERROR);
    client_handshake_done(&attempt, 12, many, sizeof many);
    EXPECT(was_asked("close ") && asked_code == QV_TRANSPORT_PARAMETER_ERROR);
    client_handshake_done(&attempt, 12, too_long, sizeof too_long);
    EXPECT(was_asked("close ") && asked_code == QV_TRANSPORT_PARAMETER_ERROR);
    EXPECT(attempt.end_mark == QV_OPEN);
    /* Who takes it for missing completes. */
    EXPECT(qv_outcome_without_information(&attempt, 12) == QV_OK);
}

/* The stack's own parameters are at fault: nothing is sent, and nothing is closed. */
static void faults_of_the_stack(void)
{
    static const uint8_t repeated[] = {0x01, 0, 0x40, 0x01, 0};
    static const uint8_t cut[] = {0x01, 2, 0x67};
    static uint8_t many[3 * QV_MAX_PARAMETERS], too_long[QV_MAX_SEQUENCE - 2];
    struct qv_attempt attempt = attempting();
    size_t i;

    stack = repeated;
    stack_size = sizeof repeated;
    first_flight(&attempt);
    EXPECT(was_asked("fault "));
    stack = cut;
    stack_size = sizeof cut;
    first_flight(&attempt);
    EXPECT(was_asked("fault "));

    /* 64 parameters without Version Information cannot take it; with it among them they can. */
    for (i = 0; i < QV_MAX_PARAMETERS; i++) {
        many[3 * i] = 0x40;
        many[3 * i + 1] = (uint8_t)(64 + i);
    }
    stack = many;
    stack_size = sizeof many;
    first_flight(&attempt);
    server_goes_on(VERSION_1);
    EXPECT(was_asked("fault fault "));
    many[1] = 0x11;
    first_flight(&attempt);
    EXPECT(was_asked("flight ") && sent[0] == 0x11);
    many[1] = 64;
    stack_size = sizeof many - 3;
    first_flight(&attempt);
    EXPECT(was_asked("flight ") && sent_len == sizeof many - 3 + 2 + 8);

    /* A value of its own length, and no room for ours behind it. */
    memset(too_long, 0xff, sizeof too_long);
    too_long[0] = 0x01;
    too_long[1] = 0x40 + (sizeof too_long - 3) / 256;
    too_long[2] = (sizeof too_long - 3) % 256;
    stack = too_long;
    stack_size = sizeof too_long;
    first_flight(&attempt);
    EXPECT(was_asked("fault "));
    stack = plain;
    stack_size = sizeof plain;

    /* In C a writer's number and a reader's are the same: the kind of call tells them apart. */
    EXPECT(qv_close_code(QV_IDENTIFIER_REPEATED, QV_CALL_READING) == QV_TRANSPORT_PARAMETER_ERROR);
    EXPECT(qv_close_code(QV_IDENTIFIER_REPEATED, QV_CALL_WRITING) == QV_CLOSE_NONE);
}

/* A buffer of so many bytes as old sequence and value have, and 3 more. */
static void room_to_write(void)
{
    static uint8_t value[QV_MAX_SEQUENCE + 1], buffer[3 * QV_MAX_SEQUENCE];
    static const uint8_t ours[] = {0x80, 0, 0, 0x11, 0xc0, 0, 0, 0, 0, 0, 0, 1, 0xff};
    size_t value_len, count = 0;

    for (value_len = 0; value_len < sizeof value; value_len++) {
        uint32_t refusal = qv_write_parameters(shortest, sizeof shortest, value, value_len, buffer,
                                               sizeof shortest + value_len + 3, &count);
        size_t more = value_len < 64 ? 2 : 3;

        EXPECT(refusal == (sizeof shortest + more + value_len > QV_MAX_SEQUENCE
                               ? QV_SEQUENCE_TOO_LONG
                               : QV_OK));
        EXPECT(refusal != QV_OK || count == sizeof shortest + more + value_len);
        EXPECT(qv_write_parameters(ours, sizeof ours, value, value_len, buffer, QV_MAX_SEQUENCE,
                                   &count) != QV_NO_ROOM_TO_WRITE);
    }
    EXPECT(qv_write_parameters(shortest, sizeof shortest, value, 64, buffer,
                               sizeof shortest + 64 + 2, &count) == QV_NO_ROOM_TO_WRITE);

    /* The new sequence can be shorter than the old one: the count tells. */
    EXPECT(qv_write_parameters(ours, sizeof ours, value, 1, buffer, 3, &count) == QV_OK);
    EXPECT(count == 3 && buffer[0] == 0x11 && buffer[1] == 1 && buffer[2] == 0);
}

/* What the page warns of: not the data of the extension as TLS has it. */
static void not_the_sequence(void)
{
    static const uint32_t ten[] = {10}, twelve[] = {12};
    struct information information = {QV_MISSING, NULL, 0};
    struct qv_attempt attempt = attempting();
    uint8_t bytes[4 + 64], flight_in_12[64];
    uint32_t decision = 7;
    size_t count, cut, flight_len;

    /* A part: an 81, or what can be read of it, without the rest. */
    count = parameters_of(bytes, 12, twelve, 1);
    for (cut = 0; cut < count; cut++) {
        uint32_t refusal;

        information.presence = 7;
        refusal = find_information(bytes, cut, &information);
        EXPECT(refusal == (cut == 0 || cut == 4 || cut == 10 ? QV_OK : QV_RUNS_PAST_THE_END));
        EXPECT(information.presence == (refusal == QV_OK ? QV_MISSING : 7));
    }

    /* With the extension's type and length in front. */
    memmove(bytes + 4, bytes, count);
    bytes[0] = 0;
    bytes[1] = 0x39;
    bytes[2] = 0;
    bytes[3] = (uint8_t)count;
    EXPECT(find_information(bytes, 4 + count, &information) == QV_RUNS_PAST_THE_END);

    /* Appended by hand where it is there already. */
    count = parameters_of(bytes, 12, twelve, 1);
    bytes[count] = 0x11;
    bytes[count + 1] = 0;
    EXPECT(find_information(bytes, count + 2, &information) == QV_IDENTIFIER_REPEATED);

    /* After an act: the sequence of the earlier flight is a 51, the new one is not. */
    first_flight(&attempt);
    EXPECT(was_asked("flight ") && asked_version == 12 && was_sent(12, twelve, 1));
    flight_len = sent_len;
    memcpy(flight_in_12, sent, sent_len);
    negotiation_with(&attempt, 10, source, destination);
    EXPECT(was_asked("keep flight ") && asked_version == 10 && was_sent(10, ten, 1));
    EXPECT(find_information(flight_in_12, flight_len, &information) == QV_OK);
    EXPECT(qv_server_choice(ten, 1, ten, 1, NULL, 0, NULL, 0, 10, information.presence,
                            information.bytes, information.len, &decision) ==
           QV_CHOSEN_NOT_RECEIVED);
    EXPECT(find_information(sent, sent_len, &information) == QV_OK);
    EXPECT(qv_server_choice(ten, 1, ten, 1, NULL, 0, NULL, 0, 10, information.presence,
                            information.bytes, information.len, &decision) == QV_OK &&
           decision == 10);

    /* Written into the sequence of the earlier flight, it takes the place of the old one. */
    EXPECT(qv_write_parameters(flight_in_12, flight_len, information.bytes, information.len, bytes,
                               sizeof bytes, &count) == QV_OK);
    EXPECT(count == sent_len && memcmp(bytes, sent, count) == 0);
}

/* What random_bits hands out, one after the other; 0 past the end. */
static const uint32_t *drawn;
static size_t drawn_len;

uint32_t random_bits(void)
{
    if (drawn_len == 0)
        return 0;
    drawn_len--;
    return *drawn++;
}

static void draws(const uint32_t *bits, size_t count)
{
    drawn = bits;
    drawn_len = count;
}

/* The page's reserved numbers: whatever is drawn, nothing is refused, and nothing changes. */
static void reserved_numbers(void)
{
    /* None; one at the last place; two, the same number and the same place twice. */
    static const uint32_t none[] = {3}, one[] = {1, 0x12345678, 2};
    static const uint32_t two[] = {2, 0xffffffff, 7, 0xffffffff, 3};
    static const uint8_t last[] = {0, 0, 0, 1, 0x6b, 0x33, 0x43, 0xcf, 0, 0, 0, 1,
                                   0x1a, 0x3a, 0x5a, 0x7a};
    struct {
        const uint32_t *bits;
        size_t bits_len, count;
    } cases[] = {{none, 1, 12}, {one, 3, 16}, {two, 5, 20}};
    struct qv_attempt attempt;
    uint8_t information[32], datagram[QV_MIN_ANSWERED_DATAGRAM], packet[QV_MAX_PACKET];
    uint32_t chosen, decision, number = 0x0a0a0a0a, other;
    size_t start, end, count, i;

    EXPECT(client_start(&attempt, destination, sizeof destination, source, sizeof source));
    EXPECT(was_asked("flight "));
    for (i = 0; i < 3; i++) {
        draws(cases[i].bits, cases[i].bits_len);
        count = client_information(&attempt, information, sizeof information);
        EXPECT(count == cases[i].count && drawn_len == 0);
        EXPECT(qv_read_information(QV_CLIENT, information, count, &chosen, &start, &end) == QV_OK);
        EXPECT(chosen == VERSION_1 && end == count);
        EXPECT(qv_server_choice(server_table, 2, server_table, 2, server_pairs, 1, NULL, 0,
                                VERSION_1, QV_GIVEN, information, count, &decision) == QV_OK);
        EXPECT(decision == VERSION_2);
        if (i == 1)
            EXPECT(memcmp(information, last, sizeof last) == 0);
    }
    draws(two, 5);
    EXPECT(client_information(&attempt, information, 19) == 0 && was_asked("fault "));

    /* A flight in the very number that is drawn: the packet ends with another one. */
    count = datagram_of(datagram, number, NULL, 0);
    draws(&number, 1);
    EXPECT(server_packet(datagram, count, number, packet, sizeof packet, &end) == QV_OK);
    EXPECT(packet[end - 4] == 0x0a && packet[end - 3] == 0x0a && packet[end - 2] == 0x0a &&
           packet[end - 1] == 0x1a);
    other = number;
    EXPECT(qv_write_version_negotiation(datagram, count, server_table, 2, &other, 1, 64, packet,
                                        sizeof packet, &end) == QV_BAD_RESERVED_IN_PACKET);
}

/* The lines that were logged, one after the other. */
static char logged[2048];

void log_line(const char *text)
{
    EXPECT(strlen(logged) + strlen(text) + 2 <= sizeof logged);
    strcat(logged, text);
    strcat(logged, "\n");
}

static int was_logged(const char *lines)
{
    int same = strcmp(logged, lines) == 0;

    if (!same)
        fprintf(stderr, "logged:\n%s", logged);
    logged[0] = 0;
    return same;
}

/* A client that was led to 10 and answers 75, with a stray datagram, and a packet too late. */
static struct qv_attempt downgraded(void)
{
    static const uint32_t all[] = {14, 12, 10};
    struct qv_attempt attempt = attempting();
    uint8_t parameters[64];

    client_datagram(&attempt, NULL, 0);
    negotiation_with(&attempt, 10, source, destination);
    negotiation_with(&attempt, 14, source, destination);
    client_handshake_done(&attempt, 10, parameters, parameters_of(parameters, 10, all, 3));
    EXPECT(was_asked("keep flight report close ") && asked_code == QV_VERSION_NEGOTIATION_ERROR);
    return attempt;
}

/* What is logged of it. */
static const char lines_of_downgraded[] =
    "attempt in 0x0000000a: closed: the server's Available Versions lead to another choice than "
    "the attempted version (75); events: 4\n"
    "event 1: 61 the datagram is no readable Version Negotiation packet\n"
    "event 2: 0 no refusal\n"
    "event 3: 62 the attempt has ended, or acted or heard before this Version Negotiation packet\n"
    "event 4: 75 the server's Available Versions lead to another choice than the attempted "
    "version\n";

/* The page's lines: at an end, before a new start in the same place, and of no attempt. */
static void logging(void)
{
    static const struct information missing = {QV_MISSING, NULL, 0};
    struct qv_attempt attempt = attempting();

    log_attempt(&attempt);
    EXPECT(was_logged("attempt in 0x0000000c: open; events: 0\n"));
    client_packet_processed(&attempt);
    client_outcome(&attempt, 12, missing);
    EXPECT(was_asked("connected "));
    log_attempt(&attempt);
    EXPECT(was_logged("attempt in 0x0000000c: completed with 0x0000000c; events: 2\n"
                      "event 1: 0 no refusal\nevent 2: 0 no refusal\n"));

    attempt = downgraded();
    log_attempt(&attempt);
    EXPECT(was_logged(lines_of_downgraded));
    EXPECT(client_start_again(&attempt, destination, sizeof destination, source, sizeof source));
    EXPECT(was_logged(lines_of_downgraded) && was_asked("flight ") && attempt.journal.count == 0);

    /* A start that is refused: the old attempt stays, and its journal. */
    attempt = downgraded();
    EXPECT(!client_start_again(&attempt, destination, QV_MAX_ID + 1, source, 0));
    EXPECT(was_logged(lines_of_downgraded) && was_asked("fault ") && attempt.journal.count == 4);

    /* No record of qv_start: 255, which is a fault and no line. */
    attempt.table_len = QV_MAX_TABLE + 1;
    log_attempt(&attempt);
    EXPECT(was_logged("") && was_asked("fault ") && attempt.journal.count == 4);
}

/* What the page warns of: a flood, a journal that is read late, and the count at its stop. */
static void logging_late(void)
{
    struct qv_attempt attempt = downgraded(), found = attempt;
    size_t i;

    /* Ignored datagrams change the journal alone, and records are compared by their fields. */
    for (i = 0; i < QV_JOURNAL_PLACES; i++)
        client_datagram(&attempt, NULL, 0);
    EXPECT(was_asked("") && memcmp(&attempt, &found, sizeof found) != 0);
    EXPECT(attempt.end_mark == QV_CLOSED && attempt.end_value == QV_DOWNGRADED);
    for (i = 0; i < QV_JOURNAL_PLACES; i++)
        EXPECT(attempt.journal.answers[i] == QV_NOT_VERSION_NEGOTIATION);
    EXPECT(attempt.journal.count == 4 + QV_JOURNAL_PLACES);
    found.journal = attempt.journal;
    EXPECT(memcmp(&attempt, &found, sizeof found) == 0);

    /* No test makes so many events: the count is written by hand. */
    attempt.journal.count = QV_MAX_EVENTS - 1;
    log_attempt(&attempt);
    EXPECT(strstr(logged, "; events: 4294967294\nevent 4294967287: 61 ") != NULL);
    EXPECT(strstr(logged, "\nevent 4294967294: 61 ") != NULL);
    logged[0] = 0;
    client_packet_processed(&attempt);
    log_attempt(&attempt);
    EXPECT(strstr(logged, "; events: 4294967295 or more\nevent: 61 ") != NULL);
    EXPECT(strstr(logged, "\nevent: 62 ") != NULL && strstr(logged, "event 4") == NULL);
    logged[0] = 0;
}

int main(void)
{
    client();
    client_led_to_10();
    client_ends();
    client_faults();
    server();
    accepted_through_a_pair_but_not_offered();
    each_part_of_the_safe_rule();
    no_service_with_bad_lists();
    missing_information_in_version_1();
    client_and_server();
    barring();
    barring_wrongly();
    reserved_numbers();
    logging();
    logging_late();
    missing_is_neither_empty_nor_refused();
    faults_of_the_stack();
    room_to_write();
    not_the_sequence();
    puts("c advice ok");
    return 0;
}
