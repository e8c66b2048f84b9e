/*
 * quic_version.h: the QUIC version layer (RFC 8999, RFC 9368), proved.
 *
 * Every function answers for every input. A refusal is a number of document 01's table, 0 is none;
 * a result goes into a place that the caller lends, and a refusal leaves every such place as found.
 * The record of an attempt is changed where it lies: an event notes its answer there, a refusal too
 * (struct qv_journal). QV_NOT_VALID (255) is outside that table: an unknown kind, or a record that
 * could not be an attempt's. With it all is left as found, the record too.
 *
 * What no proof covers, and the caller has to see to:
 *  - a pointer is valid for the length given with it, and for the size of what it points to;
 *  - lent places and buffers do not overlap each other or the input;
 *  - NULL is allowed exactly where the length given with it is 0;
 *  - a record is used by one thread at a time. There is no global state: distinct records on
 *    distinct threads are fine;
 *  - there is room on the stack: 18 KiB for an event and for a choice from bytes, 42 KiB for
 *    qv_read_parameters and qv_write_parameters where a sequence has over 64 parameters, 2 KiB for
 *    any other call; and 4 KiB more where the C library's memset and memcpy are bound at their
 *    first call;
 *  - x86-64 Linux.
 *
 * C99. Link with libquic_version.a, which scripts/install puts beside this header, or with
 * libc_interface.a, the same archive as `scripts/library` makes it.
 */
#ifndef QUIC_VERSION_H
#define QUIC_VERSION_H

#include <stddef.h>
#include <stdint.h>

#ifdef __cplusplus
extern "C" {
#endif

/* The release, and the interface that this header describes. */
#define QV_RELEASE "0.1.0"
#define QV_INTERFACE_VERSION 9u

/* On a function that answers a refusal: the compiler warns where the answer is not looked at. */
#if defined(__GNUC__)
#define QV_CHECKED __attribute__((warn_unused_result))
#else
#define QV_CHECKED
#endif

/* Limits. */
#define QV_MAX_TABLE 64u            /* entries of a table of versions */
#define QV_MAX_PAIRS 1024u          /* pairs of a table of compatible pairs, and barred pairs */
#define QV_MAX_BARRED 64u           /* barred versions of a server's choice */
#define QV_MAX_RESERVED 4u          /* reserved numbers of a packet, or of a client's list */
#define QV_MAX_LIST 16382u          /* entries of a list to choose from */
#define QV_MAX_ID 20u               /* bytes of an attempt's connection ID */
#define QV_MAX_DATAGRAM 65535u      /* bytes of a datagram */
#define QV_MAX_CONNECTION_ID 255u   /* bytes of a connection ID on the wire (RFC 8999) */
#define QV_MAX_UNUSED_BITS 127u     /* the unused bits of a Version Negotiation packet */
#define QV_MAX_INFORMATION 1024u    /* bytes of Version Information */
#define QV_MAX_AVAILABLE 255u       /* Available Versions */
#define QV_MAX_SEQUENCE 16384u      /* bytes of a sequence of transport parameters */
#define QV_MAX_PARAMETERS 64u       /* parameters of a sequence */
#define QV_JOURNAL_PLACES 8u        /* answers that a journal keeps */
#define QV_MAX_EVENTS 4294967295u   /* events that a journal counts, 2^32 - 1 */
/* A variable-length integer: 2^62 - 1 (RFC 9000 section 16). */
#define QV_MAX_INTEGER UINT64_C(0x3fffffffffffffff)
/* The fewest bytes of a datagram that is answered with a packet (RFC 9000 section 14.1). */
#define QV_MIN_ANSWERED_DATAGRAM 1200u
/* Bytes of a Version Negotiation packet that is written. */
#define QV_MAX_PACKET (7u + 2u * QV_MAX_CONNECTION_ID + 4u * (QV_MAX_TABLE + QV_MAX_RESERVED))

/* Refusals: the numbers of document 01's table, which document 02's join, each with one cause. */
#define QV_OK 0u
#define QV_DATAGRAM_TOO_LONG 11u             /* over 65,535 bytes */
#define QV_TRUNCATED 12u                     /* empty, a field past the end, a told length over 255 */
#define QV_LIST_NOT_WHOLE 13u                /* Version Negotiation list empty, or bytes left over */
#define QV_DATAGRAM_TOO_SMALL 20u            /* the datagram to answer has under 1,200 bytes */
#define QV_SHORT_FORM 21u                    /* the packet to answer has the short form */
#define QV_VERSION_NEGOTIATION_RECEIVED 22u  /* the packet to answer has version 0 */
#define QV_BAD_OFFERED_TABLE 23u             /* the offered table breaks its rule */
#define QV_RECEIVED_VERSION_OFFERED 24u      /* the received version is in the offered table */
#define QV_UNUSED_BITS_TOO_LARGE 25u         /* unused bits over 127 */
#define QV_NO_ROOM_FOR_PACKET 26u            /* the buffer is shorter than the packet */
#define QV_BAD_RESERVED_IN_PACKET 28u        /* a number after the offered table is not reserved,
                                                is repeated or is the version received, or over
                                                four are given */
#define QV_INFORMATION_TOO_SHORT 31u         /* under 4 bytes */
#define QV_INFORMATION_NOT_IN_FOURS 32u      /* length not a multiple of four */
#define QV_INFORMATION_TOO_LONG 33u          /* over 1,024 bytes, or over 255 entries to write */
#define QV_CHOSEN_IS_ZERO 34u                /* Chosen Version is 0 */
#define QV_AVAILABLE_HOLDS_ZERO 35u          /* an Available Version is 0 */
#define QV_CHOSEN_NOT_AVAILABLE 36u          /* from a client, Chosen not among Available */
#define QV_NO_ROOM_FOR_INFORMATION 37u       /* the buffer is shorter than the information */
#define QV_LIST_TOO_LONG 40u                 /* list to choose from over 16,382 entries */
#define QV_BAD_TABLE 41u                     /* a table of versions breaks its rule */
#define QV_NOTHING_IN_COMMON 42u             /* nothing of the table is in the list */
#define QV_BAD_PAIRS 43u                     /* the pairs or the barred pairs break their rule,
                                                or over 64 versions are barred */
#define QV_ORIGINAL_NOT_IN_TABLE 44u         /* the Original Version is not in the table */
#define QV_CONNECTION_ID_TOO_LONG 45u        /* a connection ID over 20 bytes */
#define QV_BAD_RESERVED_IN_LIST 47u          /* a number for the own list is not reserved or is
                                                repeated, a place is taken twice or is past the
                                                end, or over four are given */
#define QV_CHOSEN_NOT_RECEIVED 51u           /* Chosen is not the first flight's version */
#define QV_NOT_VERSION_NEGOTIATION 61u       /* no readable Version Negotiation packet */
#define QV_TOO_LATE 62u                      /* ended; or Version Negotiation after acted or heard */
#define QV_OTHER_CONNECTION 63u              /* the packet's connection IDs are not ours, swapped */
#define QV_LISTS_ORIGINAL 64u                /* the packet lists the Original Version */
#define QV_NO_VERSION_LEFT 65u               /* nothing in common; the attempt has ended */
#define QV_INFORMATION_MISSING 71u           /* acted, information missing, attempted not 1 */
#define QV_CHOSEN_NOT_OURS 72u               /* Chosen not in our own list */
#define QV_CHOSEN_NOT_IN_USE 73u             /* Chosen, or if it is missing and we never acted the
                                                attempted version, is not the version in use */
#define QV_AVAILABLE_EMPTY 74u               /* acted, Available empty */
#define QV_DOWNGRADED 75u                    /* acted, the renewed choice is not the attempted version */
#define QV_SEQUENCE_TOO_LONG 80u             /* transport parameters over 16,384 bytes */
#define QV_RUNS_PAST_THE_END 81u             /* a transport parameter or an integer past the end */
#define QV_IDENTIFIER_REPEATED 82u           /* an identifier of transport parameters twice */
#define QV_INTEGER_TOO_LARGE 83u             /* an integer to write over 2^62 - 1 */
#define QV_NO_ROOM_TO_WRITE 84u              /* the buffer is shorter than what is to write */
#define QV_TOO_MANY_PARAMETERS 85u           /* over 64 transport parameters */
#define QV_NOT_VALID 255u                    /* unknown kind, or a record that fails its tests */

/* Close codes. */
#define QV_CLOSE_NONE 0u
#define QV_TRANSPORT_PARAMETER_ERROR 0x08u   /* RFC 9000 section 20.1 */
#define QV_VERSION_NEGOTIATION_ERROR 0x11u   /* RFC 9368 section 10.2 */

/*
 * A pair of compatible versions: a first flight in `from` can be converted to `to`. Or a pair that
 * is barred: for the flights of one attempt that conversion is not well defined, whether the
 * versions are compatible or not (RFC 9368 section 2.2).
 */
struct qv_pair {
    uint32_t from;
    uint32_t to;
};

/*
 * A reserved number (0x?a?a?a?a, RFC 9000 section 15) for a client's list, and its place in the
 * list as it is sent, counted from 0.
 */
struct qv_reserved {
    uint32_t number;
    uint32_t place;
};

/*
 * What happened to an attempt: the answers of its last events, and the count of all of them. It is
 * read by qv_read_journal.
 *
 * Every event is noted, those that are refused with 61 to 64 and those after the end too. 255 is no
 * answer of an event, and is not noted. The last QV_JOURNAL_PLACES answers are kept, oldest first:
 * 0 for no refusal, else the number of the refusal. Places that no event has filled yet are 0, and
 * last. The count stops at QV_MAX_EVENTS; the answers go on. A start hands back an empty journal.
 *
 * Nothing of it is judged. Whatever it holds, an event notes its answer in this way: at the place
 * `count`, if that is below QV_JOURNAL_PLACES, and the other places stay; else the first answer
 * goes out, the others move down by one, and the new one is last. Then the count grows by one, if
 * it has not stopped.
 */
struct qv_journal {
    uint8_t answers[QV_JOURNAL_PLACES];
    uint32_t count;
};

/*
 * The record of one attempt. Make it with qv_start, change it with qv_event alone. To read:
 * `attempted` (the version to attempt now), `acted`, `heard`, `end_mark` and `end_value`; and the
 * journal, by qv_read_journal.
 *
 * What is judged of a record, by every call that takes one (else QV_NOT_VALID, and all is left as
 * found): the three counts are within their arrays, the flags are 0 or 1, end_mark is one of the
 * three below with a value that fits it (0; any; up to 255), and the attempted version is in the
 * table. So zeroed memory and the record of a refused start are QV_NOT_VALID, and no event on any
 * record completes it with a version outside its table. What is not judged: that table, rows, IDs
 * and Original Version are those of one start; and the journal, which no call but qv_read_journal
 * reads for its answer.
 */
struct qv_attempt {
    uint64_t rows[QV_MAX_TABLE];
    uint32_t table[QV_MAX_TABLE];
    uint8_t destination[QV_MAX_ID];
    uint8_t source[QV_MAX_ID];
    uint32_t table_len;
    uint32_t destination_len;
    uint32_t source_len;
    uint32_t original;
    uint32_t attempted;
    uint32_t acted;
    uint32_t heard;
    uint32_t end_mark;
    uint32_t end_value;
    struct qv_journal journal;
};

/* end_mark, with what end_value holds. */
#define QV_OPEN 0u       /* 0 */
#define QV_COMPLETED 1u  /* the version in use */
#define QV_CLOSED 2u     /* the number of the refusal */

/* A record and the number of a refusal. */
struct qv_started {
    struct qv_attempt attempt;
    uint32_t refusal;
};

/* The interface's version. */
uint32_t qv_interface_version(void);

/*
 * The same under a name that has its number. Every file that includes this header refers to it, so
 * that a library with another interface does not link (with GCC and Clang; else compare
 * qv_interface_version() with QV_INTERFACE_VERSION at the start).
 */
uint32_t qv_interface_9(void);
#if defined(__GNUC__)
#if defined(__has_attribute)
#if __has_attribute(retain)
#define QV_KEPT __attribute__((used, retain)) /* kept by a linker that drops what nobody uses */
#endif
#endif
#ifndef QV_KEPT
#define QV_KEPT __attribute__((used))
#endif
static uint32_t (*const qv_linked_interface)(void) QV_KEPT = qv_interface_9;
#endif

/* sizeof(struct qv_attempt) as the library has it. */
size_t qv_record_size(void);

/* A record with known values in every field, to compare the layout with. It is no attempt. */
struct qv_attempt qv_known_record(void);

/*
 * The close code of a refusal, QV_CLOSE_NONE where there is none, as for a number outside the table.
 * A refusal of a writer, or of the test of a configuration, closes nothing. Another kind of call
 * than these two gets QV_UNKNOWN_CALL.
 */
#define QV_CALL_READING 0u /* a reader, the server's choice, an event */
#define QV_CALL_WRITING 1u /* a writer, the test of a configuration */
#define QV_UNKNOWN_CALL UINT64_MAX
uint64_t qv_close_code(uint32_t refusal, uint32_t call);

/* 1 if the version is reserved (0x?a?a?a?a, RFC 9000 section 15), else 0. */
uint32_t qv_is_reserved(uint32_t version);

/*
 * 1 if the table keeps its rule (1 to QV_MAX_TABLE entries, none 0, none reserved, none twice),
 * else 0.
 */
uint32_t qv_is_table(const uint32_t *table, size_t table_len);

/*
 * 1 if the pairs keep their rule (0 to QV_MAX_PAIRS, no member 0 or reserved, members differ),
 * else 0. Barred pairs have the same rule.
 */
uint32_t qv_are_pairs(const struct qv_pair *pairs, size_t pairs_len);

/*
 * Reads a datagram's header. `told` is the length of a short form's destination ID; a long form
 * ignores it.
 * Refusals, in order: 11, 12, 13. They leave form, version and places as found.
 * Else: form; version of a long form, else 0; places, from start up to, not with, end, of the
 * destination ID, the source ID (0 and 0 for a short form) and the rest (a list of versions for
 * Version Negotiation).
 */
#define QV_LONG 1u
#define QV_SHORT 2u
#define QV_VERSION_NEGOTIATION 3u
enum {
    QV_DESTINATION_START,
    QV_DESTINATION_END,
    QV_SOURCE_START,
    QV_SOURCE_END,
    QV_REST_START,
    QV_REST_END,
    QV_PLACES
};
QV_CHECKED
uint32_t qv_read_header(const uint8_t *datagram, size_t datagram_len, size_t told, uint32_t *form,
                        uint32_t *version, size_t places[QV_PLACES]);

/*
 * Writes the Version Negotiation packet that answers a received datagram: IDs swapped, then the
 * offered table in its order, then the reserved numbers in theirs (RFC 9000 section 6.3).
 * `received` is the whole datagram as it came, not one packet of it: its length is judged.
 * `reserved` has 0 to QV_MAX_RESERVED numbers, all of them reserved, none twice, none the version
 * received.
 * Refusals, in order: 11, 12, 20, 21, 22, 23, 24, 25, 26 (all numbers given are counted, however
 * many), 28. They leave buffer and count as found.
 * Else: *count bytes are written, at most QV_MAX_PACKET and never more than were received; bytes
 * past them keep their values.
 */
QV_CHECKED
uint32_t qv_write_version_negotiation(const uint8_t *received, size_t received_len,
                                      const uint32_t *offered, size_t offered_len,
                                      const uint32_t *reserved, size_t reserved_len,
                                      uint8_t unused_bits, uint8_t *buffer, size_t buffer_len,
                                      size_t *count);

/* Who sends Version Information. */
#define QV_CLIENT 0u
#define QV_SERVER 1u

/*
 * Reads Version Information (RFC 9368 section 3).
 * Refusals, in order: 255 (unknown sender), 31, 32, 33, 34, 35, 36 (a client's only). They leave
 * chosen, start and end as found.
 * Else: the Chosen Version, and the Available Versions lie from *start up to, not with, *end.
 */
QV_CHECKED
uint32_t qv_read_information(uint32_t sender, const uint8_t *bytes, size_t bytes_len,
                             uint32_t *chosen, size_t *start, size_t *end);

/*
 * Writes Version Information.
 * Refusals, in order: 255 (unknown sender), 33, 34, 35, 36 (a client's only), 37. They leave buffer
 * and count as found.
 * Else: *count bytes are written; bytes past them keep their values.
 */
QV_CHECKED
uint32_t qv_write_information(uint32_t sender, uint32_t chosen, const uint32_t *available,
                              size_t available_len, uint8_t *buffer, size_t buffer_len,
                              size_t *count);

/*
 * The entry at a place, counted from 0, of a list of versions as it lies on the wire: 1 and
 * *version; or 0 where the list ends before it, which leaves *version as found.
 */
uint32_t qv_entry(const uint8_t *list, size_t list_len, size_t place, uint32_t *version);

/*
 * Reads the variable-length integer (RFC 9000 section 16) at the front of the bytes, in any of the
 * four widths. What follows it is not looked at.
 * Refusal: 81 (fewer bytes than its width, or none). It leaves value and width as found.
 * Else: its value, at most QV_MAX_INTEGER, and the bytes that it takes: 1, 2, 4 or 8.
 */
QV_CHECKED
uint32_t qv_read_integer(const uint8_t *bytes, size_t bytes_len, uint64_t *value, size_t *width);

/*
 * Writes a variable-length integer in the shortest width that holds it.
 * Refusals, in order: 83, 84. They leave buffer and count as found.
 * Else: *count bytes are written, 1, 2, 4 or 8; bytes past them keep their values.
 */
QV_CHECKED
uint32_t qv_write_integer(uint64_t value, uint8_t *buffer, size_t buffer_len, size_t *count);

/* The identifier of Version Information among transport parameters (RFC 9368 section 10.1). */
#define QV_VERSION_INFORMATION 0x11u

/* Whether transport parameters, or a handshake, had Version Information. */
#define QV_MISSING 0u
#define QV_GIVEN 1u

/*
 * Finds Version Information in a sequence of transport parameters (RFC 9000 section 18): for each
 * its identifier, the length of its value, and the value. Other parameters are stepped over. 05 and
 * 40 05 are the same identifier.
 * Refusals, in order: 80, 81, 82, 85. The whole sequence is judged for each before the next. They
 * leave found, start and end as found.
 * Else: *found is QV_GIVEN, and the value lies from *start up to, not with, *end; or *found is
 * QV_MISSING, and both are 0. The value is not judged. In an empty sequence it is missing.
 */
QV_CHECKED
uint32_t qv_read_parameters(const uint8_t *sequence, size_t sequence_len, uint32_t *found,
                            size_t *start, size_t *end);

/*
 * Writes a sequence of transport parameters anew, with `value` as its Version Information: in the
 * place of the old one, or last where that is missing. The other parameters keep their values and
 * their order. Every identifier and every length is written in the shortest width, so the new
 * sequence can be shorter than the old one. The value is not judged. The buffer overlaps neither
 * the old sequence nor the value.
 * Refusals, in order: of the old sequence 80, 81, 82, 85, then of the new one 80, 84, 85. They
 * leave buffer and count as found.
 * Else: *count bytes are written, at most QV_MAX_SEQUENCE; bytes past them keep their values.
 */
QV_CHECKED
uint32_t qv_write_parameters(const uint8_t *old, size_t old_len, const uint8_t *value,
                             size_t value_len, uint8_t *buffer, size_t buffer_len, size_t *count);

/*
 * The choice from a list: the first entry of the table that occurs in it.
 * Refusals, in order: 40, 41, 42. They leave *version as found.
 */
QV_CHECKED
uint32_t qv_choose(const uint32_t *table, size_t table_len, const uint32_t *list, size_t list_len,
                   uint32_t *version);

/* The same from a list as it lies on the wire; 1 to 3 bytes left over are no entry. */
QV_CHECKED
uint32_t qv_choose_from_bytes(const uint32_t *table, size_t table_len, const uint8_t *bytes,
                              size_t bytes_len, uint32_t *version);

/*
 * A list as a word of 64 bits: bit j, with bit 0 the lowest, is set where entry j of the table
 * occurs in the list. 0 means that nothing of the table is in the list; that is no refusal here.
 * `a | b` is the word of two lists joined, where the joined list has at most QV_MAX_LIST entries,
 * and both words were made with the same table.
 * Refusals, in order: 40, 41. They leave *word as found.
 */
QV_CHECKED
uint32_t qv_list_word(const uint32_t *table, size_t table_len, const uint32_t *list,
                      size_t list_len, uint64_t *word);

/* The same of a list as it lies on the wire; 1 to 3 bytes left over are no entry. */
QV_CHECKED
uint32_t qv_list_word_from_bytes(const uint32_t *table, size_t table_len, const uint8_t *bytes,
                                 size_t bytes_len, uint64_t *word);

/*
 * The choice from a list by its word. It answers as qv_choose does, on every table and list.
 * Refusals, in order: 40, 41, 42. They leave *version as found.
 */
QV_CHECKED
uint32_t qv_choose_by_word(const uint32_t *table, size_t table_len, const uint32_t *list,
                           size_t list_len, uint32_t *version);

/*
 * The same from a list as it lies on the wire; 1 to 3 bytes left over are no entry. It answers as
 * qv_choose_from_bytes does.
 */
QV_CHECKED
uint32_t qv_choose_by_word_from_bytes(const uint32_t *table, size_t table_len,
                                      const uint8_t *bytes, size_t bytes_len, uint32_t *version);

/*
 * The choice from a word of any origin, such as the words of several lists joined: the entry of the
 * table at the word's lowest set bit. Bits at or past the table's length change nothing. Bit j is
 * read as entry j of this table; that a word was made with another table cannot be told.
 * Refusals, in order: 41, 42 (no bit of a table entry is set). They leave *version as found. There
 * is no list here, so 40 is never given.
 */
QV_CHECKED
uint32_t qv_choose_from_word(const uint32_t *table, size_t table_len, uint64_t word,
                             uint32_t *version);

/*
 * How many entries of the table occur in the list, each counted once: the ones of the list's word.
 * It is 0 where none does; that is no refusal here.
 * Refusals, in order: 40, 41. They leave *count as found.
 */
QV_CHECKED
uint32_t qv_count_held(const uint32_t *table, size_t table_len, const uint32_t *list,
                       size_t list_len, size_t *count);

/* The same of a list as it lies on the wire; 1 to 3 bytes left over are no entry. */
QV_CHECKED
uint32_t qv_count_held_from_bytes(const uint32_t *table, size_t table_len, const uint8_t *bytes,
                                  size_t bytes_len, size_t *count);

/*
 * The server's choice after a first flight in `version`. `barred` are versions to which the
 * conversion of this flight is not well defined (RFC 9368 section 2.2): up to QV_MAX_BARRED, of any
 * value; 0, reserved and repeated ones are allowed.
 * Refusals, in order: 255 (unknown presence), 41, 43 (pairs that break their rule, or over
 * QV_MAX_BARRED barred versions), 31 to 36, 51. They leave *decision as found.
 * Else: *decision is the version to use, or QV_NEGOTIATE: send a Version Negotiation packet. Where
 * `version` is not readable it is QV_NEGOTIATE. Else it is, with information missing, `version` if
 * that is accepted; with information given, the first accepted version that is Available and either
 * is Chosen, or is paired from Chosen and not barred; if there is none, QV_NEGOTIATE. So Chosen
 * among the barred versions has no effect, and with information missing none of them has.
 */
#define QV_NEGOTIATE 0u
QV_CHECKED
uint32_t qv_server_choice(const uint32_t *readable, size_t readable_len, const uint32_t *accepted,
                          size_t accepted_len, const struct qv_pair *pairs, size_t pairs_len,
                          const uint32_t *barred, size_t barred_len, uint32_t version,
                          uint32_t presence, const uint8_t *information, size_t information_len,
                          uint32_t *decision);

/*
 * Tests the lists that a server is configured with: the versions whose first flights it can read,
 * those that it accepts, those that it offers in Version Negotiation packets, those that it lists
 * as Available Versions, and its pairs. A server asks once, before it serves anybody.
 * The safe rule: accepted, offered and Available hold the same versions, and each of them is
 * readable. Readable may hold more. The order of a list does not matter, nor do repeats in
 * Available. Barred versions are told with each flight, and are no part of it.
 * Refusals, in order: 23 (the offered table breaks its rule), 33 (over QV_MAX_AVAILABLE Available
 * Versions), 41 (the table of readable or of accepted versions breaks its rule), 43 (the pairs
 * break theirs). They leave *part and *version as found. They are about this side alone, and have
 * no close code: QV_CALL_WRITING.
 * Else: *part is QV_SAFE, and *version is 0; or *part is the first part of the rule, in this order,
 * that is broken, and *version is the first version that breaks it, in the order of the list that
 * the part names first. Look at *part to know whether it is safe: an Available Version can be 0.
 */
#define QV_SAFE 0u
#define QV_ACCEPTED_NOT_OFFERED 1u
#define QV_OFFERED_NOT_ACCEPTED 2u
#define QV_OFFERED_NOT_READABLE 3u
#define QV_AVAILABLE_NOT_OFFERED 4u /* it may be 0 or a reserved number */
#define QV_OFFERED_NOT_AVAILABLE 5u
QV_CHECKED
uint32_t qv_judge_configuration(const uint32_t *readable, size_t readable_len,
                                const uint32_t *accepted, size_t accepted_len,
                                const uint32_t *offered, size_t offered_len,
                                const uint32_t *available, size_t available_len,
                                const struct qv_pair *pairs, size_t pairs_len, uint32_t *part,
                                uint32_t *version);

/*
 * Starts an attempt with a table of versions, pairs, the pairs barred for this attempt's flights,
 * the Original Version and our two connection IDs. Barred pairs have the pairs' rule; like pairs
 * they are neither turned round nor chained, and are read for the version that is attempted at the
 * time, which need not be the Original Version. One that is not among the pairs has no effect.
 * Refusals, in order: 41, 43 (pairs or barred pairs), 44, 45. The record is then no attempt.
 * The journal of the record is empty, all 0, refused or not. So a start that is put in the place of
 * an earlier attempt loses what had happened to that.
 */
QV_CHECKED
struct qv_started qv_start(const uint32_t *table, size_t table_len, const struct qv_pair *pairs,
                           size_t pairs_len, const struct qv_pair *barred, size_t barred_len,
                           uint32_t original, const uint8_t *destination, size_t destination_len,
                           const uint8_t *source, size_t source_len);

/*
 * One event on a record, in place. `value` is the version in use of an outcome, and is not read
 * else; `bytes` is the datagram, or the Version Information of QV_OUTCOME, and is not read else.
 * Refusals, in order:
 *   any event: 255, and the record is left as found, its journal too;
 *   a datagram: 61, 62, 63, 64, which change the journal alone; 65 ends the attempt;
 *   a processed packet: 62, which changes the journal alone;
 *   an outcome: 62, which changes the journal alone; 31 to 35 and 71 to 75 end the attempt.
 * An ending changes end_mark, end_value and the journal alone.
 * Else 0: after a datagram the attempt acted, and `attempted` is the version to attempt now; after
 * an outcome the attempt has completed.
 * Every answer but 255 is noted in the journal. What an event answers, and what it does to the rest
 * of the record, does not depend on the journal.
 */
#define QV_DATAGRAM 0u                    /* a datagram came */
#define QV_PACKET_PROCESSED 1u            /* a genuine packet other than Version Negotiation */
#define QV_OUTCOME 2u                     /* authenticated Version Information is given */
#define QV_OUTCOME_WITHOUT_INFORMATION 3u /* it is missing */
QV_CHECKED
uint32_t qv_event(struct qv_attempt *attempt, uint32_t kind, uint32_t value, const uint8_t *bytes,
                  size_t bytes_len);

/*
 * The own list of an attempt, as may be answered: every table entry that is the attempted version,
 * or is paired from it by a pair that is not barred, in table order. It goes into the client's
 * Version Information as Available Versions: qv_write_client_information writes it there, as sent,
 * which may be with reserved numbers.
 * `versions` has QV_MAX_TABLE places; neither it nor *count lies in the record, which is only read.
 * Refusal: 255 (see struct qv_attempt), which leaves versions and count as found.
 * Else: *count versions; places past them keep their values.
 */
QV_CHECKED
uint32_t qv_own_list(const struct qv_attempt *attempt, uint32_t versions[QV_MAX_TABLE],
                     size_t *count);

/*
 * Reads the journal of an attempt: what its events were answered with.
 * This is no event. The record is only read, and the attempt may have ended; neither the answers
 * nor *used nor *count lies in the record.
 * Refusal: 255 (see struct qv_attempt), which leaves answers, used and count as found.
 * Else: all QV_JOURNAL_PLACES answers are written as the record has them, oldest first; the first
 * *used of them are answers of events, and in an attempt's record the others are 0. *count is the
 * count of all events, and *used the lesser of it and QV_JOURNAL_PLACES.
 * So answers[i], with i below *used, is that of event *count - *used + 1 + i, counted from 1, where
 * *count is below QV_MAX_EVENTS. At QV_MAX_EVENTS there were so many events or more, and nobody can
 * tell which of them these are.
 */
QV_CHECKED
uint32_t qv_read_journal(const struct qv_attempt *attempt, uint8_t answers[QV_JOURNAL_PLACES],
                         size_t *used, uint32_t *count);

/*
 * Writes the client's Version Information from its record: the attempted version as Chosen, then
 * the own list as sent, with the reserved numbers at their places (RFC 9000 section 6.3) and the
 * entries of the own list, in their order, at the others.
 * `reserved` has 0 to QV_MAX_RESERVED numbers, all of them reserved, none twice; no place is taken
 * twice, and none is past the end: places are below the entries of the own list and the numbers
 * given, counted together.
 * This is no event. The record is only read, and the attempt may have ended; neither the buffer nor
 * *count lies in the record.
 * Refusals, in order: 255 (see struct qv_attempt), 37 (all numbers given are counted, however
 * many), 47. They leave buffer and count as found.
 * Else: *count bytes are written, at most QV_MAX_INFORMATION; bytes past them keep their values.
 */
QV_CHECKED
uint32_t qv_write_client_information(const struct qv_attempt *attempt,
                                     const struct qv_reserved *reserved, size_t reserved_len,
                                     uint8_t *buffer, size_t buffer_len, size_t *count);

/*
 * Each event by its own name; refusals as qv_event's.
 */

/* A datagram came. QV_OK: the attempt acted, and attempt->attempted is the version to attempt now. */
QV_CHECKED
static inline uint32_t qv_datagram(struct qv_attempt *attempt, const uint8_t *datagram,
                                   size_t datagram_len)
{
    return qv_event(attempt, QV_DATAGRAM, 0, datagram, datagram_len);
}

/* A genuine packet other than Version Negotiation was processed. */
QV_CHECKED
static inline uint32_t qv_packet_processed(struct qv_attempt *attempt)
{
    return qv_event(attempt, QV_PACKET_PROCESSED, 0, NULL, 0);
}

/* The handshake ended with this version in use, and authenticated Version Information. */
QV_CHECKED
static inline uint32_t qv_outcome(struct qv_attempt *attempt, uint32_t in_use,
                                  const uint8_t *information, size_t information_len)
{
    return qv_event(attempt, QV_OUTCOME, in_use, information, information_len);
}

/* The handshake ended with this version in use, and no Version Information. */
QV_CHECKED
static inline uint32_t qv_outcome_without_information(struct qv_attempt *attempt,
                                                      uint32_t in_use)
{
    return qv_event(attempt, QV_OUTCOME_WITHOUT_INFORMATION, in_use, NULL, 0);
}

/*
 * The words of a refusal, without its number: "no refusal" for 0, "an unknown number" for a number
 * that no refusal has. The Rust crate shows the same words, and its tests compare them.
 */
static inline const char *qv_refusal_text(uint32_t number)
{
    switch (number) {
    case 0: return "no refusal";
    case QV_DATAGRAM_TOO_LONG: return "the datagram has over 65,535 bytes";
    case QV_TRUNCATED:
        return "the datagram is empty, a field runs past its end, or a told length is over 255";
    case QV_LIST_NOT_WHOLE: return "the Version Negotiation list is empty, or bytes are left over";
    case QV_DATAGRAM_TOO_SMALL: return "the datagram to answer has under 1,200 bytes";
    case QV_SHORT_FORM: return "the packet to answer has the short form";
    case QV_VERSION_NEGOTIATION_RECEIVED: return "the packet to answer has version 0";
    case QV_BAD_OFFERED_TABLE: return "the offered table breaks its rule";
    case QV_RECEIVED_VERSION_OFFERED: return "the received version is in the offered table";
    case QV_UNUSED_BITS_TOO_LARGE: return "the unused bits are over 127";
    case QV_NO_ROOM_FOR_PACKET: return "the buffer is shorter than the packet";
    case QV_BAD_RESERVED_IN_PACKET:
        return "a number after the offered table is not reserved, is repeated or is the version "
               "received, or over four are given";
    case QV_INFORMATION_TOO_SHORT: return "the Version Information has under 4 bytes";
    case QV_INFORMATION_NOT_IN_FOURS:
        return "the length of the Version Information is not a multiple of four";
    case QV_INFORMATION_TOO_LONG:
        return "the Version Information has over 1,024 bytes, or over 255 Available Versions";
    case QV_CHOSEN_IS_ZERO: return "the Chosen Version is 0";
    case QV_AVAILABLE_HOLDS_ZERO: return "an Available Version is 0";
    case QV_CHOSEN_NOT_AVAILABLE:
        return "a client's Chosen Version is not among its Available Versions";
    case QV_NO_ROOM_FOR_INFORMATION: return "the buffer is shorter than the Version Information";
    case QV_LIST_TOO_LONG: return "the list to choose from has over 16,382 entries";
    case QV_BAD_TABLE: return "a table of versions breaks its rule";
    case QV_NOTHING_IN_COMMON: return "nothing of the table is in the list";
    case QV_BAD_PAIRS:
        return "the compatible or barred pairs break their rule, or over 64 versions are barred";
    case QV_ORIGINAL_NOT_IN_TABLE: return "the Original Version is not in the table";
    case QV_CONNECTION_ID_TOO_LONG: return "a connection ID has over 20 bytes";
    case QV_BAD_RESERVED_IN_LIST:
        return "a number for the own list is not reserved or is repeated, a place is taken twice or "
               "is past the end, or over four are given";
    case QV_CHOSEN_NOT_RECEIVED:
        return "the Chosen Version is not the version of the first flight";
    case QV_NOT_VERSION_NEGOTIATION:
        return "the datagram is no readable Version Negotiation packet";
    case QV_TOO_LATE:
        return "the attempt has ended, or acted or heard before this Version Negotiation packet";
    case QV_OTHER_CONNECTION: return "the connection IDs of the packet are not ours, swapped";
    case QV_LISTS_ORIGINAL: return "the packet lists the Original Version";
    case QV_NO_VERSION_LEFT: return "the packet lists no version of ours; the attempt has ended";
    case QV_INFORMATION_MISSING:
        return "Version Information is missing after Version Negotiation, and version 1 is not "
               "attempted";
    case QV_CHOSEN_NOT_OURS: return "the Chosen Version is not in our own list";
    case QV_CHOSEN_NOT_IN_USE:
        return "the Chosen Version, or the attempted one where it is missing, is not the version "
               "in use";
    case QV_AVAILABLE_EMPTY:
        return "the server's Available Versions are empty after Version Negotiation";
    case QV_DOWNGRADED:
        return "the server's Available Versions lead to another choice than the attempted version";
    case QV_SEQUENCE_TOO_LONG: return "the sequence of transport parameters has over 16,384 bytes";
    case QV_RUNS_PAST_THE_END:
        return "a field of the transport parameters, or an integer, runs past the end";
    case QV_IDENTIFIER_REPEATED: return "an identifier occurs twice among the transport parameters";
    case QV_INTEGER_TOO_LARGE: return "the integer to write is over 2^62 - 1";
    case QV_NO_ROOM_TO_WRITE:
        return "the buffer is shorter than the integer or the transport parameters to write";
    case QV_TOO_MANY_PARAMETERS: return "there are over 64 transport parameters";
    case QV_NOT_VALID: return "an unknown kind, or a record that could not be an attempt's";
    default: return "an unknown number";
    }
}

/*
 * The words of a part of the safe rule that qv_judge_configuration found broken, without the
 * version: "the configuration is safe" for QV_SAFE, "an unknown number" for a number that no part
 * has. The Rust crate shows the same words, and its tests compare them.
 */
static inline const char *qv_part_text(uint32_t part)
{
    switch (part) {
    case QV_SAFE: return "the configuration is safe";
    case QV_ACCEPTED_NOT_OFFERED: return "an accepted version is not offered";
    case QV_OFFERED_NOT_ACCEPTED: return "an offered version is not accepted";
    case QV_OFFERED_NOT_READABLE: return "an offered version is not readable";
    case QV_AVAILABLE_NOT_OFFERED: return "an Available Version is not offered";
    case QV_OFFERED_NOT_AVAILABLE: return "an offered version is not among the Available Versions";
    default: return "an unknown number";
    }
}

#ifdef __cplusplus
}
#endif

#endif
