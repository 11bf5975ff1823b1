/*
 * ajp13_words.h: the exported calls that take arrays of words.
 *
 * For bindings of other languages. A program in C or C++ includes ajp13.h instead, which has a type for each array and
 * an inline call of the same name (without "words_") that fills in the lengths. That header says what each call does,
 * what stands at each position of an array, and what the statuses are. The exported calls that take no array of words
 * (ajp13_integer_at, ajp13_header_code_at, ajp13_attribute_code_at, ajp13_attribute_kind_at, ajp13_name, ajp13_code)
 * are declared there.
 *
 * - An array is given as a pointer and, right behind it, its length. The length counts elements, not bytes.
 * - These arrays must have exactly so many words: connection 8, building 5, fixed 8, answer 16, text 3, checking 16,
 *   checked 8. Another length is an error (AJP13_ERROR_CONNECTION_LENGTH and those like it), and then no array is
 *   written. All other arrays may have any length.
 * - No pointer may be NULL, also where its length is 0, and each must be aligned for its type.
 * - An array that is lent for writing (its pointer is not to const) may not overlap any other array of the same call.
 *   Arrays that are only read may overlap one another.
 * - A flag (null, noname, novalue) is 1 where that string is null; its bytes do not matter then.
 */
#ifndef AJP13_WORDS_H
#define AJP13_WORDS_H

#include <stddef.h>
#include <stdint.h>

#ifdef __cplusplus
extern "C" {
#endif

/* The connection. */

uint32_t ajp13_words_fresh(uint32_t *connection, size_t connection_length);

uint32_t ajp13_words_largest_body(const uint32_t *connection, size_t connection_length);

/* Reading. */

uint32_t ajp13_words_read_at_container(uint32_t *connection, size_t connection_length,
                                       const uint8_t *bytes, size_t bytes_length,
                                       uint16_t *table, size_t table_length,
                                       uint32_t *answer, size_t answer_length);

uint32_t ajp13_words_read_at_server(uint32_t *connection, size_t connection_length,
                                    const uint8_t *bytes, size_t bytes_length,
                                    uint16_t *table, size_t table_length,
                                    uint32_t *answer, size_t answer_length);

/* Sending: the packets that one call writes. */

uint32_t ajp13_words_cping(uint32_t *connection, size_t connection_length,
                           uint8_t *buffer, size_t buffer_length,
                           uint32_t *answer, size_t answer_length);

uint32_t ajp13_words_cpong(uint32_t *connection, size_t connection_length,
                           uint8_t *buffer, size_t buffer_length,
                           uint32_t *answer, size_t answer_length);

uint32_t ajp13_words_body(uint32_t *connection, size_t connection_length,
                          uint8_t *buffer, size_t buffer_length,
                          const uint8_t *bytes, size_t bytes_length,
                          uint32_t *answer, size_t answer_length);

uint32_t ajp13_words_body_chunk(uint32_t *connection, size_t connection_length,
                                uint8_t *buffer, size_t buffer_length,
                                const uint8_t *bytes, size_t bytes_length,
                                uint32_t *answer, size_t answer_length);

uint32_t ajp13_words_get_body(uint32_t *connection, size_t connection_length,
                              uint8_t *buffer, size_t buffer_length,
                              uint32_t asked,
                              uint32_t *answer, size_t answer_length);

uint32_t ajp13_words_end(uint32_t *connection, size_t connection_length,
                         uint8_t *buffer, size_t buffer_length,
                         uint32_t reuse,
                         uint32_t *answer, size_t answer_length);

/* Building: a Forward Request and a Send Headers in pieces. */

uint32_t ajp13_words_begin_forward(uint32_t *building, size_t building_length,
                                   uint8_t *buffer, size_t buffer_length,
                                   const uint32_t *fixed, size_t fixed_length,
                                   const uint8_t *protocol, size_t protocol_length,
                                   const uint8_t *req_uri, size_t req_uri_length,
                                   const uint8_t *remote_addr, size_t remote_addr_length,
                                   const uint8_t *remote_host, size_t remote_host_length,
                                   const uint8_t *server_name, size_t server_name_length);

uint32_t ajp13_words_begin_send_headers(uint32_t *building, size_t building_length,
                                        uint8_t *buffer, size_t buffer_length,
                                        uint32_t status,
                                        const uint8_t *message, size_t message_length, uint32_t null);

uint32_t ajp13_words_header_coded(uint32_t *building, size_t building_length,
                                  uint8_t *buffer, size_t buffer_length,
                                  uint32_t code,
                                  const uint8_t *value, size_t value_length, uint32_t null);

uint32_t ajp13_words_header_spelled(uint32_t *building, size_t building_length,
                                    uint8_t *buffer, size_t buffer_length,
                                    const uint8_t *name, size_t name_length, uint32_t noname,
                                    const uint8_t *value, size_t value_length, uint32_t novalue);

uint32_t ajp13_words_header_named(uint32_t *building, size_t building_length,
                                  uint8_t *buffer, size_t buffer_length,
                                  const uint8_t *name, size_t name_length,
                                  const uint8_t *value, size_t value_length, uint32_t null);

uint32_t ajp13_words_attribute_text(uint32_t *building, size_t building_length,
                                    uint8_t *buffer, size_t buffer_length,
                                    uint32_t code,
                                    const uint8_t *value, size_t value_length, uint32_t null);

uint32_t ajp13_words_attribute_integer(uint32_t *building, size_t building_length,
                                       uint8_t *buffer, size_t buffer_length,
                                       uint32_t code, uint32_t value);

uint32_t ajp13_words_attribute_pair(uint32_t *building, size_t building_length,
                                    uint8_t *buffer, size_t buffer_length,
                                    uint32_t code,
                                    const uint8_t *name, size_t name_length, uint32_t noname,
                                    const uint8_t *value, size_t value_length, uint32_t novalue);

uint32_t ajp13_words_close(uint32_t *connection, size_t connection_length,
                           const uint32_t *building, size_t building_length,
                           uint8_t *buffer, size_t buffer_length,
                           uint32_t *answer, size_t answer_length);

/* Views: the strings of a packet at the places that reading told. */

uint32_t ajp13_words_text_at(const uint8_t *packet, size_t packet_length, uint32_t place,
                             uint32_t *text, size_t text_length);

uint32_t ajp13_words_attribute_name_at(const uint8_t *packet, size_t packet_length, uint32_t place,
                                       uint32_t *text, size_t text_length);

/* Checking a capture: whole, or in parts. */

uint32_t ajp13_words_check(const uint8_t *capture, size_t capture_length,
                           uint32_t *checked, size_t checked_length);

uint32_t ajp13_words_check_begin(uint32_t *checking, size_t checking_length);

uint32_t ajp13_words_check_go_on(uint32_t *checking, size_t checking_length,
                                 const uint8_t *bytes, size_t bytes_length);

uint32_t ajp13_words_check_finish(const uint32_t *checking, size_t checking_length,
                                  uint64_t size,
                                  uint32_t *checked, size_t checked_length);

#ifdef __cplusplus
}
#endif

#endif
