/* CPIM messages (RFC 3862) in lent stores: the functions of crates/cpim/out/libcpim.a (made by a build of rust/cpim, or by `rt lib` in crates/cpim) and their records.
 *
 * A slice crosses as its place, which is never NULL, and its length, which may be 0. Any record, any bytes and any lengths are answered; nothing is allocated. What is lent to be
 * written must overlap nothing else that is lent to the same call.
 *
 * A head store takes 256 bytes, and 16 and its name and value for each header, parameter and content header (at most 250,016 bytes); a reading may need
 * more than its message on the way, where a content header is given twice, and 25 says how much, never more than that; a header alone
 * takes 16 and its value, and 16 and its name and value for each parameter. The body stands at the start of its store.
 *
 * number 0: accepted. Any other is a refusal, and nothing is changed (but see cpim_parse and the other readings):
 *    1 text too long *              2 fewer than 4 sections        3 no message/cpim              4 header line lacks a colon
 *    5 bad escape                   6 name empty                   7 name too long *              8 ASCII control in name
 *    9 one of : ; = \ " in name    10 value too long *            11 control in content value    12 parameter name empty
 *   13 parameter name too long *   14 bad parameter name          15 parameter value too long *  16 bad parameter value
 *   17 content type empty          18 content type too long *     19 control in content type     20 too many headers *
 *   21 too many parameters *       22 too many content headers *  23 body too long *             24 not UTF-8
 *   25 head or header store too short, or nothing held            26 body store or output too short
 * and by the second reading (cpim_parse_rfc, cpim_parse_head_rfc) alone:
 *   27 parameter lacks =          28 behind the colon neither a space nor a ; comes first, or no space comes at all
 * carried: the actual length or count for those with a star, the bytes needed for 25 (0: nothing valid is held) and 26, else 0. */
#ifndef CPIM_H
#define CPIM_H

#include <stdbool.h>
#include <stddef.h>
#include <stdint.h>

#ifdef __cplusplus
extern "C" {
#endif

/* A message in its stores. The record with 0 throughout holds nothing. */
typedef struct {
    size_t typelen;    /* length of the content type, which stands at the start of the head store */
    size_t headers;    /* how many headers */
    size_t headerlen;  /* the bytes that they take in the head store, from byte 256 on */
    size_t contents;   /* how many content headers */
    size_t contentlen; /* the bytes that they take, behind the headers */
    size_t bodylen;    /* length of the body */
} cpim_message_t;

/* A header alone in its store: length of its value, how many parameters, the bytes that it takes. */
typedef struct {
    size_t valuelen;
    size_t params;
    size_t size;
} cpim_header_t;

typedef struct {
    uint64_t number;
    uint64_t carried;
} cpim_numbers_t;

/* What a call on a message answers, with the record to go on with: that handed in where the call is refused. */
typedef struct {
    uint64_t number;
    uint64_t carried;
    cpim_message_t message;
} cpim_answer_t;

typedef struct {
    uint64_t number;
    uint64_t carried;
    cpim_header_t header;
} cpim_header_answer_t;

/* length is 0 where refused. */
typedef struct {
    uint64_t number;
    uint64_t carried;
    size_t length;
} cpim_length_answer_t;

/* Why a message does not come back from its text by cpim_parse, and for which header or content header in map order, counting from 0. Clause 0: it does;
 * 1 no header; 2 a header has a parameter; 3 the body is not UTF-8; 4 a content header is called Content-type; white space at an end of 5 a header name,
 * 6 a content header's name or value, 7 the content type; 9 nothing is held. 8 is not given: what stands at the
 * ends of a header value is written so that it comes back. */
typedef struct {
    size_t clause;
    size_t entry;
} cpim_loss_t;

/* A part of a lent store: whether there is one, where it begins, and its length. Absent: false, 0, 0. */
typedef struct {
    bool found;
    size_t start;
    size_t length;
} cpim_part_t;

/* A header, parameter or content header in a lent store: whether there is one, where its name begins, the length of the name, and of the value right
 * behind it. Absent: false, 0, 0, 0. */
typedef struct {
    bool found;
    size_t start;
    size_t name;
    size_t value;
} cpim_pair_t;

/* A part of the text or of the buffer: whether of the text, where it begins, and its length. Where the text has no body: false, 0, 0. */
typedef struct {
    bool in_text;
    size_t start;
    size_t length;
} cpim_body_place_t;

/* What a reading that leaves the body where it stands answers: in_text says whether the body is a part of the text, start where it begins there. */
typedef struct {
    uint64_t number;
    uint64_t carried;
    cpim_message_t message;
    bool in_text;
    size_t start;
} cpim_head_answer_t;

/* Reads a text. Refused: the empty record, and zeros over both stores. 1, 24, 2, 3, 25; a header line 4, 6 to 9, 12 to 16, 21, 5, 10, 20, 25; a content
 * line 17 to 19, or 6 to 11, 22, 25; then 23, 26. */
cpim_answer_t cpim_parse(const uint8_t *text, size_t text_len, uint8_t *head, size_t head_len, uint8_t *body,
                         size_t body_len);

/* Reads a text and leaves its body where it stands: record, head store and refusals are those of cpim_parse with room for every body, so 26 never
 * comes. Under CRLFCRLF the body is the text from start on, message.bodylen bytes: in_text is true, and no byte of it is copied. Under LFLF in_text is
 * false, start 0, and message.bodylen is the length of the body joined, which cpim_read_body writes to a buffer. Calls that only read a body store can be
 * lent the body where it stands. Refused: the empty record, false, 0, and zeros over the head store. */
cpim_head_answer_t cpim_parse_head(const uint8_t *text, size_t text_len, uint8_t *head, size_t head_len);

/* The second reading: parameters stand where RFC 3862 puts them and where cpim_to_string writes them, as in Subject:;lang=en Hi. A header line is the name
 * up to the first colon, untrimmed; then parameters, from ; to the first space, parted at ;, each at its first =, untrimmed; that one space; and the value,
 * which is all that follows, untrimmed. Only U+0020 is the space. Escapes are the RFC's: \' is read, and a plus sign is no digit of \u. A header line 4,
 * 6 to 9, 28, for each parameter in turn 27, 12 to 16, 21 (even when replacing), then 5, 10, 20, 25. All else, both stores among it, is as by cpim_parse. */
cpim_answer_t cpim_parse_rfc(const uint8_t *text, size_t text_len, uint8_t *head, size_t head_len, uint8_t *body,
                             size_t body_len);

/* The second reading, which leaves the body where it stands: as cpim_parse_head is to cpim_parse. */
cpim_head_answer_t cpim_parse_head_rfc(const uint8_t *text, size_t text_len, uint8_t *head, size_t head_len);

/* The length of a text's body. Under CRLFCRLF the body is the end of the text and the buffer is not used; under LFLF it is written to the buffer's
 * start. 1, 24, 2, 23, 26 (under LFLF only). */
cpim_length_answer_t cpim_read_body(const uint8_t *text, size_t text_len, uint8_t *buffer, size_t buffer_len);

/* The body behind cpim_read_body, by the length that it gave: a part of the text under CRLFCRLF, whatever the length; the buffer's start under LFLF.
 * Empty, at the buffer's start, where cpim_read_body refuses by 1, 24, 2 or 23, and under LFLF where the length exceeds the buffer. */
cpim_body_place_t cpim_body_part(const uint8_t *text, size_t text_len, const uint8_t *buffer, size_t buffer_len,
                                 size_t length);

/* A message of a type and a body, copied into store. Refused: the empty record. 24, 17 to 19, 23, 25, 26. */
cpim_answer_t cpim_new(const uint8_t *content_type, size_t content_type_len, const uint8_t *body, size_t body_len,
                       uint8_t *head, size_t head_len, uint8_t *store, size_t store_len);

/* Every call on a message is refused first by 25 carrying 0 where record and stores hold none. */

/* Replaces the body. 23, 26. */
cpim_answer_t cpim_set_body(cpim_message_t m, const uint8_t *head, size_t head_len, uint8_t *store, size_t store_len,
                            const uint8_t *body, size_t body_len);

/* Gives a name one value, in place of all that it has. 24, 6 to 9, 20, 10, 25. */
cpim_answer_t cpim_set_header(cpim_message_t m, uint8_t *head, size_t head_len, const uint8_t *name, size_t name_len,
                              const uint8_t *value, size_t value_len);

/* Appends a value to those of a name. 24, 10, 6 to 9, 20, 25. */
cpim_answer_t cpim_add_header(cpim_message_t m, uint8_t *head, size_t head_len, const uint8_t *name, size_t name_len,
                              const uint8_t *value, size_t value_len);

/* Sets a content header. 24, 6 to 11, 22 (even when replacing), 25. */
cpim_answer_t cpim_add_content_header(cpim_message_t m, uint8_t *head, size_t head_len, const uint8_t *name,
                                      size_t name_len, const uint8_t *value, size_t value_len);

/* Appends a header that was built alone; 25 carrying 0 also where its record and store hold none. 24, 6 to 9, 20, 25. */
cpim_answer_t cpim_add_header_obj(cpim_message_t m, uint8_t *head, size_t head_len, const uint8_t *name,
                                  size_t name_len, cpim_header_t h, const uint8_t *store, size_t store_len);

/* Sets From. 24, 20, 10, 25. */
cpim_answer_t cpim_with_from(cpim_message_t m, uint8_t *head, size_t head_len, const uint8_t *from, size_t from_len);

/* Adds a To. 24, 10, 20, 25. */
cpim_answer_t cpim_with_to(cpim_message_t m, uint8_t *head, size_t head_len, const uint8_t *to, size_t to_len);

/* Sets DateTime. 24, 20, 10, 25. */
cpim_answer_t cpim_with_datetime(cpim_message_t m, uint8_t *head, size_t head_len, const uint8_t *datetime,
                                 size_t datetime_len);

/* Adds a Subject. 24, 10, 20, 25. */
cpim_answer_t cpim_with_subject(cpim_message_t m, uint8_t *head, size_t head_len, const uint8_t *subject,
                                size_t subject_len);

/* Adds a cc. 24, 10, 20, 25. */
cpim_answer_t cpim_with_cc(cpim_message_t m, uint8_t *head, size_t head_len, const uint8_t *cc, size_t cc_len);

/* Adds a Require. 24, 10, 20, 25. */
cpim_answer_t cpim_with_require(cpim_message_t m, uint8_t *head, size_t head_len, const uint8_t *feature,
                                size_t feature_len);

/* Adds a Subject with the parameter lang. 24, 10, 15, 16, 20, 25. */
cpim_answer_t cpim_with_subject_lang(cpim_message_t m, uint8_t *head, size_t head_len, const uint8_t *subject,
                                     size_t subject_len, const uint8_t *lang, size_t lang_len);

/* Adds an NS: prefix, space, <, uri, >. 24, 10, 20, 25. */
cpim_answer_t cpim_with_ns(cpim_message_t m, uint8_t *head, size_t head_len, const uint8_t *prefix, size_t prefix_len,
                           const uint8_t *uri, size_t uri_len);

/* As cpim_add_content_header. */
cpim_answer_t cpim_with_content_header(cpim_message_t m, uint8_t *head, size_t head_len, const uint8_t *name,
                                       size_t name_len, const uint8_t *value, size_t value_len);

/* Runs a script of changing calls (crates/calls_script/specs/Script.antt) up to the first place where no whole call stands; the record is the last call's. */
cpim_message_t cpim_run(const uint8_t *script, size_t script_len, cpim_message_t m, uint8_t *head, size_t head_len,
                        uint8_t *body, size_t body_len);

/* Writes the message's text to the start of out, and gives its length. Where the first or last character of a header value is white space and not a
 * control character, it is written as \u and four lower-case hexadecimal digits, so that it comes back. 26 carries the length too, so an empty out asks
 * for it. 25 carrying 0, 26. */
cpim_length_answer_t cpim_to_string(cpim_message_t m, const uint8_t *head, size_t head_len, const uint8_t *body,
                                    size_t body_len, uint8_t *out, size_t out_len);

/* Whether reading its text by cpim_parse, with room for it, gives the message held; false where nothing is held. */
bool cpim_comes_back(cpim_message_t m, const uint8_t *head, size_t head_len, const uint8_t *body, size_t body_len);

/* The same by cpim_parse_rfc. Parameters come back where none of their names and values holds U+0020, and header names whatever their ends are; all else is
 * asked for as by cpim_comes_back, so what comes back by cpim_parse comes back by cpim_parse_rfc too. */
bool cpim_comes_back_rfc(cpim_message_t m, const uint8_t *head, size_t head_len, const uint8_t *body, size_t body_len);

/* What is lost first where cpim_comes_back says no. */
cpim_loss_t cpim_loss(cpim_message_t m, const uint8_t *head, size_t head_len, const uint8_t *body, size_t body_len);

/* A header alone. Refused: the empty record. 24, 10, 25. */
cpim_header_answer_t cpim_header_new(const uint8_t *value, size_t value_len, uint8_t *store, size_t store_len);

/* Sets a parameter of a header alone. 25 carrying 0 where record and store hold none, 24, 12 to 16, 21 (even when replacing), 25. */
cpim_header_answer_t cpim_header_with_param(cpim_header_t h, uint8_t *store, size_t store_len, const uint8_t *name,
                                            size_t name_len, const uint8_t *value, size_t value_len);

/* The lookups say where something stands in the store lent: in head, unless said otherwise. Absent too where record and stores hold nothing, and for a
 * name that is not UTF-8. n and k count from 0, names in byte order. Each judges what is held anew; cpim_places answers for all at once. */

/* The first value of a name. */
cpim_part_t cpim_get_header(cpim_message_t m, const uint8_t *head, size_t head_len, const uint8_t *name,
                            size_t name_len);

/* The n-th value of a name. */
cpim_part_t cpim_get_header_value(cpim_message_t m, const uint8_t *head, size_t head_len, const uint8_t *name,
                                  size_t name_len, size_t n);

/* The n-th parameter of the k-th value of a name. */
cpim_pair_t cpim_get_param(cpim_message_t m, const uint8_t *head, size_t head_len, const uint8_t *name,
                           size_t name_len, size_t k, size_t n);

cpim_part_t cpim_content_type(cpim_message_t m, const uint8_t *head, size_t head_len);

/* In body. */
cpim_part_t cpim_body(cpim_message_t m, const uint8_t *head, size_t head_len, const uint8_t *body, size_t body_len);

/* Whether the body is UTF-8; false where nothing is held. */
bool cpim_body_as_str(cpim_message_t m, const uint8_t *head, size_t head_len, const uint8_t *body, size_t body_len);

/* The n-th content header. */
cpim_pair_t cpim_content_header(cpim_message_t m, const uint8_t *head, size_t head_len, size_t n);

/* The value of a header alone, in store. */
cpim_part_t cpim_header_value(cpim_header_t h, const uint8_t *store, size_t store_len);

/* The n-th parameter of a header alone, in store. */
cpim_pair_t cpim_header_param(cpim_header_t h, const uint8_t *store, size_t store_len, size_t n);

/* How many headers, parameters of all headers, and content headers; 0 where nothing is held. */
size_t cpim_count_headers(cpim_message_t m, const uint8_t *head, size_t head_len);
size_t cpim_count_params(cpim_message_t m, const uint8_t *head, size_t head_len);
size_t cpim_count_contents(cpim_message_t m, const uint8_t *head, size_t head_len);

/* The part of a value between its first < outside a quoted string and the next >, in value; the value may be any bytes. Inside quotes a backslash covers
 * the character after it. Quotes are looked for only before that <, and if one is left unclosed there is no address. <> is an empty part. A value is
 * taken as it is held, after unescaping: a quote that was escaped in the text opens or closes quotes then, so the address is no proof of the sender. */
cpim_part_t cpim_address(const uint8_t *value, size_t value_len);

/* Where all of them stand: a row of four numbers for each header, behind it those of its parameters, then for each content header. A row is where the
 * name begins, the name's length, the length of the value right behind it, and how many parameters. out_len counts numbers, and 2,280 are always
 * enough; what 26 carries counts bytes, 8 for each number. 25 carrying 0, 26. */
cpim_numbers_t cpim_places(cpim_message_t m, const uint8_t *head, size_t head_len, size_t *out, size_t out_len);

#ifdef __cplusplus
}
#endif

#endif
