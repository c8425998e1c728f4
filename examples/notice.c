/* Reads a notice, prints who it is from and the address in that, sets a header, writes it, and finds the body in what was written; then adds a header
 * with a depot code for a parameter and finds that in what was written, by the second reading: C on the functions of crates/cpim/cpim.h. `make compare`
 * runs it. */
#include "cpim.h"

#include <stdio.h>
#include <string.h>

static const char notice[] =
    "Content-type: Message/CPIM\r\n\r\n"
    "From: \"Lost < Found\" <im:lost@depot>\r\n"
    "DateTime: 2026-03-02T08:15:00Z\r\n\r\n"
    "Content-type: text/plain\r\n\r\n"
    "A black umbrella hangs in the sorting room.";

static uint8_t head[1000], body[1000], store[100], out[1000];

/* Text as the place and length that a slice crosses as. */
#define TEXT(s) (const uint8_t *)(s), strlen(s)

static int refused(const char *call, uint64_t number, uint64_t carried) {
    fprintf(stderr, "%s: refused by %llu carrying %llu\n", call, (unsigned long long)number, (unsigned long long)carried);
    return 1;
}

static void print_header(cpim_message_t m, const char *name) {
    cpim_part_t value = cpim_get_header(m, head, sizeof head, TEXT(name));
    if (value.found)
        printf("%s is: %.*s\n", name, (int)value.length, (const char *)head + value.start);
}

/* The place of an address is one in the value, which has its own place in the head store. */
static void print_address(cpim_message_t m, const char *name) {
    cpim_part_t value = cpim_get_header(m, head, sizeof head, TEXT(name));
    cpim_part_t address = cpim_address(head + value.start, value.length);
    if (address.found)
        printf("its address: %.*s\n", (int)address.length, (const char *)head + value.start + address.start);
}

int main(void) {
    cpim_answer_t a = cpim_parse(TEXT(notice), head, sizeof head, body, sizeof body);
    if (a.number != 0)
        return refused("cpim_parse", a.number, a.carried);
    print_header(a.message, "From");
    print_address(a.message, "From");

    a = cpim_set_header(a.message, head, sizeof head, TEXT("Subject"), TEXT("Black umbrella"));
    if (a.number != 0)
        return refused("cpim_set_header", a.number, a.carried);
    a = cpim_set_header(a.message, head, sizeof head, TEXT("a:b"), TEXT("refused, and nothing is changed"));
    printf("a header called a:b is refused by %llu\n", (unsigned long long)a.number);

    cpim_length_answer_t n = cpim_to_string(a.message, head, sizeof head, body, sizeof body, out, sizeof out);
    if (n.number != 0)
        return refused("cpim_to_string", n.number, n.carried);
    bool whole = cpim_comes_back(a.message, head, sizeof head, body, sizeof body);
    printf("%llu bytes that %s:\n%.*s\n", (unsigned long long)n.length, whole ? "come back" : "do not come back",
           (int)n.length, (const char *)out);

    /* Read again, the body left where it stands in the text. */
    cpim_head_answer_t h = cpim_parse_head(out, n.length, head, sizeof head);
    if (h.number != 0)
        return refused("cpim_parse_head", h.number, h.carried);
    if (h.in_text)
        printf("its body: %llu bytes from byte %llu on\n", (unsigned long long)h.message.bodylen, (unsigned long long)h.start);

    /* A parameter is written behind the colon, as RFC 3862 has it, and cpim_parse_rfc looks for it there. */
    cpim_header_answer_t glove = cpim_header_new(TEXT("Red glove"), store, sizeof store);
    glove = cpim_header_with_param(glove.header, store, sizeof store, TEXT("depot"), TEXT("north"));
    if (glove.number != 0)
        return refused("cpim_header_with_param", glove.number, glove.carried);
    a = cpim_add_header_obj(h.message, head, sizeof head, TEXT("Item"), glove.header, store, sizeof store);
    if (a.number != 0)
        return refused("cpim_add_header_obj", a.number, a.carried);
    whole = cpim_comes_back_rfc(a.message, head, sizeof head, body, sizeof body);
    n = cpim_to_string(a.message, head, sizeof head, body, sizeof body, out, sizeof out);
    if (n.number != 0)
        return refused("cpim_to_string", n.number, n.carried);
    a = cpim_parse_rfc(out, n.length, head, sizeof head, body, sizeof body);
    if (a.number != 0)
        return refused("cpim_parse_rfc", a.number, a.carried);
    print_header(a.message, "Item");
    cpim_pair_t depot = cpim_get_param(a.message, head, sizeof head, TEXT("Item"), 0, 0);
    if (depot.found)
        printf("its depot, which %s by the second reading: %.*s\n", whole ? "comes back" : "does not come back", (int)depot.value,
               (const char *)head + depot.start + depot.name);
    return 0;
}
