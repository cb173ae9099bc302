/* Tests include/savuneco.h against the library: the layout of what is returned and lent, the reply numbers, the room and the records,
   NULL with length 0, and each function with answers that the card-file paper gives. Prints what differs, and a last line that says
   how many were asked. */
#include <stddef.h>
#include <stdio.h>
#include <string.h>

#include "savuneco.h"

_Static_assert(sizeof(savuneco_answer) == 40, "an answer takes 40 bytes");
_Static_assert(offsetof(savuneco_answer, steps) == 0, "steps");
_Static_assert(offsetof(savuneco_answer, number) == 8, "number");
_Static_assert(offsetof(savuneco_answer, root) == 9, "root");
_Static_assert(offsetof(savuneco_answer, length) == 10, "length");
_Static_assert(offsetof(savuneco_answer, path) == 11, "path");
_Static_assert(sizeof(savuneco_path) == SAVUNECO_SLOT, "a record takes as many bytes as a slot");
_Static_assert(_Alignof(savuneco_path) == 1, "records lie as slots do");
_Static_assert(offsetof(savuneco_path, length) == 0, "length");
_Static_assert(offsetof(savuneco_path, places) == 1, "places");
_Static_assert(sizeof(savuneco_asked) == 40, "what is asked takes 40 bytes");
_Static_assert(offsetof(savuneco_asked, now) == 0, "now");
_Static_assert(offsetof(savuneco_asked, budget) == 8, "budget");
_Static_assert(offsetof(savuneco_asked, host_at) == 16, "host_at");
_Static_assert(offsetof(savuneco_asked, host_length) == 24, "host_length");
_Static_assert(offsetof(savuneco_asked, number) == 32, "number");
_Static_assert(offsetof(savuneco_asked, roots) == 33, "roots");
_Static_assert(offsetof(savuneco_asked, certificates) == 34, "certificates");
_Static_assert(sizeof(savuneco_normal) == 16, "the normaliser's answer takes 16 bytes");
_Static_assert(offsetof(savuneco_normal, length) == 0, "length");
_Static_assert(offsetof(savuneco_normal, number) == 8, "number");

static int asked, wrong;

static void is(const char *what, uint64_t got, uint64_t must)
{
    asked++;
    if (got != must) {
        wrong++;
        printf("%s: %llu, and must be %llu\n", what, (unsigned long long)got, (unsigned long long)must);
    }
}

static void bytes_are(const char *what, const void *got, const void *must, size_t len)
{
    is(what, memcmp(got, must, len) == 0, 1);
}

/* ---- a card file of two roots and three certificates: 1 and 2 issued 0, and root 1 issued 1 */

static uint8_t card[65537];
static size_t card_len, budget_at, verdicts_at;

static void put(const void *bytes, size_t len)
{
    memcpy(card + card_len, bytes, len);
    card_len += len;
}

/* version 2, these flags, no dates, serial 1, one algorithm, no names, no usages, no DNS names */
static void put_record(uint8_t flags)
{
    uint8_t record[28] = { 2, flags };
    memcpy(record + 18, "\1\1\1\x2A\1\x2A\0\0\0\0", 10);
    put(record, sizeof record);
}

static void make_card(void)
{
    card_len = 0;
    put("\1\2", 2);
    put_record(8);
    put_record(8);
    put("\3", 1);
    put_record(0);
    put_record(8);
    put_record(8);
    put("\0\xF", 2);
    verdicts_at = card_len;
    put("\0\0\0" "\0\1\0" "\0\0\0" "\1\0\0" "\1\0\0", 15);
    put("\1" "\0\0\0\0\0\0\0\0", 9);
    budget_at = card_len;
    put("\0\0\0\0\0\0\1\0" "\0\0", 10);
}

static uint8_t room[SAVUNECO_ROOM];

/* the reply to the first len bytes in so much room, all of it 7s before */
static savuneco_answer ask(size_t len, size_t room_len)
{
    memset(room, 7, sizeof room);
    return savuneco_search(card, len, room, room_len);
}

static const uint8_t none[SAVUNECO_PLACES];
static uint8_t sevens[SAVUNECO_SLOT];

/* a reply with no path: number and steps, and from 3 up the room is as it was */
static void replies(const char *what, savuneco_answer answer, uint8_t number, uint64_t steps)
{
    is(what, answer.number, number);
    is(what, answer.steps, steps);
    is(what, answer.root, 0);
    is(what, answer.length, 0);
    bytes_are(what, answer.path, none, sizeof none);
    if (number > SAVUNECO_EXHAUSTED)
        bytes_are(what, room, sevens, sizeof sevens);
}

static void the_search(void)
{
    make_card();
    savuneco_answer answer = ask(card_len, sizeof room);
    uint8_t path[SAVUNECO_PLACES] = { 0, 1 };
    uint8_t zeros[2 * SAVUNECO_SLOT] = { 0 };
    is("accepted: number", answer.number, SAVUNECO_ACCEPTED);
    is("accepted: steps", answer.steps, 3);
    is("accepted: root", answer.root, 1);
    is("accepted: length", answer.length, 2);
    bytes_are("accepted: path", answer.path, path, sizeof path);
    bytes_are("two slots are cleared", room, zeros, sizeof zeros);
    bytes_are("the third is not", room + sizeof zeros, sevens, sizeof sevens);
    is("two slots suffice", ask(card_len, 2 * SAVUNECO_SLOT).number, SAVUNECO_ACCEPTED);
    replies("two slots but for a byte", ask(card_len, 2 * SAVUNECO_SLOT - 1), SAVUNECO_NO_ROOM, 0);
    replies("a byte is missing", ask(card_len - 1, sizeof room), SAVUNECO_CUT_SHORT, 0);
    replies("a byte too many", ask(card_len + 1, sizeof room), SAVUNECO_LEFT_OVER, 0);
    replies("65,536 bytes", ask(65536, sizeof room), SAVUNECO_TOO_LONG, 0);
    card[budget_at + 6] = 0;
    card[budget_at + 7] = 2;
    replies("budget 2", ask(card_len, sizeof room), SAVUNECO_EXHAUSTED, 2);
    card[budget_at + 7] = 3;
    card[verdicts_at + 4] = 0;
    replies("root 1 did not sign", ask(card_len, sizeof room), SAVUNECO_REFUSED, 3);
    card[verdicts_at] = 2;
    replies("verdict 2", ask(card_len, sizeof room), SAVUNECO_BAD_VALUE, 0);
    card[1] = 65;
    replies("65 roots", ask(card_len, sizeof room), SAVUNECO_BAD_COUNT, 0);
    card[0] = 2;
    replies("edition 2", ask(card_len, sizeof room), SAVUNECO_UNKNOWN_EDITION, 0);
    memset(card, 0, 24);
    card[0] = card[5] = 1;
    replies("no certificate", ask(24, sizeof room), SAVUNECO_EMPTY_CHAIN, 0);
}

static void asks(const char *what, savuneco_asked task, savuneco_asked must)
{
    is(what, task.now, must.now);
    is(what, task.budget, must.budget);
    is(what, task.host_at, must.host_at);
    is(what, task.host_length, must.host_length);
    is(what, task.number, must.number);
    is(what, task.roots, must.roots);
    is(what, task.certificates, must.certificates);
}

/* the first len bytes can't be read: nothing is asked, and the search replies the same number */
static void unread(const char *what, size_t len, uint8_t number)
{
    asks(what, savuneco_task(card, len), (savuneco_asked){ .number = number });
    is(what, ask(len, sizeof room).number, number);
}

static void the_task(void)
{
    make_card();
    asks("no host", savuneco_task(card, card_len), (savuneco_asked){ 0, 256, card_len, 0, 0, 2, 3 });
    memcpy(card + budget_at - 8, "\1\2\3\4\5\6\7\10", 8);
    card[card_len - 1] = 5;
    put("a.com", 5);
    savuneco_asked task = savuneco_task(card, card_len);
    asks("a host", task, (savuneco_asked){ 0x0102030405060708, 256, card_len - 5, 5, 0, 2, 3 });
    bytes_are("the host's bytes", card + task.host_at, "a.com", 5);
    unread("task: a byte is missing", card_len - 1, SAVUNECO_CUT_SHORT);
    unread("task: a byte too many", card_len + 1, SAVUNECO_LEFT_OVER);
    unread("task: 65,536 bytes", 65536, SAVUNECO_TOO_LONG);
    card[verdicts_at] = 2;
    unread("task: verdict 2", card_len, SAVUNECO_BAD_VALUE);
    card[1] = 65;
    unread("task: 65 roots", card_len, SAVUNECO_BAD_COUNT);
    card[0] = 2;
    unread("task: edition 2", card_len, SAVUNECO_UNKNOWN_EDITION);
    memset(card, 0, 24);
    card[0] = card[5] = 1;
    card[13] = 6;
    card[21] = 7;
    asks("task: no certificate", savuneco_task(card, 24), (savuneco_asked){ 6, 7, 24, 0, 0, 0, 0 });
}

static void the_paused_run(void)
{
    make_card();
    uint8_t wait[2 * SAVUNECO_SLOT] = { 2, 0, 1 };
    memset(room, 7, sizeof room);
    savuneco_answer answer = savuneco_paused(card, card_len, 2, room, sizeof room);
    is("paused after 2", answer.number, SAVUNECO_EXHAUSTED);
    is("paused after 2: steps", answer.steps, 2);
    bytes_are("[0,1] waits after 2", room, wait, sizeof wait);
    bytes_are("the third slot is kept", room + sizeof wait, sevens, sizeof sevens);
    savuneco_paused(card, card_len, 1, room, sizeof room);
    memcpy(wait + SAVUNECO_SLOT, "\2\0\2", 3);
    bytes_are("[0,1] and [0,2] wait after 1", room, wait, sizeof wait);
    answer = savuneco_paused(card, card_len, (uint64_t)1 << 32, room, sizeof room);
    is("paused after 2^32", answer.number, SAVUNECO_ACCEPTED);
    is("paused after 2^32: steps", answer.steps, 3);
}

static savuneco_path records[SAVUNECO_RECORDS];

/* an answer by records, all of them 7s before, is the one by bytes, and they are left as the slots are */
static void as_by_bytes(const char *what, savuneco_answer answer, savuneco_answer must)
{
    is(what, answer.number, must.number);
    is(what, answer.steps, must.steps);
    is(what, answer.root, must.root);
    is(what, answer.length, must.length);
    bytes_are(what, answer.path, must.path, sizeof must.path);
    bytes_are(what, records, room, sizeof records);
}

static void searched(const char *what, size_t len, size_t count)
{
    savuneco_answer must = ask(len, count * SAVUNECO_SLOT);
    memset(records, 7, sizeof records);
    as_by_bytes(what, savuneco_search_records(card, len, records, count), must);
}

static void waited(const char *what, uint64_t k, size_t count)
{
    memset(room, 7, sizeof room);
    savuneco_answer must = savuneco_paused(card, card_len, k, room, count * SAVUNECO_SLOT);
    memset(records, 7, sizeof records);
    as_by_bytes(what, savuneco_paused_records(card, card_len, k, records, count), must);
}

static void the_records(void)
{
    make_card();
    searched("records: accepted", card_len, SAVUNECO_RECORDS);
    searched("two records suffice", card_len, 2);
    searched("one record does not", card_len, 1);
    searched("records: a byte is missing", card_len - 1, SAVUNECO_RECORDS);
    waited("records: paused after 0", 0, SAVUNECO_RECORDS);
    waited("records: paused after 1", 1, SAVUNECO_RECORDS);
    is("[0,1] waits in record 0", records[0].places[1], 1);
    is("[0,2] waits in record 1", records[1].places[1], 2);
    is("both have two places", records[0].length == 2 && records[1].length == 2, 1);
    is("the third record is kept", records[2].length, 7);
    waited("records: paused after 2^32", (uint64_t)1 << 32, 2);
    waited("records: paused in one", 1, 1);
}

/* ---- the leaves */

#define TEXT(s) (const uint8_t *)(s), sizeof(s) - 1

static void texts(void)
{
    uint8_t out[] = "....................";
    savuneco_normal form = savuneco_normalize(TEXT("  Bembo   Roman "), out, 20);
    is("normal form: number", form.number, 0);
    is("normal form: length", form.length, 11);
    bytes_are("normal form", out, "bembo roman.........", 20);
    form = savuneco_normalize(TEXT("  B "), out, 3);
    is("no room: number", form.number, SAVUNECO_NO_ROOM);
    is("no room: length", form.length, 0);
    bytes_are("no room", out, "bembo roman.........", 20);
    form = savuneco_normalize(TEXT("   "), out, 3);
    is("three spaces: number", form.number, 0);
    is("three spaces: length", form.length, 0);
    is("*.a.com and x.a.com", savuneco_match_name(TEXT("*.a.com"), TEXT("x.a.com")), 1);
    is("*.a.com and a.com", savuneco_match_name(TEXT("*.a.com"), TEXT("a.com")), 0);
    is("*.a.com and x.y.a.com", savuneco_match_name(TEXT("*.a.com"), TEXT("x.y.a.com")), 0);
    is("192.0.2.9", savuneco_ip_addr_in_range(TEXT("\xC0\0\2\5\xFF\xFF\xFF\0"), TEXT("\xC0\0\2\x9")), 1);
    is("192.0.3.9", savuneco_ip_addr_in_range(TEXT("\xC0\0\2\5\xFF\xFF\xFF\0"), TEXT("\xC0\0\3\x9")), 0);
}

/* attributes of OID x and value a, b, A; RDNs of them; names of one RDN */
#define ATTR_A "\1x\1" "a"
#define ATTR_B "\1x\1" "b"
#define ATTR_UPPER_A "\1x\1" "A"

static void relations(void)
{
    is("a and A as they stand", savuneco_same_attr(TEXT(ATTR_A), TEXT(ATTR_UPPER_A), 0), 0);
    is("a and A, flag 1", savuneco_same_attr(TEXT(ATTR_A), TEXT(ATTR_UPPER_A), 1), 1);
    is("a and A, flag 128", savuneco_same_attr(TEXT(ATTR_A), TEXT(ATTR_UPPER_A), 128), 1);
    is("RDN (a, b) and itself", savuneco_same_rdn(TEXT("\2" ATTR_A ATTR_B), TEXT("\2" ATTR_A ATTR_B), 0), 1);
    is("RDN (a, b) and (b, a)", savuneco_same_rdn(TEXT("\2" ATTR_A ATTR_B), TEXT("\2" ATTR_B ATTR_A), 0), 1);
    is("RDN (a, a) and (a, b)", savuneco_same_rdn(TEXT("\2" ATTR_A ATTR_A), TEXT("\2" ATTR_A ATTR_B), 0), 1);
    is("RDN (a, b) and (a, a)", savuneco_same_rdn(TEXT("\2" ATTR_A ATTR_B), TEXT("\2" ATTR_A ATTR_A), 0), 0);
    is("two names of no RDNs", savuneco_same_dn(TEXT("\0"), TEXT("\0"), 0), 1);
    is("names a and A, flag 2", savuneco_same_dn(TEXT("\1\1" ATTR_A), TEXT("\1\1" ATTR_UPPER_A), 2), 1);
    is("names (a, a) and (a, b)", savuneco_same_dn(TEXT("\1\2" ATTR_A ATTR_A), TEXT("\1\2" ATTR_A ATTR_B), 0), 1);
    is("names (a, b) and (a, a)", savuneco_same_dn(TEXT("\1\2" ATTR_A ATTR_B), TEXT("\1\2" ATTR_A ATTR_A), 0), 0);
    is("names a and A, flag 0", savuneco_same_dn(TEXT("\1\1" ATTR_A), TEXT("\1\1" ATTR_UPPER_A), 0), 0);
    is("RDN (a, b) has b", savuneco_rdn_has_name(TEXT("\2" ATTR_A ATTR_B), TEXT(ATTR_B), 0), 1);
    is("RDN (a) has b", savuneco_rdn_has_name(TEXT("\1" ATTR_A), TEXT(ATTR_B), 0), 0);
    is("RDN (a, a) under (a, b)", savuneco_is_subtree_rdn(TEXT("\2" ATTR_A ATTR_A), TEXT("\2" ATTR_A ATTR_B), 0), 1);
    is("RDN (a, b) under (a)", savuneco_is_subtree_rdn(TEXT("\2" ATTR_A ATTR_B), TEXT("\1" ATTR_A), 0), 0);
    is("no RDNs under a name", savuneco_is_subtree_of(TEXT("\0"), TEXT("\1\1" ATTR_A), 0), 1);
    is("a name under no RDNs", savuneco_is_subtree_of(TEXT("\1\1" ATTR_A), TEXT("\0"), 0), 0);
    is("the first is cut short", savuneco_same_dn(TEXT("\1"), TEXT("\0?"), 0), SAVUNECO_CUT_SHORT);
    is("the second has 17 RDNs", savuneco_same_dn(TEXT("\0"), TEXT("\x11"), 0), SAVUNECO_BAD_COUNT);
    is("the first has a byte left over", savuneco_same_dn(TEXT("\0?"), TEXT("\x11"), 0), SAVUNECO_LEFT_OVER);
}

static void key_ids(void)
{
    is("all fit", savuneco_check_auth_key_id(1, TEXT("k"), 2, TEXT("s"), 255, TEXT("k"), TEXT("s")), 1);
    is("another key id", savuneco_check_auth_key_id(1, TEXT("k"), 0, NULL, 0, 1, TEXT("l"), TEXT("s")), 0);
    is("the issuer has no key id", savuneco_check_auth_key_id(1, TEXT("k"), 0, NULL, 0, 0, NULL, 0, TEXT("s")), 1);
    is("another serial", savuneco_check_auth_key_id(0, NULL, 0, 1, TEXT("\0s"), 0, NULL, 0, TEXT("s")), 0);
    is("a part that is not present", savuneco_check_auth_key_id(0, TEXT("k"), 0, TEXT("t"), 1, TEXT("l"), TEXT("s")), 1);
}

static void slots(void)
{
    static const uint8_t table[] = { 0, 1, 1, 2, 4, 7, 11, 16, 22, 29, 37, 46, 56, 67, 79, 92, 106, 121, 137, 154, 172, 191, 211, 232, 254 };
    for (unsigned n = 0; n < 256; n++)
        is("slots", savuneco_slots((uint8_t)n), n < sizeof table ? table[n] : 0);
    is("the records that suffice", SAVUNECO_RECORDS, savuneco_slots(SAVUNECO_PLACES));
    is("the room that suffices", SAVUNECO_ROOM, SAVUNECO_RECORDS * SAVUNECO_SLOT);
}

static void null_with_length_0(void)
{
    memset(room, 7, sizeof room);
    replies("no file", savuneco_search(NULL, 0, room, sizeof room), SAVUNECO_CUT_SHORT, 0);
    replies("no file, paused", savuneco_paused(NULL, 0, 1, room, sizeof room), SAVUNECO_CUT_SHORT, 0);
    asks("no file, no task", savuneco_task(NULL, 0), (savuneco_asked){ .number = SAVUNECO_CUT_SHORT });
    make_card();
    replies("no room", savuneco_search(card, card_len, NULL, 0), SAVUNECO_NO_ROOM, 0);
    replies("no room, paused", savuneco_paused(card, card_len, 1, NULL, 0), SAVUNECO_NO_ROOM, 0);
    replies("no file, records", savuneco_search_records(NULL, 0, records, SAVUNECO_RECORDS), SAVUNECO_CUT_SHORT, 0);
    replies("no file, records, paused", savuneco_paused_records(NULL, 0, 1, records, SAVUNECO_RECORDS), SAVUNECO_CUT_SHORT, 0);
    replies("no records", savuneco_search_records(card, card_len, NULL, 0), SAVUNECO_NO_ROOM, 0);
    replies("no records, paused", savuneco_paused_records(card, card_len, 1, NULL, 0), SAVUNECO_NO_ROOM, 0);
    savuneco_normal form = savuneco_normalize(NULL, 0, NULL, 0);
    is("normal form of nothing", form.number, 0);
    is("normal form of nothing: length", form.length, 0);
    is("no text in no room", savuneco_normalize(TEXT("a"), NULL, 0).number, SAVUNECO_NO_ROOM);
    is("no pattern, no name", savuneco_match_name(NULL, 0, NULL, 0), 1);
    is("no range, no address", savuneco_ip_addr_in_range(NULL, 0, NULL, 0), 0);
    is("no attribute", savuneco_same_attr(NULL, 0, NULL, 0, 1), SAVUNECO_CUT_SHORT);
    is("no RDN", savuneco_same_rdn(NULL, 0, NULL, 0, 1), SAVUNECO_CUT_SHORT);
    is("no name", savuneco_same_dn(NULL, 0, NULL, 0, 1), SAVUNECO_CUT_SHORT);
    is("no RDN to have a name", savuneco_rdn_has_name(NULL, 0, NULL, 0, 1), SAVUNECO_CUT_SHORT);
    is("no RDN under an RDN", savuneco_is_subtree_rdn(NULL, 0, NULL, 0, 1), SAVUNECO_CUT_SHORT);
    is("no name under a name", savuneco_is_subtree_of(NULL, 0, NULL, 0, 1), SAVUNECO_CUT_SHORT);
    is("no key ids", savuneco_check_auth_key_id(1, NULL, 0, 1, NULL, 0, 1, NULL, 0, NULL, 0), 1);
}

int main(void)
{
    memset(sevens, 7, sizeof sevens);
    the_search();
    the_task();
    the_paused_run();
    the_records();
    texts();
    relations();
    key_ids();
    slots();
    null_with_length_0();
    printf("header: %d asked, %d wrong\n", asked, wrong);
    return wrong != 0;
}
