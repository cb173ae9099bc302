/* check CARD: asks the library about a card file, and prints what the file asks where it can be read, the reply in words, the paths
   that wait after the first step where there is a search, and whether one name written in two ways is the same name. It lends the search
   bytes and the paused run records; check.rs lends both bytes. */
#include <inttypes.h>
#include <stdio.h>

#include "savuneco.h"

/* One byte more than a card file may have, so that a longer file is told from the longest. */
static uint8_t file[65536];

static const char *const replies[] = {
    [SAVUNECO_ACCEPTED] = "accepted",
    [SAVUNECO_REFUSED] = "refused",
    [SAVUNECO_EXHAUSTED] = "exhausted",
    [SAVUNECO_EMPTY_CHAIN] = "empty chain",
    [SAVUNECO_UNKNOWN_EDITION] = "unknown edition",
    [SAVUNECO_TOO_LONG] = "too long",
    [SAVUNECO_CUT_SHORT] = "cut short",
    [SAVUNECO_BAD_COUNT] = "bad count or length",
    [SAVUNECO_BAD_VALUE] = "bad value",
    [SAVUNECO_LEFT_OVER] = "bytes left over",
    [SAVUNECO_NO_ROOM] = "no room",
};

/* An answer is believed only for what was asked: a caller holds these to what it wants to know. */
static void print_task(savuneco_asked asked)
{
    printf("asked: now %" PRIu64 ", budget %" PRIu64 ", roots %d, certificates %d, host \"", asked.now, asked.budget, asked.roots,
           asked.certificates);
    fwrite(file + asked.host_at, 1, asked.host_length, stdout);
    printf("\"\n");
}

static void print_path(const uint8_t *places, uint8_t length)
{
    for (uint8_t i = 0; i < length; i++)
        printf(" %d", places[i]);
}

static void print_answer(savuneco_answer answer)
{
    printf("%s", replies[answer.number]);
    if (answer.number <= SAVUNECO_EXHAUSTED)
        printf(", steps %" PRIu64, answer.steps);
    if (answer.number == SAVUNECO_ACCEPTED) {
        printf(", root %d, path", answer.root);
        print_path(answer.path, answer.length);
    }
    printf("\n");
}

/* A record that is not used has length 0. */
static void print_waiting(const savuneco_path *records)
{
    printf("after the first step these paths wait, the next one last:");
    for (size_t i = 0; i < SAVUNECO_RECORDS && records[i].length != 0; i++) {
        printf(" [");
        print_path(records[i].places, records[i].length);
        printf(" ]");
    }
    printf("\n");
}

static void print_names(void)
{
    /* one RDN of one attribute: OID 55 04 03, then the value */
    static const uint8_t a[] = "\x01\x01\x03\x55\x04\x03\x0C" "Bembo  Roman";
    static const uint8_t b[] = "\x01\x01\x03\x55\x04\x03\x0B" "bembo roman";
    size_t a_len = sizeof a - 1, b_len = sizeof b - 1;
    printf("Bembo  Roman and bembo roman: %s in normal form, %s as they stand\n",
           savuneco_same_dn(a, a_len, b, b_len, 1) == 1 ? "the same" : "two names",
           savuneco_same_dn(a, a_len, b, b_len, 0) == 1 ? "the same" : "two names");
}

int main(int count, char **words)
{
    uint8_t room[SAVUNECO_ROOM];
    savuneco_path records[SAVUNECO_RECORDS] = { 0 };
    FILE *card = count == 2 ? fopen(words[1], "rb") : NULL;
    if (card == NULL) {
        fprintf(stderr, "check: give a card file that can be read\n");
        return 2;
    }
    size_t len = fread(file, 1, sizeof file, card);
    if (ferror(card)) {
        fprintf(stderr, "check: %s can't be read\n", words[1]);
        return 2;
    }
    fclose(card);
    savuneco_asked asked = savuneco_task(file, len);
    if (asked.number == 0)
        print_task(asked);
    print_answer(savuneco_search(file, len, room, sizeof room));
    if (savuneco_paused_records(file, len, 1, records, SAVUNECO_RECORDS).number <= SAVUNECO_EXHAUSTED)
        print_waiting(records);
    print_names();
    return 0;
}
