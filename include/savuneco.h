/* Savuneco for C: whether the certificates in a card file lead from a host's own certificate to a trusted root.

   Every function answers for every input: there is no input that makes it fail, and none after which it may not be called again.
   What each one answers is said here in words, and proved of the code in the words of crates/desk_c/src; docs/CARD-FILE.md has the
   card file byte by byte, the policy and the order of paths.

   Slices. Bytes, and records, are handed over as a pointer and then their number. The caller keeps three things:
   - each pointer is valid for its number of them until the function returns; NULL is allowed where the number is 0, and only there;
   - what is lent to be written (room, records, out) overlaps nothing else that is handed over in that call, and nobody else reads or
     writes it until the function returns; what is only read may overlap other bytes that are only read;
   - nobody writes what is only read until the function returns.

   Flags (normalise, has_..) are 0 for no and anything else for yes.

   The library keeps nothing between calls, so threads may call it at the same time. It asks for no memory but the stack's (where
   that was measured, on x86-64 with the kit before today's, search and paused run took about 5,200 bytes of it with lent bytes, and
   about 8,200 with lent records), and calls nothing but memcpy and memset. The stack must be aligned at a call as the platform's
   calling convention says: on x86-64 to 16 bytes. */
#ifndef SAVUNECO_H
#define SAVUNECO_H

#include <stddef.h>
#include <stdint.h>

#ifdef __cplusplus
extern "C" {
#endif

/* The version of what this header declares. Where it changes,
   - a new PATCH changes no declaration and no answer;
   - a new MINOR adds functions: all that is declared stays as it is and answers as before;
   - a new MAJOR changes a declaration or an answer (at 5.0.0 savuneco_answer grew, from 32 bytes to 40, since a path has more
     places): compile against the new header.
   A caller holds the major number at build time, by #if or _Static_assert on SAVUNECO_VERSION_MAJOR. The shared object's soname
   carries the same number. */
#define SAVUNECO_VERSION "5.0.0"
#define SAVUNECO_VERSION_MAJOR 5
#define SAVUNECO_VERSION_MINOR 0
#define SAVUNECO_VERSION_PATCH 0

/* The replies to a card file. */
enum {
    SAVUNECO_ACCEPTED = 0,        /* a path reaches a root under the policy: path, root and steps say which and when */
    SAVUNECO_REFUSED = 1,         /* no path does; steps is the number of paths */
    SAVUNECO_EXHAUSTED = 2,       /* none of the first paths does, and the budget does not cover all; steps is the budget */
    SAVUNECO_EMPTY_CHAIN = 3,     /* the bundle has no certificate */
    SAVUNECO_UNKNOWN_EDITION = 4, /* the first byte is not 1 */
    SAVUNECO_TOO_LONG = 5,        /* the file has more than 65,535 bytes */
    SAVUNECO_CUT_SHORT = 6,       /* the next needed byte is past the end */
    SAVUNECO_BAD_COUNT = 7,       /* a count or a length outside its range, or not the one number asked */
    SAVUNECO_BAD_VALUE = 8,       /* a purpose, a verdict, a usage, or a flag without the flag it needs */
    SAVUNECO_LEFT_OVER = 9,       /* bytes after the task */
    SAVUNECO_NO_ROOM = 10         /* fewer slots or records were lent than savuneco_slots asks */
};

enum {
    SAVUNECO_PLACES = 24,  /* a path has at most so many places */
    SAVUNECO_SLOT = 25,    /* the bytes of a slot: a length, then 24 places */
    SAVUNECO_ROOM = 6350,  /* the bytes that suffice for every file: 254 slots */
    SAVUNECO_RECORDS = 254 /* the records that suffice for every file: one for each slot */
};

/* What a card file asks. */
typedef struct {
    uint64_t now;         /* the time at which dates are judged, in seconds of the same count as theirs */
    uint64_t budget;      /* the most steps that savuneco_search takes */
    uint64_t host_at;     /* where the host's bytes begin in the file */
    uint64_t host_length; /* how many bytes the host has, 0 to 253; 0 where no host is asked */
    uint8_t number;       /* 0 where the file can be read, else 4 to 9 */
    uint8_t roots;        /* how many roots there are, 0 to 64 */
    uint8_t certificates; /* how many certificates the bundle has, 0 to 24 */
} savuneco_asked;

/* What the file asks, so that a caller sees it before it believes an answer; nothing is searched. The host is the last part of a
   file: it stands at file[host_at] to file[host_at + host_length - 1], which is the file's last byte. With host_length 0 no host is
   asked, and an accepted path then says nothing of a host. A file that can't be read gets the number that savuneco_search replies to
   it, and all else is 0. An empty bundle has its task, with number 0 and no certificates; savuneco_search replies 3 to it. */
savuneco_asked savuneco_task(const uint8_t *file, size_t file_len);

/* The answer to a card file. */
typedef struct {
    uint64_t steps;                /* how many paths were taken; 0 in replies from 3 up */
    uint8_t number;                /* the reply's number, 0 to 10 */
    uint8_t root;                  /* the root's place among the roots; 0 but in reply 0 */
    uint8_t length;                /* how many places the path has; 0 but in reply 0 */
    uint8_t path[SAVUNECO_PLACES]; /* places in the bundle, the host's own certificate first; 0 past the length */
} savuneco_answer;

/* Searches the file's certificates with the file's own budget: it takes at most so many steps, and nothing else bounds its time.
   The first path in the order of paths that reaches a root under the policy is accepted, with its lowest such root. A file that
   can't be read gets 4 to 9, and an empty bundle 3. A file with an empty host asks for none, and no name is then compared with one:
   savuneco_task tells what a file asks. To take fewer steps than the file's own budget allows, call savuneco_paused.

   The room is used as slots of 25 bytes; savuneco_slots says how many are needed, and with fewer whole slots the reply is 10.
   After replies 0, 1 and 2 the needed slots are all zero and every other byte of the room is as it was; after every other reply
   the whole room is as it was. */
savuneco_answer savuneco_search(const uint8_t *file, size_t file_len, uint8_t *room, size_t room_len);

/* The same with budget k in place of the file's own, and after replies 0, 1 and 2 the needed slots hold the paths that wait then:
   those that were not taken, and whose beginning without the last place was; where k is 0, the host's own certificate alone. The
   last one to be taken stands in slot 0, the next one in the highest slot that is used; in a slot the length stands first, then
   the places; unused places and slots are zero. */
savuneco_answer savuneco_paused(const uint8_t *file, size_t file_len, uint64_t k, uint8_t *room, size_t room_len);

/* A slot as a record: its bytes are the slot's, in the same order and with none between them. */
typedef struct {
    uint8_t length;                  /* how many places the path has; 0 where the record is not used */
    uint8_t places[SAVUNECO_PLACES]; /* places in the bundle, the host's own certificate first; 0 past the length */
} savuneco_path;

/* savuneco_search with a record lent for each slot, whatever they hold before: the same answer, and record i is left as slot i would
   be. savuneco_slots says how many records are needed, and with fewer the reply is 10. After replies 0, 1 and 2 the needed records are
   all zero and the others as they were; after every other reply all are as they were. */
savuneco_answer savuneco_search_records(const uint8_t *file, size_t file_len, savuneco_path *records, size_t count);

/* savuneco_paused likewise. After replies 0, 1 and 2 the needed records hold the paths that wait then: the last one to be taken stands
   in record 0, the next one in the highest record that is used; records that are not used are zero. */
savuneco_answer savuneco_paused_records(const uint8_t *file, size_t file_len, uint64_t k, savuneco_path *records, size_t count);

/* The slots, or records, that a bundle of n certificates needs: 0, 1, 1, 2, 4, 7, 11, 16, 22, 29, 37, 46, 56, 67, 79, 92, 106, 121, 137,
   154, 172, 191, 211, 232, 254 for n = 0 to 24, and 0 for every other n, since no file has such a bundle. */
uint8_t savuneco_slots(uint8_t n);

/* The answer of the normaliser. */
typedef struct {
    uint64_t length; /* how many bytes were written */
    uint8_t number;  /* 0, or 10 where there was no room */
} savuneco_normal;

/* Writes the normal form of s to the start of out: A to Z lowered, of the byte 32 leading and trailing ones gone and inner runs
   become one. The bytes of out after it stay as they were. Where out_len is less than len the number is 10, the length 0, and
   nothing is written, however short the normal form is. */
savuneco_normal savuneco_normalize(const uint8_t *s, size_t len, uint8_t *out, size_t out_len);

/* 1 if the name fits the pattern, else 0, byte for byte. A pattern that does not begin with "*." fits only itself; "*." alone fits
   nothing; "*." and a domain fits one label, a dot and the domain, where the label has at least one byte and no dot: the bare domain
   does not fit. No letter is lowered. */
uint8_t savuneco_match_name(const uint8_t *pattern, size_t pattern_len, const uint8_t *name, size_t name_len);

/* 1 if the address lies in the range, else 0. An address of 4 bytes and a range of 8, or of 16 and 32; every other pair of lengths
   is 0. The range is a net and then a mask, of any bytes: the address has the net's bits wherever the mask has a one. */
uint8_t savuneco_ip_addr_in_range(const uint8_t *range, size_t range_len, const uint8_t *addr, size_t addr_len);

/* Attributes, RDNs and names, encoded as in a card file: 1 for yes, 0 for no. Bytes that can't be read get 6 (cut short), 7 (bad
   count or length) or 9 (bytes left over); the first argument is judged to its end before the second is looked at. No bytes at all
   are 6. The flag says whether values are compared in normal form; OIDs are compared byte for byte. */

/* Two attributes: equal OIDs and equal values. */
uint8_t savuneco_same_attr(const uint8_t *a, size_t a_len, const uint8_t *b, size_t b_len, uint8_t normalise);

/* Two RDNs: as many attributes, and each of a has a match in b, wherever it stands (RFC 5280, 7.1). Which is first can decide where
   attributes repeat: (x, x) is the same as (x, y), and (x, y) is not the same as (x, x). */
uint8_t savuneco_same_rdn(const uint8_t *a, size_t a_len, const uint8_t *b, size_t b_len, uint8_t normalise);

/* Two names: as many RDNs, each of a the same as the one at its place in b, in that direction. */
uint8_t savuneco_same_dn(const uint8_t *a, size_t a_len, const uint8_t *b, size_t b_len, uint8_t normalise);

/* An RDN a and an attribute b: some attribute of the RDN is the same as b. */
uint8_t savuneco_rdn_has_name(const uint8_t *a, size_t a_len, const uint8_t *b, size_t b_len, uint8_t normalise);

/* Two RDNs: a has no more attributes than b, and b has each of them. */
uint8_t savuneco_is_subtree_rdn(const uint8_t *a, size_t a_len, const uint8_t *b, size_t b_len, uint8_t normalise);

/* Two names: a has no more RDNs than b, and each is a subtree RDN of the one at its place. */
uint8_t savuneco_is_subtree_of(const uint8_t *a, size_t a_len, const uint8_t *b, size_t b_len, uint8_t normalise);

/* 1 if what a subject says of its issuer's key fits the issuer, else 0: its authority key id equals the issuer's subject key id where
   both are present, and its authority serial equals the issuer's serial where it is present; byte for byte. A part whose flag is 0
   is not read: NULL and 0 will do for it. */
uint8_t savuneco_check_auth_key_id(uint8_t has_akid, const uint8_t *akid, size_t akid_len,
                                   uint8_t has_aserial, const uint8_t *aserial, size_t aserial_len,
                                   uint8_t has_skid, const uint8_t *skid, size_t skid_len,
                                   const uint8_t *serial, size_t serial_len);

#ifdef __cplusplus
}
#endif

#endif
