/* Sendumaal: the proved library, for C and for whatever calls C.
 *
 * Rules that hold for every function here
 * - It takes any numbers and any bytes, and it ends. A slice is a pointer and then its length in elements; an empty
 *   one may have any pointer, also a null one. Slices and results of one call must not overlap: that, and that the
 *   memory is there, is all that a caller owes.
 * - What it returns is 0, or the number of a refusal (SENDUMAAL_...). Functions that cannot refuse say what they
 *   return instead.
 * - *place is written by every call that has it: the refusal's place, or 0 where there is none. A refusal writes
 *   nothing else, neither to results nor to slices. Only "no room" (11) differs: the records that fit stand in order, and
 *   work memory is 0.
 * - A letter is a byte from 'A' to 'Z', or from 'a' to 'z', which reads as its capital: in sets, proteins, books, peptides
 *   and rule texts, and where letters are compared. What is written as letters is capitals. Names and tags are bytes, and
 *   the letter of a rule record is a capital.
 * - A set of letters is a number: bit 0 is A, bit 25 is Z.
 */
#ifndef SENDUMAAL_H
#define SENDUMAAL_H

#include <stddef.h>
#include <stdint.h>
#include <string.h>

/* docs/CHANGES.md says what each version changed. The second number rises where a declaration, an answer or a refusal does. */
#define SENDUMAAL_VERSION_MAJOR 0
#define SENDUMAAL_VERSION_MINOR 7
#define SENDUMAAL_VERSION_PATCH 2

#ifdef __cplusplus
extern "C" {
#endif

/* What a call refuses with, and what its place is then. */
enum {
    SENDUMAAL_ACCEPTED = 0,
    SENDUMAAL_SIZE = 1,        /* a size above its limit, or an empty peptide: 0; of an entry of a file: its '>' */
    SENDUMAAL_LETTER = 2,      /* in letters a byte that is no letter, or where masses are lent a letter of mass zero; in
                                  a rule text a byte of 128 or more: its index */
    SENDUMAAL_ALPHABET = 3,    /* alphabet bits above 25, or a letter of a set outside the alphabet: 0 */
    SENDUMAAL_EMPTY_TEXT = 4,  /* an empty rule text: 0 */
    SENDUMAAL_OUTSIDE = 5,     /* the letter of a rule text is not in the alphabet: its index */
    SENDUMAAL_LONG_TEXT = 6,   /* a rule text that is too long: 0 */
    SENDUMAAL_TABLE_FULL = 7,  /* adding a 256th modification: 0 */
    SENDUMAAL_LENGTH = 8,      /* a length that is not whole records, or not the stated count: 0 */
    SENDUMAAL_FIELD = 9,       /* a field out of range: the record's index */
    SENDUMAAL_WORK = 10,       /* a work slice that is too short: 0 */
    SENDUMAAL_ROOM = 11,       /* no room: 0 */
    SENDUMAAL_NAME = 12,       /* a bad name: its index; of an entry of a file: the byte behind '>'; a bad decoy tag: 0 */
    SENDUMAAL_REPEAT = 13,     /* a name equal to an earlier one: its index */
    SENDUMAAL_STRAY = 14       /* in a file a byte other than a line end before the first '>': its index */
};

#define SENDUMAAL_NO_LETTERS UINT32_C(0)
#define SENDUMAAL_ALL_LETTERS UINT32_C(0x03ffffff)
#define SENDUMAAL_NO_LIMIT UINT32_C(0xffffffff) /* of a rule */
#define SENDUMAAL_NO_NAME UINT32_C(0xffffffff)  /* of a modification */
#define SENDUMAAL_NO_CAP UINT32_C(0xffffffff)   /* of a list of forms */

/* What a record takes. */
#define SENDUMAAL_DIGEST_BYTES 20
#define SENDUMAAL_GROUP_BYTES 28 /* of a group of digests */

/* ---- letters ---- */

/* The set with the letter; a byte that is no letter changes nothing. */
uint32_t sendumaal_set_insert(uint32_t set, uint8_t letter);

/* 1 if the letter is in the set, else 0; a byte that is no letter is in no set. */
uint32_t sendumaal_set_contains(uint32_t set, uint8_t letter);

/* Tests letters alone, of a protein or of a book. Refuses with 1 (more than 268435456), 2 at the first byte that is no letter. */
uint32_t sendumaal_letters_test(const uint8_t *letters, size_t letters_len, size_t *place);

/* ---- names ----
 * A name is 64 bytes: 1 to 64 bytes from 33 to 126, then zeros. A catalogue is names in a row, none twice; the number of a
 * protein is the index of its name. */

/* Tests a catalogue. Call it before anything else: sendumaal_group_proteins and sendumaal_cover see numbers only, so that a
 * protein whose name stands twice passes them as two. Refuses with 1 (more than 65536 names), 8 (not whole names), then, at
 * the lowest place, 12 (no name) or 13 (equal to an earlier one). It takes less than 0.6 MB of stack: 40 KB for 4096 names. */
uint32_t sendumaal_names_test(const uint8_t *names, size_t names_len, size_t *place);

/* ---- sequence files ----
 * A line ends with LF or CR LF, the last one also with the file; a CR that no LF follows is an ordinary byte. A line that
 * starts with '>' opens an entry. Its name is what follows up to the first space, tab or line end; the rest of that line is
 * ignored, whatever it holds. The other lines up to the next that starts with '>', put together, are its letters. Empty
 * lines are skipped. */

/* Reads the entry at a place of a file, as if the file began there: begin with at = 0, and go on with at = *next as long as
 * *found is 1. Refuses with 9 (at is above bytes_len: 0); 14 (a byte other than a line end before the first '>': its index);
 * 1 (more than 65536 letters, bad ones counted too: the index of the entry's '>'); 12 (a name that is not 1 to 64 bytes from
 * 33 to 126: the index of the byte behind '>'); 2 (a byte that is no letter: its index); 11 (name_len is below 64, or
 * letters_len below the number of letters): the name stands if name_len is 64 or more, and so do the letters that fit. All
 * indexes count from the first byte of bytes.
 * Accepted: *found is 1, the first 64 bytes of name are the name as a record of a catalogue, the first *count bytes of
 * letters are the entry's letters as capitals, and *next is the place behind the entry, which is above at. Or only line
 * ends are left: *found is 0, and *next and *count stay. The rest of name and of letters stays. An entry may have no
 * letters. Equal names are no refusal here: sendumaal_names_test tells them. It takes time for the bytes up to *next, and
 * at a refusal for those up to the entry's end. */
uint32_t sendumaal_fasta_entry(const uint8_t *bytes, size_t bytes_len, size_t at,
                               uint8_t *name, size_t name_len, uint8_t *letters, size_t letters_len,
                               size_t *next, uint32_t *count, uint32_t *found, size_t *place);

/* ---- rules ----
 * A kind is 0 for a residue, 1 for ^, 2 for $, 3 for [, 4 for ]. A letter is 'A' to 'Z', or 0 for none, which kind 0
 * does not take. A rule record is 8 bytes: kind, letter, id (not 0), zero, limit as a little-endian number. */

/* Reads a rule text. Refuses with 4, 2, 6, 5, in that order. Accepted: *kind and *letter, a capital, are written. */
uint32_t sendumaal_rule_parse(const uint8_t *text, size_t text_len, uint32_t alphabet,
                              uint32_t *kind, uint32_t *letter, size_t *place);

/* Writes a rule text of one or two bytes. Refuses with 9 (a kind or letter that no rule has), then 11. Accepted:
 * *count is the number of bytes, which stand at the front of out; the rest of out stays. */
uint32_t sendumaal_rule_write(uint32_t kind, uint32_t letter, uint8_t *out, size_t out_len,
                              uint32_t *count, size_t *place);

/* Tests rule records: at most 16 variable ones, at most 32 fixed ones, whose limit is all ones. Refuses with 1, 8, 9. */
uint32_t sendumaal_variable_rules_test(const uint8_t *rules, size_t rules_len, size_t *place);
uint32_t sendumaal_fixed_rules_test(const uint8_t *rules, size_t rules_len, size_t *place);

/* Reads record number index of at most 32. Refuses with 1, 8, then 9 at index, also where there is no such record. */
uint32_t sendumaal_rule_read(const uint8_t *rules, size_t rules_len, size_t index,
                             uint32_t *kind, uint32_t *letter, uint32_t *id, uint32_t *limit, size_t *place);

/* Writes one rule record to the first 8 bytes of out; the rest of out stays. Refuses with 9, then 11. */
uint32_t sendumaal_rule_record(uint32_t kind, uint32_t letter, uint32_t id, uint32_t limit,
                               uint8_t *out, size_t out_len, size_t *place);

/* ---- the table of modifications ----
 * A record is 8 bytes: the bit pattern of the mass, then the name's number, both little-endian. */

/* The id of a modification: the number, counted from 1, of the first of the count records of table that has its mass,
 * as floats compare, and its name; where there is none, the record is appended, and the table has count + 1 records.
 * So the table has the larger of count and *id records afterwards. A name number may be any number.
 * Refuses with 1 (count above 255), 8 (table shorter than count records), 7, 11. Accepted: *id is written; only an
 * append changes table, in its 8 bytes. */
uint32_t sendumaal_modification_id(uint8_t *table, size_t table_len, uint32_t count,
                                   uint32_t mass_bits, uint32_t name, uint32_t *id, size_t *place);

/* The bit pattern of a mass. */
static inline uint32_t sendumaal_mass_bits(float mass)
{
    uint32_t bits;
    memcpy(&bits, &mass, sizeof bits);
    return bits;
}

/* ---- digests ----
 * A digest record is 20 bytes: start u32, end u32, missed u8, semi u8, position u8 (0 N-terminal, 1 C-terminal, 2 the whole
 * protein, 3 internal), decoy u8, protein u32, and at byte 16 times u32, all little-endian. Its letters are those from start up
 * to end of its protein, with decoy 1 all but the first and the last of them reversed. times says how often they occur: of the
 * ranges that the enzyme makes of this protein, kept or not, so many different ones have the letters of this one, itself
 * included. As input it may be any number. Up to version 0.6 a record was 16 bytes, without times. 80 bytes are four records of
 * this version and five of an older one; nothing tells them apart. */

/* Cuts a protein, and writes a record for each digest that is kept to the front of out; the rest of out stays.
 * kind: 0 none, 1 end, 2 set; cleave is the set of kind 2, skip the letters at which no set cuts; side: 0 C, 1 N;
 * semi: 0 or 1. missed is at most 16, minimum, maximum and letters_len at most 65536, protein is any number.
 * Refuses with 1; 3 (alphabet bits above 25, or a member of cleave, for kind 2, or of skip that is not in alphabet); 2; 9
 * (a kind, side or semi that is none: 0); 11: the records that fit stand in order, each with its full times. Accepted: *count
 * is their number.
 * It takes up to 1 MB of stack: 76 KB for 1024 letters, 375 KB for 8192. */
uint32_t sendumaal_digest(const uint8_t *letters, size_t letters_len, uint32_t alphabet,
                          uint32_t kind, uint32_t cleave, uint32_t skip, uint32_t side, uint32_t semi,
                          uint32_t missed, uint32_t minimum, uint32_t maximum, uint32_t protein,
                          uint8_t *out, size_t out_len, uint32_t *count, size_t *place);

/* Reverses letters in place, all but the first and the last, and makes all of them capitals. Refuses with 1 (none, or more
 * than 65536), 2. */
uint32_t sendumaal_letters_reverse(uint8_t *letters, size_t letters_len, size_t *place);

/* Makes a digest record that of its decoy; a decoy's stays, and so does times. Refuses with 8 (not 20 bytes), 9 (a field out of
 * range: 0). */
uint32_t sendumaal_digest_reverse(uint8_t *record, size_t record_len, size_t *place);

/* Writes the letters of a digest as capitals, reversed inside for a decoy, to the front of out; the rest of out stays.
 * letters are those of its protein. Refuses with 1 (letters_len above 65536), 8 (the record is not 20 bytes), 2, 9 (a field out of
 * range, or an end past the letters: 0), 11: the letters that fit stand in order. Accepted: *count is their number. */
uint32_t sendumaal_digest_letters(const uint8_t *letters, size_t letters_len, const uint8_t *record, size_t record_len,
                                  uint8_t *out, size_t out_len, uint32_t *count, size_t *place);

/* ---- peptides ----
 * A peptide passes as its letters, 1 to 64 of them, the ids of its residues, one for each letter, and the ids of its two
 * ends; an id of 0 is none. position is that of a digest record, 0 to 3. masses are those of A to Z; a small
 * letter has its capital's. */

/* Adds water, then the mass of each letter, left to right in float, one rounding for each addition. Refuses with 1 (no
 * letters, or more than 64), 8 (masses are not 26), 2 (no letter, or one whose mass is zero). Accepted: *mass. */
uint32_t sendumaal_base_mass(const uint8_t *letters, size_t letters_len, const float *masses, size_t masses_len,
                             float water, float *mass, size_t *place);

/* The same of a digest's peptide, from the letters of its protein and its record: the letters are not copied out. A decoy's
 * are added in their own order. Refuses with 1 (letters_len above 65536, or, in a record of 20 bytes, a range of more than
 * 64 letters), 8 (the record is not 20 bytes, or masses are not 26), 2 (in all of letters, no letter, and in the range also
 * one whose mass is zero: its index in letters), 9 (a field out of range, or an end past the letters: 0). Accepted:
 * *mass, and *position is the record's. */
uint32_t sendumaal_digest_mass(const uint8_t *letters, size_t letters_len, const uint8_t *record, size_t record_len,
                               const float *masses, size_t masses_len, float water,
                               float *mass, uint32_t *position, size_t *place);

/* Tests letters that are to be a peptide. Refuses with 1, 8, 2 as sendumaal_base_mass, then 9 (position above 3: 0). */
uint32_t sendumaal_peptide_test(const uint8_t *letters, size_t letters_len, const float *masses, size_t masses_len,
                                uint8_t position, size_t *place);

/* Reverses letters and ids in place, all but the first and the last, makes the letters capitals, and flips *decoy between 0
 * and 1. Refuses with 1, 8 (ids are not as many as letters), 2, 9 (*decoy is neither: 0). */
uint32_t sendumaal_peptide_reverse(uint8_t *letters, size_t letters_len, uint8_t *ids, size_t ids_len,
                                   uint32_t *decoy, size_t *place);

/* Lists the forms of a peptide, 66 bytes each: the ids of its N and C terminus, then of 64 residues, places past the
 * length 0. First the peptide as it is, then for n = 1 to limit (at most 8) every choice of n sites of the variable rules
 * in lexicographic order that uses no slot twice and no rule above its own limit, until there are cap forms
 * (SENDUMAAL_NO_CAP: all); the fixed rules then fill what is free in each. They stand at the front of out; the rest of
 * out stays. Refuses with 1 (also more than 16 variable or 32 fixed rules), 8 (ids are not as many as letters, or rules are
 * not whole records), 2, 9 (position: 0; then variable rules, then fixed ones: the record's index), 11: the forms that fit
 * stand in order.
 * Accepted: *count is their number, at most 1048576. */
uint32_t sendumaal_forms(const uint8_t *letters, size_t letters_len, const uint8_t *ids, size_t ids_len,
                         uint8_t nterm, uint8_t cterm, uint8_t position,
                         const uint8_t *variable, size_t variable_len, const uint8_t *fixed, size_t fixed_len,
                         uint32_t limit, uint32_t cap, uint8_t *out, size_t out_len, uint32_t *count, size_t *place);

/* ---- groups of digests ----
 * A book is the letters of all proteins in a row, and their boundaries, one more than names: the first 0, none below the one
 * before or more than 65536 above it, the last letters_len. A digest's range counts from its protein's first letter. A group
 * is 28 bytes: the record of a digest, at byte 20 first u32 and at byte 24 count u32, little-endian, which name a stretch of
 * proteins. */

/* Groups digests that are equal in position, decoy and letters, sorted by these; the record of a group is the first of its
 * digests, with its own times, and its proteins, one for each digest, are sorted by the bytes of their names. names are at
 * most 65536, letters 2^28, digests 1048576. work has at least 4 x names + 6 x digests words, of any content; it is all
 * zero afterwards, but untouched by a refusal other than 11. Refuses with 1; 8 (names or digests are not whole records,
 * bounds are not one more than names); 10; 12 and 13 in names, the lowest place; 9 in bounds; 2; 9 in digests (a field out
 * of range, a protein that is none, an end past its protein); 11 (groups or proteins are too short): the records that fit
 * stand in order, in each. Accepted: *count is the number of groups, and as many proteins stand as digests; the rest of
 * groups and proteins stays. */
uint32_t sendumaal_group_digests(const uint8_t *names, size_t names_len, const uint32_t *bounds, size_t bounds_len,
                                 const uint8_t *letters, size_t letters_len,
                                 const uint8_t *digests, size_t digests_len, uint32_t *work, size_t work_len,
                                 uint8_t *groups, size_t groups_len, uint32_t *proteins, size_t proteins_len,
                                 uint32_t *count, size_t *place);

/* ---- groups of proteins ----
 * A pair is 8 bytes: peptide u32, protein u32, little-endian, each below its count. A flag is a byte: 1 for a decoy peptide,
 * else 0. A member is 12 bytes: group u32, protein u32, little-endian, decoy u8, three zeros. */

/* Groups proteins by the peptides that show them. Peptides go by number, their pairs in order; proteins are numbered as
 * they appear, one from a target and from a decoy peptide as two. A meta-peptide is the sorted list of such numbers, with
 * repeats, of one or more peptides; they are in lexicographic order. Proteins that have the same list of meta-peptides,
 * with repeats, are a group, and groups are ordered by those lists. Edges stand group by group along its list, members
 * group by group by their numbers. pairs are at most 1048576, peptides 262144, proteins 65536. work has at least 8 x
 * proteins + 4 x peptides + 6 x pairs words, of any content; it is all zero afterwards, but untouched by a refusal other
 * than 11. Refuses with 1; 8 (pairs are not whole records, flags are not peptides); 10; 9 in pairs; 9 in flags (the
 * peptide's number); 11 (edges or members are too short): the records that fit stand in order, in each. Accepted: *groups,
 * *metas, *edge_count and *member_count are written; the rest of edges and members stays. sendumaal_cover takes edges,
 * groups and metas as they are here. */
uint32_t sendumaal_group_proteins(const uint8_t *pairs, size_t pairs_len, const uint8_t *flags, size_t flags_len,
                                  uint32_t peptides, uint32_t proteins, uint32_t *work, size_t work_len,
                                  uint8_t *edges, size_t edges_len, uint8_t *members, size_t members_len,
                                  uint32_t *groups, uint32_t *metas, uint32_t *edge_count, uint32_t *member_count,
                                  size_t *place);

/* ---- the cover ----
 * An edge is 8 bytes: group u32, meta-peptide u32, little-endian, each below its count. A mark is a byte, 0 or 1. groups are
 * at most 131072, metas 262144, edges 1048576 a list. */

/* Marks groups until each meta-peptide that has an edge has one to a marked group: those that hold the only remaining edge
 * of a meta-peptide, then, again and again, the group with the most remaining edges, at equality with the most edges, then
 * the one of the highest number. work has at least 4 x groups + 4 x metas + 6 x edges words, of any content; it is all zero
 * afterwards, but untouched by a refusal other than 11. Refuses with 1, 8, 10, 9 (the edge's index), 11: the marks that fit
 * stand in order. Accepted: *count is groups, of which each has its mark at the front of marks; the rest of marks stays. */
uint32_t sendumaal_cover(const uint8_t *edges, size_t edges_len, uint32_t groups, uint32_t metas,
                         uint32_t *work, size_t work_len, uint8_t *marks, size_t marks_len,
                         uint32_t *count, size_t *place);

/* Brings given marks of groups up to date. A group that old and new edges together connect to an edge that stands another
 * number of times in new_edges than in old_edges gets its mark in the cover of new_edges; every other group keeps the given
 * one. work has at least 4 x groups + 4 x metas + 6 x (old + new edges) words and is left as by sendumaal_cover. Refuses with
 * 1, 8 (also where given_len is not groups), 10, 9 in old_edges, 9 in new_edges, 9 in given (neither 0 nor 1: the group's
 * number), 11: the marks that fit stand in order. Accepted: as sendumaal_cover. */
uint32_t sendumaal_update(const uint8_t *old_edges, size_t old_edges_len,
                          const uint8_t *new_edges, size_t new_edges_len, uint32_t groups, uint32_t metas,
                          const uint8_t *given, size_t given_len, uint32_t *work, size_t work_len,
                          uint8_t *marks, size_t marks_len, uint32_t *count, size_t *place);

/* ---- report lines ---- */

/* Writes the report line of a peptide that has the given proteins and decoy flag: of the marked groups that hold one of its
 * proteins with that flag, each once, the names of all members, sorted and joined by '/', groups sorted and joined by ';'.
 * A member that is a decoy has the tag before its name where generated is 1. names are a catalogue as for groups of
 * digests; members may stand in any order; marks_len is the number of groups. names are at most 65536, members and marks
 * 131072, proteins 1048576; the line has no limit but line_len. Refuses with 1; 8 (names or members are not whole records);
 * 12 and 13 in names, the lowest place; 9 in members (a group without a mark, a protein without a name, a flag above 1, no
 * three zeros); 9 in marks; 9 in proteins (no name); 12 (the tag is longer than 16 bytes, or has one that is not 33 to 126:
 * 0); 9 (decoy or generated is neither 0 nor 1: 0); 11: the bytes that fit stand in order. Accepted: *bytes is the length
 * of the line, which stands at the front of line; *groups is the number of groups that the line names, whatever the names
 * contain, and 0 where the line is empty; the rest of line stays. It takes up to 1.6 MB of stack: 20 KB for at most 1024
 * names, members and marks each, 200 KB for 16384, 800 KB for 65536. */
uint32_t sendumaal_report_line(const uint8_t *names, size_t names_len, const uint8_t *members, size_t members_len,
                               const uint8_t *marks, size_t marks_len, const uint32_t *proteins, size_t proteins_len,
                               uint32_t decoy, const uint8_t *tag, size_t tag_len, uint32_t generated,
                               uint8_t *line, size_t line_len, uint32_t *bytes, uint32_t *groups, size_t *place);

#ifdef __cplusplus
}
#endif
#endif
