/* Faults of letters, names, rules and the table. */
#include "faults.h"

REAL(set_insert);
REAL(set_contains);
REAL(letters_test);
REAL(names_test);
REAL(rule_parse);
REAL(rule_write);
REAL(variable_rules_test);
REAL(fixed_rules_test);
REAL(rule_read);
REAL(rule_record);
REAL(modification_id);

/* ---- letters ---- */

uint32_t sendumaal_set_insert(uint32_t set, uint8_t letter)
{
    if (planted("letters: insert takes no small letter") && is_small(letter))
        return set;
    if (planted("letters: insert does not take a for A") && letter == 'a')
        return set;
    if (planted("letters: insert puts the byte behind z in as bit 26") && letter == '{')
        return set | 1 << 26;
    return real_set_insert(set, letter);
}

uint32_t sendumaal_set_contains(uint32_t set, uint8_t letter)
{
    uint8_t k = letter - 'A';
    if (planted("letters: the byte behind Z is in a set with bit 26") && k == 26)
        return set >> 26 & 1;
    if (planted("letters: Z is in no set") && k == 25)
        return 0;
    if (planted("letters: a small letter is in no set") && is_small(letter))
        return 0;
    if (planted("letters: z is in no set") && letter == 'z')
        return 0;
    if (planted("letters: the byte behind z is in a set with bit 26") && letter == '{')
        return set >> 26 & 1;
    if (planted("letters: a byte of 128 or more is in a set with its low bits") && letter >= 128)
        return real_set_contains(set, letter - 128);
    if (planted("letters: a byte is in a set by its low five bits") && letter % 32 >= 1 && letter % 32 <= 26)
        return set >> (letter % 32 - 1) & 1;
    if (planted("letters: a byte before A wraps round to a bit") && letter < 'A')
        return set >> k % 32 & 1;
    return real_set_contains(set, letter);
}

uint32_t sendumaal_letters_test(const uint8_t *letters, size_t len, size_t *place)
{
    if (planted("letters: one more than a book has is taken") && len == (1 << 28) + 1)
        len -= 1;
    uint8_t *read = reread(letters, len, planted("letters: a small letter is a bad byte") ? '{' : 0);
    if (planted("letters: a is a bad byte"))
        spoil_letter(read, len, 'a');
    uint32_t number = real_letters_test(read, len, place);
    free(read);
    if (planted("letters: the byte behind z is no bad byte") && number == 2 && letters[*place] == '{')
        return *place = 0, 0;
    if (planted("letters: a bad byte at the last place is missed") && number == 2 && *place == len - 1) {
        *place = 0;
        return 0;
    }
    return number;
}

/* ---- names ---- */

uint32_t sendumaal_names_test(const uint8_t *names, size_t len, size_t *place)
{
    if (planted("names: 65537 are taken") && len / 64 == 65537)
        len -= 64;
    uint8_t *read = kept_bytes(names, len);
    if (planted("names: names that differ in capitals are equal"))
        make_capitals(read, len);
    uint32_t number = real_names_test(read, len, place);
    free(read);
    int taken = planted("names: a repeated name is taken") || planted("fasta: a name that a file has twice is taken");
    if (taken && number == 13)
        return *place = 0, 0;
    return number;
}

/* ---- rules ---- */

/* A text as the fault reads it: by bit 5, which is all that a small letter and its capital differ in. */
static void spoil_text(uint8_t *text, size_t len)
{
    if (len == 0)
        return;
    if (planted("rule texts: { is read as [") && text[0] > 'z')
        text[0] &= ~32;
    if (planted("rule texts: [ is read as {") && text[0] > 'Z' && text[0] < 'a')
        text[0] |= 32;
    if (planted("rule texts: a small letter is outside the alphabet") && is_small(text[len - 1]))
        text[len - 1] = '{';
    if (planted("rule texts: a byte of 225 is read as a") && text[len - 1] == 225)
        text[len - 1] = 'a';
}

uint32_t sendumaal_rule_parse(const uint8_t *text, size_t len, uint32_t alphabet, uint32_t *kind, uint32_t *letter,
                              size_t *place)
{
    uint32_t kept = *letter;
    uint8_t last = len > 0 ? text[len - 1] : 0;
    uint8_t *read = kept_bytes(text, len);
    spoil_text(read, len);
    uint32_t number = real_rule_parse(read, len, alphabet, kind, letter, place);
    free(read);
    if (planted("rule texts: a small letter is handed out") && number == 0 && is_small(last))
        *letter = last;
    if (planted("rule texts: a small letter is not asked of the alphabet") && number == 5 && is_small(last))
        return real_rule_parse(text, len, UINT32_MAX, kind, letter, place);
    if (planted("rule texts: 5 is always at place 0") && number == 5)
        *place = 0;
    if (planted("rule texts: 6 comes before 2") && number == 2 && len > 2)
        return *place = 0, 6;
    if (planted("rule texts: a refusal writes the kind") && number == 6)
        *kind = 0;
    if (planted("rule texts: no letter is not written") && number == 0 && *letter == 0)
        *letter = kept;
    return number;
}

uint32_t sendumaal_rule_write(uint32_t kind, uint32_t letter, uint8_t *out, size_t len, uint32_t *count, size_t *place)
{
    uint8_t kept = len == 1 ? out[0] : 0;
    if (planted("rule texts: a rule on a small letter is written") && letter < 128)
        letter = capital(letter);
    uint32_t number = real_rule_write(kind, letter, out, len, count, place);
    if (planted("rule texts: a byte past the end") && number == 0 && len == 2)
        out[2] = 0;
    if (planted("rule texts: what fits does not stand") && number == 11 && len == 1)
        out[0] = kept;
    if (planted("rule texts: the place stays when accepted") && number == 0)
        *place = 7;
    return number;
}

uint32_t sendumaal_variable_rules_test(const uint8_t *rules, size_t len, size_t *place)
{
    if (planted("rule records: 17 variable ones are taken") && len == 17 * 8)
        return real_variable_rules_test(rules, 16 * 8, place);
    uint8_t *read = reread_rules(rules, len, planted("rule records: a small letter is taken"));
    uint32_t number = real_variable_rules_test(read, len, place);
    free(read);
    return number;
}

uint32_t sendumaal_fixed_rules_test(const uint8_t *rules, size_t len, size_t *place)
{
    if (planted("rule records: the limit of a fixed one is not tested") && len <= 16 * 8)
        return real_variable_rules_test(rules, len, place);
    return real_fixed_rules_test(rules, len, place);
}

uint32_t sendumaal_rule_read(const uint8_t *rules, size_t len, size_t index, uint32_t *kind, uint32_t *letter,
                             uint32_t *id, uint32_t *limit, size_t *place)
{
    if (planted("rule records: the index wraps around"))
        index &= SIZE_MAX >> 3;
    uint8_t *read = reread_rules(rules, len, planted("rule records: a small letter is read as its capital"));
    uint32_t number = real_rule_read(read, len, index, kind, letter, id, limit, place);
    free(read);
    return number;
}

uint32_t sendumaal_rule_record(uint32_t kind, uint32_t letter, uint32_t id, uint32_t limit, uint8_t *out, size_t len,
                               size_t *place)
{
    uint8_t kept = len >= 8 ? out[3] : 0;
    if (planted("rule records: a small letter is written as its capital") && letter < 128)
        letter = capital(letter);
    uint32_t number = real_rule_record(kind, letter, id, limit, out, len, place);
    if (planted("rule records: the zero is not written") && number == 0)
        out[3] = kept;
    return number;
}

/* ---- the table of modifications ---- */

/* The id of the first record with these very bits, or 0. */
static uint32_t same_bits(const uint8_t *table, uint32_t count, uint32_t mass_bits, uint32_t name)
{
    for (uint32_t i = 0; i < count; i++)
        if (word(table + 8 * i) == mass_bits && word(table + 8 * i + 4) == name)
            return i + 1;
    return 0;
}

static int is_nan(uint32_t bits)
{
    return (bits & 0x7fffffff) > 0x7f800000;
}

uint32_t sendumaal_modification_id(uint8_t *table, size_t len, uint32_t count, uint32_t mass_bits, uint32_t name,
                                   uint32_t *id, size_t *place)
{
    if (planted("table: minus zero is not zero") && mass_bits == 0x80000000)
        mass_bits = 0x80000001;
    if (planted("table: name 65536 is name 0") && name == 65536)
        name = 0;
    uint32_t kept = *id, before = len >= 8 ? word(table) : 0;
    uint32_t number = real_modification_id(table, len, count, mass_bits, name, id, place);
    if (planted("table: a not-a-number is found") && number == 0 && is_nan(mass_bits) &&
        same_bits(table, count, mass_bits, name))
        *id = same_bits(table, count, mass_bits, name);
    if (planted("table: the id is one off at 255") && number == 0 && *id == 255)
        *id = 254;
    if (planted("table: full before found") && number == 0 && count == 255) {
        *id = kept;
        return 7;
    }
    if (planted("table: a refusal writes a byte") && number == 7)
        table[0] ^= 1;
    if (planted("table: a find writes its mass") && number == 0 && *id == 1 && before == 0)
        memcpy(table, &mass_bits, 4);
    if (planted("table: a byte past the end") && number == 0 && *id > count && len == 8 * (size_t)*id)
        table[len] = 0;
    if (planted("table: a byte where there is no room") && number == 11 && len > 8 * (size_t)count)
        table[8 * (size_t)count] ^= 1;
    return number;
}
