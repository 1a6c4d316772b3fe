/* Faults of masses, peptides and forms. */
#include "faults.h"

REAL(letters_test);
REAL(variable_rules_test);
REAL(fixed_rules_test);
REAL(base_mass);
REAL(digest_mass);
REAL(peptide_test);
REAL(peptide_reverse);
REAL(forms);

/* ---- masses ---- */

/* Where minus zero is no zero, the masses that are zero are those of which all bits are. */
static void without_minus_zero(float *copy, const float *masses)
{
    for (int i = 0; i < 26; i++)
        copy[i] = sendumaal_mass_bits(masses[i]) == 0x80000000 ? 1e-45f : masses[i];
}

static float mass_of(uint8_t letter, const float *masses)
{
    return masses[capital(letter) - 'A'];
}

static float right_to_left(const uint8_t *letters, size_t len, const float *masses, float water)
{
    float sum = mass_of(letters[len - 1], masses);
    for (size_t i = len - 1; i > 0; i--)
        sum += mass_of(letters[i - 1], masses);
    return sum + water;
}

static float in_double(const uint8_t *letters, size_t len, const float *masses, float water)
{
    double sum = water;
    for (size_t i = 0; i < len; i++)
        sum += mass_of(letters[i], masses);
    return (float)sum;
}

/* A letter that has a mass, or Z. */
static uint8_t with_mass(const float *masses)
{
    uint8_t letter = 'A';
    while (letter < 'Z' && mass_of(letter, masses) == 0)
        letter++;
    return letter;
}

/* Small letters whose capital's mass is zero become a letter that has one, as if that were not seen. */
static void hide_zeros(uint8_t *letters, size_t len, const float *masses, size_t masses_len)
{
    for (size_t i = 0; i < len && masses_len == 26; i++)
        if (is_small(letters[i]) && mass_of(letters[i], masses) == 0)
            letters[i] = with_mass(masses);
}

uint32_t sendumaal_base_mass(const uint8_t *letters, size_t len, const float *masses, size_t masses_len, float water,
                             float *mass, size_t *place)
{
    float copy[26];
    if (planted("masses: minus zero is a mass") && masses_len == 26) {
        without_minus_zero(copy, masses);
        masses = copy;
    }
    uint8_t other = planted("masses: a small letter is refused") ? '{' : 0;
    uint8_t *read = reread(letters, len, planted("masses: a small letter weighs as A") ? 'A' : other);
    if (planted("masses: a is refused"))
        spoil_letter(read, len, 'a');
    if (planted("masses: the zero of a small letter is not seen"))
        hide_zeros(read, len, masses, masses_len);
    uint32_t number = real_base_mass(read, len, masses, masses_len, water, mass, place);
    free(read);
    if (planted("masses: the sum goes from right to left") && number == 0)
        *mass = right_to_left(letters, len, masses, water);
    if (planted("masses: one rounding at the end") && number == 0)
        *mass = in_double(letters, len, masses, water);
    if (planted("masses: 2 comes before 8") && number == 8)
        return real_letters_test(letters, len, place) ? 2 : 8;
    if (planted("masses: an infinity is not a number") && number == 0 && sendumaal_mass_bits(*mass) == 0x7f800000)
        *mass -= *mass;
    return number;
}

/* The position that the range has, whatever the record says. */
static uint32_t position_of(const uint8_t *record, size_t len)
{
    int at_end = word(record + 4) == len;
    return word(record) == 0 ? (at_end ? 2 : 0) : (at_end ? 1 : 3);
}

static void refuse_outside(uint8_t *letters, size_t len, size_t start, size_t end)
{
    for (size_t i = 0; i < len; i++)
        if (is_small(letters[i]) && (i < start || i >= end))
            letters[i] = '{';
}

uint32_t sendumaal_digest_mass(const uint8_t *letters, size_t len, const uint8_t *record, size_t record_len,
                               const float *masses, size_t masses_len, float water, float *mass, uint32_t *position,
                               size_t *place)
{
    uint8_t target[DIGEST] = {0};
    if (planted("digest masses: a decoy is weighed as its target") && record_len == DIGEST && record[11] == 1) {
        memcpy(target, record, DIGEST);
        target[11] = 0;
        record = target;
    }
    if (planted("digest masses: a record of 16 bytes is weighed") && record_len == FORMER) {
        memcpy(target, record, FORMER);
        record = target, record_len = DIGEST;
    }
    uint8_t other = planted("digest masses: a small letter is refused") ? '{' : 0;
    uint8_t *read = reread(letters, len, planted("digest masses: a small letter weighs as A") ? 'A' : other);
    if (planted("digest masses: a small letter outside the range is refused") && record_len == DIGEST)
        refuse_outside(read, len, word(record), word(record + 4));
    if (planted("digest masses: the zero of a small letter is not seen"))
        hide_zeros(read, len, masses, masses_len);
    uint32_t number = real_digest_mass(read, len, record, record_len, masses, masses_len, water, mass, position, place);
    free(read);
    if (planted("digest masses: the position is that of the range") && number == 0)
        *position = position_of(record, len);
    if (planted("digest masses: the place of 2 counts from the range") && number == 2 && *place >= word(record))
        *place -= word(record);
    if (planted("digest masses: 9 comes before 2") && number == 2 && word(record + 4) > len)
        return *place = 0, 9;
    if (planted("digest masses: a number that no digest has is refused") && number == 0 && no_times(record))
        return *place = 0, 9;
    if (planted("digest masses: a refusal writes the position") && number == 9)
        *position = record[10];
    return number;
}

/* ---- peptides ---- */

uint32_t sendumaal_peptide_test(const uint8_t *letters, size_t len, const float *masses, size_t masses_len,
                                uint8_t position, size_t *place)
{
    if (planted("peptides: position 4 is taken") && position == 4)
        position = 3;
    if (planted("peptides: 65 letters are taken") && len == 65)
        len = 64;
    uint8_t *read = reread(letters, len, planted("peptides: a small letter is refused") ? '{' : 0);
    if (planted("peptides: z is refused"))
        spoil_letter(read, len, 'z');
    if (planted("peptides: the zero of a small letter is not seen"))
        hide_zeros(read, len, masses, masses_len);
    uint32_t number = real_peptide_test(read, len, masses, masses_len, position, place);
    free(read);
    return number;
}

uint32_t sendumaal_peptide_reverse(uint8_t *letters, size_t len, uint8_t *ids, size_t ids_len, uint32_t *decoy,
                                   size_t *place)
{
    uint32_t flag = *decoy;
    uint8_t kept[64];
    if (ids_len <= 64)
        copy_bytes(kept, ids, ids_len);
    uint8_t *before = kept_bytes(letters, len);
    uint32_t number = real_peptide_reverse(letters, len, ids, ids_len, decoy, place);
    if (planted("peptides: small letters inside stay small") && number == 0)
        for (size_t i = 1; i + 1 < len; i++)
            letters[i] = before[len - 1 - i];
    if (planted("peptides: small letters at the ends stay small") && number == 0)
        letters[0] = before[0], letters[len - 1] = before[len - 1];
    if (planted("peptides: a refusal makes letters capitals") && number != 0)
        make_capitals(letters, len);
    free(before);
    if (planted("peptides: a decoy stays one") && number == 0 && flag == 1)
        *decoy = 1;
    if (planted("peptides: the ids are not reversed") && number == 0)
        memcpy(ids, kept, ids_len);
    return number;
}

/* ---- forms ---- */

enum { FORM = 66 };

/* Puts the id of each fixed rule on a residue where it hits, whatever stands there. */
static void overwrite(uint8_t *form, const uint8_t *letters, size_t len, const uint8_t *fixed, size_t fixed_len)
{
    for (const uint8_t *rule = fixed; rule < fixed + fixed_len; rule += 8)
        for (size_t i = 0; i < len; i++)
            if (rule[0] == 0 && rule[1] == capital(letters[i]))
                form[2 + i] = rule[2];
}

static int has_letter(const uint8_t *rules, size_t len, uint8_t letter)
{
    for (size_t i = 1; i < len; i += 8)
        if (rules[i] == letter)
            return 1;
    return 0;
}

/* A letter that no rule has, or Z. */
static uint8_t without_rule(const uint8_t *variable, size_t variable_len, const uint8_t *fixed, size_t fixed_len)
{
    uint8_t letter = 'A';
    while (letter < 'Z' && (has_letter(variable, variable_len, letter) || has_letter(fixed, fixed_len, letter)))
        letter++;
    return letter;
}

/* Changes rules that pass their test, as long as they then still do. */
static void spoil_rules(uint8_t *rules, size_t len)
{
    size_t place;
    for (uint8_t *rule = rules; real_variable_rules_test(rules, len, &place) == 0 && rule < rules + len; rule += 8) {
        if (planted("forms: ^M hits the terminal slot") && rule[0] == 1)
            rule[1] = 0;
        if (planted("forms: a protein rule hits every peptide") && rule[0] >= 3)
            rule[0] -= 2;
        if (planted("forms: a limit is one off") && word(rule + 4) < 0xfffffffe)
            put_word(rule + 4, word(rule + 4) + 1);
    }
}

/* What is wrong with the forms of an accepted call; last is what stood at the last one before. */
static void spoil_forms(uint8_t *out, size_t out_len, uint32_t *count, uint32_t cap, const uint8_t *last)
{
    size_t end = FORM * (size_t)*count;
    if (planted("forms: the cap is tested before the bare form") && cap == 0)
        *count = 0, memcpy(out, last, FORM);
    if (planted("forms: the last choice of a size is lost") && cap == SENDUMAAL_NO_CAP && *count > 1)
        *count -= 1, memcpy(out + end - FORM, last, FORM);
    if (planted("forms: a byte past the answer is written") && out_len > end)
        out[end] ^= 1;
    if (planted("forms: a byte past the end is written") && out_len == end)
        out[end] ^= 1;
    if (planted("forms: the cap counts one more") && cap > 1 && *count == cap)
        *count -= 1, memcpy(out + end - FORM, last, FORM);
}

uint32_t sendumaal_forms(const uint8_t *letters, size_t len, const uint8_t *ids, size_t ids_len, uint8_t nterm,
                         uint8_t cterm, uint8_t position, const uint8_t *variable, size_t variable_len,
                         const uint8_t *fixed, size_t fixed_len, uint32_t limit, uint32_t cap, uint8_t *out,
                         size_t out_len, uint32_t *count, size_t *place)
{
    uint8_t *rules = reread_rules(variable, variable_len, planted("forms: a variable rule on a small letter is taken"));
    uint8_t *fixed_rules = reread_rules(fixed, fixed_len, planted("forms: a fixed rule on a small letter is taken"));
    spoil_rules(rules, variable_len);
    variable = rules;
    fixed = fixed_rules;
    uint8_t other = planted("forms: a small letter is refused") ? '{' : 0;
    if (planted("forms: a rule does not hit a small letter"))
        other = without_rule(variable, variable_len, fixed, fixed_len);
    uint8_t *read = reread(letters, len, other);
    if (planted("forms: a is refused"))
        spoil_letter(read, len, 'a');
    if (planted("forms: a combination limit of 9 is taken") && limit == 9)
        limit = 8;
    uint8_t *before = kept_bytes(out, out_len);
    uint32_t number = real_forms(read, len, ids, ids_len, nterm, cterm, position, variable, variable_len, fixed,
                                 fixed_len, limit, cap, out, out_len, count, place);
    if (number == 0) {
        if (planted("forms: a later fixed rule overwrites a variable one"))
            for (uint32_t i = 0; i < *count; i++)
                overwrite(out + FORM * (size_t)i, letters, len, fixed, fixed_len);
        spoil_forms(out, out_len, count, cap, before + FORM * (size_t)(*count - 1));
    }
    if (planted("forms: what fits does not stand") && number == 11)
        copy_bytes(out, before, out_len);
    if (planted("forms: fixed rules are tested before variable ones") && number == 9 && position <= 3 &&
        real_fixed_rules_test(fixed, fixed_len, place) == 0)
        number = real_variable_rules_test(variable, variable_len, place);
    free(before);
    free(read);
    free(rules);
    free(fixed_rules);
    return number;
}
