/* Faults of digests and of reversal. */
#include "faults.h"

REAL(letters_test);
REAL(digest);
REAL(letters_reverse);
REAL(digest_reverse);
REAL(digest_letters);

/* ---- digests ---- */

/* Moves a record to the last place of the protein that has its letters, as if the later of two equal ones were kept. */
static void move_to_last(uint8_t *record, const uint8_t *letters, size_t len)
{
    size_t start = word(record), size = word(record + 4) - start, last = len - size;
    while (capitals_order(letters + start, letters + last, size) != 0)
        last--;
    put_word(record, last);
    put_word(record + 4, last + size);
}

/* Moves a record with small letters to the first place of the protein that has its letters as capitals. */
static void move_to_capitals(uint8_t *record, const uint8_t *letters, size_t len)
{
    size_t start = word(record), size = word(record + 4) - start;
    if (first_small(letters + start, size) == size)
        return;
    for (size_t at = 0; at + size <= len; at++)
        if (first_small(letters + at, size) == size && capitals_order(letters + start, letters + at, size) == 0) {
            put_word(record, at);
            put_word(record + 4, at + size);
            return;
        }
}

/* What a protein is cut with. */
struct sets {
    uint32_t alphabet, cleave, skip;
};

/* The letters of a set, and another one if it has the first. */
static uint32_t follow(uint32_t set, uint32_t letter, uint32_t other)
{
    return set & letter ? set | other : set;
}

/* Spells small letters with capitals that neither the protein nor a set has, as far as there are such; these are in the sets
 * of which the small ones are members. */
static void tell_apart(uint8_t *letters, size_t len, struct sets *sets)
{
    uint32_t used = sets->cleave | sets->skip;
    for (size_t i = 0; i < len; i++)
        if (letters[i] >= 'A' && letters[i] <= 'Z')
            used |= 1u << (letters[i] - 'A');
    for (size_t i = 0; i < len; i++) {
        uint32_t other = ~used & (used + 1) & SENDUMAAL_ALL_LETTERS;
        uint8_t small = letters[i];
        if (!is_small(small) || !other)
            continue;
        used |= other;
        for (size_t j = i; j < len; j++)
            if (letters[j] == small)
                letters[j] = 'A' + __builtin_ctz(other);
        sets->alphabet = follow(sets->alphabet, 1u << (small - 'a'), other);
        if (!planted("digest: a small letter does not cut"))
            sets->cleave = follow(sets->cleave, 1u << (small - 'a'), other);
        if (!planted("digest: a small letter does not forbid a cut"))
            sets->skip = follow(sets->skip, 1u << (small - 'a'), other);
    }
}

/* Whether a fault tells a small letter from its capital in a protein. */
static int tells_apart(const uint8_t *letters, size_t len)
{
    int only_last = first_small(letters, len) + 1 == len;
    return planted("digest: a small letter does not cut") || planted("digest: a small letter does not forbid a cut") ||
           planted("digest: peptides that differ in capitals are both kept") ||
           (planted("digest: long proteins are compared with their small letters") && len > 1024) ||
           (planted("digest: the longest proteins are compared with their small letters") && len == 65536) ||
           (planted("digest: a small letter that stands last is not seen") && only_last) ||
           (planted("digest: a small letter that stands last in a long protein is not seen") && only_last && len > 1024);
}

static int has_bad_letter(const uint8_t *letters, size_t len)
{
    size_t place;
    return real_letters_test(letters, len, &place) != 0;
}

/* What is wrong with the records of an accepted call. */
static void spoil_records(uint8_t *out, size_t out_len, uint32_t count, const uint8_t *letters, size_t len)
{
    uint8_t *last = out + DIGEST * (count - 1);
    if (planted("digest: the later of two equal peptides is kept"))
        move_to_last(last, letters, len);
    if (planted("digest: of equal peptides the one in capitals is kept") ||
        (planted("digest: of equal peptides of a long protein the one in capitals is kept") && len > 1024))
        for (uint32_t i = 0; i < count && i < 50; i++)
            move_to_capitals(out + DIGEST * i, letters, len);
    if (planted("digest: the semi flag is lost"))
        last[9] = 0;
    if (planted("digest: the whole protein is called its front") && out[10] == 2)
        out[10] = 0;
    if (planted("digest: a byte past the answer is written") && out_len > DIGEST * (size_t)count)
        out[DIGEST * count] ^= 1;
    if (planted("digest: the protein's number is cut to 16 bits"))
        last[14] = last[15] = 0;
}

/* What a call asks of the counting. */
struct counted {
    const uint8_t *letters;
    size_t len;
    uint32_t kind, cleave, side, semi, missed;
    int full;
};

static int in_set(uint32_t set, uint8_t letter)
{
    return set >> (capital(letter) - 'A') & 1;
}

/* Whether a window that ends in the empty site behind the last letter has the range of a record, too. */
static int ends_empty(const struct counted *call, const uint8_t *record)
{
    int cuts = call->kind == 2 && call->side == 0 && in_set(call->cleave, call->letters[call->len - 1]);
    return (cuts || call->kind == 1) && record[8] < call->missed && !record[9] && word(record + 4) == call->len;
}

/* Whether the letters of a record stand last in the protein, and the record elsewhere. */
static int stands_last(const struct counted *call, const uint8_t *record)
{
    size_t start = word(record), size = word(record + 4) - start, last = call->len - size;
    return last != start && capitals_order(call->letters + start, call->letters + last, size) == 0;
}

/* The number of one record as the fault has it. */
static uint32_t spoilt_times(const struct counted *call, const uint8_t *record)
{
    uint32_t times = times_of(record), start = word(record), size = word(record + 4) - start;
    int is_none = call->kind == 0 || (call->kind == 2 && call->cleave == 0);
    int is_semi = call->kind == 2 && call->cleave && call->semi, of_one = call->missed > 0 && !record[8];
    if (planted("digest: a new record counts 0"))
        return times - 1;
    if (planted("digest: a count is one short") && times > 1)
        return times - 1;
    if (planted("digest: the count is always 1"))
        return 1;
    if (planted("digest: a count is cut to 8 bits"))
        return times & 255;
    if (planted("digest: a count is cut to 16 bits"))
        return times & 65535;
    if (planted("digest: an empty site is counted") && call->kind == 2)
        return times + ends_empty(call, record);
    if (planted("digest: the empty site of end is counted") && call->kind == 1)
        return times + ends_empty(call, record);
    if (planted("digest: a site is counted again as a part of a window") && is_semi && of_one && !record[9])
        return times + (start + size < call->len);
    if (planted("digest: a part is counted again as that of a window") && is_semi && of_one && record[9])
        return times + (start > 0 && start + size < call->len);
    if (planted("digest: the last start of none is not counted") && is_none)
        return times - stands_last(call, record);
    if (planted("digest: parts are not counted") && is_semi && !record[9] && times > 1)
        return 1;
    if (planted("digest: letters are counted apart from their capitals") && first_small(call->letters + start, size) < size)
        return 1;
    return times;
}

/* What is wrong with the numbers of the records that stand. */
static void spoil_counts(const struct counted *call, uint8_t *out, size_t count)
{
    for (size_t i = 0; i < count; i++)
        put_times(out + DIGEST * i, spoilt_times(call, out + DIGEST * i));
    for (size_t i = count; i-- > 1 && planted("digest: the count is added to the record behind");) {
        uint8_t *record = out + DIGEST * i;
        put_times(record, times_of(record - DIGEST));
    }
    if (planted("digest: the count is added to the record behind"))
        put_times(out, 1);
    if (planted("digest: counting ends where the buffer is full") && call->full)
        put_times(out + DIGEST * (count - 1), 1);
    if (planted("digest: the first record is not counted on where the buffer is full") && call->full)
        put_times(out, 1);
}

/* In a frame of its own: in the caller's it would be taken where no fault is planted, too. */
static __attribute__((noinline)) void take_stack(void)
{
    volatile uint8_t more[2 << 20];
    for (size_t i = 0; i < sizeof more; i += 4096)
        more[i] = 1;
}

static size_t most_records(size_t out_len)
{
    return out_len / DIGEST < 1048576 ? out_len / DIGEST : 1048576;
}

uint32_t sendumaal_digest(const uint8_t *letters, size_t len, uint32_t alphabet, uint32_t kind, uint32_t cleave,
                          uint32_t skip, uint32_t side, uint32_t semi, uint32_t missed, uint32_t minimum,
                          uint32_t maximum, uint32_t protein, uint8_t *out, size_t out_len, uint32_t *count,
                          size_t *place)
{
    /* Asked at the letter that cuts, the skip set takes its letters out of the cleave set of the C side. */
    if (planted("digest: the skip letter is asked one place before the cut") && kind == 2 && side == 0 &&
        !(skip & ~alphabet) && (cleave & ~skip))
        cleave &= ~skip, skip = 0;
    if (planted("digest: one window size is short") && missed > 0 && missed <= 16)
        missed--;
    if (planted("digest: the skip set of end is not tested") && kind == 1)
        skip = 0;
    if (planted("digest: missed is cut to 8 bits"))
        missed &= 255;
    if (planted("stack: digest takes 2 MB more"))
        take_stack();
    if (planted("stack: digest takes 2 MB more for small letters") && first_small(letters, len) < len)
        take_stack();
    struct sets sets = {alphabet, cleave, skip};
    uint8_t *read = reread(letters, len, planted("digest: a small letter is refused") ? '{' : 0);
    if (planted("digest: z is refused"))
        spoil_letter(read, len, 'z');
    if (tells_apart(letters, len))
        tell_apart(read, len, &sets);
    uint8_t first[DIGEST] = {0};
    if (out_len >= DIGEST)
        memcpy(first, out, DIGEST);
    uint32_t before = *count;
    uint32_t number = real_digest(read, len, sets.alphabet, kind, sets.cleave, sets.skip, side, semi, missed, minimum,
                                  maximum, protein, out, out_len, count, place);
    free(read);
    if (number == 0 && *count > 0)
        spoil_records(out, out_len, *count, letters, len);
    struct counted call = {letters, len, kind, cleave, side, semi, missed, number == 11};
    size_t standing = number == 0 ? *count : number == 11 ? most_records(out_len) : 0;
    if (standing > 0)
        spoil_counts(&call, out, standing);
    if (planted("digest: the first count is not written") && standing > 0)
        put_times(out, times_of(first));
    if (planted("digest: 11 leaves the first record unwritten") && number == 11 && out_len >= DIGEST)
        memcpy(out, first, DIGEST);
    if (planted("digest: 11 where the room is exact") && number == 0 && *count > 0 && out_len == DIGEST * (size_t)*count)
        return *count = before, 11;
    if (planted("digest: the byte behind z is read as Z") && number == 2 && letters[*place] == '{')
        return *place = 0, *count = 0, 0;
    if (planted("digest: the place of 2 is one off") && number == 2)
        *place += 1;
    if (planted("digest: 2 comes before 3") && number == 3 && has_bad_letter(letters, len))
        return real_letters_test(letters, len, place);
    return number;
}

/* ---- reversal ---- */

/* The place of a letter of a stretch in which all but the first and the last are reversed. */
static size_t reversed(size_t i, size_t size)
{
    return i > 0 && i + 1 < size ? size - 1 - i : i;
}

/* What is wrong with letters that are reversed. */
static void spoil_reversed(uint8_t *letters, const uint8_t *before, size_t len)
{
    for (size_t i = 0; i < len; i++) {
        size_t from = reversed(i, len);
        if (planted("reversal: small letters stay small") ||
            (planted("reversal: small letters at the ends stay small") && (i == 0 || i + 1 == len)) ||
            (planted("reversal: a small letter in the middle stays small") && from == i && i > 0 && i + 1 < len))
            letters[i] = before[from];
    }
}

uint32_t sendumaal_letters_reverse(uint8_t *letters, size_t len, size_t *place)
{
    uint8_t *before = kept_bytes(letters, len);
    size_t small = first_small(letters, len);
    uint32_t number = real_letters_reverse(letters, len, place);
    if (number == 0)
        spoil_reversed(letters, before, len);
    if (planted("reversal: a small letter is refused") && number == 0 && small < len) {
        memcpy(letters, before, len);
        number = 2, *place = small;
    }
    free(before);
    if (planted("reversal: a refusal makes letters capitals") && number == 2)
        make_capitals(letters, len);
    if (planted("reversal: the last letter moves") && number == 0 && len >= 2) {
        uint8_t last = letters[len - 1];
        letters[len - 1] = letters[len - 2];
        letters[len - 2] = last;
    }
    if (planted("reversal: nothing is no refusal") && len == 0)
        return 0;
    return number;
}

uint32_t sendumaal_digest_reverse(uint8_t *record, size_t len, size_t *place)
{
    uint8_t wider[DIGEST] = {0};
    if (planted("reversal: a record of 16 bytes is taken") && len == FORMER) {
        memcpy(wider, record, len);
        uint32_t number = real_digest_reverse(wider, DIGEST, place);
        return memcpy(record, wider, len), number;
    }
    int decoy = len == DIGEST && record[11] == 1;
    uint32_t number = real_digest_reverse(record, len, place);
    if (planted("reversal: a record's number is cleared") && number == 0)
        put_times(record, 0);
    if (planted("reversal: a number that no digest has is refused") && number == 0 && no_times(record)) {
        record[11] = decoy;
        return 9;
    }
    if (planted("reversal: a decoy is flipped back") && number == 0 && decoy)
        record[11] = 0;
    if (planted("reversal: a refusal sets the flag") && number == 9)
        record[11] = 1;
    return number;
}

/* Writes the letters of a record as they stand in its protein. */
static void put_letters(uint8_t *out, size_t count, const uint8_t *letters, const uint8_t *record)
{
    size_t start = word(record), size = word(record + 4) - start;
    for (size_t i = 0; i < count; i++)
        out[i] = letters[start + (record[11] ? reversed(i, size) : i)];
}

uint32_t sendumaal_digest_letters(const uint8_t *letters, size_t len, const uint8_t *record, size_t record_len,
                                  uint8_t *out, size_t out_len, uint32_t *count, size_t *place)
{
    uint8_t target[DIGEST] = {0};
    if (planted("reversal: a decoy's letters are its target's") && record_len == DIGEST && record[11] == 1) {
        memcpy(target, record, DIGEST);
        target[11] = 0;
        record = target;
    }
    if (planted("reversal: letters of a record of 16 bytes are written") && record_len == FORMER) {
        memcpy(target, record, FORMER);
        return real_digest_letters(letters, len, target, DIGEST, out, out_len, count, place);
    }
    uint32_t number = real_digest_letters(letters, len, record, record_len, out, out_len, count, place);
    if (planted("reversal: a target's small letters stay small") && number == 0 && record[11] == 0)
        put_letters(out, *count, letters, record);
    if (planted("reversal: a decoy's small letters stay small") && number == 0 && record[11] == 1)
        put_letters(out, *count, letters, record);
    if (planted("reversal: small letters stay small where there is no room") && number == 11)
        put_letters(out, out_len, letters, record);
    if (planted("reversal: an end past the letters is the last") && number == 9 && record_len == DIGEST &&
        word(record) < len && word(record + 4) > len) {
        memcpy(target, record, DIGEST);
        put_word(target + 4, len);
        return real_digest_letters(letters, len, target, DIGEST, out, out_len, count, place);
    }
    return number;
}
