/* Faults of the reader of sequence files. */
#include "faults.h"

REAL(fasta_entry);

enum { NAME = 64, MOST = 65536 };

/* What a call is lent. The bytes are a copy, in which a fault may put others. */
struct given {
    uint8_t *bytes, *name, *letters;
    size_t len, at, name_len, letters_len;
};

/* What a call answers. */
struct answer {
    size_t *next, *place;
    uint32_t *count, *found;
};

static uint32_t call_real(const struct given *given, const struct answer *answer)
{
    return real_fasta_entry(given->bytes, given->len, given->at, given->name, given->name_len, given->letters,
                            given->letters_len, answer->next, answer->count, answer->found, answer->place);
}

/* ---- the parts of an entry ---- */

static int is_end(const struct given *given, size_t i)
{
    uint8_t byte = given->bytes[i];
    return byte == '\n' || (byte == '\r' && i + 1 < given->len && given->bytes[i + 1] == '\n');
}

/* Where the first byte stands that belongs to no line end, or the length, also for a place above it. */
static size_t first_byte(const struct given *given)
{
    size_t i = given->at;
    while (i < given->len && is_end(given, i))
        i++;
    return i < given->len ? i : given->len;
}

static size_t line_end(const struct given *given, size_t i)
{
    while (i < given->len && !is_end(given, i))
        i++;
    return i;
}

static size_t name_end(const struct given *given, size_t i)
{
    while (i < given->len && !is_end(given, i) && given->bytes[i] != ' ' && given->bytes[i] != '\t')
        i++;
    return i;
}

/* Where the next line stands that starts with `>`, or the length. */
static size_t next_entry(const struct given *given, size_t i)
{
    while (++i < given->len)
        if (given->bytes[i] == '>' && given->bytes[i - 1] == '\n')
            break;
    return i < given->len ? i : given->len;
}

static int is_letter(uint8_t byte)
{
    return capital(byte) >= 'A' && capital(byte) <= 'Z';
}

/* Where the first byte of the letters stands that is none, or the length. */
static size_t bad_letter(const struct given *given, size_t start)
{
    size_t end = next_entry(given, start);
    for (size_t i = line_end(given, start); i < end; i++)
        if (!is_end(given, i) && !is_letter(given->bytes[i]))
            return i;
    return given->len;
}

/* The place of the last one. */
static size_t last_bad_letter(const struct given *given, size_t start)
{
    size_t i = next_entry(given, start) - 1;
    while (is_end(given, i) || is_letter(given->bytes[i]))
        i--;
    return i;
}

/* The letters of an entry, with its line ends if that is wanted, without its bad bytes if that is. */
static size_t letters_of(const struct given *given, size_t start, int with_ends, int without_bad)
{
    size_t end = next_entry(given, start), count = 0;
    for (size_t i = line_end(given, start); i < end; i++)
        count += is_end(given, i) ? with_ends : !without_bad || is_letter(given->bytes[i]);
    return count;
}

static int is_visible(uint8_t byte)
{
    return byte > 32 && byte < 127;
}

static int is_name(const struct given *given, size_t start)
{
    size_t end = name_end(given, start + 1), len = end - start - 1;
    for (size_t i = start + 1; i < end; i++)
        if (!is_visible(given->bytes[i]))
            return 0;
    return len >= 1 && len <= NAME;
}

/* ---- what the fault reads in the place of the file ---- */

/* Puts another byte where a test of a place says so. */
static void replace(struct given *given, size_t from, size_t to, int (*test)(const struct given *, size_t), uint8_t other)
{
    for (size_t i = from; i < to; i++)
        if (test(given, i))
            given->bytes[i] = other;
}

static void replace_byte(struct given *given, size_t from, size_t to, uint8_t byte, uint8_t other)
{
    for (size_t i = from; i < to; i++)
        if (given->bytes[i] == byte)
            given->bytes[i] = other;
}

static int is_last(const struct given *given, size_t i)
{
    return i + 1 == given->len;
}

static int is_lone_cr(const struct given *given, size_t i)
{
    return given->bytes[i] == '\r' && !is_end(given, i);
}

static int is_last_cr(const struct given *given, size_t i)
{
    return given->bytes[i] == '\r' && is_last(given, i);
}

static int is_cr_before_cr(const struct given *given, size_t i)
{
    return given->bytes[i] == '\r' && !is_last(given, i) && given->bytes[i + 1] == '\r';
}

static int is_end_cr(const struct given *given, size_t i)
{
    return given->bytes[i] == '\r' && is_end(given, i);
}

static int is_blank_line(const struct given *given, size_t i)
{
    return given->bytes[i] == ' ' && i > 0 && given->bytes[i - 1] == '\n' && (is_last(given, i) || is_end(given, i + 1));
}

static int is_blank(const struct given *given, size_t i)
{
    return given->bytes[i] == ' ' || given->bytes[i] == '\t';
}

static int is_last_blank(const struct given *given, size_t i)
{
    return is_blank(given, i) && (is_last(given, i) || is_end(given, i + 1));
}

static int is_high(const struct given *given, size_t i)
{
    return given->bytes[i] >= 128;
}

/* Other line ends. */
static void spoil_ends(struct given *given)
{
    if (planted("fasta: a lone CR ends a line"))
        replace(given, 0, given->len, is_lone_cr, '\n');
    if (planted("fasta: a CR at the file's end ends a line"))
        replace(given, 0, given->len, is_last_cr, '\n');
    if (planted("fasta: all CRs before an LF belong to the line's end"))
        replace(given, 0, given->len, is_cr_before_cr, '\n');
    if (planted("fasta: the CR before an LF is an ordinary byte"))
        replace(given, 0, given->len, is_end_cr, 1);
    if (planted("fasta: a line of one space is empty"))
        replace(given, 0, given->len, is_blank_line, '\n');
}

/* Another name, which ends elsewhere. */
static void spoil_name(struct given *given, size_t start)
{
    size_t front = start + 1, end = name_end(given, front), line = line_end(given, start);
    if (planted("fasta: a tab does not end a name"))
        replace_byte(given, end, line, '\t', 1);
    if (planted("fasta: a space does not end a name"))
        replace_byte(given, end, line, ' ', '_');
    if (planted("fasta: a name is cut at 64 bytes") && end - front > NAME)
        given->bytes[front + NAME] = ' ';
    if (planted("fasta: a name of 64 bytes is refused") && end - front == NAME)
        given->bytes[front] = 1;
    if (planted("fasta: a name may hold a byte of 127"))
        replace_byte(given, front, end, 127, 'x');
    if (planted("fasta: a name may hold bytes of 128 and more"))
        replace(given, front, end, is_high, 'x');
    if (planted("fasta: `>` is no byte of a name"))
        replace_byte(given, front, end, '>', 1);
    if (planted("fasta: a name is written with capitals"))
        make_capitals(given->bytes + front, end - front);
}

/* Other letters. */
static void spoil_letters(struct given *given, size_t start)
{
    size_t front = line_end(given, start), end = next_entry(given, start);
    if (planted("fasta: a blank at a line's end is trimmed"))
        replace(given, front, end, is_last_blank, '\n');
    if (planted("fasta: a blank among letters is skipped"))
        replace(given, front, end, is_blank, '\n');
    if (planted("fasta: { is a letter"))
        replace_byte(given, front, end, '{', 'Z');
    if (planted("fasta: a byte of 193 is a letter"))
        replace_byte(given, front, end, 193, 'A');
    if (planted("fasta: z is no letter"))
        replace_byte(given, front, end, 'z', '{');
}

/* The first `>` of a part of an entry, or the entry's end. */
static size_t next_mark(const struct given *given, size_t from, size_t to, size_t end)
{
    while (from < to && given->bytes[from] != '>')
        from++;
    return from < to ? from : end;
}

/* The first `>` behind a byte of which a test is true, or the entry's end. */
static size_t mark_behind(const struct given *given, size_t from, size_t end, int (*test)(const struct given *, size_t))
{
    while (from < end && !(given->bytes[from] == '>' && test(given, from - 1)))
        from++;
    return from;
}

static int is_first_space(const struct given *given, size_t i)
{
    return given->bytes[i] == ' ' && i > 0 && given->bytes[i - 1] == '\n';
}

/* Another end of the entry, which is the file's then. */
static void spoil_entry_end(struct given *given, size_t start)
{
    size_t end = next_entry(given, start), cut = end;
    size_t name = name_end(given, start + 1), line = line_end(given, start);
    if (planted("fasta: `>` among letters opens an entry"))
        cut = next_mark(given, line, end, end);
    if (planted("fasta: `>` behind a name opens an entry"))
        cut = next_mark(given, name, line, end);
    if (planted("fasta: `>` in a name opens an entry"))
        cut = next_mark(given, start + 1, name, end);
    if (planted("fasta: `>` behind a lone CR opens an entry"))
        cut = mark_behind(given, start + 1, end, is_lone_cr);
    if (planted("fasta: `>` behind a space at a line's start opens an entry"))
        cut = mark_behind(given, start + 1, end, is_first_space);
    if (cut < end)
        given->len = cut;
    if (planted("fasta: `>` behind CR LF opens no entry") && end < given->len && end > 1 && is_end_cr(given, end - 2))
        given->bytes[end] = 'A';
}

/* Another start of the entry. */
static void spoil_start(struct given *given)
{
    size_t start = first_byte(given), end = next_entry(given, start);
    if (start >= given->len)
        return;
    if (planted("fasta: text before the first `>` is skipped") && given->bytes[start] != '>')
        given->at = end;
    if (planted("fasta: blanks before `>` are skipped"))
        for (given->at = start; given->at < given->len && is_blank(given, given->at);)
            given->at++;
    if (planted("fasta: a place within a line opens no entry") && start == given->at && start > 0 &&
        given->bytes[start - 1] != '\n')
        given->bytes[start] = 'A';
}

/* The last byte of too many letters is not counted. */
static void spoil_count(struct given *given, size_t start)
{
    size_t last = next_entry(given, start) - 1;
    if (!planted("fasta: 65537 letters are taken") || letters_of(given, start, 0, 0) != MOST + 1)
        return;
    while (is_end(given, last))
        last--;
    given->bytes[last] = '\n';
}

static void spoil_file(struct given *given)
{
    if (given->at > given->len)
        return;
    spoil_ends(given);
    spoil_start(given);
    size_t start = first_byte(given);
    if (start >= given->len || given->bytes[start] != '>')
        return;
    spoil_name(given, start);
    spoil_letters(given, start);
    spoil_entry_end(given, start);
    spoil_count(given, start);
}

/* ---- refusals ---- */

static uint32_t refuse(const struct answer *answer, uint32_t number, size_t place)
{
    *answer->place = place;
    return number;
}

/* Another order of refusals. */
static uint32_t reorder(const struct given *given, const struct answer *answer, uint32_t number)
{
    size_t start = first_byte(given), bad = given->len;
    if (number == 1 || number == 12)
        bad = bad_letter(given, start);
    if (planted("fasta: 12 comes before 1") && number == 1 && !is_name(given, start))
        return refuse(answer, 12, start + 1);
    if (planted("fasta: 2 comes before 1") && number == 1 && bad < given->len)
        return refuse(answer, 2, bad);
    if (planted("fasta: 2 comes before 12") && number == 12 && bad < given->len)
        return refuse(answer, 2, bad);
    if (planted("fasta: 11 comes before the others") && number > 0 && number < 14 && number != 9 && given->name_len < NAME)
        return refuse(answer, 11, 0);
    if (planted("fasta: 14 comes after 1") && number == 14) {
        struct given behind = *given;
        behind.at = next_entry(given, start);
        return letters_of(&behind, behind.at, 0, 0) > MOST ? refuse(answer, 1, behind.at) : 14;
    }
    return number;
}

/* Another place of a refusal. */
static void misplace(const struct given *given, const struct answer *answer, uint32_t number)
{
    size_t start = first_byte(given);
    if (planted("fasta: 9 has the place that was asked") && number == 9)
        *answer->place = given->at;
    if (planted("fasta: the place of 14 is counted from where the call begins") && number == 14)
        *answer->place -= given->at;
    if (planted("fasta: the place of 1 is counted from where the call begins") && number == 1)
        *answer->place -= given->at;
    if (planted("fasta: the place of 12 is counted in the entry") && number == 12)
        *answer->place -= start;
    if (planted("fasta: the place of 2 is counted in the entry") && number == 2)
        *answer->place -= start;
    if (planted("fasta: the place of 2 is counted in the letters") && number == 2)
        *answer->place -= line_end(given, start);
    if (planted("fasta: 2 is at the last bad byte") && number == 2)
        *answer->place = last_bad_letter(given, start);
    if (planted("fasta: 12 is at `>`") && number == 12)
        *answer->place = start;
    if (planted("fasta: 12 is at the bad byte") && number == 12)
        while (*answer->place < given->len && is_visible(given->bytes[*answer->place]))
            ++*answer->place;
    if (planted("fasta: 11 has the place of the entry") && number == 11)
        *answer->place = start;
}

/* Refusals of what is none, before anything else is read; 0 if there are none. */
static uint32_t refuse_good(const struct given *given, const struct answer *answer)
{
    size_t start = first_byte(given);
    if (planted("fasta: the place at the file's end is 9") && given->at == given->len)
        return refuse(answer, 9, 0);
    if (planted("fasta: nothing is refused with 14") && given->at <= given->len && start == given->len)
        return refuse(answer, 14, start);
    if (start == given->len || given->bytes[start] != '>')
        return 0;
    if (planted("fasta: 65536 letters are refused") && letters_of(given, start, 0, 0) == MOST)
        return refuse(answer, 1, start);
    if (planted("fasta: 1 counts line ends") && letters_of(given, start, 1, 0) > MOST)
        return refuse(answer, 1, start);
    return 0;
}

/* Other answers than a refusal. */
static uint32_t rejudge(const struct given *given, const struct answer *answer, uint32_t number)
{
    size_t start = first_byte(given);
    if (planted("fasta: a place above the length is nothing") && number == 9)
        return *answer->found = 0, refuse(answer, 0, 0);
    if (planted("fasta: 1 does not count bad bytes") && number == 1 && letters_of(given, start, 0, 1) <= MOST)
        return is_name(given, start) ? refuse(answer, 2, bad_letter(given, start)) : refuse(answer, 12, start + 1);
    return number;
}

/* ---- what is written ---- */

static void spoil_accepted(const struct given *given, const struct answer *answer)
{
    if (planted("fasta: next is one too far"))
        ++*answer->next;
    if (planted("fasta: next is one short"))
        --*answer->next;
    if (planted("fasta: next is counted from where the call begins"))
        *answer->next -= given->at;
    if (planted("fasta: next stands before the line ends behind an entry"))
        while (is_end(given, *answer->next - 1))
            --*answer->next;
    if (planted("fasta: the count is one too many"))
        ++*answer->count;
    if (planted("fasta: found is 2"))
        *answer->found = 2;
    if (planted("fasta: the byte behind the name record is changed"))
        given->name[NAME] ^= 1;
    if (planted("fasta: the byte behind the letters is changed"))
        given->letters[*answer->count] ^= 1;
    if (planted("fasta: the room behind the letters is cleared") && *answer->count < given->letters_len)
        memset(given->letters + *answer->count, 0, given->letters_len - *answer->count);
}

/* Writes the letters of an entry up to a place of the file, as they stand there. */
static void put_letters(const struct given *given, size_t start, size_t end)
{
    size_t count = 0;
    for (size_t i = line_end(given, start); i < end && count < given->letters_len; i++)
        if (!is_end(given, i))
            given->letters[count++] = given->bytes[i];
}

/* Writes what fits of a name. */
static void put_name(const struct given *given, size_t start)
{
    size_t len = name_end(given, start + 1) - start - 1;
    copy_bytes(given->name, given->bytes + start + 1, len < given->name_len ? len : given->name_len);
}

/* Name and letters as they were before the call. */
struct before {
    uint8_t *name, *letters;
};

static void spoil_no_room(const struct given *given, const struct answer *answer, const struct before *before)
{
    size_t start = first_byte(given);
    if (planted("fasta: 11 answers next"))
        *answer->next = next_entry(given, start);
    if (planted("fasta: 11 answers the count"))
        *answer->count = letters_of(given, start, 0, 0);
    if (planted("fasta: 11 answers that an entry was found"))
        *answer->found = 1;
    if (planted("fasta: 11 leaves the name as it was"))
        copy_bytes(given->name, before->name, given->name_len);
    if (planted("fasta: 11 leaves the letters as they were"))
        copy_bytes(given->letters, before->letters, given->letters_len);
    if (planted("fasta: without room for the name no letters are written") && given->name_len < NAME)
        copy_bytes(given->letters, before->letters, given->letters_len);
    if (planted("fasta: without room for the letters no name is written") && given->name_len >= NAME)
        copy_bytes(given->name, before->name, given->name_len);
    if (planted("fasta: without room for the name what fits of it is written") && given->name_len < NAME)
        put_name(given, start);
}

/* Takes an entry without enough room. */
static uint32_t take_without_room(const struct given *given, const struct answer *answer, uint32_t number)
{
    size_t start = first_byte(given), count = letters_of(given, start, 0, 0);
    int taken = planted("fasta: a name room of 63 bytes is enough") && given->name_len == NAME - 1 &&
                given->letters_len >= count;
    taken |= planted("fasta: room for all letters but one is enough") && given->name_len >= NAME &&
             given->letters_len + 1 == count;
    if (!taken)
        return number;
    *answer->next = next_entry(given, start);
    *answer->count = count;
    *answer->found = 1;
    return refuse(answer, 0, 0);
}

static void spoil_refusal(const struct given *given, uint32_t number)
{
    size_t start = first_byte(given);
    if (planted("fasta: 2 leaves the letters before it written") && number == 2)
        put_letters(given, start, bad_letter(given, start));
    if (planted("fasta: 2 leaves the name written") && number == 2)
        put_name(given, start);
    if (planted("fasta: 12 leaves a part of the name written") && number == 12 && given->name_len >= NAME)
        put_name(given, start);
    if (planted("fasta: 1 leaves letters written") && number == 1)
        put_letters(given, start, next_entry(given, start));
    if (planted("fasta: 14 clears a byte of the name") && number == 14 && given->name_len > 0)
        given->name[0] = 0;
}

static void spoil_name_record(const struct given *given, const struct before *before)
{
    size_t len = 0;
    while (len < NAME && given->name[len])
        len++;
    if (planted("fasta: a name is not padded with zeros"))
        copy_bytes(given->name + len, before->name + len, NAME - len);
    if (planted("fasta: one zero stands behind a name") && len < NAME)
        copy_bytes(given->name + len + 1, before->name + len + 1, NAME - len - 1);
}

/* ---- the call ---- */

static int is_found(const struct answer *answer, uint32_t number)
{
    return number == 0 && *answer->found == 1;
}

/* The real answer, of the next entry where the fault skips some. */
static uint32_t call_on(struct given *given, const struct answer *answer)
{
    uint32_t number = call_real(given, answer);
    while (planted("fasta: an entry without letters is skipped") && is_found(answer, number) && *answer->count == 0) {
        given->at = *answer->next;
        number = call_real(given, answer);
    }
    if (planted("fasta: an entry without letters ends the file") && is_found(answer, number) && *answer->count == 0)
        *answer->found = 0;
    return number;
}

static void spoil_nothing(const struct answer *answer, size_t len, uint32_t found_before, size_t place_before)
{
    if (planted("fasta: nothing answers next"))
        *answer->next = len;
    if (planted("fasta: nothing answers the count"))
        *answer->count = 0;
    if (planted("fasta: nothing leaves found as it was"))
        *answer->found = found_before;
    if (planted("fasta: nothing leaves the place as it was"))
        *answer->place = place_before;
}

/* Spoils what a call that accepts, or that has no room, has written. */
static void spoil_written(const struct given *given, const struct answer *answer, const struct before *before, uint32_t number)
{
    size_t start = first_byte(given);
    if (planted("fasta: letters are not made capitals") && (is_found(answer, number) || number == 11))
        put_letters(given, start, next_entry(given, start));
    if (is_found(answer, number)) {
        spoil_name_record(given, before);
        spoil_accepted(given, answer);
    }
    if (number == 11)
        spoil_no_room(given, answer, before);
}

static uint32_t spoiled(struct given *given, const struct answer *answer, const struct before *before)
{
    uint32_t found_before = *answer->found;
    size_t place_before = *answer->place;
    spoil_file(given);
    uint32_t number = refuse_good(given, answer);
    if (number == 0)
        number = call_on(given, answer);
    if (number == 0 && *answer->found == 0)
        spoil_nothing(answer, given->len, found_before, place_before);
    if (planted("fasta: the place stays when an entry is found") && is_found(answer, number))
        *answer->place = place_before;
    spoil_written(given, answer, before, number);
    spoil_refusal(given, number);
    misplace(given, answer, number);
    if (number == 11)
        number = take_without_room(given, answer, number);
    return rejudge(given, answer, reorder(given, answer, number));
}

uint32_t sendumaal_fasta_entry(const uint8_t *bytes, size_t bytes_len, size_t at, uint8_t *name, size_t name_len,
                               uint8_t *letters, size_t letters_len, size_t *next, uint32_t *count, uint32_t *found,
                               size_t *place)
{
    struct given given = {kept_bytes(bytes, bytes_len), name, letters, bytes_len, at, name_len, letters_len};
    struct answer answer = {next, place, count, found};
    struct before before = {kept_bytes(name, name_len), kept_bytes(letters, letters_len)};
    uint32_t number = some_planted() ? spoiled(&given, &answer, &before) : call_real(&given, &answer);
    if (planted("fasta: the file is written with capitals") && number == 0)
        make_capitals((uint8_t *)bytes, bytes_len);
    free(given.bytes);
    free(before.name);
    free(before.letters);
    return number;
}
