/* A second player of scripts, written from docs/ alone, to be compared with `replay`.
   It has the same program word in its messages, so that the two can be compared byte for byte. */

#include <inttypes.h>
#include <stdbool.h>
#include <stdint.h>
#include <stdio.h>
#include <stdlib.h>
#include <string.h>

#define SHOWN_LIMIT UINT64_C(4294967296) /* a memory shows at most 2^32 bytes, and a laid size is at most that */
#define ENTRIES 258
#define ENTRY_P 256
#define ENTRY_S 257
#define FILE_BYTES 2064
#define ROWS_LIMIT 16
#define BUDGET_LIMIT 1000000
#define TOP_BIT (UINT64_C(1) << 63)
#define LONGEST 10 /* the most bytes that an instruction has */

struct row {
    uint64_t off, max, file, saved;
};

struct plan {
    struct row rows[ROWS_LIMIT];
    unsigned count;
    uint64_t laid;
};

/* How a run ended. */
struct result {
    unsigned code;
    uint64_t count;
};

/* All that a script has at one time. The machine is only a mark: while it stands, the script cannot change its memory
   or its plan. */
struct session {
    uint8_t *bytes;
    uint64_t size;
    bool memory;
    struct plan plan;
    struct row *given;
    size_t given_count, given_room;
    bool machine;
    /* Of each compartment of the machine: whether it has run, and how its latest accepted run ended. */
    bool ran[ROWS_LIMIT];
    struct result latest[ROWS_LIMIT];
};

struct text {
    const char *at;
    size_t length;
};

/* A line while it is read: the whole of it, and what is left of it. */
struct line {
    struct text whole, rest;
    uint64_t number;
};

/* --- Accesses of a program. */

/* An access that does not fit happens whole at 0. length is at least 8, so length - n does not wrap. */
static inline uint64_t placed(uint64_t length, unsigned n, uint64_t address)
{
    return address <= length - n ? address : 0;
}

static inline uint64_t big_endian(const uint8_t *at, unsigned n)
{
    switch (n) {
    case 1:
        return at[0];
    case 2:
        return (uint64_t)at[0] << 8 | at[1];
    case 4:
        return (uint64_t)at[0] << 24 | (uint64_t)at[1] << 16 | (uint64_t)at[2] << 8 | at[3];
    default:
        return (uint64_t)at[0] << 56 | (uint64_t)at[1] << 48 | (uint64_t)at[2] << 40 | (uint64_t)at[3] << 32 |
               (uint64_t)at[4] << 24 | (uint64_t)at[5] << 16 | (uint64_t)at[6] << 8 | at[7];
    }
}

static inline void put_big_endian(uint8_t *at, unsigned n, uint64_t value)
{
    switch (n) {
    case 1:
        at[0] = (uint8_t)value;
        break;
    case 2:
        at[0] = (uint8_t)(value >> 8);
        at[1] = (uint8_t)value;
        break;
    case 4:
        at[0] = (uint8_t)(value >> 24);
        at[1] = (uint8_t)(value >> 16);
        at[2] = (uint8_t)(value >> 8);
        at[3] = (uint8_t)value;
        break;
    default:
        at[0] = (uint8_t)(value >> 56);
        at[1] = (uint8_t)(value >> 48);
        at[2] = (uint8_t)(value >> 40);
        at[3] = (uint8_t)(value >> 32);
        at[4] = (uint8_t)(value >> 24);
        at[5] = (uint8_t)(value >> 16);
        at[6] = (uint8_t)(value >> 8);
        at[7] = (uint8_t)value;
        break;
    }
}

static inline uint64_t load(const uint8_t *window, uint64_t length, unsigned n, uint64_t address)
{
    return big_endian(window + placed(length, n, address), n);
}

static inline void store(uint8_t *window, uint64_t length, unsigned n, uint64_t address, uint64_t value)
{
    put_big_endian(window + placed(length, n, address), n, value);
}

/* --- Numbers. All of it in unsigned arithmetic, so that C leaves nothing open. */

static inline bool negative(uint64_t v)
{
    return (v & TOP_BIT) != 0;
}

static inline uint64_t magnitude(uint64_t v)
{
    return negative(v) ? 0 - v : v;
}

static inline uint64_t shifted_right(uint64_t v, uint64_t by)
{
    return negative(v) ? ~(~v >> (by & 63)) : v >> (by & 63);
}

/* The magnitude of -2^63 is 2^63, so -2^63 by -1 gives -2^63 without a case of its own. */
static inline uint64_t signed_quotient(uint64_t a, uint64_t b)
{
    uint64_t q = magnitude(a) / magnitude(b);
    return negative(a) != negative(b) ? 0 - q : q;
}

static inline uint64_t signed_remainder(uint64_t a, uint64_t b)
{
    uint64_t m = magnitude(a) % magnitude(b);
    return negative(a) ? 0 - m : m;
}

static inline uint64_t compared(uint64_t a, uint64_t b)
{
    return a < b ? UINT64_MAX : a > b;
}

static inline uint64_t sign_extended(uint64_t v, unsigned bits)
{
    uint64_t sign = UINT64_C(1) << (bits - 1);
    return ((v & (sign | (sign - 1))) ^ sign) - sign;
}

static inline uint64_t reversed(uint64_t v, unsigned n)
{
    uint64_t result = 0;
    for (unsigned i = 0; i < n; i++)
        result = result << 8 | (v >> (8 * i) & 255);
    return result;
}

/* --- The run of a compartment. */

/* The widths of an opcode's operands in bytes, one digit each. */
static const char *operand_widths(unsigned opcode)
{
    switch (opcode) {
    case 2:
        return "11111";
    case 3:
        return "1";
    case 4:
        return "11";
    case 6:
        return "18";
    case 7:
        return "14";
    case 8:
        return "12";
    case 9:
        return "11";
    case 10: case 11: case 12: case 13: case 14: case 15: case 16: case 17:
        return "18";
    case 18: case 19: case 20: case 21: case 22: case 23: case 24: case 25:
    case 26: case 27: case 28: case 29: case 30: case 31:
        return "11";
    case 32: case 33: case 34: case 35:
        return "1";
    case 36: case 37: case 38: case 45: case 46: case 49: case 50:
        return "11";
    case 51: case 52: case 53: case 54: case 55: case 56:
        return "1";
    case 57: case 58:
        return "111";
    case 61: case 62:
        return "8";
    case 63: case 64:
        return "18";
    case 66: case 67: case 68: case 69: case 70: case 71: case 72: case 73: case 74: case 75: case 80: case 81:
        return "1";
    case 82: case 83: case 84: case 85: case 86: case 87: case 88: case 89:
        return "14";
    case 90: case 91: case 92:
        return "1";
    case 93:
        return "111";
    default:
        return "";
    }
}

/* Reads an instruction near the end of the window or past it: each part is an access for itself. The parts are laid side
   by side, as they would stand inside the window. */
static const uint8_t *gathered(const uint8_t *window, uint64_t length, uint64_t p, uint8_t parts[LONGEST])
{
    unsigned at = 1;
    parts[0] = window[placed(length, 1, p)];
    for (const char *width = operand_widths(parts[0]); *width != '\0'; width++) {
        unsigned n = (unsigned)(*width - '0');
        memcpy(parts + at, window + placed(length, n, p + at), n);
        at += n;
    }
    return parts;
}

/* Runs at most budget instructions. entries are the 256 general registers, P and S. In each case the operands are read
   before anything is stored, because a store may hit the instruction's own bytes. */
static struct result steps(uint8_t *window, uint64_t length, uint64_t entries[ENTRIES], uint64_t budget)
{
    uint64_t *reg = entries;
    uint64_t p = entries[ENTRY_P];
    uint64_t s = entries[ENTRY_S];
    uint64_t inside = length >= LONGEST ? length - LONGEST + 1 : 0;
    uint64_t count = 0;
    unsigned code = 2;
    uint8_t parts[LONGEST];

#define R reg[at[1]]
#define S reg[at[2]]
#define T reg[at[3]]
#define LOAD(n, a) load(window, length, n, a)
#define STORE(n, a, v) store(window, length, n, a, v)
#define NUMBER(from, n) big_endian(at + (from), n)

    while (count < budget) {
        const uint8_t *at = p < inside ? window + p : gathered(window, length, p, parts);
        count++;
        switch (at[0]) {
        case 0: /* hlt */
            p += 1;
            code = 0;
            goto ended;
        case 1: /* nop */
            p += 1;
            break;
        case 2: /* become_user */
            code = 1;
            goto ended;
        case 3: /* dread */
        case 4: /* dwrite */
            code = 3;
            goto ended;
        case 5: /* syscall */
            p += 1;
            code = 4;
            goto ended;

        case 6: /* im64 */
            R = NUMBER(2, 8);
            p += 10;
            break;
        case 7: /* im32 */
            R = NUMBER(2, 4);
            p += 6;
            break;
        case 8: /* im16 */
            R = NUMBER(2, 2);
            p += 4;
            break;
        case 9: /* im8 */
            R = NUMBER(2, 1);
            p += 3;
            break;

        case 10: /* ld64 */
            R = LOAD(8, NUMBER(2, 8));
            p += 10;
            break;
        case 11: /* ld32 */
            R = LOAD(4, NUMBER(2, 8));
            p += 10;
            break;
        case 12: /* ld16 */
            R = LOAD(2, NUMBER(2, 8));
            p += 10;
            break;
        case 13: /* ld8 */
            R = LOAD(1, NUMBER(2, 8));
            p += 10;
            break;
        case 14: /* st64 */
            STORE(8, NUMBER(2, 8), R);
            p += 10;
            break;
        case 15: /* st32 */
            STORE(4, NUMBER(2, 8), R);
            p += 10;
            break;
        case 16: /* st16 */
            STORE(2, NUMBER(2, 8), R);
            p += 10;
            break;
        case 17: /* st8 */
            STORE(1, NUMBER(2, 8), R);
            p += 10;
            break;

        case 18: /* ild64 */
            R = LOAD(8, S);
            p += 3;
            break;
        case 19: /* ild32 */
            R = LOAD(4, S);
            p += 3;
            break;
        case 20: /* ild16 */
            R = LOAD(2, S);
            p += 3;
            break;
        case 21: /* ild8 */
            R = LOAD(1, S);
            p += 3;
            break;
        case 22: /* ist64 */
            STORE(8, R, S);
            p += 3;
            break;
        case 23: /* ist32 */
            STORE(4, R, S);
            p += 3;
            break;
        case 24: /* ist16 */
            STORE(2, R, S);
            p += 3;
            break;
        case 25: /* ist8 */
            STORE(1, R, S);
            p += 3;
            break;

        case 26: /* mov */
            R = S;
            p += 3;
            break;
        case 27: /* lsh */
            R = R << (S & 63);
            p += 3;
            break;
        case 28: /* rsh */
            R = shifted_right(R, S);
            p += 3;
            break;
        case 29: /* and */
            R = R & S;
            p += 3;
            break;
        case 30: /* or */
            R = R | S;
            p += 3;
            break;
        case 31: /* xor */
            R = R ^ S;
            p += 3;
            break;
        case 32: /* compl */
            R = ~R;
            p += 2;
            break;
        case 33: /* neg */
            R = 0 - R;
            p += 2;
            break;
        case 34: /* bool */
            R = R != 0;
            p += 2;
            break;
        case 35: /* not */
            R = R == 0;
            p += 2;
            break;
        case 36: /* iadd */
            R = R + S;
            p += 3;
            break;
        case 37: /* isub */
            R = R - S;
            p += 3;
            break;
        case 38: /* imul */
            R = R * S;
            p += 3;
            break;

        case 45: /* udiv */
            if (S == 0)
                goto division;
            R = R / S;
            p += 3;
            break;
        case 46: /* idiv */
            if (S == 0)
                goto division;
            R = signed_quotient(R, S);
            p += 3;
            break;
        case 49: /* umod */
            if (S == 0)
                goto division;
            R = R % S;
            p += 3;
            break;
        case 50: /* imod */
            if (S == 0)
                goto division;
            R = signed_remainder(R, S);
            p += 3;
            break;

        case 51: /* se32 */
            R = sign_extended(R, 32);
            p += 2;
            break;
        case 52: /* se16 */
            R = sign_extended(R, 16);
            p += 2;
            break;
        case 53: /* se8 */
            R = sign_extended(R, 8);
            p += 2;
            break;
        case 54: /* ze32 */
            R = R & 0xFFFFFFFF;
            p += 2;
            break;
        case 55: /* ze16 */
            R = R & 0xFFFF;
            p += 2;
            break;
        case 56: /* ze8 */
            R = R & 0xFF;
            p += 2;
            break;
        case 57: /* ucmp */
            R = compared(S, T);
            p += 4;
            break;
        case 58: /* icmp: with the top bits inverted, signed order is unsigned order */
            R = compared(S ^ TOP_BIT, T ^ TOP_BIT);
            p += 4;
            break;

        case 61: /* jmp */
            p = NUMBER(1, 8);
            break;
        case 62: { /* call */
            uint64_t to = NUMBER(1, 8);
            STORE(8, s, p + 9);
            s += 8;
            p = to;
            break;
        }
        case 63: /* jnz */
            p = R != 0 ? NUMBER(2, 8) : p + 10;
            break;
        case 64: /* jiz */
            p = R == 0 ? NUMBER(2, 8) : p + 10;
            break;
        case 65: /* ret */
            s -= 8;
            p = LOAD(8, s);
            break;
        case 66: /* getstp */
            R = s;
            p += 2;
            break;
        case 67: /* setstp */
            s = R;
            p += 2;
            break;

        case 68: /* push64 */
            STORE(8, s, R);
            s += 8;
            p += 2;
            break;
        case 69: /* push32 */
            STORE(4, s, R);
            s += 4;
            p += 2;
            break;
        case 70: /* push16 */
            STORE(2, s, R);
            s += 2;
            p += 2;
            break;
        case 71: /* push8 */
            STORE(1, s, R);
            s += 1;
            p += 2;
            break;
        case 72: /* pop64 */
            s -= 8;
            R = LOAD(8, s);
            p += 2;
            break;
        case 73: /* pop32 */
            s -= 4;
            R = LOAD(4, s);
            p += 2;
            break;
        case 74: /* pop16 */
            s -= 2;
            R = LOAD(2, s);
            p += 2;
            break;
        case 75: /* pop8 */
            s -= 1;
            R = LOAD(1, s);
            p += 2;
            break;

        case 80: /* inc */
            R = R + 1;
            p += 2;
            break;
        case 81: /* dec */
            R = R - 1;
            p += 2;
            break;
        case 82: /* ldsp64 */
            R = LOAD(8, s - NUMBER(2, 4));
            p += 6;
            break;
        case 83: /* ldsp32 */
            R = LOAD(4, s - NUMBER(2, 4));
            p += 6;
            break;
        case 84: /* ldsp16 */
            R = LOAD(2, s - NUMBER(2, 4));
            p += 6;
            break;
        case 85: /* ldsp8 */
            R = LOAD(1, s - NUMBER(2, 4));
            p += 6;
            break;
        case 86: /* stsp64 */
            STORE(8, s - NUMBER(2, 4), R);
            p += 6;
            break;
        case 87: /* stsp32 */
            STORE(4, s - NUMBER(2, 4), R);
            p += 6;
            break;
        case 88: /* stsp16 */
            STORE(2, s - NUMBER(2, 4), R);
            p += 6;
            break;
        case 89: /* stsp8 */
            STORE(1, s - NUMBER(2, 4), R);
            p += 6;
            break;
        case 90: /* bswap64 */
            R = reversed(R, 8);
            p += 2;
            break;
        case 91: /* bswap32 */
            R = reversed(R, 4);
            p += 2;
            break;
        case 92: /* bswap16 */
            R = reversed(R, 2);
            p += 2;
            break;
        case 93: /* mnz writes its second register */
            if (R != 0)
                S = T;
            p += 4;
            break;

        default:
            code = 5;
            goto ended;
        }
    }
    goto ended;

division:
    code = 16;
ended:
#undef R
#undef S
#undef T
#undef LOAD
#undef STORE
#undef NUMBER
    entries[ENTRY_P] = p;
    entries[ENTRY_S] = s;
    return (struct result){code, count};
}

/* --- Plans. */

struct refusal {
    unsigned number; /* 0 where nothing is refused */
    size_t row, other;
};

static bool meet(uint64_t a, uint64_t a_bytes, uint64_t b, uint64_t b_bytes)
{
    return a < b + b_bytes && b < a + a_bytes;
}

/* Only for rows that lie inside the laid size: no sum wraps there. */
static bool rows_meet(const struct row *a, const struct row *b)
{
    return meet(a->off, a->max + 1, b->off, b->max + 1) || meet(a->off, a->max + 1, b->file, FILE_BYTES) ||
           meet(a->file, FILE_BYTES, b->off, b->max + 1) || meet(a->file, FILE_BYTES, b->file, FILE_BYTES);
}

/* off + bytes above laid, where last is bytes - 1: bytes itself may be 2^64. */
static bool outside(uint64_t off, uint64_t last, uint64_t laid)
{
    return off > laid || last >= laid - off;
}

static struct refusal row_refusal(const struct row *rows, size_t i, uint64_t laid)
{
    const struct row *row = &rows[i];
    if (row->max < 7)
        return (struct refusal){103, i, i};
    if (row->saved == 0 || row->saved > 256)
        return (struct refusal){104, i, i};
    if (outside(row->off, row->max, laid) || outside(row->file, FILE_BYTES - 1, laid))
        return (struct refusal){105, i, i};
    if (meet(row->off, row->max + 1, row->file, FILE_BYTES))
        return (struct refusal){106, i, i};
    for (size_t j = 0; j < i; j++)
        if (rows_meet(row, &rows[j]))
            return (struct refusal){106, i, j};
    return (struct refusal){0, 0, 0};
}

static struct refusal lay_refusal(const struct row *rows, size_t count, uint64_t laid)
{
    if (count == 0 || count > ROWS_LIMIT)
        return (struct refusal){101, 0, 0};
    if (laid > SHOWN_LIMIT)
        return (struct refusal){102, 0, 0};
    for (size_t i = 0; i < count; i++) {
        struct refusal refusal = row_refusal(rows, i, laid);
        if (refusal.number != 0)
            return refusal;
    }
    return (struct refusal){0, 0, 0};
}

/* --- The calls on a machine. Each answers the number of a refusal, or 0. */

static unsigned compartment_refusal(const struct session *session, uint64_t k)
{
    if (session->size < session->plan.laid)
        return 107;
    return k < session->plan.count ? 0 : 108;
}

static unsigned span_refusal(const struct session *session, uint64_t k, uint64_t address, uint64_t length)
{
    unsigned refusal = compartment_refusal(session, k);
    if (refusal != 0)
        return refusal;
    uint64_t bytes = session->plan.rows[k].max + 1;
    return address > bytes || length > bytes - address ? 109 : 0;
}

static unsigned index_refusal(const struct session *session, uint64_t k, uint64_t index)
{
    unsigned refusal = compartment_refusal(session, k);
    if (refusal != 0)
        return refusal;
    return index < ENTRIES ? 0 : 110;
}

static unsigned run_refusal(const struct session *session, uint64_t k, uint64_t budget, uint64_t work)
{
    unsigned refusal = compartment_refusal(session, k);
    if (refusal != 0)
        return refusal;
    if (budget > BUDGET_LIMIT)
        return 111;
    return work == ENTRIES ? 0 : 112;
}

static uint8_t *window_of(const struct session *session, uint64_t k)
{
    return session->bytes + session->plan.rows[k].off;
}

static uint8_t *entry_of(const struct session *session, uint64_t k, uint64_t index)
{
    return session->bytes + session->plan.rows[k].file + 8 * index;
}

/* Whether entry i lasts from run to run. */
static bool lasts(const struct row *row, uint64_t i)
{
    return i < row->saved || i == ENTRY_P || i == ENTRY_S;
}

static struct result run_compartment(const struct session *session, uint64_t k, uint64_t budget)
{
    const struct row *row = &session->plan.rows[k];
    uint64_t entries[ENTRIES];
    for (uint64_t i = 0; i < ENTRIES; i++)
        entries[i] = lasts(row, i) ? big_endian(entry_of(session, k, i), 8) : 0;
    struct result result = steps(window_of(session, k), row->max + 1, entries, budget);
    for (uint64_t i = 0; i < ENTRIES; i++)
        if (lasts(row, i))
            put_big_endian(entry_of(session, k, i), 8, entries[i]);
    return result;
}

/* --- Reading a line. A fault ends the program. */

/* Writes the one line to standard error and ends. name and word may be left out. */
_Noreturn static void stop(const struct line *line, const char *name, const char *what, const struct text *word)
{
    fflush(stdout);
    fprintf(stderr, "replay: line %" PRIu64 ": %s%s", line->number, name, what);
    if (word != NULL)
        fwrite(word->at, 1, word->length, stderr);
    fputc('\n', stderr);
    exit(1);
}

_Noreturn static void stop_for_room(const struct line *line)
{
    stop(line, "", "no room for what it asks for", NULL);
}

static bool blank(char c)
{
    return c == ' ' || c == '\t';
}

/* Takes the next word off the rest of the line. Answers false where there is none. */
static bool next_word(struct line *line, struct text *word)
{
    struct text *rest = &line->rest;
    while (rest->length > 0 && blank(rest->at[0])) {
        rest->at++;
        rest->length--;
    }
    word->at = rest->at;
    word->length = 0;
    while (word->length < rest->length && !blank(word->at[word->length]))
        word->length++;
    rest->at += word->length;
    rest->length -= word->length;
    return word->length > 0;
}

static bool is(struct text word, const char *name)
{
    return word.length == strlen(name) && memcmp(word.at, name, word.length) == 0;
}

/* The value of a digit of the base, or -1. */
static int digit(char c, unsigned base)
{
    if (c >= '0' && c <= '9')
        return c - '0';
    if (base == 16 && c >= 'a' && c <= 'f')
        return c - 'a' + 10;
    if (base == 16 && c >= 'A' && c <= 'F')
        return c - 'A' + 10;
    return -1;
}

enum reading { READ, NOT_A_NUMBER, TOO_LARGE };

/* A word is looked at whole: a bad character far behind makes it no number, however large it is before. */
static enum reading read_number(struct text word, uint64_t *number)
{
    unsigned base = 10;
    size_t i = 0;
    enum reading reading = READ;
    uint64_t value = 0;
    if (word.length >= 2 && word.at[0] == '0' && word.at[1] == 'x') {
        base = 16;
        i = 2;
    }
    if (i == word.length)
        return NOT_A_NUMBER;
    for (; i < word.length; i++) {
        int d = digit(word.at[i], base);
        if (d < 0)
            return NOT_A_NUMBER;
        if (value > (UINT64_MAX - (uint64_t)d) / base)
            reading = TOO_LARGE;
        value = value * base + (uint64_t)d;
    }
    *number = value;
    return reading;
}

static uint64_t operand_of(struct line *line, const char *name, struct text word, uint64_t most)
{
    uint64_t number = 0;
    enum reading reading = read_number(word, &number);
    if (reading == NOT_A_NUMBER)
        stop(line, name, " is not a number: ", &word);
    if (reading == TOO_LARGE || number > most)
        stop(line, name, " is too large: ", &word);
    return number;
}

static uint64_t operand(struct line *line, const char *name, uint64_t most)
{
    struct text word;
    if (!next_word(line, &word))
        stop(line, name, " is missing", NULL);
    return operand_of(line, name, word, most);
}

static uint64_t compartment_operand(struct line *line)
{
    return operand(line, "K", 65535);
}

/* The hexadecimal pairs of a put, left out or not. */
static struct text bytes_operand(struct line *line)
{
    struct text word;
    if (!next_word(line, &word))
        return word;
    bool good = word.length % 2 == 0;
    for (size_t i = 0; good && i < word.length; i++)
        good = digit(word.at[i], 16) >= 0;
    if (!good)
        stop(line, "", "HEX is not bytes: ", &word);
    return word;
}

static void end_of(struct line *line)
{
    struct text word;
    if (next_word(line, &word))
        stop(line, "", "a word too many: ", &word);
}

static void need_machine(const struct session *session, const struct line *line)
{
    if (!session->machine)
        stop(line, "", "there is no machine", NULL);
}

static void need_no_machine(const struct session *session, const struct line *line)
{
    if (session->machine)
        stop(line, "", "there is a machine", NULL);
}

/* --- Answers. */

static void echo(const struct line *line)
{
    fwrite(line->whole.at, 1, line->whole.length, stdout);
    fputs(": ", stdout);
}

static void answer(const struct line *line, const char *what)
{
    echo(line);
    puts(what);
}

static void answer_refused(const struct line *line, unsigned number)
{
    echo(line);
    printf("refused %u\n", number);
}

static void answer_accepted_or(const struct line *line, unsigned refusal)
{
    if (refusal == 0)
        answer(line, "accepted");
    else
        answer_refused(line, refusal);
}

static void answer_result(const struct line *line, struct result result)
{
    echo(line);
    printf("code %u count %" PRIu64 "\n", result.code, result.count);
}

/* --- Commands. Each reads its line whole, and then performs it. */

/* flat bytes and then numbers of eight bytes each: what all three makes have in common. */
static void make_memory(struct session *session, const struct line *line, uint64_t flat, uint64_t numbers)
{
    need_no_machine(session, line);
    if (numbers > UINT64_MAX / 8 || flat > UINT64_MAX - 8 * numbers || flat + 8 * numbers > SIZE_MAX)
        stop_for_room(line);
    uint64_t total = flat + 8 * numbers;
    uint8_t *bytes = calloc(total > 0 ? (size_t)total : 1, 1);
    if (bytes == NULL)
        stop_for_room(line);
    free(session->bytes);
    session->bytes = bytes;
    session->size = total < SHOWN_LIMIT ? total : SHOWN_LIMIT;
    session->memory = true;
    echo(line);
    printf("%" PRIu64 " bytes\n", session->size);
}

static void do_memory(struct session *session, struct line *line)
{
    struct text make;
    uint64_t flat = 0, numbers = 0;
    if (!next_word(line, &make))
        stop(line, "MAKE", " is missing", NULL);
    if (is(make, "flat")) {
        flat = operand(line, "N", UINT64_MAX);
    } else if (is(make, "words")) {
        numbers = operand(line, "N", UINT64_MAX);
    } else if (is(make, "spliced")) {
        flat = operand(line, "N", UINT64_MAX);
        numbers = operand(line, "M", UINT64_MAX);
    } else {
        stop(line, "", "no such make of memory: ", &make);
    }
    end_of(line);
    make_memory(session, line, flat, numbers);
}

static void room_for_row(struct session *session, const struct line *line)
{
    if (session->given_count < session->given_room)
        return;
    size_t room = session->given_room == 0 ? 32 : 2 * session->given_room;
    if (room > SIZE_MAX / sizeof(struct row))
        stop_for_room(line);
    struct row *given = realloc(session->given, room * sizeof(struct row));
    if (given == NULL)
        stop_for_room(line);
    session->given = given;
    session->given_room = room;
}

static void do_row(struct session *session, struct line *line)
{
    struct row row;
    row.off = operand(line, "OFF", UINT64_MAX);
    row.max = operand(line, "MAX", UINT64_MAX);
    row.file = operand(line, "FILE", UINT64_MAX);
    row.saved = operand(line, "SAVED", 65535);
    end_of(line);
    room_for_row(session, line);
    session->given[session->given_count] = row;
    echo(line);
    printf("row %zu\n", session->given_count);
    session->given_count++;
}

static void do_lay(struct session *session, struct line *line)
{
    uint64_t laid = operand(line, "SIZE", UINT64_MAX);
    end_of(line);
    need_no_machine(session, line);
    struct refusal refusal = lay_refusal(session->given, session->given_count, laid);
    if (refusal.number == 0) {
        memcpy(session->plan.rows, session->given, session->given_count * sizeof(struct row));
        session->plan.count = (unsigned)session->given_count;
        session->plan.laid = laid;
        answer(line, "accepted");
    } else {
        echo(line);
        printf("refused %u row %zu other %zu\n", refusal.number, refusal.row, refusal.other);
    }
    session->given_count = 0;
}

static void do_make(struct session *session, struct line *line)
{
    end_of(line);
    need_no_machine(session, line);
    if (!session->memory)
        stop(line, "", "there is no memory", NULL);
    session->machine = true;
    memset(session->ran, 0, sizeof session->ran);
    answer(line, "made");
}

static void do_release(struct session *session, struct line *line)
{
    end_of(line);
    need_machine(session, line);
    session->machine = false;
    answer(line, "released");
}

static void do_put(struct session *session, struct line *line)
{
    uint64_t k = compartment_operand(line);
    uint64_t address = operand(line, "ADDRESS", UINT64_MAX);
    struct text hex = bytes_operand(line);
    end_of(line);
    need_machine(session, line);
    unsigned refusal = span_refusal(session, k, address, hex.length / 2);
    if (refusal == 0) {
        uint8_t *to = window_of(session, k) + address;
        for (size_t i = 0; i < hex.length; i += 2)
            *to++ = (uint8_t)(digit(hex.at[i], 16) << 4 | digit(hex.at[i + 1], 16));
    }
    answer_accepted_or(line, refusal);
}

static void do_fetch(struct session *session, struct line *line)
{
    uint64_t k = compartment_operand(line);
    uint64_t address = operand(line, "ADDRESS", UINT64_MAX);
    uint64_t length = operand(line, "LENGTH", UINT64_MAX);
    end_of(line);
    need_machine(session, line);
    unsigned refusal = span_refusal(session, k, address, length);
    if (refusal != 0) {
        answer_refused(line, refusal);
        return;
    }
    const uint8_t *from = window_of(session, k) + address;
    echo(line);
    for (uint64_t i = 0; i < length; i++) {
        putchar("0123456789abcdef"[from[i] >> 4]);
        putchar("0123456789abcdef"[from[i] & 15]);
    }
    putchar('\n');
}

static void do_set(struct session *session, struct line *line)
{
    uint64_t k = compartment_operand(line);
    uint64_t index = operand(line, "INDEX", UINT64_MAX);
    uint64_t word = operand(line, "WORD", UINT64_MAX);
    end_of(line);
    need_machine(session, line);
    unsigned refusal = index_refusal(session, k, index);
    if (refusal == 0)
        put_big_endian(entry_of(session, k, index), 8, word);
    answer_accepted_or(line, refusal);
}

static void do_get(struct session *session, struct line *line)
{
    uint64_t k = compartment_operand(line);
    uint64_t index = operand(line, "INDEX", UINT64_MAX);
    end_of(line);
    need_machine(session, line);
    unsigned refusal = index_refusal(session, k, index);
    if (refusal != 0) {
        answer_refused(line, refusal);
        return;
    }
    echo(line);
    printf("%" PRIu64 "\n", big_endian(entry_of(session, k, index), 8));
}

/* WORK is a number only: the registers of a run stand on the C stack. */
static void do_run(struct session *session, struct line *line)
{
    struct text word;
    uint64_t k = compartment_operand(line);
    uint64_t budget = operand(line, "BUDGET", UINT64_MAX);
    uint64_t work = next_word(line, &word) ? operand_of(line, "WORK", word, UINT64_MAX) : ENTRIES;
    end_of(line);
    need_machine(session, line);
    unsigned refusal = run_refusal(session, k, budget, work);
    if (refusal != 0) {
        answer_refused(line, refusal);
        return;
    }
    session->latest[k] = run_compartment(session, k, budget);
    session->ran[k] = true;
    answer_result(line, session->latest[k]);
}

static void do_last(struct session *session, struct line *line)
{
    uint64_t k = compartment_operand(line);
    end_of(line);
    need_machine(session, line);
    unsigned refusal = compartment_refusal(session, k);
    if (refusal != 0)
        answer_refused(line, refusal);
    else if (session->ran[k])
        answer_result(line, session->latest[k]);
    else
        answer(line, "none");
}

static void perform(struct session *session, struct line *line)
{
    struct text command;
    if (!next_word(line, &command) || command.at[0] == '#')
        return;
    if (is(command, "memory"))
        do_memory(session, line);
    else if (is(command, "row"))
        do_row(session, line);
    else if (is(command, "lay"))
        do_lay(session, line);
    else if (is(command, "make"))
        do_make(session, line);
    else if (is(command, "put"))
        do_put(session, line);
    else if (is(command, "set"))
        do_set(session, line);
    else if (is(command, "fetch"))
        do_fetch(session, line);
    else if (is(command, "get"))
        do_get(session, line);
    else if (is(command, "run"))
        do_run(session, line);
    else if (is(command, "last"))
        do_last(session, line);
    else if (is(command, "release"))
        do_release(session, line);
    else
        stop(line, "", "no such command: ", &command);
}

/* --- The script. */

struct buffer {
    char *at;
    size_t length, room;
};

static void append(struct buffer *buffer, char c, const struct line *line)
{
    if (buffer->length == buffer->room) {
        size_t room = buffer->room == 0 ? 4096 : 2 * buffer->room;
        char *at = realloc(buffer->at, room);
        if (at == NULL)
            stop_for_room(line);
        buffer->at = at;
        buffer->room = room;
    }
    buffer->at[buffer->length++] = c;
}

/* Reads up to LF, CR LF or the end. Answers false where no line is left. */
static bool next_line(struct buffer *buffer, struct line *line)
{
    int c;
    buffer->length = 0;
    while ((c = getchar()) != EOF && c != '\n')
        append(buffer, (char)c, line);
    if (c == EOF && buffer->length == 0)
        return false;
    if (c == '\n' && buffer->length > 0 && buffer->at[buffer->length - 1] == '\r')
        buffer->length--;
    line->whole = (struct text){buffer->at, buffer->length};
    line->rest = line->whole;
    return true;
}

int main(void)
{
    static struct session session;
    struct buffer buffer = {NULL, 0, 0};
    struct line line = {{NULL, 0}, {NULL, 0}, 1};
    for (; next_line(&buffer, &line); line.number++)
        perform(&session, &line);
    free(buffer.at);
    free(session.given);
    free(session.bytes);
    return fflush(stdout) == 0 && !ferror(stdout) ? 0 : 1;
}
