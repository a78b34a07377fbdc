/* generate SEED SESSIONS: prints one script of that many sessions. The same seed gives the same script.

   A session makes a memory, lays a plan, makes the machine, fills the compartments with programs, runs them, shows what
   they left, and releases the machine. */

#include <inttypes.h>
#include <stdbool.h>
#include <stdint.h>
#include <stdio.h>
#include <stdlib.h>

#define FILE_BYTES 2064
#define MOST_ROWS 4
#define MOST_WINDOW 1024
#define MOST_STARTS (MOST_WINDOW + 1)
#define LONGEST 10 /* the most bytes that an instruction has */

struct row {
    uint64_t off, max, file, saved;
};

/* What the instructions of a program mostly are. */
enum style { ANY, ON_REGISTERS, ON_MEMORY };

/* One compartment as the generator knows it: its row, and where the instructions of its program begin. */
struct compartment {
    struct row row;
    uint64_t length;
    enum style style;
    unsigned first_opcode;
    uint64_t starts[MOST_STARTS];
    unsigned start_count;
    uint64_t program_end;
};

/* --- Chance. */

static uint64_t state;

static uint64_t chance(void)
{
    uint64_t z = (state += UINT64_C(0x9E3779B97F4A7C15));
    z = (z ^ (z >> 30)) * UINT64_C(0xBF58476D1CE4E5B9);
    z = (z ^ (z >> 27)) * UINT64_C(0x94D049BB133111EB);
    return z ^ (z >> 31);
}

/* A number below n, which is not 0. */
static uint64_t below(uint64_t n)
{
    return chance() % n;
}

/* True once in n times. */
static bool once_in(uint64_t n)
{
    return below(n) == 0;
}

#define PICK(list) ((list)[below(sizeof(list) / sizeof((list)[0]))])

/* --- Values. */

static uint64_t edge(void)
{
    static const uint64_t edges[] = {
        0, 0, 1, 1, 2, 3, 7, 8, 9, 62, 63, 64, 65, 127, 128, 255, 256, 0x7FFF, 0x8000, 0xFFFF, 0x10000, 0x7FFFFFFF,
        0x80000000, 0xFFFFFFFF, 0x100000000, 0x7FFFFFFFFFFFFFFF, 0x8000000000000000, 0x8000000000000001,
        0xFFFFFFFFFFFFFFFF, 0xFFFFFFFFFFFFFFFE, 0xFFFFFFFFFFFFFFF9, 0xFFFFFFFFFFFFFFF8, 0xFFFFFFFFFFFFFFC0,
        0xFFFFFFFF80000000, 0xFFFFFFFFFFFF8000, 0xFFFFFFFFFFFFFF80, 0x0102030405060708, 0x8182838485868788,
    };
    return PICK(edges);
}

/* An address at the window's end or past it. */
static uint64_t end_address(uint64_t length)
{
    return length - 9 + below(12);
}

static uint64_t data_address(const struct compartment *c)
{
    switch (below(10)) {
    case 0:
    case 1:
    case 2:
        return end_address(c->length);
    case 3:
        return edge();
    case 4:
        return below(17);
    default:
        /* Behind the program where there is room, so that most stores leave the program whole. */
        if (c->program_end < c->length)
            return c->program_end + below(c->length - c->program_end);
        return below(c->length);
    }
}

static uint64_t value_for(const struct compartment *c)
{
    uint64_t any = chance();
    switch (below(6)) {
    case 0:
        return any;
    case 1:
        return any >> below(64);
    case 2:
    case 3:
        return data_address(c);
    default:
        return edge();
    }
}

static uint64_t jump_address(const struct compartment *c)
{
    if (c->start_count > 0 && !once_in(10))
        return c->starts[below(c->start_count)];
    return once_in(2) ? end_address(c->length) : data_address(c);
}

static uint64_t stack_for(const struct compartment *c)
{
    static const uint64_t wraps[] = {0, 1, 4, 7, 8, UINT64_MAX, UINT64_MAX - 1, UINT64_MAX - 6, UINT64_MAX - 7,
                                     UINT64_MAX - 8};
    switch (below(5)) {
    case 0:
        return PICK(wraps);
    case 1:
        return end_address(c->length);
    default:
        return data_address(c);
    }
}

static unsigned register_for(const struct compartment *c)
{
    switch (below(16)) {
    case 0:
        return (unsigned)(c->row.saved - 1) & 255;
    case 1:
        return (unsigned)c->row.saved & 255;
    case 2:
        return once_in(2) ? 255 : (unsigned)below(256);
    default:
        return (unsigned)below(6);
    }
}

/* --- Programs. */

/* The operands of an opcode: r a register, digits a literal of that many bytes, a data address, j jump, o offset. */
static const char *operands(unsigned opcode)
{
    if (opcode == 2)
        return "rrrrr";
    if (opcode == 3)
        return "r";
    if (opcode == 4)
        return "rr";
    if (opcode == 6)
        return "r8";
    if (opcode == 7)
        return "r4";
    if (opcode == 8)
        return "r2";
    if (opcode == 9)
        return "r1";
    if (opcode >= 10 && opcode <= 17)
        return "ra";
    if (opcode >= 18 && opcode <= 31)
        return "rr";
    if (opcode >= 32 && opcode <= 35)
        return "r";
    if (opcode >= 36 && opcode <= 38)
        return "rr";
    if (opcode == 45 || opcode == 46 || opcode == 49 || opcode == 50)
        return "rr";
    if (opcode >= 51 && opcode <= 56)
        return "r";
    if (opcode == 57 || opcode == 58)
        return "rrr";
    if (opcode == 61 || opcode == 62)
        return "j";
    if (opcode == 63 || opcode == 64)
        return "rj";
    if (opcode >= 66 && opcode <= 75)
        return "r";
    if (opcode == 80 || opcode == 81)
        return "r";
    if (opcode >= 82 && opcode <= 89)
        return "ro";
    if (opcode >= 90 && opcode <= 92)
        return "r";
    if (opcode == 93)
        return "rrr";
    return "";
}

static bool ends_the_run(unsigned opcode)
{
    return opcode == 0 || (opcode >= 2 && opcode <= 5) || (operands(opcode)[0] == '\0' && opcode != 1 && opcode != 65);
}

static bool on_registers(unsigned opcode)
{
    return (opcode >= 26 && opcode <= 58) || opcode == 80 || opcode == 81 || opcode >= 90;
}

static bool on_memory(unsigned opcode)
{
    return (opcode >= 10 && opcode <= 25) || opcode == 62 || (opcode >= 65 && opcode <= 75) ||
           (opcode >= 82 && opcode <= 89);
}

static unsigned some_opcode(enum style style)
{
    /* Programs that end too soon show little. */
    if (once_in(60)) {
        static const unsigned enders[] = {0, 0, 0, 2, 3, 4, 5, 5, 39, 44, 47, 48, 59, 60, 76, 79, 94, 128, 255};
        return PICK(enders);
    }
    if (once_in(6))
        return 6 + (unsigned)below(4);
    for (;;) {
        unsigned opcode = (unsigned)below(94);
        if (ends_the_run(opcode) || (opcode == 65 && once_in(2)))
            continue;
        if (style == ANY || (style == ON_REGISTERS ? on_registers(opcode) : on_memory(opcode)))
            return opcode;
    }
}

static unsigned width(char operand)
{
    switch (operand) {
    case 'r':
    case '1':
        return 1;
    case '2':
        return 2;
    case '4':
    case 'o':
        return 4;
    default:
        return 8;
    }
}

static unsigned length_of(unsigned opcode)
{
    unsigned length = 1;
    for (const char *o = operands(opcode); *o != '\0'; o++)
        length += width(*o);
    return length;
}

static uint64_t operand_value(const struct compartment *c, char operand)
{
    switch (operand) {
    case 'r':
        return register_for(c);
    case 'a':
        return data_address(c);
    case 'j':
        return jump_address(c);
    case 'o':
        return once_in(4) ? edge() : below(24);
    default:
        return value_for(c);
    }
}

/* Writes instructions from address `from` on, in two rounds: first the opcodes, so that a jump can go forward as well,
   then the operands. The last instruction ends before `to`, or goes past it where `cut` is set; the window has room. */
static void write_program(struct compartment *c, uint8_t *window, uint64_t from, uint64_t to, bool cut)
{
    unsigned first = c->start_count;
    uint64_t at = from;
    bool loops = !cut && !once_in(4);
    while (at < to && c->start_count < MOST_STARTS) {
        unsigned opcode = some_opcode(c->style);
        /* Most programs go back at their end, and do not run on into what stands behind. */
        if (loops && at + length_of(opcode) + length_of(61) > to)
            opcode = 61;
        if (!cut && at + length_of(opcode) > to)
            break;
        c->starts[c->start_count++] = at;
        window[at] = (uint8_t)opcode;
        at += length_of(opcode);
    }
    if (at > c->program_end && from == 0)
        c->program_end = at;
    for (unsigned i = first; i < c->start_count; i++) {
        uint64_t place = c->starts[i] + 1;
        for (const char *o = operands(window[c->starts[i]]); *o != '\0'; o++) {
            unsigned n = width(*o);
            uint64_t value = operand_value(c, *o);
            for (unsigned j = 0; j < n; j++)
                window[place + j] = (uint8_t)(value >> (8 * (n - 1 - j)));
            place += n;
        }
    }
}

/* --- Lines. */

static void number(uint64_t n)
{
    switch (below(8)) {
    case 0:
        printf(" 0x%" PRIx64, n);
        break;
    case 1:
        printf(" 0x%" PRIX64, n);
        break;
    default:
        printf(" %" PRIu64, n);
        break;
    }
}

static void line(const char *command, unsigned count, const uint64_t *numbers)
{
    fputs(command, stdout);
    for (unsigned i = 0; i < count; i++)
        number(numbers[i]);
    putchar('\n');
}

/* C leaves the order inside a list open, so at most one of the numbers may be one of chance. */
#define LINE(command, ...) \
    line(command, sizeof((uint64_t[]){__VA_ARGS__}) / sizeof(uint64_t), (uint64_t[]){__VA_ARGS__})

static void put_line(uint64_t k, uint64_t address, const uint8_t *bytes, uint64_t count)
{
    printf("put %" PRIu64 " %" PRIu64, k, address);
    if (count > 0)
        putchar(' ');
    for (uint64_t i = 0; i < count; i++)
        printf(once_in(16) ? "%02X" : "%02x", bytes[i]);
    putchar('\n');
}

/* --- Plans. */

static uint64_t gap(void)
{
    return once_in(2) ? 0 : below(40);
}

static uint64_t some_saved(void)
{
    static const uint64_t counts[] = {1, 2, 5, 255, 256, 256};
    return PICK(counts);
}

static uint64_t some_length(void)
{
    static const uint64_t lengths[] = {8, 9, 10, 11, 16, 64, 65};
    switch (below(6)) {
    case 0:
        return PICK(lengths);
    case 1:
        return 8 + below(40);
    case 2:
        return 64 + below(MOST_WINDOW - 64 + 1);
    default:
        return 48 + below(200);
    }
}

/* Lays windows and register files behind one another in any order, with gaps. Answers the end. */
static uint64_t plan_rows(struct compartment *cs, unsigned count)
{
    unsigned order[2 * MOST_ROWS];
    uint64_t at = gap();
    for (unsigned i = 0; i < 2 * count; i++)
        order[i] = i;
    for (unsigned i = 2 * count - 1; i > 0; i--) {
        unsigned j = (unsigned)below(i + 1);
        unsigned swap = order[i];
        order[i] = order[j];
        order[j] = swap;
    }
    for (unsigned i = 0; i < count; i++) {
        cs[i].length = some_length();
        cs[i].row.max = cs[i].length - 1;
        cs[i].row.saved = some_saved();
        cs[i].start_count = 0;
        cs[i].program_end = 0;
    }
    for (unsigned i = 0; i < 2 * count; i++) {
        struct compartment *c = &cs[order[i] / 2];
        if (order[i] % 2 == 0) {
            c->row.off = at;
            at += c->length;
        } else {
            c->row.file = at;
            at += FILE_BYTES;
        }
        at += gap();
    }
    return at;
}

static void spoil(struct row *row, uint64_t laid)
{
    switch (below(8)) {
    case 0:
        row->max = below(7);
        break;
    case 1:
        row->saved = once_in(2) ? 0 : 257 + below(1000);
        break;
    case 2:
        row->off = once_in(2) ? laid - row->max : edge();
        break;
    case 3:
        row->file = laid - FILE_BYTES + 1 + below(3);
        break;
    case 4:
        row->file = row->off + row->max;
        break;
    case 5:
        row->off = row->file + FILE_BYTES - 1;
        break;
    case 6:
        row->max = edge();
        break;
    default:
        row->off = below(laid);
        break;
    }
}

static void row_line(struct row row)
{
    LINE("row", row.off, row.max, row.file, row.saved);
}

/* Prints rows and a lay, spoiled where asked. */
static void lay_lines(const struct compartment *cs, unsigned count, uint64_t laid, bool spoiled)
{
    unsigned which = (unsigned)below(count);
    for (unsigned i = 0; i < count; i++) {
        struct row row = cs[i].row;
        if (spoiled && i == which)
            spoil(&row, laid);
        row_line(row);
    }
    if (spoiled && once_in(8))
        LINE("lay", UINT64_C(4294967297));
    else
        LINE("lay", spoiled && once_in(8) ? laid - 1 - below(laid) : laid);
}

static void memory_line(uint64_t size)
{
    uint64_t flat = below(size + 1);
    switch (below(3)) {
    case 0:
        LINE("memory flat", size);
        break;
    case 1:
        LINE("memory words", (size + 7) / 8);
        break;
    default:
        LINE("memory spliced", flat, (size - flat + 7) / 8);
        break;
    }
}

/* --- Calls. */

/* Most instructions name the registers 0 to 5. */
static void set_registers(const struct compartment *c, uint64_t k)
{
    for (unsigned i = 0; i < 6; i++)
        LINE("set", k, i, value_for(c));
    uint64_t index = register_for(c);
    LINE("set", k, index, value_for(c));
}

static void set_start(const struct compartment *c, uint64_t k)
{
    static const uint64_t wraps[] = {UINT64_MAX, UINT64_MAX - 1, UINT64_MAX - 8, UINT64_MAX - 9};
    uint64_t p = 0;
    if (once_in(3))
        p = jump_address(c);
    else if (once_in(8))
        p = once_in(2) ? end_address(c->length) : PICK(wraps);
    LINE("set", k, 256, p);
    LINE("set", k, 257, stack_for(c));
}

static void fill(struct compartment *c, uint64_t k)
{
    uint8_t window[MOST_WINDOW + LONGEST] = {0};
    uint64_t length = c->length;
    uint64_t tail = length > 40 && once_in(3) ? length - 1 - below(24) : length;
    if (once_in(2))
        for (uint64_t i = 0; i < length; i++)
            window[i] = (uint8_t)(once_in(2) ? chance() : below(94));
    c->style = (enum style)below(3);
    c->start_count = 0;
    c->program_end = 0;
    uint64_t to = once_in(4) ? length : 1 + below(length);
    write_program(c, window, 0, to, once_in(8));
    /* Some programs stand at the end of the window, with an instruction cut off there. */
    if (tail < length && tail >= c->program_end)
        write_program(c, window, tail, length, true);
    c->first_opcode = window[0];
    put_line(k, 0, window, length);
    set_registers(c, k);
    set_start(c, k);
}

/* Puts a few bytes somewhere into the window. */
static void patch(const struct compartment *c, uint64_t k)
{
    uint8_t bytes[8];
    uint64_t address = below(c->length);
    uint64_t count = below(9);
    for (unsigned i = 0; i < 8; i++)
        bytes[i] = (uint8_t)below(once_in(2) ? 94 : 256);
    put_line(k, address, bytes, count <= c->length - address ? count : c->length - address);
}

static void show(const struct compartment *c, uint64_t k)
{
    for (unsigned i = 0; i < 6; i++)
        LINE("get", k, i);
    LINE("get", k, register_for(c));
    /* Past the window the opcode at 0 is often its own register operand. */
    LINE("get", k, c->first_opcode);
    LINE("get", k, 256);
    LINE("get", k, 257);
    if (c->length <= 128 || once_in(3)) {
        LINE("fetch", k, 0, c->length);
    } else {
        uint64_t from = below(c->length - 64);
        LINE("fetch", k, from, 64);
        LINE("fetch", k, c->length - 16, 16);
    }
}

static uint64_t some_budget(void)
{
    if (once_in(400))
        return 1000000;
    switch (below(8)) {
    case 0:
        return below(3);
    case 1:
    case 2:
        return 3 + below(20);
    case 3:
        return 100 + below(900);
    default:
        return 20 + below(200);
    }
}

/* Always decimal: that takes nothing from chance, so a seed gives the same runs with these lines as without them. */
static void last_line(uint64_t k)
{
    printf("last %" PRIu64 "\n", k);
}

/* Of each compartment, and of the number behind the last row's. */
static void last_lines(unsigned count)
{
    for (unsigned k = 0; k <= count; k++)
        last_line(k);
}

static void run_line(const struct compartment *c, uint64_t k)
{
    uint64_t budget = some_budget();
    if (once_in(8))
        LINE("run", k, budget, 258);
    else
        LINE("run", k, budget);
    show(c, k);
}

/* Runs of few instructions one after the other, so that a result shows before the next one covers it. */
static void stepping_lines(const struct compartment *c, uint64_t k)
{
    unsigned count = 2 + (unsigned)below(8);
    for (unsigned i = 0; i < count; i++) {
        uint64_t index = below(6);
        if (once_in(3))
            LINE("set", k, index, value_for(c));
        LINE("run", k, 1 + below(3));
        show(c, k);
    }
}

/* A call with a ground of refusal, and often with two, so that their order shows. */
static void refused_call(const struct compartment *cs, unsigned count)
{
    static const uint64_t far[] = {UINT64_MAX, UINT64_MAX - 1, UINT64_C(1) << 63, 4294967296};
    static const uint64_t budgets[] = {1000001, 1000002, UINT64_MAX, 4294967296};
    static const uint64_t works[] = {0, 1, 256, 257, 259, 516, UINT64_MAX};
    static const uint64_t indexes[] = {258, 259, 65536, UINT64_MAX};
    uint8_t bytes[4] = {1, 2, 3, 4};
    uint64_t good = below(count);
    uint64_t k = once_in(4) ? (once_in(2) ? count : 65535) : good;
    uint64_t length = cs[good].length;
    uint64_t index = PICK(indexes);
    uint64_t work = PICK(works);
    switch (below(8)) {
    case 0:
        put_line(k, once_in(2) ? length - 1 - below(3) : PICK(far), bytes, 4);
        break;
    case 1:
        put_line(k, length + 1, bytes, 0);
        break;
    case 2:
        LINE("fetch", k, length - 3, once_in(2) ? 4 : PICK(far));
        break;
    case 3:
        LINE("set", k, index, edge());
        break;
    case 4:
        LINE("get", k, index);
        break;
    case 5:
        LINE("run", k, PICK(budgets));
        break;
    case 6:
        LINE("run", k, some_budget(), work);
        break;
    default:
        LINE("run", k, PICK(budgets), work);
        break;
    }
    show(&cs[good], good);
    last_line(k);
    last_line(good);
}

/* --- Sessions. */

static void machine_lines(struct compartment *cs, unsigned count, unsigned calls)
{
    for (unsigned k = 0; k < count; k++)
        fill(&cs[k], k);
    last_lines(count);
    for (unsigned i = 0; i < calls; i++) {
        uint64_t k = below(count);
        if (once_in(6))
            refused_call(cs, count);
        if (once_in(5))
            set_registers(&cs[k], k);
        if (i > 0 && once_in(2))
            set_start(&cs[k], k);
        if (once_in(8))
            fill(&cs[k], k);
        if (once_in(6))
            patch(&cs[k], k);
        if (once_in(2))
            stepping_lines(&cs[k], k);
        else
            run_line(&cs[k], k);
        last_lines(count);
    }
}

static void session(uint64_t i)
{
    static struct compartment cs[MOST_ROWS];
    unsigned count = 1 + (unsigned)below(MOST_ROWS);
    uint64_t laid = plan_rows(cs, count);
    uint64_t size = laid + (once_in(2) ? 0 : below(64));
    if (once_in(30))
        size = laid - 1 - below(once_in(2) ? 8 : laid);
    printf("# --- Session %" PRIu64 ".\n", i);
    memory_line(size);
    if (once_in(5))
        lay_lines(cs, count, laid, true);
    /* Without a lay the plan of an earlier session stands, which need not suit this memory. */
    bool suits = !once_in(30);
    if (suits)
        lay_lines(cs, count, laid, false);
    puts("make");
    /* Where all calls may be refused, few are enough. */
    machine_lines(cs, count, suits && size >= laid ? 3 + (unsigned)below(6) : 2);
    puts("release");
    /* The bytes stay where they are from one machine to the next. */
    if (once_in(6)) {
        puts("make");
        last_lines(count);
        run_line(&cs[0], 0);
        last_lines(count);
        puts("release");
    }
}

/* Some scripts end at a line that cannot be performed. */
static void stopping_line(void)
{
    static const char *const lines[] = {
        "run", "run 0", "run k 1", "run 65536 1", "run 0 -1", "run 0 18446744073709551616", "run 0 1 all",
        "run 0 1 18446744073709551616", "run 0 1 258 1", "run 0 1", "run 0 1 0", "get 0 256", "put 0 0 0", "release",
        "last", "last k", "last 65536", "last 0 1", "last 0",
    };
    puts(PICK(lines));
}

static bool argument(const char *text, uint64_t *number)
{
    char *end;
    *number = strtoull(text, &end, 10);
    return text[0] >= '0' && text[0] <= '9' && *end == '\0';
}

int main(int argc, char **argv)
{
    uint64_t seed, sessions;
    if (argc != 3 || !argument(argv[1], &seed) || !argument(argv[2], &sessions)) {
        fputs("generate: SEED SESSIONS\n", stderr);
        return 1;
    }
    state = seed;
    for (uint64_t i = 0; i < sessions; i++)
        session(i);
    if (once_in(4))
        stopping_line();
    return fflush(stdout) == 0 ? 0 : 1;
}
