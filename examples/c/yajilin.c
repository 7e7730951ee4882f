/*
 * yajilin FILE                      writes the clauses of the grid record in FILE as DIMACS text
 * yajilin --solve [OPTION ..] FILE  searches them, and prints the drawing's bytes in hexadecimal, a row a line;
 *                                   or `none`, or `halted`
 *     --steps N                     the search is halted after N steps (without this there is no limit)
 *     --sheet                       prints the proof sheet in place of the bytes
 *     --why CELL                    prints in place of them why the cell, counted from 0, is black or white: a choice of the
 *                                   search, or a clause, with its literals in words, a literal a line
 * yajilin --numbers CELL N|E|S|W [--steps N] FILE
 *                                   what a number on an arrow in that shaded cell would allow: for each number of black cells
 *                                   that the line from there has in some solution, a line with it and in how many; and
 *                                   `halted` if the budget was used up, so that there may be more
 * yajilin --satisfied FILE          reads value lists on standard input, each its literals and 0 (a variable that isn't named
 *                                   is false), and prints a line for each: `yes` if it satisfies the clauses, else `no`
 *
 * Exit status: 0 written, found or none, counted, lists read; 1 bad input; 2 bad usage; 3 halted.
 */
#include <errno.h>
#include <stdio.h>
#include <stdlib.h>
#include <string.h>

#include "yajilin.h"

enum { FAILED = 1, USAGE = 2, HALTED = 3 };

/* A record's length field has 16 bits. One byte more is read, so that a longer file is refused. */
enum { MOST_BYTES = 65536 };

/* The value lists of a batch, one for each bit of a word. */
enum { LISTS = 64 };

static uint8_t record[MOST_BYTES];
static size_t record_bytes;

/* A grid's clauses. */
struct clauses {
    int32_t *list;
    size_t length;
    uint64_t variables;
};

/* What a search leaves: literals, and beside each its mark and the number of its clause. */
struct trail {
    int32_t *literals;
    uint8_t *marks;
    uint64_t *numbers;
};

/* What the command line asks for. */
struct request {
    int solving;
    int as_sheet;
    int why;
    uint64_t cell;
    int tally;
    unsigned direction;
    int satisfied;
    uint64_t budget;
    const char *name;
};

/* Words for the refusals that a record, or a cell that is asked about, can get. */
static const char *cause(uint64_t number)
{
    switch (number) {
    case YAJILIN_RECORD_LENGTH: return "not a record: under 6 bytes, or its length field isn't the file's length";
    case YAJILIN_KIND: return "not a grid record: its kind isn't 1, 2 or 3";
    case YAJILIN_SIDES: return "a side isn't 1 to 24 (in kind 2: 1 to 45)";
    case YAJILIN_CELL_COUNT: return "the record's length doesn't fit its kind and sides";
    case YAJILIN_CELL_BYTE: return "a cell's code that isn't allowed";
    case YAJILIN_TALLY: return "the cell isn't shaded, or isn't on the board";
    default: return "turned down";
    }
}

static void refuse(const char *what, uint64_t number, const uint64_t answer[4])
{
    fprintf(stderr, "yajilin: %s: refused %llu: %s", what, (unsigned long long)number, cause(number));
    if (number == YAJILIN_CELL_BYTE)
        fprintf(stderr, " (cell %llu, counted from 0)", (unsigned long long)answer[0]);
    fputc('\n', stderr);
    exit(FAILED);
}

/* Zeros, so that no buffer begins with indeterminate bytes. */
static void *room(uint64_t count, size_t size)
{
    void *p = calloc(count ? count : 1, size);
    if (p == NULL) {
        fprintf(stderr, "yajilin: out of memory for %llu elements\n", (unsigned long long)count);
        exit(FAILED);
    }
    return p;
}

static void read_record(const char *name)
{
    FILE *f = fopen(name, "rb");
    if (f == NULL) {
        fprintf(stderr, "yajilin: %s: %s\n", name, strerror(errno));
        exit(FAILED);
    }
    record_bytes = fread(record, 1, sizeof record, f);
    if (ferror(f)) {
        fprintf(stderr, "yajilin: %s: %s\n", name, strerror(errno));
        exit(FAILED);
    }
    fclose(f);
}

/* With no room at all the encoder says how much it needs. */
static struct clauses encode(const char *name)
{
    struct clauses c;
    uint64_t answer[4];
    uint64_t number = yajilin_encode(record, record_bytes, NULL, 0, answer);
    if (number != YAJILIN_ROOM)
        refuse(name, number, answer);
    c.length = answer[0];
    c.list = room(c.length, sizeof *c.list);
    number = yajilin_encode(record, record_bytes, c.list, c.length, answer);
    if (number != 0)
        refuse(name, number, answer);
    c.variables = answer[1];
    return c;
}

static int print_text(const struct clauses *c)
{
    uint64_t answer[4];
    uint64_t number = yajilin_write(c->variables, c->list, c->length, NULL, 0, answer);
    if (number != YAJILIN_ROOM)
        refuse("writing", number, answer);
    uint64_t bytes = answer[0];
    uint8_t *text = room(bytes, 1);
    number = yajilin_write(c->variables, c->list, c->length, text, bytes, answer);
    if (number != 0)
        refuse("writing", number, answer);
    size_t written = fwrite(text, 1, bytes, stdout);
    free(text);
    return written == bytes ? 0 : FAILED;
}

static size_t cell_count(void)
{
    return (size_t)record[4] * record[5];
}

/* A full trail as a value for each variable. */
static uint8_t *values_of(const int32_t *trail, uint64_t variables)
{
    uint8_t *values = room(variables, 1);
    for (uint64_t i = 0; i < variables; i++) {
        if (trail[i] > 0)
            values[trail[i] - 1] = 1;
    }
    return values;
}

/* Draws what a full trail found; returns the number of cells. */
static size_t decode(const int32_t *trail, uint64_t variables, uint8_t drawing[YAJILIN_MOST_CELLS])
{
    size_t cells = cell_count();
    uint64_t answer[4];
    uint8_t *values = values_of(trail, variables);
    uint64_t number = yajilin_decode(record, record_bytes, values, variables, drawing, cells, answer);
    if (number != 0)
        refuse("decoding", number, answer);
    free(values);
    return cells;
}

static void print_bytes(const uint8_t *drawing, size_t cells)
{
    size_t columns = record[5];
    for (size_t x = 0; x < cells; x++)
        printf("%02x%c", drawing[x], (x + 1) % columns == 0 ? '\n' : ' ');
}

static void print_sheet(const uint8_t *drawing, size_t cells)
{
    uint8_t sheet[YAJILIN_MOST_SHEET_BYTES] = {0};
    uint64_t answer[4];
    uint64_t number = yajilin_sheet(record, record_bytes, drawing, cells, sheet, sizeof sheet, answer);
    if (number != 0)
        refuse("writing the sheet", number, answer);
    fwrite(sheet, 1, answer[0], stdout);
}

static void print_drawing(const int32_t *trail, uint64_t variables, int as_sheet)
{
    uint8_t drawing[YAJILIN_MOST_CELLS] = {0};
    size_t cells = decode(trail, variables, drawing);
    if (as_sheet)
        print_sheet(drawing, cells);
    else
        print_bytes(drawing, cells);
}

/* Has a cell's code two bytes? In kinds 1 and 3 it has one. */
static int is_wide(void)
{
    return record[2] == 2;
}

/* Does a clue's line stop before the next clue? In kinds 1 and 2 it goes to the edge. */
static int stops_before_clues(void)
{
    return record[2] == 3;
}

static unsigned code(size_t x)
{
    return is_wide() ? record[6 + 2 * x] | (unsigned)record[7 + 2 * x] << 8 : record[6 + x];
}

/* A clue's number is the lower four bits of its code, or the lower twelve of two bytes. */
static unsigned number_bits(void)
{
    return is_wide() ? 12 : 4;
}

static size_t clue_number(size_t x)
{
    return code(x) & ((1u << number_bits()) - 1);
}

/* What stands above the number: 0 at an open cell, 1 to 4 at a clue, which are its direction, 5 at a shaded cell. */
enum { OPEN = 0, NORTH = 1, WEST = 4, SHADED = 5 };

static const char *const directions[] = {NULL, "north", "east", "south", "west"};

static unsigned sort_of(size_t x)
{
    return code(x) >> number_bits();
}

static int is_open(size_t x)
{
    return sort_of(x) == OPEN;
}

static int is_clue(size_t x)
{
    return !is_open(x) && sort_of(x) != SHADED;
}

/* How many cells there are from a cell's neighbour in a direction to the edge. */
static size_t cells_to_edge(size_t x, unsigned d)
{
    size_t rows = record[4], columns = record[5], row = x / columns, column = x % columns;
    size_t counts[] = {row, columns - 1 - column, rows - 1 - row, column};
    return counts[d - NORTH];
}

/* The cell that is so far from a cell in a direction, where the board goes that far. */
static size_t cell_away(size_t x, unsigned d, size_t distance)
{
    size_t down = distance * record[5], cells[] = {x - down, x + distance, x + down, x - distance};
    return cells[d - NORTH];
}

/* How many cells a line from there has: to the edge, unless a clue stops it. Shaded cells are on it. */
static size_t line_length(size_t x, unsigned d)
{
    size_t length = 0, most = cells_to_edge(x, d);
    if (!stops_before_clues())
        return most;
    while (length < most && !is_clue(cell_away(x, d, length + 1)))
        length++;
    return length;
}

/* May the loop go from a cell in a direction? */
static int has_link(size_t x, unsigned d)
{
    return is_open(x) && cells_to_edge(x, d) > 0 && is_open(cell_away(x, d, 1));
}

/* The open cells before a cell. */
static size_t rank_of(size_t x)
{
    size_t rank = 0;
    for (size_t y = 0; y < x; y++) {
        if (is_open(y))
            rank++;
    }
    return rank;
}

/* The open cell with so many open cells before it. */
static size_t ranked(size_t rank)
{
    size_t x = 0;
    while (!is_open(x) || rank-- > 0)
        x++;
    return x;
}

/* The T variables of a cell: none unless it is a clue. */
static size_t counts_of(size_t x)
{
    return is_clue(x) ? (line_length(x, sort_of(x)) + 1) * (clue_number(x) + 1) : 0;
}

/*
 * What a variable says. Z: cell x is black. S: it is the start. E: the loop goes from it in direction d. Q: the start is n
 * links ahead of it. T: of the j cells at the far end of the line of the clue in x, n are black.
 */
struct meaning {
    char letter;
    size_t x;
    unsigned d;
    size_t j;
    size_t n;
};

/* Variables are numbered from 1: all Z, then all S, E, Q and T. */
static struct meaning meaning_of(size_t variable)
{
    size_t cells = cell_count(), open = rank_of(cells), left = variable - 1;
    if (left < open)
        return (struct meaning){.letter = 'Z', .x = ranked(left)};
    left -= open;
    if (left < open)
        return (struct meaning){.letter = 'S', .x = ranked(left)};
    left -= open;
    for (size_t x = 0; x < cells; x++) {
        for (unsigned d = NORTH; d <= WEST; d++) {
            if (has_link(x, d) && left-- == 0)
                return (struct meaning){.letter = 'E', .x = x, .d = d};
        }
    }
    if (left < open * open)
        return (struct meaning){.letter = 'Q', .x = ranked(left / open), .n = left % open};
    left -= open * open;
    size_t x = 0;
    while (left >= counts_of(x))
        left -= counts_of(x++);
    size_t numbers = clue_number(x) + 1;
    return (struct meaning){.letter = 'T', .x = x, .j = left / numbers, .n = left % numbers};
}

/* A variable as the reference writes it. */
static void print_variable(struct meaning m)
{
    printf("%c(%zu", m.letter, m.x);
    if (m.letter == 'E')
        printf(",%s", directions[m.d]);
    if (m.letter == 'T')
        printf(",%zu", m.j);
    if (m.letter == 'Q' || m.letter == 'T')
        printf(",%zu", m.n);
    putchar(')');
}

/* What the board has where a variable is true, or where it is false. */
static void print_words(struct meaning m, int is_true)
{
    const char *is = is_true ? "is" : "is not";
    switch (m.letter) {
    case 'Z': printf("cell %zu is %s", m.x, is_true ? "black" : "white"); break;
    case 'S': printf("cell %zu %s the start", m.x, is); break;
    case 'E': printf("the loop %s %s from cell %zu", is_true ? "goes" : "does not go", directions[m.d], m.x); break;
    case 'Q': printf("the start %s %zu link%s ahead of cell %zu", is, m.n, m.n == 1 ? "" : "s", m.x); break;
    case 'T':
        printf("of the %zu cell%s at the far end of the line of the clue in cell %zu, ", m.j, m.j == 1 ? "" : "s", m.x);
        printf("the number of black ones %s %zu", is, m.n);
        break;
    }
}

/* Where a clause begins, by its number from 1. */
static const int32_t *clause_at(const struct clauses *c, uint64_t number)
{
    const int32_t *l = c->list;
    for (; number > 1; l++) {
        if (*l == 0)
            number--;
    }
    return l;
}

/* The literals of a clause that forced one of them: the others are false. Behind each stands what the board has. */
static void print_clause(const int32_t *clause, int32_t forced)
{
    for (; *clause != 0; clause++) {
        struct meaning m = meaning_of((size_t)abs(*clause));
        int is_forced = *clause == forced;
        printf("%s", *clause < 0 ? "-" : "");
        print_variable(m);
        printf(" is %s: ", is_forced ? "forced" : "false");
        print_words(m, is_forced == (*clause > 0));
        putchar('\n');
    }
}

/* A cell that is black or white is on the board and open. */
static void check_cell(uint64_t cell)
{
    const char *why = "not on the board";
    if (cell < cell_count() && is_open(cell))
        return;
    if (cell < cell_count())
        why = sort_of(cell) == SHADED ? "shaded, so neither black nor white" : "a clue, so neither black nor white";
    fprintf(stderr, "yajilin: cell %llu: %s\n", (unsigned long long)cell, why);
    exit(FAILED);
}

/* Why a cell is black or white on a full trail. */
static void print_why(const struct clauses *c, const struct trail *t, size_t cell)
{
    int32_t z = (int32_t)rank_of(cell) + 1;
    size_t i = 0;
    while (abs(t->literals[i]) != z)
        i++;
    print_words(meaning_of((size_t)z), t->literals[i] > 0);
    if (t->numbers[i] != 0) {
        printf(": forced by clause %llu\n", (unsigned long long)t->numbers[i]);
        print_clause(clause_at(c, t->numbers[i]), t->literals[i]);
    } else {
        puts(t->marks[i] == 1 ? ": chosen, not forced" : ": white was chosen first, and failed");
    }
}

static void print_found(const struct clauses *c, const struct trail *t, const struct request *r)
{
    if (r->why)
        print_why(c, t, r->cell);
    else
        print_drawing(t->literals, c->variables, r->as_sheet);
}

static struct trail new_trail(uint64_t v)
{
    struct trail t = {room(v, sizeof *t.literals), room(v, 1), room(v, sizeof *t.numbers)};
    return t;
}

static void free_trail(struct trail *t)
{
    free(t->literals);
    free(t->marks);
    free(t->numbers);
}

static int solve(const struct clauses *c, const struct request *r)
{
    uint64_t v = c->variables, answer[4];
    struct trail t = new_trail(v);
    if (r->why)
        check_cell(r->cell);
    uint64_t number = yajilin_search(v, c->list, c->length, t.literals, v, t.marks, v, t.numbers, v, 0, r->budget, answer);
    if (number != 0)
        refuse("searching", number, answer);
    if (answer[0] == YAJILIN_FOUND)
        print_found(c, &t, r);
    else
        puts(answer[0] == YAJILIN_NONE ? "none" : "halted");
    free_trail(&t);
    return answer[0] == YAJILIN_HALTED ? HALTED : 0;
}

/* The call writes the clauses again, into the same list. */
static int print_numbers(const struct clauses *c, const struct request *r)
{
    uint64_t v = c->variables, answer[4], counters[YAJILIN_COUNTERS] = {0};
    struct trail t = new_trail(v);
    uint64_t number = yajilin_tally(record, record_bytes, r->cell, r->direction, counters, YAJILIN_COUNTERS, c->list, c->length,
                                    t.literals, v, t.marks, v, t.numbers, v, r->budget, answer);
    if (number != 0)
        refuse("counting", number, answer);
    for (int n = 0; n < YAJILIN_COUNTERS; n++) {
        if (counters[n] != 0)
            printf("%d %llu\n", n, (unsigned long long)counters[n]);
    }
    if (answer[0] == YAJILIN_HALTED)
        puts("halted");
    free_trail(&t);
    return answer[0] == YAJILIN_HALTED ? HALTED : 0;
}

static void refuse_lists(const char *why)
{
    fprintf(stderr, "yajilin: value lists: %s\n", why);
    exit(FAILED);
}

/*
 * The next literal or closing 0 on standard input. It has at most nine characters: V has at most eight digits, and there
 * may be a minus. A NUL byte ends what strtol reads but not the word, so the word's length is counted as it is read.
 */
static int read_literal(uint64_t variables, long *literal)
{
    char word[11];
    char *end;
    int begin = 0, stop = 0;
    if (scanf(" %n%10s%n", &begin, word, &stop) != 1) {
        if (ferror(stdin))
            refuse_lists(strerror(errno));
        return 0;
    }
    *literal = strtol(word, &end, 10);
    if (stop - begin == 10 || end != word + (stop - begin) || (uint64_t)labs(*literal) > variables)
        refuse_lists("not a literal of the grid's variables");
    return 1;
}

/*
 * Reads up to 64 value lists, list i into bit i of each word, and returns their number. A variable is true in a list that
 * has its literal without minus, else false.
 */
static int read_lists(uint64_t *words, uint64_t variables)
{
    int lists = 0;
    long literal = 0;
    memset(words, 0, variables * sizeof *words);
    while (lists < LISTS && read_literal(variables, &literal)) {
        if (literal > 0)
            words[literal - 1] |= (uint64_t)1 << lists;
        if (literal == 0)
            lists++;
    }
    if (literal != 0)
        refuse_lists("the last one has no 0");
    return lists;
}

/* One call for each batch. Bits without a list are not looked at. */
static int print_satisfied(const struct clauses *c)
{
    uint64_t *words = room(c->variables, sizeof *words);
    uint64_t answer[4];
    int lists;
    while ((lists = read_lists(words, c->variables)) > 0) {
        uint64_t number = yajilin_satisfied(c->variables, c->list, c->length, words, c->variables, answer);
        if (number != 0)
            refuse("reading the clauses", number, answer);
        for (int i = 0; i < lists; i++)
            puts(answer[0] >> i & 1 ? "yes" : "no");
    }
    free(words);
    return 0;
}

static int usage(void)
{
    fputs("usage: yajilin [--solve [--steps N] [--sheet | --why CELL] | --numbers CELL N|E|S|W [--steps N] | --satisfied]"
          " FILE\n", stderr);
    return USAGE;
}

/* A number in decimal digits only. */
static int read_number(const char *word, uint64_t *number)
{
    char *end;
    if (word[0] < '0' || word[0] > '9')
        return 0;
    errno = 0;
    *number = strtoull(word, &end, 10);
    return errno == 0 && *end == '\0';
}

/* A direction's letter; 0 for any other word. */
static unsigned read_direction(const char *word)
{
    static const char letters[] = "NESW";
    const char *at = strlen(word) == 1 ? strchr(letters, word[0]) : NULL;
    return at == NULL ? 0 : NORTH + (unsigned)(at - letters);
}

/* An option of --solve or --numbers at a word; returns how many words it has, 0 where there is none. */
static int read_option(int words, char **word, struct request *r)
{
    if (strcmp(word[0], "--sheet") == 0) {
        r->as_sheet = 1;
        return 1;
    }
    if (strcmp(word[0], "--steps") == 0 && words > 1 && read_number(word[1], &r->budget))
        return 2;
    if (strcmp(word[0], "--why") == 0 && words > 1 && read_number(word[1], &r->cell)) {
        r->why = 1;
        return 2;
    }
    return 0;
}

/* The options come after --solve, or after --numbers with its cell and direction, in any order. */
static int read_words(int argc, char **argv, struct request *r)
{
    int i = 1;
    if (i < argc && strcmp(argv[i], "--solve") == 0) {
        r->solving = 1;
        i++;
    } else if (argc - i > 2 && strcmp(argv[i], "--numbers") == 0) {
        r->tally = 1;
        r->direction = read_direction(argv[i + 2]);
        if (!read_number(argv[i + 1], &r->cell) || r->direction == 0)
            return 0;
        i += 3;
    } else if (i < argc && strcmp(argv[i], "--satisfied") == 0) {
        r->satisfied = 1;
        i++;
    }
    int taken = r->solving || r->tally;
    while (taken > 0 && i < argc) {
        taken = read_option(argc - i, argv + i, r);
        i += taken;
    }
    if (i + 1 != argc || strncmp(argv[i], "--", 2) == 0 || r->as_sheet + r->why + r->tally > 1)
        return 0;
    r->name = argv[i];
    return 1;
}

static int answer_request(const struct request *r, const struct clauses *c)
{
    if (r->solving)
        return solve(c, r);
    if (r->tally)
        return print_numbers(c, r);
    if (r->satisfied)
        return print_satisfied(c);
    return print_text(c);
}

int main(int argc, char **argv)
{
    struct request r = {.budget = UINT64_MAX};
    if (!read_words(argc, argv, &r))
        return usage();
    read_record(r.name);
    struct clauses c = encode(r.name);
    int status = answer_request(&r, &c);
    free(c.list);
    if (fflush(stdout) != 0 || ferror(stdout)) {
        fprintf(stderr, "yajilin: standard output: %s\n", strerror(errno));
        return FAILED;
    }
    return status;
}
