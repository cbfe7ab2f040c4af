// A whole check of a file of the shape `long`, in plain C and without proofs: it reads the file by
// the grammar that this shape uses, once, into boxes of the sizes that the public types have; gives
// each variable its sort and judges the formulas in one walk; compares the step with the procedure;
// and lets all go. What it can't read or judge ends it. Prints its user seconds for reading,
// judging, comparing and letting go.
#include <fcntl.h>
#include <stdint.h>
#include <stdio.h>
#include <stdlib.h>
#include <string.h>
#include <sys/resource.h>
#include <sys/stat.h>
#include <unistd.h>

typedef struct { unsigned char bytes[14], length, kind; } __attribute__((aligned(8))) Text;
typedef struct { Text name; char sort, rest[2]; } Var;
typedef struct Term {
    uint64_t kind;
    union { Var var; int64_t integer; struct Term *parts[2]; };
} Term;
typedef struct Formula {
    uint64_t kind;
    union {
        struct Formula *parts[2];
        struct { Var bound; struct Formula *inner; };
        Term compared[2];
        struct { Term name, id; struct Formula *kids; Term list; };
        Var var;
    };
} Formula;

enum { PROG, LOGIC, INTEGER, SUM };
enum { EMPTY, JOINED, PLUS, EXISTS, EQUAL, NODE, TREE, ROOT, VARIABLE };
enum { BLANK = 1, LETTER, OPENS, CLOSES };
enum { MOST_OPEN = 100, MOST_NAMES = 8 };

static const unsigned char *here, *end;
static unsigned char kinds[256];
static int open_now;
static struct Names { Var all[MOST_NAMES]; int count; } names[2];

static void refuse(void) { puts("refused"); exit(1); }

// Tokens.
static inline void pass_blanks(void) { while (here < end && kinds[*here] == BLANK) here++; }

static inline int skip(char sign) {
    if (here == end || *here != sign) return 0;
    if (kinds[*here] == OPENS && ++open_now > MOST_OPEN) refuse();
    if (kinds[*here] == CLOSES) open_now--;
    here++, pass_blanks();
    return 1;
}

static inline void expect(char sign) { if (!skip(sign)) refuse(); }

static inline int skip_word(const char *word, int length) {
    if (end - here < length || memcmp(here, word, length)) return 0;
    if (here + length < end && kinds[here[length]] == LETTER) return 0;
    here += length, pass_blanks();
    return 1;
}

static inline void expect_word(const char *word, int length) {
    if (!skip_word(word, length)) refuse();
}

#define SKIP(word) skip_word(word, sizeof word - 1)
#define EXPECT(word) expect_word(word, sizeof word - 1)

static inline void read_name(Text *name) {
    const unsigned char *from = here;
    while (here < end && kinds[*here] == LETTER) here++;
    int length = here - from;
    if (length < 1 || length > 14) refuse();
    memset(name, 0, sizeof *name);
    memcpy(name->bytes, from, length);
    name->length = length;
    pass_blanks();
}

static inline void read_logic_name(Text *name) {
    if (here == end || *here++ != '$') refuse();
    read_name(name);
}

// Terms and formulas.
static void *box(size_t bytes) {
    void *made = malloc(bytes);
    if (made == NULL) refuse();
    return made;
}

static void read_term(Term *term);

static void read_sum(Term *term) {
    term->kind = SUM;
    read_term(term->parts[0] = box(sizeof *term));
    expect('+');
    read_term(term->parts[1] = box(sizeof *term));
    expect('}');
}

static void read_term(Term *term) {
    if (*here == '$') {
        term->kind = LOGIC;
        read_logic_name(&term->var.name);
    } else if (*here >= '0' && *here <= '9') {
        term->kind = INTEGER, term->integer = 0;
        while (*here >= '0' && *here <= '9') term->integer = 10 * term->integer + *here++ - '0';
        pass_blanks();
    } else if (skip('{')) {
        read_sum(term);
    } else {
        term->kind = PROG;
        read_name(&term->var.name);
    }
}

static Formula *made(int kind) {
    Formula *formula = box(sizeof *formula);
    formula->kind = kind;
    return formula;
}

static Formula *read_formula(void);

static Formula *read_within(int kind, char closing) {
    Formula *inner = read_formula();
    expect(closing);
    Formula *formula = made(kind);
    formula->parts[0] = inner;
    return formula;
}

static Formula *read_bracket(void) {
    if (*here == 'e' && SKIP("exists")) {
        Formula *formula = made(EXISTS);
        read_logic_name(&formula->bound.name);
        expect('.');
        formula->inner = read_formula();
        expect(')');
        return formula;
    }
    Formula *left = read_formula();
    int kind = skip('+') ? PLUS : JOINED;
    if (kind == JOINED && !SKIP("and") && !SKIP("or")) {
        if (end - here < 2 || here[0] != '-' || here[1] != '>') refuse();
        here += 2, pass_blanks();
    }
    Formula *right = read_formula();
    expect(')');
    Formula *formula = made(kind);
    formula->parts[0] = left, formula->parts[1] = right;
    return formula;
}

static Formula *read_from_term(void) {
    Term first, id;
    read_term(&first);
    if (skip('=')) {
        Formula *formula = made(EQUAL);
        formula->compared[0] = first;
        read_term(&formula->compared[1]);
        return formula;
    }
    if (skip('#')) {
        read_term(&id);
        expect('[');
        Formula *formula = read_within(NODE, ']');
        Formula *kids = formula->parts[0];
        expect('%');
        formula->name = first, formula->id = id, formula->kids = kids;
        read_term(&formula->list);
        return formula;
    }
    if (first.kind != LOGIC) refuse();
    Formula *formula = made(VARIABLE);
    formula->var = first.var;
    return formula;
}

static Formula *read_formula(void) {
    if (here == end) refuse();
    if (skip('(')) return read_bracket();
    if (skip('[')) return read_within(ROOT, ']');
    if (skip('<')) return read_within(TREE, '>');
    if (*here == '0' && (SKIP("0f") || SKIP("0g"))) return made(EMPTY);
    return read_from_term();
}

// Sorts: each variable gets that of its declaration, and must have the one that is wanted.
static inline int same_name(const Text *a, const Text *b) { return !memcmp(a, b, sizeof *a); }

static void judge_var(Var *var, const struct Names *declared, char sort) {
    for (int i = 0; i < declared->count; i++) {
        if (!same_name(&var->name, &declared->all[i].name)) continue;
        var->sort = declared->all[i].sort;
        if (sort && var->sort != sort) refuse();
        return;
    }
    refuse();
}

static void judge_term(Term *term, char sort) {
    if (term->kind == PROG || term->kind == LOGIC) {
        judge_var(&term->var, &names[term->kind], sort);
    } else {
        if (sort != 'i') refuse();
        if (term->kind == SUM) judge_term(term->parts[0], 'i'), judge_term(term->parts[1], 'i');
    }
}

static void judge(Formula *formula, char sort) {
    switch (formula->kind) {
    case EMPTY: break;
    case EXISTS: judge_var(&formula->bound, &names[LOGIC], 0), judge(formula->inner, sort); break;
    case EQUAL:
        judge_term(&formula->compared[0], 'i'), judge_term(&formula->compared[1], 'i');
        break;
    case NODE:
        if (sort != 't') refuse();
        judge_term(&formula->name, 's'), judge_term(&formula->id, 'n');
        judge(formula->kids, 'f'), judge_term(&formula->list, 'l');
        break;
    case TREE: if (sort != 'f') refuse(); judge(formula->parts[0], 't'); break;
    case ROOT: if (sort != 'g') refuse(); judge(formula->parts[0], 't'); break;
    case VARIABLE: judge_var(&formula->var, &names[LOGIC], sort); break;
    default:
        if (formula->kind == PLUS && sort != 'g') refuse();
        judge(formula->parts[0], sort), judge(formula->parts[1], sort);
    }
}

static int same_term(const Term *a, const Term *b) {
    if (a->kind != b->kind) return 0;
    if (a->kind == INTEGER) return a->integer == b->integer;
    if (a->kind == SUM)
        return same_term(a->parts[0], b->parts[0]) && same_term(a->parts[1], b->parts[1]);
    return same_name(&a->var.name, &b->var.name) && a->var.sort == b->var.sort;
}

static int same(const Formula *a, const Formula *b) {
    if (a->kind != b->kind) return 0;
    switch (a->kind) {
    case EMPTY: return 1;
    case EXISTS: return same_name(&a->bound.name, &b->bound.name) && same(a->inner, b->inner);
    case EQUAL:
        return same_term(&a->compared[0], &b->compared[0])
            && same_term(&a->compared[1], &b->compared[1]);
    case NODE:
        return same_term(&a->name, &b->name) && same_term(&a->id, &b->id)
            && same_term(&a->list, &b->list) && same(a->kids, b->kids);
    case TREE: case ROOT: return same(a->parts[0], b->parts[0]);
    case VARIABLE: return same_name(&a->var.name, &b->var.name);
    default: return same(a->parts[0], b->parts[0]) && same(a->parts[1], b->parts[1]);
    }
}

static void let_term_go(Term *term) {
    if (term->kind != SUM) return;
    for (int i = 0; i < 2; i++) let_term_go(term->parts[i]), free(term->parts[i]);
}

static void let_go(Formula *formula) {
    switch (formula->kind) {
    case EMPTY: case VARIABLE: break;
    case EXISTS: let_go(formula->inner); break;
    case EQUAL: let_term_go(&formula->compared[0]), let_term_go(&formula->compared[1]); break;
    case NODE: let_go(formula->kids); break;
    case TREE: case ROOT: let_go(formula->parts[0]); break;
    default: let_go(formula->parts[0]), let_go(formula->parts[1]);
    }
    free(formula);
}

// The file.
static void declare(struct Names *declared, const Text *name, char sort) {
    if (declared->count == MOST_NAMES) refuse();
    declared->all[declared->count].name = *name;
    declared->all[declared->count++].sort = sort;
}

static void read_logic_line(void) {
    Text sort, name;
    read_name(&sort);
    do read_logic_name(&name), declare(&names[LOGIC], &name, sort.bytes[0]); while (skip(','));
    expect(';');
}

static char read_header(void) {
    Text name, sort;
    EXPECT("domlogic"), EXPECT("1");
    while (SKIP("logic")) read_logic_line();
    EXPECT("proc"), read_name(&name), expect('(');
    read_name(&name), expect(':'), read_name(&sort), declare(&names[PROG], &name, sort.bytes[0]);
    expect(')'), EXPECT("returns"), expect('('), expect(')'), EXPECT("sort"), read_name(&sort);
    return sort.bytes[0];
}

static void read_formulas(Formula **read) {
    EXPECT("requires"), read[0] = read_formula(), EXPECT("ensures"), read[1] = read_formula();
    EXPECT("body"), EXPECT("skip"), EXPECT("proof"), EXPECT("step"), EXPECT("1"), EXPECT("by");
    EXPECT("skip"), expect('('), expect(')'), expect(':'), EXPECT("pre"), read[2] = read_formula();
    EXPECT("do"), EXPECT("skip"), EXPECT("post"), read[3] = read_formula(), EXPECT("at");
    EXPECT("g"), expect(';'), EXPECT("end");
    if (here != end) refuse();
}

static double seconds(void) {
    struct rusage used;
    getrusage(RUSAGE_SELF, &used);
    return used.ru_utime.tv_sec + used.ru_utime.tv_usec / 1e6;
}

static void name_kinds(void) {
    for (int c = '0'; c <= '9'; c++) kinds[c] = LETTER;
    for (int c = 'a'; c <= 'z'; c++) kinds[c] = kinds[c - 32] = LETTER;
    kinds['_'] = LETTER, kinds[' '] = kinds['\n'] = BLANK;
    kinds['('] = kinds['['] = kinds['{'] = kinds['<'] = OPENS;
    kinds[')'] = kinds[']'] = kinds['}'] = kinds['>'] = CLOSES;
}

int main(int count, char **words) {
    struct stat told;
    Formula *read_in[4];
    double at[5];
    int file = count == 2 ? open(words[1], O_RDONLY) : -1;
    if (file < 0 || fstat(file, &told)) return 2;
    unsigned char *bytes = box(told.st_size + 1);
    bytes[told.st_size] = 0;
    if (read(file, bytes, told.st_size) != told.st_size) return 2;
    name_kinds();
    at[0] = seconds();
    here = bytes, end = bytes + told.st_size;
    char sort = read_header();
    read_formulas(read_in);
    at[1] = seconds();
    for (int i = 0; i < 4; i++) judge(read_in[i], sort);
    at[2] = seconds();
    if (!same(read_in[2], read_in[3]) || !same(read_in[0], read_in[2])
        || !same(read_in[1], read_in[3])) refuse();
    at[3] = seconds();
    for (int i = 0; i < 4; i++) let_go(read_in[i]);
    free(bytes);
    at[4] = seconds();
    printf("%.3f", at[4] - at[0]);
    for (int i = 0; i < 4; i++) printf(" %.3f", at[i + 1] - at[i]);
    puts("");
}
