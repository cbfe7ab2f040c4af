// What a check of the file does that holds its formulas as parts in boxes, and no more: it finds
// the tokens twice, for the limits and for the grammar, takes, fills and gives back the memory of
// each part in the recorded order, and looks at each part as often as is said. It reads no grammar,
// looks up no name and compares nothing. Prints its user seconds, and what they are for.
#include <fcntl.h>
#include <stdint.h>
#include <stdio.h>
#include <stdlib.h>
#include <string.h>
#include <sys/mman.h>
#include <sys/resource.h>
#include <sys/stat.h>

enum Kind { BLANK, WORD, OPENS, CLOSES, OTHER };
static unsigned char kinds[256];
static const char part[1 << 16];

static double seconds(void) {
    struct rusage used;
    getrusage(RUSAGE_SELF, &used);
    return used.ru_utime.tv_sec + used.ru_utime.tv_usec / 1e6;
}

static void *mapped(const char *name, size_t *bytes) {
    struct stat told;
    int file = open(name, O_RDONLY);
    if (file < 0 || fstat(file, &told)) exit(1);
    *bytes = told.st_size;
    return mmap(NULL, *bytes, PROT_READ, MAP_PRIVATE | MAP_POPULATE, file, 0);
}

static void name_kinds(void) {
    memset(kinds, OTHER, sizeof kinds);
    for (int c = '0'; c <= '9'; c++) kinds[c] = WORD;
    for (int c = 'a'; c <= 'z'; c++) kinds[c] = kinds[c - 32] = WORD;
    kinds['_'] = kinds['$'] = WORD;
    kinds[' '] = kinds['\n'] = BLANK;
    kinds['('] = kinds['['] = kinds['{'] = kinds['<'] = OPENS;
    kinds[')'] = kinds[']'] = kinds['}'] = kinds['>'] = CLOSES;
}

// How many tokens there are, a symbol of several characters counted as many.
static size_t tokens(const unsigned char *text, size_t bytes, long *deepest) {
    size_t found = 0;
    long open = 0;
    for (size_t i = 0; i < bytes; i++) {
        enum Kind kind = kinds[text[i]];
        if (kind == BLANK) continue;
        while (kind == WORD && i + 1 < bytes && kinds[text[i + 1]] == WORD) i++;
        if (kind == OPENS && ++open > *deepest) *deepest = open;
        if (kind == CLOSES) open--;
        found++;
    }
    return found;
}

struct Call { uint32_t place, bytes; };

int main(int count, char **words) {
    size_t bytes, size, held = 0, most = 0, last = 0, places = 0, parts = 0;
    long deepest = 0;
    uint64_t seen = 0;
    if (count != 4) return 2;
    unsigned char *text = mapped(words[1], &bytes);
    struct Call *calls = mapped(words[2], &size);
    int looks = atoi(words[3]);
    size /= sizeof *calls;
    name_kinds();
    for (size_t i = 0; i < size; i++) {
        if (calls[i].place >= places) places = calls[i].place + 1;
        held += calls[i].bytes ? 1 : -1;
        if (held > most) most = held, last = i;
    }
    uint64_t **blocks = calloc(places, sizeof *blocks), **all = calloc(places, sizeof *all);
    memset(blocks, 0, places * sizeof *blocks);
    memset(all, 0, places * sizeof *all);
    double begin = seconds();
    size_t found = tokens(text, bytes, &deepest) + tokens(text, bytes, &deepest);
    double cut = seconds() - begin, looked = 0, aside = 0;
    for (size_t i = 0; i < size; i++) {
        struct Call call = calls[i];
        if (call.bytes) {
            blocks[call.place] = malloc(call.bytes < 16 ? 16 : call.bytes);
            memcpy(blocks[call.place], part, call.bytes < sizeof part ? call.bytes : sizeof part);
        } else {
            free(blocks[call.place]);
            blocks[call.place] = NULL;
        }
        if (i != last) continue;
        double now = seconds();
        for (size_t k = 0; k < places; k++) if (blocks[k]) all[parts++] = blocks[k];
        double then = seconds();
        for (int look = 0; look < looks; look++)
            for (size_t k = 0; k < parts; k++) seen += all[k][0] + all[k][1];
        looked = seconds() - then;
        aside = then - now;
    }
    double memory = seconds() - begin - cut - looked - aside;
    printf("%.3f %.3f %.3f %.3f %zu %zu %lu\n", cut + memory + looked, cut, memory, looked,
           found / 2, parts, (unsigned long)(seen + deepest));
}
