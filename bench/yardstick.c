/* What bench/run measures the program against beside wc: the same work on the same files, written plainly and without
 * any proof. It reads inputs of clauses, edges and `distance_leq` predicates, prints them, and checks models of clauses
 * and refutations by chains. It trusts its input: bench/make.py wrote it.
 *
 *     cc -O2 -o yardstick bench/yardstick.c && ./yardstick check FILE ANSWER, ./yardstick print FILE
 */
#include <stdio.h>
#include <stdlib.h>
#include <string.h>

typedef struct { char *at, *end; } Text;
typedef struct { long *items; size_t len, room; } List;

static Text read_file(const char *name) {
    FILE *file = fopen(name, "rb");
    if (!file) { perror(name); exit(4); }
    fseek(file, 0, SEEK_END);
    size_t size = ftell(file);
    rewind(file);
    char *bytes = malloc(size + 1);
    if (fread(bytes, 1, size, file) != size) exit(4);
    bytes[size] = '\n';
    fclose(file);
    return (Text){bytes, bytes + size};
}

static void push(List *list, long item) {
    if (list->len == list->room) {
        list->room = list->room ? 2 * list->room : 1024;
        list->items = realloc(list->items, list->room * sizeof(long));
    }
    list->items[list->len++] = item;
}

static int is_blank(char c) { return c == ' ' || c == '\t' || c == '\r'; }

/* The next number of the line; 0 where the line ends. */
static int number(Text *text, long *value) {
    char *at = text->at;
    while (is_blank(*at)) at++;
    int negative = *at == '-';
    if (negative) at++;
    if (*at < '0' || *at > '9') { text->at = at; return 0; }
    long n = 0;
    while (*at >= '0' && *at <= '9') n = 10 * n + (*at++ - '0');
    text->at = at;
    *value = negative ? -n : n;
    return 1;
}

static void next_line(Text *text) { text->at = (char *)memchr(text->at, '\n', text->end + 1 - text->at) + 1; }

/* The word at the front of the line, passed over. */
static int word(Text *text, const char *word) {
    size_t len = strlen(word);
    if ((size_t)(text->end - text->at) < len || memcmp(text->at, word, len) || !is_blank(text->at[len])) return 0;
    text->at += len;
    return 1;
}

static List clauses, ends, edges, atoms, graphs;
static long variables;

static void fields(Text *text, List *list) {
    long value;
    while (number(text, &value)) push(list, value);
}

static void read_input(Text text) {
    long value;
    for (; text.at < text.end; next_line(&text)) {
        if (word(&text, "p gnf") || word(&text, "p cnf")) { number(&text, &variables); continue; }
        if (word(&text, "digraph int")) { fields(&text, &graphs); continue; }
        if (word(&text, "edge")) {
            fields(&text, &edges);
            long x = edges.items[edges.len - 2];
            if (x > variables) variables = x;
            continue;
        }
        if (word(&text, "distance_leq")) { fields(&text, &atoms); continue; }
        while (number(&text, &value)) {
            if (!value) { push(&ends, clauses.len); continue; }
            push(&clauses, value);
            if (labs(value) > variables) variables = labs(value);
        }
    }
}

static char *put(char *out, long n) {
    char digits[24];
    int count = 0;
    if (n < 0) { *out++ = '-'; n = -n; }
    do { digits[count++] = '0' + n % 10; n /= 10; } while (n);
    while (count) *out++ = digits[--count];
    *out++ = ' ';
    return out;
}

static char *put_rows(char *out, const char *name, List list, int width) {
    for (size_t k = 0; k < list.len; k += width) {
        out += sprintf(out, "%s ", name);
        for (int j = 0; j < width; j++) out = put(out, list.items[k + j]);
        out[-1] = '\n';
    }
    return out;
}

static int print(void) {
    char *text = malloc(64 + 24 * (clauses.len + ends.len + 8 * edges.len + 8 * atoms.len + 8 * graphs.len)), *out = text;
    out += sprintf(out, "p gnf %ld %zu\n", variables, ends.len);
    out = put_rows(out, "digraph int", graphs, 3);
    out = put_rows(out, "edge", edges, 5);
    out = put_rows(out, "distance_leq", atoms, 5);
    size_t k = 0;
    for (size_t c = 0; c < ends.len; c++) {
        while (k < (size_t)ends.items[c]) out = put(out, clauses.items[k++]);
        *out++ = '0';
        *out++ = '\n';
    }
    return fwrite(text, 1, out - text, stdout) == (size_t)(out - text) ? 0 : 5;
}

static int check_model(Text text) {
    char *values = calloc(variables + 1, 1);
    long value;
    for (; text.at < text.end; next_line(&text)) {
        if (!word(&text, "v")) return 1;
        while (number(&text, &value) && value) {
            if (labs(value) > variables || values[labs(value)]) return 1;
            values[labs(value)] = value > 0 ? 1 : 2;
        }
    }
    size_t k = 0;
    for (size_t c = 0; c < ends.len; c++) {
        int is_true = 0;
        for (; k < (size_t)ends.items[c]; k++) {
            long lit = clauses.items[k];
            is_true |= values[labs(lit)] == (lit > 0 ? 1 : 2);
        }
        if (!is_true) return 1;
    }
    return 0;
}

/* Whether a literal is in the set of the chain: places by literal, members in a list. */
static long *places;
static List members;
static size_t slot(long lit) { return 2 * labs(lit) + (lit < 0); }
static void add(long lit) {
    if (places[slot(lit)]) return;
    push(&members, lit);
    places[slot(lit)] = members.len;
}
static void take(long lit) {
    size_t place = places[slot(lit)];
    long last = members.items[--members.len];
    members.items[place - 1] = last;
    places[slot(last)] = place;
    places[slot(lit)] = 0;
}

static int check_refutation(Text text) {
    places = calloc(2 * variables + 2, sizeof(long));
    int is_empty = 0;
    long value;
    for (; text.at < text.end; next_line(&text)) {
        if (!word(&text, "chain")) return 1;
        size_t start = clauses.len;
        while (number(&text, &value) && value) push(&clauses, value);
        is_empty = clauses.len == start;
        while (members.len) take(members.items[members.len - 1]);
        for (int first = 1; number(&text, &value); first = 0) {
            if (value < 1 || (size_t)value > ends.len) return 1;
            size_t from = value > 1 ? ends.items[value - 2] : 0, to = ends.items[value - 1];
            long clash = 0;
            for (size_t k = from; k < to; k++)
                if (places[slot(-clauses.items[k])]) {
                    if (clash) return 1;
                    clash = clauses.items[k];
                }
            if (!first && !clash) return 1;
            if (!first) take(-clash);
            for (size_t k = from; k < to; k++)
                if (first || clauses.items[k] != clash) add(clauses.items[k]);
        }
        size_t covered = 0;
        for (size_t k = start; k < clauses.len; k++) covered += places[slot(clauses.items[k])] != 0;
        if (covered < members.len) return 1;
        push(&ends, clauses.len);
    }
    return !is_empty;
}

int main(int count, char **words) {
    if (count < 3) return 2;
    read_input(read_file(words[2]));
    if (!strcmp(words[1], "print")) return print();
    Text answer = read_file(words[3]);
    int is_model = !memcmp(answer.at, "s SATISFIABLE", 13);
    next_line(&answer);
    int wrong = is_model ? check_model(answer) : check_refutation(answer);
    puts(wrong ? "rejected" : is_model ? "accepted model" : "accepted refutation");
    return wrong;
}
