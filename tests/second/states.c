/* states.c: runs the table of states.txt over the model.
 * Part of the second program, written from documents 01 and 02 alone.
 *
 *   states states.txt    exit status 0 if every case holds */
#include "model.h"

#include <stdio.h>
#include <stdlib.h>
#include <string.h>

enum { FIELDS = 8, LINE_SIZE = 1024, LOG_LINE_SIZE = 64, CHANGED_SIZE = 9 };
enum { NAME, BEFORE, WINDOW, STEP, LOG_LINE, AFTER, MEMORY, CHANGED };

struct test_case {
    char *field[FIELDS];
    struct controller before, after;
    struct window window;
    uint32_t base;              /* memory word i holds base + i before */
    struct step step;
    bool changes;               /* one memory word differs afterwards */
    uint32_t place, value;
};

/* Reads a hexadecimal number and moves on; false if there is none. */
static bool take_number(char **at, uint32_t *number)
{
    char *end;
    unsigned long v = strtoul(*at, &end, 16);

    if (end == *at || end - *at > 9 || v > UINT32_MAX)
        return false;
    *at = end;
    *number = (uint32_t)v;
    return true;
}

static bool take_numbers(char *at, uint32_t *to[], size_t n)
{
    for (size_t i = 0; i < n; i++)
        if (!take_number(&at, to[i]))
            return false;
    return *at == '\0';
}

/* FILL or FILL:WORD,WORD,... */
static bool take_fifo(char *at, struct fifo *f)
{
    size_t i = 0;

    memset(f, 0, sizeof *f);
    if (!take_number(&at, &f->fill))
        return false;
    while (*at == (i == 0 ? ':' : ',') && i < FIFO_WORDS) {
        at++;
        if (!take_number(&at, &f->word[i++]))
            return false;
    }
    return *at == '\0';
}

static uint32_t *register_named(struct controller *c, const char *key)
{
    struct { const char *name; uint32_t *to; } table[] = {
        { "mail0", &c->mail[0] }, { "mail1", &c->mail[1] },
        { "mail2", &c->mail[2] }, { "mail3", &c->mail[3] },
        { "mail4", &c->mail[4] }, { "mail5", &c->mail[5] },
        { "mail6", &c->mail[6] }, { "mail7", &c->mail[7] },
        { "marks", &c->marks },
        { "waddr", &c->write_address }, { "wcount", &c->write_count },
        { "raddr", &c->read_address }, { "rcount", &c->read_count },
        { "intcsr", &c->intcsr }, { "mcsr", &c->mcsr },
        { "aint", &c->aint },
        { "wright", &c->write_right }, { "rright", &c->read_right }
    };

    for (size_t i = 0; i < sizeof table / sizeof table[0]; i++)
        if (strcmp(key, table[i].name) == 0)
            return table[i].to;
    return NULL;
}

/* One KEY=VALUE. */
static bool take_difference(char *item, struct controller *c)
{
    char *value = strchr(item, '=');
    uint32_t *to;

    if (value == NULL)
        return false;
    *value++ = '\0';
    if (strcmp(item, "pcififo") == 0)
        return take_fifo(value, &c->to_addon);
    if (strcmp(item, "addonfifo") == 0)
        return take_fifo(value, &c->to_pci);
    to = register_named(c, item);
    return to != NULL && take_number(&value, to) && *value == '\0';
}

/* "-" or KEY=VALUE parted by spaces. */
static bool take_state(char *text, struct controller *c)
{
    if (strcmp(text, "-") == 0)
        return true;
    for (char *item = strtok(text, " "); item; item = strtok(NULL, " "))
        if (!take_difference(item, c))
            return false;
    return true;
}

static bool take_memory(char *text, struct test_case *t)
{
    t->changes = strcmp(text, "-") != 0;
    if (!t->changes)
        return true;
    return take_number(&text, &t->place) && *text++ == '='
        && take_number(&text, &t->value) && *text == '\0'
        && t->place < t->window.count;
}

/* Splits the line at " | "; false if there are not eight fields. */
static bool split(char *line, char *field[FIELDS])
{
    static const char bar[] = " | ";

    for (int i = 0; i < FIELDS; i++) {
        char *end = strstr(line, bar);

        field[i] = line;
        if ((end == NULL) != (i == FIELDS - 1))
            return false;
        if (end != NULL) {
            *end = '\0';
            line = end + sizeof bar - 1;
        }
    }
    return true;
}

static bool take_case(char *line, struct test_case *t)
{
    uint32_t *window[] = { &t->window.start, &t->window.count, &t->base };
    uint32_t *step[] = { &t->step.kind, &t->step.offset,
                         &t->step.enables, &t->step.data };

    memset(t, 0, sizeof *t);
    if (!split(line, t->field) || !take_state(t->field[BEFORE], &t->before))
        return false;
    t->after = t->before;
    return take_state(t->field[AFTER], &t->after)
        && take_numbers(t->field[WINDOW], window, 3)
        && take_numbers(t->field[STEP], step, 4)
        && take_memory(t->field[MEMORY], t);
}

static bool memory_as_written(const struct test_case *t)
{
    for (uint32_t i = 0; i < t->window.count; i++) {
        bool changed = t->changes && i == t->place;

        if (t->window.words[i] != (changed ? t->value : t->base + i))
            return false;
    }
    return true;
}

/* Makes the step on a window already filled, and compares everything. */
static bool case_holds(struct test_case *t)
{
    char line[LOG_LINE_SIZE], changed[CHANGED_SIZE];
    struct controller chip = t->before;
    struct answer a = model_step(&chip, &t->window, &t->step);
    bool line_same, state_same, memory_same, changed_same;

    snprintf(line, sizeof line, "%02X%08X%08X%X%X%X %s", (unsigned)a.code,
             (unsigned)a.address, (unsigned)a.data, (unsigned)a.enables,
             (unsigned)a.line, (unsigned)a.addon_line,
             model_label[ENGLISH][a.code]);
    snprintf(changed, sizeof changed, "%08X", (unsigned)a.changed);
    line_same = strcmp(line, t->field[LOG_LINE]) == 0;
    state_same = model_same(&chip, &t->after);
    memory_same = memory_as_written(t);
    changed_same = strcmp(changed, t->field[CHANGED]) == 0;
    if (!line_same)
        printf("%s: line is %s, not %s\n", t->field[NAME], line,
               t->field[LOG_LINE]);
    if (!state_same)
        printf("%s: state afterwards differs\n", t->field[NAME]);
    if (!memory_same)
        printf("%s: memory afterwards differs\n", t->field[NAME]);
    if (!changed_same)
        printf("%s: marks changed are %s, not %s\n", t->field[NAME],
               changed, t->field[CHANGED]);
    return line_same && state_same && memory_same && changed_same;
}

/* Lends a window of exactly the size asked for, none for zero words. */
static bool run_case(struct test_case *t)
{
    uint32_t n = t->window.count;
    bool holds;

    if (n > 0) {
        t->window.words = malloc(n * sizeof *t->window.words);
        if (t->window.words == NULL) {
            perror("states");
            exit(2);
        }
    }
    for (uint32_t i = 0; i < n; i++)
        t->window.words[i] = t->base + i;
    holds = case_holds(t);
    free(t->window.words);
    return holds;
}

static bool run_table(FILE *table)
{
    char line[LINE_SIZE];
    unsigned number = 0, cases = 0, failed = 0;
    struct test_case t;

    while (fgets(line, sizeof line, table) != NULL) {
        number++;
        line[strcspn(line, "\n")] = '\0';
        if (line[0] == '#' || line[0] == '\0')
            continue;
        cases++;
        if (!take_case(line, &t)) {
            printf("line %u: not a case\n", number);
            failed++;
        } else if (!run_case(&t)) {
            failed++;
        }
    }
    printf("states: %u cases, %u failed\n", cases, failed);
    return cases > 0 && failed == 0 && !ferror(table);
}

int main(int argc, char **argv)
{
    FILE *table;
    bool good;

    if (argc != 2) {
        fputs("usage: states states.txt\n", stderr);
        return 2;
    }
    table = fopen(argv[1], "r");
    if (table == NULL) {
        perror(argv[1]);
        return 2;
    }
    good = run_table(table);
    fclose(table);
    return good ? 0 : 1;
}
