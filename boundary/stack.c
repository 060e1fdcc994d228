/* How deep each exported function goes into the stack, over the largest legal inputs and every refusal. Each call is
   run on a stack of its own that was painted before; what is overwritten then, less what an empty function overwrites,
   is the call's. */
#define _XOPEN_SOURCE 700
#include "../include/cantivorex.h"
#include "expect.h"
#include <string.h>
#include <ucontext.h>

/* The most bytes that each may take: what was measured, and a tenth; those with an index may take 32 KiB. */
enum { CHECK_LIMIT = 880, CLOSE_LIMIT = 477, COUNT_LIMIT = 442, PART_LIMIT = 44, INDEXED_LIMIT = 32768 };

enum { STACK = 1 << 20, FACTS = 4096, STORED = 32, HEADS = 64, NEVER = FACTS - 1 };

/* A formula's operators, and how deep one is that has two parts everywhere and 255 codes. */
enum { NOT = 32768, SINCE = 32775, TREE = 8 };

struct file {
    uint8_t bytes[65537];
    size_t len;
};

static struct file model, trace;
static uint8_t state[CANTIVOREX_STATE_BYTES], names[CANTIVOREX_NAMES_BYTES], part[65537];
static uint16_t table[CANTIVOREX_TABLE_ENTRIES], places[CANTIVOREX_INDEX_ENTRIES], firing[CANTIVOREX_LIST_ENTRIES];
static uint64_t out[CANTIVOREX_OUT_ENTRIES];

/* What a pair of files is made of, and what the check and the closing answer; the count answers as the closing. A model
   with persistent facts is of version 2, one with names in use of version 3, one with a formula, so deep, of 4. */
struct pair {
    const char *name;
    uint8_t check, close;
    size_t clauses, body, steps, last_rule, goal, persistent, names, deep;
    void (*spoil)(void);
};

/* Writing files: two bytes; a length of some bytes, which is filled in at the end; 31 facts in a row and another. */
static void word(struct file *file, size_t value)
{
    file->bytes[file->len++] = (uint8_t)(value >> 8);
    file->bytes[file->len++] = (uint8_t)value;
}

static size_t begin(struct file *file, size_t width)
{
    file->len += width;
    return file->len;
}

static void end(struct file *file, size_t start, size_t width)
{
    size_t len = file->len - start;
    for (size_t i = 1; i <= width; i++, len >>= 8)
        file->bytes[start - i] = (uint8_t)len;
}

static void list(size_t first, size_t last)
{
    word(&model, 32);
    for (size_t fact = first; fact < first + 31; fact++)
        word(&model, fact);
    word(&model, last);
}

/* Bodies of one fact make a chain that starts with fact 0; longer ones have stored facts. */
static void write_clauses(const struct pair *pair)
{
    size_t section = begin(&model, 4);
    for (size_t i = 0; i < pair->clauses; i++) {
        size_t record = begin(&model, 2);
        word(&model, HEADS + i);
        for (size_t fact = 0; fact < pair->body; fact++)
            word(&model, pair->body == 1 && i > 0 ? HEADS + i - 1 : fact);
        end(&model, record, 2);
    }
    end(&model, section, 4);
}

/* Three rules, or three attack states, with full lists. The first holds; in the second the last fact of P is missing;
   in the third the last of N is there, since the last clause gives it. From version 3 on there is a fourth rule, which
   holds and makes names 991 to 1,021 and 1,023. */
static void write_conditions(const struct pair *pair, int are_rules)
{
    size_t section = begin(&model, 4);
    int named = are_rules && (pair->names || pair->deep), count = named ? 4 : 3;
    for (int i = 0; i < count; i++) {
        size_t record = begin(&model, 2);
        list(0, i == 1 ? NEVER : STORED - 1);
        list(STORED, i == 2 ? HEADS + pair->clauses - 1 : NEVER);
        if (are_rules)
            list(0, STORED - 1);
        if (named && i < 3)
            word(&model, 0);
        if (named && i == 3)
            list(991, 1023);
        end(&model, record, 2);
    }
    end(&model, section, 4);
}

/* A section of the facts, or names, below a number. */
static void write_facts(size_t count)
{
    size_t section = begin(&model, 4);
    for (size_t fact = 0; fact < count; fact++)
        word(&model, fact);
    end(&model, section, 4);
}

/* Since over two parts that are made alike, down to fact 0, which is there. */
static void write_tree(size_t deep)
{
    word(&model, deep > 1 ? SINCE : 0);
    for (int part = 0; deep > 1 && part < 2; part++)
        write_tree(deep - 1);
}

/* One formula: a tree, which is true, or `not` above `not` above fact 0. */
static void write_formulas(size_t deep)
{
    size_t section = begin(&model, 4), record = begin(&model, 2);
    if (deep == TREE)
        write_tree(deep);
    for (size_t level = 1; deep != TREE && level <= deep; level++)
        word(&model, level < deep ? NOT : 0);
    end(&model, record, 2);
    end(&model, section, 4);
}

static void write_model(const struct pair *pair)
{
    model.bytes[0] = pair->deep ? 4 : pair->names ? 3 : pair->persistent ? 2 : 1;
    model.len = 1;
    size_t section = begin(&model, 4);
    word(&model, FACTS);
    end(&model, section, 4);
    write_facts(STORED);
    if (pair->persistent || pair->names || pair->deep)
        write_facts(pair->persistent);
    if (pair->names || pair->deep)
        write_facts(pair->names);
    write_clauses(pair);
    write_conditions(pair, 1);
    write_conditions(pair, 0);
    if (pair->deep)
        write_formulas(pair->deep);
}

static void write_trace(const struct pair *pair)
{
    trace.bytes[0] = 1;
    trace.len = 1;
    size_t section = begin(&trace, 4);
    word(&trace, pair->goal);
    for (size_t step = 0; step < pair->steps; step++)
        word(&trace, step + 1 < pair->steps ? 0 : pair->last_rule);
    end(&trace, section, 4);
}

/* The refusals: each spoils the files at a place that is judged late. */
static void make_long(void)
{
    model.len = sizeof model.bytes;
}

static void make_empty(void)
{
    trace.len = 0;
}

static void leave_a_byte(void)
{
    model.bytes[model.len++] = 0;
}

static void take_a_fact_more(void)
{
    model.bytes[6] = 1; /* F of 4,097 */
}

static void end_with_fact_4096(void)
{
    model.len -= 2;
    word(&model, FACTS);
}

static void end_with_fact_0(void)
{
    model.len -= 2;
    word(&model, 0);
}

static const struct pair pairs[] = {
    {"a chain of 4,000 clauses", CANTIVOREX_ATTACK, 0, 4000, 1, 2, 0, 0, 0, 0, 0, NULL},
    {"1,790 bodies of 16 facts", CANTIVOREX_ATTACK, 0, 1790, 16, 2, 0, 0, 0, 0, 0, NULL},
    {"1,024 steps", CANTIVOREX_ATTACK, 0, 64, 1, 1024, 0, 0, 0, 0, 0, NULL},
    {"a fact missing in the last step", CANTIVOREX_BLOCKED, 0, 64, 1, 1024, 1, 0, 0, 0, 0, NULL},
    {"a fact in the last step's way", CANTIVOREX_BLOCKED, 0, 64, 1, 1024, 2, 0, 0, 0, 0, NULL},
    {"a fact missing in the goal", CANTIVOREX_NOATTACK, 0, 64, 1, 1024, 0, 1, 0, 0, 0, NULL},
    {"a fact in the goal's way", CANTIVOREX_NOATTACK, 0, 64, 1, 1024, 0, 2, 0, 0, 0, NULL},
    {"a model of 65,537 bytes", CANTIVOREX_LONG, CANTIVOREX_LONG, 64, 1, 2, 0, 0, 0, 0, 0, make_long},
    {"an empty trace", CANTIVOREX_VERSION, 0, 64, 1, 2, 0, 0, 0, 0, 0, make_empty},
    {"a byte after the model", CANTIVOREX_SHAPE, CANTIVOREX_SHAPE, 1790, 16, 2, 0, 0, 0, 0, 0, leave_a_byte},
    {"4,097 facts", CANTIVOREX_COUNT, CANTIVOREX_COUNT, 64, 1, 2, 0, 0, 0, 0, 0, take_a_fact_more},
    {"1,025 steps", CANTIVOREX_COUNT, 0, 64, 1, 1025, 0, 0, 0, 0, 0, NULL},
    {"fact 4,096 at the end", CANTIVOREX_FACT, CANTIVOREX_FACT, 1790, 16, 2, 0, 0, 0, 0, 0, end_with_fact_4096},
    {"fact 0 at the end", CANTIVOREX_ORDER, CANTIVOREX_ORDER, 1790, 16, 2, 0, 0, 0, 0, 0, end_with_fact_0},
    {"rule 3 in the last step", CANTIVOREX_NAME, 0, 64, 1, 1024, 3, 0, 0, 0, 0, NULL},
    {"goal 3", CANTIVOREX_NAME, 0, 64, 1, 1024, 0, 3, 0, 0, 0, NULL},
    {"4,096 persistent facts", CANTIVOREX_ATTACK, 0, 64, 1, 1024, 0, 0, 4096, 0, 0, NULL},
    {".. and 1,500 bodies of 16 facts", CANTIVOREX_BLOCKED, 0, 1500, 16, 2, 1, 0, 4096, 0, 0, NULL},
    {"persistent fact 4,096", CANTIVOREX_FACT, CANTIVOREX_FACT, 64, 1, 2, 0, 0, 4097, 0, 0, NULL},
    {"991 names in use, 32 made", CANTIVOREX_ATTACK, 0, 64, 1, 1024, 3, 0, 4096, 991, 0, NULL},
    {"1,024 names in use", CANTIVOREX_USED, 0, 64, 1, 1024, 3, 0, 4096, 1024, 0, NULL},
    {".. and 1,400 bodies of 16 facts", CANTIVOREX_USED, 0, 1400, 16, 2, 3, 0, 4096, 1024, 0, NULL},
    {"name 1,024 in use", CANTIVOREX_BADNAME, CANTIVOREX_BADNAME, 64, 1, 2, 0, 0, 0, 1025, 0, NULL},
    {"a formula of 255 codes", CANTIVOREX_NOATTACK, 0, 64, 1, 1024, 0, 3, 0, 0, TREE, NULL},
    {".. with names and 1,400 bodies", CANTIVOREX_NOATTACK, 0, 1400, 16, 2, 0, 3, 4096, 1024, TREE, NULL},
    {"a formula 32 deep", CANTIVOREX_ATTACK, 0, 64, 1, 1024, 0, 3, 0, 0, 32, NULL},
    {"a formula 33 deep", CANTIVOREX_FORMULA, CANTIVOREX_FORMULA, 64, 1, 2, 0, 3, 0, 0, 33, NULL},
    {"goal 4, after a formula", CANTIVOREX_NAME, 0, 64, 1, 2, 0, 4, 0, 0, 32, NULL},
};

static uint8_t answer;
static size_t room = sizeof state, figures = CANTIVOREX_HAS_ENTRIES, entries = CANTIVOREX_INDEX_ENTRIES,
              listed = CANTIVOREX_LIST_ENTRIES, fact = NEVER;

static void nothing(void)
{
}

static void close_it(void)
{
    answer = cantivorex_close(
        model.bytes, model.len, state, room, table, CANTIVOREX_TABLE_ENTRIES, out, CANTIVOREX_OUT_ENTRIES);
}

static void check_it(void)
{
    answer = cantivorex_check(model.bytes, model.len, trace.bytes, trace.len, state, room, table,
        CANTIVOREX_TABLE_ENTRIES, names, sizeof names, out, CANTIVOREX_OUT_ENTRIES);
}

static void close_it_indexed(void)
{
    answer = cantivorex_close_indexed(model.bytes, model.len, state, room, table, CANTIVOREX_TABLE_ENTRIES, places,
        entries, out, CANTIVOREX_OUT_ENTRIES);
}

static void check_it_indexed(void)
{
    answer = cantivorex_check_indexed(model.bytes, model.len, trace.bytes, trace.len, state, room, table,
        CANTIVOREX_TABLE_ENTRIES, names, sizeof names, places, entries, out, CANTIVOREX_OUT_ENTRIES);
}

static void rules_of_it(void)
{
    answer = cantivorex_rules(model.bytes, model.len, trace.bytes, trace.len, state, room, table,
        CANTIVOREX_TABLE_ENTRIES, names, sizeof names, places, entries, firing, listed, out, CANTIVOREX_OUT_ENTRIES);
}

/* A fact that is absent, so that all rounds are run; the greatest that there is if F is 4,096. */
static void fact_of_it(void)
{
    answer = cantivorex_holds(model.bytes, model.len, trace.bytes, trace.len, fact, state, room, table,
        CANTIVOREX_TABLE_ENTRIES, names, sizeof names, places, entries, out, CANTIVOREX_OUT_ENTRIES);
}

static void count_it(void)
{
    answer = cantivorex_count(model.bytes, model.len, out, figures);
}

/* The part that the check found. */
static void part_of_it(void)
{
    cantivorex_part(model.bytes, model.len, trace.bytes, trace.len, (uint8_t)out[CANTIVOREX_OUT_MARK],
        out[CANTIVOREX_OUT_START], out[CANTIVOREX_OUT_SIZE], part, sizeof part);
}

/* The bytes of a stack that a function overwrites. */
static size_t depth(void (*run)(void))
{
    static uint8_t stack[STACK];
    static ucontext_t back, there;
    memset(stack, JUNK, sizeof stack);
    getcontext(&there);
    there.uc_stack.ss_sp = stack;
    there.uc_stack.ss_size = sizeof stack;
    there.uc_link = &back;
    makecontext(&there, run, 0);
    swapcontext(&back, &there);
    size_t left = 0;
    while (left < sizeof stack && stack[left] == JUNK)
        left++;
    return sizeof stack - left;
}

/* The deepest of each function so far. */
static size_t check_most, close_most, count_most, part_most, check_indexed_most, close_indexed_most, rules_most,
    holds_most;

static void keep_most(size_t *most, size_t taken)
{
    if (*most < taken)
        *most = taken;
}

/* One row: all eight functions on the files as they are. A run that ends is no refusal where rules are listed, nor is a
   goal that is not met where a fact is asked for. */
static void measure(const char *name, uint64_t check, uint64_t close)
{
    size_t empty = depth(nothing);
    memset(state, 0, sizeof state);
    memset(state, 0xFF, STORED / 8);
    size_t closing = depth(close_it) - empty;
    expect("closing's answer", answer, close);
    size_t closing_indexed = depth(close_it_indexed) - empty;
    expect("closing's answer by an index", answer, close);
    size_t counting = depth(count_it) - empty;
    expect("the count's answer", answer, close);
    size_t checking = depth(check_it) - empty;
    expect("the check's answer", answer, check);
    size_t placing = depth(part_of_it) - empty;
    size_t checking_indexed = depth(check_it_indexed) - empty;
    expect("the check's answer by an index", answer, check);
    size_t listing = depth(rules_of_it) - empty;
    int is_run = check == CANTIVOREX_ATTACK || check == CANTIVOREX_BLOCKED || check == CANTIVOREX_NOATTACK ||
        check == CANTIVOREX_USED;
    expect("the list's answer", answer, is_run ? 0 : check);
    size_t asking = depth(fact_of_it) - empty;
    expect("the fact's answer", answer, check == CANTIVOREX_NOATTACK ? 0 : check);
    printf("%-34s %2llu %7zu %7zu %7zu %7zu %7zu %7zu %7zu %7zu\n", name, (unsigned long long)check, checking, closing,
        counting, placing, checking_indexed, closing_indexed, listing, asking);
    keep_most(&check_most, checking);
    keep_most(&close_most, closing);
    keep_most(&count_most, counting);
    keep_most(&part_most, placing);
    keep_most(&check_indexed_most, checking_indexed);
    keep_most(&close_indexed_most, closing_indexed);
    keep_most(&rules_most, listing);
    keep_most(&holds_most, asking);
}

static void limit(const char *name, size_t most, size_t allowed)
{
    printf("deepest stack of %s: %zu bytes, at most %zu\n", name, most, allowed);
    expect("within the limit", most <= allowed, 1);
}

int main(void)
{
    printf("%-34s %2s %7s %7s %7s %7s %15s %7s %7s\n", "bytes of stack", "", "check", "close", "count", "part",
        "both by an index", "rules", "holds");
    for (size_t i = 0; i < sizeof pairs / sizeof *pairs; i++) {
        write_model(&pairs[i]);
        write_trace(&pairs[i]);
        if (pairs[i].spoil)
            pairs[i].spoil();
        measure(pairs[i].name, pairs[i].check, pairs[i].close);
    }
    /* Too short an index, for the pair that has the most in it. */
    const struct pair *large = &pairs[sizeof pairs / sizeof *pairs - 4];
    write_model(large);
    write_trace(large);
    entries = 16 * large->clauses - 1;
    size_t empty = depth(nothing);
    keep_most(&check_indexed_most, depth(check_it_indexed) - empty);
    expect("a check with too short an index", answer, CANTIVOREX_ROOM);
    keep_most(&close_indexed_most, depth(close_it_indexed) - empty);
    expect("closing by too short an index", answer, CANTIVOREX_ROOM);
    keep_most(&rules_most, depth(rules_of_it) - empty);
    expect("rules with too short an index", answer, CANTIVOREX_ROOM);
    keep_most(&holds_most, depth(fact_of_it) - empty);
    expect("a fact with too short an index", answer, CANTIVOREX_ROOM);
    entries = CANTIVOREX_INDEX_ENTRIES;
    /* A stored fact, a derived one, and one that there is not. */
    static const size_t facts[] = {0, HEADS, FACTS};
    for (size_t i = 0; i < sizeof facts / sizeof *facts; i++) {
        fact = facts[i];
        keep_most(&holds_most, depth(fact_of_it) - empty);
        expect("a fact", answer, fact == FACTS ? CANTIVOREX_FACT : 0);
        if (fact != FACTS)
            expect("its round", out[CANTIVOREX_HOLDS_ROUND], i);
    }
    fact = NEVER;
    listed = 3;
    keep_most(&rules_most, depth(rules_of_it) - empty);
    expect("a list shorter than four rules", answer, CANTIVOREX_ROOM);
    listed = CANTIVOREX_LIST_ENTRIES;
    room = sizeof state - 1;
    figures = CANTIVOREX_HAS_ENTRIES - 1;
    measure("511 bytes for a state, 3 figures", CANTIVOREX_ROOM, CANTIVOREX_ROOM);
    limit("cantivorex_check", check_most, CHECK_LIMIT);
    limit("cantivorex_close", close_most, CLOSE_LIMIT);
    limit("cantivorex_count", count_most, COUNT_LIMIT);
    limit("cantivorex_part", part_most, PART_LIMIT);
    limit("cantivorex_check_indexed", check_indexed_most, INDEXED_LIMIT);
    limit("cantivorex_close_indexed", close_indexed_most, INDEXED_LIMIT);
    limit("cantivorex_rules", rules_most, INDEXED_LIMIT);
    limit("cantivorex_holds", holds_most, INDEXED_LIMIT);
    return summary();
}
