/* One state buffer, one for names and one for an index, used again and again and longer than they have to be: a step
   that does not fire at the end of a trace leaves the state before it, and what lies beyond the bytes of a state stays.
   With an index and without one, where the rules are listed that fire there, and where a fact is asked for. */
#include "../include/cantivorex.h"
#include "expect.h"
#include <string.h>

/* Facts 0 and 9 at first; 2 is derived from 9. Rule 0 turns 0 into 3. Both other rules would take 3 and 9 away. */
static const uint8_t model[] = {
    1,
    0, 0, 0, 2, 0, 16,                             /* 16 facts */
    0, 0, 0, 4, 0, 0, 0, 9,                        /* initial facts 0 and 9 */
    0, 0, 0, 6, 0, 4, 0, 2, 0, 9,                  /* clause: 2 from 9 */
    0, 0, 0, 42,
    0, 10, 0, 1, 0, 0, 0, 0, 0, 1, 0, 3,           /* rule 0: P 0; A 3 */
    0, 12, 0, 3, 0, 3, 0, 9, 0, 15, 0, 0, 0, 0,    /* rule 1: P 3, 9 and 15, which is missing */
    0, 14, 0, 2, 0, 3, 0, 9, 0, 1, 0, 2, 0, 1, 0, 0, /* rule 2: P 3 and 9; N 2, which is there through 9; A 0 */
    0, 0, 0, 6, 0, 4, 0, 0, 0, 0,                  /* attack state 0: no conditions */
};

/* No facts; names 5 and 1,023 are in use. Rule 0 makes 3 and 8, rule 1 makes 4 and 5, rule 2 makes 4. */
static const uint8_t minting[] = {
    3,
    0, 0, 0, 2, 0, 16,                             /* 16 facts */
    0, 0, 0, 0, 0, 0, 0, 0,                        /* none is initial, none persistent */
    0, 0, 0, 4, 0, 5, 3, 0xFF,                     /* names 5 and 1,023 */
    0, 0, 0, 0,                                    /* no clause */
    0, 0, 0, 40,
    0, 12, 0, 0, 0, 0, 0, 0, 0, 2, 0, 3, 0, 8,     /* rule 0: makes 3 and 8 */
    0, 12, 0, 0, 0, 0, 0, 0, 0, 2, 0, 4, 0, 5,     /* rule 1: makes 4, and 5, which is used */
    0, 10, 0, 0, 0, 0, 0, 0, 0, 1, 0, 4,           /* rule 2: makes 4 */
    0, 0, 0, 6, 0, 4, 0, 0, 0, 0,                  /* attack state 0: no conditions */
};

static uint8_t state[700], names[200];
static uint16_t table[5000], places[9], list[9];

static void check(
    const uint8_t *file, size_t len, const uint8_t *trace, size_t trace_len, int indexed, uint64_t *out)
{
    if (indexed)
        cantivorex_safe_check_indexed(file, len, trace, trace_len, state, sizeof state, table, 5000, names,
            sizeof names, places, 9, out, CANTIVOREX_OUT_ENTRIES);
    else
        cantivorex_safe_check(file, len, trace, trace_len, state, sizeof state, table, 5000, names, sizeof names, out,
            CANTIVOREX_OUT_ENTRIES);
}

/* The rules that fire after rule 0 and another that does not, in the same buffers: the one named, if any. The state is
   left as it is, since it is the one that the check left. */
static void fires(const uint8_t *file, size_t len, const uint8_t *trace, size_t trace_len, size_t rules, int only)
{
    uint64_t out[2] = {JUNK, JUNK};
    uint8_t before[sizeof state], used[sizeof names];
    uint16_t rounds[5000];
    memcpy(before, state, sizeof state);
    memcpy(used, names, sizeof names);
    memcpy(rounds, table, sizeof table);
    memset(list, JUNK, sizeof list);
    expect("a list that is too short",
        cantivorex_safe_rules(file, len, trace, trace_len, state, sizeof state, table, 5000, names, sizeof names,
            places, 9, list, rules - 1, out, 2),
        CANTIVOREX_ROOM);
    expect("nothing is listed", all(list, sizeof list, JUNK) && out[0] == JUNK, 1);
    expect("a list that is long enough",
        cantivorex_safe_rules(file, len, trace, trace_len, state, sizeof state, table, 5000, names, sizeof names,
            places, 9, list, rules, out, 2),
        0);
    expect("how many fire", out[0], only >= 0);
    expect("nothing else", out[1], JUNK);
    if (only >= 0)
        expect("the one that fires", list[0], (uint64_t)only);
    expect("the entries beyond it stay", all(list + out[0], sizeof list - out[0] * sizeof *list, JUNK), 1);
    expect("the same state", memcmp(before, state, sizeof state), 0);
    expect("the same names", memcmp(used, names, sizeof names), 0);
    expect("the same rounds", memcmp(rounds, table, sizeof table), 0);
}

/* A fact asked for after rule 0 and another that does not fire, in the same buffers: the number of the check, and what
   the check left. A fact that there is not is told before any step, and changes nothing. */
static void stopped(const uint8_t *file, size_t len, const uint8_t *trace, size_t trace_len, uint8_t number)
{
    uint64_t out[3] = {JUNK, JUNK, JUNK};
    uint8_t before[sizeof state], used[sizeof names];
    uint16_t rounds[5000];
    memcpy(before, state, sizeof state);
    memcpy(used, names, sizeof names);
    memcpy(rounds, table, sizeof table);
    memset(state, JUNK, 512);
    memset(names, JUNK, 128);
    memset(table, JUNK, 4096 * sizeof *table);
    memset(places, JUNK, sizeof places);
    expect("fact 16 of 16",
        cantivorex_safe_holds(file, len, trace, trace_len, 16, state, sizeof state, table, 5000, names, sizeof names,
            places, 9, out, 3),
        CANTIVOREX_FACT);
    expect("nothing is changed", all(state, sizeof state, JUNK) && all(names, sizeof names, JUNK), 1);
    expect("no entry is", all(table, sizeof table, JUNK) && all(places, sizeof places, JUNK), 1);
    expect("a step that does not fire",
        cantivorex_safe_holds(file, len, trace, trace_len, 9, state, sizeof state, table, 5000, names, sizeof names,
            places, 9, out, 3),
        number);
    expect("no answer", out[0] == JUNK && out[1] == JUNK && out[2] == JUNK, 1);
    expect("the state of the check", memcmp(before, state, sizeof state), 0);
    expect("the names of the check", memcmp(used, names, sizeof names), 0);
    expect("the rounds of the check", memcmp(rounds, table, sizeof table), 0);
}

/* A fact asked for after rule 0: its round and the rounds run. 3 and 9 are stored then, and 2 is derived from 9. */
static void asked(uint64_t fact, uint64_t round, uint64_t rounds)
{
    static const uint8_t trace[] = {1, 0, 0, 0, 4, 0, 0, 0, 0};
    uint64_t out[3] = {JUNK, JUNK, JUNK};
    uint8_t after[CANTIVOREX_STATE_BYTES] = {1 << 3, 1 << 1};
    memset(places, JUNK, sizeof places);
    expect("a fact",
        cantivorex_safe_holds(model, sizeof model, trace, sizeof trace, fact, state, sizeof state, table, 5000, names,
            sizeof names, places, 9, out, 3),
        0);
    expect("its round", out[CANTIVOREX_HOLDS_ROUND], round);
    expect("the rounds run", out[CANTIVOREX_HOLDS_ROUNDS], rounds);
    expect("nothing else", out[2], JUNK);
    expect("the state after the step", memcmp(state, after, sizeof after), 0);
    expect("the bytes beyond it stay", all(state + 512, sizeof state - 512, JUNK), 1);
    expect("no name", all(names, 128, 0) && all(names + 128, sizeof names - 128, JUNK), 1);
    expect("stored facts", table[3] == 0 && table[9] == 0, 1);
    expect("the derived one, if a round is run", table[2], rounds ? 1 : CANTIVOREX_NONE);
    expect("the one that rule 0 took", table[0], CANTIVOREX_NONE);
    expect("the entries beyond 4,096 stay", all(table + 4096, sizeof table - 2 * 4096, JUNK), 1);
    expect("the clause of the one body place", places[0], 0);
    expect("the entries beyond it stay", all(places + 1, sizeof places - 2, JUNK), 1);
}

/* Rule 0 and then another: blocked at step 1, by a fact of a kind. */
static void blocked_by(uint8_t rule, uint64_t fact, uint64_t kind, uint64_t round, int indexed)
{
    const uint8_t trace[] = {1, 0, 0, 0, 6, 0, 0, 0, 0, 0, rule};
    uint64_t out[CANTIVOREX_OUT_ENTRIES];
    uint8_t before[CANTIVOREX_STATE_BYTES] = {0};
    before[0] = 1 << 3; /* fact 3 */
    before[1] = 1 << 1; /* fact 9 */
    memset(places, JUNK, sizeof places);
    check(model, sizeof model, trace, sizeof trace, indexed, out);
    expect("the last step is blocked", out[CANTIVOREX_OUT_NUMBER], CANTIVOREX_BLOCKED);
    expect("its number", out[CANTIVOREX_OUT_STEP], 1);
    expect("by this fact", out[CANTIVOREX_OUT_FACT], fact);
    expect("of this kind", out[CANTIVOREX_OUT_KIND], kind);
    expect("from this round", out[CANTIVOREX_OUT_ROUND], round);
    expect("two facts are held", out[CANTIVOREX_OUT_HELD], 2);
    expect("the state before the step", memcmp(state, before, sizeof before), 0);
    expect("the bytes beyond it stay", all(state + 512, sizeof state - 512, JUNK), 1);
    expect("the round of a stored fact", table[9], 0);
    expect("the round of a derived fact", table[2], 1);
    expect("the round of a fact that rule 0 took", table[0], CANTIVOREX_NONE);
    expect("the entries beyond 4,096 stay", all(table + 4096, sizeof table - 2 * 4096, JUNK), 1);
    expect("version 1 uses no name", all(names, 128, 0), 1);
    expect("the bytes beyond the names stay", all(names + 128, sizeof names - 128, JUNK), 1);
    expect("the clause of the one body place", places[0], indexed ? 0 : JUNK << 8 | JUNK);
    expect("the entries beyond it stay", all(places + 1, sizeof places - 2, JUNK), 1);
    /* Rule 0 took its own fact, and both others lack one or have one in the way. */
    fires(model, sizeof model, trace, sizeof trace, 3, -1);
    stopped(model, sizeof model, trace, sizeof trace, CANTIVOREX_BLOCKED);
}

/* Rule 0 and then another, which makes a name that is used. What an earlier check used says nothing. */
static void used_by(uint8_t rule, uint64_t name, int indexed)
{
    const uint8_t trace[] = {1, 0, 0, 0, 6, 0, 0, 0, 0, 0, rule};
    uint64_t out[CANTIVOREX_OUT_ENTRIES];
    uint8_t before[CANTIVOREX_NAMES_BYTES] = {0};
    before[0] = 1 << 3 | 1 << 5; /* names 3 and 5 */
    before[1] = 1 << 0;          /* name 8 */
    before[127] = 1 << 7;        /* name 1,023 */
    memset(places, JUNK, sizeof places);
    check(minting, sizeof minting, trace, sizeof trace, indexed, out);
    expect("the last step's name is used", out[CANTIVOREX_OUT_NUMBER], CANTIVOREX_USED);
    expect("the step's number", out[CANTIVOREX_OUT_STEP], 1);
    expect("this name", out[CANTIVOREX_OUT_FACT], name);
    expect("no kind", out[CANTIVOREX_OUT_KIND], CANTIVOREX_KIND_NONE);
    expect("no round", out[CANTIVOREX_OUT_ROUND], CANTIVOREX_NONE);
    expect("in the trace", out[CANTIVOREX_OUT_MARK], 1);
    expect("where the step stands", out[CANTIVOREX_OUT_START], 9);
    expect("no fact is held", out[CANTIVOREX_OUT_HELD], 0);
    expect("no fact in the state", all(state, 512, 0), 1);
    expect("the names before the step", memcmp(names, before, sizeof before), 0);
    expect("the bytes beyond the names stay", all(names + 128, sizeof names - 128, JUNK), 1);
    expect("no body place", all(places, sizeof places, JUNK), 1);
    /* Rule 2 alone makes a name that is unused. */
    fires(minting, sizeof minting, trace, sizeof trace, 3, 2);
    stopped(minting, sizeof minting, trace, sizeof trace, CANTIVOREX_USED);
}

int main(void)
{
    memset(state, JUNK, sizeof state);
    memset(table, JUNK, sizeof table);
    memset(names, JUNK, sizeof names);
    for (int indexed = 0; indexed < 2; indexed++) {
        blocked_by(1, 15, CANTIVOREX_KIND_POSITIVE, CANTIVOREX_NONE, indexed);
        used_by(0, 3, !indexed);
        used_by(1, 5, indexed);
        blocked_by(2, 2, CANTIVOREX_KIND_NEGATIVE, 1, indexed);
        asked(9, 0, 0);
        asked(2, 1, 1);
        asked(3, 0, 0);
        asked(0, CANTIVOREX_NONE, 1);
    }
    return summary();
}
