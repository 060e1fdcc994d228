/* Null pointers and short buffers: a clear answer each time, and nothing written. */
#include "../include/cantivorex.h"
#include "expect.h"
#include <string.h>

int main(void)
{
    static uint8_t state[512], part[4], names[128];
    static uint16_t table[4096], index[3], list[3];
    static const uint8_t file[5] = {1, 0, 0, 0, 0};
    /* 5 facts; clauses 0, 1 and 2 from nothing; two rules and one attack state without conditions */
    static const uint8_t model[] = {1, 0, 0, 0, 2, 0, 5, 0, 0, 0, 0, 0, 0, 0, 12, 0, 2, 0, 0, 0, 2, 0, 1, 0, 2, 0, 2,
        0, 0, 0, 16, 0, 6, 0, 0, 0, 0, 0, 0, 0, 6, 0, 0, 0, 0, 0, 0, 0, 0, 0, 6, 0, 4, 0, 0, 0, 0};
    /* one fact; one attack state without conditions, and fact 0 twice as a formula */
    static const uint8_t past[] = {4, 0, 0, 0, 2, 0, 1, 0, 0, 0, 0, 0, 0, 0, 0, 0, 0, 0, 0, 0, 0, 0, 0, 0, 0, 0, 0,
        0, 0, 0, 6, 0, 4, 0, 0, 0, 0, 0, 0, 0, 8, 0, 2, 0, 0, 0, 2, 0, 0};
    /* 2 facts; clause 1 from 0, which is one body place; one attack state without conditions */
    static const uint8_t placed[] = {1, 0, 0, 0, 2, 0, 2, 0, 0, 0, 0, 0, 0, 0, 6, 0, 4, 0, 1, 0, 0, 0, 0, 0, 0, 0, 0, 0,
        6, 0, 4, 0, 0, 0, 0};
    static const uint8_t trace[] = {1, 0, 0, 0, 2, 0, 0};
    uint64_t out[10];
    memset(state, JUNK, sizeof state);
    memset(part, JUNK, sizeof part);
    memset(table, JUNK, sizeof table);
    memset(names, JUNK, sizeof names);
    memset(index, JUNK, sizeof index);
    memset(list, JUNK, sizeof list);
    memset(out, JUNK, sizeof out);
    /* No room for the verdict: nothing is changed, `out` included. */
    expect("no out",
        cantivorex_safe_check(file, 5, file, 5, state, 512, table, 4096, names, 128, NULL, 10), CANTIVOREX_ROOM);
    expect("a short out",
        cantivorex_safe_check(file, 5, file, 5, state, 512, table, 4096, names, 128, out, 9), CANTIVOREX_ROOM);
    expect("all null",
        cantivorex_safe_check(NULL, 9, NULL, 9, NULL, 512, NULL, 4096, NULL, 128, NULL, 10), CANTIVOREX_ROOM);
    expect("no out to close", cantivorex_safe_close(file, 5, state, 512, table, 4096, NULL, 1), CANTIVOREX_ROOM);
    expect("no model to close", cantivorex_safe_close(NULL, 5, state, 512, table, 4096, out, 10), CANTIVOREX_VERSION);
    expect("no state to close", cantivorex_safe_close(file, 5, NULL, 512, table, 4096, out, 10), CANTIVOREX_ROOM);
    expect("no table to close", cantivorex_safe_close(file, 5, state, 512, NULL, 4096, out, 10), CANTIVOREX_ROOM);
    expect("all null to close", cantivorex_safe_close(NULL, 5, NULL, 512, NULL, 4096, NULL, 10), CANTIVOREX_ROOM);
    expect("no out with an index",
        cantivorex_safe_check_indexed(
            placed, sizeof placed, trace, 7, state, 512, table, 4096, names, 128, index, 3, NULL, 10),
        CANTIVOREX_ROOM);
    expect("a short out with an index",
        cantivorex_safe_check_indexed(
            placed, sizeof placed, trace, 7, state, 512, table, 4096, names, 128, index, 3, out, 9),
        CANTIVOREX_ROOM);
    expect("all null with an index",
        cantivorex_safe_check_indexed(NULL, 9, NULL, 9, NULL, 512, NULL, 4096, NULL, 128, NULL, 3, NULL, 10),
        CANTIVOREX_ROOM);
    expect("no out to close by an index",
        cantivorex_safe_close_indexed(file, 5, state, 512, table, 4096, index, 3, NULL, 2), CANTIVOREX_ROOM);
    expect("a short out to close by an index",
        cantivorex_safe_close_indexed(file, 5, state, 512, table, 4096, index, 3, out, 1), CANTIVOREX_ROOM);
    expect("no model to close by an index",
        cantivorex_safe_close_indexed(NULL, 5, state, 512, table, 4096, index, 3, out, 10), CANTIVOREX_VERSION);
    expect("no state to close by an index",
        cantivorex_safe_close_indexed(file, 5, NULL, 512, table, 4096, index, 3, out, 10), CANTIVOREX_ROOM);
    expect("no table to close by an index",
        cantivorex_safe_close_indexed(file, 5, state, 512, NULL, 4096, index, 3, out, 10), CANTIVOREX_ROOM);
    expect("no index to close by, before the state's facts",
        cantivorex_safe_close_indexed(placed, sizeof placed, state, 512, table, 4096, NULL, 3, out, 10),
        CANTIVOREX_ROOM);
    expect("the state's facts",
        cantivorex_safe_close_indexed(placed, sizeof placed, state, 512, table, 4096, index, 1, out, 10),
        CANTIVOREX_FACT);
    expect("all null to close by an index",
        cantivorex_safe_close_indexed(NULL, 5, NULL, 512, NULL, 4096, NULL, 3, NULL, 10), CANTIVOREX_ROOM);
    /* The model has two rules and no body place. */
    expect("no out for rules",
        cantivorex_safe_rules(
            model, sizeof model, trace, 7, state, 512, table, 4096, names, 128, index, 3, list, 3, NULL, 1),
        CANTIVOREX_ROOM);
    expect("an out of no entries for rules",
        cantivorex_safe_rules(
            model, sizeof model, trace, 7, state, 512, table, 4096, names, 128, index, 3, list, 3, out, 0),
        CANTIVOREX_ROOM);
    expect("no list",
        cantivorex_safe_rules(
            model, sizeof model, trace, 7, state, 512, table, 4096, names, 128, index, 3, NULL, 3, out, 10),
        CANTIVOREX_ROOM);
    expect("a list of one entry",
        cantivorex_safe_rules(
            model, sizeof model, trace, 7, state, 512, table, 4096, names, 128, index, 3, list, 1, out, 10),
        CANTIVOREX_ROOM);
    expect("no list, before the trace's section",
        cantivorex_safe_rules(
            model, sizeof model, file, 5, state, 512, table, 4096, names, 128, index, 3, NULL, 3, out, 10),
        CANTIVOREX_ROOM);
    expect("no list and half a model",
        cantivorex_safe_rules(
            model, sizeof model - 1, trace, 7, state, 512, table, 4096, names, 128, index, 3, NULL, 3, out, 10),
        CANTIVOREX_SHAPE);
    expect("no list and no trace",
        cantivorex_safe_rules(
            model, sizeof model, NULL, 7, state, 512, table, 4096, names, 128, index, 3, NULL, 3, out, 10),
        CANTIVOREX_VERSION);
    expect("no index for rules",
        cantivorex_safe_rules(
            placed, sizeof placed, trace, 7, state, 512, table, 4096, names, 128, NULL, 3, list, 3, out, 10),
        CANTIVOREX_ROOM);
    expect("no model's rules",
        cantivorex_safe_rules(NULL, 5, trace, 7, state, 512, table, 4096, names, 128, index, 3, list, 3, out, 10),
        CANTIVOREX_VERSION);
    expect("no state for rules",
        cantivorex_safe_rules(NULL, 5, trace, 7, NULL, 512, table, 4096, names, 128, index, 3, list, 3, out, 10),
        CANTIVOREX_ROOM);
    expect("no table for rules",
        cantivorex_safe_rules(NULL, 5, trace, 7, state, 512, NULL, 4096, names, 128, index, 3, list, 3, out, 10),
        CANTIVOREX_ROOM);
    expect("127 bytes for names and rules",
        cantivorex_safe_rules(NULL, 5, trace, 7, state, 512, table, 4096, names, 127, index, 3, list, 3, out, 10),
        CANTIVOREX_ROOM);
    expect("all null for rules",
        cantivorex_safe_rules(NULL, 9, NULL, 9, NULL, 512, NULL, 4096, NULL, 128, NULL, 3, NULL, 3, NULL, 1),
        CANTIVOREX_ROOM);
    /* Both models have some facts, the second one body place. */
    expect("no out for a fact",
        cantivorex_safe_holds(
            model, sizeof model, trace, 7, 0, state, 512, table, 4096, names, 128, index, 3, NULL, 2),
        CANTIVOREX_ROOM);
    expect("an out of one entry for a fact",
        cantivorex_safe_holds(
            model, sizeof model, trace, 7, 0, state, 512, table, 4096, names, 128, index, 3, out, 1),
        CANTIVOREX_ROOM);
    expect("a short out before any fault",
        cantivorex_safe_holds(NULL, 5, trace, 7, 9, state, 512, table, 4096, names, 128, index, 3, out, 1),
        CANTIVOREX_ROOM);
    expect("no index for a fact",
        cantivorex_safe_holds(
            placed, sizeof placed, trace, 7, 0, state, 512, table, 4096, names, 128, NULL, 3, out, 10),
        CANTIVOREX_ROOM);
    expect("no index, before the trace's section and the fact",
        cantivorex_safe_holds(
            placed, sizeof placed, file, 5, 2, state, 512, table, 4096, names, 128, NULL, 3, out, 10),
        CANTIVOREX_ROOM);
    expect("no index and half a model",
        cantivorex_safe_holds(
            placed, sizeof placed - 1, trace, 7, 2, state, 512, table, 4096, names, 128, NULL, 3, out, 10),
        CANTIVOREX_SHAPE);
    expect("the trace's section before the fact",
        cantivorex_safe_holds(
            placed, sizeof placed, file, 5, 2, state, 512, table, 4096, names, 128, index, 3, out, 10),
        CANTIVOREX_SHAPE);
    expect("fact 2 of 2",
        cantivorex_safe_holds(
            placed, sizeof placed, trace, 7, 2, state, 512, table, 4096, names, 128, index, 3, out, 10),
        CANTIVOREX_FACT);
    expect("the greatest number there is as a fact",
        cantivorex_safe_holds(
            placed, sizeof placed, trace, 7, SIZE_MAX, state, 512, table, 4096, names, 128, index, 3, out, 10),
        CANTIVOREX_FACT);
    expect("a fact over 65,535 that ends as fact 0",
        cantivorex_safe_holds(
            placed, sizeof placed, trace, 7, 65536, state, 512, table, 4096, names, 128, index, 3, out, 10),
        CANTIVOREX_FACT);
    expect("no model's fact",
        cantivorex_safe_holds(NULL, 5, trace, 7, 0, state, 512, table, 4096, names, 128, index, 3, out, 10),
        CANTIVOREX_VERSION);
    expect("no trace for a fact",
        cantivorex_safe_holds(
            placed, sizeof placed, NULL, 7, 2, state, 512, table, 4096, names, 128, NULL, 3, out, 10),
        CANTIVOREX_VERSION);
    expect("no state for a fact",
        cantivorex_safe_holds(NULL, 5, trace, 7, 0, NULL, 512, table, 4096, names, 128, index, 3, out, 10),
        CANTIVOREX_ROOM);
    expect("no table for a fact",
        cantivorex_safe_holds(NULL, 5, trace, 7, 0, state, 512, NULL, 4096, names, 128, index, 3, out, 10),
        CANTIVOREX_ROOM);
    expect("127 bytes for names and a fact",
        cantivorex_safe_holds(NULL, 5, trace, 7, 0, state, 512, table, 4096, names, 127, index, 3, out, 10),
        CANTIVOREX_ROOM);
    expect("all null for a fact",
        cantivorex_safe_holds(NULL, 9, NULL, 9, 0, NULL, 512, NULL, 4096, NULL, 128, NULL, 3, NULL, 2),
        CANTIVOREX_ROOM);
    expect("no out to count", cantivorex_safe_count(model, sizeof model, NULL, 4), CANTIVOREX_ROOM);
    expect("a short out to count", cantivorex_safe_count(model, sizeof model, out, 3), CANTIVOREX_ROOM);
    expect("all null to count", cantivorex_safe_count(NULL, 5, NULL, 4), CANTIVOREX_ROOM);
    expect("no model to count", cantivorex_safe_count(NULL, 5, out, 4), CANTIVOREX_VERSION);
    expect("half a model to count", cantivorex_safe_count(file, 5, out, 4), CANTIVOREX_SHAPE);
    expect("no part", cantivorex_safe_part(NULL, 5, NULL, 5, 0, 0, 5, part, 4), 0);
    expect("another mark", cantivorex_safe_part(file, 5, file, 5, 2, 0, 5, part, 4), 0);
    expect("a place beyond", cantivorex_safe_part(file, 5, file, 5, 1, SIZE_MAX, SIZE_MAX, part, 4), 0);
    expect("nothing written", all(state, sizeof state, JUNK) && all(table, sizeof table, JUNK), 1);
    expect("no name written", all(names, sizeof names, JUNK), 1);
    expect("no place written", all(index, sizeof index, JUNK), 1);
    expect("no rule written", all(list, sizeof list, JUNK), 1);
    expect("nothing written out", all(out, sizeof out, JUNK) && all(part, sizeof part, JUNK), 1);
    /* A part is copied as far as there is room. */
    expect("no room for a part", cantivorex_safe_part(file, 5, NULL, 0, 0, 0, SIZE_MAX, NULL, 4), 5);
    expect("a part", cantivorex_safe_part(file, 5, NULL, 0, 0, 0, 2, part, 4), 2);
    expect("a part's bytes", part[0] == 1 && part[1] == 0 && all(part + 2, 2, JUNK), 1);
    /* A model's figures, and nothing after them. */
    expect("a model to count", cantivorex_safe_count(model, sizeof model, out, 10), 0);
    expect("its facts", out[CANTIVOREX_HAS_FACTS], 5);
    expect("its clauses", out[CANTIVOREX_HAS_CLAUSES], 3);
    expect("its rules", out[CANTIVOREX_HAS_RULES], 2);
    expect("its attack states", out[CANTIVOREX_HAS_GOALS], 1);
    expect("nothing after them", all(out + CANTIVOREX_HAS_ENTRIES, 6 * sizeof *out, JUNK), 1);
    expect("a model with formulas to count", cantivorex_safe_count(past, sizeof past, out, 10), 0);
    expect("its attack states and formulas", out[CANTIVOREX_HAS_GOALS], 3);
    expect("half a formula to count", cantivorex_safe_count(past, sizeof past - 1, out, 10), CANTIVOREX_SHAPE);
    /* Room for the verdict: the refusal is written there. */
    expect("no state",
        cantivorex_safe_check(file, 5, file, 5, NULL, 512, table, 4096, names, 128, out, 10), CANTIVOREX_ROOM);
    expect("no table",
        cantivorex_safe_check(file, 5, file, 5, state, 512, NULL, 4096, names, 128, out, 10), CANTIVOREX_ROOM);
    expect("no names",
        cantivorex_safe_check(file, 5, file, 5, state, 512, table, 4096, NULL, 128, out, 10), CANTIVOREX_ROOM);
    expect("127 bytes for names",
        cantivorex_safe_check(file, 5, file, 5, state, 512, table, 4096, names, 127, out, 10), CANTIVOREX_ROOM);
    expect("no names, written", out[CANTIVOREX_OUT_NUMBER], CANTIVOREX_ROOM);
    expect("no names' kind", out[CANTIVOREX_OUT_KIND], CANTIVOREX_KIND_NONE);
    expect("no names' round", out[CANTIVOREX_OUT_ROUND], CANTIVOREX_NONE);
    expect("no model",
        cantivorex_safe_check(NULL, 5, file, 5, state, 512, table, 4096, names, 128, out, 10), CANTIVOREX_VERSION);
    expect("no model's part", out[CANTIVOREX_OUT_SIZE], 0);
    expect("no trace",
        cantivorex_safe_check(file, 5, NULL, 5, state, 512, table, 4096, names, 128, out, 10), CANTIVOREX_VERSION);
    expect("no trace's mark", out[CANTIVOREX_OUT_MARK], 1);
    expect("no index",
        cantivorex_safe_check_indexed(
            placed, sizeof placed, trace, 7, state, 512, table, 4096, names, 128, NULL, 3, out, 10),
        CANTIVOREX_ROOM);
    expect("no index, written", out[CANTIVOREX_OUT_NUMBER], CANTIVOREX_ROOM);
    expect("no index's mark", out[CANTIVOREX_OUT_MARK], 0);
    expect("no index's part", out[CANTIVOREX_OUT_SIZE], 0);
    expect("no index and no goal in the trace",
        cantivorex_safe_check_indexed(
            placed, sizeof placed, file, 5, state, 512, table, 4096, names, 128, NULL, 3, out, 10),
        CANTIVOREX_ROOM);
    expect("no index and no trace",
        cantivorex_safe_check_indexed(
            placed, sizeof placed, NULL, 5, state, 512, table, 4096, names, 128, NULL, 3, out, 10),
        CANTIVOREX_VERSION);
    expect("nothing changed", all(state, sizeof state, JUNK) && all(table, sizeof table, JUNK), 1);
    expect("no name changed", all(names, sizeof names, JUNK), 1);
    /* A model without a body place needs no index. */
    expect("no index needed",
        cantivorex_safe_check_indexed(
            model, sizeof model, trace, 7, state, 512, table, 4096, names, 128, NULL, 3, out, 10),
        CANTIVOREX_ATTACK);
    expect("its rounds", out[CANTIVOREX_OUT_ROUNDS], 1);
    memset(out, JUNK, sizeof out);
    expect("no index needed to close",
        cantivorex_safe_close_indexed(model, sizeof model, state, 512, table, 4096, NULL, 3, out, 10), 0);
    expect("its rounds", out[CANTIVOREX_CLOSED_ROUNDS], 1);
    expect("its crossings", out[CANTIVOREX_CLOSED_CROSSINGS], 0);
    expect("nothing after them", all(out + CANTIVOREX_CLOSED_ENTRIES, 8 * sizeof *out, JUNK), 1);
    /* Nor does one without a rule need a list. */
    memset(out, JUNK, sizeof out);
    expect("no list needed",
        cantivorex_safe_rules(
            placed, sizeof placed, trace, 7, state, 512, table, 4096, names, 128, index, 3, NULL, 3, out, 10),
        0);
    expect("no rule", out[0], 0);
    expect("its place", index[0], 0);
    expect("both its rules fire",
        cantivorex_safe_rules(
            model, sizeof model, trace, 7, state, 512, table, 4096, names, 128, NULL, 3, list, 2, out, 10),
        0);
    expect("they are two", out[0], 2);
    expect("the first", list[0], 0);
    expect("the second", list[1], 1);
    expect("no entry after them", all(list + 2, sizeof *list, JUNK), 1);
    expect("nothing after how many", all(out + 1, 9 * sizeof *out, JUNK), 1);
    /* A fact: nothing is stored. One that a clause gives from nothing, one that no clause gives. */
    expect("fact 2",
        cantivorex_safe_holds(
            model, sizeof model, trace, 7, 2, state, 512, table, 4096, names, 128, NULL, 3, out, 2),
        0);
    expect("its round", out[CANTIVOREX_HOLDS_ROUND], 1);
    expect("the rounds run", out[CANTIVOREX_HOLDS_ROUNDS], 1);
    expect("fact 4",
        cantivorex_safe_holds(
            model, sizeof model, trace, 7, 4, state, 512, table, 4096, names, 128, NULL, 3, out, 10),
        0);
    expect("no round", out[CANTIVOREX_HOLDS_ROUND], CANTIVOREX_NONE);
    expect("all rounds run", out[CANTIVOREX_HOLDS_ROUNDS], 1);
    expect("nothing after both", all(out + CANTIVOREX_HOLDS_ENTRIES, 8 * sizeof *out, JUNK), 1);
    return summary();
}
