/* The trace checker for C. Link with libexports.a (`bin/library` writes it to target/staticlib).
 *
 * Everything is lent: the library keeps no pointer, frees nothing and allocates nothing, and each call stands by
 * itself, so that calls on different buffers may run at the same time. A file is any bytes at all; nothing in one can
 * make a call crash or loop. What a call may write (state, table, names, index, list, out) must overlap no other area
 * of the same call.
 *
 * The functions at the bottom, `cantivorex_safe_..`, are the ones to call: they take a null pointer as an area of
 * length 0. The eight above them are what the library has, each area as a pointer that is not null and a length.
 *
 * Check and closing have two forms. The one without an index is for a small board: it reads all clauses again in each
 * round. The one that is lent an index is for all others: it looks at each body fact of each clause once for a state,
 * so that a long chain of clauses takes no longer than the same clauses side by side. Both give the same answers.
 *
 * Stack: at most 880 bytes for cantivorex_check, 477 for cantivorex_close, 442 for cantivorex_count and 44 for
 * cantivorex_part; 32,768 for the two forms with an index, cantivorex_rules and cantivorex_holds. boundary/stack.c
 * measures it.
 */
#ifndef CANTIVOREX_H
#define CANTIVOREX_H

#include <stddef.h>
#include <stdint.h>

#ifdef __cplusplus
extern "C" {
#endif

/* The verdict's numbers. */
enum {
    CANTIVOREX_ATTACK = 0,    /* accepted */
    CANTIVOREX_ROOM = 1,      /* a buffer is too short; state, table, names, index and list stay */
    CANTIVOREX_LONG = 2,      /* a file is over its size: 65,536 bytes for a model, 4,096 for a trace */
    CANTIVOREX_VERSION = 3,   /* a file is empty, or its first byte is no version: 1 to 4 of a model, 1 of a trace */
    CANTIVOREX_SHAPE = 4,     /* a length or count does not fit, something is too short, bytes are left over */
    CANTIVOREX_COUNT = 5,     /* a bound is passed */
    CANTIVOREX_FACT = 6,      /* a fact number of F or more */
    CANTIVOREX_ORDER = 7,     /* a list is not strictly ascending */
    CANTIVOREX_NEGATED = 8,   /* never given: a clause's head may stand in an N */
    CANTIVOREX_NAME = 9,      /* the trace names a goal or a rule that the model lacks */
    CANTIVOREX_BLOCKED = 10,  /* a step's rule cannot fire, for one of its conditions */
    CANTIVOREX_NOATTACK = 11, /* all steps fire, and the goal is not met */
    CANTIVOREX_BADNAME = 12,  /* a name over 1,023 */
    CANTIVOREX_USED = 13,     /* a step's conditions are met, and a name that its rule makes is used */
    CANTIVOREX_FORMULA = 17   /* a formula's codes are not one formula of at most 32 deep */
};

/* What the buffers need at least. */
enum {
    CANTIVOREX_STATE_BYTES = 512,
    CANTIVOREX_TABLE_ENTRIES = 4096,
    CANTIVOREX_NAMES_BYTES = 128,
    CANTIVOREX_INDEX_ENTRIES = 32768, /* enough for every model: an index needs an entry for each of its body places */
    CANTIVOREX_LIST_ENTRIES = 2048,   /* enough for every model: a list of rules needs an entry for each of its rules */
    CANTIVOREX_OUT_ENTRIES = 10,      /* of a check; closing needs one, and so does a list of rules */
    CANTIVOREX_CLOSED_ENTRIES = 2,    /* of closing with an index */
    CANTIVOREX_HOLDS_ENTRIES = 2,     /* of a fact that is asked for */
    CANTIVOREX_HAS_ENTRIES = 4        /* of a count */
};

/* Where a verdict's values stand in `out`. */
enum {
    CANTIVOREX_OUT_NUMBER = 0,
    CANTIVOREX_OUT_STEP = 1,   /* for 10 and 13 the step that does not fire; for 0 and 11 the count of steps */
    CANTIVOREX_OUT_FACT = 2,   /* the first unmet condition, for 13 the first used name, or CANTIVOREX_NONE */
    CANTIVOREX_OUT_ROUNDS = 3, /* the rounds of all states reached */
    CANTIVOREX_OUT_HELD = 4,   /* the facts in the last state reached */
    CANTIVOREX_OUT_KIND = 5,   /* of that condition, one of the kinds below */
    CANTIVOREX_OUT_ROUND = 6,  /* of a negative one the round in which its fact arose, or CANTIVOREX_NONE */
    CANTIVOREX_OUT_MARK = 7,   /* whose bytes are at fault: 0 the model's, 1 the trace's */
    CANTIVOREX_OUT_START = 8,  /* where they start */
    CANTIVOREX_OUT_SIZE = 9    /* how many they are */
};

/* Where the answers of closing stand in `out`; without an index it gives the first alone. */
enum {
    CANTIVOREX_CLOSED_ROUNDS = 0,
    CANTIVOREX_CLOSED_CROSSINGS = 1 /* the body places whose fact is in the closure */
};

/* Where the answers for a fact that is asked for stand in `out`. */
enum {
    CANTIVOREX_HOLDS_ROUND = 0, /* the round in which it arose, 0 if it is stored, or CANTIVOREX_NONE if it is absent */
    CANTIVOREX_HOLDS_ROUNDS = 1 /* the rounds run on the last state: that round, or all of them if it is absent */
};

/* Where a model's figures stand in `out`: the same four for all versions. */
enum {
    CANTIVOREX_HAS_FACTS = 0, /* F: its facts are the numbers below it */
    CANTIVOREX_HAS_CLAUSES = 1,
    CANTIVOREX_HAS_RULES = 2,
    CANTIVOREX_HAS_GOALS = 3 /* its attack states and formulas together: a goal is a number below it */
};

/* Which condition is not met: none for any number but 10 and 11, and for 11 none where the goal is a formula. */
enum {
    CANTIVOREX_KIND_NONE = 0,
    CANTIVOREX_KIND_POSITIVE = 1, /* a fact of P is not in the closure */
    CANTIVOREX_KIND_NEGATIVE = 2  /* a fact of N is; in round 0 if it is stored */
};

/* No fact and no round in a verdict, no round in a table. */
#define CANTIVOREX_NONE 65535

/* The verdict on a model and a trace: answers its number and writes its ten values to the front of `out`. The goals are
 * the attack states and, from version 4 on, then the formulas: one is met where it is false in the last state, and 11
 * for one that is true has no fact, no kind and no round, the bytes being its record's with the length. For 1 to 9, 12
 * and 17 state, table and names stay as they were. For 0, 10, 11 and 13 the first 512 bytes of `state` hold the facts
 * of the last state reached (fact f is the bit of value 2^(f mod 8) in byte f/8), the first 4,096 entries of `table`
 * its round numbers, and the first 128 bytes of `names` the names used by then, laid out like the facts. Versions 1 and
 * 2 of a model have no names: all three buffers are needed all the same, and no name is used at the end. What lies
 * beyond stays. With an `out` of fewer than 10 entries the answer is 1 and nothing at all is changed. */
uint8_t cantivorex_check(const uint8_t *model, size_t model_len, const uint8_t *trace, size_t trace_len,
    uint8_t *state, size_t state_len, uint16_t *table, size_t table_len, uint8_t *names, size_t names_len,
    uint64_t *out, size_t out_len);

/* Closing by itself, from the state lent: answers 0 and writes the number of rounds to out[0] and the round numbers to
 * the first 4,096 entries of `table`. Otherwise it answers 1 to 7, 12 or 17 for what it is lent, or 6 for a state with
 * a fact of F or more, and changes nothing. It looks at no names. With an `out` of no entries the answer is 1. */
uint8_t cantivorex_close(const uint8_t *model, size_t model_len, const uint8_t *state, size_t state_len,
    uint16_t *table, size_t table_len, uint64_t *out, size_t out_len);

/* The same two with an index, which needs an entry for each body place of the model, that is for each body fact of each
 * clause. With fewer the answer is 1, right after the model's own numbers: after 2 and 3 of both files, and before 4, 5
 * and 9 of a trace and before closing's 6 for the state; nothing is changed then but a check's `out`, whose bytes at
 * fault are the empty part at the model's start. Wherever the table is written, so are as many of the first entries of
 * `index` as the model has body places: the number of each one's clause, by fact and then by clause. The others stay.
 * What the index held before says nothing. Closing writes the crossings to out[1] besides; with an `out` of fewer than
 * 2 entries it answers 1 and changes nothing. */
uint8_t cantivorex_check_indexed(const uint8_t *model, size_t model_len, const uint8_t *trace, size_t trace_len,
    uint8_t *state, size_t state_len, uint16_t *table, size_t table_len, uint8_t *names, size_t names_len,
    uint16_t *index, size_t index_len, uint64_t *out, size_t out_len);

uint8_t cantivorex_close_indexed(const uint8_t *model, size_t model_len, const uint8_t *state, size_t state_len,
    uint16_t *table, size_t table_len, uint16_t *index, size_t index_len, uint64_t *out, size_t out_len);

/* Every rule that can fire in the last state that a trace reaches; where a step does not fire that is the state before
 * it. Answers 0, writes how many they are to out[0] and their numbers, ascending, to the front of `list`, and leaves
 * state, table, names and index as cantivorex_check_indexed does, whose 10, 11 and 13 are no refusals here: the goal
 * says nothing once there is one. What lies beyond stays, the entries of `list` after the answer too. Otherwise it
 * answers 1 to 9, 12 or 17 and changes nothing. 1 is also for a `list` with fewer entries than the model has rules,
 * even if the answer would fit, in the same place as for an index: right after the model's own numbers. With an `out`
 * of no entries the answer is 1. */
uint8_t cantivorex_rules(const uint8_t *model, size_t model_len, const uint8_t *trace, size_t trace_len,
    uint8_t *state, size_t state_len, uint16_t *table, size_t table_len, uint8_t *names, size_t names_len,
    uint16_t *index, size_t index_len, uint16_t *list, size_t list_len, uint64_t *out, size_t out_len);

/* Whether one fact holds in the last state after all steps. Answers 0 and writes two values to the front of `out`: the
 * fact's round number as closing that state in full would have it, or CANTIVOREX_NONE if it is absent; and the rounds
 * run on that state. Closing stops at the end of the round in which the fact arises: the first 4,096 entries of `table`
 * show the facts up to that round, and CANTIVOREX_NONE there says only that the rounds run did not reach the fact. For
 * a stored fact no round is run, for an absent one all are. State, names and index are left as by
 * cantivorex_check_indexed, and what lies beyond stays; the goal says nothing once there is one. Otherwise it answers 1
 * to 9, 12 or 17 and changes nothing, 6 being also for a `fact` of F or more, after all that is said of both files and
 * before any step; or 10 or 13 for a step that does not fire, with state, table, names and index as
 * cantivorex_check_indexed leaves them and `out` as it was. With an `out` of fewer than 2 entries the answer is 1 and
 * nothing is changed. */
uint8_t cantivorex_holds(const uint8_t *model, size_t model_len, const uint8_t *trace, size_t trace_len, size_t fact,
    uint8_t *state, size_t state_len, uint16_t *table, size_t table_len, uint8_t *names, size_t names_len,
    uint16_t *index, size_t index_len, uint64_t *out, size_t out_len);

/* What a model has: answers 0 and writes how many facts, clauses, rules and goals to the front of `out`. Otherwise it
 * answers 2 to 7, 12 or 17 for the model and changes nothing. With an `out` of fewer than 4 entries the answer is 1. */
uint8_t cantivorex_count(const uint8_t *model, size_t model_len, uint64_t *out, size_t out_len);

/* The bytes at a place of the file marked (0 the model, 1 the trace), as far as the file has them; for any other mark
 * none. Answers how many they are, and copies them to the front of `out` as far as it has room. Every mark, start and
 * size is fine. */
size_t cantivorex_part(const uint8_t *model, size_t model_len, const uint8_t *trace, size_t trace_len, uint8_t mark,
    size_t start, size_t size, uint8_t *out, size_t out_len);

/* The same eight, with a null pointer as an area of length 0: a null file is an empty one (VERSION), a null buffer one
 * without room (ROOM). */
static inline uint8_t cantivorex_safe_check(const uint8_t *model, size_t model_len, const uint8_t *trace,
    size_t trace_len, uint8_t *state, size_t state_len, uint16_t *table, size_t table_len, uint8_t *names,
    size_t names_len, uint64_t *out, size_t out_len)
{
    uint64_t nothing = 0; /* an address for an area of length 0, which is never read or written */
    return cantivorex_check(model ? model : (const uint8_t *)&nothing, model ? model_len : 0,
        trace ? trace : (const uint8_t *)&nothing, trace ? trace_len : 0, state ? state : (uint8_t *)&nothing,
        state ? state_len : 0, table ? table : (uint16_t *)&nothing, table ? table_len : 0,
        names ? names : (uint8_t *)&nothing, names ? names_len : 0, out ? out : &nothing, out ? out_len : 0);
}

static inline uint8_t cantivorex_safe_close(const uint8_t *model, size_t model_len, const uint8_t *state,
    size_t state_len, uint16_t *table, size_t table_len, uint64_t *out, size_t out_len)
{
    uint64_t nothing = 0;
    return cantivorex_close(model ? model : (const uint8_t *)&nothing, model ? model_len : 0,
        state ? state : (const uint8_t *)&nothing, state ? state_len : 0, table ? table : (uint16_t *)&nothing,
        table ? table_len : 0, out ? out : &nothing, out ? out_len : 0);
}

static inline uint8_t cantivorex_safe_check_indexed(const uint8_t *model, size_t model_len, const uint8_t *trace,
    size_t trace_len, uint8_t *state, size_t state_len, uint16_t *table, size_t table_len, uint8_t *names,
    size_t names_len, uint16_t *index, size_t index_len, uint64_t *out, size_t out_len)
{
    uint64_t nothing = 0;
    return cantivorex_check_indexed(model ? model : (const uint8_t *)&nothing, model ? model_len : 0,
        trace ? trace : (const uint8_t *)&nothing, trace ? trace_len : 0, state ? state : (uint8_t *)&nothing,
        state ? state_len : 0, table ? table : (uint16_t *)&nothing, table ? table_len : 0,
        names ? names : (uint8_t *)&nothing, names ? names_len : 0, index ? index : (uint16_t *)&nothing,
        index ? index_len : 0, out ? out : &nothing, out ? out_len : 0);
}

static inline uint8_t cantivorex_safe_close_indexed(const uint8_t *model, size_t model_len, const uint8_t *state,
    size_t state_len, uint16_t *table, size_t table_len, uint16_t *index, size_t index_len, uint64_t *out,
    size_t out_len)
{
    uint64_t nothing = 0;
    return cantivorex_close_indexed(model ? model : (const uint8_t *)&nothing, model ? model_len : 0,
        state ? state : (const uint8_t *)&nothing, state ? state_len : 0, table ? table : (uint16_t *)&nothing,
        table ? table_len : 0, index ? index : (uint16_t *)&nothing, index ? index_len : 0, out ? out : &nothing,
        out ? out_len : 0);
}

static inline uint8_t cantivorex_safe_rules(const uint8_t *model, size_t model_len, const uint8_t *trace,
    size_t trace_len, uint8_t *state, size_t state_len, uint16_t *table, size_t table_len, uint8_t *names,
    size_t names_len, uint16_t *index, size_t index_len, uint16_t *list, size_t list_len, uint64_t *out,
    size_t out_len)
{
    uint64_t nothing = 0;
    return cantivorex_rules(model ? model : (const uint8_t *)&nothing, model ? model_len : 0,
        trace ? trace : (const uint8_t *)&nothing, trace ? trace_len : 0, state ? state : (uint8_t *)&nothing,
        state ? state_len : 0, table ? table : (uint16_t *)&nothing, table ? table_len : 0,
        names ? names : (uint8_t *)&nothing, names ? names_len : 0, index ? index : (uint16_t *)&nothing,
        index ? index_len : 0, list ? list : (uint16_t *)&nothing, list ? list_len : 0, out ? out : &nothing,
        out ? out_len : 0);
}

static inline uint8_t cantivorex_safe_holds(const uint8_t *model, size_t model_len, const uint8_t *trace,
    size_t trace_len, size_t fact, uint8_t *state, size_t state_len, uint16_t *table, size_t table_len, uint8_t *names,
    size_t names_len, uint16_t *index, size_t index_len, uint64_t *out, size_t out_len)
{
    uint64_t nothing = 0;
    return cantivorex_holds(model ? model : (const uint8_t *)&nothing, model ? model_len : 0,
        trace ? trace : (const uint8_t *)&nothing, trace ? trace_len : 0, fact, state ? state : (uint8_t *)&nothing,
        state ? state_len : 0, table ? table : (uint16_t *)&nothing, table ? table_len : 0,
        names ? names : (uint8_t *)&nothing, names ? names_len : 0, index ? index : (uint16_t *)&nothing,
        index ? index_len : 0, out ? out : &nothing, out ? out_len : 0);
}

static inline uint8_t cantivorex_safe_count(const uint8_t *model, size_t model_len, uint64_t *out, size_t out_len)
{
    uint64_t nothing = 0;
    return cantivorex_count(model ? model : (const uint8_t *)&nothing, model ? model_len : 0, out ? out : &nothing,
        out ? out_len : 0);
}

static inline size_t cantivorex_safe_part(const uint8_t *model, size_t model_len, const uint8_t *trace,
    size_t trace_len, uint8_t mark, size_t start, size_t size, uint8_t *out, size_t out_len)
{
    uint64_t nothing = 0;
    return cantivorex_part(model ? model : (const uint8_t *)&nothing, model ? model_len : 0,
        trace ? trace : (const uint8_t *)&nothing, trace ? trace_len : 0, mark, start, size,
        out ? out : (uint8_t *)&nothing, out ? out_len : 0);
}

#ifdef __cplusplus
}
#endif

#endif
