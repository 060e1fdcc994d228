//! The edges of document 01: a pair on each side of every bound and one for each fault, through the proved library; the
//! same for versions 2 to 4, what a step does to persistent facts and to names, what formulas say; what models have;
//! what stands in an index; which rules fire; whether a fact holds. What must come out was worked out by hand: EDGES.md
//! has the reasoning, edges.txt, effects.txt, figures.txt, indexes.txt, firing.txt and holds.txt the lines.

use cantivorex::{Closed, Counts, Holds, Verdict, NAMES_BYTES, STATE_BYTES, TABLE_ENTRIES};
use second::gen::{write_model, write_trace};
use second::{Attack, Clause, Model, Rule};

type Case = (&'static str, Files);

/// The lists that a pair is written from.
struct Lists {
    model: Model,
    goal: u16,
    steps: Vec<u16>,
}

struct Files {
    model: Vec<u8>,
    trace: Vec<u8>,
}

fn plain_lists() -> Lists {
    let clause = Clause { head: 0, body: vec![0] };
    let rule = Rule { pos: vec![0], ..Rule::default() };
    let model = Model {
        facts: 40,
        clauses: vec![clause],
        rules: vec![rule],
        attacks: vec![Attack::default()],
        ..Model::default()
    };
    Lists { model, goal: 0, steps: vec![0] }
}

/// The plain pair with its lists changed.
fn listed(change: impl FnOnce(&mut Lists)) -> Files {
    let mut lists = plain_lists();
    change(&mut lists);
    let trace = write_trace(lists.goal, &lists.steps);
    Files { model: write_model(&lists.model), trace }
}

fn in_clause(change: impl FnOnce(&mut Clause)) -> Files {
    listed(|l| change(&mut l.model.clauses[0]))
}

fn in_rule(change: impl FnOnce(&mut Rule)) -> Files {
    listed(|l| change(&mut l.model.rules[0]))
}

fn in_goal(change: impl FnOnce(&mut Attack)) -> Files {
    listed(|l| change(&mut l.model.attacks[0]))
}

fn plain() -> Files {
    listed(|_| ())
}

/// The plain pair with its model as version 2.
fn persistent(facts: Vec<u16>) -> Files {
    listed(|l| l.model.persistent = Some(facts))
}

/// The plain pair with its model as version 3 and these names in use.
fn in_use(names: Vec<u16>) -> Files {
    named(|l| l.model.names = Some(names))
}

/// The same without a name in use, and changed.
fn named(change: impl FnOnce(&mut Lists)) -> Files {
    listed(|l| {
        (l.model.persistent, l.model.names) = (Some(vec![]), Some(vec![]));
        change(l);
    })
}

/// The same with these names that the rule makes.
fn makes(names: Vec<u16>) -> Files {
    named(|l| l.model.rules[0].names = names)
}

/// The plain pair with its model as version 4 and these formulas.
fn formulas(all: Vec<Vec<u16>>) -> Files {
    named(|l| l.model.formulas = Some(all))
}

/// The same with one formula.
fn formula(codes: &[u16]) -> Files {
    formulas(vec![codes.to_vec()])
}

const NOT: u16 = 32_768;
const AND: u16 = 32_769;
const OR: u16 = 32_770;
const IMPLIES: u16 = 32_771;
const YESTERDAY: u16 = 32_772;
const ONCE: u16 = 32_773;
const HISTORICALLY: u16 = 32_774;
const SINCE: u16 = 32_775;

/// Changes to the written bytes.
impl Files {
    /// Cut, or filled up with zeros.
    fn model_of(mut self, size: usize) -> Files {
        self.model.resize(size, 0);
        self
    }

    fn trace_of(mut self, size: usize) -> Files {
        self.trace.resize(size, 0);
        self
    }

    fn model_version(mut self, version: u8) -> Files {
        self.model[0] = version;
        self
    }

    fn trace_version(mut self, version: u8) -> Files {
        self.trace[0] = version;
        self
    }

    /// The model's bytes from one place to another replaced.
    fn with(mut self, from: usize, to: usize, bytes: &[u8]) -> Files {
        self.model.splice(from..to, bytes.iter().copied());
        self
    }

    fn with_trace(mut self, bytes: &[u8]) -> Files {
        self.trace = bytes.to_vec();
        self
    }
}

/// So many facts, ascending from the first.
fn facts(first: u16, count: u16) -> Vec<u16> {
    (first..first + count).collect()
}

fn facts_of_a_record() -> Vec<Case> {
    vec![
        ("16 body facts", in_clause(|c| c.body = facts(0, 16))),
        ("17 body facts", in_clause(|c| c.body = facts(0, 17))),
        ("32 in a rule's P", in_rule(|r| r.pos = facts(0, 32))),
        ("33 in a rule's P", in_rule(|r| r.pos = facts(0, 33))),
        ("32 in a rule's N", in_rule(|r| r.neg = facts(1, 32))),
        ("33 in a rule's N", in_rule(|r| r.neg = facts(1, 33))),
        ("32 in a rule's A", in_rule(|r| r.add = facts(0, 32))),
        ("33 in a rule's A", in_rule(|r| r.add = facts(0, 33))),
        ("32 in an attack state's P", in_goal(|a| a.pos = facts(0, 32))),
        ("33 in an attack state's P", in_goal(|a| a.pos = facts(0, 33))),
        ("32 in an attack state's N", in_goal(|a| a.neg = facts(1, 32))),
        ("33 in an attack state's N", in_goal(|a| a.neg = facts(1, 33))),
    ]
}

/// A list's one entry so many times.
fn repeat<T: Clone>(list: &mut Vec<T>, count: usize) {
    *list = vec![list[0].clone(); count];
}

fn records_steps_and_f() -> Vec<Case> {
    vec![
        ("4096 clauses", listed(|l| repeat(&mut l.model.clauses, 4_096))),
        ("4097 clauses", listed(|l| repeat(&mut l.model.clauses, 4_097))),
        ("2048 rules", listed(|l| repeat(&mut l.model.rules, 2_048))),
        ("2049 rules", listed(|l| repeat(&mut l.model.rules, 2_049))),
        ("64 attack states", listed(|l| repeat(&mut l.model.attacks, 64))),
        ("65 attack states", listed(|l| repeat(&mut l.model.attacks, 65))),
        ("1024 steps", listed(|l| repeat(&mut l.steps, 1_024))),
        ("1025 steps", listed(|l| repeat(&mut l.steps, 1_025))),
        ("F 4096", listed(|l| l.model.facts = 4_096)),
        ("F 4097", listed(|l| l.model.facts = 4_097)),
    ]
}

/// The longest model without a fault.
fn full(lists: &mut Lists) {
    lists.model.facts = 4_096;
    lists.model.initial = facts(0, 4_076);
    lists.model.clauses[0].body = facts(0, 5);
    repeat(&mut lists.model.clauses, 4_096);
}

fn sizes_of_files() -> Vec<Case> {
    vec![
        ("a model of 65536 bytes", plain().model_of(65_536)),
        ("a model of 65537 bytes", plain().model_of(65_537)),
        ("a trace of 4096 bytes", plain().trace_of(4_096)),
        ("a trace of 4097 bytes", plain().trace_of(4_097)),
        ("a full model of 65535 bytes", listed(full)),
    ]
}

fn fact_numbers() -> Vec<Case> {
    vec![
        ("initial fact F-1", listed(|l| l.model.initial = facts(0, 40))),
        ("initial fact F", listed(|l| l.model.initial = facts(0, 41))),
        ("head F-1", in_clause(|c| c.head = 39)),
        ("head F", in_clause(|c| c.head = 40)),
        ("fact F-1 in a rule's P", in_rule(|r| r.pos = vec![39])),
        ("fact F in a rule's P", in_rule(|r| r.pos = vec![40])),
        ("body fact F-1", in_clause(|c| c.body = vec![39])),
        ("body fact F", in_clause(|c| c.body = vec![40])),
        ("fact F-1 in a rule's N", in_rule(|r| r.neg = vec![39])),
        ("fact F in a rule's N", in_rule(|r| r.neg = vec![40])),
        ("fact F-1 in a rule's A", in_rule(|r| r.add = vec![39])),
        ("fact F in a rule's A", in_rule(|r| r.add = vec![40])),
        ("fact F-1 in an attack state's P", in_goal(|a| a.pos = vec![39])),
        ("fact F in an attack state's P", in_goal(|a| a.pos = vec![40])),
        ("fact F-1 in an attack state's N", in_goal(|a| a.neg = vec![39])),
        ("fact F in an attack state's N", in_goal(|a| a.neg = vec![40])),
    ]
}

fn head_in_n(lists: &mut Lists) {
    lists.model.clauses[0].head = 1;
    lists.model.rules[0].neg = vec![1];
}

fn other_faults() -> Vec<Case> {
    vec![
        ("no fault", plain()),
        ("the last byte missing", plain().model_of(44)),
        ("one byte more", plain().model_of(46)),
        ("the trace's last byte missing", plain().trace_of(8)),
        ("version 5", plain().model_version(5)),
        ("a fact twice in a rule's P", in_rule(|r| r.pos = vec![0, 0])),
        ("a head in a rule's N", listed(head_in_n)),
        ("an attack state that is missing", listed(|l| l.goal = 1)),
        ("a rule that is missing", listed(|l| l.steps = vec![1])),
    ]
}

/// 64 attack states, which end at 423, and then some bytes more in their section.
fn after_64_attack_states(more: &[u8]) -> Files {
    let length = (64 * 6 + more.len() as u32).to_be_bytes();
    let files = listed(|l| repeat(&mut l.model.attacks, 64));
    files.with(35, 39, &length).with(423, 423, more)
}

fn beyond_the_bound() -> Vec<Case> {
    let half_a_length = after_64_attack_states(&[0, 4, 0, 0, 0, 0, 0]);
    let half_a_count = after_64_attack_states(&[0, 3, 0, 0, 0]);
    let too_long = after_64_attack_states(&[0, 5, 0, 0, 0, 0]);
    vec![
        ("a 65th attack state and half a length", half_a_length),
        ("a 65th attack state without a whole N", half_a_count),
        ("a 65th attack state's length too long", too_long),
    ]
}

fn twice_and_too_large(rule: &mut Rule) {
    rule.pos = vec![0, 0];
    rule.add = vec![40];
}

fn passes_over_a_record() -> Vec<Case> {
    // P's count stands at 27; behind 33 facts of P and the count of N, that of A stands at 97
    let cut_off = in_rule(|r| r.pos = facts(0, 33)).with(97, 99, &[0, 1]);
    vec![
        ("33 in a rule's P and an A that doesn't fit", cut_off),
        ("a count of 33 with one fact", plain().with(27, 29, &[0, 33])),
        ("a count of 32769 with one fact", plain().with(27, 29, &[0x80, 1])),
        ("a fact twice in a rule's P and fact F in its A", in_rule(twice_and_too_large)),
    ]
}

fn too_short() -> Vec<Case> {
    vec![
        ("an empty model", plain().model_of(0)),
        ("an empty trace", plain().trace_of(0)),
        ("sizes of three bytes", plain().with(1, 7, &[0, 0, 0, 3, 0, 40, 0])),
        ("a clause of no bytes", plain().with(11, 21, &[0, 0, 0, 2, 0, 0])),
        ("no attack states' section", plain().model_of(35)),
        ("one byte of the attack states' length", plain().model_of(36)),
        ("three bytes of the attack states' length", plain().model_of(38)),
        ("an empty trace section", plain().with_trace(&[1, 0, 0, 0, 0])),
        ("a trace section of three bytes", plain().with_trace(&[1, 0, 0, 0, 3, 0, 0, 0])),
    ]
}

fn too_many_facts(lists: &mut Lists) {
    lists.model.facts = 4_097;
    lists.model.initial = vec![4_097];
}

fn the_first_of_two() -> Vec<Case> {
    let many_steps = listed(|l| repeat(&mut l.steps, 1_025)).trace_of(2_058);
    let long_trace = plain().trace_of(4_097).model_version(5);
    let newer_trace = plain().trace_version(2).model_of(44);
    vec![
        ("F 4097 and initial fact 4097", listed(too_many_facts)),
        ("1025 steps and a byte more", many_steps),
        ("a trace of 4097 bytes and a model of version 5", long_trace),
        ("a trace of version 2 and a model's last byte missing", newer_trace),
    ]
}

/// The longest model of version 2 without a fault.
fn full_2(lists: &mut Lists) {
    full(lists);
    lists.model.initial = facts(0, 2_074);
    lists.model.persistent = Some(facts(0, 2_000));
}

/// All facts that there can be, and perhaps one more number.
fn all_persistent(more: Option<u16>) -> Files {
    listed(|l| {
        l.model.facts = 4_096;
        l.model.persistent = Some(facts(0, 4_096).into_iter().chain(more).collect());
    })
}

fn versions() -> Vec<Case> {
    vec![
        ("version 0", plain().model_version(0)),
        ("version 255", plain().model_version(255)),
        ("version 2 without its section", plain().model_version(2)),
        ("version 1 with the section", persistent(vec![1]).model_version(1)),
        ("a trace of version 2 and a model of version 2", persistent(vec![]).trace_version(2)),
        ("a trace of version 2 and a model of version 1", plain().trace_version(2)),
    ]
}

fn persistent_facts() -> Vec<Case> {
    vec![
        ("no persistent fact", persistent(vec![])),
        ("persistent fact F-1", persistent(facts(0, 40))),
        ("persistent fact F", persistent(facts(0, 41))),
        ("4096 persistent facts", all_persistent(None)),
        ("4096 persistent facts and fact F", all_persistent(Some(4_096))),
        ("4096 persistent facts and the last again", all_persistent(Some(4_095))),
        ("a full model of version 2", listed(full_2)),
        ("a persistent fact twice", persistent(vec![5, 5])),
        ("the last persistent fact below the one before", persistent(vec![0, 2, 1])),
        ("half a persistent fact", persistent(vec![]).with(11, 15, &[0, 0, 0, 1, 0])),
        ("a persistent fact and a half", persistent(vec![]).with(11, 15, &[0, 0, 0, 3, 0, 0, 0])),
        ("the persistent facts' length too long", persistent(vec![]).with(13, 14, &[1])),
        ("no persistent facts' section", persistent(vec![]).model_of(11)),
        ("three bytes of the persistent facts' length", persistent(vec![]).model_of(14)),
    ]
}

/// Two faults, one of them in the section.
fn persistent_and_another() -> Vec<Case> {
    let too_many = |l: &mut Lists| {
        l.model.facts = 4_097;
        l.model.persistent = Some(vec![4_097]);
    };
    let initial_too = |l: &mut Lists| {
        l.model.initial = vec![40];
        l.model.persistent = Some(vec![40]);
    };
    let head_too = |l: &mut Lists| {
        l.model.clauses[0].head = 40;
        l.model.persistent = Some(vec![40]);
    };
    let half = persistent(vec![]).with(11, 15, &[0, 0, 0, 3, 0, 40, 0]);
    vec![
        ("F 4097 and persistent fact 4097", listed(too_many)),
        ("initial fact F and persistent fact F", listed(initial_too)),
        ("persistent fact F and head F", listed(head_too)),
        ("persistent fact F and half a fact", half),
        ("persistent facts 2, 1 and F", persistent(vec![2, 1, 40])),
    ]
}

fn version_3() -> Vec<Case> {
    // The rules' length and the rule: with four lists in version 2, with three in version 3.
    let four = [0, 0, 0, 12, 0, 10, 0, 1, 0, 0, 0, 0, 0, 0, 0, 0];
    let three = [0, 0, 0, 10, 0, 8, 0, 1, 0, 0, 0, 0, 0, 0];
    vec![
        ("version 3 without its sections", plain().model_version(3)),
        ("version 2 with the names' section", in_use(vec![1]).model_version(2)),
        ("version 2 with a fourth list", persistent(vec![]).with(25, 39, &four)),
        ("version 3 without the fourth list", in_use(vec![]).with(29, 45, &three)),
        ("a trace of version 3 and a model of version 3", in_use(vec![]).trace_version(3)),
    ]
}

/// The longest model of version 3 without a fault.
fn full_3(lists: &mut Lists) {
    full(lists);
    lists.model.initial = facts(0, 1_047);
    lists.model.persistent = Some(facts(0, 2_000));
    lists.model.names = Some(facts(0, 1_024));
}

/// All names that there are, and another number.
fn all_in_use(more: u16) -> Files {
    in_use(facts(0, 1_024).into_iter().chain([more]).collect())
}

fn names_in_use() -> Vec<Case> {
    vec![
        ("no name in use", in_use(vec![])),
        ("name 1023 in use", in_use(vec![1_023])),
        ("name 1024 in use", in_use(vec![1_024])),
        ("1024 names in use", in_use(facts(0, 1_024))),
        ("1024 names in use and name 1024", all_in_use(1_024)),
        ("1024 names in use and the last again", all_in_use(1_023)),
        ("a full model of version 3", listed(full_3)),
        ("a name in use twice", in_use(vec![5, 5])),
        ("the last name in use below the one before", in_use(vec![0, 2, 1])),
        ("half a name in use", in_use(vec![]).with(15, 19, &[0, 0, 0, 1, 0])),
        ("the names' length too long", in_use(vec![]).with(17, 18, &[1])),
        ("no names' section", in_use(vec![]).model_of(15)),
        ("three bytes of the names' length", in_use(vec![]).model_of(18)),
    ]
}

fn names_that_a_rule_makes() -> Vec<Case> {
    vec![
        ("32 names in a rule", makes(facts(0, 32))),
        ("33 names in a rule", makes(facts(0, 33))),
        ("name 1023 in a rule", makes(vec![1_023])),
        ("name 1024 in a rule", makes(vec![1_024])),
        ("a name twice in a rule", makes(vec![5, 5])),
        ("a rule's one name missing", makes(vec![]).with(43, 45, &[0, 1])),
    ]
}

/// Two faults, one of them of a name.
fn names_and_another() -> Vec<Case> {
    let persistent_too = |l: &mut Lists| {
        (l.model.persistent, l.model.names) = (Some(vec![40]), Some(vec![1_024]));
    };
    let head_too = |l: &mut Lists| {
        (l.model.clauses[0].head, l.model.names) = (40, Some(vec![1_024]));
    };
    let fact_too = |l: &mut Lists| {
        (l.model.rules[0].add, l.model.rules[0].names) = (vec![40], vec![1_024]);
    };
    let twice_too = |l: &mut Lists| {
        (l.model.rules[0].pos, l.model.rules[0].names) = (vec![0, 0], vec![1_024]);
    };
    let one_more = |l: &mut Lists| {
        repeat(&mut l.model.rules, 2_049);
        l.model.rules[2_048].names = vec![1_024];
    };
    let half = in_use(vec![]).with(15, 19, &[0, 0, 0, 3, 4, 0, 0]);
    let many = facts(0, 32).into_iter().chain([1_024]).collect();
    vec![
        ("persistent fact F and name 1024 in use", named(persistent_too)),
        ("name 1024 in use and head F", named(head_too)),
        ("name 1024 in use and half a name", half),
        ("names 2, 1 and 1024 in use", in_use(vec![2, 1, 1_024])),
        ("33 names in a rule, the last 1024", makes(many)),
        ("fact F in a rule's A and name 1024", named(fact_too)),
        ("a fact twice in a rule's P and name 1024", named(twice_too)),
        ("a 2049th rule with name 1024", named(one_more)),
    ]
}

fn version_4() -> Vec<Case> {
    vec![
        ("version 4 without its sections", plain().model_version(4)),
        ("version 4 without the formulas' section", in_use(vec![]).model_version(4)),
        ("version 3 with the formulas' section", formula(&[5]).model_version(3)),
        ("a trace of version 4 and a model of version 4", formulas(vec![]).trace_version(4)),
    ]
}

fn the_section_of_formulas() -> Vec<Case> {
    vec![
        ("no formula", formulas(vec![])),
        ("the formulas' length too long", formulas(vec![]).with(57, 58, &[1])),
        ("three bytes of the formulas' length", formulas(vec![]).model_of(58)),
        ("one byte after the formulas", formulas(vec![]).model_of(60)),
        ("half a formula's length", formulas(vec![]).with(55, 59, &[0, 0, 0, 1, 0])),
        ("a formula's length too long", formula(&[0]).with(59, 61, &[0, 3])),
        ("64 formulas", formulas(vec![vec![0]; 64])),
        ("65 formulas", formulas(vec![vec![0]; 65])),
        ("a full model of version 4", listed(full_4)),
    ]
}

/// The longest model of version 4 without a fault.
fn full_4(lists: &mut Lists) {
    full_3(lists);
    lists.model.initial = facts(0, 917);
    lists.model.formulas = Some(vec![vec![0]; 64]);
}

/// So many parts under one operator, as flat as can be; all of them are fact 0.
fn flat(parts: usize) -> Vec<u16> {
    match parts {
        1 => vec![0],
        _ => [vec![OR], flat(parts / 2), flat(parts - parts / 2)].concat(),
    }
}

/// A formula so deep, of nots or of ands along their first parts or their second.
fn nots(deep: usize) -> Vec<u16> {
    [vec![NOT; deep - 1], vec![0]].concat()
}

fn along_first(deep: usize) -> Vec<u16> {
    [vec![AND; deep - 1], vec![0; deep]].concat()
}

fn along_second(deep: usize) -> Vec<u16> {
    [[AND, 0].repeat(deep - 1), vec![0]].concat()
}

fn codes_of_a_formula() -> Vec<Case> {
    vec![
        ("a formula of no code", formula(&[])),
        ("half a code", formulas(vec![]).with(55, 59, &[0, 0, 0, 3, 0, 1, 0])),
        ("a code and a half", formulas(vec![]).with(55, 59, &[0, 0, 0, 5, 0, 3, 0, 0, 0])),
        ("fact F-1 in a formula", formula(&[39])),
        ("fact F in a formula", formula(&[40])),
        ("fact 32767 in a formula", formula(&[32_767])),
        ("255 codes", formula(&flat(128))),
        ("256 codes", formula(&[vec![NOT], flat(128)].concat())),
        ("32 deep", formula(&nots(32))),
        ("33 deep", formula(&nots(33))),
        ("32 deep along first parts", formula(&along_first(32))),
        ("33 deep along first parts", formula(&along_first(33))),
        ("32 deep along second parts", formula(&along_second(32))),
        ("33 deep along second parts", formula(&along_second(33))),
        ("code 32775", formula(&[32_775, 0, 0])),
        ("code 32776", formula(&[32_776, 0, 0])),
        ("code 65535", formula(&[65_535])),
        ("an operator without its part", formula(&[NOT])),
        ("an operator of two with one part", formula(&[AND, 0])),
        ("a code after the end", formula(&[0, 0])),
    ]
}

/// Two faults, one of them of a formula.
fn formulas_and_another() -> Vec<Case> {
    let many = [vec![NOT], flat(128)].concat();
    let far = [&many[..255], &[40]].concat();
    let deep = [vec![NOT; 32], vec![40]].concat();
    let attack_too = named(|l| {
        l.model.attacks[0].pos = vec![40];
        l.model.formulas = Some(vec![vec![40]]);
    });
    let goal_too = named(|l| (l.model.formulas, l.goal) = (Some(vec![vec![]]), 2));
    // The section's length and the record's, and half a code.
    let and_a_half = formula(&many).with(55, 61, &[0, 0, 2, 3, 2, 1]).model_of(574);
    let last = |codes: &[u16]| {
        let all = [vec![vec![0]; 64], vec![codes.to_vec()]].concat();
        formulas(all)
    };
    let half = last(&[]).with(55, 59, &[0, 0, 1, 3]).with(315, 317, &[0, 1, 0]);
    vec![
        ("fact F after the end", formula(&[0, 40])),
        ("fact F and code 32776", formula(&[32_776, 40])),
        ("fact F and 33 deep", formula(&deep)),
        ("256 codes, the last fact F", formula(&far)),
        ("256 codes and a half", and_a_half),
        ("a 65th formula of no code", last(&[])),
        ("a 65th formula of half a code", half),
        ("fact F in an attack state and in a formula", attack_too),
        ("a formula of no code and a goal that is missing", goal_too),
        ("a formula of no code and a byte more", formula(&[]).model_of(62)),
    ]
}

/// So many attack states and formulas, and a goal.
fn goal_of(attacks: usize, formulas: usize, goal: u16) -> Files {
    named(|l| {
        repeat(&mut l.model.attacks, attacks);
        l.model.formulas = Some(vec![vec![0]; formulas]);
        l.goal = goal;
    })
}

fn numbers_of_goals() -> Vec<Case> {
    vec![
        ("a formula as the goal", goal_of(1, 1, 1)),
        ("a goal after the formula", goal_of(1, 1, 2)),
        ("a goal after no formula", goal_of(1, 0, 1)),
        ("the last of 64 and 64 goals", goal_of(64, 64, 127)),
        ("a goal after 64 and 64", goal_of(64, 64, 128)),
        ("a formula and no attack state", goal_of(0, 1, 0)),
    ]
}

/// Models whose figures tell what is counted: records and not bytes, F and not the initial facts.
fn what_is_counted() -> Vec<Case> {
    let two_clauses = listed(|l| l.model.clauses.push(Clause { head: 0, body: facts(0, 16) }));
    let full_rule = Rule { pos: facts(0, 32), neg: facts(1, 32), add: facts(0, 32), names: vec![] };
    let full_goal = Attack { pos: facts(0, 32), neg: facts(1, 32) };
    let all_different = listed(|l| {
        l.model.facts = 300;
        repeat(&mut l.model.clauses, 5);
        repeat(&mut l.model.rules, 4);
        repeat(&mut l.model.attacks, 3);
    });
    vec![
        ("nothing at all", listed(|l| l.model = Model::default())),
        ("300 facts, 5 clauses, 4 rules, 3 attack states", all_different),
        ("a second clause, of 16", two_clauses),
        ("a second rule, of 96", listed(|l| l.model.rules.push(full_rule))),
        ("a second attack state, of 64", listed(|l| l.model.attacks.push(full_goal))),
        ("no clause", listed(|l| l.model.clauses.clear())),
        ("no rule", listed(|l| l.model.rules.clear())),
        ("no attack state", listed(|l| l.model.attacks.clear())),
        ("40 initial facts", listed(|l| l.model.initial = facts(0, 40))),
        ("initial fact F", listed(|l| l.model.initial = facts(0, 41))),
    ]
}

/// In the order of EDGES.md, its last section.
fn models() -> Vec<Case> {
    let groups = [
        what_is_counted,
        records_steps_and_f,
        sizes_of_files,
        other_faults,
        the_first_of_two,
        versions,
        persistent_facts,
        persistent_and_another,
        version_3,
        names_in_use,
        names_that_a_rule_makes,
        names_and_another,
        version_4,
        the_section_of_formulas,
        codes_of_a_formula,
        formulas_and_another,
        numbers_of_goals,
    ];
    groups.iter().flat_map(|group| group()).collect()
}

/// In the order of EDGES.md.
fn cases() -> Vec<Case> {
    let groups = [
        facts_of_a_record,
        records_steps_and_f,
        sizes_of_files,
        fact_numbers,
        other_faults,
        beyond_the_bound,
        passes_over_a_record,
        too_short,
        the_first_of_two,
        versions,
        persistent_facts,
        persistent_and_another,
        version_3,
        names_in_use,
        names_that_a_rule_makes,
        names_and_another,
        version_4,
        the_section_of_formulas,
        codes_of_a_formula,
        formulas_and_another,
        numbers_of_goals,
    ];
    groups.iter().flat_map(|group| group()).collect()
}

/// The pair that the effects change.
fn effect(change: impl FnOnce(&mut Lists)) -> Files {
    listed(|l| {
        l.model.initial = vec![0, 1];
        l.model.persistent = Some(vec![]);
        l.model.clauses = vec![Clause { head: 2, body: vec![0] }];
        l.model.rules = vec![rule(&[1], &[]), rule(&[0], &[])];
        l.model.attacks[0].pos = vec![1];
        change(l);
    })
}

/// A rule without N.
fn rule(pos: &[u16], add: &[u16]) -> Rule {
    Rule { pos: pos.to_vec(), add: add.to_vec(), ..Rule::default() }
}

/// Fact 2, derived or stored: rule 0 asks for it, rule 1 takes away what gives it, and the goal asks for it.
fn derived(initial: &[u16], persistent: &[u16], add: &[u16]) -> Files {
    effect(|l| {
        l.model.initial = initial.to_vec();
        l.model.persistent = Some(persistent.to_vec());
        l.model.rules[0] = rule(&[2], add);
        l.model.attacks[0].pos = vec![2];
        l.steps = vec![0, 1];
    })
}

/// A step takes away a full P, and the goal asks for its last fact.
fn full_p(persistent: Vec<u16>) -> Files {
    effect(|l| {
        l.model.initial = facts(0, 32);
        l.model.persistent = Some(persistent);
        l.model.rules[0].pos = facts(0, 32);
        l.model.attacks[0].pos = vec![31];
    })
}

/// A step takes away a fact of 4,096, and the goal asks for it.
fn one_of_all(fact: u16, persistent: Vec<u16>) -> Files {
    effect(|l| {
        l.model.facts = 4_096;
        l.model.initial = vec![fact];
        l.model.persistent = Some(persistent);
        l.model.rules[0].pos = vec![fact];
        l.model.attacks[0].pos = vec![fact];
    })
}

fn added_later(lists: &mut Lists) {
    lists.model.persistent = Some(vec![3]);
    lists.model.rules = vec![rule(&[], &[3]), rule(&[0, 3], &[])];
    lists.model.attacks[0] = Attack { pos: vec![3], neg: vec![0] };
    lists.steps = vec![0, 1];
}

fn unwanted(lists: &mut Lists) {
    lists.model.persistent = Some(vec![1]);
    lists.model.rules[0] = Rule { neg: vec![1], ..Rule::default() };
}

/// In the order of EDGES.md.
fn effects() -> Vec<Case> {
    let of = |facts: &[u16]| {
        let persistent = Some(facts.to_vec());
        effect(|l| l.model.persistent = persistent)
    };
    vec![
        ("a stored fact that is persistent", of(&[1])),
        ("a stored fact that isn't", of(&[])),
        ("another that is", of(&[0])),
        ("version 1", effect(|l| l.model.persistent = None)),
        ("a derived fact that is persistent", derived(&[0, 1], &[2], &[])),
        ("and is added", derived(&[0, 1], &[2], &[2])),
        ("and is stored besides", derived(&[0, 1, 2], &[2], &[])),
        ("a head that is stored and not persistent", derived(&[0, 1, 2], &[], &[])),
        ("a persistent fact that a step adds", effect(added_later)),
        ("a persistent fact in an N", effect(unwanted)),
        ("32 in P, the last persistent", full_p(vec![31])),
        ("32 in P, all but the last persistent", full_p(facts(0, 31))),
        ("the last of 4096 persistent facts", one_of_all(4_095, facts(0, 4_096))),
        ("the first of 4096 persistent facts", one_of_all(0, facts(0, 4_096))),
        ("the last fact after 4095 persistent ones", one_of_all(4_095, facts(0, 4_095))),
        ("the first fact before 4095 persistent ones", one_of_all(0, facts(1, 4_095))),
    ]
}

/// Rule 0 has P 1, which is persistent, and makes names; these are in use, and those are the steps.
fn minted(in_use: Vec<u16>, names: Vec<u16>, steps: &[u16]) -> Files {
    effect(|l| {
        (l.model.persistent, l.model.names) = (Some(vec![1]), Some(in_use));
        l.model.rules[0].names = names;
        l.steps = steps.to_vec();
    })
}

/// The same with name 5, in use, and other conditions.
fn conditioned(pos: &[u16], neg: &[u16]) -> Files {
    effect(|l| {
        l.model.names = Some(vec![5]);
        l.model.rules[0] =
            Rule { pos: pos.to_vec(), neg: neg.to_vec(), add: vec![], names: vec![5] };
    })
}

fn its_fact_goes(lists: &mut Lists) {
    lists.model.names = Some(vec![]);
    lists.model.rules = vec![rule(&[0], &[]), rule(&[], &[])];
    lists.model.rules.iter_mut().for_each(|rule| rule.names = vec![0]);
    lists.steps = vec![0, 1];
}

/// In the order of EDGES.md.
fn effects_of_names() -> Vec<Case> {
    let version_2 = effect(|l| {
        l.model.persistent = Some(vec![1]);
        l.steps = vec![0, 0];
    });
    vec![
        ("a name that is unused", minted(vec![], vec![5], &[0])),
        ("a name that is in use", minted(vec![5], vec![5], &[0])),
        ("a name that is made twice", minted(vec![], vec![5], &[0, 0])),
        ("no name, made twice", minted(vec![5], vec![], &[0, 0])),
        ("the same in version 2", version_2),
        ("the second of two names in use", minted(vec![6], vec![5, 6], &[0])),
        ("both of two names in use", minted(vec![5, 6], vec![5, 6], &[0])),
        ("the last of 32 names in use", minted(vec![31], facts(0, 32), &[0])),
        ("the last of 1024 names in use", minted(facts(0, 1_024), vec![1_023], &[0])),
        ("the last name after 1023 in use", minted(facts(0, 1_023), vec![1_023], &[0])),
        ("a missing fact and a name in use", conditioned(&[1, 3], &[])),
        ("a fact in the way and a name in use", conditioned(&[1], &[2])),
        ("a name whose fact goes", effect(its_fact_goes)),
    ]
}

/// The pair of the effects as version 4: one formula, which is the goal, and these steps. Rule 2 does nothing.
fn asked(codes: &[u16], steps: &[u16]) -> Files {
    effect(|l| {
        l.model.formulas = Some(vec![codes.to_vec()]);
        l.model.rules.push(rule(&[], &[]));
        (l.goal, l.steps) = (1, steps.to_vec());
    })
}

fn used_before(lists: &mut Lists) {
    lists.model.names = Some(vec![5]);
    lists.model.rules[0].names = vec![5];
    lists.model.formulas = Some(vec![vec![NOT, 1]]);
    lists.goal = 1;
}

/// In the order of EDGES.md.
fn effects_of_formulas() -> Vec<Case> {
    let thousand = [vec![0], vec![2; 1_023]].concat();
    let attack_state = effect(|l| l.model.formulas = Some(vec![vec![1]]));
    vec![
        ("a fact that went", asked(&[1], &[0])),
        ("a fact that is derived", asked(&[2], &[0])),
        ("not a fact that is derived", asked(&[NOT, 2], &[0])),
        ("and with one that went", asked(&[AND, 0, 1], &[0])),
        ("or with one that went", asked(&[OR, 1, 0], &[0])),
        ("implied by one that went", asked(&[IMPLIES, 1, 3], &[0])),
        ("implying one that went", asked(&[IMPLIES, 0, 1], &[0])),
        ("yesterday", asked(&[YESTERDAY, 1], &[0])),
        ("yesterday in the initial state", asked(&[YESTERDAY, 0], &[])),
        ("once", asked(&[ONCE, 1], &[0, 1])),
        ("once now", asked(&[ONCE, 1], &[])),
        ("once and never", asked(&[ONCE, 3], &[0, 1])),
        ("historically", asked(&[HISTORICALLY, 2], &[0])),
        ("historically but now", asked(&[HISTORICALLY, 2], &[0, 1])),
        ("since now", asked(&[SINCE, 3, 0], &[0])),
        ("since the initial state", asked(&[SINCE, 0, 1], &[0])),
        ("since the initial state and no longer", asked(&[SINCE, 1, 1], &[0])),
        ("not there since it was", asked(&[SINCE, NOT, 2, 2], &[0, 1])),
        ("a thousand steps since", asked(&[SINCE, 0, 1], &thousand)),
        ("a thousand steps and not since", asked(&[SINCE, 3, 1], &thousand)),
        ("a step that is blocked before", asked(&[1], &[0, 0])),
        ("a name in use before", effect(used_before)),
        ("an attack state beside a formula", attack_state),
    ]
}

/// A pair, the facts from which closing by itself starts, and how many entries the index has.
type Lent = (&'static str, Files, Vec<u16>, usize);

/// The plain pair with these clauses and initial facts, from which closing starts too.
fn placed(label: &'static str, initial: &[u16], clauses: &[(u16, &[u16])], entries: usize) -> Lent {
    let clause = |(head, body): &(u16, &[u16])| Clause { head: *head, body: body.to_vec() };
    let files = listed(|l| {
        l.model.initial = initial.to_vec();
        l.model.clauses = clauses.iter().map(clause).collect();
    });
    (label, files, initial.to_vec(), entries)
}

fn places() -> Vec<Lent> {
    let own: &[(u16, &[u16])] = &[(0, &[0])];
    let between: &[(u16, &[u16])] = &[(1, &[0]), (0, &[]), (2, &[0, 1])];
    let shared: &[(u16, &[u16])] = &[(5, &[1]), (5, &[1, 2])];
    let sixteen = facts(0, 16);
    let full_body: &[(u16, &[u16])] = &[(0, &sixteen)];
    vec![
        placed("a place and an entry", &[], own, 1),
        placed("a place and no entry", &[], own, 0),
        placed("a place and three entries", &[], own, 3),
        placed("a place whose fact is there", &[0], own, 1),
        placed("no clause and no entry", &[], &[], 0),
        placed("an empty body and no entry", &[], &[(0, &[])], 0),
        placed("an empty body and two entries", &[], &[(0, &[])], 2),
        placed("an empty body between two others", &[], between, 3),
        placed("the same with an entry less", &[], between, 2),
        placed("the lower fact in the later clause", &[1], &[(5, &[3]), (5, &[1])], 2),
        placed("two clauses of a head that share a fact", &[1], shared, 3),
        placed("two facts, each stored and derived", &[0, 1], &[(0, &[1]), (1, &[0])], 3),
        placed("fact F-1 in a body", &[39], &[(0, &[39])], 1),
        placed("16 body facts", &sixteen, full_body, 17),
        placed("16 body facts and 15 entries", &sixteen, full_body, 15),
    ]
}

fn many_places() -> Vec<Lent> {
    let clauses = || listed(|l| repeat(&mut l.model.clauses, 4_096));
    vec![
        ("4096 clauses", clauses(), vec![0], 4_096),
        ("4096 clauses and an entry less", clauses(), vec![0], 4_095),
        ("a full model", listed(full), facts(0, 4_076), 20_480),
        ("a full model and an entry less", listed(full), facts(0, 4_076), 20_479),
        ("a full model and all entries", listed(full), vec![4], 32_768),
    ]
}

/// Too short an index, or one just long enough, and something else.
fn room_and_another() -> Vec<Lent> {
    let twice = || in_rule(|r| r.pos = vec![0, 0]);
    let goal = || listed(|l| l.goal = 1);
    vec![
        ("no entry and a model's last byte missing", plain().model_of(44), vec![], 0),
        ("no entry and a fact twice in a rule's P", twice(), vec![], 0),
        ("no entry and name 1024 in use", in_use(vec![1_024]), vec![], 0),
        ("no entry and a formula of no code", formula(&[]), vec![], 0),
        ("no entry and a trace of 4097 bytes", plain().trace_of(4_097), vec![], 0),
        ("no entry and a trace of version 2", plain().trace_version(2), vec![], 0),
        ("no entry and a trace's last byte missing", plain().trace_of(8), vec![], 0),
        ("no entry and 1025 steps", listed(|l| repeat(&mut l.steps, 1_025)), vec![], 0),
        ("no entry and an attack state that is missing", goal(), vec![], 0),
        ("an entry and an attack state that is missing", goal(), vec![], 1),
        ("no entry and fact F in the state", plain(), vec![40], 0),
        ("an entry and fact F in the state", plain(), vec![40], 1),
        ("no entry, a fault and fact F in the state", twice(), vec![40], 0),
    ]
}

/// What an index has in the entries that are written, and `-` for each that stays; of many the first and the last.
fn shown(index: &[u16]) -> String {
    let written = index.iter().filter(|entry| **entry != STAYS).count();
    if index.len() > 17 && written == 0 {
        return format!("[- .. -, 0 of {}]", index.len());
    }
    if index.len() > 17 {
        let (first, last) = (index[0], index[written - 1]);
        return format!("[{first} .. {last}, {written} of {}]", index.len());
    }
    let entry = |entry: &u16| if *entry == STAYS { "-".to_string() } else { entry.to_string() };
    format!("[{}]", index.iter().map(entry).collect::<Vec<_>>().join(" "))
}

const STAYS: u16 = 0xEEEE;

/// Buffers as large as they have to be, with an index of so many entries that are to stay.
fn lending<T>(entries: usize, ask: impl FnOnce(&mut cantivorex::Lent) -> T) -> T {
    ask(&mut cantivorex::Lent {
        state: &mut [0; STATE_BYTES],
        table: &mut [0; TABLE_ENTRIES],
        names: &mut [0; NAMES_BYTES],
        index: &mut vec![STAYS; entries],
    })
}

fn indexed((label, files, start, entries): &Lent) -> String {
    let Files { model, trace } = files;
    let (mut state, mut table) = ([0; STATE_BYTES], [0; TABLE_ENTRIES]);
    start.iter().for_each(|f| state[*f as usize / 8] |= 1 << (f % 8));
    let [mut one, mut two] = [0; 2].map(|_| vec![STAYS; *entries]);
    let closed = match cantivorex::close_indexed(model, &state, &mut table, &mut one) {
        Ok(Closed { rounds, crossings }) => format!("{rounds} rounds {crossings} crossed"),
        Err(number) => format!("number {number}"),
    };
    let v = lending(two.len(), |lent| {
        let v = cantivorex::check_indexed(model, trace, lent);
        two.copy_from_slice(lent.index);
        v
    });
    if v.number == 1 {
        assert_eq!((v.step, v.rounds, v.held, v.mark, v.start, v.size), (0, 0, 0, 0, 0, 0));
    }
    format!("{label}: {closed} {}, number {} {}", shown(&one), v.number, shown(&two))
}

/// A pair, and how many entries of an index and of a list are lent.
type Listed = (&'static str, Files, usize, usize);

/// The plain pair without steps and with fact 0 there, changed.
fn at_first(change: impl FnOnce(&mut Lists)) -> Files {
    listed(|l| {
        (l.model.initial, l.steps) = (vec![0], vec![]);
        change(l);
    })
}

/// A rule that adds nothing.
fn asking(pos: &[u16], neg: &[u16]) -> Rule {
    Rule { pos: pos.to_vec(), neg: neg.to_vec(), ..Rule::default() }
}

fn rules_that_fire() -> Vec<Listed> {
    let rules = |rules: Vec<Rule>| at_first(|l| l.model.rules = rules);
    let again = |step| rules_and_steps(vec![rule(&[0], &[0])], vec![0; step]);
    let three = || rules(vec![rule(&[0], &[]); 3]);
    let of_clause = |l: &mut Lists| {
        l.model.clauses[0].body = vec![1];
        (l.model.initial, l.steps) = (vec![1], vec![0]);
    };
    let frozen = vec![asking(&[0], &[5]), rule(&[], &[5])];
    let kept = |l: &mut Lists| (l.model.persistent, l.steps) = (Some(vec![0]), vec![0]);
    vec![
        ("a rule that is blocked", plain(), 1, 1),
        ("a rule that fires", at_first(|_| ()), 1, 1),
        ("a rule that took its fact", at_first(|l| l.steps = vec![0]), 1, 1),
        ("a rule that added its fact again", again(1), 1, 1),
        ("the same 1024 times", again(1_024), 1, 1),
        ("a rule whose fact is persistent", at_first(kept), 1, 1),
        ("a rule whose fact is derived", listed(of_clause), 1, 1),
        ("a goal that isn't met", at_first(|l| l.model.attacks[0].pos = vec![39]), 1, 1),
        ("the second of three rules", rules(ordered()), 1, 3),
        ("what a step before put in the way", rules_and_steps(frozen, vec![1, 0]), 1, 2),
        ("no rule and no entry", rules(vec![]), 1, 0),
        ("a rule that is blocked and no entry", plain(), 1, 0),
        ("three rules and two entries", three(), 1, 2),
        ("three rules and three entries", three(), 1, 3),
        ("three rules and five entries", three(), 1, 5),
        ("a rule and no entry of an index", at_first(|_| ()), 0, 1),
    ]
}

fn rules_and_steps(rules: Vec<Rule>, steps: Vec<u16>) -> Files {
    at_first(|l| (l.model.rules, l.steps) = (rules, steps))
}

/// Of these the second fires with fact 0.
fn ordered() -> Vec<Rule> {
    vec![rule(&[1], &[]), rule(&[0], &[]), asking(&[], &[0])]
}

fn full_of_rules() -> Vec<Listed> {
    let most = |there: u16, last: u16| {
        let mut rules = vec![rule(&[there], &[]); 2_048];
        rules[2_047] = rule(&[last], &[]);
        rules_and_steps(rules, vec![])
    };
    let full = |initial: Vec<u16>, pos: &[u16], neg: &[u16]| {
        at_first(|l| (l.model.initial, l.model.rules) = (initial, vec![asking(pos, neg)]))
    };
    let derived = |l: &mut Lists| {
        l.model.clauses[0] = Clause { head: 32, body: vec![5] };
        (l.model.initial, l.steps) = (vec![33], vec![]);
        l.model.rules[0] = asking(&[33], &facts(1, 32));
    };
    let given = |l: &mut Lists| {
        derived(l);
        l.model.clauses[0].body = vec![33];
    };
    vec![
        ("2048 rules", most(0, 0), 1, 2_048),
        ("2048 rules and an entry less", most(0, 0), 1, 2_047),
        ("2048 rules and an entry more", most(0, 0), 1, 2_049),
        ("the last of 2048 rules", most(1, 0), 1, 2_048),
        ("all but the last of 2048 rules", most(0, 1), 1, 2_048),
        ("the last of 2048 rules and an entry less", most(1, 0), 1, 2_047),
        ("32 in P", full(facts(0, 32), &facts(0, 32), &[]), 1, 1),
        ("32 in P, the last missing", full(facts(0, 31), &facts(0, 32), &[]), 1, 1),
        ("32 in N", full(vec![0], &[], &facts(1, 32)), 1, 1),
        ("32 in N, the last there", full(vec![32], &[], &facts(1, 32)), 1, 1),
        ("32 in N, the last a head", listed(derived), 1, 1),
        ("32 in N, the last derived", listed(given), 1, 1),
    ]
}

/// Rule 0 asks for nothing and makes these names; rule 1 makes another. So many are in use, and these the steps.
fn making(made: Vec<u16>, in_use: Vec<u16>, steps: Vec<u16>) -> Files {
    named(|l| {
        l.model.names = Some(in_use);
        l.model.rules = vec![Rule::default(); 2];
        (l.model.rules[0].names, l.model.rules[1].names) = (made, vec![1_023]);
        l.steps = steps;
    })
}

fn rules_that_make_names() -> Vec<Listed> {
    vec![
        ("two rules that make names", making(vec![7], vec![], vec![]), 1, 2),
        ("the first made its name", making(vec![7], vec![], vec![0]), 1, 2),
        ("the first made both", making(vec![7, 1_023], vec![], vec![0]), 1, 2),
        ("the first's name is in use", making(vec![7], vec![7], vec![]), 1, 2),
        ("the same as a step", making(vec![7, 1_023], vec![7], vec![0]), 1, 2),
        ("the last of 32 names in use", making(facts(0, 32), vec![31], vec![]), 1, 2),
        ("the next name in use", making(facts(0, 32), vec![32], vec![]), 1, 2),
    ]
}

fn room_for_a_list() -> Vec<Listed> {
    let twice = || in_rule(|r| r.pos = vec![1, 1]);
    let goal = || listed(|l| l.goal = 1);
    vec![
        ("no entry and a model's last byte missing", plain().model_of(44), 1, 0),
        ("no entry and a fact twice in a rule's P", twice(), 1, 0),
        ("no entry and name 1024 in use", in_use(vec![1_024]), 1, 0),
        ("no entry and a formula of no code", formula(&[]), 1, 0),
        ("no entry and a trace of 4097 bytes", plain().trace_of(4_097), 1, 0),
        ("no entry and a trace of version 2", plain().trace_version(2), 1, 0),
        ("no entry and a trace's last byte missing", plain().trace_of(8), 1, 0),
        ("no entry and 1025 steps", listed(|l| repeat(&mut l.steps, 1_025)), 1, 0),
        ("no entry and an attack state that is missing", goal(), 1, 0),
        ("no entry and a rule that is missing", listed(|l| l.steps = vec![1]), 1, 0),
        ("an entry and an attack state that is missing", goal(), 1, 1),
        ("an entry and a rule that is missing", listed(|l| l.steps = vec![1]), 1, 1),
        ("an entry and a rule missing after a blocked one", listed(|l| l.steps.push(1)), 1, 1),
        ("an entry and a trace's last byte missing", plain().trace_of(8), 1, 1),
        ("an entry, none of an index and no attack state", goal(), 0, 1),
    ]
}

fn firing((label, files, places, entries): &Listed) -> String {
    let Files { model, trace } = files;
    let mut list = vec![STAYS; *entries];
    match lending(*places, |lent| cantivorex::rules(model, trace, lent, &mut list)) {
        Ok(count) => format!("{label}: {count} fire {}", shown(&list)),
        Err(number) => format!("{label}: number {number} {}", shown(&list)),
    }
}

/// A pair, the fact that is asked for, and how many entries of an index are lent.
type Sought = (&'static str, Files, usize, usize);

fn one_fact() -> Vec<Sought> {
    let head = |l: &mut Lists| {
        l.model.clauses = vec![Clause { head: 0, body: vec![1] }, Clause { head: 1, body: vec![] }];
    };
    let nothing = |l: &mut Lists| l.model.clauses = vec![Clause { head: 1, body: vec![] }];
    let again = |step| rules_and_steps(vec![rule(&[0], &[0])], vec![0; step]);
    let kept = |l: &mut Lists| (l.model.persistent, l.steps) = (Some(vec![0]), vec![0]);
    let used = || {
        named(|l| {
            (l.model.initial, l.model.names) = (vec![0], Some(vec![5]));
            l.model.rules[0].names = vec![5];
        })
    };
    vec![
        ("a stored fact", at_first(|_| ()), 0, 1),
        ("an absent fact", at_first(|_| ()), 39, 1),
        ("a fact that the step took", at_first(|l| l.steps = vec![0]), 0, 1),
        ("a fact that the step added again", again(1), 0, 1),
        ("the same 1024 times", again(1_024), 0, 1),
        ("a fact that is persistent", at_first(kept), 0, 1),
        ("a stored fact that is a head", at_first(head), 0, 1),
        ("a fact from nothing", at_first(nothing), 1, 0),
        ("a goal that isn't met", at_first(|l| l.model.attacks[0].pos = vec![39]), 0, 1),
        ("a blocked step", plain(), 0, 1),
        ("a blocked step and fact F-1", plain(), 39, 1),
        ("a blocked step and fact F", plain(), 40, 1),
        ("a used name", used(), 0, 1),
        ("a used name and fact F", used(), 40, 1),
    ]
}

/// The first pair with facts 1 and 4 in round 1, 2 and 5 in round 2, 3 in round 3, changed.
fn three_rounds(change: impl FnOnce(&mut Lists)) -> Files {
    let clause = |(head, from): (u16, u16)| Clause { head, body: vec![from] };
    at_first(|l| {
        l.model.clauses = [(3, 2), (2, 1), (1, 0), (5, 1), (4, 0)].map(clause).to_vec();
        change(l);
    })
}

fn a_fact_of_each_round() -> Vec<Sought> {
    let with = |rule: Rule| three_rounds(|l| (l.model.rules, l.steps) = (vec![rule], vec![0]));
    let plain = || three_rounds(|_| ());
    vec![
        ("a stored fact before three rounds", plain(), 0, 5),
        ("a fact of round 1", plain(), 1, 5),
        ("the other fact of round 1", plain(), 4, 5),
        ("a fact of round 2", plain(), 2, 5),
        ("the other fact of round 2", plain(), 5, 5),
        ("the fact of the last round", plain(), 3, 5),
        ("an absent fact after three rounds", plain(), 6, 5),
        ("a step that stores 2", with(rule(&[], &[2])), 3, 5),
        ("a step that asks for the last round", with(rule(&[3], &[6])), 1, 5),
        ("a step that the last round blocks", with(asking(&[], &[3])), 0, 5),
    ]
}

/// Each fact from the one before it, up to a last one.
fn chain_to(last: u16) -> Files {
    at_first(|l| {
        l.model.facts = 4_096;
        l.model.clauses = (0..last).map(|f| Clause { head: f + 1, body: vec![f] }).collect();
    })
}

fn facts_and_rounds_at_their_bounds() -> Vec<Sought> {
    let of_all =
        |initial: u16| at_first(|l| (l.model.facts, l.model.initial) = (4_096, vec![initial]));
    let to_and_fro = |count: u16| {
        let steps = (0..count).map(|step| step % 2).collect();
        rules_and_steps(vec![rule(&[0], &[1]), rule(&[1], &[0])], steps)
    };
    vec![
        ("the last of 4096 facts, stored", of_all(4_095), 4_095, 1),
        ("the last of 4096 facts, absent", of_all(0), 4_095, 1),
        ("fact 4096 of 4096", of_all(0), 4_096, 1),
        ("the last of 4095 rounds", chain_to(4_095), 4_095, 4_095),
        ("the last but one of 4095 rounds", chain_to(4_095), 4_094, 4_095),
        ("round 3 of 4095 rounds", chain_to(4_095), 3, 4_095),
        ("an absent fact after 4094 rounds", chain_to(4_094), 4_095, 4_094),
        ("4095 rounds and an entry less", chain_to(4_095), 4_095, 4_094),
        ("1024 steps to and fro", to_and_fro(1_024), 0, 1),
        ("1023 steps to and fro", to_and_fro(1_023), 0, 1),
        ("fact 65535", at_first(|_| ()), 65_535, 1),
        ("fact 65536", at_first(|_| ()), 65_536, 1),
        ("the greatest number as a fact", at_first(|_| ()), usize::MAX, 1),
    ]
}

/// Fact F, and what comes before it.
fn fact_f_and_another() -> Vec<Sought> {
    let twice = || in_rule(|r| r.pos = vec![1, 1]);
    let goal = || listed(|l| l.goal = 1);
    vec![
        ("fact F and a model's last byte missing", plain().model_of(44), 40, 0),
        ("fact F and a fact twice in a rule's P", twice(), 40, 0),
        ("fact F and name 1024 in use", in_use(vec![1_024]), 40, 0),
        ("fact F and a formula of no code", formula(&[]), 40, 0),
        ("fact F and a trace of 4097 bytes", plain().trace_of(4_097), 40, 0),
        ("fact F and a trace of version 2", plain().trace_version(2), 40, 0),
        ("fact F and no entry", plain(), 40, 0),
        ("fact F, no entry and a goal that is missing", goal(), 40, 0),
        ("fact 0, no entry and a trace's last byte missing", plain().trace_of(8), 0, 0),
        ("fact F and a trace's last byte missing", plain().trace_of(8), 40, 1),
        ("fact F and 1025 steps", listed(|l| repeat(&mut l.steps, 1_025)), 40, 1),
        ("fact F and a goal that is missing", goal(), 40, 1),
        ("fact F and a rule that is missing", listed(|l| l.steps = vec![1]), 40, 1),
        ("fact F and a rule missing after a blocked one", listed(|l| l.steps.push(1)), 40, 1),
        ("fact F alone", at_first(|_| ()), 40, 1),
    ]
}

/// Facts with their round numbers, of many the first and the last, or `-` for a table that stays.
fn rounds_shown(table: &[u16]) -> String {
    if table.iter().all(|entry| *entry == STAYS) {
        return "[-]".to_string();
    }
    let facts = table.iter().enumerate().filter(|(_, round)| **round != 65_535);
    let all: Vec<String> = facts.map(|(fact, round)| format!("{fact}@{round}")).collect();
    match &all[..] {
        [first, .., last] if all.len() > 17 => {
            format!("[{first} .. {last}, {} of them]", all.len())
        }
        _ => format!("[{}]", all.join(" ")),
    }
}

fn held((label, files, fact, entries): &Sought) -> String {
    let Files { model, trace } = files;
    lending(*entries, |lent| {
        lent.table.fill(STAYS);
        let answer = match cantivorex::holds(model, trace, *fact, lent) {
            Ok((Holds::Held { round }, rounds)) => format!("round {round} of {rounds}"),
            Ok((Holds::Absent, rounds)) => format!("absent after {rounds}"),
            Err(number) => format!("number {number}"),
        };
        format!("{label}: {answer} {} {}", rounds_shown(lent.table), shown(lent.index))
    })
}

fn verdict(files: &Files) -> Verdict {
    let (mut state, mut table) = ([0; STATE_BYTES], [0; TABLE_ENTRIES]);
    cantivorex::check(&files.model, &files.trace, &mut state, &mut table, &mut [0; NAMES_BYTES])
}

fn whole_line((label, files): &Case) -> String {
    format!("{label}: {}", verdict(files).line())
}

fn line((label, files): &Case) -> String {
    let v = verdict(files);
    match v.number {
        0 | 10 | 11 | 13 => format!("{label}: fine"),
        number => {
            format!("{label}: number {number} mark {} start {} size {}", v.mark, v.start, v.size)
        }
    }
}

fn figures((label, files): &Case) -> String {
    match cantivorex::count(&files.model) {
        Ok(Counts { facts, clauses, rules, goals }) => {
            format!("{label}: {facts} {clauses} {rules} {goals}")
        }
        Err(number) => format!("{label}: number {number}"),
    }
}

/// The lines of some cases against those worked out by hand.
fn agree<C>(cases: &[C], line: fn(&C) -> String, by_hand: &str) {
    let expected: Vec<&str> = by_hand.lines().collect();
    assert_eq!(cases.len(), expected.len(), "the number of lines");
    let pairs = cases.iter().map(line).zip(expected).filter(|(got, wanted)| got != wanted);
    let differences: Vec<String> =
        pairs.map(|(got, wanted)| format!("{got}; by hand {wanted}")).collect();
    assert!(differences.is_empty(), "{}", differences.join("\n"));
}

/// The places in EDGES.md count on these bytes.
#[test]
fn the_plain_pair_is_the_one_of_the_page() {
    let sections = [
        "00000002 0028",
        "00000000",
        "00000006 0004 0000 0000",
        "0000000A 0008 0001 0000 0000 0000",
        "00000006 0004 0000 0000",
    ];
    let model = format!("01{}", sections.concat()).replace(' ', "");
    let hex = |bytes: &[u8]| bytes.iter().map(|b| format!("{b:02X}")).collect::<String>();
    assert_eq!(hex(&plain().model), model);
    assert_eq!(hex(&plain().trace), "010000000400000000");
    let sections = [
        "00000002 0028",
        "00000000 00000000 00000000",
        "00000006 0004 0000 0000",
        "0000000C 000A 0001 0000 0000 0000 0000",
        "00000006 0004 0000 0000",
    ];
    let model = format!("03{}", sections.concat()).replace(' ', "");
    assert_eq!(hex(&in_use(vec![]).model), model);
    let model = format!("04{}00000000", sections.concat()).replace(' ', "");
    assert_eq!(hex(&formulas(vec![]).model), model);
}

/// A formula that is true is the goal: its record with its length, whichever it is of 64.
#[test]
fn a_true_formula_s_record_is_handed_back() {
    let of = |codes: &[u16]| {
        named(|l| {
            l.model.formulas = Some(vec![codes.to_vec(); 64]);
            (l.goal, l.steps) = (64, vec![]);
        })
    };
    let place = |v: Verdict| (v.number, v.mark, v.start, v.size);
    // Records of 6 bytes, the first at 59, and of 514.
    assert_eq!(place(verdict(&of(&[NOT, 0]))), (11, 0, 59 + 63 * 6, 6));
    let full = [&[IMPLIES, 0][..], &flat(127)].concat();
    assert_eq!(place(verdict(&of(&full))), (11, 0, 59 + 63 * 512, 512));
}

#[test]
fn every_edge_gives_what_was_worked_out_by_hand() {
    agree(&cases(), line, include_str!("edges.txt"));
}

#[test]
fn every_effect_is_what_was_worked_out_by_hand() {
    let groups = [effects, effects_of_names, effects_of_formulas];
    let all: Vec<Case> = groups.iter().flat_map(|group| group()).collect();
    agree(&all, whole_line, include_str!("effects.txt"));
}

#[test]
fn every_model_has_what_was_worked_out_by_hand() {
    agree(&models(), figures, include_str!("figures.txt"));
}

#[test]
fn every_index_is_what_was_worked_out_by_hand() {
    let groups = [places, many_places, room_and_another];
    let all: Vec<Lent> = groups.iter().flat_map(|group| group()).collect();
    agree(&all, indexed, include_str!("indexes.txt"));
}

#[test]
fn every_rule_fires_that_was_worked_out_by_hand() {
    let groups = [rules_that_fire, full_of_rules, rules_that_make_names, room_for_a_list];
    let all: Vec<Listed> = groups.iter().flat_map(|group| group()).collect();
    agree(&all, firing, include_str!("firing.txt"));
}

#[test]
fn every_fact_holds_as_was_worked_out_by_hand() {
    let groups =
        [one_fact, a_fact_of_each_round, facts_and_rounds_at_their_bounds, fact_f_and_another];
    let all: Vec<Sought> = groups.iter().flat_map(|group| group()).collect();
    agree(&all, held, include_str!("holds.txt"));
}
