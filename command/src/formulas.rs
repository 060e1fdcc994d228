//! Formulas for people: the tree that a record's codes are, in words, or why the codes are not one formula.

use crate::names::Names;
use crate::output::counted;
use Formula::*;

/// The operators from their first code on: how each is written, and over how many formulas it stands.
const OPERATORS: [(&str, usize); 8] = [
    ("not", 1),
    ("and", 2),
    ("or", 2),
    ("implies", 2),
    ("Yesterday", 1),
    ("Once", 1),
    ("Historically", 1),
    ("Since", 2),
];

/// The codes below are facts.
const FIRST: usize = 32_768;

/// How deep a formula may be; a lone fact is 1 deep.
const DEEP: usize = 32;

pub enum Formula {
    Fact(usize),
    One(&'static str, Box<Formula>),
    Two(&'static str, Box<[Formula; 2]>),
}

pub fn is_fact(code: usize) -> bool {
    code < FIRST
}

pub fn is_operator(word: &str) -> bool {
    OPERATORS.iter().any(|(operator, _)| *operator == word)
}

impl Formula {
    /// The formula that codes are; or, in words, why they are none: the first place where one is wrong, from 0.
    pub fn read(codes: &[usize]) -> Result<Formula, String> {
        let mut at = 0;
        let formula = next(codes, &mut at, 1)?;
        match codes.len() - at {
            0 => Ok(formula),
            left => Err(format!(
                "its formula ends with code {}, and it has {} more",
                at - 1,
                counted(left, "code")
            )),
        }
    }

    /// An operator over one part binds it closest; a part that is made of two stands in brackets.
    pub fn text(&self, names: &Names) -> String {
        let part = |part: &Formula| match part {
            Two(..) => format!("({})", part.text(names)),
            _ => part.text(names),
        };
        match self {
            Fact(number) => names.fact_alone(*number),
            One(word, only) => format!("{word} {}", part(only)),
            Two(word, parts) => format!("{} {word} {}", part(&parts[0]), part(&parts[1])),
        }
    }
}

/// The formula whose codes start at a place, which moves behind them.
fn next(codes: &[usize], at: &mut usize, deep: usize) -> Result<Formula, String> {
    let place = *at;
    let Some(code) = codes.get(place) else {
        return Err(format!("it ends where code {place} was expected: its formula is unfinished"));
    };
    let last = FIRST + OPERATORS.len() - 1;
    if *code > last {
        return Err(format!("code {place} is {code}, and a code is at most {last}"));
    }
    if deep > DEEP {
        return Err(format!("code {place} stands {deep} deep, and at most {DEEP} is allowed"));
    }
    *at += 1;
    if is_fact(*code) {
        return Ok(Fact(*code));
    }
    let (word, parts) = OPERATORS[code - FIRST];
    let first = next(codes, at, deep + 1)?;
    Ok(match parts {
        1 => One(word, Box::new(first)),
        _ => Two(word, Box::new([first, next(codes, at, deep + 1)?])),
    })
}

#[cfg(test)]
mod tests {
    use super::*;

    impl Formula {
        /// The codes that it is.
        pub fn codes(&self) -> Vec<usize> {
            let place = |word| OPERATORS.iter().position(|(operator, _)| *operator == word);
            let code = |word| FIRST + place(word).expect("an operator");
            match self {
                Fact(number) => vec![*number],
                One(word, only) => [vec![code(*word)], only.codes()].concat(),
                Two(word, parts) => {
                    [vec![code(*word)], parts[0].codes(), parts[1].codes()].concat()
                }
            }
        }
    }

    const NOT: usize = FIRST;
    const AND: usize = FIRST + 1;
    const OR: usize = FIRST + 2;
    const IMPLIES: usize = FIRST + 3;
    const YESTERDAY: usize = FIRST + 4;
    const ONCE: usize = FIRST + 5;
    const HISTORICALLY: usize = FIRST + 6;
    const SINCE: usize = FIRST + 7;

    /// Facts 0 and 1 are called p and q; fact 2 has no name.
    fn text(codes: &[usize]) -> String {
        let names = Names::of_facts(&["p", "q"]);
        Formula::read(codes).map_or_else(|why| why, |formula| formula.text(&names))
    }

    /// So many operators over one formula, and a fact.
    fn tower(operator: usize, count: usize) -> Vec<usize> {
        [vec![operator; count], vec![1]].concat()
    }

    #[test]
    fn formulas_in_words() {
        for (words, codes) in [
            ("p", &[0][..]),
            ("2", &[2]),
            ("not p", &[NOT, 0]),
            ("not not Once q", &[NOT, NOT, ONCE, 1]),
            ("p and q", &[AND, 0, 1]),
            ("p or q", &[OR, 0, 1]),
            ("p Since 2", &[SINCE, 0, 2]),
            ("not p Since q", &[SINCE, NOT, 0, 1]),
            ("not (p Since q)", &[NOT, SINCE, 0, 1]),
            ("(p and q) and p", &[AND, AND, 0, 1, 0]),
            ("p and (q and p)", &[AND, 0, AND, 1, 0]),
            ("Historically (p implies Once q)", &[HISTORICALLY, IMPLIES, 0, ONCE, 1]),
            ("Yesterday p implies not (q or p)", &[IMPLIES, YESTERDAY, 0, NOT, OR, 1, 0]),
        ] {
            assert_eq!(text(codes), words);
        }
    }

    #[test]
    fn codes_that_are_no_formula() {
        for (words, codes) in [
            ("it ends where code 0 was expected: its formula is unfinished", &[][..]),
            ("it ends where code 1 was expected: its formula is unfinished", &[NOT]),
            ("it ends where code 3 was expected: its formula is unfinished", &[AND, NOT, 0]),
            ("its formula ends with code 0, and it has 1 code more", &[0, 1]),
            ("its formula ends with code 2, and it has 2 codes more", &[SINCE, 0, 1, 0, 65_535]),
            ("code 0 is 32776, and a code is at most 32775", &[SINCE + 1]),
            ("code 2 is 65535, and a code is at most 32775", &[OR, 0, 65_535]),
        ] {
            assert_eq!(text(codes), words);
        }
    }

    #[test]
    fn at_most_32_deep() {
        for operator in [NOT, ONCE] {
            assert!(text(&tower(operator, 31)).ends_with(" q"));
            let words = "code 32 stands 33 deep, and at most 32 is allowed";
            assert_eq!(text(&tower(operator, 32)), words);
        }
        // The second part is deep, too: 31 times `and` with a fact first.
        let steps = |count| [[AND, 0].repeat(count), vec![1]].concat();
        assert!(text(&steps(31)).starts_with("p and (p and ("));
        assert_eq!(text(&steps(32)), "code 63 stands 33 deep, and at most 32 is allowed");
    }
}
