//! Texts at the edges of what 02's E7 allows. Each is named by the number that it is to get and, for 1
//! to 4, the place.

use super::TextInput;
use crate::generate::faults;
use crate::policy::{build, word_fits, Operator, Term, MOST_ROLES, MOST_USERS, MOST_WORDS};
use crate::text::{text_of, written, OPENING};

/// A text with a name that begins with its number: `21, ..` or `2 at 5, ..`.
pub type NamedText = (String, TextInput);

/// No terms, parted by `|`: for a number, for a space or a line end, for a word, for a side.
pub(crate) const NO_TERMS: [&str; 4] = [
    "r|r00|r07|r16|r20|r100|r-1|r+1|r 1|{}|{00}|{01}|{16}|{0,16}|{1,0}|{0,0}|{0,}|{,0}|{,}|{0,,1}|\
     {0, 1}|{ 0}|{0 }|{0 1}|{0|0}|{0,1|{r0}|{+1}|{all}|0|7|{99999999999999999999}|{3,1,2}|{2,10,9}",
    "|  all| all|all |all\n|all\r\n|all\0|\tall|not  all|not\tall|notall|plusall|(all  or all)|\
     (all or  all)|( all or all)|(all or all )|(all or all) |(all\tor all)|(allor all)|(all orall)",
    "All|ALL|al|alll|all.|R1|role 1|Not all|NOT all|Plus all|not|not |plus|plus |not not |(all, all)|\
     (all Or all)|(all and all)|(all either all)|(all together all)|(all or) |all\u{e9}",
    "all all|all or all|(all)|((all or all))|()|(|)|(all or|(all or )|(all or all|( or all)|( or )|\
     (all or all))|(all all)|(all or all or all)|(all or all with all)|(all or (all)|(not all)|\
     not (all)|(all not all)|(all or not )|[all or all]|or all all|(all apart all)all",
];

/// Texts without the opening.
const NO_OPENINGS: [&str; 14] = [
    "",
    "p",
    "policy",
    "policy:",
    "policy:all",
    "policy:\tall",
    "policy:\nall",
    "Policy: all",
    "POLICY: all",
    " policy: all",
    "policy : all",
    "policy; all",
    "all",
    "\0policy: all",
];

/// A text for these counts with an output of 31 words.
fn counted(name: &str, users: usize, roles: usize, text: &[u8]) -> NamedText {
    let text = text.to_vec();
    (name.to_string(), TextInput { users, roles, text, output: MOST_WORDS, damage: None })
}

/// What stands behind the opening, for three users and three roles.
fn three(name: &str, rest: &str) -> NamedText {
    counted(name, 3, 3, &[OPENING, rest.as_bytes()].concat())
}

/// All edges.
pub fn all() -> Vec<NamedText> {
    [wrong_texts(), leaves(), lengths(), nestings(), faulty(), orders(), outputs()].concat()
}

/// What gets 20, and what gets 21.
fn wrong_texts() -> Vec<NamedText> {
    let mut found = Vec::new();
    for text in NO_OPENINGS {
        found.push(counted(&format!("20, {text:?}"), 3, 3, text.as_bytes()));
    }
    for rest in NO_TERMS.iter().flat_map(|list| list.split('|')) {
        found.push(three(&format!("21, {rest:?}"), rest));
    }
    for byte in [0, b'\n', b' ', b')', b'a', b'0', 0x80, 0xff] {
        let text = [OPENING, &b"(r1 with r2)"[..], &[byte]].concat();
        found.push(counted(&format!("21, byte {byte} behind a term"), 3, 3, &text));
    }
    found
}

/// Each role, each user alone, and all users from one on, with sixteen users and roles.
fn leaves() -> Vec<NamedText> {
    let mut leaves = vec![Term::Everyone];
    for number in 0..MOST_USERS {
        leaves.extend([Term::Role(number), Term::set(&[number])]);
        leaves.push(Term::Set((number..MOST_USERS).collect()));
    }
    let named = |leaf: Term| {
        counted(&format!("0, {}", written(&leaf)), MOST_USERS, MOST_ROLES, &text_of(&leaf))
    };
    leaves.into_iter().map(named).collect()
}

/// Nots over a term of one word, together with the opening so many bytes long.
pub(crate) fn nots(bytes: usize) -> String {
    let rest = bytes - OPENING.len();
    let leaf = ["r0", "all", "{10}", "{0,1}"][(rest - 2) % 4];
    "not ".repeat((rest - leaf.len()) / 4) + leaf
}

/// Sixteen sets of all users, parted by apart: the accepted policy with the longest text.
pub fn longest() -> Term {
    let everybody = || Term::Set((0..MOST_USERS).collect());
    (1..MOST_USERS).fold(everybody(), |term, _| Term::join(Operator::Apart, everybody(), term))
}

/// Texts of about 31 words, of the longest policy, and of about 1,024 bytes.
fn lengths() -> Vec<NamedText> {
    let chain = |operators| format!("{}all{}", "(".repeat(operators), " or all)".repeat(operators));
    let text = text_of(&longest());
    let mut found = vec![
        three("0, 31 words", &chain(15)),
        three("0, 31 words of not", &format!("{}all", "not ".repeat(30))),
        three("1 at 0, 32 words", &format!("not {}", chain(15))),
        three("1 at 0, 32 words of not", &format!("{}all", "not ".repeat(31))),
        three("1 at 0, 33 words", &chain(16)),
        counted("0, the longest text", MOST_USERS, 1, &text),
        counted("2 at 1, the longest text, a user too few", MOST_USERS - 1, 1, &text),
        three("21, 100,000 bytes", &nots(100_000)),
        counted("20, 2,000 bytes", 3, 3, &[b'p'; 2000]),
        counted("20, 1,025 bytes", 3, 3, &[b" ".as_slice(), &[b'('; 1024]].concat()),
    ];
    for bytes in 1021..=1024 {
        found.push(three(&format!("1 at 0, {bytes} bytes"), &nots(bytes)));
    }
    for bytes in 1025..=1029 {
        found.push(three(&format!("21, {bytes} bytes of a term"), &nots(bytes)));
        let cut = &nots(bytes)[..bytes - OPENING.len() - 1];
        found.push(three(&format!("21, {bytes} bytes of no term"), &format!("{cut}?")));
    }
    found
}

/// Deep texts that are whole, and such that stop before a term.
fn nestings() -> Vec<NamedText> {
    let mut found = Vec::new();
    for piece in ["(", "not ", "plus ", "(all or ", "({0} apart "] {
        let most = 1016 / piece.len();
        for depth in [1, 30, 31, 32, most - 1, most, most + 1, 3 * most] {
            let rest = piece.repeat(depth);
            found.push(three(&format!("21, {depth} times {piece:?}"), &rest));
        }
    }
    for depth in [16, 50, 101] {
        let left = "(".repeat(depth) + "r0" + &" with r1)".repeat(depth);
        let right = "(r0 with ".repeat(depth) + "r1" + &")".repeat(depth);
        found.push(three(&format!("1 at 0, {depth} deep on the left"), &left));
        found.push(three(&format!("1 at 0, {depth} deep on the right"), &right));
    }
    found
}

/// The policies with faults that have a text.
fn faulty() -> Vec<NamedText> {
    let mut found = Vec::new();
    for (name, words) in faults::edges() {
        let fits = words.iter().all(|word| word_fits(MOST_USERS, MOST_ROLES, *word));
        let Some(term) = build(&words).filter(|_| fits) else {
            continue;
        };
        found.push(three(&name, &written(&term)));
        found.push(counted(&format!("5, {name}"), 0, 3, &text_of(&term)));
    }
    found
}

/// Texts for which several numbers would do.
fn orders() -> Vec<NamedText> {
    let many = format!("policy: {}(r9 with r9)", "not ".repeat(40));
    let named = |(name, users, text, output): (&str, usize, &str, usize)| {
        let (name, input) = counted(name, users, 3, text.as_bytes());
        (name, TextInput { output, ..input })
    };
    let edges = [
        ("20, and 21, 5 and 13", 0, "policy:{1,0}", 0),
        ("20, and 5", 17, "policy:all", 31),
        ("21, and 5 and 13", 0, "policy: {1,0}", 0),
        ("21, and 5 for a byte behind", 255, "policy: all ", 31),
        ("21, behind an undeclared role", 3, "policy: (r9 with r07)", 31),
        ("21, behind an undeclared user", 3, "policy: ({4} with {1,0})", 31),
        ("21, behind a not over a with", 3, "policy: not (r0 with r1", 31),
        ("21, a byte behind a not over a with", 3, "policy: not (r0 with r1) ", 31),
        ("21, a byte behind an undeclared role", 3, "policy: r9 ", 0),
        ("21, an undeclared role behind a wrong number", 3, "policy: (r16 with r9)", 31),
        ("5, and 1, 2, 4 and 13", 0, &many, 0),
        ("5, and 2 and 13", 17, "policy: r9", 0),
        ("5, and 4", 0, "policy: not plus all", 31),
        ("5, and 13", 0, "policy: all", 0),
        ("1 at 0, and 2, 4 and 13", 3, &many, 0),
        ("2 at 2, and 4 and 13", 3, "policy: not plus r9", 0),
        ("2 at 0, and 13", 3, "policy: {3}", 0),
        ("4 at 0, and 13", 3, "policy: not (r0 with r1)", 0),
        ("4 at 1, and 13", 3, "policy: (not plus r1 with r1)", 4),
    ];
    edges.map(named).to_vec()
}

/// Accepted texts with outputs that are too short, exact and longer.
fn outputs() -> Vec<NamedText> {
    let terms = [
        Term::Everyone,
        Term::plus(Term::not(Term::Role(1))),
        Term::join(Operator::Both, Term::set(&[0, 1, 2]), Term::Role(2)),
        (1..16).fold(Term::Role(0), |term, _| Term::join(Operator::Together, term, Term::Everyone)),
    ];
    let mut found = Vec::new();
    for term in terms {
        let words = term.length();
        for output in [0, words - 1, words, words + 1, words + 40] {
            let code = if output < words { 13 } else { 0 };
            let name = format!("{code}, {words} words, output of {output}");
            let (name, input) = three(&name, &written(&term));
            found.push((name, TextInput { output, ..input }));
        }
    }
    found
}

#[cfg(test)]
mod tests {
    use super::*;
    use crate::text::{read_text, Refused};
    use std::collections::BTreeSet;

    #[test]
    fn edges_come_out_as_named() {
        let mut seen = BTreeSet::new();
        for (name, input) in all() {
            let TextInput { users, roles, text, output, .. } = input;
            let answer = read_text(users, roles, &text, &mut vec![0; output]);
            let (code, start) = match answer {
                Ok(_) => (0, "0, ".to_string()),
                Err(Refused { code, place: None }) => (code, format!("{code}, ")),
                Err(Refused { code, place: Some(place) }) => (code, format!("{code} at {place}, ")),
            };
            assert!(name.starts_with(&start), "{start}{name}");
            seen.insert(code);
        }
        assert_eq!(seen, BTreeSet::from([0, 1, 2, 4, 5, 13, 20, 21]));
    }
}
