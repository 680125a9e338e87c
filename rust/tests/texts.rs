//! Policies as texts (document 02, E7): what is read and written, each refusal in order with what it
//! leaves, and that one is the inverse of the other.

mod common;

use std::collections::BTreeMap;

use common::{number, POLICY_F};
use oskhrein::raw::Calls;
use oskhrein::{read_text, write_text, Monitor, Refusal, Term};
use oskhrein::{LONGEST_TEXT, MAX_TEXT, MAX_WORDS};

const EVERYONE: u32 = 0x01000000;
const SET: u32 = 0x03000000;
const NOT: u32 = 0x04000000;
const PLUS: u32 = 0x05000000;
const APART: u32 = 0x09000000;

/// What stands in the outputs before a call.
const WORD: u32 = 0xa5a5a5a5;
const BYTE: u8 = 0xa5;

/// Policy F as a text.
const TEXT_F: &str = "policy: ((r0 apart (r2 or (r0 apart r0))) with plus all)";

/// What is no set, parted by bars.
const NO_SETS: &str = "{|{}|{,}|{0|{0,|{0,}|{,0}|{0,,1}|{0 ,1}|{0, 1}|{ 0}|{0 }|{0;1}|{1,0}|{0,0}|\
    {0,2,1}|{15,15}|{0,16}|{0,1,02}|{0,1))|{0,1}}|0,1}|0|{r0}|{{0}}|{all}";

/// What is no term, parted by bars; the first is empty.
const NO_TERMS: &str = "| | all|all |all\n|all\r\n|all\0|All|al|alll|all all|(all)|()|(|)|r|R1|r1r2|r 1|\
    role 1|not|not |notall|not  all|not(all or all)|(not all)|all not|not not|\
    plus|plus |plusall|plus  all|plus all plus all|not plus|\
    all or all|(all or all|all or all)|(all or all))|((all or all)|(all or)|(or all)|(all all)|\
    (all  or all)|(all or  all)|( all or all)|(all or all )|(all\tor all)|(allorall)|(all orall)|\
    (allor all)|(all or(all or all))|((all or all)or all)|(all Or all)|(all and all)|(all either all)|\
    (all together all)|(all or all or all)|[all or all]|either all all|policy: all|not policy: all";

/// Numbers that look random.
struct Random(u32);

impl Random {
    fn below(&mut self, bound: u32) -> u32 {
        self.0 = self.0.wrapping_mul(1664525).wrapping_add(1013904223);
        (self.0 >> 8) % bound
    }
}

/// The text of a set.
fn set(mask: u32) -> String {
    let users = (0..16).filter(|user| mask >> user & 1 == 1).map(|user: u32| user.to_string());
    format!("{{{}}}", users.collect::<Vec<String>>().join(","))
}

/// A random term of so many words, a unit term if that is asked for, and its text without the opening.
fn random(numbers: &mut Random, words: u32, unit: bool) -> (Term, String) {
    let made = |made: Result<Term, Refusal>| made.expect("it can be made");
    if words == 1 {
        return match numbers.below(3) {
            0 => (Term::everyone(), "all".to_string()),
            1 => {
                let role = numbers.below(16) as u8;
                (made(Term::role(role)), format!("r{role}"))
            }
            _ => {
                let mask = 1 + numbers.below(0xffff);
                let users: Vec<u8> = (0..16).filter(|user| mask >> user & 1 == 1).collect();
                (made(Term::set(&users)), set(mask))
            }
        };
    }
    if words == 2 || numbers.below(3) == 0 {
        let (inner, text) = random(numbers, words - 1, true);
        return match unit || numbers.below(2) == 0 {
            true => (made(Term::not(inner)), format!("not {text}")),
            false => (made(Term::plus(inner)), format!("plus {text}")),
        };
    }
    let operators = [Term::either, Term::both, Term::together, Term::apart];
    let operator = numbers.below(if unit { 2 } else { 4 }) as usize;
    let name = ["or", "both", "with", "apart"][operator];
    let first = 1 + numbers.below(words - 2);
    let (left, left_text) = random(numbers, first, unit);
    let (right, right_text) = random(numbers, words - 1 - first, unit);
    (made(operators[operator](left, right)), format!("({left_text} {name} {right_text})"))
}

/// What a text of 16 users and 16 roles is answered. Every other way to read it must agree, a refusal
/// must leave the output, and what is read must be written as the same bytes.
fn read(text: &[u8]) -> Result<Vec<u32>, Refusal> {
    let mut out = [WORD; MAX_WORDS + 1];
    let answer = read_text(16, 16, text, &mut out).map(<[u32]>::to_vec);
    let written = answer.as_ref().map_or(0, Vec::len);
    assert!(out[written..].iter().all(|word| *word == WORD), "{text:?}");
    if let Ok(text) = std::str::from_utf8(text) {
        assert_eq!(text.parse().map(|term: Term| term.words().to_vec()), answer, "{text}");
    }
    if let Ok(words) = &answer {
        let again = write_text(16, 16, words, &mut [BYTE; LONGEST_TEXT]).map(str::to_owned);
        assert_eq!(again.as_deref().map(str::as_bytes), Ok(text));
    }
    answer
}

/// What a term behind the opening is answered.
fn read_term(term: &str) -> Result<Vec<u32>, Refusal> {
    read(format!("policy: {term}").as_bytes())
}

/// A policy of these words is written as this text, and read from it, by each way to do so.
fn both_ways(words: &[u32], text: &str) {
    let term = Term::try_from(words).expect("it is a policy");
    assert_eq!(read(text.as_bytes()).as_deref(), Ok(words));
    assert_eq!(term.words(), words);
    assert_eq!(term.to_string(), text);
    assert_eq!(text.parse(), Ok(term));
    let mut out = [BYTE; LONGEST_TEXT + 1];
    assert_eq!(write_text(16, 16, words, &mut out), Ok(text));
    assert!(out[text.len()..].iter().all(|byte| *byte == BYTE), "{text}");
}

#[test]
fn terms_of_each_kind() {
    both_ways(&[EVERYONE], "policy: all");
    both_ways(&[NOT, EVERYONE], "policy: not all");
    both_ways(&[PLUS, EVERYONE], "policy: plus all");
    for (kind, name) in [(6, "or"), (7, "both"), (8, "with"), (9, "apart")] {
        let words = [kind << 24, 0x02000001, 0x0300000a];
        both_ways(&words, &format!("policy: (r1 {name} {{1,3}})"));
    }
    both_ways(&POLICY_F, TEXT_F);
    let words = [0x09000000, PLUS, NOT, 0x06000000, 0x0200000a, 0x03008001, NOT, NOT, EVERYONE];
    both_ways(&words, "policy: (plus not (r10 or {0,15}) apart not not all)");
}

#[test]
fn numbers_from_0_to_15() {
    for number in 0..300 {
        let (role, set) = (read_term(&format!("r{number}")), read_term(&format!("{{{number}}}")));
        if number < 16 {
            assert_eq!(role, Ok(vec![0x02000000 + number]));
            assert_eq!(set, Ok(vec![SET | 1 << number]));
        } else {
            assert_eq!([role, set], [Err(Refusal::Text), Err(Refusal::Text)]);
        }
        for zeros in ["0", "00"] {
            assert_eq!(read_term(&format!("r{zeros}{number}")), Err(Refusal::Text));
            assert_eq!(read_term(&format!("{{{zeros}{number}}}")), Err(Refusal::Text));
        }
    }
    for number in ["", "-1", "+1", " 1", "1 ", "1.0", "0x1", "a", "99999999999999999999", "٣"] {
        assert_eq!(read_term(&format!("r{number}")), Err(Refusal::Text));
        assert_eq!(read_term(&format!("{{{number}}}")), Err(Refusal::Text));
    }
}

#[test]
fn every_set_has_one_text() {
    for mask in 1..=0xffff_u32 {
        let text = format!("policy: {}", set(mask));
        assert_eq!(text.parse::<Term>().map(|term| term.words()[0]), Ok(SET | mask));
        assert_eq!(write_text(16, 1, &[SET | mask], &mut [0; LONGEST_TEXT]), Ok(text.as_str()));
    }
}

#[test]
fn sets_that_are_none() {
    for set in NO_SETS.split('|') {
        assert_eq!(read_term(set), Err(Refusal::Text), "{set}");
    }
}

#[test]
fn texts_without_their_opening_are_20() {
    let opening = "policy: ";
    for end in 0..opening.len() {
        assert_eq!(read(&opening.as_bytes()[..end]), Err(Refusal::Opening));
        assert_eq!(read(format!("{}all", &opening[..end]).as_bytes()), Err(Refusal::Opening));
        for byte in (0..=u8::MAX).filter(|byte| *byte != opening.as_bytes()[end]) {
            let mut text = b"policy: all".to_vec();
            text[end] = byte;
            assert_eq!(read(&text), Err(Refusal::Opening), "{text:?}");
        }
    }
    for text in ["all", " policy: all", "Policy: all", "\npolicy: all", "\u{feff}policy: all"] {
        assert_eq!(read(text.as_bytes()), Err(Refusal::Opening));
    }
}

#[test]
fn what_is_no_term_is_21() {
    for term in NO_TERMS.split('|') {
        assert_eq!(read_term(term), Err(Refusal::Text), "{term}");
    }
    let rest = TEXT_F.strip_prefix("policy: ").expect("it is a text");
    for end in 0..rest.len() {
        assert_eq!(read_term(&rest[..end]), Err(Refusal::Text));
    }
}

#[test]
fn a_text_with_another_byte_is_another_policys_or_none() {
    let mixed = "policy: (plus not (r10 or {0,15}) apart not not all)";
    let mut numbers = BTreeMap::new();
    for text in [TEXT_F, mixed, "policy: {1,3,10}"].map(str::as_bytes) {
        let mut tried = |other: &[u8]| *numbers.entry(number(read(other))).or_insert(0) += 1;
        for place in 0..=text.len() {
            for byte in 0..=u8::MAX {
                tried(&[&text[..place], &[byte], &text[place..]].concat());
                if place < text.len() {
                    tried(&[&text[..place], &[byte], &text[place + 1..]].concat());
                }
            }
            for end in place..=text.len() {
                tried(&[&text[..place], &text[end..]].concat());
            }
        }
    }
    assert_eq!(numbers.keys().copied().collect::<Vec<u8>>(), [0, 20, 21]);
    assert!(numbers.values().all(|count| *count > 200), "{numbers:?}");
}

#[test]
fn any_bytes_are_answered() {
    let mut numbers = Random(7);
    let signs = b"policy: allr0123456789{},not plus(or both with apart)";
    for turn in 0..20_000 {
        let length = numbers.below(40);
        let mut text = if turn % 2 == 0 { Vec::new() } else { b"policy: ".to_vec() };
        text.extend((0..length).map(|_| match turn % 3 {
            0 => numbers.below(256) as u8,
            _ => signs[numbers.below(signs.len() as u32) as usize],
        }));
        if let Err(refusal) = read(&text) {
            assert!([4, 20, 21].contains(&refusal.number()), "{refusal}");
        }
    }
    for length in [1024, 1025, 65_536, 1 << 20] {
        assert_eq!(read(&vec![b'p'; length]), Err(Refusal::Opening));
        assert_eq!(read_term(&"(".repeat(length)), Err(Refusal::Text));
        assert_eq!(read_term(&"\0".repeat(length)), Err(Refusal::Text));
    }
}

#[test]
fn text_and_bytes_are_taken_alike() {
    let mut out = [0; 1];
    let text = String::from("policy: all");
    assert_eq!(read_text(1, 1, "policy: all", &mut out), Ok(&[EVERYONE][..]));
    assert_eq!(read_text(1, 1, &text, &mut out), Ok(&[EVERYONE][..]));
    assert_eq!(read_text(1, 1, b"policy: all", &mut out), Ok(&[EVERYONE][..]));
    assert_eq!(read_text(1, 1, text.as_bytes(), &mut out), Ok(&[EVERYONE][..]));
    assert_eq!(read_text(1, 1, text.into_bytes(), &mut out), Ok(&[EVERYONE][..]));
}

#[test]
fn more_than_1024_bytes_are_21() {
    let nots = "not ".repeat(253);
    let whole = format!("policy: {nots}{{10}}");
    assert_eq!(whole.len(), MAX_TEXT);
    assert_eq!(read(whole.as_bytes()), Err(Refusal::WordCount));
    assert_eq!(read_term(&format!("{nots}{{0,1}}")), Err(Refusal::Text));
    assert_eq!(read_term(&format!("{nots}not all")), Err(Refusal::Text));
    let mut longer = TEXT_F.as_bytes().to_vec();
    longer.resize(MAX_TEXT + 1, b' ');
    assert_eq!(read(&longer), Err(Refusal::Text));
    longer[0] = b'P';
    assert_eq!(read(&longer), Err(Refusal::Opening));
}

#[test]
fn more_than_31_words_are_1() {
    let nots = |count: usize| format!("{}all", "not ".repeat(count));
    let aparts = |count: usize| format!("{}all{}", "(".repeat(count), " apart all)".repeat(count));
    assert_eq!(read_term(&nots(30)).map(|words| words.len()), Ok(MAX_WORDS));
    assert_eq!(read_term(&aparts(15)).map(|words| words.len()), Ok(MAX_WORDS));
    for term in [nots(31), nots(200), aparts(16), aparts(80)] {
        assert_eq!(read_term(&term), Err(Refusal::WordCount));
    }
}

#[test]
fn the_longest_text_has_767_bytes() {
    let set = set(0xffff);
    let text = format!("policy: {}{set}{}", "(".repeat(15), format!(" apart {set})").repeat(15));
    let mut words = [APART; MAX_WORDS];
    words[15..].fill(SET | 0xffff);
    assert_eq!(text.len(), LONGEST_TEXT);
    both_ways(&words, &text);
    assert_eq!(write_text(16, 1, &words, &mut [0; LONGEST_TEXT - 1]), Err(Refusal::Output));
}

/// What a text of two users and two roles is answered.
fn read_for_two(term: &str) -> Result<usize, Refusal> {
    let text = format!("policy: {term}");
    read_text(2, 2, text, &mut [0; MAX_WORDS]).map(<[u32]>::len)
}

#[test]
fn a_fault_is_at_its_word() {
    for number in 2..16 {
        assert_eq!(read_for_two(&format!("r{number}")), Err(Refusal::Word { place: 0 }));
        assert_eq!(read_for_two(&format!("{{0,{number}}}")), Err(Refusal::Word { place: 0 }));
        let sides = format!("((all or r{number}) apart {{{number}}})");
        assert_eq!(read_for_two(&sides), Err(Refusal::Word { place: 3 }));
    }
    assert_eq!(read_for_two("(r1 apart {0,1})"), Ok(3));
    assert_eq!(read_for_two("(r1 apart {0,2})"), Err(Refusal::Word { place: 2 }));
    assert_eq!(read_for_two("(r2 apart {0,2})"), Err(Refusal::Word { place: 1 }));
    assert_eq!(read_for_two("plus plus r2"), Err(Refusal::Word { place: 2 }));
    for operator in ["not", "plus"] {
        let over = |inner: &str| read_for_two(&format!("{operator} {inner}"));
        assert_eq!(over("(not all or r1)"), Ok(5));
        assert_eq!(over("plus all"), Err(Refusal::Unit { place: 0 }));
        assert_eq!(over("(all with all)"), Err(Refusal::Unit { place: 0 }));
        assert_eq!(over("(all both (all apart all))"), Err(Refusal::Unit { place: 0 }));
        let second = format!("((all or not all) with {operator} plus all)");
        assert_eq!(read_for_two(&second), Err(Refusal::Unit { place: 5 }));
    }
    let last = format!("{}plus plus all{}", "(all or ".repeat(14), ")".repeat(14));
    assert_eq!(read_for_two(&last), Err(Refusal::Unit { place: 28 }));
    assert_eq!(
        read_for_two("(all apart r2)").map_err(|refusal| refusal.to_string()),
        Err("2 at word 2: this word is not in the layout, names a role or user that is not \
             declared, or is an empty set"
            .to_string())
    );
}

/// A refusal of a text that must have no place.
fn without_place(text: &str, users: u8, room: usize, number: u8) {
    let refusal = read_text(users, 2, text, &mut vec![0; room]).expect_err("it is refused");
    assert_eq!((refusal.number(), refusal.place()), (number, None));
}

#[test]
fn reading_looks_in_order() {
    let long = format!("policy: {}", "not ".repeat(300));
    without_place(&long[1..], 0, 0, 20);
    without_place("", 0, 0, 20);
    without_place(&long, 0, 0, 21);
    without_place("policy: r16", 0, 0, 21);
    without_place("policy: plus plus r2", 0, 0, 5);
    without_place("policy: plus plus r2", 17, 0, 5);
    let too_many = format!("policy: {}plus r2", "not ".repeat(30));
    assert_eq!(number(read_text(2, 2, too_many, &mut [])), 1);
    assert_eq!(number(read_text(2, 2, "policy: plus plus r2", &mut [])), 2);
    assert_eq!(number(read_text(2, 2, "policy: plus plus r1", &mut [])), 4);
    without_place("policy: plus r1", 2, 0, 13);
    without_place("policy: plus r1", 2, 1, 13);
    assert_eq!(number(read_text(2, 2, "policy: plus r1", &mut [0; 2])), 0);
}

#[test]
fn writing_looks_in_order() {
    let written =
        |users, words: &[u32], room| write_text(users, 2, words, &mut vec![0; room]).err();
    assert_eq!(written(0, &[], 0), Some(Refusal::Counts));
    assert_eq!(written(2, &[], 0), Some(Refusal::WordCount));
    assert_eq!(written(2, &[0; 32], 0), Some(Refusal::WordCount));
    assert_eq!(written(2, &[NOT, PLUS, 0x02000002], 0), Some(Refusal::Word { place: 2 }));
    assert_eq!(written(2, &[NOT, PLUS, EVERYONE, EVERYONE], 0), Some(Refusal::Term { place: 3 }));
    assert_eq!(written(2, &[NOT, PLUS, EVERYONE], 0), Some(Refusal::Unit { place: 0 }));
    assert_eq!(written(2, &[EVERYONE], 10), Some(Refusal::Output));
    assert_eq!(written(2, &[EVERYONE], 11), None);
}

#[test]
fn an_output_too_short_is_left_and_a_longer_one_kept_behind() {
    for room in 0..=POLICY_F.len() + 2 {
        let mut out = vec![WORD; room];
        let answer = read_text(3, 3, TEXT_F, &mut out).map(<[u32]>::to_vec);
        if room < POLICY_F.len() {
            assert_eq!((answer, out), (Err(Refusal::Output), vec![WORD; room]));
        } else {
            assert_eq!(answer, Ok(POLICY_F.to_vec()));
            assert_eq!(out, [&POLICY_F[..], &[WORD; 2][..room - POLICY_F.len()]].concat());
        }
    }
    for room in 0..=TEXT_F.len() + 2 {
        let mut out = vec![BYTE; room];
        let answer = write_text(3, 3, &POLICY_F, &mut out).map(str::to_owned);
        if room < TEXT_F.len() {
            assert_eq!((answer, out), (Err(Refusal::Output), vec![BYTE; room]));
        } else {
            assert_eq!(answer.as_deref(), Ok(TEXT_F));
            assert_eq!(out, [TEXT_F.as_bytes(), &[BYTE; 2][..room - TEXT_F.len()]].concat());
        }
    }
}

/// What the exported calls answer, and what they leave in the number and the byte that they are lent.
fn lent(text: &str, words: &[u32], room: usize) -> [(u8, usize, u8); 2] {
    let (calls, mut left) = (Calls::LINKED, [(77, 0xa5); 2]);
    let (mut out, mut bytes) = (vec![WORD; room], vec![BYTE; room]);
    let [(n_words, read_place), (n_bytes, written_place)] = &mut left;
    let numbers = [
        calls.read_text(2, 2, text.as_bytes(), &mut out, n_words, read_place),
        calls.write_text(2, 2, words, &mut bytes, n_bytes, written_place),
    ];
    assert!(numbers[0] == 0 || out.iter().all(|word| *word == WORD));
    assert!(numbers[1] == 0 || bytes.iter().all(|byte| *byte == BYTE));
    std::array::from_fn(|call| (numbers[call], left[call].0, left[call].1))
}

#[test]
fn what_is_lent_is_written_where_it_must() {
    let (many, kept) = (format!("policy: {}all", "not ".repeat(31)), 0xa5);
    assert_eq!(lent("policy: not all", &[NOT, EVERYONE], 16), [(0, 2, kept), (0, 15, kept)]);
    assert_eq!(lent("policy: not all", &[NOT, EVERYONE], 1), [(13, 77, kept), (13, 77, kept)]);
    assert_eq!(lent(&many, &[], 16), [(1, 77, 0), (1, 77, 0)]);
    assert_eq!(lent("policy: not r2", &[NOT, 0], 16), [(2, 77, 1), (2, 77, 1)]);
    assert_eq!(lent("policy: not r16", &[NOT], 16), [(21, 77, kept), (3, 77, 1)]);
    let over = "policy: (all or not plus all)";
    assert_eq!(lent(over, &[NOT, PLUS, EVERYONE], 16), [(4, 77, 2), (4, 77, 0)]);
    assert_eq!(lent("policy:not r2", &[NOT, EVERYONE], 16), [(20, 77, kept), (0, 15, kept)]);
}

#[test]
fn terms_print_and_parse() {
    let mut numbers = Random(1);
    let mut units = [0; 2];
    for turn in 0..20_000 {
        let unit = turn % 3 == 0;
        let words = 1 + numbers.below(MAX_WORDS as u32);
        let (term, text) = random(&mut numbers, words, unit);
        let text = format!("policy: {text}");
        assert_eq!(term.words().len(), words as usize);
        assert_eq!(term.to_string(), text);
        // all of a term is compared: its words, and whether it is a unit term
        assert_eq!(text.parse(), Ok(term));
        assert_eq!(Term::try_from(term.words()), Ok(term));
        assert_eq!(read(text.as_bytes()).as_deref(), Ok(term.words()));
        units[usize::from(number(Term::plus(term)) == 4)] += 1;
    }
    assert!(units.iter().all(|count| *count > 2000), "{units:?}");
}

#[test]
fn what_was_parsed_can_be_put_into_a_larger_term() -> Result<(), Refusal> {
    let parsed = |text: &str| text.parse::<Term>();
    let (unit, other) = (parsed("policy: not (r0 or {1})")?, parsed("policy: plus r0")?);
    assert_eq!(Term::plus(unit)?.to_string(), "policy: plus not (r0 or {1})");
    assert_eq!(Term::apart(unit, other)?.to_string(), "policy: (not (r0 or {1}) apart plus r0)");
    let refused = Err(Refusal::Unit { place: 0 });
    assert_eq!([Term::not(other), Term::plus(other), Term::not(parsed(TEXT_F)?)], [refused; 3]);
    assert_eq!(Term::plus(Term::either(unit, other)?), refused);
    Ok(())
}

#[test]
fn words_that_are_a_policy_are_a_term() -> Result<(), Refusal> {
    let kinds =
        [EVERYONE, 0x0200000f, 0x03008000, NOT, PLUS, 0x06000000, 0x08000000, 0x02000010, 0];
    let mut numbers = Random(3);
    let mut made = [0; 5];
    for _ in 0..40_000 {
        let length = 1 + numbers.below(5);
        let kind = |_| kinds[numbers.below(if length % 2 == 0 { 7 } else { 9 }) as usize];
        let words: Vec<u32> = (0..length).map(kind).collect();
        let term = Term::try_from(&words[..]);
        assert_eq!(term.err(), Monitor::open(16, 16, &words, &[1; 16]).err(), "{words:08x?}");
        made[usize::from(number(term))] += 1;
    }
    assert_eq!(made[1], 0);
    assert!([0, 2, 3, 4].iter().all(|number| made[*number] > 100), "{made:?}");
    assert_eq!(Term::try_from(&[][..]), Err(Refusal::WordCount));
    assert_eq!(Term::try_from(&[EVERYONE; 32][..]), Err(Refusal::WordCount));
    let monitor = Monitor::open(3, 3, &POLICY_F, &[2, 1, 0])?;
    assert_eq!(Term::try_from(monitor.policy())?.to_string(), TEXT_F);
    Ok(())
}

#[test]
fn a_term_is_padded_as_other_texts_are() {
    let term = Term::everyone();
    assert_eq!(format!("{term:>13}|{term:<13}|{term}"), "  policy: all|policy: all  |policy: all");
}

#[test]
fn refusals_of_texts_say_what_they_are() {
    let told = |text: &str| text.parse::<Term>().map_err(|refusal| refusal.to_string());
    assert_eq!(told("all"), Err("20: the text does not begin with `policy: `".to_string()));
    assert_eq!(
        told("policy: everyone"),
        Err("21: what stands behind `policy: ` is not exactly one term, \
             or the text has more than 1,024 bytes"
            .to_string())
    );
}

#[test]
fn a_small_stack_is_enough_for_the_deepest_text() {
    let deepest = || {
        let read = |unit: &str| {
            let mut text = b"policy: ".to_vec();
            text.extend(unit.bytes().cycle().take(MAX_TEXT - text.len()));
            number(read_text(16, 16, text, &mut [0; MAX_WORDS]))
        };
        ["(", "not ", "plus ", "(all or ", "(not "].map(read)
    };
    let thread = std::thread::Builder::new().stack_size(128 << 10).spawn(deepest);
    assert_eq!(thread.expect("it starts").join().expect("it ends"), [21; 5]);
}
