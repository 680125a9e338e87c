//! Small sources and edits.

use super::*;

#[test]
fn contracts_and_ghosts_are_dropped() {
    let source = "#![tactic(auto)]
ghost use Rattle.std.specs.Prelude.{◌+◌};

// One more; it requires nothing.
fn more(n: u8) -> u8
    requires { n < 255 }
    ensures bounded { record { a = result } ≡ record { a = n + 1 } }
{
    if n < 255 { n + 1 } else { n }
}
";
    let code = to_rust(source);
    assert!(code.contains("// One more; it requires nothing.\nfn more(n: u8) -> u8\n"));
    assert!(!code.contains("ghost") && !code.contains("tactic") && !code.contains("bounded"));
    assert!(code.ends_with("{\n    if n < 255 { n + 1 } else { n }\n}\n"));
}

#[test]
fn numbers_wrap_by_rusts_names() {
    let code = to_rust("use std::num;\nfn f() -> u32 {\n    num::wrapping_sub_u32(0, 1)\n}\n");
    assert_eq!(code, "fn f() -> u32 {\n    u32::wrapping_sub(0, 1)\n}\n");
}

#[test]
fn ghost_fields_and_members_are_dropped() {
    let field = "#[derive(Clone, Copy)]\nstruct A {\n    b: u8,\n    ghost few: { b < 3 },\n}\n";
    assert_eq!(to_rust(field), "#[derive(Clone, Copy)]\nstruct A {\n    b: u8,\n    \n}\n");
    let member = "impl From<A> for u8 {\n    ghost from_gives = { λ a n. n ≡ a.b };\n\n    fn f() {}\n}\n";
    assert_eq!(to_rust(member), "impl From<A> for u8 {\n    \n\n    fn f() {}\n}\n");
}

#[test]
fn the_c_boundary_is_made_from_the_signatures() {
    let source = "#[unsafe(no_mangle)]\npub extern \"C\" fn f(
    a: &mut A,
    b: &[u8; 16],
    c: &[u32],
    d: &mut [u16],
) -> u8\n    ensures { result < 256 }\n{\n    0\n}
pub extern \"C\" fn g() -> u32 {\n    1\n}\n";
    let code = to_rust(source);
    assert!(code.starts_with("pub fn f(\n    a: &mut A,\n"), "{code}");
    let for_c = "#[no_mangle]\npub unsafe extern \"C\" fn f(a: &mut A, b: &[u8; 16], \
                 c: *const u32, c_length: usize, d: *mut u16, d_length: usize) -> u8 {
    super::f(a, b, lent(c, c_length), lent_mut(d, d_length))\n}\n";
    assert!(code.contains(for_c), "{code}");
    assert!(code.contains("extern \"C\" fn g() -> u32 {\n    super::g()\n}"), "{code}");
    assert!(!to_rust("pub fn f(a: &[u8]) -> u8 {\n    0\n}\n").contains("boundary"));
}

#[test]
fn edits_are_read_and_made() {
    let edit = "# a comment\nfile: a/src/lib.rt\nold: x < y\nnew: x <= y\nold: z\nnew:\n";
    let found = replacements(edit).expect("an edit");
    assert_eq!(found.len(), 2);
    let file = Path::new("a/src/lib.rt");
    assert_eq!(edited(file, "x < y; z".into(), &found), Ok("x <= y; ".into()));
    assert!(edited(file, "x < y".into(), &found).is_err());
    assert!(edited(file, "z x < y z".into(), &found).is_err());
    assert_eq!(edited(Path::new("b"), "z z".into(), &found), Ok("z z".into()));
    assert!(replacements("old: x\n").is_err() && replacements("new: x\n").is_err());
}
