//! Opens quotes under the policies that agreements print, and prints policies for agreements.

use oskhrein::{read_text, Monitor, Refusal, Term, MAX_WORDS};

/// A quote of two users and two roles under the policy that a line of an agreement has.
fn agreed(line: &str) -> Result<Monitor, Refusal> {
    let mut words = [0; MAX_WORDS];
    let policy = read_text(2, 2, line, &mut words)?;
    Monitor::open(2, 2, policy, &[1 << 0, 1 << 1])
}

fn main() -> Result<(), Refusal> {
    let lines = ["policy: (r0 apart r1)", "policy: (r0 apart r2)", "policy: (r0 apart r16)"];
    for line in lines {
        match agreed(line) {
            Ok(quote) => println!("agreed, {}", Term::try_from(quote.policy())?),
            Err(refusal) => println!("{refusal}"),
        }
    }
    // a term that was parsed is put into a larger one, which prints as its text
    let duties: Term = lines[0].parse()?;
    println!("{}", Term::together(duties, Term::plus(Term::everyone())?)?);
    Ok(())
}
