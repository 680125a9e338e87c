//! Stores a quote, and reloads what was stored under this layout or an earlier one.

use oskhrein::{Event, Monitor, ReloadFault, Term, Workspace, LAYOUT};

/// A monitor as the desk stores it: its bytes, and beside them the number of their layout.
struct Stored {
    layout: u32,
    bytes: Vec<u8>,
}

impl Stored {
    fn of(quote: &Monitor) -> Stored {
        Stored { layout: LAYOUT, bytes: quote.to_bytes().to_vec() }
    }

    fn reload(&self) -> Result<Monitor, ReloadFault> {
        Monitor::reload(self.layout, &self.bytes)
    }
}

fn main() -> Result<(), Box<dyn std::error::Error>> {
    let policy = Term::plus(Term::role(0)?)?;
    let mut quote = Monitor::open(1, 1, policy.words(), &[1 << 0])?;
    quote.event(Event::Action { user: 0, number: 0 }, &mut Workspace::new())?;
    let stored = Stored::of(&quote);
    println!("status: {}", stored.reload()?.status()?);
    let earlier = Stored { layout: 3, ..stored };
    match earlier.reload() {
        Ok(_) => println!("reloaded"),
        Err(fault) => println!("{fault}"),
    }
    Ok(())
}
