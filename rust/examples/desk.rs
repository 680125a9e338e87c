//! A quote under "one counts, another approves": apart(role 0, role 1).

use oskhrein::{Event, Monitor, Refusal, Term, Users, Workspace};

/// A quote as the desk keeps it: the monitor, and beside it who may act.
struct Quote {
    monitor: Monitor,
    enabled: Users,
}

impl Quote {
    /// The number with which an action of this user is answered. Who may act is asked anew after 0;
    /// any other answer leaves it right.
    fn act(&mut self, user: u8, workspace: &mut Workspace) -> Result<u8, Refusal> {
        let action = Event::Action { user, number: 0 };
        if let Err(refusal) = self.monitor.event(action, workspace) {
            return Ok(refusal.number());
        }
        self.enabled = self.monitor.enabled(0, workspace)?;
        Ok(0)
    }

    /// The monitor keeps its status, which may be asked for whenever the screen is drawn.
    fn show(&self) -> Result<(), Refusal> {
        let users: String = self.enabled.iter().map(|user| format!(" {user}")).collect();
        println!("status {}, may act:{users}", self.monitor.status()?);
        Ok(())
    }
}

fn main() -> Result<(), Refusal> {
    let policy = Term::apart(Term::role(0)?, Term::role(1)?)?;
    let roles = [1 << 0, 1 << 0 | 1 << 1]; // user 0 counts; user 1 counts and approves
    let mut workspace = Workspace::new();
    let monitor = Monitor::open(2, 2, policy.words(), &roles)?;
    let enabled = monitor.enabled(0, &mut workspace)?;
    let mut quote = Quote { monitor, enabled };
    quote.show()?;
    println!("user 1 acts: {}", quote.act(1, &mut workspace)?);
    quote.show()?;
    println!("user 1 acts again: {}", quote.act(1, &mut workspace)?);
    quote.show()?;
    println!("user 0 acts: {}", quote.act(0, &mut workspace)?);
    quote.show()
}
