//! A quote with permissions and a workflow: counters (role 0) count, then an approver (role 1) who did
//! not count approves.

use oskhrein::{
    Event, Monitor, Permissions, Refusal, SecureWorkflow, Term, Users, Workflow, Workspace,
};

const COUNT: u8 = 1;
const APPROVE: u8 = 2;

/// The actions that the desk shows.
const SHOWN: [(&str, u8); 2] = [("count", COUNT), ("approve", APPROVE)];

/// A quote as the desk keeps it: the monitor, and beside it who may act, for each action shown.
struct Quote {
    monitor: Monitor,
    enabled: [Users; SHOWN.len()],
}

impl Quote {
    /// Asks who may act, for each action shown.
    fn ask(&mut self, workspace: &mut Workspace) -> Result<(), Refusal> {
        for (users, (_, action)) in self.enabled.iter_mut().zip(SHOWN) {
            *users = self.monitor.enabled(action, workspace)?;
        }
        Ok(())
    }

    /// The number with which an event is answered. All masks are asked for anew after 0; any other
    /// answer leaves them right.
    fn send(&mut self, event: Event, workspace: &mut Workspace) -> Result<u8, Refusal> {
        if let Err(refusal) = self.monitor.event(event, workspace) {
            return Ok(refusal.number());
        }
        self.ask(workspace)?;
        Ok(0)
    }

    fn show(&self) {
        for ((name, _), users) in SHOWN.iter().zip(self.enabled) {
            println!("  may {name}: {users:?}");
        }
    }
}

fn main() -> Result<(), Box<dyn std::error::Error>> {
    let policy = Term::apart(Term::plus(Term::role(0)?)?, Term::role(1)?)?;
    let permissions = Permissions::new(2)?.give(0, &[COUNT])?.give(1, &[APPROVE])?;
    let workflow = Workflow::new(3)? // 0 begun, 1 counted, 2 approved
        .transition(0, COUNT, 1)?
        .transition(1, COUNT, 1)?
        .transition(1, APPROVE, 2)?
        .finish_in(2)?;
    let secure = SecureWorkflow::new(permissions, workflow);
    let roles = [1 << 0, 1 << 1]; // user 0 counts, user 1 approves
    let mut workspace = Workspace::new();
    let monitor = Monitor::open_with(2, 2, policy.words(), &roles, Some(&secure))?;
    let mut quote = Quote { monitor, enabled: [Users::default(); SHOWN.len()] };
    quote.ask(&mut workspace)?;
    quote.show();
    for (user, number) in [(1, APPROVE), (0, APPROVE), (0, COUNT), (1, APPROVE)] {
        let action = Event::Action { user, number };
        println!("user {user}, action {number}: {}", quote.send(action, &mut workspace)?);
        quote.show();
    }
    println!("close: {}", quote.send(Event::Close, &mut workspace)?);
    Ok(())
}
