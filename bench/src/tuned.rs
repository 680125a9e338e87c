//! The whole job as an engineer would write it for speed, with no proof to keep in step: the policy
//! is read once a call, with what the acting users meet, monitors are altered where they stand, and
//! what is not read is not cleared.
//!
//! How the workspace is filled is a parameter, so that two ways can be compared.

pub mod by_term;
pub mod normal;
pub mod policy;
pub mod rows;
pub mod text;
pub mod workflow;

use oskhrein::Refusal;
use policy::{All, Nobody, One, Shape, Who};
use workflow::Workflow;

/// The words of a workspace.
pub const WORDS: usize = 8192;
/// The sets of actions that it has room for.
pub const SETS: usize = 4096;

/// A taken action.
#[derive(Clone, Copy, Debug, Default, PartialEq, Eq)]
#[repr(C)]
pub struct Action {
    /// The user who acted.
    pub user: u32,
    /// The unit terms met.
    pub met: u32,
}

/// Who is declared, who holds which roles, and which roles give which actions.
#[derive(Clone, Copy, Debug, Default, PartialEq, Eq)]
#[repr(C)]
pub struct Configuration {
    /// The actions of each role.
    pub permissions: [u64; 16],
    /// The roles of each user.
    pub user_roles: [u16; 16],
    /// How many users.
    pub users: u32,
    /// How many roles.
    pub roles: u32,
}

/// One run under a policy.
#[derive(Clone, Copy, Debug, Default, PartialEq, Eq)]
#[repr(C)]
pub struct Instance {
    /// The policy's words.
    pub policy: [u32; 31],
    /// The taken actions.
    pub actions: [Action; 12],
    /// The workflow.
    pub workflow: Workflow,
    /// How many words.
    pub words: u8,
    /// How many actions.
    pub taken: u8,
    /// 0 until it is closed.
    pub closed: u8,
    /// The letter of its status.
    pub status: u8,
    /// The workflow's state.
    pub state: u32,
}

/// A monitor.
#[derive(Clone, Copy, Debug, Default, PartialEq, Eq)]
#[repr(C)]
pub struct Monitor {
    /// Who may act.
    pub configuration: Configuration,
    /// What was done.
    pub instance: Instance,
}

/// The letter of an instance whose actions do not satisfy the policy, of one whose do, and of a closed
/// one.
const OPEN: u8 = b'o';
const COMPLETE: u8 = b'c';
const CLOSED: u8 = b'd';

/// The kinds of event words.
const ACTS: u8 = 1;
const GRANTS: u8 = 2;
const REVOKES: u8 = 3;
const CLOSES: u8 = 4;

/// An action that is tried after the taken ones.
#[derive(Clone, Copy)]
pub struct Trial {
    /// The action.
    pub action: Action,
    /// The users whose action would have the same answer.
    pub users: u16,
}

/// Fills a workspace for some actions.
pub type Fill = fn(&Shape, &[Action], &mut [u32; WORDS]);

/// Whether rows name only declared roles.
#[inline]
fn rows_fit(roles: u32, rows: &[u16]) -> bool {
    u32::from(rows.iter().fold(0, |all, row| all | row)) >> roles == 0
}

/// The 8,192 words of a workspace that a call was lent, or 12.
#[inline]
fn lent(workspace: &mut [u32]) -> Result<&mut [u32; WORDS], Refusal> {
    let words = workspace.get_mut(..WORDS).ok_or(Refusal::Workspace)?;
    words.try_into().map_err(|_| Refusal::Workspace)
}

impl Configuration {
    /// Whether the rows name only declared roles, and those past the users and past the roles are zero.
    #[inline]
    fn is_well_formed(&self) -> bool {
        let (rows, past) = self.user_roles.split_at((self.users as usize & 31).min(16));
        let unused = &self.permissions[(self.roles as usize & 31).min(16)..];
        rows_fit(self.roles, rows)
            && past.iter().fold(0, |all, row| all | row) == 0
            && unused.iter().fold(0, |all, row| all | row) == 0
    }

    /// Whether a role that the user holds gives the action.
    #[inline]
    fn permits(&self, user: u32, action: u8) -> bool {
        let (mut held, mut given) = (self.user_roles[user as usize & 15], 0);
        while held != 0 {
            given |= self.permissions[held.trailing_zeros() as usize & 15];
            held &= held - 1;
        }
        action < 64 && given >> (action & 63) & 1 == 1
    }
}

impl Instance {
    /// The same of an instance's words and actions under a policy of this shape.
    #[inline]
    fn is_well_formed(&self, users: u32, shape: &Shape) -> bool {
        let Some((taken, past)) = self.actions.split_at_checked(usize::from(self.taken)) else {
            return false;
        };
        let fits = |action: &Action| action.user < users && action.met & !shape.units == 0;
        taken.iter().all(fits)
            && past.iter().fold(0, |all, action| all | action.user | action.met) == 0
            && self.policy[shape.words..].iter().fold(0, |all, word| all | word) == 0
    }

    /// Whether the workflow is well formed and has the present state; without one the permissions and
    /// the state are zero.
    #[inline]
    fn is_placed(&self, configuration: &Configuration) -> bool {
        if self.workflow.states != 0 {
            return self.workflow.is_well_formed() && self.state < self.workflow.states.into();
        }
        self.workflow.is_zero()
            && self.state == 0
            && configuration.permissions.iter().fold(0, |all, row| all | row) == 0
    }

    /// Whether the letter goes with the mark, and with whether there is an action.
    #[inline]
    fn is_lettered(&self) -> bool {
        match self.status {
            OPEN => self.closed == 0,
            COMPLETE => self.closed == 0 && self.taken != 0,
            CLOSED => self.closed != 0,
            _ => false,
        }
    }

    /// The taken actions.
    #[inline]
    fn taken(&self) -> &[Action] {
        &self.actions[..usize::from(self.taken).min(12)]
    }

    /// An action by a declared user who met this.
    fn act(
        &mut self,
        shape: &Shape,
        action: Action,
        workspace: &mut [u32; WORDS],
        fill: Fill,
    ) -> Result<(), Refusal> {
        let place = usize::from(self.taken);
        if place >= self.actions.len() {
            return Err(Refusal::Full);
        }
        self.actions[place] = action;
        fill(shape, &self.actions[..=place], workspace);
        let all = (2 << place) - 1;
        if workspace[SETS + all] & 1 == 0 {
            self.actions[place] = Action::default();
            return Err(Refusal::NotPossible);
        }
        self.taken += 1;
        self.status = if workspace[all] & 1 == 1 { COMPLETE } else { OPEN };
        Ok(())
    }

    /// A close by its letter and its workflow's state.
    #[inline]
    fn close(&mut self) -> Result<(), Refusal> {
        if self.status != COMPLETE || !self.workflow.may_end(self.state) {
            return Err(Refusal::NotSatisfied);
        }
        (self.closed, self.status) = (1, CLOSED);
        Ok(())
    }
}

impl Monitor {
    /// Opens a monitor, or answers 5, 1, 2, 3, 4, 6 or 19 and leaves the blank one.
    pub fn open(
        &mut self,
        (users, roles): (u8, u8),
        words: &[u32],
        rows: &[u16],
        (permissions, workflow): (&[u8], &[u8]),
    ) -> Result<(), Refusal> {
        // SAFETY: a monitor is numbers throughout, each of which may be zero.
        *self = unsafe { std::mem::zeroed() };
        policy::read(users.into(), roles.into(), words, &mut Nobody)?;
        if rows.len() != usize::from(users) || !rows_fit(roles.into(), rows) {
            return Err(Refusal::Rows);
        }
        let Monitor { configuration, instance } = self;
        if !permissions.is_empty() || !workflow.is_empty() {
            if permissions.len() != 8 * usize::from(roles) {
                return Err(Refusal::Workflow);
            }
            instance.workflow = Workflow::read(workflow).ok_or(Refusal::Workflow)?;
            let (bytes, _) = permissions.as_chunks::<8>();
            let rows = configuration.permissions.iter_mut().zip(bytes);
            rows.for_each(|(row, bytes)| *row = u64::from_le_bytes(*bytes));
        }
        (configuration.users, configuration.roles) = (users.into(), roles.into());
        configuration.user_roles[..rows.len()].copy_from_slice(rows);
        instance.policy[..words.len()].copy_from_slice(words);
        (instance.words, instance.status) = (words.len() as u8, OPEN);
        Ok(())
    }

    /// The shape of a well-formed monitor's policy, read with what some users meet.
    #[inline(always)]
    fn check(&self, who: &mut impl Who) -> Option<Shape> {
        let Monitor { configuration, instance } = self;
        let words = instance.policy.get(..usize::from(instance.words))?;
        let (users, roles) = (configuration.users, configuration.roles);
        let shape = policy::read(users, roles, words, who).ok()?;
        let well_formed = configuration.is_well_formed()
            && instance.is_well_formed(users, &shape)
            && instance.is_placed(configuration)
            && instance.is_lettered();
        well_formed.then_some(shape)
    }

    /// The state that an action leads to, or 16 or 17.
    #[inline]
    fn next(&self, user: u32, action: u8) -> Result<u32, Refusal> {
        let Monitor { configuration, instance: Instance { workflow, state, .. } } = self;
        match () {
            () if workflow.states == 0 => Ok(0),
            () if !configuration.permits(user, action) => Err(Refusal::NotAuthorized),
            () => workflow.next(*state, action).ok_or(Refusal::NoTransition),
        }
    }

    /// One event: 12, 15, 10, 7, then 16, 17, 8 or 9; of a close 15, 10, 7 or 11.
    pub fn event(&mut self, word: u32, workspace: &mut [u32], fill: Fill) -> Result<(), Refusal> {
        match word.to_le_bytes() {
            [_, _, _, CLOSES] => self.close(word),
            [low, user, zero, ACTS] => self.act((low, user, zero), lent(workspace)?, fill),
            [low, user, zero, kind] => {
                lent(workspace)?;
                self.grant((low, user, zero), kind)
            }
        }
    }

    /// An action. The policy is read for the user that the word names.
    fn act(
        &mut self,
        (low, user, zero): (u8, u8, u8),
        workspace: &mut [u32; WORDS],
        fill: Fill,
    ) -> Result<(), Refusal> {
        let mut one = One::new(user, self.configuration.user_roles[usize::from(user & 15)]);
        let shape = self.check(&mut one).ok_or(Refusal::Monitor)?;
        match () {
            () if self.instance.closed != 0 => Err(Refusal::Closed),
            () if zero != 0 || u32::from(user) >= self.configuration.users => {
                Err(Refusal::Malformed)
            }
            () => {
                let next = self.next(user.into(), low)?;
                let action = Action { user: user.into(), met: one.met };
                self.instance.act(&shape, action, workspace, fill)?;
                self.instance.state = next;
                Ok(())
            }
        }
    }

    /// A grant, a revocation or a word of an unknown kind.
    fn grant(&mut self, (low, user, zero): (u8, u8, u8), kind: u8) -> Result<(), Refusal> {
        self.check(&mut Nobody).ok_or(Refusal::Monitor)?;
        if self.instance.closed != 0 {
            return Err(Refusal::Closed);
        }
        let Configuration { user_roles, users, roles, .. } = &mut self.configuration;
        let declared = zero == 0 && u32::from(user) < *users && u32::from(low) < *roles;
        let row = &mut user_roles[usize::from(user & 15)];
        match kind {
            GRANTS if declared => *row |= 1 << (low & 15),
            REVOKES if declared => *row &= !(1 << (low & 15)),
            _ => return Err(Refusal::Malformed),
        }
        Ok(())
    }

    /// A close.
    fn close(&mut self, word: u32) -> Result<(), Refusal> {
        self.check(&mut Nobody).ok_or(Refusal::Monitor)?;
        match () {
            () if self.instance.closed != 0 => Err(Refusal::Closed),
            () if word != u32::from(CLOSES) << 24 => Err(Refusal::Malformed),
            () => self.instance.close(),
        }
    }

    /// The letter of the status, or 15.
    pub fn status(&self) -> Result<u8, Refusal> {
        self.check(&mut Nobody).ok_or(Refusal::Monitor)?;
        Ok(self.instance.status)
    }

    /// Who may execute an action, bit u for user u, or 12 or 15.
    pub fn enabled(&self, action: u8, workspace: &mut [u32]) -> Result<u16, Refusal> {
        let workspace = lent(workspace)?;
        let Monitor { configuration: Configuration { user_roles, users, .. }, instance } = self;
        let mut all = All::new(user_roles, first_users(*users));
        let shape = self.check(&mut all).ok_or(Refusal::Monitor)?;
        let taken = instance.taken();
        if instance.closed != 0 || taken.len() == instance.actions.len() {
            return Ok(0);
        }
        let wanted = self.let_through(action);
        if wanted == 0 {
            return Ok(0);
        }
        let (trials, count) = trials(wanted, taken, &all, &shape);
        Ok(rows::try_each(&shape, taken, &trials[..count], workspace))
    }

    /// The users to whom neither 16 nor 17 applies.
    #[inline]
    fn let_through(&self, action: u8) -> u32 {
        let Monitor { configuration, instance: Instance { workflow, state, .. } } = self;
        let all = first_users(configuration.users);
        match () {
            () if workflow.states == 0 => all,
            () if workflow.next(*state, action).is_none() => 0,
            () => (0..configuration.users)
                .filter(|user| configuration.permits(*user, action))
                .fold(0, |users, user| users | 1 << user),
        }
    }
}

/// The first so many users, as a mask.
#[inline]
fn first_users(users: u32) -> u32 {
    (1 << users.min(16)) - 1
}

/// The actions to try for some users, and how many they are. One serves all users of a kind: those who
/// have not acted and for whom the same is noted. The last user's comes last, since the workspace is
/// to speak of it.
#[inline]
fn trials(wanted: u32, taken: &[Action], all: &All, shape: &Shape) -> ([Trial; 16], usize) {
    let acted = taken.iter().fold(0, |acted, action| acted | 1u32 << (action.user & 15));
    let others = wanted & !acted;
    let trial = |user: u32| {
        let kind = if acted >> user & 1 == 1 { 1 << user } else { all.like(user, shape) & others };
        Trial { action: Action { user, met: all.met(user, shape) }, users: kind as u16 }
    };
    let last = trial(wanted.ilog2());
    let (mut trials, mut count) = ([last; 16], 0);
    let mut left = wanted & !u32::from(last.users);
    while left != 0 {
        trials[count] = trial(left.trailing_zeros());
        left &= !u32::from(trials[count].users);
        count += 1;
    }
    (trials, count + 1)
}

/// The users with a count above 0, as a mask, and the sum of the counts.
#[inline]
fn counted(counts: &[u8; 16]) -> (u32, u32) {
    let one = |(users, all): (u32, u32), (user, count): (usize, &u8)| {
        (users | u32::from(*count != 0) << user, all + u32::from(*count))
    };
    counts.iter().enumerate().fold((0, 0), one)
}

/// The multiset test, or 12, the opening's numbers, 7 or 8.
pub fn satisfies(
    (users, roles): (u8, u8),
    words: &[u32],
    rows: &[u16],
    counts: &[u8; 16],
    workspace: &mut [u32],
    fill: Fill,
) -> Result<bool, Refusal> {
    let workspace = lent(workspace)?;
    let (acting, sum) = counted(counts);
    let mut all = All::new(rows, acting);
    let shape = policy::read(users.into(), roles.into(), words, &mut all)?;
    if rows.len() != usize::from(users) || !rows_fit(roles.into(), rows) {
        return Err(Refusal::Rows);
    }
    if acting >> users != 0 {
        return Err(Refusal::Malformed);
    }
    if sum > 12 {
        return Err(Refusal::Full);
    }
    let mut actions = [Action::default(); 12];
    let (mut taken, mut left) = (0, acting);
    while left != 0 {
        let user = left.trailing_zeros();
        left &= left - 1;
        let end = taken + usize::from(counts[user as usize & 15]);
        actions[taken..end].fill(Action { user, met: all.met(user, &shape) });
        taken = end;
    }
    fill(&shape, &actions[..taken], workspace);
    Ok(workspace[(1 << taken) - 1] & 1 == 1)
}
