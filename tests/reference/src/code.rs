//! The numbers with which the calls answer (01, "Numbers, by who causes them"; 02).

/// The number that a call answers with; 0 is acceptance.
pub type Code = u32;

/// The call was accepted.
pub const ACCEPTED: Code = 0;
/// No policy word, or more than 31.
pub const POLICY_LENGTH: Code = 1;
/// Some policy word is out of layout, names an undeclared role or user, or is an empty set.
pub const POLICY_WORD: Code = 2;
/// The policy words are not exactly one term.
pub const NOT_ONE_TERM: Code = 3;
/// A not or a plus stands over a term that is no unit term.
pub const NOT_OVER_UNIT: Code = 4;
/// The users or the roles are not 1 to 16.
pub const COUNTS: Code = 5;
/// The rows of roles are not one a user, or name an undeclared role.
pub const USER_ROLES: Code = 6;
/// An event word is out of layout or names an undeclared user or role; in a multiset, a count
/// above 0 for an undeclared user.
pub const EVENT_WORD: Code = 7;
/// Twelve actions are taken already; in a multiset, more than twelve in all.
pub const TOO_MANY_ACTIONS: Code = 8;
/// The actions with the new one are not possible.
pub const NOT_POSSIBLE: Code = 9;
/// The instance is closed.
pub const CLOSED: Code = 10;
/// A close, but the taken actions do not satisfy the policy, or the workflow is in no final state.
pub const NOT_SATISFIED: Code = 11;
/// The workspace has fewer than 8,192 words.
pub const WORKSPACE_SHORT: Code = 12;
/// The output is shorter than the policy, or than its text.
pub const OUTPUT_SHORT: Code = 13;
/// The case file is malformed.
pub const CASE_MALFORMED: Code = 14;
/// The instance is malformed.
pub const INSTANCE_MALFORMED: Code = 15;
/// No role that the user holds gives the action.
pub const NOT_AUTHORIZED: Code = 16;
/// The workflow has no transition for the action.
pub const NO_TRANSITION: Code = 17;
/// Permissions and workflow are not both or neither given, or one of them is not as it must be.
pub const SECURE: Code = 19;
/// A text does not begin with the eight bytes `policy: `.
pub const OPENING: Code = 20;
/// What stands behind the opening bytes of a text is not one term, or the text has more than 1,024
/// bytes.
pub const TEXT: Code = 21;
