//! What a line may call, by request: the operations and a session's calls, each with the request from
//! which on it holds. Reading, random calls and wrong lines all go by these tables; what a call answers
//! stands in calls.rs and domain.rs, a session's in session.rs.

/// How many requests have landed.
pub const LANDED: u32 = 3;

/// The highest number of a refusal.
pub const REFUSALS: u64 = 14;

/// Of a form that no request takes away.
const EVER: u32 = u32::MAX;

/// An operation's name, the kinds of its arguments, its group, and the request from which on it holds.
/// Groups: e edit, c combination, m edit that no session has, a merge that is asked, l lookup or analysis, s
/// sheet read, n number.
/// Kinds: D f64, T f64 that may be anything, F f32, G f32 that may be anything, U u64 (16 digits), N
/// decimal, B 0 or 1, O f32 or none, C curve, P point, L list of points, E envelope, S bytes.
type Operation = (&'static str, &'static str, char, u32);

const OPERATIONS: &[Operation] = &[
    ("value_at", "ET", 'l', 0),
    ("value_at_sample", "EU", 'l', 0),
    ("slope_at", "ET", 'l', 0),
    ("range", "EDD", 'l', 0),
    ("range_samples", "EUU", 'l', 0),
    ("peaks", "ENN", 'l', 0),
    ("valleys", "ENN", 'l', 0),
    ("render", "EDNNNN", 'l', 0),
    ("to_buffer", "EDDNN", 'l', 0),
    ("walk", "EDDN", 'l', 0),
    ("eq", "EE", 'l', 0),
    ("eq_exact", "EE", 'l', 0),
    ("point_eq", "PP", 'l', 0),
    ("point_eq_exact", "PP", 'l', 0),
    ("sheet", "EN", 'l', 0),
    ("valid", "E", 'l', 0),
    ("read_sheet", "S", 's', 0),
    ("add_point", "EP", 'e', 0),
    ("remove_point_at", "ED", 'e', 0),
    ("shift", "ED", 'e', 0),
    ("scale_time", "ED", 'e', 0),
    ("trim", "EDD", 'e', 0),
    ("reverse", "E", 'e', 0),
    ("invert_values", "EFF", 'e', 0),
    ("quantize_time", "ED", 'e', 0),
    ("simplify", "EF", 'e', 0),
    ("normalize", "EFF", 'e', 0),
    ("scale", "EF", 'e', 0),
    ("offset", "EF", 'e', 0),
    ("clamp_values", "EFF", 'e', 0),
    ("apply_fade_in", "EDC", 'e', 0),
    ("apply_fade_out", "EDC", 'e', 0),
    ("apply_fades", "EDDC", 'e', 0),
    ("apply_gate", "EF", 'e', 0),
    ("apply_compression", "EFF", 'e', 0),
    ("merge", "EED", 'e', 0),
    ("merge_points", "ELD", 'm', 0),
    ("ask", "EED", 'a', 3),
    ("set_enabled", "EB", 'e', 0),
    ("set_min", "EO", 'e', 0),
    ("set_max", "EO", 'e', 0),
    ("set_step", "EO", 'e', 0),
    ("set_hard", "EB", 'e', 1),
    ("fade_in", "EDC", 'e', 0),
    ("fade_out", "EDC", 'e', 0),
    ("pulse", "EDDDC", 'e', 0),
    ("ramp", "EDFFC", 'e', 0),
    ("blend", "EEF", 'c', 0),
    ("add", "EE", 'c', 0),
    ("multiply", "EE", 'c', 0),
    ("min", "EE", 'c', 0),
    ("max", "EE", 'c', 0),
    ("subtract", "EE", 'c', 0),
    ("interpolate", "CGGG", 'n', 0),
    ("roundf", "G", 'n', 0),
    ("round", "T", 'n', 0),
    ("sqrtf", "G", 'n', 0),
    ("square", "G", 'n', 0),
    ("narrow", "T", 'n', 0),
    ("u64_to_f32", "U", 'n', 0),
    ("f64_to_u64", "T", 'n', 0),
    ("total_cmp", "TT", 'n', 0),
    ("fmax", "GG", 'n', 0),
    ("fmin", "GG", 'n', 0),
];

/// A call of a session: its word, the kinds of its arguments (an edit's and a lookup's are the operation's, a
/// length's the call's that follows), how often random scripts have it, and the requests from which on
/// and before which it holds.
type Call = (&'static str, &'static str, u64, u32, u32);

const CALLS: &[Call] = &[
    ("open", "NN", 0, 0, EVER), // where a script starts
    ("edit", "", 54, 0, EVER),
    ("back", "", 25, 0, EVER),
    ("forward", "", 17, 0, EVER),
    ("commit", "EED", 8, 3, EVER),
    ("len", "N", 2, 0, EVER),
    ("show", "", 1, 0, EVER),
    ("damage", "NN", 2, 0, EVER),
    ("memory", "", 12, 0, EVER),
    ("slot", "N", 14, 0, EVER),
    ("words", "NN", 6, 0, EVER),
    ("value_at", "", 6, 0, EVER),
    ("value_at_sample", "", 6, 0, EVER),
    ("render", "", 7, 0, EVER),
    ("to_buffer", "", 6, 0, EVER),
];

/// The operations that hold.
pub fn operations() -> impl Iterator<Item = &'static Operation> {
    OPERATIONS.iter().filter(|o| o.3 <= LANDED)
}

/// The kinds of an operation's arguments, and its group.
pub fn signature(op: &str) -> Option<(&'static str, char)> {
    operations().find(|o| o.0 == op).map(|o| (o.1, o.2))
}

/// The edits that a session has.
pub fn session_edits() -> Vec<&'static str> {
    let edits = operations().filter(|o| "ec".contains(o.2));
    edits.map(|o| o.0).collect()
}

fn calls() -> impl Iterator<Item = &'static Call> {
    CALLS.iter().filter(|c| (c.3..c.4).contains(&LANDED))
}

/// A session's calls, each with how often random scripts have it.
pub fn weighted_calls() -> Vec<(&'static str, u64)> {
    calls().map(|c| (c.0, c.2)).collect()
}

/// The kinds of the arguments of a session's call, if it has such a call.
pub fn call_kinds(word: &str) -> Option<&'static str> {
    calls().find(|c| c.0 == word).map(|c| c.1)
}

/// Whether a session has such a call.
pub fn is_call(word: &str) -> bool {
    call_kinds(word).is_some()
}

/// Whether a session's call is an operation on its envelope that alters nothing.
pub fn is_lookup(word: &str) -> bool {
    is_call(word) && signature(word).is_some()
}
