//! The library's calls as they are. The caller lends every slice, also `out`, in which the numbers come back.
//!
//! Each call may be lent slices of any length with anything in them. It returns 1, or 0 if `out` has fewer than [`OUT`]
//! entries or counts of uses fewer than [`COUNTS`]; then it has done nothing. `include/arvumnao.h` says what each call answers and leaves.
//!
//! A call needs [`STACK`] bytes of stack.

/// The entries of `out` that a call fills: the refusal's number and its two further numbers, then the call's own numbers.
pub const OUT: usize = 16;

/// The place in `out` of a call's first own number.
pub const OWN: usize = 3;

/// The entries of counts of uses, one a kind.
pub const COUNTS: usize = 54;

/// Bytes that are enough for the text of such counts.
pub const USES_BYTES: usize = 4_096;

/// Bytes of stack that are enough for every call.
pub const STACK: usize = 262_144;

/// Declares a call of the library and a function that lends it slices: the parameters are written once. A slice goes as its
/// pointer and its count.
macro_rules! call {
    ($(#[$doc:meta])* fn $name:ident = $symbol:ident($($parameters:tt)*)) => {
        call!(@ [$(#[$doc])*] $name $symbol [] [] [] $($parameters)*);
    };
    (@ $doc:tt $name:ident $symbol:ident [$($rust:tt)*] [$($c:tt)*] [$($passed:tt)*] $lent:ident: &mut [$entry:ty], $($rest:tt)*) => {
        call!(@ $doc $name $symbol [$($rust)* $lent: &mut [$entry],] [$($c)* $lent: *mut $entry, _: usize,]
            [$($passed)* $lent.as_mut_ptr(), $lent.len(),] $($rest)*);
    };
    (@ $doc:tt $name:ident $symbol:ident [$($rust:tt)*] [$($c:tt)*] [$($passed:tt)*] $lent:ident: &[$entry:ty], $($rest:tt)*) => {
        call!(@ $doc $name $symbol [$($rust)* $lent: &[$entry],] [$($c)* $lent: *const $entry, _: usize,]
            [$($passed)* $lent.as_ptr(), $lent.len(),] $($rest)*);
    };
    (@ $doc:tt $name:ident $symbol:ident [$($rust:tt)*] [$($c:tt)*] [$($passed:tt)*] $number:ident: $type:ident, $($rest:tt)*) => {
        call!(@ $doc $name $symbol [$($rust)* $number: $type,] [$($c)* $number: $type,] [$($passed)* $number,] $($rest)*);
    };
    (@ [$($doc:tt)*] $name:ident $symbol:ident [$($rust:tt)*] [$($c:tt)*] [$($passed:tt)*]) => {
        $($doc)*
        #[allow(clippy::too_many_arguments)]
        pub fn $name($($rust)*) -> u32 {
            extern "C" {
                fn $symbol($($c)*) -> u32;
            }
            // SAFETY: each pointer goes with the count of the slice it is taken from, the slices are lent for the whole call, those
            // written to are lent mutably and so apart from all others, and the library keeps none of them.
            unsafe { $symbol($($passed)*) }
        }
    };
}

call! {
    /// The price of a node. Own number: the price.
    fn price = arvumnao_price(kind: u32, factor: u32, others: u32, capacity: u32, history: u32, out: &mut [u64],)
}

call! {
    /// The price of a node for a sink of a timed job. Own number: the price.
    fn timed_price = arvumnao_timed_price(
        kind: u32,
        factor: u32,
        others: u32,
        capacity: u32,
        history: u32,
        delay: u32,
        criticality: u32,
        out: &mut [u64],
    )
}

call! {
    /// The distances of all nodes from those marked. No own numbers.
    fn search = arvumnao_search(
        kind: &[u8],
        capacity: &[u8],
        first_edge: &[u32],
        edge_target: &[u16],
        factor: u32,
        work: &mut [u64],
        history: &[u32],
        others: &[u16],
        in_tree: &[u8],
        out: &mut [u64],
    )
}

call! {
    /// The same by the prices for a sink of a timed job. No own numbers.
    fn timed_search = arvumnao_timed_search(
        kind: &[u8],
        capacity: &[u8],
        first_edge: &[u32],
        edge_target: &[u16],
        delay: &[u16],
        factor: u32,
        criticality: u32,
        work: &mut [u64],
        history: &[u32],
        others: &[u16],
        in_tree: &[u8],
        out: &mut [u64],
    )
}

call! {
    /// Routes a job. Own numbers: iteration, turns, words used of the log.
    ///
    /// The terms are limit, first, up, down, step, rule, until, timed; entries that a shorter slice lacks have their defaults (0,
    /// which is no limit, then 50, 3, 2, 1, 1, 1 and 0). Entries after these eight are ignored. If `timed` is 0, `delay` and
    /// `criticality` are ignored.
    fn route = arvumnao_route(
        kind: &[u8],
        capacity: &[u8],
        first_edge: &[u32],
        edge_target: &[u16],
        source: &[u16],
        first_sink: &[u32],
        sink: &[u16],
        delay: &[u16],
        criticality: &[u8],
        terms: &[u32],
        work: &mut [u64],
        log: &mut [u32],
        out: &mut [u64],
    )
}

call! {
    /// Routes a job by the search that aims. Own numbers: those of [`route`], then the nodes expanded in the turns that the call logged.
    fn route_aimed = arvumnao_route_aimed(
        kind: &[u8],
        capacity: &[u8],
        first_edge: &[u32],
        edge_target: &[u16],
        source: &[u16],
        first_sink: &[u32],
        sink: &[u16],
        delay: &[u16],
        criticality: &[u8],
        terms: &[u32],
        work: &mut [u64],
        log: &mut [u32],
        out: &mut [u64],
    )
}

call! {
    /// Continues from a log of which `used` words are used, and appends turns to it. Terms and own numbers are those of [`route`], over the
    /// whole log.
    fn resume = arvumnao_resume(
        kind: &[u8],
        capacity: &[u8],
        first_edge: &[u32],
        edge_target: &[u16],
        source: &[u16],
        first_sink: &[u32],
        sink: &[u16],
        delay: &[u16],
        criticality: &[u8],
        terms: &[u32],
        used: u64,
        work: &mut [u64],
        log: &mut [u32],
        out: &mut [u64],
    )
}

call! {
    /// Continues from a log by the search that aims. Own numbers: those of [`resume`], then the nodes expanded in the turns appended.
    fn resume_aimed = arvumnao_resume_aimed(
        kind: &[u8],
        capacity: &[u8],
        first_edge: &[u32],
        edge_target: &[u16],
        source: &[u16],
        first_sink: &[u32],
        sink: &[u16],
        delay: &[u16],
        criticality: &[u8],
        terms: &[u32],
        used: u64,
        work: &mut [u64],
        log: &mut [u32],
        out: &mut [u64],
    )
}

call! {
    /// Audits so many words of a log, whoever wrote it. Terms are those of [`route`]; own numbers: turns, whole iterations, nodes over capacity
    /// after the last of them, and the least cost of a turn that is not cheapest.
    fn audit = arvumnao_audit(
        kind: &[u8],
        capacity: &[u8],
        first_edge: &[u32],
        edge_target: &[u16],
        source: &[u16],
        first_sink: &[u32],
        sink: &[u16],
        delay: &[u16],
        criticality: &[u8],
        terms: &[u32],
        used: u64,
        work: &mut [u64],
        log: &[u32],
        out: &mut [u64],
    )
}

call! {
    /// Reads a job text. Own numbers: nodes, edges, nets, sinks, limit, first, up, down, step, rule, until, timed.
    fn read = arvumnao_read(
        text: &[u8],
        kind: &mut [u8],
        capacity: &mut [u8],
        first_edge: &mut [u32],
        edge_target: &mut [u16],
        source: &mut [u16],
        first_sink: &mut [u32],
        sink: &mut [u16],
        delay: &mut [u16],
        criticality: &mut [u8],
        out: &mut [u64],
    )
}

call! {
    /// Writes the routes text of a log beside the job's table 5. Own number: the bytes written.
    fn write = arvumnao_write(source: &[u16], log: &[u32], buffer: &mut [u8], out: &mut [u64],)
}

call! {
    /// Writes the picture of the same branches, in the DOT language of Graphviz. Own number: the bytes written.
    fn dot = arvumnao_dot(source: &[u16], log: &[u32], buffer: &mut [u8], out: &mut [u64],)
}

call! {
    /// Adds a log to counts of uses. Own number: the number of logs counted so far; after a refusal the one that was passed in.
    fn uses_add = arvumnao_uses_add(
        kind: &[u8],
        capacity: &[u8],
        first_edge: &[u32],
        edge_target: &[u16],
        counts: &mut [u64],
        logs: u64,
        log: &[u32],
        out: &mut [u64],
    )
}

call! {
    /// Writes the text of such counts. Own number: the bytes written.
    fn uses_write = arvumnao_uses_write(
        kind: &[u8],
        capacity: &[u8],
        first_edge: &[u32],
        edge_target: &[u16],
        counts: &[u64],
        logs: u64,
        buffer: &mut [u8],
        out: &mut [u64],
    )
}

/// The refusal's numbers in `out`, as many as that refusal has, or those of an audit's finding; none if nothing was refused.
pub fn refusal(out: &[u64; OUT]) -> &[u64] {
    match out[0] {
        0 => &[],
        7..=9 | 15 | 18 => &out[..3],
        _ => &out[..2],
    }
}

/// The call's first `COUNT` own numbers in `out`.
pub fn own<const COUNT: usize>(out: &[u64; OUT]) -> &[u64; COUNT] {
    const { assert!(OWN + COUNT <= OUT, "no call has so many numbers") };
    out[OWN..].first_chunk().expect("asserted above")
}
