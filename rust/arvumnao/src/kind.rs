//! The kinds of a node, as table 1 has them.

/// A source: where a net may begin. Base cost 20.
pub const SOURCE: u8 = 0;
/// A sink: where a net may end. Base cost 20.
pub const SINK: u8 = 1;
/// An output pin: a net may begin here too. Base cost 20.
pub const OUTPUT_PIN: u8 = 2;
/// An input pin: a net may end here too. Base cost 19.
pub const INPUT_PIN: u8 = 3;
/// The highest kind: a wire of 50 tiles.
pub const MOST: u8 = 53;

/// The kind of a wire of this length, 1 to 50 tiles. Its base cost is 20 for each tile.
///
/// # Panics
///
/// If there is no wire of that length.
///
/// ```
/// assert_eq!(arvumnao::kind::wire(1), 4);
/// assert_eq!(arvumnao::kind::wire(50), arvumnao::kind::MOST);
/// ```
pub const fn wire(tiles: u8) -> u8 {
    assert!(1 <= tiles && tiles <= 50, "a wire is 1 to 50 tiles long");
    tiles + 3
}

/// The base cost of a node of this kind: 20; for an input pin 19, for a wire 20 for each tile. None if there is no such kind.
///
/// ```
/// use arvumnao::kind;
///
/// assert_eq!(kind::base_cost(kind::INPUT_PIN), Some(19));
/// assert_eq!(kind::base_cost(kind::wire(3)), Some(60));
/// assert_eq!(kind::base_cost(54), None);
/// ```
pub const fn base_cost(kind: u8) -> Option<u32> {
    match kind {
        SOURCE | SINK | OUTPUT_PIN => Some(20),
        INPUT_PIN => Some(19),
        4..=MOST => Some(20 * (kind as u32 - 3)),
        _ => None,
    }
}

/// Whether a net may begin at a node of this kind.
pub const fn may_be_source(kind: u8) -> bool {
    kind == SOURCE || kind == OUTPUT_PIN
}

/// Whether a net may end at a node of this kind.
pub const fn may_be_sink(kind: u8) -> bool {
    kind == SINK || kind == INPUT_PIN
}

/// The kind in words.
pub fn name(kind: u8) -> String {
    match kind {
        SOURCE => String::from("a source"),
        SINK => String::from("a sink"),
        OUTPUT_PIN => String::from("an output pin"),
        INPUT_PIN => String::from("an input pin"),
        4..=MOST => format!("a wire of length {}", kind - 3),
        _ => format!("no kind at all ({kind})"),
    }
}
