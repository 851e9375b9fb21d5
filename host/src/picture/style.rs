//! Colours and patterns. Each state has both, so that the drawing can be read in grey print too.

use super::legend::Signs;
use crate::card::State;

/// The class of a state's bands.
pub fn class_of(state: State) -> &'static str {
    match state {
        State::Off => "off",
        State::Testing => "testing",
        State::Reserved => "reserved",
        State::Permitted => "permitted",
        State::Leaving => "leaving",
        State::Resting => "resting",
        State::Silent => "silent",
    }
}

/// Whether text on a band of this state is white.
pub fn is_dark(state: State) -> bool {
    matches!(state, State::Permitted | State::Silent)
}

/// What stands before the shapes besides, for signs that not every drawing has.
pub fn styles(drawn: &Signs) -> String {
    let parts = [
        (drawn.bit_28, BIT_28),
        (drawn.warm, WARM),
        (drawn.links, LINK),
        (drawn.turns, TURN),
        (drawn.overdue(), OVERDUE),
        (drawn.shared, SHARED),
    ];
    parts.iter().filter(|(is_drawn, _)| *is_drawn).map(|(_, style)| *style).collect()
}

/// Of frames that came with bit 28 as 0, which have another shape than others too.
const BIT_28: &str = r##"<style>
.bit28 { fill: #00b4d0; stroke: #222; stroke-width: 1; }
.bit28-hit { fill: #00b4d0; stroke: #c00020; stroke-width: 1.4; }
</style>
"##;

/// White on black; the other signs with a letter are black on white.
const WARM: &str = r##"<style>
.warm { fill: #111; stroke: #fff; stroke-width: 0.8; }
.warm-text { font-size: 8px; font-weight: bold; fill: #fff; }
</style>
"##;

const LINK: &str = r##"<style>
.link { fill: #fff; stroke: #111; stroke-width: 1.2; }
</style>
"##;

/// Black both, and told apart by their shapes.
const TURN: &str = r##"<style>
.turn, .turn-refused { fill: #111; }
</style>
"##;

/// The two are told apart in grey print by their strokes: whole, and broken.
const OVERDUE: &str = r##"<defs>
<pattern id="p-waited" width="8" height="8" patternUnits="userSpaceOnUse"><rect width="5.5" height="8" fill="#a000b8"/></pattern>
</defs>
<style>
.stood, .stood-end { fill: #1030e0; }
.stood-text { font-size: 9px; fill: #1030e0; }
.waited { fill: url(#p-waited); }
.waited-end { fill: #a000b8; }
.waited-text { font-size: 9px; fill: #a000b8; }
</style>
"##;

const SHARED: &str = r##"<style>
.shared { fill: #c00020; stroke: #fff; stroke-width: 0.8; }
.shared-text { font-size: 9px; font-weight: bold; fill: #fff; }
.shared-way { stroke: #c00020; stroke-width: 1.2; }
</style>
"##;

/// What stands before the shapes.
pub const DEFINITIONS: &str = r##"<defs>
<pattern id="p-testing" width="6" height="6" patternUnits="userSpaceOnUse" patternTransform="rotate(45)">
<rect width="6" height="6" fill="#fff6dc"/><rect width="1.6" height="6" fill="#e0b040"/></pattern>
<pattern id="p-reserved" width="5" height="5" patternUnits="userSpaceOnUse">
<rect width="5" height="5" fill="#cfe2f5"/><circle cx="2.5" cy="2.5" r="1.1" fill="#2c6db2"/></pattern>
<pattern id="p-leaving" width="6" height="6" patternUnits="userSpaceOnUse" patternTransform="rotate(45)">
<rect width="6" height="6" fill="#fbdcc6"/><path d="M0 0H6M0 0V6" stroke="#c4560f" stroke-width="2"/></pattern>
<pattern id="p-resting" width="5" height="5" patternUnits="userSpaceOnUse">
<rect width="5" height="5" fill="#f4f4f4"/><rect width="5" height="1" fill="#999"/></pattern>
</defs>
<style>
text { font-family: "DejaVu Sans", Verdana, Arial, sans-serif; font-size: 10px; fill: #111; }
.title { font-size: 18px; font-weight: bold; }
.subtitle { font-size: 12px; }
.small { font-size: 9px; fill: #333; }
.mono { font-family: "DejaVu Sans Mono", Menlo, Consolas, monospace; font-size: 9.5px; }
.strong { font-weight: bold; font-size: 11px; }
.on-band { font-family: "DejaVu Sans Mono", Menlo, Consolas, monospace; font-size: 10px; font-weight: bold; }
.on-dark { font-family: "DejaVu Sans Mono", Menlo, Consolas, monospace; font-size: 10px; font-weight: bold; fill: #fff; }
.paper { fill: #fff; }
.plate { fill: #fff; fill-opacity: 0.9; }
.off { fill: none; }
.testing { fill: url(#p-testing); stroke: #a87900; stroke-width: 0.6; }
.reserved { fill: url(#p-reserved); stroke: #2c6db2; stroke-width: 0.6; }
.permitted { fill: #2e7d52; stroke: #17492e; stroke-width: 0.6; }
.leaving { fill: url(#p-leaving); stroke: #c4560f; stroke-width: 0.6; }
.resting { fill: url(#p-resting); stroke: #888; stroke-width: 0.6; }
.silent { fill: #2b2b2b; stroke: #000; stroke-width: 0.6; }
.row { stroke: #ccc; stroke-width: 0.8; }
.lane { stroke: #e2e2e2; stroke-width: 0.8; }
.tick { stroke: #bbb; stroke-width: 0.6; }
.frame { fill: #222; }
.foreign { fill: #fff; stroke: #222; stroke-width: 1; }
.hit { fill: #c00020; }
.foreign-hit { fill: #fff; stroke: #c00020; stroke-width: 1.4; }
.lead { fill: none; stroke: #c00020; stroke-width: 1; stroke-dasharray: 3 2; }
.ring { fill: #fff; stroke: #c00020; stroke-width: 1.6; }
.cross { stroke: #c00020; stroke-width: 2.6; stroke-linecap: round; }
.cross-below { stroke: #fff; stroke-width: 5; stroke-linecap: round; }
.restart { fill: #fff; stroke: #111; stroke-width: 1.2; }
.fold { fill: #fff; stroke: #888; stroke-width: 0.8; }
.late { stroke: #c00020; stroke-width: 2; }
.late-text { fill: #c00020; font-weight: bold; font-size: 11px; }
.long { font-size: 9px; }
</style>
"##;
