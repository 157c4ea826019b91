//! Where title, legend and rows stand.

/// The left edge of title and legend.
pub const EDGE: f64 = 24.0;
/// The space to the left of the rows, for their labels.
pub const LEFT: f64 = 84.0;
/// The length of a row.
pub const ROW: f64 = 1200.0;
/// The space above the rows, for title, legend and scale.
pub const TOP: u64 = 192;
