//! Models without their records.

/// A model without its record, where it has one.
pub fn bare(model: &str) -> &str {
    &model[..model.find("# altuliscia ").unwrap_or(model.len())]
}
