//! Figures of real captions, and how well a trained sorter sorts them. captions/README.md says what the figures are.
#![deny(missing_docs, unsafe_code)]

mod figures;
mod model;
mod several;
mod sorted;
mod voted;

pub use figures::{Caption, Figures};
pub use model::Model;
pub use several::{Several, Text};
pub use sorted::{decision, fitted, measured, parted, sorted, Sorted};
pub use voted::voted;

/// The name of a language.
pub fn language(code: &str) -> &str {
    match code {
        "cs" => "Czech",
        "da" => "Danish",
        "de" => "German",
        "es" => "Spanish",
        "fi" => "Finnish",
        "fr" => "French",
        "hu" => "Hungarian",
        "it" => "Italian",
        "nl" => "Dutch",
        "pl" => "Polish",
        "sk" => "Slovak",
        "sv" => "Swedish",
        _ => code,
    }
}
