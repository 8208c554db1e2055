//! Compares the Rust crate and the book tool with the model: `bindings_vs_model SEED N [KINDS]`.

use bindings::differences;
use model::run::random_books;

fn main() {
    random_books(differences, &[])
}
