//! The Rust programs of the repository's README are those of the crate's own, which are run as its examples.

#[test]
fn programs_are_the_same() {
    let page = include_str!("../../../README.md");
    let own = include_str!("../README.md");
    let programs: Vec<&str> = own.split("```rust\n").skip(1).filter_map(|rest| rest.split("```").next()).collect();
    for program in &programs {
        let indented = program.replace('\n', "\n    ").replace("\n    \n", "\n\n");
        assert!(page.contains(&format!("\n    {}", indented.trim_end())), "{program}");
    }
    assert_eq!((programs.len(), page.matches("    fn main() -> ").count()), (2, 2));
}
