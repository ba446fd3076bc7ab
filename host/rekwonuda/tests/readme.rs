//! The example in README is the one that is built here.

const README: &str = include_str!("../../../README.md");
const EXAMPLE: &str = include_str!("../examples/message.rs");

#[test]
fn the_example_in_readme_is_the_one_that_compiles() {
    let (_, behind) = README.split_once("```rust\n").expect("README has Rust");
    let (shown, _) = behind.split_once("```").expect("and it ends");
    assert_eq!(shown, EXAMPLE);
}
