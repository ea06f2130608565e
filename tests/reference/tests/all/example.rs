//! tests/example holds the manual's first example and its output to the byte.

use reference::generate::inputs::to_bytes;

#[test]
fn the_example_prints_its_text() {
    let words: Vec<u32> = include_str!("../../../example/example.hex")
        .lines()
        .flat_map(|line| line.split('#').next().unwrap_or("").split_whitespace())
        .map(|word| u32::from_str_radix(word, 16).expect("a word"))
        .collect();
    assert_eq!(words.len(), 17);
    let expected = include_str!("../../../example/example.txt");
    assert_eq!(String::from_utf8_lossy(&reference::text(&to_bytes(&words))), expected);
}
