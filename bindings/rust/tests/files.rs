//! The repository's examples, read by the library: each file is refused, or accepted with the levels, that its listing says.

use yonaduvi::{read, Lists};

fn expected(listing: &str) -> Result<usize, (usize, usize)> {
    let words: Vec<&str> = listing.split_whitespace().collect();
    let word = |k: usize| words[k].parse().unwrap();
    if words[0] == "refused" { Err((word(1), word(2))) } else { Ok(word(1)) }
}

#[test]
fn every_example_is_answered_as_its_listing_says() {
    let mut count = 0;
    for entry in std::fs::read_dir(concat!(env!("CARGO_MANIFEST_DIR"), "/../../examples")).unwrap() {
        let path = entry.unwrap().path();
        if path.extension().is_some_and(|e| e == "bin") {
            let listing = std::fs::read_to_string(path.with_extension("out")).unwrap();
            let mut lists = Lists::with_places([768; 12]);
            let found = read(&std::fs::read(&path).unwrap(), 16, &mut lists).map_err(|e| (e.number, e.place));
            assert_eq!(found, expected(&listing), "{}", path.display());
            count += 1;
        }
    }
    assert!(count > 0);
}
