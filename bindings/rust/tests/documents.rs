//! The second program of docs/C.md is the example `two_speakers`, and it runs.

use std::fs;
use std::path::Path;

mod two_speakers {
    include!("../examples/two_speakers.rs");

    #[test]
    fn runs() {
        main().expect("each call does what it says");
    }
}

#[test]
fn documented() {
    let path = Path::new(env!("CARGO_MANIFEST_DIR")).join("../../docs/C.md");
    let text = fs::read_to_string(path).expect("the document");
    let program = format!(
        "```rust\n{}```\n",
        include_str!("../examples/two_speakers.rs")
    );
    assert!(text.contains(&program));
}
