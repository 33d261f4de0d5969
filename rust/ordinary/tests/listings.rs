//! Every example lists as the file of its name says.

use std::fs;
use std::path::Path;

use ordinary::printed;

#[test]
fn every_example_lists_as_its_file_says() {
    let examples = Path::new(env!("CARGO_MANIFEST_DIR")).join("../../examples");
    let mut seen = 0;
    for entry in fs::read_dir(&examples).expect("the examples") {
        let path = entry.expect("a file").path();
        if path
            .extension()
            .is_some_and(|extension| extension == "routine")
        {
            let routine = fs::read(&path).expect("readable");
            let listing = fs::read_to_string(path.with_extension("listing")).expect("beside it");
            assert_eq!(printed(&routine), listing, "{}", path.display());
            seen += 1;
        }
    }
    assert!(seen >= 19, "{seen} routines");
}
