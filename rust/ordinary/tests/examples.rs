//! The typed examples are read as the routines of their names, and written back.

use std::fs;
use std::path::{Path, PathBuf};

use ordinary::{name_list, read_text, write_text, RECORD, ROUTINE_LIMIT};

fn examples() -> PathBuf {
    Path::new(env!("CARGO_MANIFEST_DIR")).join("../../examples")
}

fn file(name: &str) -> Vec<u8> {
    fs::read(examples().join(name)).unwrap_or_else(|why| panic!("{name}: {why}"))
}

fn read(text: &[u8], names: &[u8]) -> Vec<u8> {
    let mut out = vec![0; RECORD * ROUTINE_LIMIT];
    let count = read_text(text, names, &mut out).expect("a text");
    out.truncate(RECORD * count);
    out
}

#[test]
fn the_list_holds_the_names() {
    let names = String::from_utf8(file("names.txt")).expect("letters");
    let names: Vec<&str> = names.lines().collect();
    assert_eq!(name_list(&names), file("names.list"));
}

#[test]
fn texts_there_and_back() {
    let list = file("names.list");
    let mut seen = 0;
    for entry in fs::read_dir(examples()).expect("the examples") {
        let path = entry.expect("a file").path();
        if path.extension().is_none_or(|extension| extension != "text") {
            continue;
        }
        let name = path
            .file_stem()
            .and_then(|stem| stem.to_str())
            .expect("a name");
        let routine = file(&format!("{name}.routine"));
        assert_eq!(
            read(&file(&format!("{name}.text")), &list),
            routine,
            "{name}"
        );
        let mut text = vec![0; 1 << 14];
        let count = write_text(&routine, &list, &mut text).expect(name);
        assert_eq!(read(&text[..count], &list), routine, "{name}");
        seen += 1;
    }
    assert!(seen >= 13, "{seen} texts");
}
