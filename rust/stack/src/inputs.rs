//! What the calls are given: the deepest and the longest there are, and some by
//! chance.

use differential::programs::{any_base, any_relative, any_routine};
use differential::random::Random;
use differential::texts::any_text;
use ordinary::{bytes_of, Record, BASE_LIMIT, RECORD};
use shapes::{
    base_of, calls_and_a_return, grown_to_the_limit, most_names, named, nested, repeated, seq,
};

/// How many by chance.
const BY_CHANCE: u64 = 150;
const SEED: u64 = 1;

/// A file and its name.
pub struct Input {
    /// What it is, in words.
    pub name: String,
    /// The file.
    pub bytes: Vec<u8>,
}

/// Routines.
pub fn routines() -> Vec<Input> {
    let first_arms = nested("+a1{", "}{; }", 170);
    let second_arms = nested("+a1{; }{", "}", 170);
    let gotos = nested("##[1][2]; ##[2]", "[1]; [2]", 128);
    let mut lost = repeated("[1]", 511);
    lost.extend(seq("##[1][2]"));
    let mut mixed = nested("+a1{; -a2{*; R##7", "##[1]; *}; }", 85);
    mixed.extend(seq("[1]"));
    let mut misfit = repeated("-a1{*", 511);
    misfit.extend(seq("}"));
    let records: Vec<(&str, Vec<Record>)> = vec![
        ("no records", seq("")),
        ("512 plain actions", repeated("a1", 512)),
        ("512 labels", repeated("[1]", 512)),
        ("gotos and labels", gotos),
        ("511 labels and a goto to nowhere", lost),
        ("256 nested blocks", nested("+a1{", "}", 256)),
        ("256 nested loops", nested("-a1{*", "*}", 256)),
        ("170 blocks nested in first arms", first_arms),
        ("170 blocks nested in second arms", second_arms),
        ("85 loops nested in blocks, with calls", mixed),
        ("170 blocks in a row", repeated("+a1{; }{; }", 170)),
        ("512 openers", repeated("+a1{", 512)),
        ("512 ends", repeated("}", 512)),
        ("511 openers and an end that does not fit", misfit),
        ("511 calls and a return", calls_and_a_return(512)),
        ("310 records that become 4,096", grown_to_the_limit()),
        ("512 tests", repeated("+a1", 512)),
        ("512 records of many kinds", named()),
        ("513 records", repeated("a1", 513)),
    ];
    with_some_by_chance(records, any_routine)
}

/// Texts, for the full list of names.
pub fn texts() -> Vec<Input> {
    let names = most_names();
    let mut written = vec![0; quadrilhel::TEXT_BYTES];
    let count = ordinary::write_text(&bytes_of(&named()), &names, &mut written).unwrap_or(0);
    written.truncate(count);
    let goto = |number: usize| format!("##[s{number}][t{number}]");
    let gotos = (0..500).map(goto).collect::<Vec<String>>().join(";");
    let known = [
        ("no text", Vec::new()),
        ("512 instructions", written),
        ("a thousandth label", gotos.into_bytes()),
        ("a megabyte of blanks", vec![b' '; 1 << 20]),
        ("a megabyte of jumps", b"!;".repeat(1 << 19)),
        ("a name of a megabyte", vec![b'a'; 1 << 20]),
    ];
    let known = known.map(|(name, bytes)| Input {
        name: name.to_string(),
        bytes,
    });
    let mut inputs = by_chance(|random| any_text(random, &names));
    inputs.extend(known);
    inputs
}

/// Bases.
pub fn bases() -> Vec<Input> {
    let stack = repeated("push(1); +topeq(1); -pop; ##1", BASE_LIMIT / 4);
    let mut inputs = with_some_by_chance(
        vec![
            ("no records", seq("")),
            ("4,096 plain actions", repeated("a1", BASE_LIMIT)),
            ("4,096 tests", repeated("-a999", BASE_LIMIT)),
            ("4,096 jumps", repeated("##2", BASE_LIMIT)),
            ("4,096 pushes", repeated("push(9999)", BASE_LIMIT)),
            ("4,096 records of the counter stack", stack),
            ("4,097 records", repeated("a1", BASE_LIMIT + 1)),
        ],
        any_base,
    );
    inputs.push(Input {
        name: "the base of 511 calls and a return".to_string(),
        bytes: base_of(&calls_and_a_return(512)),
    });
    inputs
}

/// Relative bases.
pub fn relative_bases() -> Vec<Input> {
    let mut inputs = with_some_by_chance(
        vec![
            ("4,096 forward jumps", repeated("#5903", BASE_LIMIT)),
            ("4,096 stops", repeated("stop", BASE_LIMIT)),
            ("4,097 records", repeated("stop", BASE_LIMIT + 1)),
        ],
        any_relative,
    );
    for Input { name, bytes } in bases() {
        let mut relative = vec![0; RECORD * BASE_LIMIT];
        if let Ok(count) = ordinary::to_relative(&bytes, &mut relative) {
            relative.truncate(RECORD * count);
            let name = format!("the relative form of {name}");
            let bytes = relative;
            inputs.push(Input { name, bytes });
        }
    }
    inputs
}

fn with_some_by_chance(
    records: Vec<(&str, Vec<Record>)>,
    any: fn(&mut Random) -> Vec<u8>,
) -> Vec<Input> {
    let known = records.into_iter().map(|(name, records)| Input {
        name: name.to_string(),
        bytes: bytes_of(&records),
    });
    known.chain(by_chance(any)).collect()
}

fn by_chance(any: impl Fn(&mut Random) -> Vec<u8>) -> Vec<Input> {
    let one = |case| Input {
        name: format!("number {case} by chance"),
        bytes: any(&mut Random::of_case(SEED, 0, case)),
    };
    (1..=BY_CHANCE).map(one).collect()
}
