//! Listings: of examples/, by the calls, in buffers of every small size, and of the longest scripts.

use jinthuol::{run, run_into, Conjunction, Doubles, Encounter, Listing, Refusal, Session};
use std::fs;
use std::path::Path;

/// The name, the script and the listing of each example.
fn examples() -> Vec<(String, Vec<u8>, Vec<u8>)> {
    let folder = Path::new(env!("CARGO_MANIFEST_DIR")).join("../../examples");
    let mut found = vec![];
    for entry in fs::read_dir(folder).unwrap() {
        let path = entry.unwrap().path();
        if path.extension().is_some_and(|e| e == "script") {
            let listing = fs::read(path.with_extension("listing")).unwrap();
            found.push((path.display().to_string(), fs::read(&path).unwrap(), listing));
        }
    }
    assert!(!found.is_empty());
    found
}

/// The number at index k of a body of 32-bit numbers.
fn word(body: &[u8], k: usize) -> u32 {
    u32::from_le_bytes(body[4 * k..4 * k + 4].try_into().unwrap())
}

fn encounter(body: &[u8]) -> Encounter {
    let signed = |k| word(body, k) as i32;
    Encounter { R: word(body, 0), sx: word(body, 1), sy: word(body, 2), xm: signed(3), ym: signed(4) }
}

/// The listing, made from the answers to the calls.
fn by_calls(script: &[u8]) -> String {
    let mut session = Session::empty();
    let mut text = String::new();
    let mut position = 0;
    while let Some(kind) = script.get(position) {
        let width = match kind {
            1 => Some(21),
            2 => Some(3),
            3 => Some(1),
            4 => Some(29),
            _ => None,
        };
        let answer = match width.map(|width| script.get(position..position + width)) {
            None => Err(Refusal(1)),
            Some(None) => Err(Refusal(2)),
            Some(Some([1, body @ ..])) => session.begin(encounter(body)).map(|n| format!("begun {n}")),
            Some(Some([4, body @ ..])) => {
                let (object, time) = (word(body, 5), word(body, 6));
                let conjunction = Conjunction { encounter: encounter(body), object, time };
                session.begin_conjunction(conjunction).map(|n| format!("begun {n}"))
            }
            Some(Some([2, body @ ..])) => {
                let added = session.add(u16::from_le_bytes(body.try_into().unwrap()));
                added.map(|n| format!("added {n}"))
            }
            Some(Some(_)) => session.read().map(|a| {
                let ends = format!("{} {} {} {}", a.lower.m, a.lower.e, a.upper.m, a.upper.e);
                let decimals = format!("{} {}", a.lower.decimal_down(), a.upper.decimal_up());
                format!("read {} {ends} {} {decimals} {} {} {}", a.N, a.class, a.object, a.time, a.exact_terms)
            }),
        };
        // Request #108: both answers in doubles go with the read at this place, and change nothing.
        let (before, read) = (session.clone(), session.read());
        let bounded = read.map(|a| a.upper.to_f64().is_some_and(|upper| upper < 1.0));
        assert_eq!(session.read_doubles().map(|d| matches!(d, Doubles::Both { .. })), bounded);
        assert_eq!(session.read_plot_record().map(|r| r.is_some()), bounded);
        assert_eq!(session, before);
        let last = matches!(answer, Err(Refusal(1 | 2)));
        let outcome = answer.unwrap_or_else(|refusal| format!("refused {}", refusal.0));
        text += &format!("{position} {outcome}\n");
        if last {
            break;
        }
        position += width.unwrap();
    }
    text
}

/// The two listings are the same; else the first line that differs is shown.
fn same(what: &str, found: &[u8], due: &[u8]) {
    let (found, due) = (String::from_utf8_lossy(found), String::from_utf8_lossy(due));
    for (line, other) in found.lines().zip(due.lines()) {
        assert_eq!(line, other, "{what}");
    }
    assert!(found == due, "{what}: {} bytes, {} are due", found.len(), due.len());
}

/// What `run_into` promises, with a buffer of the size. Gives what it wrote.
fn in_buffer(name: &str, script: &[u8], listing: &[u8], size: usize) -> Listing {
    let what = format!("{name} in {size} bytes");
    let before: Vec<u8> = (0..size).map(|n| 128 + (n % 128) as u8).collect();
    let mut out = before.clone();
    let written = run_into(script, &mut out);
    let (text, rest) = out.split_at(written.used);
    assert!(listing.starts_with(text), "{what}");
    assert!(text.is_empty() || text.ends_with(b"\n"), "{what}");
    assert_eq!(rest, &before[written.used..], "{what}");
    assert_eq!(written.ended, text == listing, "{what}");
    assert!(written.ended || size - written.used < 150, "{what}");
    written
}

#[test]
fn listings_of_examples() {
    for (name, script, listing) in examples() {
        same(&name, &run(&script), &listing);
        same(&name, by_calls(&script).as_bytes(), &listing);
        for size in 0..=400 {
            in_buffer(&name, &script, &listing, size);
        }
        assert!(in_buffer(&name, &script, &listing, listing.len() + 150).ended, "{name}");
        assert!(in_buffer(&name, &script, &listing, 1 << 20).ended, "{name}");
    }
}

#[test]
fn short_scripts() {
    same("no byte", &run(&[]), b"");
    assert_eq!(in_buffer("no byte", &[], b"", 0), Listing { used: 0, ended: true });
    for kind in 0..=255 {
        let due = match kind {
            1 | 2 | 4 => 2,
            3 => 21,
            _ => 1,
        };
        same("one byte", &run(&[kind]), format!("0 refused {due}\n").as_bytes());
    }
    for (name, script, _) in examples() {
        for length in 0..script.len() {
            let cut = &script[..length];
            same(&format!("{name} cut at {length}"), &run(cut), by_calls(cut).as_bytes());
        }
    }
}

#[test]
fn longest_scripts() {
    // An accepted read for each byte, without an object and with the longest numbers; a refused read for each byte; empty
    // adds, and the kind of one more; and encounters.
    let mut reads = vec![1, 10, 0, 0, 0, 10, 0, 0, 0, 10, 0, 0, 0, 0, 0, 0, 0, 0, 0, 0, 0];
    let mut of_object = [&[4], &reads[1..], &[255; 4], &[254, 255, 255, 255]].concat();
    let encounters = [&reads[..], &of_object].concat().repeat(65_536 / 50);
    reads.resize(65_536, 3);
    of_object.resize(65_536, 3);
    let empty_adds = [&[2, 0, 0].repeat(21_845)[..], &[2]].concat();
    for script in [reads, of_object, vec![3; 65_536], empty_adds, encounters] {
        let listing = run(&script);
        same("a long script", &listing, by_calls(&script).as_bytes());
        for size in [150, 65_536, listing.len() - 1, listing.len() + 149, listing.len() + 150] {
            in_buffer("a long script", &script, &listing, size);
        }
    }
}

#[test]
fn too_long_a_script() {
    for length in [65_537, 65_538, 1 << 20] {
        let script = vec![3; length];
        same("a script too long", &run(&script), b"0 refused 8\n");
        for size in 0..=400 {
            let written = in_buffer("a script too long", &script, b"0 refused 8\n", size);
            assert_eq!(written.ended, size >= 150, "{size} bytes");
        }
    }
}
