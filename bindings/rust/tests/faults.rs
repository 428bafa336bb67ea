//! Why envelopes are refused, and their repairs.

use curdmesa::{
    check, explain, mend, normalize, show_json, Cause, Error, MendRules, Misfit, Refusal, Repair,
    Repairs,
};

const NOW: (u64, u32) = (1_700_000_000, 0);
const TIMESTAMP: &[u8] = b"{}\n{\"type\":\"event\",\"length\":63}\n{\"timestamp\":1.5,\
    \"event_id\":\"9ec79c33ec9942ab8353589fcb2e04dc\"}";

fn refused(bytes: &[u8]) -> Refusal {
    let refusal = explain(bytes, NOW).unwrap().unwrap();
    assert_eq!(check(bytes, NOW), Err(refusal.error));
    refusal
}

fn rules(repairs: Repairs) -> MendRules {
    MendRules {
        repairs,
        ..MendRules::default()
    }
}

#[test]
fn a_value_that_does_not_fit() {
    let bytes = b"{}\n{\"type\":\"event\"}\n{\"exception\":{\"values\":[{\"type\":7}]}}";
    let refusal = refused(bytes);
    assert_eq!(refusal.error, Error::InvalidItemPayload);
    let fault = &refusal.faults[0];
    assert_eq!((fault.item, &fault.word[..]), (Some(0), "event"));
    assert_eq!((fault.start, fault.end), (3, bytes.len()));
    let misfit = Misfit {
        path: "exception.values[0].type".into(),
        start: 52,
        end: 53,
        wanted: "a string".into(),
        found: "integer".into(),
        value: "7".into(),
    };
    assert_eq!(fault.cause, Cause::Misfit(misfit));
    let line =
        "item 0 `event` at bytes 3..57: invalid item payload: `exception.values[0].type` at \
                bytes 52..53: wanted a string, found integer 7";
    assert_eq!(fault.to_string(), line);
    assert_eq!(refusal.to_string(), line);
}

#[test]
fn broken_json() {
    let refusal = refused(b"{}\n{\"type\":\"event\"}\n{\"message\":\"a\" 1}");
    let due = Cause::Syntax {
        at: 35,
        expected: "a comma or the closing bracket".into(),
    };
    assert_eq!(refusal.faults[0].cause, due);
}

#[test]
fn framing_and_header_line() {
    let refusal = refused(b"{}\n{\"type\":\"event\",\"length\":5}\n{}");
    assert_eq!(refusal.error, Error::UnexpectedEof);
    assert_eq!(refusal.faults[0].cause, Cause::Whole);
    let refusal = refused(b"{\"sent_at\":1}\n{\"type\":\"profile\"}\n{}");
    assert_eq!(refusal.error, Error::InvalidHeader);
    let items: Vec<_> = refusal.faults.iter().map(|fault| fault.item).collect();
    assert_eq!(items, [None, Some(0)]);
    assert!(refusal
        .to_string()
        .ends_with("found integer 1 (and 1 more)"));
}

#[test]
fn more_faults_than_rows_at_first() {
    let items = "{\"type\":\"profile\"}\n{}\n".repeat(100);
    let bytes = format!("{{}}\n{items}").into_bytes();
    let refusal = refused(&bytes);
    let items: Vec<_> = refusal
        .faults
        .iter()
        .map(|fault| fault.item.unwrap())
        .collect();
    assert!(items.iter().copied().eq(0..100));
}

#[test]
fn nothing_to_explain() {
    assert_eq!(explain(b"{}", NOW), Ok(None));
    assert_eq!(explain(b"{", (0, 1_000_000_000)), Err(Error::NoMoment));
}

#[test]
fn repairs_and_their_notes() {
    let mended = mend(TIMESTAMP, NOW, 42, MendRules::default()).unwrap();
    let spliced = b"{}\n{\"type\":\"event\",\"length\":84}\n\
        {\"timestamp\":\"1970-01-01T00:00:01.5Z\",\
        \"event_id\":\"9ec79c33ec9942ab8353589fcb2e04dc\"}";
    assert_eq!(mended.envelope, normalize(spliced, NOW, 42).unwrap());
    assert_eq!(mended.error, Some(Error::InvalidItemPayload));
    let notes: Vec<_> = mended
        .notes
        .iter()
        .map(|note| (note.repair, note.start))
        .collect();
    assert_eq!(notes, [(Repair::Length, 28), (Repair::AsMoment, 45)]);
    let note = &mended.notes[1];
    assert_eq!(&TIMESTAMP[note.start..note.end], b"1.5");
    assert_eq!(note.instead, b"\"1970-01-01T00:00:01.5Z\"");
    assert_eq!(
        (note.item, &note.word[..], note.error.unwrap()),
        (0, "event", Error::InvalidItemPayload)
    );
    assert_eq!(note.misfit.path, "timestamp");
    let line = "item 0 `event`: `timestamp` at bytes 45..48: decimal: as an RFC 3339 string";
    assert_eq!(note.to_string(), line);
}

#[test]
fn rules_of_repairs() {
    let mended = mend(TIMESTAMP, NOW, 42, rules(Repairs::Strict)).unwrap();
    assert_eq!(mended.envelope, b"{}\n");
    let left: Vec<_> = mended.notes.iter().map(|note| note.repair).collect();
    assert_eq!(left, [Repair::Left]);
    let bytes = b"{}\n{\"type\":\"event\"}\n{\"level\":\"loud\"}";
    for (repairs, due) in [
        (Repairs::Form, Repair::Left),
        (Repairs::All, Repair::TakenOut),
    ] {
        let mended = mend(bytes, NOW, 42, rules(repairs)).unwrap();
        assert_eq!(mended.notes[0].repair, due);
    }
}

#[test]
fn the_headers_event_id() {
    let bytes =
        b"{\"event_id\":\"9ec79c33-ec99-42ab-8353-589fcb2e04dc\"}\n{\"type\":\"event\"}\n{}";
    let rules = MendRules {
        header_event_id: true,
        ..MendRules::default()
    };
    let mended = mend(bytes, NOW, 42, rules).unwrap();
    assert_eq!(mended.error, None);
    let note = &mended.notes[0];
    assert_eq!(
        (note.repair, note.item, note.error),
        (Repair::HeaderId, 0, None)
    );
    assert_eq!(
        note.instead,
        b"\"event_id\":\"9ec79c33ec9942ab8353589fcb2e04dc\""
    );
    let other = mend(bytes, NOW, 42, MendRules::default()).unwrap();
    assert!(other.notes.is_empty());
}

#[test]
fn more_notes_than_rows_at_first() {
    let tags: Vec<_> = (0..100).map(|at| format!("\"{at}\":{at}.5")).collect();
    let bytes = format!(
        "{{}}\n{{\"type\":\"event\"}}\n{{\"tags\":{{{}}}}}",
        tags.join(",")
    );
    let mended = mend(bytes.as_bytes(), NOW, 42, MendRules::default()).unwrap();
    assert_eq!(mended.notes.len(), 100);
    for (at, note) in mended.notes.iter().enumerate() {
        assert_eq!(note.instead, format!("\"{at}.5\"").into_bytes());
    }
}

#[test]
fn nothing_to_mend() {
    let mended = mend(b"{}", NOW, 42, MendRules::default()).unwrap();
    assert_eq!((&mended.envelope[..], mended.error), (&b"{}\n"[..], None));
    assert!(mended.notes.is_empty());
    assert_eq!(
        mend(b"[]", NOW, 42, MendRules::default()),
        Err(Error::InvalidHeader)
    );
    assert_eq!(
        mend(b"{}", (0, 1_000_000_000), 42, MendRules::default()),
        Err(Error::NoMoment)
    );
}

#[test]
fn what_is_shown() {
    let bytes = b"{}\n{\"type\":\"attachment\"}\nhelloworld";
    let due = r#"{"bytes":35,"accepted":true,"items":[{"type":"attachment","accepted":true,"start":3,"#
        .to_string()
        + r#""length":32,"header_start":3,"header_length":21,"payload_start":25,"#
        + r#""payload_length":10}],"unread":null,"error":null,"faults":[],"header_length":3,"#
        + r#""header":{},"losses":{"attachment":10},"events":[],"transactions":[]}"#;
    assert_eq!(show_json(bytes), Ok(due));
    let events = "{\"type\":\"event\"}\n{\"timestamp\":1.5}\n".repeat(100);
    let shown = show_json(format!("{{}}\n{events}").as_bytes()).unwrap();
    assert!(shown.starts_with("{\"bytes\":3503,\"accepted\":false,"));
    assert_eq!(shown.matches("\"path\":\"timestamp\"").count(), 100);
}
