//! Envelopes, items and events that are made.

use curdmesa::{
    any_frames, append_item, check, json_text, make_envelope, normalize, Error, NewEvent,
};

const NOW: (u64, u32) = (1_700_000_000, 0);

fn found(bytes: &[u8]) -> Vec<(String, Vec<u8>)> {
    let frame = any_frames(bytes).map(|frame| frame.unwrap());
    frame
        .map(|frame| (frame.word.to_string(), frame.payload.to_vec()))
        .collect()
}

#[test]
fn items_are_framed_as_given() {
    let items: [(&[u8], &[u8]); 4] = [
        (b"{\"type\":\"attachment\"}", b"two\nlines\n"),
        (b"{\"type\":\"attachment\",\"length\":2}", b"ab"),
        (b"{ \"type\":\"pro\\u0066ile\",\n\"x\":1.5 }", b""),
        (b"{\"type\":\"attachment\",\"filename\":\"}\"}", b"\xff\0"),
    ];
    let made = make_envelope(b"{}", &items).unwrap();
    let words = ["attachment", "attachment", "profile", "attachment"];
    let due: Vec<_> = words
        .iter()
        .zip(items)
        .map(|(word, item)| (word.to_string(), item.1.to_vec()))
        .collect();
    assert_eq!(found(&made), due);
    // One after another gives the same.
    let appended = items.iter().fold(b"{}".to_vec(), |bytes, item| {
        append_item(&bytes, item.0, item.1).unwrap()
    });
    assert_eq!(appended, made);
    assert_eq!(
        make_envelope(b"{\"dsn\":null}", &[]).unwrap(),
        b"{\"dsn\":null}\n"
    );
}

#[test]
fn an_item_is_appended_behind_each_end() {
    let ends: [(&[u8], &[&str]); 7] = [
        (b"{}", &[]),
        (b"{}\n", &[]),
        (b"{}\n{\"type\":\"x\"}", &[""]),
        (b"{}\n{\"type\":\"x\"}\n", &[""]),
        (b"{}\n{\"type\":\"x\"}\nab", &["ab"]),
        (b"{}\n{\"type\":\"x\"}\nab\n", &["ab"]),
        (b"{}\n{\"type\":\"x\",\"length\":3}\nab\n", &["ab\n"]),
    ];
    for (bytes, payloads) in ends {
        let longer = append_item(bytes, b"{\"type\":\"y\"}", b"1\n").unwrap();
        assert!(longer.starts_with(bytes));
        let mut due: Vec<_> = payloads
            .iter()
            .map(|payload| ("x".to_string(), payload.as_bytes().to_vec()))
            .collect();
        due.push(("y".to_string(), b"1\n".to_vec()));
        assert_eq!(found(&longer), due);
    }
}

#[test]
fn what_is_no_item_is_refused() {
    let item: (&[u8], &[u8]) = (b"{\"type\":\"x\"}", b"ab");
    for line in [&b""[..], b"[]", b"{}\n", b"{\n}", b"{} {}"] {
        assert_eq!(make_envelope(line, &[item]), Err(Error::InvalidHeader));
    }
    let headers: [&[u8]; 9] = [
        b"",
        b"[]",
        b"{}",
        b" {\"type\":\"x\"}",
        b"{\"type\":\"x\"}\n",
        b"{\"type\":1}",
        b"{\"type\":\"x\",\"length\":3}",
        b"{\"type\":\"x\",\"length\":null}",
        b"{\"type\":\"x\",\"length\":2.0}",
    ];
    for header in headers {
        let refused = make_envelope(b"{}", &[item, (header, b"ab")]);
        assert_eq!(refused, Err(Error::InvalidItemHeader));
        assert_eq!(
            append_item(b"{}", header, b"ab"),
            Err(Error::InvalidItemHeader)
        );
    }
    let cut = b"{}\n{\"type\":\"x\",\"length\":9}\nab";
    assert_eq!(append_item(cut, item.0, item.1), Err(Error::UnexpectedEof));
}

#[test]
fn texts_are_escaped() {
    let rows = [
        ("", "\"\""),
        ("a\"b\\c\n\u{1f}", "\"a\\\"b\\\\c\\n\\u001f\""),
        ("é\u{1f600}/", "\"é\u{1f600}/\""),
    ];
    for (given, json) in rows {
        assert_eq!(json_text(given).unwrap(), json);
    }
    let long = "\0".repeat(1000);
    assert_eq!(json_text(&long).unwrap().len(), 6002);
}

#[test]
fn an_event_has_its_fields() {
    let event = NewEvent {
        level: "warning",
        message: "a \"quoted\" line\n",
        release: "app@1.0",
        environment: "production",
        tags: &[("b", "2"), ("a", "1"), ("b", "3")],
    };
    let envelope = event.to_envelope(NOW, 7).unwrap();
    assert_eq!(check(&envelope, NOW), Ok(()));
    assert_eq!(normalize(&envelope, NOW, 8).unwrap(), envelope);
    let frames = found(&envelope);
    assert_eq!((frames.len(), &frames[0].0[..]), (1, "event"));
    let payload = String::from_utf8(frames[0].1.clone()).unwrap();
    for member in [
        "\"level\":\"warning\"",
        "\"message\":\"a \\\"quoted\\\" line\\n\"",
        "\"release\":\"app@1.0\"",
        "\"environment\":\"production\"",
        "\"tags\":{\"a\":\"1\",\"b\":\"3\"}",
        "\"timestamp\":1700000000",
    ] {
        assert!(payload.contains(member), "{payload}: {member}");
    }
    let bare = NewEvent::default().to_envelope(NOW, 7).unwrap();
    let payload = String::from_utf8(found(&bare)[0].1.clone()).unwrap();
    for key in ["message", "release", "environment", "tags"] {
        assert!(!payload.contains(key), "{payload}: {key}");
    }
    let graver = NewEvent {
        level: "grave",
        ..event
    };
    assert_eq!(graver.to_envelope(NOW, 7), Err(Error::InvalidItemPayload));
    assert_eq!(event.to_envelope((u64::MAX, 0), 7), Err(Error::NoMoment));
}
