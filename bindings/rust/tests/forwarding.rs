//! Items of any type: what is forwarded, what is lost, and the ledger that holds it.

use curdmesa::{
    any_frames, forward, losses, AnyFrame, Auth, Category, Dsn, Error, Forwarded, ItemKind, Ledger,
    Loss, Losses, Moment, Reason,
};

const EVENT: &str = "{\"type\":\"event\"}\n{\"timestamp\":1.5}\n";
/// A type that no list has, and a float.
const PROFILE: &str = " {\"type\":\"pro\\u0066ile\",\n\"sample\":1.5}\n[0.5]\n";
const ATTACHMENT: &str = "{\"type\":\"attachment\"}\nab";

fn envelope(items: &[&str]) -> Vec<u8> {
    format!("{{\"x\":1.5}}\n{}", items.concat()).into_bytes()
}

fn found(bytes: &[u8]) -> Vec<AnyFrame<'_>> {
    any_frames(bytes).collect::<Result<_, Error>>().unwrap()
}

fn listed(losses: &Losses) -> Vec<(Category, Option<Reason>, u64)> {
    let each = |loss: Loss| (loss.category, loss.reason, loss.quantity);
    losses.iter().map(each).collect()
}

#[test]
fn frames_have_any_type() {
    let bytes = envelope(&[PROFILE, EVENT, ATTACHMENT]);
    let frames = found(&bytes);
    let words: Vec<_> = frames.iter().map(|frame| &frame.word[..]).collect();
    assert_eq!(words, ["profile", "event", "attachment"]);
    let kinds: Vec<_> = frames.iter().map(|frame| frame.kind).collect();
    let due = [None, Some(ItemKind::Event), Some(ItemKind::Attachment)];
    assert_eq!(kinds, due);
    // Items stand side by side, from the header line to the end.
    let mut start = bytes.iter().position(|byte| *byte == b'\n').unwrap() + 1;
    for (frame, item) in frames.iter().zip([PROFILE, EVENT, ATTACHMENT]) {
        assert_eq!(frame.start, start);
        assert_eq!(&bytes[frame.start..frame.end], item.as_bytes());
        assert!(bytes[frame.header_start..].starts_with(frame.header));
        assert!(bytes[frame.payload_start..].starts_with(frame.payload));
        start = frame.end;
    }
    assert_eq!(start, bytes.len());
    assert_eq!(frames[0].payload, b"[0.5]");
    assert_eq!(frames[2].payload, b"ab");
}

#[test]
fn words_have_any_length() {
    for word in [
        String::new(),
        "a".repeat(64),
        "é".repeat(300),
        "Event".into(),
    ] {
        let bytes = envelope(&[&format!("{{\"type\":\"{word}\"}}\n")]);
        let frames = found(&bytes);
        assert_eq!(frames.len(), 1);
        assert_eq!((&frames[0].word[..], frames[0].kind), (&word[..], None));
    }
}

#[test]
fn faults_end_the_frames() {
    let rows = [
        (&b""[..], Error::InvalidHeader),
        (b"[]", Error::InvalidHeader),
        (b"{}\n \n", Error::UnexpectedEof),
        (
            b"{}\n{\"type\":\"x\",\"length\":3}\nab",
            Error::UnexpectedEof,
        ),
        (
            b"{}\n{\"type\":\"x\",\"length\":1}\nab",
            Error::MissingNewline,
        ),
        (b"{}\n{\"type\":1}\n", Error::InvalidItemHeader),
    ];
    for (bytes, due) in rows {
        let mut frames = any_frames(bytes);
        assert_eq!(frames.next(), Some(Err(due)));
        assert_eq!(frames.next(), None);
        let kept = forward(bytes, false, |_| panic!("asked about {bytes:?}"));
        assert_eq!(kept, Err(due));
        assert_eq!(losses(bytes), Err(due));
    }
    let bytes = b"{}\n{\"type\":\"x\"}\na\n{\"type\":null}\nb";
    let mut frames = any_frames(bytes);
    assert_eq!(frames.next().unwrap().unwrap().payload, b"a");
    let behind = frames.offset();
    assert_eq!(frames.next(), Some(Err(Error::InvalidItemHeader)));
    assert_eq!((frames.offset(), frames.next()), (behind, None));
    assert!(bytes[behind..].starts_with(b"{\"type\":null}"));
}

#[test]
fn what_is_kept_stays_byte_for_byte() {
    let bytes = envelope(&[PROFILE, EVENT, ATTACHMENT]);
    let everything = Forwarded {
        envelope: Some(bytes.clone()),
        losses: Losses::default(),
    };
    assert_eq!(forward(&bytes, false, |_| true), Ok(everything));
    let mut asked = Vec::new();
    let nothing = forward(&bytes, false, |frame| {
        asked.push(frame.word.clone().into_owned());
        false
    });
    let nothing = nothing.unwrap();
    assert_eq!(asked, ["profile", "event", "attachment"]);
    assert_eq!(nothing.envelope, None);
    let due = [(Category::Error, None, 1), (Category::Attachment, None, 2)];
    assert_eq!(listed(&nothing.losses), due);
    let left = forward(&bytes, false, |frame| frame.kind.is_some()).unwrap();
    assert_eq!(left.envelope, Some(envelope(&[EVENT, ATTACHMENT])));
    assert_eq!(listed(&left.losses), []);
}

#[test]
fn attachments_follow_where_asked_to() {
    let bytes = envelope(&[EVENT, ATTACHMENT]);
    let not_event = |frame: &AnyFrame<'_>| frame.kind != Some(ItemKind::Event);
    let left = forward(&bytes, false, not_event).unwrap();
    assert_eq!(left.envelope, Some(envelope(&[ATTACHMENT])));
    assert_eq!(listed(&left.losses), [(Category::Error, None, 1)]);
    let left = forward(&bytes, true, not_event).unwrap();
    assert_eq!(left.envelope, None);
    assert_eq!(left.losses, losses(&bytes).unwrap());
}

#[test]
fn losses_are_those_of_each_item() {
    let report = "{\"type\":\"client_report\"}\n{\"discarded_events\":[{\"category\":\"span\",\
                  \"quantity\":3,\"reason\":\"before_send\"}],\"timestamp\":0}\n";
    let bytes = envelope(&[report, EVENT, PROFILE, ATTACHMENT]);
    let due = [
        (Category::Error, None, 1),
        (Category::Span, Some(Reason::BeforeSend), 3),
        (Category::Attachment, None, 2),
    ];
    assert_eq!(listed(&losses(&bytes).unwrap()), due);
    let each: Vec<_> = found(&bytes)
        .iter()
        .map(|frame| listed(&frame.losses().unwrap()))
        .collect();
    let due = [vec![due[1]], vec![due[0]], vec![], vec![due[2]]];
    assert_eq!(each, due);
}

#[test]
fn a_ledger_records_losses() {
    let mut ledger = Ledger::new();
    let lost = losses(&envelope(&[EVENT, ATTACHMENT])).unwrap();
    assert_eq!(ledger.record_losses(&lost, Reason::QueueOverflow), 0);
    assert_eq!(ledger.record_losses(&lost, Reason::QueueOverflow), 0);
    assert_eq!(ledger.held(Category::Error, Reason::QueueOverflow), 2);
    assert_eq!(ledger.held(Category::Attachment, Reason::QueueOverflow), 4);
    let most = u64::MAX - 4;
    let full = ledger.record(Category::Attachment, Reason::QueueOverflow, most);
    assert_eq!(full, Ok(()));
    assert_eq!(ledger.record_losses(&lost, Reason::QueueOverflow), 1);
    assert_eq!(ledger.held(Category::Error, Reason::QueueOverflow), 3);
    let held = ledger.held(Category::Attachment, Reason::QueueOverflow);
    assert_eq!(held, u64::MAX);
}

#[test]
fn a_report_is_put_back() {
    let mut ledger = Ledger::new();
    for (at, category) in Category::ALL.iter().enumerate() {
        let reason = Reason::ALL[at % Reason::ALL.len()];
        ledger.record(*category, reason, at as u64 + 1).unwrap();
    }
    let held = ledger.clone();
    let report = ledger.flush((1, 0)).unwrap().unwrap();
    assert_eq!(ledger, Ledger::new());
    assert_eq!(ledger.record_envelope(&report, Reason::NetworkError), Ok(0));
    assert_eq!(ledger, held);
    assert_eq!(Ledger::from_sums(*held.sums()), held);
    assert_eq!(held.sums()[9 * Category::Span as usize + 3], 4);
}

#[test]
fn a_report_is_one_more_item() {
    let mut ledger = Ledger::new();
    ledger
        .record(Category::Span, Reason::SampleRate, 2)
        .unwrap();
    let held = ledger.clone();
    let item = ledger.flush_item((1595256674, 0)).unwrap().unwrap();
    assert_eq!(ledger.flush_item((1595256674, 0)), Ok(None));
    let due = "{\"length\":101,\"type\":\"client_report\"}\n\
        {\"discarded_events\":[{\"category\":\"span\",\"quantity\":2,\
        \"reason\":\"sample_rate\"}],\"timestamp\":1595256674}\n";
    assert_eq!(String::from_utf8_lossy(&item), due);
    let whole = [b"{}\n{\"type\":\"feedback\"}\n\n", &item[..]].concat();
    assert_eq!(
        ledger.record_envelope(b"{", Reason::SendError),
        Err(Error::InvalidHeader)
    );
    assert_eq!(ledger.record_envelope(&whole, Reason::SendError), Ok(0));
    assert_eq!(ledger.held(Category::Feedback, Reason::SendError), 1);
    assert_eq!(
        ledger.held(Category::Span, Reason::SampleRate),
        held.held(Category::Span, Reason::SampleRate)
    );
}

#[test]
fn a_ledger_is_kept_as_bytes() {
    let mut ledger = Ledger::new();
    ledger
        .record(
            Category::Error,
            Reason::InternalSdkError,
            0x0102_0304_0506_0708,
        )
        .unwrap();
    let bytes = ledger.to_bytes().unwrap();
    let mut due = b"curdmesa ledger 1\n".to_vec();
    due.resize(18 + 8 * 108, 0);
    due[26..34].copy_from_slice(&[8, 7, 6, 5, 4, 3, 2, 1]);
    assert_eq!(bytes, due);
    assert_eq!(Ledger::from_bytes(&bytes), Ok(ledger));
    assert_eq!(Ledger::from_bytes(&bytes[1..]), Err(Error::InvalidText));
    due[16] = b'2';
    assert_eq!(Ledger::from_bytes(&due), Err(Error::InvalidText));
}

#[test]
fn a_client_has_a_url_and_a_header() {
    let dsn = Dsn::parse("http://username@domain:8888/pathone/42").unwrap();
    let url = "http://domain:8888/pathone/api/42/envelope/";
    assert_eq!(dsn.envelope_url().unwrap(), url);
    let auth = dsn.auth((1, 500_000_000), "my-client/1.0").unwrap();
    let auth = Auth::parse(auth).unwrap();
    assert_eq!(auth.public_key(), "username");
    assert_eq!(auth.client_agent(), Some("my-client/1.0"));
    let moment = Moment {
        secs: 1,
        nanos: 500_000_000,
    };
    assert_eq!((auth.timestamp(), auth.version()), (Some(moment), 7));
    let auth = Auth::parse(dsn.auth((1, 0), "").unwrap()).unwrap();
    assert_eq!(auth.client_agent(), None);
    assert_eq!(dsn.auth((0, 1_000_000_000), ""), Err(Error::NoMoment));
}

#[test]
fn a_query_has_authentication() {
    let query = "x=1&sentry_key=a%20b&sentry_version=6.1&sentry_client=c%2F1";
    let auth = Auth::from_query(query).unwrap();
    let due = "Sentry sentry_key=a b, sentry_version=6, sentry_client=c/1";
    assert_eq!(auth.as_str(), due);
    let refused = |query| Auth::from_query(query).unwrap_err();
    assert_eq!(refused("sentry_secret=a"), Error::AuthMissingPublicKey);
    let wrong = "sentry_key=a&sentry_version=x";
    assert_eq!(refused(wrong), Error::AuthInvalidVersion);
}
