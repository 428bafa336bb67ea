//! Rate limits, by the rules of Sentry's page on rate limiting, and the measure of an envelope.

use curdmesa::{measure, Category, Error, ItemKind, RateLimits};
use std::time::{Duration, UNIX_EPOCH};

const NOW: (u64, u32) = (1595256674, 0);

fn limits(header: &str) -> RateLimits {
    let mut limits = RateLimits::new();
    limits.update(header, NOW).unwrap();
    limits
}

/// For how many seconds each category is limited, of those that are.
fn limited(limits: &RateLimits) -> Vec<(Category, u64)> {
    let now = UNIX_EPOCH + Duration::from_secs(NOW.0);
    let end = |category| Some((category, limits.until(category)?));
    let ends = Category::ALL.iter().copied().filter_map(end);
    ends.map(|(category, end)| (category, end.duration_since(now).unwrap().as_secs()))
        .collect()
}

#[test]
fn headers_limit_categories() {
    let example = "60:transaction:key, 2700:default;error;security:organization";
    let rows: &[(&str, &[(Category, u64)])] = &[
        (
            example,
            &[(Category::Error, 2700), (Category::Transaction, 60)],
        ),
        ("10:error,30:error,20:error", &[(Category::Error, 30)]),
        ("10.2:error", &[(Category::Error, 11)]),
        (
            " 9 : replay ; unheard_of : key : why : more ,, ",
            &[(Category::Replay, 9)],
        ),
        ("x:span", &[(Category::Span, 60)]),
        ("2700:metric_bucket:organization:quota_exceeded:custom", &[]),
        ("", &[]),
    ];
    for (header, due) in rows {
        assert_eq!(limited(&limits(header)), *due, "{header}");
    }
    for header in ["60::organization", "60", "60: "] {
        let all: Vec<_> = Category::ALL.iter().map(|each| (*each, 60)).collect();
        assert_eq!(limited(&limits(header)), all, "{header}");
    }
}

#[test]
fn item_types_are_limited() {
    let limits = limits("7:log_byte, 5:log_item, 3:session");
    let limited = |word, secs| {
        limits
            .is_item_limited(word, (NOW.0 + secs, 999_999_999))
            .unwrap()
    };
    assert!(limited("log", 6) && !limited("log", 7));
    assert!(limited("sessions", 2) && !limited("sessions", 3));
    assert!(!limited("client_report", 0) && !limited("profile", 0));
    assert_eq!(limits.item_until("profile"), None);
    assert_eq!(limits.until(Category::Span), None);
}

#[test]
fn a_retry_limits_all() {
    let mut limits = RateLimits::default();
    limits
        .update_retry_after("Fri, 31 Dec 1999 23:59:59 GMT", NOW)
        .unwrap();
    assert_eq!(
        limits.until(Category::Span),
        Some(UNIX_EPOCH + Duration::from_secs(946_684_799))
    );
    limits.update_retry_after(b"120", NOW).unwrap();
    limits.update_retry_after("", NOW).unwrap();
    assert_eq!(limits.is_item_limited("", (NOW.0 + 119, 0)), Ok(true));
    assert_eq!(
        limits.is_limited(Category::Error, (NOW.0 + 120, 0)),
        Ok(false)
    );
}

#[test]
fn limits_are_kept_over_a_restart() {
    let kept = *limits("60:error").ends();
    assert_eq!(kept[..3], [0, NOW.0 + 60, 0]);
    assert_eq!(RateLimits::from_ends(kept), limits("60:error"));
}

#[test]
fn refusals_change_nothing() {
    let mut limits = limits("60:error");
    let before = limits;
    assert_eq!(limits.update(b"90:error\xff", NOW), Err(Error::NotUtf8));
    assert_eq!(limits.update_retry_after(b"\xff", NOW), Err(Error::NotUtf8));
    assert_eq!(
        limits.update("90:error", (0, 1_000_000_000)),
        Err(Error::NoMoment)
    );
    assert_eq!(
        limits.update("90:error", (253_402_300_800, 0)),
        Err(Error::NoMoment)
    );
    let early = UNIX_EPOCH - Duration::from_secs(1);
    assert_eq!(
        limits.is_limited(Category::Error, early),
        Err(Error::NoMoment)
    );
    assert_eq!(limits, before);
}

#[test]
fn envelopes_are_measured() {
    let bytes = b"{}\n{\"type\":\"event\"}\n{}\n{\"type\":\"profile\"}\n[1.5]\n\
        {\"type\":\"attachment\",\"length\":7}\nhello\n!\n{\"type\":\"attachment\"}\nab";
    let measured = measure(bytes).unwrap();
    let row = |kind| (measured.items(kind), measured.bytes(kind));
    assert_eq!(row(Some(ItemKind::Event)), (1, 2));
    assert_eq!(row(Some(ItemKind::Attachment)), (2, 9));
    assert_eq!(row(Some(ItemKind::Transaction)), (0, 0));
    assert_eq!(row(None), (1, 5));
    assert_eq!(measured.longest, 7);
    assert_eq!(measure(b"{}").unwrap().longest, 0);
    assert_eq!(measure(b"[]"), Err(Error::InvalidHeader));
    assert_eq!(measure(&bytes[..40]), Err(Error::InvalidItemHeader));
}
