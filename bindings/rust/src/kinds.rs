//! Item types, data categories and discard reasons.

use crate::error::Error;
use std::fmt;
use std::str::FromStr;

/// Defines an enumeration of words, numbered from 0 on as in `curdmesa.h`.
macro_rules! words {
    ($(#[$doc:meta])* $name:ident { $($(#[$variant_doc:meta])* $variant:ident = $word:literal,)* }) => {
        $(#[$doc])*
        #[derive(Clone, Copy, Debug, PartialEq, Eq, PartialOrd, Ord, Hash)]
        #[repr(u32)]
        pub enum $name {
            $($(#[$variant_doc])* $variant,)*
        }

        impl $name {
            /// All variants, by their number.
            pub const ALL: &'static [$name] = &[$($name::$variant,)*];

            /// Returns the word in JSON.
            pub fn as_str(self) -> &'static str {
                match self {
                    $($name::$variant => $word,)*
                }
            }
        }

        /// Prints the word in JSON.
        impl fmt::Display for $name {
            fn fmt(&self, f: &mut fmt::Formatter<'_>) -> fmt::Result {
                f.pad(self.as_str())
            }
        }

        /// Parses the word in JSON.
        impl FromStr for $name {
            type Err = Error;

            /// Fails with [`Error::InvalidText`] for another word.
            fn from_str(word: &str) -> Result<$name, Error> {
                let found = $name::ALL.iter().find(|each| each.as_str() == word);
                found.copied().ok_or(Error::InvalidText)
            }
        }

        /// Converts the number of `curdmesa.h`.
        impl TryFrom<u32> for $name {
            type Error = Error;

            /// Fails with [`Error::InvalidArgument`] for a number that no variant has.
            fn try_from(number: u32) -> Result<$name, Error> {
                let found = $name::ALL.get(number as usize);
                found.copied().ok_or(Error::InvalidArgument)
            }
        }
    };
}

words! {
    /// An item type.
    ItemKind {
        /// An event.
        Event = "event",
        /// An update of a session.
        Session = "session",
        /// Counts of sessions.
        Sessions = "sessions",
        /// A transaction.
        Transaction = "transaction",
        /// An attachment.
        Attachment = "attachment",
        /// A check-in of a monitor.
        CheckIn = "check_in",
        /// A user's report on an event.
        UserReport = "user_report",
        /// A recording of a replay.
        ReplayRecording = "replay_recording",
        /// Logs.
        Log = "log",
        /// Metrics.
        TraceMetric = "trace_metric",
        /// A client report.
        ClientReport = "client_report",
    }
}

words! {
    /// A data category of client reports.
    Category {
        /// Events.
        Error = "error",
        /// Sessions.
        Session = "session",
        /// Transactions.
        Transaction = "transaction",
        /// Spans.
        Span = "span",
        /// Bytes of attachments.
        Attachment = "attachment",
        /// Check-ins.
        Monitor = "monitor",
        /// Logs.
        LogItem = "log_item",
        /// Bytes of logs.
        LogByte = "log_byte",
        /// Metrics.
        TraceMetric = "trace_metric",
        /// Bytes of metrics.
        TraceMetricByte = "trace_metric_byte",
        /// User reports.
        Feedback = "feedback",
        /// Recordings of replays.
        Replay = "replay",
    }
}

words! {
    /// A discard reason of client reports.
    Reason {
        /// Sending failed.
        SendError = "send_error",
        /// An error inside the SDK.
        InternalSdkError = "internal_sdk_error",
        /// A network error.
        NetworkError = "network_error",
        /// A rate limit of the server.
        RatelimitBackoff = "ratelimit_backoff",
        /// A full queue.
        QueueOverflow = "queue_overflow",
        /// A full buffer.
        BufferOverflow = "buffer_overflow",
        /// An event processor.
        EventProcessor = "event_processor",
        /// A `before_send` hook.
        BeforeSend = "before_send",
        /// Sampling.
        SampleRate = "sample_rate",
    }
}

#[cfg(test)]
mod tests {
    use super::*;
    use crate::output::text;
    use crate::sys;

    type Word = unsafe extern "C" fn(u32, *mut u8, usize, *mut u64) -> i32;
    type OfWord = unsafe extern "C" fn(*const u8, usize, *mut u32) -> i32;

    /// Asks the library for the word of each number, and for the number of that word.
    fn words(due: &[&str], word: Word, of_word: OfWord) {
        for (at, due) in due.iter().enumerate() {
            // SAFETY: the pointers are a slice's, with its length, and a reference's.
            let found = text(1, |out, needed| unsafe {
                word(at as u32, out.as_mut_ptr(), out.len(), needed)
            });
            assert_eq!(found.unwrap(), due.as_bytes());
            let mut number = 99;
            // SAFETY: as before.
            let status = unsafe { of_word(due.as_ptr(), due.len(), &mut number) };
            assert_eq!((status, number), (0, at as u32));
        }
        // SAFETY: as before.
        let past = text(99, |out, needed| unsafe {
            word(due.len() as u32, out.as_mut_ptr(), out.len(), needed)
        });
        assert_eq!(past, Err(Error::InvalidArgument));
    }

    #[test]
    fn words_are_the_librarys() {
        let kinds: Vec<_> = ItemKind::ALL.iter().map(|kind| kind.as_str()).collect();
        words(&kinds, sys::curdmesa_item_word, sys::curdmesa_item_of_word);
        let categories: Vec<_> = Category::ALL.iter().map(|it| it.as_str()).collect();
        let of_word = sys::curdmesa_category_of_word;
        words(&categories, sys::curdmesa_category_word, of_word);
        let reasons: Vec<_> = Reason::ALL.iter().map(|it| it.as_str()).collect();
        words(
            &reasons,
            sys::curdmesa_reason_word,
            sys::curdmesa_reason_of_word,
        );
    }
}
