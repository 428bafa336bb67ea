//! The functions of `curdmesa.h`, as they are declared there.
//!
//! What the header asks of a caller holds in every call of this crate: a reference or the pointer
//! of a slice is never null and is aligned, a slice has at most `isize::MAX` bytes, what a call
//! writes is borrowed mutably and so overlaps nothing else, and buffers and structs are zero before
//! they are handed in.

/// A place in a text: `length` bytes from byte `offset` on.
#[derive(Clone, Copy, Default)]
#[repr(C)]
pub struct CurdmesaPlace {
    pub offset: u64,
    pub length: u64,
}

/// An item, as places in the bytes of its envelope.
#[derive(Clone, Copy, Default)]
#[repr(C)]
pub struct CurdmesaFrame {
    pub header_offset: u64,
    pub header_length: u64,
    pub payload_offset: u64,
    pub payload_length: u64,
    pub kind: u32,
}

/// An item of any type, as places in the bytes of its envelope.
#[derive(Clone, Copy, Default)]
#[repr(C)]
pub struct CurdmesaAnyFrame {
    pub item_offset: u64,
    pub item_length: u64,
    pub header_offset: u64,
    pub header_length: u64,
    pub payload_offset: u64,
    pub payload_length: u64,
    pub kind: u32,
}

/// The parts of a DSN.
#[derive(Clone, Copy, Default)]
#[repr(C)]
pub struct CurdmesaDsn {
    pub public_key: CurdmesaPlace,
    pub secret_key: CurdmesaPlace,
    pub host: CurdmesaPlace,
    pub path: CurdmesaPlace,
    pub project_id: CurdmesaPlace,
    pub org_id: u64,
    pub port: u32,
    pub is_https: u32,
    pub has_org_id: u32,
}

/// The parts of client authentication.
#[derive(Clone, Copy, Default)]
#[repr(C)]
pub struct CurdmesaAuth {
    pub public_key: CurdmesaPlace,
    pub secret_key: CurdmesaPlace,
    pub client: CurdmesaPlace,
    pub timestamp_secs: u64,
    pub timestamp_nanos: u32,
    pub version: u32,
    pub has_secret_key: u32,
    pub has_client: u32,
    pub has_timestamp: u32,
}

/// The dynamic sampling context of a trace.
#[derive(Clone, Copy, Default)]
#[repr(C)]
pub struct CurdmesaTrace {
    pub trace_id: CurdmesaPlace,
    pub public_key: CurdmesaPlace,
    pub release: CurdmesaPlace,
    pub environment: CurdmesaPlace,
    pub transaction: CurdmesaPlace,
    pub sample_rate: u64,
    pub sample_rand: u64,
    pub org_id: u64,
    pub sampled: u32,
    pub has_trace_id: u32,
    pub has_public_key: u32,
    pub has_release: u32,
    pub has_environment: u32,
    pub has_transaction: u32,
    pub has_sample_rate: u32,
    pub has_sample_rand: u32,
    pub has_org_id: u32,
    pub has_sampled: u32,
}

/// The members of an envelope's header line.
#[derive(Clone, Copy, Default)]
#[repr(C)]
pub struct CurdmesaHeader {
    pub event_id: CurdmesaPlace,
    pub dsn: CurdmesaPlace,
    pub sdk_name: CurdmesaPlace,
    pub sdk_version: CurdmesaPlace,
    pub trace: CurdmesaTrace,
    pub sent_at_secs: u64,
    pub sent_at_nanos: u32,
    pub has_event_id: u32,
    pub has_dsn: u32,
    pub has_sdk: u32,
    pub has_sent_at: u32,
    pub has_trace: u32,
}

/// A value that doesn't fit.
#[derive(Clone, Copy, Default)]
#[repr(C)]
pub struct CurdmesaMisfit {
    pub start: u64,
    pub end: u64,
    pub path: CurdmesaPlace,
    pub wanted: CurdmesaPlace,
    pub found: CurdmesaPlace,
    pub value: CurdmesaPlace,
}

/// A fault of an envelope.
#[derive(Clone, Copy, Default)]
#[repr(C)]
pub struct CurdmesaFault {
    pub item: u64,
    pub start: u64,
    pub end: u64,
    pub misfit: CurdmesaMisfit,
    pub word: CurdmesaPlace,
    pub message: CurdmesaPlace,
    pub error: i32,
    pub cause: u32,
}

/// A change of an envelope.
#[derive(Clone, Copy, Default)]
#[repr(C)]
pub struct CurdmesaNote {
    pub item: u64,
    pub start: u64,
    pub end: u64,
    pub misfit: CurdmesaMisfit,
    pub instead: CurdmesaPlace,
    pub word: CurdmesaPlace,
    pub message: CurdmesaPlace,
    pub error: i32,
    pub repair: u32,
}

/// The lengths of two texts that stand one after the other.
#[derive(Clone, Copy, Default)]
#[repr(C)]
pub struct CurdmesaPair {
    pub first: u64,
    pub second: u64,
}

/// A function that reads client authentication.
pub type AuthCall = unsafe extern "C" fn(
    text: *const u8,
    text_len: usize,
    out: *mut u8,
    out_len: usize,
    needed: *mut u64,
    auth: *mut CurdmesaAuth,
) -> i32;

/// A function that moves the losses of a ledger into a client report.
pub type FlushCall = unsafe extern "C" fn(
    ledger: *mut u64,
    ledger_len: usize,
    now_secs: u64,
    now_nanos: u32,
    out: *mut u8,
    out_len: usize,
    needed: *mut u64,
) -> i32;

extern "C" {
    pub fn curdmesa_status_text(status: i32, out: *mut u8, out_len: usize, needed: *mut u64)
        -> i32;

    pub fn curdmesa_version() -> u32;

    pub fn curdmesa_envelope_normalize(
        bytes: *const u8,
        bytes_len: usize,
        now_secs: u64,
        now_nanos: u32,
        seed: u64,
        out: *mut u8,
        out_len: usize,
        needed: *mut u64,
    ) -> i32;

    pub fn curdmesa_envelope_check(
        bytes: *const u8,
        bytes_len: usize,
        now_secs: u64,
        now_nanos: u32,
    ) -> i32;

    pub fn curdmesa_envelope_filter(
        bytes: *const u8,
        bytes_len: usize,
        now_secs: u64,
        now_nanos: u32,
        seed: u64,
        kinds: u32,
        keep: bool,
        keep_headers: bool,
        out: *mut u8,
        out_len: usize,
        needed: *mut u64,
        losses: *mut u64,
        losses_len: usize,
    ) -> i32;

    pub fn curdmesa_frames_next(
        bytes: *const u8,
        bytes_len: usize,
        offset: *mut u64,
        frame: *mut CurdmesaFrame,
    ) -> i32;

    pub fn curdmesa_any_frames_next(
        bytes: *const u8,
        bytes_len: usize,
        offset: *mut u64,
        frame: *mut CurdmesaAnyFrame,
        out: *mut u8,
        out_len: usize,
        needed: *mut u64,
    ) -> i32;

    pub fn curdmesa_envelope_forward(
        bytes: *const u8,
        bytes_len: usize,
        keep: *const u8,
        keep_len: usize,
        attachments_follow: bool,
        out: *mut u8,
        out_len: usize,
        needed: *mut u64,
        losses: *mut u64,
        losses_len: usize,
    ) -> i32;

    pub fn curdmesa_envelope_losses(
        bytes: *const u8,
        bytes_len: usize,
        losses: *mut u64,
        losses_len: usize,
    ) -> i32;

    pub fn curdmesa_frame_losses(
        header: *const u8,
        header_len: usize,
        payload: *const u8,
        payload_len: usize,
        losses: *mut u64,
        losses_len: usize,
    ) -> i32;

    pub fn curdmesa_envelope_explain(
        bytes: *const u8,
        bytes_len: usize,
        now_secs: u64,
        now_nanos: u32,
        faults: *mut CurdmesaFault,
        faults_len: usize,
        count: *mut u64,
        error: *mut i32,
        out: *mut u8,
        out_len: usize,
        needed: *mut u64,
    ) -> i32;

    pub fn curdmesa_envelope_show_json(
        bytes: *const u8,
        bytes_len: usize,
        out: *mut u8,
        out_len: usize,
        needed: *mut u64,
    ) -> i32;

    pub fn curdmesa_envelope_mend(
        bytes: *const u8,
        bytes_len: usize,
        now_secs: u64,
        now_nanos: u32,
        seed: u64,
        repairs: u32,
        header_event_id: bool,
        notes: *mut CurdmesaNote,
        notes_len: usize,
        count: *mut u64,
        error: *mut i32,
        envelope_len: *mut u64,
        out: *mut u8,
        out_len: usize,
        needed: *mut u64,
    ) -> i32;

    pub fn curdmesa_envelope_make(
        header: *const u8,
        header_len: usize,
        texts: *const u8,
        texts_len: usize,
        lengths: *const CurdmesaPair,
        lengths_len: usize,
        out: *mut u8,
        out_len: usize,
        needed: *mut u64,
    ) -> i32;

    pub fn curdmesa_envelope_append(
        bytes: *const u8,
        bytes_len: usize,
        header: *const u8,
        header_len: usize,
        payload: *const u8,
        payload_len: usize,
        out: *mut u8,
        out_len: usize,
        needed: *mut u64,
    ) -> i32;

    pub fn curdmesa_event_make(
        level: *const u8,
        level_len: usize,
        message: *const u8,
        message_len: usize,
        release: *const u8,
        release_len: usize,
        environment: *const u8,
        environment_len: usize,
        tags: *const u8,
        tags_len: usize,
        tag_lengths: *const CurdmesaPair,
        tag_lengths_len: usize,
        now_secs: u64,
        now_nanos: u32,
        seed: u64,
        out: *mut u8,
        out_len: usize,
        needed: *mut u64,
    ) -> i32;

    pub fn curdmesa_json_text(
        text: *const u8,
        text_len: usize,
        out: *mut u8,
        out_len: usize,
        needed: *mut u64,
    ) -> i32;

    pub fn curdmesa_dsn_parse(
        text: *const u8,
        text_len: usize,
        out: *mut u8,
        out_len: usize,
        needed: *mut u64,
        dsn: *mut CurdmesaDsn,
    ) -> i32;

    pub fn curdmesa_dsn_envelope_url(
        text: *const u8,
        text_len: usize,
        out: *mut u8,
        out_len: usize,
        needed: *mut u64,
    ) -> i32;

    pub fn curdmesa_dsn_auth(
        text: *const u8,
        text_len: usize,
        now_secs: u64,
        now_nanos: u32,
        client: *const u8,
        client_len: usize,
        out: *mut u8,
        out_len: usize,
        needed: *mut u64,
    ) -> i32;

    pub fn curdmesa_auth_parse(
        text: *const u8,
        text_len: usize,
        out: *mut u8,
        out_len: usize,
        needed: *mut u64,
        auth: *mut CurdmesaAuth,
    ) -> i32;

    pub fn curdmesa_auth_from_query(
        query: *const u8,
        query_len: usize,
        out: *mut u8,
        out_len: usize,
        needed: *mut u64,
        auth: *mut CurdmesaAuth,
    ) -> i32;

    pub fn curdmesa_envelope_header(
        bytes: *const u8,
        bytes_len: usize,
        out: *mut u8,
        out_len: usize,
        needed: *mut u64,
        header: *mut CurdmesaHeader,
    ) -> i32;

    pub fn curdmesa_rfc3339_parse(
        text: *const u8,
        text_len: usize,
        secs: *mut u64,
        nanos: *mut u32,
    ) -> i32;

    pub fn curdmesa_rfc3339_format(
        secs: u64,
        nanos: u32,
        out: *mut u8,
        out_len: usize,
        needed: *mut u64,
    ) -> i32;

    pub fn curdmesa_crontab_check(text: *const u8, text_len: usize) -> i32;

    pub fn curdmesa_ledger_record(
        ledger: *mut u64,
        ledger_len: usize,
        category: u32,
        reason: u32,
        quantity: u64,
    ) -> i32;

    pub fn curdmesa_ledger_record_losses(
        ledger: *mut u64,
        ledger_len: usize,
        losses: *const u64,
        losses_len: usize,
        reason: u32,
        refused: *mut u64,
    ) -> i32;

    pub fn curdmesa_ledger_record_envelope(
        ledger: *mut u64,
        ledger_len: usize,
        bytes: *const u8,
        bytes_len: usize,
        reason: u32,
        refused: *mut u64,
    ) -> i32;

    pub fn curdmesa_ledger_held(
        ledger: *const u64,
        ledger_len: usize,
        category: u32,
        reason: u32,
        quantity: *mut u64,
    ) -> i32;

    pub fn curdmesa_ledger_flush(
        ledger: *mut u64,
        ledger_len: usize,
        now_secs: u64,
        now_nanos: u32,
        out: *mut u8,
        out_len: usize,
        needed: *mut u64,
    ) -> i32;

    pub fn curdmesa_ledger_flush_item(
        ledger: *mut u64,
        ledger_len: usize,
        now_secs: u64,
        now_nanos: u32,
        out: *mut u8,
        out_len: usize,
        needed: *mut u64,
    ) -> i32;

    pub fn curdmesa_ledger_write(
        ledger: *const u64,
        ledger_len: usize,
        out: *mut u8,
        out_len: usize,
        needed: *mut u64,
    ) -> i32;

    pub fn curdmesa_ledger_read(
        bytes: *const u8,
        bytes_len: usize,
        ledger: *mut u64,
        ledger_len: usize,
    ) -> i32;

    pub fn curdmesa_limits_update(
        limits: *mut u64,
        limits_len: usize,
        header: *const u8,
        header_len: usize,
        now_secs: u64,
        now_nanos: u32,
    ) -> i32;

    pub fn curdmesa_limits_retry_after(
        limits: *mut u64,
        limits_len: usize,
        text: *const u8,
        text_len: usize,
        now_secs: u64,
        now_nanos: u32,
    ) -> i32;

    pub fn curdmesa_limits_category_end(
        limits: *const u64,
        limits_len: usize,
        category: u32,
        end: *mut u64,
    ) -> i32;

    pub fn curdmesa_limits_item_end(
        limits: *const u64,
        limits_len: usize,
        word: *const u8,
        word_len: usize,
        end: *mut u64,
    ) -> i32;

    pub fn curdmesa_envelope_measure(
        bytes: *const u8,
        bytes_len: usize,
        items: *mut u64,
        items_len: usize,
        sizes: *mut u64,
        sizes_len: usize,
        longest: *mut u64,
    ) -> i32;
}

// The tests alone ask these: the crate has words of its own.
#[cfg(test)]
extern "C" {
    pub fn curdmesa_item_word(kind: u32, out: *mut u8, out_len: usize, needed: *mut u64) -> i32;

    pub fn curdmesa_item_of_word(word: *const u8, word_len: usize, kind: *mut u32) -> i32;

    pub fn curdmesa_category_word(
        category: u32,
        out: *mut u8,
        out_len: usize,
        needed: *mut u64,
    ) -> i32;

    pub fn curdmesa_category_of_word(word: *const u8, word_len: usize, category: *mut u32) -> i32;

    pub fn curdmesa_reason_word(reason: u32, out: *mut u8, out_len: usize, needed: *mut u64)
        -> i32;

    pub fn curdmesa_reason_of_word(word: *const u8, word_len: usize, reason: *mut u32) -> i32;
}
