//! The fields of the Rust crate's types, in the order in which it declares them.

/// The form of a JSON value.
#[derive(Debug)]
pub enum Kind {
    Text,
    Bool,
    /// A whole number between two bounds.
    Whole(i128, i128),
    /// A number that the Rust crate holds as a float, between the bounds that Curdmesa has.
    Real(i128, i128),
    /// A word of a list that is derived.
    Word(&'static [&'static str]),
    /// A level.
    Level,
    /// The status of a check-in: a word, or any other text.
    CheckInStatus,
    Severity,
    /// Whole seconds, or an RFC 3339 text.
    Seconds,
    Rfc3339,
    Uuid,
    SpanId,
    TraceId,
    DebugId,
    CodeId,
    Address,
    Ip,
    UserIp,
    Url,
    Dsn,
    Unit,
    AttachmentType,
    SampleRate,
    SampleRand,
    BoolText,
    WholeText,
    ThreadId,
    Pair,
    /// Any JSON value.
    Tree,
    List(&'static Kind),
    Map(&'static Kind),
    Table(&'static Table),
    /// A list under `values`.
    Values(&'static Kind),
    Contexts,
    /// A table by the tag `type`.
    Tagged(&'static [(&'static str, Table)]),
    Attribute,
}

/// What an absent field is.
#[derive(Clone, Copy, Debug, PartialEq, Eq)]
pub enum Rule {
    /// A misfit.
    Must,
    /// A default.
    May,
    /// An id or a moment that isn't in the bytes.
    Drawn,
}

#[derive(Debug)]
pub struct Field {
    pub key: &'static str,
    pub rule: Rule,
    pub kind: Kind,
}

/// The fields of an object.
#[derive(Debug)]
pub struct Table {
    pub fields: &'static [Field],
    /// Whether other members are kept.
    pub other: bool,
}

impl Table {
    /// Returns the field of a key.
    pub fn field(&self, key: &str) -> Option<&'static Field> {
        self.fields.iter().find(|field| field.key == key)
    }
}

const fn must(key: &'static str, kind: Kind) -> Field {
    let rule = Rule::Must;
    Field { key, rule, kind }
}

const fn may(key: &'static str, kind: Kind) -> Field {
    let rule = Rule::May;
    Field { key, rule, kind }
}

const fn drawn(key: &'static str, kind: Kind) -> Field {
    let rule = Rule::Drawn;
    Field { key, rule, kind }
}

const fn table(fields: &'static [Field]) -> Table {
    let other = false;
    Table { fields, other }
}

const fn open(fields: &'static [Field]) -> Table {
    let other = true;
    Table { fields, other }
}

const U64: Kind = Kind::Whole(0, u64::MAX as i128);
const U32: Kind = Kind::Whole(0, u32::MAX as i128);
const I32: Kind = Kind::Whole(i32::MIN as i128, i32::MAX as i128);
const DURATION: Kind = Kind::Real(0, u64::MAX as i128);
const TEXTS: Kind = Kind::List(&Kind::Text);
const TEXT_MAP: Kind = Kind::Map(&Kind::Text);
const TREE_MAP: Kind = Kind::Map(&Kind::Tree);

static STATUS: [&str; 17] = [
    "ok",
    "deadline_exceeded",
    "unauthenticated",
    "permission_denied",
    "not_found",
    "resource_exhausted",
    "invalid_argument",
    "unimplemented",
    "unavailable",
    "internal_error",
    "unknown_error",
    "cancelled",
    "already_exists",
    "failed_precondition",
    "aborted",
    "out_of_range",
    "data_loss",
];

static LOG_ENTRY: Table = table(&[
    must("message", Kind::Text),
    may("params", Kind::List(&Kind::Tree)),
]);

static FRAME: Table = table(&[
    may("function", Kind::Text),
    may("symbol", Kind::Text),
    may("module", Kind::Text),
    may("package", Kind::Text),
    may("filename", Kind::Text),
    may("abs_path", Kind::Text),
    may("lineno", U64),
    may("colno", U64),
    may("pre_context", TEXTS),
    may("context_line", Kind::Text),
    may("post_context", TEXTS),
    may("in_app", Kind::Bool),
    may("vars", TREE_MAP),
    may("image_addr", Kind::Address),
    may("instruction_addr", Kind::Address),
    may("symbol_addr", Kind::Address),
    may("addr_mode", Kind::Text),
]);

static TEMPLATE: Table = table(&[
    may("filename", Kind::Text),
    may("abs_path", Kind::Text),
    may("lineno", U64),
    may("colno", U64),
    may("pre_context", TEXTS),
    may("context_line", Kind::Text),
    may("post_context", TEXTS),
]);

static STACKTRACE: Table = table(&[
    may("frames", Kind::List(&Kind::Table(&FRAME))),
    may("frames_omitted", Kind::Pair),
    may("registers", Kind::Map(&Kind::Address)),
]);

static THREAD: Table = table(&[
    may("id", Kind::ThreadId),
    may("name", Kind::Text),
    may("stacktrace", Kind::Table(&STACKTRACE)),
    may("raw_stacktrace", Kind::Table(&STACKTRACE)),
    may("crashed", Kind::Bool),
    may("current", Kind::Bool),
]);

static C_ERROR: Table = table(&[must("number", I32), may("name", Kind::Text)]);

static MACH_EXCEPTION: Table = table(&[
    must("exception", I32),
    must("code", U64),
    must("subcode", U64),
    may("name", Kind::Text),
]);

static POSIX_SIGNAL: Table = table(&[
    must("number", I32),
    may("code", I32),
    may("name", Kind::Text),
    may("code_name", Kind::Text),
]);

static MECHANISM_META: Table = table(&[
    may("errno", Kind::Table(&C_ERROR)),
    may("signal", Kind::Table(&POSIX_SIGNAL)),
    may("mach_exception", Kind::Table(&MACH_EXCEPTION)),
]);

static MECHANISM: Table = table(&[
    must("type", Kind::Text),
    may("description", Kind::Text),
    may("help_link", Kind::Url),
    may("handled", Kind::Bool),
    may("synthetic", Kind::Bool),
    may("data", TREE_MAP),
    may("meta", Kind::Table(&MECHANISM_META)),
]);

static EXCEPTION: Table = table(&[
    must("type", Kind::Text),
    may("value", Kind::Text),
    may("module", Kind::Text),
    may("stacktrace", Kind::Table(&STACKTRACE)),
    may("raw_stacktrace", Kind::Table(&STACKTRACE)),
    may("thread_id", Kind::ThreadId),
    may("mechanism", Kind::Table(&MECHANISM)),
]);

static BREADCRUMB: Table = table(&[
    drawn("timestamp", Kind::Seconds),
    may("type", Kind::Text),
    may("category", Kind::Text),
    may("level", Kind::Level),
    may("message", Kind::Text),
    may("data", TREE_MAP),
]);

static USER: Table = open(&[
    may("id", Kind::Text),
    may("email", Kind::Text),
    may("ip_address", Kind::UserIp),
    may("username", Kind::Text),
]);

static REQUEST: Table = table(&[
    may("url", Kind::Url),
    may("method", Kind::Text),
    may("data", Kind::Text),
    may("query_string", Kind::Text),
    may("cookies", Kind::Text),
    may("headers", TEXT_MAP),
    may("env", TEXT_MAP),
]);

static SYSTEM_SDK: Table = table(&[
    must("sdk_name", Kind::Text),
    must("version_major", U32),
    must("version_minor", U32),
    must("version_patchlevel", U32),
]);

static IMAGES: [(&str, Table); 4] = [
    (
        "apple",
        table(&[
            must("name", Kind::Text),
            may("arch", Kind::Text),
            may("cpu_type", U32),
            may("cpu_subtype", U32),
            must("image_addr", Kind::Address),
            must("image_size", U64),
            may("image_vmaddr", Kind::Address),
            must("uuid", Kind::Uuid),
        ]),
    ),
    (
        "symbolic",
        table(&[
            must("name", Kind::Text),
            may("arch", Kind::Text),
            must("image_addr", Kind::Address),
            must("image_size", U64),
            may("image_vmaddr", Kind::Address),
            must("id", Kind::DebugId),
            may("code_id", Kind::CodeId),
            may("debug_file", Kind::Text),
        ]),
    ),
    ("proguard", table(&[must("uuid", Kind::Uuid)])),
    (
        "wasm",
        table(&[
            must("name", Kind::Text),
            must("debug_id", Kind::Uuid),
            may("debug_file", Kind::Text),
            may("code_id", Kind::Text),
            must("code_file", Kind::Text),
        ]),
    ),
];

static DEBUG_META: Table = table(&[
    may("sdk_info", Kind::Table(&SYSTEM_SDK)),
    may("images", Kind::List(&Kind::Tagged(&IMAGES))),
]);

static SDK_PACKAGE: Table = table(&[must("name", Kind::Text), must("version", Kind::Text)]);

static SDK: Table = table(&[
    must("name", Kind::Text),
    must("version", Kind::Text),
    may("integrations", TEXTS),
    may("packages", Kind::List(&Kind::Table(&SDK_PACKAGE))),
]);

static RUNTIME: Table = open(&[may("name", Kind::Text), may("version", Kind::Text)]);

/// Contexts by their tag; the last keeps all members.
pub static CONTEXTS: [(&str, Table); 10] = [
    (
        "device",
        open(&[
            may("name", Kind::Text),
            may("family", Kind::Text),
            may("model", Kind::Text),
            may("model_id", Kind::Text),
            may("arch", Kind::Text),
            may("battery_level", Kind::Real(0, u32::MAX as i128)),
            may("orientation", Kind::Word(&["portrait", "landscape"])),
            may("simulator", Kind::Bool),
            may("memory_size", U64),
            may("free_memory", U64),
            may("usable_memory", U64),
            may("storage_size", U64),
            may("free_storage", U64),
            may("external_storage_size", U64),
            may("external_free_storage", U64),
            may("boot_time", Kind::Rfc3339),
            may("timezone", Kind::Text),
        ]),
    ),
    (
        "os",
        open(&[
            may("name", Kind::Text),
            may("version", Kind::Text),
            may("build", Kind::Text),
            may("kernel_version", Kind::Text),
            may("rooted", Kind::Bool),
        ]),
    ),
    ("runtime", open(RUNTIME.fields)),
    (
        "app",
        open(&[
            may("app_start_time", Kind::Rfc3339),
            may("device_app_hash", Kind::Text),
            may("build_type", Kind::Text),
            may("app_identifier", Kind::Text),
            may("app_name", Kind::Text),
            may("app_version", Kind::Text),
            may("app_build", Kind::Text),
        ]),
    ),
    ("browser", open(RUNTIME.fields)),
    (
        "trace",
        table(&[
            drawn("span_id", Kind::SpanId),
            drawn("trace_id", Kind::TraceId),
            may("parent_span_id", Kind::SpanId),
            may("op", Kind::Text),
            may("description", Kind::Text),
            may("status", Kind::Word(&STATUS)),
            may("origin", Kind::Text),
            may("data", TREE_MAP),
        ]),
    ),
    (
        "gpu",
        open(&[
            must("name", Kind::Text),
            may("version", Kind::Text),
            may("driver_version", Kind::Text),
            may("id", Kind::Text),
            may("vendor_id", Kind::Text),
            may("vendor_name", Kind::Text),
            may("memory_size", U32),
            may("api_type", Kind::Text),
            may("multi_threaded_rendering", Kind::Bool),
            may("npot_support", Kind::Bool),
            may("max_texture_size", U32),
            may("graphics_shader_level", Kind::Text),
            may("supports_draw_call_instancing", Kind::Bool),
            may("supports_ray_tracing", Kind::Bool),
            may("supports_compute_shaders", Kind::Bool),
            may("supports_geometry_shaders", Kind::Bool),
        ]),
    ),
    (
        "otel",
        open(&[may("attributes", TREE_MAP), may("resource", TREE_MAP)]),
    ),
    (
        "response",
        table(&[
            may("cookies", Kind::Text),
            may("headers", TEXT_MAP),
            may("status_code", U64),
            may("body_size", U64),
            may("data", Kind::Tree),
        ]),
    ),
    ("unknown", open(&[])),
];

static EVENT: Table = table(&[
    drawn("event_id", Kind::Uuid),
    may("level", Kind::Level),
    may("fingerprint", TEXTS),
    may("culprit", Kind::Text),
    may("transaction", Kind::Text),
    may("message", Kind::Text),
    may("logentry", Kind::Table(&LOG_ENTRY)),
    may("logger", Kind::Text),
    may("modules", TEXT_MAP),
    may("platform", Kind::Text),
    drawn("timestamp", Kind::Seconds),
    may("server_name", Kind::Text),
    may("release", Kind::Text),
    may("dist", Kind::Text),
    may("environment", Kind::Text),
    may("user", Kind::Table(&USER)),
    may("request", Kind::Table(&REQUEST)),
    may("contexts", Kind::Contexts),
    may("breadcrumbs", Kind::Values(&Kind::Table(&BREADCRUMB))),
    may("exception", Kind::Values(&Kind::Table(&EXCEPTION))),
    may("stacktrace", Kind::Table(&STACKTRACE)),
    may("template", Kind::Table(&TEMPLATE)),
    may("threads", Kind::Values(&Kind::Table(&THREAD))),
    may("tags", TEXT_MAP),
    may("extra", TREE_MAP),
    may("debug_meta", Kind::Table(&DEBUG_META)),
    may("sdk", Kind::Table(&SDK)),
]);

static SPAN: Table = table(&[
    drawn("span_id", Kind::SpanId),
    drawn("trace_id", Kind::TraceId),
    may("parent_span_id", Kind::SpanId),
    may("same_process_as_parent", Kind::Bool),
    may("op", Kind::Text),
    may("description", Kind::Text),
    may("timestamp", Kind::Rfc3339),
    drawn("start_timestamp", Kind::Seconds),
    may("status", Kind::Word(&STATUS)),
    may("tags", TEXT_MAP),
    may("data", TREE_MAP),
]);

static TRANSACTION: Table = table(&[
    drawn("event_id", Kind::Uuid),
    may("transaction", Kind::Text),
    may("release", Kind::Text),
    may("environment", Kind::Text),
    may("user", Kind::Table(&USER)),
    may("tags", TEXT_MAP),
    may("extra", TREE_MAP),
    may("sdk", Kind::Table(&SDK)),
    may("platform", Kind::Text),
    may("timestamp", Kind::Rfc3339),
    drawn("start_timestamp", Kind::Seconds),
    must("spans", Kind::List(&Kind::Table(&SPAN))),
    may("contexts", Kind::Contexts),
    may("request", Kind::Table(&REQUEST)),
    may("server_name", Kind::Text),
]);

static SESSION_ATTRIBUTES: Table = table(&[
    must("release", Kind::Text),
    may("environment", Kind::Text),
    may("ip_address", Kind::Ip),
    may("user_agent", Kind::Text),
]);

static SESSION: Table = table(&[
    drawn("sid", Kind::Uuid),
    may("did", Kind::Text),
    may("seq", U64),
    may("timestamp", Kind::Rfc3339),
    drawn("started", Kind::Rfc3339),
    may("init", Kind::Bool),
    may("duration", DURATION),
    may(
        "status",
        Kind::Word(&["ok", "exited", "crashed", "abnormal"]),
    ),
    may("errors", U64),
    must("attrs", Kind::Table(&SESSION_ATTRIBUTES)),
]);

static AGGREGATE: Table = table(&[
    must("started", Kind::Rfc3339),
    may("did", Kind::Text),
    may("exited", U32),
    may("errored", U32),
    may("abnormal", U32),
    may("crashed", U32),
]);

static SESSIONS: Table = table(&[
    may("aggregates", Kind::List(&Kind::Table(&AGGREGATE))),
    must("attrs", Kind::Table(&SESSION_ATTRIBUTES)),
]);

static SCHEDULES: [(&str, Table); 2] = [
    ("crontab", table(&[must("value", Kind::Text)])),
    (
        "interval",
        table(&[
            must("value", U64),
            must(
                "unit",
                Kind::Word(&["year", "month", "week", "day", "hour", "minute"]),
            ),
        ]),
    ),
];

static MONITOR: Table = table(&[
    must("schedule", Kind::Tagged(&SCHEDULES)),
    may("checkin_margin", U64),
    may("max_runtime", U64),
    may("timezone", Kind::Text),
    may("failure_issue_threshold", U64),
    may("recovery_threshold", U64),
]);

static CHECK_IN: Table = table(&[
    must("check_in_id", Kind::Uuid),
    must("monitor_slug", Kind::Text),
    must("status", Kind::CheckInStatus),
    may("environment", Kind::Text),
    may("duration", DURATION),
    may("monitor_config", Kind::Table(&MONITOR)),
]);

static LOG: Table = table(&[
    must(
        "level",
        Kind::Word(&["trace", "debug", "info", "warn", "error", "fatal"]),
    ),
    must("body", Kind::Text),
    may("trace_id", Kind::TraceId),
    must("timestamp", Kind::Seconds),
    may("severity_number", Kind::Severity),
    may("attributes", Kind::Map(&Kind::Attribute)),
]);

static METRIC: Table = table(&[
    must("type", Kind::Word(&["counter", "gauge", "distribution"])),
    must("name", Kind::Text),
    must("value", Kind::Real(i64::MIN as i128, i64::MAX as i128)),
    must("timestamp", Kind::Seconds),
    must("trace_id", Kind::TraceId),
    may("span_id", Kind::SpanId),
    may("unit", Kind::Unit),
    may("attributes", Kind::Map(&Kind::Attribute)),
]);

static LOGS: Table = table(&[must("items", Kind::List(&Kind::Table(&LOG)))]);

static METRICS: Table = table(&[must("items", Kind::List(&Kind::Table(&METRIC)))]);

/// Categories that the Rust crate has, and then those that only Curdmesa has.
pub static CATEGORIES: [&str; 12] = [
    "error",
    "session",
    "transaction",
    "span",
    "attachment",
    "monitor",
    "log_item",
    "log_byte",
    "trace_metric",
    "trace_metric_byte",
    "feedback",
    "replay",
];

static REASONS: [&str; 9] = [
    "send_error",
    "internal_sdk_error",
    "network_error",
    "ratelimit_backoff",
    "queue_overflow",
    "buffer_overflow",
    "event_processor",
    "before_send",
    "sample_rate",
];

static LOST_ITEM: Table = table(&[
    must("category", Kind::Word(&CATEGORIES)),
    must("reason", Kind::Word(&REASONS)),
    must("quantity", U64),
]);

static CLIENT_REPORT: Table = table(&[
    drawn("timestamp", Kind::Seconds),
    must("discarded_events", Kind::List(&Kind::Table(&LOST_ITEM))),
]);

/// A type of Curdmesa's own.
static USER_REPORT: Table = table(&[
    must("event_id", Kind::Uuid),
    must("comments", Kind::Text),
    may("name", Kind::Text),
    may("email", Kind::Text),
]);

static TRACE: Table = table(&[
    may("trace_id", Kind::TraceId),
    may("public_key", Kind::Text),
    may("sample_rate", Kind::SampleRate),
    may("sample_rand", Kind::SampleRand),
    may("sampled", Kind::BoolText),
    may("release", Kind::Text),
    may("environment", Kind::Text),
    may("transaction", Kind::Text),
    may("org_id", Kind::WholeText),
]);

static HEADER_TABLE: Table = table(&[
    may("event_id", Kind::Uuid),
    may("dsn", Kind::Dsn),
    may("sdk", Kind::Table(&SDK)),
    may("sent_at", Kind::Rfc3339),
    may("trace", Kind::Table(&TRACE)),
]);

static ITEM_HEADER_TABLE: Table = table(&[
    must("type", Kind::Word(&ITEMS)),
    may("length", U64),
    may("content_type", Kind::Text),
    may("filename", Kind::Text),
    may("attachment_type", Kind::AttachmentType),
]);

/// The envelope's header.
pub static HEADER: Kind = Kind::Table(&HEADER_TABLE);

/// An item's header.
pub static ITEM_HEADER: Kind = Kind::Table(&ITEM_HEADER_TABLE);

/// Item types that the Rust crate has, and then those that only Curdmesa has.
pub static ITEMS: [&str; 11] = [
    "event",
    "session",
    "sessions",
    "transaction",
    "attachment",
    "check_in",
    "log",
    "trace_metric",
    "client_report",
    "user_report",
    "replay_recording",
];

static PAYLOADS: [(&str, Kind); 9] = [
    ("event", Kind::Table(&EVENT)),
    ("session", Kind::Table(&SESSION)),
    ("sessions", Kind::Table(&SESSIONS)),
    ("transaction", Kind::Table(&TRANSACTION)),
    ("check_in", Kind::Table(&CHECK_IN)),
    ("log", Kind::Table(&LOGS)),
    ("trace_metric", Kind::Table(&METRICS)),
    ("client_report", Kind::Table(&CLIENT_REPORT)),
    ("user_report", Kind::Table(&USER_REPORT)),
];

/// Returns the form of the payload of an item type, if it is JSON.
pub fn payload(word: &str) -> Option<&'static Kind> {
    let found = PAYLOADS.iter().find(|(name, _)| *name == word);
    found.map(|(_, kind)| kind)
}
