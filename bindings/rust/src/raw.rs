//! The C interface, as `include/lurmenize.h` declares it: its structs, constants and functions under the same names, without `LURM_` and, for
//! structs, in Rust's spelling (`lurm_region_range` is [`RegionRange`]). The header says what each means. What is inline C there is not here:
//! [`Refusal`](crate::Refusal) has the words of a refusal, and [`Entry::new`](crate::Entry::new) takes strings.
//!
//! This crate's tests compare every size, offset, type, number and signature here with the header, by the C compiler.
//!
//! What is handed back says whether a call was granted, so that the compiler warns where it is not used:
//!
//! ```compile_fail
//! #![deny(unused_must_use)]
//! lurmenize::raw::lurm_make(100);
//! ```

/// Declares constants of the header, and lists them for the test against it.
macro_rules! constants {
    ($($type:ty { $($name:ident = $value:literal,)* })*) => {
        $($(
            #[doc = concat!("`LURM_", stringify!($name), "` of the header.")]
            pub const $name: $type = $value;
        )*)*

        #[cfg(test)]
        const CONSTANTS: &[(&str, &str)] = &[$($((stringify!($name), stringify!($value)),)*)*];
    };
}

/// Declares structs of the header, each with its size and each field with its offset, and lists them for the test against it.
macro_rules! structs {
    ($($(#[$about:meta])* $name:ident, $size:literal { $($(#[$says:meta])* $field:ident: $type:ty, $offset:literal;)* })*) => {
        $(
            $(#[$about])*
            #[repr(C)]
            #[derive(Clone, Copy, Debug, PartialEq, Eq, Hash)]
            pub struct $name {
                $($(#[$says])* pub $field: $type,)*
            }

            const _: () = {
                assert!(std::mem::size_of::<$name>() == $size);
                $(assert!(std::mem::offset_of!($name, $field) == $offset);)*
            };
        )*

        #[cfg(test)]
        const STRUCTS: &[header::Struct] = &[$(header::Struct {
            name: stringify!($name),
            size: $size,
            fields: &[$(header::Field { name: stringify!($field), declared: stringify!($type), offset: $offset },)*],
        },)*];
    };
}

/// Declares functions of the header, and lists them for the test against it.
macro_rules! functions {
    ($($safety:tt fn $name:ident($($argument:ident: $type:ty),*) -> $answer:ty;)*) => {
        // SAFETY: the signatures are those of the header. What is declared safe has no pointers, and takes any value of its arguments.
        unsafe extern "C" {
            $(
                #[doc = concat!("`", stringify!($name), "` of the header.")]
                #[must_use]
                pub $safety fn $name($($argument: $type),*) -> $answer;
            )*
        }

        #[cfg(test)]
        const FUNCTIONS: &[header::Function] = &[$(header::Function {
            name: stringify!($name),
            arguments: &[$(stringify!($type)),*],
            answer: stringify!($answer),
        },)*];
    };
}

constants! {
    &str {
        VERSION_STRING = "0.4.0",
    }
    u32 {
        EPERM = 1, ENOENT = 2, E2BIG = 7, ENOMEM = 12, EACCES = 13, EBUSY = 16, EINVAL = 22, ENOSPC = 28, EDOM = 33,
    }
    usize {
        WORDS = 4, REGIONS = 3, MAX_LINE = 403, MAX_NAME = 31, MAX_ABBREVIATION = 15, NAME_BYTES = 32, ABBREVIATION_BYTES = 16,
        MAX_ALIAS_LINES = 512, TENANTS = 8, SLOTS = 64, STACK_BYTES = 24_576,
    }
    u64 {
        VERSION_MAJOR = 0, VERSION_MINOR = 4, VERSION_PATCH = 0, VERSION = 4_000,
        CATEGORIES = 256, MAX_HIERARCHY = 199, MAX_PAGES = 1_048_576,
        LINE_LABEL = 1, LINE_RANGE = 2, LINE_TUPLE = 3, LINE_ENTRY = 4,
        NAMES_HIERARCHY = 1, NAMES_CATEGORY = 2, NAMES_LABEL = 3,
        FORM_DEFINITION = 0, FORM_ALIAS = 1, VARIANT_NAMES = 0, VARIANT_ABBREVIATIONS = 1,
        CLASS_FILE = 0, CLASS_FIFO = 1, CLASS_PROCESS = 2, CLASS_MESSAGE_QUEUE = 3, CLASS_SHARED_MEMORY = 4, CLASS_SEMAPHORE = 5,
        KIND_REGULAR = 0, KIND_DIRECTORY = 1, KIND_OTHER = 2,
        INTENT_WRITE = 1, INTENT_READ = 2, INTENT_EXECUTE = 4, INTENT_SEARCH = 8, INTENT_GET_ATTRIBUTE = 16, INTENT_SET_ATTRIBUTE = 32,
        ATTRIBUTE_LABEL = 1, ATTRIBUTE_TUPLE = 2,
    }
}

structs! {
    /// A label: a hierarchy and a set of categories. Any value can be held; functions refuse one with a hierarchy above 199.
    #[derive(Default)]
    Label, 40 {
        /// 0 to 199 in a valid label.
        hierarchy: u64, 0;
        /// The set: category c, 0 to 255, is bit c % 64 of word c / 64.
        categories: [u64; WORDS], 8;
    }

    /// The labels that dominate `low` and that `high` dominates. Any value can be held; functions refuse one whose ends are not valid labels, or
    /// whose high end does not dominate its low end.
    #[derive(Default)]
    Range, 80 {
        /// The label that all others dominate.
        low: Label, 0;
        /// The label that dominates all others.
        high: Label, 40;
    }

    /// The range of one region of a [`Tuple`].
    #[derive(Default)]
    RegionRange, 88 {
        /// 1 where there is a range, else 0.
        present: u64, 0;
        /// Zeros where there is none.
        range: Range, 8;
    }

    /// A range or none for each region.
    #[derive(Default)]
    Tuple, 264 {
        /// By region.
        ranges: [RegionRange; REGIONS], 0;
    }

    /// A refusal's number, or 0 and what a grant answers.
    #[derive(Default)]
    Answer, 16 {
        /// 0 where granted.
        refusal: u32, 0;
        /// 1 where a refusal carries one more number, else 0.
        carries: u32, 4;
        /// What a grant answers, or what a refusal carries, else 0.
        value: u64, 8;
    }

    /// An answer with a label.
    #[derive(Default)]
    LabelAnswer, 56 {
        /// Whether there is one.
        answer: Answer, 0;
        /// Zeros beside a refusal.
        label: Label, 16;
    }

    /// An answer with a range.
    #[derive(Default)]
    RangeAnswer, 96 {
        /// Whether there is one.
        answer: Answer, 0;
        /// Zeros beside a refusal.
        range: Range, 16;
    }

    /// An answer with a tuple.
    #[derive(Default)]
    TupleAnswer, 280 {
        /// Whether there is one.
        answer: Answer, 0;
        /// Zeros beside a refusal.
        tuple: Tuple, 16;
    }

    /// A name: some bytes, then zeros.
    #[derive(Default)]
    Name, 40 {
        /// The name at the front. The last byte is always zero.
        bytes: [u8; NAME_BYTES], 0;
        /// How many bytes it has.
        length: usize, 32;
    }

    /// An abbreviation: some bytes, then zeros.
    #[derive(Default)]
    Abbreviation, 24 {
        /// The abbreviation at the front. The last byte is always zero.
        bytes: [u8; ABBREVIATION_BYTES], 0;
        /// How many bytes it has, 0 where there is none.
        length: usize, 16;
    }

    /// An alias entry.
    #[derive(Default)]
    Entry, 120 {
        /// What it names: one of `NAMES_..`.
        names: u64, 0;
        /// The hierarchy or the category, 0 for a label.
        number: u64, 8;
        /// The label, else zeros.
        label: Label, 16;
        /// Its name.
        name: Name, 56;
        /// Its abbreviation.
        abbreviation: Abbreviation, 96;
    }

    /// An answer with an alias entry.
    #[derive(Default)]
    EntryAnswer, 136 {
        /// Whether there is one.
        answer: Answer, 0;
        /// Zeros beside a refusal.
        entry: Entry, 16;
    }

    /// Who asks, of a text and of the monitor.
    #[derive(Default)]
    Caller, 48 {
        /// The caller's label.
        label: Label, 0;
        /// 0 or 1.
        read_override: u64, 40;
    }

    /// How a text is written.
    #[derive(Default)]
    Style, 16 {
        /// One of `FORM_..`.
        form: u64, 0;
        /// One of `VARIANT_..`.
        variant: u64, 8;
    }

    /// The answer to the writing of a range's text.
    #[derive(Default)]
    RangeWritten, 24 {
        /// The text's length, or the refusal.
        answer: Answer, 0;
        /// 1 where the high end is not shown, else 0.
        status: u64, 16;
    }

    /// The subject that the monitor is asked about.
    #[derive(Default)]
    Credentials, 144 {
        /// The subject's label.
        label: Label, 0;
        /// The range that the label has to be in.
        range: Range, 40;
        /// 0 or 1.
        read_override: u64, 120;
        /// 0 or 1.
        write_override: u64, 128;
        /// 0 or 1.
        relabel: u64, 136;
    }

    /// An object of the monitor.
    #[derive(Default)]
    Object, 336 {
        /// One of `CLASS_..`.
        r#type: u64, 0;
        /// One of `KIND_..` for a file; not looked at for another class.
        kind: u64, 8;
        /// 0 or 1.
        has_label: u64, 16;
        /// 0 or 1.
        has_tuple: u64, 24;
        /// The label, where there is one.
        label: Label, 32;
        /// The tuple, where there is one.
        tuple: Tuple, 72;
    }

    /// The number of a tenant, 0 to 7 where there is one. Any number can be held.
    #[derive(Default)]
    TenantId, 8 {
        /// The number.
        number: u64, 0;
    }

    /// The number of a slot, 0 to 63 where there is one. Tenant t has the slots 8t to 8t + 7. Any number can be held.
    #[derive(Default)]
    Slot, 8 {
        /// The number.
        number: u64, 0;
    }

    /// A tenant of a [`State`]: zeros where it is not admitted.
    #[derive(Default)]
    Tenant, 272 {
        /// The most pages that it may have in use.
        ceiling: u64, 0;
        /// The labels that its calls may have.
        clearance: Tuple, 8;
    }

    /// A segment of shared memory: zeros where the slot is empty.
    #[derive(Default)]
    Segment, 56 {
        /// The label of whoever opened it.
        label: Label, 0;
        /// How many pages it has.
        pages: u64, 40;
        /// What was posted last, 0 at first.
        version: u64, 48;
    }

    /// The state of all segments.
    State, 5768 {
        /// The pages that there are for all tenants.
        pool: u64, 0;
        /// By number.
        tenants: [Tenant; TENANTS], 8;
        /// By slot: tenant t has 8t to 8t + 7.
        segments: [Segment; SLOTS], 2184;
    }

    /// What a call on a [`State`] leaves and answers.
    Outcome, 5840 {
        /// The state after the call.
        state: State, 0;
        /// The call's answer.
        answer: Answer, 5768;
        /// What a granted look shows, else zeros.
        shown: Segment, 5784;
    }
}

functions! {
    safe fn lurm_version() -> u64;

    safe fn lurm_dominates(a: Label, b: Label) -> Answer;
    safe fn lurm_equal(a: Label, b: Label) -> Answer;
    safe fn lurm_upper_bound(a: Label, b: Label) -> LabelAnswer;
    safe fn lurm_lower_bound(a: Label, b: Label) -> LabelAnswer;
    safe fn lurm_region_of(a: Label) -> Answer;
    safe fn lurm_has_category(a: Label, category: u64) -> Answer;
    safe fn lurm_with_category(a: Label, category: u64) -> LabelAnswer;
    safe fn lurm_next_category(a: Label, from: u64) -> Answer;

    safe fn lurm_range_contains(x: Range, l: Label) -> Answer;
    safe fn lurm_range_meet(x: Range, y: Range) -> RangeAnswer;
    safe fn lurm_range_split(x: Range) -> TupleAnswer;
    safe fn lurm_tuple_is_empty(t: Tuple) -> Answer;
    safe fn lurm_tuple_contains(t: Tuple, l: Label) -> Answer;
    safe fn lurm_tuple_within(t: Tuple, u: Tuple) -> Answer;
    safe fn lurm_tuple_meet(t: Tuple, u: Tuple) -> TupleAnswer;

    unsafe fn lurm_line_kind(line: *const u8, line_length: usize) -> Answer;
    unsafe fn lurm_write_label(l: Label, out: *mut u8, out_length: usize) -> Answer;
    unsafe fn lurm_write_range(x: Range, out: *mut u8, out_length: usize) -> Answer;
    unsafe fn lurm_write_tuple(t: Tuple, out: *mut u8, out_length: usize) -> Answer;
    unsafe fn lurm_write_entry(e: Entry, out: *mut u8, out_length: usize) -> Answer;
    unsafe fn lurm_read_label(line: *const u8, line_length: usize) -> LabelAnswer;
    unsafe fn lurm_read_range(line: *const u8, line_length: usize) -> RangeAnswer;
    unsafe fn lurm_read_tuple(line: *const u8, line_length: usize) -> TupleAnswer;
    unsafe fn lurm_read_entry(line: *const u8, line_length: usize) -> EntryAnswer;

    unsafe fn lurm_check_alias_table(aliases: *const u8, aliases_length: usize, more: u64) -> Answer;
    unsafe fn lurm_write_label_text(aliases: *const u8, aliases_length: usize, more: u64, caller: Caller, style: Style, label: Label,
        out: *mut u8, out_length: usize) -> Answer;
    unsafe fn lurm_write_range_text(aliases: *const u8, aliases_length: usize, more: u64, caller: Caller, style: Style, range: Range,
        out: *mut u8, out_length: usize) -> RangeWritten;
    unsafe fn lurm_read_label_text(aliases: *const u8, aliases_length: usize, more: u64, caller: Caller, text: *const u8,
        text_length: usize) -> LabelAnswer;
    unsafe fn lurm_read_range_text(aliases: *const u8, aliases_length: usize, more: u64, caller: Caller, text: *const u8,
        text_length: usize) -> RangeAnswer;

    safe fn lurm_check(caller: Caller, credentials: Credentials, object: Object, intents: u64, attribute: u64) -> Answer;

    safe fn lurm_make(pool: u64) -> Outcome;
    safe fn lurm_admit(state: State, tenant: TenantId, ceiling: u64, clearance: Tuple) -> Outcome;
    safe fn lurm_set_ceiling(state: State, tenant: TenantId, ceiling: u64) -> Outcome;
    safe fn lurm_open(state: State, tenant: TenantId, label: Label, pages: u64) -> Outcome;
    safe fn lurm_size(state: State, tenant: TenantId, label: Label, slot: Slot, pages: u64) -> Outcome;
    safe fn lurm_post(state: State, tenant: TenantId, label: Label, slot: Slot, version: u64) -> Outcome;
    safe fn lurm_close(state: State, tenant: TenantId, label: Label, slot: Slot) -> Outcome;
    safe fn lurm_look(state: State, tenant: TenantId, label: Label, slot: Slot) -> Outcome;
    safe fn lurm_sound(state: State) -> Answer;
    safe fn lurm_pages_in_use(state: State, tenant: TenantId) -> Answer;
}

#[cfg(test)]
mod header;
