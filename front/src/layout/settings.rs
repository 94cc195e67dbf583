//! The settings of a layout, from a command line.

use crate::script::tree::Name;

/// Settings of a layout; `Default` is GNU ld's for x86-64 Linux.
#[derive(Clone, PartialEq, Eq, Debug)]
pub struct Settings {
    /// CONSTANT(MAXPAGESIZE): `-z max-page-size`.
    pub max_page: u64,
    /// CONSTANT(COMMONPAGESIZE): `-z common-page-size`, at most `max_page`.
    pub common_page: u64,
    /// `-z relro`
    pub relro: bool,
    /// `-z separate-code`
    pub separate_code: bool,
    /// Whether segments are at pages: neither `-n` nor `-N`.
    pub paged: bool,
    /// Whether `.text` is made read-only: not with `-N`.
    pub text_read_only: bool,
    /// Whether there is PT_GNU_STACK, whatever the objects say: `-z execstack`, `noexecstack`, `stack-size`.
    pub has_stack: bool,
    /// The names that are wanted: `-u`, `--require-defined`.
    pub undefined: Vec<Name>,
    /// `-e`: a symbol or a number.
    pub entry: Option<Name>,
    /// `--section-start` (and `-Ttext`, `-Tdata`, `-Tbss` with a dot in front of the name): addresses of output
    /// sections.
    pub section_starts: Vec<(Name, u64)>,
    /// Addresses of SEGMENT_START: `text-segment`, `rodata-segment`, `ldata-segment`, and `text`, `data`, `bss`.
    pub segment_starts: Vec<(Name, u64)>,
    /// How many statements of the scripts stand before these options: their sections are made before those of others.
    pub starts_after: usize,
    /// `--orphan-handling`
    pub orphans: OrphanHandling,
    /// `--unique`: patterns of names whose orphans stay apart; `None` without it, no pattern for all.
    pub unique: Option<Vec<Name>>,
    /// `--sort-common`
    pub sort_common: Option<SortCommon>,
    /// `--sort-section`
    pub sort_section: Option<SectionSort>,
    /// Whether `--build-id` makes a section `.note.gnu.build-id`, and its bytes.
    pub build_id: Option<u64>,
    /// `--emit-relocs`: an output section with input sections is in the image, though these are empty.
    pub keeps_empty: bool,
    /// `--gc-sections`
    pub gc: Option<GcSettings>,
    /// `--no-define-common`, or INHIBIT_COMMON_ALLOCATION: common blocks get no place.
    pub inhibits_common: bool,
    /// Whether the script is read before the objects: it stands before them on the command line. The default script is
    /// read after them.
    pub script_first: bool,
    /// Whether the output is no ELF file (`--oformat binary`), in which headers and NOLOAD take no memory.
    pub flat: bool,
    /// `--no-check-sections` is not given: sections that overlap, and those without a region of MEMORY, are refused.
    pub checks_sections: bool,
    /// Whether an ASSERT that does not hold is refused.
    pub checks_assertions: bool,
    /// Whether sections with SHF_MERGE are merged, as GNU ld does; the objects of the session must be those of
    /// [`Evaluation::merges`](super::Evaluation::merges) then.
    pub merges: bool,
    /// `-S`, `-s`: debug information is left out, wherever the script places it.
    pub strips_debugging: bool,
    /// `--traditional-format`, or a flat image: stabs and entries of `.eh_frame` stay as they are.
    pub is_traditional: bool,
}

impl Default for Settings {
    fn default() -> Self {
        Settings {
            max_page: 0x1000,
            common_page: 0x1000,
            relro: true,
            separate_code: true,
            paged: true,
            text_read_only: true,
            has_stack: false,
            undefined: Vec::new(),
            entry: None,
            section_starts: Vec::new(),
            segment_starts: Vec::new(),
            starts_after: 0,
            orphans: OrphanHandling::Place,
            unique: None,
            sort_common: None,
            sort_section: None,
            build_id: None,
            keeps_empty: false,
            gc: None,
            inhibits_common: false,
            script_first: true,
            flat: false,
            checks_sections: true,
            checks_assertions: true,
            merges: false,
            strips_debugging: false,
            is_traditional: false,
        }
    }
}

impl Settings {
    /// Sets the page sizes from `-z max-page-size` and `-z common-page-size` (ldelf.c: if only one is given, the
    /// other follows).
    pub fn set_pages(&mut self, max_page: Option<u64>, common_page: Option<u64>) {
        let common = common_page.unwrap_or(0x1000);
        self.max_page = max_page.unwrap_or_else(|| common.max(0x1000));
        self.common_page = common.min(self.max_page);
    }
}

/// `--orphan-handling`
#[derive(Clone, Copy, PartialEq, Eq, Debug)]
pub enum OrphanHandling {
    /// Placed, with or without a line (`place`, `warn`, `error`: what is said of them is not the layout's).
    Place,
    /// Left out.
    Discard,
}

/// `--sort-common`
#[derive(Clone, Copy, PartialEq, Eq, Debug)]
pub enum SortCommon {
    /// The greatest alignment first.
    Descending,
    /// The least alignment first.
    Ascending,
}

/// `--sort-section`
#[derive(Clone, Copy, PartialEq, Eq, Debug)]
pub enum SectionSort {
    /// `name`
    Name,
    /// `alignment`
    Alignment,
}

/// What `--gc-sections` goes by.
#[derive(Clone, PartialEq, Eq, Debug)]
pub struct GcSettings {
    /// `-init`: `_init` by default.
    pub init: Name,
    /// `-fini`: `_fini` by default.
    pub fini: Name,
    /// `--gc-keep-exported`
    pub keeps_exported: bool,
    /// `-z start-stop-gc`: `__start_NAME` keeps nothing.
    pub start_stop_gc: bool,
    /// What `.eh_frame` names is kept with it, as `ldi` does; GNU ld takes out its entries for code that goes.
    pub keeps_named_by_frames: bool,
}

impl Default for GcSettings {
    fn default() -> Self {
        GcSettings {
            init: "_init".into(),
            fini: "_fini".into(),
            keeps_exported: false,
            start_stop_gc: false,
            keeps_named_by_frames: false,
        }
    }
}
