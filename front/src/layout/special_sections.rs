//! Types and flags that an output section has by its name alone (elf.c, `special_sections`).

use object::elf::{
    SHF_ALLOC, SHF_EXCLUDE, SHF_EXECINSTR, SHF_LINK_ORDER, SHF_MASKOS, SHF_MASKPROC, SHF_TLS, SHF_WRITE, SHT_DYNAMIC,
    SHT_DYNSYM, SHT_FINI_ARRAY, SHT_GNU_HASH, SHT_GNU_LIBLIST, SHT_GNU_VERDEF, SHT_GNU_VERNEED, SHT_GNU_VERSYM,
    SHT_HASH, SHT_INIT_ARRAY, SHT_NOBITS, SHT_NOTE, SHT_NULL, SHT_PREINIT_ARRAY, SHT_PROGBITS, SHT_REL, SHT_RELA,
    SHT_STRTAB, SHT_SYMTAB,
};

/// SHF_X86_64_LARGE
const LARGE: u32 = 0x1000_0000;
const DATA: u32 = SHF_ALLOC | SHF_WRITE;
const CODE: u32 = SHF_ALLOC | SHF_EXECINSTR;

/// What may follow the name.
#[derive(Clone, Copy, PartialEq, Eq, Debug)]
enum Rest {
    Nothing,
    /// Nothing, or a dot and more.
    Dot,
    Anything,
}
use Rest::{Anything, Dot, Nothing};

const SECTIONS: [(&[u8], Rest, u32, u32); 55] = [
    (b".gnu.linkonce.lb", Dot, SHT_NOBITS, DATA | LARGE),
    (b".gnu.linkonce.lr", Dot, SHT_PROGBITS, SHF_ALLOC | LARGE),
    (b".gnu.linkonce.lt", Dot, SHT_PROGBITS, CODE | LARGE),
    (b".lbss", Dot, SHT_NOBITS, DATA | LARGE),
    (b".ldata", Dot, SHT_PROGBITS, DATA | LARGE),
    (b".lrodata", Dot, SHT_PROGBITS, SHF_ALLOC | LARGE),
    (b".bss", Dot, SHT_NOBITS, DATA),
    (b".comment", Nothing, SHT_PROGBITS, 0),
    (b".ctf", Nothing, SHT_PROGBITS, 0),
    (b".data", Dot, SHT_PROGBITS, DATA),
    (b".data1", Nothing, SHT_PROGBITS, DATA),
    (b".debug", Nothing, SHT_PROGBITS, 0),
    (b".debug_line", Nothing, SHT_PROGBITS, 0),
    (b".debug_info", Nothing, SHT_PROGBITS, 0),
    (b".debug_abbrev", Nothing, SHT_PROGBITS, 0),
    (b".debug_aranges", Nothing, SHT_PROGBITS, 0),
    (b".dynamic", Nothing, SHT_DYNAMIC, SHF_ALLOC),
    (b".dynstr", Nothing, SHT_STRTAB, SHF_ALLOC),
    (b".dynsym", Nothing, SHT_DYNSYM, SHF_ALLOC),
    (b".fini", Nothing, SHT_PROGBITS, CODE),
    (b".fini_array", Dot, SHT_FINI_ARRAY, DATA),
    (b".gnu.linkonce.b", Dot, SHT_NOBITS, DATA),
    (b".gnu.linkonce.n", Dot, SHT_NOBITS, DATA),
    (b".gnu.linkonce.p", Dot, SHT_PROGBITS, DATA),
    (b".gnu.lto_", Anything, SHT_PROGBITS, SHF_EXCLUDE),
    (b".got", Nothing, SHT_PROGBITS, DATA),
    (b".gnu.version", Nothing, SHT_GNU_VERSYM, 0),
    (b".gnu.version_d", Nothing, SHT_GNU_VERDEF, 0),
    (b".gnu.version_r", Nothing, SHT_GNU_VERNEED, 0),
    (b".gnu.liblist", Nothing, SHT_GNU_LIBLIST, SHF_ALLOC),
    (b".gnu.conflict", Nothing, SHT_RELA, SHF_ALLOC),
    (b".gnu.hash", Nothing, SHT_GNU_HASH, SHF_ALLOC),
    (b".hash", Nothing, SHT_HASH, SHF_ALLOC),
    (b".init", Nothing, SHT_PROGBITS, CODE),
    (b".init_array", Dot, SHT_INIT_ARRAY, DATA),
    (b".interp", Nothing, SHT_PROGBITS, 0),
    (b".line", Nothing, SHT_PROGBITS, 0),
    (b".noinit", Dot, SHT_NOBITS, DATA),
    (b".note.GNU-stack", Nothing, SHT_PROGBITS, 0),
    (b".note", Anything, SHT_NOTE, 0),
    (b".persistent.bss", Nothing, SHT_NOBITS, DATA),
    (b".persistent", Dot, SHT_PROGBITS, DATA),
    (b".preinit_array", Dot, SHT_PREINIT_ARRAY, DATA),
    (b".plt", Nothing, SHT_PROGBITS, CODE),
    (b".rodata", Dot, SHT_PROGBITS, SHF_ALLOC),
    (b".rodata1", Nothing, SHT_PROGBITS, SHF_ALLOC),
    (b".rela", Anything, SHT_RELA, 0),
    (b".rel", Dot, SHT_REL, 0),
    (b".shstrtab", Nothing, SHT_STRTAB, 0),
    (b".strtab", Nothing, SHT_STRTAB, 0),
    (b".symtab", Nothing, SHT_SYMTAB, 0),
    (b".text", Dot, SHT_PROGBITS, CODE),
    (b".tbss", Dot, SHT_NOBITS, DATA | SHF_TLS),
    (b".tdata", Dot, SHT_PROGBITS, DATA | SHF_TLS),
    (b".zdebug_line", Nothing, SHT_PROGBITS, 0),
];

/// The type and the flags (`sh_type`, `sh_flags`) that a name gives.
pub(crate) fn by_name(name: &[u8]) -> (u32, u64) {
    let matches = |(front, rest, _, _): &&(&[u8], Rest, u32, u32)| {
        name.strip_prefix(*front).map_or(false, |after| match (after.first(), rest) {
            (None, _) | (Some(_), Anything) | (Some(b'.'), Dot) => true,
            (Some(_), Dot | Nothing) => false,
        })
    };
    if name.starts_with(b".stab") && name.ends_with(b"str") {
        return (SHT_STRTAB, 0);
    }
    SECTIONS.iter().find(matches).map_or((SHT_NULL, 0), |(_, _, kind, flags)| (*kind, u64::from(*flags)))
}

/// The flags that stay of the first input section in place of those of the name (elf.c,
/// `_bfd_elf_init_private_section_data`).
pub(crate) fn of_first(bits: u64) -> u64 {
    bits & u64::from(SHF_MASKOS | SHF_MASKPROC | SHF_LINK_ORDER)
}

#[cfg(test)]
mod tests {
    use super::*;

    /// elf.c, `_bfd_elf_get_special_section`.
    #[test]
    fn names() {
        for (name, kind, flags) in [
            (".bss", SHT_NOBITS, DATA),
            (".bss.x", SHT_NOBITS, DATA),
            (".bssx", SHT_NULL, 0),
            (".note.x", SHT_NOTE, 0),
            (".note.GNU-stack", SHT_PROGBITS, 0),
            (".relax", SHT_RELA, 0),
            (".relish", SHT_NULL, 0),
            (".rel.text", SHT_REL, 0),
            (".rela.dyn", SHT_RELA, 0),
            (".persistent.bss", SHT_NOBITS, DATA),
            (".text", SHT_PROGBITS, CODE),
            (".stab.indexstr", SHT_STRTAB, 0),
            ("cmds", SHT_NULL, 0),
        ] {
            assert_eq!(by_name(name.as_bytes()), (kind, u64::from(flags)), "{}", name);
        }
    }
}
