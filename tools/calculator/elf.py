"""Constants of ELF-64 on x86-64 (System V gABI; x86-64 psABI) and numbers in bytes."""

FILE_HEADER_SIZE, SECTION_HEADER_SIZE, PROGRAM_HEADER_SIZE, SYMBOL_SIZE, RELA_SIZE = 64, 64, 56, 24, 24

IDENT = b"\x7fELF\x02\x01\x01"
ET_REL, ET_EXEC, EM_X86_64, EV_CURRENT, PT_LOAD = 1, 2, 62, 1, 1
PF_X, PF_W, PF_R = 1, 2, 4

SHT_NULL, SHT_PROGBITS, SHT_SYMTAB, SHT_STRTAB, SHT_RELA, SHT_NOTE, SHT_NOBITS, SHT_REL = 0, 1, 2, 3, 4, 7, 8, 9
SHT_INIT_ARRAY, SHT_FINI_ARRAY, SHT_PREINIT_ARRAY, SHT_X86_64_UNWIND = 14, 15, 16, 0x70000001
LINKED_TYPES = (SHT_PROGBITS, SHT_NOBITS, SHT_NOTE, SHT_INIT_ARRAY, SHT_FINI_ARRAY, SHT_PREINIT_ARRAY,
                SHT_X86_64_UNWIND)

SHF_WRITE, SHF_ALLOC, SHF_EXECINSTR, SHF_MERGE, SHF_STRINGS = 1, 2, 4, 0x10, 0x20
KNOWN_FLAGS = SHF_WRITE | SHF_ALLOC | SHF_EXECINSTR | SHF_MERGE | SHF_STRINGS

SHN_UNDEF, SHN_ABS, SHN_COMMON = 0, 0xFFF1, 0xFFF2
STB_LOCAL, STB_GLOBAL, STB_WEAK = 0, 1, 2
STT_NOTYPE, STT_OBJECT, STT_FUNC, STT_SECTION, STT_FILE, STT_COMMON = 0, 1, 2, 3, 4, 5


def number(data, at, size):
    """The unsigned little-endian number of `size` bytes at `at`."""
    return int.from_bytes(data[at:at + size], "little")


def spell(value, size):
    """The `size` little-endian bytes of a value, cut to that width."""
    return (value % 2 ** (8 * size)).to_bytes(size, "little")


def text(data):
    """Bytes as text of one character a byte, in which all names and scripts are kept."""
    return data.decode("latin-1")


def data_of(name):
    """The bytes of such a text."""
    return name.encode("latin-1")


def is_power_of_two(value):
    """1, 2, 4, .. and not 0."""
    return value > 0 and value & (value - 1) == 0


def align_up(value, alignment):
    """The least multiple of the alignment not below the value, as a whole number."""
    return -(-value // alignment) * alignment


def printable_name(name, longest):
    """Whether a name has 1 to `longest` bytes, each from `!` to `~`."""
    return 1 <= len(name) <= longest and all("!" <= byte <= "~" for byte in name)
