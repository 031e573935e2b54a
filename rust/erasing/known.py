"""What may be left when the proofs are gone: it means the same in Rattle as in Rust. What is not here is refused."""

KEYWORDS = set(
    """as break const crate else enum false fn for if impl in let loop match mod mut pub return self Self static struct
    super trait true type use while""".split()
)
# Those with which a path may begin.
HEADS = set("crate self Self super".split())
# Keywords of either language, and types that no source uses: floating point, and numbers with a sign.
REFUSED = set(
    """abstract async await become box do dyn extern final gen macro macro_rules move override priv ref try typeof union
    unsafe unsized virtual where yield ghost requires ensures Drop Model prove prove_eq prove_ne rt
    i8 i16 i32 i64 i128 isize f32 f64""".split()
)
# A keyword only where an item begins. It may be the name of a function.
WEAK = {"union"}
TYPES = set("u8 u16 u32 u64 u128 usize bool str char".split())
MARKS = set(", @ ( ) :: { } : ; . & [ ] < > = => -> # + ! .. ..= * | ? - % / ^".split())
# A number with the type that may follow it.
NUMBER = r"(?:0x[0-9A-Fa-f_]+|0b[01_]+|[0-9][0-9_]*)(?:u8|u16|u32|u64|u128|usize)?"

# A macro, and how its call begins; those of examples and tests; those that tests declare are known there, too.
MACROS = {"matches": "(", "unreachable": "()", "write": "(f,"}
EXAMPLE_MACROS = {"assert": "(", "assert_eq": "(", "panic": "(", "format": "("}
ATTRIBUTES = ["#[cold]", "#[inline]", "#[inline(always)]", "#[inline(never)]", "#[repr(C)]", "#[rustfmt::skip]", "#[test]"]
DERIVES = set("Clone Copy PartialEq Eq PartialOrd Ord Hash Debug Default Error".split())

# Names of Rust that need no path.
NAMES = set(
    """Some None Ok Err Option Result Iterator From TryFrom Into Default Clone Copy PartialEq Eq PartialOrd Ord Hash
    Debug Display Error Item Write Formatter Hasher ArrayVec Range Ipv4Addr""".split()
)
# Paths of Rust and of the crate arrayvec, whole.
PATHS = set(
    """arrayvec::ArrayVec core::error::Error core::fmt core::fmt::Debug core::fmt::Display core::fmt::Write
    core::hash::Hash core::hash::Hasher core::net::Ipv4Addr core::ops::Range core::str::from_utf8
    fmt::Debug fmt::Display fmt::Display::fmt fmt::Formatter fmt::Result fmt::Write ArrayVec::new Ipv4Addr::new char::from
    u8::from u16::from u32::from u64::from u128::from usize::from u16::try_from u32::try_from
    u64::try_from u32::MAX u64::MAX usize::MAX
    u16::from_be_bytes u32::from_be_bytes u64::from_be_bytes
    u16::from_le_bytes u32::from_le_bytes u64::from_le_bytes""".split()
)
# Last segments that a derive or a trait of Rust gives to a type of the sources.
GIVEN = set("default from try_from".split())
METHODS = set(
    """and_then as_bytes as_mut_slice as_ref as_slice as_str clear clone contains copied copy_from_slice copy_within
    debug_struct div_ceil enumerate field find finish first_chunk first_chunk_mut fmt get hash is_empty is_err is_full
    is_none is_ok is_ok_and is_some iter iter_mut last_chunk len map max min next ok or overflowing_add pop position
    pow push rev rotate_left saturating_add saturating_sub split_at_mut split_first split_last split_once then_some
    to_be_bytes to_digit to_le_bytes try_extend_from_slice unwrap unwrap_or wrapping_add write_str""".split()
)

# What tests use besides: they have std, and `tests/kit` of the result replaces the runtime.
TEST_MACROS = {"stringify": "($", "write": "(text,", "format_args": "("}
TEST_NAMES = set("ArrayString kit Fail Abort HostRuntime AllocError AllocGlobal DefaultHasher Ordering drop".split())
TEST_PATHS = set(
    """arrayvec::ArrayString ArrayString::new std::cmp::Ordering std::error::Error std::fmt std::fmt::Debug std::fmt::Display
    std::fmt::Write std::hash::DefaultHasher std::hash::Hash std::hash::Hasher
    std::net::Ipv4Addr std::ops::Range usize::saturating_add DefaultHasher::new
    Ordering::Less Ordering::Equal Ordering::Greater""".split()
)
TEST_METHODS = set(
    """all alloc any count err first_mut get_mut into last map_err ok_or skip split_at starts_with
    zip""".split()
)

# What the calls for C use besides.
CALL_ATTRIBUTES = ["#[unsafe(no_mangle)]"]
CALL_MACROS = {"assert": "(size_of", "write": "(text,"}
CALL_NAMES = set("ArrayString size_of".split())
CALL_PATHS = set("arrayvec::ArrayString ArrayString::new".split())
CALL_METHODS = set("split_at wrapping_mul".split())

# What the libraries of the programs use besides.
PROGRAM_TEXTS = "#[error("  # the text of an error, by thiserror
PROGRAM_MACROS = {"write": "(", "writeln": "(", "format": "("}
PROGRAM_NAMES = {"AllocError", "BufRead", "ErrorKind", "Global", "Map", "NextWord", "NonZeroUsize", "Noted", "PhantomData", "String", "Vec", "Read", "SeedableRng", "SplitMix64", "Taking", "Value", "Write", "from_slice", "json", "list", "list_for", "memory", "random", "tell_failure", "text_of"}
PROGRAM_PATHS = set(
    """std::env std::error::Error std::fmt std::io std::io::ErrorKind std::io::Read std::io::Write std::marker::PhantomData std::num::NonZeroUsize
    ErrorKind::FileTooLarge ErrorKind::Interrupted ErrorKind::IsADirectory ErrorKind::NotADirectory ErrorKind::NotFound
    ErrorKind::PermissionDenied ErrorKind::QuotaExceeded ErrorKind::ReadOnlyFilesystem ErrorKind::StorageFull
    NonZeroUsize::new env::Args io::Error
    std::io::BufRead
    SplitMix64::seed_from_u64
    io::Result io::Sink io::Write io::sink hex::decode_to_slice hex::encode_to_slice thiserror::Error u64::MAX""".split()
)
PROGRAM_METHODS = set(
    """as_bytes collect into_iter is_ascii_digit wrapping_mul flush kind parse position read saturating_mul split_at starts_with write write_all
    as_array as_bool as_mut_slice as_object as_str checked_add checked_div checked_mul copy_from_slice next_word split_at_mut
    all as_u64 chars clear fill_buf first get_mut is_memory is_null is_object keys read_until truncate try_extend_from_slice try_push""".split()
)

# What the programs among the examples use besides.
EXAMPLE_PROGRAM_MACROS = {"vec": "["}
EXAMPLE_NAMES = {"AllocError", "NoMemory", "ether_tools", "ether_capture", "memory"}
EXAMPLE_PATHS = {"std::net::Ipv4Addr", "hex::encode", "String::new", "Vec::new", "std::fmt::Write", "std::str::from_utf8", "ArrayVec::new", "fmt::Error"}
EXAMPLE_METHODS = set("as_str chain extend_from_slice get_mut map_err push_str skip truncate try_push zip".split())

# What a source may not declare or import as something else: what Rust's prelude and the language give to each module, ..
PRELUDE = NAMES - {"Item"} | TYPES | set(
    """AsMut AsRef AsyncFn AsyncFnMut AsyncFnOnce Box DoubleEndedIterator Drop ExactSizeIterator Extend Fn FnMut FnOnce
    FromIterator Future IntoFuture IntoIterator Send Sized String Sync ToOwned ToString TryInto Unpin Vec
    align_of align_of_val drop size_of size_of_val i8 i16 i32 i64 i128 isize f32 f64""".split()
)
# .. crates that the sources use, and modules of Rust by whose names paths begin.
CRATES = set("alloc anyhow arrayvec clap core hex std thiserror".split())
MODULES = set("env fmt io".split())
# Associated types of traits of Rust.
ASSOCIATED = {"Error", "Item"}

# Methods that traits in Rust's prelude give to each type, or to each that derives them, and the one that `write!` calls.
PRELUDE_METHODS = set(
    """as_mut as_ref clamp clone clone_from clone_into cmp drop eq fmt ge gt hash into into_iter le lt max min ne
    partial_cmp to_owned to_string try_into write_fmt""".split()
)
# Methods that a trait gives to the types that implement it.
TRAIT_METHODS = {
    "Error": set("cause description provide source type_id".split()),
    "Iterator": set(
        """advance_by all any array_chunks by_ref chain cloned collect copied count cycle enumerate filter filter_map find
        find_map flat_map flatten fold for_each fuse inspect intersperse is_partitioned is_sorted is_sorted_by
        is_sorted_by_key last map map_while map_windows max_by max_by_key min_by min_by_key next next_back next_chunk nth
        nth_back partition peekable position product reduce rev rfind rfold rposition scan size_hint skip skip_while
        step_by sum take take_while try_fold try_for_each unzip zip""".split()
    ),
}
# Traits of Rust that a source may implement, each with the functions that it may write: Rust calls no others of them.
IMPLS = {
    **dict.fromkeys(["Copy", "Eq", "Error"], set()),
    **dict.fromkeys(["Debug", "Display"], {"fmt"}),
    **{"Clone": {"clone"}, "Default": {"default"}, "From": {"from"}, "Hash": {"hash"}, "Iterator": {"next", "size_hint"}},
    **{"PartialEq": {"eq"}, "TryFrom": {"try_from"}, "Write": {"write_str"}},
}
# Methods of the sources' own traits that types of Rust have by these, and no type of Rust by itself.
FOREIGN = set("add add_to flush_all interfaces put put_line read_some remove_all start".split())
