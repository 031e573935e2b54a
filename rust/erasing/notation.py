"""The page on the notation of contracts, by hand: signs, forms, and words of the kit's standard library."""

# Words that need no import.
BUILT_IN = set("→ × ¬ ⊥ λ Type Unit let in record data abbrev pub unfoldable where 𝓛".split())
# Constructors, which are no names in a pattern.
CONSTRUCTORS = set("Some None Ok Err zero suc true false [] ◌∷◌".split())

PAGE = """The notation of contracts and definitions.

A contract is written for Rattle, the language in which the sources of this crate are proved. This page explains the
forms of contracts and definitions, their signs, and the words that are of Rattle's standard library.

# Contracts

| In a contract | Meaning |
| --- | --- |
| `requires { p }` | The caller has to make sure that `p` holds. |
| `ensures { p }` | `p` holds when the call returns. With several clauses each has a name, as in `ensures walk { p }`. |
| `ensures* { p }` | `p` holds of a lent place at the end of the loan. |
| `result` | What the call returns. |
| `x.now` | What the reference `x` points to. |
| `x.old`, `x.new` | What the parameter `x: &mut T` points to when the call begins, and when it returns. |
| `x.entry` | The reference `x` itself, as it was passed. |
| `x.ghost_name` | The name of a reference's loan: references with the same name lend the same place. |
| `p.x`, `p.0` | A field of a struct or a tuple. |
| `W.contents` | For a type parameter `W`: its `contents`, which the contracts of its trait explain. |
| `kinds.Vlan`, `sources.Slice` | A variant of an enumeration. The words below the text name the enumeration. |

`f x y` is what the function `f` returns for `x` and `y`.

# Types

In a contract, an unsigned number is a `ℕ`. An array, or the content of a slice, is the list of its elements, and a text
is the list of its bytes. The list of an `ArrayVec` is its field `items`. A struct has its fields, also those that are
private. A value of one of these types is the value that it represents:

| Type | Value |
| --- | --- |
"""
SECTIONS = {
    "Statements": [
        ("◌≡◌", "a ≡ b", "`a` equals `b`."),
        ("◌≢◌", "a ≢ b", "`a` does not equal `b`."),
        ("→", "p → q", "If `p` holds, so does `q`. Between types: the functions from `p` to `q`."),
        ("→", "(x : T) → p", "For each `x` of the type `T`, `p` holds."),
        ("×", "p × q", "`p` and `q` hold. Of types: the pairs."),
        ("×", "(x : T) × p", "There is an `x` of the type `T` for which `p` holds."),
        ("◌⊎◌", "p ⊎ q", "`p` or `q` holds."),
        ("¬", "¬ p", "`p` does not hold."),
        ("◌↔◌", "p ↔ q", "`p` holds exactly if `q` does."),
        ("⊤ Unit", "⊤`, `Unit {0}", "What always holds."),
        ("⊥", "⊥", "What never holds."),
        ("Type", "Type 0", "The type of statements, and of types."),
    ],
    "Definitions": [
        ("abbrev pub unfoldable", "abbrev pub f : S → T", "`f` is a function from `S` to `T`. Equations follow, and "
         "the first that fits decides. `unfoldable` means the same here. If `T` is `Type 0`, `f x` is a statement."),
        ("record where", "pub record R (x : T) : Type 0 where", "A kind of values, each with the fields that follow. "
         "If fields are statements, `R x` is one, too: there are values of the other fields for which all of them hold."),
        ("data", "pub data D : Type 0 where", "A kind of values, each made by one of the constructors that follow. If "
         "`D x` is a statement, they are rules: it holds if one of them ends in it, and what is before its arrows "
         "holds."),
        ("record", "record { x = a; y = b }", "The value with these fields."),
        ("record", "record r { x = a }", "The value `r`, but with `a` as its field `x`."),
        ("λ", "λ x. e", "The function that maps `x` to `e`."),
        ("let in", "let x = a in e", "`e`, where `x` is `a`."),
        ("if◌then◌else◌", "if b then x else y", "`x` if `b` is `true`, else `y`."),
    ],
    "Truth values": [
        ("Bool true false", "Bool", "The truth values `true` and `false`."),
        ("not ◌&&◌ ◌||◌", "not a`, `a && b`, `a || b", "Not, and, or."),
        ("IsTrue IsFalse", "IsTrue b`, `IsFalse b", "The statement that `b` is `true`, or `false`."),
        ("nat_eq ◌==◌", "nat_eq m n`, `m == n", "Whether two numbers are equal."),
        ("nat_lt nat_le", "nat_lt m n`, `nat_le m n", "Whether `m` is less than `n`, or at most `n`."),
        ("is_some is_none", "is_some o`, `is_none o", "Whether `o` is `Some`, or `None`."),
        ("is_ok", "is_ok r", "Whether `r` is `Ok`."),
        ("IsSome IsOk", "IsSome o`, `IsOk r", "The statement that `o` is `Some`, or `r` is `Ok`."),
    ],
    "Numbers": [
        ("ℕ zero suc", "ℕ", "The numbers 0, 1, 2 and so on. In an equation, `zero` is 0 and `suc n` is `n + 1`."),
        ("◌<◌ ◌≤◌", "m < n`, `m ≤ n", "`m` is less than `n`, or at most `n`."),
        ("◌+◌ ◌*◌ ◌^◌", "m + n`, `m * n`, `m ^ n", "Sum, product, power, without a bound."),
        ("◌-◌", "m - n", "The difference, or 0 if `n` is greater."),
        ("◌/◌ ◌%◌", "m / n`, `m % n", "The quotient and the remainder, both whole numbers."),
        ("min max", "min m n`, `max m n", "The lesser and the greater of two numbers."),
        ("bit_and", "bit_and m n", "The bits that are 1 in both of two numbers."),
        ("bit_xor", "bit_xor m n", "The exclusive or of the bits of two numbers."),
        ("rotate_left w64", "rotate_left w64 n k", "The 64 bits of `n`, rotated to the left by `k`."),
        ("decimal", "decimal n", "The decimal digits of `n`, in ASCII."),
        ("digit_glyph", "digit_glyph u d", "The digit or letter of the value `d`, below 16, in ASCII. "
         "If `u` is `true`, letters are upper case."),
        ("digit_value", "digit_value c", "The value of a digit, 0 to 9, or of a letter in either case, 10 to 35. It is "
         "36 if `c` is neither."),
        ("digits_value", "digits_value r ds", "The number that the digits `ds` write in base `r`."),
    ],
    "Lists": [
        ("List", "List T", "The lists of values of the type `T`."),
        ("[] ◌∷◌", "[]`, `x ∷ xs", "The empty list; `x`, then the list `xs`."),
        ("◌++◌", "xs ++ ys", "`xs`, then `ys`."),
        ("length", "length xs", "The number of elements."),
        ("take drop", "take n xs`, `drop n xs", "The first `n` elements, or all if there are fewer; the others."),
        ("slice_range", "slice_range xs a b", "`&xs[a..b]`: the elements from index `a` on, before index `b`."),
        ("slice_get", "slice_get xs i", "`xs.get(i)`: the element at index `i`, if there is one."),
        ("slice_index", "slice_index xs i", "`xs[i]`: the number at index `i`, or 0 past the end."),
        ("slice_index_or get_or", "slice_index_or xs i d`, `get_or xs i d", "The element at index `i`, or `d` past the "
         "end."),
        ("slice_set", "slice_set xs i x", "`xs` with `x` at index `i`; `xs` itself if `i` is past the end."),
        ("slice_split", "slice_split f xs", "`xs.split(f)`: the lists between the elements for which `f` is `true`."),
        ("map", "map f xs", "`f x` for each element `x`."),
        ("flat_map", "flat_map f xs", "The elements of the list `f x` for each element `x`."),
        ("filter", "filter f xs", "The elements for which `f` is `true`."),
        ("filter_map", "filter_map f xs", "`y` for each element `x` for which `f x` is `Some y`."),
        ("find", "find f xs", "The first element for which `f` is `true`, if there is one."),
        ("list_any list_all", "list_any f xs`, `list_all f xs", "Whether `f` is `true` for an element, or for each."),
        ("All", "All p xs", "`p x` holds for each element `x`."),
        ("IsAmong", "IsAmong xs x", "`x` is an element of `xs`."),
        ("reverse", "reverse xs", "The elements in reverse order."),
        ("replicate", "replicate n x", "`n` times `x`."),
        ("join_by", "join_by f s xs", "`f x` for each element, one after another, with `s` between two."),
        ("sum_by", "sum_by f xs", "The sum of `f x` for each element."),
        ("pointwise", "pointwise f xs ys", "Whether the lists are equally long, and `f` is `true` for each two elements "
         "at the same index."),
        ("bytes_eq", "bytes_eq xs ys", "Whether two lists of bytes are equal."),
        ("codes", 'codes "text"', "The bytes of an ASCII text."),
        ("is_utf8", "is_utf8 xs", "Whether bytes are UTF-8."),
        ("ipv4_octets", "ipv4_octets a", "The four bytes of an `Ipv4Addr`."),
    ],
    "Options and results": [
        ("Option Some None", "Option T", "`Some x` for an `x` of the type `T`, or `None`."),
        ("Result Ok Err", "Result T E", "`Ok x` for an `x` of the type `T`, or `Err e` for an `e` of the type `E`."),
        ("IfSome", "IfSome o p", "If `o` is `Some x`, then `p x` holds."),
        ("IfNone", "IfNone o q", "If `o` is `None`, then `q` holds."),
        ("MatchOption", "MatchOption o q p", "If `o` is `None`, then `q` holds; if it is `Some x`, then `p x`."),
        ("IfOk IfErr", "IfOk r p`, `IfErr r p", "If `r` is `Ok x`, or `Err x`, then `p x` holds."),
        ("OnOk OnErr", "OnOk r q`, `OnErr r q", "If `r` is `Ok`, or `Err`, then `q` holds."),
        ("MatchResult", "MatchResult r p q", "If `r` is `Ok x`, then `p x` holds; if it is `Err e`, then `q e`."),
        ("unwrap_or", "unwrap_or o d", "The value of `o`, or `d` if `o` is `None`."),
        ("option_map option_and_then", "option_map f o`, `option_and_then f o", "`o.map(f)` and `o.and_then(f)`."),
        ("option_or", "option_or o p", "`o.or(p)`: `o` if it is `Some`, else `p`."),
        ("option_copied option_copied_mut", "option_copied o`, `option_copied_mut o", "`o` with the value that its "
         "reference points to."),
        ("Keeps", "Keeps a b", "If the bytes `a` are known, so are `b`, and they are the same. Bytes that are not known "
         "are `None`."),
        ("Appends", "Appends a b xs", "If the bytes `a` are known, so are `b`, and they are `a`, then `xs`."),
        ("append_known", "append_known a xs", "The bytes `a`, then `xs`. They are known if `a` are."),
    ],
    "Loans": [
        ("MutBor", "MutBor T", "A `&mut T`."),
        ("Fml sem 𝓛", "sem 𝓛 (p)", "The statement `p` of the type `Fml`, on the value of a lent place at the end of the "
         "loan."),
        ("LendsIf", "LendsIf R T s r f d", "If `r` is `Some`, and the caller leaves `x` in the place that it lends, then "
         "`s` is `f x` afterwards. If `r` is `None`, `s` is `d`. `R` and `T` are the types of the two places."),
        ("LendsIfOk", "LendsIfOk R T s r f d", "The same for `Ok` and `Err`."),
        ("Array u8", "Array T 0`, `u8", "The types of a slice and of a byte, as the types of places."),
    ],
}
WORDS = {word for rows in SECTIONS.values() for words, _, _ in rows for word in words.split()}


def lines(types):
    """The lines of the page. `types` are pairs of types and what they are in a contract."""
    yield from [*PAGE.split("\n")[:-1], *(f"| {names} | {meaning} |" for names, meaning in types), ""]
    for title, rows in SECTIONS.items():
        yield from [f"# {title}", "", "| Notation | Meaning |", "| --- | --- |"]
        for _, shown, meaning in rows:
            yield f"| `{shown}` | {meaning} |".replace("||", "\\|\\|")
        yield ""
