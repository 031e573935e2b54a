//! The notation of contracts and definitions.
//!
//! A contract is written for Rattle, the language in which the sources of this crate are proved. This page explains the
//! forms of contracts and definitions, their signs, and the words that are of Rattle's standard library.
//!
//! # Contracts
//!
//! | In a contract | Meaning |
//! | --- | --- |
//! | `requires { p }` | The caller has to make sure that `p` holds. |
//! | `ensures { p }` | `p` holds when the call returns. With several clauses each has a name, as in `ensures walk { p }`. |
//! | `ensures* { p }` | `p` holds of a lent place at the end of the loan. |
//! | `result` | What the call returns. |
//! | `x.now` | What the reference `x` points to. |
//! | `x.old`, `x.new` | What the parameter `x: &mut T` points to when the call begins, and when it returns. |
//! | `x.entry` | The reference `x` itself, as it was passed. |
//! | `x.ghost_name` | The name of a reference's loan: references with the same name lend the same place. |
//! | `p.x`, `p.0` | A field of a struct or a tuple. |
//! | `W.contents` | For a type parameter `W`: its `contents`, which the contracts of its trait explain. |
//! | `kinds.Vlan`, `sources.Slice` | A variant of an enumeration. The words below the text name the enumeration. |
//!
//! `f x y` is what the function `f` returns for `x` and `y`.
//!
//! # Types
//!
//! In a contract, an unsigned number is a `ℕ`. An array, or the content of a slice, is the list of its elements, and a text
//! is the list of its bytes. The list of an `ArrayVec` is its field `items`. A struct has its fields, also those that are
//! private. A value of one of these types is the value that it represents:
//!
//! | Type | Value |
//! | --- | --- |
//! | `LinuxNonstandardEtherType`, `LinuxSllPacketType`, `MacsecAn`, `MacsecShortLen`, `VlanId`, `VlanPcp`, `Vlan` | `ℕ` |
//! | `ArpPacketSlice`, `Ethernet2HeaderSlice`, `LinuxSll2HeaderSlice`, `LinuxSll2Slice`, `LinuxSllHeaderSlice`, `LinuxSllSlice`, `SingleVlanHeaderSlice`, `SingleVlanSlice` | `List ℕ` |
//! | `Ethernet2Slice` | [`Frame`](crate::definitions::ether_tags#def.Frame) |
//! | `ArpPacket` | [`ArpValue`](crate::definitions::ether_base#def.ArpValue) |
//! | `Peel` | [`State`](crate::definitions::ether_peel#def.State) |
//! | `ExtPlaces` | `List` [`Placed`](crate::definitions::ether_packet#def.ExtPlace) |
//! | `PacketUnits` | [`Read`](crate::definitions::ether_packet#def.Read) |
//! | `Filter` | [`Expression`](crate::definitions::ether_filter#def.Expression) |
//! | `CapturePackets` | [`CaptureState`](crate::definitions::ether_pcap#def.CaptureState) |
//! | `CaptureReader` | [`CaptureExpectation`](crate::definitions::ether_pcap#def.CaptureExpectation) |
//! | `PcapRecords` | [`RecordState`](crate::definitions::ether_pcap#def.RecordState) |
//! | `PcapngOptions` | [`OptionsState`](crate::definitions::ether_pcap#def.OptionsState) |
//!
//! # Statements
//!
//! | Notation | Meaning |
//! | --- | --- |
//! | `a ≡ b` | `a` equals `b`. |
//! | `a ≢ b` | `a` does not equal `b`. |
//! | `p → q` | If `p` holds, so does `q`. Between types: the functions from `p` to `q`. |
//! | `(x : T) → p` | For each `x` of the type `T`, `p` holds. |
//! | `p × q` | `p` and `q` hold. Of types: the pairs. |
//! | `(x : T) × p` | There is an `x` of the type `T` for which `p` holds. |
//! | `p ⊎ q` | `p` or `q` holds. |
//! | `¬ p` | `p` does not hold. |
//! | `p ↔ q` | `p` holds exactly if `q` does. |
//! | `⊤`, `Unit {0}` | What always holds. |
//! | `⊥` | What never holds. |
//! | `Type 0` | The type of statements, and of types. |
//!
//! # Definitions
//!
//! | Notation | Meaning |
//! | --- | --- |
//! | `abbrev pub f : S → T` | `f` is a function from `S` to `T`. Equations follow, and the first that fits decides. `unfoldable` means the same here. If `T` is `Type 0`, `f x` is a statement. |
//! | `pub record R (x : T) : Type 0 where` | A kind of values, each with the fields that follow. If fields are statements, `R x` is one, too: there are values of the other fields for which all of them hold. |
//! | `pub data D : Type 0 where` | A kind of values, each made by one of the constructors that follow. If `D x` is a statement, they are rules: it holds if one of them ends in it, and what is before its arrows holds. |
//! | `record { x = a; y = b }` | The value with these fields. |
//! | `record r { x = a }` | The value `r`, but with `a` as its field `x`. |
//! | `λ x. e` | The function that maps `x` to `e`. |
//! | `let x = a in e` | `e`, where `x` is `a`. |
//! | `if b then x else y` | `x` if `b` is `true`, else `y`. |
//!
//! # Truth values
//!
//! | Notation | Meaning |
//! | --- | --- |
//! | `Bool` | The truth values `true` and `false`. |
//! | `not a`, `a && b`, `a \|\| b` | Not, and, or. |
//! | `IsTrue b`, `IsFalse b` | The statement that `b` is `true`, or `false`. |
//! | `nat_eq m n`, `m == n` | Whether two numbers are equal. |
//! | `nat_lt m n`, `nat_le m n` | Whether `m` is less than `n`, or at most `n`. |
//! | `is_some o`, `is_none o` | Whether `o` is `Some`, or `None`. |
//! | `is_ok r` | Whether `r` is `Ok`. |
//! | `IsSome o`, `IsOk r` | The statement that `o` is `Some`, or `r` is `Ok`. |
//!
//! # Numbers
//!
//! | Notation | Meaning |
//! | --- | --- |
//! | `ℕ` | The numbers 0, 1, 2 and so on. In an equation, `zero` is 0 and `suc n` is `n + 1`. |
//! | `m < n`, `m ≤ n` | `m` is less than `n`, or at most `n`. |
//! | `m + n`, `m * n`, `m ^ n` | Sum, product, power, without a bound. |
//! | `m - n` | The difference, or 0 if `n` is greater. |
//! | `m / n`, `m % n` | The quotient and the remainder, both whole numbers. |
//! | `min m n`, `max m n` | The lesser and the greater of two numbers. |
//! | `bit_and m n` | The bits that are 1 in both of two numbers. |
//! | `bit_xor m n` | The exclusive or of the bits of two numbers. |
//! | `rotate_left w64 n k` | The 64 bits of `n`, rotated to the left by `k`. |
//! | `decimal n` | The decimal digits of `n`, in ASCII. |
//! | `digit_glyph u d` | The digit or letter of the value `d`, below 16, in ASCII. If `u` is `true`, letters are upper case. |
//! | `digit_value c` | The value of a digit, 0 to 9, or of a letter in either case, 10 to 35. It is 36 if `c` is neither. |
//! | `digits_value r ds` | The number that the digits `ds` write in base `r`. |
//!
//! # Lists
//!
//! | Notation | Meaning |
//! | --- | --- |
//! | `List T` | The lists of values of the type `T`. |
//! | `[]`, `x ∷ xs` | The empty list; `x`, then the list `xs`. |
//! | `xs ++ ys` | `xs`, then `ys`. |
//! | `length xs` | The number of elements. |
//! | `take n xs`, `drop n xs` | The first `n` elements, or all if there are fewer; the others. |
//! | `slice_range xs a b` | `&xs[a..b]`: the elements from index `a` on, before index `b`. |
//! | `slice_get xs i` | `xs.get(i)`: the element at index `i`, if there is one. |
//! | `slice_index xs i` | `xs[i]`: the number at index `i`, or 0 past the end. |
//! | `slice_index_or xs i d`, `get_or xs i d` | The element at index `i`, or `d` past the end. |
//! | `slice_set xs i x` | `xs` with `x` at index `i`; `xs` itself if `i` is past the end. |
//! | `slice_split f xs` | `xs.split(f)`: the lists between the elements for which `f` is `true`. |
//! | `map f xs` | `f x` for each element `x`. |
//! | `flat_map f xs` | The elements of the list `f x` for each element `x`. |
//! | `filter f xs` | The elements for which `f` is `true`. |
//! | `filter_map f xs` | `y` for each element `x` for which `f x` is `Some y`. |
//! | `find f xs` | The first element for which `f` is `true`, if there is one. |
//! | `list_any f xs`, `list_all f xs` | Whether `f` is `true` for an element, or for each. |
//! | `All p xs` | `p x` holds for each element `x`. |
//! | `IsAmong xs x` | `x` is an element of `xs`. |
//! | `reverse xs` | The elements in reverse order. |
//! | `replicate n x` | `n` times `x`. |
//! | `join_by f s xs` | `f x` for each element, one after another, with `s` between two. |
//! | `sum_by f xs` | The sum of `f x` for each element. |
//! | `pointwise f xs ys` | Whether the lists are equally long, and `f` is `true` for each two elements at the same index. |
//! | `bytes_eq xs ys` | Whether two lists of bytes are equal. |
//! | `codes "text"` | The bytes of an ASCII text. |
//! | `is_utf8 xs` | Whether bytes are UTF-8. |
//! | `ipv4_octets a` | The four bytes of an `Ipv4Addr`. |
//!
//! # Options and results
//!
//! | Notation | Meaning |
//! | --- | --- |
//! | `Option T` | `Some x` for an `x` of the type `T`, or `None`. |
//! | `Result T E` | `Ok x` for an `x` of the type `T`, or `Err e` for an `e` of the type `E`. |
//! | `IfSome o p` | If `o` is `Some x`, then `p x` holds. |
//! | `IfNone o q` | If `o` is `None`, then `q` holds. |
//! | `MatchOption o q p` | If `o` is `None`, then `q` holds; if it is `Some x`, then `p x`. |
//! | `IfOk r p`, `IfErr r p` | If `r` is `Ok x`, or `Err x`, then `p x` holds. |
//! | `OnOk r q`, `OnErr r q` | If `r` is `Ok`, or `Err`, then `q` holds. |
//! | `MatchResult r p q` | If `r` is `Ok x`, then `p x` holds; if it is `Err e`, then `q e`. |
//! | `unwrap_or o d` | The value of `o`, or `d` if `o` is `None`. |
//! | `option_map f o`, `option_and_then f o` | `o.map(f)` and `o.and_then(f)`. |
//! | `option_or o p` | `o.or(p)`: `o` if it is `Some`, else `p`. |
//! | `option_copied o`, `option_copied_mut o` | `o` with the value that its reference points to. |
//! | `Keeps a b` | If the bytes `a` are known, so are `b`, and they are the same. Bytes that are not known are `None`. |
//! | `Appends a b xs` | If the bytes `a` are known, so are `b`, and they are `a`, then `xs`. |
//! | `append_known a xs` | The bytes `a`, then `xs`. They are known if `a` are. |
//!
//! # Loans
//!
//! | Notation | Meaning |
//! | --- | --- |
//! | `MutBor T` | A `&mut T`. |
//! | `sem 𝓛 (p)` | The statement `p` of the type `Fml`, on the value of a lent place at the end of the loan. |
//! | `LendsIf R T s r f d` | If `r` is `Some`, and the caller leaves `x` in the place that it lends, then `s` is `f x` afterwards. If `r` is `None`, `s` is `d`. `R` and `T` are the types of the two places. |
//! | `LendsIfOk R T s r f d` | The same for `Ok` and `Err`. |
//! | `Array T 0`, `u8` | The types of a slice and of a byte, as the types of places. |
//!
