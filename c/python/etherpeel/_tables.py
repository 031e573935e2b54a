"""Tables: a row of numbers for each packet of a capture, for NumPy and pandas."""
from __future__ import annotations

import ctypes as C
from typing import TYPE_CHECKING, Any, Dict, Iterator, List, NamedTuple, Optional, Sequence, Tuple, Union, overload

from . import _header
from ._header import FaultKind
from ._library import lib, required

if TYPE_CHECKING:
    import numpy
    import pandas

_NO_TIME = -2**63
_ROWS = 4096
_NUMBERS = {C.c_uint8: "|u1", C.c_uint16: "<u2", C.c_uint32: "<u4", C.c_uint64: "<u8", C.c_int64: "<i8", C.c_size_t: "<u8"}


class Row(NamedTuple):
    """What a table has of a packet."""

    time_ns: Optional[int]
    """The time of the capture in nanoseconds since 1970, UTC; None if it has none, or none before the year 2262."""
    captured_len: int
    original_len: int
    """The length of the packet in bytes before it was cut."""
    link_type: int
    destination: Optional[int]
    """The destination of an Ethernet II header as one number, whose digits in base 16 are those of the address."""
    source: Optional[int]
    vlan_ids: Tuple[int, ...]
    """The identifiers of the VLAN tags, outermost first: at most three."""
    ether_type: int
    """What announces the bytes after the headers; 0 if no ether type does, as after an ARP packet."""
    has_macsec: bool
    has_arp: bool
    fault: Optional[FaultKind]
    """Why a header is refused, if one is."""
    fault_offset: int
    """Where it is in the frame that is walked; 0 if none is."""


class Table(Sequence[Row]):
    """A row for each packet of a capture, as `Capture.table` returns it: a sequence of `Row`.

    NumPy takes it as an array of records, without a copy: `numpy.asarray(table)["vlan_count"]`. `columns` has an array for each column,
    and `to_pandas` a data frame. It can be pickled.
    """

    def __init__(self, rows: Any) -> None:
        self._rows = rows
        self._memory = memoryview(rows).cast("B") if len(rows) else b""

    def __array__(self, dtype: Any = None, copy: Optional[bool] = None) -> numpy.ndarray[Any, Any]:
        import numpy

        rows = numpy.ndarray(len(self._rows), numpy.dtype(_described()), memoryview(self._memory).toreadonly())
        return rows if dtype is None and not copy else numpy.array(rows, dtype)

    def columns(self) -> Dict[str, numpy.ndarray[Any, Any]]:
        """The columns as arrays of NumPy, each with memory of its own, by their names: those of `Row`, with `time` (`datetime64[ns]`,
        NaT without a time), `vlan_count` and `vlan_1` to `vlan_3`, and `has_addresses`: 0 where `destination` and `source` are 0
        because there is no Ethernet II header."""
        import numpy

        rows = numpy.asarray(self)
        views = {name: rows[name] for name, *_ in _header.Row._fields_ if name != "vlan_ids"}
        views["time"] = views["time"].view("datetime64[ns]")
        views.update((f"vlan_{i + 1}", rows["vlan_ids"][:, i]) for i in range(_header.Row.vlan_ids.size // 2))
        found = {name: numpy.empty(len(rows), view.dtype) for name, view in views.items()}
        for begin in range(0, len(rows), _ROWS):  # as many rows at a time as a processor keeps at hand
            for name, view in views.items():
                found[name][begin:begin + _ROWS] = view[begin:begin + _ROWS]
        return found

    def to_pandas(self) -> pandas.DataFrame:
        """The columns as a data frame of pandas."""
        import pandas

        return pandas.DataFrame(self.columns(), copy=False)

    def __len__(self) -> int:
        return len(self._rows)

    @overload
    def __getitem__(self, index: int) -> Row: ...

    @overload
    def __getitem__(self, index: slice) -> List[Row]: ...

    def __getitem__(self, index: Union[int, slice]) -> Union[Row, List[Row]]:
        places = range(len(self._rows))[index]
        return self._row(places) if isinstance(places, int) else [self._row(at) for at in places]

    def __iter__(self) -> Iterator[Row]:
        return map(self._row, range(len(self._rows)))

    def __repr__(self) -> str:
        return f"<etherpeel.Table with {len(self)} rows>"

    def __reduce__(self) -> Tuple[Any, ...]:
        return _unpickled, (bytes(self._memory),)

    def _row(self, index: int) -> Row:
        row = self._rows[index]
        has_addresses = bool(row.has_addresses)
        return Row(row.time if row.time != _NO_TIME else None, row.captured_len, row.original_len, row.link_type,
                   row.destination if has_addresses else None, row.source if has_addresses else None,
                   tuple(row.vlan_ids[:row.vlan_count]), row.ether_type, bool(row.has_macsec), bool(row.has_arp),
                   FaultKind(row.fault) if row.fault else None, row.fault_offset)


def _described() -> Any:
    """The fields of a row and their places, as NumPy takes them."""
    names = [name for name, _ in _header.Row._fields_]
    kinds = [(_NUMBERS[it._type_], (it._length_,)) if hasattr(it, "_length_") else _NUMBERS[it] for _, it in _header.Row._fields_]
    return {"names": names, "formats": kinds, "offsets": [getattr(_header.Row, it).offset for it in names], "itemsize": C.sizeof(_header.Row)}


def _unpickled(content: bytes) -> Table:
    """The table whose rows have these bytes."""
    return Table((_header.Row * (len(content) // C.sizeof(_header.Row))).from_buffer_copy(content))


def table_of(packets: Any) -> Table:
    """The table of an array of packets."""
    rows = (_header.Row * len(packets))()
    required(lib.etherpeel_rows(packets, len(packets), rows, len(rows)))
    return Table(rows)
