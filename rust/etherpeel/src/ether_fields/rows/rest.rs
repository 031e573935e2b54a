//! The rows of the section `rest`, as `fields.py` writes them.
use crate::ether_fields::extent::Extent;
use crate::ether_fields::field::Field;
use crate::ether_fields::kind::Kind;

/// The fields of the section `rest`, in order.
pub static REST: [Field; 4] = [
    Field {
        name: "start",
        key: "{\"start\":",
        column: "rest.start",
        title: "Start",
        abbreviation: "",
        kind: Kind::Number,
        extent: Extent::Computed,
        number: 0,
        symbol: "",
        is_member: true,
        is_column: true,
    },
    Field {
        name: "end",
        key: ",\"end\":",
        column: "rest.end",
        title: "End",
        abbreviation: "",
        kind: Kind::Number,
        extent: Extent::Computed,
        number: 0,
        symbol: "",
        is_member: true,
        is_column: true,
    },
    Field {
        name: "kind",
        key: ",\"kind\":",
        column: "rest.kind",
        title: "Kind",
        abbreviation: "",
        kind: Kind::Word,
        extent: Extent::Computed,
        number: 0,
        symbol: "",
        is_member: true,
        is_column: true,
    },
    Field {
        name: "type",
        key: ",\"type\":",
        column: "rest.type",
        title: "Type",
        abbreviation: "",
        kind: Kind::EtherType,
        extent: Extent::Computed,
        number: 0,
        symbol: "",
        is_member: true,
        is_column: true,
    },
];
