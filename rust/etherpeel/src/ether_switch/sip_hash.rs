//! SipHash-1-3, a keyed hash (Aumasson and Bernstein, "SipHash: a fast short-input PRF", 2012).

/// The four words of the state.
#[derive(Clone, Copy)]
struct State {
    a: u64,
    b: u64,
    c: u64,
    d: u64,
}

/// The hash of one word, the last one of a message, under a key.
#[inline]
pub(in crate::ether_switch) fn sip_hash(key: [u64; 2], word: u64) -> u64 {
    let state = initial(key);
    let state = round(State {
        d: state.d ^ word,
        ..state
    });
    let state = round(State {
        a: state.a ^ word,
        c: state.c ^ 0xFF,
        ..state
    });
    let state = round(round(state));
    state.a ^ state.b ^ state.c ^ state.d
}

/// The state before the first word.
#[inline]
fn initial(key: [u64; 2]) -> State {
    let [first, second] = key;
    State {
        a: first ^ 0x736F_6D65_7073_6575,
        b: second ^ 0x646F_7261_6E64_6F6D,
        c: first ^ 0x6C79_6765_6E65_7261,
        d: second ^ 0x7465_6462_7974_6573,
    }
}

/// The state after one round.
#[inline]
fn round(state: State) -> State {
    let a = state.a.wrapping_add(state.b);
    let b = state.b.rotate_left(13) ^ a;
    let c = state.c.wrapping_add(state.d);
    let d = state.d.rotate_left(16) ^ c;
    let e = a.rotate_left(32).wrapping_add(d);
    let f = c.wrapping_add(b);
    State {
        a: e,
        b: b.rotate_left(17) ^ f,
        c: f.rotate_left(32),
        d: d.rotate_left(21) ^ e,
    }
}
