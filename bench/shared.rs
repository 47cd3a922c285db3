// What both plain programs share: spans, resolvents in one merge pass, and records.
#[derive(Clone, Copy, Default)]
pub struct Span {
    pub start: u32,
    pub length: u32,
}

pub fn word(bytes: &[u8], at: usize) -> u32 {
    u32::from_le_bytes(bytes[at..at + 4].try_into().unwrap())
}

// The resolvent of two clauses in one merge pass, written from `from` on; where it ends.
pub fn join(literals: &mut [u32], from: usize, a: Span, b: Span, p: u32, q: u32) -> Option<usize> {
    let (mut i, mut j, mut at) = (a.start as usize, b.start as usize, from);
    let (e, f) = (i + a.length as usize, j + b.length as usize);
    if from + (e - i) + (f - j) > literals.len() + 2 {
        return None;
    }
    while i < e && j < f {
        let (x, y) = (literals[i], literals[j]);
        literals[at] = if x < y { x } else { y };
        at += ((x != p) & (y != q)) as usize;
        i += ((x == p) | ((y != q) & (x <= y))) as usize;
        j += ((x != p) & ((y == q) | (y <= x))) as usize;
    }
    while i < e {
        if literals[i] != p {
            literals[at] = literals[i];
            at += 1;
        }
        i += 1;
    }
    while j < f {
        if literals[j] != q {
            literals[at] = literals[j];
            at += 1;
        }
        j += 1;
    }
    Some(at)
}

pub fn clause(literals: &[u32], span: Span) -> &[u32] {
    &literals[span.start as usize..(span.start + span.length) as usize]
}

pub fn literal(out: &mut Vec<u8>, literal: u32) {
    out.push(2);
    out.extend(literal.to_le_bytes());
}

pub fn take(out: &mut Vec<u8>, number: u32) {
    out.push(5);
    out.extend(number.to_le_bytes());
}

pub fn resolve(out: &mut Vec<u8>, left: u32, right: u32, pivot: u32) {
    out.push(6);
    out.extend(left.to_le_bytes());
    out.extend(right.to_le_bytes());
    out.extend(pivot.to_le_bytes());
}
