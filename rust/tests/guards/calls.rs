//! The exported calls on slices between guards. (This file is laid out by hand: a slice is its pointer and its length.)

use crate::lent::{Input, Room};
use crate::library::*;

pub fn settings(i: &Input, _: &mut [Room]) -> u32 {
    let (d, l, q, b, r) = i.settings;
    unsafe { wovenrock_settings(d, l, q, b, r) }
}

pub fn commit(i: &Input, rooms: &mut [Room]) -> u32 {
    let ((d, l, q, b, r), [k, m, c]) = (i.settings, rooms) else { unreachable!() };
    unsafe { wovenrock_commit(d, l, q, b, r, k.at(), k.len(), m.at(), m.len(), c.at(), c.len()) }
}

pub fn round(i: &Input, rooms: &mut [Room]) -> u32 {
    let ((d, l, q, b, r), [k, m, p]) = (i.settings, rooms) else { unreachable!() };
    unsafe { wovenrock_round(d, l, q, b, r, i.done, k.at(), k.len(), m.at(), m.len(), p.at(), p.len()) }
}

pub fn fold(i: &Input, rooms: &mut [Room]) -> u32 {
    let ((d, l, q, b, r), [k, m]) = (i.settings, rooms) else { unreachable!() };
    unsafe { wovenrock_fold(d, l, q, b, r, i.done, i.exponent, k.at(), k.len(), m.at(), m.len()) }
}

pub fn end(i: &Input, rooms: &mut [Room]) -> u32 {
    let ((d, l, q, b, r), [m, f]) = (i.settings, rooms) else { unreachable!() };
    unsafe { wovenrock_end(d, l, q, b, r, i.done, m.at(), m.len(), f.at(), f.len()) }
}

pub fn open(i: &Input, rooms: &mut [Room]) -> u32 {
    let ((d, l, q, b, r), [k, m, e, p, c, f, v]) = (i.settings, rooms) else { unreachable!() };
    unsafe {
        wovenrock_open(d, l, q, b, r, k.at(), k.len(), m.at(), m.len(), e.at(), e.len(), p.at(), p.len(), c.at(), c.len(), f.at(), f.len(), v.at())
    }
}

pub fn session_start(i: &Input, rooms: &mut [Room]) -> u32 {
    let ((d, l, q, b, r), [c, s]) = (i.settings, rooms) else { unreachable!() };
    unsafe { wovenrock_session_start(d, l, q, b, r, c.at(), c.len(), s.at(), s.len()) }
}

pub fn session_round(i: &Input, rooms: &mut [Room]) -> u32 {
    let [p, s, v] = rooms else { unreachable!() };
    unsafe { wovenrock_session_round(p.at(), p.len(), i.exponent, s.at(), s.len(), v.at()) }
}

pub fn session_end(_: &Input, rooms: &mut [Room]) -> u32 {
    let [f, k, s, v] = rooms else { unreachable!() };
    unsafe { wovenrock_session_end(f.at(), f.len(), k.at(), k.len(), s.at(), s.len(), v.at()) }
}

pub fn check(i: &Input, rooms: &mut [Room]) -> u32 {
    let ((d, l, q, b, r), [c, f, k, p, e, v]) = (i.settings, rooms) else { unreachable!() };
    unsafe {
        wovenrock_check(d, l, q, b, r, c.at(), c.len(), f.at(), f.len(), k.at(), k.len(), p.at(), p.len(), e.at(), e.len(), v.at())
    }
}

pub fn judge(i: &Input, rooms: &mut [Room]) -> u32 {
    let ((d, l, q, b, r), [c, k, w, y]) = (i.settings, rooms) else { unreachable!() };
    unsafe { wovenrock_judge(d, l, q, b, r, c.at(), c.len(), i.slack, k.at(), k.len(), w.at(), w.len(), y.at()) }
}

pub fn extract(i: &Input, rooms: &mut [Room]) -> u32 {
    let ((d, l, q, b, r), [c, k, p, e, f, w]) = (i.settings, rooms) else { unreachable!() };
    unsafe {
        wovenrock_extract(d, l, q, b, r, c.at(), c.len(), k.at(), k.len(), p.at(), p.len(), e.at(), e.len(), f.at(), f.len(), w.at(), w.len())
    }
}

pub fn look(_: &Input, rooms: &mut [Room]) -> u32 {
    let [t, s] = rooms else { unreachable!() };
    unsafe { wovenrock_look(t.at(), t.len(), s.at(), s.len()) }
}

pub fn read(i: &Input, rooms: &mut [Room]) -> u32 {
    let [t, s, k, m, c, p, e, f, a] = rooms else { unreachable!() };
    unsafe {
        wovenrock_read(
            i.parts, t.at(), t.len(), s.at(), s.len(),
            k.at(), k.len(), m.at(), m.len(), c.at(), c.len(), p.at(), p.len(), e.at(), e.len(), f.at(), f.len(), a.at(), a.len(),
        )
    }
}

pub fn write(i: &Input, rooms: &mut [Room]) -> u32 {
    let ((d, l, q, b, r), [k, m, c, p, e, f, a, out, n]) = (i.settings, rooms) else { unreachable!() };
    unsafe {
        wovenrock_write(
            d, l, q, b, r, i.parts,
            k.at(), k.len(), m.at(), m.len(), c.at(), c.len(), p.at(), p.len(), e.at(), e.len(), f.at(), f.len(), a.at(), a.len(),
            out.at(), out.len(), n.at(),
        )
    }
}

pub fn prove(_: &Input, rooms: &mut [Room]) -> u32 {
    let [t, out, n] = rooms else { unreachable!() };
    unsafe { wovenrock_prove(t.at(), t.len(), out.at(), out.len(), n.at()) }
}

pub fn verify(_: &Input, rooms: &mut [Room]) -> u32 {
    let [t, v] = rooms else { unreachable!() };
    unsafe { wovenrock_verify(t.at(), t.len(), v.at()) }
}
