//! The proved calls, as include/fountain.h declares them, over slices.
use crate::tuned::Card;

extern "C" {
    fn fountain_check_read(
        f: u32,
        l: u8,
        r: u8,
        m: u8,
        lo: u16,
        hi: u16,
        dealt: u8,
        width: u32,
        weights: *const u8,
        weights_len: usize,
        read: *const u8,
        read_len: usize,
        out: *mut u8,
        out_len: usize,
    ) -> u32;
    fn fountain_choose_call(
        f: u32,
        l: u8,
        r: u8,
        m: u8,
        lo: u16,
        hi: u16,
        dealt: u8,
        width: u32,
        weights: *const u8,
        weights_len: usize,
        first: *const u8,
        first_len: usize,
        second: *const u8,
        second_len: usize,
        answer: *mut u64,
    ) -> u32;
    fn fountain_write(
        f: u32,
        l: u8,
        r: u8,
        m: u8,
        lo: u16,
        hi: u16,
        dealt: u8,
        width: u32,
        weights: *const u8,
        weights_len: usize,
        file: *const u8,
        file_len: usize,
        start: u32,
        wanted: u32,
        budget: u32,
        out: *mut u8,
        out_len: usize,
        list: *mut u32,
        list_len: usize,
        answer: *mut u64,
    ) -> u32;
    fn fountain_store(
        f: u32,
        l: u8,
        r: u8,
        m: u8,
        lo: u16,
        hi: u16,
        dealt: u8,
        width: u32,
        weights: *const u8,
        weights_len: usize,
        store: *mut u8,
        store_len: usize,
        count: usize,
        read: *const u8,
        read_len: usize,
        answer: *mut u64,
    ) -> u32;
    fn fountain_restore(
        f: u32,
        l: u8,
        r: u8,
        m: u8,
        lo: u16,
        hi: u16,
        dealt: u8,
        width: u32,
        weights: *const u8,
        weights_len: usize,
        store: *const u8,
        store_len: usize,
        count: usize,
        file: *mut u8,
        file_len: usize,
        marks: *mut u8,
        marks_len: usize,
        list: *mut u32,
        list_len: usize,
        answer: *mut u64,
    ) -> u32;
    fn fountain_deal(
        f: u32,
        l: u8,
        r: u8,
        m: u8,
        lo: u16,
        hi: u16,
        dealt: u8,
        width: u32,
        weights: *const u8,
        weights_len: usize,
        source: *const u8,
        source_len: usize,
        target: *mut u8,
        target_len: usize,
    ) -> u32;
    fn fountain_undeal(
        f: u32,
        l: u8,
        r: u8,
        m: u8,
        lo: u16,
        hi: u16,
        dealt: u8,
        width: u32,
        weights: *const u8,
        weights_len: usize,
        source: *const u8,
        source_len: usize,
        target: *mut u8,
        target_len: usize,
    ) -> u32;
}

pub fn check_read(c: Card, weights: &[u8], read: &[u8], out: &mut [u8]) -> u32 {
    let (w, wn) = (weights.as_ptr(), weights.len());
    let (o, on) = (out.as_mut_ptr(), out.len());
    unsafe {
        fountain_check_read(
            c.f,
            c.l,
            c.r,
            c.m,
            c.lo,
            c.hi,
            c.dealt,
            c.width,
            w,
            wn,
            read.as_ptr(),
            read.len(),
            o,
            on,
        )
    }
}

pub fn choose_call(
    c: Card,
    weights: &[u8],
    first: &[u8],
    second: &[u8],
    answer: &mut [u64; 1],
) -> u32 {
    let (w, wn) = (weights.as_ptr(), weights.len());
    let (f, fl) = (first.as_ptr(), first.len());
    let (s, sn) = (second.as_ptr(), second.len());
    let a = answer.as_mut_ptr();
    unsafe {
        fountain_choose_call(
            c.f, c.l, c.r, c.m, c.lo, c.hi, c.dealt, c.width, w, wn, f, fl, s, sn, a,
        )
    }
}

#[allow(clippy::too_many_arguments)]
pub fn write(
    c: Card,
    weights: &[u8],
    file: &[u8],
    start: u32,
    wanted: u32,
    budget: u32,
    out: &mut [u8],
    list: &mut [u32],
    answer: &mut [u64; 6],
) -> u32 {
    let (w, wn) = (weights.as_ptr(), weights.len());
    let (f, fl) = (file.as_ptr(), file.len());
    let (o, on) = (out.as_mut_ptr(), out.len());
    let (i, il) = (list.as_mut_ptr(), list.len());
    let a = answer.as_mut_ptr();
    unsafe {
        fountain_write(
            c.f, c.l, c.r, c.m, c.lo, c.hi, c.dealt, c.width, w, wn, f, fl, start, wanted, budget,
            o, on, i, il, a,
        )
    }
}

pub fn store(
    c: Card,
    weights: &[u8],
    shelf: &mut [u8],
    count: usize,
    read: &[u8],
    answer: &mut [u64; 2],
) -> u32 {
    let (w, wn) = (weights.as_ptr(), weights.len());
    let (s, sn) = (shelf.as_mut_ptr(), shelf.len());
    let a = answer.as_mut_ptr();
    unsafe {
        fountain_store(
            c.f,
            c.l,
            c.r,
            c.m,
            c.lo,
            c.hi,
            c.dealt,
            c.width,
            w,
            wn,
            s,
            sn,
            count,
            read.as_ptr(),
            read.len(),
            a,
        )
    }
}

#[allow(clippy::too_many_arguments)]
pub fn restore(
    c: Card,
    weights: &[u8],
    shelf: &[u8],
    count: usize,
    file: &mut [u8],
    marks: &mut [u8],
    list: &mut [u32],
    answer: &mut [u64; 3],
) -> u32 {
    let (w, wn) = (weights.as_ptr(), weights.len());
    let (s, sn) = (shelf.as_ptr(), shelf.len());
    let (f, fl) = (file.as_mut_ptr(), file.len());
    let (m, ml) = (marks.as_mut_ptr(), marks.len());
    let (i, il) = (list.as_mut_ptr(), list.len());
    let a = answer.as_mut_ptr();
    unsafe {
        fountain_restore(
            c.f, c.l, c.r, c.m, c.lo, c.hi, c.dealt, c.width, w, wn, s, sn, count, f, fl, m, ml, i,
            il, a,
        )
    }
}

pub fn deal(c: Card, weights: &[u8], source: &[u8], target: &mut [u8]) -> u32 {
    let (w, wn) = (weights.as_ptr(), weights.len());
    let (s, sn) = (source.as_ptr(), source.len());
    let (t, tn) = (target.as_mut_ptr(), target.len());
    unsafe {
        fountain_deal(
            c.f, c.l, c.r, c.m, c.lo, c.hi, c.dealt, c.width, w, wn, s, sn, t, tn,
        )
    }
}

pub fn undeal(c: Card, weights: &[u8], source: &[u8], target: &mut [u8]) -> u32 {
    let (w, wn) = (weights.as_ptr(), weights.len());
    let (s, sn) = (source.as_ptr(), source.len());
    let (t, tn) = (target.as_mut_ptr(), target.len());
    unsafe {
        fountain_undeal(
            c.f, c.l, c.r, c.m, c.lo, c.hi, c.dealt, c.width, w, wn, s, sn, t, tn,
        )
    }
}
