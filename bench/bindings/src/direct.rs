//! The tasks through the C functions, with buffers and names that are there, as a C program would.
use crate::inputs::{Kind, Task};
use crate::{repeat, sum, FAILED};
use std::hint::black_box;

/// Two numbers: those of a name that is read, parsed or written.
#[repr(C)]
#[derive(Default)]
struct Pair {
    len: usize,
    second: usize,
}

extern "C" {
    fn dnw_name_read(message: *const u8, len: usize, start: usize, form: *mut u8, size: usize, read: *mut Pair) -> u32;
    fn dnw_name_parse(
        text: *const u8,
        len: usize,
        origin: *const u8,
        origin_len: usize,
        form: *mut u8,
        size: usize,
        parsed: *mut Pair,
    ) -> u32;
    fn dnw_name_print(form: *const u8, form_len: usize, fqdn: bool, text: *mut u8, size: usize, len: *mut usize)
        -> u32;
    fn dnw_names_write(names: *const u8, len: usize, max: u16, out: *mut u8, size: usize, written: *mut Pair) -> u32;
    fn dnw_names_sort(names: *const u8, names_len: usize, order: *mut usize, order_len: usize) -> u32;
    fn dnw_name_compare(left: *const u8, len: usize, right: *const u8, right_len: usize, order: *mut i32) -> u32;
}

pub fn run(task: &Task, count: u64) -> Option<u64> {
    Some(match task.kind {
        Kind::Read => repeat(count, || sum(&task.starts, |start| read(black_box(&task.bytes), *start as usize))),
        Kind::Emit => {
            let mut out = vec![0; 65535];
            repeat(count, || write(black_box(&task.bytes), &mut out))
        }
        Kind::Parse => {
            let texts: Vec<&[u8]> = task.bytes.split(|byte| *byte == b'\n').filter(|text| !text.is_empty()).collect();
            repeat(count, || sum(black_box(&texts), |text| parse(text)))
        }
        Kind::Print => {
            let forms = forms(&task.bytes);
            repeat(count, || sum(black_box(&forms), |form| print(form)))
        }
        Kind::Compare => {
            let forms = forms(&task.bytes);
            repeat(count, || sum(black_box(&forms).windows(2), |pair| (1 + compare(pair[0], pair[1])) as u64))
        }
        Kind::Sort => {
            let forms = forms(&task.bytes);
            repeat(count, || sort(black_box(&task.bytes), &forms))
        }
        _ => return None,
    })
}

/// The wire forms of a list.
fn forms(list: &[u8]) -> Vec<&[u8]> {
    let (mut forms, mut at) = (vec![], 0);
    while at < list.len() {
        let mut form = [0; 255];
        let mut pair = Pair::default();
        // SAFETY: pointers with their lengths.
        unsafe { dnw_name_read(list.as_ptr(), list.len(), at, form.as_mut_ptr(), 255, &mut pair) };
        forms.push(&list[at..pair.second]);
        at = pair.second;
    }
    forms
}

fn read(message: &[u8], start: usize) -> u64 {
    let (mut form, mut pair) = ([0; 255], Pair::default());
    // SAFETY: pointers with their lengths.
    match unsafe { dnw_name_read(message.as_ptr(), message.len(), start, form.as_mut_ptr(), 255, &mut pair) } {
        0 => pair.second as u64 + 65536 * black_box(&form[..pair.len]).len() as u64,
        _ => FAILED,
    }
}

fn write(list: &[u8], out: &mut [u8]) -> u64 {
    let mut pair = Pair::default();
    // SAFETY: pointers with their lengths.
    match unsafe { dnw_names_write(list.as_ptr(), list.len(), u16::MAX, out.as_mut_ptr(), out.len(), &mut pair) } {
        0 => pair.len as u64,
        _ => FAILED,
    }
}

fn parse(text: &[u8]) -> u64 {
    let (mut form, mut pair) = ([0; 255], Pair::default());
    // SAFETY: pointers with their lengths.
    match unsafe { dnw_name_parse(text.as_ptr(), text.len(), text.as_ptr(), 0, form.as_mut_ptr(), 255, &mut pair) } {
        0 => black_box(&form[..pair.len]).len() as u64,
        _ => FAILED,
    }
}

fn print(form: &[u8]) -> u64 {
    let (mut text, mut len) = ([0; 1004], 0);
    // SAFETY: pointers with their lengths.
    match unsafe { dnw_name_print(form.as_ptr(), form.len(), true, text.as_mut_ptr(), 1004, &mut len) } {
        0 => black_box(&text[..len]).len() as u64,
        _ => FAILED,
    }
}

fn compare(left: &[u8], right: &[u8]) -> i64 {
    let mut order = 0;
    // SAFETY: pointers with their lengths.
    unsafe { dnw_name_compare(left.as_ptr(), left.len(), right.as_ptr(), right.len(), &mut order) };
    order.into()
}

fn sort(list: &[u8], forms: &[&[u8]]) -> u64 {
    let mut order = vec![0; forms.len()];
    // SAFETY: pointers with their lengths.
    match unsafe { dnw_names_sort(list.as_ptr(), list.len(), order.as_mut_ptr(), order.len()) } {
        0 => sum(order.iter().zip(1..), |(number, rank)| rank * forms[*number].len() as u64),
        _ => FAILED,
    }
}
