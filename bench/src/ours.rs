//! dns-names-wire, through the functions of `include/dnw_bench.h`.
use crate::inputs::{Kind, Task};

extern "C" {
    fn dnw_read_names(message: *const u8, len: usize, starts: *const u32, n: usize, count: u64) -> u64;
    fn dnw_read_over(message: *const u8, len: usize, starts: *const u32, n: usize, count: u64) -> u64;
    fn dnw_emit_names(names: *const u8, len: usize, count: u64) -> u64;
    fn dnw_emit_lower(names: *const u8, len: usize, count: u64) -> u64;
    fn dnw_parse_names(texts: *const u8, len: usize, count: u64) -> u64;
    fn dnw_to_ascii(names: *const u8, len: usize, count: u64) -> u64;
    fn dnw_clone_names(names: *const u8, len: usize, count: u64) -> u64;
    fn dnw_copy_over(names: *const u8, len: usize, count: u64) -> u64;
    fn dnw_collect_names(names: *const u8, len: usize, count: u64) -> u64;
    fn dnw_compare(names: *const u8, len: usize, count: u64) -> u64;
    fn dnw_sort(names: *const u8, len: usize, count: u64) -> u64;
    fn dnw_hash(names: *const u8, len: usize, count: u64) -> u64;
    fn dnw_find_names(names: *const u8, len: usize, count: u64) -> u64;
    fn dnw_list_names(names: *const u8, len: usize, count: u64) -> u64;
    fn dnw_table_build(names: *const u8, len: usize, count: u64) -> u64;
    fn dnw_table_find(names: *const u8, len: usize, count: u64) -> u64;
    fn dnw_table_list(names: *const u8, len: usize, count: u64) -> u64;
    fn dnw_read_records(message: *const u8, len: usize, count: u64) -> u64;
    fn dnw_emit_records(message: *const u8, len: usize, count: u64) -> u64;
    fn dnw_read_message(message: *const u8, len: usize, count: u64) -> u64;
    fn dnw_read_fields(message: *const u8, len: usize, count: u64) -> u64;
    fn dnw_write_message(message: *const u8, len: usize, max_size: u16, count: u64) -> u64;
}

pub fn run(task: &Task, count: u64) -> u64 {
    let (bytes, len) = (task.bytes.as_ptr(), task.bytes.len());
    // SAFETY: each pointer goes with the length of its slice, and none is null.
    unsafe {
        match task.kind {
            Kind::Read => dnw_read_names(bytes, len, task.starts.as_ptr(), task.starts.len(), count),
            Kind::ReadOver => dnw_read_over(bytes, len, task.starts.as_ptr(), task.starts.len(), count),
            Kind::Emit => dnw_emit_names(bytes, len, count),
            Kind::EmitLower => dnw_emit_lower(bytes, len, count),
            Kind::Parse => dnw_parse_names(bytes, len, count),
            Kind::Print => dnw_to_ascii(bytes, len, count),
            Kind::Clone => dnw_clone_names(bytes, len, count),
            Kind::CopyOver => dnw_copy_over(bytes, len, count),
            Kind::Collect => dnw_collect_names(bytes, len, count),
            Kind::Compare => dnw_compare(bytes, len, count),
            Kind::Sort => dnw_sort(bytes, len, count),
            Kind::Hash => dnw_hash(bytes, len, count),
            Kind::Find => dnw_find_names(bytes, len, count),
            Kind::List => dnw_list_names(bytes, len, count),
            Kind::TableBuild => dnw_table_build(bytes, len, count),
            Kind::TableFind => dnw_table_find(bytes, len, count),
            Kind::TableList => dnw_table_list(bytes, len, count),
            Kind::ReadRecords => dnw_read_records(bytes, len, count),
            Kind::EmitRecords => dnw_emit_records(bytes, len, count),
            Kind::ReadMessage => dnw_read_message(bytes, len, count),
            Kind::ReadFields => dnw_read_fields(bytes, len, count),
            Kind::WriteMessage => dnw_write_message(bytes, len, u16::MAX, count),
        }
    }
}
