//! The lent lists: layout, sizes and the stage list. Each is judged and then used as words.

use crate::pack::{content, varying_type_good};

/// The count in a list's head.
pub fn count(list: &[u32]) -> usize {
    (list[0] & 0xffff) as usize
}

fn distinct(mut places: Vec<u32>) -> bool {
    places.sort();
    places.windows(2).all(|p| p[0] != p[1])
}

/// The content of a kind 18 word.
fn layout_type_good(content: u32) -> bool {
    let rest = content & 0x7f_ffff;
    let view_good = rest & 7 < 6;
    match content >> 23 {
        0 => [0, 1, 3, 4, 5, 7].contains(&rest),
        1 => rest < 3,
        2 => view_good && rest < 5 << 4,
        4 => view_good && rest & !0x3_7f07 == 0 && rest >> 8 & 127 < 77,
        5 => rest == 0,
        6 => rest < 2,
        _ => false,
    }
}

fn entry_good(words: &[u32], at: usize) -> Option<()> {
    content(words, at, 4)?;
    let ty = content(words, at + 1, 18)?;
    let least = content(words, at + 2, 6)?;
    let visibility = content(words, at + 3, 19)?;
    (layout_type_good(ty) && (least == 0 || ty >> 23 == 0) && visibility < 32).then_some(())
}

/// Four words that are a layout entry.
pub fn lone_entry_good(words: &[u32]) -> bool {
    words.len() == 4 && entry_good(words, 0).is_some()
}

fn layout_judged(list: &[u32]) -> Option<()> {
    let head = content(list, 0, 17)?;
    let groups = head >> 16;
    let count = (head & 0xffff) as usize;
    if list.len() > 1024 || groups > 8 || 1 + 4 * count > list.len() {
        return None;
    }
    for i in 0..count {
        entry_good(list, 1 + 4 * i)?;
        if list[1 + 4 * i] >> 23 & 15 >= groups {
            return None;
        }
    }
    distinct((0..count).map(|i| list[1 + 4 * i]).collect()).then_some(())
}

fn sizes_judged(list: &[u32]) -> Option<()> {
    let count = content(list, 0, 20)? as usize;
    if list.len() > 1024 || count > 0xffff || 1 + 2 * count > list.len() {
        return None;
    }
    for i in 0..count {
        content(list, 1 + 2 * i, 4)?;
        if content(list, 2 + 2 * i, 6)? == 0 {
            return None;
        }
    }
    distinct((0..count).map(|i| list[1 + 2 * i]).collect()).then_some(())
}

fn stage_judged(list: &[u32]) -> Option<()> {
    let head = content(list, 0, 11)?;
    let count = (head & 0xffff) as usize;
    if list.len() > 1024 || head >> 25 > 2 || head & 0x01ff_0000 != 0 || count > 63 {
        return None;
    }
    let payload = content(list, 1, 9)?;
    if payload >> 26 == 0 && payload != 0 {
        return None;
    }
    let mut last = None;
    for i in 0..count {
        let location = content(list, 2 + 2 * i, 12)?;
        if last.is_some_and(|l| l >= location) || !varying_type_good(*list.get(3 + 2 * i)?) {
            return None;
        }
        last = Some(location);
    }
    Some(())
}

pub fn layout_good(list: &[u32]) -> bool {
    layout_judged(list).is_some()
}

pub fn sizes_good(list: &[u32]) -> bool {
    sizes_judged(list).is_some()
}

pub fn stage_good(list: &[u32]) -> bool {
    stage_judged(list).is_some()
}

/// Where the layout entry with this place word begins.
pub fn entry_at(layout: &[u32], place: u32) -> Option<usize> {
    (0..count(layout)).map(|i| 1 + 4 * i).find(|at| layout[*at] == place)
}

/// Adds a record at the end, if there is room for it.
pub fn push(list: &mut [u32], record: &[u32]) -> bool {
    let at = 1 + record.len() * count(list);
    if list.len() - at < record.len() {
        return false;
    }
    list[at..at + record.len()].copy_from_slice(record);
    list[0] += 1;
    true
}

/// Keeps the larger of the recorded size and this one; false if a new record is due and has no room.
pub fn record_size(sizes: &mut [u32], place: u32, size: u32) -> bool {
    match (0..count(sizes)).map(|i| 1 + 2 * i).find(|at| sizes[*at] == place) {
        Some(at) => {
            sizes[at + 1] = sizes[at + 1].max(6 << 27 | size);
            true
        }
        None => push(sizes, &[place, 6 << 27 | size]),
    }
}

/// The kind 13 word that the stage list has for a location.
pub fn provided(list: &[u32], location: u32) -> Option<u32> {
    (0..count(list)).map(|i| 2 + 2 * i).find(|at| list[*at] == 12 << 27 | location).map(|at| list[at + 1])
}
