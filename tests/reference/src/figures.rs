//! The report's loops, figures 6 to 8. Over each step stands the number of the figure's line, whose names are kept; the first argument of
//! a memory action is its place. Each memory action waits for a turn of its own.
//!
//! Where a call is made from a record, `bound_for` leads it to the record's place, past everything that stands before it.

use crate::frame::Frame;
use crate::word::*;

/// Figure 6: the value that stands for the key, or 0. It starts with `i` at 0, or where the record says.
async fn clht_bucket_search(f: &Frame) -> u64 {
    // line 5
    for i in f.i.get()..KEY_BUCKT {
        f.i.set(i);
        // line 7
        if !f.bound_for(3..=5) {
            f.val.set(f.load_val(2, i).await);
        }
        // line 8
        if f.bound_for(4..=5) || f.load_map(3, i).await == MAP_VALID {
            // line 10
            if f.bound_for(5..=5) || f.load_key(4, i).await == f.key {
                // line 12
                if f.load_val(5, i).await == f.val.get() {
                    // line 14
                    return f.val.get();
                } else {
                    // line 18
                    return 0;
                }
            }
        }
    }
    // line 23
    0
}

/// Figure 6, lines 26 to 35.
pub async fn clht_get(f: &Frame) -> u64 {
    // line 34
    clht_bucket_search(f).await
}

/// Figure 7. The spot of line 26 stands in `i` until line 32 wins it, so `empty_index` needs no line 34 to be -1 again.
pub async fn clht_put(f: &Frame) -> bool {
    // line 12, where a try begins
    loop {
        // line 13
        if !f.bound_for(2..=10) {
            f.s.set(f.load_snapshot(1).await);
            f.i.set(0);
        }
        // line 15
        if f.bound_for(10..=10) || !f.bound_for(6..=9) && clht_bucket_search(f).await != 0 {
            // line 17
            if f.empty_index.get() >= 0 {
                // line 19
                f.store_map(10, f.held(), MAP_INVLD).await;
            }
            // line 21
            return false;
        }
        // line 24
        if f.bound_for(6..=8) || !f.bound_for(9..=9) && f.empty_index.get() < 0 {
            // line 26
            if !f.bound_for(6..=8) {
                let empty_index = snap_get_empty_index(f.s.get());
                // lines 27 to 29
                if empty_index < 0 {
                    f.note_full_round();
                    f.i.set(0);
                    continue;
                }
                f.i.set(empty_index as u8);
            }
            if !f.bound_for(7..=8) {
                // line 31
                let s1 = snap_set_map(f.s.get(), f.i.get(), MAP_INSRT);
                // lines 32 to 35
                if f.cas_snapshot(6, f.s.get(), s1).await != f.s.get() {
                    continue;
                }
                f.s.set(s1);
                f.empty_index.set(f.i.get() as i32);
            }
            // line 38
            if !f.bound_for(8..=8) {
                f.store_val(7, f.held(), f.new_val).await;
            }
            // line 39
            f.store_key(8, f.held(), f.key).await;
        }
        // line 43; after line 32 the mark is there already
        let s1 = snap_set_map(f.s.get(), f.held(), MAP_INSRT);
        // line 46
        let s2 = snap_set_map_and_inc_version(s1, f.held(), MAP_VALID);
        // lines 47 to 49
        if f.cas_snapshot(9, s1, s2).await != s1 {
            continue;
        }
        // line 52
        return true;
    }
}

/// Figure 8.
pub async fn clht_remove(f: &Frame) -> u64 {
    // line 12, where a try begins
    'retry: loop {
        // line 13
        if !f.bound_for(11..=13) {
            f.s.set(f.load_snapshot(1).await);
            f.i.set(0);
        }
        let s = Snapshot::of(f.s.get());
        // line 14
        for i in f.i.get()..KEY_BUCKT {
            f.i.set(i);
            // line 16
            if f.bound_for(12..=13)
                || f.load_key(11, i).await == f.key && s.map[i as usize] == MAP_VALID
            {
                // line 18
                if !f.bound_for(13..=13) {
                    f.val.set(f.load_val(12, i).await);
                }
                // line 20
                let s1 = snap_set_map(s.snapshot(), i, MAP_INVLD);
                // line 21
                if f.cas_snapshot(13, s.snapshot(), s1).await == s.snapshot() {
                    // line 23
                    return f.val.get();
                } else {
                    // line 27
                    continue 'retry;
                }
            }
        }
        // line 31
        return 0;
    }
}
