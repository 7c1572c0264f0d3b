//! The move to another board (§22): what must not stand on the old one, which lots go, and how they stand then.

use crate::memory::{Board, Bucket, BUCKET_WORDS};
use crate::word::{snap_get_empty_index, KEY_BUCKT, MAP_INSRT, MAP_VALID};

/// A lot as it stands in a slot, with its value.
pub type Standing = (u64, u64);

/// 7 for a move: between rounds nobody inserts, so a mark 2 counts as broken too.
pub fn keeps_back(bucket: &Bucket) -> bool {
    let half_written = (0..KEY_BUCKT).any(|slot| bucket.map(slot) == MAP_INSRT);
    bucket.is_broken() || half_written
}

/// The valid lots of a board in the order in which they go: by bucket, and there by slot.
pub fn standing(board: &Board) -> Vec<Standing> {
    let mut lots = Vec::new();
    for bucket in board.buckets() {
        let valid = (0..KEY_BUCKT).filter(|&slot| bucket.map(slot) == MAP_VALID);
        lots.extend(valid.map(|slot| (bucket.key(slot), bucket.val(slot))));
    }
    lots
}

/// A board of N buckets at this version, to which the lots went one after another; none where one of them found its bucket full.
pub fn laid_out(lots: &[Standing], n: u64, version: u32) -> Option<Board> {
    let board = Board::of(&vec![0; BUCKET_WORDS * n as usize]);
    board.clear(version);
    for &(lot, value) in lots {
        let bucket = board.bucket((lot % n) as usize);
        let slot = u8::try_from(snap_get_empty_index(bucket.snapshot())).ok()?;
        bucket.set_key(slot, lot);
        bucket.set_val(slot, value);
        bucket.set_map(slot, MAP_VALID);
    }
    Some(board)
}
