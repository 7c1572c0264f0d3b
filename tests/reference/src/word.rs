//! The mark word as the report's figure 5 has it: a union of one 64-bit word with a version and a map.

/// Slots of a bucket (the report's `ENTRIES_PER_BUCKET` and `KEY_BUCKT`).
pub const KEY_BUCKT: u8 = 3;

/// §2.6, by the names of the report.
pub const MAP_INVLD: u8 = 0;
pub const MAP_VALID: u8 = 1;
pub const MAP_INSRT: u8 = 2;

/// `clht_snapshot_t`: the word's bytes, the low one first, are the version's four, the three of the map, and one that nothing uses.
#[derive(Clone, Copy, Debug, PartialEq, Eq)]
pub struct Snapshot {
    pub version: u32,
    pub map: [u8; 3],
    pub byte_7: u8,
}

impl Snapshot {
    /// The union's other side: the word taken apart.
    pub fn of(word: u64) -> Snapshot {
        let [v0, v1, v2, v3, m0, m1, m2, byte_7] = word.to_le_bytes();
        Snapshot {
            version: u32::from_le_bytes([v0, v1, v2, v3]),
            map: [m0, m1, m2],
            byte_7,
        }
    }

    /// The union's first side: the word put together.
    pub fn snapshot(self) -> u64 {
        let [v0, v1, v2, v3] = self.version.to_le_bytes();
        let [m0, m1, m2] = self.map;
        u64::from_le_bytes([v0, v1, v2, v3, m0, m1, m2, self.byte_7])
    }

    /// §3.7: the marks are known ones, and byte 7 is zero.
    pub fn is_sound(self) -> bool {
        self.map.iter().all(|&mark| mark <= MAP_INSRT) && self.byte_7 == 0
    }

    /// §2.9: how many slots are lots on the board; one that is being inserted is none yet.
    pub fn valid_slots(self) -> u64 {
        let valid = self.map.iter().filter(|&&mark| mark == MAP_VALID);
        valid.count() as u64
    }
}

/// Figure 5, lines 1 to 14: the first empty spot, or -1.
pub fn snap_get_empty_index(snap: u64) -> i32 {
    let s = Snapshot::of(snap);
    for i in 0..KEY_BUCKT {
        if s.map[i as usize] == MAP_INVLD {
            return i as i32;
        }
    }
    -1
}

/// Figure 5, lines 15 to 22.
pub fn snap_set_map(s: u64, index: u8, val: u8) -> u64 {
    let mut s1 = Snapshot::of(s);
    s1.map[index as usize] = val;
    s1.snapshot()
}

/// Figure 5, lines 24 to 31; the version is the C code's `uint32_t`, so 4,294,967,295 goes to 0 and nothing is carried.
pub fn snap_set_map_and_inc_version(s: u64, index: u8, val: u8) -> u64 {
    let mut s1 = Snapshot::of(s);
    s1.map[index as usize] = val;
    s1.version = s1.version.wrapping_add(1);
    s1.snapshot()
}
