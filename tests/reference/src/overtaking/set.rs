//! A set of packed tables that takes little more than eight bytes for each.

/// Open addressing, one slot after another; an empty slot holds 0, a table its number and 1.
pub struct Set {
    slots: Vec<u64>,
    count: usize,
}

impl Default for Set {
    fn default() -> Set {
        Set { slots: vec![0; 1 << 16], count: 0 }
    }
}

impl Set {
    pub fn count(&self) -> usize {
        self.count
    }

    /// Whether the table was not in the set, which it is then.
    #[inline]
    pub fn insert(&mut self, table: u64) -> bool {
        // four slots of five are used at most
        if self.count * 5 >= self.slots.len() * 4 {
            self.grow();
        }
        let new = put(&mut self.slots, table + 1);
        self.count += usize::from(new);
        new
    }

    fn grow(&mut self) {
        let mut wider = vec![0; 2 * self.slots.len()];
        self.slots.iter().filter(|&&slot| slot != 0).for_each(|&slot| {
            put(&mut wider, slot);
        });
        self.slots = wider;
    }
}

/// Puts a number that is not 0 into the first slot from its own on that is empty, unless it is met before.
#[inline]
fn put(slots: &mut [u64], number: u64) -> bool {
    let mask = slots.len() - 1;
    let mixed = number.wrapping_mul(0x9E37_79B9_7F4A_7C15);
    let mut place = (mixed ^ mixed >> 32) as usize & mask;
    loop {
        match slots[place] {
            0 => {
                slots[place] = number;
                return true;
            }
            slot if slot == number => return false,
            _ => place = (place + 1) & mask,
        }
    }
}
