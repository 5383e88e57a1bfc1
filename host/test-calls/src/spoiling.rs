//! What the caller of a sequence does to what it lends.

use crate::acts::Act;
use crate::office::{Field, Office, Place, NO_LIMIT, STEPS, STEPS_BEFORE, WATCHED, YARD};
use crate::sequences::{Kind, Writer};

impl Writer {
    /// Damage, or the undoing of the last.
    pub fn spoil(&mut self, office: &Office) -> Act {
        if let Some(undo) = self.undo.take() {
            return undo;
        }
        let (counts, record) = (office.counts(), office.record());
        let mixed = self.kind == Kind::Mixed;
        match self.random.below(10) {
            0..=2 => {
                let field = self.random.pick(if mixed { &Field::ALL[..] } else { &Field::COUNTS });
                let old = office.field(field);
                self.undo = Some(Act::SetField(field, old));
                Act::SetField(field, self.random.pick(&[old.wrapping_add(1), old.wrapping_sub(1), 0, u32::MAX, 4_097, STEPS as u32 + 1, 65, WATCHED as u32 + 1]))
            }
            3..=7 => {
                use Place::*;
                let cells = [
                    (Lens, record.names),
                    (Names, record.names.saturating_mul(32)),
                    (Xs, counts.rules),
                    (Ys, counts.rules),
                    (Cs, counts.rules),
                    (Days, counts.steps),
                    (Days, counts.steps),
                    (Levels, counts.rules),
                    (Levels, counts.rules),
                    (Wxs, counts.watched),
                    (Wys, counts.watched),
                    (Wcs, counts.watched),
                    (Gaps, counts.steps),
                    (Gaps, counts.steps),
                    (Gaps, counts.steps),
                ];
                let (place, used) = self.random.pick(if mixed { &cells } else { &cells[2..] });
                // One in ten stands past the count, or is free.
                let used = (used as usize).min(place.room() - 1);
                let past = used == 0 || self.random.chance(100);
                let at = match place {
                    Xs | Ys | Cs | Levels => self.place(office, past),
                    Gaps => self.gap_cell(used, past),
                    _ if past => used,
                    _ => self.random.below(used),
                };
                if at >= office.lent(place) {
                    return Act::Back;
                }
                let old = office.cell(place, at);
                let deepest = i64::from(counts.marks) + 1;
                self.undo = Some(Act::Set(place, at, old));
                let new = match place {
                    Levels => self.random.pick(&[old + 1, old - 1, 0, 1, deepest, deepest + 1, 255]),
                    Gaps => self.random.pick(&[old.wrapping_add(1), old.wrapping_sub(1), old.wrapping_add(1_000), 0, -1, NO_LIMIT, i64::MIN]),
                    _ => self.random.pick(&[old + 1, old - 1, 0, old + 1_000_000, -1, 65_535, 2_147_483_647, old + 7]),
                };
                Act::Set(place, at, new)
            }
            _ => {
                let place = self.random.pick(&Place::ALL);
                let old = office.lent(place);
                self.undo = Some(Act::Lend(place, old));
                Act::Lend(place, self.random.pick(&[place.room() - 1, place.room() - 1, place.room(), place.room_for(STEPS_BEFORE), 0, 1]))
            }
        }
    }

    /// A cell of the gap table: one that is kept with so many steps, or any.
    fn gap_cell(&mut self, steps: usize, any: bool) -> usize {
        let side = if any { YARD } else { steps.min(YARD) };
        YARD * self.random.below(side) + self.random.below(side)
    }

    /// A place for rules: one that is held, or a free one; the last one of all, and the room beyond, count as free.
    fn place(&mut self, office: &Office, free: bool) -> usize {
        let held = office.numbers();
        if !free && !held.is_empty() {
            return self.random.pick(&held) as usize;
        }
        let next = office.next_number() as usize;
        self.random.pick(&[next, next, next + 1, Place::Levels.room() - 1, Place::Levels.room()])
    }
}
