//! The tables that a planner owns, each with room for its bound.

use crate::bounds::{NAME_BYTES, RULES, STEPS, WATCHED, YARD_STEPS};
use crate::calls::{Gaps, Names, Tables, View};

#[derive(Clone, Debug)]
pub(crate) struct Owned {
    pub xs: Vec<u16>,
    pub ys: Vec<u16>,
    pub cs: Vec<i32>,
    pub days: Vec<u32>,
    pub levels: Vec<u8>,
    pub wxs: Vec<u16>,
    pub wys: Vec<u16>,
    pub wcs: Vec<i32>,
    pub gaps: Box<Gaps>,
    pub names: Vec<u8>,
    pub lens: Vec<u8>,
}

impl Owned {
    pub fn new() -> Owned {
        Owned {
            xs: vec![0; RULES],
            ys: vec![0; RULES],
            cs: vec![0; RULES],
            days: vec![0; STEPS],
            levels: vec![0; RULES],
            wxs: vec![0; WATCHED],
            wys: vec![0; WATCHED],
            wcs: vec![0; WATCHED],
            gaps: Box::new([[0; YARD_STEPS]; YARD_STEPS]),
            names: vec![0; STEPS * NAME_BYTES],
            lens: vec![0; STEPS],
        }
    }

    /// The tables and the names, lent to a call that may write them.
    pub fn lend(&mut self) -> (Tables<'_>, Names<'_>) {
        let tables = Tables {
            xs: &mut self.xs,
            ys: &mut self.ys,
            cs: &mut self.cs,
            days: &mut self.days,
            levels: &mut self.levels,
            wxs: &mut self.wxs,
            wys: &mut self.wys,
            wcs: &mut self.wcs,
            gaps: &mut self.gaps,
        };
        (tables, Names { bytes: &mut self.names, lens: &mut self.lens })
    }

    /// The tables, lent to a call that only reads them.
    pub fn view(&self) -> View<'_> {
        View {
            xs: &self.xs,
            ys: &self.ys,
            cs: &self.cs,
            days: &self.days,
            levels: &self.levels,
            wxs: &self.wxs,
            wys: &self.wys,
            wcs: &self.wcs,
            gaps: &self.gaps,
        }
    }
}
