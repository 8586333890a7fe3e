//! A menu as it is planned, and how it is laid out as an image (001 section 7, R6 to R11).

use crate::image::{component_place, line_place, PROLOG};

/// A component's bytes from its tag on, without the last mark; alignment aside they do not depend on its place.
#[derive(Clone)]
pub struct ComponentPlan {
    pub bytes: Vec<u8>,
    /// How many sheet bytes it takes.
    pub sheet_size: usize,
}

impl ComponentPlan {
    pub fn var_addr(&self) -> usize {
        usize::from(u16::from_le_bytes([self.bytes[4], self.bytes[5]]))
    }

    pub fn set_var_addr(&mut self, place: usize) {
        self.bytes[4..6].copy_from_slice(&(place as u16).to_le_bytes());
    }
}

#[derive(Clone, Default)]
pub struct LinePlan {
    pub enable: Option<u16>,
    /// Which table of the plan is its submenu.
    pub submenu: Option<usize>,
    pub password: Option<Vec<u8>>,
    pub components: Vec<ComponentPlan>,
}

#[derive(Clone)]
pub struct TablePlan {
    pub title: Vec<u8>,
    pub lines: Vec<LinePlan>,
    /// Bytes before the table that nothing reaches (R12).
    pub gap: Vec<u8>,
}

/// Tables in the order in which they stand in the image, the top table first.
#[derive(Clone)]
pub struct MenuPlan {
    /// delay-to-top, delay-clr-help, delay-password.
    pub delays: [u8; 3],
    pub tables: Vec<TablePlan>,
}

/// What stands at a place of a laid image.
#[derive(Clone, Copy, PartialEq, Eq, Debug)]
pub enum Mark {
    Title,
    Padding,
    LineTag,
    NextOffset,
    PreviousOffset,
    SubmenuOffset,
    Password,
    Component,
}

#[derive(Clone)]
pub struct Laid {
    pub image: Vec<u8>,
    pub marks: Vec<(Mark, usize)>,
}

impl Laid {
    /// The places of one mark.
    pub fn places(&self, mark: Mark) -> Vec<usize> {
        self.marks.iter().filter(|(other, _)| *other == mark).map(|(_, place)| *place).collect()
    }

    fn mark(&mut self, mark: Mark) {
        self.marks.push((mark, self.image.len()));
    }

    fn put_word(&mut self, place: usize, word: usize) {
        self.image[place..place + 2].copy_from_slice(&(word as u16).to_le_bytes());
    }

    fn put_string(&mut self, text: &[u8]) {
        self.image.push(text.len() as u8);
        self.image.extend(text);
    }

    fn pad_to(&mut self, place: usize) {
        if self.image.len() < place {
            self.mark(Mark::Padding);
            self.image.push(0);
        }
    }
}

/// The image of a plan.
pub fn lay(plan: &MenuPlan) -> Laid {
    let mut laid = Laid { image: b"CMF\x00\x04".to_vec(), marks: vec![] };
    laid.image.extend(plan.delays);
    laid.image.extend([0xFF, 0xFE]);
    let mut table_places = Vec::new();
    let mut submenu_words = Vec::new();
    for table in &plan.tables {
        laid.image.extend(&table.gap);
        table_places.push(laid.image.len());
        lay_table(&mut laid, table, &mut submenu_words);
    }
    for (word, table) in submenu_words {
        laid.put_word(word, table_places[table] - PROLOG);
    }
    laid
}

fn lay_table(laid: &mut Laid, table: &TablePlan, submenu_words: &mut Vec<(usize, usize)>) {
    laid.mark(Mark::Title);
    laid.put_string(&table.title);
    let mut previous: Option<usize> = None;
    for (at, line) in table.lines.iter().enumerate() {
        laid.pad_to(line_place(laid.image.len()));
        let place = laid.image.len();
        if let Some(previous) = previous {
            laid.put_word(previous + 1, place - previous);
        }
        lay_line_head(laid, line, previous, at + 1 == table.lines.len(), submenu_words);
        lay_components(laid, &line.components);
        previous = Some(place);
    }
}

/// Tag and options in R11's order; next-line-ofs is filled in with the next line.
fn lay_line_head(
    laid: &mut Laid,
    line: &LinePlan,
    previous: Option<usize>,
    is_last: bool,
    submenu_words: &mut Vec<(usize, usize)>,
) {
    let place = laid.image.len();
    let bits = [previous.is_none(), is_last, line.enable.is_some(), line.submenu.is_some(), line.password.is_some()];
    laid.mark(Mark::LineTag);
    laid.image.push(bits.iter().rev().fold(0, |tag, &bit| 2 * tag + u8::from(bit)));
    if !is_last {
        laid.mark(Mark::NextOffset);
        laid.image.extend([0, 0]);
    }
    if let Some(previous) = previous {
        laid.mark(Mark::PreviousOffset);
        laid.image.extend(((place - previous) as u16).to_le_bytes());
    }
    if let Some(enable) = line.enable {
        laid.image.extend(enable.to_le_bytes());
    }
    if let Some(table) = line.submenu {
        laid.mark(Mark::SubmenuOffset);
        submenu_words.push((laid.image.len(), table));
        laid.image.extend([0, 0]);
    }
    if let Some(password) = &line.password {
        laid.mark(Mark::Password);
        laid.put_string(password);
    }
}

fn lay_components(laid: &mut Laid, components: &[ComponentPlan]) {
    for (at, component) in components.iter().enumerate() {
        laid.pad_to(component_place(laid.image.len()));
        let tag = laid.image.len();
        laid.mark(Mark::Component);
        laid.image.extend(&component.bytes);
        laid.image[tag] |= if at + 1 == components.len() { 0x80 } else { 0 };
    }
}
