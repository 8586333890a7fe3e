//! What the display shows (01 "Picture").

use crate::fields::padded;
use crate::image::{Component, Content, Line, Menu, Table};
use crate::session::{password_length, Mode, Session, Visit};

const BLANK: u8 = b' ';

/// The picture of a session that fits: rows of `columns` bytes, one behind the other.
pub fn picture(image: &[u8], menu: &Menu, sheet: &[u8], session: &Session) -> Vec<u8> {
    let table = session.table(menu);
    let mut rows = vec![header(image, table, session)];
    for row in 0..session.rows() {
        rows.push(line_row(image, table, sheet, session, session.here().first + row));
    }
    rows.concat()
}

/// 01 Picture, R31: row and column of the edit cursor; none but in a visit.
pub fn edit_cursor(menu: &Menu, session: &Session) -> Option<(usize, usize)> {
    let Mode::Visit(visit) = &session.mode else { return None };
    let line = session.cursor_line(menu);
    let (component, field) = visit.component(line).expect("the session fits");
    let before: usize = line.components.iter().take_while(|other| other.place < component.place).map(width).sum();
    let last_cell = data_cells(session) - 1;
    let cell = (before + field.kind.cursor_cell(visit.chosen)).min(last_cell);
    Some((1 + session.here().cursor - session.here().first, 1 + cell))
}

/// 01 Picture: columns - 2 data cells.
fn data_cells(session: &Session) -> usize {
    session.columns - 2
}

fn header(image: &[u8], table: &Table, session: &Session) -> Vec<u8> {
    let line = &table.lines[session.here().cursor];
    match &session.mode {
        Mode::Password(typed) => password_header(line, typed.len(), session.columns),
        _ => title_header(image, table, session),
    }
}

/// 'Pwd:', a '*' per digit typed, a '.' per digit left, blanks.
fn password_header(line: &Line, typed: usize, columns: usize) -> Vec<u8> {
    let length = password_length(line).expect("the entry fits");
    let text = [b"Pwd:".to_vec(), vec![b'*'; typed], vec![b'.'; length - typed]].concat();
    padded(&text, columns)
}

/// Title, ':' or '*', the line number in two cells, and whether all lines fit.
fn title_header(image: &[u8], table: &Table, session: &Session) -> Vec<u8> {
    let cursor = session.here().cursor;
    let mut row = padded(&image[table.title.clone()], session.columns - 4);
    row.push(if table.lines[cursor].editables().next().is_some() { b':' } else { b'*' });
    row.extend(format!("{:2}", cursor + 1).bytes());
    row.push(more_mark(table, session));
    row
}

/// R30: all lines fit when there are at most lines - 1.
fn more_mark(table: &Table, session: &Session) -> u8 {
    if table.lines.len() <= session.rows() {
        BLANK
    } else if session.here().cursor + 1 == table.lines.len() {
        b'!'
    } else {
        b'+'
    }
}

/// The row of the table's line `at`; blank past the last one (R30).
fn line_row(image: &[u8], table: &Table, sheet: &[u8], session: &Session, at: usize) -> Vec<u8> {
    let Some(line) = table.lines.get(at) else { return vec![BLANK; session.columns] };
    let is_cursor = at == session.here().cursor;
    let visit = match &session.mode {
        Mode::Visit(visit) if is_cursor => Some(visit),
        _ => None,
    };
    let mut row = vec![if is_cursor { b'>' } else { BLANK }];
    row.extend(padded(&data(image, line, sheet, visit), data_cells(session)));
    row.push(submenu_mark(line));
    row
}

fn submenu_mark(line: &Line) -> u8 {
    match &line.submenu {
        None => BLANK,
        Some(submenu) if submenu.password.is_some() => b'P',
        Some(_) => b'>',
    }
}

/// The cells of a line's components; a visited one shows its working cells.
fn data(image: &[u8], line: &Line, sheet: &[u8], visit: Option<&Visit>) -> Vec<u8> {
    let mut cells = Vec::new();
    for component in &line.components {
        cells.extend(match (&component.content, visit) {
            (Content::Text(text), _) => image[text.clone()].to_vec(),
            (Content::Field(field), Some(visit)) if visit.place == component.place => {
                field.kind.show(image, visit.cells_of(&field.kind))
            }
            (Content::Field(field), _) => field.show_stored(image, sheet),
        });
    }
    cells
}

fn width(component: &Component) -> usize {
    match &component.content {
        Content::Text(text) => text.len(),
        Content::Field(field) => field.kind.width(),
    }
}
