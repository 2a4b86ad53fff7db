//! A route's line in the text notation: its router, then fields by name, each at most once.

use crate::snapshot::Route;
use crate::words::{address, number};

/// The fields that no habit tells, so that they must be written.
const NEEDED: [&str; 4] = ["as", "path", "id", "peer"];

/// The peer address that row 0 of a prefix has on document 01's sheet: 192.0.2.1.
const FIRST_PEER: u32 = 0xc000_0201;

/// The route of a line's words. On the sheet, what is left out has its value from there, by the row.
pub fn route(words: &[&str], row: u32, on_sheet: bool) -> Result<Route, String> {
    let (router, fields) = words.split_first().ok_or("expected 'route ROUTER' and its fields")?;
    let mut route = sheet_route(number(router, 255)? as u8, row);
    let fields = pairs(fields)?;
    for (name, value) in &fields {
        set_field(&mut route, name, value)?;
    }
    let missing: Vec<&str> = NEEDED.into_iter().filter(|name| !gives(&fields, name)).collect();
    if on_sheet || missing.is_empty() {
        Ok(route)
    } else {
        Err(format!("the route lacks {}", missing.join(", ")))
    }
}

/// The fields with their values, the MED mark last, since it is to overrule what `med` says of it.
fn pairs<'a>(words: &[&'a str]) -> Result<Vec<(&'a str, &'a str)>, String> {
    let mut fields = Vec::new();
    for field in words.chunks(2) {
        match *field {
            [name, _] if gives(&fields, name) => return Err(format!("'{name}' is given twice")),
            [name, value] => fields.push((name, value)),
            _ => return Err(format!("'{}' has no value", field[0])),
        }
    }
    fields.sort_by_key(|(name, _)| *name == "mark");
    Ok(fields)
}

fn gives(fields: &[(&str, &str)], name: &str) -> bool {
    fields.iter().any(|(given, _)| *given == name)
}

/// A route as in 'Sums on paper': there, ids and peers rise with the row.
fn sheet_route(router: u8, row: u32) -> Route {
    Route {
        router,
        neighbour_as: 1,
        preference: 100,
        path: 2,
        origin: 0,
        mark: 1,
        med: 0,
        neighbour_id: 1 + row,
        peer: FIRST_PEER + row,
    }
}

fn set_field(route: &mut Route, name: &str, value: &str) -> Result<(), String> {
    match (name, value) {
        ("as", _) => route.neighbour_as = number(value, u32::MAX)?,
        ("preference", _) => route.preference = number(value, u32::MAX)?,
        ("path", _) => route.path = number(value, 0xffff)? as u16,
        ("origin", "igp") => route.origin = 0,
        ("origin", "egp") => route.origin = 1,
        ("origin", "incomplete") => route.origin = 2,
        ("origin", _) => route.origin = number(value, 255)? as u8,
        ("med", "absent") => (route.mark, route.med) = (0, 0),
        ("med", _) => (route.mark, route.med) = (1, number(value, u32::MAX)?),
        ("mark", _) => route.mark = number(value, 255)? as u8,
        ("id", _) => route.neighbour_id = address(value)?,
        ("peer", _) => route.peer = address(value)?,
        _ => return Err(format!("a route has no field '{name}'")),
    }
    Ok(())
}
