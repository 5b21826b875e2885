//! A body on one line, much as Go has it.

use oracle::{branch, kind, Body};

pub fn text(body: &Body) -> String {
    statement(body, 0)
}

fn statement(body: &Body, row: usize) -> String {
    let [kind, detail, _, name, _] = body.rows[row];
    let plain = |texts: [&str; 2]| texts[detail as usize].to_string();
    let name = name_text(body.name(name));
    let inner = |row: usize| statement(body, row);
    match kind {
        kind::BAD => "bad".to_string(),
        kind::DECL => plain(["const c", "var x"]),
        kind::EMPTY => "empty".to_string(),
        kind::LABELED => format!("{name}: {}", inner(row + 1)),
        kind::EXPR => plain(["f()", "panic()"]),
        kind::SEND => "ch <- x".to_string(),
        kind::INC_DEC => "x++".to_string(),
        kind::ASSIGN => plain(["x = y", "x := y"]),
        kind::GO => "go f()".to_string(),
        kind::DEFER => "defer f()".to_string(),
        kind::RETURN => "return".to_string(),
        kind::BRANCH => format!("{} {name}", keyword(detail)).trim_end().to_string(),
        kind::BLOCK => block(body, row),
        kind::IF => if_statement(body, row),
        kind::CASE => format!("{}: {}", plain(["case c", "default"]), list(body, row)),
        kind::COMM => format!("{}: {}", plain(["case <-ch", "default"]), list(body, row)),
        kind::SWITCH => format!("switch {}", inner(row + 1)),
        kind::TYPE_SWITCH => format!("switch x.(type) {}", inner(row + 1)),
        kind::SELECT => format!("select {}", inner(row + 1)),
        kind::FOR => format!("{} {}", plain(["for", "for c"]), inner(row + 1)),
        _ => format!("for range x {}", inner(row + 1)),
    }
}

fn name_text(name: &[u8]) -> String {
    match std::str::from_utf8(name) {
        Ok(text) => text.escape_debug().to_string(),
        Err(_) => name.escape_ascii().to_string(),
    }
}

fn keyword(detail: u32) -> &'static str {
    match detail {
        branch::BREAK => "break",
        branch::CONTINUE => "continue",
        branch::GOTO => "goto",
        _ => "fallthrough",
    }
}

fn list(body: &Body, row: usize) -> String {
    let items: Vec<String> = body.children(row).map(|item| statement(body, item)).collect();
    items.join("; ")
}

fn block(body: &Body, row: usize) -> String {
    match body.rows[row][4] {
        1 => "{}".to_string(),
        _ => format!("{{ {} }}", list(body, row)),
    }
}

fn if_statement(body: &Body, row: usize) -> String {
    let parts: Vec<String> = body.children(row).map(|part| statement(body, part)).collect();
    format!("if c {}", parts.join(" else "))
}
