//! The edits of the mended build: differences A, B and C of document 01.

pub const FILES: [&str; 2] = ["label", "returns"];

struct Edit {
    name: &'static str,
    file: &'static str,
    times: usize,
    from: &'static str,
    to: &'static str,
}

const EDITS: [Edit; 7] = [
    Edit {
        name: "A, remember the current label",
        file: "label",
        times: 1,
        from: "let ls = &self.ast_objs.l_stmts[*lkey];",
        to: "let lstmt_before = ctx.lstmt; let ls = &self.ast_objs.l_stmts[*lkey];",
    },
    Edit {
        name: "A, reset after the labelled statement",
        file: "label",
        times: 1,
        from: "self.stmt_branches(all, block, &lable_stmt, ctx);",
        to: "self.stmt_branches(all, block, &lable_stmt, ctx); ctx.lstmt = lstmt_before;",
    },
    Edit {
        name: "B, hand the label on at Labeled",
        file: "returns",
        times: 1,
        from: "self.has_break(&ls_val.stmt, Some(l), implicit)",
        to: "self.has_break(&ls_val.stmt, label, implicit)",
    },
    Edit {
        name: "C, false into Switch and Select",
        file: "returns",
        times: 2,
        from: "label.is_some() && self.has_break_list(&ss.body.list, label, implicit)",
        to: "label.is_some() && self.has_break_list(&ss.body.list, label, false)",
    },
    Edit {
        name: "C, false into TypeSwitch",
        file: "returns",
        times: 1,
        from: "label.is_some() && self.has_break_list(&tss.body.list, label, implicit)",
        to: "label.is_some() && self.has_break_list(&tss.body.list, label, false)",
    },
    Edit {
        name: "C, false into For",
        file: "returns",
        times: 1,
        from: "label.is_some() && self.has_break_list(&fs.body.list, label, implicit)",
        to: "label.is_some() && self.has_break_list(&fs.body.list, label, false)",
    },
    Edit {
        name: "C, false into Range",
        file: "returns",
        times: 1,
        from: "label.is_some() && self.has_break_list(&rs.body.list, label, implicit)",
        to: "label.is_some() && self.has_break_list(&rs.body.list, label, false)",
    },
];

/// The text with the edits of its file; stops the build where one doesn't fit.
pub fn apply(file: &str, mut text: String) -> String {
    for edit in EDITS.iter().filter(|edit| edit.file == file) {
        let found = text.matches(edit.from).count();
        assert!(
            found == edit.times,
            "edit of {file}.rs ({}): its text is there {found} times, not {}",
            edit.name,
            edit.times
        );
        text = text.replace(edit.from, edit.to);
    }
    text
}
