//! The rules that are measured.

pub struct Rule {
    pub name: String,
    pub text: String,
}

/// From rules that leave the memories almost empty, over three that overfill the memo, to one whose nodes do not fit.
pub fn table() -> Vec<Rule> {
    vec![
        majority_of(15),
        majority_of(31),
        majority_of(47),
        grid_by_rows(5),
        grid_by_rows(6),
        grid_by_columns(4),
        pairs("eight", 8),
        grid_by_columns(5),
        pairs("eleven", 11),
        grid_by_columns(6),
        pairs("fourteen", 14),
    ]
}

/// The text of the rule of that name, or the name itself where no rule has it.
pub fn text_of(name_or_text: &str) -> String {
    let named = table().into_iter().find(|rule| rule.name == name_or_text);
    named.map_or(name_or_text.to_string(), |rule| rule.text)
}

fn majority_of(members: usize) -> Rule {
    Rule {
        name: format!("majority of {members}"),
        text: format!("least {} ({})", members / 2 + 1, listed(1..=members)),
    }
}

/// A square grid whose rows are 1 2 3 .., so that the members of a row stand together in the diagrams.
fn grid_by_rows(side: usize) -> Rule {
    Rule {
        name: format!("grid {side}x{side} by rows"),
        text: format!("grid {side} ({})", listed(1..=side * side)),
    }
}

/// A square grid whose columns are 1 2 3 .., so that the members of a row stand far apart.
fn grid_by_columns(side: usize) -> Rule {
    let row = |first: usize| listed((0..side).map(|column| first + column * side));
    let rows: Vec<String> = (1..=side).map(row).collect();
    Rule {
        name: format!("grid {side}x{side} by columns"),
        text: format!("grid {side} ({})", rows.join(" ")),
    }
}

/// One of each pair, where the partners stand far apart.
fn pairs(number: &str, count: usize) -> Rule {
    let pair = |first: usize| format!("any({first} {})", first + count);
    let pairs: Vec<String> = (1..=count).map(pair).collect();
    Rule { name: format!("{number} pairs"), text: format!("all({})", pairs.join(" ")) }
}

fn listed(members: impl Iterator<Item = usize>) -> String {
    members.map(|member| member.to_string()).collect::<Vec<String>>().join(" ")
}
