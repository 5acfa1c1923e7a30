//! The outside implementation's tables as the program reads and prints them, written here on their
//! own.

use outside::tables::Tables;

/// The keys, each with its list.
fn lists(tables: &Tables) -> [(&'static str, Vec<String>); 17] {
    fn list<T: ToString>(table: &[T]) -> Vec<String> {
        table.iter().map(T::to_string).collect()
    }
    [
        ("held", list(&tables.held)),
        ("timestamps", list(&tables.timestamps)),
        ("order", list(&tables.order)),
        ("status", list(&tables.status)),
        ("withdrawn", list(&tables.withdrawn)),
        ("length", list(&tables.lengths)),
        ("programs", list(&tables.programs)),
        ("read_count", list(&tables.reads)),
        ("write_count", list(&tables.writes)),
        ("read_settings", list(&tables.sources)),
        ("seen_values", list(&tables.seen)),
        ("write_settings", list(&tables.targets)),
        ("written_values", list(&tables.written)),
        ("view", list(&tables.view)),
        ("version", list(&tables.versions)),
        ("cutoff", list(&tables.cutoff)),
        ("kept", list(&tables.kept)),
    ]
}

/// The line that the program prints for these tables.
pub fn line(tables: &Tables) -> String {
    let lists = lists(tables).map(|(key, list)| format!("\"{key}\": [{}]", list.join(", ")));
    format!("{{{}}}", lists.join(", "))
}

/// A file with these tables, which is laid out in another way than that line and has the keys in
/// another order.
pub fn file(tables: &Tables) -> String {
    let mut lists = lists(tables);
    lists.reverse();
    let lists = lists.map(|(key, list)| format!("\t\"{key}\" : [\n{}\n\t]", list.join(" ,\n")));
    format!("\n{{\r\n{} }}\n\n", lists.join(",\r\n"))
}
