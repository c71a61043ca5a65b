//! What `docs/FORMAT.md` and the list of refusals say, read from them, so that the tests hold the program to the
//! pages and keep no copy of them.

const FORMAT: &str = include_str!("../../../docs/FORMAT.md");
const REFUSALS: &str = include_str!("../../../tests/names/refusals.txt");

/// A part of the page that is written from the definitions.
fn section(name: &str) -> &'static str {
    let head = format!("<!-- names: {name} -->");
    let (_, after) = FORMAT.split_once(&head).expect("a section of the page");
    let (section, _) = after.split_once("<!-- end -->").expect("its end");
    section
}

/// The names in a list of numbers and names, as ``7 `FIRST_IN_SLICE` ``.
fn numbered(name: &str) -> Vec<(u64, String)> {
    let items = section(name).split([',', '\n']);
    let named = items.filter_map(|item| {
        let (number, name) = item.trim().trim_end_matches('.').split_once(' ')?;
        let name = name.strip_prefix('`')?.strip_suffix('`')?;
        Some((number.parse().ok()?, name.to_string()))
    });
    named.collect()
}

/// The seventeen counters' names, in their order.
pub fn counter_names() -> Vec<String> {
    let names: Vec<String> = numbered("counters")
        .into_iter()
        .map(|named| named.1)
        .collect();
    assert_eq!(names.len(), 17);
    names
}

/// Each flag that has a name, with it in small letters.
pub fn named_flags() -> Vec<(u64, String)> {
    let named = numbered("flags").into_iter();
    named.map(|(n, name)| (n, name.to_lowercase())).collect()
}

/// A flag's name, `flag_N` where it has none.
pub fn flag_name(number: u64) -> String {
    let named = named_flags().into_iter().find(|flag| flag.0 == number);
    named.map_or_else(|| format!("flag_{number}"), |flag| flag.1)
}

/// The names of the flags that are set in a flags number.
pub fn flags_set(flags: u64) -> Vec<u64> {
    (1..=64)
        .filter(|&n| second_reader::flag_is_set(flags, n))
        .collect()
}

/// What a refusal says is to be done, in the page's words.
pub fn remedy(number: u32) -> String {
    let start = format!("| {number} |");
    let mut rows = section("refusals").lines();
    let row = rows.find(|row| row.starts_with(&start)).expect("its row");
    let cells: Vec<&str> = row.trim_matches('|').split('|').collect();
    cells[4].trim().to_string()
}

/// What a refusal says is wrong.
pub fn what_is_wrong(number: u32) -> String {
    let mut said = REFUSALS
        .lines()
        .filter_map(|line| line.strip_prefix("wrong: "));
    said.nth(number as usize - 1)
        .expect("its entry")
        .to_string()
}

const PROGRAM: &str = include_str!("../../../docs/PROGRAM.md");

/// The commands of the program's page, in the order of its table.
pub fn commands() -> Vec<&'static str> {
    let (_, after) = PROGRAM
        .split_once("| command | answers |")
        .expect("the table");
    let rows = after
        .lines()
        .skip(2)
        .take_while(|line| line.starts_with('|'));
    let name = |row: &'static str| row.trim_start_matches("| `").split(' ').next();
    rows.filter_map(name).collect()
}

/// The long options that the program's page names.
pub fn long_options() -> Vec<&'static str> {
    let is_name = |c: char| c.is_ascii_alphanumeric() || c == '-';
    let words = PROGRAM.split(|c: char| !is_name(c));
    // A table's rule is dashes alone.
    let named = |word: &&str| word.starts_with("--") && word.len() > 3 && !word.starts_with("---");
    let mut options: Vec<&str> = words.filter(named).collect();
    options.sort();
    options.dedup();
    options
}
