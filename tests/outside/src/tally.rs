//! How many calls ran, how many differed, and the first few differences in words.

/// Differences that are told in words.
const TOLD: usize = 5;

pub struct Tally {
    pub name: String,
    pub ran: u64,
    /// Behind the number of calls, how they were made.
    pub remark: String,
    pub differed: u64,
    told: Vec<String>,
    /// What the test needed to meet and did not.
    missing: Vec<String>,
}

impl Tally {
    pub fn new(name: &str) -> Tally {
        Tally {
            name: name.to_string(),
            ran: 0,
            remark: String::new(),
            differed: 0,
            told: Vec::new(),
            missing: Vec::new(),
        }
    }

    pub fn differ(&mut self, difference: String) {
        self.differed += 1;
        if self.told.len() < TOLD {
            self.told.push(difference);
        }
    }

    pub fn miss(&mut self, what: String) {
        self.missing.push(what);
    }

    /// Prints the line, and says whether all is well.
    pub fn print(&self, word: &str) -> bool {
        println!(
            "{}: {} {word}{}, {} differed",
            self.name, self.ran, self.remark, self.differed
        );
        for difference in &self.told {
            println!("  {difference}");
        }
        for what in &self.missing {
            println!("  never happened: {what}");
        }
        self.ran > 0 && self.differed == 0 && self.missing.is_empty()
    }
}

/// The first element in which two blocks differ, in words.
pub fn first_difference<T: PartialEq + std::fmt::Display>(
    block: &str,
    found: &[T],
    wanted: &[T],
) -> Option<String> {
    if found.len() != wanted.len() {
        let lengths = (found.len(), wanted.len());
        return Some(format!("{block} is {} long, not {}", lengths.0, lengths.1));
    }
    if found == wanted {
        return None;
    }
    let at = found.iter().zip(wanted).position(|(a, b)| a != b)?;
    Some(format!(
        "{block}[{at}] is {}, not {}",
        found[at], wanted[at]
    ))
}
