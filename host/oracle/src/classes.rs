//! What a comparison came to, counted by class.
use std::collections::BTreeMap;

use idzulgar::Column;

/// A block's first bytes.
pub fn hex(block: &[u8]) -> String {
    let mut hex: String = block.iter().take(60).map(|byte| format!("{byte:02X}")).collect();
    if block.len() > 60 {
        hex.push_str(&format!("... of {} bytes", block.len()));
    }
    hex
}

/// How often each class came up, and the shortest block of it.
#[derive(Default)]
pub struct Classes {
    seen: BTreeMap<String, (u64, String, usize)>,
}

impl Classes {
    pub fn add(&mut self, class: &str, column: Column, n: u64, block: &[u8], more: impl FnOnce() -> String) {
        let class = self.seen.entry(class.to_string()).or_insert((0, String::new(), usize::MAX));
        class.0 += 1;
        if block.len() < class.2 {
            class.1 = format!("{:?} {:?}, n = {n}, block `{}`{}", column.kind, column.encoding, hex(block), more());
            class.2 = block.len();
        }
    }

    /// Prints the classes, and answers how many were no departure of 01's.
    pub fn print(&self) -> u64 {
        for (class, (count, example, _)) in &self.seen {
            println!("{count:>9}  {class}\n           shortest: {example}");
        }
        self.seen.iter().filter(|class| class.0.starts_with("DIFFERENCE")).map(|class| class.1 .0).sum()
    }
}
