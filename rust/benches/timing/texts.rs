//! Texts as people write them, 60,000 bytes each.

/// The length of each text: the most that Kenupatun takes.
const BYTES: usize = kenupatun::TEXT_MOST;

const ENGLISH: &str = "The quick brown fox jumps over the lazy dog, turns around, and waits for the others. \
    Nobody had told it that the river would be so cold in the morning.\n";

const FRENCH: &str = "Où sont passés les élèves de l’école ? Ils étaient là, près du château, à côté de la \
    forêt enneigée, où le garçon rêvait déjà d’un été très long.\n";

const CHINESE: &str = "今天天气很好，我们一起去公园散步吧。孩子们在湖边玩耍，老人坐在树下喝茶、聊天。\n";

const ESCAPES: &str = "\u{1B}[1;32mOK\u{1B}[0m the file \u{1B}]8;;file:///srv/data/report.txt\u{1B}\\report.txt\
    \u{1B}]8;;\u{1B}\\ was \u{1B}[4mwritten\u{1B}[24m in \u{1B}[38;5;208m12 ms\u{1B}[0m, see \
    \u{1B}]8;;https://example.com/log?id=17\u{7}the log\u{1B}]8;;\u{7}\n";

/// Each text with its name.
pub fn all() -> [(&'static str, String); 4] {
    [("ASCII", whole(ENGLISH)), ("French", whole(FRENCH)), ("Chinese", whole(CHINESE)), ("escapes", whole(ESCAPES))]
}

/// A sentence over and over, up to exactly [`BYTES`].
fn whole(sentence: &str) -> String {
    let mut text = sentence.repeat(BYTES / sentence.len());
    text.push_str(&"x".repeat(BYTES - text.len()));
    text
}
