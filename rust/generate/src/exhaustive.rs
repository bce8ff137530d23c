//! All short strings.

/// Calls `each` with every string of at most `most` items, the empty one first, and answers
/// how many there were. One buffer serves them all, so that millions are quick.
pub fn every_string<I: AsRef<[u8]>>(items: &[I], most: usize, mut each: impl FnMut(&[u8])) -> u64 {
    let mut buffer = Vec::new();
    visit(items, most, &mut buffer, &mut each)
}

/// Every string that starts with what the buffer holds.
fn visit<I: AsRef<[u8]>>(items: &[I], most: usize, buffer: &mut Vec<u8>, each: &mut impl FnMut(&[u8])) -> u64 {
    each(buffer);
    let mut count = 1;
    if most == 0 {
        return count;
    }
    let before = buffer.len();
    for item in items {
        buffer.extend_from_slice(item.as_ref());
        count += visit(items, most - 1, buffer, each);
        buffer.truncate(before);
    }
    count
}

#[cfg(test)]
mod tests {
    use super::every_string;

    #[test]
    fn each_string_comes_once() {
        let mut seen = Vec::new();
        let count = every_string(&["a", "é"], 2, |text| seen.push(String::from_utf8(text.to_vec()).unwrap()));
        assert_eq!(seen, ["", "a", "aa", "aé", "é", "éa", "éé"]);
        assert_eq!(count, 7);
    }
}
