//! Reads the symbol index of an archive in System V form. The index is the first member, named `/`. It has a count, then
//! as many offsets of four bytes, and then the names, each ended by a zero byte. Count and offsets have the high byte first.

const MAGIC: &[u8] = b"!<arch>\n";

/// The size of a member's head: name 16, date 12, owner 6, group 6, mode 8, size 10, end 2.
const HEAD: usize = 60;

/// The names in the index.
pub fn symbols(archive: &[u8]) -> Result<Vec<String>, String> {
    let index = index(archive).ok_or("it is no archive with a symbol index")?;
    names(index).ok_or_else(|| "its symbol index ends too early".to_string())
}

/// The bytes of the index.
fn index(archive: &[u8]) -> Option<&[u8]> {
    let rest = archive.strip_prefix(MAGIC)?;
    let head = rest.get(..HEAD)?;
    if head[..16].trim_ascii_end() != b"/" || head[58..] != *b"`\n" {
        return None;
    }
    let size: usize = std::str::from_utf8(&head[48..58]).ok()?.trim_end().parse().ok()?;
    rest.get(HEAD..HEAD.checked_add(size)?)
}

fn names(index: &[u8]) -> Option<Vec<String>> {
    let count = u32::from_be_bytes(index.get(..4)?.try_into().ok()?) as usize;
    let text = index.get(4 + 4 * count..)?;
    let names: Vec<String> = text.split(|b| *b == 0).take(count).map(|n| String::from_utf8_lossy(n).into()).collect();
    let whole = text.iter().filter(|b| **b == 0).count() >= count;
    whole.then_some(names)
}

#[cfg(test)]
mod tests {
    use super::*;

    fn archive(name: &str, index: &[u8]) -> Vec<u8> {
        let head = format!("{name:<16}{:<12}{:<6}{:<6}{:<8}{:<10}`\n", 0, 0, 0, 0, index.len());
        [MAGIC, head.as_bytes(), index].concat()
    }

    #[test]
    fn names_are_read() {
        let index = b"\0\0\0\x02\0\0\0\x60\0\0\0\x60one\0two\0";
        assert_eq!(symbols(&archive("/", index)), Ok(vec!["one".to_string(), "two".to_string()]));
    }

    #[test]
    fn other_files_are_turned_away() {
        let index = b"\0\0\0\x01\0\0\0\x60one\0";
        assert!(symbols(b"").is_err());
        assert!(symbols(b"!<arch>\n").is_err());
        assert!(symbols(&archive("one.o/", index)).is_err());
        assert!(symbols(&archive("/", &index[..11])).is_err());
        assert!(symbols(&archive("/", &index[..6])).is_err());
    }
}
