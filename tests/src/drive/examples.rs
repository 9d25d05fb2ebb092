//! A folder of examples: captures as hex text, with the listings expected.

use std::fs;
use std::path::Path;

pub struct Example {
    pub name: String,
    pub capture: Vec<u8>,
    pub listing: Vec<u8>,
}

/// All examples of a folder by name. A half of a pair, or no example at
/// all, is a mistake in the folder and must not pass unseen.
pub fn read_folder(folder: &Path) -> Result<Vec<Example>, String> {
    let told = |error: &dyn std::fmt::Display| format!("{}: {error}", folder.display());
    let mut names = Vec::new();
    for entry in fs::read_dir(folder).map_err(|error| told(&error))? {
        let path = entry.map_err(|error| told(&error))?.path();
        let ending = path.extension().and_then(|ending| ending.to_str());
        let name = path.with_extension("");
        // a second ending says that it is no capture, as in dose.readback.hex
        if matches!(ending, Some("hex" | "listing")) && name.extension().is_none() {
            names.push(name);
        }
    }
    names.sort();
    names.dedup();
    if names.is_empty() {
        return Err(told(&"no examples"));
    }
    names.iter().map(|path| read_example(path)).collect()
}

fn read_example(path: &Path) -> Result<Example, String> {
    let read = |ending: &str| {
        let file = path.with_extension(ending);
        fs::read(&file).map_err(|error| format!("{}: {error}", file.display()))
    };
    let name = path.file_name().unwrap_or_default();
    let name = name.to_string_lossy().into_owned();
    let text = String::from_utf8_lossy(&read("hex")?).into_owned();
    Ok(Example {
        capture: bytes_of(&text).map_err(|why| format!("{name}.hex: {why}"))?,
        listing: read("listing")?,
        name,
    })
}

/// The bytes of a hex text; `#` starts a comment to the end of its line.
fn bytes_of(text: &str) -> Result<Vec<u8>, String> {
    let digits = text
        .lines()
        .flat_map(|line| line.split('#').next().unwrap_or_default().chars())
        .filter(|c| !c.is_whitespace())
        .map(|c| c.to_digit(16).ok_or(format!("{c} is no hex digit")));
    let digits = digits.collect::<Result<Vec<u32>, String>>()?;
    if digits.len() % 2 != 0 {
        return Err("an odd number of hex digits".into());
    }
    let pairs = digits.chunks(2);
    Ok(pairs.map(|pair| (pair[0] << 4 | pair[1]) as u8).collect())
}

#[cfg(test)]
mod tests {
    use super::bytes_of;

    #[test]
    fn hex_text() {
        let text = "# 99\n82 0a\tFf# 12\n\n0 1\n";
        assert_eq!(bytes_of(text), Ok(vec![0x82, 0x0A, 0xFF, 0x01]));
        assert_eq!(bytes_of(""), Ok(vec![]));
        assert!(bytes_of("123").is_err());
        assert!(bytes_of("1g").is_err());
    }
}
