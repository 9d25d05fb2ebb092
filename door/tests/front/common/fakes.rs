//! The made-up programs, as shell scripts.

/// A made-up replay: the heads show the four bytes of each record as they stand.
pub const SHOWS: &str = r#"
echo 'cycle ack h0 h1 h2 h3'
od -A n -v -t x1 -w5 | awk '{ print NR - 1, "0" substr($1, 2), toupper($2 " " $3 " " $4 " " $5) }'
"#;

/// A made-up readback that fits it.
pub const COMPARES: &str = r#"
od -A n -v -t u1 | tr -s ' ' '\n' | awk '
    NF { b[n++] = $1 }
    END {
        for (h = 0; h < 4; h++) {
            size[h] = b[p++]
            for (k = 0; k < size[h]; k++) due[h, k] = b[p++]
        }
        for (; p < n; p += 5) for (h = 0; h < 4; h++) if (b[p + 1 + h]) shows[h, count[h]++] = b[p + 1 + h]
        for (h = 0; h < 4; h++) {
            for (k = 0; k < size[h] && k < count[h] && due[h, k] == shows[h, k]; k++) ;
            if (k == size[h] && k == count[h] + 0) print h " same"
            else printf "%d %d %02X\n", h, k, k < size[h] ? due[h, k] : shows[h, k]
        }
    }'
"#;

/// Writes zeros, as many as the orders ask for.
pub const WRITES: &str = r#"
size=$(od -A n -v -t u1 | tr -s ' ' '\n' | awk '
    NF { b[n++] = $1 }
    END {
        while (p < n) {
            t += 256 * b[p + 1] + b[p + 2]
            p += 4
            for (i = 0; i < 4; i++) { s = b[p++]; if (s) p += 1 + s }
        }
        print 5 * t
    }')
head -c "$size" /dev/zero
"#;

/// Answers each request by itself.
pub const ANSWERS: &str = "cat\n";

/// A program that takes all its input and then does this.
pub fn after_reading(then: &str) -> String {
    format!("cat >/dev/null\n{then}\n")
}

/// A program that takes all its input and prints these bytes.
pub fn printing(bytes: &[u8]) -> String {
    after_reading(&format!("printf '%b' '{}'", octal(bytes)))
}

/// Bytes as printf's %b takes them.
pub fn octal(bytes: &[u8]) -> String {
    bytes.iter().map(|b| format!("\\0{b:03o}")).collect()
}
