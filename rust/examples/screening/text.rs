//! Titles, and numbers as text.

pub fn title(text: &str) {
    println!("### {}\n", text);
}

/// Three digits that count, without an exponent.
pub fn digits(number: f64) -> String {
    let before_the_point = number.log10().floor() as i32 + 1;
    let after_the_point = (3 - before_the_point).max(0) as usize;
    format!("{:.*}", after_the_point, number)
}

/// Nanoseconds, as microseconds.
pub fn us(nanoseconds: f64) -> String {
    digits(nanoseconds / 1_000.0)
}

/// A ratio; one that is far below 1 as a fraction too.
pub fn ratio(ratio: f64) -> String {
    if ratio < 0.1 {
        format!("{} (1/{})", digits(ratio), digits(1.0 / ratio))
    } else {
        digits(ratio)
    }
}
