//! A listing of hexadecimal digits turned into decimals, with its last line in words.

use crate::refusal::Refused;
use crate::text::number;

/// How the numbers are shown.
#[derive(Clone, Copy, Debug, PartialEq, Eq)]
pub enum Shown {
    /// Heads to a millimetre, flows to a millilitre per second.
    Rounded,
    /// The shortest decimals that read back to the same bits.
    Exact,
}

/// The listing in decimals, or in words what is not a listing's line.
pub fn in_decimals(listing: &str, shown: Shown) -> Result<String, String> {
    let mut text = String::new();
    for line in listing.lines() {
        let fields: Vec<&str> = line.split(' ').collect();
        if let [section, head, flow, highest, lowest] = fields[..] {
            if text.is_empty() {
                text +=
                    &columns(["section", "head", "flow", "maximum", "minimum"].map(String::from));
            }
            text += &columns([
                section.to_string(),
                decimal(head, 3, shown)?,
                decimal(flow, 6, shown)?,
                decimal(highest, 3, shown)?,
                decimal(lowest, 3, shown)?,
            ]);
        } else {
            text += &format!("{}\n", closing(&fields)?);
        }
    }
    Ok(text)
}

fn columns(fields: [String; 5]) -> String {
    let [section, head, flow, highest, lowest] = fields;
    format!("{section:>7} {head:>22} {flow:>22} {highest:>22} {lowest:>22}\n")
}

/// Sixteen hexadecimal digits as a decimal.
fn decimal(digits: &str, places: usize, shown: Shown) -> Result<String, String> {
    let bits = u64::from_str_radix(digits, 16).map_err(|_| format!("`{digits}` is no number"))?;
    let x = f64::from_bits(bits);
    Ok(match shown {
        Shown::Exact => number(x),
        Shown::Rounded if x.abs() < 1e12 => format!("{x:.places$}"),
        Shown::Rounded => format!("{x:.6e}"),
    })
}

/// The last line in words.
fn closing(fields: &[&str]) -> Result<String, String> {
    let whole = |field: &str| field.parse::<u64>().map_err(|_| format!("`{field}` is no number"));
    match fields {
        ["done", steps] => Ok(format!("Done: {} steps.", whole(steps)?)),
        ["notfinite", steps, section] => {
            let step = whole(steps)? + 1;
            Ok(format!("Stopped in step {step}, as 40: at section {section} the head or flow is not finite. The listing shows step {steps}."))
        }
        ["parted", steps, section] => {
            let step = whole(steps)? + 1;
            Ok(format!("Stopped in step {step}, as 41: at section {section} the head is below its floor, the column parts. The listing shows step {steps}."))
        }
        ["refused", number] => {
            let number = number.parse().map_err(|_| format!("`{number}` is no number"))?;
            Ok(format!("The job is {}.", Refused(number)))
        }
        _ => Err(format!("`{}` is no line of a listing", fields.join(" "))),
    }
}

#[cfg(test)]
mod tests {
    use super::*;
    use crate::listing::listing;
    use crate::samples::job_q;

    #[test]
    fn job_q_in_decimals() {
        let text = in_decimals(&listing(&job_q().bytes()), Shown::Rounded).unwrap();
        let words: Vec<Vec<&str>> =
            text.lines().map(|line| line.split_whitespace().collect()).collect();
        assert_eq!(words[0], ["section", "head", "flow", "maximum", "minimum"]);
        assert_eq!(words[3], ["2", "14.000", "0.000000", "14.000", "10.000"]);
        assert_eq!(words[4], ["Done:", "1", "steps."]);
    }

    #[test]
    fn last_lines_in_words() {
        let said = |line: &str| in_decimals(line, Shown::Exact);
        assert!(said("notfinite 7 3\n")
            .unwrap()
            .starts_with("Stopped in step 8, as 40: at section 3"));
        assert!(said("parted 0 0\n").unwrap().starts_with("Stopped in step 1, as 41"));
        assert!(said("refused 4\n")
            .unwrap()
            .contains("steps for the listing are at most 1,000,000"));
        assert!(said("hello\n").is_err());
    }
}
