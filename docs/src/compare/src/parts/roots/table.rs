//! Arguments about every entry of the table that starts a root (document 02, 9/12).

/// How far the root of the 23 or 24 leading digits lies above the entry of the first nine or ten.
pub const TOO_SMALL: [&str; 5] = [
    "roots whose entry of the table is right",
    "roots whose entry of the table is one too small",
    "roots whose entry of the table is two too small",
    "roots whose entry of the table is three too small",
    "roots whose entry of the table is four too small",
];

/// Entry i, and numbers of 23 or 24 binary digits that begin with those of i: the first and the last,
/// and about every square among them.
fn leading(i: u64) -> (u64, Vec<u64>) {
    let (first, last) = (i << 14, (i << 14) + 0x3fff);
    let entry = first.isqrt();
    let squares = (entry..entry + 6).map(|root| root * root);
    let near = squares.flat_map(|square| [square - 1, square, square + 1]);
    let within = near.filter(|top| (first..=last).contains(top));
    (entry, [first, last].into_iter().chain(within).collect())
}

/// Patterns of numbers from 1 up to 4, each with how much too small its entry is: 23 or 24 digits, and
/// then zeros, ones, or a one at the end.
pub fn about_entries() -> impl Iterator<Item = (u64, usize)> {
    (256..1024).flat_map(|i| {
        let (entry, tops) = leading(i);
        tops.into_iter().flat_map(move |top| {
            let short = (top.isqrt() - entry) as usize;
            // An f64 from 2 on has no last digit here.
            let one = if i < 512 { 1 } else { 2 };
            [0, one, (1 << 30) - one].map(|low| {
                let x = ((top << 30) + low) as f64 / 2_f64.powi(52);
                (x.to_bits(), short)
            })
        })
    })
}
