//! Plans whose rows decide, and events that break several of them at once (document 02, S-2),
//! worked out by hand: an excess is the sum afterwards less the bound, and the greatest is named.

/// Bounds, the weights of a type's only stage, and the row that a load into the empty table is
/// refused for, with its excess. The sums are the weights.
pub type Load = (&'static [u16], &'static [u8], u32, u16);

/// Bounds, the weights of a type's two stages, and the row that an advance is refused for, with
/// its excess. Two jobs are at stage 1 and one of them moves on: before, the sums are the first
/// weights twice; afterwards both weights together.
pub type Advance = (&'static [u16], [&'static [u8]; 2], u32, u16);

pub const LOADS: &[Load] = &[
    // 1
    (&[0], &[1], 1, 1),
    // 7, 3: the worse first
    (&[2, 5], &[9, 8], 1, 7),
    // 3, 7: the worse last
    (&[5, 2], &[8, 9], 2, 7),
    // 5, 5
    (&[1, 4], &[6, 9], 1, 5),
    // 1, 6, 6, kept: equal ones after a lesser, not at the ends
    (&[3, 2, 7, 9], &[4, 8, 13, 9], 2, 6),
    // 3, 2 and 2, 3: with the bound 0
    (&[0, 10], &[3, 12], 1, 3),
    (&[10, 0], &[12, 3], 2, 3),
    // 1, 50: the lowest bound is not it
    (&[0, 100], &[1, 150], 2, 50),
    // 10, 20 and 20, 10: the greatest sum is not it
    (&[200, 10], &[210, 30], 2, 20),
    (&[10, 200], &[30, 210], 1, 20),
    // kept, 4, 3: the greatest sum is not even broken
    (&[240, 3, 5], &[240, 7, 8], 2, 4),
    // 2, 7, 2: the worst in the middle
    (&[1, 2, 3], &[3, 9, 5], 2, 7),
    // 6, 1, 6 and 5, 2, 8: a lesser between
    (&[1, 4, 2], &[7, 5, 8], 1, 6),
    (&[1, 1, 1], &[6, 3, 9], 3, 8),
    // 1, 2, 3 and 3, 2, 1: rising, falling
    (&[1, 1, 1], &[2, 3, 4], 3, 3),
    (&[1, 1, 1], &[4, 3, 2], 1, 3),
    // kept, 1, kept, 3, kept: a kept row has 0 or its bound
    (&[9, 1, 255, 1, 9], &[0, 2, 255, 4, 9], 4, 3),
    // kept, 1 and 1, kept: 1 less 65,535 would be 2 if bits were lost
    (&[65_535, 1], &[1, 2], 2, 1),
    (&[1, 65_535], &[2, 1], 1, 1),
    // 127, 128: the latter would be less in a signed byte
    (&[1, 0], &[128, 128], 2, 128),
    // 254, 255, 255: the most that one job can add
    (&[0, 0, 0], &[254, 255, 255], 2, 255),
    // 2, 3; 3, 2; 3, 3: the ends of 32 rows, all others kept
    (&[10; 32], &ends(12, 13), 32, 3),
    (&[10; 32], &ends(13, 12), 1, 3),
    (&[10; 32], &ends(13, 13), 1, 3),
];

pub const ADVANCES: &[Advance] = &[
    // 18, 2; then 21, 7: excess 1, 3. Were the old weight kept: 30, 8, excess 10, 4.
    (&[20, 4], [&[9, 1], &[12, 6]], 2, 3),
    (&[4, 20], [&[1, 9], &[6, 12]], 1, 3),
    // 10, 2, 2; then 5, 7, 9: kept, 2, 4
    (&[10, 5, 5], [&[5, 1, 1], &[0, 6, 8]], 3, 4),
    // the same sums: kept, 2, 2
    (&[10, 5, 7], [&[5, 1, 1], &[0, 6, 8]], 2, 2),
    // 8, 8, 6; then 9, 13, 8: 1, 4, 2
    (&[8, 9, 6], [&[4, 4, 3], &[5, 9, 5]], 2, 4),
    // 4, 0; then 5, 255: 1, 255
    (&[4, 0], [&[2, 0], &[3, 255]], 2, 255),
];

/// The crossing plan with capacities 2, the bound 3 in row 2 and the weight 3 for stage 1 of
/// type 1 there, so that the check answers 24. Sums and excess of the refused events: 2, 6, 0 has
/// 1, 3; 1, 4, 1 and 1, 4, 0 break row 2 alone; 1, 4, 2 breaks rows 2 and 3 by 1.
pub const RUN: (&str, &str) = (
    "C 3 2 3/R 1 2/R 2 2/R 3 2/T 1 3/T 2 3/S 1 1 1 1/S 1 2 2 1/S 1 3 3 1/\
    S 2 1 3 1/S 2 2 2 1/S 2 3 1 1/B 1 1/B 2 3/B 3 1/A 1 1 1 1/A 1 2 3 1/A 2 1 1 3/A 2 1 2 1/\
    A 2 2 1 1/A 2 2 2 1/A 3 1 3 1/A 3 2 1 1/K 1 1/K 2 2/K 3 1/E/\
    L 7 1/L 8 1/L 8 2/A 7/L 8 1/A 7/L 8 1/L 9 2/",
    "P 0 0/Q 24 2 0/1 0 0 1/2 19 2 1/3 19 2 1/4 0 0 1/5 19 2 1/6 0 0 1/7 0 0 2/8 19 2 2/",
);

/// Weights of 10 but for the first and last of 32 rows.
const fn ends(first: u8, last: u8) -> [u8; 32] {
    let mut weights = [10; 32];
    weights[0] = first;
    weights[31] = last;
    weights
}

/// The text of a plan whose only type has a stage for each list of weights, one for each row. The
/// only resource has room for 64 jobs.
pub fn weighed(bounds: &[u16], stages: &[&[u8]]) -> String {
    let mut text = format!("C 1 1 {}/R 1 64/T 1 {}/", bounds.len(), stages.len());
    for stage in 1..=stages.len() {
        text += &format!("S 1 {stage} 1 1/");
    }
    for (row, bound) in (1..).zip(bounds) {
        text += &format!("B {row} {bound}/");
    }
    for (stage, weights) in (1..).zip(stages) {
        for (row, weight) in (1..).zip(*weights).filter(|&(_, &weight)| weight > 0) {
            text += &format!("A {row} 1 {stage} {weight}/");
        }
    }
    text
}

/// Plans with the number and place that refuse the second of two jobs: it has 4 units of resource 2
/// and 10 of resource 3, and breaks row 1 by 2 (6 of 4) and row 2 by 9 (18 of 9). Resource 2 is
/// exceeded by 1, resource 3 by 5; then only resource 3; then none.
pub fn crowded() -> [(String, u32, u32); 3] {
    let text = |second: u8, third: u8| {
        format!(
            "C 3 1 2/R 1 9/R 2 {second}/R 3 {third}/T 1 1/S 1 1 1 1/S 1 1 2 2/S 1 1 3 5/\
            B 1 4/B 2 9/A 1 1 1 3/A 2 1 1 9/"
        )
    };
    [
        (text(3, 5), 18, 2),
        (text(4, 5), 18, 3),
        (text(4, 10), 19, 2),
    ]
}
