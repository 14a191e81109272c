//! Figures to bytes: the layout of the report.

use super::records::{Line, Tier};
use super::rules::Rules;

/// The header's amounts, in their order.
pub struct Figures {
    pub vaf: i128,
    pub vaf_prime: i128,
    pub all_net: i128,
    pub unlimited: i128,
    pub group_excess: i128,
    pub a3_sum: i128,
    pub a3_limit: i128,
    pub charge: i128,
}

/// The report of the groups' lines, each group's by rank.
pub fn report<R: Rules>(rules: &R, figures: &Figures, groups: &[Vec<Line>]) -> Vec<u8> {
    let lines: usize = groups.iter().map(Vec::len).sum();
    let mut bytes = b"ACR\0".to_vec();
    bytes.extend(1u16.to_le_bytes());
    bytes.extend((lines as u16).to_le_bytes());
    let Figures { vaf, vaf_prime, all_net, unlimited, group_excess, a3_sum, a3_limit, charge } =
        *figures;
    put(&mut bytes, &[vaf, vaf_prime, all_net, unlimited, group_excess, a3_sum, a3_limit, charge]);
    for group in groups {
        let tiers: Vec<Tier> = group.iter().map(|line| line.tier).collect();
        let set = rules.tier_set(&tiers);
        group.iter().for_each(|line| put_line(&mut bytes, line, set));
    }
    bytes
}

fn put_line(bytes: &mut Vec<u8>, line: &Line, set: u16) {
    bytes.extend(line.top.to_le_bytes());
    bytes.extend([line.tier.number(), 0]);
    bytes.extend(set.to_le_bytes());
    bytes.extend([0, 0]);
    put(bytes, &[line.exposure, line.limit, line.left, line.excess]);
}

fn put(bytes: &mut Vec<u8>, amounts: &[i128]) {
    amounts.iter().for_each(|&amount| bytes.extend((amount as u64).to_le_bytes()));
}
