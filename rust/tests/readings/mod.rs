//! Readings by each rule, as a read answers them: position, residual, and in how many bits the chunks that the rule names differ from
//! their codeword.
use dunnavish::{Reading, Refusal, Rule};

/// Rule 1: of chunk 1 these bits.
pub fn rule_1(position: u32, residual: u32, bits: u32) -> Result<Reading, Refusal> {
    Ok(Reading { position, residual, rule: Rule::ThirdDiffers, chunk1_bits: Some(bits), chunk2_bits: None })
}

/// Rule 2: of chunk 2 these bits.
pub fn rule_2(position: u32, residual: u32, bits: u32) -> Result<Reading, Refusal> {
    Ok(Reading { position, residual, rule: Rule::FirstDiffers, chunk1_bits: None, chunk2_bits: Some(bits) })
}

/// Rule 3: of either chunk these bits.
pub fn rule_3(position: u32, residual: u32, [first, second]: [u32; 2]) -> Result<Reading, Refusal> {
    Ok(Reading { position, residual, rule: Rule::AllAlike, chunk1_bits: Some(first), chunk2_bits: Some(second) })
}
