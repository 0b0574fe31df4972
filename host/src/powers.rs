//! The least whole numbers not below (10/7)^i, by long division.

const BASE: u64 = 1_000_000_000;

thread_local! {
    pub static POWERS: Vec<u128> = (0..125).map(power).collect();
}

/// 10^i divided by 7 and rounded up, i times: in whole numbers that is 10^i / 7^i rounded up.
fn power(i: usize) -> u128 {
    let mut digits: Vec<u64> = vec![1];
    for _ in 0..i {
        let mut carry = 0;
        for d in digits.iter_mut().rev() {
            let x = *d * 10 + carry;
            (*d, carry) = (x % BASE, x / BASE);
        }
        if carry != 0 {
            digits.insert(0, carry);
        }
    }
    for _ in 0..i {
        let mut rest = 0;
        for d in digits.iter_mut() {
            let x = rest * BASE + *d;
            (*d, rest) = (x / 7, x % 7);
        }
        if rest != 0 {
            for d in digits.iter_mut().rev() {
                *d += 1;
                if *d < BASE {
                    break;
                }
                *d = 0;
            }
        }
    }
    digits.iter().fold(0, |n, d| n * BASE as u128 + *d as u128)
}
