//! Figures as people read them: thousands commas, and slots as time.

/// 1234567 as 1,234,567.
pub fn grouped(number: u64) -> String {
    let digits = number.to_string();
    let mut text = String::new();
    for (at, digit) in digits.chars().enumerate() {
        if at > 0 && (digits.len() - at).is_multiple_of(3) {
            text.push(',');
        }
        text.push(digit);
    }
    text
}

/// A count with its noun.
pub fn counted(number: u64, one: &str, many: &str) -> String {
    format!("{} {}", grouped(number), if number == 1 { one } else { many })
}

/// Parts of a nanosecond that the duration of a slot is counted in.
const PARTS: u128 = 1_000_000;

/// The duration of a slot.
#[derive(Clone, Copy, Debug, PartialEq, Eq)]
pub struct SlotTime {
    parts: u128,
}

impl SlotTime {
    /// Nanoseconds: up to ten digits, and up to six more after a point; more than 0.
    pub fn read(text: &str) -> Result<SlotTime, String> {
        let (whole, decimals) = text.split_once('.').unwrap_or((text, "0"));
        let is_number = |digits: &str, most: usize| (1..=most).contains(&digits.len()) && digits.bytes().all(|byte| byte.is_ascii_digit());
        let parts = format!("{whole}{decimals:0<6}").parse().unwrap_or(0);
        if !is_number(whole, 10) || !is_number(decimals, 6) || parts == 0 {
            return Err(format!("--slot-ns {text}: a slot's nanoseconds are needed, above 0, up to 10 digits and 6 decimals, such as 512 or 5.12"));
        }
        Ok(SlotTime { parts })
    }

    /// So many slots in nanoseconds, exactly.
    pub fn nanoseconds(&self, slots: u64) -> String {
        decimal(self.parts * slots as u128, PARTS, 6)
    }

    /// So many slots in the largest unit that gives 1 or more, to three decimals.
    pub fn text(&self, slots: u64) -> String {
        let parts = self.parts * slots as u128;
        let units = [("s", 1_000_000_000), ("ms", 1_000_000), ("us", 1_000), ("ns", 1)];
        let (name, nanoseconds) = units.into_iter().find(|(_, nanoseconds)| parts >= nanoseconds * PARTS).unwrap_or(units[3]);
        format!("{} {name}", decimal(parts, nanoseconds * PARTS, 3))
    }
}

/// A quotient with up to so many decimals, the last one rounded, without zeros at the end.
fn decimal(number: u128, by: u128, decimals: u32) -> String {
    let scale = 10u128.pow(decimals);
    let scaled = (number * scale + by / 2) / by;
    let text = format!("{}.{:0width$}", scaled / scale, scaled % scale, width = decimals as usize);
    text.trim_end_matches('0').trim_end_matches('.').to_string()
}

#[cfg(test)]
mod tests {
    use super::*;

    #[test]
    fn commas_stand_before_each_three_digits() {
        let texts: Vec<String> = [0, 999, 1000, 65535, 1000000, 4000000000].into_iter().map(grouped).collect();
        assert_eq!(texts, ["0", "999", "1,000", "65,535", "1,000,000", "4,000,000,000"]);
        assert_eq!((counted(1, "slot", "slots"), counted(2, "slot", "slots")), ("1 slot".into(), "2 slots".into()));
    }

    #[test]
    fn slots_become_time_in_a_fitting_unit() {
        let slot = SlotTime::read("512").unwrap();
        let texts: Vec<String> = [0, 1, 2, 1954, 1955, 1_953_125, 4_000_000_000].into_iter().map(|slots| slot.text(slots)).collect();
        assert_eq!(texts, ["0 ns", "512 ns", "1.024 us", "1 ms", "1.001 ms", "1 s", "2048 s"]);
        let slot = SlotTime::read("5.12").unwrap();
        assert_eq!((slot.text(1), slot.text(100), slot.nanoseconds(7)), ("5.12 ns".into(), "512 ns".into(), "35.84".into()));
        assert_eq!(SlotTime::read("0.000001").unwrap().nanoseconds(3), "0.000003");
    }

    #[test]
    fn anything_but_a_positive_number_is_refused() {
        for text in ["", "0", "0.0", "-5", "+5", "5,12", "1e3", "5.", ".5", "5.1.2", "abc", "12345678901", "1.1234567"] {
            let line = SlotTime::read(text).unwrap_err();
            assert!(line.starts_with(&format!("--slot-ns {text}: ")), "{line}");
        }
    }
}
