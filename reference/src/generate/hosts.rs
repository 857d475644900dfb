//! Hosts of both kinds, at their edges and past them.

use super::Generator;
use crate::host::Profile;
use crate::rng::Rng;

impl Generator {
    /// Makes a host, by chance one that is refused.
    pub(super) fn any_host(&mut self, large: bool) {
        if self.rng.chance(50) {
            self.any_listing(large);
        } else {
            let profile = self.any_profile();
            self.any_sheet(profile, large);
        }
    }

    pub(super) fn any_listing(&mut self, large: bool) {
        let other = self.rng.short();
        let today = *self
            .rng
            .pick(&[0, 1, 200, 255, 256, 300, 40000, 65535, other]);
        let sizes: &[usize] = if large {
            &[199, 200, 201]
        } else {
            &[0, 1, 2, 3, 5, 9, 20]
        };
        let size = *self.rng.pick(sizes);
        let mut line = format!("listing {today}");
        for _ in 0..size {
            let day = |rng: &mut Rng| {
                let apart = *rng.pick(&[0u16, 1, 2, 100, 254, 255, 256, 257]);
                match rng.below(6) {
                    0 => 0,
                    1 => 65535,
                    2 => rng.short(),
                    3 => today.saturating_add(apart),
                    _ => today.saturating_sub(apart),
                }
            };
            let published = day(&mut self.rng);
            let withdrawn = if self.rng.chance(40) {
                0
            } else {
                day(&mut self.rng)
            };
            let (name, patch) = (self.small_byte(), self.small_byte());
            line.push_str(&format!(" {published}/{withdrawn}/{name}/{patch}"));
        }
        self.say(line);
    }

    pub(super) fn small_byte(&mut self) -> u8 {
        let any = self.rng.byte();
        *self.rng.pick(&[0, 1, 2, 3, 7, 12, 255, any])
    }

    pub(super) fn any_profile(&mut self) -> Profile {
        if self.rng.chance(15) {
            return Profile(0x4231);
        }
        let faults = if self.rng.chance(10) { 20 } else { 0 };
        let mut digits = 0;
        for _ in 0..8 {
            let digit = if self.rng.chance(faults) {
                *self.rng.pick(&[5, 6, 8, 15])
            } else {
                u32::try_from(self.rng.below(5)).expect("a digit")
            };
            digits = digits << 4 | digit;
        }
        Profile(digits)
    }

    pub(super) fn any_sheet(&mut self, profile: Profile, large: bool) {
        let mut line = if self.rng.chance(20) {
            format!("sheet {:08X}", profile.0)
        } else {
            format!("sheet {:08x}", profile.0)
        };
        let sizes: &[usize] = if large {
            &[1023, 1024, 1025]
        } else {
            &[0, 1, 2, 4, 8, 30]
        };
        let size = *self.rng.pick(sizes);
        let faults = if self.rng.chance(75) {
            0
        } else {
            100 / (size + 1) + 1
        };
        let asked: Vec<u16> = (0..8).filter(|q| profile.digit(*q) != 0).collect();
        let mut used: Vec<(u16, u16)> = Vec::new();
        for place in 0..size {
            let fault = self.rng.chance(faults);
            let question = match asked.is_empty() || fault && self.rng.chance(20) {
                true => *self.rng.pick(&[0, 1, 7, 8, 9, 65535]),
                false => *self.rng.pick(&asked),
            };
            let mut number = if large {
                u16::try_from(place).expect("few lines")
            } else {
                let any = u16::try_from(self.rng.below(4096)).expect("small");
                *self
                    .rng
                    .pick(&[0, 1, 2, 3, 4, 5, 6, 7, 8, 9, 254, 255, 4094, 4095, any])
            };
            if fault && self.rng.chance(30) {
                number = *self.rng.pick(&[4096, 65535]);
            }
            if fault && self.rng.chance(40) && !used.is_empty() {
                number = self.rng.pick(&used).1;
            } else if !fault && used.contains(&(question, number)) {
                number = u16::try_from(place + 100).expect("few lines");
            }
            used.push((question, number));
            let byte = u16::from(self.rng.byte());
            let (mut a, mut b) = match profile.digit(question) {
                1 => (*self.rng.pick(&[0, 1, 5, 255, byte]), 0),
                2 => (*self.rng.pick(&[0, 1]), 0),
                3 => *self
                    .rng
                    .pick(&[(0, 0), (1, 0), (1, 9), (1, 255), (1, byte)]),
                _ => (
                    *self.rng.pick(&[0, 3, 255]),
                    *self.rng.pick(&[0, 4, 255, byte]),
                ),
            };
            if fault && self.rng.chance(40) {
                (a, b) =
                    *self
                        .rng
                        .pick(&[(2, 0), (256, 0), (0, 1), (1, 256), (65535, 65535), (1, 1)]);
            }
            line.push_str(&format!(" {question}/{number}/{a}/{b}"));
        }
        self.say(line);
    }

    pub(super) fn hosts(&mut self) {
        let large = self.rng.chance(15);
        self.any_host(large);
        self.say("profile");
        for _ in 0..self.rng.within(2, 9) {
            let question = *self.rng.pick(&[0, 1, 2, 3, 4, 5, 6, 7, 8, 65535]);
            let number = *self.rng.pick(&[
                0, 1, 2, 3, 4, 5, 8, 9, 19, 20, 198, 199, 200, 254, 255, 1023, 4094, 4095, 4096,
                65535,
            ]);
            self.say(format!("ask {question} {number}"));
            self.aside();
        }
    }
}
