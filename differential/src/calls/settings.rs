//! The test of settings.

use crate::case::{of_settings, Case, Outcome, LARGEST, OTHER, SIXTEENS, WIDE};
use crate::verified;
use reference::cases::Page;
use reference::draw::base::{damage_settings, settings, OTHER_MODULI};
use reference::draw::Limits;
use reference::random::Random;
use reference::types::{Settings, ITS_MODULUS, LARGEST_DEGREE};
use reference::{plain, refuse};

#[derive(Clone)]
pub struct SettingsCase(Settings);

impl Case for SettingsCase {
    const NAME: &'static str = "settings";
    const NUMBERS: &'static [u32] = &[0, 3, 4, 5, 6, 16];
    const OF_SETTINGS: &'static [&'static str] = &[WIDE, LARGEST, SIXTEENS, OTHER];
    const OF_ROWS: bool = true;

    fn draw(random: &mut Random, limits: &Limits) -> SettingsCase {
        let mut s = settings(random, limits, false);
        for _ in 0..random.below(4) {
            let number = random.pick(&[3, 4, 5, 6, 16]);
            damage_settings(random, &mut s, number);
        }
        if random.one_in(8) {
            // The largest degree with any modulus.
            let any = [ITS_MODULUS, s.modulus, random.word()];
            s.degree = LARGEST_DEGREE;
            s.modulus = random.pick(&[&any[..], &OTHER_MODULI].concat());
        }
        if random.one_in(4) {
            // Any numbers near the borders.
            s.degree = random.below(130) as u32;
            s.depth = random.below(12) as u32;
            s.modulus = random.word() >> random.below(64);
            s.bound = random.below(140) as u32;
            s.rows = random.below(7) as u32;
        }
        SettingsCase(s)
    }

    fn plain(&self) -> Outcome {
        Outcome::new(plain::refusals::settings(self.0))
    }

    fn admitted(&self) -> Option<u32> {
        Some(refuse::settings(self.0).err().unwrap_or(0))
    }

    fn verified(&self) -> Outcome {
        Outcome::new(verified::settings(self.0))
    }

    fn remarks(&self, number: u32) -> Vec<String> {
        of_settings(number, self.0, self.0.degree == LARGEST_DEGREE)
    }

    fn print(&self, page: &mut Page) {
        page.header("settings");
        page.settings(self.0);
        page.numbers([self.plain().number]);
    }
}
