//! Readings as words: for tables, CSV and JSON.

use crate::json;
use mill::{Reading, Slope};

/// The columns of a reading.
pub const COLUMNS: [&str; 6] = ["time", "a", "b", "slope_a", "slope_b", "pigment"];

pub const SLOPES: [(&str, Slope); 3] = [("falling", Slope::Falling), ("flat", Slope::Flat), ("rising", Slope::Rising)];

pub fn slope_word(slope: Slope) -> &'static str {
    match slope {
        Slope::Falling => "falling",
        Slope::Flat => "flat",
        Slope::Rising => "rising",
    }
}

/// The fields of a reading in the order of its columns.
pub fn fields(reading: &Reading) -> Vec<String> {
    let Reading { time, a, b, slope_a, slope_b, pigment } = *reading;
    let [slope_a, slope_b] = [slope_a, slope_b].map(|slope| slope_word(slope).to_string());
    vec![time.to_string(), a.to_string(), b.to_string(), slope_a, slope_b, pigment.to_string()]
}

pub fn object(reading: &Reading) -> json::Object {
    let mut object = json::Object::new();
    object.number("time", reading.time);
    object.number("a", reading.a);
    object.number("b", reading.b);
    object.string("slope_a", slope_word(reading.slope_a));
    object.string("slope_b", slope_word(reading.slope_b));
    object.number("pigment", reading.pigment);
    object
}

/// `{"readings":[..]}`, a line.
pub fn listed(readings: &[Reading]) -> String {
    let mut object_of_all = json::Object::new();
    object_of_all.raw("readings", &json::list(readings.iter().map(|reading| object(reading).text())));
    object_of_all.line()
}
