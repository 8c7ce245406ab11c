//! Counting the answers, for `--stats`.

use crate::transport::Unfinished;

use super::Generator;

impl Generator {
    pub fn count(&mut self, what: String) {
        *self.stats.entry(what).or_insert(0) += 1;
    }

    pub fn note(&mut self, line: &str, answer: &str, warned: bool, warns: bool) {
        if answer.is_empty() {
            return self.count("skipped".into());
        }
        let name = line.split(' ').next().unwrap_or("");
        let words: Vec<&str> = answer.split(' ').collect();
        match words[..] {
            ["no", n, ..] => self.count(format!("{name} no {n}")),
            ["took", _, "no", n] => self.count(format!("table stopped by {n}")),
            ["fault"] | ["none"] | ["conf"] => self.count(words[0].to_string()),
            ["ans", bytes, ops, ..] => {
                let function = line.rsplit(' ').next().map_or("", |f| &f[2..4]).to_string();
                let byte = |at: usize| u8::from_str_radix(&bytes[2 * at..2 * at + 2], 16).unwrap();
                let (control, iin1, iin2) = (byte(0), byte(2), byte(3));
                let known = matches!(function.as_str(), "01" | "02" | "03" | "04" | "05");
                let group = if known { function.as_str() } else { "unknown" };
                self.count(format!("ans function {group}"));
                if control & 0x20 != 0 {
                    self.count("ans CON".into());
                    if bytes.len() == 8 {
                        self.count("ans CON with no object".into());
                    }
                }
                for bit in 0..8 {
                    if iin1 & 1 << bit != 0 {
                        self.count(format!("ans IIN1.{bit}"));
                    }
                    if iin2 & 1 << bit != 0 {
                        self.count(format!("ans IIN2.{bit}"));
                    }
                }
                if bytes.len() == 4096 {
                    self.count("ans of 2,048 bytes".into());
                }
                if ["03", "04", "05"].contains(&function.as_str()) && bytes.len() > 8 {
                    let (width, head) = if byte(6) == 0x17 { (1, 8) } else { (2, 9) };
                    let (what, size) = match (byte(4), byte(5)) {
                        (41, 2) => ("set point, ", 3),
                        (41, _) => ("set point, ", 5),
                        _ => ("", 11),
                    };
                    let mut at = head + width + size - 1;
                    while 2 * at < bytes.len() {
                        self.count(format!("{what}status {} of function {function}", byte(at)));
                        at += width + size;
                    }
                }
                if ops != "-" {
                    let what = if ops.contains('@') { "set point, " } else { "" };
                    self.count(format!("{what}carried out by function {function}"));
                }
            }
            ["mute", ops, ..] => {
                let what = match ops {
                    "-" => "none",
                    _ if ops.contains('@') => "set points",
                    _ => "relays",
                };
                self.count(format!("mute, carried out: {what}"));
            }
            ["held", n, ..] => {
                let held = if n == "256" { "held 256" } else { "held" };
                self.count(held.to_string());
            }
            _ => self.count(format!("{name} {}", words[0])),
        }
        if answer.ends_with(" spoilt") {
            self.count("SPOILT".into());
        }
        if !warned && warns {
            self.count("warning set by a drop".into());
        }
        if answer == "conf" {
            if warned {
                let kept = if warns { "kept" } else { "cleared" };
                self.count(format!("conf, warning {kept}"));
            }
            if self.station().is_some_and(|o| !o.events.held.is_empty()) {
                self.count("conf, some events still held".into());
            }
        }
    }

    /// Segments that changed nothing: not the first of a fragment, but heard before.
    pub fn note_again(&mut self, answer: &str, before: Option<Unfinished>) {
        let Some(kept) = before.filter(|kept| !kept.fir) else { return };
        if answer != "more" || self.unfinished() != before {
            return;
        }
        self.count("seg more, heard again".into());
        if kept.count == 2048 {
            self.count("seg more, heard again at 2,048 bytes".into());
        }
        if kept.last == 63 || kept.last == 0 {
            self.count(format!("seg more, heard again with sequence {}", kept.last));
        }
    }
}
