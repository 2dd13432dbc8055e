//! The goals of the project, and how many rows meet each: in instructions, and, where times were taken, how many would in time.

struct Goal {
    name: String,
    counted: Rows,
    timed: Rows,
}

#[derive(Default)]
struct Rows {
    met: usize,
    rows: usize,
    worst: f64,
}

impl Rows {
    fn add(&mut self, value: f64, met: bool) {
        self.worst = if self.rows == 0 { value } else { self.worst.max(value) };
        self.met += met as usize;
        self.rows += 1;
    }

    fn print(&self) -> String {
        if self.rows == 0 {
            "– | – |".to_string()
        } else {
            format!("{:.3} | {} of {} |", self.worst, self.met, self.rows)
        }
    }
}

pub struct Goals(Vec<Goal>);

fn verdict(met: bool) -> &'static str {
    if met { "met" } else { "**missed**" }
}

impl Goals {
    pub fn none() -> Self {
        Goals(Vec::new())
    }

    /// One row's value under the goal, its value in time, if it has one, and what is said of it.
    pub fn judge(&mut self, name: String, value: f64, time: Option<f64>, fits: impl Fn(f64) -> bool) -> &'static str {
        if !self.0.iter().any(|g| g.name == name) {
            self.0.push(Goal { name: name.clone(), counted: Rows::default(), timed: Rows::default() });
        }
        for goal in self.0.iter_mut().filter(|g| g.name == name) {
            goal.counted.add(value, fits(value));
            if let Some(time) = time {
                goal.timed.add(time, fits(time));
            }
        }
        verdict(fits(value))
    }

    pub fn print(&self) {
        println!(
            "\n### Goals\n\n| goal | worst | rows that meet it | | in time, worst | rows that would |\n|---|---|---|---|---|---|"
        );
        for Goal { name, counted, timed } in &self.0 {
            println!("| {name} | {} {} | {}", counted.print(), verdict(counted.met == counted.rows), timed.print());
        }
    }
}
