//! The least that a backfill without programs costs, to hold `backfill dry` beside: all tries succeed, one after the other.
//!
//! `floor TASKS UPSTREAMS RUNS OPEN` backfills tasks that each wait for so many before them, with at most OPEN runs open at once; `floor items COUNT
//! RUNS` a task that is expanded over a list of so many numbers, with 16 open. Each run has a count of unsettled upstreams a task, its instances
//! with items and outcomes, and a count of unsettled tasks; tries that are ready stand in a heap by run, task and map index; each event is
//! noted in a journal. The report that it prints at the end is the one that `dry` prints of such a graph, byte for byte. It knows no other
//! rule than all_success, no retries, pools, past, moments or ledger, checks nothing, and gives up where memory is wanting.
use std::cmp::Reverse;
use std::collections::BinaryHeap;
use std::fmt::{self, Write as _};
use std::io::{self, Write as _};

#[derive(Clone, Copy, PartialEq, Eq, PartialOrd, Ord)]
struct Name {
    run: u32,
    task: u32,
    /// The map index, or -1 where the task isn't expanded.
    index: i32,
}

#[derive(Clone)]
enum Value {
    Number(i64),
    List(Vec<Value>),
}

impl fmt::Display for Value {
    fn fmt(&self, f: &mut fmt::Formatter) -> fmt::Result {
        match self {
            Value::Number(number) => write!(f, "{number}"),
            Value::List(values) => {
                let texts: Vec<String> = values.iter().map(Value::to_string).collect();
                write!(f, "[{}]", texts.join(","))
            }
        }
    }
}

#[allow(dead_code)] // written, and read by nobody
enum Event {
    Open { run: u32 },
    Settle { run: u32, task: u32 },
    Begin(Name),
    End(Name, Option<Value>),
    Close { run: u32 },
}

struct Task {
    id: String,
    upstreams: u32,
    downstreams: Vec<u32>,
    is_expanded: bool,
    pushes: Option<Value>,
}

struct Instance {
    item: Option<Value>,
    pushed: Option<Value>,
}

struct Run {
    unsettled_upstreams: Vec<u32>,
    unfinished: Vec<u32>,
    instances: Vec<Vec<Instance>>,
    unsettled_tasks: usize,
}

struct Backfill {
    tasks: Vec<Task>,
    runs: Vec<Run>,
    ready: BinaryHeap<Reverse<Name>>,
    journal: Vec<Event>,
}

impl Backfill {
    fn open_next_run(&mut self) {
        let run = self.runs.len() as u32;
        self.journal.push(Event::Open { run });
        self.runs.push(Run {
            unsettled_upstreams: self.tasks.iter().map(|task| task.upstreams).collect(),
            unfinished: vec![0; self.tasks.len()],
            instances: self.tasks.iter().map(|_| Vec::new()).collect(),
            unsettled_tasks: self.tasks.len(),
        });
        for task in 0..self.tasks.len() {
            if self.tasks[task].upstreams == 0 {
                self.decide(run, task as u32);
            }
        }
    }

    /// Makes the instances of a task whose upstreams are settled.
    fn decide(&mut self, run: u32, task: u32) {
        self.journal.push(Event::Settle { run, task });
        let items = if self.tasks[task as usize].is_expanded {
            match &self.runs[run as usize].instances[0][0].pushed {
                Some(Value::List(values)) => values.iter().cloned().map(Some).collect(),
                _ => Vec::new(),
            }
        } else {
            vec![None]
        };
        let row = &mut self.runs[run as usize];
        row.unfinished[task as usize] = items.len() as u32;
        for (place, item) in items.iter().enumerate() {
            let index = if item.is_some() { place as i32 } else { -1 };
            self.ready.push(Reverse(Name { run, task, index }));
        }
        let made = items.into_iter().map(|item| Instance { item, pushed: None });
        row.instances[task as usize] = made.collect();
    }

    /// Makes a try, and settles its task where it is the last.
    fn make_try(&mut self, name: Name) {
        let Name { run, task, index } = name;
        let pushed = self.tasks[task as usize].pushes.clone();
        self.journal.push(Event::Begin(name));
        self.journal.push(Event::End(name, pushed.clone()));
        let row = &mut self.runs[run as usize];
        row.instances[task as usize][index.max(0) as usize].pushed = pushed;
        row.unfinished[task as usize] -= 1;
        if row.unfinished[task as usize] == 0 {
            row.unsettled_tasks -= 1;
            self.hear_of_settled(run, task);
        }
    }

    fn hear_of_settled(&mut self, run: u32, task: u32) {
        for place in 0..self.tasks[task as usize].downstreams.len() {
            let downstream = self.tasks[task as usize].downstreams[place];
            let left = &mut self.runs[run as usize].unsettled_upstreams[downstream as usize];
            *left -= 1;
            if *left == 0 {
                self.decide(run, downstream);
            }
        }
    }

    fn go(&mut self, runs: usize, most_open: usize) {
        let mut open = 0;
        loop {
            while open < most_open && self.runs.len() < runs {
                self.open_next_run();
                open += 1;
            }
            let Some(Reverse(name)) = self.ready.pop() else {
                return;
            };
            self.make_try(name);
            if self.runs[name.run as usize].unsettled_tasks == 0 {
                self.journal.push(Event::Close { run: name.run });
                open -= 1;
            }
        }
    }

    fn report(&self, dag_id: &str) -> Result<String, fmt::Error> {
        let mut text = format!("@backfill 2 {dag_id}\n");
        let mut date = (2000, 1, 1);
        for run in &self.runs {
            let next = day_after(date);
            writeln!(text, "@run {} {} success", start_of(date), start_of(next))?;
            date = next;
            for (task, instances) in self.tasks.iter().zip(&run.instances) {
                for (place, instance) in instances.iter().enumerate() {
                    let index = if task.is_expanded { place as i32 } else { -1 };
                    match &instance.pushed {
                        Some(value) => writeln!(text, "{} {index} success 1 {value}", task.id)?,
                        None => writeln!(text, "{} {index} success 1 -", task.id)?,
                    }
                    if let Some(item) = &instance.item {
                        writeln!(text, "@item {item}")?;
                    }
                }
            }
        }
        writeln!(text, "@end {}", self.runs.len())?;
        Ok(text)
    }
}

type Date = (u32, u32, u32);

fn start_of((year, month, day): Date) -> String {
    format!("{year}-{month:02}-{day:02}T00:00:00Z")
}

/// The next day of the years 2000 to 2099.
fn day_after((year, month, day): Date) -> Date {
    let length = match month {
        2 if year % 4 == 0 => 29,
        2 => 28,
        4 | 6 | 9 | 11 => 30,
        _ => 31,
    };
    match (month, day) {
        (12, 31) => (year + 1, 1, 1),
        _ if day == length => (year, month + 1, 1),
        _ => (year, month, day + 1),
    }
}

/// Tasks of which each waits for so many before it, or all where there are fewer.
fn chained(count: u32, upstreams: u32) -> Vec<Task> {
    let made = (0..count).map(|task| Task {
        id: format!("t{task}"),
        upstreams: task.min(upstreams),
        downstreams: (task + 1..count.min(task + upstreams + 1)).collect(),
        is_expanded: false,
        pushes: None,
    });
    made.collect()
}

/// A task that pushes so many numbers, and one that is expanded over them.
fn expanded(count: i64) -> Vec<Task> {
    let task = |id: &str, upstreams, downstreams, is_expanded, pushes| Task {
        id: id.to_string(),
        upstreams,
        downstreams,
        is_expanded,
        pushes,
    };
    let numbers = Value::List((0..count).map(Value::Number).collect());
    vec![task("src", 0, vec![1], false, Some(numbers)), task("m", 1, Vec::new(), true, None)]
}

fn main() -> Result<(), Box<dyn std::error::Error>> {
    let words: Vec<String> = std::env::args().skip(1).collect();
    let words: Vec<&str> = words.iter().map(String::as_str).collect();
    let (tasks, dag_id, runs, most_open) = match words.as_slice() {
        ["items", count, runs] => (expanded(count.parse()?), "d", runs.parse()?, 16),
        [tasks, upstreams, runs, open] => {
            (chained(tasks.parse()?, upstreams.parse()?), "bench", runs.parse()?, open.parse()?)
        }
        _ => return Err("floor TASKS UPSTREAMS RUNS OPEN, or floor items COUNT RUNS".into()),
    };
    let mut backfill = Backfill {
        tasks,
        runs: Vec::new(),
        ready: BinaryHeap::new(),
        journal: Vec::new(),
    };
    backfill.go(runs, most_open);
    io::stdout().write_all(backfill.report(dag_id)?.as_bytes())?;
    Ok(())
}
