//! What a test observes of a course, and of the view after it.

use hp_fire::{Course, End};
use hp_rule::{Detached, Step, Task};
use hp_store::CellValue;
use hp_tree::{Ending, Item, What};
use hp_value::{Cause, Cell, Key, RuleNo, Value, Veto};
use hp_view::View;

// The balance of an account, if it exists in the view.
pub fn shown(view: &View, key: Key) -> Option<i64> {
    if let Some(CellValue::Row(row)) = view.peek(Cell::Object(0, key)) {
        if let Ok(Value::Int(n)) = row.field("bal") {
            return Some(*n);
        }
    }
    None
}

// The balances of the accounts 1 to 5.
pub type Balances = (
    Option<i64>,
    Option<i64>,
    Option<i64>,
    Option<i64>,
    Option<i64>,
);

pub fn all_shown(view: &View) -> Balances {
    (
        shown(view, 1),
        shown(view, 2),
        shown(view, 3),
        shown(view, 4),
        shown(view, 5),
    )
}

// The last three numbers of a list, the last first.
pub type Last = (Option<i64>, Option<i64>, Option<i64>);

const NONE: Last = (None, None, None);

// The integers that a course itself emitted.
fn emitted(items: &[Item]) -> Last {
    let mut all = NONE;
    for item in items {
        if let Item::Emit(Value::Int(n)) = item {
            all = (Some(*n), all.0, all.1);
        }
    }
    all
}

// The integers that the first firing emitted.
pub fn emitted_inside(items: &[Item]) -> Last {
    for item in items {
        if let Item::Node(node) = item {
            return emitted(&node.items);
        }
    }
    NONE
}

// A veto's rule, and its message if that is an integer.
pub type Said = (RuleNo, Option<i64>);

pub fn said(veto: &Veto) -> Said {
    match veto.message() {
        Some(Value::Int(n)) => (veto.rule(), Some(*n)),
        _ => (veto.rule(), None),
    }
}

// How a course or a node ended.
#[derive(Clone, Copy, Debug, PartialEq, Eq)]
pub enum How {
    Done,
    Abort(Cause),
    // By the veto of a firing inside it; a node by any veto.
    Vetoed(Said),
    // By its own veto.
    Veto(Said),
}

pub fn how_of(end: &End) -> How {
    match end {
        End::Done => How::Done,
        End::Abort(cause) => How::Abort(*cause),
        End::Vetoed(veto) => How::Vetoed(said(veto)),
        End::Veto(veto) => How::Veto(said(veto)),
    }
}

pub fn how_ended(end: &Ending) -> How {
    match end {
        Ending::Committed => How::Done,
        Ending::Aborted(cause) => How::Abort(*cause),
        Ending::Vetoed(veto) => How::Vetoed(said(veto)),
    }
}

// The node of the first firing, and how it ended.
pub fn first_node(items: &[Item]) -> Option<(What, How)> {
    for item in items {
        if let Item::Node(node) = item {
            return Some((node.what, how_ended(&node.end)));
        }
    }
    None
}

// The keys of the rows that an action keeps; `None` if the task is no action.
fn kept(task: &Task) -> Option<Last> {
    let Step::Action(found) = &task.step else {
        return None;
    };
    let mut keys = NONE;
    for answer in &found.answers {
        for row in &answer.rows {
            keys = (Some(row.key), keys.0, keys.1);
        }
    }
    Some(keys)
}

// A task's rule, its depth, and its kept keys.
type Queued = (RuleNo, u8, Option<Last>);

fn first_queued(tasks: &[Task]) -> Option<Queued> {
    let task = tasks.first()?;
    Some((task.rule, task.depth, kept(task)))
}

// The rule of the only detached task, and whether it is released.
fn only_detached(tasks: &[Detached]) -> Option<(RuleNo, bool)> {
    if tasks.len() != 1 {
        return None;
    }
    let one = tasks.first()?;
    Some((one.task.rule, one.released))
}

// What a test observes of a course, and of the view after it.
#[derive(Clone, Copy)]
pub struct Seen {
    pub end: How,
    pub items: usize,
    pub emitted: Last,
    pub inside: Last,
    pub node: Option<(What, How)>,
    pub queued: usize,
    pub first_queued: Option<Queued>,
    pub detached: Option<(RuleNo, bool)>,
    pub balances: Balances,
}

pub fn look(view: &View, course: &Course) -> Seen {
    Seen {
        end: how_of(&course.end),
        items: course.items.len(),
        emitted: emitted(&course.items),
        inside: emitted_inside(&course.items),
        node: first_node(&course.items),
        queued: course.queued.len(),
        first_queued: first_queued(&course.queued),
        detached: only_detached(&course.detached),
        balances: all_shown(view),
    }
}
