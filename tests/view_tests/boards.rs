//! A board drawn from and posted on by hand and by threads, and a group stepped to its end.

use hp_board::{Board, Event, Group, Posted, Seat, meet};
use std::alloc::{AllocError, Global};
use std::process::Abort;
use std::sync::Arc;
use std::test::Fail;
use std::thread;

type Layer = Arc<Vec<u64>>;

fn posted(alloc: Global, n: u64) -> Result<Posted<Layer>, AllocError> {
    Posted::new(alloc, Arc::new(alloc, vec![in alloc; n]?)?)
}

// All numbers that the seat draws, of at most `n`.
fn drain(
    board: &Board<Layer>,
    alloc: Global,
    n: usize,
    mut seat: Seat,
) -> Result<(Vec<usize>, Seat), AllocError> {
    let mut numbers = Vec::with_capacity(alloc, n)?;
    for _ in 0..n {
        let (found, after) = board.draw(seat);
        seat = after;
        match found {
            Some(i) => numbers.push(i)?,
            None => break,
        }
    }
    Ok((numbers, seat))
}

type Drained = Result<(Vec<usize>, Seat), AllocError>;

// The numbers of all parts, in order.
fn in_order(alloc: Global, parts: Vec<Drained>) -> Result<Vec<usize>, AllocError> {
    let mut seen = Vec::with_capacity(alloc, 1000)?;
    for part in parts {
        let (mut numbers, _seat) = part?;
        seen.append(&mut numbers)?;
    }
    seen.sort()?;
    Ok(seen)
}

// Eight threads draw from a board of 1,000: the numbers are 0 to 999, each once.
#[test]
fn numbers_once(rt: HostRuntime) -> Result<(), Fail> {
    let alloc = rt.alloc();
    let (board, seats) = Board::<Layer>::new(alloc, 1000, 8)?;
    let shared = &board;
    let drawn = thread::map_vec(
        &rt,
        seats,
        &|seat| -> Drained { drain(shared, alloc, 1000, seat) },
    )?;
    let seen = in_order(alloc, drawn)?;
    assert_eq!(rt; seen.len(), 1000);
    for (next, number) in seen.iter().enumerate() {
        assert_eq!(rt; *number, next);
    }
    Ok(())
}

// Every draw from a board of 0 is None.
#[test]
fn a_board_of_none_draws_nothing(rt: HostRuntime) -> Result<(), Fail> {
    let (board, mut seats) = Board::<Layer>::new(rt.alloc(), 0, 2)?;
    let Some(seat) = seats.pop() else {
        return Err(Fail::from("no seat"));
    };
    let (found, seat) = board.draw(seat);
    let (again, seat) = board.draw(seat);
    assert!(rt; found.is_none() && again.is_none());
    seats.push(seat)?;
    let drawn = board.close(seats);
    assert!(rt; drawn.below == 0 && drawn.all);
    Ok(())
}

// One pass posts, and another, which knew nothing, finds it.
fn post_and_look(rt: &impl Abort, alloc: Global, board: &Board<Layer>) -> Result<(), Fail> {
    let poster = board.pass(alloc)?;
    let looker = board.pass(alloc)?;
    let (found, looker) = board.look(0, looker);
    assert!(rt; found.is_none());
    let Ok(poster) = board.post(0, posted(alloc, 7)?, poster) else {
        return Err(Fail::from("the cell was set"));
    };
    let (found, looker) = board.look(0, looker);
    assert!(rt; found.is_some_and(|layer| layer.as_slice() == [7].as_slice()));
    meet(&poster, &looker);
    let (found, _poster) = board.look(1, poster);
    assert!(rt; found.is_none());
    Ok(())
}

#[test]
fn a_posted_layer_is_found(rt: HostRuntime) -> Result<(), Fail> {
    let (board, _seats) = Board::<Layer>::new(rt.alloc(), 2, 1)?;
    post_and_look(&rt, rt.alloc(), &board)
}

// A second post gives both arguments back, and the cell keeps what it has.
fn post_twice(rt: &impl Abort, alloc: Global, board: &Board<Layer>) -> Result<(), Fail> {
    let pass = board.pass(alloc)?;
    let Ok(pass) = board.post(0, posted(alloc, 7)?, pass) else {
        return Err(Fail::from("the cell was set"));
    };
    match board.post(0, posted(alloc, 8)?, pass) {
        Ok(_) => Err(Fail::from("the cell was set twice")),
        Err((back, pass)) => {
            let (found, _pass) = board.look(0, pass);
            assert!(rt; found.is_some_and(|layer| layer.as_slice() == [7].as_slice()));
            assert!(rt; back.get().as_slice() == [8].as_slice());
            Ok(())
        }
    }
}

#[test]
fn a_second_post_gets_both_arguments_back(rt: HostRuntime) -> Result<(), Fail> {
    let (board, _seats) = Board::<Layer>::new(rt.alloc(), 1, 1)?;
    post_twice(&rt, rt.alloc(), &board)
}

// A group of one task, drawn, looked at, posted and accepted.
#[test]
fn a_group_settles_the_posted_layer(rt: HostRuntime) -> Result<(), Fail> {
    let alloc = rt.alloc();
    let mut group = Group::new(alloc, 1)?;
    group.step(Event::Draw { worker: 3 });
    group.step(Event::Look {
        worker: 3,
        task: 0,
        predecessors: Vec::new(alloc),
    });
    group.step(Event::Post {
        worker: 3,
        task: 0,
        layer: 7u64,
    });
    assert!(rt; group.settled(0).is_none());
    assert!(rt; group.is_enabled(&Event::Accept { task: 0 }));
    group.step(Event::Accept { task: 0 });
    assert!(rt; group.settled(0) == Some(&7));
    assert!(rt; !group.is_enabled(&Event::Draw { worker: 3 }));
    Ok(())
}
