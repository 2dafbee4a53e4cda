//! Compiled senders beside a sender written on its own from document 01: calls in turn and out of it, states at every limit, and states
//! that are damaged in every way.
use crate::counted::SENT;
use crate::fences::Fenced;
use crate::frames_written::{any_room, one_of, spoil_lengths, write_alike};
use crate::payloads;
use crate::peers::Noise;
use crate::senders::{CLOSED, FRESH, OPEN, State};
use crate::sequences::{Tally, below, next_to, one_in};
use quimdoral::sender::Phase;
use quimdoral::{Frame, Octets, Packets, Refusal, Sender, frames, lent, sender};

#[derive(Clone, Debug)]
enum Call {
    Fresh,
    Open(u32),
    Data(Vec<u8>),
    Close,
    CloseWithLengths(Vec<u16>),
    NewPeriod,
}

impl Call {
    /// Octets that the call's frame would have.
    fn needs(&self) -> usize {
        match self {
            Call::Data(payload) => 11 + payload.len(),
            Call::Close => 18,
            Call::CloseWithLengths(lengths) => 19 + (3 * lengths.len()).div_ceil(2),
            Call::Fresh | Call::Open(_) | Call::NewPeriod => 0,
        }
    }

    /// What the peer does; calls without a frame write none.
    fn expected(&self, state: &mut State, room: usize) -> Result<Vec<u8>, u8> {
        match self {
            Call::Fresh => state.make_fresh().map(|()| Vec::new()),
            Call::Open(stamp) => state.open(*stamp).map(|()| Vec::new()),
            Call::Data(payload) => state.data(payload, room),
            Call::Close => state.close(room),
            Call::CloseWithLengths(lengths) => state.close_with_lengths(lengths, room),
            Call::NewPeriod => state.new_period().map(|()| Vec::new()),
        }
    }

    fn on_lent(&self, state: &mut [u64], out: &mut [u8]) -> Result<usize, Refusal> {
        match self {
            Call::Fresh => lent::sender_fresh(state).map(|()| 0),
            Call::Open(stamp) => lent::sender_open(state, *stamp).map(|()| 0),
            Call::Data(payload) => lent::sender_data(state, payload, out),
            Call::Close => lent::sender_close(state, out),
            Call::CloseWithLengths(lengths) => lent::sender_close_with_lengths(state, lengths, out),
            Call::NewPeriod => lent::sender_new_period(state).map(|()| 0),
        }
    }

    fn on_owned(&self, sender: &mut Sender, out: &mut [u8]) -> Result<usize, Refusal> {
        match self {
            Call::Fresh => {
                *sender = Sender::new();
                Ok(0)
            }
            Call::Open(stamp) => sender.open(*stamp).map(|()| 0),
            Call::Data(payload) => sender.data(payload, out),
            Call::Close => sender.close(out),
            Call::CloseWithLengths(lengths) => sender.close_with_lengths(lengths, out),
            Call::NewPeriod => sender.new_period().map(|()| 0),
        }
    }
}

/// The state in types, where its numbers fit them.
fn in_types(state: &State) -> Option<sender::State> {
    let &[phase, stamp, number, elapsed, packets, octets] = state.0.as_slice() else { return None };
    Some(sender::State {
        phase: *[Phase::Fresh, Phase::Open, Phase::Closed].get(usize::try_from(phase).ok()?)?,
        stamp: stamp.try_into().ok()?,
        number: Packets(number.try_into().ok()?),
        elapsed: Octets(elapsed),
        total_packets: Packets(packets.try_into().ok()?),
        total_octets: Octets(octets),
    })
}

/// Calls the library and the peer, and compares the answers, the state and the output, fences on every side included; then the sender
/// that owns its state, where there can be one.
fn call_alike(noise: &mut Noise, state: &mut State, call: &Call, room: usize) -> Result<(), u8> {
    let (before, mut ours) = (state.clone(), Fenced::around(&state.0));
    let expected = call.expected(state, room);
    let input = (&before, call);
    let answer = write_alike(noise, room, input, expected.clone(), |out| call.on_lent(ours.lent(), out));
    assert!(ours == Fenced::around(&state.0), "the states differ: {input:?}, ours {ours:?}, expected {state:?}");
    assert!(answer.is_ok() || *state == before, "a refusal changed the state: {input:?}");
    if let Some(typed) = in_types(&before) {
        let mut owned = Sender::from_state(typed);
        assert_eq!(owned.state(), typed);
        let _ = write_alike(noise, room, input, expected, |out| call.on_owned(&mut owned, out));
        assert_eq!(Some(owned.state()), in_types(state), "{input:?}");
    }
    answer.map(|_| ())
}

/// A sender takes any octets, IP packets with an extension too, and counts them all.
fn any_payload(noise: &mut Noise) -> Vec<u8> {
    if one_in(noise, 4) {
        return payloads::any(noise);
    }
    let length = match below(noise, 16) {
        0 => one_of(noise, &[4_094, 4_095, 4_096, 4_097, 9_000]),
        1 => below(noise, 4_096),
        2 | 3 => 0,
        _ => below(noise, 60),
    };
    noise.octets(length as usize)
}

/// A stamp that mostly opens a sequence after the last one.
fn any_stamp(noise: &mut Noise, state: &State) -> u32 {
    let last = state.0.get(1).map_or(0, |&last| last.min(u32::MAX.into()) as u32);
    match below(noise, 8) {
        0 => one_of(noise, &[0, 59_999, 60_000, 65_536, u32::MAX]),
        1 => next_to(noise, last.into()).min(u32::MAX.into()) as u32,
        2 => below(noise, 60_000) as u32,
        _ => last.saturating_add(1 + below(noise, 20) as u32),
    }
}

/// So many lengths with such a sum, where there can be any, and else some other list.
fn lengths_of(number: u64, elapsed: u64) -> Vec<u16> {
    if number > 65_535 || elapsed > 4_095 * number {
        return vec![1; 3];
    }
    let mut left = elapsed;
    let take = |left: &mut u64| {
        let length = (*left).min(4_095);
        *left -= length;
        length as u16
    };
    (0..number).map(|_| take(&mut left)).collect()
}

fn any_lengths(noise: &mut Noise, state: &State) -> Vec<u16> {
    let (number, elapsed) = (state.0.get(2).copied().unwrap_or(0), state.0.get(3).copied().unwrap_or(0));
    // Long lists take long, so there are few of them.
    let mut lengths = if number < 300 || one_in(noise, 100) { lengths_of(number, elapsed) } else { vec![1; 3] };
    if one_in(noise, 4) {
        spoil_lengths(noise, &mut lengths);
    }
    lengths
}

/// Mostly a call that is in turn.
fn any_call(noise: &mut Noise, state: &State) -> Call {
    let phase = if one_in(noise, 4) { below(noise, 3) } else { state.0.first().copied().unwrap_or(0) };
    match (phase, below(noise, 12)) {
        (OPEN, 0 | 1) => Call::Close,
        (OPEN, 2 | 3) => Call::CloseWithLengths(any_lengths(noise, state)),
        (OPEN, _) => Call::Data(any_payload(noise)),
        (_, 0) => Call::NewPeriod,
        (_, 1) if one_in(noise, 4) => Call::Fresh,
        _ => Call::Open(any_stamp(noise, state)),
    }
}

fn call_any(noise: &mut Noise, state: &mut State) -> Result<(), u8> {
    let call = any_call(noise, state);
    let room = any_room(noise, call.needs());
    call_alike(noise, state, &call, room)
}

#[test]
fn senders_take_calls_alike() {
    let (mut noise, mut tally) = (Noise(91), Tally::default());
    while tally.calls() < SENT[0] {
        let mut state = State::fresh();
        for _ in 0..below(&mut noise, 120) {
            tally.add(call_any(&mut noise, &mut state));
            assert!(!state.damaged(), "a call damaged the state: {state:?}");
        }
    }
    assert!(tally.came(&[0, 5, 12, 15, 16, 20, 22], 1_000), "{tally:?}");
}

/// Mostly the most, or next to it, and else anything up to it.
fn up_to(noise: &mut Noise, most: u64) -> u64 {
    match below(noise, 6) {
        0 | 1 => most,
        2 => most.saturating_sub(1),
        3 => 0,
        _ => below(noise, most + 1),
    }
}

/// An undamaged state, mostly with a count at its limit.
fn any_state(noise: &mut Noise) -> State {
    let phase = one_of(noise, &[FRESH, OPEN, OPEN, OPEN, CLOSED, CLOSED]);
    if phase == FRESH {
        return State::fresh();
    }
    let small = one_in(noise, 2);
    let number = match phase {
        OPEN if small => below(noise, 6),
        OPEN => up_to(noise, 65_535),
        _ => 0,
    };
    let others = up_to(noise, if small { 9 } else { 16_777_215 - number });
    let elapsed = up_to(noise, 4_095 * number);
    let octets = elapsed + up_to(noise, 4_095 * others);
    State(vec![phase, up_to(noise, 59_999), number, elapsed, number + others, octets])
}

#[test]
fn senders_at_their_limits_take_calls_alike() {
    let (mut noise, mut tally, mut last_packets) = (Noise(92), Tally::default(), 0);
    for _ in 0..SENT[1] {
        let mut state = any_state(&mut noise);
        assert!(!state.damaged(), "{state:?}");
        if one_in(&mut noise, 8) {
            state.0.extend([9, u64::MAX]);
        }
        let packets = state.0[4];
        tally.add(call_any(&mut noise, &mut state));
        assert!(!state.damaged(), "a call damaged the state: {state:?}");
        last_packets += usize::from((packets, state.0[4]) == (16_777_214, 16_777_215));
    }
    assert!(last_packets > 1_000, "only {last_packets} periods got their last packet");
    // 19 was taken out, since 16,777,215 packets carry fewer than 2^40 octets: nothing gives it.
    assert!(tally.calls() == SENT[1] && tally.came(&[0, 5, 12, 15, 16, 17, 18, 20, 22], 1_000) && tally.0[19] == 0, "{tally:?}");
}

const DAMAGES: usize = 14;

/// One of the ways to damage a state. Some leave it whole now and then, which the peer has to find out too.
fn damage(noise: &mut Noise, State(state): &mut State, way: usize) {
    let wide = 1 << (32 + below(noise, 32));
    match way {
        0 => state[0] = one_of(noise, &[3, 4, 256, 1 << 32, u64::MAX, wide + 1]),
        1 => state[1] = one_of(noise, &[60_000, 65_535, 65_536, u32::MAX.into()]),
        2 => state[2] = one_of(noise, &[65_536, 65_537, u32::MAX.into()]),
        3 => state[4] = one_of(noise, &[16_777_216, 1 << 25, u32::MAX.into()]),
        4 => state[2] = state[4] + 1,
        5 => state[3] = 4_095 * state[2] + 1 + below(noise, 2) * below(noise, 9),
        6 => state[5] = state[3].saturating_sub(1),
        7 => state[5] = state[3] + 4_095 * (state[4] - state[2]) + 1 + below(noise, 2) * below(noise, 9),
        8 => (state[0], state[2]) = (CLOSED, state[2].max(1)),
        9 => (state[0], state[3]) = (CLOSED, state[3].max(1)),
        10 => state[0] = FRESH,
        11 => {
            let place = below(noise, 6) as usize;
            state[place] |= wide;
        }
        12 => state.truncate(below(noise, 6) as usize),
        _ => {
            let place = below(noise, 6) as usize;
            state[place] = one_of(noise, &[1, u64::MAX, wide, 1 << 16, 1 << 24, 1 << 40]);
        }
    }
}

#[test]
fn damaged_senders_are_refused_alike() {
    let mut noise = Noise(93);
    let mut tallies: [Tally; DAMAGES] = Default::default();
    for round in 0..SENT[2] {
        let (mut state, way) = (any_state(&mut noise), round % DAMAGES);
        damage(&mut noise, &mut state, way);
        tallies[way].add(call_any(&mut noise, &mut state));
    }
    // each way to damage a state was found out
    assert_eq!(tallies.iter().map(Tally::calls).sum::<usize>(), SENT[2]);
    for (way, tally) in tallies.iter().enumerate() {
        assert!(tally.0[21] > 1_000, "way {way}: {tally:?}");
    }
}

/// Each number that a fresh sender must not have, and each that a closed one must not, alone.
#[test]
fn one_number_damages_a_sender_at_rest() {
    let mut noise = Noise(94);
    for place in 1..6 {
        let mut state = State::fresh();
        state.0[place] = 1;
        assert_eq!(call_alike(&mut noise, &mut state, &Call::NewPeriod, 0), Err(21), "fresh, place {place}");
    }
    for (place, expected) in [(1, Ok(())), (2, Err(21)), (3, Err(21)), (4, Ok(())), (5, Ok(()))] {
        let mut state = State(vec![CLOSED, 5, 0, 0, 5, 50]);
        state.0[place] += 1;
        assert_eq!(call_alike(&mut noise, &mut state, &Call::NewPeriod, 0), expected, "closed, place {place}");
    }
}

/// The orders 21, 15, 5, 16 and 21, 15, 20, 17, 18, 12 and 21, 15, 22, 12: each refusal beside all behind it.
#[test]
fn the_first_refusal_counts() {
    let mut noise = Noise(95);
    let mut answer = |state: &[u64], call: Call, room| call_alike(&mut noise, &mut State(state.to_vec()), &call, room);
    let full = [OPEN, 5, 65_535, 0, 16_777_215, 0];
    let long = || Call::Data(vec![1; 4_096]);
    for (state, call, room, expected) in [
        ([OPEN, 60_000, 0, 0, 0, 0], Call::Open(60_000), 0, Err(21)),
        ([OPEN, 59_999, 0, 0, 0, 0], Call::Open(60_000), 0, Err(15)),
        ([CLOSED, 59_999, 0, 0, 0, 0], Call::Open(60_000), 0, Err(5)),
        ([CLOSED, 59_999, 0, 0, 0, 0], Call::Open(59_999), 0, Err(16)),
        ([CLOSED, 59_998, 0, 0, 0, 0], Call::Open(59_999), 0, Ok(())),
        ([FRESH, 0, 0, 0, 0, 0], Call::Open(0), 0, Ok(())),
        ([OPEN, 60_000, 65_535, 0, 16_777_215, 0], long(), 0, Err(21)),
        ([CLOSED, 5, 0, 0, 16_777_215, 0], long(), 0, Err(15)),
        (full, long(), 0, Err(20)),
        (full, Call::Data(vec![1; 4_095]), 0, Err(17)),
        ([OPEN, 5, 65_534, 0, 16_777_215, 0], Call::Data(vec![]), 0, Err(18)),
        ([OPEN, 5, 65_534, 0, 16_777_214, 0], Call::Data(vec![]), 10, Err(12)),
        ([OPEN, 5, 65_534, 0, 16_777_214, 0], Call::Data(vec![]), 11, Ok(())),
        ([OPEN, 5, 1, 4_096, 1, 4_096], Call::CloseWithLengths(vec![9]), 0, Err(21)),
        ([CLOSED, 5, 0, 0, 1, 5], Call::CloseWithLengths(vec![9]), 0, Err(15)),
        ([OPEN, 5, 1, 5, 1, 5], Call::CloseWithLengths(vec![9]), 0, Err(22)),
        ([OPEN, 5, 1, 5, 1, 5], Call::CloseWithLengths(vec![5]), 20, Err(12)),
        ([OPEN, 5, 1, 5, 1, 5], Call::CloseWithLengths(vec![5]), 21, Ok(())),
        ([OPEN, 5, 1, 5, 0, 5], Call::Close, 0, Err(21)),
        ([FRESH, 0, 0, 0, 0, 0], Call::Close, 0, Err(15)),
        ([OPEN, 5, 0, 0, 0, 0], Call::Close, 17, Err(12)),
        ([OPEN, 5, 0, 0, 0, 0], Call::Close, 18, Ok(())),
        ([OPEN, 5, 1, 5, 0, 5], Call::NewPeriod, 0, Err(21)),
        ([OPEN, 5, 0, 0, 0, 0], Call::NewPeriod, 0, Err(15)),
        ([FRESH, 0, 0, 0, 0, 0], Call::NewPeriod, 0, Ok(())),
    ] {
        assert_eq!(answer(&state, call.clone(), room), expected, "{state:?}, {call:?}, room {room}");
    }
    assert_eq!(answer(&[0; 5], Call::Fresh, 0), Err(12));
    assert_eq!(answer(&[7; 6], Call::Fresh, 0), Ok(()));
}

/// A period that gets its last packet, when all others were of the longest: its octets are the most that there can be, and fit their field.
#[test]
fn the_fullest_period_is_closed() {
    const PACKETS: u64 = 16_777_215;
    let mut noise = Noise(96);
    for number in [1, 2, 300, 65_534] {
        let octets = 4_095 * (PACKETS - 1);
        let mut state = State(vec![OPEN, 5, number - 1, 4_095 * (number - 1), PACKETS - 1, octets]);
        for (payload, expected) in [(4_096, Err(20)), (4_095, Ok(())), (0, Err(18)), (4_095, Err(18))] {
            assert_eq!(call_alike(&mut noise, &mut state, &Call::Data(vec![1; payload]), 11 + 4_096), expected, "{state:?}");
        }
        assert_eq!(state.0, [OPEN, 5, number, 4_095 * number, PACKETS, 4_095 * PACKETS]);
        let lengths = vec![4_095; number as usize];
        for call in [Call::Close, Call::CloseWithLengths(lengths)] {
            assert_eq!(call_alike(&mut noise, &mut state.clone(), &call, call.needs()), Ok(()));
            let frame = call.expected(&mut state.clone(), call.needs()).unwrap();
            let Ok(Frame::Closing(closing) | Frame::ClosingWithLengths(closing)) = frames::read(&frame) else { panic!("{frame:?}") };
            assert_eq!((closing.total_packets, closing.total_octets), (Packets(PACKETS as u32), Octets(4_095 * PACKETS)));
        }
    }
}

/// A whole sequence of the longest packets, to its last and one more.
#[test]
fn a_sequence_is_filled() {
    let (mut sender, mut out) = (Sender::new(), vec![0; 11 + 4_095]);
    let payload = [7; 4_095];
    sender.open(1).unwrap();
    for _ in 0..65_535 {
        assert_eq!(sender.data(&payload, &mut out), Ok(out.len()));
    }
    assert_eq!(sender.data(&[], &mut out), Err(Refusal::SequenceFull));
    let state = sender.state();
    assert_eq!((state.number, state.elapsed), (Packets(65_535), Octets(4_095 * 65_535)));
    let closing = sender.close_with_lengths_to_vec(&[4_095; 65_535]).unwrap();
    assert_eq!(frames::lengths(&closing), Ok(vec![4_095; 65_535]));
    assert_eq!((sender.state().number, sender.state().total_packets), (Packets(0), Packets(65_535)));
}
