//! State machines over enums.

pub enum Light {
    Red,
    RedAmber,
    Green,
    Amber,
}

pub enum Door {
    Open,
    Closed,
    Locked(u16),
}

pub enum Push {
    Pull,
    Push,
    Turn(u16),
}

pub enum Turnstile {
    Waiting,
    Paid(u8),
    Broken,
}

pub enum Event {
    Coin(u8),
    Pass,
    Kick,
}

pub enum Link {
    Closed,
    Listening,
    Shaking(u32),
    Established(u32, u32),
}

pub enum Packet {
    Syn(u32),
    Ack(u32),
    Fin,
}

pub struct Machine(Light, Door, Turnstile);

pub fn next_light(light: Light) -> Light {
    match light {
        Light::Red => Light::RedAmber,
        Light::RedAmber => Light::Green,
        Light::Green => Light::Amber,
        Light::Amber => Light::Red,
    }
}

pub fn seconds(light: Light) -> u8 {
    match light {
        Light::Green => 30,
        Light::Red => 25,
        _ => 2,
    }
}

fn same_key(a: u16, b: u16) -> bool {
    match (a, b) {
        (0, 0) => true,
        (1, 1) => true,
        _ => false,
    }
}

/// A locked door opens to the key that it was locked with.
pub fn step_door(door: Door, push: Push) -> Door {
    match (door, push) {
        (Door::Closed, Push::Pull) => Door::Open,
        (Door::Open, Push::Push) => Door::Closed,
        (Door::Closed, Push::Turn(key)) => Door::Locked(key),
        (Door::Locked(key), Push::Turn(other)) => {
            if same_key(key, other) {
                Door::Closed
            } else {
                Door::Locked(key)
            }
        }
        (door, _) => door,
    }
}

pub fn step_turnstile(state: Turnstile, event: Event) -> (Turnstile, bool) {
    match (state, event) {
        (Turnstile::Waiting, Event::Coin(2)) => (Turnstile::Paid(1), false),
        (Turnstile::Waiting, Event::Coin(n)) => {
            let state = if is_small(n) { Turnstile::Waiting } else { Turnstile::Paid(n) };
            (state, false)
        }
        (Turnstile::Paid(_), Event::Pass) => (Turnstile::Waiting, true),
        (_, Event::Kick) => (Turnstile::Broken, false),
        (state, _) => (state, false),
    }
}

fn is_small(n: u8) -> bool {
    match n {
        0 => true,
        1 => true,
        _ => false,
    }
}

pub fn shake(link: Link, packet: Packet) -> Link {
    match link {
        Link::Listening => match packet {
            Packet::Syn(theirs) => Link::Shaking(theirs),
            _ => Link::Listening,
        },
        Link::Shaking(theirs) => match packet {
            Packet::Ack(ours) => Link::Established(theirs, ours),
            Packet::Syn(again) => Link::Shaking(again),
            Packet::Fin => Link::Closed,
        },
        Link::Established(theirs, ours) => match packet {
            Packet::Fin => Link::Closed,
            Packet::Ack(later) => Link::Established(theirs, later),
            _ => Link::Established(theirs, ours),
        },
        Link::Closed => Link::Closed,
    }
}

pub fn run(machine: Machine, push: Push) -> (Machine, u8) {
    let Machine(light, door, turnstile) = machine;
    let light = next_light(light);
    let (turnstile, passed) = step_turnstile(turnstile, Event::Pass);
    let machine = Machine(light, step_door(door, push), turnstile);
    let count = if passed { 1 } else { 0 };
    (machine, count)
}

pub mod wrong {
    use super::*;

    pub fn next_light(light: Light) -> Light {
        match light {
            Light::Red => Light::RedAmber,
            Light::RedAmber => Light::Green,
            Light::Green => Door::Open,
            Light::Amber => Light::Red,
        }
    }

    pub fn seconds(light: Light) -> u8 {
        match light {
            Light::Green => 30,
            Light::Red => 25u16,
            _ => 2,
        }
    }

    pub fn seconds_of_a_door(light: Light) -> u8 {
        match light {
            Door::Open => 30,
            _ => 2,
        }
    }

    pub fn same_key(a: u16, b: u16) -> bool {
        match (a, b) {
            (0, 'a') => true,
            _ => false,
        }
    }

    pub fn step_door(door: Door, push: Push) -> Door {
        match (door, push) {
            (Door::Closed, Push::Turn(key)) => Door::Locked(key, key),
            (door, _) => door,
        }
    }

    pub fn step_turnstile(state: Turnstile, event: Event) -> (Turnstile, bool) {
        match (state, event) {
            (Turnstile::Waiting, Event::Coin(n)) => {
                let state = if n { Turnstile::Waiting } else { Turnstile::Paid(n) };
                (state, false)
            }
            (state, _) => state,
        }
    }

    pub fn is_small(n: u8) -> bool {
        match n {
            0 => true,
            'a' => true,
            _ => n,
        }
    }

    pub fn shake(link: Link, packet: Packet) -> Link {
        match link {
            Link::Listening => match packet {
                Packet::Syn(theirs) => Link::Shaking,
                _ => Link::Listening,
            },
            Link::Established(theirs) => Link::Shaking(theirs),
            _ => Link::Closed,
        }
    }

    pub fn run(machine: Machine, push: Push) -> (Machine, u8) {
        let Machine(light, door) = machine;
        let count = if step_door(door, push) { 1 } else { 0 };
        (light, count)
    }
}
