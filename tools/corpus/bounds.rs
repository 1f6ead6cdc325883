//! Traits, impls and bounds: functions that have what the items which they name ask for, and some that don't.

/// What can be stored.
pub trait Store {}

/// What a table can be looked up by.
pub trait Key: Store {}

/// What can be shown.
pub trait Show {}

/// What a column can be sorted by.
pub trait Order
where
    Self: Key + Show,
{
}

/// What can be logged.
pub trait Log {}

/// What can be read as something else.
pub trait Read<T> {}

/// What a switch can be set to.
pub trait Level {}

pub struct Cell<T>(T);

pub struct Hex<T>(T);

pub struct Table<K: Key, V>(K, V)
where
    V: Store;

pub enum Slot<T: Store> {
    Free,
    Taken(T),
}

impl Store for u8 {}
impl Store for u32 {}
impl Store for bool {}
impl<A: Store, B: Store> Store for (A, B) {}
impl<T: Store> Store for Cell<T> {}
impl<T> Store for Slot<T> where T: Store {}
impl<K: Key, V: Store> Store for Table<K, V> {}

impl Key for u8 {}
impl Key for u32 {}
impl<T: Key> Key for Cell<T> {}

impl Show for u8 {}
impl<T: Key> Show for Hex<T> {}
impl Show for Hex<bool> {}

impl Order for u8 {}

impl<T> Log for T where T: Store {}

impl Read<u32> for u8 {}
impl Read<u64> for u8 {}
impl Read<bool> for char {}
impl<T: Read<U>, U> Read<Cell<U>> for Cell<T> {}

impl Level for u16 {}

/// Numbers as types, and which of them are even.
pub struct Zero;
pub struct Next<N>(N);

pub trait Even {}
pub trait Odd {}

impl Even for Zero {}
impl<N: Odd> Even for Next<N> {}
impl<N: Even> Odd for Next<N> {}

pub fn store<T: Store>(value: T) -> Slot<T> {
    Slot::Taken(value)
}

pub fn free<T: Store>() -> Slot<T> {
    Slot::Free
}

pub fn show<T: Show>(_: T) -> bool {
    true
}

pub fn log<T: Log>(value: T) -> T {
    value
}

pub fn read<T: Read<U>, U>(_: T, default: U) -> U {
    default
}

pub fn read_any<T: Read<U>, U>(value: T) -> U {
    read_any(value)
}

pub fn sort<T: Order>(value: T) -> (bool, T) {
    (true, value)
}

pub fn set<T: Level>(_: T) {}

pub fn even<N: Even>(_: N) -> bool {
    true
}

pub fn table<K, V>(key: K, value: V) -> Table<K, V>
where
    K: Key,
    V: Store,
{
    Table(key, value)
}

/// What has a key's bound has that of its supertrait.
pub fn by_supertrait<K: Key>(key: K) -> Slot<K> {
    store(key)
}

pub fn by_supertraits<T: Order>(value: T) -> Slot<T> {
    let (_, sorted) = sort(value);
    store(sorted)
}

/// An impl has bounds of its own.
pub fn by_impls<A: Store, B: Key>(a: A, b: B) -> Slot<(Cell<A>, B)> {
    store((Cell(a), b))
}

pub fn cells() -> Slot<Cell<Cell<u8>>> {
    store(Cell(Cell(3)))
}

/// Only the bound of what is stored is given, not one of what is in it.
pub fn by_clause<T>(value: T) -> Slot<Cell<T>>
where
    Cell<T>: Store,
{
    store(Cell(value))
}

pub fn again<T: Store>(value: T, is_last: bool) -> Slot<T> {
    if is_last {
        store(value)
    } else {
        again(value, true)
    }
}

/// The first impl for `Hex` is none for this type.
pub fn by_second() -> bool {
    show(Hex(true))
}

pub fn by_first(n: u8) -> bool {
    show(Hex(Cell(n)))
}

/// The impl of `Log` is for every type that can be stored.
pub fn by_blanket() -> (u32, Cell<bool>) {
    log((1, Cell(true)))
}

pub fn reads(n: u8) -> u64 {
    read(n, 8)
}

pub fn reads_cells(n: u8) -> Cell<Cell<u32>> {
    read(Cell(Cell(n)), Cell(Cell(0)))
}

pub fn from_behind(is_free: bool) -> Slot<u8> {
    let slot = free();
    if is_free {
        return_it(slot)
    } else {
        Slot::Taken(4)
    }
}

fn return_it<T: Store>(slot: Slot<T>) -> Slot<T> {
    slot
}

pub fn held() -> (Slot<bool>, Table<u8, u32>) {
    let (f, g) = (store, table);
    (f(false), g(1, 2))
}

/// Patterns need nothing.
pub fn taken<T: Store>(slot: Slot<T>, default: T) -> T {
    match slot {
        Slot::Free => default,
        Slot::Taken(value) => value,
    }
}

pub fn key_of(of: Table<u8, u32>) -> Slot<u8> {
    let Table(key, _) = of;
    store(key)
}

pub fn even_numbers() -> bool {
    let four = Next(Next(Next(Next(Zero))));
    even(four)
}

/// An impl alone says of which type the number is.
pub fn only_level() {
    set(7)
}

pub fn only_reading() {
    let flag = read_any('y');
    log(flag);
}

pub mod wrong {
    use super::*;

    pub fn store<T>(value: T) {
        super::store(value);
    }

    pub fn free() {
        let slot = super::free();
    }

    pub fn free_char() {
        let slot = Slot::Free;
        let unused = (slot, Slot::Taken('c'));
    }

    pub fn table<K: Store, V: Key>(key: K, value: V) -> bool {
        let made = Table(key, value);
        true
    }

    pub fn table_of_chars() {
        let made = super::table('k', Cell('v'));
    }

    pub fn by_supertrait<S: Store>(value: S) -> bool {
        let Cell(kept) = Cell(value);
        let made = super::table(kept, true);
        true
    }

    pub fn by_supertraits<T: Key + Show>(value: T) -> (bool, T) {
        sort(value)
    }

    pub fn by_impls<A: Store, B>(a: A, b: B) {
        super::store((Cell(a), Cell(b)));
    }

    pub fn by_clause<T>(value: Cell<T>) -> Cell<T>
    where
        Cell<T>: Store,
    {
        let Cell(inner) = log(value);
        Cell(log(inner))
    }

    pub fn again<T: Key>(value: T, is_last: bool) {
        if is_last {
            again(value, true)
        } else {
            again((value, is_last), true)
        }
    }

    pub fn by_second() -> bool {
        show(Hex('x'))
    }

    pub fn by_first() -> bool {
        show(Hex(Cell(true)))
    }

    pub fn by_blanket() -> (u32, Cell<char>) {
        log((1, Cell('c')))
    }

    /// `i32`, which the number is where nothing else is said of it, can't be stored.
    pub fn number() -> bool {
        let slot = super::store(5);
        true
    }

    pub fn reads(n: u8) -> u16 {
        read(n, 8)
    }

    pub fn reads_cells(n: u8) -> Cell<u32> {
        read(Cell(Cell(n)), Cell(0))
    }

    pub fn mismatched(n: u8) -> u32 {
        let flag: bool = read(n, 1u32);
        read('n', flag)
    }

    pub fn held() -> u8 {
        let f = log;
        let unit = f(set(true));
        f(3)
    }

    pub fn given_on() -> char {
        identity(log)('c')
    }

    fn identity<T>(value: T) -> T {
        value
    }

    pub fn one_too_many() -> bool {
        show('s', 1)
    }

    pub fn taken(slot: Slot<u8>) -> bool {
        match slot {
            Slot::Free => true,
            Slot::Taken(value) => value,
        }
    }

    pub fn key_of<K: Key, V: Store>(of: Table<K, V>) -> K {
        let Table(_, value) = of;
        super::store(value);
        show(value)
    }

    pub fn even_numbers() -> bool {
        even(Next(Next(Next(Zero))))
    }

    /// A written type's own bound is asked by rustc alone.
    pub fn written() {
        let slot: Slot<char> = nothing();
    }

    fn nothing<T>() -> T {
        nothing()
    }

    /// Each of the two impls asks for the other.
    pub fn endless() -> bool {
        show(Left(true))
    }

    pub struct Left<T>(T);
    pub struct Right<T>(T);

    impl<T> Show for Left<T> where Right<T>: Show {}
    impl<T> Show for Right<T> where Left<T>: Show {}
}
