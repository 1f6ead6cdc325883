//! Associated types in bounds, and in what functions take and give: functions that have what the items which they name ask
//! for, and some that don't.

/// What can be sent, with what comes back.
pub trait Send {
    type Reply;
}

/// What can be shown.
pub trait Show {}

/// What can be sent twice.
pub trait Resend: Send {}

/// What can be read at a key.
pub trait Read<K> {
    type Value: Show;
}

/// What can be counted, by what.
pub trait Count {
    type By: Send<Reply = bool>;
}

/// What is made of links, each with one behind it.
pub trait Chain {
    type Next: Chain;
}

pub struct Ping;

pub struct Ask<T>(pub T);

pub struct Map<K, V>(pub K, pub V);

impl Send for Ping {
    type Reply = bool;
}

impl<T> Send for Ask<T> {
    type Reply = T;
}

impl Resend for Ping {}

impl Show for bool {}

impl Show for u8 {}

impl<K, V: Show> Read<K> for Map<K, V> {
    type Value = V;
}

impl Count for u8 {
    type By = Ping;
}

pub fn send<T: Send>(_message: T) {}

pub fn send_flag<T: Send<Reply = bool>>(_message: T) {}

pub fn send_shown<T: Send>(_message: T)
where
    T::Reply: Show,
{
}

pub fn resend<T: Resend<Reply = bool>>(_message: T) {}

pub fn read<K, T: Read<K>>(_from: T, _at: K) {}

pub fn read_byte<K, T: Read<K, Value = u8>>(_from: T, _at: K) {}

pub fn count<T: Count>(_what: T)
where
    <T::By as Send>::Reply: Show,
{
}

pub fn sends() {
    send(Ping);
    send_flag(Ping);
    send_flag(Ask(true));
    send_shown(Ask(1u8));
    resend(Ping);
}

pub fn sends_another() {
    send_flag(Ask(1u8));
}

pub fn sends_what_is_not_shown() {
    send_shown(Ask('a'));
}

pub fn sends_what_is_nothing() {
    send_shown(true);
}

pub fn reads() {
    read(Map(1u8, 2u8), 1u8);
    read_byte(Map(true, 2u8), true);
}

pub fn reads_other_values() {
    read_byte(Map(true, true), true);
}

pub fn reads_what_is_not_shown() {
    read(Map(true, Ping), true);
}

pub fn counts() {
    count(1u8);
}

pub fn passes_on<T: Send<Reply = bool>>(message: T) {
    send_flag(message);
}

pub fn shows<T: Send<Reply = bool>>(message: T) {
    send_shown(message);
}

pub fn shows_by_bound<T: Send>(message: T)
where
    T::Reply: Show,
{
    send_shown(message);
}

pub fn sends_again<T: Resend<Reply = bool>>(message: T) {
    send_flag(message);
}

pub fn reads_any<T: Read<u8>>(from: T) {
    read(from, 1);
}

pub fn counts_any<T: Count>(what: T) {
    count(what);
}

pub fn flags_nothing_known<T: Send>(message: T) {
    send_flag(message);
}

pub fn shows_nothing_known<T: Send>(message: T) {
    send_shown(message);
}

pub fn reads_at_another_key<T: Read<u8>>(from: T) {
    read(from, 'k');
}

/// Sends a message and waits for what comes back.
pub fn ask<T: Send>(_message: T) -> T::Reply {
    loop {}
}

/// Sends a message where what comes back is known.
pub fn answer<T: Send>(_message: T, reply: T::Reply) -> T::Reply {
    reply
}

pub fn value<K, T: Read<K>>(_from: T, _at: K) -> <T as Read<K>>::Value {
    loop {}
}

pub fn counter<T: Count>(_what: T) -> T::By {
    loop {}
}

pub fn show<T: Show>(_what: T) {}

pub fn asks() -> bool {
    let byte: u8 = ask(Ask(1u8));
    answer(Ask(byte), 2);
    let flag = ask(Ping);
    answer(Ping, flag)
}

pub fn asks_for_another() -> u8 {
    ask(Ping)
}

pub fn answers_with_another() {
    answer(Ask(1u8), true);
}

pub fn asks_what_is_nothing() {
    ask('a');
}

pub fn asks_twice() -> bool {
    ask(ask(Ask(Ping)))
}

pub fn asks_what_is_bound() -> bool {
    let asked = ask;
    asked(Ping)
}

pub fn asks_what_counts() -> bool {
    ask(counter(1u8))
}

pub fn reads_values() -> (u8, bool) {
    (value(Map('k', 1u8), 'k'), value(Map(1u8, true), 2))
}

pub fn shows_replies() {
    show(ask(Ask(1u8)));
    show(value(Map('k', true), 'k'));
}

pub fn shows_a_reply_that_is_not_shown() {
    show(ask(Ask('a')));
}

pub fn asks_known<T: Send<Reply = bool>>(message: T) -> bool {
    ask(message)
}

pub fn asks_any<T: Send>(message: T, other: T) {
    let reply = ask(message);
    answer(other, reply);
}

pub fn asks_any_for_a_flag<T: Send>(message: T) -> bool {
    ask(message)
}

pub fn shows_any_reply<T: Send>(message: T)
where
    T::Reply: Show,
{
    show(ask(message));
}

pub fn shows_a_reply_of_which_nothing_is_known<T: Send>(message: T) {
    show(ask(message));
}

pub fn shows_any_value<T: Read<u8>>(from: T) {
    show(value(from, 1));
}

pub fn answers_another<T: Send, U: Send>(message: T, other: U) {
    answer(other, ask(message));
}

pub fn both_replies<T: Send>(message: T) -> (T::Reply, T::Reply) {
    loop {}
}

pub fn shift<T: Chain>(link: T) -> T::Next {
    loop {}
}

pub fn pair<T>(one: T, other: T) -> (T, T) {
    (one, other)
}

pub fn keeps_replies<T: Send>(message: T, other: T) {
    let reply = ask(message);
    let replies = pair(reply, ask(other));
    let (_, second) = replies;
    let _: (_, u8) = (second, 1);
}

pub fn mixes_replies<T: Send, U: Send>(message: T, other: U) {
    pair(ask(message), ask(other));
}

pub fn takes_a_reply_for_a_byte<T: Send>(message: T) {
    let reply = ask(message);
    let _: u8 = reply;
}

pub fn takes_a_literal_for_a_reply<T: Send>(message: T) {
    pair(ask(message), 1);
}

pub fn takes_both<T: Send>(message: T, other: T) {
    let (one, _) = both_replies(message);
    answer(other, one);
}

pub fn sends_both<T: Send>(message: Ask<T>) {
    let (one, other) = both_replies(message);
    pair(ask(one), ask(other));
}

pub fn shifts<T: Chain>(link: T) {
    let third = shift(shift(shift(link)));
    shift(third);
}

pub fn shifts_two<T: Chain, U: Chain>(link: T, other: U) {
    pair(shift(link), shift(other));
}

pub fn shifts_to_itself<T: Chain<Next = T>>(link: T) -> T {
    shift(shift(link))
}

pub fn chooses_a_reply<T: Send>(message: T, other: T, first: bool) {
    let reply = if first { ask(message) } else { ask(other) };
    let _ = pair(reply, if first { 1u8 } else { 2 });
}

pub fn shows_what_follows<T: Chain>(link: T)
where
    T::Next: Show,
{
    show(shift(link));
}
