// Items of the standard library at the paths that they have there, each in the module of its crate. `tools/facts.py --every-kind`
// takes from here what a crate names. They are declarations of our own: what a definition says of its types, and nothing else.
#![feature(auto_traits, no_core)]
#![no_core]

pub mod core {
    pub mod marker {
        use super::clone::Clone;
        pub trait Sized {}
        pub trait Copy: Clone {}
        pub auto trait Send {}
        pub auto trait Sync {}
        pub auto trait Unpin {}
        pub trait Unsize<T: ?Sized> {}
        pub trait StructuralPartialEq {}
        pub struct PhantomData<T: ?Sized>;
        pub struct PhantomPinned;
        impl<T: ?Sized> Copy for PhantomData<T> {}
        impl<T: ?Sized> Clone for PhantomData<T> {}
    }
    pub mod clone {
        use super::marker::Sized;
        pub trait Clone: Sized {
            fn clone(&self) -> Self;
            fn clone_from(&mut self, source: &Self);
        }
        impl Clone for bool {}
        impl Clone for char {}
        impl Clone for u8 {}
        impl Clone for u16 {}
        impl Clone for u32 {}
        impl Clone for u64 {}
        impl Clone for u128 {}
        impl Clone for usize {}
        impl Clone for i8 {}
        impl Clone for i16 {}
        impl Clone for i32 {}
        impl Clone for i64 {}
        impl Clone for i128 {}
        impl Clone for isize {}
        impl Clone for f32 {}
        impl Clone for f64 {}
    }
    pub mod default {
        pub trait Default: super::marker::Sized {
            fn default() -> Self;
        }
    }
    pub mod option {
        use super::clone::Clone;
        use super::marker::Copy;
        pub enum Option<T> {
            None,
            Some(T),
        }
        impl<T: Clone> Clone for Option<T> {}
        impl<T: Copy> Copy for Option<T> {}
        impl<T> Option<T> {
            pub fn is_some(&self) -> bool {}
            pub fn is_none(&self) -> bool {}
            pub fn as_ref(&self) -> Option<&T> {}
            pub fn as_mut(&mut self) -> Option<&mut T> {}
            pub fn expect(self, msg: &str) -> T {}
            pub fn unwrap(self) -> T {}
            pub fn unwrap_or(self, default: T) -> T {}
            pub fn take(&mut self) -> Option<T> {}
        }
    }
    pub mod result {
        pub enum Result<T, E> {
            Ok(T),
            Err(E),
        }
        impl<T, E> Result<T, E> {
            pub fn is_ok(&self) -> bool {}
            pub fn is_err(&self) -> bool {}
            pub fn ok(self) -> super::option::Option<T> {}
            pub fn err(self) -> super::option::Option<E> {}
            pub fn unwrap_or(self, default: T) -> T {}
        }
    }
    pub mod ops {
        pub mod deref {
            use crate::core::marker::Sized;
            pub trait Deref {
                type Target: ?Sized;
                fn deref(&self) -> &Self::Target;
            }
            pub trait DerefMut: Deref {
                fn deref_mut(&mut self) -> &mut Self::Target;
            }
            impl<T: ?Sized> Deref for &T {
                type Target = T;
            }
            impl<T: ?Sized> Deref for &mut T {
                type Target = T;
            }
            impl<T: ?Sized> DerefMut for &mut T {}
        }
        pub mod drop {
            pub trait Drop {
                fn drop(&mut self);
            }
        }
        pub mod index {
            use crate::core::marker::Sized;
            pub trait Index<Idx: ?Sized> {
                type Output: ?Sized;
                fn index(&self, index: Idx) -> &Self::Output;
            }
            pub trait IndexMut<Idx: ?Sized>: Index<Idx> {
                fn index_mut(&mut self, index: Idx) -> &mut Self::Output;
            }
        }
        pub mod range {
            use crate::core::marker::Sized;
            pub struct RangeFull;
            pub struct Range<Idx> {
                pub start: Idx,
                pub end: Idx,
            }
            pub struct RangeFrom<Idx> {
                pub start: Idx,
            }
            pub struct RangeTo<Idx> {
                pub end: Idx,
            }
            pub struct RangeToInclusive<Idx> {
                pub end: Idx,
            }
            pub struct RangeInclusive<Idx> {
                pub(crate) start: Idx,
                pub(crate) end: Idx,
                pub(crate) exhausted: bool,
            }
            pub trait RangeBounds<T: ?Sized> {}
            pub enum Bound<T> {
                Included(T),
                Excluded(T),
                Unbounded,
            }
        }
        pub mod function {
            pub trait FnOnce<Args> {
                type Output;
                fn call_once(self, args: Args) -> Self::Output;
            }
            pub trait FnMut<Args>: FnOnce<Args> {
                fn call_mut(&mut self, args: Args) -> Self::Output;
            }
            pub trait Fn<Args>: FnMut<Args> {
                fn call(&self, args: Args) -> Self::Output;
            }
        }
        pub mod arith {
            pub trait Neg {
                type Output;
                fn neg(self) -> Self::Output;
            }
            pub trait Add<Rhs = Self> {
                type Output;
                fn add(self, rhs: Rhs) -> Self::Output;
            }
            pub trait Sub<Rhs = Self> {
                type Output;
                fn sub(self, rhs: Rhs) -> Self::Output;
            }
            pub trait Mul<Rhs = Self> {
                type Output;
                fn mul(self, rhs: Rhs) -> Self::Output;
            }
            pub trait Div<Rhs = Self> {
                type Output;
                fn div(self, rhs: Rhs) -> Self::Output;
            }
            pub trait Rem<Rhs = Self> {
                type Output;
                fn rem(self, rhs: Rhs) -> Self::Output;
            }
            pub trait AddAssign<Rhs = Self> {
                fn add_assign(&mut self, rhs: Rhs);
            }
            pub trait SubAssign<Rhs = Self> {
                fn sub_assign(&mut self, rhs: Rhs);
            }
            pub trait MulAssign<Rhs = Self> {
                fn mul_assign(&mut self, rhs: Rhs);
            }
            pub trait DivAssign<Rhs = Self> {
                fn div_assign(&mut self, rhs: Rhs);
            }
            pub trait RemAssign<Rhs = Self> {
                fn rem_assign(&mut self, rhs: Rhs);
            }
        }
        pub mod bit {
            pub trait Not {
                type Output;
                fn not(self) -> Self::Output;
            }
            pub trait BitAnd<Rhs = Self> {
                type Output;
                fn bitand(self, rhs: Rhs) -> Self::Output;
            }
            pub trait BitOr<Rhs = Self> {
                type Output;
                fn bitor(self, rhs: Rhs) -> Self::Output;
            }
            pub trait BitXor<Rhs = Self> {
                type Output;
                fn bitxor(self, rhs: Rhs) -> Self::Output;
            }
            pub trait Shl<Rhs = Self> {
                type Output;
                fn shl(self, rhs: Rhs) -> Self::Output;
            }
            pub trait Shr<Rhs = Self> {
                type Output;
                fn shr(self, rhs: Rhs) -> Self::Output;
            }
            pub trait BitAndAssign<Rhs = Self> {
                fn bitand_assign(&mut self, rhs: Rhs);
            }
            pub trait BitOrAssign<Rhs = Self> {
                fn bitor_assign(&mut self, rhs: Rhs);
            }
            pub trait BitXorAssign<Rhs = Self> {
                fn bitxor_assign(&mut self, rhs: Rhs);
            }
            pub trait ShlAssign<Rhs = Self> {
                fn shl_assign(&mut self, rhs: Rhs);
            }
            pub trait ShrAssign<Rhs = Self> {
                fn shr_assign(&mut self, rhs: Rhs);
            }
        }
        pub mod control_flow {
            pub enum ControlFlow<B, C = ()> {
                Continue(C),
                Break(B),
            }
        }
        pub mod try_trait {
            use super::super::convert::{From, Infallible};
            use super::super::marker::Sized;
            use super::super::option::Option;
            use super::super::result::Result;
            use super::control_flow::ControlFlow;
            pub trait Try: FromResidual {
                type Output;
                type Residual;
                fn from_output(output: Self::Output) -> Self;
                fn branch(self) -> ControlFlow<Self::Residual, Self::Output>;
            }
            pub trait FromResidual<R = <Self as Try>::Residual>: Sized {
                fn from_residual(residual: R) -> Self;
            }
            impl<T> Try for Option<T> {
                type Output = T;
                type Residual = Option<Infallible>;
            }
            impl<T> FromResidual<Option<Infallible>> for Option<T> {}
            impl<T, E> Try for Result<T, E> {
                type Output = T;
                type Residual = Result<Infallible, E>;
            }
            impl<T, E, F: From<E>> FromResidual<Result<Infallible, E>> for Result<T, F> {}
        }
    }
    pub mod cmp {
        use crate::core::marker::Sized;
        use super::option::Option;
        pub trait PartialEq<Rhs: ?Sized = Self> {
            fn eq(&self, other: &Rhs) -> bool;
            fn ne(&self, other: &Rhs) -> bool;
        }
        pub trait Eq: PartialEq {}
        pub trait PartialOrd<Rhs: ?Sized = Self>: PartialEq<Rhs> {
            fn partial_cmp(&self, other: &Rhs) -> Option<Ordering>;
            fn lt(&self, other: &Rhs) -> bool;
            fn le(&self, other: &Rhs) -> bool;
            fn gt(&self, other: &Rhs) -> bool;
            fn ge(&self, other: &Rhs) -> bool;
        }
        pub trait Ord: Eq + PartialOrd {
            fn cmp(&self, other: &Self) -> Ordering;
        }
        pub enum Ordering {
            Less = -1,
            Equal = 0,
            Greater = 1,
        }
        pub struct AssertParamIsEq<T: Eq + ?Sized>;
        pub struct Reverse<T>(pub T);
        pub fn min<T: Ord>(v1: T, v2: T) -> T {}
        pub fn max<T: Ord>(v1: T, v2: T) -> T {}
    }
    pub mod convert {
        use super::marker::Sized;
        use super::result::Result;
        pub enum Infallible {}
        pub trait AsRef<T: ?Sized> {
            fn as_ref(&self) -> &T;
        }
        pub trait AsMut<T: ?Sized> {
            fn as_mut(&mut self) -> &mut T;
        }
        pub trait From<T>: Sized {
            fn from(value: T) -> Self;
        }
        pub trait Into<T>: Sized {
            fn into(self) -> T;
        }
        pub trait TryFrom<T>: Sized {
            type Error;
            fn try_from(value: T) -> Result<Self, Self::Error>;
        }
        pub trait TryInto<T>: Sized {
            type Error;
            fn try_into(self) -> Result<T, Self::Error>;
        }
        impl<T> From<T> for T {}
        impl<T, U: From<T>> Into<U> for T {}
        impl<T, U: Into<T>> TryFrom<U> for T {
            type Error = Infallible;
        }
        impl<T, U: TryFrom<T>> TryInto<U> for T {
            type Error = U::Error;
        }
        pub fn identity<T>(x: T) -> T {}
    }
    pub mod iter {
        pub mod traits {
            pub mod iterator {
                use super::super::super::option::Option;
                pub trait Iterator {
                    type Item;
                    fn next(&mut self) -> Option<Self::Item>;
                    fn count(self) -> usize;
                }
            }
            pub mod collect {
                use super::super::super::marker::Sized;
                use super::iterator::Iterator;
                pub trait IntoIterator {
                    type Item;
                    type IntoIter: Iterator<Item = Self::Item>;
                    fn into_iter(self) -> Self::IntoIter;
                }
                impl<I: Iterator> IntoIterator for I {
                    type Item = I::Item;
                    type IntoIter = I;
                }
                pub trait FromIterator<A>: Sized {
                    fn from_iter<T: IntoIterator<Item = A>>(iter: T) -> Self;
                }
                pub trait Extend<A> {
                    fn extend<T: IntoIterator<Item = A>>(&mut self, iter: T);
                }
            }
            pub mod double_ended {
                pub trait DoubleEndedIterator: super::iterator::Iterator {
                    fn next_back(&mut self) -> super::super::super::option::Option<Self::Item>;
                }
            }
            pub mod exact_size {
                pub trait ExactSizeIterator: super::iterator::Iterator {
                    fn len(&self) -> usize;
                }
            }
            pub mod accum {
                pub trait Sum<A = Self>: super::super::super::marker::Sized {
                    fn sum<I: super::iterator::Iterator<Item = A>>(iter: I) -> Self;
                }
                pub trait Product<A = Self>: super::super::super::marker::Sized {
                    fn product<I: super::iterator::Iterator<Item = A>>(iter: I) -> Self;
                }
            }
        }
        pub mod adapters {
            pub mod map {
                pub struct Map<I, F> {
                    pub(crate) iter: I,
                    f: F,
                }
            }
            pub mod filter {
                pub struct Filter<I, P> {
                    pub(crate) iter: I,
                    predicate: P,
                }
            }
            pub mod cycle {
                pub struct Cycle<I> {
                    orig: I,
                    iter: I,
                }
            }
            pub mod rev {
                pub struct Rev<T> {
                    pub(super) iter: T,
                }
            }
        }
    }
    pub mod fmt {
        pub struct Arguments<'a> {
            args: &'a (),
        }
        pub struct Error;
        pub type Result = super::result::Result<(), Error>;
        pub struct Formatter<'a> {
            buf: &'a mut dyn Write,
        }
        impl<'a> Formatter<'a> {
            pub fn write_str(&mut self, data: &str) -> Result {}
            pub fn write_fmt(&mut self, fmt: Arguments<'_>) -> Result {}
            pub fn debug_tuple_field1_finish<'b>(&'b mut self, name: &str, value1: &dyn Debug) -> Result {}
            pub fn debug_struct_field1_finish<'b>(&'b mut self, name: &str, name1: &str, value1: &dyn Debug) -> Result {}
        }
        pub trait Write {
            fn write_str(&mut self, s: &str) -> Result;
            fn write_char(&mut self, c: char) -> Result;
            fn write_fmt(&mut self, args: Arguments<'_>) -> Result;
        }
        pub trait Display {
            fn fmt(&self, f: &mut Formatter<'_>) -> Result;
        }
        pub trait Debug {
            fn fmt(&self, f: &mut Formatter<'_>) -> Result;
        }
        pub trait LowerHex {
            fn fmt(&self, f: &mut Formatter<'_>) -> Result;
        }
        pub trait UpperHex {
            fn fmt(&self, f: &mut Formatter<'_>) -> Result;
        }
        pub trait Octal {
            fn fmt(&self, f: &mut Formatter<'_>) -> Result;
        }
        pub trait Binary {
            fn fmt(&self, f: &mut Formatter<'_>) -> Result;
        }
        pub trait Pointer {
            fn fmt(&self, f: &mut Formatter<'_>) -> Result;
        }
        pub trait LowerExp {
            fn fmt(&self, f: &mut Formatter<'_>) -> Result;
        }
        pub trait UpperExp {
            fn fmt(&self, f: &mut Formatter<'_>) -> Result;
        }
    }
    pub mod hash {
        use super::marker::Sized;
        pub trait Hasher {
            fn finish(&self) -> u64;
        }
        pub trait Hash {
            fn hash<H: Hasher>(&self, state: &mut H);
        }
        pub trait BuildHasher {
            type Hasher: Hasher;
        }
    }
    pub mod any {
        use crate::core::marker::Sized;
        pub struct TypeId;
        pub trait Any: 'static {
            fn type_id(&self) -> TypeId;
        }
        pub fn type_name<T: ?Sized>() -> &'static str {}
    }
    pub mod borrow {
        use crate::core::marker::Sized;
        pub trait Borrow<Borrowed: ?Sized> {
            fn borrow(&self) -> &Borrowed;
        }
        pub trait BorrowMut<Borrowed: ?Sized>: Borrow<Borrowed> {
            fn borrow_mut(&mut self) -> &mut Borrowed;
        }
    }
    pub mod cell {
        use crate::core::marker::Sized;
        pub struct UnsafeCell<T: ?Sized> {
            value: T,
        }
        pub struct Cell<T: ?Sized> {
            value: UnsafeCell<T>,
        }
        pub struct RefCell<T: ?Sized> {
            value: UnsafeCell<T>,
        }
        pub struct Ref<'b, T: ?Sized> {
            value: &'b T,
        }
        pub struct RefMut<'b, T: ?Sized> {
            value: &'b mut T,
        }
        pub mod once {
            pub struct OnceCell<T> {
                inner: super::UnsafeCell<T>,
            }
        }
    }
    pub mod error {
        use super::fmt::{Debug, Display};
        pub trait Error: Debug + Display {
            fn source(&self) -> super::option::Option<&(dyn Error + 'static)>;
            fn description(&self) -> &str;
        }
    }
    pub mod future {
        pub mod future {
            use super::super::pin::Pin;
            use super::super::task::{poll::Poll, wake::Context};
            pub trait Future {
                type Output;
                fn poll(self: Pin<&mut Self>, cx: &mut Context<'_>) -> Poll<Self::Output>;
            }
        }
        pub mod into_future {
            pub trait IntoFuture {
                type Output;
                type IntoFuture: super::future::Future<Output = Self::Output>;
                fn into_future(self) -> Self::IntoFuture;
            }
        }
    }
    pub mod task {
        pub mod poll {
            pub enum Poll<T> {
                Ready(T),
                Pending,
            }
        }
        pub mod wake {
            pub struct Waker;
            pub struct Context<'a> {
                waker: &'a Waker,
            }
        }
    }
    pub mod pin {
        pub struct Pin<Ptr> {
            pointer: Ptr,
        }
    }
    pub mod hint {
        pub fn must_use<T>(value: T) -> T {}
        pub fn black_box<T>(dummy: T) -> T {}
        pub unsafe fn unreachable_unchecked() -> ! {}
    }
    pub mod intrinsics {
        pub unsafe fn transmute<Src, Dst>(src: Src) -> Dst {}
        pub unsafe fn discriminant_value<T>(v: &T) -> isize {}
    }
    pub mod mem {
        use crate::core::marker::Sized;
        pub mod manually_drop {
            use crate::core::marker::Sized;
            pub struct ManuallyDrop<T: ?Sized> {
                value: T,
            }
        }
        pub mod maybe_uninit {
            pub union MaybeUninit<T> {
                uninit: (),
                value: super::manually_drop::ManuallyDrop<T>,
            }
        }
        pub struct Discriminant<T>(T);
        pub fn drop<T>(x: T) {}
        pub fn forget<T>(t: T) {}
        pub fn size_of<T>() -> usize {}
        pub fn size_of_val<T: ?Sized>(val: &T) -> usize {}
        pub fn align_of<T>() -> usize {}
        pub fn align_of_val<T: ?Sized>(val: &T) -> usize {}
        pub fn swap<T>(x: &mut T, y: &mut T) {}
        pub fn replace<T>(dest: &mut T, src: T) -> T {}
        pub fn take<T: super::default::Default>(dest: &mut T) -> T {}
        pub fn discriminant<T>(v: &T) -> Discriminant<T> {}
        pub unsafe fn zeroed<T>() -> T {}
        pub const fn needs_drop<T: ?Sized>() -> bool {}
    }
    pub mod num {
        pub mod error {
            pub struct ParseIntError;
            pub struct TryFromIntError(pub(crate) ());
            pub enum IntErrorKind {
                Empty,
                InvalidDigit,
                PosOverflow,
                NegOverflow,
                Zero,
            }
        }
        pub mod imp {
            pub mod dec2flt {
                pub struct ParseFloatError;
            }
        }
        pub mod nonzero {
            pub struct NonZero<T>(T);
        }
        pub mod wrapping {
            pub struct Wrapping<T>(pub T);
        }
    }
    pub mod f32 {
        pub const INFINITY: f32 = f32::INFINITY;
        pub const NAN: f32 = f32::NAN;
        pub const NEG_INFINITY: f32 = f32::NEG_INFINITY;
        pub mod consts {
            pub const PI: f32 = 3;
        }
    }
    pub mod f64 {
        pub const INFINITY: f64 = f64::INFINITY;
        pub const NAN: f64 = f64::NAN;
        pub const NEG_INFINITY: f64 = f64::NEG_INFINITY;
        pub mod consts {
            pub const PI: f64 = 3;
        }
    }
    pub mod panicking {
        use crate::core::marker::Sized;
        use super::fmt;
        use super::option::Option;
        pub enum AssertKind {
            Eq,
            Ne,
            Match,
        }
        pub const fn panic(expr: &'static str) -> ! {}
        pub const fn panic_str_2015(expr: &str) -> ! {}
        pub fn panic_fmt(fmt: fmt::Arguments<'_>) -> ! {}
        pub fn panic_display<T: fmt::Display>(x: &T) -> ! {}
        pub fn unreachable_display<T: fmt::Display>(x: &T) -> ! {}
        pub fn panic_explicit() -> ! {}
        pub fn assert_failed<T: fmt::Debug + ?Sized, U: fmt::Debug + ?Sized>(
            kind: AssertKind,
            left: &T,
            right: &U,
            args: Option<fmt::Arguments<'_>>,
        ) -> ! {
        }
        pub fn assert_matches_failed<T: fmt::Debug + ?Sized>(left: &T, right: &str, args: Option<fmt::Arguments<'_>>) -> ! {}
    }
    pub mod panic {
        pub mod location {
            pub struct Location<'a> {
                file: &'a str,
            }
        }
        pub mod unwind_safe {
            pub auto trait UnwindSafe {}
            pub auto trait RefUnwindSafe {}
            pub struct AssertUnwindSafe<T>(pub T);
        }
    }
    pub mod ptr {
        use crate::core::marker::Sized;
        pub mod non_null {
            use crate::core::marker::Sized;
            pub struct NonNull<T: ?Sized> {
                pointer: *const T,
            }
        }
        pub mod alignment {
            pub struct Alignment(usize);
        }
        pub fn null<T>() -> *const T {}
        pub fn null_mut<T>() -> *mut T {}
        pub unsafe fn read<T>(src: *const T) -> T {}
        pub unsafe fn write<T>(dst: *mut T, src: T) {}
        pub unsafe fn swap<T>(x: *mut T, y: *mut T) {}
        pub unsafe fn drop_in_place<T: ?Sized>(to_drop: *mut T) {}
        pub fn eq<T: ?Sized>(a: *const T, b: *const T) -> bool {}
    }
    pub mod alloc {
        pub mod layout {
            pub struct Layout {
                size: usize,
                align: super::super::ptr::alignment::Alignment,
            }
        }
        pub mod global {
            pub unsafe trait GlobalAlloc {
                unsafe fn alloc(&self, layout: super::layout::Layout) -> *mut u8;
                unsafe fn dealloc(&self, ptr: *mut u8, layout: super::layout::Layout);
                unsafe fn alloc_zeroed(&self, layout: super::layout::Layout) -> *mut u8;
                unsafe fn realloc(&self, ptr: *mut u8, layout: super::layout::Layout, new_size: usize) -> *mut u8;
            }
        }
        pub unsafe trait Allocator {}
    }
    pub mod slice {
        pub mod iter {
            pub struct Iter<'a, T> {
                of: &'a [T],
            }
            pub struct IterMut<'a, T> {
                of: &'a mut [T],
            }
        }
        pub mod raw {
            pub unsafe fn from_raw_parts<'a, T>(data: *const T, len: usize) -> &'a [T] {}
            pub unsafe fn from_raw_parts_mut<'a, T>(data: *mut T, len: usize) -> &'a mut [T] {}
        }
    }
    pub mod str {
        pub mod traits {
            pub trait FromStr: super::super::marker::Sized {
                type Err;
                fn from_str(s: &str) -> super::super::result::Result<Self, Self::Err>;
            }
        }
        pub mod error {
            pub struct Utf8Error;
        }
        pub mod converts {
            use super::super::result::Result;
            pub fn from_utf8(v: &[u8]) -> Result<&str, super::error::Utf8Error> {}
            pub unsafe fn from_utf8_unchecked(v: &[u8]) -> &str {}
        }
        pub mod iter {
            pub struct Chars<'a> {
                of: &'a str,
            }
        }
    }
    pub mod sync {
        pub mod atomic {
            pub enum Ordering {
                Relaxed,
                Release,
                Acquire,
                AcqRel,
                SeqCst,
            }
            pub struct AtomicBool(bool);
            pub struct AtomicU8(u8);
            pub struct AtomicU32(u32);
            pub struct AtomicU64(u64);
            pub struct AtomicUsize(usize);
            pub struct AtomicI32(i32);
            pub struct AtomicPtr<T>(*mut T);
        }
    }
    pub mod time {
        pub struct Duration {
            secs: u64,
            nanos: u32,
        }
    }
    pub mod ffi {
        pub mod c_str {
            pub struct CStr {
                inner: [u8],
            }
        }
        pub mod primitives {
            pub type c_int = i32;
            pub type c_char = i8;
            pub type c_uint = u32;
            pub type c_long = i64;
            pub type c_double = f64;
        }
        pub enum c_void {
            __variant1,
            __variant2,
        }
    }
    pub mod array {
        pub mod iter {
            pub struct IntoIter<T, const N: usize> {
                data: [T; N],
            }
        }
    }
}

pub mod alloc {
    pub mod alloc {
        pub struct Global;
        pub unsafe fn alloc(layout: crate::core::alloc::layout::Layout) -> *mut u8 {}
        pub unsafe fn dealloc(ptr: *mut u8, layout: crate::core::alloc::layout::Layout) {}
    }
    pub mod intrinsics {
        pub fn write_box_via_move<T>(
            b: super::boxed::Box<crate::core::mem::maybe_uninit::MaybeUninit<T>>,
            x: T,
        ) -> super::boxed::Box<crate::core::mem::maybe_uninit::MaybeUninit<T>> {
        }
    }
    pub mod boxed {
        use crate::core::marker::Sized;
        use super::alloc::Global;
        use crate::core::mem::maybe_uninit::MaybeUninit;
        use crate::core::ops::deref::{Deref, DerefMut};
        pub struct Box<T: ?Sized, A = Global>(*const T, A);
        impl<T> Box<T> {
            pub fn new(x: T) -> Self {}
            pub fn new_uninit() -> Box<MaybeUninit<T>> {}
        }
        impl<T: ?Sized, A> Deref for Box<T, A> {
            type Target = T;
        }
        impl<T: ?Sized, A> DerefMut for Box<T, A> {}
        pub fn box_assume_init_into_vec_unsafe<T, const N: usize>(b: Box<MaybeUninit<[T; N]>>) -> super::vec::Vec<T> {}
    }
    pub mod borrow {
        use crate::core::marker::Sized;
        use crate::core::borrow::Borrow;
        pub trait ToOwned {
            type Owned: Borrow<Self>;
            fn to_owned(&self) -> Self::Owned;
        }
        pub enum Cow<'a, B: ?Sized + ToOwned + 'a> {
            Borrowed(&'a B),
            Owned(<B as ToOwned>::Owned),
        }
    }
    pub mod string {
        use crate::core::marker::Sized;
        use super::vec::Vec;
        use crate::core::convert::From;
        use crate::core::ops::deref::Deref;
        pub struct String {
            vec: Vec<u8>,
        }
        impl String {
            pub fn new() -> String {}
            pub fn len(&self) -> usize {}
            pub fn push(&mut self, ch: char) {}
            pub fn push_str(&mut self, string: &str) {}
            pub fn as_str(&self) -> &str {}
        }
        impl Deref for String {
            type Target = str;
        }
        impl From<&str> for String {}
        pub struct FromUtf8Error;
        pub trait ToString {
            fn to_string(&self) -> String;
        }
        impl<T: crate::core::fmt::Display + ?Sized> ToString for T {}
    }
    pub mod vec {
        use super::alloc::Global;
        use crate::core::ops::deref::{Deref, DerefMut};
        pub struct Vec<T, A = Global> {
            ptr: *const T,
            alloc: A,
        }
        impl<T> Vec<T> {
            pub fn new() -> Self {}
            pub fn with_capacity(capacity: usize) -> Self {}
        }
        impl<T, A> Vec<T, A> {
            pub fn push(&mut self, value: T) {}
            pub fn pop(&mut self) -> crate::core::option::Option<T> {}
            pub fn len(&self) -> usize {}
        }
        impl<T, A> Deref for Vec<T, A> {
            type Target = [T];
        }
        impl<T, A> DerefMut for Vec<T, A> {}
        pub fn from_elem<T: crate::core::clone::Clone>(elem: T, n: usize) -> Vec<T> {}
        pub mod into_iter {
            pub struct IntoIter<T, A = super::super::alloc::Global> {
                ptr: *const T,
                alloc: A,
            }
        }
    }
    pub mod rc {
        use crate::core::marker::Sized;
        use super::alloc::Global;
        use crate::core::ops::deref::Deref;
        pub struct Rc<T: ?Sized, A = Global> {
            ptr: *const T,
            alloc: A,
        }
        pub struct Weak<T: ?Sized, A = Global> {
            ptr: *const T,
            alloc: A,
        }
        impl<T: ?Sized, A> Deref for Rc<T, A> {
            type Target = T;
        }
    }
    pub mod sync {
        use crate::core::marker::Sized;
        use super::alloc::Global;
        use crate::core::ops::deref::Deref;
        pub struct Arc<T: ?Sized, A = Global> {
            ptr: *const T,
            alloc: A,
        }
        pub struct Weak<T: ?Sized, A = Global> {
            ptr: *const T,
            alloc: A,
        }
        impl<T: ?Sized, A> Deref for Arc<T, A> {
            type Target = T;
        }
    }
    pub mod fmt {
        pub fn format(args: crate::core::fmt::Arguments<'_>) -> super::string::String {}
    }
    pub mod collections {
        use super::alloc::Global;
        pub mod vec_deque {
            pub struct VecDeque<T, A = super::Global> {
                ptr: *const T,
                alloc: A,
            }
        }
        pub mod linked_list {
            pub struct LinkedList<T, A = super::Global> {
                ptr: *const T,
                alloc: A,
            }
        }
        pub mod binary_heap {
            pub struct BinaryHeap<T, A = super::Global> {
                ptr: *const T,
                alloc: A,
            }
        }
        pub mod btree {
            pub mod map {
                pub struct BTreeMap<K, V, A = super::super::Global> {
                    ptr: *const (K, V),
                    alloc: A,
                }
            }
            pub mod set {
                pub struct BTreeSet<T, A = super::super::Global> {
                    ptr: *const T,
                    alloc: A,
                }
            }
        }
    }
}

pub mod std {
    pub mod alloc {
        pub struct System;
    }
    pub mod net {
        pub mod tcp {
            pub struct TcpStream;
            pub struct TcpListener;
        }
    }
    pub mod panicking {
        pub fn begin_panic<M: crate::core::any::Any + crate::core::marker::Send>(msg: M) -> ! {}
    }
    pub mod prelude {
        pub mod v1 {
            pub use crate::alloc::borrow::ToOwned;
            pub use crate::alloc::string::ToString;
            pub use crate::core::clone::Clone;
            pub use crate::core::cmp::{Eq, Ord, PartialEq, PartialOrd};
            pub use crate::core::convert::{AsMut, AsRef, From, Into};
            pub use crate::core::default::Default;
            pub use crate::core::iter::traits::collect::{Extend, IntoIterator};
            pub use crate::core::iter::traits::double_ended::DoubleEndedIterator;
            pub use crate::core::iter::traits::exact_size::ExactSizeIterator;
            pub use crate::core::iter::traits::iterator::Iterator;
            pub use crate::core::marker::{Copy, Send, Sized, Sync, Unpin};
            pub use crate::core::ops::drop::Drop;
            pub use crate::core::ops::function::{Fn, FnMut, FnOnce};
            pub use crate::core::option::Option;
            pub use crate::core::result::Result;
        }
        pub mod rust_2015 {
            pub use super::v1::*;
        }
        pub mod rust_2018 {
            pub use super::v1::*;
        }
        pub mod rust_2021 {
            pub use super::v1::*;
            pub use crate::core::convert::{TryFrom, TryInto};
            pub use crate::core::iter::traits::collect::FromIterator;
        }
        pub mod rust_2024 {
            pub use super::rust_2021::*;
            pub use crate::core::future::future::Future;
            pub use crate::core::future::into_future::IntoFuture;
        }
    }
    pub mod hash {
        pub mod random {
            pub struct RandomState;
            pub struct DefaultHasher;
        }
    }
    pub mod collections {
        pub mod hash {
            pub mod map {
                pub struct HashMap<K, V, S = super::super::super::hash::random::RandomState> {
                    base: *const (K, V),
                    hash_builder: S,
                }
                pub enum Entry<'a, K: 'a, V: 'a> {
                    Occupied(OccupiedEntry<'a, K, V>),
                    Vacant(VacantEntry<'a, K, V>),
                }
                pub struct OccupiedEntry<'a, K: 'a, V: 'a> {
                    base: &'a (K, V),
                }
                pub struct VacantEntry<'a, K: 'a, V: 'a> {
                    base: &'a (K, V),
                }
            }
            pub mod set {
                pub struct HashSet<T, S = super::super::super::hash::random::RandomState> {
                    base: *const T,
                    hash_builder: S,
                }
            }
        }
    }
    pub mod io {
        pub mod error {
            pub struct Error;
            pub enum ErrorKind {
                NotFound,
                InvalidInput,
                Other,
            }
            pub type Result<T> = crate::core::result::Result<T, Error>;
        }
        pub mod stdio {
            pub struct Stdin;
            pub struct Stdout;
            pub struct Stderr;
            pub fn stdin() -> Stdin {}
            pub fn stdout() -> Stdout {}
            pub fn stderr() -> Stderr {}
            pub fn _print(args: crate::core::fmt::Arguments<'_>) {}
            pub fn _eprint(args: crate::core::fmt::Arguments<'_>) {}
        }
        use error::Result;
        pub trait Read {
            fn read(&mut self, buf: &mut [u8]) -> Result<usize>;
            fn read_to_string(&mut self, buf: &mut crate::alloc::string::String) -> Result<usize>;
        }
        pub trait Write {
            fn write(&mut self, buf: &[u8]) -> Result<usize>;
            fn flush(&mut self) -> Result<()>;
            fn write_all(&mut self, buf: &[u8]) -> Result<()>;
            fn write_fmt(&mut self, args: crate::core::fmt::Arguments<'_>) -> Result<()>;
        }
        pub trait BufRead: Read {
            fn read_line(&mut self, buf: &mut crate::alloc::string::String) -> Result<usize>;
        }
        pub mod prelude {
            pub use super::{BufRead, Read, Write};
        }
        pub struct Lines<B> {
            buf: B,
        }
        pub mod buffered {
            pub mod bufreader {
                use crate::core::marker::Sized;
                pub struct BufReader<R: ?Sized> {
                    inner: R,
                }
            }
        }
    }
    pub mod ffi {
        pub mod os_str {
            pub struct OsString {
                inner: crate::alloc::vec::Vec<u8>,
            }
            pub struct OsStr {
                inner: [u8],
            }
        }
    }
    pub mod fs {
        pub struct File;
        pub fn write<P: crate::core::convert::AsRef<super::path::Path>, C: crate::core::convert::AsRef<[u8]>>(
            path: P,
            contents: C,
        ) -> super::io::error::Result<()> {
        }
        pub fn remove_file<P: crate::core::convert::AsRef<super::path::Path>>(path: P) -> super::io::error::Result<()> {}
        pub fn read_to_string<P: crate::core::convert::AsRef<super::path::Path>>(
            path: P,
        ) -> super::io::error::Result<crate::alloc::string::String> {
        }
    }
    pub mod path {
        pub struct Path {
            inner: [u8],
        }
        pub struct PathBuf;
    }
    pub mod process {
        pub struct ExitCode;
        pub struct Command;
        pub trait Termination {
            fn report(self) -> ExitCode;
        }
        pub fn exit(code: i32) -> ! {}
        pub fn abort() -> ! {}
    }
    pub mod env {
        pub struct Args;
        pub enum VarError {
            NotPresent,
            NotUnicode(super::ffi::os_str::OsString),
        }
        pub fn var<K: crate::core::convert::AsRef<super::ffi::os_str::OsStr>>(
            key: K,
        ) -> crate::core::result::Result<crate::alloc::string::String, VarError> {
        }
        pub fn args() -> Args {}
    }
    pub mod sync {
        pub mod poison {
            pub struct PoisonError<T> {
                data: T,
            }
            pub mod mutex {
                use crate::core::marker::Sized;
                pub struct Mutex<T: ?Sized> {
                    data: T,
                }
                pub struct MutexGuard<'a, T: ?Sized + 'a> {
                    lock: &'a Mutex<T>,
                }
            }
            pub mod rwlock {
                use crate::core::marker::Sized;
                pub struct RwLock<T: ?Sized> {
                    data: T,
                }
            }
        }
        pub mod mpsc {
            pub struct Sender<T> {
                inner: T,
            }
            pub struct Receiver<T> {
                inner: T,
            }
            pub fn channel<T>() -> (Sender<T>, Receiver<T>) {}
        }
        pub mod once_lock {
            pub struct OnceLock<T> {
                value: T,
            }
        }
    }
    pub mod thread {
        pub mod functions {
            pub fn spawn<F: crate::core::ops::function::FnOnce() -> T + crate::core::marker::Send + 'static, T: 'static>(
                f: F,
            ) -> super::join_handle::JoinHandle<T> {
            }
            pub fn sleep(dur: crate::core::time::Duration) {}
        }
        pub mod join_handle {
            pub struct JoinHandle<T>(T);
        }
    }
    pub mod time {
        pub struct Instant;
        pub struct SystemTime;
    }
}
