// Made by `make package` of the tables in rust/script/references.rs: changes go there.

use super::{Fixed, Word};

impl<T: Word, const F: u32, R> core::ops::Add<R> for &Fixed<T, F>
where
    Fixed<T, F>: core::ops::Add<R, Output = Fixed<T, F>>,
{
    type Output = Fixed<T, F>;

    #[track_caller]
    fn add(self, rhs: R) -> Fixed<T, F> {
        core::ops::Add::add(*self, rhs)
    }
}

impl<T: Word, const F: u32> core::ops::Add<&Fixed<T, F>> for Fixed<T, F>
where
    Fixed<T, F>: core::ops::Add<Fixed<T, F>, Output = Fixed<T, F>>,
{
    type Output = Fixed<T, F>;

    #[track_caller]
    fn add(self, rhs: &Fixed<T, F>) -> Fixed<T, F> {
        core::ops::Add::add(self, *rhs)
    }
}

impl<T: Word, const F: u32> core::ops::AddAssign<&Fixed<T, F>> for Fixed<T, F>
where
    Fixed<T, F>: core::ops::AddAssign<Fixed<T, F>>,
{
    #[track_caller]
    fn add_assign(&mut self, rhs: &Fixed<T, F>) {
        core::ops::AddAssign::add_assign(self, *rhs);
    }
}

impl<T: Word, const F: u32, R> core::ops::Sub<R> for &Fixed<T, F>
where
    Fixed<T, F>: core::ops::Sub<R, Output = Fixed<T, F>>,
{
    type Output = Fixed<T, F>;

    #[track_caller]
    fn sub(self, rhs: R) -> Fixed<T, F> {
        core::ops::Sub::sub(*self, rhs)
    }
}

impl<T: Word, const F: u32> core::ops::Sub<&Fixed<T, F>> for Fixed<T, F>
where
    Fixed<T, F>: core::ops::Sub<Fixed<T, F>, Output = Fixed<T, F>>,
{
    type Output = Fixed<T, F>;

    #[track_caller]
    fn sub(self, rhs: &Fixed<T, F>) -> Fixed<T, F> {
        core::ops::Sub::sub(self, *rhs)
    }
}

impl<T: Word, const F: u32> core::ops::SubAssign<&Fixed<T, F>> for Fixed<T, F>
where
    Fixed<T, F>: core::ops::SubAssign<Fixed<T, F>>,
{
    #[track_caller]
    fn sub_assign(&mut self, rhs: &Fixed<T, F>) {
        core::ops::SubAssign::sub_assign(self, *rhs);
    }
}

impl<T: Word, const F: u32, R> core::ops::Mul<R> for &Fixed<T, F>
where
    Fixed<T, F>: core::ops::Mul<R, Output = Fixed<T, F>>,
{
    type Output = Fixed<T, F>;

    #[track_caller]
    fn mul(self, rhs: R) -> Fixed<T, F> {
        core::ops::Mul::mul(*self, rhs)
    }
}

impl<T: Word, const F: u32> core::ops::Mul<&Fixed<T, F>> for Fixed<T, F>
where
    Fixed<T, F>: core::ops::Mul<Fixed<T, F>, Output = Fixed<T, F>>,
{
    type Output = Fixed<T, F>;

    #[track_caller]
    fn mul(self, rhs: &Fixed<T, F>) -> Fixed<T, F> {
        core::ops::Mul::mul(self, *rhs)
    }
}

impl<T: Word, const F: u32> core::ops::MulAssign<&Fixed<T, F>> for Fixed<T, F>
where
    Fixed<T, F>: core::ops::MulAssign<Fixed<T, F>>,
{
    #[track_caller]
    fn mul_assign(&mut self, rhs: &Fixed<T, F>) {
        core::ops::MulAssign::mul_assign(self, *rhs);
    }
}

impl<T: Word, const F: u32> core::ops::Mul<&T> for Fixed<T, F>
where
    Fixed<T, F>: core::ops::Mul<T, Output = Fixed<T, F>>,
{
    type Output = Fixed<T, F>;

    #[track_caller]
    fn mul(self, rhs: &T) -> Fixed<T, F> {
        core::ops::Mul::mul(self, *rhs)
    }
}

impl<T: Word, const F: u32> core::ops::MulAssign<&T> for Fixed<T, F>
where
    Fixed<T, F>: core::ops::MulAssign<T>,
{
    #[track_caller]
    fn mul_assign(&mut self, rhs: &T) {
        core::ops::MulAssign::mul_assign(self, *rhs);
    }
}

impl<T: Word, const F: u32, R> core::ops::Div<R> for &Fixed<T, F>
where
    Fixed<T, F>: core::ops::Div<R, Output = Fixed<T, F>>,
{
    type Output = Fixed<T, F>;

    #[track_caller]
    fn div(self, rhs: R) -> Fixed<T, F> {
        core::ops::Div::div(*self, rhs)
    }
}

impl<T: Word, const F: u32> core::ops::Div<&Fixed<T, F>> for Fixed<T, F>
where
    Fixed<T, F>: core::ops::Div<Fixed<T, F>, Output = Fixed<T, F>>,
{
    type Output = Fixed<T, F>;

    #[track_caller]
    fn div(self, rhs: &Fixed<T, F>) -> Fixed<T, F> {
        core::ops::Div::div(self, *rhs)
    }
}

impl<T: Word, const F: u32> core::ops::DivAssign<&Fixed<T, F>> for Fixed<T, F>
where
    Fixed<T, F>: core::ops::DivAssign<Fixed<T, F>>,
{
    #[track_caller]
    fn div_assign(&mut self, rhs: &Fixed<T, F>) {
        core::ops::DivAssign::div_assign(self, *rhs);
    }
}

impl<T: Word, const F: u32> core::ops::Div<&T> for Fixed<T, F>
where
    Fixed<T, F>: core::ops::Div<T, Output = Fixed<T, F>>,
{
    type Output = Fixed<T, F>;

    #[track_caller]
    fn div(self, rhs: &T) -> Fixed<T, F> {
        core::ops::Div::div(self, *rhs)
    }
}

impl<T: Word, const F: u32> core::ops::DivAssign<&T> for Fixed<T, F>
where
    Fixed<T, F>: core::ops::DivAssign<T>,
{
    #[track_caller]
    fn div_assign(&mut self, rhs: &T) {
        core::ops::DivAssign::div_assign(self, *rhs);
    }
}

impl<T: Word, const F: u32, R> core::ops::Rem<R> for &Fixed<T, F>
where
    Fixed<T, F>: core::ops::Rem<R, Output = Fixed<T, F>>,
{
    type Output = Fixed<T, F>;

    #[track_caller]
    fn rem(self, rhs: R) -> Fixed<T, F> {
        core::ops::Rem::rem(*self, rhs)
    }
}

impl<T: Word, const F: u32> core::ops::Rem<&Fixed<T, F>> for Fixed<T, F>
where
    Fixed<T, F>: core::ops::Rem<Fixed<T, F>, Output = Fixed<T, F>>,
{
    type Output = Fixed<T, F>;

    #[track_caller]
    fn rem(self, rhs: &Fixed<T, F>) -> Fixed<T, F> {
        core::ops::Rem::rem(self, *rhs)
    }
}

impl<T: Word, const F: u32> core::ops::RemAssign<&Fixed<T, F>> for Fixed<T, F>
where
    Fixed<T, F>: core::ops::RemAssign<Fixed<T, F>>,
{
    #[track_caller]
    fn rem_assign(&mut self, rhs: &Fixed<T, F>) {
        core::ops::RemAssign::rem_assign(self, *rhs);
    }
}

impl<T: Word, const F: u32> core::ops::Rem<&T> for Fixed<T, F>
where
    Fixed<T, F>: core::ops::Rem<T, Output = Fixed<T, F>>,
{
    type Output = Fixed<T, F>;

    #[track_caller]
    fn rem(self, rhs: &T) -> Fixed<T, F> {
        core::ops::Rem::rem(self, *rhs)
    }
}

impl<T: Word, const F: u32> core::ops::RemAssign<&T> for Fixed<T, F>
where
    Fixed<T, F>: core::ops::RemAssign<T>,
{
    #[track_caller]
    fn rem_assign(&mut self, rhs: &T) {
        core::ops::RemAssign::rem_assign(self, *rhs);
    }
}

impl<T: Word, const F: u32, R> core::ops::BitAnd<R> for &Fixed<T, F>
where
    Fixed<T, F>: core::ops::BitAnd<R, Output = Fixed<T, F>>,
{
    type Output = Fixed<T, F>;

    #[track_caller]
    fn bitand(self, rhs: R) -> Fixed<T, F> {
        core::ops::BitAnd::bitand(*self, rhs)
    }
}

impl<T: Word, const F: u32> core::ops::BitAnd<&Fixed<T, F>> for Fixed<T, F>
where
    Fixed<T, F>: core::ops::BitAnd<Fixed<T, F>, Output = Fixed<T, F>>,
{
    type Output = Fixed<T, F>;

    #[track_caller]
    fn bitand(self, rhs: &Fixed<T, F>) -> Fixed<T, F> {
        core::ops::BitAnd::bitand(self, *rhs)
    }
}

impl<T: Word, const F: u32> core::ops::BitAndAssign<&Fixed<T, F>> for Fixed<T, F>
where
    Fixed<T, F>: core::ops::BitAndAssign<Fixed<T, F>>,
{
    #[track_caller]
    fn bitand_assign(&mut self, rhs: &Fixed<T, F>) {
        core::ops::BitAndAssign::bitand_assign(self, *rhs);
    }
}

impl<T: Word, const F: u32, R> core::ops::BitOr<R> for &Fixed<T, F>
where
    Fixed<T, F>: core::ops::BitOr<R, Output = Fixed<T, F>>,
{
    type Output = Fixed<T, F>;

    #[track_caller]
    fn bitor(self, rhs: R) -> Fixed<T, F> {
        core::ops::BitOr::bitor(*self, rhs)
    }
}

impl<T: Word, const F: u32> core::ops::BitOr<&Fixed<T, F>> for Fixed<T, F>
where
    Fixed<T, F>: core::ops::BitOr<Fixed<T, F>, Output = Fixed<T, F>>,
{
    type Output = Fixed<T, F>;

    #[track_caller]
    fn bitor(self, rhs: &Fixed<T, F>) -> Fixed<T, F> {
        core::ops::BitOr::bitor(self, *rhs)
    }
}

impl<T: Word, const F: u32> core::ops::BitOrAssign<&Fixed<T, F>> for Fixed<T, F>
where
    Fixed<T, F>: core::ops::BitOrAssign<Fixed<T, F>>,
{
    #[track_caller]
    fn bitor_assign(&mut self, rhs: &Fixed<T, F>) {
        core::ops::BitOrAssign::bitor_assign(self, *rhs);
    }
}

impl<T: Word, const F: u32, R> core::ops::BitXor<R> for &Fixed<T, F>
where
    Fixed<T, F>: core::ops::BitXor<R, Output = Fixed<T, F>>,
{
    type Output = Fixed<T, F>;

    #[track_caller]
    fn bitxor(self, rhs: R) -> Fixed<T, F> {
        core::ops::BitXor::bitxor(*self, rhs)
    }
}

impl<T: Word, const F: u32> core::ops::BitXor<&Fixed<T, F>> for Fixed<T, F>
where
    Fixed<T, F>: core::ops::BitXor<Fixed<T, F>, Output = Fixed<T, F>>,
{
    type Output = Fixed<T, F>;

    #[track_caller]
    fn bitxor(self, rhs: &Fixed<T, F>) -> Fixed<T, F> {
        core::ops::BitXor::bitxor(self, *rhs)
    }
}

impl<T: Word, const F: u32> core::ops::BitXorAssign<&Fixed<T, F>> for Fixed<T, F>
where
    Fixed<T, F>: core::ops::BitXorAssign<Fixed<T, F>>,
{
    #[track_caller]
    fn bitxor_assign(&mut self, rhs: &Fixed<T, F>) {
        core::ops::BitXorAssign::bitxor_assign(self, *rhs);
    }
}

impl<T: Word, const F: u32, R> core::ops::Shl<R> for &Fixed<T, F>
where
    Fixed<T, F>: core::ops::Shl<R, Output = Fixed<T, F>>,
{
    type Output = Fixed<T, F>;

    #[track_caller]
    fn shl(self, rhs: R) -> Fixed<T, F> {
        core::ops::Shl::shl(*self, rhs)
    }
}

impl<T: Word, const F: u32> core::ops::Shl<&u32> for Fixed<T, F>
where
    Fixed<T, F>: core::ops::Shl<u32, Output = Fixed<T, F>>,
{
    type Output = Fixed<T, F>;

    #[track_caller]
    fn shl(self, rhs: &u32) -> Fixed<T, F> {
        core::ops::Shl::shl(self, *rhs)
    }
}

impl<T: Word, const F: u32> core::ops::ShlAssign<&u32> for Fixed<T, F>
where
    Fixed<T, F>: core::ops::ShlAssign<u32>,
{
    #[track_caller]
    fn shl_assign(&mut self, rhs: &u32) {
        core::ops::ShlAssign::shl_assign(self, *rhs);
    }
}

impl<T: Word, const F: u32, R> core::ops::Shr<R> for &Fixed<T, F>
where
    Fixed<T, F>: core::ops::Shr<R, Output = Fixed<T, F>>,
{
    type Output = Fixed<T, F>;

    #[track_caller]
    fn shr(self, rhs: R) -> Fixed<T, F> {
        core::ops::Shr::shr(*self, rhs)
    }
}

impl<T: Word, const F: u32> core::ops::Shr<&u32> for Fixed<T, F>
where
    Fixed<T, F>: core::ops::Shr<u32, Output = Fixed<T, F>>,
{
    type Output = Fixed<T, F>;

    #[track_caller]
    fn shr(self, rhs: &u32) -> Fixed<T, F> {
        core::ops::Shr::shr(self, *rhs)
    }
}

impl<T: Word, const F: u32> core::ops::ShrAssign<&u32> for Fixed<T, F>
where
    Fixed<T, F>: core::ops::ShrAssign<u32>,
{
    #[track_caller]
    fn shr_assign(&mut self, rhs: &u32) {
        core::ops::ShrAssign::shr_assign(self, *rhs);
    }
}

impl<T: Word, const F: u32> core::ops::Neg for &Fixed<T, F>
where
    Fixed<T, F>: core::ops::Neg<Output = Fixed<T, F>>,
{
    type Output = Fixed<T, F>;

    #[track_caller]
    fn neg(self) -> Fixed<T, F> {
        core::ops::Neg::neg(*self)
    }
}

impl<T: Word, const F: u32> core::ops::Not for &Fixed<T, F>
where
    Fixed<T, F>: core::ops::Not<Output = Fixed<T, F>>,
{
    type Output = Fixed<T, F>;

    #[track_caller]
    fn not(self) -> Fixed<T, F> {
        core::ops::Not::not(*self)
    }
}
