//! Stand-in for `embassy_futures`: `select` and `select3`, which poll in the order of their arguments, as the original does.

/// Waiting for the first of several futures.
pub mod select {
    use core::future::{Future, poll_fn};
    use core::pin::pin;
    use core::task::Poll;

    /// Which of two futures came first.
    #[derive(Debug, Clone)]
    pub enum Either<A, B> {
        /// The first.
        First(A),
        /// The second.
        Second(B),
    }

    /// Which of three futures came first.
    #[derive(Debug, Clone)]
    pub enum Either3<A, B, C> {
        /// The first.
        First(A),
        /// The second.
        Second(B),
        /// The third.
        Third(C),
    }

    /// Wait for one of two futures.
    pub async fn select<A: Future, B: Future>(a: A, b: B) -> Either<A::Output, B::Output> {
        let mut a = pin!(a);
        let mut b = pin!(b);
        poll_fn(|cx| {
            if let Poll::Ready(x) = a.as_mut().poll(cx) {
                return Poll::Ready(Either::First(x));
            }
            b.as_mut().poll(cx).map(Either::Second)
        })
        .await
    }

    /// Wait for one of three futures.
    pub async fn select3<A: Future, B: Future, C: Future>(a: A, b: B, c: C) -> Either3<A::Output, B::Output, C::Output> {
        let mut a = pin!(a);
        let mut b = pin!(b);
        let mut c = pin!(c);
        poll_fn(|cx| {
            if let Poll::Ready(x) = a.as_mut().poll(cx) {
                return Poll::Ready(Either3::First(x));
            }
            if let Poll::Ready(x) = b.as_mut().poll(cx) {
                return Poll::Ready(Either3::Second(x));
            }
            c.as_mut().poll(cx).map(Either3::Third)
        })
        .await
    }
}
