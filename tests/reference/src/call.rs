//! A running call: the code of a figure as a future that is polled once a turn.

use crate::figures::{clht_get, clht_put, clht_remove};
use crate::frame::Frame;
use crate::memory::Bucket;
use crate::record::{Record, INSERT, LOOK, REMOVE};
use crate::report::Report;
use std::future::Future;
use std::pin::Pin;
use std::rc::Rc;
use std::task::{Context, Poll, Waker};

pub struct Call {
    frame: Rc<Frame>,
    code: Pin<Box<dyn Future<Output = u64>>>,
}

impl Call {
    /// A call from its start: the code runs up to its first memory action and stands there.
    pub fn start(kind: u8, key: u64, ticket: u64, bucket: Bucket) -> Call {
        let record = Record {
            kind,
            key,
            ticket,
            ..Record::idle()
        };
        Call::paused(Frame::of(&record, bucket, false), kind)
    }

    /// A call made from a sound record that isn't idle: the code is led to the record's place and stands there.
    pub fn resume(record: &Record, bucket: Bucket) -> Call {
        let call = Call::paused(Frame::of(record, bucket, true), record.kind);
        assert_eq!(call.record(), record.awake());
        call
    }

    fn paused(frame: Frame, kind: u8) -> Call {
        let frame = Rc::new(frame);
        let code = code(frame.clone(), kind);
        let mut call = Call { frame, code };
        assert!(call.poll().is_pending());
        assert_eq!(call.frame.take_done(), (0, Report::none()));
        call
    }

    fn poll(&mut self) -> Poll<u64> {
        self.code
            .as_mut()
            .poll(&mut Context::from_waker(Waker::noop()))
    }

    /// The record of the call as it stands after its start or a turn of its own, so with no turn of others since (§20.1).
    pub fn record(&self) -> Record {
        self.frame.record()
    }

    /// One turn, which is one memory action (§4.1), and its report.
    pub fn turn(&mut self) -> Report {
        let before = self.frame.bucket.snapshot();
        let ended = match self.poll() {
            Poll::Ready(answer) => Some(answer),
            Poll::Pending => None,
        };
        let (actions, report) = self.frame.take_done();
        assert_eq!(actions, 1);
        Report {
            ended,
            bucket: self.frame.bucket.number as u64,
            before,
            after: self.frame.bucket.snapshot(),
            ..report
        }
    }
}

fn code(frame: Rc<Frame>, kind: u8) -> Pin<Box<dyn Future<Output = u64>>> {
    match kind {
        LOOK => Box::pin(async move { clht_get(&frame).await }),
        INSERT => Box::pin(async move { u64::from(clht_put(&frame).await) }),
        REMOVE => Box::pin(async move { clht_remove(&frame).await }),
        _ => panic!("no such call: {kind}"),
    }
}
