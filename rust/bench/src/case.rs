//! A case: one request, and the three ways that it is timed.

use crate::timing::{Timed, again, medians, on_new};
use arrow_schema::Schema;
use oracle::operations::{self, Outcome};
use oracle::read;
use sheets::Mode;
use sheets::lent::Exit;
use std::rc::Rc;

/// No answer is longer.
const ANSWER_BYTES: usize = 65_535;

/// The call of the port, given its work buffer and its answer buffer.
type Port = Box<dyn Fn(&mut [u8], &mut [u8]) -> Exit>;

/// A call of the port on two sheets.
type OfTwo = fn(&[u8], &[u8], &mut [u8], &mut [u8]) -> Exit;

/// One request.
pub(crate) struct Case {
    /// What is done.
    pub(crate) title: String,
    /// The bytes of the sheets given.
    pub(crate) bytes: usize,
    /// The whole job by the port; none where the library has not the call.
    pub(crate) port: Option<Port>,
    /// The whole job by the Rust.
    pub(crate) whole: Box<dyn Fn() -> Outcome>,
    /// The Rust's operation alone; none where the case is the reading itself.
    pub(crate) alone: Option<Timed<'static>>,
    /// What the port must give, where that is not what the Rust's whole job beside it gives.
    pub(crate) expected: Option<Outcome>,
}

/// The median of a run, in seconds.
#[derive(Clone, Copy)]
pub(crate) struct Times {
    /// The port, bytes in, bytes out.
    pub(crate) port: Option<f64>,
    /// The Rust, bytes in, bytes out.
    pub(crate) whole: f64,
    /// The Rust's operation on schemas that were read before.
    pub(crate) alone: Option<f64>,
}

fn schema(sheet: &[u8]) -> Schema {
    read::sheet(sheet).expect("a sheet of ours reads").schema
}

impl Case {
    /// A case of one sheet.
    pub(crate) fn of_sheet(
        title: &str,
        sheet: &Rc<[u8]>,
        port: impl Fn(&[u8], &mut [u8], &mut [u8]) -> Exit + 'static,
        whole: impl Fn(&[u8]) -> Outcome + 'static,
        alone: impl Fn(&Schema) + 'static,
    ) -> Self {
        let [one, other] = [(); 2].map(|()| Rc::clone(sheet));
        let read = schema(sheet);
        Self {
            title: title.to_owned(),
            bytes: sheet.len(),
            port: Some(Box::new(move |work, answer| port(&one, work, answer))),
            whole: Box::new(move || whole(&other)),
            alone: Some(again(move || alone(&read))),
            expected: None,
        }
    }

    /// A case of two sheets, read apart.
    pub(crate) fn of_two(
        title: &str,
        sheets: [&Rc<[u8]>; 2],
        port: OfTwo,
        whole: fn(&[u8], &[u8]) -> Outcome,
        alone: impl Fn(&Schema, &Schema) -> bool + 'static,
    ) -> Self {
        let [[one, other], [first, second]] = [(); 2].map(|()| sheets.map(Rc::clone));
        let schemas = sheets.map(|sheet| schema(sheet));
        Self {
            title: title.to_owned(),
            bytes: one.len() + other.len(),
            port: Some(Box::new(move |work, answer| {
                port(&one, &other, work, answer)
            })),
            whole: Box::new(move || whole(&first, &second)),
            alone: Some(again(move || alone(&schemas[0], &schemas[1]))),
            expected: None,
        }
    }

    /// A case of a train, in the Rust's mode. The Rust's merge takes its schemas, so each run
    /// has new ones.
    pub(crate) fn of_train(title: &str, train: Vec<u8>) -> Self {
        let train: Rc<[u8]> = train.into();
        let [one, other, third] = [(); 3].map(|()| Rc::clone(&train));
        let schemas = move || -> Vec<Schema> {
            let sheets = read::train(&third).expect("a train of ours reads");
            sheets.into_iter().map(|sheet| sheet.schema).collect()
        };
        Self {
            title: title.to_owned(),
            bytes: train.len(),
            port: merging(one, Mode::AsTheRust),
            whole: Box::new(move || operations::merge(&other, operations::Mode::AsTheRust)),
            alone: Some(on_new(schemas, Schema::try_merge)),
            expected: None,
        }
    }

    /// A case of a train that is merged parked log first, which the Rust cannot: beside it the
    /// Rust merges a train of its own, as long as the other, in its own mode.
    pub(crate) fn of_parked(title: &str, train: Vec<u8>, beside: Vec<u8>) -> Self {
        assert_eq!(train.len(), beside.len());
        let expected = operations::merge(&train, operations::Mode::ParkedFirst);
        Self {
            port: merging(train.into(), Mode::ParkedFirst),
            expected: Some(expected),
            ..Self::of_train(title, beside)
        }
    }

    /// The buffers as the port is lent them: exactly enough for work, enough for any answer.
    fn buffers(&self) -> [Vec<u8>; 2] {
        [vec![170; 4 * self.bytes], vec![170; ANSWER_BYTES]]
    }

    /// Whether both sides accept, and the port gives what it must.
    pub(crate) fn agrees(&self) -> bool {
        let beside = (self.whole)();
        let expected = self.expected.as_ref().unwrap_or(&beside);
        let (Ok(_), Ok(expected)) = (&beside, expected) else {
            return false;
        };
        let Some(port) = &self.port else {
            return true;
        };
        let [mut work, mut answer] = self.buffers();
        let exit = port(&mut work, &mut answer);
        exit.number == 0 && answer[..exit.length] == expected[..]
    }

    /// Times all sides.
    pub(crate) fn times(mut self) -> Times {
        let [mut work, mut answer] = self.buffers();
        let mut sides = vec![again(&self.whole)];
        sides.extend(self.alone.take());
        let timed_alone = sides.len() == 2;
        if let Some(port) = &self.port {
            sides.push(again(move || port(&mut work, &mut answer)));
        }
        let mut medians = medians(&mut sides).into_iter();
        Times {
            whole: medians.next().expect("it was timed"),
            alone: timed_alone.then(|| medians.next()).flatten(),
            port: medians.next(),
        }
    }
}

/// The port's merge of this train in this mode, if this build links it.
fn merging(train: Rc<[u8]>, mode: Mode) -> Option<Port> {
    #[cfg(feature = "linked")]
    return Some(Box::new(move |work, answer| {
        sheets::lent::merge(&train, work, answer, mode.into())
    }));
    #[cfg(not(feature = "linked"))]
    {
        drop((train, mode));
        None
    }
}
