//! The archive's functions, each as a call on lent words with lent out-values.

use lunkaseyo::ffi;

/// What a call does to the words that it is lent.
#[derive(Clone, Copy, Debug, PartialEq, Eq)]
pub enum Use {
    /// It only reads them, as it is declared to.
    Reads,
    /// It writes no word where it is refused.
    WritesIfAccepted,
    /// Where it is refused it may store what they hold.
    Writes,
}

/// The function that was called, and the number that it answered.
pub type Called = (&'static str, u64);

type Make = Box<dyn Fn(&mut [u64], &mut [u64], &mut [u64]) -> Called>;

/// What a function of the archive answers: a number, or nothing, which counts as 0.
pub trait Answer {
    fn number(self) -> u64;
}

impl Answer for u64 {
    fn number(self) -> u64 {
        self
    }
}

impl Answer for () {
    fn number(self) -> u64 {
        0
    }
}

/// Calls a function of `ffi`, and gives its name with the number.
macro_rules! called {
    ($function:ident($($argument:expr),*)) => {
        (
            stringify!($function),
            $crate::guard::calls::Answer::number(lunkaseyo::ffi::$function($($argument),*)),
        )
    };
}
pub(crate) use called;

/// A call on a table, on a record or on nothing lent, and its two out-values.
pub struct Call {
    /// The function, and what it is asked.
    pub name: String,
    /// How many words each out-value has: 0 where there is none.
    pub outs: [usize; 2],
    /// What it does to the words.
    pub of_words: Use,
    /// Makes it, and says what was called and answered.
    pub make: Make,
}

impl Call {
    fn new(
        name: String,
        outs: [usize; 2],
        make: impl Fn(&mut [u64], &mut [u64], &mut [u64]) -> Called + 'static,
    ) -> Self {
        Self {
            name,
            outs,
            of_words: Use::WritesIfAccepted,
            make: Box::new(make),
        }
    }

    fn with(self, of_words: Use) -> Self {
        Self { of_words, ..self }
    }
}

/// An out-value of one word.
fn one(out: &mut [u64]) -> &mut u64 {
    &mut out[0]
}

/// A record, or an out-value of several words.
fn all<const N: usize>(words: &mut [u64]) -> &mut [u64; N] {
    words.try_into().expect("as many as the function asks for")
}

/// Size, alignment, kind, granularity and label: some that fit, and each fault.
const REQUESTS: [ffi::Request; 9] = [
    [1, 1, 1, 1, 7],
    [100, 64, 2, 1024, 8],
    [4096, 1, 1, 1, 0],
    [16, 1 << 63, 2, 1 << 63, u64::MAX],
    [0, 1, 1, 1, 0],
    [1, 3, 1, 1, 0],
    [1, 1, 1, 0, 0],
    [1, 1, 257, 1, 0],
    [u64::MAX, 1, 1, 1, 0],
];

const SIZES: [u64; 4] = [0, 1, 4096, u64::MAX];

/// Calls on a table. These ids are given back and renamed.
pub fn on_a_table(ids: &[u64]) -> Vec<Call> {
    let mut calls = questions_on_a_table();
    calls.extend(SIZES.map(|size| {
        let name = format!("block_new {size}");
        Call::new(name, [0, 0], move |words, _, _| {
            called!(block_new(words, size))
        })
    }));
    calls.extend(REQUESTS.map(|request| {
        let name = format!("block_allocate {request:?}");
        Call::new(name, [1, 1], move |words, offset, id| {
            called!(block_allocate(words, request, one(offset), one(id)))
        })
    }));
    for &id in [0, u64::MAX].iter().chain(ids) {
        calls.push(Call::new(
            format!("block_free {id}"),
            [0, 0],
            move |words, _, _| called!(block_free(words, id)),
        ));
        let name = format!("block_rename_allocation {id}");
        calls.push(Call::new(name, [0, 0], move |words, _, _| {
            called!(block_rename_allocation(words, id, 9))
        }));
    }
    calls
}

fn questions_on_a_table() -> Vec<Call> {
    let mut calls = vec![
        Call::new("block_allocated".into(), [1, 0], |words, out, _| {
            called!(block_allocated(words, one(out)))
        }),
        Call::new("block_is_empty".into(), [1, 0], |words, out, _| {
            called!(block_is_empty(words, one(out)))
        }),
        Call::new("leaks_start".into(), [1, 0], |words, place, _| {
            called!(leaks_start(words, one(place)))
        }),
    ];
    calls.extend([0, 100, u64::MAX].map(|from| {
        Call::new(
            format!("leaks_step from {from}"),
            [1, 5],
            move |words, place, leak| {
                place[0] = from;
                called!(leaks_step(words, one(place), all(leak)))
            },
        )
    }));
    let questions = calls.into_iter();
    questions.map(|call| call.with(Use::Reads)).collect()
}

/// Calls on the record of a dedicated block.
pub fn on_a_record() -> Vec<Call> {
    let mut calls = questions_on_a_record();
    calls.extend(SIZES.map(|size| {
        let name = format!("dedicated_new {size}");
        Call::new(name, [0, 0], move |record, _, _| {
            called!(dedicated_new(all(record), size))
        })
    }));
    // these take the record out, and put it back in any case
    let changes = changes_of_a_record().into_iter();
    calls.extend(changes.map(|call| call.with(Use::Writes)));
    calls
}

fn changes_of_a_record() -> Vec<Call> {
    let mut calls: Vec<Call> = REQUESTS
        .map(|request| {
            let name = format!("dedicated_allocate {request:?}");
            Call::new(name, [1, 1], move |record, offset, id| {
                called!(dedicated_allocate(
                    all(record),
                    request,
                    one(offset),
                    one(id)
                ))
            })
        })
        .into();
    for id in [0, 1, 2] {
        let name = format!("dedicated_free {id}");
        calls.push(Call::new(name, [0, 0], move |record, _, _| {
            called!(dedicated_free(all(record), id))
        }));
        let name = format!("dedicated_rename_allocation {id}");
        calls.push(Call::new(name, [0, 0], move |record, _, _| {
            called!(dedicated_rename_allocation(all(record), id, 9))
        }));
    }
    calls
}

fn questions_on_a_record() -> Vec<Call> {
    let calls = [
        Call::new("dedicated_allocated".into(), [1, 0], |record, out, _| {
            called!(dedicated_allocated(all(record), one(out)))
        }),
        Call::new("dedicated_is_empty".into(), [1, 0], |record, out, _| {
            called!(dedicated_is_empty(all(record), one(out)))
        }),
        Call::new(
            "dedicated_report_allocations".into(),
            [3, 0],
            |record, out, _| called!(dedicated_report_allocations(all(record), all(out))),
        ),
    ];
    calls.map(|call| call.with(Use::Reads)).into()
}

/// Calls with block sizes, which are lent nothing but room for the answer.
pub fn with_sizes(sizes: ffi::Words) -> Vec<Call> {
    vec![
        Call::new(format!("sizes_new {sizes:?}"), [4, 0], move |_, out, _| {
            called!(sizes_new(sizes[0], sizes[2], all(out)))
        }),
        Call::new("sizes_default".into(), [4, 0], |_, out, _| {
            called!(sizes_default(all(out)))
        }),
        Call::new(
            format!("with_max_device {sizes:?}"),
            [4, 0],
            move |_, out, _| {
                called!(sizes_with_max_device_memblock_size(
                    sizes,
                    32 << 20,
                    all(out)
                ))
            },
        ),
        Call::new(
            format!("with_max_host {sizes:?}"),
            [4, 0],
            move |_, out, _| called!(sizes_with_max_host_memblock_size(sizes, 32 << 20, all(out))),
        ),
        Call::new(
            format!("get_memblock_size {sizes:?}"),
            [1, 0],
            move |_, out, _| called!(sizes_get_memblock_size(sizes, 0, 2, one(out))),
        ),
    ]
}
