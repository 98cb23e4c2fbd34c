//! Requests: an operation, its inputs, and the lengths of the lent buffers.

use oracle::number as n;
use oracle::operations::{self, Outcome};
use oracle::read;

/// The calls that are compared.
#[derive(Clone, Copy, Debug, PartialEq, Eq)]
pub(crate) enum Operation {
    IsNested,
    IndexOf,
    FlattenedFields,
    Equal,
    EqualsDatatype,
    Contains,
    TryNew,
    TryFromFields,
    Merge,
    Project,
    ProjectStrict,
    Filter,
    Normalize,
    MergeParkedFirst,
}

/// What an operation takes beside its buffers.
#[derive(Clone, Copy, Debug, PartialEq, Eq)]
pub(crate) enum Takes {
    Sheet,
    SheetAndName,
    TwoSheets,
    IdsAndCount,
    Count,
    TrainAndMode,
    SheetAndList,
    SheetAndMask,
    SheetSeparatorAndLevel,
}

/// Modes that are all parked log first, the usual one in front: every one but 0 is.
pub(crate) const PARKED_FIRST: [u16; 4] = [1, 2, 128, 255];

/// The numbers of reading one sheet, or two, and of the work buffer.
const OF_A_SHEET: [u8; 10] = [
    n::CUT_SHORT,
    n::UNKNOWN,
    n::NOT_UTF8,
    n::KEY_ORDER,
    n::TOO_DEEP,
    n::ID_ABOVE_127,
    n::ID_REPEATED,
    n::BYTES_LEFT,
    n::SHEET_TOO_LONG,
    n::WORK_BUFFER,
];

impl Operation {
    /// Every operation, in the order that they are run, printed and stored in.
    pub(crate) const ALL: [Self; 14] = [
        Self::IsNested,
        Self::IndexOf,
        Self::FlattenedFields,
        Self::Equal,
        Self::EqualsDatatype,
        Self::Contains,
        Self::TryNew,
        Self::TryFromFields,
        Self::Merge,
        Self::Project,
        Self::ProjectStrict,
        Self::Filter,
        Self::Normalize,
        Self::MergeParkedFirst,
    ];

    /// The name, that of the export without its prefix; a merge that is parked log first has
    /// a name of its own.
    pub(crate) const fn name(self) -> &'static str {
        match self {
            Self::IsNested => "is_nested",
            Self::IndexOf => "index_of",
            Self::FlattenedFields => "flattened_fields",
            Self::Equal => "equal",
            Self::EqualsDatatype => "equals_datatype",
            Self::Contains => "contains",
            Self::TryNew => "try_new",
            Self::TryFromFields => "try_from_fields",
            Self::Merge => "merge",
            Self::Project => "project",
            Self::ProjectStrict => "project_strict",
            Self::Filter => "filter",
            Self::Normalize => "normalize",
            Self::MergeParkedFirst => "merge_parked_first",
        }
    }

    pub(crate) const fn takes(self) -> Takes {
        match self {
            Self::IsNested | Self::FlattenedFields => Takes::Sheet,
            Self::IndexOf => Takes::SheetAndName,
            Self::Equal | Self::EqualsDatatype | Self::Contains => Takes::TwoSheets,
            Self::TryNew => Takes::IdsAndCount,
            Self::TryFromFields => Takes::Count,
            Self::Merge | Self::MergeParkedFirst => Takes::TrainAndMode,
            Self::Project | Self::ProjectStrict => Takes::SheetAndList,
            Self::Filter => Takes::SheetAndMask,
            Self::Normalize => Takes::SheetSeparatorAndLevel,
        }
    }

    /// The numbers that it can give, 0 and 31 among them always.
    ///
    /// 30 is no number of an operation whose answer cannot be longer than its sheet: a strict
    /// projection or a filter of it, or two bytes for each of its fields. 35 is no call's: the
    /// program merge alone gives it, and tests/program.sh tries that.
    pub(crate) fn numbers(self) -> Vec<u8> {
        let own: &[u8] = match self {
            Self::IsNested
            | Self::FlattenedFields
            | Self::Equal
            | Self::EqualsDatatype
            | Self::Contains => &[],
            Self::IndexOf => &[n::NO_SUCH_COLUMN],
            Self::TryNew => &[
                n::ID_ABOVE_127,
                n::ID_REPEATED,
                n::MORE_FIELDS_THAN_IDS,
                n::MORE_IDS_THAN_FIELDS,
            ],
            Self::TryFromFields => &[n::TOO_MANY_FIELDS],
            Self::Merge | Self::MergeParkedFirst => &[
                n::TRAIN_TOO_LONG,
                n::CLASH_ORDERED,
                n::CLASH_FIELD_METADATA,
                n::CLASH_TYPE,
                n::CLASH_UNION_ID,
                n::CLASH_UNION_CHILDREN,
                n::CLASH_SCHEMA_METADATA,
                n::ANSWER_TOO_LONG,
            ],
            Self::Project => &[n::ODD_LIST, n::INDEX_OUT_OF_BOUNDS, n::ANSWER_TOO_LONG],
            Self::ProjectStrict => &[n::ODD_LIST, n::INDEX_OUT_OF_BOUNDS, n::INDEX_REPEATED],
            Self::Filter => &[n::MASK_LENGTH],
            Self::Normalize => &[n::SEPARATOR_NOT_UTF8, n::ANSWER_TOO_LONG],
        };
        let reading = OF_A_SHEET
            .into_iter()
            .filter(|&number| self.takes().sheets() && !self.never_reads_to(number));
        let mut numbers = vec![n::ACCEPTED, n::ANSWER_BUFFER];
        numbers.extend(own);
        numbers.extend(reading);
        numbers.sort_unstable();
        numbers
    }

    /// Bytes left after a sheet are a train's next sheet.
    fn never_reads_to(self, number: u8) -> bool {
        self.merges() && number == n::BYTES_LEFT
    }

    /// Whether it is the merge, in either mode.
    pub(crate) fn merges(self) -> bool {
        self.takes() == Takes::TrainAndMode
    }

    /// The number of a request where nothing else is said: the mode of a merge, else 0.
    pub(crate) const fn usual_number(self) -> u16 {
        match self {
            Self::MergeParkedFirst => PARKED_FIRST[0],
            _ => 0,
        }
    }
}

impl Takes {
    /// Whether sheets, and so a work buffer, are taken.
    pub(crate) const fn sheets(self) -> bool {
        !matches!(self, Self::IdsAndCount | Self::Count)
    }

    /// What the first slice, the second slice and the number are called.
    pub(crate) const fn names(self) -> [Option<&'static str>; 3] {
        match self {
            Self::Sheet => [Some("sheet"), None, None],
            Self::SheetAndName => [Some("sheet"), Some("name"), None],
            Self::TwoSheets => [Some("sheet"), Some("other"), None],
            Self::IdsAndCount => [Some("ids"), None, Some("count")],
            Self::Count => [None, None, Some("count")],
            Self::TrainAndMode => [Some("train"), None, Some("mode")],
            Self::SheetAndList => [Some("sheet"), Some("list"), None],
            Self::SheetAndMask => [Some("sheet"), Some("mask"), None],
            Self::SheetSeparatorAndLevel => [Some("sheet"), Some("separator"), Some("level")],
        }
    }
}

/// One request. Slices and numbers that the operation does not take are empty or 0.
#[derive(Clone, Debug)]
pub(crate) struct Request {
    pub(crate) operation: Operation,
    /// The sheet, the train or the ids.
    pub(crate) first: Vec<u8>,
    /// The other sheet, the name, list, mask or separator.
    pub(crate) second: Vec<u8>,
    /// The count, level or mode.
    pub(crate) number: u16,
    /// The work buffer's length.
    pub(crate) work: usize,
    /// The answer buffer's length.
    pub(crate) answer: usize,
}

impl Request {
    /// A request of one slice, with no buffers yet.
    pub(crate) fn new(operation: Operation, first: Vec<u8>) -> Self {
        Self {
            operation,
            first,
            second: Vec::new(),
            number: operation.usual_number(),
            work: 0,
            answer: 0,
        }
    }

    /// The bytes of the sheets given: those that count for 32.
    pub(crate) fn sheet_bytes(&self) -> usize {
        match self.operation.takes() {
            Takes::TwoSheets => self.first.len() + self.second.len(),
            Takes::IdsAndCount | Takes::Count => 0,
            _ => self.first.len(),
        }
    }

    /// How many dictionary numbers its sheets have; none where one of them does not read.
    pub(crate) fn dict_ids(&self) -> usize {
        let sheets = match self.operation.takes() {
            Takes::IdsAndCount | Takes::Count => return 0,
            Takes::TrainAndMode => read::train(&self.first),
            Takes::TwoSheets => {
                read::two(&self.first, &self.second).map(|(one, other)| vec![one, other])
            }
            _ => read::sheet(&self.first).map(|sheet| vec![sheet]),
        };
        let sheets = sheets.into_iter().flatten();
        sheets.map(|sheet| sheet.dict_ids).sum()
    }

    /// The mode of a merge.
    pub(crate) fn mode(&self) -> u8 {
        u8::try_from(self.number).expect("a mode is a byte")
    }

    /// What the operation gives, by the oracle.
    pub(crate) fn outcome(&self) -> Outcome {
        let (first, second, number) = (&self.first, &self.second, self.number);
        match self.operation {
            Operation::IsNested => operations::is_nested(first),
            Operation::IndexOf => operations::index_of(first, second),
            Operation::FlattenedFields => operations::flattened_fields(first),
            Operation::Equal => operations::equal(first, second),
            Operation::EqualsDatatype => operations::equals_datatype(first, second),
            Operation::Contains => operations::contains(first, second),
            Operation::TryNew => operations::try_new(first, number),
            Operation::TryFromFields => operations::try_from_fields(number),
            Operation::Merge | Operation::MergeParkedFirst => {
                operations::merge(first, self.mode().into())
            }
            Operation::Project => operations::project(first, second),
            Operation::ProjectStrict => operations::project_strict(first, second),
            Operation::Filter => operations::filter(first, second),
            Operation::Normalize => operations::normalize(first, second, number),
        }
    }
}
