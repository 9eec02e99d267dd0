//! Why an operation refuses its input.
use std::fmt;

macro_rules! refusals {
    ($($name:ident = $number:literal, $meaning:literal;)*) => {
        /// Why an operation refuses its input. Each operation gives the first that holds, in its own order, and has then changed
        /// nothing but the scratch, which is zero.
        #[derive(Clone, Copy, Debug, PartialEq, Eq, PartialOrd, Ord, Hash)]
        #[non_exhaustive]
        pub enum Refusal {
            $(#[doc = $meaning] $name = $number,)*
        }

        impl Refusal {
            /// Every refusal, by number.
            pub const ALL: &'static [Refusal] = &[$(Refusal::$name,)*];

            /// What it means, in words.
            pub fn meaning(self) -> &'static str {
                match self {
                    $(Refusal::$name => $meaning,)*
                }
            }
        }
    };
}

refusals! {
    GraphShort = 1, "the graph file is shorter than 5 bytes or than its own size";
    GraphLong = 2, "the graph file is longer than its own size, or a fill bit is set";
    GraphEdge = 3, "an edge of the graph has a vertex that is not below the number of vertices, or label 0";
    GraphOrder = 4, "the edges of the graph do not ascend strictly";
    StoreSmall = 5, "the store is too small for the graph";
    QueryShort = 6, "the query file is shorter than 2 bytes or than its own size";
    QueryLong = 7, "the query file is longer than its own size, or a fill bit is set";
    QueryLimits = 8, "the query has not 2 to 8 vertices and 1 to 24 edges";
    QueryEdge = 9, "an edge of the query has a vertex that is not below the number of vertices, or equal ends";
    QueryOrder = 10, "the edges of the query do not ascend strictly";
    QueryApart = 11, "the query is not connected";
    PlanShort = 12, "the bits of the plan file run out";
    PlanLong = 13, "the plan file has a further byte, or a fill bit is set";
    PlanOperator = 14, "the plan has no operator, an unknown one, or one with an edge or a vertex that the query lacks";
    PlanPile = 15, "an operator finds too few results, or more than one is left at the end";
    PlanExtend = 16, "an extend is by a covered vertex, or by one with no edge to the covered ones";
    PlanJoin = 17, "a join's sides share no vertex, or one has none of its own, or a query edge runs between them";
    PlanUncovered = 18, "the plan leaves a query vertex uncovered";
    StoreDamaged = 19, "no accepted graph file loads to this store";
    ScratchSmall = 20, "the run needs more scratch";
    ListSmall = 21, "the rows do not fit the match list";
    RecordsShort = 22, "the list of records is shorter than the plan's operators";
    PlanBytes = 24, "the bytes of the drawn plan do not fit";
    QueryDays = 25, "a vertex of the query has a first day above its last";
    QueryPair = 26, "a pair of the query has equal or unknown vertices, or the pairs do not ascend strictly";
    ChangesFile = 27, "the change file has a wrong length, a fill bit set, an edge that no graph can have, or edges that do not ascend";
    ChangesEdge = 28, "a change adds an edge that is there, or takes one away that is not";
    ChangesMany = 29, "the changes would make more than 1,048,575 edges";
    RunNumbers = 30, "a number that the run would answer or record is above 18,446,744,073,709,551,615";
    OrderingsLarge = 31, "the query has more than 5 vertices";
    OrderingsWords = 32, "the words are too few for all orderings";
    SheetRows = 33, "a row has not 2 to 8 words, the rows are too many or too many for their list, or a word is above 65,535";
    SheetPage = 34, "the page is not 1 to the page count";
    SheetBytes = 35, "the bytes are fewer than a page's";
}

impl Refusal {
    /// Its number, 1 to 35; none has 23, which is not used again.
    pub fn number(self) -> u32 {
        self as u32
    }

    /// The refusal of a number, if there is one.
    pub fn from_number(number: u32) -> Option<Refusal> {
        Refusal::ALL.iter().copied().find(|r| r.number() == number)
    }
}

impl fmt::Display for Refusal {
    fn fmt(&self, f: &mut fmt::Formatter<'_>) -> fmt::Result {
        write!(f, "refused ({}): {}", self.number(), self.meaning())
    }
}

impl std::error::Error for Refusal {}

#[cfg(test)]
mod tests {
    use super::Refusal;

    #[test]
    fn numbers_are_in_order_without_23() {
        let numbers: Vec<u32> = Refusal::ALL.iter().map(|r| r.number()).collect();
        assert_eq!(numbers, (1..=22).chain(24..=35).collect::<Vec<_>>());
        assert_eq!(Refusal::from_number(20), Some(Refusal::ScratchSmall));
        assert_eq!(Refusal::from_number(0), None);
        assert_eq!(Refusal::from_number(23), None);
        assert_eq!(Refusal::from_number(36), None);
    }
}
