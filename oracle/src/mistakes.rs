//! Plausible mistakes, each a switch in the reference walk, and the suite that shows that a list of images
//! tells every one of them from the truth.

use crate::answer::{Rooms, Setting};
use crate::judge;
use crate::reference;

/// Which mistake, if any, the reference makes.
#[derive(Debug, Clone, Copy, PartialEq, Eq)]
pub struct Mind(pub Option<Mistake>);

impl Mind {
    pub const SOUND: Mind = Mind(None);

    pub fn slips(self, mistake: Mistake) -> bool {
        self.0 == Some(mistake)
    }
}

macro_rules! mistakes {
    ($($variant:ident $name:literal $what:literal;)*) => {
        #[derive(Debug, Clone, Copy, PartialEq, Eq)]
        pub enum Mistake { $($variant,)* }

        /// All of them, with a name for the command line and what is done wrong.
        pub const ALL: &[(Mistake, &str, &str)] = &[$((Mistake::$variant, $name, $what),)*];
    };
}

pub fn find(name: &str) -> Option<Mistake> {
    ALL.iter().find(|row| row.1 == name).map(|row| row.0)
}

/// The images that a mistake gets wrong.
pub struct Told {
    pub count: usize,
    pub first: Option<usize>,
}

/// For each mistake, which of the images tell it from T's answers (document 01's, where T cannot hold the
/// types). The reference without a mistake must get them all right.
pub fn suite(images: &[Vec<u8>], setting: Setting, rooms: Rooms) -> Result<Vec<Told>, String> {
    let truth: Vec<Vec<u8>> = images.iter().map(|image| judge::judge(image, setting, rooms).answer.line()).collect();
    let wrong = |mind: Mind| {
        let differs =
            |(image, line): (&Vec<u8>, &Vec<u8>)| reference::judge(image, setting, rooms, mind).answer.line() != *line;
        let all: Vec<usize> =
            images.iter().zip(&truth).enumerate().filter(|(_, pair)| differs(*pair)).map(|(i, _)| i).collect();
        Told { count: all.len(), first: all.first().copied() }
    };
    if let Some(first) = wrong(Mind::SOUND).first {
        return Err(format!("the reference without a mistake differs from T at image {}", first));
    }
    Ok(ALL.iter().map(|row| wrong(Mind(Some(row.0)))).collect())
}

mistakes! {
    // ---- the image's header
    VersionUnread "version-unread" "any version passes";
    Names129 "names-129" "129 names pass";
    Nodes0 "nodes-0" "a count of 0 nodes is left to code 7";
    Nodes2049 "nodes-2049" "2,049 nodes pass";
    Text8193 "text-8193" "8,193 bytes of text pass";
    ThreeBeforeTwo "three-before-two" "offsets are judged before counts";
    OffsetUnread "offset-unread" "the names offset is not compared";
    TotalUnread "total-unread" "the total is not compared";
    ExtraBytesPass "extra-bytes-pass" "bytes behind the total pass";

    // ---- names
    ShortTextsPass "short-texts-pass" "texts may stop short of their area";
    ShortTextsAtZero "short-texts-at-zero" "texts that stop short are told at 0, not at N";
    ShortTextsAtLast "short-texts-at-last" "texts that stop short are told at the last name, not at N";
    TextStartInImage "text-start-in-image" "a text start counts from the image's first byte";
    EqualNamesPass "equal-names-pass" "texts need not ascend strictly";
    OrderUnread "order-unread" "texts need not ascend";
    OrderAtFirst "order-at-first" "of two names out of order the first is the place";
    ShorterFirst "shorter-first" "texts are ordered by length before bytes";
    Name65 "name-65" "a name of 65 bytes passes";
    EmptyNamePasses "empty-name-passes" "a name of no bytes passes";
    SpacePasses "space-passes" "byte 32 passes in a name";
    DeletePasses "delete-passes" "byte 127 passes in a name";
    UnusedPPasses "unused-p-passes" "p need not be 0 where the role leaves it unused";
    UnusedQPasses "unused-q-passes" "q need not be 0 where the role leaves it unused";
    Role5Passes "role-5-passes" "a role above 4 is plain";
    PAboveQRefused "p-above-q-refused" "a builtin of p to q with p above q is refused";
    FiveBeforeFour "five-before-four" "code 5 of a name is told before code 4 of a later one";
    FiveForFunctions "five-for-functions" "code 5 looks at functions too";
    FiveAtZeroOnly "five-at-zero-only" "map and filter of one argument pass";
    FiveForAll "five-for-all" "code 5 takes in range, input, print and set";
    FiveByLowerEnd "five-by-lower-end" "code 5 looks at p alone, also where p is above q";
    FiveByBeginning "five-by-beginning" "code 5 compares the beginning of the text";

    // ---- nodes
    SixAndSevenTogether "six-and-seven-together" "6 and 7 are looked for node by node";
    SevenAndEightTogether "seven-and-eight-together" "7 and 8 are looked for node by node";
    EightBeforeSeven "eight-before-seven" "8 is looked for before 7";
    Depth65 "depth-65" "depth 65 passes";
    Depth64Refused "depth-64-refused" "depth 64 is refused";
    BlockSpansPass "block-spans-pass" "the spans of Block and Param need not be 0";
    SpansRead "spans-read" "a span must not end before its start";
    OddDictPasses "odd-dict-passes" "a Dict may have an odd count";
    UnusedArgPasses "unused-arg-passes" "an unused arg need not be 0";
    DefNameUnread "def-name-unread" "a Def's name may be any number";
    BlockInBlock "block-in-block" "a Block is a statement";
    EqualParamsRefused "equal-params-refused" "two equal Params are refused";
    EndPastIsSeven "end-past-is-seven" "an end behind M is left to code 7";
    CountIsSeven "count-is-seven" "an impossible child count is left to code 7";
    LargeCountIsSix "large-count-is-six" "a child count above the nodes that are there is 6";
    RootKindIsSix "root-kind-is-six" "node 0 of another kind is 6";
    RootEndUnread "root-end-unread" "node 0 may end before M";
    SevenAtChild "seven-at-child" "7 is told at the child";
    LeavesUnread "leaves-unread" "the end of a node without children is not looked at";
    LastNodeFirst "last-node-first" "of several nodes with code 6 the last is told";
    IfWithoutBlock "if-without-block" "an If's last child may be an expression";

    // ---- TreeSets, which are retired
    RetiredPasses "retired-passes" "a TreeSet is not refused";
    RetiredInPlain "retired-in-plain" "strict does not refuse a TreeSet";
    RetiredInStrict "retired-in-strict" "plain does not refuse a TreeSet";
    SetsRetired "sets-retired" "14 goes to a Set, and not to a TreeSet";
    SetsRetiredToo "sets-retired-too" "14 goes to a Set as well";
    RetiredAtLast "retired-at-last" "14 is told at the last TreeSet";
    RetiredAtStatement "retired-at-statement" "14 is told at the statement that holds the TreeSet";
    RetiredSpan "retired-span" "14 gives the TreeSet's span";
    RetiredBeforeFour "retired-before-four" "14 is looked for before 4 and all that follows it";
    RetiredBeforeSix "retired-before-six" "14 is looked for before 6, 7 and 8";
    RetiredBeforeSeven "retired-before-seven" "14 is looked for before 7 and 8";
    RetiredBeforeEight "retired-before-eight" "14 is looked for before 8";
    RetiredAsWalked "retired-as-walked" "14 comes where the walk meets a TreeSet, as 9 does at a Def";
    RetiredDropped "retired-dropped" "14 comes where the walk meets a TreeSet, and is dropped as a typing error is";
    RetiredAfterNine "retired-after-nine" "9 comes before 14";
    RetiredAfterWalk "retired-after-walk" "9 and the typing codes come before 14";
    RetiredAfterTen "retired-after-ten" "10 comes before 14";

    // ---- stray frames, and the ninth
    PopFailedDef "pop-failed-def" "a Def that fails pops its frame";
    DefErrorDropped "def-error-dropped" "a Def body's errors are dropped";
    NinthAllowed "ninth-allowed" "nine frames are allowed";
    EighthRefused "eighth-refused" "only seven frames are allowed";
    NinthDropped "ninth-dropped" "9 is dropped with a body's errors";
    NinthByNesting "ninth-by-nesting" "only Defs around a Def count towards 9";
    NinthBeforehand "ninth-beforehand" "nested Defs are counted before the walk";
    NinthSpan "ninth-span" "9 gives the Def's span";
    DefBindsName "def-binds-name" "a Def binds its name to Function";
    ParamsAbsent "params-absent" "parameters are not put into the frame";

    // ---- bodies
    IfErrorReturned "if-error-returned" "an If body's first error is returned";
    WhileErrorReturned "while-error-returned" "a While body's first error is returned";
    ForErrorDropped "for-error-dropped" "a For body's errors are dropped";
    IfStopsAtError "if-stops-at-error" "an If body ends at its first error";
    WhileStopsAtError "while-stops-at-error" "a While body ends at its first error";
    WhileCommits "while-commits" "a While commits what its body assigns";
    ForCommits "for-commits" "a For commits what its body assigns";
    ForNameCommits "for-name-commits" "a For's name is bound outside too";
    ForNameChecked "for-name-checked" "a For's name is assigned with the check of 25";
    ForKeepsStray "for-keeps-stray" "a failed For leaves its frames behind";
    ForDictGivesValue "for-dict-gives-value" "a For over a Dict gives values";
    ForDictRefused "for-dict-refused" "a For refuses a Dict, as map does";
    ForTupleRefused "for-tuple-refused" "a For refuses a Tuple, as map does";
    ForTupleGivesFirst "for-tuple-gives-first" "a For over a mixed Tuple gives its first type";
    ForIteratorsUnknown "for-iterators-unknown" "a For over MapIter or FilterIter gives Unknown";
    ForReturnsForgotten "for-returns-forgotten" "returns in a For body do not stay";
    IterableAtStatement "iterable-at-statement" "24 is told at the For";
    ConditionAtStatement "condition-at-statement" "36 is told at the If or While";
    LoopFlagIntoDef "loop-flag-into-def" "a Def in a loop allows break";
    ForSetsNoFlag "for-sets-no-flag" "a For body does not allow break";

    // ---- If
    ElifInBranch "elif-in-branch" "an elif condition is checked at the end of the branch before";
    ElifsFirst "elifs-first" "all conditions are checked before any body";
    BranchAfterBranch "branch-after-branch" "a branch starts where the last one ended";
    MergeReversed "merge-reversed" "names merge from the last to the first";
    MergeUndone "merge-undone" "names merged before a 23 are taken back";
    MergeUnknown "merge-unknown" "Unknown alone is committed";
    MergeHeld "merge-held" "a name that the branch's frame holds counts as assigned";
    MergeChecked "merge-checked" "a merge has the check of 25";
    MergeWithBase "merge-with-base" "the type at entry takes part in the merge";
    MergeIfAll "merge-if-all" "only names assigned in all branches are committed";
    MergeAllFrames "merge-all-frames" "a branch's older frames count too";
    MergeUnknownDiffers "merge-unknown-differs" "Unknown disagrees with a known type";
    MergeLastWins "merge-last-wins" "the last branch's type is taken, without 23";
    MergeAtIf "merge-at-if" "23 is told at the If";
    MergeAtLast "merge-at-last" "23 is told at the last condition";

    // ---- strict: what only it shows
    ThenDropped "then-dropped" "strict drops the errors of an If's first body";
    ElifDropped "elif-dropped" "strict drops the errors of an elif body";
    ElseDropped "else-dropped" "strict drops the errors of an else body";
    WhileDropped "while-dropped" "strict drops the errors of a While body";
    LastErrorTold "last-error-told" "strict returns a body's last error";
    BodyWalkedOn "body-walked-on" "strict walks a body to its end before it returns the first error";
    ConditionsFirst "conditions-first" "strict checks the later conditions before it returns a body's error";
    LastBranchTold "last-branch-told" "strict walks every branch and returns the last one's error";
    MergeFirst "merge-first" "strict merges before it returns a body's error";
    IfClearsFlag "if-clears-flag" "break in an If is refused, in a loop too";
    IfSetsFlag "if-sets-flag" "break in an If is allowed outside loops";
    ElifClearsFlag "elif-clears-flag" "break in an elif body is refused, in a loop too";
    ElseClearsFlag "else-clears-flag" "break in an else body is refused, in a loop too";
    WhileHandsItsFlag "while-hands-its-flag" "a While hands on the flag that it has";

    // ---- return
    ModuleReturnKept "module-return-kept" "the module has one return type";
    DefReturnShared "def-return-shared" "a Def starts with the return type outside";
    DefReturnLeaks "def-return-leaks" "a Def's return type stays behind it";
    DroppedReturnsForgotten "dropped-returns-forgotten" "returns in bodies that drop errors do not stay";
    ReturnUnknownResets "return-unknown-resets" "an Unknown return forgets the type";
    FailedReturnStays "failed-return-stays" "a failed return replaces the type";
    ReturnAtStatement "return-at-statement" "22 is told at the Return";
    FailedElifForgetsReturns "failed-elif-forgets-returns" "an If that fails at an elif keeps no return types";

    // ---- assignment
    TargetBeforeValue "target-before-value" "an Index or Attribute target is checked before the value";
    UnknownOverwrites "unknown-overwrites" "assigning Unknown forgets the type";
    AssignInNewest "assign-in-newest" "an assignment is judged against the newest frame only";
    AssignWhereFound "assign-where-found" "an assignment writes the frame that holds the name";
    TargetsUndone "targets-undone" "targets bound before an error are taken back";
    UnpackLengthLate "unpack-length-late" "26 comes after the targets that there are types for";
    StringUnpacks "string-unpacks" "a String unpacks";
    DictUnpacks "dict-unpacks" "a Dict unpacks";
    UnknownUnpacksNot "unknown-unpacks-not" "Unknown is refused with 27";
    IndexTargetUnread "index-target-unread" "an Index target is not checked";
    AttributeTargetUnread "attribute-target-unread" "an Attribute target is not checked";
    ListTargetUnpacks "list-target-unpacks" "a List is a target as a Tuple is";
    TargetAtStatement "target-at-statement" "28 is told at the Assign";
    UnpackAtWhole "unpack-at-whole" "26 and 27 are told at the whole target";
    AssignAtWhole "assign-at-whole" "25 is told at the whole target";

    // ---- the second span of 25 and 23
    FirstIsAssign "first-is-assign" "the Assign made a type known, not its Variable";
    FirstIsWhole "first-is-whole" "the whole target made a type known, not the Variable in its Tuple";
    FirstIsValue "first-is-value" "the value made a type known";
    FirstOfTuple "first-of-tuple" "all names of a Tuple target have its first Variable";
    FirstIsItself "first-is-itself" "25 gives its own span again";
    EqualReplaces "equal-replaces" "an equal assignment replaces the node";
    UnknownReplaces "unknown-replaces" "an Unknown assignment replaces the node of a known type";
    UnknownForgets "unknown-forgets" "an Unknown assignment forgets the node of a known type";
    UnknownHasNode "unknown-has-node" "what was Unknown keeps the node that assigned it Unknown";
    FailedReplaces "failed-replaces" "an assignment that is refused replaces the node";
    DefCopyIsFirst "def-copy-is-first" "the copy that a Def assigns of an outer name has its own node";
    NodeOfOldestFrame "node-of-oldest-frame" "the node is the oldest frame's that has one";
    NodeOfNewestFrame "node-of-newest-frame" "the node is looked for in the newest frame only";
    OneNodeFirst "one-node-first" "each name has one node beside the frames, the first there ever was";
    OneNodeLatest "one-node-latest" "each name has one node beside the frames, the latest";
    OneNodeWhile "one-node-while" "nodes stand beside the frames, and a While leaves its own behind";
    OneNodeFor "one-node-for" "nodes stand beside the frames, and a For leaves its own behind";
    OneNodeIf "one-node-if" "nodes stand beside the frames, and a branch leaves its own behind";
    OneNodeAllFrames "one-node-all-frames" "all frames share one node for each name";
    LoopAtFor "loop-at-for" "a loop name has the For's node";
    LoopAtElement "loop-at-element" "a loop name has the node of the iterable's first part";
    LoopAtSource "loop-at-source" "a loop name has the node that made the iterable's type known";
    LoopKeepsEqual "loop-keeps-equal" "a loop name keeps its node where the type is equal";
    LoopNodeStays "loop-node-stays" "behind the loop its name keeps the loop's node";
    LoopUnknownHasNode "loop-unknown-has-node" "a loop name that was Unknown has the iterable's node";
    LoopUnknownKeepsOld "loop-unknown-keeps-old" "a loop name that was Unknown has the node from before the loop";
    ParamHasNode "param-has-node" "a parameter that becomes known has its Param's node";
    ParamAtDef "param-at-def" "a parameter that becomes known has its Def's node";
    ParamKeepsOuter "param-keeps-outer" "a parameter that becomes known has the outer name's node";
    AssignedByNode "assigned-by-node" "an equal type with another node counts as assigned";
    MergeLowestNode "merge-lowest-node" "a merge takes the lowest node of its branches";
    MergeHighestNode "merge-highest-node" "a merge takes the highest node of its branches";
    MergeLastNode "merge-last-node" "a merge takes the node of the last branch that knows the type";
    MergeFirstAssigning "merge-first-assigning" "a merge takes the first branch that assigns, be it Unknown";
    MergeNodeIsIf "merge-node-is-if" "a merge writes the If's node";
    MergeNodeIsCondition "merge-node-is-condition" "a merge writes the first condition's node";
    MergeKeepsBase "merge-keeps-base" "a merge keeps the node of another type that the newest frame held";
    MergeKeepsEqual "merge-keeps-equal" "a merge keeps the node of an equal type that an outer frame holds";
    ClashAtSecond "clash-at-second" "23 gives the node of the second type found";
    ClashAtCondition "clash-at-condition" "23 gives its own span again";
    ClashAtBase "clash-at-base" "23 gives the node that the newest frame held before the If";
    ClashAtLowest "clash-at-lowest" "23 gives the lower of the two nodes";
    AssignHasNone "assign-has-none" "25 has 0,0";
    ClashHasNone "clash-has-none" "23 has 0,0";
    StrictHasNone "strict-has-none" "strict has 0,0";
    UnwrittenHasNone "unwritten-has-none" "a message that does not fit takes the second span with it";
    SecondExchanged "second-exchanged" "the second span's start and end change places";
    SecondIsPlace "second-is-place" "the first node's number stands for its span";
    ReturnHasSecond "return-has-second" "22 has its own span as a second one";
    UnpackHasSecond "unpack-has-second" "26 has its own span as a second one";
    OthersHaveSecond "others-have-second" "every other typing code has its own span as a second one";

    // ---- Unknown, and equal types
    DeepUnknown "deep-unknown" "Unknown inside a type agrees with anything";
    ConditionUnknown "condition-unknown" "an Unknown condition passes";
    NotUnknown "not-unknown" "not of Unknown is Unknown";
    UnknownPlusAnything "unknown-plus-anything" "+ takes Unknown beside anything";
    SignedUnknownIsInt "signed-unknown-is-int" "- of Unknown is Int";
    LookupOutermostFirst "lookup-outermost-first" "lookup goes from the module's frame up";
    UnknownIsAbsent "unknown-is-absent" "lookup goes on below an Unknown";

    // ---- operators
    BinaryAtLeft "binary-at-left" "29 to 33 are told at the left side";
    UnaryAtOperand "unary-at-operand" "34 and 35 are told at the operand";
    BinaryOrder "binary-order" "Multiply and Divide change places";
    UnaryOrder "unary-order" "Not stands behind Negate and Pos";
    LiteralOrder "literal-order" "literals are numbered as the sheet's types";
    LambdaUnknown "lambda-unknown" "a Lambda is Unknown";
    AttributeKeepsType "attribute-keeps-type" "an Attribute has its object's type";
    AndWantsBool "and-wants-bool" "and, or want Bool on both sides";
    AndSkipsRight "and-skips-right" "and, or do not check their right side";
    AndGivesRight "and-gives-right" "and, or give their right side's type";
    ListsAdd "lists-add" "equal Lists may be added";
    BoolIsNumber "bool-is-number" "Bool counts as Int";
    StringFirst "string-first" "an Int before * takes no String";
    UnknownTimesString "unknown-times-string" "Unknown * String is Unknown";
    DivideKeepsInt "divide-keeps-int" "Int / Int is Int";
    DivideUnknown "divide-unknown" "Unknown / Unknown is Unknown";
    FloorDivideInt "floor-divide-int" "// is Int";
    ModuloFormats "modulo-formats" "String % anything is String";
    CompareSameOnly "compare-same-only" "Int and Float do not compare";
    CompareBools "compare-bools" "Bools compare";
    EqualityMixedRefused "equality-mixed-refused" "Int == Float is refused";
    EqualityWantsPlain "equality-wants-plain" "== takes no structured types";
    RightBeforeLeft "right-before-left" "the right side is checked first";
    NegateBool "negate-bool" "- of Bool is Int";
    FoldedUnordered "folded-unordered" "a folded row is read with the kinds as they stand";
    FoldedShort "folded-short" "a folded row is read as if no kind stood beside itself";

    // ---- displays and indexing
    ListGoesOn "list-goes-on" "a List looks at elements behind a mismatch";
    ListRestarts "list-restarts" "a List goes on after a mismatch with the next element's type";
    ListIgnoresUnknown "list-ignores-unknown" "[1, u] is List(Int)";
    DictStopsAtMismatch "dict-stops-at-mismatch" "a Dict ends at its first mismatch";
    DictNeverStops "dict-never-stops" "a Dict looks at every pair";
    DictSticky "dict-sticky" "after a mismatch a Dict's part stays Unknown";
    DictUnknownGoesOn "dict-unknown-goes-on" "a first pair that is all Unknown does not end a Dict";
    DictTogether "dict-together" "a mismatch of key or value makes both Unknown";
    SetsUnread "sets-unread" "a Set's elements are not checked";
    ObjectBeforeIndex "object-before-index" "the object is judged before the index is checked";
    TupleIndexFirst "tuple-index-first" "a mixed Tuple gives its first type";
    TupleIndexUnknown "tuple-index-unknown" "a Tuple gives Unknown";
    KeyUnknownRefuses "key-unknown-refuses" "a Dict of Unknown keys refuses other keys";
    BoolIndexes "bool-indexes" "a Bool is an index";
    RangeIndexes "range-indexes" "a Range is subscriptable";
    IndexAtWhole "index-at-whole" "46 to 49 are told at the Index";
    SubscriptAtWhole "subscript-at-whole" "50 is told at the Index";

    // ---- calls
    FirstChecksAll "first-checks-all" "int, float, bool, str, len and assert check all arguments";
    StreamChecksAll "stream-checks-all" "map and filter check all arguments";
    ArityLate "arity-late" "arity is judged after the arguments";
    BuiltinByText "builtin-by-text" "a builtin's text with another role goes by the builtin's rule";
    PlainArgumentsUnread "plain-arguments-unread" "arguments of a plain name are not checked";
    FunctionArgumentsUnread "function-arguments-unread" "arguments of a function are not checked";
    OtherArgumentsUnread "other-arguments-unread" "arguments of another builtin are not checked";
    OtherGivesNone "other-gives-none" "another builtin gives NoneType";
    FunctionTakesFewer "function-takes-fewer" "a function may be given fewer arguments";
    CalleeUnread "callee-unread" "a callee that is no name is not checked";
    CalleeLate "callee-late" "a callee that is no name is checked after the arguments";
    InputChecksAll "input-checks-all" "input checks several arguments too";
    LenOfRange "len-of-range" "a Range has a len";
    LenOfIterators "len-of-iterators" "MapIter and FilterIter have a len";
    RangeLate "range-late" "range checks all arguments before it judges one";
    StreamLate "stream-late" "map and filter check both arguments before they judge one";
    MapTakesAll "map-takes-all" "map takes Dict and Tuple";
    FilterTakesAll "filter-takes-all" "filter takes Dict and Tuple";
    MapGivesElement "map-gives-element" "map keeps the element type";
    FilterGivesUnknown "filter-gives-unknown" "filter gives FilterIter(Unknown)";
    PrintGivesUnknown "print-gives-unknown" "print gives Unknown";
    AssertGivesBool "assert-gives-bool" "assert gives Bool";
    ArityAtCallee "arity-at-callee" "37 and 38 are told at the callee";
    CallAtArgument "call-at-argument" "39 to 41 are told at the argument";
    StreamAtCall "stream-at-call" "42 to 45 are told at the Call";

    // ---- messages
    Length16 "length-16" "a message's length wraps at 16 bits";
    Length32 "length-32" "a message's length wraps at 32 bits";
    Length64 "length-64" "a message's length wraps at 64 bits";
    MessageCut "message-cut" "a message that does not fit is cut";
    MessageExactDropped "message-exact-dropped" "a message of exactly the room is dropped";
    MessageTooShort "message-too-short" "the room is taken to be one byte larger";
    TupleBare "tuple-bare" "a Tuple's text has no square brackets";
    NamesEscaped "names-escaped" "names in messages are written as Rust's Debug form";
    SwappedAssign "swapped-assign" "25 names the old type first";
    SwappedReturn "swapped-return" "22 names the new type first";
    SwappedOperands "swapped-operands" "29 to 33 name the right type first";
    OrderedOperands "ordered-operands" "29 to 33 name the lower kind first";
    SwappedUnpack "swapped-unpack" "26 names the number of targets first";
    SwappedKey "swapped-key" "47 names the index first";
    RangeDescribed "range-described" "p to q is written as such where p is q";
    DescriptionSorted "description-sorted" "p above q is written as q-p";
    SignedDecimals "signed-decimals" "numbers are written as signed words";
    GivenCountsCallee "given-counts-callee" "the count of arguments takes in the callee";
    TargetPrefixed "target-prefixed" "28's text begins with TypeError";

    // ---- the sheet
    TypesAsFormed "types-as-formed" "sheet types are numbered as they were formed";
    UnreachableKept "unreachable-kept" "types that no name reaches stand in the sheet";
    WholeBeforeParts "whole-before-parts" "a type is numbered before its parts";
    PartsRightToLeft "parts-right-to-left" "parts are walked from the right";
    EmptyTupleAtZero "empty-tuple-at-zero" "an empty Tuple's p is 0";
    TypesPerName "types-per-name" "types are distinct for each name only";
    UnknownLeftOut "unknown-left-out" "names of type Unknown are left out";
    NumbersOfT "numbers-of-t" "plain types have the order of T's enum";
    NumbersOfLiterals "numbers-of-literals" "Int and Bool have the order of the literals";
    AllTexts "all-texts" "the texts of all the image's names stand in the sheet";
    TextStartInSheet "text-start-in-sheet" "a text start counts from the sheet's first byte";
    SheetExactRefused "sheet-exact-refused" "a sheet of exactly the room gives 10";
    ElementsShared "elements-shared" "Tuples with equal elements at the front of the area share them";

    // ---- which names the sheet lists
    FrameOnly "frame-only" "only the module frame's names are listed";
    StrictFrameOnly "strict-frame-only" "strict lists only the module frame's names";
    LoopNameMissed "loop-name-missed" "a For's name is not listed";
    ForBodyMissed "for-body-missed" "a For's body is not looked into";
    WhileMissed "while-missed" "a While's body is not looked into";
    ThenMissed "then-missed" "an If's first body is not looked into";
    ElifMissed "elif-missed" "an elif body is not looked into";
    ElseMissed "else-missed" "an else body is not looked into";
    OneDeep "one-deep" "a body inside a body is not looked into";
    DeadCodeMissed "dead-code-missed" "what stands behind a break, continue or return is not looked at";
    DefsTakenIn "defs-taken-in" "a Def's body is looked into";
    InnerDefsTakenIn "inner-defs-taken-in" "the body of a Def that stands in a body is looked into";
    DefNamesListed "def-names-listed" "a Def's name is listed";
    ParamsListed "params-listed" "parameters are listed";
    TuplesMissed "tuples-missed" "a Tuple target is not looked into";
    NestedTuplesMissed "nested-tuples-missed" "a Tuple inside a Tuple target is not looked into";
    RestOfTargetMissed "rest-of-target-missed" "a Tuple target is left at what can bind nothing";
    ListTargetsTakenIn "list-targets-taken-in" "a List in a target is looked into";
    IndexObjectListed "index-object-listed" "the object of an Index target is listed";
    IndexListed "index-listed" "the index of an Index target is listed";
    AttributeObjectListed "attribute-object-listed" "the object of an Attribute target is listed";
    WholeTargetListed "whole-target-listed" "every Variable in a target is listed";
    ReadNamesListed "read-names-listed" "names that are only read are listed";
    AllNamesListed "all-names-listed" "all the image's names are listed";
    RolesUnlisted "roles-unlisted" "names of builtins and functions are listed only if the frame has them";
    BodyTypeListed "body-type-listed" "a listed name that the frame lacks has the type that a body gave it last";
    BodyForgets "body-forgets" "a name of the frame is Unknown where a body may bind it";
    FrameUnlisted "frame-unlisted" "a name that the frame has and no form binds is left out";
    AsWalked "as-walked" "names are listed that the walk has bound, not those that the form may bind";
    ListedAgain "listed-again" "a name stands in the sheet as often as something may bind it";
    AddedBehind "added-behind" "names that the frame lacks stand behind those that it has";
    RoomForFrame "room-for-frame" "10 is judged by the frame's names alone";
}
