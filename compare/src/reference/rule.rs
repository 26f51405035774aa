//! The single errors that the reference can be given on purpose, one at a
//! time, to see that the cases catch each of them.

/// Where an error sits, and so which calls' cases can show it.
#[derive(Clone, Copy, PartialEq, Eq, Debug)]
pub enum Place {
    Nowhere,
    LeastNorm,
    Solve,
    Triangle,
    Joins,
    Tally,
    Bend,
    Chain,
    ChainWriter,
    Exact,
    ExactRow,
    Nearest,
    ExactJoin,
}

macro_rules! rules {
    ($($name:ident, $place:ident, $text:literal;)*) => {
        /// One error, or none.
        #[derive(Clone, Copy, PartialEq, Eq, Debug)]
        pub enum Rule {
            /// No error: document 01.
            None,
            $(#[doc = $text] $name,)*
        }

        /// Every error.
        pub const RULES: &[Rule] = &[$(Rule::$name),*];

        impl Rule {
            pub fn place(self) -> Place {
                match self {
                    Rule::None => Place::Nowhere,
                    $(Rule::$name => Place::$place,)*
                }
            }

            /// What is wrong under this error.
            pub fn text(self) -> &'static str {
                match self {
                    Rule::None => "nothing",
                    $(Rule::$name => $text,)*
                }
            }
        }
    };
}

rules! {
    PivotLastOfEquals, LeastNorm, "pivot: the last of equal columns (>= for >)";
    NormFromRowZero, LeastNorm, "pivot: norms from row 0, not from the step's row";
    NormDownward, LeastNorm, "pivot: the norm's sum runs downward";
    NormFused, LeastNorm, "pivot: the norm's products and sums rounded together";
    SwapBelowOnly, LeastNorm, "pivot: only the rows from the step's row on are swapped";
    NoBreakOnZeroColumns, LeastNorm, "no break where every column left is zero";
    StopAtRank, LeastNorm, "the steps stop at the rank";
    SigmaDownward, LeastNorm, "sigma's sum runs downward";
    NormOfPivotChoice, LeastNorm, "the column's norm is taken from the pivot choice";
    BetaPositiveAtZero, LeastNorm, "beta: wrong sign where alpha is zero (> for >=)";
    BetaWithCancellation, LeastNorm, "beta: alpha's own sign";
    ProductDownward, LeastNorm, "the reflector's product with a column runs downward";
    ProductFused, LeastNorm, "the reflector's product with a column rounded together";
    TwiceQuotient, LeastNorm, "2 (s / vtv) for 2 s / vtv";
    ReflectorLeftInA, LeastNorm, "a keeps the reflector below the diagonal";
    RankToleranceLarger, LeastNorm, "rank: 1e-10 for 1e-11";
    RankToleranceSmaller, LeastNorm, "rank: 1e-12 for 1e-11";
    RankAtTolerance, LeastNorm, "rank: >= for >";
    RankAbsolute, LeastNorm, "rank: the tolerance not taken of the first diagonal";
    RankCountsAll, LeastNorm, "rank: every diagonal above counts, not the leading ones";
    XKeptAtRankZero, LeastNorm, "x not cleared at rank 0";
    RightRowsUpward, LeastNorm, "right reflectors from the first row down";
    RightSigmaDownward, LeastNorm, "right reflectors: sigma's sum runs downward";
    RightNotSkipped, LeastNorm, "right reflectors: made where sigma is zero too";
    GammaPositiveAtZero, LeastNorm, "right reflectors: wrong sign where alpha is zero (> for >=)";
    RightTwiceQuotient, LeastNorm, "right reflectors: 2 (s / utu)";
    BackSubstitutionDownward, LeastNorm, "back substitution: the sum runs downward";
    ReflectLastFirst, LeastNorm, "right reflectors applied to y the last row's first";
    ReflectNotSkipped, LeastNorm, "right reflectors applied to y where they are zero too";
    ReflectTwiceQuotient, LeastNorm, "right reflectors applied to y by 2 (s / utu)";
    UnpermuteInverse, LeastNorm, "unpermute: the inverse permutation";
    LeastNormLimit, LeastNorm, "12: 33 rows or columns taken";
    LeastNormWorkspaceShort, LeastNorm, "12: a workspace of 1,055 taken";
    LeastNormLongX, LeastNorm, "12: an x longer than n taken";
    LeastNormRefusalClearsX, LeastNorm, "12: x cleared by a refused call";
    LeastNormWorkspaceLong, LeastNorm, "the workspace written past its first 1,056";

    ClampHiFirst, Solve, "clamp: hi before lo";
    ClampByMinAndMax, Solve, "clamp: by the larger and the smaller of two";
    IdleOnlyAtZero, Solve, "Idle only where W_ii is 0";
    IdleOnlyBelowZero, Solve, "Idle not where W_ii is 0";
    IdleNotAtNan, Solve, "Idle not where W_ii is NaN";
    IdleMultiplierKept, Solve, "an Idle row starts from its multiplier";
    StartNotClamped, Solve, "the start is not clamped";
    AllIdleAlways, Solve, "all rows called Idle every time";
    AllIdleSweeps, Solve, "sweeps and growth where all rows are Idle";
    RowSumDownward, Solve, "row sum: runs downward";
    RowSumFused, Solve, "row sum: products and sums rounded together";
    RowSumFreeLast, Solve, "row sum: u_free added last";
    RowSumWithoutIdle, Solve, "row sum: Idle columns left out";
    SweepFromBefore, Solve, "sweep: from the multipliers before it";
    StoppedAtEqualBound, Solve, "stopped: a value that equals a bound is";
    StoppedLowOnly, Solve, "stopped: at the lower bound only";
    StoppedByBoundsReached, Solve, "stopped: every multiplier that the sweep leaves on a bound";
    StoppedByOldSums, Solve, "stopped: by the row sums of the sweep's start";
    StoppedOfAllSweeps, Solve, "stopped: the rows of every sweep";
    StartStopped, Solve, "stopped: the start's clamp too";
    IdleStopped, Solve, "stopped: the clamp of an Idle row too";
    StoppedByStates, Solve, "stopped: the rows whose state is AtLo or AtHi";
    StoppedNoneWhenExact, Solve, "stopped: 0 where a pass found the answer";
    SweepByProduct, Solve, "sweep: times 1 / W_ii";
    OneSweepRepeated, Solve, "one true sweep, and its report for any number";
    CapLower, Solve, "at most 199 sweeps";
    CapHigher, Solve, "at most 201 sweeps";
    GrowthOfActingOnly, Solve, "growth: Idle rows not looked at";
    GrowthAtMillion, Solve, "growth: >= for > at a million scales";
    GrowthByQuotient, Solve, "growth: |nu| / scale > 1e6";
    GrowthUpwardOnly, Solve, "growth: nu, not |nu|";
    GrowthWithoutScale, Solve, "growth: the scale left out";
    GrowthAtNan, Solve, "growth: a NaN multiplier counts";
    GrowthAtSweepOne, Solve, "growth called at sweep 1";
    GrowthAfterPass, Solve, "growth tested after the pass";
    NoPassAtCap, Solve, "no pass at sweep 200";
    NoPassAt128, Solve, "no pass at sweep 128";
    PassAtThree, Solve, "a pass at sweep 3";
    NoTestsAtCap, Solve, "no motion test, residual test and ray after the pass of sweep 200";
    StateStrict, Solve, "state: < for <= at 1e-9";
    StateWithoutScale, Solve, "state: the scale left out";
    StateLoInfinite, Solve, "state: lo need not be finite";
    StateHiInfinite, Solve, "state: hi need not be finite";
    StateLoExactly, Solve, "state: AtLo only on lo itself";
    StateHiExactly, Solve, "state: AtHi only on hi itself";
    AtHiBeforeAtLo, Solve, "state: AtHi before AtLo";
    PassStartsFree, Solve, "pass: every row starts Inside";
    StartNotSnapped, Solve, "pass: a row near a bound is not put on it";
    OneMoveFewer, Solve, "pass: 8 acting + 7 moves";
    OneMoveMore, Solve, "pass: 8 acting + 9 moves";
    MovesOfAllRows, Solve, "pass: 8 n + 8 moves";
    MovesWithoutEight, Solve, "pass: 8 acting moves";
    TargetUnscaled, Solve, "pass: the least norm of unscaled multipliers";
    TargetWithoutIdle, Solve, "pass: Idle columns left out of the target";
    InconsistentAtLimit, Solve, "pass: >= for > at 1e-9 in what the free rows leave";
    InconsistentAtNan, Solve, "pass: a NaN left by the free rows counts";
    InconsistentWithoutDiagonal, Solve, "pass: what the free rows leave not over W_ii";
    ResidualDirectionSign, Solve, "pass: along the residual the wrong way";
    RoomNotFloored, Solve, "pass: no floor of room at 0";
    BlockedLastOfEquals, Solve, "pass: the last of equally blocked rows";
    BlockedNotSnapped, Solve, "pass: a blocked row is not put on its bound";
    ReleaseLastOfEquals, Solve, "pass: release of the last of equals";
    ReleaseFirst, Solve, "pass: release of the first row, not the hardest pushed";
    ReleaseAtLimit, Solve, "pass: >= for > at 1e-9 in the release";
    ReleaseByRowSum, Solve, "pass: release by |u|";
    ReleaseWithoutScale, Solve, "pass: release without the scale";
    InfeasibleLeavesTrial, Solve, "a ray of the pass leaves the pass's multipliers";
    FailedLeavesTrial, Solve, "a failed pass leaves its multipliers";
    MotionStrict, Solve, "motion test: < for <=";
    MotionNotTested, Solve, "motion test: left out";
    MotionNanKept, Solve, "motion test: a NaN coordinate counts";
    MotionSummed, Solve, "motion test: the sum over coordinates";
    MotionSigned, Solve, "motion test: without |.|";
    MotionLastCoordinate, Solve, "motion test: the last coordinate alone";
    ConvergedStrict, Solve, "residual test: < for <= at 1e-9";
    ResidualOfNanRow, Solve, "residual: a NaN row turns it NaN";
    ResidualOfIdle, Solve, "residual: Idle rows counted";
    NoRayAfterSweep, Solve, "no ray after a sweep";
    RayHiFinite, Solve, "ray: hi need not be infinite";
    RayLoFinite, Solve, "ray: lo need not be infinite";
    RayNanRejected, Solve, "ray: a NaN linear part rejects";
    RayLinZeroTaken, Solve, "ray: a linear part of 0 goes on";
    RayQuadStrict, Solve, "ray: < for <= 0 in the quadratic part";
    RayQuadGrouping, Solve, "ray: y (W y) for (y W) y";
    RayOnlyFlat, Solve, "ray: only where the quadratic part is at most 0";
    RayAtMillion, Solve, "ray: >= for > at a million";
    RayLeastWithoutFar, Solve, "ray: the farthest left out";
    RayDropStrict, Solve, "ray: < for <= where small entries are dropped";
    RayDropAbsolute, Solve, "ray: entries up to 1e-9 dropped, not 1e-9 of the largest";
    RayDropsNone, Solve, "ray: only zero entries dropped";
    RayFarOfDropped, Solve, "ray: dropped rows count for the farthest";
    RayLargestOfIdle, Solve, "ray: Idle rows count for the largest";
    RayZeroGoesOn, Solve, "ray: goes on where nothing moves";
    StatesNeverShown, Solve, "states: not those that the multipliers show after sweeps alone";
    StatesShownWhenExact, Solve, "states: those that the multipliers show in an exact answer";
    StatesShownWhenInfeasible, Solve, "states: those that the multipliers show in an infeasible answer";
    SweepsInvented, Solve, "one sweep more reported than made";
    PassesInvented, Solve, "one pass more reported than made";
    MultipliersNotWritten, Solve, "no multipliers written";
    RestOfStatesCleared, Solve, "states past n cleared";
    RestOfRowsCleared, Solve, "row list past the rows cleared";
    WorkspaceWrittenPast, Solve, "the workspace written past its first 2,304";
    RefusesAll, Solve, "all refused";
    RowLimit, Solve, "5: 32 rows refused";
    MotionLimitLow, Solve, "5: 2,048 motion values refused";
    MotionLimitHigh, Solve, "5: over 2,048 motion values taken";
    LongSlicesTaken, Solve, "7: longer slices taken";
    ScaleZeroTaken, Solve, "8: a scale of 0 taken";
    ScaleInfiniteTaken, Solve, "8: an infinite scale taken";
    ScaleNanTaken, Solve, "8: a NaN scale taken";
    NineAtNoRows, Solve, "9: motion refused where n is 0";
    WorkspaceLimitLow, Solve, "10: a workspace of 2,303 taken";
    WorkspaceLimitHigh, Solve, "10: a workspace of 2,304 refused";
    ListsOfMostRows, Solve, "10: states or row list under 32 refused";
    RowListUnchecked, Solve, "10: a row list under n taken";
    SixBeforeFive, Solve, "6 tested before 5";
    SevenBeforeSix, Solve, "7 tested before 6";
    EightBeforeSeven, Solve, "8 tested before 7";
    NineBeforeEight, Solve, "9 tested before 8";
    TenBeforeNine, Solve, "10 tested before 9";
    RefusalClampsMultipliers, Solve, "10: multipliers clamped by a refused call";

    TriangleUpper, Triangle, "triangle: taken for the upper triangle by rows";
    TriangleRowsEarly, Triangle, "triangle: row i begins at i (i - 1) / 2";
    TriangleDiagonalLast, Triangle, "triangle: the part below the diagonal first, then the diagonal";
    TriangleBelowZero, Triangle, "triangle: the matrix left 0 below the diagonal";
    TriangleAboveZero, Triangle, "triangle: the matrix left 0 above the diagonal";
    TriangleBeforeFive, Triangle, "16 before 5";
    TriangleAfterSeven, Triangle, "16 after 7";
    TriangleAfterTen, Triangle, "16 after 10";
    TriangleShort, Triangle, "16: a triangle that lacks a value taken";
    TriangleLong, Triangle, "16: a triangle with a value too many taken";
    TriangleSquare, Triangle, "16: the full matrix taken";
    TriangleSix, Triangle, "6 for 16";
    TriangleMirrorsBeyond, Triangle, "the mirrored matrix left in the workspace past its first 2,304 values";

    AndResidualFirst, Joins, "and: the first residual";
    AndResidualLast, Joins, "and: the last residual";
    AndResidualNan, Joins, "and: NaN where either residual is";
    AndResidualMinusZero, Joins, "and: -0 of two zeros";
    AndMostSummed, Joins, "and: most_iterations summed";
    AndConvergedLast, Joins, "and: the last converged";
    AndExactEither, Joins, "and: exact where either is";
    PassesAddedToSweeps, Joins, "and: passes added to sweeps";
    ContinuedIncrementsSummed, Joins, "continued: increments summed";
    ContinuedMostLarger, Joins, "continued: most_iterations the larger";
    ContinuedConvergedBoth, Joins, "continued: converged where both are";
    ContinuedExactLast, Joins, "continued: the last exact";
    ContinuedResidualFirst, Joins, "continued: the first residual";
    ContinuedResidualLarger, Joins, "continued: the larger residual";
    AndStoppedLast, Joins, "and: the rows stopped of the second alone";
    ContinuedStoppedLast, Joins, "continued: the rows stopped of the second alone";
    StoppedSumFits, Joins, "13: not for the rows stopped, whose sum stays at the limit";
    SumWraps, Joins, "13: a sum too large wraps";
    SumStopsAtLimit, Joins, "13: a sum too large stays at 4,294,967,295";
    SumLimitRefused, Joins, "13: a sum of 4,294,967,295 refused";
    ListFromFirst, Joins, "list: from its first report, not from NOTHING";
    ListBackToFront, Joins, "list: back to front";

    ElevenBeforeFive, Tally, "11 tested before 5 to 10";
    ElevenAfterSolve, Tally, "11 tested after the solve has written";
    TallyCountsRefused, Tally, "an increment for a refused solve";
    TallyIncrementsLow, Tally, "11: increments 4,294,967,294 refused";
    TallyIncrementsHigh, Tally, "11: increments 4,294,967,295 taken";
    TallySweepsHigh, Tally, "11: sweeps 4,294,967,096 taken";
    TallySweepsLow, Tally, "11: sweeps 4,294,967,095 refused";
    TallyPassesHigh, Tally, "11: passes 4,294,967,287 taken";
    TallyPassesLow, Tally, "11: passes 4,294,967,286 refused";
    TallyStoppedHigh, Tally, "11: rows stopped one higher";
    TallyStoppedLow, Tally, "11: rows stopped one lower";
    TallyStoppedByAdded, Tally, "11: only where this solve's rows stopped do not fit";
    TallyStoppedLost, Tally, "the tally: without the rows stopped";
    TallyIterationsOfSweeps, Tally, "iterations taken from sweeps";
    TallyWithoutInfeasible, Tally, "an infeasible solve joins nothing";
    TakenAsReported, Tally, "taken: the flags as reported, NaN or not";
    TakenConvergedKept, Tally, "taken: converged as reported";
    TakenExactKept, Tally, "taken: exact as reported";
    TakenByFirstRow, Tally, "taken: the first multiplier looked at alone";
    TakenByLastRow, Tally, "taken: the last multiplier looked at alone";
    TakenByAllRows, Tally, "taken: false only where every multiplier is NaN";
    TakenByInfinite, Tally, "taken: an infinite multiplier for a NaN";
    TakenByInput, Tally, "taken: false where anything lent is NaN";
    TakenByStart, Tally, "taken: the multipliers as lent, not as left";
    TakenOfRefused, Tally, "a refused solve's NaN multipliers taken";
    TakenInReport, Tally, "the report handed back as it is taken";

    BendShortest, Bend, "1: 16 bytes refused";
    BendLongestLow, Bend, "1: 65,536 bytes refused";
    BendLongestHigh, Bend, "1: 65,537 bytes taken";
    ThreeBeforeTwo, Bend, "3 tested before 2";
    FourBeforeThree, Bend, "4 tested before 3";
    BendProductWraps, Bend, "3: coords n modulo 2^16";
    BendCoordsAtNoRows, Bend, "3: coords above 2,048 refused where n is 0";
    BendCountUnchecked, Bend, "4: the count rule not tested";
    BendLengthModulo, Bend, "4: the length rule modulo 2^32";
    BendLengthLoose, Bend, "4: bytes between the numbers and the trailer taken";
    BendStartIgnored, Bend, "the numbers read from offset 0";
    BendBoundsSwapped, Bend, "hi read before lo";
    LowerCaseDigits, Bend, "lower-case digits printed";
    DigitsNotFilled, Bend, "digits not filled up to 16";
    NanPatternKept, Bend, "a NaN's own pattern printed";
    RowsFromOne, Bend, "rows numbered from 1";
    LastLineOpen, Bend, "the last line not ended";

    ChainOldLimit, Chain, "1: the longest file 65,536 bytes";
    ChainLongestHigh, Chain, "1: 1,048,577 bytes taken";
    ChainLongestLow, Chain, "1: 1,048,576 bytes refused";
    ChainShortest, Chain, "1: 16 bytes refused";
    LinkSixteenShort, Chain, "1: a link of 16 refused";
    OneWhereRead, Chain, "1: a link of 1 to 15 refused before its step's length rule";
    ShortLinkEnds, Chain, "1: a link of 1 to 15 taken for one of 0";
    ChainMost39, Chain, "15: a 40th step";
    ChainMost41, Chain, "15: a 41st step taken";
    FifteenAfterOne, Chain, "15 tested after 1";
    FifteenAfterTwo, Chain, "15 tested after 1 and 2";
    FourteenBeforeCount, Chain, "14 tested before 4's count rule";
    FourteenAfterLength, Chain, "14 tested after 4's length rule";
    NoLinkFour, Chain, "14: fewer than four bytes before the numbers get 4";
    NumbersOutsideFour, Chain, "14: numbers that begin before the file get 4";
    LinkUpToNumbers, Chain, "14: a link up to the numbers taken, not only up to its own offset";
    LinkBelowOnly, Chain, "14: >= for > at the link's own offset";
    LinkAtFront, Chain, "the link read from offset 0";
    LinkBigEndian, Chain, "the link read big-endian";
    LinkSixteenBits, Chain, "the link read modulo 2^16";
    LengthFromZero, Chain, "4: the length rule counts from 0";
    StartPastLink, Chain, "4: start counts from the link's end";
    ChainLengthUnchecked, Chain, "4: the length rule left out";
    ChainNoFreeBytes, Chain, "4: free bytes refused";
    StepsOldestFirst, Chain, "the steps oldest first";
    OlderStepsUnread, Chain, "a step read although an older one is refused";
    StepPastIsOldest, Chain, "the oldest step where there is no such step";
    StepsFromOne, Chain, "steps numbered from 1";
    NumbersFromFront, Chain, "the numbers' place counted from 0";
    StepBoundsSwapped, Chain, "hi read before lo";
    StepRestCleared, Chain, "values past a step's own cleared";
    EndsRestKept, Chain, "ends past the steps kept, not 0";
    ChainRefusalWrites, Chain, "a refused file's first steps left in ends";

    WriterMost41, ChainWriter, "15: 41 steps taken";
    WriterMost39, ChainWriter, "15: 40 steps refused";
    WriterNoneTaken, ChainWriter, "15: no step taken as an empty file";
    WriterFifteenLast, ChainWriter, "15 tested after the steps";
    WriterTenFirst, ChainWriter, "10 tested before the steps";
    WriterTenAtEqual, ChainWriter, "10: an output just long enough refused";
    WriterTenWrites, ChainWriter, "10: what fits is written";
    WriterCoordsUnbounded, ChainWriter, "3: more than 65,535 coordinates taken";
    WriterCoordsFour, ChainWriter, "3: more than 65,535 coordinates get 4";
    WriterFourBeforeThree, ChainWriter, "4 tested before 3";
    WriterNewestFirst, ChainWriter, "the steps tested newest first";
    WriterThreesFirst, ChainWriter, "every step's 3 tested before any step's 4";
    WriterFirstStepAlone, ChainWriter, "only the oldest step tested";
    WriterCountUnchecked, ChainWriter, "4: any count taken";
    WriterCountAtLeast, ChainWriter, "4: a count too large taken";
    WriterValuesRunOut, ChainWriter, "4: values that run out taken as zeros";
    WriterLinkToTrailer, ChainWriter, "the link to the previous trailer's front";
    WriterLinkToStep, ChainWriter, "the link to the previous step's front";
    WriterLinkBigEndian, ChainWriter, "the link written big-endian";
    WriterStartZero, ChainWriter, "start 0";
    WriterStartAbsolute, ChainWriter, "start counted from the file's front";
    WriterOrderReversed, ChainWriter, "the steps written newest first";
    WriterNanKept, ChainWriter, "a NaN's own pattern written";
    WriterRestCleared, ChainWriter, "output past the file cleared";

    SeventeenFirst, Exact, "17 tested before 18";
    SeventeenCounts, Exact, "17: a refused term counts";
    ZeroTimesInfinityTaken, Exact, "17: 0 times infinity or NaN taken as 0";
    ZerosUncounted, Exact, "18: a free motion or product of 0 not counted";
    Product33Taken, Exact, "18: a 33rd product taken";
    FullAtMostOnly, Exact, "18: more than 32 products held, and another taken";
    HiddenDigitOfSubnormals, Exact, "terms: subnormal numbers with the hidden digit";
    SubnormalsTooLow, Exact, "terms: subnormal numbers one exponent too low";
    SignsIgnored, Exact, "terms: the signs left out";
    UnitsTooLarge, Exact, "terms: a free motion in units of 2^-2147";
    ProductRounded, Exact, "terms: a product's lower half cut off";
    SixtySixWords, Exact, "66 words";
    SignOfRounded, Exact, "sign: that of the rounded sum";
    SignOfTopWord, Exact, "sign: that of the top word alone";

    RowSeventeenFirst, ExactRow, "row: 17 tested before 18";
    RowOf33, ExactRow, "row: more than 32 products taken";
    RowLooksPast, ExactRow, "row: 17 for a value past the shorter slice";
    RowWithoutFree, ExactRow, "row: the free motion left out";
    RowAddsToLent, ExactRow, "row: added to what the words hold";
    RowRefusalClears, ExactRow, "row: a refused call clears the words";

    CutOff, Nearest, "nearest: cut off, not rounded";
    TiesAway, Nearest, "nearest: ties away from zero";
    TiesToOdd, Nearest, "nearest: ties to odd";
    MinusZero, Nearest, "nearest: -0 of a negative sum";
    OverflowLargest, Nearest, "nearest: the largest f64 of an overflow";
    InfinityLate, Nearest, "nearest: infinite only from 2^1024 on";
    TwiceRounded, Nearest, "nearest: to 53 digits, then to a subnormal number";
    GuardWordOnly, Nearest, "nearest: digits more than a word below are lost";
    SubnormalsFlushed, Nearest, "nearest: 0 of a subnormal number";

    JoinThirtyTwoRefused, ExactJoin, "join: 32 products in all refused";
    JoinThirtyThreeTaken, ExactJoin, "join: 33 products in all taken";
    JoinCountsWrap, ExactJoin, "join: the counts' sum modulo 2^32 tested";
    JoinEachWithin, ExactJoin, "join: each within 32 products taken, whatever their sum";
    JoinFirstWithin, ExactJoin, "join: the other's products not tested";
    JoinEmptyTaken, ExactJoin, "join: an empty one joined to more than 32 products";
    JoinTwoFreeTaken, ExactJoin, "join: two free motions taken";
    JoinAnyFreeRefused, ExactJoin, "join: one free motion refused";
    JoinFreeOfFirst, ExactJoin, "join: the other's free motion forgotten";
    JoinFreeOfOther, ExactJoin, "join: the first one's free motion forgotten";
    JoinFreeOfBoth, ExactJoin, "join: a free motion only where both have one (& for |)";
    JoinProductsOfFirst, ExactJoin, "join: the other's products not counted";
    JoinWithoutCarries, ExactJoin, "join: word by word, without carries";
    JoinWithoutTopWord, ExactJoin, "join: the top word not added";
    JoinCarryComesBack, ExactJoin, "join: the carry out of the top word added to the lowest";
    JoinCarryOutRefused, ExactJoin, "join: 18 for a carry out of the top word";
    JoinSaturates, ExactJoin, "join: the end of the range for what lies beyond it";
    JoinOfRounded, ExactJoin, "join: the rounded values added";
    JoinRefusalWrites, ExactJoin, "join: a refused call writes the total";
    JoinEighteenFirst, ExactJoin, "join: 18 tested before 10";
    JoinShortOtherTaken, ExactJoin, "join: another that is too short taken, with zeros";
    JoinFlagOfOne, ExactJoin, "join: a free motion only where the second count is 1";
    JoinFlagsAdded, ExactJoin, "join: the second counts added";
}

impl Rule {
    /// Whether this is the error in force.
    pub fn is(self, error: Rule) -> bool {
        self == error && self != Rule::None
    }

    /// Why no input can show this error in what is compared, where none can.
    pub fn unseen(self) -> Option<&'static str> {
        match self {
            Rule::GammaPositiveAtZero => Some(
                "a diagonal within the rank is above 1e-11 of the first, so it is neither zero nor NaN",
            ),
            Rule::StateHiInfinite => Some(
                "near an infinite hi lies no multiplier: the distance to +inf is +inf or NaN; under hi -inf a row's update leaves lo, -inf or NaN, of which a finite lo is AtLo first and the distance from the others is NaN",
            ),
            Rule::ListBackToFront => Some(
                "no order of a list changes its counts, its flags, its largest residual or whether a sum passes the limit",
            ),
            Rule::RayZeroGoesOn => Some(
                "where nothing moves every entry is dropped or NaN: no row is left and the linear part 0 rejects, or the NaN row does",
            ),
            Rule::RayFarOfDropped => Some(
                "a dropped row's size is at most 1e-9 of the largest, and with no row left the linear part 0 has rejected before",
            ),
            Rule::RayLargestOfIdle => Some(
                "an Idle row does not move: its entry is 0, or NaN where its multiplier is infinite, and neither is the larger",
            ),
            Rule::AndResidualMinusZero => Some(
                "joined residuals' zeros are compared without sign against the Rust, which may give either; held against the reference the port's sign is compared",
            ),
            _ => None,
        }
    }
}
