//! The ways in which a fake can be wrong, one at a time.

use super::shows::Shows;

pub struct Kind {
    pub wrong: Wrong,
    pub name: &'static str,
    pub shows: Shows,
}

/// Name, option word and place of each kind are said in one line.
macro_rules! kinds {
    ($($variant:ident $name:literal $shows:ident;)*) => {
        #[derive(Clone, Copy, Debug, PartialEq, Eq)]
        pub enum Wrong {
            $($variant),*
        }

        pub const KINDS: &[Kind] = &[
            $(Kind { wrong: Wrong::$variant, name: $name, shows: Shows::$shows }),*
        ];
    };
}

kinds! {
    // The cycle rules.
    Head2E "head-2e-as-00" Runs;
    EarlyHead "head-one-cycle-early" Runs;
    AckLate "ack-one-cycle-late" Both;
    StaleAck "ack-from-shut-output" Both;
    TurnAtHolder "turn-at-holder" Runs;
    BoardPriority "priority-over-board" Runs;
    NoPriority "priority-ignored" Runs;
    IdlePriority "priority-asks-alone" Runs;
    SpareBits "spare-bits-read" Runs;
    HeaderWhileRunning "header-while-running" Runs;
    RoutingWins "routing-beats-start" Runs;
    StartHoldsHolder "holder-stays-at-start" Runs;
    PhaseAtStart "running-after-start" Runs;
    UnaskedHolder "unasked-holder-cleared" Runs;
    ShutPasses "shut-output-passes" Runs;
    LowNotCounted "low-askers-not-counted" Probe;
    NoReportAtStart "no-report-at-start" Probe;
    GatesTurn "turn-at-holder-in-gates" Probe;

    // Replay.
    FourBeforeOne "refusal-4-before-1" Runs;
    ThreeBeforeFour "refusal-3-before-4" Runs;
    TwoBeforeFour "refusal-2-before-4" Probe;
    ThreeBeforeTwo "refusal-3-before-2" Probe;
    CaptureBeforeState "capture-before-state" Probe;
    IndexPlusOne "index-off-by-one" Runs;
    LastIndex "index-of-last" Runs;
    BitFourUnseen "bit-4-unseen" Runs;
    LimitLow "limit-12287" Runs;
    LimitHigh "limit-12289" Runs;
    ShortLength "length-of-16-bits" Captures;
    BeyondAnswer "byte-beyond-answer" Probe;
    PartialWrite "refused-but-written" Probe;
    RefusedReset "refused-state-reset" Probe;

    // The listing and the way it is printed.
    NoHeading "no-heading-when-empty" Replay;
    HeadingFirst "heading-before-refusal" Replay;
    HexCycle "cycle-in-hex" Replay;
    NoIndex "index-not-printed" Captures;
    LowerHex "lower-case-hex" Runs;
    NoLastNewline "no-last-newline" All;
    CarriageReturn "carriage-returns" All;
    TrailingBlank "trailing-blank" All;
    Silent "nothing-printed" All;
    ExtraLine "line-too-many" All;
    Chatter "chatter-on-stderr" All;
    BadStatus "exit-status-3" All;
    Endless "endless-output" All;

    // States handed in, saved and taken up.
    StateByNumber "state-order-7-8-14" Probe;
    EightBeforeSeven "state-order-8-before-7" Probe;
    HolderOfShut "holder-of-shut-unseen" Probe;
    EightIgnoresShut "refusal-8-for-shut" Probe;
    NineFirst "save-9-first" Probe;
    SaveShort "save-into-17" Probe;
    SaveBeyond "save-byte-beyond" Probe;
    HoldersReversed "holders-reversed" Probe;
    SixFirst "take-6-first" Probe;
    TakeKeeps "take-refused-keeps" Probe;
    TakeEightUnseen "take-8-unseen" Probe;

    // The gate evaluator.
    TwelveBeforeEleven "eval-12-before-11" Probe;
    ElevenPass "eval-11-pass-first" Probe;
    ThirteenBeforeTen "eval-13-before-10" Probe;
    OwnNet "eval-own-net-read" Probe;
    UnusedField "eval-unused-unseen" Probe;
    NetLimit "eval-64-refused" Probe;
    ShortCount "eval-count-32-bits" Probe;
    HighInput "eval-bit-63-unseen" Probe;
    KindEight "eval-kind-8-pairs" Probe;
    NandOfFour "eval-nand-of-4" Probe;
    NetIndex "eval-index-is-net" Probe;

    // The requests of the probe.
    FlagsAsGiven "flags-as-given" Probe;
    IgnoredBits "cycle-refuses-bits" Probe;
    LongCycle "cycle-payload-31" Probe;
    GoesOn "too-long-goes-on" Probe;
    CutUnsaid "cut-short-unsaid" Orders;
    UnknownBeforeCut "unknown-before-cut" Probe;
    BufferFirst "buffer-before-malformed" Probe;
    LowLongest "longest-65535" Probe;

    // Frames that are written.
    HeadersEarly "headers-one-record-early" Orders;
    AcksNotAtStart "acks-not-at-start" Orders;
    AcksReversed "acks-reversed" Orders;
    AckBitsKept "ack-bits-7-to-4-kept" Orders;
    SpareDropped "spare-bits-dropped" Orders;
    BodyStops "body-stops-at-zero" Orders;
    NotCleared "frame-not-cleared" Orders;
    FrameBegun "refused-frame-begun" Orders;
    FrameBeyond "frame-record-beyond" Probe;
    FrameShort "frame-into-one-byte-less" Probe;
    GapZero "gap-0-allowed" Orders;
    GapLow "gap-limit-15" Orders;
    GapHigh "gap-limit-17" Orders;
    LengthLax "length-gap-1-allowed" Orders;
    LengthStrict "length-gap-2-refused" Orders;
    LengthLow "length-limit-4095" Orders;
    LengthHigh "length-limit-4097" Orders;
    BodyLow "body-limit-63" Orders;
    BodyHigh "body-limit-65" Orders;
    EndingZero "ending-zero-allowed" Orders;
    LastLate "last-byte-at-te-1-allowed" Orders;
    LastEarly "last-byte-at-te-2-refused" Orders;
    CellByCell "refusals-cell-by-cell" Orders;
    TwentyOneFirst "refusal-21-before-20" Orders;
    TwentyTwoFirst "refusal-22-before-21" Orders;
    TwentyThreeFirst "refusal-23-before-22" Orders;
    TwentyFourFirst "refusal-24-first" Probe;

    // Cells that are read.
    ReadOwn "read-own-headers-only" Probe;
    ReadFlags "read-active-in-byte-0" Probe;
    ReadKeeps "read-keeps-zeros" Probe;
    ReadStops "read-stops-at-zero" Probe;
    ReadAlone "read-header-alone-unseen" Probe;
    ReadHalf "read-part-of-record" Probe;
    ReadModulo "read-input-modulo-4" Probe;
    ReadPart "read-part-written" Probe;
    ReadTight "read-exact-fit-unseen" Probe;
    ReadUncounted "read-unfit-counts-0" Probe;
    ReadBeyond "read-byte-beyond" Probe;

    // Orders, and the program that takes them one after the other.
    LowFirst "order-length-low-first" Orders;
    HeaderOfNone "order-header-without-body" Orders;
    LeftOver "order-left-over-unseen" Probe;
    OrderBufferFirst "buffer-before-order" Probe;
    FramesFromOne "frames-from-1" Write;
    FrameHex "frame-number-in-hex" Write;
    FrameByte "frame-number-8-bits" Write;
    PastRefused "goes-on-when-refused" Write;
    FramesLost "frames-before-lost" Write;
    CutRefused "cut-order-refused" Write;
    EndCut "end-said-cut-short" Write;
    SaidOnOutput "refusal-on-output" Write;
    RefusedStatus "refused-status-1" Write;

    // Two texts compared, and the piece.
    PlaceLate "place-one-late" Texts;
    PlaceEarly "place-one-early" Texts;
    PlaceFromOne "place-from-1" Texts;
    PlaceHex "place-in-hex" Texts;
    PlaceByte "place-8-bits" Probe;
    BeginningShown "same-if-beginning-shown" Texts;
    BeginningDue "same-if-beginning-due" Texts;
    OtherText "piece-of-other-text" Texts;
    Comma "run-cut-at-comma" Texts;
    Point "run-cut-at-point" Texts;
    Nought "run-cut-at-0" Texts;
    Nine "run-cut-at-9" Texts;
    Plus "2b-as-numeral" Texts;
    Minus "2d-as-numeral" Texts;
    Slash "2f-as-numeral" Texts;
    Colon "3a-as-numeral" Texts;
    HighBit "bit-7-of-numeral-unseen" Texts;
    NotLeft "run-not-to-the-left" Texts;
    NotRight "run-not-to-the-right" Texts;
    OtherExtended "other-byte-extended" Texts;
    PairCutTaken "text-beyond-payload" Probe;
    PairLowFirst "text-length-low-first" Probe;
    SameBare "same-without-dash" Probe;

    // What a head shows.
    ZerosKept "head-zeros-kept" Texts;
    ZerosAtEnd "head-zeros-kept-inside" Texts;
    ColumnBefore "head-column-before" Texts;
    LastRecordLost "head-last-record-lost" Texts;
    FullWraps "full-buffer-wraps" Probe;
    FullMovesOn "full-buffer-moves-on" Probe;
    HeadPartUnput "head-part-not-put" Probe;
    HeadCountsAll "head-counts-all" Probe;
    HeadByteBeyond "head-byte-beyond" Probe;
    HeadRestCleared "head-rest-cleared" Probe;
    HeadPartRead "head-part-of-record" Probe;
    HeadModulo "head-modulo-4" Probe;
    HeadBufferFirst "buffer-before-head" Probe;

    // The program that reads back.
    CutLate "refusal-25-after-capture" Readback;
    EndRefused "refusal-25-behind-texts" Readback;
    EmptyTaken "empty-input-taken" Readback;
    MissingTaken "missing-texts-taken" Readback;
    CutTaken "cut-text-taken" Readback;
    LengthInText "length-byte-in-text" Readback;
    LengthOfAll "length-counts-itself" Readback;
    DueZeros "zeros-dropped-from-due" Readback;
    ShownShort "shown-cut-at-256" Readback;
    OutputShort "output-cut-at-65536" Readback;
    TextsCounted "texts-counted-as-capture" Readback;
    InputShort "input-cut-at-65536" Readback;
    LinesExchanged "lines-exchanged" Readback;
    LinesFirst "lines-before-refusal" Readback;
    SameDash "same-with-dash" Readback;
}

pub fn by_name(name: &str) -> Option<Wrong> {
    KINDS
        .iter()
        .find(|kind| kind.name == name)
        .map(|kind| kind.wrong)
}
