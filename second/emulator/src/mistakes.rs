//! Wrong variants: small mistakes that a developer could make, for the comparer's own test.
//!
//! The true emulator is built with `Right`, for which every question below is answered "no" at
//! compile time; so the variants cost it nothing.

/// Which mistake an emulator makes, if any.
pub trait Care: Copy + Default {
    fn wrong(self, mistake: Mistake) -> bool;
}

/// No mistake.
#[derive(Clone, Copy, Debug, Default)]
pub struct Right;

impl Care for Right {
    #[inline(always)]
    fn wrong(self, _: Mistake) -> bool {
        false
    }
}

/// One mistake, or none.
#[derive(Clone, Copy, Debug, Default)]
pub struct Wrong(pub Option<Mistake>);

impl Care for Wrong {
    #[inline(always)]
    fn wrong(self, mistake: Mistake) -> bool {
        self.0 == Some(mistake)
    }
}

macro_rules! mistakes {
    ($($(#[$text:meta])* $name:ident,)*) => {
        #[derive(Clone, Copy, Debug, PartialEq, Eq)]
        pub enum Mistake { $($(#[$text])* $name,)* }

        impl Mistake {
            pub const ALL: &'static [Mistake] = &[$(Mistake::$name,)*];

            pub fn name(self) -> &'static str {
                match self { $(Mistake::$name => stringify!($name),)* }
            }

            pub fn by_name(name: &str) -> Option<Mistake> {
                Mistake::ALL.iter().copied().find(|mistake| mistake.name() == name)
            }
        }
    };
}

mistakes! {
    /// Times compared with plain less-than (document 01, "Easy ways to get it wrong").
    PlainTimes,
    /// Of two times 2^31 apart one is taken as later.
    HalfRangeLater,
    /// TimeSet.p and TimeNotSet.p exchanged.
    TimeMarksExchanged,
    /// TimeSet.p and TimeNotSet.p as document 001 gives them under ENBT (an easy way to get it wrong).
    TimeMarksOf001,
    /// A link request served between prefix bytes (an easy way to get it wrong).
    LinkServedBetweenPrefixes,
    TimerServedBetweenPrefixes,
    /// A queue front taken for a list without asking (an easy way to get it wrong).
    FrontUnasked,
    /// A ring in a timer queue is not refused (an easy way to get it wrong: the endless walk, made finite).
    RingTakenForEnd,
    /// A walk that gives up after a fixed number of processes (an easy way to get it wrong).
    FixedTimerWalk,
    /// Only changed words saved for undo (an easy way to get it wrong).
    OnlyChangedWords,
    /// A word saved at each of its stores (an easy way to get it wrong).
    WordSavedTwice,
    /// A word saved twice in an overlapping move (an easy way to get it wrong).
    OverlapSavedTwice,
    /// A move saves words again that the same step has stored to before.
    MoveForgetsEarlierStores,
    UnsignedGt,
    CarryAtRange,
    LshrHalvesExchanged,
    ByteOrder,
    DepthGrowsOnRefusal,
    UsedGrowsOnRefusal,
    RefusalKeepsIptr,
    IdleNotCleared,
    IdleKeptByRestore,
    SliceZeroedByHighQueue,
    SliceZeroedByEveryStart,
    /// StartNextProcess reads memory as before the step.
    StaleStart,
    /// StartNextProcess sees single stores of the step, but not the bytes that it moved.
    StartMissesMovedBytes,
    /// Every load of the step misses the bytes that it moved.
    LoadsMissMovedBytes,
    /// An interrupt reads the process's Iptr.s as before the step.
    StaleInterrupt,
    /// A move reads its source as before the step.
    StaleMoveSource,
    /// Of two stores to one word the first wins.
    FirstStoreWins,
    /// Moved bytes win over later stores of the step.
    MovedBytesWin,
    /// Insertion reads the queue's front before its own store.
    InsertReadsOldFront,
    GotoSnpFirst,
    PrefixActsOnGotoSnp,
    GotoSnpNotSaved,
    HaltJudgedBeforeStart,
    OldErrorHalts,
    HighestChannelFirst,
    ReadyBeforeRun,
    TimerFlagUnasked,
    LowTimerAtHighPriority,
    NfixShiftsFirst,
    RevLeavesOreg,
    WorkspaceMasked,
    StnlPopsTwo,
    CjPopsWhenTaken,
    SliceBeforeJump,
    SliceOnlyWhenLooping,
    SliceUnasked,
    LendTestsBeforeWrap,
    DivRoundsDown,
    /// #80000000 divided by -1 gives no error.
    LargestQuotientUnchecked,
    RemNeverNegative,
    SignedSubscript,
    CountCheckedAsSubscript,
    WideByteSelector,
    ShiftBy32Keeps,
    ShrSignedCount,
    SignedPartWord,
    /// xword takes the sign bit alone as positive.
    SignBitIsPositive,
    /// cword errs for the least value that fits.
    LeastPartWordRefused,
    WholeCarryWord,
    LongShiftLimit32,
    MoveBackwards,
    /// A move goes by words, even where source and destination are one to three bytes apart.
    CloseMoveByWords,
    /// A move stores the whole of its last word.
    MoveStoresWholeWords,
    MoveKeepsRegisters,
    FirstLeavesBack,
    OddFrontMasked,
    ZeroForENotStored,
    RestoreComparesWptr,
    InterruptClearsSavedBits,
    EqualTimeBehind,
    TinAtItsTime,
    DeleteLeavesEnabled,
    DeleteAsksForEnd,
    PrescalerKept,
    PrescalerOnlyAt63,
    SliceGrowsOn,
    /// The slice grows while a high process has interrupted a low one, as before document 02.
    SliceGrowsAtHighPriority,
    SliceGrowsWhileIdle,
    SliceStopsWhenHalted,
    AltwtKeepsA,
    EnbcSwallowsReady,
    DiscLeavesRequest,
    RunsEmptyChannel,
    StopAsSkip,
    EmptyTransferStarts,
    EmptyMessageRunsNobody,
    OutBringsHeld,
    OutbyteStoresByte,
    ResetchKeepsHeld,
    HeldStays,
    ActiveIsMoving,
    EventMovesPointer,
    PairsInStoreOrder,
    UndoLastToFirst,
    NothingToUndoFirst,
    ClearChecksJournal,
    DepthTimes46Wraps,
    FreshWithoutSpareWord,
    FreshForgetsSaveArea,
    /// The address of an access outside is told without its low two bits.
    OutsideAddressMasked,
    /// An access outside does not end the call, and the last one is told.
    LastAccessOutside,
    FetchIsLoad,
    /// A byte store outside is told as the load of the word around it.
    ByteStoreIsLoad,
    /// The whole source of a move is looked at before its destination.
    MoveSourceFirst,
    /// The whole destination of a move is looked at before its source.
    MoveDestinationFirst,
    /// A move that leaves memory tells where it began.
    MoveTellsItsStart,
    /// A call's frame is stored from its lowest word up.
    CallFrameFromBelow,
    /// take outside is told as a store, give outside as a load.
    TakeAndGiveExchanged,
}
