//! Seeded faults: wrong readings of the rules that the model takes on request, so that the comparison can be tried. Without
//! a request none is on, and the model is that of the rules.

use std::cell::Cell;

macro_rules! faults {
    ($($group:ident { $($name:ident: $what:literal,)* })*) => {
        #[derive(Clone, Copy, PartialEq, Eq, Debug)]
        pub enum Fault { $($($name,)*)* }

        /// The faults of one part of the model, and what each gets wrong.
        pub fn of(part: &str) -> Option<&'static [(Fault, &'static str)]> {
            $(if part == stringify!($group) {
                return Some(&[$((Fault::$name, $what),)*]);
            })*
            None
        }

        /// The fault of this name.
        pub fn named(name: &str) -> Option<Fault> {
            $($(if name == stringify!($name) {
                return Some(Fault::$name);
            })*)*
            None
        }
    };
}

faults! {
    table {
        FrontOf37: "an image of exactly 36 bytes is too short",
        NumberOverlooked: "bytes 2..3 are not tested",
        KindOverlooked: "the kind of a contents entry is not tested",
        OneGroupMore: "nine groups are allowed",
        OneRouteMore: "sixty-five routes are allowed",
        EntryPlaceFromZero: "a bad contents entry's place counts from the first entry",
        LengthBeforeContents: "the total length is tested before the contents",
        RowsBeforeLength: "rows are tested before the total length",
        LongerIsFine: "an image longer than its contents is accepted",
        ProtocolThree: "protocol 3 is allowed",
        GroupJustPast: "a connection may name the group after the last",
        AutomaticTwo: "automatic may be 2",
        SendSizeSeven: "a send size of 7 is allowed",
        SendSizeOneMore: "a send size of 1,473 is allowed",
        LimitOnTcp: "a TCP connection may have an alive limit",
        LimitAsByte: "an alive limit on a TCP connection counts by its last byte",
        LimitOneByte: "an alive limit above 255 is a bad row",
        AnyMark: "the second byte of a route is not tested",
        MarkOnUdp: "a route of a UDP connection may be marked",
        MarkedLongestFree: "the longest payload of a marked route may be any number",
        ConnectionJustPast: "a destination may name the connection after the last",
        LongestOneMore: "a longest payload of 1,465 is allowed for a route",
        HeaderForgotten: "a destination's longest payload may fill the send size, without 8 more",
        EarlierBlamed: "of two routes that share connection and id, the earlier is the bad one",
        NeighbourOnly: "a route is compared with the row before it alone",
        IdAlone: "routes are compared by id, whatever the connection",
        DestinationsById: "destinations are compared by id and connection, not by PDU",
        LastRowSkipped: "the last destination is not tested",
        DestinationsFirst: "destinations are tested before routes",
    }
    walk {
        ZeroGroupsOff: "a route with groups 0 is off when all switches are",
        EveryBitNeeded: "a route is on only when the switches have all of its groups' bits",
        RouteOfAnother: "a route counts for its id on any connection",
        LongestIsTooLong: "a payload of exactly the longest length is too long",
        LengthBeforeSwitch: "22 is tested before 21",
        RouteAmongOwn: "the route is counted among the routes of its connection",
        TcpWalks: "a walk on a TCP connection is allowed",
        EndIsBeyond: "a place at the end counts as beyond it",
        CutHeaderTold: "the bytes of a cut header are reported as its id",
        OneByteBeyond: "a length one byte beyond the end is no drop 23",
        CutLast: "23 is tested after 20, 21, 22",
        CutStaysInside: "the place after a 23 is behind its header, not the end",
        DropNotSkipped: "the payload of a dropped header is not skipped",
        ConnectionPastIsTcp: "a walk on a connection that is not there gets 3",
        PlaceBeforeConnection: "the place is tested before the connection number",
        ConnectionAsByte: "a connection number counts by its last byte",
    }
    segment {
        FreshHeaderEachTime: "each segment is taken to begin with a header",
        AlwaysFromMemory: "a payload is copied to receive memory also when it stands whole in the segment",
        SwitchAtTheEnd: "the switch is tested again when the payload ends",
        SkipEndsEarly: "one byte too few is skipped",
        NothingSkipped: "the payload of a dropped header is taken for the next header",
        SkipBelow65536: "a skip counts in two bytes",
        FirstRouteAlways: "every PDU is given the first route",
        MarkEarly: "a transfer ends, with its mark, one byte early",
        LongestApplied: "22 is applied to a transfer, too",
        PieceAsPdu: "a piece is handed out as a PDU",
        PieceWaits: "a piece is handed out only where the segment has all that is to come",
        TransferHeld: "a transfer is held in receive memory where it fits there",
        SwitchDuringTransfer: "a piece is dropped when its route is switched off meanwhile",
    }
    events {
        SoundUnasked: "an unsound state is not refused",
        OpenAutomatic: "open is allowed on an automatic connection",
        OpenWithClose: "open is allowed with close wanted",
        CloseOffline: "close is allowed offline without open wanted",
        CloseKeepsOpen: "close leaves open wanted",
        ConnectedToAnyone: "connected is allowed with a wildcard remote",
        LostKeepsPart: "lost keeps the receive part",
        LostKeepsSend: "lost keeps the send bytes",
        LostKeepsRemote: "lost keeps the remote",
        LostForgetsClose: "lost clears close wanted",
        RemoteWhileOnline: "set remote is allowed online",
        SwitchesFromTheTop: "switch 0 is the highest bit",
        SwitchGetsThree: "a switch number above 31 gets 3",
        CloseResetsSwitches: "a closing tick resets the switches",
        ClosingTickGoesOn: "a closing tick goes on to reconnect",
        TickKeepsOpen: "a tick that opens leaves open wanted",
        TickLooksAtTheRow: "a tick tests the configured remote for a wildcard",
        DueOneTickEarly: "a timer is due one tick early",
        FewerFieldsWin: "the wildcard record beats the exact one",
        FirstRowWins: "the lowest number wins, whatever is equal",
        HighestWinsTies: "at equality the highest number wins",
        AcceptOnline: "accept chooses online members, too",
        OfflineMember: "an offline member counts",
        ClosingMember: "a member with close wanted counts",
        GroupOfAnyProtocol: "a datagram may name a TCP group",
        HalfSourceAllowed: "a source with only its port 0 is allowed",
        SourceNotTaken: "the chosen connection keeps its remote",
        CloseOverlooked: "a segment is taken with close wanted",
        FourBeforeThree: "4 is tested before 3",
        DropsCountTwice: "a dropped header adds 2",
        CutNotCounted: "drop 23 is not counted",
        OtherCount: "drops are counted for the other protocol",
        CountWraps: "a count at its top starts again at 0",
        ValueAfterClearing: "the value read is the one after clearing",
        OffDestinationsChecked: "a destination that is switched off can refuse a transmit",
        DestinationAmongOn: "the destination is named by its number among those of the PDU",
        StoredBeforeAllChecked: "a destination is stored to before the next is checked",
        LastNotStored: "of several destinations, the last gets nothing",
        ExactFitIsFull: "a payload that fills the send size exactly gets 8",
        SevenBeforeFour: "7 is tested before 4",
        EightBeforeSeven: "8 is tested before 7",
        DueTimerRunsOn: "a trigger leaves the timer running",
        DueStartsTimer: "the timer starts although the buffer is due",
        TimerGrows: "the timer becomes the larger of itself and the timeout",
        OneByteToSpare: "an out buffer of exactly the waiting bytes is too short",
        EmptyTakeCounts: "an empty take counts as one",
        RemoteAfterTheTake: "the remote given is the one after the take",
        TakeKeepsTimer: "a take leaves the timer running",
        TakeLooksAtTheRecord: "00582 and 00644 look at the record's remote",
        No00582: "00582 is not applied",
        No00644: "00644 is not applied",
    }
    transfers {
        CancelAlways: "cancel gets 0 when no transfer runs",
        CancelEnds: "cancel ends the transfer itself",
        CancelNotAutomatic: "cancel gets 3 on an automatic connection",
        CancelOnce: "cancel gets 3 where close is wanted already",
        TickTellsNothing: "a tick does not tell that it ended a transfer",
        LossTellsNothing: "a loss does not tell that it ended a transfer",
        FailedOfTheLastTick: "of several ticks the last one's failed is told",
        FailedFromTheTop: "connection 0 is the highest bit of what a tick tells",
    }
    silences {
        AliveByAny: "the alive timer is started by any datagram",
        AliveByWalk: "a walk starts a running alive timer again",
        ExpiryGoesOn: "the tick that lets a connection go goes on to online",
        DatagramClearsMark: "a datagram clears the mark that the upper layer set the remote",
        ExpiryKeepsSend: "the send bytes are kept where a connection is let go",
        AliveOnce: "a datagram does not start a running alive timer again",
        AliveByAddress: "a datagram that replaces a port alone starts no alive timer",
        ExpiryTooSoon: "a connection is let go one tick early",
        MarkOverlooked: "a connection is let go although the upper layer set the remote",
        StopEndsTick: "the tick that only stops the alive timer does no more",
        ExpiryKeepsRemote: "a connection that is let go keeps its remote",
        ExpiryKeepsDue: "a connection that is let go stays due",
        ConfiguredIsUnmarked: "setting the configured remote sets no mark",
        RefusedRemoteMarks: "a set remote that is refused sets the mark",
        TakeKeepsMark: "00582 keeps the mark",
        TakeKeepsAlive: "00582 leaves the alive timer running",
        LostKeepsMark: "lost keeps the mark",
        CloseKeepsMark: "a closing tick keeps the mark",
        ConnectedClearsMark: "connected clears the mark",
        AcceptClearsMark: "accept clears the mark",
        AlivePastLimit: "an alive timer above the limit is sound",
        AliveOffline: "an alive timer on a connection that is not online is sound",
    }
    selections {
        OldTie: "more equal fields win, and the two kinds of half match tie",
        PortFirst: "any address with the port beats the address with any port",
    }
    recordings {
        SignedDistance: "a distance is a signed number, so a backward stamp is never too far",
        TicksBeforeRefusal: "the ticks of a refused or cut entry are run",
        FirstStampCounted: "the first stamp counts as distance from 0",
        LastBodyShort: "a recording that ends with its last body lacks a byte",
        OneByteLacks: "a body that lacks one byte is not cut",
        NumberOnly: "answers are compared by their number alone",
        WrapLosesATick: "a distance across the wrap is one tick short",
        LongestRefused: "a distance of 65,535 ticks is refused",
        OneTickMore: "a distance of 65,536 ticks is run",
        MostEntriesRefused: "4,000 entries are over the limit",
        OneEntryMore: "4,001 entries are allowed",
        MostBodyRefused: "a body of 4,096 bytes is over the limit",
        OneByteMore: "a body of 4,097 bytes is allowed",
        EditionAfterContents: "the contents are tested before the edition",
        LimitBeforeContents: "the number of entries is tested before cut contents",
        CutBodyLast: "a cut body is tested last",
        NumberBeforeDistance: "the event number is tested before the distance",
        ZeroBeforeNumber: "the zero field is tested before the event number",
        FitBeforeZero: "the body is tested before the zero field",
        TicksKnown: "event 0 is known in a recording",
        CancelUnknown: "event 16 is unknown",
        OneNumberMore: "event 17 is known",
        StartsUnfit: "takes of kinds 3, 4 and 5 do not fit",
        PieceHoldsBytes: "the bytes of a piece stand in its take",
        LastDifference: "the last difference is told, not the first",
        DifferenceEnds: "nothing is run after a difference",
        RestRefused: "bytes after the last body are refused",
    }
    sheets {
        FirstSwitchWins: "the first switch of a group wins, not the last",
        OnAndOff: "a bit forced on and later off is kept in both words",
        RefusedToZero: "a refused switch is applied to connection 0",
    }
    tallies {
        SmallestFromZero: "the smallest length starts at 0",
        TransferAtStart: "a transfer counts at its start",
        DropsFromCounts: "drops are those of the module's counts, which can be cleared",
        RefusedHalfAdded: "of a run that is refused, what fits is added",
        SumWraps: "a sum that passes 64 bits starts again at 0",
        SmallestOfNone: "a join takes the smaller length also where one side has no PDU",
        LargestOfTheLast: "a join takes the largest length of the later report",
        EmptyTransferForgotten: "a transfer of length 0 is not counted",
        LastPieceAlone: "a transfer counts with the length of its last piece",
        UnfinishedAdded: "the pieces of a transfer add their bytes before it ends",
        CutUncounted: "drop 23 is not counted",
        DifferingUncounted: "an entry that differs is not counted",
        EndedEarlyLeftOut: "of a recording that is refused or cut midway, nothing is counted",
        LeftOutIsFine: "the last word is OK though something was left out",
    }
    frame {
        FrameOneMore: "a payload of 1,465 bytes may be framed",
        RoomForPayloadOnly: "an out buffer as long as the payload is long enough",
        ExactRoomShort: "an out buffer of exactly 8 + length is too short",
        RoomBeforeLength: "9 is tested before 7",
        RefusedFrameWrites: "a refused framing writes the first byte",
        LengthWithHeader: "the length in the header counts the header, too",
        RestCleared: "the bytes after the frame are set to 0",
    }
}

thread_local! {
    static ON: Cell<Option<Fault>> = const { Cell::new(None) };
}

/// True when this fault is asked for.
pub fn seeded(fault: Fault) -> bool {
    ON.with(|on| on.get() == Some(fault))
}

/// What is right, or what the fault makes of it.
pub fn or<T>(fault: Fault, right: T, wrong: T) -> T {
    if seeded(fault) {
        wrong
    } else {
        right
    }
}

/// Runs `work` with a fault on.
pub fn with<T>(fault: Fault, work: impl FnOnce() -> T) -> T {
    ON.with(|on| on.set(Some(fault)));
    let result = work();
    ON.with(|on| on.set(None));
    result
}
