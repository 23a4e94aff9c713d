//! The document, and the wrong variants that the comparison must catch.

macro_rules! variants {
    (
        $($name:ident: $says:literal),* $(,)?;
        carried: $($of_106:ident: $says_106:literal),* $(,)?;
        written: $($of_101:ident: $says_101:literal),* $(,)?;
        json: $($of_112:ident: $says_112:literal),* $(,)?
    ) => {
        /// One rule changed in each; `Document` changes none.
        #[derive(Clone, Copy, Debug, Default, PartialEq, Eq)]
        pub enum Variant {
            #[default]
            Document,
            $($name,)*
            $($of_106,)*
            $($of_101,)*
            $($of_112,)*
        }

        impl Variant {
            /// Every wrong variant of document 01.
            pub const WRONG: &'static [Variant] = &[$(Variant::$name),*];

            /// Every wrong variant of request #106, which shows in no other call.
            pub const WRONG_CARRIED: &'static [Variant] = &[$(Variant::$of_106),*];

            /// Every wrong variant of request #101.
            pub const WRONG_WRITTEN: &'static [Variant] = &[$(Variant::$of_101),*];
            /// Every wrong variant of request #112, which shows in no other call.
            pub const WRONG_JSON: &'static [Variant] = &[$(Variant::$of_112),*];

            /// What it gets wrong.
            pub fn says(self) -> &'static str {
                match self {
                    Variant::Document => "document 01",
                    $(Variant::$name => $says,)*
                    $(Variant::$of_106 => $says_106,)*
                    $(Variant::$of_101 => $says_101,)*
                    $(Variant::$of_112 => $says_112,)*
                }
            }
        }
    };
}

variants! {
    NotEqUnresolvedYes: "an unresolved NotEq is yes",
    FormerlyLends: "formerly on And's left lends its first row in verdict manner",
    PredicateLendsNothing: "a Predicate on And's left lends nothing",
    ContextAtExamined: "context and scope come from the point examined",
    WindowOpen: "a difference equal to the span is outside the window",
    WindowAhead: "a point later than the one examined is inside the window",
    DifferenceWraps: "the difference of times wraps",
    SpanWraps: "amount times unit wraps",
    PreviousAnyTime: "previous ignores the window",
    SinceTestsAnchor: "since tests left from j on, not from j + 1",
    SinceSkipsNow: "since does not test left at i",
    FormerlyUpward: "formerly in verdict manner scans upward",
    ExistsKeepsBinding: "exists does not unbind its variable",
    AggregateKeepsBindings: "an aggregate does not unbind its binders",
    OrRepeats: "Or gives right's rows that are already there",
    FormerlyOnce: "formerly gives a row once only",
    SinceRepeats: "since gives a row again",
    ExistsRepeats: "exists gives a row again",
    ProjectionRepeats: "projection keeps every occurrence",
    SumSaturates: "the sum is clamped at each addition",
    ArithmeticWraps: "arithmetic wraps",
    OrderingOfEquals: "Le and Ge hold of equal values that are no Ints",
    DecimalByText: "decimals are equal by text only",
    DecimalFiveDigits: "a decimal may have five digits after the point",
    WildcardNeedsNoField: "a wildcard needs no field",
    VariableTwice: "a variable seen twice need not agree",
    OwnPartWins: "an entity's own id or type wins over a supplied one",
    OwnPartOverObjects: "an entity's own part wins over a supplied Null or object",
    PlainDescent: "context and attributes are looked up by plain descent, as in document 01",
    FirstWritten: "of two values under one key the first written stands",
    ShortestNameOnly: "at each object the shortest name that fits is taken",
    NoWayBack: "no way back to a shorter name where the longest leads nowhere",
    LoggedJoined: "logged fields are looked up by joined names",
    PartIsNoString: "an entity's own part differs from a String of the same text",
    EqNeverBinds: "Eq in row manner binds nothing",
    TpBoundEmpty: "Tp in row manner gives an empty row where it was bound",
    PredicateGivesBound: "a Predicate's row holds the variables that were bound before",
    FirstUnresolvedStops: "a comparison leaves right alone where left is unresolved",
    FilterPaysOnce: "a filter in row manner pays one step",
    LendingIsFree: "a Predicate tried as And's left costs no step",
    AndDropsLeftRows: "And drops each left row once it is read",
    ExistsHoldsOn: "exists in verdict manner never drops its rows",
    StepsOneShort: "steps are exhausted one step early",
    RoomOneShort: "room is exhausted one row early",
    BindersFirst: "a binder not below V is refused before the walk",
    StartIntByNumber: "a starting binding may name an Int by its value number",
    MostStepsRefused: "a step limit of exactly the most is refused",
    WorkspaceLeft: "the workspace is left as it was",
    OutputCut: "an output too short is filled as far as it goes",
    Depth33: "value depth 33 passes",
    Height65: "node height 65 passes",
    NamesRepeat: "an object may hold a name twice",
    SurrogatesPass: "UTF-8 surrogates pass",
    DotsRefused: "a dot in a name inside context or attributes is refused still",
    DottedPathPasses: "a path's own name may hold a dot",
    QuotedTypePasses: "a quotation mark in an entity list's type passes",
    NullLiteralPasses: "a Null deep in a literal passes",
    AggregateArgument: "a Predicate's argument may be an aggregate",
    EmptyRunAnywhere: "a run of no items may start anywhere",
    EntityRepeats: "an entity list may hold an entity twice",
    RowsInPairOrder: "rows are equal only with their pairs in the same order, as in the Rust";
    carried:
    CarriedAnyCondition: "any condition is answered",
    CarriedLeast: "the least point that satisfies it is shown",
    CarriedPreviousShowsI: "a yes of previous shows the point itself",
    CarriedYesAlone: "a yes of since lists its anchor alone",
    CarriedAnchorAlone: "a failed anchor is listed without its failure",
    CarriedLastFailure: "a failed anchor is listed with the last failure",
    CarriedTestsAnchor: "left is tested at the anchor",
    CarriedUpward: "failed anchors are listed from the earliest on",
    CarriedNoWindow: "the window is left out",
    CarriedAsksOutside: "points outside the window are asked",
    CarriedAsksOn: "left is asked on after its first failure",
    CarriedScansOn: "formerly is scanned on after the yes",
    CarriedMeterRunsOn: "steps run on from question to question",
    CarriedMostOfAll: "a refused question tells the most rows of all questions",
    CarriedOwnStep: "the scan's own node costs a step",
    CarriedContextAtPoint: "context and scope come from the point of each question",
    CarriedAnswerNumbers: "an answer tells what its last question took",
    CarriedFifteenNumbers: "15 tells what the last question took",
    CarriedShortFirst: "15 comes before questions that are left",
    CarriedListCut: "a list too short is filled as far as it goes";
    written:
    WrittenNotJoined: "equal strings are not joined",
    WrittenShorterFirst: "shorter strings come first",
    WrittenTextKept: "text is copied as it stands",
    WrittenOutsideRenumbered: "a number outside the strings becomes the last one's",
    WrittenDecimalLeft: "a Decimal's string is left as it was",
    WrittenIdLeft: "an Entity's id is left as it was",
    WrittenPointKindLeft: "a point's kind is left as it was",
    WrittenPredicateLeft: "a Predicate's action and kind are left as they were",
    WrittenMarkedLeft: "a marked list word is left as it was",
    WrittenMarkOfOne: "only 1 is a mark",
    WrittenEveryWord: "every list word is marked",
    WrittenMarksLack: "marks may be fewer than list words",
    WrittenMarksUnasked: "a place used against its mark passes",
    WrittenPointsAsNodes: "a point's place used against its mark is 6",
    WrittenLeavingPasses: "a string that leaves text is cut and passes",
    WrittenCountsRecords: "2 counts strings before they are joined",
    WrittenLongInput: "2 where the unsorted case is longer than a case may be",
    WrittenRoomFirst: "10 comes before 2",
    WrittenRoomLast: "10 comes after 6",
    WrittenFullRoomRefused: "a room exactly as long as the finished case is too short",
    WrittenShortFirst: "14 comes before 3",
    WrittenFullOutputRefused: "an output exactly as long as the finished case is too short",
    WrittenOutputTouched: "the output is filled though the case is refused",;
    json:
    JsonLoneSurrogate: "a lone surrogate is taken",
    JsonFractionCut: "a fraction is cut off",
    JsonOverflowWraps: "an integer beyond i64 wraps",
    JsonSecondDropped: "the second of two equal names is dropped",
    JsonDepth33: "a value at level 33 is taken",
    JsonFormWithSecond: "`__entity` with a second member is an entity",
    JsonUnknownSkipped: "an unknown field is skipped",
    JsonPlaceOffByOne: "places are one too high",
    JsonTextOrder: "members stay in the text's order",
    JsonSlashEscaped: "`/` is escaped on export",
    JsonTopAmbiguous: "25 is asked only of what a point names itself",
    JsonBlankLineSkipped: "a blank line is skipped",
    JsonMarkSkipped: "a byte order mark is skipped",
    JsonNullIsNone: "`null` is no principal",
    JsonEntitiesOptional: "entities may be left out",
    JsonFormIsRecord: "a Cedar form may stand for logged, context or attributes",
    JsonFormTwoLevels: "a Cedar form takes two levels",
    JsonFormRawName: "a Cedar form's name is compared as it is spelled",
    JsonAnyFunction: "`__extn` takes any function",
    JsonLookBlind: "the look ahead takes an escaped quotation mark for a string's end",
    JsonFourthAtItem: "a fourth item of an entity is told at the item",
    JsonNamesRaw: "names are compared as they are spelled",
    JsonRepeatedLate: "a repeated name is told after its value",
    JsonLeadingZero: "an integer may begin with 0",
    JsonNumberEarly: "a fraction is told at its point",
    JsonLeastRefused: "the least integer is refused",
    JsonControlTaken: "a control character is taken",
    JsonOverlong: "overlong UTF-8 is taken",
    JsonUtf8AtStart: "bad UTF-8 is told at the character's first byte",
    JsonEntitiesTextOrder: "entities stay in the text's order",
    JsonFieldsTextOrder: "context is laid out before logged",
    JsonStringsJoined: "equal strings share a record",
    JsonRunAfter: "a run is laid out after the runs of its children",
    JsonValueFirst: "a member's value is laid out before its name",
    JsonMarksAll: "an attribute object is marked as a string",
    JsonUpperHex: "control characters are written with upper-case digits",
    JsonShortEscapes: "line breaks are written as \\n",
    JsonNoneNull: "no principal is written as null",
    JsonUnreached: "25 is given for an object that nothing reaches",
    JsonShortFirst: "14 comes before 25",
    JsonExactRefused: "an output that is exactly filled is too short",
}
