"""What docs/HEADLINE.md shows, in which order, and what it says between the definitions.

`[[Name]]` becomes a link to where the definition of this name is shown."""
from typing import NamedTuple


class Block(NamedTuple):
    """A file under crates/, and what is shown of it, in the notation of tools/headline-lines."""

    path: str
    names: str


class Section(NamedTuple):
    """A heading, what leads on, and what is shown."""

    heading: str
    said: str
    blocks: list[Block]


ABOUT = """Its contracts and definitions. [THEOREM](THEOREM.md) explains it."""

# The two sentences, each with what carries its phrases.
SENTENCES: list[tuple[str, list[tuple[str, str]]]] = [(
    """After any list of page steps, commits and aborts by any number of transactions, the committed transactions, run alone in
    commit order from the empty base, give exactly the replies that they were told, and the base so reached is what the pages
    mean, read through both maps, once the pages of running subtransactions are put back and the operations of open transactions
    are taken back.""", [
        ("any list", "[[Manager::new]], then any [[Manager::act]]s"),
        ("any number of transactions", "64 open, 2^32 or 2^63 - 1 in all: limits of [[MayRefuse]]"),
        ("committed transactions", "`committed` of the [[Course]]"),
        ("alone in commit order", "`alone` of [[IsSerializable]]"),
        ("empty base", "[[empty_base]]"),
        ("exactly the replies", "[[Does]]: there is one"),
        ("were told", "[[Tells]]"),
        ("base so reached", "`base` of [[IsSerializable]]"),
        ("what the pages mean", "`means` of [[KeepsPromiseOver]]"),
        ("both maps", "[[IsRecordOf]], [[PagesMean]]"),
        ("put back", "[[HasCleanPages]], `busy`"),
        ("taken back", "[[UndoneTo]]"),
    ]), (
    """The same holds whenever the lock of running threads is free. Each call of the manager under it is one event, and none is
    lost. Every history passes the checker of traces, and what `run` and `serve_on` return stands in the history.""", [
        ("The same", "[[Manager::keeps_its_promises]]"),
        ("whenever the lock", "`manager` of [[LockedState]]"),
        ("one event", "`course` and `acts` of [[LockedState::act]]"),
        ("none is lost", "`made_by` of [[LockedState]], `first` of [[LockedState::compare]]"),
        ("checker", "[[Manager::passes_the_checker]], [[check]]"),
        ("return", "the [[Outcome]]s of [[run]] and [[serve_on]]"),
        ("in the history", "[[Agrees]]"),
    ]),
]

HOW_TO_READ = """`.rt` is Rattle, Rust with contracts; `.antt` is its logic. Lines are joined, and `pub` and `abbrev` left out.
`in part`: so are fields or clauses, but no `requires`."""
NOTATION: list[tuple[str, str]] = [
    ("`A → B → C`", "functions. The first line that fits counts"),
    ("`Type 0`", "statements"),
    ("`(x : A) →`, `(x : A) ×`", "for each; for some"),
    ("`P → Q`, `P × Q`", "if, then; and"),
    ("`∥ A ∥₁`", "there is one"),
    ("`⊥`, `Unit {0}`", "false; true. A map to `Unit {0}` is a set"),
    ("`∷`, `++`, `≡`, `×`, `→`", "each binds closer than the next, arguments closest"),
    ("`record`", "fields; of a statement: there are such values. `record r { f = v; }` has another `f`"),
    ("`requires`, `ensures`", "holds before a call; after it"),
    ("`ghost name:`", "while no call is at work"),
    ("`x.now`, `x.old`, `x.new`", "what `x` leads to; before the call; after it"),
]

ONE: list[Section] = [
    Section("The contract",
            """Of `course_of` nothing else is said. Every manager comes from `new`, and only `act` and `take_history` change one.
            `steps` calls `act` for each event.""", [
                Block("mlt_manager/src/manager.rt", "Manager.new():course Manager.act():course "
                      "Manager.take_history():course Manager.keeps_its_promises()"),
            ]),
    Section("The main promise", "", [
        Block("mlt_manager/specs/Promises.antt", "KeepsPromises-:main"),
        Block("mlt_manager/specs/Courses.antt", "KeepsPromiseOver IsSerializable"),
    ]),
    Section("Events and answers",
            """`Step` is one step of the operation called, or of an abort; `Whole` is a call with its steps, `WholeUndo` all steps
            of an abort. A step is `Waiting` for a page, `Blocked` by an operation.""", [
                Block("mlt_event/src/event.rt", "Event"),
                Block("mlt_event/src/told.rt", "Told"),
                Block("mlt_event/src/answer.rt", "Answer"),
            ]),
    Section("The course that events tell",
            """Not shown (`meets` of `act`): which limit is reached, what one waits for, when there is no room, how much a whole
            undoing that waits has undone.""", [
                Block("mlt_manager/specs/Courses.antt",
                      "Ops- Life IsBusy- Course opening_course Turns- Tells MayRefuse- MayRefuseCall- reason_at-"),
                Block("mlt_order/specs/Tables.antt", "table_with-"),
            ]),
    Section("Commit order",
            """By [[Does]] an operation, its reply and the base after it fix the base before.""", [
                Block("mlt_order/specs/Runs.antt", "IsSerialBase- Runs-"),
                Block("mlt_order/specs/Interleavings.antt", "UndoneTo- IsInterleaving- items_of- all_items-"),
            ]),
    Section("Bases and steps", "", [
        Block("mlt_object_kinds/specs/Bases.antt", "Base- empty_base- element_at- counter_at- counter_value- size_at-"),
        Block("mlt_manager/specs/Objects.antt", "Does account element- counter-"),
        Block("mlt_object_kinds/specs/Accounts.antt", "max_balance-"),
        Block("mlt_object_kinds/src/operation.rt", "ObjOp ObjReply"),
        Block("mlt_object_kinds/src/account.rt", "AccountOp"),
        Block("mlt_object_kinds/src/element.rt", "ElementOp"),
        Block("mlt_object_kinds/src/counter.rt", "CounterOp"),
    ]),
    Section("What the pages mean",
            """A ghost keeps room for a record that may come back.""", [
                Block("mlt_manager/specs/Headline.antt", "PagesMean- HoldsIn IsRecordOf IsLiveAt-"),
                Block("mlt_page/src/page.rt", "Page"),
                Block("mlt_page/specs/Values.antt", "BucketFields-"),
                Block("mlt_page/src/slot.rt", "Slot"),
            ]),
    Section("First images and clean pages",
            """A *subtransaction*, an operation or the undoing of one, keeps until its end the first image of each page that it
            writes: the page as it was, or `None`.""", [
                Block("mlt_manager/specs/Bases.antt", "HasCleanPages-"),
                Block("mlt_tx/specs/Tables.antt", "KeepsImage- KeepsNoImage-"),
            ]),
    Section("Views",
            """A *view* is the value that memory stands for. `TxId`, `PageNo` and `Key` are numbers, arrays and a `Vec`
            lists.""", [
                Block("mlt_manager/src/manager.rt", "Manager.pages() Manager.first_image()"),
                Block("mlt_page/src/store.rt", "Store.read()"),
                Block("mlt_page/src/bucket.rt", "Bucket="),
            ]),
]

TWO: list[Section] = [
    Section("Under the lock",
            """While the mutex is free, the invariants of [[LockedState]] hold. A desk makes each event by [[LockedState::act]].
            What it has then seen of the past stays its beginning. Not shown: a `run` or a server has one lock.""", [
                Block("mlt_work_desk/src/shared.rt", "Shared:state"),
                Block("mlt_work_desk/src/locked_state.rt", "LockedState:manager,writer,logged,made_by"),
                Block("mlt_work_desk/src/holds.rt", "LockedState.act():course,acts,seen LockedState.compare():first"),
            ]),
    Section("What the manager has executed",
            "", [
                Block("mlt_work_desk/specs/Playing.antt", "HaveMade-"),
                Block("mlt_manager/specs/Courses.antt", "TellsAll- AddsItems-"),
                Block("mlt_trace/src/item.rt", "TraceItem"),
                Block("mlt_manager/src/manager.rt", "Manager.passes_the_checker()"),
                Block("mlt_manager/specs/Promises.antt", "PassesTheChecker-:base,accepted"),
                Block("mlt_trace_check/src/trace_check.rt", "check():accepted,only_accepted"),
            ]),
    Section("What run and serve_on return",
            """Either call may return an error instead. `handed` is what was handed out of the history. Not shown: `run` has an
            outcome of each script, with what it asked for. No contract knows what comes over a socket, and of `serve --endless`
            [less is proved](THEOREM.md#what-no-contract-says).""", [
                Block("mlt_work/src/running.rt", "run():ran,history,made_by"),
                Block("mlt_work/specs/Runs.antt", "HasRunAll-:events,agrees,base"),
                Block("mlt_serve/src/serving.rt", "serve_on():history,made_by,outcomes"),
                Block("mlt_script_serial/src/outcome.rt", "Outcome End"),
            ]),
    Section("Outcomes that agree with a history",
            "", [
                Block("mlt_trace_audit/specs/Agreement.antt", "Agrees-:of_history,without_tx AreOfHistory- "
                      "NumbersAgree-:once IsOnce-"),
                Block("mlt_trace_audit/specs/Outcomes.antt", "IsOfHistory- IsClosedSo- ops_of- closings_of- closing_by-"),
            ]),
]
PARTS: list[tuple[str, list[Section]]] = [("Part one: a list of events", ONE), ("Part two: threads", TWO)]

# Names of the library and the kit that stand in what is shown. `◌` takes the place of what stands around a name. Those without a
# meaning are usual, and have no line.
LIBRARY: list[tuple[str, str]] = [
    ("◌+◌ ◌*◌ ◌^◌ ◌%◌ min ◌<◌ ◌≤◌ ◌≡◌ ◌≢◌ ◌↔◌ Bool true false ◌==◌ if◌then◌else◌ Option None Some Result Vec Mutex Global "
     "nat_cmp nat_le is_some option_copied unwrap_or slice_index_or IfOk IfSome IfNone List [] ◌∷◌ ◌++◌ All Contains length "
     "count_by replicate map map.empty map.len map.get", ""),
    ("ℕ ◌-◌", "natural numbers; 0 where the difference is negative"),
    ("MatchResult", "`MatchResult r P Q`: `P x` of `Ok x`, `Q e` of `Err e`"),
    ("Read", "`R.remaining`: what is left to read, if that is known"),
    ("map.FinMap map.retain_keys", "finite maps, from keys that are so compared; the keys that pass"),
]

NOT_SHOWN_SAID = """The sentences read no more by these names. Those without a row say what they are."""
# What is said of names that stand in what is shown and are not followed, where the comment at the definition says less or more.
# Those without a meaning say it themselves, and have no row.
NOT_SHOWN: dict[str, str] = {
    "GivesWhole": "all was read, at most 16,777,216 bytes: this input",
    "IsAcceptedTrace": "the lines are items, each in its place, with this committed order, and what committed leads to the base",
    "IsBaseOfOutcomes": "what committed leads, in the order of the commits, to this base",
    "IsWant": "memory ran out, or a read or a write failed",
    "HasBegunWith": "its acts and items begin with those of the other one",
    "Pseudo": "a type that a caller picks, with `P.bits_of`, a hash of keys",
    "seen_by": "what was done when it was seen",
    "Closing": "by a commit of a number, or by an abort",
    "begun_txs": "begun, in order",
    "element_cmp": "by sets, then by numbers",
    "with_entry": "with this at the key, or nothing",
    "amount_of": "of a deposit, a withdrawal, an up or a down; else 0",
    **dict.fromkeys("IsOf ManagerFields ScriptForm committed_txs course_of id_of image_of page_at scripts_of_clients trace_text "
                    "past_of IsMade IsWithoutTx MadeWith SLOTS".split(), ""),
}
