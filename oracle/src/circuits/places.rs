//! Places where a port goes wrong.

/// Each in short; a case names the places that it tells by their numbers,
/// from 1. Those from 59 on are of Loops (document 02, K5).
pub const PLACES: [&str; 74] = [
    "Settling refreshes stale gates once, before its checks. A pulse raised by a check leaves gates \
     stale, and a later VarSet is seen through them at once.",
    "Refreshing a gate refreshes all its stale pure sources, the unchosen side of a Select too.",
    "Marking works from a stack: an output's watched readers first, then the readers of its last pure \
     reader.",
    "A gate that is stale already stops the marking; its watchers are in the queue by then.",
    "An input that waits to be checked keeps its place when it is marked again.",
    "`last` is replaced at every check, also when nothing is raised, and by nothing else; there and \
     back between two checks is no change.",
    "A pin is raised when its value changed and is truthy, and is not read again when its unit \
     begins.",
    "A pin may have a source and be called: a call is a step now, a change a unit. A called pin \
     without a source is not watched.",
    "-0.0 equals 0.0: an output keeps the zero it has; pure gates and variables take the new one.",
    "Int 1, Float 1.0 and Bool true are three values.",
    "Edges compare floats, nothing as 0.0: a change may be neither rising nor falling.",
    "A pulse raised again lasts on; rising and falling have their own timers; ended pulses are \
     lowered by gate, then output, before the buffers.",
    "Settling ends because within a tick pulses only rise.",
    "A value buffer: the wait or the zero wait by the truthiness of the new value; the remembered \
     input waits in full, by its own rule, and lands though equal.",
    "An exec buffer never uses the zero wait; several fires due at once are several units.",
    "Waits: nothing, 0 and less are over in the next tick, even one of no length; seconds are \
     narrowed and summed in f32.",
    "A Queue's seconds from an Int are rounded to f64, then to f32.",
    "A Queue counts all its records down and hands out the front one, as the tick opens; events and \
     stimuli set their outputs when their unit begins.",
    "Buffers, then Clocks, then Stopwatches, each by gate, before the time sources are made stale: a \
     Clock sees the last tick's DeltaTime, and this tick's landings.",
    "In a late rank: carried, stimuli, buffers and Queues, Stopwatches, then what the pass raises. \
     Clocks go to the main pass, before what the opening's settling raises.",
    "A Clock: the input's interval unless nothing, else the setting, else 1.0; disabled it keeps its \
     count; the excess is lost.",
    "A Stopwatch: Time is nothing at first; a Limit of 0 or less never expires; Resume after expiry \
     expires again.",
    "What the opening's settling raises goes to the main pass and is never carried.",
    "In the late pass the cursor plays no part; a unit may raise itself again.",
    "A VarSet is seen directly at once, through pure gates after the chain and its forks; a variable \
     is published once, at its first write, though unchanged.",
    "A second send by one gate in a tick is ignored; sends go out in the next tick in order, each to \
     its receivers ascending.",
    "Delivered events come after all ranked late work, each followed by what it sets off.",
    "A Reroute may be called and carry a value; rings of calls are legal.",
    "A call is a step, also when a Union blocks it or a send is ignored; a unit costs none, but one \
     begun by its pin.",
    "Remote calls leave for the forks when found; local ones run in listed order, each to its end.",
    "A Cycle's remainder is never negative, at the largest Counts too; a Float Count loses its \
     fraction.",
    "A stopped record shows what was carried so far: none before the main pass.",
    "A list can be full before any unit begins.",
    "The 1,025th unit does not begin.",
    "Whether a record fits is known when its tick has ended; a stopped tick whose record doesn't fit \
     gives 13.",
    "Areas are zero after every call that isn't refused, over their whole length, and untouched after \
     a refusal.",
    "A stored Float 0.0 is no nothing, and no saved value shows at the start.",
    "Bits that are no number never become a float.",
    "Activations have an identity that the log doesn't show.",
    "Only kinds 6 and 9 and pins are ever carried.",
    "One area of delays holds a Queue and as many exec buffers as there can be.",
    "A read whose result is thrown away refreshes all the same: a full Queue, a second send. Which \
     inputs an operation reads can be seen.",
    "An endless loop of values ends with 12, not 11.",
    "A call's target of -1 is no input.",
    "Stimuli without a tick are refused as 9.",
    "The zero wait of kinds 11 and 13 is asked about and never used.",
    "Every printed line ends with byte 10, the last too.",
    "At the start every watched input waits to be checked, by gate, then input, one without a source \
     too. A first reading is a change, nothing included.",
    "First checks are made in tick 1's opening, behind Clocks and with tick 1's time. What they raise \
     waits for the main pass; what the late pass changes is checked again.",
    "A value buffer whose first reading is nothing is in flight with it.",
    "A record lists what it carried in the order carried, not by rank or gate, and a gate twice that was \
     carried twice. The next late pass begins them by rank, of one rank the first carried first.",
    "What a record lists is what its tick carried, not what came into it, also where no tick follows; a \
     stopped one lists what was carried up to the stop, and none that is pending or late.",
    "The carried units count in a record's length, of a stopped one too; a record that just fills the \
     log's rest fits.",
    "A narrowing changes its number where the f32, as a number, is not the f64: -0.0 and the least f32 \
     stay, what loses a digit, becomes zero or infinite does not.",
    "The tick length counts once in every tick: where no gate is timed, where several are, and where the \
     tick stops before it is used.",
    "A wait counts each time that it is started, kept or not: an input while a value is in flight and \
     again after the landing, a dropped record, the fire that is one too many, a first reading.",
    "Only the wait that is chosen counts. Waits in ticks, intervals, limits, sums in f32 and Ints that \
     become f64s narrow nothing.",
    "The count begins anew in every tick. A stopped record has what was counted up to the stop: what is \
     not done after a full list does not count.",
    "A gate's rank is its word without the body. Units go by rank, whatever their bodies, and are carried by \
     rank alone.",
    "Count, FirstIndex and Step are read once, before the first run, all three also where none is made: \
     nothing is 0, 0 and 1, a Float loses its fraction. Count may be 2^63 - 1.",
    "Index is the first plus done times step, wrapping at 64 bits.",
    "Index and what a Loop shows are marked only where they change.",
    "A Loop's runs stand in the chain that called it, which waits. Firing Body is no step. After the last run \
     IterationsExecuted, bAborted and bRunning are shown, in this order, then Completed is fired.",
    "A Break ends the innermost Loop that runs, after its run, which counts and goes on to its end. One asked \
     for around an inner Loop survives it; outside any Loop it ends nothing.",
    "A Union passes once in each run of the body that runs, and the runs around keep theirs; where a fork or a \
     unit reaches it, once a tick.",
    "Remote calls that a body finds join the unit's forks, and run outside bodies when its whole chain has \
     ended.",
    "One chain stack of 256 calls for the chain and all bodies that run in it, tested at the calls of Body too; \
     one list of 256 forks.",
    "100,000 runs of bodies in a tick, over all Loops: the next aborts its Loop, before Index is set, and \
     Completed is fired. A Loop that makes no run is not aborted.",
    "Inside is where the chain is, not where the gate lies: a fork of a body, and a gate of a body that begins \
     as a unit, write outside. One write outside by the unit is enough.",
    "What reads a Var that a unit of the main pass wrote only inside is put off, whatever its rank, in the order \
     raised: ChangeDetectors and true pins, nothing else, and nothing in the late pass.",
    "An input loses its mark when it is checked, whatever comes of it.",
    "Marking for what is put off stops at a gate that is stale already, and reaches an input that waits already.",
    "Carried by rank or put off, the list is one, of 256.",
    "Question 19: both ends of a call in one body, every body a Loop's, one entry for each Loop, in its body, \
     and no ring of bodies.",
];

/// Places that no circuit can tell, and how they are held.
pub const HELD_OTHERWISE: [(u8, &str); 4] = [
    (36, "The oracle has no areas: the definition of the answer says it, and the contract of `run`."),
    (38, "Held by questions 2 and 9, whose circuits try them, and by total definitions on bits."),
    (39, "Held by the definition, which numbers them."),
    (47, "Held by the test of the printed lines."),
];
