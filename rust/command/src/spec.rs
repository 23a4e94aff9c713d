//! The commands and their options, once: the calls are read, the help, the man page and the completions are made by it.

/// An option. Without a value's name it takes none.
pub struct OptionSpec {
    pub name: &'static str,
    pub value: &'static str,
    pub about: &'static str,
    /// Whether it may be given again.
    pub again: bool,
}

pub struct CommandSpec {
    pub name: &'static str,
    /// Its files, as in a usage line.
    pub files: &'static str,
    pub brief: &'static str,
    pub about: &'static str,
    pub options: &'static [&'static OptionSpec],
}

impl CommandSpec {
    pub fn option(&self, name: &str) -> Option<&'static OptionSpec> {
        self.options.iter().copied().find(|option| option.name == name)
    }
}

const fn option(name: &'static str, value: &'static str, about: &'static str) -> OptionSpec {
    OptionSpec { name, value, about, again: false }
}

const POINT: OptionSpec = option("--point", "P", "the point to ask at, the first is 0; the last one if not given");
const RULE: OptionSpec = option("--rule", "NAME", "the rule or number to ask, by its name; the last one if not given");
const NODE: OptionSpec = option("--node", "N", "the node to ask, by its number");
const BIND: OptionSpec = OptionSpec {
    name: "--bind",
    value: "v=X",
    about: "start with variable v bound to X; given again for others. X is a value of the case as in a text, such as \
            7, \"b1\", true, User::\"ann\" or decimal \"1.50\"; a plain word is a string; value:12 and string:3 are the \
            case's value 12 and string 3",
    again: true,
};
const LOOSE: OptionSpec =
    option("--loose", "", "ask even where a variable is left unbound, whatever that gives by document 01");
const FOR: OptionSpec = option("--for", "x,y", "the variables to list; all that the rule leaves free if not given");
const STEPS: OptionSpec = option("--steps", "N", "the most steps to spend: 1000000 if not given, at most 1000000000");
const ROOM: OptionSpec = option("--room", "N", "the most rows to hold: 256 if not given, at most 16384");
const STRICT: OptionSpec = option("--strict", "", "take warnings for errors: status 2");
const SCHEMA: OptionSpec =
    option("--schema", "FILE", "the actions with their fields and types; what does not fit it is an error");
const JSON: OptionSpec = option("--json", "", "one line of JSON in place of words, errors too");
const QUIET: OptionSpec = option("--quiet", "", "no words and no warnings: the status tells; errors are told");
const SVG: OptionSpec = option(
    "--svg",
    "FILE",
    "draw the timeline there, as a picture in SVG; - is standard output, in place of the words",
);
const LOG: OptionSpec = option(
    "--log",
    "LOG",
    "take the points from this JSON log, an event a line, and the rules from FILE, a text without points; - is standard \
     input",
);
const OUTPUT: OptionSpec = option("-o", "FILE", "write there in place of standard output");

pub const COMMANDS: [CommandSpec; 11] = [
    CommandSpec {
        name: "check",
        files: "FILE",
        brief: "is the file a sound case?",
        about: "Says what the case holds, or which rule of the case file it breaks: refusals 1 to 6. Warns of names in \
                its rules that its log never has, of comparisons that can never hold and of times that fall.",
        options: &[&LOG, &SCHEMA, &STRICT, &JSON, &QUIET],
    },
    CommandSpec {
        name: "ask",
        files: "FILE",
        brief: "does a rule hold at a point? what is a number?",
        about: "Asks one rule at one point. A condition is answered yes (status 0) or no (status 1), a count or sum with \
                its number (status 0); behind it stand the steps and rows that it took. A rule with parameters is asked \
                with all of them bound.",
        options: &[&LOG, &POINT, &RULE, &NODE, &BIND, &LOOSE, &STEPS, &ROOM, &SCHEMA, &STRICT, &JSON, &QUIET],
    },
    CommandSpec {
        name: "why",
        files: "FILE",
        brief: "which past event carried the yes?",
        about: "Says yes (status 0) or no (status 1) as `ask` does, and shows what decided it: for formerly, previous and \
                since a timeline, with the event that carried the yes, those at which left held or failed, and the \
                window; for and, or, not and exists each part that decided. Marks: * carried the yes, ! held in vain, x \
                failed, | in the window, . outside, : a folded stretch. The limits hold for each single question at one \
                point.",
        options: &[&LOG, &POINT, &RULE, &NODE, &BIND, &LOOSE, &STEPS, &ROOM, &SVG, &SCHEMA, &STRICT, &JSON, &QUIET],
    },
    CommandSpec {
        name: "rows",
        files: "FILE",
        brief: "what does a rule find at a point?",
        about: "Lists what a rule finds at a point: a line for each way in which its parameters can be bound. Status 0 if \
                there is one, 1 if there is none.",
        options: &[&LOG, &POINT, &RULE, &NODE, &BIND, &FOR, &LOOSE, &STEPS, &ROOM, &SCHEMA, &STRICT, &JSON, &QUIET],
    },
    CommandSpec {
        name: "bench",
        files: "FILE",
        brief: "ask the last rule at every point",
        about: "Asks the last rule at every point, with 1000000 steps and 256 rows for each, and prints a line for each: \
                point, verdict or number, steps, rows held. Case files of at most 65536 bytes; with --log any case.",
        options: &[&LOG, &LOOSE, &JSON, &QUIET],
    },
    CommandSpec {
        name: "pack",
        files: "TEXT CASE",
        brief: "write the case file of a text",
        about: "Writes the case file of a text, and lists the node number of everything that is named. The names go to \
                CASE.names beside it, bound to it by its SHA-256. With - for CASE the case file goes to standard output, \
                without names, and nothing is listed.",
        options: &[&SCHEMA, &STRICT, &JSON, &QUIET],
    },
    CommandSpec {
        name: "text",
        files: "FILE",
        brief: "print a case as text",
        about: "Prints a case as text that packs to the same bytes, with the names that it was packed with; without them, \
                variables are x0, x1 and rules r12 for node 12. A rule's free variables are its parameters; one whose \
                variables are bound in no order is loose.",
        options: &[&OUTPUT, &JSON],
    },
    CommandSpec {
        name: "import",
        files: "LOG",
        brief: "write the case file of a JSON log",
        about: "Writes the case file of a JSON log: a point for each line, and no rules (docs/JSON-LOGS.md). A line that is \
                no event is refused by number, 20 to 24, with its place, and nothing is written. With -o - the case file \
                goes to standard output. To ask rules of a log in one go, use --log with ask, why, rows, bench or check.",
        options: &[&OUTPUT, &JSON, &QUIET],
    },
    CommandSpec {
        name: "export",
        files: "FILE",
        brief: "print a case's points as a JSON log",
        about: "Prints the points of a case as a JSON log, a line for each; imported again they are the same points. Rules \
                are left out. Refused 25 is a case with an object whose only member is named __entity or __extn: it would \
                be read as an entity or a decimal.",
        options: &[&OUTPUT, &JSON],
    },
    CommandSpec {
        name: "completions",
        files: "SHELL",
        brief: "print completions for a shell",
        about: "Prints what a shell needs to complete this command: bash, zsh or fish. For bash: source <(galivodern \
                completions bash).",
        options: &[&OUTPUT],
    },
    CommandSpec {
        name: "man",
        files: "",
        brief: "print the manual page",
        about: "Prints the manual page, to be kept as galivodern.1: galivodern man | man -l -.",
        options: &[&OUTPUT],
    },
];

pub fn command(name: &str) -> Option<&'static CommandSpec> {
    COMMANDS.iter().find(|command| command.name == name)
}
