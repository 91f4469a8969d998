//! The commands of pages that the test of the pages does not run, each with the reason.

pub const UNRUN: [(&str, &str); 3] = [
    ("bash .ci/run", "it is the gate, which runs this test"),
    ("rt tidy", "it writes into the sources"),
    ("rt prove", "it is a command of the kit that the figures were measured with"),
];

pub fn reason(command: &str) -> Option<&'static str> {
    let found = UNRUN.iter().find(|(unrun, _)| *unrun == command);
    found.map(|(_, reason)| *reason)
}
