"""The reference interpreter, changed so that it prints what is in the variables of all open calls when a run ends with
an error.

It can't do that by itself: its calls and their environments are gone by the time that the end is reported. So a copy of
it is changed here, each change a text that occurs once in a file and its replacement, and `rt try` compiles it with the
program of runs_ends/.
"""

import os, shutil, subprocess, sys

HERE = os.path.dirname(os.path.abspath(__file__))
TOP = os.path.dirname(os.path.dirname(HERE))
CRATES = "ps_text ps_scan ps_parse ps_check ps_tree ps_meaning_runner"

# what an open call leaves behind, innermost first: a line `frame ROUTINE`, and one for each entry of its frame
LEAVE = """
impl<'a> World<'a> {
    fn leave_number(&mut self, number: u64) {
        let alloc = self.alloc;
        if let Ok(told) = format!(in alloc; "{number}") {
            let _ = self.left.push_str(told.as_str());
        }
    }

    fn leave_value(&mut self, value: &Value) {
        let alloc = self.alloc;
        match value {
            Value::Ordinal(number) => {
                let number = *number;
                if let Ok(told) = format!(in alloc; "{number}") {
                    let _ = self.left.push_str(told.as_str());
                }
            }
            Value::Nil => {
                let _ = self.left.push_str("nil");
            }
            Value::Object(object) => {
                let _ = self.left.push_str("@");
                self.leave_number(*object as u64);
            }
            Value::Set(members) => {
                let _ = self.left.push_str("{ ");
                for (number, member) in members.iter().enumerate() {
                    if *member {
                        self.leave_number(number as u64);
                        let _ = self.left.push_str(" ");
                    }
                }
                let _ = self.left.push_str("}");
            }
            Value::Structure(parts) => {
                let _ = self.left.push_str("[ ");
                for part in parts.iter() {
                    self.leave_value(part);
                    let _ = self.left.push_str(" ");
                }
                let _ = self.left.push_str("]");
            }
        }
    }

    fn leave_entry(&mut self, entry: &Entry) {
        let alloc = self.alloc;
        match entry {
            Entry::Variable(spot) => {
                if let Ok(value) = self.contents(alloc, spot) {
                    self.leave_value(&value);
                }
            }
            Entry::Routine { routine, .. } => {
                let _ = self.left.push_str("routine ");
                self.leave_number(u64::from(*routine));
            }
        }
        let _ = self.left.push_str("\\n");
    }

    pub fn leave(&mut self, c: &Context) {
        let _ = self.left.push_str("frame ");
        if let Numbers::Number { first, .. } = &*c.active {
            self.leave_number(u64::from(*first));
        }
        let _ = self.left.push_str("\\n");
        if let Env::Within { frame, .. } = &*c.env {
            for entry in frame.iter() {
                self.leave_entry(entry);
            }
        }
    }

    pub fn leave_objects(&mut self) {
        let alloc = self.alloc;
        for number in 0..self.objects.len() {
            let _ = self.left.push_str("object ");
            self.leave_number(number as u64);
            let _ = self.left.push_str(" ");
            let spot = Spot::entire(alloc, Root::Made(number));
            if let Ok(value) = self.contents(alloc, &spot) {
                self.leave_value(&value);
            }
            let _ = self.left.push_str("\\n");
        }
    }
}
"""

EDITS = [
    (
        "world.rt",
        "    pub transcript: Vec<u16>,\n}",
        "    pub transcript: Vec<u16>,\n    pub alloc: Global,\n    pub left: String,\n}",
    ),
    (
        "world.rt",
        "impl Numbers {\n    /// The numbers, in a list.",
        LEAVE + "\nimpl Numbers {\n    /// The numbers, in a list.",
    ),
    (
        "run.rt",
        "        transcript: Vec::new(alloc),\n    }",
        "        transcript: Vec::new(alloc),\n        alloc,\n        left: String::new(alloc),\n    }",
    ),
    ("run.rt", "    pub calls: Vec<u32>,\n}", "    pub calls: Vec<u32>,\n    pub left: String,\n}"),
    ("run.rt", "    do_block(world, body, here)\n}",
     "    let done = do_block(world, body, here);\n    if let Err(Halt::Ended { .. }) = &done {\n"
     "        world.leave(&inner);\n        world.leave_objects();\n    }\n    done\n}"),
    ("run.rt", "            calls: Vec::new(job.alloc),\n        }),",
     "            calls: Vec::new(job.alloc),\n            left: String::new(job.alloc),\n        }),"),
    (
        "run.rt",
        "            ending,\n            calls,\n        }),",
        "            ending,\n            calls,\n            left: world.left,\n        }),",
    ),
    ("calls.rt", "    do_block(world, body, inside)\n}",
     "    let done = do_block(world, body, inside);\n    if let Err(Halt::Ended { .. }) = &done {\n        "
     "world.leave(&inner);\n    }\n    done\n}"),
    ("calls.rt", "    do_block(world, body, inside)?;\n",
     "    let done = do_block(world, body, inside);\n    if let Err(Halt::Ended { .. }) = &done {\n        "
     "world.leave(&inner);\n    }\n    done?;\n"),
]


def edit(crate: str) -> None:
    """Makes the changes in a copy of the interpreter."""
    for name, old, new in EDITS:
        path = f"{crate}/src/{name}"
        text = open(path, encoding="utf-8").read()
        if text.count(old) != 1:
            sys.exit(f"{name}: {text.count(old)} times: {old}")
        open(path, "w", encoding="utf-8").write(text.replace(old, new))


def make_room(folder: str) -> str:
    """A copy of the tree with the changed interpreter and the program, whose folder is given."""
    room = f"{folder}/room"
    shutil.copytree(f"{TOP}/crates", f"{room}/crates", ignore=shutil.ignore_patterns("out"))
    for file in ("crates.txt", "HANDLES"):
        shutil.copy(f"{TOP}/{file}", room)
    with open(f"{room}/crates.txt", "a", encoding="utf-8") as file:
        file.write(f"runs_ends: {CRATES}\n")
    edit(f"{room}/crates/ps_meaning_runner")
    crate = f"{room}/crates/runs_ends"
    os.makedirs(f"{crate}/src")
    shutil.copy(f"{HERE}/runs_ends/main.rt.txt", f"{crate}/src/main.rt")
    return crate


def tried(folder: str, inputs: list) -> list:
    """What the program writes on each of these inputs, as `rt try` runs it."""
    cases = f"{folder}/cases"
    os.makedirs(cases)
    for number, given in enumerate(inputs):
        with open(f"{cases}/{number:06}", "wb") as file:
            file.write(given)
    words = ["rt", "try", "--steps", "1", "--seconds", "120", "--cases", cases]
    ran = subprocess.run(words, cwd=make_room(folder), stdout=subprocess.PIPE)
    found = {}
    for block in (b"\n" + ran.stdout).split(b"\n== ")[1:]:
        head, _, body = block.partition(b"\n")
        found[head.split()[0].decode()] = body + b"\n"
    return [found.get(f"{number:06}", b"") for number in range(len(inputs))]


def answers(folder: str, program: str, inputs: list) -> list:
    """The same by the compiled program at a path, or by `rt try` if there is no path."""
    if not program:
        return tried(folder, inputs)
    return [subprocess.run([program], input=given, stdout=subprocess.PIPE).stdout for given in inputs]
